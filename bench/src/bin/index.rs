//! Times the looking up of records in a trace of a million, with its marks and with none, and the building and extending of the marks.

use std::hint::black_box;
use std::time::Instant;

const RECORDS: u64 = 1_000_000;
const LOOKUPS: u64 = 1_000;

/// Resets, holds and reads of SCSR by turns.
fn trace() -> Vec<u8> {
    let mut bytes = Vec::new();
    for n in 0..RECORDS {
        match n % 5 {
            0 => bytes.push(1),
            1 | 2 => bytes.extend([2, 0xFF, 1, 0, 16]),
            _ => bytes.extend([3, 0x82, 0, 0x0C]),
        }
    }
    bytes
}

/// Microseconds of a call, the best of some.
fn best(turns: usize, mut call: impl FnMut()) -> f64 {
    (0..turns).fold(f64::INFINITY, |least, _| {
        let start = Instant::now();
        call();
        least.min(start.elapsed().as_secs_f64() * 1e6)
    })
}

fn main() {
    let trace = trace();
    let mut marks = vec![0u64; 2 * 4096];
    let built = qsm::index_build(&trace, &mut marks);
    assert_eq!((built.refusal, built.records), (0, RECORDS));
    let build = best(5, || {
        black_box(qsm::index_build(black_box(&trace), &mut marks));
    });
    let extend = best(5, || {
        black_box(qsm::index_extend(black_box(&trace), &mut marks, built.marks));
    });
    let mut most = 0;
    let find = best(5, || {
        for i in 0..LOOKUPS {
            let f = qsm::index_find(black_box(&trace), &marks, built.marks, i * 999 + 7);
            most = most.max(f.walked);
        }
    }) / LOOKUPS as f64;
    let walk = best(5, || {
        black_box(qsm::index_find(black_box(&trace), &[], 0, RECORDS - 1));
    });
    println!("{} records, {} bytes, {} marks", RECORDS, trace.len(), built.marks);
    println!("build {build:.0} us, extend by nothing {extend:.1} us");
    println!("find with the marks {find:.2} us on average, at most {most} records walked");
    println!("find the last record with no marks {walk:.0} us");
}
