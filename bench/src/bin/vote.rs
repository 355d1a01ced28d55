//! The vote over three samples in two forms, each in a loop of its own behind the C boundary: alike on all eight triples, and how long each
//! takes over many.

use std::hint::black_box;
use std::time::{Duration, Instant};

extern "C" {
    fn vote_by_pairs(triples: *const u8, length: usize) -> u64;
    fn vote_by_count(triples: *const u8, length: usize) -> u64;
}

type Form = unsafe extern "C" fn(*const u8, usize) -> u64;

/// The sum over triples of the bit and twice the samples that disagreed.
fn sum(form: Form, triples: &[u8]) -> u64 {
    // SAFETY: a slice is a valid pointer and its length, and both forms only read it.
    unsafe { form(triples.as_ptr(), triples.len()) }
}

/// The same by counting ones.
fn counted(triple: u8) -> u64 {
    let ones = triple.count_ones();
    u64::from(ones >= 2) + 2 * u64::from(ones == 1 || ones == 2)
}

/// The shortest of some runs, the two forms in turns.
fn times(triples: &[u8], runs: usize) -> [Duration; 2] {
    let forms: [Form; 2] = [vote_by_pairs, vote_by_count];
    let mut best = [Duration::MAX; 2];
    for _ in 0..runs {
        for (form, best) in forms.iter().zip(&mut best) {
            let start = Instant::now();
            black_box(sum(*form, black_box(triples)));
            *best = start.elapsed().min(*best);
        }
    }
    best
}

fn main() {
    for triple in 0..8 {
        let before = sum(vote_by_pairs, &[triple]);
        let now = sum(vote_by_count, &[triple]);
        println!("triple {triple:03b}: by pairs {before}, by count {now}");
        assert!(before == now && now == counted(triple));
    }
    let mut seed = 1u32;
    let triples: Vec<u8> = (0..1 << 20)
        .map(|_| {
            seed = seed.wrapping_mul(1664525).wrapping_add(1013904223);
            (seed >> 24) as u8 & 7
        })
        .collect();
    assert_eq!(sum(vote_by_pairs, &triples), sum(vote_by_count, &triples));
    let [before, now] = times(&triples, 200);
    let each = |t: Duration| t.as_secs_f64() * 1e9 / triples.len() as f64;
    println!("a vote by pairs: {:.2} ns, by count: {:.2} ns", each(before), each(now));
}
