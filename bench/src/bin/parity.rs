//! Parity in two forms, each in a loop of its own behind the C boundary: alike on all 512 nine-bit words, and how long each takes over many.

use std::hint::black_box;
use std::time::{Duration, Instant};

extern "C" {
    fn odd_by_count(words: *const u16, length: usize) -> usize;
    fn odd_by_table(words: *const u16, length: usize) -> usize;
}

type Form = unsafe extern "C" fn(*const u16, usize) -> usize;

/// How many of the words have an odd number of ones.
fn odd(form: Form, words: &[u16]) -> usize {
    // SAFETY: a slice is a valid pointer and its length, and both forms only read it.
    unsafe { form(words.as_ptr(), words.len()) }
}

/// The shortest of some runs, the two forms in turns.
fn times(words: &[u16], runs: usize) -> [Duration; 2] {
    let forms: [Form; 2] = [odd_by_count, odd_by_table];
    let mut best = [Duration::MAX; 2];
    for _ in 0..runs {
        for (form, best) in forms.iter().zip(&mut best) {
            let start = Instant::now();
            black_box(odd(*form, black_box(words)));
            *best = start.elapsed().min(*best);
        }
    }
    best
}

fn main() {
    let mut alike = 0;
    for word in 0..512u16 {
        let right = word.count_ones() as usize % 2;
        assert!(odd(odd_by_count, &[word]) == right && odd(odd_by_table, &[word]) == right, "word {word:03X}");
        alike += 1;
    }
    println!("alike on {alike} words");
    let mut seed = 1u32;
    let words: Vec<u16> = (0..1 << 20)
        .map(|_| {
            seed = seed.wrapping_mul(1664525).wrapping_add(1013904223);
            (seed >> 16) as u16 & 0x1FF
        })
        .collect();
    assert_eq!(odd(odd_by_count, &words), odd(odd_by_table, &words));
    let [count, table] = times(&words, 200);
    let each = |t: Duration| t.as_secs_f64() * 1e9 / words.len() as f64;
    println!("parity by counting: {:.2} ns, by the table: {:.2} ns", each(count), each(table));
}
