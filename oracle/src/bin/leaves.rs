//! ns for a variable length number, and bytes of UTF-8 in a ns: the leaves (port), the same loops in Rust (same), the crate's `length`
//! (crate) and std::str::from_utf8 (std), the same with a search for 0 (std0), the hand-written reader's (hand), over the same bytes. One call
//! a number or a text on every side.
use oracle::timing::{load, medians, report, rounds, Contender};
use oracle::{codec, limit, same, streams};
use std::hint::black_box;

/// The static library: a slice is lent as its pointer and its length.
mod port {
    #[link(name = "speed_leaves", kind = "static")]
    extern "C" {
        fn speed_leaves_is_utf8(s: *const u8, len: usize) -> bool;
        fn speed_leaves_length(s: *const u8, len: usize, at: usize, value: *mut u32) -> usize;
        fn speed_leaves_sum(s: *const u8, len: usize) -> u64;
    }
    #[inline(always)]
    pub fn is_utf8(s: &[u8]) -> bool {
        unsafe { speed_leaves_is_utf8(s.as_ptr(), s.len()) }
    }
    #[inline(always)]
    pub fn length(s: &[u8], at: usize, value: &mut u32) -> usize {
        unsafe { speed_leaves_length(s.as_ptr(), s.len(), at, value) }
    }
    #[inline(always)]
    pub fn sum(s: &[u8]) -> u64 {
        unsafe { speed_leaves_sum(s.as_ptr(), s.len()) }
    }
}

#[inline(always)]
fn crate_inlined(s: &[u8], at: usize, value: &mut u32) -> usize {
    match codec::length(s[at..].iter()) {
        Ok((count, n)) => {
            *value = n as u32;
            at + count
        }
        Err(_) => 0,
    }
}

#[inline(always)]
fn hand_inlined(s: &[u8], at: usize, value: &mut u32) -> usize {
    match limit::var(&s[at..]) {
        Ok((n, count)) => {
            *value = n;
            at + count
        }
        Err(_) => 0,
    }
}

#[inline(never)]
fn same_length(s: &[u8], at: usize, value: &mut u32) -> usize {
    same::length(s, at, value)
}

#[inline(never)]
fn crate_length(s: &[u8], at: usize, value: &mut u32) -> usize {
    crate_inlined(s, at, value)
}

#[inline(never)]
fn hand_length(s: &[u8], at: usize, value: &mut u32) -> usize {
    hand_inlined(s, at, value)
}

/// The sum of the numbers that fill s.
#[inline(always)]
fn sum(s: &[u8], length: impl Fn(&[u8], usize, &mut u32) -> usize) -> u64 {
    let (mut sum, mut at) = (0u64, 0);
    while at < s.len() {
        let mut value = 0;
        at = length(s, at, &mut value);
        if at == 0 {
            return 0;
        }
        sum = sum.wrapping_add(value as u64);
    }
    sum
}

fn numbers(what: &str, count: usize, s: &[u8]) {
    let per = |t: f64| t / count as f64;
    let mut each: [Contender; 4] = [
        ("port", Box::new(|| sum(black_box(s), port::length))),
        ("same", Box::new(|| sum(black_box(s), same_length))),
        ("crate", Box::new(|| sum(black_box(s), crate_length))),
        ("hand", Box::new(|| sum(black_box(s), hand_length))),
    ];
    let ns = medians(rounds(), &mut each);
    report(&format!("{what}, one call each"), &each, &ns, per);
    let mut run: [Contender; 4] = [
        ("port", Box::new(|| port::sum(black_box(s)))),
        ("same", Box::new(|| sum(black_box(s), same::length))),
        ("crate", Box::new(|| sum(black_box(s), crate_inlined))),
        ("hand", Box::new(|| sum(black_box(s), hand_inlined))),
    ];
    let ns = medians(rounds(), &mut run);
    report(&format!("{what}, the run in one call"), &run, &ns, per);
}

#[inline(never)]
fn std_utf8(s: &[u8]) -> bool {
    std::str::from_utf8(s).is_ok()
}

/// 02's P9 by std: well-formed, and no U+0000.
#[inline(never)]
fn std_no_zero(s: &[u8]) -> bool {
    std::str::from_utf8(s).is_ok() && !s.contains(&0)
}

/// How many of the texts of `len` bytes, one behind the other, are UTF-8.
#[inline(always)]
fn texts(s: &[u8], len: usize, is_utf8: impl Fn(&[u8]) -> bool) -> u64 {
    s.chunks_exact(len).filter(|t| is_utf8(t)).count() as u64
}

fn utf8(what: &str, len: usize, every: u64) {
    let count = (16384 / len).max(1);
    let s: Vec<u8> = streams::text(len, every).repeat(count);
    assert_eq!(texts(&s, len, std_utf8), count as u64);
    let s = &s[..];
    let mut all: [Contender; 5] = [
        ("port", Box::new(|| texts(black_box(s), len, port::is_utf8))),
        ("std0", Box::new(|| texts(black_box(s), len, std_no_zero))),
        ("std", Box::new(|| texts(black_box(s), len, std_utf8))),
        ("same", Box::new(|| texts(black_box(s), len, same::is_utf8))),
        ("hand", Box::new(|| texts(black_box(s), len, limit::plain_utf8))),
    ];
    let ns = medians(rounds(), &mut all);
    report(&format!("{what}, {len} bytes"), &all, &ns, |t| s.len() as f64 / t);
}

fn main() {
    println!("load {}; medians of {} rounds", load(), rounds());
    println!("variable length numbers: ns for one");
    let count = 16384;
    numbers("1 byte", count, &streams::numbers(count, |_, _| 1));
    numbers("1 to 4 bytes, in turn", count, &streams::numbers(count, |i, _| i as u64 % 4 + 1));
    numbers("1 to 4 bytes, at random", count, &streams::numbers(count, |_, dice| dice.below(4) + 1));
    println!("UTF-8: bytes in a ns");
    for len in [4, 8, 16, 24, 32, 64, 100, 1024, 65536] {
        utf8("ASCII", len, 0);
    }
    for len in [16, 64, 1024, 65536] {
        utf8("one character in 16 not ASCII", len, 16);
    }
    for len in [64, 1024, 65536] {
        utf8("one character in 2 not ASCII", len, 2);
    }
    println!("load {}", load());
}
