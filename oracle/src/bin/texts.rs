//! The texts of docs/PERFORMANCE.md, 'UTF-8': `is_utf8` (port) beside std::str::from_utf8 (std), one call a text. texts: bytes in a ns and port/std.
//! texts count KIND LEN SIDE N: N calls and nothing else, for callgrind; KIND is 0 (ASCII), 2, 16 or 256, SIDE is port, std or none.
use oracle::streams::Dice;
use oracle::timing::{load, medians, report, rounds, Contender};
use std::hint::black_box;

#[link(name = "speed_leaves", kind = "static")]
extern "C" {
    fn speed_leaves_is_utf8(s: *const u8, len: usize) -> bool;
}

#[inline(always)]
fn port(s: &[u8]) -> bool {
    unsafe { speed_leaves_is_utf8(s.as_ptr(), s.len()) }
}

#[inline(never)]
fn std_utf8(s: &[u8]) -> bool {
    std::str::from_utf8(s).is_ok()
}

#[inline(never)]
fn none(s: &[u8]) -> bool {
    black_box(s.len()) > 0
}

/// One text of `len` bytes: one character in `every` is not ASCII, or with 256 an é at the end of every 256 bytes (or of the text).
fn text(len: usize, every: u64, dice: &mut Dice) -> Vec<u8> {
    let other: Vec<char> = "äößéñλΩжя€日本語한𝄞😀".chars().collect();
    let mut out = String::new();
    while out.len() < len {
        let here = out.len();
        let c = match every {
            256 if here % 256 == 254 || here + 2 == len => 'é',
            2 | 16 if dice.below(every) == 0 => other[dice.below(other.len() as u64) as usize],
            _ => (b' ' + dice.below(95) as u8) as char,
        };
        out.push(if here + c.len_utf8() <= len { c } else { '.' });
    }
    out.into_bytes()
}

/// Texts one behind the other: of mixed text twenty and more that differ, each with a character that is not ASCII.
fn all(len: usize, every: u64) -> Vec<u8> {
    let mut dice = Dice::new(5 + len as u64);
    let different = if every == 0 || len >= 1024 { 1 } else { 20 };
    let mut one = vec![];
    while one.len() < different * len {
        let t = text(len, every, &mut dice);
        if every == 0 || !t.is_ascii() {
            one.extend(t);
        }
    }
    one.repeat((16384 / one.len()).max(1))
}

/// How many of the texts of `len` bytes are UTF-8.
#[inline(always)]
fn passed(s: &[u8], len: usize, is_utf8: impl Fn(&[u8]) -> bool) -> u64 {
    s.chunks_exact(len).filter(|t| is_utf8(t)).count() as u64
}

const NAMES: [(u64, &str); 4] = [(0, "ASCII"), (16, "one in 16 not ASCII"), (2, "one in 2 not ASCII"), (256, "one in 256 not ASCII")];

fn lengths(every: u64) -> &'static [usize] {
    match every {
        0 => &[1, 4, 7, 8, 12, 15, 16, 17, 24, 32, 33, 48, 64, 65, 100, 128, 129, 200, 256, 1024, 65536],
        16 => &[4, 8, 12, 15, 16, 24, 32, 64, 100, 200, 1024, 65536],
        2 => &[2, 4, 6, 8, 12, 15, 16, 24, 32, 64, 100, 1024, 65536],
        _ => &[128, 256, 1024, 65536],
    }
}

fn time() {
    println!("UTF-8: bytes in a ns; load {}; medians of {} rounds", load(), rounds());
    for (every, name) in NAMES {
        for &len in lengths(every) {
            let s = all(len, every);
            let s = &s[..];
            let mut both: [Contender; 2] =
                [("port", Box::new(|| passed(black_box(s), len, port))), ("std", Box::new(|| passed(black_box(s), len, std_utf8)))];
            let ns = medians(rounds(), &mut both);
            report(&format!("{name}, {len} bytes"), &both, &ns, |t| s.len() as f64 / t);
        }
    }
}

fn count(every: u64, len: usize, side: &str, n: usize) {
    let s = all(len, every);
    let texts: Vec<&[u8]> = s.chunks_exact(len).collect();
    let test = match side {
        "port" => port,
        "std" => std_utf8,
        _ => none,
    };
    let good = (0..n).filter(|i| test(black_box(texts[i % texts.len()]))).count();
    assert_eq!(good, n);
}

fn main() {
    let args: Vec<String> = std::env::args().skip(1).collect();
    match args.first().map(String::as_str) {
        Some("count") => count(args[1].parse().unwrap(), args[2].parse().unwrap(), &args[3], args[4].parse().unwrap()),
        _ => time(),
    }
}
