//! The loops of `var_length::length` and `utf8::is_utf8` in Rust, line by line, so that the two compilers can be compared.

/// The index after the variable length number at `at`, whose value is stored; 0 if there is none.
#[inline(always)]
pub fn length(s: &[u8], at: usize, out: &mut u32) -> usize {
    let mut value: u32 = 0;
    let mut unit: u32 = 1;
    let mut next = at;
    loop {
        if s.len() <= next {
            return 0;
        }
        let b = s[next] as u32;
        next += 1;
        if b < 128 {
            let n = value + b * unit;
            if next - at > 1 && n < unit {
                return 0;
            }
            *out = n;
            return next;
        }
        if 4 <= next - at {
            return 0;
        }
        value += (b - 128) * unit;
        unit *= 128;
    }
}

fn begin(b: u8) -> Option<(usize, u8, u8)> {
    Some(match b {
        0x01..=0x7F => (0, 0x80, 0xBF),
        0xC2..=0xDF => (1, 0x80, 0xBF),
        0xE0 => (2, 0xA0, 0xBF),
        0xE1..=0xEC => (2, 0x80, 0xBF),
        0xED => (2, 0x80, 0x9F),
        0xEE..=0xEF => (2, 0x80, 0xBF),
        0xF0 => (3, 0x90, 0xBF),
        0xF1..=0xF3 => (3, 0x80, 0xBF),
        0xF4 => (3, 0x80, 0x8F),
        0 | 0x80..=0xC1 | 0xF5..=0xFF => return None,
    })
}

fn follows(s: &[u8], at: usize, n: usize, low: u8, high: u8) -> bool {
    if s.len() - at < n {
        return false;
    }
    let (mut lo, mut hi) = (low, high);
    for i in 0..n {
        let b = s[at + i];
        if b < lo || hi < b {
            return false;
        }
        lo = 0x80;
        hi = 0xBF;
    }
    true
}

fn pass_chars(s: &[u8], at: usize, end: usize) -> usize {
    let mut i = at;
    while i < end {
        match begin(s[i]) {
            Some((n, low, high)) if follows(s, i + 1, n, low, high) => i += 1 + n,
            _ => return at,
        }
    }
    i
}

fn flaw(b: u8) -> u8 {
    if b.wrapping_sub(1) < 127 {
        return 0;
    }
    128
}

fn is_ascii(s: &[u8]) -> bool {
    s.iter().fold(0, |all, b| all | flaw(*b)) < 128
}

fn is_two_chunks(s: &[u8]) -> bool {
    let end = s.len();
    if end < 8 {
        return false;
    }
    if end < 16 {
        return is_ascii(&s[..8]) && is_ascii(&s[end - 8..]);
    }
    end <= 32 && is_ascii(&s[..16]) && is_ascii(&s[end - 16..])
}

fn pass_ascii(s: &[u8]) -> usize {
    let mut i = 0;
    while 64 <= s.len() - i {
        if !is_ascii(&s[i..i + 64]) {
            return i;
        }
        i += 64;
    }
    i
}

fn pass_chunk(s: &[u8], at: usize) -> usize {
    let left = s.len() - at;
    if 64 <= left && is_ascii(&s[at..at + 64]) {
        return at + 64;
    }
    if 16 <= left {
        if is_ascii(&s[at..at + 16]) {
            return at + 16;
        }
        return pass_chars(s, at, at + 16);
    }
    let end = s.len();
    if 16 <= end && is_ascii(&s[end - 16..]) {
        return end;
    }
    pass_chars(s, at, end)
}

/// Is `s` well-formed UTF-8 without U+0000?
#[inline(never)]
pub fn is_utf8(s: &[u8]) -> bool {
    if s.len() < 8 && s.iter().all(|b| flaw(*b) < 128) {
        return true;
    }
    if is_two_chunks(s) {
        return true;
    }
    let mut i = pass_ascii(s);
    while i < s.len() {
        let next = pass_chunk(s, i);
        if next == i {
            return false;
        }
        i = next;
    }
    true
}
