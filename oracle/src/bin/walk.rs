//! 02's P7, through the C interface: the walk over user properties and the table of a Subscribe's filters, held against a model written from 02
//! over random and damaged frames. The last line reads 'no difference', or the first one is printed and the exit status is 1. See
//! oracle/README.md. walk [--count N] [--seed N]
use oracle::compare::frames::{self, one_in, pick};
use oracle::compare::model::{self, is_text, row, Switches};
use oracle::compare::shape::{place_of, Lists, Place, Span};
use oracle::streams::Dice;
use std::process::exit;

#[link(name = "ecchjulmina", kind = "static")]
extern "C" {
    fn ecch_read(stream: *const u8, stream_len: usize, limited: u8, limit: usize, record: *mut u64, record_len: usize) -> u32;
    fn ecch_next_user(frame: *const u8, frame_len: usize, kind: u8, at: usize, end: usize, item: *mut u64, item_len: usize) -> u32;
    fn ecch_filter_table(stream: *const u8, stream_len: usize, table: *mut u64, table_len: usize, answer: *mut u64, answer_len: usize) -> u32;
}

// ---- the walk, from 02 and the table of properties

/// A user property, and the index after it.
type Pair = (Span, Span);

/// The text at `at` of the bytes before `end`, and the index after it.
fn text(s: &[u8], at: usize, end: usize, utf8: bool) -> Option<(Span, usize)> {
    let two = s[..end].get(at..at + 2)?;
    let len = two[0] as usize * 256 + two[1] as usize;
    let part = s[..end].get(at + 2..at + 2 + len)?;
    (!utf8 || is_text(part, &Switches::of(0))).then_some((Span { start: at + 2, len }, at + 2 + len))
}

/// A subscription identifier is not 0, and is spelled in as few bytes as it can be.
fn identifier(s: &[u8], at: usize, end: usize) -> Option<usize> {
    let n = s[..end].get(at..)?.iter().take(4).position(|b| *b < 128)? + 1;
    let last = s[at + n - 1];
    (last != 0).then_some(at + n)
}

/// The property at `at`: the index after it, and what it is if it is a user property.
fn property(place: Place, s: &[u8], at: usize, end: usize) -> Option<(usize, Option<Pair>)> {
    let k = *s[..end].get(at)?;
    if !row(place).contains(&k) {
        return None;
    }
    let after = |width: usize| (at + 1 + width <= end).then_some((at + 1 + width, None));
    match k {
        1 => after(1),
        35 => after(2),
        2 => after(4),
        11 => identifier(s, at + 1, end).map(|n| (n, None)),
        9 => text(s, at + 1, end, false).map(|(_, n)| (n, None)),
        38 => {
            let (key, n) = text(s, at + 1, end, true)?;
            let (value, n) = text(s, n, end, true)?;
            Some((n, Some((key, value))))
        }
        _ => text(s, at + 1, end, true).map(|(_, n)| (n, None)),
    }
}

/// "yields user properties one after another": the next from `at` on, and where the walk stands then.
fn next(kind: u8, s: &[u8], mut at: usize, end: usize) -> (Option<Pair>, usize) {
    let Some(place) = place_of(kind).filter(|_| end <= s.len()) else { return (None, at) };
    while let Some((n, found)) = property(place, s, at, end) {
        at = n;
        if found.is_some() {
            return (found, at);
        }
    }
    (None, at)
}

/// As the header lays it out.
fn numbers((pair, at): (Option<Pair>, usize)) -> (u32, [u64; 5]) {
    let (number, (k, v)) = pair.map_or((21, Pair::default()), |p| (0, p));
    (number, [at, k.start, k.len, v.start, v.len].map(|n| n as u64))
}

fn port_next(kind: u8, s: &[u8], at: usize, end: usize) -> (u32, [u64; 5]) {
    let mut n = [u64::MAX; 6];
    let number = unsafe { ecch_next_user(s.as_ptr(), s.len(), kind, at, end, n.as_mut_ptr(), 5) };
    if n[5] != u64::MAX {
        differ("ecch_next_user writes behind its layout", s);
    }
    (number, n[..5].try_into().unwrap())
}

fn differ(what: &str, s: &[u8]) -> ! {
    println!("{what}: {s:02X?}");
    exit(1)
}

/// The counts that are told at the end.
#[derive(Default)]
struct Counts {
    accepted: u64,
    pairs: u64,
    filled: u64,
    full: u64,
    others: u64,
    refused: u64,
}

/// "holds the frame and yields user properties one after another"; "the walker yields nothing on a frame the reader refuses": from what ecch_read
/// says, call by call, against the record's list by the model; then nothing for ever.
fn walk(s: &[u8], c: &mut Counts) {
    let (mut r, mut lists) = ([0u64; 44], Lists::default());
    let accepted = model::read(s, None, &Switches::of(0), &mut lists).0.is_ok();
    unsafe { ecch_read(s.as_ptr(), s.len(), 0, 0, r.as_mut_ptr(), r.len()) };
    let (kind, mut at, end) = (r[3] as u8, r[16] as usize, (r[16] + r[17]) as usize);
    for (key, value) in &lists.users {
        let got = port_next(kind, s, at, end);
        at = value.start + value.len;
        if got != numbers((Some((*key, *value)), at)) {
            differ("a user property", s);
        }
        c.pairs += 1;
    }
    // other properties may stand behind the last: the walk ends with the block
    for _ in 0..3 {
        if port_next(kind, s, at, end) != numbers((None, end)) {
            differ("behind the last user property", s);
        }
        at = end;
    }
    c.accepted += accepted as u64;
}

/// Any kind, index and end over any bytes.
fn step(s: &[u8], d: &mut Dice, c: &mut Counts) {
    let n = s.len() as u64;
    let kind = if one_in(d, 4) { d.below(256) as u8 } else { s.first().map_or(3, |b| b >> 4) };
    let end = if one_in(d, 3) { d.below(n + 3) as usize } else { s.len() };
    let mut at = d.below(n + 3) as usize;
    for _ in 0..4 {
        let expected = next(kind, s, at, end);
        if port_next(kind, s, at, end) != numbers(expected) {
            differ(&format!("kind {kind}, from {at}, before {end}"), s);
        }
        c.pairs += expected.0.is_some() as u64;
        at = expected.1;
    }
}

// ---- the table, from 02

/// Number, `answer` and the table afterwards.
fn table(s: &[u8], before: &[u64], c: &mut Counts) -> (u32, [u64; 4], Vec<u64>) {
    let mut lists = Lists::default();
    let mut after = before.to_vec();
    let (answer, taken) = model::read(s, None, &Switches::of(0), &mut lists);
    let taken = taken as u64;
    match answer {
        // "A frame that is not an accepted Subscribe gets the reader's refusal or NotSubscribe, the table untouched"
        Err(no) => {
            c.refused += 1;
            (no.no as u32, [taken, no.a, no.b, 0], after)
        }
        Ok(r) if r.kind != 8 => {
            c.others += 1;
            (38, [taken, 0, 0, 0], after)
        }
        // "If there are more filters than places, answer FilterTableFull with the number needed and leave the table alone; never otherwise"
        Ok(_) if lists.filters.len() > before.len() / 3 => {
            c.full += 1;
            (37, [taken, lists.filters.len() as u64, 0, 0], after)
        }
        // "in order (the text's start in the frame, its length, the options with bits 6-7 clear)"; "Places past the last filter keep what they held"
        Ok(_) => {
            for (i, (path, options)) in lists.filters.iter().enumerate() {
                after[3 * i] = path.start as u64;
                after[3 * i + 1] = path.len as u64;
                after[3 * i + 2] = (options & 0x3F) as u64;
            }
            c.filled += 1;
            (0, [taken, 0, 0, lists.filters.len() as u64], after)
        }
    }
}

fn fill(s: &[u8], d: &mut Dice, c: &mut Counts) {
    let before: Vec<u64> = (0..d.below(16)).map(|_| d.below(u64::MAX)).collect();
    let room = pick(d, &[0, 1, 3, 4, 4, 4, 5]);
    let (mut after, mut answer) = (before.clone(), [u64::MAX; 5]);
    let number = unsafe { ecch_filter_table(s.as_ptr(), s.len(), after.as_mut_ptr(), after.len(), answer.as_mut_ptr(), room) };
    let (n, laid, expected) = table(s, &before, c);
    let mut set = [u64::MAX; 5];
    set[..room.min(4)].copy_from_slice(&laid[..room.min(4)]);
    if (number, &after, answer) != (n, &expected, set) {
        differ(&format!("a table of {} numbers: {number} {answer:?} {after:?}, not {n} {set:?} {expected:?}", before.len()), s);
    }
}

// ---- the inputs

/// A frame, good or damaged, with bytes behind it now and then; or bytes. Half are Subscribes.
fn stream(d: &mut Dice) -> Vec<u8> {
    let mut f = frames::well_formed(d);
    if one_in(d, 2) {
        while f.first >> 4 != 8 {
            f = frames::well_formed(d);
        }
    }
    match d.below(8) {
        0 => frames::bytes(d, 40),
        1..=3 => frames::damaged(&f, d),
        _ => {
            let mut s = f.stream(0);
            if one_in(d, 3) {
                s.extend(frames::bytes(d, 8));
            }
            s
        }
    }
}

fn main() {
    let args: Vec<String> = std::env::args().skip(1).collect();
    let after = |name: &str, or: u64| args.iter().position(|a| a == name).map_or(or, |i| args[i + 1].parse().unwrap());
    let (count, seed) = (after("--count", 1_200_000), after("--seed", 20_261_116));
    let (mut d, mut c) = (Dice::new(seed), Counts::default());
    for _ in 0..count {
        let s = stream(&mut d);
        walk(&s, &mut c);
        step(&s, &mut d, &mut c);
        fill(&s, &mut d, &mut c);
    }
    println!("{count} streams, {} accepted; {} user properties yielded", c.accepted, c.pairs);
    println!("tables: {} filled, {} too small, {} of another kind, {} of a refused frame", c.filled, c.full, c.others, c.refused);
    println!("no difference");
}
