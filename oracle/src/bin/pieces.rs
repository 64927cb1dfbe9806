//! 02's P10, through the C interface: streams cut into pieces against the whole stream by the model, and what pieces cost. See oracle/README.md.
//! pieces compare [--count N] [--seed N], pieces rows, pieces time, pieces run none|whole|SIZE
use oracle::compare::frames::{self, one_in, pick};
use oracle::compare::pieces::{frame_length, whole, Port, BAD_BUFFER};
use oracle::compare::port;
use oracle::streams::{publishes, Dice};
use oracle::timing::{load, medians, report, rounds, Contender};
use oracle::QoS;
use std::hint::black_box;

extern "C" {
    fn ecch_next_frame(
        limited: u8, limit: usize, state: *mut u64, state_len: usize, buffer: *mut u8, buffer_len: usize, piece: *const u8, piece_len: usize,
        item: *mut u64, item_len: usize,
    ) -> u32;
    fn ecch_read(stream: *const u8, stream_len: usize, limited: u8, limit: usize, record: *mut u64, record_len: usize) -> u32;
}

/// A stream of well-formed and damaged frames.
fn stream(d: &mut Dice) -> Vec<u8> {
    let mut s = vec![];
    let harm = pick(d, &[0, 0, 4, 12]);
    for _ in 0..1 + d.below(10) {
        let f = frames::well_formed(d);
        s.extend(if harm > 0 && one_in(d, harm) { frames::damaged(&f, d) } else { f.stream(0) });
    }
    s
}

/// The lengths of pieces, of none too, up to the end.
fn cut<'a>(mut s: &'a [u8], d: &mut Dice) -> Vec<&'a [u8]> {
    let most = pick(d, &[1, 2, 3, 6, 20, 100, 1000]);
    let mut pieces = vec![];
    while !s.is_empty() {
        let n = (d.below(most + 1) as usize).min(s.len());
        pieces.push(&s[..n]);
        s = &s[n..];
    }
    pieces
}

fn compare(count: u64, seed: u64) {
    let mut d = Dice::new(seed);
    let (mut cuts, mut pieces, mut answers, mut ends) = (0u64, 0u64, 0u64, [0u64; 40]);
    while cuts < count {
        let s = stream(&mut d);
        let room = match d.below(4) {
            0 => 5 + d.below(12) as usize,
            1 => frame_length(&s).map_or(5, |f| f + d.below(3) as usize).clamp(6, 65_537) - 1,
            2 => 5 + d.below(200) as usize,
            _ => 65_536,
        };
        let limit = one_in(&mut d, 4).then(|| d.below(60));
        let rules = whole(&s, limit, room);
        for _ in 0..4 {
            let cut = cut(&s, &mut d);
            let mut port = Port::new(room, limit);
            let (mut upto, mut late) = (0, false);
            for p in &cut {
                if let Err(what) = port.push(p) {
                    println!("{what}: {s:02x?} room {room} limit {limit:?} pieces {:?}", cut.iter().map(|p| p.len()).collect::<Vec<_>>());
                    std::process::exit(1);
                }
                upto += p.len();
                // "while the piece that completes it is taken in": now and then the list so far is that of the bytes so far
                late |= one_in(&mut d, 40) && port.list != whole(&s[..upto], limit, room);
            }
            if late || port.list != rules {
                println!("difference: {s:02x?} room {room} limit {limit:?} pieces {:?}", cut.iter().map(|p| p.len()).collect::<Vec<_>>());
                println!("  whole {rules:?}\n  cut   {:?}", port.list);
                std::process::exit(1);
            }
            cuts += 1;
            pieces += cut.len() as u64;
            answers += rules.len() as u64;
            if let Some(no) = port.ended {
                ends[no.no as usize] += 1;
            }
        }
    }
    for room in [0, 1, 4, 65_537, 100_000] {
        let mut port = Port::new(room, None);
        port.push(&[0xC0, 0]).unwrap();
        assert_eq!(port.ended.unwrap().no, BAD_BUFFER);
    }
    println!("seed {seed}: {cuts} streams cut, {pieces} pieces, {answers} answers; ended by 2: {}, by 3: {}, by 36: {}", ends[2], ends[3], ends[36]);
    println!("no difference");
}

/// The streams of the program trial_pieces, from its source: a byte string of lengths and bytes.
fn table() -> Vec<Vec<u8>> {
    let source = include_str!("../../../crates/trial_pieces/src/main.rt");
    let text = source.rsplit_once("streams(").unwrap().1;
    let text = text.split('"').nth(1).unwrap();
    let bytes: Vec<u8> = text.split("\\x").skip(1).map(|b| u8::from_str_radix(&b[..2], 16).unwrap()).collect();
    let (mut rows, mut rest) = (vec![], &bytes[..]);
    while let Some((n, more)) = rest.split_first() {
        rows.push(more[..*n as usize].to_vec());
        rest = &more[*n as usize..];
    }
    rows
}

/// What trial_pieces prints of a stream in pieces of `size` bytes, each with one of no bytes behind it.
fn line(s: &[u8], size: usize, limit: Option<u64>, room: usize) -> String {
    let (mut out, mut at) = (String::new(), 0);
    for ((answer, taken), _) in whole(s, limit, room) {
        let number = answer.err().map_or(0, |no| no.no);
        if taken == 0 {
            // given with the first byte that completes it, and again with every later piece
            let last = (0..=s.len()).find(|n| whole(&s[..*n], limit, room).last().is_some_and(|l| l.0 .1 == 0)).unwrap() - 1;
            let times = 2 * (s.len().div_ceil(size) - last / size);
            out += &format!(" {number}/0").repeat(times);
        } else {
            let end = at + taken;
            let buffer = at < (end - 1) / size * size;
            out += &format!(" {}{number}/{taken}", if buffer { "buffer:" } else { "" });
            at = end;
        }
    }
    out
}

/// The file stdout of trial_pieces.
fn rows() {
    let mut rows = 0;
    for s in table() {
        for size in [1, 2, 3, 7, 16] {
            println!("pieces of {size}, buffer of 5:{}", line(&s, size, None, 5));
            println!("  buffer of 10:{}", line(&s, size, None, 10));
            println!("  buffer of 10, limit 9:{}", line(&s, size, Some(9), 10));
            rows += 3;
        }
    }
    println!("{rows} rows");
}

fn read_whole(s: &[u8]) -> u64 {
    let (mut at, mut sum, mut n) = (0, 0u64, [0u64; port::RECORD]);
    while at < s.len() {
        let rest = &s[at..];
        if unsafe { ecch_read(rest.as_ptr(), rest.len(), 0, 0, n.as_mut_ptr(), n.len()) } != 0 {
            return sum;
        }
        sum = sum.wrapping_add(n[0] + n[10] + n[12]);
        at += n[0] as usize;
    }
    sum
}

fn read_pieces(s: &[u8], size: usize, buffer: &mut [u8]) -> u64 {
    let (mut state, mut item, mut n, mut sum) = ([0u64; 4], [0u64; 5], [0u64; port::RECORD], 0u64);
    for mut piece in s.chunks(size) {
        loop {
            let number = unsafe {
                ecch_next_frame(0, 0, state.as_mut_ptr(), 4, buffer.as_mut_ptr(), buffer.len(), piece.as_ptr(), piece.len(), item.as_mut_ptr(), 5)
            };
            if number != 0 {
                return sum;
            }
            let frame = match item[3] {
                0 => break,
                1 => piece.as_ptr(),
                _ => buffer.as_ptr(),
            };
            if unsafe { ecch_read(frame, item[4] as usize, 0, 0, n.as_mut_ptr(), n.len()) } != 0 {
                return sum;
            }
            sum = sum.wrapping_add(n[0] + n[10] + n[12]);
            piece = &piece[item[0] as usize..];
        }
    }
    sum
}

const SIZES: [(&str, usize); 5] = [("64 KiB", 65_536), ("1 KiB", 1024), ("64", 64), ("16", 16), ("1", 1)];

fn time() {
    let count = 100_000;
    let s = publishes(count, QoS::AtMostOnce);
    let s = &s[..];
    println!("P13: {count} frames of {} bytes; load {}", s.len() / count, load());
    for (name, size) in SIZES {
        let mut buffer = vec![1u8; 65_536];
        let mut contenders: Vec<Contender> =
            vec![(name, Box::new(|| read_pieces(black_box(s), size, &mut buffer))), ("whole", Box::new(|| read_whole(black_box(s))))];
        let ns = medians(rounds().min(31), &mut contenders);
        report("ns a frame, in pieces and whole", &contenders, &ns, |t| t / count as f64);
    }
}

fn main() {
    let args: Vec<String> = std::env::args().skip(1).collect();
    let after = |name: &str, or: u64| args.iter().position(|a| a == name).map_or(or, |i| args[i + 1].parse().unwrap());
    match args.first().map(String::as_str) {
        Some("compare") => compare(after("--count", 1_200_000), after("--seed", 20_261_116)),
        Some("time") => time(),
        Some("rows") => rows(),
        Some("run") => {
            let s = publishes(10_000, QoS::AtMostOnce);
            let mut buffer = vec![1u8; 65_536];
            let sum = match args[1].as_str() {
                "none" => 0,
                "whole" => read_whole(&s),
                size => read_pieces(&s, size.parse().unwrap(), &mut buffer),
            };
            println!("{sum}");
        }
        _ => println!("pieces compare [--count N] [--seed N], pieces rows, pieces time, pieces run none|whole|SIZE"),
    }
}
