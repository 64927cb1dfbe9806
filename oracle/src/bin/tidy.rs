//! 02's P14, through the C interface: `ecch_tidy` against the model's read and write, against the crate's own where the crate reads the same
//! record, and against itself. See oracle/README.md.
//! tidy compare [--count N] [--seed N] [--files FILE..], tidy archive FILE, tidy time, tidy run none|read|tidy KIND
use oracle::compare::frames::{self, one_in, pick};
use oracle::compare::model::{self, Switches};
use oracle::compare::shape::{first_byte, hex, name, Given, Lists, No, KINDS};
use oracle::compare::tidy::{self as by_model, port_tidy};
use oracle::compare::{port, text};
use oracle::streams::{self, publishes, Dice};
use oracle::timing::{load, medians, report, rounds, Contender};
use oracle::QoS;
use std::hint::black_box;

#[link(name = "ecchjulmina", kind = "static")]
extern "C" {
    fn ecch_tidy(stream: *const u8, stream_len: usize, out: *mut u8, out_len: usize, answer: *mut u64, answer_len: usize) -> u32;
    fn ecch_read(stream: *const u8, stream_len: usize, limited: u8, limit: usize, record: *mut u64, record_len: usize) -> u32;
}

#[derive(Default)]
struct Hold {
    frames: u64,
    calls: u64,
    refused: [u64; 32],
    /// by kind: accepted, in other bytes, longer, shorter, held against the crate's text
    kinds: [[u64; 5]; 16],
    pairs: u64,
    equal: u64,
    last: Option<(Given, Vec<u8>)>,
}

fn differs(what: &str, s: &[u8], said: impl std::fmt::Debug, right: impl std::fmt::Debug) -> ! {
    println!("difference: {what}, of {}\n  library {said:02x?}\n  right   {right:02x?}", hex(s));
    std::process::exit(1)
}

impl Hold {
    /// One call against the model.
    fn call(&mut self, s: &[u8], room: usize, fill: u8) -> by_model::Tidied {
        let right = by_model::tidy(s, room);
        let said = port_tidy(s, room, fill);
        if said.as_ref() != Some(&right) {
            differs(&format!("{room} bytes of room"), s, said, right);
        }
        self.calls += 1;
        right
    }

    /// What the crate's text writes of the record that it reads, where that is the record of the rules (class 0 of docs/DIFFERENCES.md).
    fn by_crate(&self, s: &[u8]) -> Option<Vec<u8>> {
        let mut lists = Lists::default();
        let rules = model::read(s, None, &Switches::of(0), &mut lists);
        let said = text::read(s, None);
        if !text::same(&said, &rules, &lists, s) {
            return None;
        }
        let mut out = bytes::BytesMut::new();
        let size = text::write(&said.0.ok()?, None, &mut out);
        if size != Ok(out.len() as u64) {
            return Some(vec![]);
        }
        Some(out.to_vec())
    }

    /// The frame at the start of a stream: every way to ask for its tidy form.
    fn stream(&mut self, s: &[u8], d: &mut Dice) -> usize {
        self.frames += 1;
        let fill = d.below(256) as u8;
        let (answer, taken) = self.call(s, s.len() + 1 + d.below(3) as usize, fill);
        let form = match answer {
            Ok(form) => form,
            Err(no) => {
                self.refused[no.no as usize] += 1;
                // the same whatever the room
                let again = self.call(s, d.below(s.len() as u64 + 1) as usize, fill);
                if again != (Err(no), taken) {
                    differs("less room", s, again, no);
                }
                return taken;
            }
        };
        let kind = &mut self.kinds[(s[0] >> 4) as usize];
        kind[0] += 1;
        kind[1] += (form != s[..taken]) as u64;
        kind[2] += (form.len() > taken) as u64;
        kind[3] += (form.len() < taken) as u64;
        // as many bytes as the frame at most, but for the acknowledgement of five bytes
        if form.len() > taken && !(taken == 5 && form.len() == 6 && matches!(s[0] >> 4, 4..=7) && s[4] != 0) {
            differs("the tidy form is longer", s, &form, &s[..taken]);
        }
        for room in [form.len(), form.len() - 1, d.below(form.len() as u64) as usize] {
            let (answer, taken) = self.call(s, room, !fill);
            if room < form.len() && (answer != Err(No { no: 19, a: form.len() as u64, b: 0 }) || taken != 0) {
                differs("no room", s, answer, &form);
            }
        }
        // the frame alone, and with other bytes behind it
        for behind in [vec![], frames::bytes(d, 6)] {
            let s = [&s[..taken], &behind].concat();
            let again = self.call(&s, form.len() + 2, fill);
            if again != (Ok(form.clone()), taken) {
                differs("bytes behind the frame", &s, again, &form);
            }
        }
        // tidied again it stays, and it says the same record
        if port_tidy(&form, form.len(), fill) != Some((Ok(form.clone()), form.len())) {
            differs("tidied again", s, port_tidy(&form, form.len(), fill), &form);
        }
        let g = by_model::record(s).unwrap();
        if by_model::record(&form).as_ref() != Ok(&g) {
            differs("the record of the tidy form", s, by_model::record(&form), &g);
        }
        if let Some(own) = self.by_crate(s) {
            self.kinds[(s[0] >> 4) as usize][4] += 1;
            if own != form {
                differs("the crate's own", s, &form, own);
            }
        }
        // the same record in other bytes; and two records: equal forms exactly if they are equal
        let other = by_model::untidy(&g, d);
        if port_tidy(&other, form.len(), fill) != Some((Ok(form.clone()), other.len())) {
            differs("the same record in other bytes", &other, port_tidy(&other, form.len(), fill), &form);
        }
        if let Some((before, its)) = &self.last {
            self.pairs += 1;
            self.equal += (*its == form) as u64;
            if (*before == g) != (*its == form) {
                differs("two records", s, &form, its);
            }
        }
        if one_in(d, 3) {
            self.last = Some((g, form));
        }
        taken
    }

    /// Every frame of a stream, up to a refusal that takes nothing; what was put in all is an archive that stays when it is tidied.
    fn whole(&mut self, mut s: &[u8], d: &mut Dice) {
        let mut archive = vec![];
        while !s.is_empty() {
            let taken = self.stream(s, d);
            if let (Ok(form), _) = by_model::tidy(s, s.len() + 1) {
                archive.extend(form);
            }
            if taken == 0 {
                break;
            }
            s = &s[taken..];
        }
        let mut at = 0;
        while at < archive.len() {
            match port_tidy(&archive[at..], archive.len(), 7) {
                Some((Ok(form), taken)) if form == archive[at..at + taken] => at += taken,
                said => differs("an archive", &archive[at..], said, ()),
            }
        }
    }

    fn body(&mut self, first: u8, body: &[u8], d: &mut Dice) {
        let mut s = vec![first];
        frames::spell(&mut s, body.len() as u32, 0);
        s.extend(body);
        self.stream(&s, d);
    }

    /// Every stream of up to two bytes; every first byte with every body of one; every kind with every body of two; every reason of an
    /// acknowledgement alone and with a block, every options byte.
    fn short(&mut self, d: &mut Dice) {
        self.stream(&[], d);
        for a in 0..=255 {
            self.stream(&[a], d);
            for b in 0..=255 {
                self.stream(&[a, b], d);
                self.body(a, &[b], d);
            }
            for kind in 4..=7 {
                for tail in [&[][..], &[0], &[0, 0], &[3, 31, 0, 0], &[5, 38, 0, 0, 0, 0]] {
                    self.body(first_byte(kind), &[&[0, 1, a], tail].concat(), d);
                }
            }
            self.body(0x82, &[0, 1, 0, 0, 1, b'a', a], d);
            for b in 0..=255 {
                self.body(0x82, &[0, 1, 0, 0, 1, b'a', a, 0, 0, b], d);
                for kind in [9, 11] {
                    self.body(first_byte(kind), &[0, 1, 0, a, b], d);
                }
                for (kind, _) in KINDS {
                    self.body(first_byte(kind), &[a, b], d);
                }
            }
        }
    }

    fn told(&self) {
        println!("{} frames, {} calls; by kind: accepted, in other bytes, longer, shorter, held against the crate's own", self.frames, self.calls);
        for (kind, _) in KINDS {
            let n = self.kinds[kind as usize];
            println!("  {:11} {:9} {:9} {:7} {:7} {:9}", name(kind), n[0], n[1], n[2], n[3], n[4]);
        }
        let refused: Vec<String> = (0..32).filter(|n| self.refused[*n] > 0).map(|n| format!("{n}: {}", self.refused[n])).collect();
        println!("  refused by number: {}", refused.join(", "));
        println!("  {} pairs of records, {} of them with equal forms", self.pairs, self.equal);
    }
}

/// The streams that the program corpus reads (oracle/README.md, 'The file of the program corpus').
fn corpus() -> Vec<Vec<u8>> {
    let path = concat!(env!("CARGO_MANIFEST_DIR"), "/../crates/corpus/data/answers.bin");
    let file = std::fs::read(path).unwrap();
    let mut at = 0;
    let mut number = |width: usize| {
        at += width;
        file[at - width..at].iter().fold(0usize, |n, b| n << 8 | *b as usize)
    };
    let mut streams = vec![];
    for _ in 0..number(4) {
        // widths of numbers; r a run, l lengths, a an answer, w a write
        let kind = number(1);
        number(8);
        let fields: &[u8] = match kind {
            1 => b"14Ra",
            2 => b"11444ra",
            3 => b"1112r1111412" as &[u8],
            4..=7 => b"2111rrlw",
            8 => b"2114rlrlrw",
            9 | 11 => b"211rrlrw",
            10 => b"21rlrlw",
            _ => b"w",
        };
        // a Publish has more behind these
        let rest: &[u8] = if kind == 3 { b"1r1rrll1rrw" } else { b"" };
        let write: &[u8] = b"1441aar";
        let mut list: Vec<u8> = fields.iter().chain(rest).flat_map(|f| if *f == b'w' { write.to_vec() } else { vec![*f] }).collect();
        list.reverse();
        while let Some(f) = list.pop() {
            match f {
                b'r' | b'R' => {
                    let n = number(4);
                    let run: Vec<u8> = (0..n).map(|_| number(1) as u8).collect();
                    if f == b'R' {
                        streams.push(run);
                    }
                }
                b'l' => (0..number(2)).for_each(|_| {
                    number(4);
                }),
                b'a' => {
                    number(1);
                    (0..number(1)).for_each(|_| {
                        number(5);
                    });
                }
                width => {
                    number((width - b'0') as usize);
                }
            }
        }
    }
    assert_eq!(at, file.len(), "the corpus is not read to its end");
    streams
}

fn samples() -> Vec<Vec<u8>> {
    let dir = std::fs::read_dir(concat!(env!("CARGO_MANIFEST_DIR"), "/../samples")).unwrap();
    let mut paths: Vec<_> = dir.map(|f| f.unwrap().path()).filter(|p| p.extension().is_some_and(|e| e == "mqtt")).collect();
    paths.sort();
    paths.iter().map(|p| std::fs::read(p).unwrap()).collect()
}

/// Frames with many items, up to about 1 MiB.
fn large() -> Vec<Vec<u8>> {
    let mut all = vec![];
    for n in [25, 26, 100, 3_276, 3_277, 200_000] {
        all.extend([streams::users(n), streams::identifiers(n), streams::filters(n)]);
    }
    // a lone property behind many others moves to the front
    let mut body = b"\0\x01a".to_vec();
    frames::spell(&mut body, 5 * 60_000 + 2, 0);
    body.extend([38, 0, 0, 0, 0].repeat(60_000));
    body.extend([1, 1]);
    let mut s = vec![0x30];
    frames::spell(&mut s, body.len() as u32, 0);
    s.extend(body);
    all.push(s);
    all
}

fn compare(count: u64, seed: u64, files: &[String]) {
    let (mut h, mut d) = (Hold::default(), Dice::new(seed));
    for s in files.iter().map(|f| std::fs::read(f).unwrap()).chain(samples()) {
        h.whole(&s, &mut d);
    }
    println!("{} frames of {} samples and recordings", h.frames, files.len() + samples().len());
    let rows = corpus();
    rows.iter().for_each(|s| h.whole(s, &mut d));
    println!("{} frames with the {} streams of the corpus", h.frames, rows.len());
    large().iter().for_each(|s| h.whole(s, &mut d));
    h.whole(&publishes(1000, QoS::AtLeastOnce), &mut d);
    h.short(&mut d);
    println!("{} frames with short and large ones", h.frames);
    for i in 0..count {
        let f = frames::well_formed(&mut d);
        match i % 4 {
            0 => h.whole(&frames::damaged(&f, &mut d), &mut d),
            1 => {
                // several, one behind the other
                let mut s = f.stream(0);
                (0..d.below(4)).for_each(|_| s.extend(frames::well_formed(&mut d).stream(0)));
                h.whole(&s, &mut d);
            }
            2 => {
                let more = frames::winded(&mut d);
                h.stream(&f.stream(more), &mut d);
            }
            _ => {
                h.stream(&f.stream(0), &mut d);
            }
        }
        // now and then frames that differ little
        if one_in(&mut d, 50) {
            let mut s = f.stream(0);
            for _ in 0..4 {
                h.stream(&s, &mut d);
                let at = d.below(s.len() as u64) as usize;
                s[at] ^= pick(&mut d, &[1, 2, 4, 64, 128]);
            }
        }
    }
    println!("seed {seed}");
    h.told();
    println!("no difference");
}

/// The tidy stream of a file by the model, to standard output: what the program desk_tidy has to write.
fn archive(file: &str) {
    use std::io::Write;
    let s = std::fs::read(file).unwrap();
    let (mut at, mut out) = (0, vec![]);
    while at < s.len() {
        let (form, taken) = by_model::tidy(&s[at..], s.len() + 1);
        out.extend(form.unwrap_or_default());
        if taken == 0 {
            break;
        }
        at += taken;
    }
    std::io::stdout().write_all(&out).unwrap();
}

fn read_all(s: &[u8]) -> u64 {
    let (mut at, mut sum, mut n) = (0, 0u64, [0u64; port::RECORD]);
    while at < s.len() {
        let rest = &s[at..];
        if unsafe { ecch_read(rest.as_ptr(), rest.len(), 0, 0, n.as_mut_ptr(), n.len()) } != 0 {
            return 0;
        }
        sum = sum.wrapping_add(n[0]);
        at += n[0] as usize;
    }
    sum
}

fn tidy_all(s: &[u8], out: &mut [u8]) -> u64 {
    let (mut at, mut sum, mut n) = (0, 0u64, [0u64; 4]);
    while at < s.len() {
        let rest = &s[at..];
        if unsafe { ecch_tidy(rest.as_ptr(), rest.len(), out.as_mut_ptr(), out.len(), n.as_mut_ptr(), n.len()) } != 0 {
            return 0;
        }
        sum = sum.wrapping_add(n[3]);
        at += n[3] as usize;
    }
    sum
}

/// What is measured: P13's frames at QoS 0 and 1, and small and large frames of other layouts.
fn measured(name: &str) -> Option<(Vec<u8>, usize)> {
    let times = |s: &[u8], n: usize| (s.repeat(n), n);
    Some(match name {
        "p13" => (publishes(10_000, QoS::AtMostOnce).to_vec(), 10_000),
        "p13-qos1" => (publishes(10_000, QoS::AtLeastOnce).to_vec(), 10_000),
        "puback" => times(&[0x40, 2, 0, 1], 10_000),
        "puback-reason" => times(&[0x40, 3, 0, 1, 0x10], 10_000),
        "subscribe" => times(&streams::filters(4), 10_000),
        // a content type before the user properties
        "unsorted" => {
            let mut body = b"\0\x13line3/armour/length".to_vec();
            let block = b"\x03\0\x04json\x26\0\x04unit\0\x01m\x26\0\x07gateway\0\x05gw-07";
            body.push(block.len() as u8);
            body.extend(block);
            body.extend([b'.'; 40]);
            times(&[&[0x30, body.len() as u8][..], &body].concat(), 10_000)
        }
        "users" => times(&streams::users(20_000), 10),
        "filters" => times(&streams::filters(20_000), 10),
        _ => return None,
    })
}

const MEASURED: [&str; 8] = ["p13", "p13-qos1", "unsorted", "puback", "puback-reason", "subscribe", "users", "filters"];

fn time() {
    println!("load {}", load());
    for name in MEASURED {
        let (s, frames) = measured(name).unwrap();
        let (mut out, s) = (vec![0u8; 1 << 20], &s[..]);
        let mut contenders: Vec<Contender> =
            vec![("tidy", Box::new(|| tidy_all(black_box(s), &mut out))), ("read", Box::new(|| read_all(black_box(s))))];
        let ns = medians(rounds().min(101), &mut contenders);
        report(&format!("{name}, {} bytes, ns a frame", s.len() / frames), &contenders, &ns, |t| t / frames as f64);
    }
}

fn main() {
    let args: Vec<String> = std::env::args().skip(1).collect();
    let after = |name: &str, or: u64| args.iter().position(|a| a == name).map_or(or, |i| args[i + 1].parse().unwrap());
    let files = || args.iter().position(|a| a == "--files").map_or(vec![], |i| args[i + 1..].iter().take_while(|a| !a.starts_with("--")).cloned().collect());
    match args.first().map(String::as_str) {
        Some("compare") => compare(after("--count", 1_200_000), after("--seed", 20_261_116), &files()),
        Some("archive") => archive(&args[1]),
        Some("time") => time(),
        Some("run") => {
            let (s, frames) = measured(&args[2]).unwrap();
            let mut out = vec![0u8; 1 << 20];
            let sum = match args[1].as_str() {
                "none" => 0,
                "read" => read_all(&s),
                _ => tidy_all(&s, &mut out),
            };
            println!("{frames} frames, {sum}");
        }
        _ => println!("tidy compare [--count N] [--seed N] [--files FILE..], tidy archive FILE, tidy time, tidy run none|read|tidy {}", MEASURED.join("|")),
    }
}
