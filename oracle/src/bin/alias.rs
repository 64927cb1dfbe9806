//! A model of topics by alias, written from 02's P6 and not from the port, held against the library (bindings/c/ecchjulmina.h) on random
//! messages and tables: good, damaged and of wrong sizes. The last line reads 'no difference', or the first one is printed and the exit
//! status is 1. `--messages N` and `--seed N` are for trying; `--rows` prints the rows of the program trial_alias, `--lines` what it has to
//! write for them.
use std::collections::HashMap;
use std::process::exit;

#[link(name = "ecchjulmina", kind = "static")]
extern "C" {
    fn ecch_alias_learn(
        stream: *const u8, stream_len: usize, start: usize, len: usize, alias_on: u8, alias: u16, table: *mut u8, table_len: usize,
    ) -> u32;
    fn ecch_topic_in_force(
        stream: *const u8, stream_len: usize, start: usize, len: usize, alias_on: u8, alias: u16, table: *const u8, table_len: usize,
        item: *mut u64, item_len: usize,
    ) -> u32;
}

// ---- 02's P6

/// "a lent table of 2,064 bytes: for aliases 1 to 16 in turn a length byte, 0 if never set, and 128 bytes for the topic"
fn entries(table: &[u8]) -> Option<Vec<&[u8]>> {
    if table.len() != 2064 {
        return None;
    }
    table.chunks(129).map(|c| c[1..].get(..c[0] as usize)).collect()
}

/// Where a topic lies.
#[derive(Clone, Copy, Debug, PartialEq)]
enum Place {
    Packet,
    Table(usize, usize),
}

/// "Refusals in this order", by the names of 02; else where the topic in force lies.
fn judge(table: &[u8], topic: &[u8], alias: Option<u16>) -> Result<Place, &'static str> {
    let Some(entries) = entries(table) else { return Err("AliasTableBad") };
    if matches!(alias, Some(a) if a == 0 || a > 16) {
        return Err("AliasInvalid");
    }
    match (topic.is_empty(), alias) {
        (true, None) => Err("TopicMissing"),
        (true, Some(a)) if entries[a as usize - 1].is_empty() => Err("AliasUnknown"),
        (true, Some(a)) => Ok(Place::Table(a as usize, entries[a as usize - 1].len())),
        (false, Some(_)) if topic.len() > 128 => Err("AliasNoRoom"),
        (false, _) => Ok(Place::Packet),
    }
}

/// The numbers go on from 23 in P6's order.
fn number(name: &str) -> u32 {
    24 + ["AliasTableBad", "AliasInvalid", "TopicMissing", "AliasUnknown", "AliasNoRoom"].iter().position(|n| *n == name).unwrap() as u32
}

/// "Setting an alias writes its length and topic and no other byte": the table after the message, built anew.
fn after(table: &[u8], topic: &[u8], alias: Option<u16>) -> Vec<u8> {
    let mut out = Vec::new();
    for (i, c) in table.chunks(129).enumerate() {
        if judge(table, topic, alias).is_ok() && alias == Some(i as u16 + 1) && !topic.is_empty() {
            out.push(topic.len() as u8);
            out.extend(topic);
            out.extend(&c[1 + topic.len()..]);
        } else {
            out.extend(c);
        }
    }
    out
}

/// As the header lays it out: which slice, start and length.
fn item(answer: Result<Place, &str>, start: usize, len: usize) -> [u64; 3] {
    match answer {
        Err(_) => [0, 0, 0],
        Ok(Place::Packet) => [1, start as u64, len as u64],
        Ok(Place::Table(a, n)) => [2, (129 * a - 128) as u64, n as u64],
    }
}

// ---- the inputs

struct Random(u64);

impl Random {
    fn next(&mut self, n: usize) -> usize {
        self.0 ^= self.0 << 13;
        self.0 ^= self.0 >> 7;
        self.0 ^= self.0 << 17;
        ((self.0 >> 11) % n as u64) as usize
    }

    fn bytes(&mut self, n: usize) -> Vec<u8> {
        (0..n).map(|_| self.next(256) as u8).collect()
    }

    /// Fresh, good, damaged, or of a wrong size.
    fn table(&mut self) -> Vec<u8> {
        let kind = self.next(16);
        if kind < 8 {
            return vec![0; 2064];
        }
        let size = match kind {
            8 => [0, 1, 128, 129, 2063, 2065, 2192, 4128][self.next(8)],
            9 => self.next(4200),
            _ => 2064,
        };
        let mut t = self.bytes(size);
        for c in t.chunks_mut(129) {
            c[0] = [0, 1, 127, 128, self.next(129) as u8][self.next(5)];
        }
        // one stored length above 128, or anything at all in the length bytes
        if kind == 10 && !t.is_empty() {
            let a = self.next(16);
            if let Some(b) = t.get_mut(a * 129) {
                *b = [129, 130, 200, 255][self.next(4)];
            }
        }
        if kind == 11 {
            for i in (0..t.len()).step_by(129) {
                t[i] = self.next(256) as u8;
            }
        }
        t
    }

    fn len(&mut self) -> usize {
        match self.next(8) {
            0..=2 => 0,
            3..=5 => 1 + self.next(20),
            6 => 120 + self.next(20),
            _ => self.next(400),
        }
    }
}

// ---- the comparison

#[derive(Default)]
struct Counts {
    messages: u64,
    answers: HashMap<&'static str, u64>,
    sessions: u64,
}

fn differs(what: &str, table: &[u8], stream: &[u8], start: usize, len: usize, alias: Option<u16>) -> ! {
    println!("{what} differs: table {} bytes {table:02x?}, stream {stream:02x?}, topic at {start} of {len}, alias {alias:?}", table.len());
    exit(1)
}

fn message(r: &mut Random, table: &mut Vec<u8>, known: &mut Option<HashMap<u16, Vec<u8>>>, counts: &mut Counts) {
    // the topic stands somewhere in the stream; now and then its place does not lie within
    let len = r.len();
    let (front, back) = (r.next(12), r.next(12));
    let stream = r.bytes(front + len + back);
    let (start, len) = match r.next(40) {
        0 => (stream.len() + 1 - len.min(1), len.max(1)),
        1 => (usize::MAX - r.next(3), r.next(6)),
        2 => (r.next(5), usize::MAX - r.next(5)),
        _ => (front, len),
    };
    let topic = start.checked_add(len).and_then(|end| stream.get(start..end)).unwrap_or(&[]);
    let alias = match r.next(10) {
        0 | 1 => None,
        2 => Some(r.next(65536) as u16),
        3 => Some([0, 1, 15, 16, 17, 18, 255, 256, 65535][r.next(9)]),
        _ => Some(1 + r.next(16) as u16),
    };
    let (on, given) = match alias {
        None => (0, r.next(65536) as u16),
        Some(a) => ([1, 1, 1, 2, 255][r.next(5)], a),
    };
    let answer = judge(table, topic, alias);
    let want = (answer.map_or_else(number, |_| 0), item(answer, start, len));
    let find = |t: &[u8]| {
        let mut item = [u64::MAX; 4];
        // Sound: whole slices of Rust's own.
        let n = unsafe { ecch_topic_in_force(stream.as_ptr(), stream.len(), start, len, on, given, t.as_ptr(), t.len(), item.as_mut_ptr(), 3) };
        assert_eq!(item[3], u64::MAX);
        (n, [item[0], item[1], item[2]])
    };
    if find(table) != want {
        differs("the place in force", table, &stream, start, len, alias);
    }
    let mut learnt = table.clone();
    // Sound: as above; what is written overlaps nothing.
    let n = unsafe { ecch_alias_learn(stream.as_ptr(), stream.len(), start, len, on, given, learnt.as_mut_ptr(), learnt.len()) };
    if n != want.0 {
        differs("the answer", table, &stream, start, len, alias);
    }
    if learnt != after(table, topic, alias) {
        differs("the table", table, &stream, start, len, alias);
    }
    if find(&learnt) != want {
        differs("the place in force, asked behind", table, &stream, start, len, alias);
    }
    // from a fresh table on: the last topic of each alias, kept in a map
    if let (Some(known), Ok(_)) = (known, answer) {
        let (slice, at, n) = (want.1[0], want.1[1] as usize, want.1[2] as usize);
        let force = if slice == 1 { &stream[at..at + n] } else { &learnt[at..at + n] };
        if let (Some(a), false) = (alias, topic.is_empty()) {
            known.insert(a, topic.to_vec());
        }
        let last = if topic.is_empty() { &known[&alias.unwrap()][..] } else { topic };
        if force != last {
            differs("the last topic", table, &stream, start, len, alias);
        }
    }
    *counts.answers.entry(answer.err().unwrap_or(if topic.is_empty() { "by the table" } else { "by the packet" })).or_default() += 1;
    counts.messages += 1;
    *table = learnt;
}

// ---- the rows of trial_alias

/// A row has four bytes: what (`-` no alias, `@` alias 0, `A` to `P` 1 to 16, `Q` 17; `<` and `>` no alias on a table a byte too short or too
/// long; `!` a length byte is damaged; `0` a fresh table), the topic's length in two letters from `a`, sixteen to the first, and its letter. Of
/// `!`: the alias, and the length byte.
fn rows() -> Vec<String> {
    let mut rows: Vec<String> = Vec::new();
    let len = |n: usize| format!("{}{}", (b'a' + (n / 16) as u8) as char, (b'a' + (n % 16) as u8) as char);
    // each refusal at its edges, in the order of 02
    let refused = [("<", 1), (">", 1), ("<", 0), ("@", 1), ("@", 0), ("Q", 200), ("-", 0), ("-", 255), ("E", 0), ("E", 129)];
    let set = [("E", 128), ("E", 0), ("-", 0), ("P", 1), ("P", 0), ("A", 5), ("B", 6), ("A", 0), ("A", 7), ("A", 0), ("B", 0)];
    for (what, n) in refused.into_iter().chain(set) {
        rows.push(format!("{what}{}x", len(n)));
    }
    rows.push(format!("!P{}", len(129)));
    rows.extend(["-abx", "@aax", "Eaax"].map(String::from));
    rows.push(format!("!P{}", len(128)));
    rows.extend(["Paax", "Eaax", "0...", "Eaax"].map(String::from));
    // and messages as they come
    let mut r = Random(0x02_06);
    for _ in 0..90 {
        let what = match r.next(10) {
            0 => '-',
            1 => ['@', 'Q', 'P', 'A'][r.next(4)],
            _ => (b'A' + r.next(8) as u8) as char,
        };
        let n = [0, 0, 1 + r.next(20), 1 + r.next(20), 120 + r.next(12)][r.next(5)];
        rows.push(format!("{what}{}{}", len(n), (b'a' + r.next(26) as u8) as char));
    }
    rows
}

/// What the program has to write, by the model: the row, the number, which slice, start, length and letter of the topic in force, and a sum over
/// the table.
fn lines() -> Vec<String> {
    let mut out = Vec::new();
    let (mut table, mut counts) = (vec![0u8; 2064], [0u64; 7]);
    for row in rows() {
        let b = row.as_bytes();
        let n = |x: u8, y: u8| (x as usize - 97) * 16 + y as usize - 97;
        match b[0] {
            b'0' => {
                table = vec![0; 2064];
                continue;
            }
            b'!' => {
                table[(b[1] as usize - 65) * 129] = n(b[2], b[3]) as u8;
                continue;
            }
            _ => {}
        }
        let topic = vec![b[3]; n(b[1], b[2])];
        let alias = (b[0] >= b'@').then(|| b[0] as u16 - 64);
        let mut own = match b[0] {
            b'<' => vec![0; 2063],
            b'>' => vec![0; 2065],
            _ => table.clone(),
        };
        let answer = judge(&own, &topic, alias);
        let place = item(answer, 0, topic.len());
        own = after(&own, &topic, alias);
        let letter = match place[0] {
            0 => '-',
            1 => topic[0] as char,
            _ => own[place[1] as usize] as char,
        };
        let sum: u64 = own.iter().enumerate().map(|(i, x)| (i as u64 + 1) * *x as u64).sum();
        out.push(format!("{row}: {} {} {} {} {letter} {sum}", answer.map_or_else(number, |_| 0), place[0], place[1], place[2]));
        counts[answer.map_or_else(|e| number(e) as usize - 23, |_| 0)] += 1;
        if b[0] != b'<' && b[0] != b'>' {
            table = own;
        }
    }
    out.push(format!("{} messages, {} refused", counts.iter().sum::<u64>(), counts[1..].iter().sum::<u64>()));
    out
}

fn main() {
    let (mut messages, mut seed) = (1_000_000u64, 0x9E37_79B9_7F4A_7C15u64);
    let mut args = std::env::args().skip(1);
    while let Some(a) = args.next() {
        let mut value = || args.next().and_then(|v| v.parse().ok()).unwrap_or_else(|| panic!("{a} wants a number"));
        match a.as_str() {
            "--messages" => messages = value(),
            "--seed" => seed = value(),
            "--rows" => return rows().iter().for_each(|r| println!("{r}")),
            "--lines" => return lines().iter().for_each(|l| println!("{l}")),
            _ => panic!("{a}?"),
        }
    }
    let (mut r, mut counts) = (Random(seed | 1), Counts::default());
    while counts.messages < messages {
        let mut table = r.table();
        let mut known = table.iter().all(|b| *b == 0).then(HashMap::new);
        counts.sessions += 1;
        for _ in 0..1 + r.next(60) {
            message(&mut r, &mut table, &mut known, &mut counts);
        }
    }
    println!("{} messages on {} tables", counts.messages, counts.sessions);
    let mut answers: Vec<_> = counts.answers.into_iter().collect();
    answers.sort();
    for (name, n) in answers {
        println!("  {name}: {n}");
    }
    println!("no difference");
}
