//! Topics and filters. topics compare [--seed N] [--characters N]: every pair of short texts and long ones made of chance through the port, the crate's text and
//! the model. topics listed: both answers to each input of docs/DIFFERENCES.md. topics bench: ns a call. topics count WHAT SIDE N: N calls
//! and nothing else, for callgrind.
use oracle::streams::Dice;
use oracle::timing::{load, medians, report, rounds, Contender};
use oracle::topics::model::{self, split, Split};
use oracle::topics::{self, Answer, CRATE, CRATES, PORT, PORTED};
use oracle::v5::mqttbytes as text;
use std::hint::black_box;
use std::time::Instant;

/// What was counted, by class: none, the entry for `$`, the entry for a first character of more bytes.
#[derive(Default)]
struct Held {
    texts: u64,
    pairs: u64,
    matched: u64,
    valid: u64,
    dollar: u64,
    stopped: u64,
    bytes: u64,
}

fn fail(what: &str, of: &[&[u8]], port: Answer, text: Answer, model: Answer) -> ! {
    let of: Vec<_> = of.iter().map(|s| String::from_utf8_lossy(s)).collect();
    println!("UNLISTED: {what} of {of:?}: port {port:?}, crate {text:?}, model {model:?}");
    std::process::exit(1);
}

impl Held {
    /// The three functions of one text: no difference is listed.
    fn text(&mut self, s: &str) {
        self.texts += 1;
        let b = s.as_bytes();
        let rows = [
            ("has_wildcards", PORT.has_wildcards, CRATE.has_wildcards, model::has_wildcards(b)),
            ("valid_topic", PORT.valid_topic, CRATE.valid_topic, model::valid_topic(b)),
            ("valid_filter", PORT.valid_filter, CRATE.valid_filter, model::valid_filter(b)),
        ];
        for (what, port, text, model) in rows {
            if port(s) != Some(model) || text(s) != Some(model) {
                fail(what, &[b], port(s), text(s), Some(model));
            }
        }
        self.valid += u64::from(rows[2].3);
    }

    /// The port is the model with no switch, the crate the model with both; what differs has its class.
    fn pair(&mut self, topic: &Split, filter: &Split) {
        self.pairs += 1;
        let (t, f) = (std::str::from_utf8(topic.text).unwrap(), std::str::from_utf8(filter.text).unwrap());
        let (port, text) = ((PORT.matches)(t, f), (CRATE.matches)(t, f));
        let rules = model::matches(topic, filter, PORTED);
        if port != rules || text != model::matches(topic, filter, CRATES) {
            fail("matches", &[topic.text, filter.text], port, text, rules);
        }
        self.matched += u64::from(port == Some(true));
        match text {
            None => self.stopped += 1,
            _ if port != text => self.dollar += 1,
            _ => {}
        }
    }

    /// Bytes that are no text: the crate cannot be handed them.
    fn bytes(&mut self, topic: &[u8], filter: &[u8]) {
        self.bytes += 1;
        let rules = model::matches(&split(topic), &split(filter), PORTED);
        if Some(topics::matches(topic, filter)) != rules || topics::valid_filter(filter) != model::valid_filter(filter) || topics::has_wildcards(topic) != model::has_wildcards(topic) {
            fail("bytes", &[topic, filter], Some(topics::matches(topic, filter)), None, rules);
        }
    }
}

/// Every text of up to n of these characters.
fn every(n: usize) -> Vec<String> {
    let mut all = vec![String::new()];
    let mut from = 0;
    for _ in 0..n {
        let to = all.len();
        for i in from..to {
            for c in ['a', '/', '+', '#', '$', 'é'] {
                all.push(format!("{}{c}", all[i]));
            }
        }
        from = to;
    }
    all
}

/// A level: empty, a wildcard, short, or of up to 80 bytes; few letters, so that levels meet and differ late.
fn level(dice: &mut Dice) -> String {
    match dice.below(10) {
        0 => String::new(),
        1 => "+".into(),
        2 => ["#", "$", "é", "+a", "#a"][dice.below(5) as usize].into(),
        3..=7 => ["a", "b", "line3", "armour", "length"][dice.below(5) as usize].into(),
        _ => {
            let n = 10 + dice.below(71) as usize;
            let mut s = "x".repeat(n);
            if dice.below(2) == 0 {
                let at = dice.below(n as u64) as usize;
                s.replace_range(at..at + 1, ["y", "+", "#", "é"][dice.below(4) as usize]);
            }
            s
        }
    }
}

/// A topic of up to 30 levels, and a filter that is made of it: levels replaced, cut off or put behind.
fn long(dice: &mut Dice) -> (String, String) {
    let topic: Vec<String> = (0..1 + dice.below(30)).map(|_| level(dice)).collect();
    let mut filter = topic.clone();
    for _ in 0..dice.below(3) {
        let at = dice.below(filter.len() as u64) as usize;
        filter[at] = if dice.below(3) == 0 { level(dice) } else { "+".into() };
    }
    match dice.below(6) {
        0 => filter.truncate(1 + dice.below(filter.len() as u64) as usize),
        1 => filter.push(level(dice)),
        2 => {
            filter.truncate(1 + dice.below(filter.len() as u64) as usize);
            filter.push("#".into());
        }
        _ => {}
    }
    (topic.join("/"), filter.join("/"))
}

fn compare(seed: u64, characters: usize) {
    std::panic::set_hook(Box::new(|_| {}));
    let start = Instant::now();
    let mut held = Held::default();
    let all = every(characters);
    let splits: Vec<Split> = all.iter().map(|s| split(s.as_bytes())).collect();
    all.iter().for_each(|s| held.text(s));
    for topic in &splits {
        splits.iter().for_each(|filter| held.pair(topic, filter));
    }
    println!("{:4} s  every pair of up to {characters} characters of a / + # $ é: {} texts, {} pairs", start.elapsed().as_secs(), held.texts, held.pairs);
    let mut dice = Dice::new(seed);
    for _ in 0..1_000_000 {
        let (topic, filter) = long(&mut dice);
        held.text(&topic);
        held.text(&filter);
        held.pair(&split(topic.as_bytes()), &split(filter.as_bytes()));
    }
    println!("{:4} s  long ones made of chance, seed {seed}: {} texts, {} pairs", start.elapsed().as_secs(), held.texts, held.pairs);
    for _ in 0..1_000_000 {
        let (topic, filter) = long(&mut dice);
        let (mut topic, mut filter) = (topic.into_bytes(), filter.into_bytes());
        for s in [&mut topic, &mut filter] {
            if !s.is_empty() {
                let at = dice.below(s.len() as u64) as usize;
                s[at] = 0x80 + dice.below(128) as u8;
            }
        }
        held.bytes(&topic, &filter);
    }
    println!("{:4} s  bytes that are no text, port and model alone: {}", start.elapsed().as_secs(), held.bytes);
    println!("{} pairs match, {} texts are valid filters", held.matched, held.valid);
    println!("differences: {} by `$` (40), {} where the crate stops (41)", held.dollar, held.stopped);
    println!("no unlisted difference");
}

fn listed() {
    std::panic::set_hook(Box::new(|_| {}));
    let say = |a: Answer| a.map_or("stops".to_string(), |b| b.to_string());
    for (t, f) in [("$", "$"), ("$a/b", "$a/#"), ("$", "#"), ("é", ""), ("é", "é"), ("é", "#"), ("aé", "#"), ("#", "+"), ("a", "a/#"), ("a/b", "a/#/c"), ("b", "a/#/c"), ("a", "a#"), ("a#", "a#"), ("", ""), ("", "#"), ("a", "$share/g/a"), ("$share/g/a", "$share/g/a")] {
        println!("matches({t:?}, {f:?}): crate {}, port {}", say((CRATE.matches)(t, f)), say((PORT.matches)(t, f)));
    }
    for s in ["", "$share/g/a", "$share/g", "$share//a", "a#", "a/#/c", "\0"] {
        println!("valid_topic({s:?}): crate {}, port {}", say((CRATE.valid_topic)(s)), say((PORT.valid_topic)(s)));
        println!("valid_filter({s:?}): crate {}, port {}", say((CRATE.valid_filter)(s)), say((PORT.valid_filter)(s)));
    }
}

/// What is timed: a name, a topic, a filter that matches it.
fn subjects() -> Vec<(String, String, String)> {
    let mut rows: Vec<(String, String, String)> = vec![];
    let mut row = |name: &str, topic: String, filter: String| rows.push((name.into(), topic, filter));
    let ordinary = "line3/armour/length";
    row("line3/armour/length, itself", ordinary.into(), ordinary.into());
    row("line3/armour/length, line3/+/length", ordinary.into(), "line3/+/length".into());
    row("line3/armour/length, line3/#", ordinary.into(), "line3/#".into());
    row("line3/armour/length, +/+/+", ordinary.into(), "+/+/+".into());
    row("line3/armour/length, #", ordinary.into(), "#".into());
    let deep = "plant/hall2/line3/armour/drum7/meter/length/value/raw".to_string();
    row("nine levels of 3 to 6, itself", deep.clone(), deep);
    for n in [1usize, 2, 3, 4, 7, 8, 12, 13, 15, 16, 17, 24, 31, 32, 33, 48, 64, 100, 256, 1000, 4000] {
        let one = "x".repeat(n);
        row(&format!("one level of {n}, itself"), one.clone(), one);
    }
    for n in [1usize, 5, 11, 16, 41, 200, 1000] {
        let levels = vec!["x".repeat(n); (4000 / (n + 1)).max(2)].join("/");
        row(&format!("{} bytes in levels of {n}, itself", levels.len()), levels.clone(), levels);
    }
    for n in [5usize, 41] {
        let count = 1000 / (n + 1);
        row(&format!("{count} levels of {n}, under +"), vec!["x".repeat(n); count].join("/"), vec!["+"; count].join("/"));
    }
    rows.push(("4,000 slashes, itself".into(), "/".repeat(4000), "/".repeat(4000)));
    rows
}

/// The crate's text, one call as on the port's side.
mod one_call {
    use super::text;
    #[inline(never)]
    pub fn matches(topic: &str, filter: &str) -> bool {
        text::matches(topic, filter)
    }
    #[inline(never)]
    pub fn valid_filter(filter: &str) -> bool {
        text::valid_filter(filter)
    }
    #[inline(never)]
    pub fn valid_topic(topic: &str) -> bool {
        text::valid_topic(topic)
    }
}

/// How many calls a pass has.
const CALLS: u64 = 64;

/// The answers to the calls of a pass, added up.
fn pass(mut f: impl FnMut() -> bool) -> u64 {
    (0..CALLS).map(|_| f() as u64).sum()
}

fn timed(what: String, port: impl Fn() -> bool, text: impl Fn() -> bool) {
    let mut contenders: [Contender; 2] = [("port", Box::new(|| pass(&port))), ("crate", Box::new(|| pass(&text)))];
    let ns = medians(rounds(), &mut contenders);
    report(&what, &contenders, &ns, |t| t / CALLS as f64);
}

fn bench() {
    println!("ns a call; load {}", load());
    for (name, topic, filter) in subjects() {
        let (t, f) = (topic.as_str(), filter.as_str());
        timed(
            format!("matches: {name}"),
            || topics::matches(black_box(t.as_bytes()), black_box(f.as_bytes())),
            || one_call::matches(black_box(t), black_box(f)),
        );
        timed(format!("valid_filter: {name}"), || topics::valid_filter(black_box(f.as_bytes())), || one_call::valid_filter(black_box(f)));
        timed(format!("valid_topic: {name}"), || topics::valid_topic(black_box(t.as_bytes())), || one_call::valid_topic(black_box(t)));
    }
}

#[inline(never)]
fn calls(n: u64, mut f: impl FnMut() -> bool) {
    for _ in 0..n {
        black_box(f());
    }
}

/// N calls of one function for one row, for an instruction count; with no N, how many rows there are.
fn count(args: &[String]) {
    let rows = subjects();
    let Some(n) = args.get(3) else {
        rows.iter().for_each(|(name, _, _)| println!("{name}"));
        return;
    };
    let (n, row): (u64, usize) = (n.parse().unwrap(), args[2].parse().unwrap());
    let (t, f) = (rows[row].1.as_str(), rows[row].2.as_str());
    match (args[0].as_str(), args[1].as_str()) {
        ("matches", "port") => calls(n, || topics::matches(black_box(t.as_bytes()), black_box(f.as_bytes()))),
        ("matches", "crate") => calls(n, || one_call::matches(black_box(t), black_box(f))),
        ("valid_filter", "port") => calls(n, || topics::valid_filter(black_box(f.as_bytes()))),
        ("valid_filter", "crate") => calls(n, || one_call::valid_filter(black_box(f))),
        ("valid_topic", "port") => calls(n, || topics::valid_topic(black_box(t.as_bytes()))),
        ("valid_topic", "crate") => calls(n, || one_call::valid_topic(black_box(t))),
        _ => panic!("what to count?"),
    }
}

fn main() {
    let args: Vec<String> = std::env::args().skip(1).collect();
    let after = |name: &str, or: u64| args.iter().position(|a| a == name).map_or(or, |i| args[i + 1].parse().unwrap());
    match args.first().map(String::as_str) {
        Some("compare") => compare(after("--seed", 2026), after("--characters", 5) as usize),
        Some("listed") => listed(),
        Some("bench") => bench(),
        Some("count") => count(&args[1..]),
        _ => panic!("topics compare, listed, bench or count"),
    }
}
