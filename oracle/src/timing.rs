//! Rounds of short runs: each contender runs once in every round, and its time is the median over the rounds. Times are the thread's own, so
//! that what else the machine does counts less.

/// What is timed: a name, and one pass over the data that gives a number on which all must agree.
pub type Contender<'a> = (&'static str, Box<dyn FnMut() -> u64 + 'a>);

/// How many ns one sample takes at least.
const SAMPLE: u64 = 50_000;

/// The processor time of this thread, in ns.
pub fn now() -> u64 {
    #[repr(C)]
    struct Timespec {
        seconds: i64,
        nanoseconds: i64,
    }
    extern "C" {
        fn clock_gettime(clock: i32, time: *mut Timespec) -> i32;
    }
    const CLOCK_THREAD_CPUTIME_ID: i32 = 3;
    let mut time = Timespec { seconds: 0, nanoseconds: 0 };
    assert_eq!(unsafe { clock_gettime(CLOCK_THREAD_CPUTIME_ID, &mut time) }, 0);
    (time.seconds * 1_000_000_000 + time.nanoseconds) as u64
}

/// ORACLE_ROUNDS, or 301.
pub fn rounds() -> usize {
    std::env::var("ORACLE_ROUNDS").ok().and_then(|s| s.parse().ok()).unwrap_or(301)
}

/// The median of each contender, in ns for one pass.
pub fn medians(rounds: usize, contenders: &mut [Contender]) -> Vec<f64> {
    let agreed = (contenders[0].1)();
    let mut passes = vec![];
    for (name, run) in contenders.iter_mut() {
        let start = now();
        assert_eq!(run(), agreed, "{name} gives another answer than the first");
        passes.push((SAMPLE / (now() - start).max(1)).max(1));
    }
    let mut times = vec![vec![]; contenders.len()];
    for round in 0..rounds {
        for i in 0..contenders.len() {
            let at = (i + round) % contenders.len();
            let run = &mut contenders[at].1;
            let start = now();
            for _ in 0..passes[at] {
                std::hint::black_box(run());
            }
            times[at].push((now() - start) as f64 / passes[at] as f64);
        }
    }
    times.into_iter().map(median).collect()
}

pub fn median(mut v: Vec<f64>) -> f64 {
    v.sort_by(|a, b| a.total_cmp(b));
    v[v.len() / 2]
}

/// One line: what each contender comes to, and how often the others' time goes into the first's.
pub fn report(what: &str, contenders: &[Contender], ns: &[f64], shown: impl Fn(f64) -> f64) {
    let mut line = format!("{what:46}");
    for ((name, _), t) in contenders.iter().zip(ns) {
        line += &format!(" {name} {:8.2}", shown(*t));
    }
    for ((name, _), t) in contenders.iter().zip(ns).skip(1) {
        line += &format!("  {}/{name} {:5.2}", contenders[0].0, ns[0] / t);
    }
    println!("{line}");
}

/// How busy the machine is, as far as it says.
pub fn load() -> String {
    std::fs::read_to_string("/proc/loadavg").map_or("unknown".into(), |s| s.split(' ').take(3).collect::<Vec<_>>().join(" "))
}
