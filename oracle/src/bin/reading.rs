//! 02's P13: a stream of 100,000 Publish frames with 40-byte payloads and two user properties, read frame after frame by the port, the
//! trimmed text of the crate (crate) and the hand-written reader, with std's text validator behind a test for ASCII (hand) and byte by byte
//! (plain). Then the worst cases at n and 2n. Built without the feature `speed_reading`, the port is left out.
use bytes::BytesMut;
use oracle::codec::Packet;
use oracle::timing::{load, median, now, rounds};
use oracle::{limit, streams, QoS};
use std::hint::black_box;

#[cfg(feature = "speed_reading")]
mod port {
    #[link(name = "speed_reading", kind = "static")]
    extern "C" {
        fn speed_reading_sum(stream: *const u8, len: usize) -> u64;
    }
    /// Of the frames up to the first refusal: the bytes taken, and the lengths of topic and payload of each Publish.
    pub fn read(stream: &[u8]) -> u64 {
        unsafe { speed_reading_sum(stream.as_ptr(), stream.len()) }
    }
}

/// The same sum with the hand-written reader.
#[inline(never)]
fn hand<const FAST: bool>(stream: &[u8]) -> u64 {
    let (mut at, mut sum) = (0, 0u64);
    while at < stream.len() {
        let (answer, taken) = limit::read::<FAST>(&stream[at..], None);
        match answer {
            Ok(limit::Rec::Publish(p)) => sum = sum.wrapping_add((p.topic.len() + p.payload.len()) as u64),
            Ok(_) => {}
            Err(_) => return sum,
        }
        sum = sum.wrapping_add(taken as u64);
        at += taken;
    }
    sum
}

/// The same sum with the crate's text, which uses the stream up.
#[inline(never)]
fn text(stream: &mut BytesMut) -> u64 {
    let mut sum = 0u64;
    while !stream.is_empty() {
        let held = stream.len();
        match Packet::read(stream, None) {
            Ok(Packet::Publish(p)) => sum = sum.wrapping_add((black_box(&p).topic.len() + p.payload.len()) as u64),
            Ok(p) => {
                black_box(&p);
            }
            Err(_) => return sum,
        }
        sum = sum.wrapping_add((held - stream.len()) as u64);
    }
    sum
}

/// A reader of a whole stream; the crate's gets a copy of its own, made, and so touched, outside of the time.
type Reader = (&'static str, fn(&[u8], &mut BytesMut) -> u64);

fn readers() -> Vec<Reader> {
    vec![
        #[cfg(feature = "speed_reading")]
        ("port", |s, _| port::read(s)),
        ("hand", |s, _| hand::<true>(s)),
        ("plain", |s, _| hand::<false>(s)),
        ("crate", |_, copy| text(copy)),
    ]
}

/// The median of each reader in ns for the stream. They read in turn, forth and back, twice each, and the second time
/// counts, so that none pays for what the one before it left of caches and time slice. They agree unless `apart`.
fn medians(stream: &[u8], readers: &[Reader], rounds: usize, apart: bool) -> Vec<f64> {
    let mut times = vec![vec![]; readers.len()];
    let agreed = hand::<true>(black_box(stream));
    for round in 0..rounds {
        for turn in 0..readers.len() {
            let i = if round % 2 == 0 { turn } else { readers.len() - 1 - turn };
            let (name, read) = &readers[i];
            let mut taken = 0;
            for _ in 0..2 {
                let mut copy = if *name == "crate" { BytesMut::from(stream) } else { BytesMut::new() };
                let start = now();
                let sum = read(black_box(stream), black_box(&mut copy));
                taken = now() - start;
                assert!(apart || sum == agreed, "{name} gives {sum}, hand {agreed}");
            }
            times[i].push(taken as f64);
        }
    }
    times.into_iter().map(median).collect()
}

fn stream(what: &str, count: usize, stream: &[u8]) {
    let readers = readers();
    let ns = medians(stream, &readers, rounds().min(101), false);
    println!("{what}: {count} frames of {} bytes", stream.len() / count);
    let hand = ns[readers.iter().position(|r| r.0 == "hand").unwrap()];
    for ((name, _), t) in readers.iter().zip(&ns) {
        println!("  {name:6} {:8.2} ns a frame, {:6.2} of hand", t / count as f64, t / hand);
    }
}

/// Linear in the frame: twice the items, twice the time.
fn worst(what: &str, n: usize, make: fn(usize) -> Vec<u8>, apart: bool) {
    let readers = readers();
    let (one, two) = (make(n), make(2 * n));
    let (a, b) = (
        medians(&one, &readers, rounds().min(101), apart),
        medians(&two, &readers, rounds().min(101), apart),
    );
    println!("{what}: {n} and {} items, frames of {} and {} bytes", 2 * n, one.len(), two.len());
    for (i, (name, _)) in readers.iter().enumerate() {
        println!(
            "  {name:6} {:8.2} and {:8.2} ns an item, 2n/n {:5.2}",
            a[i] / n as f64,
            b[i] / (2 * n) as f64,
            b[i] / a[i]
        );
    }
}

fn main() {
    println!("load {}; medians of {} rounds", load(), rounds().min(101));
    if cfg!(not(feature = "speed_reading")) {
        println!("the port is not linked: its crate speed_reading is not there");
    }
    let count = 100_000;
    stream("QoS 0", count, &streams::publishes(count, QoS::AtMostOnce));
    stream("QoS 1", count, &streams::publishes(count, QoS::AtLeastOnce));
    worst("a block of empty user properties, 1 MiB", 1024 * 1024 / 5, streams::users, false);
    worst("filters", 100_000, streams::filters, false);
    // the crate leaves half of the identifiers in the payload (D1)
    worst("a block of identifiers", 10_000, streams::identifiers, true);
    println!("load {}", load());
}
