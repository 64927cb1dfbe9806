//! 02's P13, the other way round: 100,000 Publish records with 40-byte payloads and two user properties, written by the port (port) and by
//! the trimmed text of the crate (crate), one call a record: one behind the other, then into a short output that is used again, then the
//! first 1,000 a hundred times. Built without the feature `speed_writing`, the port is left out.
use bytes::BytesMut;
use oracle::codec::Packet;
use oracle::timing::{load, median, now, rounds};
use oracle::{streams, QoS};
use std::hint::black_box;

#[cfg(feature = "speed_writing")]
mod port {
    use super::Lent;
    #[link(name = "speed_writing", kind = "static")]
    extern "C" {
        #[rustfmt::skip]
        fn speed_writing_publish(
            pkid: u16, topic: *const u8, topic_len: usize, user: *const u8, user_len: usize, lengths: *const usize, lengths_len: usize,
            payload: *const u8, payload_len: usize, out: *mut u8, out_len: usize,
        ) -> usize;
    }
    /// The size of the frame that was put at the start of `out`, or 0.
    #[inline(always)]
    #[rustfmt::skip]
    pub fn write(m: &Lent, out: &mut [u8]) -> usize {
        unsafe {
            speed_writing_publish(
                m.pkid, m.topic.as_ptr(), m.topic.len(), m.user.as_ptr(), m.user.len(), m.lengths.as_ptr(), m.lengths.len(),
                m.payload.as_ptr(), m.payload.len(), out.as_mut_ptr(), out.len(),
            )
        }
    }
}

/// A record as it is lent to the port, its user properties as one run of bytes and their lengths.
pub struct Lent<'a> {
    pkid: u16,
    topic: &'a [u8],
    user: &'a [u8],
    lengths: &'a [usize],
    payload: &'a [u8],
}

/// The parts of all records, one kind of part behind the other, as a desk that lends them would keep them.
#[derive(Default)]
struct Parts {
    users: Vec<u8>,
    lengths: Vec<usize>,
    payloads: Vec<u8>,
    // where the parts of a record end, and its identifier
    ends: Vec<(usize, usize, usize, u16)>,
}

fn parts(packets: &[Packet]) -> Parts {
    let mut p = Parts::default();
    for m in packets {
        let Packet::Publish(m) = m else { panic!("a Publish") };
        for s in m.properties.as_ref().unwrap().user_properties.iter().flat_map(|(k, v)| [k, v]) {
            p.users.extend(s.bytes());
            p.lengths.push(s.len());
        }
        p.payloads.extend(&m.payload);
        p.ends.push((p.users.len(), p.lengths.len(), p.payloads.len(), m.pkid));
    }
    p
}

fn lent(p: &Parts) -> Vec<Lent<'_>> {
    let mut at = (0, 0, 0);
    let mut all = vec![];
    for &(u, l, b, pkid) in &p.ends {
        all.push(Lent { pkid, topic: streams::TOPIC, user: &p.users[at.0..u], lengths: &p.lengths[at.1..l], payload: &p.payloads[at.2..b] });
        at = (u, l, b);
    }
    all
}

/// What each contender has: the records in its own form, and an output of its own that keeps its room.
struct Desk<'a> {
    packets: &'a [Packet],
    lent: Vec<Lent<'a>>,
    kept: BytesMut,
    out: Vec<u8>,
    // how often all records are written
    times: usize,
}

/// The sizes and last bytes, added; `again` says whether each record is written over the one before.
#[inline(never)]
fn text(d: &mut Desk, again: bool) -> u64 {
    d.kept.clear();
    let mut sum = 0u64;
    for m in (0..d.times).flat_map(|_| d.packets) {
        if again {
            d.kept.clear();
        }
        let n = m.write(&mut d.kept, None).unwrap();
        sum = sum.wrapping_add(n as u64 + d.kept[d.kept.len() - 1] as u64);
    }
    sum
}

#[cfg(feature = "speed_writing")]
#[inline(never)]
fn ported(d: &mut Desk, again: bool) -> u64 {
    let (mut at, mut sum) = (0, 0u64);
    for m in (0..d.times).flat_map(|_| &d.lent) {
        let n = port::write(m, &mut d.out[at..]);
        sum = sum.wrapping_add(n as u64 + d.out[at + n - 1] as u64);
        at = if again { 0 } else { at + n };
    }
    sum
}

/// A writer of all records.
type Writer = (&'static str, fn(&mut Desk, bool) -> u64);

fn writers() -> Vec<Writer> {
    vec![
        #[cfg(feature = "speed_writing")]
        ("port", ported),
        ("crate", text),
    ]
}

/// The median of each writer in ns for all records. They write in turn, and agree.
fn medians(d: &mut Desk, again: bool, rounds: usize) -> Vec<f64> {
    let writers = writers();
    let mut times = vec![vec![]; writers.len()];
    let agreed = text(d, again);
    for _ in 0..rounds {
        for (i, (name, write)) in writers.iter().enumerate() {
            let start = now();
            let sum = write(black_box(d), again);
            times[i].push((now() - start) as f64);
            assert_eq!(sum, agreed, "{name} gives another sum than the crate");
        }
    }
    times.into_iter().map(median).collect()
}

/// `count` records, `times` times, each over the one before or one behind the other.
fn records(count: usize, times: usize, again: bool, qos: QoS) {
    let packets: Vec<Packet> = streams::records(count, qos).into_iter().map(Packet::Publish).collect();
    let frames = streams::publishes(count, qos);
    let parts = parts(&packets);
    let room = if again { 128 } else { frames.len() * times };
    let mut d = Desk { packets: &packets, lent: lent(&parts), kept: BytesMut::with_capacity(room), out: vec![0; room], times };
    let ns = medians(&mut d, again, rounds().min(101));
    let how = if again { "one output for each" } else { "one behind the other" };
    println!("{qos:?}, {count} records of {} bytes, {times} times, {how}", frames.len() / count);
    for ((name, _), t) in writers().iter().zip(&ns) {
        println!("  {name:6} {:8.2} ns a record, {:6.2} of port", t / (count * times) as f64, t / ns[0]);
    }
    if cfg!(feature = "speed_writing") && !again {
        assert!(d.out == frames[..].repeat(times), "the port's bytes are not the crate's");
    }
}

fn main() {
    println!("load {}; medians of {} rounds", load(), rounds().min(101));
    if cfg!(not(feature = "speed_writing")) {
        println!("the port is not linked: its crate speed_writing is not there");
    }
    for qos in [QoS::AtMostOnce, QoS::AtLeastOnce] {
        records(100_000, 1, false, qos);
        records(100_000, 1, true, qos);
        // all of it stays in the cache
        records(1_000, 100, true, qos);
    }
    println!("load {}", load());
}
