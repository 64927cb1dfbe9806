//! Three messages sent, and their answers taken in another order; the table is kept in a journal all the while.
use ecchjulmina::inflight::{Answered, InFlight};
use ecchjulmina::journal::Journal;
use ecchjulmina::{PubAck, PubComp, PubRec, QoS};

fn main() {
    let path = std::env::temp_dir().join(format!("answers-{}.journal", std::process::id()));
    let mut journal = Journal::start(&path, 2).unwrap();
    let mut out = InFlight::new();
    let first = out.claim(QoS::AtLeastOnce).unwrap();
    let second = out.claim(QoS::ExactlyOnce).unwrap();
    let third = out.claim(QoS::AtLeastOnce).unwrap();
    println!("sent {first}, {second} and {third}; waiting: {:?}", out);
    println!("saved under number {}", journal.save(&out).unwrap());
    assert_eq!(out.puback(&PubAck::new(third, None)), Ok(Answered::Freed));
    assert_eq!(out.pubrec(&PubRec::new(second, None)), Ok(Answered::Moved));
    assert_eq!(out.puback(&PubAck::new(first, None)), Ok(Answered::Freed));
    println!("answered {third}, {second}, {first}; waiting: {:?}", out);
    assert_eq!(out.pubcomp(&PubComp::new(second, None)), Ok(Answered::Freed));
    println!("completed {second}; {} waiting", out.waiting());
    println!("saved under number {}", journal.save(&out).unwrap());
    let back = Journal::open(&path).unwrap().recover().unwrap();
    println!("after a cut: number {}, {} waiting", back.number, back.table.waiting());
    std::fs::remove_file(&path).unwrap();
}
