//! P4 and P11 from Rust. The cut is real: a child that claims, saves and takes answers in a loop is killed at random moments, and after each kill
//! the file recovers to a table that it had announced before or during its last save.
use ecchjulmina::inflight::{Answered, ClaimError, InFlight, NotWaiting, IDENTIFIERS};
use ecchjulmina::journal::Journal;
use ecchjulmina::{PubAck, PubComp, PubRec, PubRecReason, QoS};
use std::io::{BufRead, BufReader, Write};
use std::process::{Command, Stdio};
use std::time::Duration;

#[test]
fn answers_in_another_order() {
    let mut out = InFlight::new();
    assert_eq!(out.claim(QoS::AtMostOnce), Err(ClaimError::NoClaim));
    for id in 1..=IDENTIFIERS as u16 {
        assert_eq!(out.claim(if id % 2 == 0 { QoS::ExactlyOnce } else { QoS::AtLeastOnce }), Ok(id));
    }
    assert_eq!(out.claim(QoS::AtLeastOnce), Err(ClaimError::InFlightFull));
    assert_eq!(out.puback(&PubAck::new(2, None)), Err(NotWaiting));
    assert_eq!(out.pubrec(&PubRec::new(2, None)), Ok(Answered::Moved));
    assert_eq!(out.pubrec(&PubRec::new(2, None)), Err(NotWaiting));
    assert_eq!(out.pubcomp(&PubComp::new(2, None)), Ok(Answered::Freed));
    let mut refused = PubRec::new(4, None);
    refused.reason = PubRecReason::QuotaExceeded;
    assert_eq!(out.pubrec(&refused), Ok(Answered::Freed));
    assert_eq!(out.waiting(), IDENTIFIERS - 2);
    assert_eq!(out.claim(QoS::AtLeastOnce), Ok(2));
    assert_eq!(InFlight::from_bytes(out.as_bytes()), Some(out.clone()));
    assert_eq!(InFlight::from_bytes(&[4; IDENTIFIERS]), None);
}

fn line(table: &InFlight) -> String {
    table.as_bytes().iter().map(|w| (b'0' + w) as char).collect()
}

/// The child: says each table before it saves it, and after.
#[test]
fn child() {
    let Ok(path) = std::env::var("JOURNAL_CHILD") else { return };
    let mut journal = Journal::open(&path).unwrap();
    let mut table = journal.recover().map_or_else(InFlight::new, |r| r.table);
    let mut say = std::io::stdout().lock();
    let mut n = std::process::id();
    loop {
        n = n.wrapping_mul(1664525).wrapping_add(1013904223);
        let id = 1 + (n >> 8) as u16 % 40;
        match n >> 30 {
            0 => drop(table.claim(QoS::AtLeastOnce)),
            1 => drop(table.claim(QoS::ExactlyOnce)),
            2 => drop(table.pubrec(&PubRec::new(id, None))),
            _ => drop(table.puback(&PubAck::new(id, None)).or_else(|_| table.pubcomp(&PubComp::new(id, None)))),
        }
        writeln!(say, "\ntry {}", line(&table)).unwrap();
        say.flush().unwrap();
        let number = journal.save(&table).unwrap();
        writeln!(say, "\ndone {number}").unwrap();
        say.flush().unwrap();
    }
}

#[test]
fn killed_at_random() {
    let path = std::env::temp_dir().join(format!("killed-{}.journal", std::process::id()));
    let kills = std::env::var("KILLS").ok().and_then(|k| k.parse().ok()).unwrap_or(200);
    let (mut saves, mut tails) = (0, 0);
    for blocks in [2, 3] {
        Journal::start(&path, blocks).unwrap();
        let mut before: Option<(u64, String)> = None;
        for kill in 0..kills / 2 {
            let mut child = Command::new(std::env::current_exe().unwrap())
                .args(["child", "--exact", "--nocapture", "--test-threads=1"])
                .env("JOURNAL_CHILD", &path)
                .stdout(Stdio::piped())
                .stderr(Stdio::null())
                .spawn()
                .unwrap();
            let lines = BufReader::new(child.stdout.take().unwrap()).lines();
            let reader = std::thread::spawn(move || lines.map_while(Result::ok).collect::<Vec<_>>());
            std::thread::sleep(Duration::from_micros(3_000 + (kill * 7919 % 40_000)));
            child.kill().unwrap();
            child.wait().unwrap();
            // the last table that was saved for certain, and the one that was being saved
            let (mut done, mut during) = (before.clone(), None);
            for l in reader.join().unwrap() {
                if let Some(t) = l.strip_prefix("try ").filter(|t| t.len() == IDENTIFIERS) {
                    during = Some(t.to_string());
                } else if let Some(n) = l.strip_prefix("done ") {
                    if let (Ok(n), Some(t)) = (n.parse(), during.take()) {
                        done = Some((n, t));
                        saves += 1;
                    }
                }
            }
            let got = Journal::open(&path).unwrap().recover().map(|r| (r.number, line(&r.table)));
            let next = during.map(|t| (done.as_ref().map_or(1, |d| d.0 + 1), t));
            tails += usize::from(next.is_some());
            assert!(got == done || (next.is_some() && got == next), "after kill {kill}: {got:?}, not {done:?} or {next:?}");
            before = got;
        }
    }
    std::fs::remove_file(&path).unwrap();
    println!("{kills} kills, {saves} saves seen done, {tails} under way");
    assert!(saves > 0);
}
