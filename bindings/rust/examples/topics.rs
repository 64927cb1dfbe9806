//! Reads a stream of MQTT 5 frames from the file named first, and prints topic and payload length of each Publish, the topics of each
//! Unsubscribe, and each refusal.
use ecchjulmina::places::{read, Kind};

fn main() {
    let path = std::env::args().nth(1).expect("a file with MQTT 5 frames");
    let stream = std::fs::read(&path).expect("the file can be read");
    let mut at = 0;
    while at < stream.len() {
        let (answer, taken) = read(&stream[at..], None);
        match answer {
            Ok(r) if r.kind() == Kind::Publish => println!("{at}: {} {}", String::from_utf8_lossy(r.topic()), r.payload().len()),
            Ok(r) if r.kind() == Kind::Unsubscribe => r.topics().for_each(|t| println!("{at}: leaves {}", String::from_utf8_lossy(t))),
            Ok(_) => {}
            Err(e) => println!("{at}: refusal {}: {e}", e.number()),
        }
        if taken == 0 {
            break;
        }
        at += taken;
    }
}
