//! The length desk: reads the stream in the file named first, and prints each length record's topic and its length in whole metres. A record's
//! payload is a count of decimetres, big-endian, of one to four bytes. A record that is refused is named, and no length is made up for it.
use ecchjulmina::places::{read, Kind, Record};
use ecchjulmina::Aliases;

/// The count, rounded half up to metres.
fn metres(count: &[u8]) -> Option<u64> {
    (1..=4).contains(&count.len()).then(|| (count.iter().fold(0, |n, b| n << 8 | u64::from(*b)) + 5) / 10)
}

/// A refusal's number and name.
fn named(number: u32, error: impl std::fmt::Debug) -> String {
    let shape = format!("{error:?}");
    format!("refused {number} {}", shape.split(['(', ' ']).next().unwrap_or(""))
}

/// Topic and length, or why there is none.
fn length(r: &Record, aliases: &mut Aliases) -> Result<String, String> {
    let named = |e: ecchjulmina::AliasError| named(e.number(), e);
    aliases.learn(r.topic(), r.topic_alias()).map_err(named)?;
    let topic = aliases.topic_in_force(r.topic(), r.topic_alias()).map_err(named)?;
    let metres = metres(r.payload()).ok_or(format!("{} bytes are no count", r.payload().len()))?;
    Ok(format!("{} {metres} m", String::from_utf8_lossy(topic)))
}

fn main() {
    let path = std::env::args().nth(1).expect("a file with MQTT 5 frames");
    let stream = std::fs::read(&path).expect("the file can be read");
    let mut aliases = Aliases::new();
    let (mut at, mut lengths, mut none) = (0, 0, 0);
    while at < stream.len() {
        let (answer, taken) = read(&stream[at..], None);
        let said = match &answer {
            Ok(r) if r.kind() == Kind::Publish => Some(length(r, &mut aliases)),
            Ok(_) => None,
            Err(e) => Some(Err(named(e.number() as u32, e))),
        };
        match said {
            Some(Ok(length)) => {
                println!("{at} {length}");
                lengths += 1;
            }
            Some(Err(why)) => {
                println!("{at} no length: {why}");
                none += 1;
            }
            None => {}
        }
        if taken == 0 {
            break;
        }
        at += taken;
    }
    println!("{lengths} lengths, {none} records without one");
}
