//! The length desk of bindings/rust/examples/lengths.rs over the crate's own text: the same stream, the same lines, so that both can be laid side by
//! side. The crate's text keeps no topics by alias; those of an empty topic are left out here.
use bytes::BytesMut;
use oracle::codec::Packet;

fn main() {
    let path = std::env::args().nth(1).expect("a file with MQTT 5 frames");
    let mut stream = BytesMut::from(&std::fs::read(&path).expect("the file can be read")[..]);
    let all = stream.len();
    while !stream.is_empty() {
        let at = all - stream.len();
        match Packet::read(&mut stream, None) {
            Ok(Packet::Publish(m)) if !m.topic.is_empty() => {
                let count = m.payload.iter().fold(0u64, |n, b| n << 8 | u64::from(*b));
                match m.payload.len() {
                    1..=4 => println!("{at} {} {} m", String::from_utf8_lossy(&m.topic), (count + 5) / 10),
                    n => println!("{at} no length: {n} bytes are no count"),
                }
            }
            Ok(_) => {}
            Err(e) => println!("{at} no length: refused, {e}"),
        }
        if all - stream.len() == at {
            break;
        }
    }
}
