//! Topics by alias: a stream as a broker sends it, each refusal at its edges, and random messages against a map of Rust's own.
use bytes::BytesMut;
use ecchjulmina::{places, AliasError, Aliases, Packet};
use std::collections::HashMap;

/// a/b with alias 5, then none with alias 5, then c with alias 5, then none again.
const STREAM: &[u8] = b"\x30\x0A\x00\x03a/b\x03\x23\x00\x051\
    \x30\x07\x00\x00\x03\x23\x00\x052\
    \x30\x08\x00\x01c\x03\x23\x00\x053\
    \x30\x07\x00\x00\x03\x23\x00\x054";

#[test]
fn a_stream() {
    let mut stream = BytesMut::from(STREAM);
    let mut aliases = Aliases::new();
    let mut topics = Vec::new();
    while !stream.is_empty() {
        let Packet::Publish(m) = Packet::read(&mut stream, None).unwrap() else { panic!() };
        let topic = aliases.publish(&m).unwrap();
        assert!(m.topic.is_empty() || topic.as_ptr() == m.topic.as_ptr());
        topics.push(topic);
    }
    assert_eq!(topics, ["a/b", "a/b", "c", "c"]);
}

#[test]
fn no_copy() {
    let (mut rest, mut aliases, mut n) = (STREAM, Aliases::new(), 0);
    while !rest.is_empty() {
        let (record, taken) = places::read(rest, None);
        let record = record.unwrap();
        let (topic, alias) = (record.topic(), record.topic_alias());
        let before = aliases.topic_in_force(topic, alias).map(<[u8]>::to_vec);
        aliases.learn(topic, alias).unwrap();
        let force = aliases.topic_in_force(topic, alias).unwrap();
        assert_eq!(before.unwrap(), force);
        if n % 2 == 0 {
            assert_eq!(force.as_ptr(), topic.as_ptr());
        } else {
            assert_eq!(force.as_ptr(), aliases.table()[4 * 129 + 1..].as_ptr());
        }
        rest = &rest[taken..];
        n += 1;
    }
    assert_eq!(n, 4);
}

#[test]
fn refusals() {
    let mut aliases = Aliases::new();
    let long = [b'a'; 129];
    let rows: [(&[u8], Option<u16>, AliasError); 7] = [
        (b"", Some(0), AliasError::AliasInvalid),
        (b"a", Some(17), AliasError::AliasInvalid),
        (&long, Some(65535), AliasError::AliasInvalid),
        (b"", None, AliasError::TopicMissing),
        (b"", Some(1), AliasError::AliasUnknown),
        (b"", Some(16), AliasError::AliasUnknown),
        (&long, Some(16), AliasError::AliasNoRoom),
    ];
    for (topic, alias, e) in rows {
        assert_eq!(aliases.topic_in_force(topic, alias), Err(e));
        assert_eq!(aliases.learn(topic, alias), Err(e));
        assert!(aliases.table().iter().all(|b| *b == 0));
    }
    assert_eq!(aliases.learn(&long, None), Ok(()));
    let mut table = [0; 2064];
    table[15 * 129] = 129;
    let mut bad = Aliases::from_table(table);
    assert_eq!(bad.learn(b"a", None), Err(AliasError::AliasTableBad));
    assert_eq!(bad.topic_in_force(b"", Some(0)), Err(AliasError::AliasTableBad));
    assert_eq!(bad.table(), &table);
    use AliasError::*;
    assert_eq!([24, 25, 26, 27, 28], [AliasTableBad, AliasInvalid, TopicMissing, AliasUnknown, AliasNoRoom].map(AliasError::number));
}

/// What 02 says, over a map.
fn expected(known: &HashMap<u16, Vec<u8>>, topic: &[u8], alias: Option<u16>) -> Result<Vec<u8>, AliasError> {
    match alias {
        Some(a) if !(1..=16).contains(&a) => Err(AliasError::AliasInvalid),
        None if topic.is_empty() => Err(AliasError::TopicMissing),
        Some(a) if topic.is_empty() => known.get(&a).cloned().ok_or(AliasError::AliasUnknown),
        Some(_) if topic.len() > 128 => Err(AliasError::AliasNoRoom),
        _ => Ok(topic.to_vec()),
    }
}

#[test]
fn any_messages() {
    let mut x = 0x9E37_79B9_7F4A_7C15u64;
    let mut next = move |n: u64| {
        x ^= x << 13;
        x ^= x >> 7;
        x ^= x << 17;
        (x >> 11) % n
    };
    for _ in 0..200 {
        let (mut aliases, mut known) = (Aliases::new(), HashMap::new());
        for _ in 0..500 {
            let alias = (next(8) > 0).then(|| next(19) as u16);
            let len = match next(4) {
                0 | 1 => 0,
                2 => next(12),
                _ => 120 + next(16),
            };
            let topic: Vec<u8> = (0..len).map(|_| next(256) as u8).collect();
            let want = expected(&known, &topic, alias);
            let before = *aliases.table();
            assert_eq!(aliases.topic_in_force(&topic, alias).map(<[u8]>::to_vec), want);
            assert_eq!(aliases.learn(&topic, alias), want.clone().map(|_| ()));
            assert_eq!(aliases.topic_in_force(&topic, alias).map(<[u8]>::to_vec), want);
            match (want, alias) {
                (Ok(_), Some(a)) if !topic.is_empty() => {
                    known.insert(a, topic);
                }
                _ => assert_eq!(&before, aliases.table()),
            }
        }
        for a in 1..=16 {
            let slot = (a as usize - 1) * 129;
            let len = aliases.table()[slot] as usize;
            assert_eq!(known.get(&a).map_or(0, Vec::len), len);
            assert_eq!(known.get(&a).map_or(&[][..], |t| t), &aliases.table()[slot + 1..slot + 1 + len]);
        }
    }
}
