use bytes::BytesMut;
use oracle::codec::*;
use oracle::Error;
fn rd(b: &[u8]) -> (Result<Packet, Error>, usize) {
    let mut s = BytesMut::from(b);
    let r = Packet::read(&mut s, None);
    (r, b.len() - s.len())
}
fn publish(b: &[u8]) -> Publish {
    match rd(b).0.unwrap() {
        Packet::Publish(p) => p,
        _ => panic!(),
    }
}
#[test] // D1: property 11 counted twice; the third one-byte identifier stays in the payload
fn d1_publish() {
    let p = publish(&[0x30, 0x0B, 0, 1, 0x61, 6, 0x0B, 1, 0x0B, 2, 0x0B, 3, 7]);
    assert_eq!(p.properties.unwrap().subscription_identifiers, vec![1, 2]);
    assert_eq!(&p.payload[..], &[0x0B, 3, 7]);
}
#[test] // D1 in Subscribe: block L = 3 with 0B 01 and one byte more: the byte becomes part of the filters
fn d1_subscribe() {
    let (r, t) = rd(&[0x82, 0x0A, 0, 1, 3, 0x0B, 1, 0, 1, 0x61, 1, 0]);
    assert_eq!(t, 12);
    assert!(matches!(r, Err(Error::MalformedPacket)), "{:?}", r);
    let (r, _) = rd(&[0x82, 0x09, 0, 1, 3, 0x0B, 1, 0, 1, 0x61, 1]);
    match r.unwrap() {
        Packet::Subscribe(s) => {
            assert_eq!(s.filters[0].path, "a");
            assert_eq!(s.properties.unwrap().id, Some(1));
        }
        _ => panic!(),
    }
}
#[test] // D2: the last property runs past L into the payload
fn d2_past_block() {
    let p = publish(&[0x30, 6, 0, 1, 0x61, 1, 1, 0]); // L = 1, identifier 1, its value outside of the block
    assert_eq!(p.properties.unwrap().payload_format_indicator, Some(0));
    assert!(p.payload.is_empty());
}
#[test] // D2: L exceeds the frame
fn d2_l_beyond_frame() {
    let (r, t) = rd(&[0x30, 6, 0, 1, 0x61, 0x7F, 1, 0]);
    assert!(matches!(r, Err(Error::MalformedPacket)));
    assert_eq!(t, 8);
}
#[test] // D3
fn d3() {
    let (r, t) = rd(&[0x30, 4, 0, 1, 0x61, 0x80]);
    assert!(matches!(r, Err(Error::InsufficientBytes(1))));
    assert_eq!(t, 6);
    let (r, t) = rd(&[0x30, 3, 0, 1, 0x61]);
    assert!(matches!(r, Err(Error::InsufficientBytes(1))));
    assert_eq!(t, 5);
}
#[test] // D4, D5, D6, D7
fn writers() {
    let mut b = BytesMut::new();
    let mut p = Publish::new("a", oracle::QoS::AtLeastOnce, vec![1u8], None);
    assert!(matches!(Packet::Publish(p.clone()).write(&mut b, None), Err(Error::PacketIdZero)));
    assert_eq!(&b[..], &[0x32, 5, 0, 1, 0x61]); // D4; R leaves the identifier out
    p.pkid = 1;
    p.properties = Some(PublishProperties {
        subscription_identifiers: vec![268_435_456],
        ..Default::default()
    });
    b.clear();
    assert!(matches!(Packet::Publish(p.clone()).write(&mut b, None), Err(Error::PayloadTooLong)));
    assert!(!b.is_empty());
    assert_eq!(p.size(), 2 + 3 + 2 + 1 + 5 + 1);
    let p = Publish::new("x".repeat(65_537), oracle::QoS::AtMostOnce, vec![], None);
    b.clear();
    assert_eq!(p.write(&mut b).unwrap(), p.size());
    assert_eq!(&b[4..6], &[0, 1]); // D5
    let s = Subscribe {
        pkid: 1,
        filters: vec![],
        properties: None,
    };
    b.clear();
    s.write(&mut b).unwrap();
    assert_eq!(&b[..], &[0x82, 3, 0, 1, 0]); // D6
    let big = Publish {
        payload: bytes::Bytes::from(vec![0u8; 268_435_453]),
        topic: bytes::Bytes::new(),
        ..Default::default()
    };
    assert_eq!(big.size(), 1 + 4 + 268_435_456); // no refusal from size
    b.clear();
    assert!(matches!(
        Packet::Publish(big.clone()).write(&mut b, Some(5)),
        Err(Error::OutgoingPacketTooLarge {
            pkt_size: 268_435_461,
            max: 5
        })
    )); // D7
    assert!(matches!(Packet::Publish(big).write(&mut b, None), Err(Error::PayloadTooLong)));
    assert_eq!(&b[..], &[0x30]);
    let ok = Publish {
        payload: bytes::Bytes::from(vec![0u8; 268_435_452]),
        topic: bytes::Bytes::new(),
        ..Default::default()
    };
    b.clear();
    assert_eq!(ok.write(&mut b).unwrap(), 268_435_460);
}
#[test] // 14 to 16: the text gives another error for a bad reason of an acknowledgement, and tests it after the properties
fn acknowledgements() {
    for first in [0x40, 0x50, 0x62, 0x70] {
        let (r, _) = rd(&[first, 3, 0, 1, 1]);
        assert!(matches!(r, Err(Error::InvalidConnectReturnCode(1))));
        let (r, _) = rd(&[first, 5, 0, 1, 1, 1, 0xFF]);
        assert!(matches!(r, Err(Error::InvalidPropertyType(255)))); // 01: 15
        let (r, _) = rd(&[first, 5, 0, 1, 0, 0, 0xFF]);
        assert!(r.is_ok()); // bytes after the block; 01: 7
    }
}
#[test] // 30: the limit is held to R
fn p2() {
    let read = |limit| {
        Packet::read(
            &mut BytesMut::from(&[0x30, 8, 0, 3, 0x61, 0x2F, 0x62, 0, 0x68, 0x69][..]),
            Some(limit),
        )
    };
    assert!(read(8).is_ok()); // 02: 3 with 10 and 8
    assert!(matches!(read(7), Err(Error::PayloadSizeLimitExceeded { pkt_size: 8, max: 7 })));
}
#[test] // 31: a number may have more bytes than it needs, as R, as L and as an identifier
fn p8() {
    let (r, t) = rd(&[0x30, 0x80, 0]);
    assert!(matches!(r, Err(Error::PayloadRequired))); // 02: 2
    assert_eq!(t, 3); // 02: 0
    assert!(publish(&[0x30, 4, 0, 0, 0x80, 0]).properties.is_none());
    let p = publish(&[0x30, 6, 0, 0, 3, 0x0B, 0x81, 0]);
    assert_eq!(p.properties.unwrap().subscription_identifiers, vec![1]);
}
#[test] // 32 to 34: a doubled property, a subscription identifier 0, U+0000; read, and the last two written
fn p9() {
    let p = publish(&[0x30, 7, 0, 0, 4, 1, 0, 1, 1]);
    assert_eq!(p.properties.unwrap().payload_format_indicator, Some(1)); // 02: 22
    let zero = publish(&[0x30, 5, 0, 0, 2, 0x0B, 0]);
    assert_eq!(zero.properties.as_ref().unwrap().subscription_identifiers, vec![0]); // 02: 23
    let frame = [0xA2, 6, 0, 0, 0, 0, 1, 0];
    let nul = rd(&frame).0.unwrap();
    assert!(matches!(&nul, Packet::Unsubscribe(u) if u.filters == ["\0"])); // 02: 9
    let mut b = BytesMut::new();
    nul.write(&mut b, None).unwrap();
    assert_eq!(&b[..], &frame);
    b.clear();
    zero.write(&mut b).unwrap();
    assert_eq!(&b[..], &[0x30, 5, 0, 0, 2, 0x0B, 0]);
}
#[test] // 35 to 38: reasons and entries of SubAck, Unsubscribe and UnsubAck
fn entries() {
    for first in [0x90, 0xB0] {
        let (r, _) = rd(&[first, 4, 0, 0, 0, 3]);
        assert!(matches!(r, Err(Error::InvalidSubscribeReasonCode(3)))); // 02: 15
        let (r, _) = rd(&[first, 3, 0, 0, 0]);
        assert!(matches!(r, Err(Error::MalformedPacket))); // 02: 13
    }
    let none = rd(&[0xA2, 3, 0, 0, 0]).0.unwrap(); // 02: 13
    let mut b = BytesMut::new();
    none.write(&mut b, None).unwrap();
    assert_eq!(&b[..], &[0xA2, 3, 0, 0, 0]);
    let suback = |return_codes| SubAck {
        pkid: 0,
        return_codes,
        properties: None,
    };
    b.clear();
    suback(vec![]).write(&mut b).unwrap(); // 02: 13
    assert_eq!(&b[..], &[0x90, 3, 0, 0, 0]);
    b.clear();
    suback(vec![SubscribeReasonCode::Failure, SubscribeReasonCode::Unspecified])
        .write(&mut b)
        .unwrap();
    assert_eq!(&b[..], &[0x90, 5, 0, 0, 0, 0x80, 0x80]); // 39: two names
}

/// 40 and 41: the crate's text alone; `oracle/compare topics --listed` has the port beside it.
#[test]
fn topics_that_begin_with_a_dollar_or_a_wide_character() {
    use oracle::v5::mqttbytes::{matches, valid_filter, valid_topic};
    assert!(!matches("$", "$") && !matches("$a/b", "$a/#") && !matches("$", "#"));
    assert!(std::panic::catch_unwind(|| matches("é", "#")).is_err());
    assert!(std::panic::catch_unwind(|| matches("é", "")).is_err());
    assert!(matches("aé", "#"));
    // alike, and not as MQTT words it
    assert!(valid_topic("") && !valid_filter("") && matches("a/b", "a/#/c") && matches("a#", "a#") && !matches("#", "+"));
    assert!(valid_filter("$share/g/a") && valid_filter("$share/g") && !matches("a", "$share/g/a"));
}
