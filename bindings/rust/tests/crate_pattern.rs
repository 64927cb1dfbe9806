//! rumqttc's own call pattern: bytes arrive in pieces, `Packet::read` is called until it lacks bytes.
use bytes::{Bytes, BytesMut};
use ecchjulmina::*;

/// As the crate's framed network does it: read while packets come, ask for more on InsufficientBytes, give up on anything else.
fn read_all(pieces: &[&[u8]], max: Option<u32>) -> (Vec<Packet>, Option<Error>) {
    let mut stream = BytesMut::with_capacity(10 * 1024);
    let mut packets = Vec::new();
    for piece in pieces {
        stream.extend_from_slice(piece);
        loop {
            match Packet::read(&mut stream, max) {
                Ok(packet) => packets.push(packet),
                Err(Error::InsufficientBytes(_)) => break,
                Err(e) => return (packets, Some(e)),
            }
        }
    }
    (packets, None)
}

/// The crate's signatures; a difference does not compile.
#[test]
fn signatures_are_the_crates() {
    let _: fn(&mut BytesMut, Option<u32>) -> Result<Packet, Error> = Packet::read;
    let _: fn(&Packet, &mut BytesMut, Option<u32>) -> Result<usize, Error> = Packet::write;
    let _: fn(&Packet) -> usize = Packet::size;
    let _: fn(&Publish, &mut BytesMut) -> Result<usize, Error> = Publish::write;
    let _: fn(&Subscribe, &mut BytesMut) -> Result<usize, Error> = Subscribe::write;
    let _: fn(&PubAck, &mut BytesMut) -> Result<usize, Error> = PubAck::write;
    let _: fn(&PubRec, &mut BytesMut) -> Result<usize, Error> = PubRec::write;
    let _: fn(&PubRel, &mut BytesMut) -> Result<usize, Error> = PubRel::write;
    let _: fn(&PubComp, &mut BytesMut) -> Result<usize, Error> = PubComp::write;
    let _: fn(&SubAck, &mut BytesMut) -> Result<usize, Error> = SubAck::write;
    let _: fn(&Unsubscribe, &mut BytesMut) -> Result<usize, Error> = Unsubscribe::write;
    let _: fn(&UnsubAck, &mut BytesMut) -> Result<usize, Error> = UnsubAck::write;
    let _: fn(&mut BytesMut) -> Result<usize, Error> = PingReq::write;
    let _: fn(&mut BytesMut) -> Result<usize, Error> = PingResp::write;
    let _: fn(&Publish) -> usize = Publish::size;
    let _: fn(&Subscribe) -> usize = Subscribe::size;
    let _: fn(&PubAck) -> usize = PubAck::size;
    let _: fn(&PubRec) -> usize = PubRec::size;
    let _: fn(&PubRel) -> usize = PubRel::size;
    let _: fn(&PubComp) -> usize = PubComp::size;
    let _: fn(&SubAck) -> usize = SubAck::size;
    let _: fn(&Unsubscribe) -> usize = Unsubscribe::size;
    let _: fn(&UnsubAck) -> usize = UnsubAck::size;
    let _: fn(&PingReq) -> usize = PingReq::size;
    let _: fn(&PingResp) -> usize = PingResp::size;
    let _: fn(String, QoS, Vec<u8>, Option<PublishProperties>) -> Publish = Publish::new;
    let _: fn(Filter, Option<SubscribeProperties>) -> Subscribe = Subscribe::new;
    let _: fn(Vec<Filter>, Option<SubscribeProperties>) -> Subscribe = Subscribe::new_many;
    let _: fn(u16, Option<PubAckProperties>) -> PubAck = PubAck::new;
    let _: fn(u16, Option<PubRecProperties>) -> PubRec = PubRec::new;
    let _: fn(u16, Option<PubRelProperties>) -> PubRel = PubRel::new;
    let _: fn(u16, Option<PubCompProperties>) -> PubComp = PubComp::new;
    let _: fn(String, Option<UnsubscribeProperties>) -> Unsubscribe = Unsubscribe::new;
    let _: fn(String, QoS) -> Filter = Filter::new;
    let _: fn(u8) -> Option<QoS> = qos;
    let _: fn(std::slice::Iter<u8>, Option<u32>) -> Result<FixedHeader, Error> = check;
    let _: fn(u8, usize, usize) -> FixedHeader = FixedHeader::new;
    let _: fn(&FixedHeader) -> Result<PacketType, Error> = FixedHeader::packet_type;
    let _: fn(&FixedHeader) -> usize = FixedHeader::frame_length;
    let _: fn(FixedHeader, Bytes) -> Result<Publish, Error> = Publish::read;
    let _: fn(FixedHeader, Bytes) -> Result<PubAck, Error> = PubAck::read;
    let _: fn(FixedHeader, Bytes) -> Result<PubRec, Error> = PubRec::read;
    let _: fn(FixedHeader, Bytes) -> Result<PubRel, Error> = PubRel::read;
    let _: fn(FixedHeader, Bytes) -> Result<PubComp, Error> = PubComp::read;
    let _: fn(FixedHeader, Bytes) -> Result<Subscribe, Error> = Subscribe::read;
    let _: fn(FixedHeader, Bytes) -> Result<SubAck, Error> = SubAck::read;
    let _: fn(FixedHeader, Bytes) -> Result<Unsubscribe, Error> = Unsubscribe::read;
    let _: fn(FixedHeader, Bytes) -> Result<UnsubAck, Error> = UnsubAck::read;
    let _: fn(&mut Bytes) -> Result<Vec<Filter>, Error> = Filter::read;
}

/// The crate's paths, under `mqttbytes`.
#[test]
fn paths_are_the_crates() {
    use ecchjulmina::mqttbytes::{self, v5};
    let read: fn(&mut BytesMut, Option<u32>) -> Result<v5::Packet, mqttbytes::Error> = v5::Packet::read;
    let mut stream = BytesMut::from(THREE);
    let Ok(v5::Packet::Publish(v5::Publish { qos: mqttbytes::QoS::AtMostOnce, .. })) = read(&mut stream, None) else { panic!() };
    assert_eq!(mqttbytes::qos(1), Some(mqttbytes::QoS::AtLeastOnce));
    assert_eq!(v5::check([0xE0, 0x00].iter(), None).unwrap().packet_type().unwrap(), v5::PacketType::Disconnect);
}

/// The crate's words where it has the case.
#[test]
fn texts_are_the_crates() {
    let rows = [
        (Error::InvalidReason(7), "Invalid reason = 7"),
        (Error::InvalidPacketType(15), "Invalid packet type = 15"),
        (Error::InvalidRetainForwardRule(3), "Invalid retain forward rule = 3"),
        (Error::InvalidQoS(3), "Invalid QoS level = 3"),
        (Error::PacketIdZero, "Packet received has id Zero"),
        (Error::EmptySubscription, "Empty Subscription"),
        (Error::SubscriptionIdZero, "Subscription had id Zero"),
        (Error::PayloadTooLong, "Payload is too long"),
        (
            Error::PayloadSizeLimitExceeded { pkt_size: 10, max: 9 },
            "Max Payload size of 9 has been exceeded by packet of 10 bytes",
        ),
        (Error::PayloadRequired, "Payload is required"),
        (Error::TopicNotUtf8, "Topic not utf-8"),
        (Error::BoundaryCrossed(5), "Promised boundary crossed, contains 5 bytes"),
        (Error::MalformedPacket, "Packet is malformed"),
        (Error::MalformedRemainingLength, "Remaining length is malformed"),
        (Error::InvalidPropertyType(0), "Invalid property type = 0"),
        (Error::InsufficientBytes(2), "Insufficient number of bytes to frame packet, 2 more bytes required"),
        (
            Error::OutgoingPacketTooLarge { pkt_size: 10, max: 9 },
            "Cannot send packet of size '10'. It's greater than the broker's maximum packet size of: '9'",
        ),
    ];
    for (error, text) in rows {
        assert_eq!(error.to_string(), text);
    }
    let io = std::io::Error::new(std::io::ErrorKind::BrokenPipe, "closed");
    assert_eq!(Error::from(io).to_string(), "IO: closed");
    let text = vec![0xFF];
    let utf8 = std::str::from_utf8(&text).unwrap_err();
    assert_eq!(Error::from(utf8).to_string(), format!("Payload is required = {utf8}"));
}

/// `check` says what `Packet::read` says before there is a frame, and else gives the header, whatever stands in the frame.
#[test]
fn headers_are_checked() {
    let frame = |n: usize| {
        let mut out = BytesMut::new();
        Publish::new("a", QoS::AtMostOnce, vec![0; n], None).write(&mut out).unwrap();
        out.freeze()
    };
    for (payload, len_len) in [(0, 1), (123, 1), (124, 2), (16_379, 2), (16_380, 3), (2_097_147, 3), (2_097_148, 4)] {
        let bytes = frame(payload);
        let header = check(bytes.iter(), None).unwrap();
        assert_eq!(header, FixedHeader::new(0x30, len_len, payload + 4));
        assert_eq!((header.frame_length(), header.packet_type().unwrap()), (bytes.len(), PacketType::Publish));
        let Packet::Publish(wanted) = Packet::read(&mut BytesMut::from(&bytes[..]), None).unwrap() else { panic!() };
        assert_eq!(Publish::read(header, bytes.clone()), Ok(wanted));
        assert_eq!(PubAck::read(header, bytes.clone()), Err(Error::InvalidPacketType(3)));
        assert_eq!(check(bytes[..bytes.len() - 1].iter(), None), Err(Error::InsufficientBytes(1)));
        let max = bytes.len() as u32 - 1;
        assert_eq!(check(bytes.iter(), Some(max)), Err(Error::PayloadSizeLimitExceeded { pkt_size: bytes.len(), max }));
        assert_eq!(Publish::read(FixedHeader::new(0x31, len_len, payload + 4), bytes), Err(Error::InvalidPacketType(3)));
    }
    assert_eq!(check([0x30, 0x80, 0x00].iter(), None), Err(Error::MalformedRemainingLength));
    assert_eq!(check([0xF0, 0x01, 9].iter(), None).unwrap().packet_type(), Err(Error::InvalidPacketType(15)));
    assert_eq!(check([0x32, 0x05, 0, 0, 0, 0, 0].iter(), None).unwrap(), FixedHeader::new(0x32, 1, 5));
}

#[test]
fn filters_are_read_alone() {
    let mut bytes = Bytes::from_static(&[0, 1, 0x61, 0x2E, 0, 0, 1]);
    let read = Filter::read(&mut bytes).unwrap();
    let wanted = Filter {
        nolocal: true,
        preserve_retain: true,
        retain_forward_rule: RetainForwardRule::Never,
        ..Filter::new("a", QoS::ExactlyOnce)
    };
    assert_eq!(read, [wanted, Filter::new("", QoS::AtLeastOnce)]);
    assert!(bytes.is_empty());
    assert_eq!(Filter::read(&mut bytes), Ok(vec![]));
    let rows: [(&'static [u8], Error); 4] = [
        (&[0, 0, 0, 0, 2, 0x61], Error::BoundaryCrossed(2)),
        (&[0, 1, 0x61], Error::MalformedPacket),
        (&[0, 0, 3], Error::InvalidQoS(3)),
        (&[0, 1, 0xFF, 0], Error::TopicNotUtf8),
    ];
    for (run, error) in rows {
        let mut bytes = Bytes::from_static(run);
        assert_eq!(Filter::read(&mut bytes), Err(error));
        assert_eq!(bytes, run);
    }
}

/// A refused write neither puts a byte nor makes the buffer grow; an accepted one grows as it must.
#[test]
fn refused_writes_do_not_grow_the_buffer() {
    let payload = vec![7; 1_000_000];
    let long = |pkid: u16| Publish { pkid, ..Publish::new("a", QoS::AtLeastOnce, payload.clone(), None) };
    let ids = |id: usize| Some(PublishProperties { subscription_identifiers: vec![id], ..Default::default() });
    let subscribe = Subscribe { pkid: 1, ..Subscribe::new_many([], Some(SubscribeProperties { id: None, user_properties: vec![("k".repeat(60_000), "".into())] })) };
    let rows = [
        (Packet::Publish(long(0)), None, Error::PacketIdZero),
        (Packet::Publish(long(1)), Some(1_000_000), Error::OutgoingPacketTooLarge { pkt_size: 1_000_010, max: 1_000_000 }),
        (Packet::Publish(Publish { properties: ids(0), ..long(1) }), None, Error::SubscriptionIdZero),
        (Packet::Publish(Publish { properties: ids(268_435_456), ..long(1) }), None, Error::PayloadTooLong),
        (Packet::Publish(Publish { topic: Bytes::from(vec![0x61; 65_536]), ..long(1) }), None, Error::StringTooLong(65_536)),
        (Packet::Subscribe(subscribe), None, Error::EmptySubscription),
    ];
    for (packet, max, error) in rows {
        let mut buffer = BytesMut::with_capacity(64);
        buffer.extend_from_slice(b"before");
        let held = buffer.capacity();
        assert_eq!(packet.write(&mut buffer, max), Err(error));
        assert_eq!((&buffer[..], buffer.capacity()), (&b"before"[..], held));
    }
    let mut buffer = BytesMut::with_capacity(64);
    assert_eq!(long(1).write(&mut buffer), Ok(1_000_010));
    assert_eq!((buffer.len(), &buffer[1_000_009..]), (1_000_010, &[7][..]));
}

const THREE: &[u8] = &[0x30, 0x0B, 0x00, 0x01, 0x61, 0x06, 0x0B, 0x01, 0x0B, 0x02, 0x0B, 0x03, 0x07];

#[test]
fn three_identifiers_are_read_right() {
    let mut stream = BytesMut::from(THREE);
    let Packet::Publish(m) = Packet::read(&mut stream, None).unwrap() else { panic!() };
    assert_eq!(m.properties.unwrap().subscription_identifiers, [1, 2, 3]);
    assert_eq!(&m.payload[..], [7]);
    assert_eq!(&m.topic[..], b"a");
    assert!(stream.is_empty());
}

#[test]
fn pieces_of_every_size_give_the_same_packets() {
    let bytes: Vec<u8> = [
        THREE,
        &[0xC0, 0x00],
        &[0x40, 0x02, 0x00, 0x0A],
        &[0x62, 0x03, 0x00, 0x0A, 0x92],
        &[0x90, 0x05, 0x00, 0x01, 0x00, 0x02, 0x80],
        &[0xA2, 0x06, 0x00, 0x01, 0x00, 0x00, 0x01, 0x61],
        THREE,
    ]
    .concat();
    let (whole, none) = read_all(&[&bytes], Some(13));
    assert_eq!((whole.len(), none), (7, None));
    for n in 1..bytes.len() {
        let pieces: Vec<&[u8]> = bytes.chunks(n).collect();
        assert_eq!(read_all(&pieces, Some(13)), (whole.clone(), None));
    }
}

#[test]
fn topic_and_payload_share_the_streams_memory() {
    let mut stream = BytesMut::from(THREE);
    let from = stream.as_ptr() as usize;
    let Packet::Publish(m) = Packet::read(&mut stream, None).unwrap() else { panic!() };
    assert_eq!(m.topic.as_ptr() as usize, from + 4);
    assert_eq!(m.payload.as_ptr() as usize, from + 12);
}

#[test]
fn refusals_take_what_01_and_02_say() {
    let rows: &[(&[u8], Option<u32>, Error, usize)] = &[
        (&[], None, Error::InsufficientBytes(2), 0),
        (&[0x30, 0x80], None, Error::InsufficientBytes(1), 0),
        (&[0x30, 0x80, 0x80, 0x80, 0x80], None, Error::MalformedRemainingLength, 0),
        (&[0x30, 0x80, 0x00], None, Error::MalformedRemainingLength, 0),
        (&[0x30, 0x06, 0, 1, 0x61, 0x80, 0x00, 7], None, Error::MalformedRemainingLength, 8),
        (&[0xF0, 0x00, 9], None, Error::InvalidPacketType(15), 2),
        (&[0x30, 0x00], None, Error::PayloadRequired, 2),
        (&[0xE0, 0x01, 0x00], None, Error::KindNotCarried(14), 3),
        (&[0x30, 0x08, 0, 3, 0x61, 0x2F, 0x62, 0, 0x68, 0x69], Some(9), Error::PayloadSizeLimitExceeded { pkt_size: 10, max: 9 }, 0),
        (&[0x30, 0x08], Some(9), Error::PayloadSizeLimitExceeded { pkt_size: 10, max: 9 }, 0),
        (&[0x30, 0x08], Some(10), Error::InsufficientBytes(8), 0),
        (&[0x32, 0x06, 0, 1, 0x61, 0, 0, 0], None, Error::PacketIdZero, 8),
        (&[0x82, 0x07, 0, 1, 0, 0, 1, 0x61, 0x33], None, Error::InvalidRetainForwardRule(3), 9),
        (&[0x82, 0x03, 0, 1, 0], None, Error::EmptySubscription, 5),
        (&[0x40, 0x03, 0, 1, 1], None, Error::InvalidReason(1), 5),
        (&[0x50, 0x03, 0, 1, 0x92], None, Error::InvalidReason(0x92), 5),
        (&[0x62, 0x03, 0, 1, 0x10], None, Error::InvalidReason(0x10), 5),
        (&[0x70, 0x05, 0, 1, 0, 0, 0], None, Error::MalformedPacket, 7),
        (&[0x90, 0x02, 0, 1], None, Error::MalformedPacket, 4),
        (&[0x90, 0x03, 0, 1, 0], None, Error::EmptySubscription, 5),
        (&[0x90, 0x05, 0, 1, 0, 2, 3], None, Error::InvalidReason(3), 7),
        (&[0xA2, 0x03, 0, 1, 0], None, Error::EmptySubscription, 5),
        (&[0xA2, 0x06, 0, 1, 0, 0, 1, 0], None, Error::TopicNotUtf8, 8),
        (&[0xB0, 0x03, 0, 1, 0], None, Error::EmptySubscription, 5),
        (&[0xB0, 0x04, 0, 1, 0, 1], None, Error::InvalidReason(1), 6),
        (&[0x30, 0x08, 0, 1, 0x61, 4, 1, 0, 1, 0], None, Error::DuplicateProperty(1), 10),
        (&[0x70, 0x0A, 0, 1, 0, 6, 31, 0, 0, 31, 0, 0], None, Error::DuplicateProperty(31), 12),
        (&[0x30, 0x06, 0, 1, 0x61, 2, 11, 0], None, Error::SubscriptionIdZero, 8),
        (&[0x82, 0x09, 0, 1, 2, 11, 0, 0, 1, 0x61, 0], None, Error::SubscriptionIdZero, 11),
    ];
    for (bytes, max, error, taken) in rows {
        let mut stream = BytesMut::from(*bytes);
        assert_eq!(Packet::read(&mut stream, *max).as_ref(), Err(error));
        assert_eq!(bytes.len() - stream.len(), *taken, "{error}");
    }
}

fn records() -> Vec<Packet> {
    let users = vec![("reel".to_string(), "7".to_string()), ("".to_string(), "é".to_string())];
    vec![
        Packet::Publish(Publish::new("a/b", QoS::AtMostOnce, "hi", None)),
        Packet::Publish(Publish {
            dup: true,
            retain: true,
            pkid: 9,
            ..Publish::new(
                "line/3/length",
                QoS::ExactlyOnce,
                Bytes::from(vec![7; 300]),
                Some(PublishProperties {
                    payload_format_indicator: Some(1),
                    message_expiry_interval: Some(3600),
                    topic_alias: Some(2),
                    response_topic: Some("desk".into()),
                    correlation_data: Some(Bytes::from_static(&[0, 255])),
                    user_properties: users.clone(),
                    subscription_identifiers: vec![1, 128, 268_435_455],
                    content_type: Some("text/plain".into()),
                }),
            )
        }),
        Packet::Subscribe(Subscribe {
            pkid: 1,
            filters: vec![
                Filter::new("line/#", QoS::AtLeastOnce),
                Filter { nolocal: true, preserve_retain: true, retain_forward_rule: RetainForwardRule::Never, ..Filter::new("+/x", QoS::ExactlyOnce) },
            ],
            properties: Some(SubscribeProperties { id: Some(5), user_properties: users.clone() }),
        }),
        Packet::PubAck(PubAck::new(10, None)),
        Packet::PubAck(PubAck {
            pkid: 11,
            reason: PubAckReason::QuotaExceeded,
            properties: Some(PubAckProperties { reason_string: Some("full".into()), user_properties: users.clone() }),
        }),
        Packet::PubRec(PubRec::new(12, None)),
        Packet::PubRec(PubRec {
            pkid: 13,
            reason: PubRecReason::NoMatchingSubscribers,
            properties: Some(PubRecProperties { reason_string: None, user_properties: users.clone() }),
        }),
        Packet::PubRel(PubRel::new(12, None)),
        Packet::PubRel(PubRel {
            pkid: 14,
            reason: PubRelReason::PacketIdentifierNotFound,
            properties: Some(PubRelProperties { reason_string: Some("gone".into()), user_properties: vec![] }),
        }),
        Packet::PubComp(PubComp::new(0, None)),
        Packet::PubComp(PubComp { reason: PubCompReason::PacketIdentifierNotFound, ..PubComp::new(15, None) }),
        Packet::SubAck(SubAck {
            pkid: 1,
            return_codes: vec![
                SubscribeReasonCode::Success(QoS::ExactlyOnce),
                SubscribeReasonCode::Unspecified,
                SubscribeReasonCode::WildcardSubscriptionsNotSupported,
            ],
            properties: Some(SubAckProperties { reason_string: Some("in part".into()), user_properties: users.clone() }),
        }),
        Packet::Unsubscribe(Unsubscribe { pkid: 2, ..Unsubscribe::new("line/#", None) }),
        Packet::Unsubscribe(Unsubscribe {
            pkid: 3,
            filters: vec!["+/x".into(), "".into(), "é".into()],
            properties: Some(UnsubscribeProperties { user_properties: users.clone() }),
        }),
        Packet::UnsubAck(UnsubAck { pkid: 2, reasons: vec![UnsubAckReason::Success], properties: None }),
        Packet::UnsubAck(UnsubAck {
            pkid: 3,
            reasons: vec![UnsubAckReason::NoSubscriptionExisted, UnsubAckReason::TopicFilterInvalid, UnsubAckReason::Success],
            properties: Some(UnsubAckProperties { reason_string: Some("in part".into()), user_properties: users }),
        }),
        Packet::PingReq(PingReq),
        Packet::PingResp(PingResp),
    ]
}

#[test]
fn what_is_written_is_appended_and_reads_back() {
    let mut buffer = BytesMut::from(&b"before"[..]);
    for packet in records() {
        let start = buffer.len();
        let size = packet.write(&mut buffer, None).unwrap();
        assert_eq!(size, packet.size());
        assert_eq!(buffer.len(), start + size);
    }
    let mut stream = buffer.split_off(6);
    assert_eq!(&buffer[..], b"before");
    for packet in records() {
        assert_eq!(Packet::read(&mut stream, None), Ok(packet));
    }
    assert!(stream.is_empty());
}

/// The bytes of each new kind, as MQTT 3.5 to 3.7 and 3.9 to 3.11 show them.
#[test]
fn what_is_written_is_the_standards() {
    let rows: Vec<(Packet, &[u8])> = vec![
        (Packet::PubRec(PubRec::new(10, None)), &[0x50, 2, 0, 10]),
        (Packet::PubRec(PubRec { reason: PubRecReason::QuotaExceeded, ..PubRec::new(10, None) }), &[0x50, 4, 0, 10, 0x97, 0]),
        (Packet::PubRel(PubRel::new(10, None)), &[0x62, 2, 0, 10]),
        (Packet::PubComp(PubComp { reason: PubCompReason::PacketIdentifierNotFound, ..PubComp::new(10, None) }), &[0x70, 4, 0, 10, 0x92, 0]),
        (
            Packet::SubAck(SubAck { pkid: 10, return_codes: vec![SubscribeReasonCode::Failure, SubscribeReasonCode::PkidInUse], properties: None }),
            &[0x90, 5, 0, 10, 0, 0x80, 0x91],
        ),
        (Packet::Unsubscribe(Unsubscribe { pkid: 10, ..Unsubscribe::new("a/b", None) }), &[0xA2, 8, 0, 10, 0, 0, 3, b'a', b'/', b'b']),
        (
            Packet::UnsubAck(UnsubAck {
                pkid: 10,
                reasons: vec![UnsubAckReason::NoSubscriptionExisted],
                properties: Some(UnsubAckProperties { reason_string: Some("n".into()), user_properties: vec![("k".into(), "".into())] }),
            }),
            &[0xB0, 14, 0, 10, 10, 31, 0, 1, b'n', 38, 0, 1, b'k', 0, 0, 0x11],
        ),
    ];
    for (packet, bytes) in rows {
        let mut buffer = BytesMut::new();
        assert_eq!((packet.write(&mut buffer, Some(bytes.len() as u32)), packet.size()), (Ok(bytes.len()), bytes.len()));
        assert_eq!(&buffer[..], bytes);
    }
}

#[test]
fn a_refused_write_leaves_the_buffer() {
    let long = "x".repeat(65_536);
    let identifiers = |ids: &[usize]| Some(PublishProperties { subscription_identifiers: ids.to_vec(), ..Default::default() });
    let publish = |properties| Packet::Publish(Publish::new("a", QoS::AtMostOnce, "", properties));
    let subscribe = |id| Subscribe::new(Filter::new("a", QoS::AtMostOnce), Some(SubscribeProperties { id: Some(id), user_properties: vec![] }));
    let rows: Vec<(Packet, Option<u32>, Error)> = vec![
        (records()[0].clone(), Some(9), Error::OutgoingPacketTooLarge { pkt_size: 10, max: 9 }),
        (Packet::Publish(Publish::new("a", QoS::AtLeastOnce, "", None)), None, Error::PacketIdZero),
        (Packet::Publish(Publish::new(long.clone(), QoS::AtMostOnce, "", None)), Some(5), Error::StringTooLong(65_536)),
        (publish(identifiers(&[1 << 40, 0])), None, Error::PayloadTooLong),
        (publish(identifiers(&[1, 0, 1 << 40])), None, Error::SubscriptionIdZero),
        (publish(identifiers(&[0])), Some(5), Error::OutgoingPacketTooLarge { pkt_size: 8, max: 5 }),
        (Packet::Subscribe(subscribe(0)), None, Error::SubscriptionIdZero),
        (Packet::Subscribe(subscribe(1 << 40)), None, Error::PayloadTooLong),
        (publish(Some(PublishProperties { content_type: Some("a\0".into()), ..Default::default() })), None, Error::TopicNotUtf8),
        (Packet::Subscribe(Subscribe::new(Filter::new("\0", QoS::AtMostOnce), None)), None, Error::TopicNotUtf8),
        (Packet::Subscribe(Subscribe::new_many([], None)), None, Error::EmptySubscription),
        (Packet::SubAck(SubAck { pkid: 1, return_codes: vec![], properties: None }), None, Error::EmptySubscription),
        (Packet::UnsubAck(UnsubAck { pkid: 1, reasons: vec![], properties: None }), Some(4), Error::OutgoingPacketTooLarge { pkt_size: 5, max: 4 }),
        (Packet::UnsubAck(UnsubAck { pkid: 1, reasons: vec![], properties: None }), None, Error::EmptySubscription),
        (Packet::Unsubscribe(Unsubscribe::default()), None, Error::EmptySubscription),
        (Packet::Unsubscribe(Unsubscribe::new(long.clone(), None)), Some(5), Error::StringTooLong(65_536)),
        (Packet::Unsubscribe(Unsubscribe::new("a\0b", None)), None, Error::TopicNotUtf8),
        (
            Packet::PubRel(PubRel::new(1, Some(PubRelProperties { reason_string: Some("\0".into()), user_properties: vec![] }))),
            None,
            Error::TopicNotUtf8,
        ),
        (Packet::PubComp(PubComp::new(1, None)), Some(3), Error::OutgoingPacketTooLarge { pkt_size: 4, max: 3 }),
    ];
    for (packet, max, error) in rows {
        let mut buffer = BytesMut::from(&b"as it stood"[..]);
        assert_eq!(packet.write(&mut buffer, max), Err(error));
        assert_eq!(&buffer[..], b"as it stood");
    }
}

#[test]
fn places_give_the_parts_and_the_lists() {
    let mut buffer = BytesMut::new();
    let packet = &records()[1];
    packet.write(&mut buffer, None).unwrap();
    let (answer, taken) = places::read(&buffer, None);
    let r = answer.ok().unwrap();
    assert_eq!(taken, buffer.len());
    assert_eq!((r.kind(), r.pkid(), r.qos(), r.dup(), r.retain()), (places::Kind::Publish, 9, QoS::ExactlyOnce, true, true));
    assert_eq!(r.topic(), b"line/3/length");
    assert_eq!(r.content_type(), Some(&b"text/plain"[..]));
    assert_eq!(r.correlation_data(), Some(&[0u8, 255][..]));
    assert_eq!(r.user_properties().collect::<Vec<_>>(), [(&b"reel"[..], &b"7"[..]), (&b""[..], "é".as_bytes())]);
    assert_eq!(r.subscription_identifiers().collect::<Vec<_>>(), [1, 128, 268_435_455]);
    assert_eq!(r.payload().len(), 300);
}

#[test]
fn places_give_the_reasons_and_the_topics() {
    for packet in records() {
        let mut buffer = BytesMut::new();
        packet.write(&mut buffer, None).unwrap();
        let (answer, _) = places::read(&buffer, Some(buffer.len()));
        let r = answer.ok().unwrap();
        match packet {
            Packet::PubRel(m) => assert_eq!((r.kind(), r.reason()), (places::Kind::PubRel, m.reason.code())),
            Packet::SubAck(m) => assert_eq!(r.reasons(), m.return_codes.iter().map(|c| c.code()).collect::<Vec<_>>()),
            Packet::UnsubAck(m) => assert_eq!(r.reasons(), m.reasons.iter().map(|c| c.code()).collect::<Vec<_>>()),
            Packet::Unsubscribe(m) => assert_eq!(r.topics().collect::<Vec<_>>(), m.filters.iter().map(|f| f.as_bytes()).collect::<Vec<_>>()),
            _ => assert_eq!((r.reasons().len(), r.topics().count()), (0, 0)),
        }
        assert!(places::read(&buffer, Some(buffer.len() - 1)).0.is_err());
    }
}
