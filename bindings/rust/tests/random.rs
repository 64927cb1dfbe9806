//! Frames made of chance, by a fixed seed, against a second reader: oracle/src/limit.rs, written by hand from 01 and 02. Both layers must
//! say what it says, and what is written must read back.
use bytes::{Bytes, BytesMut};
use ecchjulmina::*;

#[allow(dead_code)]
#[path = "../../../oracle/src/limit.rs"]
mod limit;
#[allow(dead_code)]
#[path = "../../../oracle/src/timing.rs"]
mod timing;
use limit::{No, Rec};

/// xorshift64*, from a fixed seed
struct Chance(u64);

impl Chance {
    fn below(&mut self, n: usize) -> usize {
        self.0 ^= self.0 >> 12;
        self.0 ^= self.0 << 25;
        self.0 ^= self.0 >> 27;
        (self.0.wrapping_mul(0x2545_F491_4F6C_DD1D) >> 33) as usize % n
    }

    fn one_in(&mut self, n: usize) -> bool {
        self.below(n) == 0
    }

    fn byte(&mut self) -> u8 {
        self.below(256) as u8
    }
}

/// The shortest spelling, now and then one byte longer.
fn spelled(c: &mut Chance, n: usize, out: &mut Vec<u8>) {
    length(n, out);
    if c.one_in(60) {
        *out.last_mut().unwrap() |= 0x80;
        out.push(0);
    }
}

fn length(mut n: usize, out: &mut Vec<u8>) {
    loop {
        let low = (n % 128) as u8;
        n /= 128;
        out.push(if n == 0 { low } else { low | 0x80 });
        if n == 0 {
            return;
        }
    }
}

fn string(c: &mut Chance, out: &mut Vec<u8>) {
    let text = if c.one_in(60) { "a\0" } else { ["", "a", "line/3", "é", "\u{10FFFF}", "#"][c.below(6)] };
    out.extend((text.len() as u16).to_be_bytes());
    out.extend(text.as_bytes());
}

/// Mostly one of the kind's row.
fn property(c: &mut Chance, kind: u8, out: &mut Vec<u8>) {
    let row: &[u8] = match kind {
        3 => &[1, 2, 3, 8, 9, 11, 11, 35, 38, 38],
        8 => &[11, 38, 38],
        10 => &[38],
        _ => &[31, 38, 38],
    };
    let k = if c.one_in(12) { [1u8, 2, 3, 8, 9, 11, 31, 35, 38, c.byte()][c.below(10)] } else { row[c.below(row.len())] };
    out.push(k);
    match k {
        1 => out.push(c.byte()),
        2 => out.extend([c.byte(), 2, 3, 4]),
        35 => out.extend([c.byte(), 9]),
        11 => {
            let n = if c.one_in(20) { 0 } else { 1 + c.below(300) };
            spelled(c, n, out)
        }
        38 => {
            string(c, out);
            string(c, out);
        }
        _ => string(c, out),
    }
}

/// Mostly one of the kind's list.
fn reason(c: &mut Chance, kind: u8) -> u8 {
    let list: &[u8] = match kind {
        4 | 5 => &[0, 0x10, 0x80, 0x83, 0x87, 0x90, 0x91, 0x97, 0x99],
        6 | 7 => &[0, 0x92],
        9 => &[0, 1, 2, 0x80, 0x83, 0x87, 0x8F, 0x91, 0x97, 0x9E, 0xA1, 0xA2],
        _ => &[0, 0x11, 0x80, 0x83, 0x87, 0x8F, 0x91],
    };
    if c.one_in(12) {
        c.byte()
    } else {
        list[c.below(list.len())]
    }
}

/// A frame that is often well-formed: properties of any row, then a few bytes altered, put in or cut.
fn frame(c: &mut Chance) -> Vec<u8> {
    let first = [0x30, 0x32, 0x3D, 0x40, 0x50, 0x62, 0x70, 0x82, 0x90, 0xA2, 0xB0, 0xC0, 0xD0, c.byte()][c.below(14)];
    let mut body = Vec::new();
    let kind = first >> 4;
    if kind == 3 {
        string(c, &mut body);
    }
    if (kind == 3 && first & 6 != 0) || (4..=11).contains(&kind) {
        body.extend([c.below(2) as u8, c.below(3) as u8]);
    }
    let ack = (4..=7).contains(&kind);
    if ack && !c.one_in(4) {
        body.push(reason(c, kind));
    }
    if !ack || !c.one_in(3) {
        let mut block = Vec::new();
        for _ in 0..c.below(4) {
            property(c, kind, &mut block);
        }
        spelled(c, block.len(), &mut body);
        body.extend(block);
    }
    if kind == 9 || kind == 11 {
        for _ in 0..c.below(4) {
            body.push(reason(c, kind));
        }
    }
    if kind == 10 {
        for _ in 0..c.below(4) {
            string(c, &mut body);
        }
    }
    if kind == 8 {
        for _ in 0..c.below(4) {
            string(c, &mut body);
            body.push([0, 1, 0x2E, 0x15, 0xC6, c.byte()][c.below(6)]);
        }
    }
    if kind == 3 {
        body.extend(vec![7; c.below(5)]);
    }
    let mut all = vec![first];
    let n = body.len() + if c.one_in(20) { c.below(3) } else { 0 };
    spelled(c, n, &mut all);
    all.extend(body);
    if c.one_in(4) {
        for _ in 0..1 + c.below(3) {
            let i = c.below(all.len());
            all[i] = c.byte();
        }
    }
    if c.one_in(6) {
        all.truncate(c.below(all.len() + 1));
    }
    if c.one_in(6) {
        all.extend([c.byte(), c.byte()]);
    }
    all
}

/// A string that is well-formed.
fn text(b: &mut &[u8]) -> String {
    let n = u16::from_be_bytes([b[0], b[1]]) as usize;
    let t = String::from_utf8(b[2..2 + n].to_vec()).unwrap();
    *b = &b[2 + n..];
    t
}

/// The lists of a block that is well-formed: user properties, and subscription identifiers.
fn lists(mut b: &[u8]) -> (Vec<(String, String)>, Vec<usize>) {
    let (mut users, mut ids) = (Vec::new(), Vec::new());
    while let Some((k, rest)) = b.split_first() {
        b = rest;
        match k {
            1 => b = &b[1..],
            2 => b = &b[4..],
            35 => b = &b[2..],
            11 => {
                let (n, took) = limit::var(b).unwrap();
                ids.push(n as usize);
                b = &b[took..];
            }
            9 => b = &b[2 + u16::from_be_bytes([b[0], b[1]]) as usize..],
            38 => {
                let key = text(&mut b);
                users.push((key, text(&mut b)));
            }
            _ => drop(text(&mut b)),
        }
    }
    (users, ids)
}

fn filters(mut s: &[u8]) -> Vec<Filter> {
    let mut found = Vec::new();
    while !s.is_empty() {
        let n = u16::from_be_bytes([s[0], s[1]]) as usize;
        let path = String::from_utf8(s[2..2 + n].to_vec()).unwrap();
        let o = s[2 + n];
        s = &s[3 + n..];
        found.push(Filter {
            path,
            qos: qos(o & 3).unwrap(),
            nolocal: o & 4 != 0,
            preserve_retain: o & 8 != 0,
            retain_forward_rule: [RetainForwardRule::OnEverySubscribe, RetainForwardRule::OnNewSubscribe, RetainForwardRule::Never][(o >> 4 & 3) as usize],
        });
    }
    found
}

fn topics(mut s: &[u8]) -> Vec<String> {
    let mut found = Vec::new();
    while !s.is_empty() {
        found.push(text(&mut s));
    }
    found
}

fn owned(part: Option<&[u8]>) -> Option<String> {
    part.map(|p| String::from_utf8(p.to_vec()).unwrap())
}

/// An acknowledgement in the crate's type.
macro_rules! acknowledged {
    ($m:ident, $kind:ident, $reason:ident, $properties:ident) => {
        Packet::$kind($kind {
            pkid: $m.id,
            reason: $reason::from_code($m.reason).unwrap(),
            properties: (!$m.block.is_empty()).then(|| $properties { reason_string: owned($m.rstr), user_properties: lists($m.block).0 }),
        })
    };
}

/// What the second reader says, in the crate's types.
fn wanted(rec: Rec) -> Packet {
    match rec {
        Rec::Ping(12) => Packet::PingReq(PingReq),
        Rec::Ping(_) => Packet::PingResp(PingResp),
        Rec::Publish(m) => {
            let (user_properties, subscription_identifiers) = lists(m.block);
            Packet::Publish(Publish {
                dup: m.dup,
                qos: qos(m.qos).unwrap(),
                retain: m.retain,
                topic: Bytes::copy_from_slice(m.topic),
                pkid: m.id,
                payload: Bytes::copy_from_slice(m.payload),
                properties: (!m.block.is_empty()).then(|| PublishProperties {
                    payload_format_indicator: m.props.pfi,
                    message_expiry_interval: m.props.expiry,
                    topic_alias: m.props.alias,
                    response_topic: owned(m.props.response),
                    correlation_data: m.props.correlation.map(Bytes::copy_from_slice),
                    user_properties,
                    subscription_identifiers,
                    content_type: owned(m.props.content),
                }),
            })
        }
        Rec::Subscribe(m) => Packet::Subscribe(Subscribe {
            pkid: m.id,
            filters: filters(m.filters),
            properties: (!m.block.is_empty()).then(|| SubscribeProperties { id: m.sid.map(|n| n as usize), user_properties: lists(m.block).0 }),
        }),
        Rec::Ack(m) => match m.kind {
            4 => acknowledged!(m, PubAck, PubAckReason, PubAckProperties),
            5 => acknowledged!(m, PubRec, PubRecReason, PubRecProperties),
            6 => acknowledged!(m, PubRel, PubRelReason, PubRelProperties),
            _ => acknowledged!(m, PubComp, PubCompReason, PubCompProperties),
        },
        Rec::Reply(m) if m.kind == 9 => Packet::SubAck(SubAck {
            pkid: m.id,
            return_codes: m.reasons.iter().map(|r| SubscribeReasonCode::from_code(*r).unwrap()).collect(),
            properties: (!m.block.is_empty()).then(|| SubAckProperties { reason_string: owned(m.rstr), user_properties: lists(m.block).0 }),
        }),
        Rec::Reply(m) => Packet::UnsubAck(UnsubAck {
            pkid: m.id,
            reasons: m.reasons.iter().map(|r| UnsubAckReason::from_code(*r).unwrap()).collect(),
            properties: (!m.block.is_empty()).then(|| UnsubAckProperties { reason_string: owned(m.rstr), user_properties: lists(m.block).0 }),
        }),
        Rec::Unsubscribe(m) => Packet::Unsubscribe(Unsubscribe {
            pkid: m.id,
            filters: topics(m.topics),
            properties: (!m.block.is_empty()).then(|| UnsubscribeProperties { user_properties: lists(m.block).0 }),
        }),
    }
}

/// The number and the values of a refusal.
fn refusal(e: Error) -> No {
    let (a, b) = e.values();
    No { no: e.number(), a, b }
}

macro_rules! placed_ack {
    ($r:ident, $m:ident, $kind:ident, $users:ident) => {{
        let p = $m.properties.clone().unwrap_or_default();
        assert_eq!(($r.kind(), $r.pkid(), $r.reason()), (places::Kind::$kind, $m.pkid, $m.reason.code()));
        assert_eq!(($r.has_properties(), $users, owned($r.reason_string())), ($m.properties.is_some(), p.user_properties, p.reason_string));
        assert_eq!(($r.filters().count(), $r.topics().count(), $r.reasons().len()), (0, 0, 0));
    }};
}

macro_rules! placed_reply {
    ($r:ident, $m:ident, $kind:ident, $reasons:ident, $users:ident) => {{
        let p = $m.properties.clone().unwrap_or_default();
        assert_eq!(($r.kind(), $r.pkid(), $r.reason()), (places::Kind::$kind, $m.pkid, 0));
        assert_eq!(($r.has_properties(), $users, owned($r.reason_string())), ($m.properties.is_some(), p.user_properties, p.reason_string));
        assert_eq!($r.reasons(), $m.$reasons.iter().map(|r| r.code()).collect::<Vec<_>>());
        assert_eq!(($r.filters().count(), $r.topics().count()), (0, 0));
    }};
}

/// The thin layer says what the packet says.
fn placed(r: places::Record, packet: &Packet) {
    let users: Vec<_> = r.user_properties().map(|(k, v)| (owned(Some(k)).unwrap(), owned(Some(v)).unwrap())).collect();
    let ids: Vec<_> = r.subscription_identifiers().map(|n| n as usize).collect();
    match packet {
        Packet::Publish(m) => {
            let p = m.properties.clone().unwrap_or_default();
            assert_eq!((r.kind(), r.topic(), r.payload()), (places::Kind::Publish, &m.topic[..], &m.payload[..]));
            assert_eq!((r.pkid(), r.dup(), r.qos(), r.retain(), r.has_properties()), (m.pkid, m.dup, m.qos, m.retain, m.properties.is_some()));
            assert_eq!((users, ids), (p.user_properties, p.subscription_identifiers));
            assert_eq!(
                (r.payload_format_indicator(), r.message_expiry_interval(), r.topic_alias()),
                (p.payload_format_indicator, p.message_expiry_interval, p.topic_alias)
            );
            assert_eq!((owned(r.response_topic()), owned(r.content_type())), (p.response_topic, p.content_type));
            assert_eq!(r.correlation_data(), p.correlation_data.as_deref());
        }
        Packet::Subscribe(m) => {
            let p = m.properties.clone().unwrap_or_default();
            assert_eq!((r.kind(), r.pkid(), r.has_properties()), (places::Kind::Subscribe, m.pkid, m.properties.is_some()));
            assert_eq!((users, r.subscription_identifier().map(|n| n as usize)), (p.user_properties, p.id));
            assert_eq!((ids.len(), r.topic(), r.reason_string(), r.topics().count(), r.reasons().len()), (0, &b""[..], None, 0, 0));
            let paths: Vec<_> = r.filters().map(|f| (f.path.to_vec(), f.qos, f.nolocal, f.preserve_retain, f.retain_forward_rule)).collect();
            let wanted: Vec<_> =
                m.filters.iter().map(|f| (f.path.clone().into_bytes(), f.qos, f.nolocal, f.preserve_retain, f.retain_forward_rule)).collect();
            assert_eq!(paths, wanted);
        }
        Packet::PubAck(m) => placed_ack!(r, m, PubAck, users),
        Packet::PubRec(m) => placed_ack!(r, m, PubRec, users),
        Packet::PubRel(m) => placed_ack!(r, m, PubRel, users),
        Packet::PubComp(m) => placed_ack!(r, m, PubComp, users),
        Packet::SubAck(m) => placed_reply!(r, m, SubAck, return_codes, users),
        Packet::UnsubAck(m) => placed_reply!(r, m, UnsubAck, reasons, users),
        Packet::Unsubscribe(m) => {
            let p = m.properties.clone().unwrap_or_default();
            assert_eq!((r.kind(), r.pkid(), r.has_properties()), (places::Kind::Unsubscribe, m.pkid, m.properties.is_some()));
            assert_eq!((users, r.reason_string(), r.subscription_identifier()), (p.user_properties, None, None));
            assert_eq!(r.topics().map(|t| owned(Some(t)).unwrap()).collect::<Vec<_>>(), m.filters);
            assert_eq!((r.filters().count(), r.reasons().len()), (0, 0));
        }
        Packet::PingReq(_) => assert_eq!((r.kind(), entries(&r)), (places::Kind::PingReq, 0)),
        Packet::PingResp(_) => assert_eq!((r.kind(), entries(&r)), (places::Kind::PingResp, 0)),
    }
}

/// Everything that can be walked.
fn entries(r: &places::Record) -> usize {
    r.properties().count() + r.filters().count() + r.topics().count() + r.reasons().len()
}

/// What was read is written, and reads back; under a limit that is too small, or with no identifier, the buffer stays.
fn written(packet: &Packet, c: &mut Chance) {
    let mut buffer = BytesMut::from(&b"before"[..]);
    match packet.write(&mut buffer, None) {
        Ok(size) => {
            assert_eq!((size, buffer.len()), (packet.size(), 6 + size));
            let small = c.below(size) as u32;
            let whole = buffer.clone();
            assert_eq!(packet.write(&mut buffer, Some(small)), Err(Error::OutgoingPacketTooLarge { pkt_size: size as u32, max: small }));
            assert_eq!(buffer, whole);
            let mut stream = buffer.split_off(6);
            assert_eq!(&buffer[..], b"before");
            assert_eq!(Packet::read(&mut stream, None).as_ref(), Ok(packet));
            assert!(stream.is_empty());
        }
        Err(e) => panic!("{e}: {packet:?}"),
    }
}

#[test]
fn chance_agrees_with_the_second_reader() {
    let mut c = Chance(0x9E37_79B9_7F4A_7C15);
    let mut seen = [0usize; 24];
    let mut kinds = [0usize; 14];
    for _ in 0..200_000 {
        let bytes = frame(&mut c);
        let limit = c.one_in(8).then(|| c.below(40) as u32);
        let (second, took) = limit::read::<true>(&bytes, limit);
        let mut stream = BytesMut::from(&bytes[..]);
        let read = Packet::read(&mut stream, limit);
        let (record, taken) = places::read(&bytes, limit.map(|n| n as usize));
        assert_eq!((taken, &stream[..]), (took, &bytes[took..]), "{bytes:02X?}");
        match (second, read, record) {
            (Ok(rec), Ok(packet), Ok(record)) => {
                seen[0] += 1;
                kinds[bytes[0] as usize >> 4] += 1;
                assert_eq!(packet, wanted(rec), "{bytes:02X?}");
                placed(record, &packet);
                written(&packet, &mut c);
            }
            (Err(n), Err(e), Err(f)) => {
                seen[n.no as usize] += 1;
                assert_eq!((refusal(e), refusal(f)), (n, n), "{bytes:02X?}");
            }
            (second, read, record) => panic!("{bytes:02X?}: {second:?}, {read:?}, {:?}", record.err()),
        }
    }
    // every refusal of reading comes up, and packets of every kind often
    assert!(seen[1..=15].iter().chain(&seen[22..]).all(|n| *n > 20), "{seen:?}");
    assert!(kinds[3..].iter().all(|n| *n > 2_000), "{kinds:?}");
}

#[test]
fn bytes_of_chance_never_panic() {
    let mut c = Chance(1);
    for _ in 0..200_000 {
        let bytes: Vec<u8> = (0..c.below(24)).map(|_| c.byte()).collect();
        let (second, took) = limit::read::<true>(&bytes, None);
        let mut stream = BytesMut::from(&bytes[..]);
        let read = Packet::read(&mut stream, None);
        assert_eq!(bytes.len() - stream.len(), took);
        assert_eq!(read.map_err(refusal), second.map(wanted), "{bytes:02X?}");
    }
}

/// A frame of one kind around `n` copies of an item.
fn filled(first: u8, head: &[u8], sized: bool, item: &[u8], n: usize, tail: &[u8]) -> BytesMut {
    let mut body = head.to_vec();
    if sized {
        length(item.len() * n, &mut body);
    }
    body.extend(item.repeat(n));
    body.extend(tail);
    let mut all = vec![first];
    length(body.len(), &mut all);
    all.extend(body);
    BytesMut::from(&all[..])
}

/// 1 MiB of items is read in well under what a walk from the start for each item would take, which is minutes of processor time.
#[test]
fn long_lists_are_read_in_one_walk() {
    let n = (1 << 20) / 5;
    let began = timing::now();
    let Ok(Packet::Publish(m)) = Packet::read(&mut filled(0x30, &[0, 1, 0x61], true, &[38, 0, 0, 0, 0], n, &[7]), None) else { panic!() };
    assert_eq!((m.properties.unwrap().user_properties.len(), &m.payload[..]), (n, &[7][..]));
    let Ok(Packet::PubAck(m)) = Packet::read(&mut filled(0x40, &[0, 1, 0], true, &[38, 0, 0, 0, 0], n, &[]), None) else { panic!() };
    assert_eq!(m.properties.unwrap().user_properties.len(), n);
    let Ok(Packet::Publish(m)) = Packet::read(&mut filled(0x30, &[0, 1, 0x61], true, &[11, 5], (1 << 20) / 2, &[7]), None) else { panic!() };
    assert_eq!(m.properties.unwrap().subscription_identifiers.len(), (1 << 20) / 2);
    let Ok(Packet::Subscribe(m)) = Packet::read(&mut filled(0x82, &[0, 1, 0], false, &[0, 0, 1], (1 << 20) / 3, &[]), None) else { panic!() };
    assert_eq!(m.filters.len(), (1 << 20) / 3);
    let Ok(Packet::Unsubscribe(m)) = Packet::read(&mut filled(0xA2, &[0, 1, 0], false, &[0, 0], (1 << 20) / 2, &[]), None) else { panic!() };
    assert_eq!(m.filters.len(), (1 << 20) / 2);
    let Ok(Packet::SubAck(m)) = Packet::read(&mut filled(0x90, &[0, 1, 0], false, &[2], 1 << 20, &[]), None) else { panic!() };
    assert_eq!(m.return_codes.len(), 1 << 20);
    let took = timing::now() - began;
    assert!(took < 10_000_000_000, "{took} ns");
}
