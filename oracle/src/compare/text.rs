//! The crate's text, run: records are held against ours without being turned into them, panics are caught.
use super::model_write::parts;
use super::shape::*;
use crate::codec::*;
use crate::{Error, QoS};
use bytes::{Bytes, BytesMut};
use std::panic::{catch_unwind, AssertUnwindSafe};

/// The packet or the refusal, and the bytes taken.
pub type Text = (Result<Packet, No>, usize);

fn refusal(e: Error) -> No {
    match e {
        Error::InsufficientBytes(n) => no1(1, n as u64),
        Error::MalformedRemainingLength => no(2),
        Error::PayloadSizeLimitExceeded { pkt_size, max } => no2(3, pkt_size as u64, max as u64),
        Error::InvalidPacketType(k) => no1(4, k as u64),
        Error::PayloadRequired => no(5),
        Error::MalformedPacket => no(7),
        Error::BoundaryCrossed(n) => no1(8, n as u64),
        Error::TopicNotUtf8 => no(9),
        Error::InvalidPropertyType(k) => no1(10, k as u64),
        Error::InvalidQoS(k) => no1(11, k as u64),
        Error::PacketIdZero => no(12),
        Error::EmptySubscription => no(13),
        Error::InvalidRetainForwardRule(k) => no1(14, k as u64),
        Error::OutgoingPacketTooLarge { pkt_size, max } => no2(16, pkt_size as u64, max as u64),
        Error::PayloadTooLong => no(17),
        Error::InvalidConnectReturnCode(k) => no1(RETURN_CODE, k as u64),
        Error::InvalidSubscribeReasonCode(k) => no1(SUBSCRIBE_CODE, k as u64),
        Error::IncorrectPacketFormat => no(TRIMMED),
        _ => no(UNKNOWN),
    }
}

/// The text's answer to a stream. What it leaves of the stream must be the bytes after those taken.
pub fn read(s: &[u8], limit: Option<u32>) -> Text {
    let mut stream = BytesMut::from(s);
    let answer = catch_unwind(AssertUnwindSafe(|| Packet::read(&mut stream, limit)));
    let taken = s.len() - stream.len();
    if s[taken..] != stream[..] {
        return (Err(no(UNKNOWN)), taken);
    }
    match answer {
        Ok(Ok(p)) => (Ok(p), taken),
        Ok(Err(e)) => (Err(refusal(e)), taken),
        Err(_) => (Err(no(PANIC)), taken),
    }
}

fn same_text(a: &Option<String>, b: Option<Span>, s: &[u8]) -> bool {
    a.as_ref().map(|t| t.as_bytes()) == b.map(|p| p.of(s))
}

fn same_users(a: &[(String, String)], b: &[(Span, Span)], s: &[u8]) -> bool {
    a.len() == b.len()
        && a.iter()
            .zip(b)
            .all(|((k, v), (p, q))| k.as_bytes() == p.of(s) && v.as_bytes() == q.of(s))
}

/// The reasons of a kind and their bytes, which the text keeps to itself but writes.
type Codes<T> = &'static [(T, u8)];

fn code<T: PartialEq>(codes: Codes<T>, reason: &T) -> u8 {
    codes.iter().find(|(r, _)| r == reason).unwrap().1
}

fn coded<T: Copy>(codes: Codes<T>, byte: u8) -> Option<T> {
    codes.iter().find(|(_, k)| *k == byte).map(|(r, _)| *r)
}

/// The names that PubAckReason and PubRecReason have in common.
macro_rules! received {
    ($of:ident) => {
        &[
            ($of::Success, 0x00),
            ($of::NoMatchingSubscribers, 0x10),
            ($of::UnspecifiedError, 0x80),
            ($of::ImplementationSpecificError, 0x83),
            ($of::NotAuthorized, 0x87),
            ($of::TopicNameInvalid, 0x90),
            ($of::PacketIdentifierInUse, 0x91),
            ($of::QuotaExceeded, 0x97),
            ($of::PayloadFormatInvalid, 0x99),
        ]
    };
}
const PUBACK: Codes<PubAckReason> = received!(PubAckReason);
const PUBREC: Codes<PubRecReason> = received!(PubRecReason);
const PUBREL: Codes<PubRelReason> = &[(PubRelReason::Success, 0x00), (PubRelReason::PacketIdentifierNotFound, 0x92)];
const PUBCOMP: Codes<PubCompReason> = &[(PubCompReason::Success, 0x00), (PubCompReason::PacketIdentifierNotFound, 0x92)];
const SUBACK: Codes<SubscribeReasonCode> = &[
    (SubscribeReasonCode::Success(QoS::AtMostOnce), 0x00),
    (SubscribeReasonCode::Success(QoS::AtLeastOnce), 0x01),
    (SubscribeReasonCode::Success(QoS::ExactlyOnce), 0x02),
    (SubscribeReasonCode::Unspecified, 0x80),
    (SubscribeReasonCode::ImplementationSpecific, 0x83),
    (SubscribeReasonCode::NotAuthorized, 0x87),
    (SubscribeReasonCode::TopicFilterInvalid, 0x8F),
    (SubscribeReasonCode::PkidInUse, 0x91),
    (SubscribeReasonCode::QuotaExceeded, 0x97),
    (SubscribeReasonCode::SharedSubscriptionsNotSupported, 0x9E),
    (SubscribeReasonCode::SubscriptionIdNotSupported, 0xA1),
    (SubscribeReasonCode::WildcardSubscriptionsNotSupported, 0xA2),
];
const UNSUBACK: Codes<UnsubAckReason> = &[
    (UnsubAckReason::Success, 0x00),
    (UnsubAckReason::NoSubscriptionExisted, 0x11),
    (UnsubAckReason::UnspecifiedError, 0x80),
    (UnsubAckReason::ImplementationSpecificError, 0x83),
    (UnsubAckReason::NotAuthorized, 0x87),
    (UnsubAckReason::TopicFilterInvalid, 0x8F),
    (UnsubAckReason::PacketIdentifierInUse, 0x91),
];

fn rule(r: &RetainForwardRule) -> u8 {
    match r {
        RetainForwardRule::OnEverySubscribe => 0,
        RetainForwardRule::OnNewSubscribe => 1,
        RetainForwardRule::Never => 2,
    }
}

fn same_publish(p: &Publish, r: &Record, lists: &Lists, s: &[u8]) -> bool {
    let head = r.kind == 3 && p.dup == r.dup && p.qos as u8 == r.qos && p.retain == r.retain && p.pkid == r.id;
    let parts = p.topic == r.topic.of(s) && p.payload == r.payload.of(s);
    let properties = match &p.properties {
        None => r.block.is_none() && lists.users.is_empty() && lists.ids.is_empty(),
        Some(q) => {
            r.block.is_some()
                && q.payload_format_indicator == r.format
                && q.message_expiry_interval == r.expiry
                && q.topic_alias == r.alias
                && same_text(&q.response_topic, r.response, s)
                && q.correlation_data.as_deref() == r.correlation.map(|c| c.of(s))
                && same_users(&q.user_properties, &lists.users, s)
                && q.subscription_identifiers.len() == lists.ids.len()
                && q.subscription_identifiers.iter().zip(&lists.ids).all(|(a, b)| *a == *b as usize)
                && same_text(&q.content_type, r.content, s)
        }
    };
    head && parts && properties
}

fn same_subscribe(p: &Subscribe, r: &Record, lists: &Lists, s: &[u8]) -> bool {
    let properties = match &p.properties {
        None => r.block.is_none() && lists.users.is_empty(),
        Some(q) => r.block.is_some() && q.id == r.sid.map(|n| n as usize) && same_users(&q.user_properties, &lists.users, s),
    };
    let filters = p.filters.len() == lists.filters.len()
        && p.filters.iter().zip(&lists.filters).all(|(f, (path, options))| {
            let bits = f.qos as u8 | (f.nolocal as u8) << 2 | (f.preserve_retain as u8) << 3 | rule(&f.retain_forward_rule) << 4;
            f.path.as_bytes() == path.of(s) && bits == *options
        });
    r.kind == 8 && p.pkid == r.id && properties && filters
}

fn same_unsubscribe(p: &Unsubscribe, r: &Record, lists: &Lists, s: &[u8]) -> bool {
    let properties = match &p.properties {
        None => r.block.is_none() && lists.users.is_empty(),
        Some(q) => r.block.is_some() && same_users(&q.user_properties, &lists.users, s),
    };
    let topics = p.filters.len() == lists.topics.len() && p.filters.iter().zip(&lists.topics).all(|(a, b)| a.as_bytes() == b.of(s));
    r.kind == 10 && p.pkid == r.id && properties && topics
}

/// Kind, identifier and block, which acknowledgements and replies have alike.
macro_rules! same_head {
    ($p:ident, $kind:literal, $r:ident, $lists:ident, $s:ident) => {
        $r.kind == $kind
            && $p.pkid == $r.id
            && match &$p.properties {
                None => $r.block.is_none() && $lists.users.is_empty(),
                Some(q) => {
                    $r.block.is_some()
                        && same_text(&q.reason_string, $r.reason_string, $s)
                        && same_users(&q.user_properties, &$lists.users, $s)
                }
            }
    };
}

fn same_reasons<T: PartialEq>(codes: Codes<T>, a: &[T], b: &[u8]) -> bool {
    a.len() == b.len() && a.iter().zip(b).all(|(a, b)| code(codes, a) == *b)
}

/// Is the text's answer this one, field by field and item by item?
pub fn same(text: &Text, answer: &Answer, lists: &Lists, s: &[u8]) -> bool {
    let record = match (&text.0, &answer.0) {
        (Err(a), Err(b)) => a == b,
        (Ok(Packet::Publish(p)), Ok(r)) => same_publish(p, r, lists, s),
        (Ok(Packet::Subscribe(p)), Ok(r)) => same_subscribe(p, r, lists, s),
        (Ok(Packet::Unsubscribe(p)), Ok(r)) => same_unsubscribe(p, r, lists, s),
        (Ok(Packet::PubAck(p)), Ok(r)) => same_head!(p, 4, r, lists, s) && code(PUBACK, &p.reason) == r.reason,
        (Ok(Packet::PubRec(p)), Ok(r)) => same_head!(p, 5, r, lists, s) && code(PUBREC, &p.reason) == r.reason,
        (Ok(Packet::PubRel(p)), Ok(r)) => same_head!(p, 6, r, lists, s) && code(PUBREL, &p.reason) == r.reason,
        (Ok(Packet::PubComp(p)), Ok(r)) => same_head!(p, 7, r, lists, s) && code(PUBCOMP, &p.reason) == r.reason,
        (Ok(Packet::SubAck(p)), Ok(r)) => same_head!(p, 9, r, lists, s) && same_reasons(SUBACK, &p.return_codes, &lists.reasons),
        (Ok(Packet::UnsubAck(p)), Ok(r)) => same_head!(p, 11, r, lists, s) && same_reasons(UNSUBACK, &p.reasons, &lists.reasons),
        (Ok(Packet::PingReq(_)), Ok(r)) => r.kind == 12,
        (Ok(Packet::PingResp(_)), Ok(r)) => r.kind == 13,
        _ => false,
    };
    record && text.1 == answer.1
}

fn own(s: &[u8]) -> Option<String> {
    String::from_utf8(s.to_vec()).ok()
}

/// An absent string is Some(None), bytes that are no text are None.
fn own_lent(l: &Lent) -> Option<Option<String>> {
    if l.present {
        own(&l.bytes).map(Some)
    } else {
        Some(None)
    }
}

fn own_users(g: &Given) -> Option<Vec<(String, String)>> {
    let texts: Vec<String> = parts(&g.users, &g.user_lengths).map(own).collect::<Option<_>>()?;
    Some(texts.chunks(2).map(|p| (p[0].clone(), p[1].clone())).collect())
}

fn qos(n: u8) -> Option<QoS> {
    crate::v5::mqttbytes::qos(n)
}

fn own_filter(path: &[u8], options: u8) -> Option<Filter> {
    Some(Filter {
        path: own(path)?,
        qos: qos(options & 3)?,
        nolocal: options & 4 != 0,
        preserve_retain: options & 8 != 0,
        retain_forward_rule: match options >> 4 & 3 {
            0 => RetainForwardRule::OnEverySubscribe,
            1 => RetainForwardRule::OnNewSubscribe,
            2 => RetainForwardRule::Never,
            _ => return None,
        },
    })
}

fn own_publish(g: &Given) -> Option<Publish> {
    let properties = PublishProperties {
        payload_format_indicator: g.format,
        message_expiry_interval: g.expiry,
        topic_alias: g.alias,
        response_topic: own_lent(&g.response)?,
        correlation_data: g.correlation.present.then(|| Bytes::copy_from_slice(&g.correlation.bytes)),
        user_properties: own_users(g)?,
        subscription_identifiers: g.ids.iter().map(|n| *n as usize).collect(),
        content_type: own_lent(&g.content)?,
    };
    Some(Publish {
        dup: g.dup,
        qos: qos(g.qos)?,
        retain: g.retain,
        topic: g.topic.clone(),
        pkid: g.id,
        payload: g.payload.clone(),
        properties: g.block.then_some(properties),
    })
}

fn all_coded<T: Copy>(codes: Codes<T>, bytes: &[u8]) -> Option<Vec<T>> {
    bytes.iter().map(|k| coded(codes, *k)).collect()
}

/// The crate has a second name for 0x80, Failure, which it never reads: it is handed over where the packet identifier is odd.
fn suback_codes(g: &Given) -> Option<Vec<SubscribeReasonCode>> {
    let failure = |c: SubscribeReasonCode| {
        let second = g.id % 2 == 1 && c == SubscribeReasonCode::Unspecified;
        if second {
            SubscribeReasonCode::Failure
        } else {
            c
        }
    };
    Some(all_coded(SUBACK, &g.reasons)?.into_iter().map(failure).collect())
}

/// An acknowledgement or a reply.
macro_rules! own_reasoned {
    ($g:ident, $kind:ident, $properties:ident, $field:ident: $reasons:expr) => {{
        let properties = $properties {
            reason_string: own_lent(&$g.reason_string)?,
            user_properties: own_users($g)?,
        };
        Packet::$kind($kind {
            pkid: $g.id,
            $field: $reasons,
            properties: $g.block.then_some(properties),
        })
    }};
}

/// The record as the crate takes it, if the crate can be handed it. The lists fit together.
pub fn packet(g: &Given) -> Option<Packet> {
    Some(match g.kind {
        3 => Packet::Publish(own_publish(g)?),
        8 => {
            let properties = SubscribeProperties {
                id: g.sid.map(|n| n as usize),
                user_properties: own_users(g)?,
            };
            let filters = parts(&g.filters, &g.filter_lengths).zip(&g.options);
            Packet::Subscribe(Subscribe {
                pkid: g.id,
                filters: filters.map(|(path, options)| own_filter(path, *options)).collect::<Option<_>>()?,
                properties: g.block.then_some(properties),
            })
        }
        10 => {
            let properties = UnsubscribeProperties {
                user_properties: own_users(g)?,
            };
            Packet::Unsubscribe(Unsubscribe {
                pkid: g.id,
                filters: parts(&g.topics, &g.topic_lengths).map(own).collect::<Option<_>>()?,
                properties: g.block.then_some(properties),
            })
        }
        4 => own_reasoned!(g, PubAck, PubAckProperties, reason: coded(PUBACK, g.reason)?),
        5 => own_reasoned!(g, PubRec, PubRecProperties, reason: coded(PUBREC, g.reason)?),
        6 => own_reasoned!(g, PubRel, PubRelProperties, reason: coded(PUBREL, g.reason)?),
        7 => own_reasoned!(g, PubComp, PubCompProperties, reason: coded(PUBCOMP, g.reason)?),
        9 => own_reasoned!(g, SubAck, SubAckProperties, return_codes: suback_codes(g)?),
        11 => own_reasoned!(g, UnsubAck, UnsubAckProperties, reasons: all_coded(UNSUBACK, &g.reasons)?),
        12 => Packet::PingReq(PingReq),
        13 => Packet::PingResp(PingResp),
        _ => return None,
    })
}

/// What the text answers to a write; `out` holds what it put.
pub fn write(p: &Packet, limit: Option<u32>, out: &mut BytesMut) -> Result<u64, No> {
    out.clear();
    match catch_unwind(AssertUnwindSafe(|| p.write(out, limit))) {
        Ok(Ok(n)) => Ok(n as u64),
        Ok(Err(e)) => Err(refusal(e)),
        Err(_) => Err(no(PANIC)),
    }
}

pub fn size(p: &Packet) -> Result<u64, No> {
    catch_unwind(AssertUnwindSafe(|| p.size())).map(|n| n as u64).map_err(|_| no(PANIC))
}
