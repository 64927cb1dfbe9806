//! MQTT 5 packets read and written by proved code (crates/c_read and crates/c_write of this repository), in two layers.
//!
//! The first, `mqttbytes`, has the paths, types and signatures of rumqttc's `v5::mqttbytes`: `Packet::read(&mut BytesMut, Option<u32>)`,
//! `write`, `size`, and the records with `Bytes` that share the stream's memory. Where the answers differ from the crate's is listed in
//! docs/DIFFERENCES.md, and what is not there in bindings/README.md.
//! `places` is the thinner one: the records as they are read, with no copy at all. `pieces` reads a stream that arrives in pieces, over either.
//! `Aliases` keeps the topics of a connection by their aliases. `walk` yields the user properties of a frame, `filters` fills a table with a
//! Subscribe's filters. `tidy` gives a frame's tidy form, for an archive.
//!
//! ```
//! use bytes::BytesMut;
//! use ecchjulmina::mqttbytes::{v5::Packet, Error};
//!
//! let mut stream = BytesMut::from(&[0x30, 8, 0, 3, b'a', b'/', b'b', 0, b'h', b'i', 0xC0][..]);
//! match Packet::read(&mut stream, Some(1024)) {
//!     Ok(Packet::Publish(m)) => assert_eq!((&m.topic[..], &m.payload[..]), (&b"a/b"[..], &b"hi"[..])),
//!     other => panic!("{other:?}"),
//! }
//! assert_eq!(Packet::read(&mut stream, Some(1024)), Err(Error::InsufficientBytes(1)));
//! ```
//!
//! What is proved ends at the C interface; this crate is tested.
mod alias;
mod error;
pub mod filters;
mod frame;
pub mod inflight;
pub mod journal;
pub mod pieces;
pub mod places;
#[allow(clippy::too_many_arguments)]
pub mod sys;
mod tidy;
mod topics;
pub mod walk;
mod write;

// the examples of the pages run as well
#[cfg(doctest)]
#[doc = include_str!("../README.md")]
pub struct Readme;
#[cfg(doctest)]
#[doc = include_str!("../GATEWAY.md")]
pub struct Gateway;

pub use alias::{AliasError, Aliases};
use bytes::{Buf, Bytes, BytesMut};
use error::fault;
pub use error::Error;
pub use frame::{check, FixedHeader, PacketType};
use places::{Kind, Record};
use sys::*;
pub use tidy::{tidied, tidy};
pub use topics::{has_wildcards, matches, valid_filter, valid_topic};

/// The crate's paths: `ecchjulmina::mqttbytes` in the place of `rumqttc::v5::mqttbytes`.
pub mod mqttbytes {
    pub use crate::{has_wildcards, matches, valid_filter, valid_topic};
    pub use crate::{qos, Error, QoS};

    pub mod v5 {
        pub use crate::{check, FixedHeader, Packet, PacketType};
        pub use crate::{Filter, RetainForwardRule, Subscribe, SubscribeProperties};
        pub use crate::{PingReq, PingResp, Publish, PublishProperties};
        pub use crate::{PubAck, PubAckProperties, PubAckReason, PubRec, PubRecProperties, PubRecReason};
        pub use crate::{PubComp, PubCompProperties, PubCompReason, PubRel, PubRelProperties, PubRelReason};
        pub use crate::{SubAck, SubAckProperties, SubscribeReasonCode};
        pub use crate::{UnsubAck, UnsubAckProperties, UnsubAckReason, Unsubscribe, UnsubscribeProperties};
    }
}

#[repr(u8)]
#[derive(Debug, Clone, Copy, PartialEq, Eq, PartialOrd, Default)]
#[allow(clippy::enum_variant_names)]
pub enum QoS {
    #[default]
    AtMostOnce = 0,
    AtLeastOnce = 1,
    ExactlyOnce = 2,
}

impl QoS {
    /// Of a number that the library gave, which is 0, 1 or 2.
    pub(crate) fn of(n: u64) -> QoS {
        match n {
            0 => QoS::AtMostOnce,
            1 => QoS::AtLeastOnce,
            2 => QoS::ExactlyOnce,
            _ => fault("QoS", n),
        }
    }
}

/// Maps a number to QoS
pub fn qos(num: u8) -> Option<QoS> {
    (num < 3).then(|| QoS::of(num as u64))
}

#[derive(Debug, Clone, Copy, PartialEq, Eq, Default)]
pub enum RetainForwardRule {
    #[default]
    OnEverySubscribe,
    OnNewSubscribe,
    Never,
}

impl RetainForwardRule {
    pub(crate) fn of(n: u64) -> RetainForwardRule {
        match n {
            0 => RetainForwardRule::OnEverySubscribe,
            1 => RetainForwardRule::OnNewSubscribe,
            2 => RetainForwardRule::Never,
            _ => fault("forward rule", n),
        }
    }
}

/// The reasons of a kind: the crate's names, and the byte of each in a packet.
macro_rules! reasons {
    ($(#[$doc:meta])* $kind:ident { $($name:ident = $n:literal),* $(,)? }) => {
        $(#[$doc])*
        #[derive(Debug, Clone, Copy, PartialEq, Eq)]
        pub enum $kind { $($name),* }

        impl $kind {
            /// The reason's byte in a packet.
            pub fn code(self) -> u8 {
                match self { $($kind::$name => $n),* }
            }

            /// The reason of a byte, if the kind lists it.
            pub fn from_code(n: u8) -> Option<$kind> {
                Some(match n {
                    $($n => $kind::$name,)*
                    _ => return None,
                })
            }
        }
    };
}

reasons! {
    /// Return code in puback
    PubAckReason {
        Success = 0x00,
        NoMatchingSubscribers = 0x10,
        UnspecifiedError = 0x80,
        ImplementationSpecificError = 0x83,
        NotAuthorized = 0x87,
        TopicNameInvalid = 0x90,
        PacketIdentifierInUse = 0x91,
        QuotaExceeded = 0x97,
        PayloadFormatInvalid = 0x99,
    }
}

reasons! {
    /// Return code in PubRec
    PubRecReason {
        Success = 0x00,
        NoMatchingSubscribers = 0x10,
        UnspecifiedError = 0x80,
        ImplementationSpecificError = 0x83,
        NotAuthorized = 0x87,
        TopicNameInvalid = 0x90,
        PacketIdentifierInUse = 0x91,
        QuotaExceeded = 0x97,
        PayloadFormatInvalid = 0x99,
    }
}

reasons! {
    /// Return code in PubRel
    PubRelReason {
        Success = 0x00,
        PacketIdentifierNotFound = 0x92,
    }
}

reasons! {
    /// Return code in PubComp
    PubCompReason {
        Success = 0x00,
        PacketIdentifierNotFound = 0x92,
    }
}

reasons! {
    /// Return code in unsuback, one for each topic
    UnsubAckReason {
        Success = 0x00,
        NoSubscriptionExisted = 0x11,
        UnspecifiedError = 0x80,
        ImplementationSpecificError = 0x83,
        NotAuthorized = 0x87,
        TopicFilterInvalid = 0x8F,
        PacketIdentifierInUse = 0x91,
    }
}

/// Return code in suback, one for each filter. `Failure` and `Unspecified` have the same byte, as in the crate; it is read as `Unspecified`.
#[derive(Debug, Clone, Copy, PartialEq, Eq)]
pub enum SubscribeReasonCode {
    Success(QoS),
    Failure,
    Unspecified,
    ImplementationSpecific,
    NotAuthorized,
    TopicFilterInvalid,
    PkidInUse,
    QuotaExceeded,
    SharedSubscriptionsNotSupported,
    SubscriptionIdNotSupported,
    WildcardSubscriptionsNotSupported,
}

impl SubscribeReasonCode {
    /// The reason's byte in a packet.
    pub fn code(self) -> u8 {
        match self {
            SubscribeReasonCode::Success(qos) => qos as u8,
            SubscribeReasonCode::Failure => 0x80,
            SubscribeReasonCode::Unspecified => 0x80,
            SubscribeReasonCode::ImplementationSpecific => 0x83,
            SubscribeReasonCode::NotAuthorized => 0x87,
            SubscribeReasonCode::TopicFilterInvalid => 0x8F,
            SubscribeReasonCode::PkidInUse => 0x91,
            SubscribeReasonCode::QuotaExceeded => 0x97,
            SubscribeReasonCode::SharedSubscriptionsNotSupported => 0x9E,
            SubscribeReasonCode::SubscriptionIdNotSupported => 0xA1,
            SubscribeReasonCode::WildcardSubscriptionsNotSupported => 0xA2,
        }
    }

    /// The reason of a byte, if a SubAck lists it.
    pub fn from_code(n: u8) -> Option<SubscribeReasonCode> {
        Some(match n {
            0..=2 => SubscribeReasonCode::Success(QoS::of(n as u64)),
            0x80 => SubscribeReasonCode::Unspecified,
            0x83 => SubscribeReasonCode::ImplementationSpecific,
            0x87 => SubscribeReasonCode::NotAuthorized,
            0x8F => SubscribeReasonCode::TopicFilterInvalid,
            0x91 => SubscribeReasonCode::PkidInUse,
            0x97 => SubscribeReasonCode::QuotaExceeded,
            0x9E => SubscribeReasonCode::SharedSubscriptionsNotSupported,
            0xA1 => SubscribeReasonCode::SubscriptionIdNotSupported,
            0xA2 => SubscribeReasonCode::WildcardSubscriptionsNotSupported,
            _ => return None,
        })
    }
}

/// Publish packet
#[derive(Clone, Debug, PartialEq, Eq, Default)]
pub struct Publish {
    pub dup: bool,
    pub qos: QoS,
    pub retain: bool,
    pub topic: Bytes,
    pub pkid: u16,
    pub payload: Bytes,
    pub properties: Option<PublishProperties>,
}

impl Publish {
    pub fn new<T: Into<String>, P: Into<Bytes>>(topic: T, qos: QoS, payload: P, properties: Option<PublishProperties>) -> Self {
        let topic = Bytes::from(topic.into());
        Self { qos, topic, payload: payload.into(), properties, ..Default::default() }
    }
}

#[derive(Debug, Clone, PartialEq, Eq, Default)]
pub struct PublishProperties {
    pub payload_format_indicator: Option<u8>,
    pub message_expiry_interval: Option<u32>,
    pub topic_alias: Option<u16>,
    pub response_topic: Option<String>,
    pub correlation_data: Option<Bytes>,
    pub user_properties: Vec<(String, String)>,
    pub subscription_identifiers: Vec<usize>,
    pub content_type: Option<String>,
}

/// Subscription packet
#[derive(Clone, Debug, PartialEq, Eq, Default)]
pub struct Subscribe {
    pub pkid: u16,
    pub filters: Vec<Filter>,
    pub properties: Option<SubscribeProperties>,
}

impl Subscribe {
    pub fn new(filter: Filter, properties: Option<SubscribeProperties>) -> Self {
        Self { filters: vec![filter], properties, ..Default::default() }
    }

    pub fn new_many<F: IntoIterator<Item = Filter>>(filters: F, properties: Option<SubscribeProperties>) -> Self {
        Self { filters: filters.into_iter().collect(), properties, ..Default::default() }
    }
}

/// Subscription filter
#[derive(Clone, Debug, PartialEq, Eq, Default)]
pub struct Filter {
    pub path: String,
    pub qos: QoS,
    pub nolocal: bool,
    pub preserve_retain: bool,
    pub retain_forward_rule: RetainForwardRule,
}

impl Filter {
    pub fn new<T: Into<String>>(topic: T, qos: QoS) -> Self {
        Self { path: topic.into(), qos, ..Default::default() }
    }

    /// The filters that the bytes are, which are taken; refused bytes are left as they were.
    pub fn read(bytes: &mut Bytes) -> Result<Vec<Filter>, Error> {
        let filters = places::filters(bytes)?.map(Filter::of).collect::<Result<_, Error>>()?;
        bytes.clear();
        Ok(filters)
    }

    fn of(f: places::Filter) -> Result<Filter, Error> {
        Ok(Filter {
            path: text(f.path)?,
            qos: f.qos,
            nolocal: f.nolocal,
            preserve_retain: f.preserve_retain,
            retain_forward_rule: f.retain_forward_rule,
        })
    }
}

#[derive(Debug, Clone, PartialEq, Eq, Default)]
pub struct SubscribeProperties {
    pub id: Option<usize>,
    pub user_properties: Vec<(String, String)>,
}

/// A publish acknowledgement, its properties, and how it is read: the crate's shape for all four.
macro_rules! acknowledgement {
    ($(#[$doc:meta])* $kind:ident, $reason:ident, $properties:ident) => {
        $(#[$doc])*
        #[derive(Debug, Clone, PartialEq, Eq)]
        pub struct $kind {
            pub pkid: u16,
            pub reason: $reason,
            pub properties: Option<$properties>,
        }

        impl $kind {
            pub fn new(pkid: u16, properties: Option<$properties>) -> Self {
                Self { pkid, reason: $reason::Success, properties }
            }

            fn of(r: &Record) -> Result<Packet, Error> {
                let reason = $reason::from_code(r.reason()).ok_or(Error::InvalidReason(r.reason()))?;
                Ok(Packet::$kind($kind { pkid: r.pkid(), reason, properties: $properties::of(r)? }))
            }
        }

        reasoned!($properties);
    };
}

/// The properties of an acknowledgement, and how they are read.
macro_rules! reasoned {
    ($properties:ident) => {
        #[derive(Debug, Clone, PartialEq, Eq, Default)]
        pub struct $properties {
            pub reason_string: Option<String>,
            pub user_properties: Vec<(String, String)>,
        }

        impl $properties {
            fn of(r: &Record) -> Result<Option<$properties>, Error> {
                if !r.has_properties() {
                    return Ok(None);
                }
                let reason_string = r.reason_string().map(text).transpose()?;
                Ok(Some($properties { reason_string, user_properties: pairs(r)? }))
            }
        }
    };
}

acknowledgement! {
    /// Acknowledgement to QoS1 publish
    PubAck, PubAckReason, PubAckProperties
}

acknowledgement! {
    /// Acknowledgement to QoS2 publish
    PubRec, PubRecReason, PubRecProperties
}

acknowledgement! {
    /// QoS2 Publish release, in response to PUBREC packet
    PubRel, PubRelReason, PubRelProperties
}

acknowledgement! {
    /// QoS2 Assured publish complete, in response to PUBREL packet
    PubComp, PubCompReason, PubCompProperties
}

/// Acknowledgement to subscribe
#[derive(Debug, Clone, PartialEq, Eq)]
pub struct SubAck {
    pub pkid: u16,
    pub return_codes: Vec<SubscribeReasonCode>,
    pub properties: Option<SubAckProperties>,
}

reasoned!(SubAckProperties);

/// Unsubscribe packet
#[derive(Debug, Clone, PartialEq, Eq, Default)]
pub struct Unsubscribe {
    pub pkid: u16,
    pub filters: Vec<String>,
    pub properties: Option<UnsubscribeProperties>,
}

impl Unsubscribe {
    pub fn new<S: Into<String>>(filter: S, properties: Option<UnsubscribeProperties>) -> Self {
        Self { filters: vec![filter.into()], properties, ..Default::default() }
    }
}

#[derive(Debug, Clone, PartialEq, Eq, Default)]
pub struct UnsubscribeProperties {
    pub user_properties: Vec<(String, String)>,
}

/// Acknowledgement to unsubscribe
#[derive(Debug, Clone, PartialEq, Eq)]
pub struct UnsubAck {
    pub pkid: u16,
    pub reasons: Vec<UnsubAckReason>,
    pub properties: Option<UnsubAckProperties>,
}

reasoned!(UnsubAckProperties);

#[derive(Debug, Clone, PartialEq, Eq)]
pub struct PingReq;

#[derive(Debug, Clone, PartialEq, Eq)]
pub struct PingResp;

#[derive(Clone, Debug, PartialEq, Eq)]
pub enum Packet {
    Publish(Publish),
    PubAck(PubAck),
    PingReq(PingReq),
    PingResp(PingResp),
    Subscribe(Subscribe),
    SubAck(SubAck),
    PubRec(PubRec),
    PubRel(PubRel),
    PubComp(PubComp),
    Unsubscribe(Unsubscribe),
    UnsubAck(UnsubAck),
}

/// A text that the library has tested; the test here costs little and needs no trust.
fn text(part: &[u8]) -> Result<String, Error> {
    String::from_utf8(part.to_vec()).map_err(|_| Error::TopicNotUtf8)
}

fn pairs(r: &Record) -> Result<Vec<(String, String)>, Error> {
    r.user_properties().map(|(k, v)| Ok((text(k)?, text(v)?))).collect()
}

fn publish(r: &Record, frame: &Bytes) -> Result<Packet, Error> {
    let mut properties = None;
    if r.has_properties() {
        properties = Some(PublishProperties {
            payload_format_indicator: r.payload_format_indicator(),
            message_expiry_interval: r.message_expiry_interval(),
            topic_alias: r.topic_alias(),
            response_topic: r.response_topic().map(text).transpose()?,
            correlation_data: r.place_if(ECCH_CORRELATION).map(|p| frame.slice(p)),
            user_properties: pairs(r)?,
            subscription_identifiers: r.subscription_identifiers().map(|n| n as usize).collect(),
            content_type: r.content_type().map(text).transpose()?,
        });
    }
    Ok(Packet::Publish(Publish {
        dup: r.dup(),
        qos: r.qos(),
        retain: r.retain(),
        topic: frame.slice(r.place(ECCH_TOPIC_START)),
        pkid: r.pkid(),
        payload: frame.slice(r.place(ECCH_PAYLOAD_START)),
        properties,
    }))
}

fn subscribe(r: &Record) -> Result<Packet, Error> {
    let mut properties = None;
    if r.has_properties() {
        properties = Some(SubscribeProperties {
            id: r.subscription_identifier().map(|n| n as usize),
            user_properties: pairs(r)?,
        });
    }
    Ok(Packet::Subscribe(Subscribe { pkid: r.pkid(), filters: r.filters().map(Filter::of).collect::<Result<_, Error>>()?, properties }))
}

/// The reasons of a list, by the kind's table.
fn reasons<T>(r: &Record, from_code: fn(u8) -> Option<T>) -> Result<Vec<T>, Error> {
    r.reasons().iter().map(|n| from_code(*n).ok_or(Error::InvalidReason(*n))).collect()
}

fn suback(r: &Record) -> Result<Packet, Error> {
    let return_codes = reasons(r, SubscribeReasonCode::from_code)?;
    Ok(Packet::SubAck(SubAck { pkid: r.pkid(), return_codes, properties: SubAckProperties::of(r)? }))
}

fn unsubscribe(r: &Record) -> Result<Packet, Error> {
    let mut properties = None;
    if r.has_properties() {
        properties = Some(UnsubscribeProperties { user_properties: pairs(r)? });
    }
    let filters = r.topics().map(text).collect::<Result<_, Error>>()?;
    Ok(Packet::Unsubscribe(Unsubscribe { pkid: r.pkid(), filters, properties }))
}

fn unsuback(r: &Record) -> Result<Packet, Error> {
    let reasons = reasons(r, UnsubAckReason::from_code)?;
    Ok(Packet::UnsubAck(UnsubAck { pkid: r.pkid(), reasons, properties: UnsubAckProperties::of(r)? }))
}

impl Packet {
    /// Reads a stream of bytes and extracts next MQTT packet out of it. `max_size` counts the whole frame, its first byte and its length
    /// number included. A refusal within a whole frame takes the frame away too, as in the crate; `InsufficientBytes`, a malformed length of
    /// the frame and a frame above the limit take nothing.
    ///
    /// ```
    /// # use bytes::BytesMut;
    /// # use ecchjulmina::mqttbytes::{v5::Packet, Error};
    /// let mut stream = BytesMut::from(&[0x32, 6, 0, 1, b'a', 0, 0, 0, 0xD0, 0][..]);
    /// assert_eq!(Packet::read(&mut stream, None), Err(Error::PacketIdZero)); // its 8 bytes are gone
    /// assert!(matches!(Packet::read(&mut stream, None), Ok(Packet::PingResp(_))));
    /// ```
    pub fn read(stream: &mut BytesMut, max_size: Option<u32>) -> Result<Packet, Error> {
        let (answer, taken) = places::read(stream, max_size.map(|n| n as usize));
        let numbers = match answer {
            Ok(record) => record.numbers(),
            Err(e) => {
                stream.advance(taken);
                return Err(e);
            }
        };
        Packet::of(stream.split_to(taken).freeze(), numbers)
    }

    /// The packet of a frame whose numbers were read.
    pub(crate) fn of(frame: Bytes, numbers: [u64; ECCH_RECORD_LEN]) -> Result<Packet, Error> {
        let record = Record::again(&frame, numbers);
        match record.kind() {
            Kind::Publish => publish(&record, &frame),
            Kind::PubAck => PubAck::of(&record),
            Kind::PubRec => PubRec::of(&record),
            Kind::PubRel => PubRel::of(&record),
            Kind::PubComp => PubComp::of(&record),
            Kind::Subscribe => subscribe(&record),
            Kind::SubAck => suback(&record),
            Kind::Unsubscribe => unsubscribe(&record),
            Kind::UnsubAck => unsuback(&record),
            Kind::PingReq => Ok(Packet::PingReq(PingReq)),
            Kind::PingResp => Ok(Packet::PingResp(PingResp)),
        }
    }
}

/// The crate's `read` of each kind that has one: over a whole frame, with the header that `check` gave of it. Another kind, or another
/// frame's header, is `InvalidPacketType`.
macro_rules! read {
    ($($kind:ident),*) => {
        $(impl $kind {
            pub fn read(fixed_header: FixedHeader, bytes: Bytes) -> Result<$kind, Error> {
                match fixed_header.packet(bytes)? {
                    Packet::$kind(m) => Ok(m),
                    _ => Err(Error::InvalidPacketType(fixed_header.kind())),
                }
            }
        })*
    };
}

read!(Publish, PubAck, PubRec, PubRel, PubComp, Subscribe, SubAck, Unsubscribe, UnsubAck);
