//! The refusals of 01 and 02, by the crate's names, shapes and texts where the crate has the case.
use std::{fmt, io, str::Utf8Error};

/// Why a packet was not read or not written: 01's cases, in its order, then 02's. The number of a case is `number`. The last two are the
/// caller's own: nothing here gives them, and `?` makes them.
#[derive(Debug)]
pub enum Error {
    /// 1: so many bytes are lacking at least
    InsufficientBytes(usize),
    /// 2
    MalformedRemainingLength,
    /// 3: the whole frame has so many bytes, and the limit is `max`
    PayloadSizeLimitExceeded { pkt_size: usize, max: u32 },
    /// 4
    InvalidPacketType(u8),
    /// 5
    PayloadRequired,
    /// 6
    KindNotCarried(u8),
    /// 7
    MalformedPacket,
    /// 8
    BoundaryCrossed(usize),
    /// 9
    TopicNotUtf8,
    /// 10
    InvalidPropertyType(u8),
    /// 11
    InvalidQoS(u8),
    /// 12
    PacketIdZero,
    /// 13
    EmptySubscription,
    /// 14
    InvalidRetainForwardRule(u8),
    /// 15
    InvalidReason(u8),
    /// 16
    OutgoingPacketTooLarge { pkt_size: u32, max: u32 },
    /// 17
    PayloadTooLong,
    /// 18
    StringTooLong(usize),
    /// 19
    NoRoom(usize),
    /// 20
    ListMismatch,
    /// 21
    NoItem,
    /// 22: the identifier of the property that came twice
    DuplicateProperty(u8),
    /// 23
    SubscriptionIdZero,
    PayloadNotUtf8(Utf8Error),
    Io(io::Error),
}

/// What the library is proved never to give: it is not the one that was proved, or it was not called as its header asks.
#[cold]
pub(crate) fn fault(what: &str, n: impl fmt::Display) -> ! {
    panic!("libecchjulmina gave {what} {n}, which it cannot")
}

/// A number in its own width.
pub(crate) fn fit<T: TryFrom<u64>>(what: &str, n: u64) -> T {
    T::try_from(n).unwrap_or_else(|_| fault(what, n))
}

/// 0 or 1.
pub(crate) fn flag(n: u64) -> bool {
    match n {
        0 => false,
        1 => true,
        _ => fault("a flag", n),
    }
}

impl Error {
    /// The case of a number that the library gave, with its values; None for 0, success. Every value fits: a limit that is exceeded is below
    /// the frame's length, which like a size that is too large is at most 268,435,460.
    pub(crate) fn of(number: u32, one: u64, two: u64) -> Option<Error> {
        let byte = || fit::<u8>("a refusal's value", one);
        let first = || fit::<usize>("a refusal's value", one);
        let max = || fit::<u32>("a limit", two);
        Some(match number {
            0 => return None,
            1 => Error::InsufficientBytes(first()),
            2 => Error::MalformedRemainingLength,
            3 => Error::PayloadSizeLimitExceeded { pkt_size: first(), max: max() },
            4 => Error::InvalidPacketType(byte()),
            5 => Error::PayloadRequired,
            6 => Error::KindNotCarried(byte()),
            7 => Error::MalformedPacket,
            8 => Error::BoundaryCrossed(first()),
            9 => Error::TopicNotUtf8,
            10 => Error::InvalidPropertyType(byte()),
            11 => Error::InvalidQoS(byte()),
            12 => Error::PacketIdZero,
            13 => Error::EmptySubscription,
            14 => Error::InvalidRetainForwardRule(byte()),
            15 => Error::InvalidReason(byte()),
            16 => Error::OutgoingPacketTooLarge { pkt_size: fit("a size", one), max: max() },
            17 => Error::PayloadTooLong,
            18 => Error::StringTooLong(first()),
            19 => Error::NoRoom(first()),
            20 => Error::ListMismatch,
            21 => Error::NoItem,
            22 => Error::DuplicateProperty(byte()),
            23 => Error::SubscriptionIdZero,
            _ => fault("refusal", number),
        })
    }

    /// The number in 01's table; 22 and 23 are 02's, P9; 0 for the caller's own.
    pub fn number(&self) -> u8 {
        match self {
            Error::InsufficientBytes(_) => 1,
            Error::MalformedRemainingLength => 2,
            Error::PayloadSizeLimitExceeded { .. } => 3,
            Error::InvalidPacketType(_) => 4,
            Error::PayloadRequired => 5,
            Error::KindNotCarried(_) => 6,
            Error::MalformedPacket => 7,
            Error::BoundaryCrossed(_) => 8,
            Error::TopicNotUtf8 => 9,
            Error::InvalidPropertyType(_) => 10,
            Error::InvalidQoS(_) => 11,
            Error::PacketIdZero => 12,
            Error::EmptySubscription => 13,
            Error::InvalidRetainForwardRule(_) => 14,
            Error::InvalidReason(_) => 15,
            Error::OutgoingPacketTooLarge { .. } => 16,
            Error::PayloadTooLong => 17,
            Error::StringTooLong(_) => 18,
            Error::NoRoom(_) => 19,
            Error::ListMismatch => 20,
            Error::NoItem => 21,
            Error::DuplicateProperty(_) => 22,
            Error::SubscriptionIdZero => 23,
            Error::PayloadNotUtf8(_) | Error::Io(_) => 0,
        }
    }

    /// The values in that table, 0 where there is none.
    pub fn values(&self) -> (u64, u64) {
        match *self {
            Error::InsufficientBytes(n) | Error::BoundaryCrossed(n) | Error::StringTooLong(n) | Error::NoRoom(n) => (n as u64, 0),
            Error::PayloadSizeLimitExceeded { pkt_size, max } => (pkt_size as u64, max.into()),
            Error::OutgoingPacketTooLarge { pkt_size, max } => (pkt_size.into(), max.into()),
            Error::InvalidPacketType(n) | Error::KindNotCarried(n) | Error::InvalidPropertyType(n) | Error::DuplicateProperty(n) => (n.into(), 0),
            Error::InvalidQoS(n) | Error::InvalidRetainForwardRule(n) | Error::InvalidReason(n) => (n.into(), 0),
            _ => (0, 0),
        }
    }
}

/// Errors of `std::io` are equal if they are of one kind.
impl PartialEq for Error {
    fn eq(&self, other: &Error) -> bool {
        match (self, other) {
            (Error::PayloadNotUtf8(a), Error::PayloadNotUtf8(b)) => a == b,
            (Error::Io(a), Error::Io(b)) => a.kind() == b.kind(),
            (a, b) => a.number() != 0 && a.number() == b.number() && a.values() == b.values(),
        }
    }
}

impl fmt::Display for Error {
    fn fmt(&self, f: &mut fmt::Formatter<'_>) -> fmt::Result {
        match self {
            Error::InsufficientBytes(n) => write!(f, "Insufficient number of bytes to frame packet, {n} more bytes required"),
            Error::MalformedRemainingLength => write!(f, "Remaining length is malformed"),
            Error::PayloadSizeLimitExceeded { pkt_size, max } => {
                write!(f, "Max Payload size of {max:?} has been exceeded by packet of {pkt_size:?} bytes")
            }
            Error::InvalidPacketType(n) => write!(f, "Invalid packet type = {n}"),
            Error::PayloadRequired => write!(f, "Payload is required"),
            Error::KindNotCarried(n) => write!(f, "Packet type is not carried = {n}"),
            Error::MalformedPacket => write!(f, "Packet is malformed"),
            Error::BoundaryCrossed(n) => write!(f, "Promised boundary crossed, contains {n} bytes"),
            Error::TopicNotUtf8 => write!(f, "Topic not utf-8"),
            Error::InvalidPropertyType(n) => write!(f, "Invalid property type = {n}"),
            Error::InvalidQoS(n) => write!(f, "Invalid QoS level = {n}"),
            Error::PacketIdZero => write!(f, "Packet received has id Zero"),
            Error::EmptySubscription => write!(f, "Empty Subscription"),
            Error::InvalidRetainForwardRule(n) => write!(f, "Invalid retain forward rule = {n}"),
            Error::InvalidReason(n) => write!(f, "Invalid reason = {n}"),
            Error::OutgoingPacketTooLarge { pkt_size, max } => write!(
                f,
                "Cannot send packet of size '{pkt_size:?}'. It's greater than the broker's maximum packet size of: '{max:?}'"
            ),
            Error::PayloadTooLong => write!(f, "Payload is too long"),
            Error::StringTooLong(n) => write!(f, "String is too long, contains {n} bytes"),
            Error::NoRoom(n) => write!(f, "No room for {n} bytes"),
            Error::ListMismatch => write!(f, "Lists do not match"),
            Error::NoItem => write!(f, "No such item"),
            Error::DuplicateProperty(n) => write!(f, "Duplicate property = {n}"),
            Error::SubscriptionIdZero => write!(f, "Subscription had id Zero"),
            Error::PayloadNotUtf8(e) => write!(f, "Payload is required = {e}"),
            Error::Io(e) => write!(f, "IO: {e}"),
        }
    }
}

impl std::error::Error for Error {
    fn source(&self) -> Option<&(dyn std::error::Error + 'static)> {
        match self {
            Error::PayloadNotUtf8(e) => Some(e),
            Error::Io(e) => Some(e),
            _ => None,
        }
    }
}

impl From<Utf8Error> for Error {
    fn from(e: Utf8Error) -> Error {
        Error::PayloadNotUtf8(e)
    }
}

impl From<io::Error> for Error {
    fn from(e: io::Error) -> Error {
        Error::Io(e)
    }
}
