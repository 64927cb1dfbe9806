//! The shapes in which all sides answer: refusals by 01's numbers, records as places in the stream.

/// A refusal: its number in 01 and its values, 0 where it has none. Numbers from 101 are errors of the crate that 01 does not number.
#[derive(Clone, Copy, Debug, PartialEq, Eq, Hash)]
pub struct No {
    pub no: u8,
    pub a: u64,
    pub b: u64,
}

/// `InvalidConnectReturnCode(k)`, which the crate's publish acknowledgements give for 15.
pub const RETURN_CODE: u8 = 101;
/// `IncorrectPacketFormat`, what the trimmed text gives for a kind that is not carried.
pub const TRIMMED: u8 = 102;
/// A panic.
pub const PANIC: u8 = 103;
/// An error that no side is known to give.
pub const UNKNOWN: u8 = 104;
/// `InvalidSubscribeReasonCode(k)`, which the crate's SubAck and UnsubAck give for 15.
pub const SUBSCRIBE_CODE: u8 = 105;

pub fn no(no: u8) -> No {
    No { no, a: 0, b: 0 }
}
pub fn no1(no: u8, a: u64) -> No {
    No { no, a, b: 0 }
}
pub fn no2(no: u8, a: u64, b: u64) -> No {
    No { no, a, b }
}

/// The bytes from `start` on, `len` of them.
#[derive(Clone, Copy, Debug, Default, PartialEq, Eq, Hash)]
pub struct Span {
    pub start: usize,
    pub len: usize,
}

impl Span {
    /// The bytes; none if the place lies outside of them.
    pub fn of(self, s: &[u8]) -> &[u8] {
        s.get(self.start..).and_then(|t| t.get(..self.len)).unwrap_or(&[])
    }
}

/// Where a property block stands; that of a reply is an acknowledgement's.
#[derive(Clone, Copy, Debug, PartialEq, Eq)]
pub enum Place {
    Publish,
    Subscribe,
    Ack,
    Unsubscribe,
}

/// The kinds that are carried, in the order of their numbers.
pub const KINDS: [(u8, &str); 11] = [
    (3, "Publish"),
    (4, "PubAck"),
    (5, "PubRec"),
    (6, "PubRel"),
    (7, "PubComp"),
    (8, "Subscribe"),
    (9, "SubAck"),
    (10, "Unsubscribe"),
    (11, "UnsubAck"),
    (12, "PingReq"),
    (13, "PingResp"),
];

pub fn name(kind: u8) -> &'static str {
    KINDS.iter().find(|(k, _)| *k == kind).map_or("none", |(_, name)| name)
}

pub fn is_ack(kind: u8) -> bool {
    matches!(kind, 4..=7)
}

/// SubAck and UnsubAck.
pub fn is_reply(kind: u8) -> bool {
    matches!(kind, 9 | 11)
}

/// The place of the block of a kind that has one.
pub fn place_of(kind: u8) -> Option<Place> {
    match kind {
        3 => Some(Place::Publish),
        4..=7 | 9 | 11 => Some(Place::Ack),
        8 => Some(Place::Subscribe),
        10 => Some(Place::Unsubscribe),
        _ => None,
    }
}

/// The first byte of a kind whose flags are fixed, as it is written.
pub fn first_byte(kind: u8) -> u8 {
    kind << 4 | if matches!(kind, 6 | 8 | 10) { 2 } else { 0 }
}

/// Where the properties of a record start and end; None of a side that does not say it, which is then not compared.
#[derive(Clone, Copy, Debug, Default)]
pub struct Bounds(pub Option<(usize, usize)>);

impl PartialEq for Bounds {
    fn eq(&self, other: &Self) -> bool {
        self.0.is_none() || other.0.is_none() || self.0 == other.0
    }
}
impl Eq for Bounds {}

/// A record as read. What a kind does not have keeps its default.
#[derive(Clone, Debug, Default, PartialEq, Eq)]
pub struct Record {
    /// one of KINDS
    pub kind: u8,
    pub dup: bool,
    pub qos: u8,
    pub retain: bool,
    pub id: u16,
    pub topic: Span,
    pub payload: Span,
    /// the place of the properties, if they are present
    pub block: Option<Span>,
    pub format: Option<u8>,
    pub expiry: Option<u32>,
    pub alias: Option<u16>,
    pub response: Option<Span>,
    pub correlation: Option<Span>,
    pub content: Option<Span>,
    /// 11 in Subscribe
    pub sid: Option<u32>,
    pub filters: Span,
    pub reason: u8,
    pub reason_string: Option<Span>,
    /// of a SubAck or UnsubAck
    pub reasons: Span,
    /// of an Unsubscribe
    pub topics: Span,
    /// 02's P7
    pub bounds: Bounds,
}

/// The lists of a record, item by item. An option of a filter is its bits 0 to 5.
#[derive(Clone, Debug, Default, PartialEq, Eq)]
pub struct Lists {
    pub users: Vec<(Span, Span)>,
    pub ids: Vec<u32>,
    pub filters: Vec<(Span, u8)>,
    pub reasons: Vec<u8>,
    pub topics: Vec<Span>,
}

impl Lists {
    pub fn clear(&mut self) {
        self.users.clear();
        self.ids.clear();
        self.filters.clear();
        self.reasons.clear();
        self.topics.clear();
    }
    /// The length of the longest.
    pub fn most(&self) -> usize {
        let entries = self.filters.len().max(self.reasons.len()).max(self.topics.len());
        self.users.len().max(self.ids.len()).max(entries)
    }
}

/// Record or refusal, and the bytes taken.
pub type Answer = (Result<Record, No>, usize);

/// What a record is written from: numbers, runs of bytes, lists of lengths. What a kind does not have keeps its default.
#[derive(Clone, Debug, Default, PartialEq, Eq)]
pub struct Given {
    pub kind: u8,
    pub dup: bool,
    pub qos: u8,
    pub retain: bool,
    pub id: u16,
    /// whether a property set is present
    pub block: bool,
    pub format: Option<u8>,
    pub expiry: Option<u32>,
    pub alias: Option<u16>,
    /// bit by bit, whether a number that is not 0 is handed over for format, expiry, alias or `sid` if it is absent (20)
    pub off: u8,
    pub response: Lent,
    pub correlation: Lent,
    pub content: Lent,
    pub reason_string: Lent,
    pub users: Vec<u8>,
    pub user_lengths: Vec<usize>,
    pub ids: Vec<u32>,
    pub sid: Option<u32>,
    pub topic: bytes::Bytes,
    pub payload: bytes::Bytes,
    pub filters: Vec<u8>,
    pub filter_lengths: Vec<usize>,
    pub options: Vec<u8>,
    pub reason: u8,
    /// of a SubAck or UnsubAck
    pub reasons: Vec<u8>,
    /// of an Unsubscribe
    pub topics: Vec<u8>,
    pub topic_lengths: Vec<usize>,
}

impl Given {
    fn off(&self, bit: u8) -> u8 {
        if self.off >> bit & 1 == 1 { 171 } else { 0 }
    }

    /// What is handed over for format, expiry, alias and subscription identifier, present or not.
    pub fn numbers(&self) -> (u8, u32, u16, u32) {
        (
            self.format.unwrap_or(self.off(0)),
            self.expiry.unwrap_or(self.off(1).into()),
            self.alias.unwrap_or(self.off(2).into()),
            self.sid.unwrap_or(self.off(3).into()),
        )
    }

    /// Whether a number is handed over for an absent value of the kind.
    pub fn off_number(&self) -> bool {
        let (format, expiry, alias, sid) = self.numbers();
        match self.kind {
            3 => self.format.is_none() && format != 0 || self.expiry.is_none() && expiry != 0 || self.alias.is_none() && alias != 0,
            8 => self.sid.is_none() && sid != 0,
            _ => false,
        }
    }
}

/// A string that may be absent; an absent one with bytes is refused (20).
#[derive(Clone, Debug, Default, PartialEq, Eq)]
pub struct Lent {
    pub present: bool,
    pub bytes: Vec<u8>,
}

pub fn hex(s: &[u8]) -> String {
    let shown: Vec<String> = s.iter().take(200).map(|b| format!("{b:02X}")).collect();
    shown.join(" ") + if s.len() > 200 { " .." } else { "" }
}
