//! The records as they are read: no copy, no allocation; strings are parts of the caller's stream, lists are walked in place.
use crate::error::{fault, fit, flag};
use crate::{sys::*, Error, QoS, RetainForwardRule};

/// What the stream begins with, or why it is refused; and how many bytes of the stream that takes. `limit` counts the whole frame. Nothing
/// below can panic: the number taken and every place lie within the stream, and every number has one of its meanings, which is proved of
/// `ecch_read`. A library that gives anything else ends in a panic that says so.
///
/// ```
/// use ecchjulmina::{places::read, Error};
///
/// let stream = [0x30, 8, 0, 3, b'a', b'/', b'b', 0, b'h', b'i', 0xF0, 0];
/// let (answer, taken) = read(&stream, Some(10));
/// assert_eq!(answer.unwrap().topic(), b"a/b");
/// let (answer, taken) = read(&stream[taken..], Some(10));
/// assert!(matches!(answer, Err(Error::InvalidPacketType(15))));
/// assert_eq!(taken, 2);
/// ```
pub fn read(stream: &[u8], limit: Option<usize>) -> (Result<Record<'_>, Error>, usize) {
    let mut numbers = [0u64; ECCH_RECORD_LEN];
    // Sound: both pointers stand for whole Rust slices, which do not overlap since one is lent for writing.
    let number = unsafe {
        ecch_read(stream.as_ptr(), stream.len(), limit.is_some() as u8, limit.unwrap_or(0), numbers.as_mut_ptr(), numbers.len())
    };
    let taken = numbers[ECCH_TAKEN] as usize;
    match Error::of(number, numbers[ECCH_VALUE_1], numbers[ECCH_VALUE_2]) {
        Some(e) => (Err(e), taken),
        None => (Ok(Record { frame: &stream[..taken], numbers }), taken),
    }
}

/// A packet that was read. The methods of another kind answer with what is absent: None, 0, or an empty part.
#[derive(Clone, Copy)]
pub struct Record<'a> {
    frame: &'a [u8],
    numbers: [u64; ECCH_RECORD_LEN],
}

/// The kinds that are carried.
#[derive(Clone, Copy, Debug, PartialEq, Eq)]
pub enum Kind {
    Publish,
    PubAck,
    PubRec,
    PubRel,
    PubComp,
    Subscribe,
    SubAck,
    Unsubscribe,
    UnsubAck,
    PingReq,
    PingResp,
}

/// One property of a block, in the order of the bytes.
#[derive(Clone, Copy, Debug, PartialEq, Eq)]
pub enum Property<'a> {
    User(&'a [u8], &'a [u8]),
    SubscriptionIdentifier(u32),
    /// any other, by its identifier; its value is a method of the record
    Single(u8),
}

/// One filter, in the order of the bytes.
#[derive(Clone, Copy, Debug, PartialEq, Eq)]
pub struct Filter<'a> {
    pub path: &'a [u8],
    pub qos: QoS,
    pub nolocal: bool,
    pub preserve_retain: bool,
    pub retain_forward_rule: RetainForwardRule,
}

impl<'a> Record<'a> {
    fn at(&self, i: usize) -> u64 {
        self.numbers[i]
    }

    /// The place whose start and length stand at i and i + 1.
    pub(crate) fn place(&self, i: usize) -> std::ops::Range<usize> {
        let start = self.at(i) as usize;
        start..start + self.at(i + 1) as usize
    }

    /// The same if the number before says that it is present.
    pub(crate) fn place_if(&self, i: usize) -> Option<std::ops::Range<usize>> {
        flag(self.at(i)).then(|| self.place(i + 1))
    }

    fn part(&self, i: usize) -> &'a [u8] {
        &self.frame[self.place(i)]
    }

    fn part_if(&self, i: usize) -> Option<&'a [u8]> {
        self.place_if(i).map(|p| &self.frame[p])
    }

    fn number_if<T: TryFrom<u64>>(&self, i: usize) -> Option<T> {
        flag(self.at(i)).then(|| fit("a property's number", self.at(i + 1)))
    }

    pub fn kind(&self) -> Kind {
        match self.at(ECCH_KIND) as usize {
            ECCH_PUBLISH => Kind::Publish,
            ECCH_PUBACK => Kind::PubAck,
            ECCH_PUBREC => Kind::PubRec,
            ECCH_PUBREL => Kind::PubRel,
            ECCH_PUBCOMP => Kind::PubComp,
            ECCH_SUBSCRIBE => Kind::Subscribe,
            ECCH_SUBACK => Kind::SubAck,
            ECCH_UNSUBSCRIBE => Kind::Unsubscribe,
            ECCH_UNSUBACK => Kind::UnsubAck,
            ECCH_PINGREQ => Kind::PingReq,
            ECCH_PINGRESP => Kind::PingResp,
            n => fault("kind", n),
        }
    }

    pub fn pkid(&self) -> u16 {
        fit("packet identifier", self.at(ECCH_PKID))
    }

    pub fn dup(&self) -> bool {
        flag(self.at(ECCH_DUP))
    }

    pub fn qos(&self) -> QoS {
        QoS::of(self.at(ECCH_QOS))
    }

    pub fn retain(&self) -> bool {
        flag(self.at(ECCH_RETAIN))
    }

    /// The reason's byte of a PubAck, PubRec, PubRel or PubComp (`PubAckReason::from_code` and its like).
    pub fn reason(&self) -> u8 {
        fit("reason", self.at(ECCH_REASON))
    }

    /// The reasons of a SubAck or UnsubAck, a byte each (`SubscribeReasonCode::from_code`, `UnsubAckReason::from_code`).
    pub fn reasons(&self) -> &'a [u8] {
        self.part(ECCH_REASONS_START)
    }

    pub fn topic(&self) -> &'a [u8] {
        self.part(ECCH_TOPIC_START)
    }

    pub fn payload(&self) -> &'a [u8] {
        self.part(ECCH_PAYLOAD_START)
    }

    /// Whether there is a property set.
    pub fn has_properties(&self) -> bool {
        flag(self.at(ECCH_BLOCK))
    }

    /// Where the properties start in the frame, after the length of their block: the index after that length if there are none, and the
    /// frame's length if no length was sent.
    pub fn properties_start(&self) -> usize {
        self.at(ECCH_PROPERTIES_START) as usize
    }

    /// Where the properties end in the frame; equal to their start if there are none.
    pub fn properties_end(&self) -> usize {
        self.at(ECCH_PROPERTIES_END) as usize
    }

    pub fn payload_format_indicator(&self) -> Option<u8> {
        self.number_if(ECCH_FORMAT)
    }

    pub fn message_expiry_interval(&self) -> Option<u32> {
        self.number_if(ECCH_EXPIRY)
    }

    pub fn topic_alias(&self) -> Option<u16> {
        self.number_if(ECCH_ALIAS)
    }

    pub fn response_topic(&self) -> Option<&'a [u8]> {
        self.part_if(ECCH_RESPONSE)
    }

    pub fn correlation_data(&self) -> Option<&'a [u8]> {
        self.part_if(ECCH_CORRELATION)
    }

    pub fn content_type(&self) -> Option<&'a [u8]> {
        self.part_if(ECCH_CONTENT)
    }

    pub fn reason_string(&self) -> Option<&'a [u8]> {
        self.part_if(ECCH_REASON_STRING)
    }

    /// Of a Subscribe; those of a Publish are among its properties.
    pub fn subscription_identifier(&self) -> Option<u32> {
        self.number_if(ECCH_SUBSCRIPTION)
    }

    /// The properties of the block, one after the other.
    pub fn properties(&self) -> Properties<'a> {
        let block = self.place(ECCH_BLOCK_START);
        Properties { block: &self.frame[..block.end], kind: fit("kind", self.at(ECCH_KIND)), at: block.start }
    }

    /// The user properties, in order.
    pub fn user_properties(&self) -> impl Iterator<Item = (&'a [u8], &'a [u8])> {
        self.properties().filter_map(|p| match p {
            Property::User(k, v) => Some((k, v)),
            _ => None,
        })
    }

    /// The subscription identifiers of a Publish, in order; that of a Subscribe is `subscription_identifier`.
    pub fn subscription_identifiers(&self) -> impl Iterator<Item = u32> + 'a {
        let publish = self.kind() == Kind::Publish;
        self.properties().filter_map(move |p| match p {
            Property::SubscriptionIdentifier(n) if publish => Some(n),
            _ => None,
        })
    }

    /// The filters of a Subscribe, in order.
    pub fn filters(&self) -> Filters<'a> {
        let run = self.place(ECCH_FILTERS_START);
        Filters { run: &self.frame[..run.end], at: run.start }
    }

    /// The topics of an Unsubscribe, in order.
    pub fn topics(&self) -> Topics<'a> {
        let run = self.place(ECCH_TOPICS_START);
        Topics { run: &self.frame[..run.end], at: run.start }
    }
}

/// Where the next item begins: `read` takes a list only if its items fill it, so that none is refused, and each leads on.
fn next(what: &str, refused: u32, at: usize, next: u64, end: usize) -> usize {
    if refused != 0 {
        fault(&format!("for {what} refusal"), refused);
    }
    match usize::try_from(next) {
        Ok(n) if at < n && n <= end => n,
        _ => fault(&format!("behind {what} the index"), next),
    }
}

/// Walks a block once, from its first property to its last.
pub struct Properties<'a> {
    block: &'a [u8],
    kind: u8,
    at: usize,
}

impl<'a> Iterator for Properties<'a> {
    type Item = Property<'a>;

    fn next(&mut self) -> Option<Property<'a>> {
        if self.at >= self.block.len() {
            return None;
        }
        let mut n = [0u64; ECCH_PROPERTY_NUMBERS];
        // Sound: both pointers stand for whole Rust slices, which do not overlap since one is lent for writing.
        let refused = unsafe { ecch_property(self.block.as_ptr(), self.block.len(), self.kind, self.at, self.block.len(), n.as_mut_ptr(), n.len()) };
        self.at = next("a property of a block that was read", refused, self.at, n[ECCH_PROPERTY_NEXT], self.block.len());
        let part = |i: usize| &self.block[n[i] as usize..n[i] as usize + n[i + 1] as usize];
        Some(match n[ECCH_PROPERTY_IDENTIFIER] {
            38 => Property::User(part(ECCH_PROPERTY_START), part(ECCH_PROPERTY_SECOND_START)),
            11 => Property::SubscriptionIdentifier(fit("subscription identifier", n[ECCH_PROPERTY_NUMBER])),
            k => Property::Single(fit("property", k)),
        })
    }
}

/// Walks the filters once, from the first to the last.
pub struct Filters<'a> {
    run: &'a [u8],
    at: usize,
}

impl<'a> Iterator for Filters<'a> {
    type Item = Filter<'a>;

    fn next(&mut self) -> Option<Filter<'a>> {
        if self.at >= self.run.len() {
            return None;
        }
        let mut n = [0u64; ECCH_NEXT_FILTER_NUMBERS];
        // Sound: both pointers stand for whole Rust slices, which do not overlap since one is lent for writing.
        let refused = unsafe { ecch_next_filter(self.run.as_ptr(), self.run.len(), self.at, self.run.len(), n.as_mut_ptr(), n.len()) };
        self.at = next("a filter of a run that was read", refused, self.at, n[ECCH_NEXT_FILTER_NEXT], self.run.len());
        let start = n[ECCH_NEXT_FILTER_START] as usize;
        Some(Filter {
            path: &self.run[start..start + n[ECCH_NEXT_FILTER_LEN] as usize],
            qos: QoS::of(n[ECCH_NEXT_FILTER_QOS]),
            nolocal: flag(n[ECCH_NEXT_FILTER_NO_LOCAL]),
            preserve_retain: flag(n[ECCH_NEXT_FILTER_PRESERVE_RETAIN]),
            retain_forward_rule: RetainForwardRule::of(n[ECCH_NEXT_FILTER_RULE]),
        })
    }
}

/// The filters that the bytes are, or why one is refused: a walk that comes to the end meets none that is.
pub fn filters(run: &[u8]) -> Result<Filters<'_>, Error> {
    let mut at = 0;
    while at < run.len() {
        let mut n = [0u64; ECCH_NEXT_FILTER_NUMBERS];
        // Sound: both pointers stand for whole Rust slices, which do not overlap since one is lent for writing.
        let refused = unsafe { ecch_next_filter(run.as_ptr(), run.len(), at, run.len(), n.as_mut_ptr(), n.len()) };
        if let Some(e) = Error::of(refused, n[ECCH_NEXT_FILTER_NEXT], 0) {
            return Err(e);
        }
        at = next("a filter", refused, at, n[ECCH_NEXT_FILTER_NEXT], run.len());
    }
    Ok(Filters { run, at: 0 })
}

/// Walks the topics once, from the first to the last.
pub struct Topics<'a> {
    run: &'a [u8],
    at: usize,
}

impl<'a> Iterator for Topics<'a> {
    type Item = &'a [u8];

    fn next(&mut self) -> Option<&'a [u8]> {
        if self.at >= self.run.len() {
            return None;
        }
        let mut n = [0u64; ECCH_NEXT_TOPIC_NUMBERS];
        // Sound: both pointers stand for whole Rust slices, which do not overlap since one is lent for writing.
        let refused = unsafe { ecch_next_topic(self.run.as_ptr(), self.run.len(), self.at, self.run.len(), n.as_mut_ptr(), n.len()) };
        self.at = next("a topic of a run that was read", refused, self.at, n[ECCH_NEXT_TOPIC_NEXT], self.run.len());
        let start = n[ECCH_NEXT_TOPIC_START] as usize;
        Some(&self.run[start..start + n[ECCH_NEXT_TOPIC_LEN] as usize])
    }
}

impl<'a> Record<'a> {
    pub(crate) fn numbers(&self) -> [u64; ECCH_RECORD_LEN] {
        self.numbers
    }

    /// The same record over the same bytes, which have moved to a frame of their own.
    pub(crate) fn again(frame: &'a [u8], numbers: [u64; ECCH_RECORD_LEN]) -> Record<'a> {
        Record { frame, numbers }
    }
}

#[cfg(test)]
mod tests {
    use super::*;

    /// A record that no library gives: the numbers of a frame, one of them another.
    fn with(frame: &[u8], at: usize, n: u64) -> Record<'_> {
        let mut record = read(frame, None).0.unwrap();
        record.numbers[at] = n;
        record
    }

    const PUBLISH: &[u8] = &[0x30, 0x06, 0, 1, 0x61, 2, 1, 0];
    const SUBSCRIBE: &[u8] = &[0x82, 0x07, 0, 1, 0, 0, 1, 0x61, 0];
    const UNSUBSCRIBE: &[u8] = &[0xA2, 0x06, 0, 1, 0, 0, 1, 0x61];

    /// The whole stream is handed over: nothing from the end of the block on is read, and an end beyond the stream is 21.
    #[test]
    fn ends_where_it_is_told() {
        let stream = [0x30, 0x0B, 0, 1, b'a', 5, 38, 0, 0, 0, 0, 11, 7];
        let at = |at: usize, end: usize| {
            let mut n = [0u64; ECCH_PROPERTY_NUMBERS];
            // Sound: both pointers stand for whole Rust slices, which do not overlap.
            let refused = unsafe { ecch_property(stream.as_ptr(), stream.len(), 3, at, end, n.as_mut_ptr(), n.len()) };
            (refused, n[ECCH_PROPERTY_IDENTIFIER], n[ECCH_PROPERTY_NEXT])
        };
        assert_eq!(at(6, 11), (0, 38, 11));
        assert_eq!(at(11, 11), (7, 0, 0));
        assert_eq!(at(11, 13), (0, 11, 13));
        assert_eq!(at(6, 14), (21, 0, 0));
    }

    /// 20 for a number whose flag is off, before 11 for a QoS that is none, by size too.
    #[test]
    fn mismatch_before_quality() {
        let none: [u8; 0] = [];
        let (lengths, ids): ([usize; 0], [u32; 0]) = ([], []);
        let size = |qos: u8, format_on: u8, format: u8| {
            let mut n = [0u64; ECCH_ANSWER_LEN];
            let s = none.as_ptr();
            // Sound: every pointer stands for a whole Rust slice, and the one that is written overlaps no other.
            let refused = unsafe {
                ecch_publish_size(
                    0, qos, 0, 0, s, 0, 1, format_on, format, 0, 0, 0, 0, 0, s, 0, 0, s, 0, s, 0, lengths.as_ptr(), 0, ids.as_ptr(), 0, 0, s, 0, s, 0,
                    n.as_mut_ptr(), n.len(),
                )
            };
            (refused, n[1])
        };
        assert_eq!(size(3, 0, 7), (20, 0));
        assert_eq!(size(3, 1, 7), (11, 3));
        assert_eq!(size(0, 0, 7), (20, 0));
        assert_eq!(size(0, 1, 7), (0, 0));
    }

    #[test]
    #[should_panic(expected = "gave QoS 3, which it cannot")]
    fn unknown_qos() {
        with(PUBLISH, ECCH_QOS, 3).qos();
    }

    #[test]
    #[should_panic(expected = "gave kind 14, which it cannot")]
    fn unknown_kind() {
        with(PUBLISH, ECCH_KIND, 14).kind();
    }

    #[test]
    #[should_panic(expected = "gave forward rule 3, which it cannot")]
    fn unknown_rule() {
        RetainForwardRule::of(3);
    }

    #[test]
    #[should_panic(expected = "gave refusal 24, which it cannot")]
    fn unknown_refusal() {
        Error::of(24, 0, 0);
    }

    #[test]
    #[should_panic(expected = "gave a refusal's value 256, which it cannot")]
    fn value_too_wide() {
        Error::of(4, 256, 0);
    }

    #[test]
    #[should_panic(expected = "gave a flag 2, which it cannot")]
    fn flag_of_two() {
        with(PUBLISH, ECCH_DUP, 2).dup();
    }

    #[test]
    #[should_panic(expected = "gave packet identifier 65536, which it cannot")]
    fn identifier_too_wide() {
        with(PUBLISH, ECCH_PKID, 65_536).pkid();
    }

    #[test]
    #[should_panic(expected = "gave for a property of a block that was read refusal 7, which it cannot")]
    fn refused_property() {
        with(PUBLISH, ECCH_BLOCK_LEN, 1).properties().count();
    }

    #[test]
    #[should_panic(expected = "gave for a filter of a run that was read refusal 7, which it cannot")]
    fn refused_filter() {
        with(SUBSCRIBE, ECCH_FILTERS_LEN, 3).filters().count();
    }

    #[test]
    #[should_panic(expected = "gave for a topic of a run that was read refusal 8, which it cannot")]
    fn refused_topic() {
        with(UNSUBSCRIBE, ECCH_TOPICS_LEN, 2).topics().count();
    }

    #[test]
    fn unknown_reason() {
        let frame = [0x40, 0x03, 0, 1, 0x80];
        let of = |n| crate::Packet::of(bytes::Bytes::copy_from_slice(&frame), with(&frame, ECCH_REASON, n).numbers);
        assert!(matches!(of(0x80), Ok(crate::Packet::PubAck(m)) if m.reason == crate::PubAckReason::UnspecifiedError));
        assert_eq!(of(0x81), Err(Error::InvalidReason(0x81)));
    }

    #[test]
    #[should_panic(expected = "gave behind a topic the index 4, which it cannot")]
    fn walk_that_stays() {
        next("a topic", 0, 4, 4, 9);
    }
}
