//! Size and write, by the crate's signatures: what is written is appended to the buffer, and a refused write leaves it as it stood.
use crate::error::{fault, fit};
use crate::{sys::*, Error, Packet, PingReq, PingResp, PubAck, PubComp, PubRec, PubRel, Publish, SubAck, Subscribe, UnsubAck, Unsubscribe};
use bytes::BytesMut;

/// Strings as the library takes them: all their bytes in one run, and the length of each.
#[derive(Default)]
struct Run {
    bytes: Vec<u8>,
    lengths: Vec<usize>,
}

impl Run {
    fn push(&mut self, s: &str) {
        self.bytes.extend_from_slice(s.as_bytes());
        self.lengths.push(s.len());
    }

    fn of_pairs(pairs: &[(String, String)]) -> Run {
        let mut run = Run::default();
        for (k, v) in pairs {
            run.push(k);
            run.push(v);
        }
        run
    }
}

/// A number of the crate's type that does not fit is above what may be written in either.
fn narrow(n: usize) -> u32 {
    u32::try_from(n).unwrap_or(u32::MAX)
}

/// A limit, or none, as the library takes it.
#[derive(Clone, Copy)]
struct Limit {
    limited: u8,
    limit: usize,
}

fn answered(number: u32, answer: [u64; ECCH_ANSWER_LEN]) -> Result<usize, Error> {
    match Error::of(number, answer[ECCH_VALUE_1], answer[ECCH_VALUE_2]) {
        Some(e) => Err(e),
        None => Ok(fit("size", answer[ECCH_SIZE])),
    }
}

/// What the library writes, or how long it would be.
trait Written {
    fn size_of(&self) -> Result<usize, Error>;
    fn write_to(&self, limit: Limit, out: &mut [u8]) -> Result<usize, Error>;

    /// The size of what is written, if nothing but room is lacking: 19 is the last of 01's order, and needs no output to be asked for.
    fn needed(&self, limit: Limit) -> Result<usize, Error> {
        match self.write_to(limit, &mut []) {
            Err(Error::NoRoom(size)) => Ok(size),
            Err(e) => Err(e),
            Ok(n) => fault("for a write into no room the size", n),
        }
    }
}

/// Appends. The buffer grows only for a write that is accepted; where there is room already, it is taken back if the write is refused.
fn append<W: Written>(record: &W, buffer: &mut BytesMut, max_size: Option<u32>) -> Result<usize, Error> {
    let limit = Limit { limited: max_size.is_some() as u8, limit: max_size.unwrap_or(0) as usize };
    let start = buffer.len();
    let room = buffer.capacity() - start;
    let size = match record.size_of() {
        Ok(size) if size <= room => size,
        _ => record.needed(limit)?,
    };
    buffer.resize(start + size, 0);
    match record.write_to(limit, &mut buffer[start..]) {
        Ok(n) if n != size => fault("for a write another size than before,", n),
        Err(e) => {
            buffer.truncate(start);
            Err(e)
        }
        written => written,
    }
}

struct PublishParts<'a> {
    m: &'a Publish,
    user: Run,
    identifiers: Vec<u32>,
}

impl<'a> PublishParts<'a> {
    fn of(m: &'a Publish) -> Self {
        let p = m.properties.as_ref();
        PublishParts {
            m,
            user: p.map(|p| Run::of_pairs(&p.user_properties)).unwrap_or_default(),
            identifiers: p.map(|p| p.subscription_identifiers.iter().map(|n| narrow(*n)).collect()).unwrap_or_default(),
        }
    }

    fn call(&self, writes: Option<(Limit, &mut [u8])>) -> Result<usize, Error> {
        let m = self.m;
        let p = m.properties.as_ref();
        let format = p.and_then(|p| p.payload_format_indicator);
        let expiry = p.and_then(|p| p.message_expiry_interval);
        let alias = p.and_then(|p| p.topic_alias);
        let response = p.and_then(|p| p.response_topic.as_deref()).map(str::as_bytes);
        let correlation = p.and_then(|p| p.correlation_data.as_deref());
        let content = p.and_then(|p| p.content_type.as_deref()).map(str::as_bytes);
        let (r, c, t) = (response.unwrap_or(&[]), correlation.unwrap_or(&[]), content.unwrap_or(&[]));
        let mut answer = [0u64; ECCH_ANSWER_LEN];
        macro_rules! call {
            ($f:ident $(, $more:expr)*) => {
                // Sound: every pointer and length is of one Rust slice, none is null, and what is written is borrowed by nobody else.
                unsafe {
                    $f(
                        m.dup as u8, m.qos as u8, m.retain as u8, m.pkid,
                        m.topic.as_ptr(), m.topic.len(),
                        p.is_some() as u8,
                        format.is_some() as u8, format.unwrap_or(0),
                        expiry.is_some() as u8, expiry.unwrap_or(0),
                        alias.is_some() as u8, alias.unwrap_or(0),
                        response.is_some() as u8, r.as_ptr(), r.len(),
                        correlation.is_some() as u8, c.as_ptr(), c.len(),
                        self.user.bytes.as_ptr(), self.user.bytes.len(), self.user.lengths.as_ptr(), self.user.lengths.len(),
                        self.identifiers.as_ptr(), self.identifiers.len(),
                        content.is_some() as u8, t.as_ptr(), t.len(),
                        m.payload.as_ptr(), m.payload.len(),
                        $($more,)*
                        answer.as_mut_ptr(), answer.len(),
                    )
                }
            };
        }
        let number = match writes {
            None => call!(ecch_publish_size),
            Some((l, out)) => call!(ecch_publish_write, l.limited, l.limit, out.as_mut_ptr(), out.len()),
        };
        answered(number, answer)
    }
}

impl Written for PublishParts<'_> {
    fn size_of(&self) -> Result<usize, Error> {
        self.call(None)
    }

    fn write_to(&self, limit: Limit, out: &mut [u8]) -> Result<usize, Error> {
        self.call(Some((limit, out)))
    }
}

struct SubscribeParts<'a> {
    m: &'a Subscribe,
    user: Run,
    filters: Run,
    options: Vec<u8>,
}

impl<'a> SubscribeParts<'a> {
    fn of(m: &'a Subscribe) -> Self {
        let mut filters = Run::default();
        let mut options = Vec::new();
        for f in &m.filters {
            filters.push(&f.path);
            options.push(f.qos as u8 | (f.nolocal as u8) << 2 | (f.preserve_retain as u8) << 3 | (f.retain_forward_rule as u8) << 4);
        }
        let user = m.properties.as_ref().map(|p| Run::of_pairs(&p.user_properties)).unwrap_or_default();
        SubscribeParts { m, user, filters, options }
    }

    fn call(&self, writes: Option<(Limit, &mut [u8])>) -> Result<usize, Error> {
        let p = self.m.properties.as_ref();
        let id = p.and_then(|p| p.id).map(narrow);
        let mut answer = [0u64; ECCH_ANSWER_LEN];
        macro_rules! call {
            ($f:ident $(, $more:expr)*) => {
                // Sound: every pointer and length is of one Rust slice, none is null, and what is written is borrowed by nobody else.
                unsafe {
                    $f(
                        self.m.pkid,
                        p.is_some() as u8,
                        id.is_some() as u8, id.unwrap_or(0),
                        self.user.bytes.as_ptr(), self.user.bytes.len(), self.user.lengths.as_ptr(), self.user.lengths.len(),
                        self.filters.bytes.as_ptr(), self.filters.bytes.len(), self.filters.lengths.as_ptr(), self.filters.lengths.len(),
                        self.options.as_ptr(), self.options.len(),
                        $($more,)*
                        answer.as_mut_ptr(), answer.len(),
                    )
                }
            };
        }
        let number = match writes {
            None => call!(ecch_subscribe_size),
            Some((l, out)) => call!(ecch_subscribe_write, l.limited, l.limit, out.as_mut_ptr(), out.len()),
        };
        answered(number, answer)
    }
}

impl Written for SubscribeParts<'_> {
    fn size_of(&self) -> Result<usize, Error> {
        self.call(None)
    }

    fn write_to(&self, limit: Limit, out: &mut [u8]) -> Result<usize, Error> {
        self.call(Some((limit, out)))
    }
}

/// The properties of an acknowledgement, as the library takes them.
struct Reasoned<'a> {
    block: u8,
    on: u8,
    text: &'a [u8],
    user: Run,
}

macro_rules! reasoned {
    ($properties:expr) => {{
        let p = $properties.as_ref();
        let text = p.and_then(|p| p.reason_string.as_deref()).map(str::as_bytes);
        Reasoned {
            block: p.is_some() as u8,
            on: text.is_some() as u8,
            text: text.unwrap_or(&[]),
            user: p.map(|p| Run::of_pairs(&p.user_properties)).unwrap_or_default(),
        }
    }};
}

/// A publish acknowledgement, over the two functions of its kind.
macro_rules! acknowledgement {
    ($parts:ident, $kind:ident, $size:ident, $write:ident) => {
        struct $parts<'a> {
            m: &'a $kind,
            p: Reasoned<'a>,
        }

        impl<'a> $parts<'a> {
            fn of(m: &'a $kind) -> Self {
                $parts { m, p: reasoned!(m.properties) }
            }
        }

        impl Written for $parts<'_> {
            fn size_of(&self) -> Result<usize, Error> {
                let (m, p) = (self.m, &self.p);
                let mut answer = [0u64; ECCH_ANSWER_LEN];
                // Sound: every pointer and length is of one Rust slice, none is null, and what is written is borrowed by nobody else.
                let number = unsafe {
                    $size(
                        m.pkid, m.reason.code(),
                        p.block,
                        p.on, p.text.as_ptr(), p.text.len(),
                        p.user.bytes.as_ptr(), p.user.bytes.len(), p.user.lengths.as_ptr(), p.user.lengths.len(),
                        answer.as_mut_ptr(), answer.len(),
                    )
                };
                answered(number, answer)
            }

            fn write_to(&self, l: Limit, out: &mut [u8]) -> Result<usize, Error> {
                let (m, p) = (self.m, &self.p);
                let mut answer = [0u64; ECCH_ANSWER_LEN];
                // Sound: as for the size.
                let number = unsafe {
                    $write(
                        m.pkid, m.reason.code(),
                        p.block,
                        p.on, p.text.as_ptr(), p.text.len(),
                        p.user.bytes.as_ptr(), p.user.bytes.len(), p.user.lengths.as_ptr(), p.user.lengths.len(),
                        l.limited, l.limit, out.as_mut_ptr(), out.len(),
                        answer.as_mut_ptr(), answer.len(),
                    )
                };
                answered(number, answer)
            }
        }
    };
}

acknowledgement!(PubAckParts, PubAck, ecch_puback_size, ecch_puback_write);
acknowledgement!(PubRecParts, PubRec, ecch_pubrec_size, ecch_pubrec_write);
acknowledgement!(PubRelParts, PubRel, ecch_pubrel_size, ecch_pubrel_write);
acknowledgement!(PubCompParts, PubComp, ecch_pubcomp_size, ecch_pubcomp_write);

/// A SubAck or UnsubAck, over the two functions of its kind; its reasons are in the field that is named.
macro_rules! reply {
    ($parts:ident, $kind:ident, $reasons:ident, $size:ident, $write:ident) => {
        struct $parts<'a> {
            m: &'a $kind,
            p: Reasoned<'a>,
            reasons: Vec<u8>,
        }

        impl<'a> $parts<'a> {
            fn of(m: &'a $kind) -> Self {
                $parts { m, p: reasoned!(m.properties), reasons: m.$reasons.iter().map(|r| r.code()).collect() }
            }
        }

        impl Written for $parts<'_> {
            fn size_of(&self) -> Result<usize, Error> {
                let p = &self.p;
                let mut answer = [0u64; ECCH_ANSWER_LEN];
                // Sound: every pointer and length is of one Rust slice, none is null, and what is written is borrowed by nobody else.
                let number = unsafe {
                    $size(
                        self.m.pkid,
                        p.block,
                        p.on, p.text.as_ptr(), p.text.len(),
                        p.user.bytes.as_ptr(), p.user.bytes.len(), p.user.lengths.as_ptr(), p.user.lengths.len(),
                        self.reasons.as_ptr(), self.reasons.len(),
                        answer.as_mut_ptr(), answer.len(),
                    )
                };
                answered(number, answer)
            }

            fn write_to(&self, l: Limit, out: &mut [u8]) -> Result<usize, Error> {
                let p = &self.p;
                let mut answer = [0u64; ECCH_ANSWER_LEN];
                // Sound: as for the size.
                let number = unsafe {
                    $write(
                        self.m.pkid,
                        p.block,
                        p.on, p.text.as_ptr(), p.text.len(),
                        p.user.bytes.as_ptr(), p.user.bytes.len(), p.user.lengths.as_ptr(), p.user.lengths.len(),
                        self.reasons.as_ptr(), self.reasons.len(),
                        l.limited, l.limit, out.as_mut_ptr(), out.len(),
                        answer.as_mut_ptr(), answer.len(),
                    )
                };
                answered(number, answer)
            }
        }
    };
}

reply!(SubAckParts, SubAck, return_codes, ecch_suback_size, ecch_suback_write);
reply!(UnsubAckParts, UnsubAck, reasons, ecch_unsuback_size, ecch_unsuback_write);

struct UnsubscribeParts<'a> {
    m: &'a Unsubscribe,
    user: Run,
    topics: Run,
}

impl<'a> UnsubscribeParts<'a> {
    fn of(m: &'a Unsubscribe) -> Self {
        let mut topics = Run::default();
        for f in &m.filters {
            topics.push(f);
        }
        let user = m.properties.as_ref().map(|p| Run::of_pairs(&p.user_properties)).unwrap_or_default();
        UnsubscribeParts { m, user, topics }
    }

    fn call(&self, writes: Option<(Limit, &mut [u8])>) -> Result<usize, Error> {
        let mut answer = [0u64; ECCH_ANSWER_LEN];
        macro_rules! call {
            ($f:ident $(, $more:expr)*) => {
                // Sound: every pointer and length is of one Rust slice, none is null, and what is written is borrowed by nobody else.
                unsafe {
                    $f(
                        self.m.pkid,
                        self.m.properties.is_some() as u8,
                        self.user.bytes.as_ptr(), self.user.bytes.len(), self.user.lengths.as_ptr(), self.user.lengths.len(),
                        self.topics.bytes.as_ptr(), self.topics.bytes.len(), self.topics.lengths.as_ptr(), self.topics.lengths.len(),
                        $($more,)*
                        answer.as_mut_ptr(), answer.len(),
                    )
                }
            };
        }
        let number = match writes {
            None => call!(ecch_unsubscribe_size),
            Some((l, out)) => call!(ecch_unsubscribe_write, l.limited, l.limit, out.as_mut_ptr(), out.len()),
        };
        answered(number, answer)
    }
}

impl Written for UnsubscribeParts<'_> {
    fn size_of(&self) -> Result<usize, Error> {
        self.call(None)
    }

    fn write_to(&self, limit: Limit, out: &mut [u8]) -> Result<usize, Error> {
        self.call(Some((limit, out)))
    }
}

/// Either ping.
struct Ping {
    response: bool,
}

impl Written for Ping {
    fn size_of(&self) -> Result<usize, Error> {
        let mut answer = [0u64; ECCH_ANSWER_LEN];
        // Sound: the pointer and the length are of one array that is lent for writing.
        let number = unsafe { ecch_ping_size(answer.as_mut_ptr(), answer.len()) };
        answered(number, answer)
    }

    fn write_to(&self, l: Limit, out: &mut [u8]) -> Result<usize, Error> {
        let mut answer = [0u64; ECCH_ANSWER_LEN];
        let write = if self.response { ecch_pingresp_write } else { ecch_pingreq_write };
        // Sound: the pointers and lengths are of two slices that are lent for writing, so they do not overlap.
        let number = unsafe { write(l.limited, l.limit, out.as_mut_ptr(), out.len(), answer.as_mut_ptr(), answer.len()) };
        answered(number, answer)
    }
}

/// The crate's `size` cannot refuse: a record with R above 268,435,455, which no write accepts, has the largest size there is.
fn size_or_most(size: Result<usize, Error>) -> usize {
    size.unwrap_or(usize::MAX)
}

macro_rules! kind {
    ($kind:ident, $parts:ident) => {
        impl $kind {
            /// How many bytes the packet takes to write; usize::MAX if it is too long to be written (see `try_size`).
            pub fn size(&self) -> usize {
                size_or_most(self.try_size())
            }

            /// The same, or refusal 17.
            pub fn try_size(&self) -> Result<usize, Error> {
                $parts::of(self).size_of()
            }

            /// Appends the packet; a refused write leaves the buffer as it stood.
            pub fn write(&self, buffer: &mut BytesMut) -> Result<usize, Error> {
                append(&$parts::of(self), buffer, None)
            }
        }
    };
}

kind!(Publish, PublishParts);
kind!(Subscribe, SubscribeParts);
kind!(PubAck, PubAckParts);
kind!(PubRec, PubRecParts);
kind!(PubRel, PubRelParts);
kind!(PubComp, PubCompParts);
kind!(SubAck, SubAckParts);
kind!(Unsubscribe, UnsubscribeParts);
kind!(UnsubAck, UnsubAckParts);

impl PingReq {
    pub fn size(&self) -> usize {
        size_or_most(Ping { response: false }.size_of())
    }

    pub fn write(buffer: &mut BytesMut) -> Result<usize, Error> {
        append(&Ping { response: false }, buffer, None)
    }
}

impl PingResp {
    pub fn size(&self) -> usize {
        size_or_most(Ping { response: true }.size_of())
    }

    pub fn write(buffer: &mut BytesMut) -> Result<usize, Error> {
        append(&Ping { response: true }, buffer, None)
    }
}

impl Packet {
    /// Appends the packet, if its size is at most `max_size`; a refused write leaves the buffer as it stood.
    ///
    /// ```
    /// # use bytes::BytesMut;
    /// # use ecchjulmina::mqttbytes::{v5::{Packet, Publish}, Error, QoS};
    /// let packet = Packet::Publish(Publish::new("a/b", QoS::AtMostOnce, "hi", None));
    /// let mut out = BytesMut::new();
    /// assert_eq!(packet.write(&mut out, Some(9)), Err(Error::OutgoingPacketTooLarge { pkt_size: 10, max: 9 }));
    /// assert!(out.is_empty());
    /// assert_eq!(packet.write(&mut out, Some(10)), Ok(10));
    /// assert_eq!(out, &[0x30, 8, 0, 3, b'a', b'/', b'b', 0, b'h', b'i'][..]);
    /// ```
    pub fn write(&self, write: &mut BytesMut, max_size: Option<u32>) -> Result<usize, Error> {
        match self {
            Packet::Publish(m) => append(&PublishParts::of(m), write, max_size),
            Packet::Subscribe(m) => append(&SubscribeParts::of(m), write, max_size),
            Packet::PubAck(m) => append(&PubAckParts::of(m), write, max_size),
            Packet::PubRec(m) => append(&PubRecParts::of(m), write, max_size),
            Packet::PubRel(m) => append(&PubRelParts::of(m), write, max_size),
            Packet::PubComp(m) => append(&PubCompParts::of(m), write, max_size),
            Packet::SubAck(m) => append(&SubAckParts::of(m), write, max_size),
            Packet::Unsubscribe(m) => append(&UnsubscribeParts::of(m), write, max_size),
            Packet::UnsubAck(m) => append(&UnsubAckParts::of(m), write, max_size),
            Packet::PingReq(_) => append(&Ping { response: false }, write, max_size),
            Packet::PingResp(_) => append(&Ping { response: true }, write, max_size),
        }
    }

    /// How many bytes the packet takes to write; usize::MAX if it is too long to be written.
    pub fn size(&self) -> usize {
        match self {
            Packet::Publish(m) => m.size(),
            Packet::Subscribe(m) => m.size(),
            Packet::PubAck(m) => m.size(),
            Packet::PubRec(m) => m.size(),
            Packet::PubRel(m) => m.size(),
            Packet::PubComp(m) => m.size(),
            Packet::SubAck(m) => m.size(),
            Packet::Unsubscribe(m) => m.size(),
            Packet::UnsubAck(m) => m.size(),
            Packet::PingReq(m) => m.size(),
            Packet::PingResp(m) => m.size(),
        }
    }
}
