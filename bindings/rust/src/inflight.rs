//! Which messages are still out (02, P4): the identifiers of outgoing messages of QoS 1 and 2, and the answers that free them.
use crate::sys::*;
use crate::{PubAck, PubComp, PubRec, QoS};

/// Identifiers are 1 to this number.
pub const IDENTIFIERS: usize = ECCH_IDENTIFIERS;

/// Why a claim is refused; the table stays as it was.
#[derive(Debug, Clone, Copy, PartialEq, Eq)]
pub enum ClaimError {
    /// Every identifier waits.
    InFlightFull,
    /// A message of QoS 0 has no identifier.
    NoClaim,
}

/// The identifier does not wait for this answer; the table stays as it was.
#[derive(Debug, Clone, Copy, PartialEq, Eq)]
pub struct NotWaiting;

/// What became of an answer's identifier.
#[derive(Debug, Clone, Copy, PartialEq, Eq)]
pub enum Answered {
    /// It is free again.
    Freed,
    /// It waits for PubComp now: time for the PubRel.
    Moved,
}

/// What an identifier waits for.
#[derive(Debug, Clone, Copy, PartialEq, Eq)]
pub enum Wait {
    PubAck,
    PubRec,
    PubComp,
}

/// The table: a byte for each identifier, 0 if it is free, else what it waits for.
///
/// ```
/// use ecchjulmina::inflight::{Answered, InFlight, NotWaiting};
/// use ecchjulmina::mqttbytes::{v5::{PubComp, PubRec}, QoS};
///
/// let mut out = InFlight::new();
/// let id = out.claim(QoS::ExactlyOnce).unwrap();
/// assert_eq!(out.pubcomp(&PubComp::new(id, None)), Err(NotWaiting));
/// assert_eq!(out.pubrec(&PubRec::new(id, None)), Ok(Answered::Moved));
/// assert_eq!(out.pubcomp(&PubComp::new(id, None)), Ok(Answered::Freed));
/// assert_eq!(out.waiting(), 0);
/// ```
#[derive(Clone, PartialEq, Eq)]
pub struct InFlight {
    table: [u8; IDENTIFIERS],
}

impl Default for InFlight {
    fn default() -> InFlight {
        InFlight::new()
    }
}

impl std::fmt::Debug for InFlight {
    fn fmt(&self, f: &mut std::fmt::Formatter) -> std::fmt::Result {
        f.debug_map().entries((1..=IDENTIFIERS as u16).filter_map(|id| self.waits_for(id).map(|w| (id, w)))).finish()
    }
}

impl InFlight {
    /// Every identifier free.
    pub fn new() -> InFlight {
        let mut table = [0; IDENTIFIERS];
        // Sound: the pointer stands for a whole Rust array, lent for writing.
        unsafe { ecch_inflight_start(table.as_mut_ptr(), table.len()) };
        InFlight { table }
    }

    /// The table of those bytes, if they are one.
    pub fn from_bytes(bytes: &[u8]) -> Option<InFlight> {
        let table = bytes.try_into().ok()?;
        let it = InFlight { table };
        it.count().is_some().then_some(it)
    }

    pub fn as_bytes(&self) -> &[u8; IDENTIFIERS] {
        &self.table
    }

    /// The smallest free identifier, for a message about to be sent.
    pub fn claim(&mut self, qos: QoS) -> Result<u16, ClaimError> {
        let mut id = 0;
        // Sound: the pointers stand for the whole table and for one number, which do not overlap since both are lent for writing.
        let n = unsafe { ecch_inflight_claim(qos as u8, self.table.as_mut_ptr(), self.table.len(), &mut id, 1) };
        match n as usize {
            0 => Ok(id as u16),
            ECCH_IN_FLIGHT_FULL => Err(ClaimError::InFlightFull),
            ECCH_NO_CLAIM => Err(ClaimError::NoClaim),
            n => panic!("ecch_inflight_claim gave {n}"),
        }
    }

    fn acked(&mut self, kind: usize, id: u16, reason: u8) -> Result<Answered, NotWaiting> {
        let mut now = 0;
        // Sound: as for a claim.
        let n = unsafe { ecch_inflight_acked(kind as u8, id, reason, self.table.as_mut_ptr(), self.table.len(), &mut now, 1) };
        match (n as usize, now) {
            (0, 0) => Ok(Answered::Freed),
            (0, 3) => Ok(Answered::Moved),
            (ECCH_NOT_WAITING, _) => Err(NotWaiting),
            (n, now) => panic!("ecch_inflight_acked gave {n} and {now}"),
        }
    }

    pub fn puback(&mut self, ack: &PubAck) -> Result<Answered, NotWaiting> {
        self.acked(ECCH_PUBACK, ack.pkid, ack.reason.code())
    }

    pub fn pubrec(&mut self, ack: &PubRec) -> Result<Answered, NotWaiting> {
        self.acked(ECCH_PUBREC, ack.pkid, ack.reason.code())
    }

    pub fn pubcomp(&mut self, ack: &PubComp) -> Result<Answered, NotWaiting> {
        self.acked(ECCH_PUBCOMP, ack.pkid, ack.reason.code())
    }

    /// How many identifiers wait; none if the bytes are no table.
    fn count(&self) -> Option<usize> {
        let mut count = 0;
        // Sound: the pointers stand for the whole table and for one number, which do not overlap since the number is lent for writing.
        let n = unsafe { ecch_inflight_waiting(self.table.as_ptr(), self.table.len(), &mut count, 1) };
        match n as usize {
            0 => Some(count as usize),
            ECCH_BAD_TABLE => None,
            n => panic!("ecch_inflight_waiting gave {n}"),
        }
    }

    /// How many identifiers wait.
    pub fn waiting(&self) -> usize {
        self.count().expect("the table of an InFlight is one")
    }

    pub fn waits_for(&self, id: u16) -> Option<Wait> {
        match self.table.get(usize::from(id).checked_sub(1)?)? {
            1 => Some(Wait::PubAck),
            2 => Some(Wait::PubRec),
            3 => Some(Wait::PubComp),
            _ => None,
        }
    }
}
