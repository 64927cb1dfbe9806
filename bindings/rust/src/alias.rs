//! Topics by alias (02's P6; MQTT 3.3.2.3.4): a broker sends a topic once with a Topic Alias, and then leaves it empty.
use crate::error::fault;
use crate::{sys::*, Publish};
use bytes::Bytes;
use std::fmt;

/// Why a message is refused; where more than one holds, the first of them in this order is given.
#[derive(Clone, Copy, Debug, PartialEq, Eq)]
pub enum AliasError {
    /// 24: a stored length above 128; a table made by `new` never has one
    AliasTableBad,
    /// 25: alias 0 or above 16
    AliasInvalid,
    /// 26: empty topic and no alias
    TopicMissing,
    /// 27: empty topic and alias never set
    AliasUnknown,
    /// 28: topic over 128 bytes with an alias
    AliasNoRoom,
}

impl AliasError {
    /// 02's number of the refusal.
    pub fn number(self) -> u32 {
        (match self {
            AliasError::AliasTableBad => ECCH_ALIAS_TABLE_BAD,
            AliasError::AliasInvalid => ECCH_ALIAS_INVALID,
            AliasError::TopicMissing => ECCH_TOPIC_MISSING,
            AliasError::AliasUnknown => ECCH_ALIAS_UNKNOWN,
            AliasError::AliasNoRoom => ECCH_ALIAS_NO_ROOM,
        }) as u32
    }

    /// Of a number that the library gave.
    fn of(n: u32) -> Result<(), AliasError> {
        match n as usize {
            0 => Ok(()),
            ECCH_ALIAS_TABLE_BAD => Err(AliasError::AliasTableBad),
            ECCH_ALIAS_INVALID => Err(AliasError::AliasInvalid),
            ECCH_TOPIC_MISSING => Err(AliasError::TopicMissing),
            ECCH_ALIAS_UNKNOWN => Err(AliasError::AliasUnknown),
            ECCH_ALIAS_NO_ROOM => Err(AliasError::AliasNoRoom),
            _ => fault("alias refusal", n),
        }
    }
}

impl fmt::Display for AliasError {
    fn fmt(&self, f: &mut fmt::Formatter<'_>) -> fmt::Result {
        f.write_str(match self {
            AliasError::AliasTableBad => "Alias table has a stored length above 128",
            AliasError::AliasInvalid => "Topic alias is 0 or above 16",
            AliasError::TopicMissing => "Topic is empty and there is no alias",
            AliasError::AliasUnknown => "Topic is empty and its alias was never set",
            AliasError::AliasNoRoom => "Topic over 128 bytes with an alias",
        })
    }
}

impl std::error::Error for AliasError {}

/// The topics of one connection by their aliases, 1 to 16; topics of up to 128 bytes have one. Every Publish of the connection is to be
/// learnt, in the order of the stream.
///
/// ```
/// use ecchjulmina::{AliasError, Aliases};
///
/// let mut aliases = Aliases::new();
/// assert_eq!(aliases.topic_in_force(b"", Some(1)), Err(AliasError::AliasUnknown));
/// aliases.learn(b"plant/2/length", Some(1))?;
/// assert_eq!(aliases.topic_in_force(b"", Some(1))?, b"plant/2/length");
/// # Ok::<(), AliasError>(())
/// ```
#[derive(Clone, Debug, PartialEq, Eq)]
pub struct Aliases {
    table: [u8; ECCH_ALIAS_TABLE_LEN],
}

impl Default for Aliases {
    fn default() -> Aliases {
        Aliases::new()
    }
}

impl Aliases {
    /// No alias is set.
    pub fn new() -> Aliases {
        Aliases { table: [0; ECCH_ALIAS_TABLE_LEN] }
    }

    /// With a table that was kept: for aliases 1 to 16 in turn a length byte, 0 if never set, and 128 bytes for the topic. Any bytes may be
    /// handed over; what is wrong with them is `AliasTableBad` at each message.
    pub fn from_table(table: [u8; ECCH_ALIAS_TABLE_LEN]) -> Aliases {
        Aliases { table }
    }

    /// The table as it stands.
    pub fn table(&self) -> &[u8; ECCH_ALIAS_TABLE_LEN] {
        &self.table
    }

    /// Takes a message in: a topic that is sent with an alias is set. A refusal leaves the table alone.
    pub fn learn(&mut self, topic: &[u8], alias: Option<u16>) -> Result<(), AliasError> {
        // Sound: both pointers stand for whole Rust slices, which do not overlap since one is lent for writing.
        AliasError::of(unsafe {
            ecch_alias_learn(
                topic.as_ptr(), topic.len(), 0, topic.len(), alias.is_some() as u8, alias.unwrap_or(0), self.table.as_mut_ptr(), self.table.len(),
            )
        })
    }

    /// The topic in force of a message: its own, or if that is empty what the alias stands for; never a copy, and never empty. It may be
    /// asked before the message is learnt or after.
    pub fn topic_in_force<'a>(&'a self, topic: &'a [u8], alias: Option<u16>) -> Result<&'a [u8], AliasError> {
        let mut item = [0u64; ECCH_FORCE_NUMBERS];
        // Sound: as above.
        AliasError::of(unsafe {
            ecch_topic_in_force(
                topic.as_ptr(), topic.len(), 0, topic.len(), alias.is_some() as u8, alias.unwrap_or(0), self.table.as_ptr(), self.table.len(),
                item.as_mut_ptr(), item.len(),
            )
        })?;
        let place = item[ECCH_FORCE_START] as usize..(item[ECCH_FORCE_START] + item[ECCH_FORCE_LEN]) as usize;
        Ok(match item[ECCH_FORCE_SLICE] as usize {
            ECCH_IN_STREAM => &topic[place],
            ECCH_IN_TABLE => &self.table[place],
            n => fault("slice", n),
        })
    }

    /// Takes a Publish in and gives its topic in force: its own, which shares the stream's memory, or a copy of what the alias stands for.
    pub fn publish(&mut self, m: &Publish) -> Result<Bytes, AliasError> {
        let alias = m.properties.as_ref().and_then(|p| p.topic_alias);
        self.learn(&m.topic, alias)?;
        let topic = self.topic_in_force(&m.topic, alias)?;
        Ok(if m.topic.is_empty() { Bytes::copy_from_slice(topic) } else { m.topic.clone() })
    }
}
