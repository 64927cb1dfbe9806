//! The start of a frame, by the crate's names. What `check` answers is what the library says of the stream.
use crate::{places, Error, Packet};
use bytes::Bytes;
use std::slice::Iter;

/// MQTT packet type
#[repr(u8)]
#[derive(Debug, Clone, Copy, PartialEq, Eq)]
pub enum PacketType {
    Connect = 1,
    ConnAck,
    Publish,
    PubAck,
    PubRec,
    PubRel,
    PubComp,
    Subscribe,
    SubAck,
    Unsubscribe,
    UnsubAck,
    PingReq,
    PingResp,
    Disconnect,
}

const TYPES: [PacketType; 14] = {
    use PacketType::*;
    [
        Connect, ConnAck, Publish, PubAck, PubRec, PubRel, PubComp, Subscribe, SubAck, Unsubscribe, UnsubAck, PingReq, PingResp, Disconnect,
    ]
};

/// The first byte of a frame, and the lengths of its header and of what follows it.
#[derive(Debug, Clone, Copy, PartialEq, Eq, PartialOrd)]
pub struct FixedHeader {
    byte1: u8,
    fixed_header_len: usize,
    remaining_len: usize,
}

impl FixedHeader {
    pub fn new(byte1: u8, remaining_len_len: usize, remaining_len: usize) -> FixedHeader {
        FixedHeader { byte1, fixed_header_len: remaining_len_len + 1, remaining_len }
    }

    pub(crate) fn kind(&self) -> u8 {
        self.byte1 >> 4
    }

    pub fn packet_type(&self) -> Result<PacketType, Error> {
        let num = self.kind();
        TYPES.iter().copied().find(|t| *t as u8 == num).ok_or(Error::InvalidPacketType(num))
    }

    /// Returns the size of full packet (fixed header + variable header + payload)
    pub fn frame_length(&self) -> usize {
        self.fixed_header_len + self.remaining_len
    }

    /// The packet of the frame that this is the header of.
    pub(crate) fn packet(&self, frame: Bytes) -> Result<Packet, Error> {
        let (answer, taken) = places::read(&frame, None);
        let numbers = answer?.numbers();
        if taken != frame.len() || FixedHeader::of(frame[0], taken) != *self {
            return Err(Error::InvalidPacketType(self.kind()));
        }
        Packet::of(frame, numbers)
    }

    /// Of a frame of so many bytes: its length number has no more bytes than it needs.
    fn of(byte1: u8, frame_len: usize) -> FixedHeader {
        let len_len = match frame_len {
            0..=129 => 1,
            130..=16_386 => 2,
            16_387..=2_097_155 => 3,
            _ => 4,
        };
        FixedHeader::new(byte1, len_len, frame_len - 1 - len_len)
    }
}

/// The header of the frame that the stream begins with, if all of it is there and it has at most `max_packet_size` bytes. It costs what
/// reading the frame costs.
pub fn check(stream: Iter<u8>, max_packet_size: Option<u32>) -> Result<FixedHeader, Error> {
    let stream = stream.as_slice();
    match places::read(stream, max_packet_size.map(|n| n as usize)) {
        // what is refused before there is a frame takes nothing
        (Err(e), 0) => Err(e),
        (_, taken) => Ok(FixedHeader::of(stream[0], taken)),
    }
}
