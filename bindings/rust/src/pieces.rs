//! A stream that arrives in pieces (02, P10): what each piece completes is read while it is taken in, from the piece itself where a frame
//! lies in it, else from a buffer that keeps what is unfinished.
use crate::error::fault;
use crate::places::{self, Record};
use crate::{sys::*, Error, Packet};
use bytes::Bytes;
use std::fmt;

/// Why no frame is given, and nothing is taken.
#[derive(Debug)]
pub enum Stop {
    /// 2 or 3 of a header: the stream has ended
    Header(Error),
    /// 35: the buffer has not 5 to 65,536 bytes
    BadBuffer,
    /// 36: the frame is longer than the buffer; the stream has ended
    FrameTooLong,
}

impl Stop {
    /// The number of the refusal.
    pub fn number(&self) -> u8 {
        match self {
            Stop::Header(e) => e.number(),
            Stop::BadBuffer => ECCH_BAD_BUFFER as u8,
            Stop::FrameTooLong => ECCH_FRAME_TOO_LONG as u8,
        }
    }

    fn of(number: u32, one: u64, two: u64) -> Stop {
        match number as usize {
            ECCH_BAD_BUFFER => Stop::BadBuffer,
            ECCH_FRAME_TOO_LONG => Stop::FrameTooLong,
            2 | 3 => Stop::Header(Error::of(number, one, two).unwrap()),
            n => fault("refusal", n),
        }
    }
}

impl fmt::Display for Stop {
    fn fmt(&self, f: &mut fmt::Formatter<'_>) -> fmt::Result {
        match self {
            Stop::Header(e) => e.fmt(f),
            Stop::BadBuffer => f.write_str("The buffer has not 5 to 65,536 bytes"),
            Stop::FrameTooLong => f.write_str("The frame is longer than the buffer"),
        }
    }
}

impl std::error::Error for Stop {}

/// A reader of pieces: it owns the buffer and the state.
///
/// ```
/// use ecchjulmina::pieces::{Answer, Pieces};
///
/// let mut pieces = Pieces::new(64, None).unwrap();
/// assert!(pieces.push(&[0x30, 8, 0, 3]).next().is_none());
/// let piece = [b'a', b'/', b'b', 0, b'h', b'i', 0xC0, 0];
/// let mut pushed = pieces.push(&piece);
/// let mut seen = 0;
/// while let Some(answer) = pushed.next() {
///     match answer {
///         // the first lies in the buffer, the second in the piece itself
///         Answer::Frame { frame, copied, read } => {
///             assert!(read.is_ok());
///             assert_eq!((frame.len(), copied), [(10, true), (2, false)][seen]);
///             seen += 1;
///         }
///         Answer::Stopped(why) => panic!("the stream has ended: {}", why.number()),
///     }
/// }
/// assert_eq!(seen, 2);
/// ```
pub struct Pieces {
    buffer: Box<[u8]>,
    state: [u64; ECCH_STATE_NUMBERS],
    limit: Option<usize>,
}

/// What a piece completes.
// it is handed back by value and used at once: a box would be an allocation for each frame
#[allow(clippy::large_enum_variant)]
pub enum Answer<'a> {
    /// a frame, where it lies (`copied` says in the buffer), and its record or refusal; the stream goes on at the next frame
    Frame { frame: &'a [u8], copied: bool, read: Result<Record<'a>, Error> },
    /// no frame, now or later
    Stopped(Stop),
}

impl Pieces {
    /// With a buffer of `room` bytes, 5 to 65,536, which is also the longest frame; `limit` counts the whole frame.
    pub fn new(room: usize, limit: Option<usize>) -> Result<Pieces, Stop> {
        if !(5..=65_536).contains(&room) {
            return Err(Stop::BadBuffer);
        }
        Ok(Pieces { buffer: vec![0; room].into(), state: [0; ECCH_STATE_NUMBERS], limit })
    }

    /// How many bytes are held of an unfinished frame.
    pub fn held(&self) -> usize {
        self.state[ECCH_STATE_HELD] as usize
    }

    /// Takes a piece in: call `next` of what is returned until it gives None. Frames that were not asked for when it is dropped are passed over;
    /// the next piece goes on behind this one all the same.
    pub fn push<'a>(&'a mut self, piece: &'a [u8]) -> Pushed<'a> {
        Pushed { pieces: self, piece, done: false }
    }

    /// All that a piece completes, as packets of their own.
    pub fn packets(&mut self, piece: &[u8]) -> Vec<Result<Packet, Stopped>> {
        let mut all = Vec::new();
        let mut pushed = self.push(piece);
        while let Some(answer) = pushed.next() {
            all.push(match answer {
                Answer::Frame { frame, read, .. } => match read {
                    Ok(record) => Packet::of(Bytes::copy_from_slice(frame), record.numbers()).map_err(Stopped::Frame),
                    Err(e) => Err(Stopped::Frame(e)),
                },
                Answer::Stopped(why) => Err(Stopped::Stream(why)),
            });
        }
        all
    }
}

/// What `packets` gives in the place of a packet.
#[derive(Debug)]
pub enum Stopped {
    /// a frame is refused; the stream goes on at the next one
    Frame(Error),
    /// the stream has ended
    Stream(Stop),
}

/// A piece that is being taken in.
#[must_use = "the frames of the piece are given by `next`; those that are not asked for are passed over"]
pub struct Pushed<'a> {
    pieces: &'a mut Pieces,
    piece: &'a [u8],
    done: bool,
}

impl Pushed<'_> {
    /// The next answer; None once the piece is taken in, or the stream has ended. It is no `Iterator`: a record may lie in the buffer, which the
    /// next call writes.
    #[allow(clippy::should_implement_trait)]
    pub fn next(&mut self) -> Option<Answer<'_>> {
        if self.done {
            return None;
        }
        let Pieces { buffer, state, limit } = &mut *self.pieces;
        let mut item = [0u64; ECCH_FRAME_NUMBERS];
        // Sound: every pointer stands for a whole Rust slice, and those that are written are lent for writing and overlap nothing.
        let number = unsafe {
            ecch_next_frame(
                limit.is_some() as u8, limit.unwrap_or(0),
                state.as_mut_ptr(), state.len(),
                buffer.as_mut_ptr(), buffer.len(),
                self.piece.as_ptr(), self.piece.len(),
                item.as_mut_ptr(), item.len(),
            )
        };
        if number != 0 {
            self.done = true;
            return Some(Answer::Stopped(Stop::of(number, item[ECCH_FRAME_VALUE_1], item[ECCH_FRAME_VALUE_2])));
        }
        let piece = self.piece;
        let len = item[ECCH_FRAME_LEN] as usize;
        let (frame, copied) = match item[ECCH_FRAME_PLACE] as usize {
            0 => {
                self.done = true;
                return None;
            }
            ECCH_IN_PIECE => (&piece[..len], false),
            ECCH_IN_BUFFER => (&buffer[..len], true),
            n => fault("place", n),
        };
        self.piece = &piece[item[ECCH_FRAME_USED] as usize..];
        Some(Answer::Frame { frame, copied, read: places::read(frame, *limit).0 })
    }
}

/// The rest of the piece is taken in, or the next one would be read from the middle of a frame.
impl Drop for Pushed<'_> {
    fn drop(&mut self) {
        while self.next().is_some() {}
    }
}
