//! 02's P10: a stream read whole by the model, with 02's rule for a frame longer than the buffer, and the same stream in pieces by the library.
#![cfg(feature = "ecchjulmina")]
use super::model::{self, Switches};
use super::port;
use super::shape::{Answer, Lists, No};

extern "C" {
    fn ecch_next_frame(
        limited: u8, limit: usize, state: *mut u64, state_len: usize, buffer: *mut u8, buffer_len: usize, piece: *const u8, piece_len: usize,
        item: *mut u64, item_len: usize,
    ) -> u32;
}

/// An answer, and the items of a record's lists.
pub type Said = (Answer, Lists);

fn refused(no: No) -> Said {
    ((Err(no), 0), Lists::default())
}

fn said(answer: Answer, lists: &Lists) -> Said {
    let lists = if answer.0.is_ok() { lists.clone() } else { Lists::default() };
    (answer, lists)
}

pub const BAD_BUFFER: u8 = 35;
pub const FRAME_TOO_LONG: u8 = 36;

/// F, once the header is whole.
pub fn frame_length(s: &[u8]) -> Option<usize> {
    let mut rest = 0usize;
    for i in 0..4 {
        let b = *s.get(1 + i)? as usize;
        rest += (b % 128) << (7 * i);
        if b < 128 {
            return Some(2 + i + rest);
        }
    }
    None
}

/// 02, P10: the whole stream read frame by frame: 2 and 3 of a header end it, then FrameTooLong; 1 ends the list; all else goes on.
pub fn whole(mut s: &[u8], limit: Option<u64>, room: usize) -> Vec<Said> {
    let (mut list, mut lists) = (vec![], Lists::default());
    loop {
        let (answer, taken) = model::read(s, limit, &Switches::of(0), &mut lists);
        match answer {
            Err(no) if taken == 0 && no.no != 1 => {
                list.push(refused(no));
                return list;
            }
            _ if frame_length(s).is_some_and(|f| f > room) => {
                list.push(refused(No { no: FRAME_TOO_LONG, a: 0, b: 0 }));
                return list;
            }
            Err(_) if taken == 0 => return list,
            answer => list.push(said((answer, taken), &lists)),
        }
        s = &s[taken..];
    }
}

pub struct Port {
    state: [u64; 4],
    buffer: Vec<u8>,
    limit: Option<u64>,
    pub list: Vec<Said>,
    pub ended: Option<No>,
}

impl Port {
    pub fn new(room: usize, limit: Option<u64>) -> Self {
        Port { state: [0; 4], buffer: vec![0xA5; room], limit, list: vec![], ended: None }
    }

    /// One piece, as the header says; what is wrong besides the list is told.
    pub fn push(&mut self, mut piece: &[u8]) -> Result<(), &'static str> {
        loop {
            let (before, held) = (self.buffer.clone(), self.state);
            let mut n = [u64::MAX; 5];
            let number = unsafe {
                ecch_next_frame(
                    self.limit.is_some() as u8, self.limit.unwrap_or(7) as usize, self.state.as_mut_ptr(), 4, self.buffer.as_mut_ptr(),
                    self.buffer.len(), piece.as_ptr(), piece.len(), n.as_mut_ptr(), 5,
                )
            };
            if number != 0 {
                let no = No { no: number as u8, a: n[1], b: n[2] };
                if n[0] != 0 || n[3] != 0 || n[4] != 0 || self.buffer != before {
                    return Err("a refusal changes something");
                }
                match self.ended {
                    None => self.list.push(refused(no)),
                    Some(first) if first != no || self.state != held => return Err("a refusal is not repeated"),
                    Some(_) => {}
                }
                self.ended = Some(no);
                return Ok(());
            }
            if self.ended.is_some() {
                return Err("goes on after its end");
            }
            let (used, len) = (n[0] as usize, n[4] as usize);
            let frame = match n[3] {
                0 if used == piece.len() => return Ok(()),
                0 => return Err("a piece is not used up"),
                1 if self.buffer != before => return Err("a frame of the piece is copied"),
                1 => &piece[..len],
                _ => &self.buffer[..len],
            };
            let mut lists = Lists::default();
            let answer = port::read(frame, self.limit, &mut lists);
            self.list.push(said(answer, &lists));
            piece = &piece[used..];
        }
    }
}
