//! The user properties of a frame, one after another, from a walker that holds the frame (02's P7).
use crate::{places, sys::*};

/// Yields the user properties of the frame at the start of a stream, in order; none if the reader refuses it. No copy, no allocation.
///
/// ```
/// use ecchjulmina::walk::Walker;
///
/// let frame = [0x30, 17, 0, 1, b'a', 12, 0x26, 0, 1, b'k', 0, 1, b'v', 0x26, 0, 0, 0, 0, 7];
/// assert_eq!(Walker::new(&frame).collect::<Vec<_>>(), [(&b"k"[..], &b"v"[..]), (b"", b"")]);
/// assert_eq!(Walker::new(&frame[..18]).next(), None);
/// ```
#[derive(Clone, Copy, Debug)]
pub struct Walker<'a> {
    frame: &'a [u8],
    kind: u8,
    at: usize,
    end: usize,
}

impl<'a> Walker<'a> {
    /// The frame is read with no limit.
    pub fn new(stream: &'a [u8]) -> Walker<'a> {
        match places::read(stream, None) {
            (Ok(record), taken) => {
                let n = record.numbers();
                let at = n[ECCH_BLOCK_START] as usize;
                Walker { frame: &stream[..taken], kind: n[ECCH_KIND] as u8, at, end: at + n[ECCH_BLOCK_LEN] as usize }
            }
            (Err(_), _) => Walker { frame: &stream[..0], kind: 0, at: 0, end: 0 },
        }
    }
}

impl<'a> Iterator for Walker<'a> {
    type Item = (&'a [u8], &'a [u8]);

    fn next(&mut self) -> Option<Self::Item> {
        let mut n = [0u64; ECCH_NEXT_USER_NUMBERS];
        // Sound: both pointers stand for whole Rust slices, which do not overlap since one is lent for writing.
        let refused = unsafe { ecch_next_user(self.frame.as_ptr(), self.frame.len(), self.kind, self.at, self.end, n.as_mut_ptr(), n.len()) };
        self.at = n[ECCH_NEXT_USER_NEXT] as usize;
        let part = |i: usize| &self.frame[n[i] as usize..n[i] as usize + n[i + 1] as usize];
        (refused == 0).then(|| (part(ECCH_NEXT_USER_KEY_START), part(ECCH_NEXT_USER_VALUE_START)))
    }
}

impl std::iter::FusedIterator for Walker<'_> {}
