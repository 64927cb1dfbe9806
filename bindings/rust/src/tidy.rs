//! The tidy form of a frame, for an archive (02's P14).
use crate::error::{fault, fit};
use crate::{sys::*, Error};
use bytes::Bytes;

/// The tidy form of the frame that the stream begins with, in bytes of its own: what `write` gives of the packet that `read` gives. Properties
/// stand in the order of the table, flags and options as they are written. It reads as the same packet, and tidied again it stays; two frames have
/// one tidy form exactly when their packets are equal, so that an archive of tidy frames can be compared byte by byte. It has as many bytes as
/// the frame at most, but for an acknowledgement of five bytes with a reason other than success, which becomes six.
///
/// A frame that is refused has none; the refusals are those of a read with no limit.
pub fn tidy(stream: &[u8]) -> Result<Bytes, Error> {
    tidied(stream).0
}

/// The same, and how many bytes of the stream are used up, for a stream frame by frame. After a refusal that uses up 0 there is no next frame:
/// bytes are lacking, or the length is malformed.
///
/// ```
/// # use ecchjulmina::tidied;
/// # let mut stream: &[u8] = &[0x40, 3, 0, 10, 0, 0xC0, 0];
/// let mut archive = Vec::new();
/// while !stream.is_empty() {
///     let (form, taken) = tidied(stream);
///     match form {
///         Ok(form) => archive.extend_from_slice(&form),
///         Err(e) => eprintln!("left out of the archive: {e}"),
///     }
///     if taken == 0 {
///         break; // cut, or damaged so that no next frame is known
///     }
///     stream = &stream[taken..];
/// }
/// assert_eq!(archive, [0x40, 2, 0, 10, 0xC0, 0]);
/// ```
pub fn tidied(stream: &[u8]) -> (Result<Bytes, Error>, usize) {
    let mut out = vec![0; room(stream)];
    let mut n = [0; ECCH_TIDY_NUMBERS];
    // Sound: the pointers stand for whole Rust slices, which do not overlap since two are lent for writing.
    let number = unsafe { ecch_tidy(stream.as_ptr(), stream.len(), out.as_mut_ptr(), out.len(), n.as_mut_ptr(), n.len()) };
    let taken = within("bytes taken", n[ECCH_TIDY_TAKEN], stream.len());
    match Error::of(number, n[ECCH_TIDY_VALUE_1], n[ECCH_TIDY_VALUE_2]) {
        // by what is proved of its length there is room
        Some(Error::NoRoom(size)) => fault("for a tidy form the size", size),
        Some(e) => (Err(e), taken),
        None => {
            out.truncate(within("for a tidy form the size", n[ECCH_TIDY_SIZE], out.len()));
            (Ok(Bytes::from(out)), taken)
        }
    }
}

/// A count that is at most `most`.
fn within(what: &str, n: u64, most: usize) -> usize {
    match fit(what, n) {
        k if k > most => fault(what, k),
        k => k,
    }
}

/// Room for the tidy form: as many bytes as the frame can have by its length number, and no more than the stream; six at least.
fn room(stream: &[u8]) -> usize {
    let mut rest = 0;
    for (i, b) in stream.iter().skip(1).take(4).enumerate() {
        rest += (*b as usize % 128) << (7 * i);
        if *b < 128 {
            break;
        }
    }
    (5 + rest).min(stream.len()).max(6)
}
