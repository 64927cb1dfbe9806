//! A journal (02, P11): the table of [`InFlight`] in a file that survives a power cut. A save writes one block of 512 bytes, and waits until
//! it is on the disk.
use crate::inflight::{InFlight, IDENTIFIERS};
use crate::sys::*;
use std::fs::{File, OpenOptions};
use std::io::{self, Read};
use std::os::unix::fs::FileExt;
use std::path::Path;

const BLOCK: usize = 512;

/// A file of two or more blocks.
///
/// ```
/// use ecchjulmina::{inflight::InFlight, journal::Journal, QoS};
///
/// let path = std::env::temp_dir().join(format!("example-{}.journal", std::process::id()));
/// let mut journal = Journal::start(&path, 2)?;
/// let mut out = InFlight::new();
/// out.claim(QoS::AtLeastOnce).unwrap();
/// assert_eq!(journal.save(&out).unwrap(), 1);
///
/// // after the power came back
/// let back = Journal::open(&path)?.recover().unwrap();
/// assert_eq!((back.number, back.table), (1, out));
/// # std::fs::remove_file(&path)?;
/// # Ok::<(), std::io::Error>(())
/// ```
pub struct Journal {
    file: File,
    area: Vec<u8>,
}

/// Why a save stored nothing.
#[derive(Debug)]
pub enum SaveError {
    /// The largest 64-bit number is used.
    JournalEnded,
    Io(io::Error),
}

/// What was saved last, and under which number.
#[derive(Debug, Clone, PartialEq, Eq)]
pub struct Recovered {
    pub number: u64,
    pub table: InFlight,
}

impl Journal {
    /// Starts a journal of that many blocks, 2 at least: whatever the file held is zeroed.
    pub fn start(path: impl AsRef<Path>, blocks: usize) -> io::Result<Journal> {
        // more bytes than there are addresses for are no area either: cut to 64 bits they could be a small one
        let bad = || io::Error::new(io::ErrorKind::InvalidInput, "BadArea: not two or more whole blocks");
        let size = blocks.checked_mul(BLOCK).filter(|n| isize::try_from(*n).is_ok()).ok_or_else(bad)?;
        let mut area = vec![0; size];
        // Sound: the pointer stands for the whole area, lent for writing.
        if unsafe { ecch_journal_start(area.as_mut_ptr(), area.len()) } != 0 {
            return Err(bad());
        }
        let file = OpenOptions::new().read(true).write(true).create(true).truncate(true).open(path)?;
        file.write_all_at(&area, 0)?;
        file.sync_all()?;
        Ok(Journal { file, area })
    }

    /// Opens a journal that was started before.
    pub fn open(path: impl AsRef<Path>) -> io::Result<Journal> {
        let mut file = OpenOptions::new().read(true).write(true).open(path)?;
        let mut area = Vec::new();
        file.read_to_end(&mut area)?;
        if area.len() % BLOCK != 0 || area.len() < 2 * BLOCK {
            return Err(io::Error::new(io::ErrorKind::InvalidData, "BadArea: not two or more whole blocks"));
        }
        Ok(Journal { file, area })
    }

    /// Stores the table under the next number, which is the answer. Until the block is on the disk the save counts as not made: after an
    /// error the next one takes the same number and the same block again, and what was saved before stays.
    pub fn save(&mut self, table: &InFlight) -> Result<u64, SaveError> {
        let bytes = table.as_bytes();
        let mut answer = [0; 2];
        let mut area = self.area.clone();
        // Sound: every pointer stands for a whole Rust slice, and those that are written are lent for writing and overlap nothing.
        let n = unsafe { ecch_journal_save(bytes.as_ptr(), bytes.len(), area.as_mut_ptr(), area.len(), answer.as_mut_ptr(), answer.len()) };
        match n as usize {
            0 => {}
            ECCH_JOURNAL_ENDED => return Err(SaveError::JournalEnded),
            n => panic!("ecch_journal_save gave {n}"),
        }
        let at = answer[1] as usize * BLOCK;
        self.file.write_all_at(&area[at..at + BLOCK], at as u64).map_err(SaveError::Io)?;
        self.file.sync_data().map_err(SaveError::Io)?;
        self.area = area;
        Ok(answer[0])
    }

    /// The table of the latest save, or none if there was none.
    pub fn recover(&self) -> Option<Recovered> {
        let mut bytes = [0; IDENTIFIERS];
        let mut number = 0;
        // Sound: as for a save; the area is only read.
        let n = unsafe { ecch_journal_recover(self.area.as_ptr(), self.area.len(), bytes.as_mut_ptr(), bytes.len(), &mut number, 1) };
        match n as usize {
            0 => Some(Recovered { number, table: InFlight::from_bytes(&bytes).expect("a table") }),
            ECCH_JOURNAL_EMPTY => None,
            n => panic!("ecch_journal_recover gave {n}"),
        }
    }
}

#[cfg(test)]
mod tests {
    use super::*;
    use crate::QoS;

    fn path(name: &str) -> std::path::PathBuf {
        std::env::temp_dir().join(format!("ecchjulmina-{name}-{}", std::process::id()))
    }

    /// A block that could not be written is no save: the area stays, and the next save takes the same number.
    #[test]
    fn a_failed_write_is_no_save() {
        let path = path("failed");
        let mut journal = Journal::start(&path, 2).unwrap();
        let mut table = InFlight::new();
        table.claim(QoS::AtLeastOnce).unwrap();
        assert_eq!(journal.save(&table).unwrap(), 1);
        let saved = table.clone();
        let area = journal.area.clone();
        journal.file = File::open(&path).unwrap();
        table.claim(QoS::ExactlyOnce).unwrap();
        for _ in 0..2 {
            assert!(matches!(journal.save(&table), Err(SaveError::Io(_))));
            assert_eq!(journal.area, area);
            assert_eq!(journal.recover(), Some(Recovered { number: 1, table: saved.clone() }));
        }
        journal.file = OpenOptions::new().read(true).write(true).open(&path).unwrap();
        assert_eq!(journal.save(&table).unwrap(), 2);
        assert_eq!(Journal::open(&path).unwrap().recover(), Some(Recovered { number: 2, table }));
        std::fs::remove_file(path).unwrap();
    }

    /// A count of blocks whose bytes go round in 64 bits to those of two is refused, and no file is made.
    #[test]
    fn no_count_goes_round() {
        let path = path("round");
        for blocks in [0, 1, (1 << 55) + 2, usize::MAX] {
            assert!(matches!(Journal::start(&path, blocks), Err(e) if e.kind() == io::ErrorKind::InvalidInput), "{blocks}");
            assert!(!path.exists());
        }
    }

    /// An area made by Python's zlib, whose last save has the largest number: a save is refused, and stores nothing.
    #[test]
    fn the_largest_number_ends_the_journal() {
        let path = path("ended");
        let made = include_bytes!("../../../crates/desk_journal/data/area1024.bin");
        std::fs::write(&path, made).unwrap();
        let mut journal = Journal::open(&path).unwrap();
        assert_eq!(journal.recover().unwrap().number, u64::MAX);
        assert!(matches!(journal.save(&InFlight::new()), Err(SaveError::JournalEnded)));
        assert_eq!(journal.area, made);
        assert_eq!(std::fs::read(&path).unwrap(), made);
        std::fs::remove_file(path).unwrap();
    }
}
