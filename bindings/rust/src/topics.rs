//! Topics and filters by the crate's names and signatures. Two answers differ from the crate's (docs/DIFFERENCES.md, 40 and 41): a topic that
//! begins with `$` is barred only from filters that begin with a wildcard, and one whose first character is longer than a byte is answered.
use crate::error::fault;
use crate::sys::{ecch_has_wildcards, ecch_matches, ecch_valid_filter, ecch_valid_topic};

/// The library gives 0 or 1.
fn flag(n: u8) -> bool {
    match n {
        0 => false,
        1 => true,
        _ => fault("flag", n as u64),
    }
}

/// Checks if a topic or topic filter has wildcards
///
/// ```
/// assert!(ecchjulmina::has_wildcards("a/+") && !ecchjulmina::has_wildcards("a/b"));
/// ```
pub fn has_wildcards(s: &str) -> bool {
    // SAFETY: a str is that many bytes that can be read, and its pointer is not null
    // Sound: the pointer stands for a whole Rust slice, which is only read.
    flag(unsafe { ecch_has_wildcards(s.as_ptr(), s.len()) })
}

/// Checks if a topic is valid
///
/// ```
/// assert!(ecchjulmina::valid_topic("a/b") && !ecchjulmina::valid_topic("a/#"));
/// ```
pub fn valid_topic(topic: &str) -> bool {
    // SAFETY: as above
    // Sound: as for wildcards.
    flag(unsafe { ecch_valid_topic(topic.as_ptr(), topic.len()) })
}

/// Checks if the filter is valid
///
/// ```
/// assert!(ecchjulmina::valid_filter("a/+/#") && !ecchjulmina::valid_filter("a/#/b"));
/// ```
pub fn valid_filter(filter: &str) -> bool {
    // SAFETY: as above
    // Sound: as for wildcards.
    flag(unsafe { ecch_valid_filter(filter.as_ptr(), filter.len()) })
}

/// Checks if topic matches a filter. topic and filter validation isn't done here.
///
/// ```
/// assert!(ecchjulmina::matches("plant/2/length", "plant/+/length") && !ecchjulmina::matches("$SYS/x", "#"));
/// ```
pub fn matches(topic: &str, filter: &str) -> bool {
    // SAFETY: as above, for both; nothing is written
    // Sound: both pointers stand for whole Rust slices, which are only read.
    flag(unsafe { ecch_matches(topic.as_ptr(), topic.len(), filter.as_ptr(), filter.len()) })
}
