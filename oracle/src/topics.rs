//! Topics and filters: the port through its C interface, the crate's text, and a model of 02's P5 and MQTT 4.7 with a switch for each listed
//! difference. The model cuts a filter at its first `#` and compares lists, where port and crate go level by level.
use crate::v5::mqttbytes as text;
use std::panic;

/// The four functions, of whatever side.
pub struct Side {
    pub name: &'static str,
    pub has_wildcards: fn(&str) -> Answer,
    pub valid_topic: fn(&str) -> Answer,
    pub valid_filter: fn(&str) -> Answer,
    pub matches: fn(&str, &str) -> Answer,
}

/// An answer, or none: the text stopped.
pub type Answer = Option<bool>;

#[cfg(feature = "ecchjulmina")]
mod port {
    #[link(name = "ecchjulmina", kind = "static")]
    extern "C" {
        fn ecch_has_wildcards(s: *const u8, len: usize) -> u8;
        fn ecch_valid_topic(topic: *const u8, len: usize) -> u8;
        fn ecch_valid_filter(filter: *const u8, len: usize) -> u8;
        fn ecch_matches(topic: *const u8, topic_len: usize, filter: *const u8, filter_len: usize) -> u8;
    }
    #[inline(always)]
    fn flag(n: u8) -> bool {
        debug_assert!(n < 2, "a flag that is {n}");
        n != 0
    }
    #[inline(always)]
    pub fn has_wildcards(s: &[u8]) -> bool {
        flag(unsafe { ecch_has_wildcards(s.as_ptr(), s.len()) })
    }
    #[inline(always)]
    pub fn valid_topic(topic: &[u8]) -> bool {
        flag(unsafe { ecch_valid_topic(topic.as_ptr(), topic.len()) })
    }
    #[inline(always)]
    pub fn valid_filter(filter: &[u8]) -> bool {
        flag(unsafe { ecch_valid_filter(filter.as_ptr(), filter.len()) })
    }
    #[inline(always)]
    pub fn matches(topic: &[u8], filter: &[u8]) -> bool {
        flag(unsafe { ecch_matches(topic.as_ptr(), topic.len(), filter.as_ptr(), filter.len()) })
    }
}
#[cfg(feature = "ecchjulmina")]
pub use port::*;

/// The port over any bytes; over text as a `Side`.
#[cfg(feature = "ecchjulmina")]
pub const PORT: Side = Side {
    name: "port",
    has_wildcards: |s| Some(port::has_wildcards(s.as_bytes())),
    valid_topic: |s| Some(port::valid_topic(s.as_bytes())),
    valid_filter: |s| Some(port::valid_filter(s.as_bytes())),
    matches: |t, f| Some(port::matches(t.as_bytes(), f.as_bytes())),
};

/// The crate's text; a panic is an answer.
pub const CRATE: Side = Side {
    name: "crate",
    has_wildcards: |s| panic::catch_unwind(|| text::has_wildcards(s)).ok(),
    valid_topic: |s| panic::catch_unwind(|| text::valid_topic(s)).ok(),
    valid_filter: |s| panic::catch_unwind(|| text::valid_filter(s)).ok(),
    matches: |t, f| panic::catch_unwind(|| text::matches(t, f)).ok(),
};

/// 02's two differences, as entries of docs/DIFFERENCES.md.
#[derive(Clone, Copy, PartialEq, Eq)]
pub struct Switches {
    /// the crate rejects any topic that begins with `$`
    pub dollar: bool,
    /// the crate stops where the topic's first character is longer than one byte
    pub wide_first: bool,
}

pub const PORTED: Switches = Switches { dollar: false, wide_first: false };
pub const CRATES: Switches = Switches { dollar: true, wide_first: true };

pub mod model {
    use super::{Answer, Switches};

    pub fn has_wildcards(s: &[u8]) -> bool {
        s.iter().any(|c| b"+#".contains(c))
    }

    pub fn valid_topic(topic: &[u8]) -> bool {
        !has_wildcards(topic)
    }

    /// MQTT 4.7.1.2 and 4.7.1.3, by what stands beside each wildcard.
    pub fn valid_filter(filter: &[u8]) -> bool {
        let edge = |at: Option<&u8>| at.is_none_or(|c| *c == b'/');
        let alone = |i: usize| edge(i.checked_sub(1).map(|j| &filter[j])) && edge(filter.get(i + 1));
        let last = |i: usize| i + 1 == filter.len();
        !filter.is_empty() && filter.iter().enumerate().all(|(i, c)| !has_wildcards(&[*c]) || alone(i) && (*c == b'+' || last(i)))
    }

    /// A text and its levels.
    pub struct Split<'a> {
        pub text: &'a [u8],
        pub levels: Vec<&'a [u8]>,
    }

    pub fn split(text: &[u8]) -> Split<'_> {
        Split { text, levels: text.split(|c| *c == b'/').collect() }
    }

    pub fn matches(topic: &Split, filter: &Split, with: Switches) -> Answer {
        if with.wide_first && topic.text.first().is_some_and(|c| *c >= 0x80) {
            return None;
        }
        let barred = with.dollar || filter.text.first().is_some_and(|c| has_wildcards(&[*c]));
        if topic.text.starts_with(b"$") && barred {
            return Some(false);
        }
        let hash = filter.levels.iter().position(|f| *f == b"#");
        let before = &filter.levels[..hash.unwrap_or(filter.levels.len())];
        let enough = if hash.is_some() { topic.levels.len() >= before.len() } else { topic.levels.len() == before.len() };
        let met = |(f, t): (&&[u8], &&[u8])| *t != b"#" && (*f == b"+" || f == t);
        Some(enough && before.iter().zip(&topic.levels).all(met))
    }
}
