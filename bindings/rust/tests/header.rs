//! Holds src/sys.rs against bindings/c/ecchjulmina.h: every layout number, every function's parameters by name, order and type, and which
//! functions of the header Rust declares; and the names and numbers of refusals and reasons.
use ecchjulmina::*;
use std::collections::{BTreeMap, BTreeSet};
use std::fmt::Debug;

const HEADER: &str = include_str!("../../c/ecchjulmina.h");
const SYS: &str = include_str!("../src/sys.rs");

/// What Rust does for itself: it walks items, cuts parts and names refusals.
const NOT_DECLARED: [&str; 7] =
    ["ecch_filter", "ecch_name", "ecch_part", "ecch_reason", "ecch_subscription_identifier", "ecch_topic", "ecch_user_property"];

fn without_comments(text: &str) -> String {
    let mut out = String::new();
    let mut rest = text;
    while let Some(i) = rest.find("/*") {
        out.push_str(&rest[..i]);
        rest = &rest[i + rest[i..].find("*/").unwrap() + 2..];
    }
    out.push_str(rest);
    out.lines().map(|l| l.split("//").next().unwrap()).collect::<Vec<_>>().join("\n")
}

fn words(text: &str) -> String {
    text.split_whitespace().collect::<Vec<_>>().join(" ")
}

/// The parameters and the result of each function, in Rust's words.
fn c_functions() -> BTreeMap<String, (Vec<String>, String)> {
    let text = words(&without_comments(HEADER));
    let mut found = BTreeMap::new();
    for (i, _) in text.match_indices(" ecch_") {
        let rest = &text[i + 1..];
        let Some(open) = rest.find('(') else { continue };
        let name = &rest[..open];
        if name.contains(' ') {
            continue;
        }
        let result = text[..i].rsplit(' ').next().unwrap();
        let close = rest.find(')').unwrap();
        let parameters = rest[open + 1..close].split(',').map(|p| c_parameter(p.trim())).collect();
        assert!(found.insert(name.to_string(), (parameters, rust_type(result))).is_none(), "{name} is declared twice");
    }
    found
}

fn rust_type(c: &str) -> String {
    match c {
        "uint8_t" => "u8",
        "uint16_t" => "u16",
        "uint32_t" => "u32",
        "uint64_t" => "u64",
        "size_t" => "usize",
        other => panic!("{other}"),
    }
    .to_string()
}

fn c_parameter(p: &str) -> String {
    let (constant, p) = match p.strip_prefix("const ") {
        Some(rest) => (true, rest),
        None => (false, p),
    };
    let (kind, name) = p.split_once(' ').unwrap();
    match name.strip_prefix('*') {
        Some(name) => format!("{name}: *{} {}", if constant { "const" } else { "mut" }, rust_type(kind)),
        None => format!("{name}: {}", rust_type(kind)),
    }
}

fn rust_functions() -> BTreeMap<String, (Vec<String>, String)> {
    let text = words(&without_comments(SYS));
    let mut found = BTreeMap::new();
    for part in text.split("pub fn ").skip(1) {
        let open = part.find('(').unwrap();
        let close = part.find(')').unwrap();
        let parameters = part[open + 1..close].split(',').map(|p| p.trim().to_string()).filter(|p| !p.is_empty()).collect();
        let result = part[close..].split("-> ").nth(1).unwrap().split(';').next().unwrap();
        found.insert(part[..open].to_string(), (parameters, result.to_string()));
    }
    found
}

#[test]
fn functions_are_the_headers() {
    let c = c_functions();
    let rust = rust_functions();
    let wanted: BTreeSet<&str> = rust.keys().map(String::as_str).chain(NOT_DECLARED).collect();
    assert_eq!(c.keys().map(String::as_str).collect::<BTreeSet<_>>(), wanted);
    assert_eq!(rust.len() + NOT_DECLARED.len(), c.len());
    for (name, declared) in &rust {
        assert_eq!(Some(declared), c.get(name), "{name}");
    }
}

#[test]
fn numbers_are_the_headers() {
    let text = words(&without_comments(HEADER));
    for (name, number) in sys::LAYOUT {
        let wanted = format!("{name} = {number}");
        let stands = text.match_indices(&wanted).any(|(i, _)| {
            let before = text[..i].chars().last().unwrap();
            let after = text[i + wanted.len()..].chars().next().unwrap();
            !before.is_alphanumeric() && before != '_' && !after.is_alphanumeric()
        });
        assert!(stands, "{wanted}");
    }
}

/// The names and numbers of an enum of the header, without the beginning of the names.
fn c_enum(name: &str, prefix: &str) -> BTreeMap<u64, String> {
    let text = words(&without_comments(HEADER));
    let text = text.split(&format!("enum {name} {{")).nth(1).unwrap().split('}').next().unwrap();
    let rows = text.split(',').map(|row| {
        let (name, number) = row.split_once(" = ").unwrap();
        let number = match number.trim().strip_prefix("0x") {
            Some(digits) => u64::from_str_radix(digits, 16).unwrap(),
            None => number.trim().parse().unwrap(),
        };
        (number, name.trim().strip_prefix(prefix).unwrap().replace('_', ""))
    });
    rows.collect()
}

/// A case as C names it, but for the underlines.
fn c_name(case: impl Debug) -> String {
    let name = format!("{case:?}");
    let name = name.split(" {").next().unwrap();
    name.chars().filter(|c| c.is_alphabetic() || *c == '8').collect::<String>().to_uppercase()
}

/// Every reason of a kind by its byte; that of a byte has the byte.
fn reasons<T: Debug + Copy>(from_code: fn(u8) -> Option<T>, code: fn(T) -> u8) -> BTreeMap<u64, String> {
    let listed = (0..=255).filter_map(|n| from_code(n).map(|r| (n, r)));
    listed.inspect(|(n, r)| assert_eq!(code(*r), *n)).map(|(n, r)| (n as u64, c_name(r))).collect()
}

#[test]
fn reasons_are_the_headers() {
    assert_eq!(reasons(PubAckReason::from_code, PubAckReason::code), c_enum("ecch_puback_reason", "ECCH_PUBACK_"));
    assert_eq!(reasons(PubRecReason::from_code, PubRecReason::code), c_enum("ecch_puback_reason", "ECCH_PUBACK_"));
    assert_eq!(reasons(PubRelReason::from_code, PubRelReason::code), c_enum("ecch_pubrel_reason", "ECCH_PUBREL_"));
    assert_eq!(reasons(PubCompReason::from_code, PubCompReason::code), c_enum("ecch_pubrel_reason", "ECCH_PUBREL_"));
    assert_eq!(reasons(SubscribeReasonCode::from_code, SubscribeReasonCode::code), c_enum("ecch_suback_reason", "ECCH_SUBACK_"));
    assert_eq!(reasons(UnsubAckReason::from_code, UnsubAckReason::code), c_enum("ecch_unsuback_reason", "ECCH_UNSUBACK_"));
    assert_eq!(SubscribeReasonCode::Failure.code(), SubscribeReasonCode::Unspecified.code());
}

#[test]
fn refusals_are_the_headers() {
    let all = [
        Error::InsufficientBytes(1),
        Error::MalformedRemainingLength,
        Error::PayloadSizeLimitExceeded { pkt_size: 1, max: 0 },
        Error::InvalidPacketType(0),
        Error::PayloadRequired,
        Error::KindNotCarried(1),
        Error::MalformedPacket,
        Error::BoundaryCrossed(1),
        Error::TopicNotUtf8,
        Error::InvalidPropertyType(0),
        Error::InvalidQoS(3),
        Error::PacketIdZero,
        Error::EmptySubscription,
        Error::InvalidRetainForwardRule(3),
        Error::InvalidReason(1),
        Error::OutgoingPacketTooLarge { pkt_size: 1, max: 0 },
        Error::PayloadTooLong,
        Error::StringTooLong(65_536),
        Error::NoRoom(1),
        Error::ListMismatch,
        Error::NoItem,
        Error::DuplicateProperty(1),
        Error::SubscriptionIdZero,
    ];
    let mut wanted = c_enum("ecch_refusal", "ECCH_");
    assert_eq!(wanted.remove(&0).unwrap(), "OK");
    assert_eq!(all.iter().map(|e| (e.number() as u64, c_name(e))).collect::<BTreeMap<_, _>>(), wanted);
}
