//! Topics and filters by the crate's paths: MQTT 4.7's examples, 02's rules, and a filter of as many levels as a string can have.
use ecchjulmina::mqttbytes::{has_wildcards, matches, valid_filter, valid_topic};

#[test]
fn examples_of_the_standard() {
    for (topic, filter) in [
        ("sport/tennis/player1", "sport/tennis/player1/#"),
        ("sport/tennis/player1/ranking", "sport/tennis/player1/#"),
        ("sport/tennis/player1/score/wimbledon", "sport/tennis/player1/#"),
        ("sport", "sport/#"),
        ("sport/tennis/player2", "sport/tennis/+"),
        ("sport/", "sport/+"),
        ("/finance", "+/+"),
        ("/finance", "/+"),
        ("$SYS/a", "$SYS/#"),
        ("$SYS/monitor/Clients", "$SYS/monitor/+"),
    ] {
        assert!(valid_topic(topic) && valid_filter(filter) && matches(topic, filter), "{topic} {filter}");
    }
    for (topic, filter) in [
        ("sport/tennis/player1/ranking", "sport/tennis/+"),
        ("sport", "sport/+"),
        ("/finance", "+"),
        ("$SYS/a", "#"),
        ("$SYS/monitor/Clients", "+/monitor/Clients"),
        ("ACCOUNTS", "Accounts"),
    ] {
        assert!(valid_topic(topic) && valid_filter(filter) && !matches(topic, filter), "{topic} {filter}");
    }
    for filter in ["sport/tennis#", "sport/tennis/#/ranking", "sport+", ""] {
        assert!(!valid_filter(filter), "{filter}");
    }
}

#[test]
fn rules_of_the_requests() {
    assert!(matches("$a", "$a") && matches("$a/b", "$a/#"));
    assert!(matches("é", "é") && matches("é/a", "+/a") && matches("日本", "#"));
    assert!(!matches("#", "+") && !matches("a/#", "a/+") && matches("#", "#"));
    assert!(matches("", "") && matches("", "#") && matches("", "+") && !matches("", "a"));
    assert!(has_wildcards("a+") && has_wildcards("#") && !has_wildcards("a/b") && !has_wildcards(""));
    assert!(valid_topic("") && !valid_topic("a/+") && !valid_topic("a#"));
}

/// Levels of every length around the steps of twelve and sixteen bytes, alike and different at each index.
#[test]
fn levels_of_every_length() {
    for n in 0..70 {
        let level = "x".repeat(n);
        let topic = format!("{level}/b");
        assert!(matches(&topic, &topic) && matches(&topic, "+/b") && matches(&level, &format!("{level}/#")));
        assert!(!has_wildcards(&topic) && valid_filter(&topic));
        for at in 0..n {
            let mut other = level.clone();
            other.replace_range(at..at + 1, "y");
            assert!(!matches(&topic, &format!("{other}/b")), "{n} {at}");
            other.replace_range(at..at + 1, "/");
            assert!(!matches(&topic, &format!("{other}/b")), "{n} {at}");
            other.replace_range(at..at + 1, "+");
            assert!(has_wildcards(&other) && !valid_topic(&other));
            assert_eq!(valid_filter(&other), n == 1, "{n} {at}");
        }
    }
}

/// 65,536 levels, the most that an MQTT string can have, on the smallest stack that a thread gets here: 16 KiB.
#[test]
fn many_levels_on_a_small_stack() {
    let run = || {
        let slashes = "/".repeat(65_535);
        assert!(matches(&slashes, &slashes));
        assert!(matches(&slashes, &("+/".repeat(65_535) + "+")));
        assert!(!matches(&slashes, &slashes[1..]));
        assert!(valid_filter(&slashes) && valid_topic(&slashes));
        let more = "/".repeat(16 << 20);
        assert!(matches(&more, &more));
    };
    std::thread::Builder::new().stack_size(16 << 10).spawn(run).unwrap().join().unwrap();
    std::thread::Builder::new().stack_size(2 << 20).spawn(run).unwrap().join().unwrap();
}
