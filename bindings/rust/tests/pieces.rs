//! A stream cut into pieces against the whole stream read frame by frame (02, P10). The whole stream is read by `places::read`, with the rule for
//! a frame longer than the buffer written out here.
use ecchjulmina::pieces::{Answer, Pieces, Stop, Stopped};
use ecchjulmina::places;

/// An answer: the refusal's number or 0, the bytes taken, and the bytes of the frame that it speaks of, with what the record says.
type Line = (u8, usize, String);

fn says(frame: &[u8], read: &Result<places::Record<'_>, ecchjulmina::Error>) -> Line {
    match read {
        Ok(r) => (0, frame.len(), format!("{:?} {} {:?} {:?} {:?}", r.kind(), r.pkid(), r.topic(), r.payload(), r.user_properties().collect::<Vec<_>>())),
        Err(e) => (e.number(), frame.len(), format!("{e:?}")),
    }
}

/// F, where the header is whole.
fn frame_length(s: &[u8]) -> Option<usize> {
    let mut rest = 0;
    for (i, b) in s.iter().skip(1).take(4).enumerate() {
        rest |= ((b & 0x7F) as usize) << (7 * i);
        if b & 0x80 == 0 {
            return Some(2 + i + rest);
        }
    }
    None
}

fn whole(mut s: &[u8], limit: Option<usize>, room: usize) -> Vec<Line> {
    let mut all = Vec::new();
    loop {
        let (read, taken) = places::read(s, limit);
        let over = frame_length(s).is_some_and(|f| f > room);
        match read {
            Err(e) if e.number() == 2 && taken == 0 => return push(all, (2, 0, format!("{e:?}"))),
            Err(e) if e.number() == 3 => return push(all, (3, 0, format!("{e:?}"))),
            _ if over => return push(all, (36, 0, String::new())),
            Err(e) if e.number() == 1 => return all,
            read => all.push(says(&s[..taken], &read)),
        }
        s = &s[taken..];
    }
}

fn push(mut all: Vec<Line>, line: Line) -> Vec<Line> {
    all.push(line);
    all
}

/// The answers to all pieces; a refusal that is given again is listed once. With each piece all is listed that its bytes complete.
fn cut(pieces: &[&[u8]], limit: Option<usize>, room: usize) -> Vec<Line> {
    let mut reader = Pieces::new(room, limit).unwrap();
    let mut all: Vec<Line> = Vec::new();
    let mut ended: Option<u8> = None;
    for piece in pieces {
        let mut pushed = reader.push(piece);
        while let Some(answer) = pushed.next() {
            match answer {
                Answer::Frame { frame, copied, read } => {
                    assert!(ended.is_none());
                    let inside = piece.as_ptr_range().start <= frame.as_ptr() && frame.as_ptr_range().end <= piece.as_ptr_range().end;
                    assert_eq!(copied, !inside);
                    all.push(says(frame, &read));
                }
                Answer::Stopped(why) => match ended {
                    None => {
                        ended = Some(why.number());
                        all.push((why.number(), 0, if let Stop::Header(e) = &why { format!("{e:?}") } else { String::new() }));
                    }
                    Some(n) => assert_eq!(n, why.number()),
                },
            }
        }
    }
    all
}

const PARTS: &[&[u8]] = &[
    b"\x30\x08\x00\x03a/b\x00hi",
    b"\xC0\x00",
    b"\xF0\x00",
    b"\x40\x02\x00\x0A",
    b"\x82\x08\x00\x01\x00\x00\x02#a\x00",
    b"\x30\x0A\x00\x01x\x05\x26\x00\x00\x00\x00y",
    b"\x30\x81\x01",
    b"\x30\x80\x00",
    b"\x30\x80\x80\x80\x80",
    b"\xD0\x00",
];

/// Every cut of short streams into two and three pieces, an empty one among them, for every buffer from 5 bytes on.
#[test]
fn every_cut() {
    let mut cuts = 0;
    for a in PARTS {
        for b in PARTS {
            let s: Vec<u8> = [*a, *b, b"\xC0\x00"].concat();
            for room in 5..16 {
                for limit in [None, Some(4), Some(9), Some(10)] {
                    let all = whole(&s, limit, room);
                    for i in 0..=s.len() {
                        for j in i..=s.len() {
                            assert_eq!(cut(&[&s[..i], &s[i..j], &s[j..]], limit, room), all, "{s:?} {i} {j} {room} {limit:?}");
                            assert_eq!(cut(&[&s[..i], &s[i..j]], limit, room), whole(&s[..j], limit, room));
                            cuts += 2;
                        }
                    }
                }
            }
        }
    }
    assert_eq!(cuts, 991_672);
}

/// The sample files, at every place, in pieces of every size up to 70, and a few larger.
#[test]
fn the_samples() {
    for name in ["armouring-line", "short-topics"] {
        let s = std::fs::read(format!("{}/../../samples/{name}.mqtt", env!("CARGO_MANIFEST_DIR"))).unwrap();
        assert!(s.len() < 2_000);
        for room in [5, 64, 300, 65_536] {
            let all = whole(&s, None, room);
            for i in 0..=s.len() {
                assert_eq!(cut(&[&s[..i], &s[i..]], None, room), all);
            }
            for size in (1..70).chain([100, 1_000, 65_536]) {
                assert_eq!(cut(&s.chunks(size).collect::<Vec<_>>(), None, room), all, "{name} {size}");
            }
        }
    }
}

/// The streams of the rows of the program corpus that are reads (oracle/README.md has the file's form).
fn corpus() -> Vec<Vec<u8>> {
    let file = std::fs::read(concat!(env!("CARGO_MANIFEST_DIR"), "/../../crates/corpus/data/answers.bin")).unwrap();
    let mut at = 4;
    let number = |at: &mut usize, n: usize| {
        *at += n;
        file[*at - n..*at].iter().fold(0, |v, b| v << 8 | *b as usize)
    };
    let run = |at: &mut usize| {
        let n = number(at, 4);
        *at += n;
        *at - n..*at
    };
    let lengths = |at: &mut usize| *at += 4 * number(at, 2);
    let answer = |at: &mut usize| {
        number(at, 1);
        *at += 5 * number(at, 1);
    };
    let mut streams = Vec::new();
    for _ in 0..number(&mut 0, 4) {
        let kind = number(&mut at, 1);
        at += 8;
        match kind {
            1 => {
                at += 5;
                streams.push(file[run(&mut at)].to_vec());
            }
            2 => {
                at += 14;
                run(&mut at);
            }
            _ => {
                let fields = match kind {
                    3 => "5r12r1rrll1rr",
                    4..=7 => "5rrl",
                    8 => "8rlrlr",
                    9 | 11 => "4rrlr",
                    10 => "3rlrl",
                    _ => "",
                };
                let mut count = 0;
                for c in fields.chars().chain(['1', '0']) {
                    if let Some(d) = c.to_digit(10) {
                        count = 10 * count + d as usize;
                        continue;
                    }
                    at += std::mem::take(&mut count);
                    if c == 'r' {
                        run(&mut at);
                    } else {
                        lengths(&mut at);
                    }
                }
                at += count;
                answer(&mut at);
            }
        }
        answer(&mut at);
        if kind > 2 {
            run(&mut at);
        }
    }
    assert_eq!(at, file.len());
    streams
}

/// The corpus's streams, each cut at every place, and joined at random and cut at random.
#[test]
fn the_corpus() {
    let streams = corpus();
    assert_eq!(streams.len(), 18_548);
    let mut seed = 0x0123_4567_89AB_CDEFu64;
    let mut below = move |n: usize| {
        seed ^= seed << 13;
        seed ^= seed >> 7;
        seed ^= seed << 17;
        (seed % n as u64) as usize
    };
    for s in &streams {
        let room = 5 + below(40);
        let all = whole(s, None, room);
        for i in 0..=s.len() {
            assert_eq!(cut(&[&s[..i], &s[i..]], None, room), all, "{s:02X?} {i} {room}");
        }
    }
    for _ in 0..20_000 {
        let s: Vec<u8> = (0..below(30)).flat_map(|_| streams[below(streams.len())].clone()).collect();
        let room = 5 + below(100);
        let limit = [None, Some(below(40))][below(2)];
        let mut pieces: Vec<&[u8]> = Vec::new();
        let mut at = 0;
        while at < s.len() {
            let n = below(20).min(s.len() - at);
            pieces.push(&s[at..at + n]);
            at += n;
        }
        assert_eq!(cut(&pieces, limit, room), whole(&s, limit, room));
    }
}

/// Long streams of good and damaged frames, cut at random.
#[test]
fn random_cuts() {
    let mut seed = 0x9E37_79B9_7F4A_7C15u64;
    let mut below = move |n: usize| {
        seed ^= seed << 13;
        seed ^= seed >> 7;
        seed ^= seed << 17;
        (seed % n as u64) as usize
    };
    for _ in 0..20_000 {
        let mut s = Vec::new();
        for _ in 0..below(40) {
            let part = PARTS[if below(30) == 0 { below(10) } else { below(6) }];
            s.extend(part);
        }
        if !s.is_empty() && below(4) == 0 {
            let i = below(s.len());
            s[i] = below(256) as u8;
        }
        let most = [20, 400, 400][below(3)];
        let room = 5 + below(most);
        let limit = (below(3) == 0).then(|| below(30));
        let mut pieces: Vec<&[u8]> = Vec::new();
        let mut rest = &s[..];
        while !rest.is_empty() {
            let most = [1, 3, 17, 200][below(4)];
            let n = below(1 + most).min(rest.len());
            pieces.push(&rest[..n]);
            rest = &rest[n..];
        }
        assert_eq!(cut(&pieces, limit, room), whole(&s, limit, room), "{s:?} {room} {limit:?}");
    }
}

/// A buffer of any other length, the owned packets, and what is held.
#[test]
fn buffers_and_packets() {
    for room in [0, 4, 65_537] {
        assert!(matches!(Pieces::new(room, None), Err(Stop::BadBuffer)));
    }
    let mut reader = Pieces::new(10, None).unwrap();
    assert!(reader.packets(b"\xC0").is_empty());
    assert_eq!(reader.held(), 1);
    let all = reader.packets(b"\x00\xF0\x00\x30\x09");
    assert!(matches!(all[..], [Ok(ecchjulmina::Packet::PingReq(_)), Err(Stopped::Frame(ecchjulmina::Error::InvalidPacketType(15))), Err(Stopped::Stream(Stop::FrameTooLong))]));
    assert!(matches!(reader.packets(b"")[..], [Err(Stopped::Stream(Stop::FrameTooLong))]));
}

/// A piece of which one frame alone is asked for: the others are passed over, and the next piece goes on in the middle of the last.
#[test]
fn dropped_early() {
    let mut reader = Pieces::new(16, None).unwrap();
    {
        let mut pushed = reader.push(b"\xC0\x00\xD0\x00\xC0\x00\x40\x02\x00");
        assert!(matches!(pushed.next(), Some(Answer::Frame { frame: b"\xC0\x00", .. })));
    }
    assert_eq!(reader.held(), 3);
    let mut pushed = reader.push(b"\x07\xD0");
    assert!(matches!(pushed.next(), Some(Answer::Frame { frame: b"\x40\x02\x00\x07", copied: true, .. })));
    assert!(pushed.next().is_none());
    drop(pushed);
    assert_eq!(reader.held(), 1);
}
