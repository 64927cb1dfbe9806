//! The tidy form (02's P14): what it is of each layout, that it is what `write` gives of what `read` gives, and that it stays.
use bytes::BytesMut;
use ecchjulmina::{places, tidied, tidy, Error, Packet};

/// A frame and its tidy form.
const FORMS: &[(&[u8], &[u8])] = &[
    (b"\x30\x08\0\x03a/b\0hi", b"\x30\x08\0\x03a/b\0hi"),
    (b"\x30\x0D\0\x01t\x07\x03\0\x01c\x23\0\x09hi", b"\x30\x0D\0\x01t\x07\x23\0\x09\x03\0\x01chi"),
    (b"\x40\x03\0\x0A\0", b"\x40\x02\0\x0A"),
    (b"\x40\x04\0\x0A\0\0", b"\x40\x02\0\x0A"),
    (b"\x40\x03\0\x0A\x10", b"\x40\x04\0\x0A\x10\0"),
    (b"\x50\x0D\0\x01\0\x09\x26\0\0\0\0\x1F\0\x01r", b"\x50\x0D\0\x01\0\x09\x1F\0\x01r\x26\0\0\0\0"),
    (b"\x60\x03\0\x0A\x92", b"\x62\x04\0\x0A\x92\0"),
    (b"\x7F\x02\0\x0A", b"\x70\x02\0\x0A"),
    (b"\x80\x07\0\x01\0\0\x01a\xC1", b"\x82\x07\0\x01\0\0\x01a\x01"),
    (b"\x90\x04\0\x01\0\x80", b"\x90\x04\0\x01\0\x80"),
    (b"\xA5\x06\0\x01\0\0\x01a", b"\xA2\x06\0\x01\0\0\x01a"),
    (b"\xB1\x04\0\x01\0\x11", b"\xB0\x04\0\x01\0\x11"),
    (b"\xC0\x02hi", b"\xC0\0"),
    (b"\xD1\0", b"\xD0\0"),
];

#[test]
fn forms() {
    for (frame, form) in FORMS {
        assert_eq!(tidy(frame).unwrap(), form);
        assert_eq!(tidy(form).unwrap(), form);
        // bytes behind the frame are not looked at
        let more = [frame, &b"\xFF\xFF"[..]].concat();
        assert_eq!(tidied(&more), (Ok(form.to_vec().into()), frame.len()));
    }
}

#[test]
fn refusals() {
    assert_eq!(tidied(b""), (Err(Error::InsufficientBytes(2)), 0));
    assert_eq!(tidied(b"\x30\x05\0"), (Err(Error::InsufficientBytes(4)), 0));
    assert_eq!(tidied(b"\x30\x80\0"), (Err(Error::MalformedRemainingLength), 0));
    assert_eq!(tidied(b"\x30\xFF\xFF\xFF\x7F"), (Err(Error::InsufficientBytes(268_435_455)), 0));
    assert_eq!(tidied(b"\x30\0\xC0\0"), (Err(Error::PayloadRequired), 2));
    assert_eq!(tidied(b"\x40\x03\0\x0A\x11"), (Err(Error::InvalidReason(17)), 5));
    assert_eq!(tidy(b"\x30\x08\0\x01a\x04\x01\0\x01\0"), Err(Error::DuplicateProperty(1)));
}

/// What `write` gives of what `read` gives.
fn written(frame: &[u8]) -> Option<BytesMut> {
    let mut out = BytesMut::new();
    Packet::read(&mut BytesMut::from(frame), None).ok()?.write(&mut out, None).unwrap();
    Some(out)
}

/// The frame at the start of a stream is tidied as it is read and written; gives the bytes taken.
fn holds(stream: &[u8]) -> usize {
    let (form, taken) = tidied(stream);
    let (record, read) = places::read(stream, None);
    assert_eq!(taken, read);
    match (form, written(stream)) {
        (Ok(form), Some(own)) => {
            assert_eq!(form, own, "{stream:02X?}");
            assert_eq!(tidied(&form), (Ok(form.clone()), form.len()));
        }
        (Err(e), None) => assert_eq!(Some(e), record.err()),
        (form, own) => panic!("{stream:02X?}: {form:?}, {own:?}"),
    }
    taken
}

#[test]
fn samples_whole_cut_and_damaged() {
    let (mut frames, mut refused) = (0, 0);
    for name in ["armouring-line", "short-topics"] {
        let sample = std::fs::read(format!("{}/../../samples/{name}.mqtt", env!("CARGO_MANIFEST_DIR"))).unwrap();
        let mut rest = &sample[..];
        while !rest.is_empty() {
            let taken = holds(rest);
            for n in 0..taken {
                holds(&rest[..n]);
                // every byte with every bit turned over, and with some values
                for turned in (0..8).map(|b| rest[n] ^ 1 << b).chain([0, 1, 2, 11, 31, 38, 0x7F, 0x80, 0xFF]) {
                    let mut frame = rest[..taken].to_vec();
                    frame[n] = turned;
                    holds(&frame);
                    frames += 1;
                    refused += tidy(&frame).is_err() as u32;
                }
            }
            if taken == 0 {
                break;
            }
            rest = &rest[taken..];
        }
    }
    assert!(refused > 1000 && frames - refused > 1000, "{frames} frames, {refused} refused");
}

/// Blocks and frames with lengths of two and three bytes, a lone property behind many.
#[test]
fn large() {
    for pairs in [25, 26, 3_276, 3_277, 20_000] {
        let mut body = b"\0\x01t".to_vec();
        let length = |mut n: usize, out: &mut Vec<u8>| loop {
            out.push((n % 128) as u8 | if n > 127 { 128 } else { 0 });
            n /= 128;
            if n == 0 {
                return;
            }
        };
        length(pairs * 5 + 2, &mut body);
        let properties = [b"\x26\0\0\0\0".repeat(pairs), b"\x01\x01".to_vec()];
        let frame = |order: [usize; 2]| {
            let body = [&body[..], &properties[order[0]], &properties[order[1]], b"payload"].concat();
            let mut out = vec![0x30];
            length(body.len(), &mut out);
            [out, body].concat()
        };
        assert_eq!(tidy(&frame([0, 1])).unwrap(), frame([1, 0]));
        holds(&frame([0, 1]));
    }
}
