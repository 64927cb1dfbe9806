//! Where the properties of a record stand (02's P7), of every layout: present, of length 0, and not sent; the walker over user properties; and the
//! table of a Subscribe's filters.
use ecchjulmina::filters::{fill_filters, filters, FilterEntry, NoTable};
use ecchjulmina::{places, walk::Walker};

/// Start and end of the properties of the frame at the start of the stream.
fn stand(stream: &[u8]) -> (usize, usize) {
    let record = places::read(stream, None).0.unwrap();
    (record.properties_start(), record.properties_end())
}

#[test]
fn properties_stand() {
    assert_eq!(stand(b"\x30\x08\0\x03a/b\0hi\x99"), (8, 8));
    assert_eq!(stand(b"\x30\x0B\0\x01a\x06\x0B\x01\x0B\x02\x0B\x03\x07"), (6, 12));
    assert_eq!(stand(b"\x32\x08\0\x01a\0\x07\x02\x01\x01"), (8, 10));
    assert_eq!(stand(b"\x82\x07\0\x01\0\0\x01a\x01"), (5, 5));
    assert_eq!(stand(b"\x82\x09\0\x07\x02\x0B\x05\0\x01a\x01"), (5, 7));
    assert_eq!(stand(b"\x40\x02\0\x0A\x99"), (4, 4));
    assert_eq!(stand(b"\x50\x03\0\x0A\x10\x99"), (5, 5));
    assert_eq!(stand(b"\x62\x04\0\x0A\0\0\x99"), (6, 6));
    assert_eq!(stand(b"\x70\x08\0\x0A\x92\x04\x1F\0\x01n"), (6, 10));
    assert_eq!(stand(b"\x90\x04\0\x01\0\x01"), (5, 5));
    assert_eq!(stand(b"\xB0\x08\0\x01\x04\x1F\0\x01n\x11"), (5, 9));
    assert_eq!(stand(b"\xA2\x0B\0\x01\x05\x26\0\0\0\0\0\x01a"), (5, 10));
    assert_eq!(stand(b"\xC0\0\x99"), (2, 2));
    assert_eq!(stand(b"\xD0\x02\x01\x02"), (4, 4));
}

/// The bytes between the two are those that the property set is read from.
#[test]
fn part_of_the_frame() {
    let frame = b"\x30\x0B\0\x01a\x06\x0B\x01\x0B\x02\x0B\x03\x07";
    let (start, end) = stand(frame);
    assert_eq!(&frame[start..end], b"\x0B\x01\x0B\x02\x0B\x03");
}

fn walked(stream: &[u8]) -> Vec<(&[u8], &[u8])> {
    let mut walker = Walker::new(stream);
    let found: Vec<_> = walker.by_ref().collect();
    assert_eq!((walker.next(), walker.next()), (None, None));
    found
}

#[test]
fn user_properties_in_order() {
    let publish = b"\x30\x1A\0\x01t\x15\x0B\x05\x26\0\x01a\0\x011\x01\x01\x26\0\x01b\0\0\x03\0\x01cx\x26";
    assert_eq!(walked(publish), [(&b"a"[..], &b"1"[..]), (b"b", b"")]);
    assert_eq!(walked(b"\x90\x10\0\x01\x0C\x26\0\x01a\0\0\x26\0\x01b\0\0\0"), [(&b"a"[..], &b""[..]), (b"b", b"")]);
    assert_eq!(walked(b"\x70\x0E\0\x01\0\x0A\x1F\0\x01r\x26\0\x01a\0\0"), [(&b"a"[..], &b""[..])]);
    assert_eq!(walked(b"\xA2\x0C\0\x01\x06\x26\0\x01a\0\0\0\x01f"), [(&b"a"[..], &b""[..])]);
}

#[test]
fn nothing_to_walk() {
    let refused = b"\x82\x09\0\x01\x06\x26\0\x01a\0\0";
    for stream in [&b""[..], b"\x30\x04\0\x01t\0", b"\xC0\0", b"\x40\x02\0\x01", refused, b"\x10\x01\0"] {
        assert!(walked(stream).is_empty());
    }
}

/// Three filters: `a`, `b/c` with every option and bits 6 and 7 set, and an empty one; and a byte behind the frame.
const THREE: &[u8] = b"\x82\x10\0\x01\0\0\x01a\x01\0\x03b/c\xEE\0\0\x02\x99";

fn shown(table: &[FilterEntry]) -> Vec<(usize, &[u8], u8)> {
    table.iter().map(|e| (e.start(), e.text(THREE), e.options())).collect()
}

#[test]
fn filters_in_a_vec() {
    let table = filters(THREE).unwrap();
    assert_eq!(shown(&table), [(7, &b"a"[..], 1), (11, b"b/c", 0x2E), (17, b"", 2)]);
    // as the records give them
    let record = places::read(THREE, None).0.unwrap();
    let walked: Vec<_> = record.filters().map(|f| f.path).collect();
    assert_eq!(walked, table.iter().map(|e| e.text(THREE)).collect::<Vec<_>>());
    assert!(matches!(filters(b"\xC0\0"), Err(NoTable::NotSubscribe)));
    assert!(matches!(filters(b"\x82\x03\0\x01\0"), Err(NoTable::Refused(e)) if e.number() == 13));
}

#[test]
fn filters_in_a_lent_table() {
    let old = filters(b"\x82\x09\0\x01\0\0\x03x/y\x20").unwrap()[0];
    assert_eq!((old.start(), old.len(), old.options()), (7, 3, 0x20));
    for places in 0..6 {
        let mut table = vec![old; places];
        match fill_filters(THREE, &mut table) {
            Ok(n) => {
                assert!(places >= 3 && n == 3);
                assert_eq!(table[..3], filters(THREE).unwrap()[..]);
                assert!(table[3..].iter().all(|e| *e == old));
            }
            Err(e) => {
                assert!(places < 3 && matches!(e, NoTable::FilterTableFull(3)) && e.number() == 37);
                assert!(table.iter().all(|e| *e == old));
            }
        }
    }
    let mut table = [old; 4];
    let number = |stream: &[u8], table: &mut [FilterEntry]| fill_filters(stream, table).unwrap_err().number();
    assert_eq!(number(b"\x30\x04\0\x01t\0", &mut table), 38);
    assert_eq!(number(b"", &mut table), 1);
    assert_eq!(number(b"\x82\x07\0\x01\0\0\x01a\x03", &mut table), 11);
    assert_eq!(table, [old; 4]);
}
