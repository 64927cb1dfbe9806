//! A reader of the rules of 01 and 02 (D1 to D3 as in the port) in safe Rust, written by hand from them: it gives parts of the caller's
//! stream, copies nothing and allocates nothing. It is the mark for speed. `FAST` picks the text validator: std's behind a test for ASCII,
//! or byte by byte.
#[derive(Clone, Copy, Debug, PartialEq, Eq)]
pub struct No {
    pub no: u8,
    pub a: u64,
    pub b: u64,
}
#[inline(always)]
fn no(n: u8) -> No {
    No { no: n, a: 0, b: 0 }
}
#[inline(always)]
fn no1(n: u8, a: u64) -> No {
    No { no: n, a, b: 0 }
}

#[derive(Clone, Copy, Debug, Default)]
pub struct PubProps<'a> {
    pub pfi: Option<u8>,
    pub expiry: Option<u32>,
    pub alias: Option<u16>,
    pub response: Option<&'a [u8]>,
    pub correlation: Option<&'a [u8]>,
    pub content: Option<&'a [u8]>,
    pub users: u32,
    pub ids: u32,
}
#[derive(Clone, Copy, Debug)]
pub struct Pub<'a> {
    pub dup: bool,
    pub qos: u8,
    pub retain: bool,
    pub topic: &'a [u8],
    pub id: u16,
    pub block: &'a [u8],
    pub props: PubProps<'a>,
    pub payload: &'a [u8],
}
#[derive(Clone, Copy, Debug)]
pub struct Sub<'a> {
    pub id: u16,
    pub block: &'a [u8],
    pub sid: Option<u32>,
    pub filters: &'a [u8],
}
/// PubAck, PubRec, PubRel and PubComp
#[derive(Clone, Copy, Debug)]
pub struct Ack<'a> {
    pub kind: u8,
    pub id: u16,
    pub reason: u8,
    pub block: &'a [u8],
    pub rstr: Option<&'a [u8]>,
}
/// SubAck and UnsubAck
#[derive(Clone, Copy, Debug)]
pub struct Reply<'a> {
    pub kind: u8,
    pub id: u16,
    pub block: &'a [u8],
    pub rstr: Option<&'a [u8]>,
    pub reasons: &'a [u8],
}
#[derive(Clone, Copy, Debug)]
pub struct Unsub<'a> {
    pub id: u16,
    pub block: &'a [u8],
    pub topics: &'a [u8],
}
#[derive(Clone, Copy, Debug)]
pub enum Rec<'a> {
    Publish(Pub<'a>),
    Ack(Ack<'a>),
    Subscribe(Sub<'a>),
    Reply(Reply<'a>),
    Unsubscribe(Unsub<'a>),
    Ping(u8),
}

/// value and byte count; Err(2) on a fourth byte with its top bit set or on more bytes than needed, Err(7) if it is cut off
#[inline(always)]
pub fn var(s: &[u8]) -> Result<(u32, usize), u8> {
    match s.first() {
        None => return Err(7),
        Some(&b) if b < 0x80 => return Ok((b as u32, 1)),
        _ => {}
    }
    let mut v = 0u32;
    for i in 0..4 {
        match s.get(i) {
            None => return Err(7),
            Some(&b) => {
                v |= ((b & 0x7F) as u32) << (7 * i);
                // a last group of 0 behind others is not needed
                if b == 0 {
                    return Err(2);
                }
                if b < 0x80 {
                    return Ok((v, i + 1));
                }
            }
        }
    }
    Err(2)
}
#[inline(always)]
fn u8_(s: &mut &[u8]) -> Result<u8, No> {
    match s.split_first() {
        None => Err(no(7)),
        Some((b, r)) => {
            *s = r;
            Ok(*b)
        }
    }
}
#[inline(always)]
fn u16_(s: &mut &[u8]) -> Result<u16, No> {
    if s.len() < 2 {
        return Err(no(7));
    }
    let v = u16::from_be_bytes([s[0], s[1]]);
    *s = &s[2..];
    Ok(v)
}
#[inline(always)]
fn u32_(s: &mut &[u8]) -> Result<u32, No> {
    if s.len() < 4 {
        return Err(no(7));
    }
    let v = u32::from_be_bytes([s[0], s[1], s[2], s[3]]);
    *s = &s[4..];
    Ok(v)
}
#[inline(always)]
fn var_(s: &mut &[u8]) -> Result<u32, No> {
    match var(s) {
        Ok((v, n)) => {
            *s = &s[n..];
            Ok(v)
        }
        Err(e) => Err(no(e)),
    }
}
#[inline(always)]
fn bytes_<'a>(s: &mut &'a [u8]) -> Result<&'a [u8], No> {
    let n = u16_(s)? as usize;
    if n > s.len() {
        return Err(no1(8, n as u64));
    }
    let (a, r) = s.split_at(n);
    *s = r;
    Ok(a)
}
/// every byte in 1..=0x7F: the top bit of b - 1 or of b is set just where it is not
#[inline(always)]
fn ascii(s: &[u8]) -> bool {
    let mut acc = 0u8;
    if s.len() >= 8 {
        let mut c = s.chunks_exact(8);
        let mut w = 0u64;
        for k in &mut c {
            let k = u64::from_le_bytes(k.try_into().unwrap());
            w |= k | k.wrapping_sub(0x0101_0101_0101_0101);
        }
        if w & 0x8080_8080_8080_8080 != 0 {
            return false;
        }
        for b in c.remainder() {
            acc |= *b | b.wrapping_sub(1);
        }
    } else {
        for b in s {
            acc |= *b | b.wrapping_sub(1);
        }
    }
    acc < 0x80
}
/// Unicode table 3-7 without U+0000, a byte at a time
#[inline(never)]
pub fn plain_utf8(s: &[u8]) -> bool {
    let mut i = 0;
    let n = s.len();
    while i < n {
        let b = s[i];
        if b < 0x80 {
            if b == 0 {
                return false;
            }
            i += 1;
            continue;
        }
        let (k, lo, hi) = match b {
            0xC2..=0xDF => (1, 0x80, 0xBF),
            0xE0 => (2, 0xA0, 0xBF),
            0xE1..=0xEC => (2, 0x80, 0xBF),
            0xED => (2, 0x80, 0x9F),
            0xEE..=0xEF => (2, 0x80, 0xBF),
            0xF0 => (3, 0x90, 0xBF),
            0xF1..=0xF3 => (3, 0x80, 0xBF),
            0xF4 => (3, 0x80, 0x8F),
            _ => return false,
        };
        if n - i <= k {
            return false;
        }
        if s[i + 1] < lo || s[i + 1] > hi {
            return false;
        }
        let mut j = 2;
        while j <= k {
            if s[i + j] & 0xC0 != 0x80 {
                return false;
            }
            j += 1;
        }
        i += k + 1;
    }
    true
}
#[inline(always)]
fn text_<'a, const FAST: bool>(s: &mut &'a [u8]) -> Result<&'a [u8], No> {
    let t = bytes_(s)?;
    let ok = if FAST {
        ascii(t) || std::str::from_utf8(t).is_ok() && !t.contains(&0)
    } else {
        plain_utf8(t)
    };
    if ok {
        Ok(t)
    } else {
        Err(no(9))
    }
}
/// a single-valued property: 22 if it is there already, before its value is read
#[inline(always)]
fn once<T>(slot: &mut Option<T>, k: u8, value: impl FnOnce() -> Result<T, No>) -> Result<(), No> {
    if slot.is_some() {
        return Err(no1(22, k as u64));
    }
    *slot = Some(value()?);
    Ok(())
}
/// a subscription identifier, which is not 0
#[inline(always)]
fn id_(s: &mut &[u8]) -> Result<u32, No> {
    match var_(s)? {
        0 => Err(no(23)),
        id => Ok(id),
    }
}
#[inline(always)]
fn block_<'a>(s: &mut &'a [u8]) -> Result<&'a [u8], No> {
    let l = var_(s)? as usize;
    if l > s.len() {
        return Err(no1(8, l as u64));
    }
    let (a, r) = s.split_at(l);
    *s = r;
    Ok(a)
}

#[inline(always)]
fn publish<'a, const FAST: bool>(first: u8, mut s: &'a [u8]) -> Result<Pub<'a>, No> {
    let qos = first >> 1 & 3;
    if qos == 3 {
        return Err(no1(11, 3));
    }
    let topic = bytes_(&mut s)?;
    let id = if qos == 0 {
        0
    } else {
        let id = u16_(&mut s)?;
        if id == 0 {
            return Err(no(12));
        }
        id
    };
    let block = block_(&mut s)?;
    let mut b = block;
    let mut p = PubProps::default();
    while !b.is_empty() {
        let k = u8_(&mut b)?;
        match k {
            38 => {
                text_::<FAST>(&mut b)?;
                text_::<FAST>(&mut b)?;
                p.users += 1;
            }
            1 => once(&mut p.pfi, k, || u8_(&mut b))?,
            2 => once(&mut p.expiry, k, || u32_(&mut b))?,
            35 => once(&mut p.alias, k, || u16_(&mut b))?,
            8 => once(&mut p.response, k, || text_::<FAST>(&mut b))?,
            9 => once(&mut p.correlation, k, || bytes_(&mut b))?,
            11 => {
                id_(&mut b)?;
                p.ids += 1;
            }
            3 => once(&mut p.content, k, || text_::<FAST>(&mut b))?,
            k => return Err(no1(10, k as u64)),
        }
    }
    Ok(Pub {
        dup: first & 8 != 0,
        qos,
        retain: first & 1 != 0,
        topic,
        id,
        block,
        props: p,
        payload: s,
    })
}
fn subscribe<'a, const FAST: bool>(mut s: &'a [u8]) -> Result<Sub<'a>, No> {
    let id = u16_(&mut s)?;
    let block = block_(&mut s)?;
    let mut b = block;
    let mut sid = None;
    while !b.is_empty() {
        let k = u8_(&mut b)?;
        match k {
            11 => once(&mut sid, k, || id_(&mut b))?,
            38 => {
                text_::<FAST>(&mut b)?;
                text_::<FAST>(&mut b)?;
            }
            k => return Err(no1(10, k as u64)),
        }
    }
    let filters = s;
    if s.is_empty() {
        return Err(no(13));
    }
    while !s.is_empty() {
        text_::<FAST>(&mut s)?;
        let o = u8_(&mut s)?;
        if o & 0x30 == 0x30 {
            return Err(no1(14, 3));
        }
        if o & 3 == 3 {
            return Err(no1(11, 3));
        }
    }
    Ok(Sub { id, block, sid, filters })
}
/// the block of an acknowledgement or a reply, and its reason string
#[inline(always)]
fn ack_block<'a, const FAST: bool>(s: &mut &'a [u8]) -> Result<(&'a [u8], Option<&'a [u8]>), No> {
    let block = block_(s)?;
    let mut b = block;
    let mut rstr = None;
    while !b.is_empty() {
        let k = u8_(&mut b)?;
        match k {
            31 => once(&mut rstr, k, || text_::<FAST>(&mut b))?,
            38 => {
                text_::<FAST>(&mut b)?;
                text_::<FAST>(&mut b)?;
            }
            k => return Err(no1(10, k as u64)),
        }
    }
    Ok((block, rstr))
}
#[inline(always)]
fn listed(kind: u8, reason: u8) -> bool {
    match kind {
        4 | 5 => matches!(reason, 0 | 0x10 | 0x80 | 0x83 | 0x87 | 0x90 | 0x91 | 0x97 | 0x99),
        6 | 7 => matches!(reason, 0 | 0x92),
        9 => matches!(reason, 0..=2 | 0x80 | 0x83 | 0x87 | 0x8F | 0x91 | 0x97 | 0x9E | 0xA1 | 0xA2),
        _ => matches!(reason, 0 | 0x11 | 0x80 | 0x83 | 0x87 | 0x8F | 0x91),
    }
}
fn ack<'a, const FAST: bool>(kind: u8, mut s: &'a [u8]) -> Result<Ack<'a>, No> {
    let id = u16_(&mut s)?;
    let mut a = Ack {
        kind,
        id,
        reason: 0,
        block: &s[..0],
        rstr: None,
    };
    if s.is_empty() {
        return Ok(a);
    }
    a.reason = u8_(&mut s)?;
    if !listed(kind, a.reason) {
        return Err(no1(15, a.reason as u64));
    }
    if s.is_empty() {
        return Ok(a);
    }
    (a.block, a.rstr) = ack_block::<FAST>(&mut s)?;
    if !s.is_empty() {
        return Err(no(7));
    }
    Ok(a)
}
fn reply<'a, const FAST: bool>(kind: u8, mut s: &'a [u8]) -> Result<Reply<'a>, No> {
    let id = u16_(&mut s)?;
    let (block, rstr) = ack_block::<FAST>(&mut s)?;
    if s.is_empty() {
        return Err(no(13));
    }
    for k in s {
        if !listed(kind, *k) {
            return Err(no1(15, *k as u64));
        }
    }
    Ok(Reply {
        kind,
        id,
        block,
        rstr,
        reasons: s,
    })
}
fn unsubscribe<'a, const FAST: bool>(mut s: &'a [u8]) -> Result<Unsub<'a>, No> {
    let id = u16_(&mut s)?;
    let block = block_(&mut s)?;
    let mut b = block;
    while !b.is_empty() {
        match u8_(&mut b)? {
            38 => {
                text_::<FAST>(&mut b)?;
                text_::<FAST>(&mut b)?;
            }
            k => return Err(no1(10, k as u64)),
        }
    }
    let topics = s;
    if s.is_empty() {
        return Err(no(13));
    }
    while !s.is_empty() {
        text_::<FAST>(&mut s)?;
    }
    Ok(Unsub { id, block, topics })
}
/// (answer, taken)
#[inline(always)]
pub fn read<const FAST: bool>(s: &[u8], limit: Option<u32>) -> (Result<Rec<'_>, No>, usize) {
    if s.len() < 2 {
        return (Err(no1(1, 2 - s.len() as u64)), 0);
    }
    let (r, k) = match var(&s[1..]) {
        Ok((v, k)) => (v as usize, k),
        Err(2) => return (Err(no(2)), 0),
        Err(_) => return (Err(no1(1, 1)), 0),
    };
    let f = 1 + k + r;
    if let Some(m) = limit {
        if f > m as usize {
            return (
                Err(No {
                    no: 3,
                    a: f as u64,
                    b: m as u64,
                }),
                0,
            );
        }
    }
    if s.len() < f {
        return (Err(no1(1, (f - s.len()) as u64)), 0);
    }
    let kind = s[0] >> 4;
    let body = &s[1 + k..f];
    let a = match kind {
        0 | 15 => Err(no1(4, kind as u64)),
        12 | 13 => Ok(Rec::Ping(kind)),
        _ if r == 0 => Err(no(5)),
        3 => publish::<FAST>(s[0], body).map(Rec::Publish),
        4..=7 => ack::<FAST>(kind, body).map(Rec::Ack),
        8 => subscribe::<FAST>(body).map(Rec::Subscribe),
        9 | 11 => reply::<FAST>(kind, body).map(Rec::Reply),
        10 => unsubscribe::<FAST>(body).map(Rec::Unsubscribe),
        _ => Err(no1(6, kind as u64)),
    };
    (a, f)
}
