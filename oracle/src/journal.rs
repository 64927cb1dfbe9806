//! 02's P11: a model of the journal, written from 02's words, and each call of the library held against it. The check is taken bit by bit.
#![cfg(feature = "ecchjulmina")]

pub const BLOCK: usize = 512;
pub const IDENTIFIERS: usize = 1024;
pub const BAD_AREA: u32 = 32;
pub const EMPTY: u32 = 33;
pub const ENDED: u32 = 34;
pub const BAD_TABLE: u32 = 39;

/// What each identifier waits for, from 1 upward.
pub type Table = Vec<u8>;

extern "C" {
    fn ecch_journal_start(area: *mut u8, area_len: usize) -> u32;
    fn ecch_journal_save(table: *const u8, table_len: usize, area: *mut u8, area_len: usize, answer: *mut u64, answer_len: usize) -> u32;
    fn ecch_journal_recover(area: *const u8, area_len: usize, table: *mut u8, table_len: usize, answer: *mut u64, answer_len: usize) -> u32;
}

pub fn crc(bytes: &[u8]) -> u32 {
    let mut crc = u32::MAX;
    for b in bytes {
        crc ^= *b as u32;
        for _ in 0..8 {
            crc = if crc & 1 == 1 { crc >> 1 ^ 0xEDB8_8320 } else { crc >> 1 };
        }
    }
    !crc
}

/// "two or more whole blocks of 512 bytes"
pub fn is_area(area: &[u8]) -> bool {
    area.len() >= 2 * BLOCK && area.len().is_multiple_of(BLOCK)
}

fn is_table(table: &[u8]) -> bool {
    table.len() == IDENTIFIERS && table.iter().all(|w| *w < 4)
}

/// Number and table, if the block is good; under 1,024 no identifier is above the limit.
pub fn good(block: &[u8]) -> Option<(u64, Table)> {
    let number = u64::from_be_bytes(block[..8].try_into().unwrap());
    let right = crc(&block[..508]) == u32::from_be_bytes(block[508..].try_into().unwrap());
    let zero = block[264..508].iter().all(|b| *b == 0);
    let table = (0..IDENTIFIERS).map(|i| block[8 + i / 4] >> (2 * (i % 4)) & 3).collect();
    (right && zero && number != 0).then_some((number, table))
}

/// The block of that number and table.
pub fn block(number: u64, table: &[u8]) -> Vec<u8> {
    let mut b = number.to_be_bytes().to_vec();
    b.extend(table.chunks(4).map(|four| four.iter().rev().fold(0, |n, w| n << 2 | w)));
    b.resize(508, 0);
    b.extend(crc(&b).to_be_bytes());
    b
}

/// "the good block with the highest number, the first of equals, or JournalEmpty"
pub fn recover(area: &[u8]) -> Result<(u64, Table), u32> {
    if !is_area(area) {
        return Err(BAD_AREA);
    }
    let mut best: Option<(u64, Table)> = None;
    for found in area.chunks(BLOCK).filter_map(good) {
        if best.as_ref().is_none_or(|b| b.0 < found.0) {
            best = Some(found);
        }
    }
    best.ok_or(EMPTY)
}

/// Number and block of a save, which changes the area.
pub fn save(table: &[u8], area: &mut [u8]) -> Result<(u64, usize), u32> {
    if !is_area(area) {
        return Err(BAD_AREA);
    }
    if !is_table(table) {
        return Err(BAD_TABLE);
    }
    let last = recover(area).map_or(0, |found| found.0);
    let number = last.checked_add(1).ok_or(ENDED)?;
    let at = (last % (area.len() / BLOCK) as u64) as usize;
    area[at * BLOCK..][..BLOCK].copy_from_slice(&block(number, table));
    Ok((number, at))
}

/// Numbers that the library stores, on the heap and no longer than it may set.
fn answer(n: usize) -> Box<[u64]> {
    vec![u64::MAX; n].into()
}

/// The library starts an area, as 02 says.
pub fn hold_start(area: &mut [u8]) -> Result<(), String> {
    let before = area.to_vec();
    let said = unsafe { ecch_journal_start(area.as_mut_ptr(), area.len()) };
    let right = if is_area(&before) { said == 0 && area.iter().all(|b| *b == 0) } else { said == BAD_AREA && *area == before };
    if right { Ok(()) } else { Err(format!("start of {} bytes: {said}", area.len())) }
}

/// The library recovers what the model does, into a lent table of `room` bytes that holds `fill`.
pub fn hold_recover(area: &[u8], room: usize, fill: u8) -> Result<Result<(u64, Table), u32>, String> {
    let (mut table, mut n): (Box<[u8]>, _) = (vec![fill; room].into(), answer(1));
    let said = unsafe { ecch_journal_recover(area.as_ptr(), area.len(), table.as_mut_ptr(), room, n.as_mut_ptr(), 1) };
    let rules = recover(area);
    let (number, first) = match &rules {
        Err(BAD_AREA) => (BAD_AREA, vec![]),
        _ if room < IDENTIFIERS => (BAD_TABLE, vec![]),
        Err(no) => (*no, vec![0; IDENTIFIERS]),
        Ok((_, t)) => (0, t.clone()),
    };
    let stored = rules.as_ref().map_or(0, |found| found.0);
    let kept = table[first.len()..].iter().all(|b| *b == fill);
    if said != number || *n != [stored] || table[..first.len()] != first || !kept {
        return Err(format!("recovery of {} bytes into {room}: said {said} and {n:?}, right {number} and {stored}", area.len()));
    }
    Ok(rules)
}

/// The library saves as the model does; every byte of the area is compared.
pub fn hold_save(table: &[u8], area: &mut [u8]) -> Result<Result<(u64, usize), u32>, String> {
    let mut by_rules = area.to_vec();
    let rules = save(table, &mut by_rules);
    let mut n = answer(2);
    let said = unsafe { ecch_journal_save(table.as_ptr(), table.len(), area.as_mut_ptr(), area.len(), n.as_mut_ptr(), 2) };
    let (number, stored) = rules.map_or_else(|no| (no, [0, 0]), |(number, at)| (0, [number, at as u64]));
    if said != number || *n != stored || *area != by_rules {
        return Err(format!("save to {} bytes: said {said} and {n:?}, right {number} and {stored:?}", area.len()));
    }
    Ok(rules)
}

/// A save of `table` that is cut, where only saves wrote to the area: of its block what `torn` makes of the bytes before and after. Recovery then gives what was there before or what
/// was saved, unless `torn` made another good block, which is no cut.
pub fn hold_cut(table: &[u8], area: &[u8], torn: impl Fn(&[u8], &[u8]) -> Vec<u8>) -> Result<(), String> {
    let mut after: Box<[u8]> = area.into();
    let Ok((number, at)) = hold_save(table, &mut after)? else { return Ok(()) };
    let range = at * BLOCK..(at + 1) * BLOCK;
    let block = torn(&area[range.clone()], &after[range.clone()]);
    if good(&block).is_some() && block != area[range.clone()] && block != after[range.clone()] {
        return Ok(());
    }
    let mut cut: Box<[u8]> = area.into();
    cut[range].copy_from_slice(&block);
    let found = hold_recover(&cut, IDENTIFIERS, 7)?;
    if found != recover(area) && found != Ok((number, table.to_vec())) {
        return Err(format!("a cut of save {number} gives a state that was not saved"));
    }
    Ok(())
}
