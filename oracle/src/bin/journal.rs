//! The journal (02, P11) through the C interface, against a model: journal [--count N] [--seed N]. See oracle/README.md.
use oracle::journal::{self, hold_cut, hold_recover, hold_save, hold_start, BLOCK, IDENTIFIERS};
use oracle::streams::Dice;

#[derive(Default)]
struct Counts {
    saves: u64,
    cuts: u64,
    found: u64,
    empty: u64,
    bad: u64,
    ended: u64,
}

fn table(d: &mut Dice) -> Box<[u8]> {
    let (most, rare) = ([128, IDENTIFIERS][d.below(2) as usize], 1 + d.below(8));
    let mut t = vec![0; IDENTIFIERS];
    for w in t.iter_mut().take(most) {
        *w = if d.below(rare) == 0 { d.below(4) as u8 } else { 0 };
    }
    t.into()
}

/// Blocks made without the library, good and damaged, equal numbers, number 0 and the largest among them.
fn made(d: &mut Dice) -> Box<[u8]> {
    let mut area = vec![];
    for _ in 0..d.below(6) {
        let number = [0, 1, 2, 5, u64::MAX - 1, u64::MAX, 3, 1 << 40][d.below(8) as usize];
        let mut b = journal::block(number, &table(d));
        match d.below(5) {
            0 => b[d.below(BLOCK as u64) as usize] ^= 1 << d.below(8),
            // a byte between marks and check, with the right check behind it
            1 => {
                b[264 + d.below(244) as usize] = 1;
                let check = journal::crc(&b[..508]).to_be_bytes();
                b[508..].copy_from_slice(&check);
            }
            _ => {}
        }
        area.extend(b);
    }
    if d.below(8) == 0 {
        area.extend(vec![0; d.below(600) as usize]);
    }
    area.into()
}

fn history(d: &mut Dice, c: &mut Counts) -> Result<(), String> {
    let blocks = 2 + d.below(4) as usize;
    let mut area: Box<[u8]> = vec![0xA5; blocks * BLOCK].into();
    hold_start(&mut area)?;
    for _ in 0..1 + d.below(3 * blocks as u64) {
        let t = table(d);
        let (at, flip) = (d.below(BLOCK as u64 + 1) as usize, 1 + d.below(255) as u8);
        hold_cut(&t, &area, |old, new| [&new[..at], &old[at..]].concat())?;
        hold_cut(&t, &area, |_, new| {
            let mut b = new.to_vec();
            b[at % BLOCK] ^= flip;
            b
        })?;
        c.cuts += 2;
        let saved = hold_save(&t, &mut area)?;
        let found = hold_recover(&area, IDENTIFIERS + d.below(2) as usize, flip)?;
        if found != saved.map(|s| (s.0, t.to_vec())) {
            return Err("what was saved is not recovered".into());
        }
        c.saves += 1;
    }
    Ok(())
}

fn any(d: &mut Dice, c: &mut Counts) -> Result<(), String> {
    let mut area = made(d);
    let room = [IDENTIFIERS, IDENTIFIERS - 1, 0, IDENTIFIERS + 5][d.below(4) as usize];
    match hold_recover(&area, room, d.below(256) as u8)? {
        Ok(_) => c.found += 1,
        Err(journal::EMPTY) => c.empty += 1,
        Err(_) => c.bad += 1,
    }
    let mut t = table(d);
    if d.below(8) == 0 {
        t[d.below(IDENTIFIERS as u64) as usize] = 4 + d.below(252) as u8;
    }
    let t: Box<[u8]> = t[..IDENTIFIERS - (d.below(8) == 0) as usize].into();
    c.ended += (hold_save(&t, &mut area)? == Err(journal::ENDED)) as u64;
    hold_start(&mut area)
}

fn main() {
    let args: Vec<String> = std::env::args().skip(1).collect();
    let after = |name: &str, or: u64| args.iter().position(|a| a == name).map_or(or, |i| args[i + 1].parse().unwrap());
    let (count, seed) = (after("--count", 100_000), after("--seed", 20_261_116));
    let (mut d, mut c) = (Dice::new(seed), Counts::default());
    for i in 0..count {
        let held = if i % 8 == 0 { history(&mut d, &mut c) } else { any(&mut d, &mut c) };
        if let Err(what) = held {
            println!("difference: {what}");
            std::process::exit(1);
        }
    }
    println!("seed {seed}: {} saves, {} cuts; areas made elsewhere: {} found, {} empty, {} bad, {} ended", c.saves, c.cuts, c.found, c.empty, c.bad, c.ended);
    println!("no difference");
}
