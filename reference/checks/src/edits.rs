//! Request (xiii): lists of edits on a store in its space, by the library and by the reference's editor.

use crate::random::Random;
use jorghipa::raw;
use listing_ref::editor::{Edit, Place, Role, SPACE};
use listing_ref::stores::{Fields, store};
use listing_ref::{MOST_RECORDS, RECORD, verdict};

/// A space with a store at its front.
#[derive(Clone, Debug, PartialEq, Eq)]
pub struct Held {
    pub space: Vec<u8>,
    pub length: usize,
}

/// Bodies and vertices in any order of records, some of them unreached.
#[derive(Clone, Copy, Debug)]
pub struct Shape {
    pub vertices: usize,
    pub bodies: usize,
    pub unreached: usize,
}

/// Small, middling and full stores; one in six is full, and half of those have no record to spare.
pub fn shape(random: &mut Random) -> Shape {
    let vertices = if random.chance(1, 12) { 250 + random.below(7) } else { 3 + random.below(14) };
    let most = MOST_RECORDS - 1 - vertices;
    let full = random.chance(1, 6);
    let unreached = if full && random.chance(1, 2) { 0 } else { random.below(6) };
    let room = if random.chance(1, 8) { most - 5 } else { 12 };
    let bodies = if full { most - unreached } else { random.below(room) };
    Shape { vertices, bodies, unreached }
}

/// A coordinate; now and then one that a section may not have.
fn coordinate(random: &mut Random) -> f64 {
    const ODD: [f64; 8] =
        [f64::NAN, f64::INFINITY, -0.0, 1048576.0, -1048576.0000000002, 5e-324, 1e300, f64::NEG_INFINITY];
    if random.chance(1, 60) { random.pick(&ODD) } else { random.whole(-40, 40) as f64 / 4.0 }
}

/// A radius that a vertex may have, but for one in twenty.
fn radius(random: &mut Random) -> f64 {
    if random.chance(1, 20) {
        random.pick(&[-1e-9, -1e-9f64.next_up(), -1.0, -5e-324])
    } else {
        coordinate(random).abs()
    }
}

fn vertex(random: &mut Random) -> [f64; 4] {
    [coordinate(random), radius(random), f64::from_bits(random.bits()), f64::NAN]
}

fn body(random: &mut Random) -> (u32, [f64; 4]) {
    (2 + random.below(2) as u32, std::array::from_fn(|_| coordinate(random)))
}

/// A store of this shape, accepted, in a space that is filled with noise behind it.
pub fn held(random: &mut Random, shape: Shape) -> Held {
    loop {
        let chained = shape.vertices + shape.bodies;
        let count = 1 + chained + shape.unreached;
        let mut order: Vec<u32> = (1..count as u32).collect();
        if random.chance(3, 4) {
            for i in (1..order.len()).rev() {
                order.swap(i, random.below(i + 1));
            }
        }
        let noise = |random: &mut Random| (random.bits() as u32, random.below(5) as u32, [f64::NAN; 4]);
        let mut records: Vec<Fields> = (0..count).map(|_| noise(random)).collect();
        records[0].1 = 0;
        let (mut at, mut left) = (0, shape.vertices);
        for (i, &k) in order[..chained].iter().enumerate() {
            let (kind, numbers) = if random.below(chained - i) < left { (1, vertex(random)) } else { body(random) };
            left -= usize::from(kind == 1);
            records[at].0 = k;
            records[k as usize] = (0, kind, numbers);
            at = k as usize;
        }
        records[at].0 = 0;
        let bytes = store(&records);
        if verdict(&bytes).is_ok() {
            let mut space: Vec<u8> = (0..SPACE).map(|_| random.bits() as u8).collect();
            space[..bytes.len()].copy_from_slice(&bytes);
            return Held { space, length: bytes.len() };
        }
    }
}

/// next and kind of record k.
fn link(held: &Held, k: usize) -> (u32, u32) {
    let word = |at: usize| u32::from_le_bytes(held.space[at..at + 4].try_into().expect("four bytes"));
    (word(k * RECORD), word(k * RECORD + 4))
}

/// The records of an accepted store in chain order.
fn chain(held: &Held) -> Vec<usize> {
    let mut chain = vec![0];
    loop {
        match link(held, chain[chain.len() - 1]).0 as usize {
            0 => return chain,
            next => chain.push(next),
        }
    }
}

/// An edit of this accepted store. About half of them are refused. In a calm list no edit relinks, so that the store fills up.
pub fn draw(random: &mut Random, held: &Held, calm: bool) -> Edit {
    let chain = chain(held);
    let count = held.length / RECORD;
    let role = if random.chance(1, 2) { Role::Setter } else { Role::Operator };
    if random.chance(2, 5) {
        let kind = if random.chance(1, 3) { 1 } else { 2 + random.below(2) as u32 };
        let kind = if random.chance(1, 20) { random.below(6) as u32 } else { kind };
        let any = random.bits() as u32;
        let next = random.pick(&[0, 0, 1, count as u32, any]);
        let numbers = if kind == 1 { vertex(random) } else { body(random).1 };
        return Edit { role, place: Place::Add, bytes: fields((next, kind, numbers)) };
    }
    let k = match random.below(20) {
        0..=1 => 0,
        2..=4 => random.below(count),
        5 => count,
        6 => random.bits() as usize >> random.below(64) & 0xffff_ffff,
        _ => random.pick(&chain),
    };
    let (next, kind) = if k < count { link(held, k) } else { (0, 2) };
    let next = match random.below(16) {
        _ if calm => next,
        0 => 0,
        1 => random.pick(&chain) as u32,
        2 => random.below(count) as u32,
        3 => random.pick(&[count as u32, u32::MAX, 512, 511]),
        _ => next,
    };
    let kind = match random.below(12) {
        0 => random.below(6) as u32,
        1 => 1,
        2 if kind != 0 => 2 + random.below(2) as u32,
        _ => kind,
    };
    let numbers = if kind == 1 { vertex(random) } else { body(random).1 };
    Edit { role, place: Place::Record(k as u32), bytes: fields((next, kind, numbers)) }
}

fn fields(record: Fields) -> [u8; RECORD] {
    store(&[record]).try_into().expect("one record")
}

/// The same space with something wrong: the length, the size, or the store itself.
pub fn damaged(random: &mut Random, held: &Held) -> Held {
    let Held { mut space, mut length } = held.clone();
    let at = random.pick(&chain(held)) * RECORD;
    match random.below(8) {
        0 => length = random.pick(&[0, 1, 39, 20_440, 20_481, 20_520, 20_521, usize::MAX, usize::MAX - 15]),
        1 => length = length.wrapping_add(random.pick(&[1, 39, 40, usize::MAX, usize::MAX - 39])),
        2 => length = random.below(600) * RECORD,
        3 => space.truncate(random.pick(&[0, 1, 40, length, SPACE - 1])),
        4 => space.extend(vec![0; random.pick(&[1, 40, SPACE])]),
        5 => space[at..at + 4].copy_from_slice(&(random.below(600) as u32).to_le_bytes()),
        6 => space[at + 4..at + 8].copy_from_slice(&(random.below(6) as u32).to_le_bytes()),
        _ => {
            let number = random.pick(&[f64::NAN, 2e6, -1.0, -2e-9]);
            space[at + 16..at + 24].copy_from_slice(&number.to_le_bytes());
        }
    }
    Held { space, length }
}

/// What the library makes of it, and its answer; the length's place is looked at too. `role` is any number of that role.
pub fn port(held: &mut Held, edit: &Edit, role: u32, bytes: &[u8]) -> Result<usize, u32> {
    const BEFORE: usize = 0x5a5a_5a5a;
    let (at, count, mut after) = (held.space.as_mut_ptr(), held.space.len(), BEFORE);
    let (given, size) = (bytes.as_ptr(), bytes.len());
    // SAFETY: the lists are valid for their counts, and the places are distinct.
    let number = unsafe {
        match edit.place {
            Place::Record(k) => raw::jorghipa_replace(at, count, held.length, role, k, given, size, &mut after),
            Place::Add => raw::jorghipa_add(at, count, held.length, role, given, size, &mut after),
        }
    };
    match number {
        0 => {
            held.length = after;
            Ok(after)
        }
        _ if after != BEFORE => Err(u32::MAX),
        number => Err(number),
    }
}

/// 1 for the setter, some other number for the operator.
pub fn role_number(random: &mut Random, role: Role) -> u32 {
    match role {
        Role::Setter => 1,
        Role::Operator => random.pick(&[0, 2, 3, 257, u32::MAX]),
    }
}

/// The library's verdict on a store: the number and K.
pub fn port_verdict(store: &[u8]) -> Result<(), (u32, usize)> {
    let mut record = 77;
    // SAFETY: the list is valid for its count.
    match unsafe { raw::jorghipa_read_store(store.as_ptr(), store.len(), &mut record) } {
        0 if record == 77 => Ok(()),
        number => Err((number, record as usize)),
    }
}

#[cfg(test)]
mod tests {
    use super::*;
    use listing_ref::editor::{Slip, edit, edit_with};

    /// Each way to read 02 wrongly is found out by some of 24 lists.
    #[test]
    fn slips_are_found_out() {
        const SLIPS: [Slip; 18] = [
            Slip::OperatorRelinks,
            Slip::OperatorMakesVertex,
            Slip::OperatorAddsVertex,
            Slip::OperatorEditsVertex,
            Slip::OperatorEditsRecordZero,
            Slip::HighestUnreached,
            Slip::AlwaysNewRecord,
            Slip::TailLeft,
            Slip::NextKept,
            Slip::RoleBeforeRecord,
            Slip::RoomBeforeRole,
            Slip::RefusedEditWrites,
            Slip::GrownPast512,
            Slip::OutcomeNotJudged,
            Slip::OutcomeBeforeRole,
            Slip::UnreachedTaken,
            Slip::LengthCutToSpace,
            Slip::RecordAlwaysNew,
        ];
        let mut found = [0; SLIPS.len()];
        for list in 0..24 {
            let mut random = Random::new(7, list);
            let form = shape(&mut random);
            let mut now = held(&mut random, form);
            for _ in 0..60 {
                let one = draw(&mut random, &now, list % 3 == 0);
                let bad = damaged(&mut random, &now);
                for start in [&now, &bad] {
                    let mut right = start.clone();
                    let told = edit(&mut right.space, start.length, &one);
                    for (slip, found) in SLIPS.into_iter().zip(&mut found) {
                        let mut wrong = start.clone();
                        let other = edit_with(&mut wrong.space, start.length, &one, Some(slip));
                        *found += usize::from(other != told || wrong.space != right.space);
                    }
                }
                if let Ok(length) = edit(&mut now.space, now.length, &one) {
                    now.length = length;
                }
            }
        }
        for (slip, found) in SLIPS.into_iter().zip(found) {
            println!("{slip:?}: {found}");
            assert!(found > 0, "{slip:?}");
        }
    }
}
