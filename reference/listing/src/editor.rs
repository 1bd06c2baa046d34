//! Request (xiii): edits of a store in its space, written from document 02's text.

use crate::{MOST_RECORDS, RECORD, Refusal, read, record, right_length};

/// The bytes of the space in which a store is edited.
pub const SPACE: usize = 20_480;

#[derive(Clone, Copy, Debug, PartialEq, Eq)]
pub enum Role {
    Setter,
    Operator,
}

/// The named record; an add names none.
#[derive(Clone, Copy, Debug, PartialEq, Eq)]
pub enum Place {
    Record(u32),
    Add,
}

#[derive(Clone, Copy, Debug, PartialEq, Eq)]
pub struct Edit {
    pub role: Role,
    pub place: Place,
    pub bytes: [u8; RECORD],
}

/// Ways to read 02 wrongly. A test sees to it that each is found out by the lists that are compared.
#[derive(Clone, Copy, Debug, PartialEq, Eq)]
pub enum Slip {
    OperatorRelinks,
    OperatorMakesVertex,
    OperatorAddsVertex,
    OperatorEditsVertex,
    OperatorEditsRecordZero,
    HighestUnreached,
    AlwaysNewRecord,
    TailLeft,
    NextKept,
    RoleBeforeRecord,
    RoomBeforeRole,
    RefusedEditWrites,
    GrownPast512,
    OutcomeNotJudged,
    OutcomeBeforeRole,
    UnreachedTaken,
    LengthCutToSpace,
    RecordAlwaysNew,
}

/// The length afterwards, or the number of the refusal, which leaves the space as it was.
pub fn edit(space: &mut [u8], length: usize, edit: &Edit) -> Result<usize, u32> {
    edit_with(space, length, edit, None)
}

/// The verdict on a store of this length at the front of the space.
fn judged(space: &[u8], length: usize, slip: Option<Slip>) -> Result<(), Refusal> {
    if space.len() != SPACE {
        return Err((12, 0));
    }
    if slip == Some(Slip::LengthCutToSpace) {
        return read(&space[..length.min(SPACE)]).map(|_| ());
    }
    right_length(length)?;
    read(&space[..length]).map(|_| ())
}

pub fn edit_with(space: &mut [u8], length: usize, edit: &Edit, slip: Option<Slip>) -> Result<usize, u32> {
    let slips = |s: Slip| slip == Some(s);
    judged(space, length, slip).map_err(|(number, _)| number)?;
    let store = read(&space[..length.min(SPACE)]).expect("the store is accepted");
    let count = store.records.len();
    let new = record(&edit.bytes);
    let operator = edit.role == Role::Operator;
    // 24: a named record that is unreached or absent
    let missing = match edit.place {
        Place::Record(k) => {
            let k = k as usize;
            let there = store.chain.contains(&k) || (slips(Slip::UnreachedTaken) && k < count);
            !there
        }
        Place::Add => false,
    };
    // 22: an operator's edit of record 0, a vertex or a link, or one that would make a vertex
    let forbidden = operator
        && match edit.place {
            Place::Record(k) => store.records.get(k as usize).is_some_and(|old| {
                (k == 0 && !slips(Slip::OperatorEditsRecordZero))
                    || (old.kind == 1 && !slips(Slip::OperatorEditsVertex))
                    || (new.next != old.next && !slips(Slip::OperatorRelinks))
                    || (new.kind == 1 && !slips(Slip::OperatorMakesVertex))
            }),
            Place::Add => new.kind == 1 && !slips(Slip::OperatorAddsVertex),
        };
    let mut reached = vec![false; count];
    store.chain.iter().for_each(|&k| reached[k] = true);
    let unreached: Vec<usize> = (0..count).filter(|&k| !reached[k]).collect();
    let target = match edit.place {
        Place::Record(k) => k as usize,
        Place::Add if slips(Slip::AlwaysNewRecord) => count,
        Place::Add if slips(Slip::HighestUnreached) => unreached.last().copied().unwrap_or(count),
        Place::Add => unreached.first().copied().unwrap_or(count),
    };
    // 23: an add with 512 records all reached
    let full = edit.place == Place::Add && target >= MOST_RECORDS;
    let mut checks = [(24, missing), (22, forbidden), (23, full)];
    if slips(Slip::RoleBeforeRecord) {
        checks.swap(0, 1);
    }
    if slips(Slip::RoomBeforeRole) {
        checks.swap(1, 2);
    }
    if slips(Slip::GrownPast512) {
        checks[2].1 = false;
    }
    if slips(Slip::OutcomeBeforeRole) && !missing && !full {
        let (trial, then) = outcome(space, length, edit, target, *store.chain.last().expect("record 0"), slip);
        judged(&trial, then, slip).map_err(|(number, _)| number)?;
    }
    if let Some((number, _)) = checks.into_iter().find(|(_, applies)| *applies) {
        return Err(number);
    }
    if target >= MOST_RECORDS {
        return Ok(length + RECORD);
    }
    let (trial, then) = outcome(space, length, edit, target, *store.chain.last().expect("record 0"), slip);
    // the outcome's number, by the reader
    let verdict = judged(&trial, then, slip).map_err(|(number, _)| number);
    if verdict.is_ok() || slips(Slip::RefusedEditWrites) || slips(Slip::OutcomeNotJudged) {
        space.copy_from_slice(&trial);
    }
    if slips(Slip::OutcomeNotJudged) {
        return Ok(then);
    }
    verdict.map(|()| if slips(Slip::RecordAlwaysNew) && edit.place == Place::Add { length + RECORD } else { then })
}

/// The space and the length once the edit is carried out: an add goes behind the tail with next 0.
fn outcome(
    space: &[u8],
    length: usize,
    edit: &Edit,
    target: usize,
    tail: usize,
    slip: Option<Slip>,
) -> (Vec<u8>, usize) {
    let mut trial = space.to_vec();
    let at = target * RECORD;
    trial[at..at + RECORD].copy_from_slice(&edit.bytes);
    if edit.place != Place::Add {
        return (trial, length);
    }
    if slip != Some(Slip::NextKept) {
        trial[at..at + 4].fill(0);
    }
    if slip != Some(Slip::TailLeft) {
        trial[tail * RECORD..tail * RECORD + 4].copy_from_slice(&(target as u32).to_le_bytes());
    }
    (trial, length.max(at + RECORD))
}

#[cfg(test)]
mod tests {
    use super::*;
    use crate::stores::{Fields, S, example, store};

    fn space_of(store: &[u8]) -> Vec<u8> {
        let mut space = vec![0xee; SPACE];
        space[..store.len()].copy_from_slice(store);
        space
    }

    fn bytes(fields: Fields) -> [u8; RECORD] {
        store(&[fields]).try_into().unwrap()
    }

    fn told(space: &mut [u8], length: usize, role: Role, place: Place, fields: Fields) -> Result<usize, u32> {
        edit(space, length, &Edit { role, place, bytes: bytes(fields) })
    }

    const SPHERE: Fields = (7, 2, [0.0, 0.0, 30.0, 4.0]);

    #[test]
    fn an_add_goes_behind_the_tail() {
        let mut space = space_of(&example());
        let before = space.clone();
        assert_eq!(told(&mut space, 240, Role::Operator, Place::Add, SPHERE), Ok(280));
        let mut expected = before;
        expected[200..204].copy_from_slice(&6u32.to_le_bytes());
        expected[240..280].copy_from_slice(&bytes((0, SPHERE.1, SPHERE.2)));
        assert_eq!(space, expected);
    }

    #[test]
    fn the_lowest_unreached_record_is_taken() {
        let vertex = |next, i: usize| (next, 1, S[i]);
        let records =
            [(2, 0, [0.0; 4]), SPHERE, vertex(4, 0), SPHERE, vertex(5, 1), vertex(0, 2), (9, 9, [f64::NAN; 4])];
        let mut space = space_of(&store(&records));
        for (record, length) in [(1, 280), (3, 280), (6, 280), (7, 320)] {
            assert_eq!(told(&mut space, 280, Role::Setter, Place::Add, SPHERE), Ok(length));
            assert_eq!(read(&space[..length]).unwrap().chain.last(), Some(&record));
        }
    }

    #[test]
    fn the_numbers_of_an_edit() {
        let mut space = space_of(&example());
        let before = space.clone();
        let same = (0, 3, [25.0, 30.0, 0.0, 4.0]);
        for (role, place, fields, number) in [
            (Role::Operator, Place::Record(6), same, 24),
            (Role::Setter, Place::Record(u32::MAX), same, 24),
            (Role::Operator, Place::Record(0), (1, 0, [0.0; 4]), 22),
            (Role::Operator, Place::Record(4), (5, 1, S[3]), 22),
            (Role::Operator, Place::Record(5), (5, 3, [25.0, 30.0, 0.0, 4.0]), 22),
            (Role::Operator, Place::Record(5), (0, 1, S[3]), 22),
            (Role::Operator, Place::Add, (0, 1, S[3]), 22),
            (Role::Operator, Place::Record(5), (0, 4, [0.0; 4]), 14),
            (Role::Setter, Place::Record(5), (5, 3, [0.0; 4]), 13),
            (Role::Setter, Place::Record(4), (5, 1, [0.0, -1.0, 0.0, 0.0]), 6),
            (Role::Setter, Place::Record(0), (5, 0, [0.0; 4]), 2),
        ] {
            assert_eq!(told(&mut space, 240, role, place, fields), Err(number), "{role:?} {place:?} {fields:?}");
            assert_eq!(space, before);
        }
        assert_eq!(told(&mut space, 240, Role::Operator, Place::Record(5), same), Ok(240));
        // a body's own numbers are the listing's matter
        assert_eq!(told(&mut space, 240, Role::Operator, Place::Record(5), (0, 2, [f64::NAN; 4])), Ok(240));
        for (length, number) in [(0, 15), (1, 12), (20_520, 16), (20_521, 12), (usize::MAX, 12)] {
            assert_eq!(told(&mut space, length, Role::Setter, Place::Record(5), same), Err(number));
        }
        assert_eq!(told(&mut space[1..], 240, Role::Setter, Place::Record(5), same), Err(12));
    }
}
