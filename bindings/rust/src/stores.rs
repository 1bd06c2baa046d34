//! Stores of records: the records, a verdict on a store, and edits of one in its space.

use crate::{Aabb, Point, Refusal, Sphere, Vertex, raw, refusal::accepted};
use std::error::Error;
use std::fmt;

/// The bytes of a record.
pub const RECORD: usize = 40;

/// The bytes of the space in which a store is edited.
pub const SPACE: usize = 20_480;

/// What a record holds, by its kind.
#[derive(Clone, Copy, Debug, PartialEq)]
pub enum Content {
    /// Kind 0: record 0, whose numbers are ignored.
    Start,
    /// Kind 1: a vertex of the section, whose last two numbers are ignored.
    Vertex(Vertex),
    /// Kind 2.
    Sphere(Sphere),
    /// Kind 3.
    Box(Aabb),
    /// A kind that no store has on its chain.
    Other {
        /// Over 3.
        kind: u32,
        /// As they stand.
        numbers: [f64; 4],
    },
}

impl Content {
    /// Its kind's number.
    pub fn kind(&self) -> u32 {
        match self {
            Content::Start => 0,
            Content::Vertex(_) => 1,
            Content::Sphere(_) => 2,
            Content::Box(_) => 3,
            Content::Other { kind, .. } => *kind,
        }
    }

    /// Its four numbers; those that are ignored are 0.
    pub fn numbers(&self) -> [f64; 4] {
        match *self {
            Content::Start => [0.0; 4],
            Content::Vertex(Vertex { z, radius }) => [z, radius, 0.0, 0.0],
            Content::Sphere(Sphere { center: Point { x, y, z }, radius }) => [x, y, z, radius],
            Content::Box(Aabb { z0, z1, r0, r1 }) => [z0, z1, r0, r1],
            Content::Other { numbers, .. } => numbers,
        }
    }
}

/// A record of a store.
#[derive(Clone, Copy, Debug, PartialEq)]
pub struct Record {
    /// The index of the record that follows in the chain; 0 ends it.
    pub next: u32,
    /// What it holds.
    pub content: Content,
}

impl Record {
    /// The record in these bytes, whatever they are.
    pub fn from_bytes(bytes: &[u8; RECORD]) -> Record {
        let (words, _) = bytes.as_chunks::<4>();
        let (longs, _) = bytes[8..].as_chunks::<8>();
        let (next, kind) = (u32::from_le_bytes(words[0]), u32::from_le_bytes(words[1]));
        let numbers = [0, 1, 2, 3].map(|i| f64::from_le_bytes(longs[i]));
        let [a, b, c, d] = numbers;
        let content = match kind {
            0 => Content::Start,
            1 => Content::Vertex(Vertex { z: a, radius: b }),
            2 => Content::Sphere(Sphere { center: Point { x: a, y: b, z: c }, radius: d }),
            3 => Content::Box(Aabb { z0: a, z1: b, r0: c, r1: d }),
            kind => Content::Other { kind, numbers },
        };
        Record { next, content }
    }

    /// Its bytes in a store, with zeros for what is ignored.
    pub fn to_bytes(&self) -> [u8; RECORD] {
        let mut bytes = [0; RECORD];
        bytes[..4].copy_from_slice(&self.next.to_le_bytes());
        bytes[4..8].copy_from_slice(&self.content.kind().to_le_bytes());
        for (place, number) in bytes[8..].as_chunks_mut().0.iter_mut().zip(self.content.numbers()) {
            *place = number.to_le_bytes();
        }
        bytes
    }
}

/// Who edits. An operator works on bodies; vertices and links are the setter's.
#[derive(Clone, Copy, Debug, PartialEq, Eq, Hash)]
pub enum Role {
    /// May make every edit that leaves a store which is accepted.
    Setter,
    /// May replace a body by a body with the same next, and add one.
    Operator,
}

impl Role {
    fn given(self) -> u32 {
        match self {
            Role::Setter => 1,
            Role::Operator => 2,
        }
    }
}

/// A store that was turned down: the number, and the record K of `refused N at K`.
#[derive(Clone, Copy, Debug, PartialEq, Eq, Hash)]
pub struct RefusedStore {
    /// Why.
    pub refusal: Refusal,
    /// The record to look at, or 0.
    pub record: u32,
}

impl fmt::Display for RefusedStore {
    fn fmt(&self, f: &mut fmt::Formatter) -> fmt::Result {
        write!(f, "{}, at record {}", self.refusal, self.record)
    }
}

impl Error for RefusedStore {}

/// Whether these bytes are a store. Refusals 12, 15, 16, 13, 14, then 2 to 6 of its section.
pub fn read_store(store: &[u8]) -> Result<(), RefusedStore> {
    let mut record = 0;
    // SAFETY (here and below): the slices are valid for their lengths, and the places are distinct.
    let number = unsafe { raw::jorghipa_read_store(store.as_ptr(), store.len(), &mut record) };
    accepted(number).map_err(|refusal| RefusedStore { refusal, record })
}

/// Puts a record in the place of a chained one of the store of `length` bytes at the front of `space`, which has 20,480.
/// Returns the length, which stays. Refusals 12 for the space, the store's, 24, 22, then the outcome's; no byte changes then.
pub fn replace(space: &mut [u8], length: usize, role: Role, place: u32, record: &Record) -> Result<usize, Refusal> {
    let (at, count, bytes, mut after) = (space.as_mut_ptr(), space.len(), record.to_bytes(), 0);
    accepted(unsafe {
        raw::jorghipa_replace(at, count, length, role.given(), place, bytes.as_ptr(), bytes.len(), &mut after)
    })?;
    Ok(after)
}

/// Puts a body, or a setter's vertex, at the end of the chain, with next 0, in the lowest record that is unreached, or in a new
/// one. Returns the length afterwards. Refusals 12 for the space, the store's, 22, 23, then the outcome's; no byte changes then.
///
/// ```
/// use jorghipa::{Content, Point, RECORD, Record, Role, SPACE, Sphere, Vertex, add, read_store};
///
/// // A triangle in records 1 to 3.
/// let corners = Vertex::list(&[[0.0, 10.0], [20.0, 10.0], [20.0, 0.0]]).into_iter().map(Content::Vertex);
/// let mut space = [0; SPACE];
/// for (k, content) in std::iter::once(Content::Start).chain(corners).enumerate() {
///     let record = Record { next: (k as u32 + 1) % 4, content };
///     space[RECORD * k..RECORD * (k + 1)].copy_from_slice(&record.to_bytes());
/// }
/// let ball = Content::Sphere(Sphere { center: Point { x: 0.0, y: 0.0, z: 30.0 }, radius: 4.0 });
/// assert_eq!(add(&mut space, 160, Role::Operator, &Record { next: 0, content: ball }), Ok(200));
/// assert_eq!(read_store(&space[..200]), Ok(()));
/// ```
pub fn add(space: &mut [u8], length: usize, role: Role, record: &Record) -> Result<usize, Refusal> {
    let (at, count, bytes, mut after) = (space.as_mut_ptr(), space.len(), record.to_bytes(), 0);
    accepted(unsafe { raw::jorghipa_add(at, count, length, role.given(), bytes.as_ptr(), bytes.len(), &mut after) })?;
    Ok(after)
}
