//! The records of a store, and those that its chain reaches. Any bytes are decoded; the library says whether they are accepted.

use jorghipa::{Body, Content, RECORD, Record, Vertex};

/// The records of a file, as far as they can be followed.
#[derive(Clone, Debug, PartialEq)]
pub struct Store {
    /// The length of the file in bytes.
    pub bytes: usize,
    /// All whole records.
    pub records: Vec<Record>,
    /// The records that the chain reaches, record 0 left out, in chain order.
    pub chain: Vec<u32>,
}

impl Store {
    /// Follows the chain until it ends, leaves the store, or meets a record for the second time.
    pub fn decode(bytes: &[u8]) -> Store {
        let records: Vec<Record> = bytes.as_chunks::<RECORD>().0.iter().map(Record::from_bytes).collect();
        let (mut chain, mut met) = (Vec::new(), vec![false; records.len()]);
        let mut next = records.first().map_or(0, |record| record.next);
        while let Some(record) = records.get(next as usize).filter(|_| next != 0 && !met[next as usize]) {
            met[next as usize] = true;
            chain.push(next);
            next = record.next;
        }
        Store { bytes: bytes.len(), records, chain }
    }

    /// A record by its index.
    pub fn record(&self, index: u32) -> Option<&Record> {
        self.records.get(index as usize)
    }

    fn contents(&self) -> impl Iterator<Item = (u32, Content)> {
        self.chain.iter().map(|&index| (index, self.records[index as usize].content))
    }

    /// The vertices of the section, each with its record.
    pub fn vertices(&self) -> Vec<(u32, Vertex)> {
        self.contents()
            .filter_map(|(index, content)| match content {
                Content::Vertex(vertex) => Some((index, vertex)),
                _ => None,
            })
            .collect()
    }

    /// The bodies, each with its record.
    pub fn bodies(&self) -> Vec<(u32, Body)> {
        self.contents()
            .filter_map(|(index, content)| match content {
                Content::Sphere(sphere) => Some((index, Body::Sphere(sphere))),
                Content::Box(bounds) => Some((index, Body::Box(bounds))),
                _ => None,
            })
            .collect()
    }

    /// The records that the chain does not reach.
    pub fn unreached(&self) -> Vec<u32> {
        (1..self.records.len() as u32).filter(|index| !self.chain.contains(index)).collect()
    }
}

#[cfg(test)]
mod tests {
    use super::*;
    use crate::samples;

    #[test]
    fn a_chain_in_any_order() {
        let records =
            [(2, 0), (3, 1), (1, 3), (0, 2), (9, 1)].map(|(next, kind)| samples::record(next, kind, [1.0; 4]));
        let store = Store::decode(&records.concat());
        assert_eq!((store.bytes, store.records.len()), (200, 5));
        assert_eq!((store.chain.as_slice(), store.unreached()), (&[2, 1, 3][..], vec![4]));
        assert_eq!(store.vertices(), [(1, Vertex { z: 1.0, radius: 1.0 })]);
        let kinds: Vec<u32> = store.bodies().iter().map(|(index, _)| *index).collect();
        assert_eq!(kinds, [2, 3]);
    }

    #[test]
    fn chains_that_do_not_end() {
        for (last, reached) in [(0, 2), (1, 2), (2, 2), (3, 2), (u32::MAX, 2)] {
            let records = [(1, 0), (2, 1), (last, 1)].map(|(next, kind)| samples::record(next, kind, [1.0; 4]));
            assert_eq!(Store::decode(&records.concat()).chain.len(), reached);
        }
    }

    #[test]
    fn whatever_the_bytes() {
        assert_eq!(Store::decode(&[]), Store { bytes: 0, records: Vec::new(), chain: Vec::new() });
        assert_eq!(Store::decode(&[0xff; 39]).records.len(), 0);
        assert_eq!(Store::decode(&[0xff; 81]).chain, []);
        let body = Store::decode(&samples::bodies()).bodies()[1];
        assert_eq!(body, (6, jorghipa::Aabb { z0: 25.0, z1: 30.0, r0: 0.0, r1: 5.0 }.into()));
    }
}
