//! What a refused store is to be mended at.

use crate::store::Store;
use jorghipa::{Refusal, RefusedStore, Vertex};

/// A record, if one is at fault, and what is wrong there.
#[derive(Clone, Debug, PartialEq)]
pub struct Look {
    pub record: Option<u32>,
    pub text: String,
}

/// The library names a record for 13, 14 and 6; for the others it is looked up here.
pub fn look(store: &Store, refused: RefusedStore) -> Look {
    let (count, vertices) = (store.records.len(), store.vertices());
    let at =
        |record: u32, text: String| Look { record: Some(record), text: format!("look at record {record}: {text}") };
    let first = |wrong: fn(f64) -> bool| {
        let found = vertices.iter().find(|(_, Vertex { z, radius })| wrong(*z) || wrong(*radius));
        found.map(|&(record, Vertex { z, radius })| at(record, format!("a vertex with z {z}, radius {radius}")))
    };
    let whole = |text: String| Look { record: None, text };
    let named = store.record(refused.record);
    let found = match refused.refusal {
        Refusal::StoreLength => Some(whole(format!(
            "the file has {} bytes: {count} records and {} bytes more",
            store.bytes,
            store.bytes % 40
        ))),
        Refusal::TooManyRecords => Some(whole(format!("the file has {count} records"))),
        Refusal::BadLink => named.map(|record| {
            let next = record.next;
            let past = next as usize >= count;
            let wrong = if past { format!("the last record is {}", count - 1) } else { "it was met before".into() };
            at(refused.record, format!("its next is {next}, and {wrong}"))
        }),
        Refusal::WrongKind => named.map(|record| at(refused.record, format!("its kind is {}", record.content.kind()))),
        Refusal::TooFewVertices => {
            let end = store.chain.last().copied().unwrap_or(0);
            Some(at(end, format!("the chain ends there, after {} vertices", vertices.len())))
        }
        Refusal::TooManyVertices => {
            vertices.get(256).map(|(record, _)| at(*record, format!("vertex 257 of {}", vertices.len())))
        }
        Refusal::NotFinite => first(|x| !x.is_finite()),
        Refusal::TooLarge => first(|x| x.abs() > 1_048_576.0),
        Refusal::RadiusBelowAxis => {
            named.map(|record| at(refused.record, format!("a vertex with radius {}", record.content.numbers()[1])))
        }
        _ => None,
    };
    found.unwrap_or_else(|| whole("look at the whole file".into()))
}

#[cfg(test)]
mod tests {
    use super::*;
    use crate::samples;

    /// The record and the text for these bytes, which are refused.
    fn told(bytes: &[u8]) -> (u32, Option<u32>, String) {
        let refused = jorghipa::read_store(bytes).unwrap_err();
        let Look { record, text } = look(&Store::decode(bytes), refused);
        (refused.refusal.number(), record, text)
    }

    const S: [[f64; 2]; 4] = [[0.0, 10.0], [20.0, 10.0], [20.0, 0.0], [0.0, 0.0]];

    fn with(vertex: [f64; 2]) -> Vec<u8> {
        samples::store(&[S[0], S[1], vertex, S[3]], &[])
    }

    #[test]
    fn every_refusal_says_where() {
        let good = samples::bodies();
        assert_eq!(told(&good[..41]), (12, None, "the file has 41 bytes: 1 records and 1 bytes more".into()));
        assert_eq!(told(&[]), (15, None, "look at the whole file".into()));
        assert_eq!(told(&[0; 40 * 513]), (16, None, "the file has 513 records".into()));
        assert_eq!(
            told(&good[..240]),
            (13, Some(5), "look at record 5: its next is 6, and the last record is 5".into())
        );
        let mut twice = good.clone();
        twice[200] = 2;
        assert_eq!(told(&twice), (13, Some(5), "look at record 5: its next is 2, and it was met before".into()));
        let mut kind = good.clone();
        kind[164] = 7;
        assert_eq!(told(&kind), (14, Some(4), "look at record 4: its kind is 7".into()));
        let few = told(&samples::store(&S[..2], &[]));
        assert_eq!(few, (2, Some(2), "look at record 2: the chain ends there, after 2 vertices".into()));
        assert_eq!(
            told(&samples::store(&[[1.0, 1.0]; 258], &[])),
            (3, Some(257), "look at record 257: vertex 257 of 258".into())
        );
        let nan = told(&with([20.0, f64::NAN]));
        assert_eq!(nan, (4, Some(3), "look at record 3: a vertex with z 20, radius NaN".into()));
        let far = told(&with([-2e6, 0.0]));
        assert_eq!(far, (5, Some(3), "look at record 3: a vertex with z -2000000, radius 0".into()));
        assert_eq!(told(&with([20.0, -1.0])), (6, Some(3), "look at record 3: a vertex with radius -1".into()));
    }
}
