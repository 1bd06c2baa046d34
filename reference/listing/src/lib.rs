//! Document 01's store and its listing, written from 01's text, with 02's numbers for a length and its 6. Distances are
//! those of the published Rust with the exact hypot, the edge comes from 01's steps; refusal numbers are those of the table.

pub mod editor;
pub mod running;
pub mod stores;

use edges::Hit;
use std::fmt::Write;

pub const RECORD: usize = 40;
pub const MOST_RECORDS: usize = 512;

/// A refused store: the number and K.
pub type Refusal = (u32, usize);

/// One record of 40 bytes: next, kind, four numbers.
struct Record {
    next: usize,
    kind: u32,
    numbers: [f64; 4],
}

fn record(bytes: &[u8]) -> Record {
    let word = |at: usize| u32::from_le_bytes(bytes[at..at + 4].try_into().unwrap());
    let number = |i: usize| f64::from_le_bytes(bytes[8 + 8 * i..16 + 8 * i].try_into().unwrap());
    Record { next: word(0) as usize, kind: word(4), numbers: [number(0), number(1), number(2), number(3)] }
}

/// What the bytes print: the listing, or the line of a refusal.
pub fn listing(store: &[u8]) -> String {
    match accepted(store) {
        Ok(text) => text,
        Err((number, k)) => format!("refused {number} at {k}\n"),
    }
}

fn accepted(store: &[u8]) -> Result<String, Refusal> {
    let Read { records, chain, section } = read(store)?;
    let mut text = format!("section {}\n", section.len() / 2);
    for &k in &chain {
        line(&mut text, k, &records[k], &section);
    }
    Ok(text)
}

/// An accepted store: its records, the chain, and the section's numbers.
struct Read {
    records: Vec<Record>,
    chain: Vec<usize>,
    section: Vec<f64>,
}

fn read(store: &[u8]) -> Result<Read, Refusal> {
    right_length(store.len())?;
    let records: Vec<Record> = store.chunks(RECORD).map(record).collect();
    let chain = chain(&records)?;
    for &k in &chain {
        let right = if k == 0 { records[k].kind == 0 } else { matches!(records[k].kind, 1..=3) };
        if !right {
            return Err((14, k));
        }
    }
    let vertices: Vec<usize> = chain.iter().copied().filter(|&k| records[k].kind == 1).collect();
    let section: Vec<f64> = vertices.iter().flat_map(|&k| [records[k].numbers[0], records[k].numbers[1]]).collect();
    let below = vertices.iter().copied().find(|&k| table::below_axis(records[k].numbers[1]));
    // a point at the origin adds no number of its own; 6 alone names a record
    table::point(&section, [0.0; 3], &[])
        .map_err(|number| (number, if number == 6 { below.expect("6 is of a vertex") } else { 0 }))?;
    Ok(Read { records, chain, section })
}

/// The reader's verdict: the number and K of a refusal.
pub fn verdict(store: &[u8]) -> Result<(), Refusal> {
    read(store).map(|_| ())
}

/// 12, 15 and 16 of a length in bytes.
fn right_length(length: usize) -> Result<(), Refusal> {
    if !length.is_multiple_of(RECORD) {
        return Err((12, 0));
    }
    if length == 0 {
        return Err((15, 0));
    }
    if length > MOST_RECORDS * RECORD {
        return Err((16, 0));
    }
    Ok(())
}

/// The records in chain order, record 0 first; 13 with the record that holds the bad next.
fn chain(records: &[Record]) -> Result<Vec<usize>, Refusal> {
    let (mut chain, mut met) = (vec![0], vec![false; records.len()]);
    loop {
        let k = *chain.last().unwrap();
        let next = records[k].next;
        if next == 0 {
            return Ok(chain);
        }
        if next >= records.len() || met[next] {
            return Err((13, k));
        }
        met[next] = true;
        chain.push(next);
    }
}

fn line(text: &mut String, k: usize, record: &Record, section: &[f64]) {
    let vertices: Vec<(f64, f64)> = section.chunks(2).map(|v| (v[0], v[1])).collect();
    let body = record.numbers;
    let answer = match record.kind {
        2 => table::sphere(section, body, &[]).map(|()| edges::sphere(&vertices, body)),
        3 => table::aabb(section, body, &[]).map(|()| edges::aabb(&vertices, body)),
        _ => return,
    };
    match answer {
        Err(number) => writeln!(text, "{k} refused {number}").unwrap(),
        Ok(hit) => {
            let Hit { distance, witness: (z, radius), edge } = hit.expect("an accepted body has a distance");
            writeln!(text, "{k} {} {} {} {edge}", bits(distance), bits(z), bits(radius)).unwrap();
        }
    }
}

/// 16 digits; a zero always as +0.
fn bits(x: f64) -> String {
    let x = if x == 0.0 { 0.0 } else { x };
    format!("{:016x}", x.to_bits())
}

#[cfg(test)]
mod tests {
    use super::*;
    use crate::stores::{S, example, in_order, longest, store};

    #[test]
    fn the_example_of_01() {
        let lines = "section 4\n5 4014000000000000 4034000000000000 0000000000000000 1\n";
        assert_eq!(listing(&example()), lines);
    }

    /// The example with these radii in records 1 to 4.
    fn with_radii(radii: [f64; 4]) -> Vec<u8> {
        let vertices: [[f64; 4]; 4] = std::array::from_fn(|i| [S[i][0], radii[i], 0.0, 0.0]);
        in_order(&vertices, &[(3, [25.0, 30.0, 0.0, 5.0])])
    }

    #[test]
    fn radii_below_the_axis() {
        assert_eq!(listing(&with_radii([10.0, 10.0, -1.0, 0.0])), "refused 6 at 3\n");
        assert_eq!(listing(&with_radii([10.0, -2.0, 0.0, -1.0])), "refused 6 at 2\n");
        assert_eq!(listing(&with_radii([10.0, 10.0, 0.0, (-1e-9f64).next_down()])), "refused 6 at 4\n");
        assert!(listing(&with_radii([10.0, 10.0, -1e-9, -0.0])).starts_with("section 4\n5 "));
        assert_eq!(listing(&with_radii([-1.0, 10.0, 0.0, -2e6])), "refused 5 at 0\n");
        assert_eq!(listing(&with_radii([-1.0, 10.0, 0.0, f64::NAN])), "refused 4 at 0\n");
        // Chain order decides: 3 comes before 1.
        let vertex = |next, radius| (next, 1, [0.0, radius, 0.0, 0.0]);
        let low = store(&[(3, 0, [0.0; 4]), vertex(0, -1.0), vertex(1, 0.0), vertex(2, -1.0)]);
        assert_eq!(listing(&low), "refused 6 at 3\n");
    }

    /// The last field of each line.
    fn edges(store: &[u8]) -> Vec<String> {
        listing(store).lines().skip(1).map(|line| line.rsplit(' ').next().unwrap().to_string()).collect()
    }

    #[test]
    fn the_last_field_is_the_edge() {
        let bodies = [
            (2, [0.0, 0.0, 10.0, 1.0]),
            (2, [5.0, 0.0, -2.0, 1.0]),
            (3, [-5.0, 25.0, 5.0, 15.0]),
            (3, [5.0, 4.0, 0.0, 5.0]),
            (3, [20.0, 25.0, 10.0, 15.0]),
        ];
        assert_eq!(edges(&in_order(&S, &bodies)), ["0", "3", "1", "10", "0"]);
        assert!(listing(&in_order(&S, &bodies)).contains("8 refused 10\n"));
        assert_eq!(edges(&longest()), vec!["10"; 500]);
    }

    #[test]
    fn refusals() {
        assert_eq!(listing(&[]), "refused 15 at 0\n");
        assert_eq!(listing(&[0; 1]), "refused 12 at 0\n");
        assert_eq!(listing(&[0; 39]), "refused 12 at 0\n");
        assert_eq!(listing(&[0; 40]), "refused 2 at 0\n");
        assert_eq!(listing(&[0; 41]), "refused 12 at 0\n");
        assert_eq!(listing(&[0; 20_480]), "refused 2 at 0\n");
        assert_eq!(listing(&[0; 20_481]), "refused 12 at 0\n");
        assert_eq!(listing(&[0; 20_520]), "refused 16 at 0\n");
        assert_eq!(listing(&[0; 20_521]), "refused 12 at 0\n");
        assert_eq!(listing(&store(&[(1, 0, [0.0; 4]), (9, 1, [0.0; 4])])), "refused 13 at 1\n");
        assert_eq!(listing(&store(&[(1, 0, [0.0; 4]), (1, 7, [0.0; 4])])), "refused 13 at 1\n");
        assert_eq!(listing(&store(&[(1, 1, [0.0; 4]), (0, 7, [0.0; 4])])), "refused 14 at 0\n");
        assert_eq!(listing(&store(&[(1, 0, [0.0; 4]), (0, 7, [0.0; 4])])), "refused 14 at 1\n");
    }
}
