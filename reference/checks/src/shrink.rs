//! Makes a query on which the two differ smaller, as long as they still differ.

use crate::query::Query;

/// `differs` must hold for the query given; it holds for the one returned.
pub fn shrink(query: Query, differs: impl Fn(&Query) -> bool) -> Query {
    let mut smallest = query;
    while let Some(smaller) = candidates(&smallest).into_iter().find(|candidate| differs(candidate)) {
        smallest = smaller;
    }
    smallest
}

/// Every one is simpler than the query: fewer vertices, or a number with a lower rank, or less space.
fn candidates(query: &Query) -> Vec<Query> {
    let mut all = Vec::new();
    for (l, list) in query.lists.iter().enumerate() {
        for length in [list.len() / 2, 16, 8, 2, 1] {
            for start in (0..list.len()).step_by(length.max(1)) {
                if 0 < length && length < list.len() && start + length <= list.len() {
                    let mut fewer = query.clone();
                    fewer.lists[l].drain(start..start + length);
                    all.push(fewer);
                }
            }
        }
        for (i, &x) in list.iter().enumerate() {
            for simple in simpler(x) {
                let mut changed = query.clone();
                changed.lists[l][i] = simple;
                all.push(changed);
            }
        }
    }
    for (i, &x) in query.numbers.iter().enumerate() {
        for simple in simpler(x) {
            let mut changed = query.clone();
            changed.numbers[i] = simple;
            all.push(changed);
        }
    }
    for space in [0, query.space / 2, query.space.saturating_sub(1)] {
        if space < query.space {
            all.push(Query { space, ..query.clone() });
        }
    }
    all
}

/// Simpler numbers, the simplest first. Each has a lower rank, so shrinking ends.
fn simpler(x: f64) -> Vec<f64> {
    let cleared = |keep: u32| f64::from_bits(x.to_bits() & (u64::MAX << (52 - keep)));
    let mut all = vec![0.0, 1.0, 10.0, x.abs(), x.round(), cleared(4), cleared(12), cleared(26), cleared(40)];
    all.push(f64::from_bits(x.to_bits() & x.to_bits().wrapping_sub(1)));
    all.retain(|y| rank(*y) < rank(x));
    all
}

/// How complicated a number is.
fn rank(x: f64) -> u64 {
    if x == 0.0 || x == 1.0 || x == 10.0 {
        return if x == 0.0 { u64::from(x.is_sign_negative()) } else { 1 + x as u64 };
    }
    let bits = 64 - u64::from((x.to_bits() << 12).trailing_zeros().min(64));
    let whole = if x.fract() == 0.0 { 0 } else { 100 };
    let special = if x.is_finite() { 0 } else { 1000 };
    20 + 4 * bits + whole + special + u64::from(x.is_sign_negative())
}

#[cfg(test)]
mod tests {
    use super::*;
    use crate::query::Kind;

    #[test]
    fn a_fault_is_found_in_the_smallest_query() {
        let list: Vec<f64> = (0..40).map(|i| f64::from(i) * 1.37 - 8.0).collect();
        let query = Query::new(Kind::Sphere, &[list], &[1.1, 2.2, 3.3, 4.4]);
        // Differs when there are three vertices or more, and a radius above 20.
        let differs = |q: &Query| q.lists[0].len() >= 6 && q.lists[0].iter().any(|&x| x > 20.0);
        let small = shrink(query, differs);
        assert_eq!(small.lists[0].len(), 6);
        assert_eq!(small.numbers, [0.0; 4]);
        assert_eq!(small.lists[0].iter().filter(|&&x| x == 0.0).count(), 5);
    }
}
