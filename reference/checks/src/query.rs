//! A query, and its line in the fixed list.

use std::fmt::Write;
use table::Settings;

/// Every kind, its letters in the list, how many lists it takes and how many numbers after them.
macro_rules! kinds {
    ($(($kind:ident, $letters:literal, $lists:literal, $numbers:literal),)*) => {
        #[derive(Clone, Copy, Debug, PartialEq, Eq, PartialOrd, Ord)]
        pub enum Kind {
            $($kind,)*
        }

        const KINDS: &[(Kind, &str, usize, usize)] = &[$((Kind::$kind, $letters, $lists, $numbers),)*];
    };
}

kinds![
    (Sqrt, "r", 0, 1),
    (Hypot, "h", 0, 2),
    (Point, "p", 1, 3),
    (Sphere, "s", 1, 4),
    (Box, "b", 1, 4),
    (Convex, "c", 2, 0),
    (Section, "S", 1, 0),
    (Polygon, "P", 1, 0),
    (Cylinder, "y", 1, 7),
    (VerdictSphere, "vs", 1, 5),
    (VerdictBox, "vb", 1, 5),
    (VerdictCylinder, "vy", 1, 8),
    (VerdictConvex, "vc", 2, 1),
    (SetCylinder, "w", 1, 10),
    (LiftedPoint, "lp", 1, 3),
    (LiftedSphere, "ls", 1, 4),
    (LiftedCylinder, "ly", 1, 7),
];

impl Kind {
    pub fn all() -> Vec<Kind> {
        KINDS.iter().map(|entry| entry.0).collect()
    }

    pub fn letters(self) -> &'static str {
        KINDS[self as usize].1
    }

    pub fn is_builder(self) -> bool {
        match self {
            Kind::Section | Kind::Polygon => true,
            Kind::Sqrt | Kind::Hypot => false,
            Kind::Point | Kind::Sphere | Kind::Box | Kind::Convex | Kind::Cylinder | Kind::SetCylinder => false,
            Kind::VerdictSphere | Kind::VerdictBox | Kind::VerdictCylinder | Kind::VerdictConvex => false,
            Kind::LiftedPoint | Kind::LiftedSphere | Kind::LiftedCylinder => false,
        }
    }

    /// The query whose distance a verdict judges.
    pub fn judged(self) -> Option<Kind> {
        match self {
            Kind::VerdictSphere => Some(Kind::Sphere),
            Kind::VerdictBox => Some(Kind::Box),
            Kind::VerdictCylinder => Some(Kind::Cylinder),
            Kind::VerdictConvex => Some(Kind::Convex),
            Kind::Sqrt | Kind::Hypot | Kind::Section | Kind::Polygon => None,
            Kind::Point | Kind::Sphere | Kind::Box | Kind::Convex | Kind::Cylinder | Kind::SetCylinder => None,
            Kind::LiftedPoint | Kind::LiftedSphere | Kind::LiftedCylinder => None,
        }
    }

    /// The query whose witness is lifted.
    pub fn lifted(self) -> Option<Kind> {
        match self {
            Kind::LiftedPoint => Some(Kind::Point),
            Kind::LiftedSphere => Some(Kind::Sphere),
            Kind::LiftedCylinder => Some(Kind::Cylinder),
            Kind::Sqrt | Kind::Hypot | Kind::Section | Kind::Polygon => None,
            Kind::Point | Kind::Sphere | Kind::Box | Kind::Convex | Kind::Cylinder | Kind::SetCylinder => None,
            Kind::VerdictSphere | Kind::VerdictBox | Kind::VerdictCylinder | Kind::VerdictConvex => None,
        }
    }
}

/// What fills the lent space before a builder is called.
pub const FILL: u64 = 0x4059_0000_0000_0000;

/// The lists come first: a convex body's, then the section's. `space` is a builder's, in numbers.
#[derive(Clone, Debug)]
pub struct Query {
    pub kind: Kind,
    pub lists: Vec<Vec<f64>>,
    pub numbers: Vec<f64>,
    pub space: usize,
}

impl Query {
    /// With as many lists and numbers as the kind takes.
    pub fn new(kind: Kind, lists: &[Vec<f64>], numbers: &[f64]) -> Query {
        let (_, _, list_count, number_count) = KINDS[kind as usize];
        assert_eq!((lists.len(), numbers.len()), (list_count, number_count), "{kind:?}");
        Query { kind, lists: lists.to_vec(), numbers: numbers.to_vec(), space: 0 }
    }

    pub fn builder(kind: Kind, points: Vec<f64>, space: usize) -> Query {
        Query { kind, lists: vec![points], numbers: Vec::new(), space }
    }

    pub fn array<const N: usize>(&self) -> [f64; N] {
        self.numbers[..N].try_into().expect("a query has its kind's numbers")
    }

    /// The settings that stand behind a cylinder. A whole number is the f64 with its bits.
    pub fn settings(&self) -> Settings {
        let [tolerance, most, intervals] =
            self.numbers[7..].try_into().expect("only a cylinder with settings has them");
        let whole = |x: f64| u32::try_from(x.to_bits()).unwrap_or(u32::MAX);
        Settings { tolerance, most: whole(most), intervals: whole(intervals) }
    }

    pub fn line(&self) -> String {
        let mut line = String::from(self.kind.letters());
        for list in &self.lists {
            write!(line, " {:04x}", list.len()).unwrap();
            list.iter().for_each(|&x| push(&mut line, input_bits(x)));
        }
        self.numbers.iter().for_each(|&x| push(&mut line, input_bits(x)));
        if self.kind.is_builder() {
            write!(line, " {:04x}", self.space).unwrap();
        }
        line
    }

    pub fn parse(line: &str) -> Option<Query> {
        let mut fields = line.split(' ');
        let letters = fields.next()?;
        let &(kind, _, lists, numbers) = KINDS.iter().find(|entry| entry.1 == letters)?;
        let number =
            |fields: &mut std::str::Split<char>| Some(f64::from_bits(u64::from_str_radix(fields.next()?, 16).ok()?));
        let mut query = Query { kind, lists: Vec::new(), numbers: Vec::new(), space: 0 };
        for _ in 0..lists {
            let count = usize::from_str_radix(fields.next()?, 16).ok()?;
            query.lists.push((0..count).map(|_| number(&mut fields)).collect::<Option<_>>()?);
        }
        query.numbers = (0..numbers).map(|_| number(&mut fields)).collect::<Option<_>>()?;
        if kind.is_builder() {
            query.space = usize::from_str_radix(fields.next()?, 16).ok()?;
        }
        fields.next().is_none().then_some(query)
    }
}

/// The numbers that settings stand for in a query.
pub fn numbers_of(settings: Settings) -> [f64; 3] {
    let pattern = |n: u32| f64::from_bits(u64::from(n));
    [settings.tolerance, pattern(settings.most), pattern(settings.intervals)]
}

fn push(line: &mut String, bits: u64) {
    write!(line, " {bits:016x}").unwrap();
}

/// One pattern for every NaN.
pub fn input_bits(x: f64) -> u64 {
    if x.is_nan() { 0x7ff8_0000_0000_0000 } else { x.to_bits() }
}

#[cfg(test)]
mod tests {
    use super::*;

    #[test]
    fn lines_are_read_back() {
        let list = vec![0.0, 1.5, -0.0, f64::INFINITY];
        for query in [
            Query::new(Kind::Hypot, &[], &[1.0, f64::NAN]),
            Query::new(Kind::Convex, &[list.clone(), vec![2.0; 300]], &[]),
            Query::new(Kind::Box, std::slice::from_ref(&list), &[1.0, 2.0, 3.0, 4.0]),
            Query::new(Kind::SetCylinder, std::slice::from_ref(&list), &[0.5; 10]),
            Query::builder(Kind::Polygon, list, 12),
        ] {
            let line = query.line();
            assert_eq!(Query::parse(&line).unwrap().line(), line);
        }
        assert!(Query::parse("r 0").is_some());
        assert!(Query::parse("r").is_none());
        assert!(Query::parse("r 0 0").is_none());
    }

    #[test]
    fn settings_are_read_back() {
        let settings = Settings { tolerance: 0.01, most: 64, intervals: 4 };
        let numbers = [[1.0; 7].as_slice(), &numbers_of(settings)].concat();
        let query = Query::new(Kind::SetCylinder, &[vec![0.0; 6]], &numbers);
        assert!(query.line().ends_with(" 3f847ae147ae147b 0000000000000040 0000000000000004"));
        assert_eq!(Query::parse(&query.line()).unwrap().settings(), settings);
    }
}
