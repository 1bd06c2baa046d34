//! A store read by the library, measured, and doubted where the library does not doubt.

pub mod json;
pub mod look;
pub mod moving;
pub mod picture;
#[cfg(test)]
mod samples;
pub mod store;
pub mod table;
pub mod verdict;
pub mod warnings;

use jorghipa::{Body, Refusal, RefusedStore, Section};
use look::Look;
use moving::{Asked, Tried};
use store::Store;
use verdict::Judged;
use warnings::Warning;

/// A body, and the library's answer at the clearance.
#[derive(Clone, Debug)]
pub struct Row {
    pub record: u32,
    pub body: Body,
    pub answer: Result<Judged, Refusal>,
}

/// What was made of a store.
#[derive(Clone, Debug)]
pub struct View {
    pub name: String,
    pub clearance: f64,
    pub store: Store,
    pub verdict: Result<Section, (RefusedStore, Look)>,
    pub rows: Vec<Row>,
    pub warnings: Vec<Warning>,
    pub tried: Option<Tried>,
}

impl View {
    /// Reads these bytes; what the library refuses has no rows and no warnings. An error says that the clearance or the move
    /// cannot be asked.
    pub fn new(name: &str, bytes: &[u8], clearance: f64, asked: Option<Asked>) -> Result<View, String> {
        let (store, name, clearance) = (Store::decode(bytes), name.to_string(), verdict::checked(clearance)?);
        if let Err(refused) = jorghipa::read_store(bytes) {
            let verdict = Err((refused, look::look(&store, refused)));
            return Ok(View { name, clearance, store, verdict, rows: Vec::new(), warnings: Vec::new(), tried: None });
        }
        let vertices = store.vertices();
        let section = Section::new(vertices.iter().map(|(_, vertex)| *vertex).collect())
            .map_err(|refusal| format!("the store is accepted and its section is not: {refusal}"))?;
        let measured = |(record, body)| Row { record, body, answer: verdict::judged(&section, body, clearance) };
        let rows: Vec<Row> = store.bodies().into_iter().map(measured).collect();
        let tried = asked.map(|asked| moving::tried(&section, &rows, clearance, asked)).transpose()?;
        let warnings = warnings::warnings(&vertices, &rows, tried.as_ref());
        Ok(View { name, clearance, store, verdict: Ok(section), rows, warnings, tried })
    }

    /// Whether nothing was refused: neither the store, nor a body, nor the move.
    pub fn all_accepted(&self) -> bool {
        let tried = self.tried.as_ref().is_none_or(|tried| tried.report.is_ok());
        self.verdict.is_ok() && tried && self.rows.iter().all(|row| row.answer.is_ok())
    }
}

/// The kind in words.
pub fn kind(body: Body) -> &'static str {
    match body {
        Body::Sphere(_) => "sphere",
        Body::Box(_) => "box",
        Body::Cylinder(_) => "cylinder",
    }
}

/// A number of mm, to a ten-thousandth; a smaller one that is not 0 keeps its power of ten.
pub fn mm(x: f64) -> String {
    if x == 0.0 {
        return "0.0000".into();
    }
    if x.abs() < 0.00005 { format!("{x:.0e}") } else { format!("{x:.4}") }
}

#[cfg(test)]
mod tests {
    use super::*;
    use jorghipa::Hit;

    /// The listing, from what the view shows.
    fn listing(view: &View) -> String {
        if let Err((RefusedStore { refusal, record }, _)) = &view.verdict {
            return format!("refused {} at {record}\n", refusal.number());
        }
        let bits = |x: f64| format!("{:016x}", if x == 0.0 { 0 } else { x.to_bits() });
        let line = |row: &Row| match row.answer.map(|told| told.hit) {
            Ok(Hit { distance, witness_z, witness_radius, edge }) => {
                format!("{} {} {} {} {edge}\n", row.record, bits(distance), bits(witness_z), bits(witness_radius))
            }
            Err(refusal) => format!("{} refused {}\n", row.record, refusal.number()),
        };
        let head = format!("section {}\n", view.store.vertices().len());
        std::iter::once(head).chain(view.rows.iter().map(line)).collect()
    }

    #[test]
    fn the_listings_of_the_examples() {
        for (bytes, lines) in [
            (samples::bodies(), include_str!("../../../examples/bodies.listing")),
            (samples::chuck(), include_str!("../../../examples/chuck.listing")),
        ] {
            let view = View::new("example", &bytes, 1.0, None).unwrap();
            assert_eq!(listing(&view), lines);
            assert!(view.all_accepted() && view.warnings.is_empty());
        }
    }

    /// All stores that the gate lists, each behind its length, good and damaged; and every form of the view takes them.
    #[test]
    fn the_listings_of_the_gate() {
        let (mut stores, mut listings, mut count) =
            (&include_bytes!("../../../crates/stores/stdin")[..], String::new(), 0);
        while let Some((length, rest)) = stores.split_first_chunk() {
            let (bytes, rest) = rest.split_at(u32::from_le_bytes(*length) as usize);
            let view = View::new("store", bytes, 1.0, None).unwrap();
            listings += &listing(&view);
            assert!(!table::table(&view).is_empty() && json::json(&view).ends_with('}'));
            assert_eq!(picture::picture(&view).is_some(), view.verdict.is_ok());
            assert!(!picture::picture(&view).is_some_and(|svg| svg.contains("NaN") || svg.contains("inf")));
            (stores, count) = (rest, count + 1);
        }
        assert_eq!(listings, include_str!("../../../crates/stores/stdout"));
        assert!(count > 50, "{count}");
    }

    #[test]
    fn refused_bodies() {
        let s = [[0.0, 10.0], [20.0, 10.0], [20.0, 0.0], [0.0, 0.0]];
        let bytes = samples::store(&s, &[(3, [5.0, 4.0, 0.0, 5.0]), (2, [0.0, 0.0, 30.0, 4.0])]);
        let view = View::new("x", &bytes, 1.0, None).unwrap();
        assert_eq!(view.rows[0].answer, Err(Refusal::ReversedBounds));
        assert!(view.verdict.is_ok() && view.rows[1].answer.is_ok() && !view.all_accepted());
    }

    #[test]
    fn millimetres() {
        assert_eq!((mm(5.0), mm(-0.0), mm(-1e-8)), ("5.0000".into(), "0.0000".into(), "-1e-8".into()));
        assert_eq!((mm(0.00005), mm(-12.34567)), ("0.0001".into(), "-12.3457".into()));
    }
}
