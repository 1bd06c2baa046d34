//! The judges of `truth`: readings worked out by hand, both arithmetics beside each other, and judges that are wrong.

use checks::random::Random;
use checks::truth::draw;
use checks::truth::exact::Exact;
use checks::truth::footprint::{self, Footprint, Outline};
use checks::truth::place::{Place, Vertex, agree, inside, sound};
use checks::truth::points::{self, BOUNDS, Found, Told};
use checks::truth::walks;
use jorghipa::{Point, bare};
use std::cmp::Ordering::{Equal, Greater, Less};
use table::Settings;

const S: [Vertex; 4] = [(0.0, 10.0), (20.0, 10.0), (20.0, 0.0), (0.0, 0.0)];

fn place(x: f64, y: f64, z: f64) -> Place {
    Place { x, y, z }
}

#[test]
fn exact_readings() {
    let against = |p: Place, k: usize, length: f64| Exact::new(&S, p, &[length]).against(k, &[length]);
    assert_eq!(against(place(0.0, 0.0, 30.0), 1, 10.0), Equal);
    assert_eq!(against(place(3.0, 4.0, 30.0), 1, 10.0), Equal);
    assert_eq!(against(place(1.0, 1.0, 25.0), 1, 5.0), Equal);
    assert_eq!(against(place(1.0, 1.0, 25.0), 1, 5f64.next_up()), Greater);
    assert_eq!(against(place(1.0, 1.0, 25.0), 1, 5f64.next_down()), Less);
    // The square is 9 + (√200 - 10)² = 309 - 20 √200, about 26.157.
    assert_eq!([5.114, 5.115].map(|length| against(place(10.0, 10.0, 23.0), 1, length)), [Less, Greater]);
    // From (1, 1, 10) the first edge is 10 - √2 away, about 8.5858.
    assert_eq!([8.585, 8.586].map(|length| against(place(1.0, 1.0, 10.0), 0, length)), [Less, Greater]);
    let rule = |p: Place| inside(&S, p);
    assert_eq!([place(0.0, 0.0, 10.0), place(3.0, 4.0, 10.0), place(7.0, 7.0, 10.0)].map(rule), [true; 3]);
    assert_eq!([place(3.0, 4.0, 30.0), place(7.1, 7.1, 10.0), place(6.0, 8.0, 10.0)].map(rule), [false; 3]);
}

/// Double-double distances lie within their slack of the exact ones, and both rules agree; some places are left to whole numbers.
#[test]
fn both_arithmetics() {
    let (mut random, mut told, mut open) = (Random::new(1, 7200), 0, 0);
    for drawn in (0..6000).filter_map(|_| draw::point(&mut random)) {
        let place = drawn.told().place;
        assert!(agree(&drawn.section, place), "{}", drawn.query.line());
        open += u64::from(place.measured().inside(&drawn.section).is_none());
        told += 1;
    }
    println!("{told} places, {open} left to whole numbers");
    assert!(told > 4000 && open > 0 && open < told / 2);
}

fn exceeded(found: &[Found]) -> Vec<usize> {
    found.iter().filter(|found| found.exceeded).map(|found| found.bound).collect()
}

/// At each bound exactly, and a step past it: of a section within a metre, and of a longer one.
#[test]
fn a_step_too_long() {
    let long = [(0.0, 10.0), (2048.0, 10.0), (2048.0, 0.0), (0.0, 0.0)];
    for (section, end, smaller) in [(S, 20.0, 10), (long, 2048.0, 0)] {
        let judged = |radius: Option<f64>, distance: f64| {
            let place = place(3.0, 4.0, end + 10.0);
            exceeded(&points::judge(&Told { section: &section, place, radius, distance, edge: 1, clear: None }, true))
        };
        let bound = |k: usize| 2f64.powi(BOUNDS[k].1 - smaller);
        assert_eq!(judged(None, 10.0 + bound(0)), []);
        assert_eq!(judged(None, (10.0 + bound(0)).next_up()), [0]);
        assert_eq!(judged(None, 10.0 - bound(1)), []);
        assert_eq!(judged(None, (10.0 - bound(1)).next_down()), [1]);
        assert_eq!(judged(None, (10.0 + bound(2)).next_up()), [0, 2, 8]);
        assert_eq!(judged(None, (10.0 - bound(3)).next_down()), [1, 3]);
        assert_eq!(judged(Some(4.0), 6.0 + bound(4)), []);
        assert_eq!(judged(Some(4.0), (6.0 + bound(4)).next_up()), [4, 6]);
        assert_eq!(judged(Some(4.0), (6.0 - bound(5)).next_down()), [5, 7]);
        let clear = |clearance: f64| {
            let place = place(3.0, 4.0, end + 10.0);
            let told =
                Told { section: &section, place, radius: Some(4.0), distance: 6.0, edge: 1, clear: Some(clearance) };
            exceeded(&points::judge(&told, true))
        };
        assert_eq!(clear(6.0 + 1e-9), []);
        assert_eq!(clear(6.0 + 1e-9 + 2.0 * bound(9)), [9, 10]);
    }
}

/// A drawn distance made longer by twice the bound is too long; so is that of a place inside a sound section, made positive.
#[test]
fn wrong_distances_are_found_out() {
    let (mut random, mut longer, mut turned) = (Random::new(1, 7201), 0, 0);
    for drawn in (0..4000).filter_map(|_| draw::point(&mut random)) {
        let told = drawn.told();
        assert_eq!(exceeded(&points::judge(&told, true)), [], "{}", drawn.query.line());
        if !told.distance.is_finite() || told.radius.is_some() {
            continue;
        }
        let wrong = Told { distance: told.distance.abs() + 2f64.powi(-26), ..told.clone() };
        assert!(exceeded(&points::judge(&wrong, true)).contains(&0), "{}", drawn.query.line());
        longer += 1;
        if told.distance < -1e-6 && sound(told.section) && inside(told.section, told.place) {
            let wrong = Told { distance: -told.distance, ..told };
            assert_eq!(exceeded(&points::judge(&wrong, true)), [8], "{}", drawn.query.line());
            turned += 1;
        }
    }
    println!("{longer} longer, {turned} turned");
    assert!(longer > 1000 && turned > 100);
}

/// A step whose radii differ by 2^-60: the place is inside and its distance positive, which only a sound section rules out.
#[test]
fn the_flat_step() {
    let (thin, step) = (2f64.powi(-8), 2f64.powi(-8) + 2f64.powi(-60));
    let section = [(0.0, 1.0), (20.0, 1.0), (20.0, step), (20.5, thin), (20.5, 0.0), (0.0, 0.0)];
    let list = checks::generate::list(&section);
    let hit = bare::point(&list, Point { x: thin, y: 0.0, z: 10.0 }).expect("accepted");
    assert_eq!(hit.distance, 255.0 / 256.0);
    assert!(inside(&section, place(thin, 0.0, 10.0)) && !sound(&section));
    let (radius, edge, clear) = (None, hit.edge as usize, None);
    let told = Told { section: &section, place: place(thin, 0.0, 10.0), radius, distance: hit.distance, edge, clear };
    assert_eq!(exceeded(&points::judge(&told, true)), []);
    assert_eq!(exceeded(&points::judge(&told, false)), [8]);
}

fn footprint(section: &[Vertex], body: [f64; 7]) -> (f64, f64) {
    footprint::distance(&Footprint::new(body), &Outline::new(section), 100_000, |low, high| high - low < 1e-7)
}

/// Bars over, beside and in a section, over a taper, and through a ring.
#[test]
fn footprints_by_hand() {
    let taper = [(0.0, 10.0), (40.0, 50.0), (40.0, 0.0), (0.0, 0.0)];
    let ring = [(0.0, 5.0), (20.0, 5.0), (20.0, 10.0), (0.0, 10.0)];
    let readings: [(&[Vertex], [f64; 7], f64); 6] = [
        (&S, [12.0, 0.0, 10.0, 30.0, 0.0, 10.0, 2.0], 2.0),
        (&S, [-5.0, 16.0, 10.0, 5.0, 16.0, 10.0, 5.0], 1.0),
        (&S, [-5.0, 14.0, 24.0, 5.0, 14.0, 24.0, 5.0], 32f64.sqrt() - 5.0),
        (&taper, [-5.0, 40.0, 15.0, 5.0, 40.0, 15.0, 10.0], 112.5f64.sqrt() - 10.0),
        (&ring, [0.0, 0.0, 10.0, 25.0, 0.0, 10.0, 2.0], 0.0),
        (&ring, [-2.0, 0.0, 10.0, 2.0, 0.0, 10.0, 1.5], 2.5),
    ];
    for (section, body, expected) in readings {
        let (low, high) = footprint(section, body);
        assert!(low <= expected + 1e-12 && expected <= high + 1e-12 && high - low < 1e-7, "{body:?}: {low} {high}");
    }
}

fn walked(section: &[Vertex], body: [f64; 7], tolerance: f64, distance: f64, cut: bool) -> Vec<usize> {
    let settings = Settings { tolerance, most: 8192, intervals: 1 };
    let found = walks::judge(&walks::Told { section, body, settings, distance, cut }, 1.0, [0.0; 3]);
    found.iter().filter(|found| found.exceeded).map(|found| found.bound).collect()
}

/// The bar (-5, 16, 10)-(5, 16, 10) of radius 5 is 1 mm over S; at tolerance 0.1 V is 1. A bar inside is at 0.
#[test]
fn walks_by_hand() {
    let (over, rest) = ([-5.0, 16.0, 10.0, 5.0, 16.0, 10.0, 5.0], 2f64.powi(-12));
    assert_eq!(walks::margin(5.0, 0.1), 1.0);
    assert_eq!(walked(&S, over, 0.1, 2.0 + rest * 0.99, false), []);
    assert_eq!(walked(&S, over, 0.1, 2.0 + rest * 1.01, false), [0]);
    assert_eq!(walked(&S, over, 0.1, 1.0 + rest * 0.99, true), []);
    assert_eq!(walked(&S, over, 0.1, 1.0 + rest * 1.01, true), [1]);
    let within = [0.0, 0.0, 10.0, 3.0, 0.0, 10.0, 1.0];
    assert_eq!(walked(&S, within, 0.01, 0.5, false), [0]);
    assert_eq!(walked(&S, within, 0.01, -7.0, false), []);
}

/// A judge that halves V, and one that takes the uncut for cut, are found out by some of the drawn walks.
#[test]
fn wrong_margins_are_found_out() {
    let (mut random, mut halved, mut uncut) = (Random::new(1, 7202), 0, 0);
    for drawn in (0..6000).filter_map(|_| draw::walk(&mut random)) {
        let wrong =
            |told: &walks::Told, factor: f64| walks::judge(told, factor, [1.0; 3]).iter().any(|found| found.exceeded);
        assert!(!wrong(&drawn.told(), 1.0), "{}", drawn.query.line());
        halved += u64::from(wrong(&drawn.told(), 0.5));
        uncut += u64::from(wrong(&walks::Told { cut: true, ..drawn.told() }, 1.0));
    }
    println!("halved {halved}, without V {uncut}");
    assert!(halved > 0 && uncut > halved);
}
