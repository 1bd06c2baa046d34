//! What the calls answer.

use crate::{Point, Section};

/// Signed distance, negative inside and 0 on contact, its witness, a point of the section, and the witness's edge.
///
/// The witness is, of
/// - a point, or a sphere's centre: the nearest point of the edges, those along the spindle left out; where none is left,
///   the distance is +infinity and the witness the first vertex;
/// - a box or a convex polygon that stands clear: the nearest point of the edges;
/// - a box that overlaps: the last vertex inside it; else that of the deepest of its middle and corners; else where an
///   edge meets it;
/// - a convex polygon that overlaps: that of its deepest corner, or the vertex deepest inside it; else where edges meet.
///
/// So the distance of an overlap need not be that to the witness, nor a depth: -1e-8 marks an overlap that no probe measured.
///
/// Edge k runs from vertex k to the next, counted from 0. It is the edge that supplied the witness, also where another is as
/// near: the first of equal ones. Where the witness is a vertex inside the body, it is the edge that starts there; at +infinity
/// it is edge 0.
#[derive(Clone, Copy, Debug, PartialEq)]
pub struct Hit {
    /// In mm.
    pub distance: f64,
    /// The witness's z.
    pub witness_z: f64,
    /// The witness's radius.
    pub witness_radius: f64,
    /// The edge that supplied the witness.
    pub edge: u32,
}

/// A hit, the boxes that were measured, the most pieces that waited, and whether the walk was cut short.
///
/// A cylinder along the spindle is one box. Across it the cylinder is walked in pieces, and witness and edge are those of the
/// best distance seen. A walk is cut where a piece is still due after the most boxes of its settings: then the distance is
/// the least of the boxes', perhaps 0.4143 times the radius low, and witness and edge still those of the best seen. Uncut, it may
/// be high, by what [`crate::Settings`] says.
#[derive(Clone, Copy, Debug, PartialEq)]
pub struct CylinderHit {
    /// Distance, witness and edge.
    pub hit: Hit,
    /// The boxes that were measured.
    pub boxes: u32,
    /// The most pieces that waited at any one time.
    pub waiting: u32,
    /// Whether a piece was still due.
    pub cut: bool,
}

/// The verdict on a cylinder, with the counts of its [`CylinderHit`] at the finest settings.
#[derive(Clone, Copy, Debug, PartialEq, Eq)]
pub struct JudgedWalk {
    /// Whether it comes closer than the clearance.
    pub collision: bool,
    /// The boxes that were measured.
    pub boxes: u32,
    /// The most pieces that waited at any one time.
    pub waiting: u32,
    /// Whether a piece was still due: then the distance that was judged may be low.
    pub cut: bool,
}

/// The distance and the edge of a [`Hit`], with its witness in the machine's axes.
///
/// With h = hypot(x, y) of the body's middle, a point's or a sphere's own x and y, of a cylinder the means of its ends', and the
/// hit's z and radius, the witness is (radius x / h, radius y / h, z), multiplied first. Where h is 0 it is (radius, 0, z). A
/// radius below 0 counts as 0.
#[derive(Clone, Copy, Debug, PartialEq)]
pub struct LiftedHit {
    /// In mm.
    pub distance: f64,
    /// The witness in x, y and z.
    pub witness: Point,
    /// The edge that supplied the witness.
    pub edge: u32,
}

/// The same with the counts of a [`CylinderHit`].
#[derive(Clone, Copy, Debug, PartialEq)]
pub struct LiftedCylinderHit {
    /// Distance, witness and edge.
    pub hit: LiftedHit,
    /// The boxes that were measured.
    pub boxes: u32,
    /// The most pieces that waited at any one time.
    pub waiting: u32,
    /// Whether a piece was still due.
    pub cut: bool,
}

/// The section that won, and the hit that it gives by itself.
///
/// A sphere and a convex polygon count no box, a box one; nothing waits, uncut. A cylinder is measured at the finest
/// settings.
#[derive(Clone, Copy, Debug, PartialEq)]
pub struct Nearer<'a> {
    /// The chuck or the work, as it was lent.
    pub section: &'a Section,
    /// Whether it is the work: the second of the two.
    pub work: bool,
    /// The hit that it gives by itself.
    pub hit: CylinderHit,
}

/// What a move comes to: one query for each step, 0 to n.
#[derive(Clone, Copy, Debug, PartialEq)]
pub struct Report {
    /// The smallest distance of all steps.
    pub distance: f64,
    /// The first step that has it.
    pub step: u32,
    /// The first step that collides, as the verdict judges its distance.
    pub colliding_step: Option<u32>,
    /// The boxes measured in all steps: a sphere counts none, a box or a cylinder along the spindle one.
    pub boxes: u32,
}
