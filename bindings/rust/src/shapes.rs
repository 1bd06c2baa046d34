//! What stands beside a section, and how it moves.

/// A vertex of a section or of a convex polygon: z and radius, in C's layout.
#[repr(C)]
#[derive(Clone, Copy, Debug, PartialEq)]
pub struct Vertex {
    /// Along the spindle.
    pub z: f64,
    /// From the spindle's axis.
    pub radius: f64,
}

impl Vertex {
    /// Vertices from pairs of z and radius.
    pub fn list(pairs: &[[f64; 2]]) -> Vec<Vertex> {
        pairs.iter().map(|&[z, radius]| Vertex { z, radius }).collect()
    }
}

/// The numbers of these vertices, z and radius in turn.
pub(crate) fn flat(vertices: &[Vertex]) -> &[f64] {
    // SAFETY: a Vertex is two f64 one behind the other, so that as many bytes are valid as numbers.
    unsafe { std::slice::from_raw_parts(vertices.as_ptr().cast(), 2 * vertices.len()) }
}

/// A position; z is the spindle.
#[derive(Clone, Copy, Debug, PartialEq)]
pub struct Point {
    /// Across the spindle.
    pub x: f64,
    /// Across the spindle, and across x.
    pub y: f64,
    /// Along the spindle.
    pub z: f64,
}

/// A solid sphere.
#[derive(Clone, Copy, Debug, PartialEq)]
pub struct Sphere {
    /// Its middle.
    pub center: Point,
    /// At least 0.
    pub radius: f64,
}

/// A box of z0 to z1 and radius r0 to r1, turned about the spindle.
#[derive(Clone, Copy, Debug, PartialEq)]
pub struct Aabb {
    /// The smaller z.
    pub z0: f64,
    /// The larger z.
    pub z1: f64,
    /// The smaller radius.
    pub r0: f64,
    /// The larger radius.
    pub r1: f64,
}

/// A flat-capped cylinder along the spindle (z) or across it (x or y).
#[derive(Clone, Copy, Debug, PartialEq)]
pub struct Cylinder {
    /// The centre of one cap.
    pub a: Point,
    /// The centre of the other cap.
    pub b: Point,
    /// At least 0.
    pub radius: f64,
}

/// A body beside a section, of one of the kinds that assemblies, pairs of sections and moves take.
#[derive(Clone, Copy, Debug, PartialEq)]
pub enum Body {
    /// Kind 2 in C.
    Sphere(Sphere),
    /// Kind 3 in C.
    Box(Aabb),
    /// Kind 4 in C.
    Cylinder(Cylinder),
}

impl Body {
    /// Its kind in C, and its seven numbers, the last of them 0 where it has fewer.
    pub fn given(self) -> (u32, [f64; 7]) {
        match self {
            Body::Sphere(Sphere { center: Point { x, y, z }, radius }) => (2, [x, y, z, radius, 0.0, 0.0, 0.0]),
            Body::Box(Aabb { z0, z1, r0, r1 }) => (3, [z0, z1, r0, r1, 0.0, 0.0, 0.0]),
            Body::Cylinder(Cylinder { a, b, radius }) => (4, [a.x, a.y, a.z, b.x, b.y, b.z, radius]),
        }
    }
}

impl From<Sphere> for Body {
    fn from(sphere: Sphere) -> Body {
        Body::Sphere(sphere)
    }
}

impl From<Aabb> for Body {
    fn from(bounds: Aabb) -> Body {
        Body::Box(bounds)
    }
}

impl From<Cylinder> for Body {
    fn from(cylinder: Cylinder) -> Body {
        Body::Cylinder(cylinder)
    }
}

/// The settings of the walk across the spindle.
///
/// It samples the cylinder at `intervals` + 1 values of z, then measures boxes around pieces of it, and halves a piece whose
/// box is wider, and varies more in radius, than `tolerance`. Along the spindle, and at radius at most 1e-15, one box is
/// measured at every setting.
///
/// An uncut walk may report up to V = min(R, max(t, √(2Rt))) more than the true distance, and a true overlap as any value up to V,
/// R being the radius and t the tolerance: a distance below V does not say that the bar clears, and a clearance has to have V
/// on top. docs/TRUTH.md says beside which sections that is proved. For a radius of 10, V is 0.1415 mm at 0.001 and 0.4473 at 0.01.
#[derive(Clone, Copy, Debug, PartialEq)]
pub struct Settings {
    /// From 1e-9 to 1 mm.
    pub tolerance: f64,
    /// The most boxes that are measured, from 1 to 8,192.
    pub most: u32,
    /// From 1 to 64.
    pub intervals: u32,
}

impl Settings {
    /// Those of every call that takes none.
    pub const FINEST: Settings = Settings { tolerance: 1e-9, most: 8192, intervals: 16 };
}

impl Default for Settings {
    fn default() -> Settings {
        Settings::FINEST
    }
}

/// A straight move of a body: the offset of its positions at the start and at the end, in 1 to 4,096 steps.
///
/// At step i of n, from 0 to n, the offset is start + (end - start) * i / n along each axis, with the multiplication first.
/// It is added to a sphere's centre and to both ends of a cylinder; a box's z bounds take z, its r bounds x.
#[derive(Clone, Copy, Debug, PartialEq)]
pub struct Travel {
    /// The offset at step 0.
    pub start: Point,
    /// The offset at the last step.
    pub end: Point,
    /// The number of the last step.
    pub steps: u32,
}
