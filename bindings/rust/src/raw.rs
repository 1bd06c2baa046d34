//! The C functions, as `crates/capi/jorghipa.h` declares them: 0 or the number of the refusal.
//! The caller owes valid, aligned pointers, non-null even at count 0, and no lent place that overlaps another.

#[rustfmt::skip]
unsafe extern "C" {
    /// Distance of a point.
    pub fn jorghipa_point(
        section: *const f64, section_count: usize, x: f64, y: f64, z: f64,
        distance: *mut f64, witness_z: *mut f64, witness_radius: *mut f64, edge: *mut u32,
    ) -> u32;
    /// Distance of a sphere.
    pub fn jorghipa_sphere(
        section: *const f64, section_count: usize, x: f64, y: f64, z: f64, radius: f64,
        distance: *mut f64, witness_z: *mut f64, witness_radius: *mut f64, edge: *mut u32,
    ) -> u32;
    /// Distance of a box.
    pub fn jorghipa_box(
        section: *const f64, section_count: usize, z0: f64, z1: f64, r0: f64, r1: f64,
        distance: *mut f64, witness_z: *mut f64, witness_radius: *mut f64, edge: *mut u32,
    ) -> u32;
    /// Distance of a convex polygon.
    pub fn jorghipa_convex(
        convex: *const f64, convex_count: usize, section: *const f64, section_count: usize,
        distance: *mut f64, witness_z: *mut f64, witness_radius: *mut f64, edge: *mut u32,
    ) -> u32;
    /// Builds a section of a half-profile.
    pub fn jorghipa_build_section(
        points: *const f64, points_count: usize, space: *mut f64, space_count: usize, kept: *mut usize,
    ) -> u32;
    /// Builds a section of a closed outline.
    pub fn jorghipa_build_polygon(
        points: *const f64, points_count: usize, space: *mut f64, space_count: usize, kept: *mut usize,
    ) -> u32;
    /// Distance of a cylinder.
    pub fn jorghipa_cylinder(
        section: *const f64, section_count: usize, ax: f64, ay: f64, az: f64, bx: f64, by: f64, bz: f64, radius: f64,
        tolerance: f64, most: u32, intervals: u32, distance: *mut f64, witness_z: *mut f64, witness_radius: *mut f64,
        edge: *mut u32, boxes: *mut u32, waiting: *mut u32, cut: *mut u32,
    ) -> u32;
    /// Distance of a point, its witness lifted.
    pub fn jorghipa_lifted_point(
        section: *const f64, section_count: usize, x: f64, y: f64, z: f64,
        distance: *mut f64, witness_x: *mut f64, witness_y: *mut f64, witness_z: *mut f64, edge: *mut u32,
    ) -> u32;
    /// Distance of a sphere, its witness lifted.
    pub fn jorghipa_lifted_sphere(
        section: *const f64, section_count: usize, x: f64, y: f64, z: f64, radius: f64,
        distance: *mut f64, witness_x: *mut f64, witness_y: *mut f64, witness_z: *mut f64, edge: *mut u32,
    ) -> u32;
    /// Distance of a cylinder, its witness lifted.
    pub fn jorghipa_lifted_cylinder(
        section: *const f64, section_count: usize, ax: f64, ay: f64, az: f64, bx: f64, by: f64, bz: f64, radius: f64,
        distance: *mut f64, witness_x: *mut f64, witness_y: *mut f64, witness_z: *mut f64, edge: *mut u32,
        boxes: *mut u32, waiting: *mut u32, cut: *mut u32,
    ) -> u32;
    /// The version as one number.
    pub fn jorghipa_version() -> u32;
    /// Verdict on a sphere.
    pub fn jorghipa_verdict_sphere(
        section: *const f64, section_count: usize, x: f64, y: f64, z: f64, radius: f64, clearance: f64,
        collision: *mut u32,
    ) -> u32;
    /// Verdict on a box.
    pub fn jorghipa_verdict_box(
        section: *const f64, section_count: usize, z0: f64, z1: f64, r0: f64, r1: f64, clearance: f64,
        collision: *mut u32,
    ) -> u32;
    /// Verdict on a cylinder.
    pub fn jorghipa_verdict_cylinder(
        section: *const f64, section_count: usize, ax: f64, ay: f64, az: f64, bx: f64, by: f64, bz: f64, radius: f64,
        clearance: f64, collision: *mut u32,
    ) -> u32;
    /// The same, with the counts and the mark of its walk.
    pub fn jorghipa_verdict_walk(
        section: *const f64, section_count: usize, ax: f64, ay: f64, az: f64, bx: f64, by: f64, bz: f64, radius: f64,
        clearance: f64, collision: *mut u32, boxes: *mut u32, waiting: *mut u32, cut: *mut u32,
    ) -> u32;
    /// Verdict on a convex polygon.
    pub fn jorghipa_verdict_convex(
        convex: *const f64, convex_count: usize, section: *const f64, section_count: usize, clearance: f64,
        collision: *mut u32,
    ) -> u32;
    /// Whether any body of an assembly hits.
    pub fn jorghipa_any_hit(
        section: *const f64, section_count: usize, kinds: *const u32, count: usize, numbers: *const f64,
        numbers_count: usize, clearance: f64, hit: *mut u32,
    ) -> u32;
    /// The nearer of two sections.
    pub fn jorghipa_pair(
        chuck: *const f64, chuck_count: usize, work: *const f64, work_count: usize, kind: u32, numbers: *const f64,
        numbers_count: usize, winner: *mut u32, distance: *mut f64, witness_z: *mut f64, witness_radius: *mut f64,
        edge: *mut u32, boxes: *mut u32, waiting: *mut u32, cut: *mut u32,
    ) -> u32;
    /// The nearer of two sections, to a convex polygon.
    pub fn jorghipa_pair_convex(
        chuck: *const f64, chuck_count: usize, work: *const f64, work_count: usize, convex: *const f64,
        convex_count: usize, winner: *mut u32, distance: *mut f64, witness_z: *mut f64, witness_radius: *mut f64,
        edge: *mut u32, boxes: *mut u32, waiting: *mut u32, cut: *mut u32,
    ) -> u32;
    /// Tries a move.
    pub fn jorghipa_move(
        section: *const f64, section_count: usize, kind: u32, numbers: *const f64, numbers_count: usize, clearance: f64,
        start_x: f64, start_y: f64, start_z: f64, end_x: f64, end_y: f64, end_z: f64, steps: u32, tolerance: f64,
        most: u32, intervals: u32, distance: *mut f64, step: *mut u32, collides: *mut u32, colliding_step: *mut u32,
        boxes: *mut u32,
    ) -> u32;
    /// Reads a store.
    pub fn jorghipa_read_store(store: *const u8, store_count: usize, record: *mut u32) -> u32;
    /// Replaces a record of a store.
    pub fn jorghipa_replace(
        space: *mut u8, space_count: usize, length: usize, role: u32, record: u32, bytes: *const u8, bytes_count: usize,
        length_after: *mut usize,
    ) -> u32;
    /// Adds a record to a store.
    pub fn jorghipa_add(
        space: *mut u8, space_count: usize, length: usize, role: u32, bytes: *const u8, bytes_count: usize,
        length_after: *mut usize,
    ) -> u32;
    /// The nearest root.
    pub fn jorghipa_sqrt(x: f64) -> f64;
    /// The nearest root of a sum of squares.
    pub fn jorghipa_hypot(a: f64, b: f64) -> f64;
}

/// The records of `crates/records/jorghipa_records.h`; a vertex is [`crate::Vertex`].
#[cfg(feature = "records")]
mod records {
    use crate::Vertex;

    /// A [`crate::Point`].
    #[repr(C)]
    pub struct Place {
        /// Across the spindle.
        pub x: f64,
        /// Across the spindle, and across x.
        pub y: f64,
        /// Along the spindle.
        pub z: f64,
    }

    /// A [`crate::Sphere`].
    #[repr(C)]
    pub struct Ball {
        /// Across the spindle.
        pub x: f64,
        /// Across the spindle, and across x.
        pub y: f64,
        /// Along the spindle.
        pub z: f64,
        /// At least 0.
        pub radius: f64,
    }

    /// A [`crate::Aabb`].
    #[repr(C)]
    pub struct Bounds {
        /// The smaller z.
        pub z0: f64,
        /// The larger z.
        pub z1: f64,
        /// The smaller radius.
        pub r0: f64,
        /// The larger radius.
        pub r1: f64,
    }

    /// A [`crate::Cylinder`].
    #[repr(C)]
    pub struct Bar {
        /// x of the one cap.
        pub ax: f64,
        /// y of the one cap.
        pub ay: f64,
        /// z of the one cap.
        pub az: f64,
        /// x of the other cap.
        pub bx: f64,
        /// y of the other cap.
        pub by: f64,
        /// z of the other cap.
        pub bz: f64,
        /// At least 0.
        pub radius: f64,
    }

    /// A [`crate::Hit`], or the number of a refusal and zeros.
    #[repr(C)]
    pub struct Reply {
        /// In mm.
        pub distance: f64,
        /// The witness's z.
        pub witness_z: f64,
        /// The witness's radius.
        pub witness_radius: f64,
        /// The edge that supplied the witness.
        pub edge: u32,
        /// 0, or that of the refusal.
        pub number: u32,
    }

    /// A [`crate::CylinderHit`], or the number of a refusal and zeros.
    #[repr(C)]
    pub struct CylinderReply {
        /// In mm.
        pub distance: f64,
        /// The witness's z.
        pub witness_z: f64,
        /// The witness's radius.
        pub witness_radius: f64,
        /// The edge that supplied the witness.
        pub edge: u32,
        /// The boxes that were measured.
        pub boxes: usize,
        /// The most pieces that waited at any one time.
        pub waiting: usize,
        /// 0, or that of the refusal.
        pub number: u32,
        /// Whether a piece was still due.
        pub cut: bool,
    }

    unsafe extern "C" {
        /// Distance of a point.
        pub fn jorghipa_point_of(section: *const Vertex, count: usize, place: Place) -> Reply;
        /// Distance of a sphere.
        pub fn jorghipa_sphere_of(section: *const Vertex, count: usize, ball: Ball) -> Reply;
        /// Distance of a box.
        pub fn jorghipa_box_of(section: *const Vertex, count: usize, bounds: Bounds) -> Reply;
        /// Distance of a cylinder.
        pub fn jorghipa_cylinder_of(section: *const Vertex, count: usize, bar: Bar) -> CylinderReply;
    }
}

#[cfg(feature = "records")]
pub use records::*;
