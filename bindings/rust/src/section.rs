//! A section that was accepted, and what can be asked beside it.

use crate::shapes::flat;
use crate::{
    Aabb, Body, Cylinder, CylinderHit, Hit, JudgedWalk, LiftedCylinderHit, LiftedHit, Nearer, Point, Refusal, Report,
    Settings, Sphere, Travel, Vertex, bare,
};

/// A turned half-section of 3 to 256 vertices, accepted by the library and since then unchanged; the last vertex joins the first.
///
/// It is made once and borrowed by every query, so that a query can be turned down only for what stands beside the section.
///
/// ```
/// use jorghipa::{Aabb, Refusal, Section, Vertex};
///
/// // A bar of radius 10 and length 20: its half-profile, closed to the axis by the builder.
/// let bar = Section::build_section(&Vertex::list(&[[0.0, 10.0], [20.0, 10.0]]))?;
/// assert_eq!(bar.vertices(), Vertex::list(&[[0.0, 10.0], [20.0, 10.0], [20.0, 0.0], [0.0, 0.0]]));
///
/// // A tool holder 5 mm beside its end, and one whose bounds are the wrong way round.
/// let holder = Aabb { z0: 25.0, z1: 30.0, r0: 0.0, r1: 5.0 };
/// assert_eq!(bar.aabb(holder)?.distance, 5.0);
/// assert_eq!(bar.aabb(Aabb { z0: 30.0, z1: 25.0, ..holder }), Err(Refusal::ReversedBounds));
/// # Ok::<(), Refusal>(())
/// ```
#[derive(Clone, Debug, PartialEq)]
pub struct Section {
    vertices: Vec<Vertex>,
}

impl Section {
    /// A closed outline, taken as it is: nothing is dropped, raised or closed to the axis. Refusals 2 to 6.
    ///
    /// A half-profile is no outline yet: [`Section::build_section`] closes it.
    pub fn new(vertices: Vec<Vertex>) -> Result<Section, Refusal> {
        // A point at the origin is turned down for its section alone.
        bare::point(flat(&vertices), Point { x: 0.0, y: 0.0, z: 0.0 })?;
        Ok(Section { vertices })
    }

    /// Builds a section of the 2 to 254 points of a half-profile: drops a point within 1e-12 of the last kept one, raises a
    /// radius from -1e-9 up to 0, and closes to the axis. Refusals 2 to 6 and 8.
    pub fn build_section(points: &[Vertex]) -> Result<Section, Refusal> {
        Section::built(bare::build_section(flat(points), &mut vec![0.0; 2 * points.len() + 4])?)
    }

    /// Builds a section of a closed outline: drops repeated points and a repeated closing one, raises as above. Refusals 2 to 6
    /// and 8.
    pub fn build_polygon(points: &[Vertex]) -> Result<Section, Refusal> {
        Section::built(bare::build_polygon(flat(points), &mut vec![0.0; 2 * points.len()])?)
    }

    fn built(numbers: &[f64]) -> Result<Section, Refusal> {
        Section::new(Vertex::list(numbers.as_chunks().0))
    }

    /// Its vertices; edge k runs from vertex k to the next.
    pub fn vertices(&self) -> &[Vertex] {
        &self.vertices
    }

    /// Its numbers, z and radius in turn, as [`crate::bare`] and [`crate::raw`] take them.
    pub fn numbers(&self) -> &[f64] {
        flat(&self.vertices)
    }

    /// Distance of a point. Refusals 4 and 5.
    pub fn point(&self, point: Point) -> Result<Hit, Refusal> {
        bare::point(self.numbers(), point)
    }

    /// Distance of a sphere. Refusals 4, 5 and 9.
    pub fn sphere(&self, sphere: Sphere) -> Result<Hit, Refusal> {
        bare::sphere(self.numbers(), sphere)
    }

    /// Distance of a box. What lies below the axis is not mirrored: give `r0` of at least 0. Refusals 4, 5 and 10.
    pub fn aabb(&self, bounds: Aabb) -> Result<Hit, Refusal> {
        bare::aabb(self.numbers(), bounds)
    }

    /// Distance of a convex polygon, which may lie below the axis; what lies there is not mirrored. 0 can be a full overlap.
    /// Refusals 2 to 5.
    pub fn convex(&self, convex: &[Vertex]) -> Result<Hit, Refusal> {
        bare::convex(flat(convex), self.numbers())
    }

    /// Distance of a cylinder. Refusals 4, 5, 18, 9 and 11, tested in this order. Across the spindle it may be higher than the true
    /// one: [`Settings`] says by how much.
    ///
    /// ```
    /// use jorghipa::{Cylinder, Point, Refusal, Section, Settings, Vertex};
    ///
    /// // A drill of radius 2 across the spindle, 2 mm above a bar of radius 10.
    /// let bar = Section::build_section(&Vertex::list(&[[0.0, 10.0], [20.0, 10.0]]))?;
    /// let end = |x| Point { x, y: 0.0, z: 10.0 };
    /// let drill = Cylinder { a: end(12.0), b: end(30.0), radius: 2.0 };
    /// let finest = bar.cylinder(drill, Settings::FINEST)?;
    /// assert_eq!((finest.hit.distance, finest.boxes, finest.cut), (2.0, 8192, true));
    /// let coarse = bar.cylinder(drill, Settings { tolerance: 0.01, most: 1024, intervals: 4 })?;
    /// assert_eq!((coarse.hit.distance, coarse.boxes, coarse.cut), (2.0, 39, false));
    /// # Ok::<(), Refusal>(())
    /// ```
    pub fn cylinder(&self, cylinder: Cylinder, settings: Settings) -> Result<CylinderHit, Refusal> {
        bare::cylinder(self.numbers(), cylinder, settings)
    }

    /// Distance of a point, its witness lifted. Refusals 4 and 5.
    ///
    /// ```
    /// use jorghipa::{Point, Refusal, Section, Vertex};
    ///
    /// // Before the end of a bar of radius 10 and length 20.
    /// let bar = Section::build_section(&Vertex::list(&[[0.0, 10.0], [20.0, 10.0]]))?;
    /// let hit = bar.lifted_point(Point { x: 3.0, y: 4.0, z: 30.0 })?;
    /// assert_eq!((hit.distance, hit.witness), (10.0, Point { x: 3.0, y: 4.0, z: 20.0 }));
    /// # Ok::<(), Refusal>(())
    /// ```
    pub fn lifted_point(&self, point: Point) -> Result<LiftedHit, Refusal> {
        bare::lifted_point(self.numbers(), point)
    }

    /// Distance of a sphere, its witness lifted. Refusals 4, 5 and 9.
    pub fn lifted_sphere(&self, sphere: Sphere) -> Result<LiftedHit, Refusal> {
        bare::lifted_sphere(self.numbers(), sphere)
    }

    /// Distance of a cylinder at the finest settings, its witness lifted. Refusals 4, 5, 9 and 11.
    pub fn lifted_cylinder(&self, cylinder: Cylinder) -> Result<LiftedCylinderHit, Refusal> {
        bare::lifted_cylinder(self.numbers(), cylinder)
    }

    /// Whether a sphere comes closer than the clearance: whether distance + 1e-9 < clearance. Refusals 4, 5 and 9.
    pub fn verdict_sphere(&self, sphere: Sphere, clearance: f64) -> Result<bool, Refusal> {
        bare::verdict_sphere(self.numbers(), sphere, clearance)
    }

    /// Whether a box comes closer than the clearance. Refusals 4, 5 and 10.
    pub fn verdict_box(&self, bounds: Aabb, clearance: f64) -> Result<bool, Refusal> {
        bare::verdict_box(self.numbers(), bounds, clearance)
    }

    /// Whether a cylinder comes closer than the clearance, at the finest settings, judged by its distance less half of how far
    /// its ends stand apart across its axis. The clearance has to have V on top, see [`Settings`]. The lean of the caps, up to
    /// 1.4143e-4 times the radius, is not counted. Refusals 4, 5, 9 and 11.
    pub fn verdict_cylinder(&self, cylinder: Cylinder, clearance: f64) -> Result<bool, Refusal> {
        bare::verdict_cylinder(self.numbers(), cylinder, clearance)
    }

    /// The same, with what its walk counted, and whether it was cut. Refusals 4, 5, 9 and 11.
    pub fn verdict_walk(&self, cylinder: Cylinder, clearance: f64) -> Result<JudgedWalk, Refusal> {
        bare::verdict_walk(self.numbers(), cylinder, clearance)
    }

    /// Whether a convex polygon comes closer than the clearance. At a clearance of 0 one that lies wholly in the solid may be clear.
    /// Refusals 2 to 5.
    pub fn verdict_convex(&self, convex: &[Vertex], clearance: f64) -> Result<bool, Refusal> {
        bare::verdict_convex(flat(convex), self.numbers(), clearance)
    }

    /// Whether any of up to 64 bodies comes closer than the clearance: that of judging each by its verdict. Refusals 4 and 5 of
    /// the clearance, 17 for more bodies, then the first bad body's, 4, 5, 9, 10 or 11, also where one before it collides.
    ///
    /// ```
    /// use jorghipa::{Aabb, Body, Point, Refusal, Section, Sphere, Vertex};
    ///
    /// let bar = Section::build_section(&Vertex::list(&[[0.0, 10.0], [20.0, 10.0]]))?;
    /// let holder = Body::Box(Aabb { z0: 25.0, z1: 30.0, r0: 0.0, r1: 5.0 });
    /// let tip = |radius| Body::Sphere(Sphere { center: Point { x: 12.0, y: 0.0, z: 10.0 }, radius });
    /// assert_eq!(bar.any_hit(&[holder, tip(0.5)], 1.0), Ok(false));
    /// assert_eq!(bar.any_hit(&[holder, tip(1.5)], 1.0), Ok(true));
    /// assert_eq!(bar.any_hit(&[tip(1.5), tip(-1.0)], 1.0), Err(Refusal::NegativeRadius));
    /// # Ok::<(), Refusal>(())
    /// ```
    pub fn any_hit(&self, bodies: &[Body], clearance: f64) -> Result<bool, Refusal> {
        bare::any_hit(self.numbers(), bodies, clearance)
    }

    /// Tries a move. The clearance of a cylinder across has to have V at these settings on top, see [`Settings`]. Between two steps
    /// nothing is measured. With equal offsets and one step this is the verdict on the body at chosen settings, its lean counted.
    ///
    /// Refusals 4, 5, 18, 9, 10 and 11 over body, clearance, offsets and settings; 19 for no step or more than
    /// 4,096; then of the first refused placement 4, 5, 9, 10 or 11.
    ///
    /// ```
    /// use jorghipa::{Body, Point, Refusal, Section, Settings, Sphere, Travel, Vertex};
    ///
    /// // A sphere of radius 4 comes from z 50 down to z 20, before the end of a bar at z 20.
    /// let bar = Section::build_section(&Vertex::list(&[[0.0, 10.0], [20.0, 10.0]]))?;
    /// let ball = Body::Sphere(Sphere { center: Point { x: 0.0, y: 0.0, z: 50.0 }, radius: 4.0 });
    /// let (start, end) = (Point { x: 0.0, y: 0.0, z: 0.0 }, Point { x: 0.0, y: 0.0, z: -30.0 });
    /// let report = bar.try_move(ball, 1.0, Travel { start, end, steps: 6 }, Settings::FINEST)?;
    /// assert_eq!((report.distance, report.step, report.colliding_step), (-4.0, 6, Some(6)));
    /// # Ok::<(), Refusal>(())
    /// ```
    pub fn try_move(&self, body: Body, clearance: f64, travel: Travel, settings: Settings) -> Result<Report, Refusal> {
        bare::try_move(self.numbers(), body, clearance, travel, settings)
    }
}

/// The smaller distance of a body from the chuck and from the work; the chuck wins an equal one. Refusals of the body: 4 and 5,
/// and 9, or 10, or 9 and 11.
///
/// ```
/// use jorghipa::{Body, Point, Refusal, Section, Sphere, Vertex, pair};
///
/// // A chuck of radius 30 behind a bar of radius 10, and a sphere before its end.
/// let chuck = Section::build_section(&Vertex::list(&[[-40.0, 30.0], [0.0, 30.0]]))?;
/// let work = Section::build_section(&Vertex::list(&[[0.0, 10.0], [20.0, 10.0]]))?;
/// let ball = Sphere { center: Point { x: 0.0, y: 0.0, z: 30.0 }, radius: 4.0 };
/// let nearer = pair(&chuck, &work, Body::Sphere(ball))?;
/// assert_eq!((nearer.section, nearer.hit.hit.distance), (&work, 6.0));
/// # Ok::<(), Refusal>(())
/// ```
pub fn pair<'a>(chuck: &'a Section, work: &'a Section, body: Body) -> Result<Nearer<'a>, Refusal> {
    bare::pair(chuck.numbers(), work.numbers(), body).map(|won| nearer(chuck, work, won))
}

/// The same of a convex polygon. Refusals 2 to 5.
pub fn pair_convex<'a>(chuck: &'a Section, work: &'a Section, convex: &[Vertex]) -> Result<Nearer<'a>, Refusal> {
    bare::pair_convex(chuck.numbers(), work.numbers(), flat(convex)).map(|won| nearer(chuck, work, won))
}

fn nearer<'a>(chuck: &'a Section, work: &'a Section, (won, hit): (bool, CylinderHit)) -> Nearer<'a> {
    Nearer { section: if won { work } else { chuck }, work: won, hit }
}
