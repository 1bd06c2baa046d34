//! Where mm lie in the picture: z to the right, radius up, one scale for both.

use jorghipa::{Body, Vertex};

/// A rectangle in mm.
#[derive(Clone, Copy, Debug, PartialEq)]
pub struct Extent {
    pub z0: f64,
    pub z1: f64,
    pub r0: f64,
    pub r1: f64,
}

impl Extent {
    /// The section and its mirror image below the axis.
    pub fn of_section(vertices: &[Vertex]) -> Extent {
        let least = |start: f64, of: fn(&Vertex) -> f64| vertices.iter().map(of).fold(start, f64::min);
        let most = |start: f64, of: fn(&Vertex) -> f64| vertices.iter().map(of).fold(start, f64::max);
        let (z0, z1) = (least(f64::INFINITY, |v| v.z), most(f64::NEG_INFINITY, |v| v.z));
        let radius = most(0.0, |v| v.radius);
        Extent { z0, z1, r0: -radius, r1: radius }
    }

    /// Where a body is drawn: in the plane through the spindle that holds a sphere's centre.
    pub fn of_body(body: Body) -> Option<Extent> {
        let extent = match body {
            Body::Sphere(sphere) => {
                let (z, r, radius) = (sphere.center.z, sphere.center.x.hypot(sphere.center.y), sphere.radius);
                Extent { z0: z - radius, z1: z + radius, r0: r - radius, r1: r + radius }
            }
            Body::Box(bounds) => Extent { z0: bounds.z0, z1: bounds.z1, r0: bounds.r0, r1: bounds.r1 },
            Body::Cylinder(_) => return None,
        };
        let Extent { z0, z1, r0, r1 } = extent;
        ([z0, z1, r0, r1].iter().all(|x| x.is_finite()) && z0 <= z1 && r0 <= r1).then_some(extent)
    }

    pub fn with(self, other: Extent) -> Extent {
        Extent {
            z0: self.z0.min(other.z0),
            z1: self.z1.max(other.z1),
            r0: self.r0.min(other.r0),
            r1: self.r1.max(other.r1),
        }
    }

    /// Whether another lies no farther off than twice this one's size, so that both can be drawn at one scale.
    pub fn has_near(self, other: Extent) -> bool {
        let room = 2.0 * (self.z1 - self.z0).max(self.r1 - self.r0).max(1.0);
        let within = |x: f64, low: f64, high: f64| low - room <= x && x <= high + room;
        [other.z0, other.z1].iter().all(|z| within(*z, self.z0, self.z1))
            && [other.r0, other.r1].iter().all(|r| within(*r, self.r0, self.r1))
    }
}

/// The widest and the highest drawing, in points of the picture, and the room around it.
const WIDTH: f64 = 1500.0;
const HEIGHT: f64 = 960.0;
const LEFT: f64 = 90.0;
const TOP: f64 = 96.0;
const AROUND: f64 = 60.0;

/// The scale, and where it begins.
#[derive(Clone, Copy, Debug)]
pub struct Frame {
    pub extent: Extent,
    pub scale: f64,
}

impl Frame {
    pub fn of(extent: Extent) -> Frame {
        let (z, r) = ((extent.z1 - extent.z0).max(1e-6), (extent.r1 - extent.r0).max(1e-6));
        Frame { extent, scale: (WIDTH / z).min(HEIGHT / r) }
    }

    pub fn x(&self, z: f64) -> f64 {
        LEFT + (z - self.extent.z0) * self.scale
    }

    pub fn y(&self, radius: f64) -> f64 {
        TOP + (self.extent.r1 - radius) * self.scale
    }

    /// Width and height of the picture, notes below left out.
    pub fn size(&self) -> (f64, f64) {
        let (x, y) = (self.x(self.extent.z1) + AROUND, self.y(self.extent.r0) + AROUND);
        (x.max(760.0), y)
    }

    /// Left, top, right and bottom of what labels may use.
    pub fn room(&self) -> [f64; 4] {
        let (right, bottom) = self.size();
        [LEFT - 50.0, TOP - 36.0, right - 4.0, bottom - 26.0]
    }

    /// Round numbers from low to high, about ten of them, each as it is written.
    pub fn ticks(low: f64, high: f64) -> Vec<(f64, String)> {
        let raw = ((high - low) / 10.0).max(1e-9);
        let power = 10f64.powf(raw.log10().floor());
        let step = [1.0, 2.0, 5.0, 10.0].map(|k| k * power).into_iter().find(|step| *step >= raw).unwrap_or(raw);
        let decimals = (-step.log10().floor()).max(0.0) as usize;
        let (first, last) = ((low / step).ceil() as i64, (high / step).floor() as i64);
        let written = |k: i64| format!("{:.decimals$}", k as f64 * step);
        (first..=last).map(|k| (k as f64 * step, written(k))).collect()
    }
}

#[cfg(test)]
mod tests {
    use super::*;

    #[test]
    fn one_scale() {
        let frame = Frame::of(Extent { z0: -10.0, z1: 40.0, r0: -15.0, r1: 15.0 });
        assert_eq!(frame.x(0.0) - frame.x(-10.0), frame.y(0.0) - frame.y(10.0));
        assert!(frame.x(40.0) - frame.x(-10.0) <= WIDTH && frame.y(-15.0) - frame.y(15.0) <= HEIGHT);
    }

    #[test]
    fn round_ticks() {
        let told = |low, high| Frame::ticks(low, high).into_iter().map(|(_, text)| text).collect::<Vec<_>>();
        assert_eq!(told(-12.0, 31.0), ["-10", "-5", "0", "5", "10", "15", "20", "25", "30"]);
        assert_eq!(told(0.0, 0.4), ["0.00", "0.05", "0.10", "0.15", "0.20", "0.25", "0.30", "0.35", "0.40"]);
        assert!(told(1e6, 1e6).len() <= 2);
    }
}
