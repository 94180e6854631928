//! Points from floats and back, and vertices as well-known text.
use crate::{Fault, Point, COORDINATE_LIMIT};
use std::fmt::{self, Write};

/// The lattice of steps of 2^-`power`: a float `v` becomes the coordinate `v * 2^power`.
///
/// ```
/// # use hull::{Lattice, Point};
/// let lattice = Lattice { power: 20 };
/// let made = lattice.point(0.5, 0.1)?;
/// assert_eq!((made.point.x, made.is_exact), (1 << 19, false)); // 0.1 is between two
/// assert_eq!(lattice.floats(made.point).0, 0.5);
/// # Ok::<(), hull::Fault>(())
/// ```
#[derive(Clone, Copy, Debug, PartialEq, Eq)]
pub struct Lattice {
    /// The power of two.
    pub power: i32,
}

/// What became of two floats.
#[derive(Clone, Copy, Debug, PartialEq, Eq)]
pub struct Rounded {
    /// The point of the lattice nearest to them, ties to even.
    pub point: Point,
    /// Whether both were on the lattice, so that nothing was rounded.
    pub is_exact: bool,
}

/// The float times 2^power, without a rounding wherever that is a coordinate's size or is near a half.
fn scaled(v: f64, power: i32) -> f64 {
    let mut v = v;
    let mut left = power.clamp(-2200, 2200);
    while left != 0 {
        let step = left.clamp(-500, 500);
        v *= f64::from_bits(((1023 + step) as u64) << 52); // 2^step
        left -= step;
    }
    v
}

impl Lattice {
    fn coordinate(self, v: f64) -> Result<(i64, bool), Fault> {
        let at = scaled(v, self.power);
        let mut near = at.round();
        if (at - at.trunc()).abs() == 0.5 && near % 2.0 != 0.0 {
            near -= at.signum();
        }
        // not where it is no number, either
        if near.abs() <= COORDINATE_LIMIT as f64 {
            Ok((near as i64, near == at && (near == 0.0) == (v == 0.0)))
        } else {
            Err(Fault::OutOfRange)
        }
    }

    /// Returns the point of two floats. Fails with [`Fault::OutOfRange`] if one is not finite, or too great for the lattice.
    pub fn point(self, x: f64, y: f64) -> Result<Rounded, Fault> {
        let (x, y) = (self.coordinate(x)?, self.coordinate(y)?);
        Ok(Rounded { point: Point { x: x.0, y: y.0 }, is_exact: x.1 && y.1 })
    }

    /// Returns the floats of a point: exact for powers from -960 to 1000.
    pub fn floats(self, point: Point) -> (f64, f64) {
        let power = self.power.saturating_neg();
        (scaled(point.x as f64, power), scaled(point.y as f64, power))
    }
}

/// Returns the direction of two floats in integers. Both are multiplied by the power of two that makes the greater one at least
/// 2^39 and less than 2^40 in size. If both are integers then, it is the same direction; else each is rounded to the nearest, ties
/// to even. (0, 0) stays (0, 0). Fails with [`Fault::OutOfRange`] if one is not finite.
///
/// ```
/// # use hull::{direction_of, Point};
/// let made = direction_of(0.5, -0.25)?;
/// assert_eq!((made.point, made.is_exact), (Point { x: 1 << 39, y: -(1 << 38) }, true));
/// # Ok::<(), hull::Fault>(())
/// ```
pub fn direction_of(dx: f64, dy: f64) -> Result<Rounded, Fault> {
    let greatest = dx.abs().max(dy.abs());
    if greatest == 0.0 || !greatest.is_finite() {
        return Lattice { power: 0 }.point(dx, dy);
    }
    // a float too small for an exponent of its own gets one
    let (normal, lifted) = if greatest < f64::MIN_POSITIVE { (greatest * 2f64.powi(64), 64) } else { (greatest, 0) };
    let exponent = (normal.to_bits() >> 52) as i32 - 1023 - lifted;
    Lattice { power: 39 - exponent }.point(dx, dy)
}

/// The direction in which a point is asked for: for (0, 0) the first one is.
pub(crate) fn asked_along(dx: f64, dy: f64) -> Result<Point, Fault> {
    let at = direction_of(dx, dy)?.point;
    Ok(if at == (Point { x: 0, y: 0 }) { Point { x: -1, y: 0 } } else { at })
}

/// A text that grows as memory is there.
struct Text(String);

impl Write for Text {
    fn write_str(&mut self, more: &str) -> fmt::Result {
        self.0.try_reserve(more.len()).map_err(|_| fmt::Error)?;
        self.0.push_str(more);
        Ok(())
    }
}

fn write_wkt(text: &mut Text, vertices: &[Point], power: i32) -> fmt::Result {
    let (begin, end, points) = match vertices.len() {
        0 => return text.write_str("POLYGON EMPTY"),
        1 => ("POINT (", ")", 1),
        2 => ("LINESTRING (", ")", 2),
        more => ("POLYGON ((", "))", more + 1),
    };
    text.write_str(begin)?;
    for (i, &point) in vertices.iter().cycle().take(points).enumerate() {
        text.write_str(if i == 0 { "" } else { ", " })?;
        if power == 0 {
            write!(text, "{} {}", point.x, point.y)?;
        } else {
            let (x, y) = Lattice { power }.floats(point);
            write!(text, "{x} {y}")?;
        }
    }
    text.write_str(end)
}

/// [`wkt`], or [`Fault::NoMemory`] or [`Fault::OutOfRange`].
pub(crate) fn try_wkt(vertices: &[Point], power: i32) -> Result<String, Fault> {
    let is_finite = |&point: &Point| {
        let (x, y) = Lattice { power }.floats(point);
        x.is_finite() && y.is_finite()
    };
    if !vertices.iter().all(is_finite) {
        return Err(Fault::OutOfRange);
    }
    let mut text = Text(String::new());
    write_wkt(&mut text, vertices, power).map_err(|_| Fault::NoMemory)?;
    Ok(text.0)
}

/// Returns vertices as well-known text (OGC 06-103r4), which GEOS, PostGIS and QGIS read: `POLYGON EMPTY`, a `POINT`, a
/// `LINESTRING`, or a `POLYGON` whose ring is closed and runs counterclockwise. Coordinates are divided by 2^`power`, and written
/// with the fewest digits that give that float again. Panics if memory is refused, or a number is greater than all floats.
pub fn wkt(vertices: &[Point], power: i32) -> String {
    try_wkt(vertices, power).unwrap_or_else(|fault| panic!("{fault}"))
}
