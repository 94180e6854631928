//! Polygons that move straight.
use crate::answer;
use crate::counted::Counted;
use crate::polygon::Polygon;
use crate::raw::{self, code, Reply};
use crate::{Fault, Hit, Point};

/// When a polygon that moves straight first intersects one that does not move ([`first_meeting`](crate::PolygonQuestions::first_meeting)).
#[derive(Clone, Copy, Debug, PartialEq, Eq)]
pub struct Motion {
    /// Where the vertex arrives, and how far along; [`Entry::Start`](crate::Entry::Start) if they intersect before it moves.
    pub hit: Hit,
    /// A vertex that arrives first,
    pub vertex: Point,
    /// of the polygon that moves; else of the other, at the moving one as it was before.
    pub moves: bool,
}

impl Polygon {
    /// Another polygon of as many vertices, which a call writes.
    fn rewritten(&self, write: impl Fn(&[Point], &mut [Point]) -> Reply) -> Result<Polygon, Fault> {
        let mut vertices = Vec::new();
        vertices.try_reserve_exact(self.vertices().len()).map_err(|_| Fault::NoMemory)?;
        vertices.extend_from_slice(self.vertices());
        let reply = write(self.vertices(), &mut vertices);
        match reply.code {
            code::VERTICES => Ok(Polygon { vertices: Counted::new(vertices)? }),
            other => Err(answer::fault_of(other)),
        }
    }

    /// Returns the polygon translated by a vector. Fails with [`Fault::OutOfRange`] if a coordinate would be.
    pub fn translate(&self, by: Point) -> Result<Polygon, Fault> {
        // SAFETY: the vertices are a convex polygon, and the array has as many, which were written.
        self.rewritten(|these, out| unsafe {
            raw::hull_polygon_translate(these.as_ptr(), these.len(), by.x, by.y, out.as_mut_ptr())
        })
    }

    /// Returns the polygon rotated about the origin by the angle of `by`, and scaled by its length. Fails with
    /// [`Fault::OutOfRange`] if a coordinate would be, and [`Fault::ZeroDirection`]. For a rational angle, as of (3, 4), scale all
    /// others alike, which (5, 0) does.
    pub fn rotate(&self, by: Point) -> Result<Polygon, Fault> {
        // SAFETY: the same.
        self.rewritten(|these, out| unsafe {
            raw::hull_polygon_rotate(these.as_ptr(), these.len(), by.x, by.y, out.as_mut_ptr())
        })
    }
}
