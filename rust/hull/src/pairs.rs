//! Many polygons at once.
use crate::answer;
use crate::polygon::{Polygon, PolygonQuestions};
use crate::raw::{self, code, VertexArray};
use crate::{Fault, Point, Relation};

/// A vector of so many of these.
fn many<T: Clone>(one: T, count: usize) -> Result<Vec<T>, Fault> {
    let mut all = Vec::new();
    all.try_reserve_exact(count).map_err(|_| Fault::NoMemory)?;
    all.resize(count, one);
    Ok(all)
}

/// The vertices of polygons.
fn vertex_arrays(polygons: &[Polygon]) -> Result<Vec<VertexArray>, Fault> {
    let mut all = Vec::new();
    all.try_reserve_exact(polygons.len()).map_err(|_| Fault::NoMemory)?;
    all.extend(polygons.iter().map(|it| VertexArray { vertices: it.vertices().as_ptr(), count: it.vertices().len() }));
    Ok(all)
}

/// The values of an iterator that knows how many it has.
fn collected<T>(values: impl ExactSizeIterator<Item = T>) -> Result<Vec<T>, Fault> {
    let mut all = Vec::new();
    all.try_reserve_exact(values.len()).map_err(|_| Fault::NoMemory)?;
    all.extend(values);
    Ok(all)
}

/// Returns which polygons have a distance of at most `numerator / denominator`, exactly, or, with 0 / 1, intersect: the pairs of
/// their indices, the lesser first, in order. By a sweep over their boxes.
pub fn pairs_within_distance(polygons: &[Polygon], numerator: u64, denominator: u32) -> Result<Vec<(usize, usize)>, Fault> {
    let all = vertex_arrays(polygons)?;
    let mut capacity = polygons.len();
    loop {
        let mut pairs = many([0; 2], capacity)?;
        // SAFETY: the arrays of vertices are convex polygons, which nobody writes; the array was written, and is as long as is stated.
        let reply = unsafe {
            raw::hull_pairs_within_distance(all.as_ptr(), all.len(), numerator, denominator, pairs.as_mut_ptr(), pairs.len())
        };
        match reply.code {
            code::NUMBER => return collected(pairs[..reply.number as usize].iter().map(|&[a, b]| (a, b))),
            code::TOO_SMALL => capacity = reply.number as usize,
            other => return Err(answer::fault_of(other)),
        }
    }
}

impl PolygonQuestions {
    /// Returns how this polygon is related to each of the others, in order.
    pub fn relations(&self, others: &[Polygon]) -> Result<Vec<Relation>, Fault> {
        let (these, all) = (self.vertices(), vertex_arrays(others)?);
        let mut numbers = many(0, all.len())?;
        // SAFETY: all are convex polygons, which nobody writes; the array was written, and has an element for each.
        unsafe { raw::hull_polygon_relations(these.as_ptr(), these.len(), all.as_ptr(), all.len(), numbers.as_mut_ptr()) };
        collected(numbers.iter().map(|&number| answer::relation_of(number.into())))
    }

    /// Returns whether the polygon intersects each of the segments, in order.
    pub fn intersects_segments(&self, segments: &[[Point; 2]]) -> Result<Vec<bool>, Fault> {
        let these = self.vertices();
        let mut answers = many(0, segments.len())?;
        // SAFETY: the same.
        let asked = unsafe {
            raw::hull_polygon_intersects_segments(these.as_ptr(), these.len(), segments.as_ptr(), segments.len(), answers.as_mut_ptr())
        };
        if asked < segments.len() {
            return Err(Fault::OutOfRange);
        }
        collected(answers.iter().map(|&answer| answer == 1))
    }

    /// Returns for each vertex the index of the first of the points that is equal to it: which input it is. `None` if none is.
    pub fn indices(&self, points: &[Point]) -> Result<Vec<Option<usize>>, Fault> {
        let these = self.vertices();
        let mut indices = many(0, these.len())?;
        // SAFETY: the same.
        unsafe { raw::hull_polygon_indices(these.as_ptr(), these.len(), points.as_ptr(), points.len(), indices.as_mut_ptr()) };
        collected(indices.iter().map(|&index| Some(index).filter(|&index| index < points.len())))
    }
}
