//! Bounds of distances of polygons, which compare exactly.
use crate::raw::{self, DistanceBoundsReply};
use std::cmp::Ordering;

/// A distance of two polygons, or of a polygon and a segment, by the floats next to it. Two are compared exactly, by the fractions
/// that their squares are.
#[derive(Clone, Copy, Debug)]
pub struct DistanceBounds {
    reply: DistanceBoundsReply,
}

impl DistanceBounds {
    pub(crate) fn new(reply: DistanceBoundsReply) -> DistanceBounds {
        DistanceBounds { reply }
    }

    /// Returns the greatest float that is not above the distance.
    pub fn down(&self) -> f64 {
        self.scaled(self.reply.lower)
    }

    /// Returns the least float that is not below the distance: [`down`](DistanceBounds::down) if it is a float, else the next one.
    pub fn up(&self) -> f64 {
        self.scaled(self.reply.upper)
    }

    /// Returns the square of the distance: the words of its numerator and of its denominator, the highest first. It is not in
    /// lowest terms.
    pub fn squared(&self) -> ([u64; 3], [u64; 2]) {
        let it = &self.reply;
        ([it.high, it.middle, it.low], [it.divisor_high, it.divisor_low])
    }

    /// A number of 53 bits, divided by a power of two: that is exact.
    fn scaled(&self, number: u64) -> f64 {
        number as f64 / (1u128 << self.reply.shift) as f64
    }
}

impl PartialEq for DistanceBounds {
    fn eq(&self, other: &DistanceBounds) -> bool {
        self.cmp(other) == Ordering::Equal
    }
}

impl Eq for DistanceBounds {}

impl PartialOrd for DistanceBounds {
    fn partial_cmp(&self, other: &DistanceBounds) -> Option<Ordering> {
        Some(self.cmp(other))
    }
}

impl Ord for DistanceBounds {
    fn cmp(&self, other: &DistanceBounds) -> Ordering {
        // SAFETY: both are only read.
        unsafe { raw::hull_distance_bounds_compare(&self.reply, &other.reply) }.cmp(&0)
    }
}
