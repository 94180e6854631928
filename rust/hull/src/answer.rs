//! Replies in numbers, as types of Rust. Both libraries use the same numbers.
use crate::raw::{code, DistanceBoundsReply, HitReply, MotionReply, Reply, WitnessReply};
use crate::{Distance, DistanceBounds, Entry, Fault, Hit, Motion, Nearest, Place, Point, Relation, Separation, Strip, Witness};

/// The multiplicity of a point that was added.
pub(crate) fn multiplicity_added(reply: Reply) -> Result<u32, Fault> {
    match reply.code {
        code::ADDED => Ok(1),
        code::AGAIN => Ok(reply.number as u32),
        other => Err(fault_of(other)),
    }
}

/// The multiplicity that is left of a point that was removed; `None` if it was not there.
pub(crate) fn multiplicity_left(reply: Reply) -> Result<Option<u32>, Fault> {
    match reply.code {
        code::REMOVED => Ok(Some(0)),
        code::LEFT => Ok(Some(reply.number as u32)),
        code::ABSENT => Ok(None),
        other => Err(fault_of(other)),
    }
}

pub(crate) fn place(reply: Reply) -> Result<Place, Fault> {
    match reply.code {
        code::INSIDE => Ok(Place::Inside),
        code::ON => Ok(Place::On),
        code::OUTSIDE => Ok(Place::Outside),
        other => Err(fault_of(other)),
    }
}

pub(crate) fn tangents(reply: Reply) -> Result<Option<(Point, Point)>, Fault> {
    match reply.code {
        code::TANGENTS => Ok(Some((reply.point(), reply.other_point()))),
        code::NO_TANGENT => Ok(None),
        other => Err(fault_of(other)),
    }
}

pub(crate) fn extreme(reply: Reply) -> Result<Option<Point>, Fault> {
    match reply.code {
        code::POINT => Ok(Some(reply.point())),
        code::EMPTY => Ok(None),
        other => Err(fault_of(other)),
    }
}

pub(crate) fn separation(reply: Reply) -> Result<Option<Separation>, Fault> {
    match reply.code {
        code::DISJOINT => Ok(Some(Separation { farthest: reply.point(), direction: reply.other_point() })),
        code::INTERSECTING | code::EMPTY => Ok(None),
        other => Err(fault_of(other)),
    }
}

pub(crate) fn nearest(reply: Reply) -> Result<Option<Nearest>, Fault> {
    match reply.code {
        code::COVERED => Ok(Some(Nearest::Covered)),
        code::VERTEX => Ok(Some(Nearest::Vertex(reply.point()))),
        code::EDGE => Ok(Some(Nearest::Edge(reply.point(), reply.other_point()))),
        code::EMPTY => Ok(None),
        other => Err(fault_of(other)),
    }
}

/// Two points: of a box, or two vertices.
pub(crate) fn two_points(reply: Reply) -> Result<Option<(Point, Point)>, Fault> {
    match reply.code {
        code::BOX | code::POINTS => Ok(Some((reply.point(), reply.other_point()))),
        code::EMPTY => Ok(None),
        other => Err(fault_of(other)),
    }
}

pub(crate) fn number_or_none(reply: Reply) -> Result<Option<u128>, Fault> {
    match reply.code {
        code::EMPTY => Ok(None),
        _ => number(reply).map(Some),
    }
}

pub(crate) fn whether(reply: Reply) -> Result<bool, Fault> {
    number(reply).map(|number| number == 1)
}

pub(crate) fn witness(reply: WitnessReply) -> Result<Option<Witness>, Fault> {
    Ok(Some(match reply.code {
        code::COVERED => Witness::Covered(reply.a),
        code::WITHIN => Witness::Within(reply.a),
        code::CROSSING => Witness::Crossing([reply.a, reply.b], [reply.c, reply.d]),
        code::DISJOINT => Witness::Disjoint(Separation { farthest: reply.a, direction: reply.b }),
        code::EMPTY => return Ok(None),
        other => return Err(fault_of(other)),
    }))
}

pub(crate) fn distance(reply: WitnessReply) -> Result<Option<Distance>, Fault> {
    Ok(Some(match reply.code {
        code::INTERSECTING => Distance::Zero,
        code::POINTS => Distance::Vertices(reply.a, reply.b),
        code::VERTEX => Distance::VertexAndEdge(reply.a, [reply.b, reply.c]),
        code::EDGE => Distance::EdgeAndVertex([reply.a, reply.b], reply.c),
        code::EMPTY => return Ok(None),
        other => return Err(fault_of(other)),
    }))
}

pub(crate) fn distance_bounds(reply: DistanceBoundsReply) -> Result<Option<DistanceBounds>, Fault> {
    match reply.code {
        code::NUMBER => Ok(Some(DistanceBounds::new(reply))),
        code::EMPTY => Ok(None),
        other => Err(fault_of(other)),
    }
}

pub(crate) fn relation(reply: Reply) -> Result<Relation, Fault> {
    number(reply).map(|number| relation_of(number as u64))
}

/// The relation of this number.
pub(crate) fn relation_of(number: u64) -> Relation {
    match number {
        // written by tools/table.py: relations
        0 => Relation::Disjoint,
        1 => Relation::Touching,
        2 => Relation::Overlapping,
        3 => Relation::Within,
        4 => Relation::Covers,
        5 => Relation::Equal,
        // end of what tools/table.py writes
        other => unreachable!("the library answered {other}"),
    }
}

pub(crate) fn hit(reply: HitReply) -> Result<Option<Hit>, Fault> {
    let place = match reply.code {
        code::COVERED => Entry::Start,
        code::EDGE => Entry::Edge(reply.a, reply.b),
        code::VERTEX => Entry::Vertex(reply.a),
        code::DISJOINT | code::EMPTY => return Ok(None),
        other => return Err(fault_of(other)),
    };
    let number = |high, low| u128::from(high) << 64 | u128::from(low);
    Ok(Some(Hit { place, part: number(reply.high, reply.low), whole: number(reply.divisor_high, reply.divisor_low) }))
}

pub(crate) fn motion(reply: MotionReply) -> Result<Option<Motion>, Fault> {
    Ok(hit(reply.hit)?.map(|hit| Motion { hit, vertex: reply.vertex, moves: reply.moves == 1 }))
}

pub(crate) fn strip(reply: WitnessReply) -> Result<Option<Strip>, Fault> {
    match reply.code {
        code::EDGE => Ok(Some(Strip { from: reply.a, to: reply.b, farthest: reply.c })),
        code::EMPTY => Ok(None),
        other => Err(fault_of(other)),
    }
}

/// The value of a call that can fail only if arrays are checked, or if the library is not ours.
pub(crate) fn certain<T>(answer: Result<T, Fault>) -> T {
    answer.unwrap_or_else(|fault| panic!("the library failed: {fault}"))
}

/// A number in a reply: of points, of vertices, also if those do not fit, or twice the area.
pub(crate) fn number(reply: Reply) -> Result<u128, Fault> {
    match reply.code {
        code::NUMBER | code::VERTICES | code::TOO_SMALL => Ok(u128::from(reply.high) << 64 | u128::from(reply.number)),
        other => Err(fault_of(other)),
    }
}

/// The fault of a code that is no reply of a call.
pub(crate) fn fault_of(code: u32) -> Fault {
    match code {
        code::OUT_OF_RANGE => Fault::OutOfRange,
        code::ZERO_DIRECTION => Fault::ZeroDirection,
        code::TOO_MANY => Fault::TooMany,
        code::NO_MEMORY => Fault::NoMemory,
        code::OUT_OF_ORDER => Fault::OutOfOrder,
        code::OUT_OF_LIMITS => Fault::BadLimit,
        code::NO_SEAT => Fault::NoSeat,
        code::NOT_OPEN => Fault::NotOpen,
        code::SEATS_OUT => Fault::SeatsOut,
        code::FULL => Fault::Full,
        code::BUSY => Fault::Busy,
        code::NO_POLYGON => Fault::NoPolygon,
        other => unreachable!("the library answered {other}"),
    }
}
