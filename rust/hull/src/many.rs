//! One kind of call at each of many points.
use crate::raw::{Reply, Request};
use crate::{Fault, Point};

const AT_ONCE: usize = 256;

/// Makes one kind of call at each of the points, in order, and passes each reply on, up to the first that fails for itself.
/// `serve` makes some calls, and returns how many it made.
pub(crate) fn at_each(
    kind: u32,
    points: &[Point],
    serve: impl Fn(&[Request], &mut [Reply]) -> usize,
    mut each: impl FnMut(Reply) -> Result<(), Fault>,
) -> Result<(), Fault> {
    let mut requests = [Request { kind, x: 0, y: 0 }; AT_ONCE];
    let mut replies = [Reply::NONE; AT_ONCE];
    for some in points.chunks(AT_ONCE) {
        for (request, point) in requests.iter_mut().zip(some) {
            (request.x, request.y) = (point.x, point.y);
        }
        let made = serve(&requests[..some.len()], &mut replies[..some.len()]);
        replies[..made].iter().try_for_each(|&reply| each(reply))?;
    }
    Ok(())
}

/// Returns what `read` makes of each of the replies.
pub(crate) fn all<T>(
    kind: u32,
    points: &[Point],
    serve: impl Fn(&[Request], &mut [Reply]) -> usize,
    read: impl Fn(Reply) -> Result<T, Fault>,
) -> Result<Vec<T>, Fault> {
    let mut answers = Vec::new();
    answers.try_reserve_exact(points.len()).map_err(|_| Fault::NoMemory)?;
    at_each(kind, points, serve, |reply| read(reply).map(|answer| answers.push(answer)))?;
    Ok(answers)
}
