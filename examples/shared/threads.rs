//! Three threads add points of a growing square, while a fourth asks whether a place is covered yet. At the end the program prints
//! the state of the hull, and writes the journal of all calls to the file that you name, if you name one: `hullbook check` judges it.
use hull::{Fault, Limits, Place, Point, Seat, SharedHull};
use std::error::Error;
use std::thread;

const ROUNDS: i64 = 200;
const PLACE: Point = Point { x: 5, y: 50 };

fn insert(seat: &mut Seat, height: fn(i64) -> i64) -> Result<(), Fault> {
    for i in 0..ROUNDS {
        let x = if i % 2 == 0 { -i } else { i };
        seat.add(Point { x, y: height(i) })?;
    }
    Ok(())
}

/// Asks until the place is covered, at most as often as one thread inserts; returns how often it asked.
fn ask(seat: &mut Seat) -> Result<i64, Fault> {
    for asked in 1..ROUNDS {
        if seat.place(PLACE)? == Place::Inside {
            return Ok(asked);
        }
    }
    seat.place(PLACE).map(|_| ROUNDS)
}

fn main() -> Result<(), Box<dyn Error>> {
    let hull = SharedHull::open(Limits { points: 1000, first: 0, capacity: 5 * ROUNDS as u32, seats: 4 })?;
    let heights: [fn(i64) -> i64; 3] = [|i| i, |i| -i, |_| 0];
    let mut inserting = Vec::new();
    for (number, height) in (1..).zip(heights) {
        let mut seat = hull.acquire_seat(number)?;
        inserting.push(thread::spawn(move || insert(&mut seat, height)));
    }
    let mut seat = hull.acquire_seat(0)?;
    let asked = ask(&mut seat)?;
    for thread in inserting {
        thread.join().expect("no thread panics")?;
    }
    println!("{} points, {} corners, doubled area {}", seat.count()?, seat.vertex_count()?, seat.doubled_area()?);
    println!("(5, 50) lies {:?}", seat.place(PLACE)?);
    seat.release();
    let journal = hull.close()?;
    let calls = 3 * ROUNDS + asked + 4;
    println!("each call has its line: {}", journal.lines().count() as i64 == calls + 2);
    if let Some(file) = std::env::args().nth(1) {
        std::fs::write(file, journal)?;
    }
    Ok(())
}
