//! Makes the calls of random_calls.py on a hull of `rust/hull` and on its polygon: replay FILE. Prints how many it made.
use hull::{Fault, Hull, Place, Point, Polygon};

fn coordinates(points: &[Point]) -> String {
    points.iter().map(|point| format!(" {} {}", point.x, point.y)).collect()
}

fn place(place: Place) -> String {
    match place {
        Place::Inside => " inside",
        Place::On => " on",
        Place::Outside => " outside",
    }
    .to_string()
}

fn tangents(seen: Option<(Point, Point)>) -> String {
    seen.map_or(String::new(), |(left, right)| coordinates(&[left, right]))
}

fn extreme(farthest: Option<Point>) -> String {
    farthest.map_or(String::new(), |point| coordinates(&[point]))
}

/// Returns the answer of the hull, and that of its polygon.
fn questions(hull: &Hull, polygon: &Polygon, word: &str, at: Point) -> Result<[String; 2], Fault> {
    Ok(match word {
        "place" => [place(hull.place(at)?), place(polygon.place(at)?)],
        "tangents" => [tangents(hull.tangents(at)?), tangents(polygon.tangents(at)?)],
        "extreme" => [extreme(hull.extreme(at)?), extreme(polygon.extreme(at)?)],
        "vertices" => [coordinates(hull.vertices()?.as_slice()), coordinates(polygon.vertices())],
        _ => [format!(" {}", hull.doubled_area()), format!(" {}", polygon.doubled_area())],
    })
}

fn answers(hull: &mut Hull, word: &str, at: Point) -> Result<[String; 2], Fault> {
    let number = match word {
        "add" => match hull.add(at) {
            Err(Fault::TooMany) => 0,
            result => i64::from(result?),
        },
        "remove" => hull.remove(at)?.map_or(-1, i64::from),
        "multiplicity" => i64::from(hull.multiplicity(at)?),
        _ => return questions(hull, &hull.polygon()?, word, at),
    };
    Ok([format!(" {number}"), format!(" {number}")])
}

fn main() -> Result<(), Box<dyn std::error::Error>> {
    let text = std::fs::read_to_string(std::env::args().nth(1).ok_or("no file")?)?;
    let mut hull = Hull::new(40)?;
    let mut made = 0;
    for line in text.lines() {
        let mut words = line.splitn(4, ' ');
        let word = words.next().ok_or("no word")?;
        let (x, y) = (words.next().ok_or("no x")?.parse()?, words.next().ok_or("no y")?.parse()?);
        let wanted = words.next().map_or(String::new(), |rest| format!(" {rest}"));
        if word == "move" {
            hull.clear();
            continue;
        }
        assert_eq!(answers(&mut hull, word, Point { x, y })?, [wanted.clone(), wanted], "{line}");
        made += 1;
    }
    assert!(made > 0);
    println!("{made} calls");
    Ok(())
}
