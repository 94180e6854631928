//! The rival: the same leaf tree with stored bridges (Overmars and van Leeuwen, 1981) as a Rust programmer would write it in an
//! afternoon, nodes in an arena, the tree under `std::sync::Mutex`, one thread per worker. It reads the same scripts and writes the
//! same reports as `hullbook run`, and proves nothing. `bench/embed` calls its tree.
//!
//! A call waits by that mutex, or by a fair lock of the rival's own, which serves first come, first served as the program does.
//!
//!     rival run SCRIPT [--capacity N]      the report of a script
//!     rival fair SCRIPT [--capacity N]     the same under the fair lock
//!     rival read SCRIPT                    only reads a script
//!     rival parse JOURNAL                  splits each line of a journal and parses its numbers
use std::cell::UnsafeCell;
use std::fmt::Write as _;
use std::io::Write as _;
use std::sync::atomic::{AtomicU64, Ordering};
use std::sync::Mutex;

#[derive(Clone, Copy, PartialEq, Eq, PartialOrd, Ord)]
pub struct Point {
    pub x: i64,
    pub y: i64,
}

fn orient(a: Point, b: Point, c: Point) -> i128 {
    (b.x - a.x) as i128 * (c.y - a.y) as i128 - (b.y - a.y) as i128 * (c.x - a.x) as i128
}

fn product(d: Point, p: Point) -> i128 {
    d.x as i128 * p.x as i128 + d.y as i128 * p.y as i128
}

fn distance_squared(a: Point, b: Point) -> i128 {
    let (x, y) = ((b.x - a.x) as i128, (b.y - a.y) as i128);
    x * x + y * y
}

pub type Edge = (Point, Point);

#[derive(Clone, Copy)]
enum Node {
    /// A point, and its multiplicity.
    Leaf(Point, u32),
    Fork { upper: Edge, lower: Edge, first: Point, last: Point, height: u32, left: u32, right: u32 },
}

/// Whether the lines through a, b and through c, d cross before m or at m; `s1` is the orientation of c, and a, b, c, d are in
/// order, both turning right.
fn crosses_at_or_before(s1: i128, a: Point, b: Point, c: Point, d: Point, m: Point) -> bool {
    let s2 = orient(b, a, d);
    let x = s1 * (d.x - m.x) as i128 + s2 * (c.x - m.x) as i128;
    let y = s1 * (d.y - m.y) as i128 + s2 * (c.y - m.y) as i128;
    let s = s1 + s2;
    if s > 0 { (x, y) <= (0, 0) } else { (x, y) >= (0, 0) }
}

/// The greatest multiplicity of a point.
const MULTIPLICITY_LIMIT: u32 = 65535;

pub struct Tree {
    nodes: Vec<Node>,
    free: Vec<u32>,
    root: Option<u32>,
    count: usize,
    limit: usize,
}

impl Tree {
    pub fn new(limit: usize) -> Tree {
        Tree { nodes: Vec::new(), free: Vec::new(), root: None, count: 0, limit }
    }

    fn first(&self, n: u32) -> Point {
        match &self.nodes[n as usize] {
            Node::Leaf(p, _) => *p,
            Node::Fork { first, .. } => *first,
        }
    }

    fn last(&self, n: u32) -> Point {
        match &self.nodes[n as usize] {
            Node::Leaf(p, _) => *p,
            Node::Fork { last, .. } => *last,
        }
    }

    fn height(&self, n: u32) -> u32 {
        match &self.nodes[n as usize] {
            Node::Leaf(..) => 0,
            Node::Fork { height, .. } => *height,
        }
    }

    fn halves(&self, n: u32) -> (u32, u32) {
        match &self.nodes[n as usize] {
            Node::Leaf(..) => unreachable!(),
            Node::Fork { left, right, .. } => (*left, *right),
        }
    }

    fn upper_bridge(&self, mut u: u32, mut w: u32) -> Edge {
        let m = self.first(w);
        loop {
            match (&self.nodes[u as usize], &self.nodes[w as usize]) {
                (Node::Leaf(p, _), Node::Leaf(q, _)) => return (*p, *q),
                (Node::Leaf(p, _), Node::Fork { upper: (c, d), left, right, .. }) => {
                    w = if orient(*p, *c, *d) >= 0 { *right } else { *left };
                }
                (Node::Fork { upper: (a, b), left, right, .. }, Node::Leaf(q, _)) => {
                    u = if orient(*a, *b, *q) >= 0 { *left } else { *right };
                }
                (Node::Fork { upper: (a, b), left: ul, right: ur, .. }, Node::Fork { upper: (c, d), left: wl, right: wr, .. }) => {
                    let side = orient(*a, *b, *c);
                    if side >= 0 {
                        u = *ul;
                    } else if orient(*b, *c, *d) >= 0 {
                        w = *wr;
                    } else if crosses_at_or_before(side, *a, *b, *c, *d, m) {
                        u = *ur;
                    } else {
                        w = *wl;
                    }
                }
            }
        }
    }

    /// Returns the upper bridge after a turn by 180 degrees.
    fn lower_bridge(&self, mut u: u32, mut w: u32) -> Edge {
        let m = self.last(u);
        loop {
            match (&self.nodes[u as usize], &self.nodes[w as usize]) {
                (Node::Leaf(p, _), Node::Leaf(q, _)) => return (*p, *q),
                (Node::Fork { lower: (a, b), left, right, .. }, Node::Leaf(q, _)) => {
                    u = if orient(*q, *b, *a) >= 0 { *left } else { *right };
                }
                (Node::Leaf(p, _), Node::Fork { lower: (c, d), left, right, .. }) => {
                    w = if orient(*d, *c, *p) >= 0 { *right } else { *left };
                }
                (Node::Fork { lower: (a, b), left: ul, right: ur, .. }, Node::Fork { lower: (c, d), left: wl, right: wr, .. }) => {
                    let side = orient(*d, *c, *b);
                    if side >= 0 {
                        w = *wr;
                    } else if orient(*c, *b, *a) >= 0 {
                        u = *ul;
                    } else if lower_crosses(side, *d, *c, *b, *a, m) {
                        w = *wl;
                    } else {
                        u = *ur;
                    }
                }
            }
        }
    }

    fn put(&mut self, node: Node) -> u32 {
        match self.free.pop() {
            Some(n) => {
                self.nodes[n as usize] = node;
                n
            }
            None => {
                self.nodes.push(node);
                self.nodes.len() as u32 - 1
            }
        }
    }

    /// Makes `n` the fork over two halves.
    fn join(&mut self, n: u32, left: u32, right: u32) -> u32 {
        let height = self.height(left).max(self.height(right)) + 1;
        let upper = self.upper_bridge(left, right);
        let lower = self.lower_bridge(left, right);
        self.nodes[n as usize] = Node::Fork { upper, lower, first: self.first(left), last: self.last(right), height, left, right };
        n
    }

    fn rebalance(&mut self, n: u32, left: u32, right: u32) -> u32 {
        let (l, r) = (self.height(left), self.height(right));
        if l > r + 1 {
            let (outer, inner) = self.halves(left);
            if self.height(outer) >= self.height(inner) {
                let lower = self.join(n, inner, right);
                return self.join(left, outer, lower);
            }
            let (v, w) = self.halves(inner);
            let first = self.join(left, outer, v);
            let second = self.join(n, w, right);
            return self.join(inner, first, second);
        }
        if r > l + 1 {
            let (inner, outer) = self.halves(right);
            if self.height(outer) >= self.height(inner) {
                let lower = self.join(n, left, inner);
                return self.join(right, lower, outer);
            }
            let (v, w) = self.halves(inner);
            let first = self.join(n, left, v);
            let second = self.join(right, w, outer);
            return self.join(inner, first, second);
        }
        self.join(n, left, right)
    }

    /// Returns the leaf of a point.
    fn leaf_of(&self, p: Point) -> Option<u32> {
        let mut n = self.root?;
        loop {
            match &self.nodes[n as usize] {
                Node::Leaf(q, _) => return if *q == p { Some(n) } else { None },
                Node::Fork { left, right, .. } => n = if p < self.first(*right) { *left } else { *right },
            }
        }
    }

    fn insert(&mut self, n: u32, p: Point) -> u32 {
        match self.nodes[n as usize] {
            Node::Leaf(q, _) => {
                let leaf = self.put(Node::Leaf(p, 1));
                let fork = self.put(Node::Leaf(p, 1));
                if p < q { self.join(fork, leaf, n) } else { self.join(fork, n, leaf) }
            }
            Node::Fork { left, right, .. } => {
                if p < self.first(right) {
                    let more = self.insert(left, p);
                    self.rebalance(n, more, right)
                } else {
                    let more = self.insert(right, p);
                    self.rebalance(n, left, more)
                }
            }
        }
    }

    fn take(&mut self, n: u32, p: Point) -> Option<u32> {
        match self.nodes[n as usize] {
            Node::Leaf(..) => {
                self.free.push(n);
                None
            }
            Node::Fork { left, right, .. } => {
                let (less, other, at_left) =
                    if p < self.first(right) { (self.take(left, p), right, true) } else { (self.take(right, p), left, false) };
                match less {
                    None => {
                        self.free.push(n);
                        Some(other)
                    }
                    Some(part) if at_left => Some(self.rebalance(n, part, other)),
                    Some(part) => Some(self.rebalance(n, other, part)),
                }
            }
        }
    }

    pub fn add(&mut self, p: Point) -> Reply {
        if let Some(leaf) = self.leaf_of(p) {
            let Node::Leaf(_, times) = &mut self.nodes[leaf as usize] else { unreachable!() };
            if *times == MULTIPLICITY_LIMIT {
                return Reply::TooMany;
            }
            *times += 1;
            return Reply::Again(*times);
        }
        match self.root {
            _ if self.count == self.limit => return Reply::TooMany,
            Some(root) => self.root = Some(self.insert(root, p)),
            None => {
                let leaf = self.put(Node::Leaf(p, 1));
                self.root = Some(leaf);
            }
        }
        self.count += 1;
        Reply::Added
    }

    pub fn remove(&mut self, p: Point) -> Reply {
        let Some(leaf) = self.leaf_of(p) else { return Reply::Absent };
        let Node::Leaf(_, times) = &mut self.nodes[leaf as usize] else { unreachable!() };
        if *times > 1 {
            *times -= 1;
            return Reply::Left(*times);
        }
        let root = self.root.expect("a leaf stands below the root");
        self.root = self.take(root, p);
        self.count -= 1;
        Reply::Removed
    }

    fn extreme(&self, d: Point) -> Option<Point> {
        let mut n = self.root?;
        loop {
            match &self.nodes[n as usize] {
                Node::Leaf(p, _) => return Some(*p),
                Node::Fork { upper, lower, left, right, .. } => {
                    let (p, q) = if d.y > 0 { *upper } else { *lower };
                    n = if product(d, q) <= product(d, p) { *left } else { *right };
                }
            }
        }
    }

    /// Returns the edge of a chain round q, which is at or after its start and before its end.
    fn lower_after(&self, q: Point) -> Edge {
        let mut n = self.root.unwrap();
        loop {
            let Node::Fork { lower, left, right, .. } = &self.nodes[n as usize] else { unreachable!() };
            if q < lower.0 {
                n = *left;
            } else if q < lower.1 {
                return *lower;
            } else {
                n = *right;
            }
        }
    }

    fn upper_before(&self, q: Point) -> Edge {
        let mut n = self.root.unwrap();
        loop {
            let Node::Fork { upper, left, right, .. } = &self.nodes[n as usize] else { unreachable!() };
            if upper.1 < q {
                n = *right;
            } else if upper.0 < q {
                return *upper;
            } else {
                n = *left;
            }
        }
    }

    pub fn place(&self, q: Point) -> Place {
        let Some(root) = self.root else { return Place::Outside };
        let (first, last) = (self.first(root), self.last(root));
        if q < first || last < q {
            return Place::Outside;
        }
        if q == first || q == last {
            return Place::On;
        }
        let (a, b) = self.lower_after(q);
        let (c, d) = self.upper_before(q);
        let (below, above) = (orient(a, b, q), orient(c, d, q));
        if below < 0 || above > 0 {
            Place::Outside
        } else if below == 0 || above == 0 {
            Place::On
        } else {
            Place::Inside
        }
    }

    /// Calls `visit` with each vertex, counterclockwise from the first.
    fn visit_vertices(&self, mut visit: impl FnMut(Point)) {
        let Some(root) = self.root else { return };
        let (first, last) = (self.first(root), self.last(root));
        visit(first);
        let mut v = first;
        while v != last {
            v = self.lower_after(v).1;
            visit(v);
        }
        while v != first {
            v = self.upper_before(v).0;
            if v != first {
                visit(v);
            }
        }
    }

    fn tangents(&self, q: Point) -> Option<Edge> {
        if !matches!(self.place(q), Place::Outside) {
            return None;
        }
        let mut best: Option<Edge> = None;
        self.visit_vertices(|v| {
            best = Some(match best {
                None => (v, v),
                Some((l, r)) => {
                    let (at_left, at_right) = (orient(q, l, v), orient(q, r, v));
                    let farther = |u: Point| distance_squared(q, u) < distance_squared(q, v);
                    (
                        if at_left > 0 || at_left == 0 && farther(l) { v } else { l },
                        if at_right < 0 || at_right == 0 && farther(r) { v } else { r },
                    )
                }
            });
        });
        best
    }

    fn vertices(&self) -> Vec<Point> {
        let mut list = Vec::new();
        self.visit_vertices(|v| list.push(v));
        list
    }

    pub fn area2(&self) -> i128 {
        let Some(root) = self.root else { return 0 };
        let first = self.first(root);
        let (mut sum, mut before) = (0, first);
        self.visit_vertices(|v| {
            sum += orient(first, before, v);
            before = v;
        });
        sum
    }
}

/// The crossing test of the rotated halves: m is the last point of the left half.
fn lower_crosses(s1: i128, a: Point, b: Point, c: Point, d: Point, m: Point) -> bool {
    let s2 = orient(b, a, d);
    let x = s1 * (m.x - d.x) as i128 + s2 * (m.x - c.x) as i128;
    let y = s1 * (m.y - d.y) as i128 + s2 * (m.y - c.y) as i128;
    let s = s1 + s2;
    if s > 0 { (x, y) <= (0, 0) } else { (x, y) >= (0, 0) }
}

pub enum Place {
    Inside,
    On,
    Outside,
}

#[derive(Clone, Copy)]
enum Call {
    Add(Point),
    Remove(Point),
    Extreme(Point),
    Place(Point),
    Tangents(Point),
    Vertices,
    Area,
    Count,
}

pub enum Reply {
    Added,
    Again(u32),
    TooMany,
    Removed,
    Left(u32),
    Absent,
    Farthest(Point),
    Empty,
    Lies(Place),
    Touches(Edge),
    NoTangent,
    List(Vec<Point>),
    Area(i128),
    Count(usize),
    Full,
}

fn serve(tree: &mut Tree, call: Call) -> Reply {
    match call {
        Call::Add(p) => tree.add(p),
        Call::Remove(p) => tree.remove(p),
        Call::Extreme(d) => tree.extreme(d).map_or(Reply::Empty, Reply::Farthest),
        Call::Place(q) => Reply::Lies(tree.place(q)),
        Call::Tangents(q) => tree.tangents(q).map_or(Reply::NoTangent, Reply::Touches),
        Call::Vertices => Reply::List(tree.vertices()),
        Call::Area => Reply::Area(tree.area2()),
        Call::Count => Reply::Count(tree.count),
    }
}

/// The tree, and how many calls it has served.
struct Book {
    tree: Tree,
    served: usize,
    capacity: usize,
}

impl Book {
    fn serve(&mut self, call: Call) -> Reply {
        if self.served == self.capacity {
            return Reply::Full;
        }
        self.served += 1;
        serve(&mut self.tree, call)
    }
}

/// A lock that calls a function on the book, for one caller at a time.
trait Lock: Sync {
    fn with<T>(&self, work: impl FnOnce(&mut Book) -> T) -> T;
}

impl Lock for Mutex<Book> {
    fn with<T>(&self, work: impl FnOnce(&mut Book) -> T) -> T {
        work(&mut self.lock().unwrap())
    }
}

/// A ticket lock (Mellor-Crummey and Scott, 1991): a waiting caller looks a hundred times, and then yields between two looks.
struct TicketLock {
    next: AtomicU64,
    served: AtomicU64,
    book: UnsafeCell<Book>,
}

// SAFETY: only `with` reaches the book, from the turn of the caller's number to the store that ends it.
unsafe impl Sync for TicketLock {}

impl Lock for TicketLock {
    fn with<T>(&self, work: impl FnOnce(&mut Book) -> T) -> T {
        let number = self.next.fetch_add(1, Ordering::Relaxed);
        let mut looks = 0;
        while self.served.load(Ordering::Acquire) != number {
            if looks < 100 {
                looks += 1;
                std::hint::spin_loop();
            } else {
                std::thread::yield_now();
            }
        }
        // SAFETY: this number is served, and no other is before the store below.
        let result = work(unsafe { &mut *self.book.get() });
        self.served.store(number + 1, Ordering::Release);
        result
    }
}

fn read(text: &str) -> Vec<Vec<Vec<Call>>> {
    let mut phases = vec![vec![Vec::new()]];
    for line in text.lines() {
        if line.is_empty() || line.starts_with('#') {
            continue;
        }
        if line == "join" {
            phases.push(vec![Vec::new()]);
            continue;
        }
        let mut fields = line.split(' ');
        let worker: usize = fields.next().unwrap().parse().unwrap();
        let word = fields.next().unwrap();
        let mut point = || Point { x: fields.next().unwrap().parse().unwrap(), y: fields.next().unwrap().parse().unwrap() };
        let call = match word {
            "add" => Call::Add(point()),
            "remove" => Call::Remove(point()),
            "extreme" => Call::Extreme(point()),
            "place" => Call::Place(point()),
            "tangents" => Call::Tangents(point()),
            "vertices" => Call::Vertices,
            "area" => Call::Area,
            "count" => Call::Count,
            _ => panic!("{line}"),
        };
        let phase = phases.last_mut().unwrap();
        while phase.len() <= worker {
            phase.push(Vec::new());
        }
        phase[worker].push(call);
    }
    phases
}

fn show(out: &mut String, worker: usize, call: Call, reply: &Reply) {
    let _ = match call {
        Call::Add(p) => write!(out, "{worker} add {} {} = ", p.x, p.y),
        Call::Remove(p) => write!(out, "{worker} remove {} {} = ", p.x, p.y),
        Call::Extreme(p) => write!(out, "{worker} extreme {} {} = ", p.x, p.y),
        Call::Place(p) => write!(out, "{worker} place {} {} = ", p.x, p.y),
        Call::Tangents(p) => write!(out, "{worker} tangents {} {} = ", p.x, p.y),
        Call::Vertices => write!(out, "{worker} vertices = "),
        Call::Area => write!(out, "{worker} area = "),
        Call::Count => write!(out, "{worker} count = "),
    };
    let _ = match reply {
        Reply::Added => writeln!(out, "added"),
        Reply::Again(times) => writeln!(out, "again {times}"),
        Reply::TooMany => writeln!(out, "toomany"),
        Reply::Removed => writeln!(out, "removed"),
        Reply::Left(times) => writeln!(out, "left {times}"),
        Reply::Absent => writeln!(out, "absent"),
        Reply::Farthest(p) => writeln!(out, "point {} {}", p.x, p.y),
        Reply::Empty => writeln!(out, "empty"),
        Reply::Lies(Place::Inside) => writeln!(out, "inside"),
        Reply::Lies(Place::On) => writeln!(out, "on"),
        Reply::Lies(Place::Outside) => writeln!(out, "outside"),
        Reply::Touches((l, r)) => writeln!(out, "tangents {} {} {} {}", l.x, l.y, r.x, r.y),
        Reply::NoTangent => writeln!(out, "notangent"),
        Reply::List(list) => {
            let _ = write!(out, "list {}", list.len());
            for p in list {
                let _ = write!(out, " {} {}", p.x, p.y);
            }
            writeln!(out)
        }
        Reply::Area(n) => writeln!(out, "area {n}"),
        Reply::Count(n) => writeln!(out, "count {n}"),
        Reply::Full => writeln!(out, "full"),
    };
}

/// Has each worker make its calls of each phase in a thread of its own.
fn perform(phases: &[Vec<Vec<Call>>], workers: usize, lock: &impl Lock) -> Vec<Vec<Reply>> {
    let mut answers: Vec<Vec<Reply>> = (0..workers).map(|_| Vec::new()).collect();
    for phase in phases {
        std::thread::scope(|scope| {
            for (calls, kept) in phase.iter().zip(answers.iter_mut()) {
                kept.reserve(calls.len());
                let mut work = move || {
                    for call in calls {
                        kept.push(lock.with(|book| book.serve(*call)));
                    }
                };
                if workers == 1 {
                    work();
                } else {
                    scope.spawn(work);
                }
            }
        });
    }
    answers
}

fn run(text: &str, capacity: usize, is_fair: bool) {
    let phases = read(text);
    let workers = phases.iter().map(Vec::len).max().unwrap();
    let book = Book { tree: Tree::new(1 << 20), served: 0, capacity };
    let answers = if is_fair {
        let lock = TicketLock { next: AtomicU64::new(0), served: AtomicU64::new(0), book: UnsafeCell::new(book) };
        perform(&phases, workers, &lock)
    } else {
        perform(&phases, workers, &Mutex::new(book))
    };
    let mut out = String::new();
    for (worker, kept) in answers.iter().enumerate() {
        let calls = phases.iter().flat_map(|phase| phase.get(worker).into_iter().flatten());
        for (call, reply) in calls.zip(kept) {
            show(&mut out, worker, *call, reply);
        }
    }
    let ledger = |kept: &Vec<Reply>| kept.iter().filter(|r| !matches!(r, Reply::Full)).count();
    for (worker, kept) in answers.iter().enumerate() {
        let _ = writeln!(out, "ledger {worker} {}", ledger(kept));
    }
    let served: usize = answers.iter().map(ledger).sum();
    let _ = writeln!(out, "sum {served} journal {served} capacity {capacity}");
    std::io::stdout().write_all(out.as_bytes()).unwrap();
}

fn parse(text: &str) {
    let (mut numbers, mut words) = (0u64, 0u64);
    for line in text.lines() {
        for field in line.split(' ') {
            match field.parse::<i128>() {
                Ok(_) => numbers += 1,
                Err(_) => words += 1,
            }
        }
    }
    println!("{numbers} numbers, {words} words");
}

fn main() {
    let words: Vec<String> = std::env::args().skip(1).collect();
    let text = std::fs::read_to_string(&words[1]).unwrap();
    let capacity = || words.get(3).map_or(65536, |n| n.parse().unwrap());
    match words[0].as_str() {
        "run" => run(&text, capacity(), false),
        "fair" => run(&text, capacity(), true),
        "read" => println!("{} phases", read(&text).len()),
        _ => parse(&text),
    }
}
