//! Looks for boards on which the search for helper pairs is dear: it climbs on the count of pairs tried, and among equals on the cuts looked at.
//!
//!     climb SEED SECONDS [DIRECTORY]
//!
//! It prints the best board of each kind, with its words, and writes them into the directory, if one is named. To build it, from the project's root:
//!
//!     rustc --edition 2021 -O -o target/bench/climb bench/climb.rs
//!
//! A climb starts from a random board that can be routed, with nets withdrawn until the wanted count of vertices is odd. A step changes the board
//! a little; what it must keep is the count of odd vertices, no overfull cut, at most 64 nets and no more terminals at a vertex than it has pins.
//! A step is kept where the board is no worse than the present one, or than the one of some steps ago. The seed tells each step; the seconds tell
//! when to end.

#[allow(dead_code)]
mod boards;
mod effort;
#[allow(dead_code)]
mod plain;

use boards::{routable, Board, Margins, Net, Random, Vertex};
use effort::{effort, effort_of, Effort};
use std::rc::Rc;
use std::time::{Duration, Instant};

/// With how many steps ago a step is compared.
const BACK: usize = 3_000;
/// After how many steps without a better board a climb ends.
const PATIENCE: usize = 60_000;

/// What does not depend on the nets: the vertices that have pins, in reading order, with their degrees, and each cut's edges.
struct Shape {
    pinned: Vec<(Vertex, usize)>,
    edges: Margins,
}

impl Shape {
    fn new(board: &Board) -> Shape {
        let pinned = board.all_vertices().into_iter().map(|v| (v, board.degree(v))).filter(|p| p.1 < 4).collect();
        Shape { pinned, edges: Margins::new(board) }
    }
}

/// How many terminals stand at each vertex, by line and column.
struct Terminals([[u8; 32]; 32]);

impl Terminals {
    fn new(nets: &[Net]) -> Terminals {
        let mut terminals = [[0; 32]; 32];
        for end in nets.iter().flat_map(|n| [n.0, n.1]) {
            terminals[end.0][end.1] += 1;
        }
        Terminals(terminals)
    }

    fn at(&self, v: Vertex) -> usize {
        self.0[v.0][v.1] as usize
    }
}

/// What is looked for.
#[derive(Clone, Copy)]
struct Aim {
    /// How many vertices are odd.
    odd: usize,
    /// Pairs are found, late; or there are none.
    found: bool,
    /// The cuts looked at come first, and the pairs tried among equals.
    cuts: bool,
    /// Rows may change.
    reshape: bool,
}

/// The higher, the better.
type Worth = (u8, u64, u64);

impl Aim {
    /// A board of the other kind is worth less than any of this one, or nothing where pairs are to be found.
    fn worth(&self, effort: &Effort) -> Worth {
        let kind = match (self.found, effort.found) {
            (true, false) => return (0, 0, 0),
            (false, true) => 1,
            _ => 2,
        };
        if self.cuts { (kind, effort.cuts, effort.pairs) } else { (kind, effort.pairs, effort.cuts) }
    }
}

/// A board with what is known of it.
struct Place {
    board: Board,
    shape: Rc<Shape>,
    odd: Vec<Vertex>,
    effort: Effort,
}

/// The odd vertices and the effort, where the board is one that may be kept.
fn weigh(board: &Board, shape: &Shape, wanted: usize) -> Option<(Vec<Vertex>, Effort)> {
    let terminals = Terminals::new(&board.nets);
    let odd: Vec<Vertex> = shape.pinned.iter().filter(|(v, degree)| (degree + terminals.at(*v)) % 2 == 1).map(|p| p.0).collect();
    let full = shape.pinned.iter().any(|(v, degree)| degree + terminals.at(*v) > 4);
    if full || odd.len() != wanted || board.nets.len() > 64 || board.nets.iter().any(|n| n.0 == n.1) {
        return None;
    }
    let mut margins = shape.edges.clone();
    board.nets.iter().for_each(|&net| margins.count(net, 1));
    if margins.0.iter().any(|&m| m < 0) {
        return None;
    }
    let effort = effort(&odd, &margins, board.rows.len());
    Some((odd, effort))
}

impl Place {
    fn new(board: Board, wanted: usize) -> Option<Place> {
        let shape = Rc::new(Shape::new(&board));
        let (odd, effort) = weigh(&board, &shape, wanted)?;
        Some(Place { board, shape, odd, effort })
    }
}

// ------------------------------------------------------------ steps

/// Two nets exchange ends, if there are two.
fn exchange(nets: &mut [Net], random: &mut Random) {
    if nets.len() < 2 {
        return;
    }
    let (i, j) = (random.below(nets.len()), random.below(nets.len()));
    if i != j {
        let ((a, b), (c, d)) = (nets[i], nets[j]);
        (nets[i], nets[j]) = if random.below(2) == 0 { ((a, d), (c, b)) } else { ((a, c), (b, d)) };
    }
}

/// A vertex that is odd takes over a terminal, so that another becomes odd: a near one, or any.
fn move_bare_pin(nets: &mut [Net], odd: &[Vertex], random: &mut Random) {
    let to = odd[random.below(odd.len())];
    let reach = if random.below(3) == 0 { 62 } else { 1 + random.below(4) };
    let near = |v: Vertex| v.0.abs_diff(to.0) + v.1.abs_diff(to.1) <= reach;
    let mut ends: Vec<&mut Vertex> = nets.iter_mut().flat_map(|n| [&mut n.0, &mut n.1]).filter(|v| near(**v)).collect();
    if !ends.is_empty() {
        let i = random.below(ends.len());
        *ends[i] = to;
    }
}

/// A net between two vertices that have a pin left, if there are any.
fn add(board: &mut Board, shape: &Shape, random: &mut Random) {
    let terminals = Terminals::new(&board.nets);
    let free: Vec<Vertex> = shape.pinned.iter().filter(|(v, degree)| degree + terminals.at(*v) < 4).map(|p| p.0).collect();
    if !free.is_empty() {
        board.nets.push((free[random.below(free.len())], free[random.below(free.len())]));
    }
}

fn drop_net(nets: &mut Vec<Net>, random: &mut Random) {
    if !nets.is_empty() {
        nets.swap_remove(random.below(nets.len()));
    }
}

/// A row's end moves by one, or a row is doubled or left out. Nets that have lost a pin go; nets are added between odd vertices, or dropped, until
/// the wanted count of vertices is odd.
fn reshape(board: &mut Board, wanted: usize, random: &mut Random) -> Option<()> {
    let i = random.below(board.rows.len());
    let (left, right) = board.rows[i];
    match random.below(6) {
        0 => board.rows[i].0 = left.checked_sub(1)?,
        1 => board.rows[i].0 = left + 1,
        2 => board.rows[i].1 = right - 1,
        3 => board.rows[i].1 = right + 1,
        4 => return double_row(board, i),
        _ => leave_row_out(board, i),
    }
    if !is_convex(&board.rows) {
        return None;
    }
    drop_lost(board);
    for _ in 0..40 {
        let odd = board.odd_vertices();
        match odd.len().cmp(&wanted) {
            std::cmp::Ordering::Equal => return Some(()),
            std::cmp::Ordering::Less => drop_net(&mut board.nets, random),
            std::cmp::Ordering::Greater => board.nets.push((odd[random.below(odd.len())], odd[random.below(odd.len())])),
        }
        board.nets.retain(|n| n.0 != n.1);
    }
    None
}

/// 1 to 31 rows of cells between columns 0 and 31, nested, widths not shrinking and then growing.
fn is_convex(rows: &[(usize, usize)]) -> bool {
    let within = |a: (usize, usize), b: (usize, usize)| b.0 <= a.0 && a.1 <= b.1;
    let Some(widest) = (0..rows.len()).max_by_key(|&i| rows[i].1 - rows[i].0.min(rows[i].1)) else { return false };
    let nested = rows.iter().all(|&a| rows.iter().all(|&b| within(a, b) || within(b, a)));
    let grows = rows[..=widest].windows(2).all(|w| within(w[0], w[1]));
    let shrinks = rows[widest..].windows(2).all(|w| within(w[1], w[0]));
    rows.len() <= 31 && rows.iter().all(|r| r.0 < r.1 && r.1 <= 31) && nested && grows && shrinks
}

/// Nets go that end at no vertex, or where its pins are all taken by nets before them.
fn drop_lost(board: &mut Board) {
    let mut kept: Vec<Net> = Vec::new();
    for net in std::mem::take(&mut board.nets) {
        let terminals = Terminals::new(&kept);
        let free = |v: Vertex| board.degree(v) > 0 && board.degree(v) + terminals.at(v) < 4;
        if free(net.0) && free(net.1) {
            kept.push(net);
        }
    }
    board.nets = kept;
}

/// Row i twice, and a net straight along the line between: no margin changes, that of the new row is the old one's.
fn double_row(board: &mut Board, i: usize) -> Option<()> {
    let row = board.rows[i];
    if board.rows.len() == 31 || board.nets.len() == 64 {
        return None;
    }
    board.rows.insert(i, row);
    for end in board.nets.iter_mut().flat_map(|n| [&mut n.0, &mut n.1]).filter(|v| v.0 > i) {
        end.0 += 1;
    }
    board.nets.push(((i + 1, row.0), (i + 1, row.1)));
    Some(())
}

/// The same of the cells between columns j and j + 1.
fn double_column(board: &mut Board, j: usize) -> Option<()> {
    let has = |r: &(usize, usize)| r.0 <= j && j < r.1;
    let top = board.rows.iter().position(has)?;
    let bottom = board.rows.iter().rposition(has)? + 1;
    if board.rows.iter().any(|r| r.1 == 31) || board.nets.len() == 64 {
        return None;
    }
    let moved = |column: usize| if column > j { column + 1 } else { column };
    board.rows.iter_mut().for_each(|r| *r = (moved(r.0), moved(r.1)));
    board.nets.iter_mut().for_each(|n| (n.0 .1, n.1 .1) = (moved(n.0 .1), moved(n.1 .1)));
    board.nets.push(((top, j + 1), (bottom, j + 1)));
    Some(())
}

/// A row less; what stood on the line below it is moved up by one.
fn leave_row_out(board: &mut Board, i: usize) {
    board.rows.remove(i);
    for end in board.nets.iter_mut().flat_map(|n| [&mut n.0, &mut n.1]).filter(|v| v.0 > i) {
        end.0 -= 1;
    }
}

/// The board with doubled rows and columns, as many as make it 31 by 31 or 64 nets.
fn grown(board: &Board, random: &mut Random) -> Board {
    let mut board = board.clone();
    for _ in 0..200 {
        let (i, j) = (random.below(board.rows.len()), random.below(31));
        double_row(&mut board, i);
        double_column(&mut board, j);
    }
    board
}

/// The board a step further, if it may be kept.
fn step(place: &Place, aim: Aim, random: &mut Random) -> Option<Place> {
    let mut board = place.board.clone();
    match random.below(20) {
        0..=7 => exchange(&mut board.nets, random),
        8..=16 => move_bare_pin(&mut board.nets, &place.odd, random),
        17 if aim.reshape => {
            reshape(&mut board, aim.odd, random)?;
            return Place::new(board, aim.odd);
        }
        17 | 18 => {
            drop_net(&mut board.nets, random);
            add(&mut board, &place.shape, random);
        }
        _ if random.below(2) == 0 => drop_net(&mut board.nets, random),
        _ => add(&mut board, &place.shape, random),
    }
    let (odd, effort) = weigh(&board, &place.shape, aim.odd)?;
    Some(Place { board, shape: place.shape.clone(), odd, effort })
}

// ------------------------------------------------------------ climbs

/// A random board with the wanted count of odd vertices.
fn start(aim: Aim, bare: &dyn Fn(&mut Random) -> Board, random: &mut Random) -> Place {
    loop {
        let mut board = routable(random, bare);
        while board.odd_vertices().len() < aim.odd && !board.nets.is_empty() {
            drop_net(&mut board.nets, random);
        }
        if let Some(place) = Place::new(board, aim.odd) {
            return place;
        }
    }
}

/// One climb from this place: the best board seen.
fn climb(mut at: Place, aim: Aim, end: Instant, random: &mut Random) -> (Board, Effort) {
    let mut best = (at.board.clone(), at.effort);
    let mut back = vec![aim.worth(&at.effort); BACK];
    let (mut since, mut i) = (0, 0);
    while since < PATIENCE && (i % 64 != 0 || Instant::now() < end) {
        if let Some(next) = step(&at, aim, random) {
            let worth = aim.worth(&next.effort);
            if worth >= aim.worth(&at.effort) || worth >= back[i % BACK] {
                at = next;
            }
            if worth > aim.worth(&best.1) {
                best = (at.board.clone(), at.effort);
                since = 0;
            }
        }
        back[i % BACK] = aim.worth(&at.effort);
        since += 1;
        i += 1;
    }
    best
}

/// Climbs until the time is over: the best board of all.
fn climbs(aim: Aim, seconds: f64, random: &mut Random, begin: &dyn Fn(&mut Random) -> Place) -> (Board, Effort) {
    let end = Instant::now() + Duration::from_secs_f64(seconds);
    let mut best = climb(begin(random), aim, end, random);
    while Instant::now() < end {
        let next = climb(begin(random), aim, end, random);
        if aim.worth(&next.1) > aim.worth(&best.1) {
            best = next;
        }
    }
    best
}

/// Microseconds of the plain router for a call, at best.
fn microseconds(bytes: &[u8]) -> f64 {
    let mut buffer = vec![0; 4 * 2049];
    let mut once = || {
        let begin = Instant::now();
        _ = std::hint::black_box(plain::route(std::hint::black_box(bytes), &mut buffer));
        begin.elapsed().as_secs_f64()
    };
    1e6 * (0..25).map(|_| once()).fold(f64::MAX, f64::min)
}

/// Prints a board, and writes it into the directory.
fn show(name: &str, board: &Board, directory: Option<&String>) {
    let (bytes, effort) = (board.bytes(), effort_of(board));
    let answer = plain::route(&bytes, &mut vec![0; 4 * 2049]);
    assert_eq!(answer.is_ok(), effort.found, "the plain router finds pairs where they were found here");
    let (odd, wide) = (board.odd_vertices().len(), board.rows.iter().map(|r| r.1).max().unwrap_or(0));
    print!("{name}: {} by {wide}, {} nets, {odd} odd, ", board.rows.len(), board.nets.len());
    print!("{} nodes, {} pairs tried, {} cuts looked at, ", effort.nodes, effort.pairs, effort.cuts);
    println!("{}, plain router {:.0} microseconds", if effort.found { "routed" } else { "34" }, microseconds(&bytes));
    let words: Vec<String> = bytes.chunks_exact(4).map(|b| format!("{:08X}", u32::from_le_bytes([b[0], b[1], b[2], b[3]]))).collect();
    println!("    {}", words.join(" "));
    if let Some(directory) = directory {
        std::fs::write(format!("{directory}/{name}.board"), &bytes).expect("the directory is there");
    }
}

/// The shapes that climbs start from, by name.
fn shapes() -> Vec<(String, Box<dyn Fn(&mut Random) -> Board>)> {
    let mut shapes: Vec<(String, Box<dyn Fn(&mut Random) -> Board>)> = Vec::new();
    for n in [5, 7, 10, 16, 31] {
        shapes.push((n.to_string(), Box::new(move |_| Board::square(n))));
    }
    shapes.push(("uneven".to_string(), Box::new(Board::uneven)));
    shapes
}

/// All climbs for boards of one kind. Half of the time the best of all, grown to 31 by 31, climbs on by the cuts looked at.
fn kind(odd: usize, found: bool, seconds: f64, random: &mut Random, directory: Option<&String>) {
    let word = if found { "late" } else { "none" };
    let shapes = shapes();
    let turn = seconds / 2.0 / shapes.len() as f64;
    let mut best: Option<(Board, Effort)> = None;
    for (name, bare) in &shapes {
        let aim = Aim { odd, found, cuts: false, reshape: name == "uneven" };
        let seen = climbs(aim, turn, random, &|random| start(aim, bare, random));
        show(&format!("{word}_{odd}_{name}"), &seen.0, directory);
        if best.as_ref().is_none_or(|b| aim.worth(&seen.1) > aim.worth(&b.1)) {
            best = Some(seen);
        }
    }
    let small = best.expect("there are shapes").0;
    let aim = Aim { odd, found, cuts: true, reshape: false };
    let large = climbs(aim, seconds / 2.0, random, &|random| Place::new(grown(&small, random), odd).expect("a grown board may be kept"));
    show(&format!("{word}_{odd}_grown"), &large.0, directory);
}

fn main() {
    let args: Vec<String> = std::env::args().skip(1).collect();
    let numbers: Vec<u64> = args.iter().take(2).filter_map(|a| a.parse().ok()).collect();
    let [seed, seconds] = numbers[..] else {
        eprintln!("usage: climb SEED SECONDS [DIRECTORY]");
        std::process::exit(2)
    };
    let mut random = Random::new(seed);
    for (odd, found, share) in [(12, false, 0.35), (12, true, 0.35), (10, false, 0.15), (10, true, 0.15)] {
        kind(odd, found, share * seconds as f64, &mut random, args.get(2));
    }
}
