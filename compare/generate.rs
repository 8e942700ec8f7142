//! Seeded inputs: boards true and damaged, under both books, with taken pins and without, and lists of routing words true and damaged.

use crate::independent::*;
use std::collections::{HashSet, VecDeque};

/// splitmix64.
pub struct Random(u64);

impl Random {
    /// Each case has its own stream, so that it can be repeated alone.
    pub fn of_case(seed: u64, part: char, case: u64) -> Random {
        let mut random = Random(seed);
        let mixed = random.next() ^ (part as u64) << 56 ^ case;
        random.0 = mixed;
        random.0 = random.next();
        random
    }

    pub fn next(&mut self) -> u64 {
        self.0 = self.0.wrapping_add(0x9E3779B97F4A7C15);
        let mut z = self.0;
        z = (z ^ (z >> 30)).wrapping_mul(0xBF58476D1CE4E5B9);
        z = (z ^ (z >> 27)).wrapping_mul(0x94D049BB133111EB);
        z ^ (z >> 31)
    }

    /// A number below n; 0 where n is 0.
    pub fn below(&mut self, n: usize) -> usize {
        if n == 0 {
            return 0;
        }
        (self.next() % n as u64) as usize
    }

    pub fn one_in(&mut self, n: usize) -> bool {
        self.below(n) == 0
    }

    pub fn pick<T: Copy>(&mut self, from: &[T]) -> T {
        from[self.below(from.len())]
    }

    pub fn shuffle<T>(&mut self, list: &mut [T]) {
        for i in (1..list.len()).rev() {
            let j = self.below(i + 1);
            list.swap(i, j);
        }
    }
}

// ---------------------------------------------------------------- boards

/// Either book, on every second board the new one.
pub fn any_book(random: &mut Random) -> Book {
    random.pick(&BOOKS)
}

/// A board of these rows under either book, without nets and taken pins.
pub fn any_bare(random: &mut Random, rows: &[(usize, usize)]) -> Board {
    Board::bare(rows).under(any_book(random))
}

/// Convex rows: a chain of spans, each within the last, laid on top or below.
pub fn convex_rows(random: &mut Random, most_rows: usize, most_width: usize) -> Vec<(usize, usize)> {
    let width = 1 + random.below(most_width);
    let left = random.below(32 - width);
    let count = 1 + random.below(most_rows);
    let (mut span, mut rows) = ((left, left + width), VecDeque::new());
    let steep = random.pick(&[2, 4, 1000]);
    for _ in 0..count {
        if random.one_in(2) {
            rows.push_front(span);
        } else {
            rows.push_back(span);
        }
        if random.one_in(steep) && span.1 - span.0 > 1 {
            if random.one_in(2) {
                span.0 += 1;
            } else {
                span.1 -= 1;
            }
        }
    }
    rows.into()
}

/// Convex rows with steps of any width, on both sides at once: a chain of spans, each within the last, laid on top or below.
pub fn stepped_rows(random: &mut Random, most_rows: usize, most_width: usize) -> Vec<(usize, usize)> {
    let width = 1 + random.below(most_width);
    let left = random.below(32 - width);
    let mut span = (left, left + width);
    let mut rows = VecDeque::from([span]);
    let (count, steep) = (1 + random.below(most_rows), random.pick(&[1, 2, 3]));
    while rows.len() < count {
        if random.one_in(steep) {
            let width = 1 + random.below(span.1 - span.0);
            let left = span.0 + random.below(span.1 - span.0 - width + 1);
            span = (left, left + width);
        }
        if random.one_in(2) {
            rows.push_front(span);
        } else {
            rows.push_back(span);
        }
    }
    rows.into()
}

/// The board with its nets and taken pins mirrored, from column 0 on.
pub fn mirrored(board: &Board) -> Board {
    let end = board.rows.iter().map(|row| row.1).max().unwrap_or(0);
    let at = |v: Vertex| (v.0, end - v.1);
    moved(board, board.rows.iter().map(|row| (end - row.1, end - row.0)).collect(), &at)
}

/// The board with its nets and taken pins turned by a quarter, from line 0 and column 0 on: the left side comes to the top.
pub fn turned(board: &Board) -> Board {
    let (start, end) = (board.rows.iter().map(|row| row.0).min().unwrap_or(0), board.rows.iter().map(|row| row.1).max().unwrap_or(0));
    let lines = board.rows.len();
    let across = |column: usize| (0..lines).filter(|&i| board.rows[i].0 <= column && column < board.rows[i].1).collect::<Vec<_>>();
    let rows = (start..end).map(across).map(|rows| (lines - 1 - rows[rows.len() - 1], lines - rows[0])).collect();
    moved(board, rows, &|v| (v.1 - start, lines - v.0))
}

/// Nets and taken pins moved to other rows; the book stays.
fn moved(board: &Board, rows: Vec<(usize, usize)>, at: &dyn Fn(Vertex) -> Vertex) -> Board {
    let nets = board.nets.iter().map(|n| Net { number: n.number, first: at(n.first), second: at(n.second) }).collect();
    Board { rows, book: board.book, taken: board.taken.iter().map(|(&v, &count)| (at(v), count)).collect(), nets }
}

/// The size of a case's board: mostly small, at times as large as can be.
pub fn size(random: &mut Random) -> (usize, usize) {
    match random.below(40) {
        0 => (31, 31),
        1..=4 => (12, 12),
        5..=16 => (7, 7),
        _ => (4, 4),
    }
}

/// Pairs of terminals as nets with rising numbers and ends either way round.
pub fn numbered(random: &mut Random, mut pairs: Vec<(Vertex, Vertex)>) -> Vec<Net> {
    random.shuffle(&mut pairs);
    let mut numbers: Vec<u32> = (1..=64).collect();
    if random.one_in(2) {
        random.shuffle(&mut numbers);
    }
    numbers.truncate(pairs.len());
    numbers.sort();
    let turned = |random: &mut Random, (u, v)| if random.one_in(2) { (u, v) } else { (v, u) };
    let ends: Vec<_> = pairs.into_iter().map(|p| turned(random, p)).collect();
    numbers.iter().zip(ends).map(|(&number, (first, second))| Net { number, first, second }).collect()
}

/// Nets that leave no vertex odd. Where `mend`, nets that cross an overfull cut exchange ends, which leaves full cuts but seldom overfull ones.
pub fn even_nets(random: &mut Random, bare: &Board, mend: bool) -> Vec<Net> {
    let pins = even_pins(random, bare);
    let mut pairs = joined(random, pins);
    if mend {
        mend_cuts(random, bare, &mut pairs);
    }
    numbered(random, pairs)
}

/// Pins that leave no vertex odd when they are used, a vertex as often as it has such pins: the one pin of a corner under the new rule is none.
fn even_pins(random: &mut Random, bare: &Board) -> Vec<Vertex> {
    let mut pins: Vec<Vertex> = Vec::new();
    let corners = random.pick(&[1, 2, 4, 1000]);
    for v in bare.vertices() {
        match (bare.degree(v), bare.pins(v)) {
            (3, 1) => pins.push(v),
            (2, 2) if random.one_in(corners) => pins.extend([v, v]),
            _ => {}
        }
    }
    pins
}

/// The pins in pairs, those of one vertex twice left out.
fn joined(random: &mut Random, mut pins: Vec<Vertex>) -> Vec<(Vertex, Vertex)> {
    random.shuffle(&mut pins);
    if random.one_in(4) {
        // Near ones together.
        pins.sort_by_key(|v| v.0 / 3 * 32 + v.1);
    }
    let mut pairs: Vec<(Vertex, Vertex)> = pins.chunks(2).map(|p| (p[0], p[1])).collect();
    part_same_ends(random, &mut pairs);
    pairs.retain(|p| p.0 != p.1);
    pairs
}

/// How cuts are seen to: not at all, overfull ones are mended, or then nets exchange ends as long as that fills cuts.
#[derive(Clone, Copy, Debug, PartialEq, Eq)]
pub enum Care {
    None,
    Mended,
    Filled,
}

/// Nets that leave `count` vertices odd, an even number; fewer where there are fewer vertices with pins.
pub fn odd_nets(random: &mut Random, bare: &Board, count: usize, care: Care) -> Vec<Net> {
    let mut pins = even_pins(random, bare);
    let mut vertices: Vec<Vertex> = bare.vertices().into_iter().filter(|&v| bare.pins(v) > 0).collect();
    random.shuffle(&mut vertices);
    vertices.truncate(count.min(vertices.len() / 2 * 2));
    for v in vertices {
        // A used pin is left bare; a corner without a terminal gets one.
        match pins.iter().position(|&pin| pin == v) {
            Some(at) => drop(pins.swap_remove(at)),
            None => pins.push(v),
        }
    }
    let mut pairs = joined(random, pins);
    if care != Care::None {
        mend_cuts(random, bare, &mut pairs);
    }
    if care == Care::Filled {
        let times = 10 * pairs.len();
        fill_cuts(random, bare, &mut pairs, times);
    }
    numbered(random, pairs)
}

fn part_same_ends(random: &mut Random, pairs: &mut [(Vertex, Vertex)]) {
    for _ in 0..20 {
        for i in 0..pairs.len() {
            if pairs[i].0 == pairs[i].1 {
                let j = random.below(pairs.len());
                if i != j {
                    let other = pairs[j].1;
                    pairs[j].1 = pairs[i].1;
                    pairs[i].1 = other;
                }
            }
        }
    }
}

fn mend_cuts(random: &mut Random, bare: &Board, pairs: &mut [(Vertex, Vertex)]) {
    let mut board = bare.clone();
    for _ in 0..60 {
        board.nets = pairs.iter().map(|&(first, second)| Net { number: 1, first, second }).collect();
        let Some(cut) = board.first_overfull() else { return };
        let mut crossing: Vec<usize> = (0..pairs.len()).filter(|&i| Board::crosses(&board.nets[i], cut)).collect();
        random.shuffle(&mut crossing);
        let low = |v: Vertex| match cut {
            Cut::Row(i) => v.0 <= i,
            Cut::Column(j) => v.1 <= j,
        };
        let sided = |p: (Vertex, Vertex)| if low(p.0) { p } else { (p.1, p.0) };
        for two in crossing.chunks_exact(2).take(1 + random.below(3)) {
            let ((a, b), (c, d)) = (sided(pairs[two[0]]), sided(pairs[two[1]]));
            if a != c && b != d {
                pairs[two[0]] = (a, c);
                pairs[two[1]] = (b, d);
            }
        }
    }
}

/// The cuts that a pair crosses, as indices into the cuts of a board.
fn crossed((u, v): (Vertex, Vertex), rows: usize) -> impl Iterator<Item = usize> {
    let columns = rows + u.1.min(v.1)..rows + u.1.max(v.1);
    (u.0.min(v.0)..u.0.max(v.0)).chain(columns)
}

/// Two pairs at a time exchange ends, where they then cross at least as many cuts and leave none overfull.
fn fill_cuts(random: &mut Random, bare: &Board, pairs: &mut [(Vertex, Vertex)], times: usize) {
    let rows = bare.rows.len();
    let mut margins: Vec<i32> = bare.cuts().iter().map(|&cut| bare.cut_edges(cut)).collect();
    pairs.iter().for_each(|&p| crossed(p, rows).for_each(|cut| margins[cut] -= 1));
    if margins.iter().any(|&margin| margin < 0) {
        return;
    }
    for _ in 0..times {
        let (i, j) = (random.below(pairs.len()), random.below(pairs.len()));
        let ((a, b), (c, d)) = (pairs[i], pairs[j]);
        let (one, two) = if random.one_in(2) { ((a, c), (b, d)) } else { ((a, d), (b, c)) };
        if i == j || one.0 == one.1 || two.0 == two.1 {
            continue;
        }
        let mut after = margins.clone();
        [(a, b), (c, d)].into_iter().for_each(|p| crossed(p, rows).for_each(|cut| after[cut] += 1));
        [one, two].into_iter().for_each(|p| crossed(p, rows).for_each(|cut| after[cut] -= 1));
        if after.iter().sum::<i32>() <= margins.iter().sum::<i32>() && after.iter().all(|&margin| margin >= 0) {
            (pairs[i], pairs[j], margins) = (one, two, after);
        }
    }
}

/// Nets on any pins, vertices odd or not.
pub fn any_nets(random: &mut Random, bare: &Board) -> Vec<Net> {
    let mut pins: Vec<Vertex> = bare.vertices().into_iter().flat_map(|v| vec![v; bare.pins(v)]).collect();
    random.shuffle(&mut pins);
    let count = random.below(pins.len() / 2 + 1).min(64);
    let pairs: Vec<_> = pins.chunks_exact(2).map(|p| (p[0], p[1])).filter(|p| p.0 != p.1).take(count).collect();
    numbered(random, pairs)
}

/// Nets that leave some vertices odd, mostly as few as can be routed.
pub fn some_odd_nets(random: &mut Random, bare: &Board) -> Vec<Net> {
    let count = random.pick(&[2, 4, 6, 8, 10, 12, 12, 14]);
    let care = random.pick(&[Care::None, Care::Mended, Care::Filled, Care::Filled]);
    odd_nets(random, bare, count, care)
}

/// The vertices with pins that neither the package nor the nets have taken, each with how many.
pub fn free_pins(board: &Board) -> Vec<(Vertex, usize)> {
    let with_pins = board.vertices().into_iter().map(|v| (v, board.pins(v))).filter(|&(_, pins)| pins > 0);
    with_pins.map(|(v, pins)| (v, pins.saturating_sub(board.terminals(v)))).filter(|&(_, free)| free > 0).collect()
}

/// Free pins are taken on every second board. The nets stay, so that the answers do.
pub fn take_pins(random: &mut Random, board: &mut Board) {
    if random.one_in(2) {
        take_some_pins(random, board);
    }
}

/// Free pins are taken, at one to three vertices, at some or at all; at a vertex one of them or all.
pub fn take_some_pins(random: &mut Random, board: &mut Board) {
    let mut free = free_pins(board);
    random.shuffle(&mut free);
    let vertices = match random.below(4) {
        0 | 1 => 1 + random.below(3),
        2 => random.below(free.len() + 1),
        _ => free.len(),
    };
    let whole = random.one_in(2);
    for (v, pins) in free.into_iter().take(vertices) {
        let count = if whole { pins } else { 1 + random.below(pins) };
        *board.taken.entry(v).or_insert(0) += count;
    }
}

/// A board that is accepted, of the given size at most, under either book.
pub fn true_board(random: &mut Random, size: (usize, usize)) -> Board {
    let book = any_book(random);
    board_under(random, book, size)
}

/// The same under this book.
pub fn board_under(random: &mut Random, book: Book, (most_rows, most_width): (usize, usize)) -> Board {
    let stepped = random.one_in(4);
    let rows = if stepped { stepped_rows(random, most_rows, most_width) } else { convex_rows(random, most_rows, most_width) };
    let mut board = Board::bare(&rows).under(book);
    board.nets = match random.below(12) {
        0..=1 => any_nets(random, &board),
        2..=3 => even_nets(random, &board, false),
        4..=7 => even_nets(random, &board, true),
        _ => some_odd_nets(random, &board),
    };
    take_pins(random, &mut board);
    board
}

// ---------------------------------------------------------------- board bytes, true and damaged

pub const BOARD_KINDS: [&str; 22] = [
    "true board", "true board", "true board", "true board", "true board", "no bytes", "random bytes", "random words", "words of the kinds",
    "bits flipped", "a word changed", "a word dropped", "a word doubled", "two words swapped", "words after the end", "cut short",
    "a byte more or less", "counts off", "a number at the bounds", "a terminal elsewhere", "rows at the bounds", "rows not convex",
];

/// A board's bytes of that kind (an index into BOARD_KINDS).
pub fn board_bytes(random: &mut Random, kind: usize) -> Vec<u8> {
    let name = BOARD_KINDS[kind];
    match name {
        "no bytes" => return Vec::new(),
        "random bytes" => return (0..random.below(500)).map(|_| random.next() as u8).collect(),
        "random words" => return bytes_of(&(0..random.below(240)).map(|_| random.next() as u32).collect::<Vec<_>>()),
        "words of the kinds" => {
            let count = 1 + random.below(8);
            return bytes_of(&(0..count).map(|_| any_board_word(random)).collect::<Vec<_>>());
        }
        "rows at the bounds" => return bounds(random),
        "rows not convex" => return not_convex(random),
        _ => {}
    }
    let size = size(random);
    let board = true_board(random, size);
    let mut words = board.words();
    if name == "a byte more or less" {
        return uneven(random, bytes_of(&words));
    }
    damage_board(random, name, &board, &mut words);
    bytes_of(&words)
}

/// One to three bytes more or less.
pub fn uneven(random: &mut Random, mut bytes: Vec<u8>) -> Vec<u8> {
    let change = 1 + random.below(3);
    if random.one_in(2) {
        bytes.truncate(bytes.len() - change);
    } else {
        bytes.extend(vec![0; change]);
    }
    bytes
}

fn damage_board(random: &mut Random, name: &str, board: &Board, words: &mut Vec<u32>) {
    let at = random.below(words.len());
    let end = words.len() - 1;
    match name {
        "bits flipped" => (0..1 + random.below(2)).for_each(|_| words[at] ^= 1 << random.below(32)),
        "a word changed" => words[at] = any_board_word(random),
        "a word dropped" => drop(words.remove(at)),
        "a word doubled" => words.insert(at, words[at]),
        "two words swapped" => words.swap(at, random.below(end + 1)),
        "words after the end" => {
            let count = if random.one_in(3) { MOST_WORDS + 1 - words.len().min(MOST_WORDS) } else { 1 + random.below(3) };
            words.extend((0..count).map(|_| any_board_word(random)));
        }
        "cut short" => words.truncate(at),
        "counts off" => words[end] = words[end].wrapping_add(random.pick(&[1, 0x100, !0, 0xFFFF_FF00, 0x101, 0xFF])),
        "a number at the bounds" | "a terminal elsewhere" if !board.nets.is_empty() => {
            let first = end - board.nets.len();
            let i = first + random.below(board.nets.len());
            if name == "a terminal elsewhere" {
                words[i] ^= 1 << random.below(20);
            } else {
                let i = random.pick(&[i, end - 1, first]);
                words[i] = words[i] & 0xF00F_FFFF | random.pick(&[0, 1, 63, 64, 65, 66, 128, 255]) << 20;
            }
        }
        _ => {}
    }
}

/// A word of one of the board kinds, at times with a bit too many.
fn any_board_word(random: &mut Random) -> u32 {
    let small = |random: &mut Random| random.below(4) as u32;
    let word = match random.below(6) {
        0 | 1 => 1 << 28 | small(random) << 5 | small(random),
        5 => 3 << 28 | small(random) << 10 | small(random) << 5 | small(random),
        2 | 3 => {
            let number = random.pick(&[0, 1, 2, 3, 10, 63, 64, 65, 255]);
            2 << 28 | number << 20 | small(random) << 15 | small(random) << 10 | small(random) << 5 | small(random)
        }
        _ => 15 << 28 | random.pick(&[0, 0, 0, 1, 1, 1, 2, 15]) << 24 | small(random) << 8 | small(random),
    };
    if random.one_in(12) {
        return word ^ 1 << random.below(32);
    }
    word
}

/// 30 to 33 rows; 223 to 226 words; as many nets or taken pins as can be.
fn bounds(random: &mut Random) -> Vec<u8> {
    let count = random.pick(&[30, 31, 31, 32, 33]);
    let width = random.pick(&[1, 2, 31, 31]);
    let left = random.pick(&[0, 31 - width]);
    let rows = vec![(left, left + width); count];
    let mut board = any_bare(random, &rows);
    if count <= 31 && random.below(3) > 0 {
        let mend = random.below(3) > 0;
        board.nets = if random.one_in(3) { some_odd_nets(random, &board) } else { even_nets(random, &board, mend) };
    }
    if count <= 31 {
        take_pins(random, &mut board);
    }
    let mut words = board.words();
    let extra = random.pick(&[0, 0, 0, 1, 2]);
    for _ in 0..extra {
        let at = random.pick(&[0, words.len()]);
        words.insert(at, words[if at == 0 { 0 } else { at - 1 }]);
    }
    if random.one_in(4) {
        let length = random.pick(&[MOST_WORDS - 1, MOST_WORDS, MOST_WORDS + 1, MOST_WORDS + 2]);
        let word = words[words.len() - 1];
        words.resize(length, word);
    }
    bytes_of(&words)
}

/// Rows at random, seldom convex, at times with nets and taken pins.
fn not_convex(random: &mut Random) -> Vec<u8> {
    let span = |random: &mut Random| {
        let left = random.below(5);
        (left, left + 1 + random.below(5))
    };
    let mut rows: Vec<_> = (0..1 + random.below(5)).map(|_| span(random)).collect();
    if random.one_in(3) {
        let (most_rows, most_width) = size(random);
        rows = convex_rows(random, most_rows, most_width);
        let at = random.below(rows.len());
        let row = &mut rows[at];
        if row.1 < 31 {
            row.1 += 1;
        }
    }
    let mut board = any_bare(random, &rows);
    board.nets = any_nets(random, &board);
    take_pins(random, &mut board);
    bytes_of(&board.words())
}

/// A convex board's bytes, its last net one that an add refuses.
pub fn wrong_net(random: &mut Random, mut board: Board) -> Vec<u8> {
    board.nets.truncate(random.below(40));
    let vertices = board.vertices();
    let (mut number, mut first, mut second) = (board.nets.last().map_or(1, |net| net.number + 1), random.pick(&vertices), random.pick(&vertices));
    match random.below(4) {
        0 => number = random.pick(&[0, 65, 66, 128, 255]),
        1 => first = (random.below(32), random.below(32)),
        2 => second = first,
        // Without a pin that is free: inside, a concave corner, all taken, or used by nets.
        _ => {
            let full: Vec<Vertex> = vertices.iter().copied().filter(|&v| board.terminals(v) >= board.pins(v)).collect();
            second = if full.is_empty() { second } else { random.pick(&full) };
        }
    }
    if random.one_in(2) {
        (first, second) = (second, first);
    }
    board.nets.push(Net { number, first, second });
    bytes_of(&board.words())
}

// ---------------------------------------------------------------- routings and lists of routing words

/// The edge that leaves `v` in that direction, by its upper or left end.
pub fn edge_of(v: Vertex, direction: usize) -> (Vertex, usize) {
    (v.min(step(v, direction)), direction % 2)
}

/// Random trails, each from its net's first terminal to its second along free edges; they may pass a vertex twice. None where one gets stuck.
pub fn trails(random: &mut Random, board: &Board) -> Option<Vec<Vec<usize>>> {
    let mut used = HashSet::new();
    let mut paths = Vec::new();
    for net in &board.nets {
        let (mut at, mut path) = (net.first, Vec::new());
        let stop_early = random.below(3) > 0;
        loop {
            if at == net.second && (stop_early || random.one_in(2)) {
                break;
            }
            let free = |d: &usize| board.edge(at, *d) && !used.contains(&edge_of(at, *d));
            let mut open: Vec<usize> = (0..4).filter(free).collect();
            if open.is_empty() && at == net.second {
                break;
            }
            if stop_early && random.below(4) > 0 {
                let far = |v: Vertex| v.0.abs_diff(net.second.0) + v.1.abs_diff(net.second.1);
                let nearer: Vec<usize> = open.iter().copied().filter(|&d| far(step(at, d)) < far(at)).collect();
                if !nearer.is_empty() {
                    open = nearer;
                }
            }
            if open.is_empty() {
                return None;
            }
            let direction = random.pick(&open);
            used.insert(edge_of(at, direction));
            at = step(at, direction);
            path.push(direction);
        }
        paths.push(path);
    }
    Some(paths)
}

/// The paths with a loop laid on one of them along free edges, so that it turns twice at the vertex where the loop begins and ends.
/// None where there is no room for one.
pub fn loop_laid_on(random: &mut Random, board: &Board, paths: &[Vec<usize>]) -> Option<Vec<Vec<usize>>> {
    let (mut used, mut inner) = (HashSet::new(), Vec::new());
    for (index, (net, path)) in board.nets.iter().zip(paths).enumerate() {
        let mut at = net.first;
        for (steps, &direction) in path.iter().enumerate() {
            if steps > 0 {
                inner.push((index, steps, at));
            }
            used.insert(edge_of(at, direction));
            at = step(at, direction);
        }
    }
    random.shuffle(&mut inner);
    let mut loop_there = |(index, steps, at): (usize, usize, Vertex)| {
        let around = [paths[index][steps - 1], paths[index][steps]];
        touching_loop(random, board, &used, at, around).map(|more| (index, steps, more))
    };
    let (index, steps, more) = inner.into_iter().find_map(&mut loop_there)?;
    let mut longer = paths.to_vec();
    longer[index].splice(steps..steps, more);
    Some(longer)
}

/// A loop from a vertex to itself along free edges, for a path that comes and leaves in these two directions: it turns into the loop and out of it.
fn touching_loop(random: &mut Random, board: &Board, used: &HashSet<(Vertex, usize)>, at: Vertex, [comes, leaves]: [usize; 2]) -> Option<Vec<usize>> {
    let open: Vec<usize> = (0..4).filter(|&d| board.edge(at, d) && !used.contains(&edge_of(at, d))).collect();
    let [one, two] = open[..] else { return None };
    let both = if random.one_in(2) { [(one, two), (two, one)] } else { [(two, one), (one, two)] };
    let (out, back) = both.into_iter().find(|&(out, back)| out % 2 != comes % 2 && back % 2 != leaves % 2)?;
    let mut taken = used.clone();
    taken.extend([edge_of(at, out), edge_of(at, back)]);
    let between = free_steps(random, board, &taken, step(at, out), step(at, back))?;
    Some([vec![out], between, vec![(back + 2) % 4]].concat())
}

/// As few steps as can be from one vertex to another along edges not taken. None where no such steps lead there.
fn free_steps(random: &mut Random, board: &Board, taken: &HashSet<(Vertex, usize)>, from: Vertex, to: Vertex) -> Option<Vec<usize>> {
    let (mut seen, mut front) = (HashSet::from([from]), VecDeque::from([(from, Vec::new())]));
    while let Some((at, steps)) = front.pop_front() {
        if at == to {
            return Some(steps);
        }
        let mut open: Vec<usize> = (0..4).filter(|&d| board.edge(at, d) && !taken.contains(&edge_of(at, d))).collect();
        random.shuffle(&mut open);
        for direction in open {
            if seen.insert(step(at, direction)) {
                front.push_back((step(at, direction), [&steps[..], &[direction]].concat()));
            }
        }
    }
    None
}

pub const LIST_KINDS: [&str; 19] = [
    "no list", "random words as list", "list as it is", "list: bits flipped", "list: a word changed", "list: a word dropped",
    "list: a word doubled", "list: two words swapped", "list: words after the end", "list: cut short", "list: a byte more or less",
    "list: a run lengthened or shortened", "list: a run turned", "list: paths exchanged", "list: a path taken twice",
    "list: there and back", "list: a last run dropped", "list: too long or as long as can be", "list: for another board",
];

/// A list's bytes of that kind, made from true routing words.
pub fn list_bytes(random: &mut Random, kind: usize, words: &[u32], other: &[u32]) -> Vec<u8> {
    let name = LIST_KINDS[kind];
    let mut words = words.to_vec();
    match name {
        "no list" => words.clear(),
        "random words as list" => words = (0..random.below(12)).map(|_| any_list_word(random)).collect(),
        "list: for another board" => words = other.to_vec(),
        "list: a byte more or less" => {
            let mut bytes = bytes_of(&words);
            let length = bytes.len() + random.pick(&[1, 2, 3, 5]);
            bytes.resize(length - random.pick(&[0, 4]), 0);
            return bytes;
        }
        "list: too long or as long as can be" => lengthen(random, &mut words),
        _ => damage_list(random, name, &mut words),
    }
    bytes_of(&words)
}

fn damage_list(random: &mut Random, name: &str, words: &mut Vec<u32>) {
    let at = random.below(words.len());
    let last = words.len() - 1;
    let of_kind = |words: &[u32], kind: u32| (0..words.len()).filter(|&i| words[i] >> 28 == kind).collect::<Vec<_>>();
    let (paths, runs) = (of_kind(words, 4), of_kind(words, 5));
    match name {
        "list: bits flipped" => (0..1 + random.below(2)).for_each(|_| words[at] ^= 1 << random.below(32)),
        "list: a word changed" => words[at] = any_list_word(random),
        "list: a word dropped" => drop(words.remove(at)),
        "list: a word doubled" => words.insert(at, words[at]),
        "list: two words swapped" => words.swap(at, random.below(last + 1)),
        "list: words after the end" => (0..1 + random.below(3)).for_each(|_| words.push(any_list_word(random))),
        "list: cut short" => words.truncate(at),
        _ if runs.is_empty() => {}
        "list: a run lengthened or shortened" => {
            let i = random.pick(&runs);
            words[i] = words[i] & !31 | words[i].wrapping_add(random.pick(&[1, !0, 2, 5])) & 31;
        }
        "list: a run turned" => {
            let i = random.pick(&runs);
            words[i] = words[i] & !(3 << 26) | (random.below(4) as u32) << 26;
        }
        "list: a last run dropped" => {
            let path = random.pick(&paths);
            let count = (words[path] & 0x7FF) as usize;
            if count > 0 {
                words[path] -= 1;
                words.remove(path + count);
            }
        }
        "list: there and back" => {
            // A run of one, back over it, and again; the path's later runs follow.
            let path = random.pick(&paths);
            if words[path] & 0x7FF > 0 {
                let first = words[path + 1];
                let back = first ^ 2 << 26;
                words[path] += 2;
                words.splice(path + 1..path + 1, [first, back]);
            }
        }
        _ => exchange(random, name, words, &paths),
    }
}

/// Runs of one path put in the place of another's, or both ways round.
fn exchange(random: &mut Random, name: &str, words: &mut Vec<u32>, paths: &[usize]) {
    let mut lists: Vec<(u32, Vec<u32>)> = Vec::new();
    for &p in paths {
        lists.push((words[p] & !0x7FF, words[p + 1..p + 1 + (words[p] & 0x7FF) as usize].to_vec()));
    }
    let (i, j) = (random.below(lists.len()), random.below(lists.len()));
    if name == "list: paths exchanged" {
        let (a, b) = (lists[i].1.clone(), lists[j].1.clone());
        lists[i].1 = b;
        lists[j].1 = a;
    } else {
        lists[j].1 = lists[i].1.clone();
    }
    let end = words[words.len() - 1];
    words.clear();
    for (path, runs) in lists {
        words.push(path | runs.len() as u32);
        words.extend(runs);
    }
    words.push(end);
}

/// A path of very many runs, so that the list has about 2,049 words, or more.
fn lengthen(random: &mut Random, words: &mut Vec<u32>) {
    let length = random.pick(&[2047, 2048, 2049, 2049, 2050, 2051]);
    if words[0] >> 28 != 4 || words.len() > length || random.one_in(3) {
        return words.resize(length, 0);
    }
    let had = (words[0] & 0x7FF) as usize;
    let more = length - words.len();
    if had + more > 0x7FF {
        return words.resize(length, 0);
    }
    let mut direction = if had > 0 { words[had] >> 26 & 3 } else { 0 };
    let mut runs = Vec::new();
    for _ in 0..more {
        direction = (direction + 1 + random.below(3) as u32) & 3;
        runs.push(5 << 28 | direction << 26 | 1);
    }
    words[0] += more as u32;
    words.splice(had + 1..had + 1, runs);
}

fn any_list_word(random: &mut Random) -> u32 {
    let word = match random.below(6) {
        0 | 1 => 4 << 28 | (random.below(5) as u32) << 20 | random.below(3) as u32,
        2 | 3 => 5 << 28 | (random.below(4) as u32) << 26 | random.below(4) as u32,
        4 => 14 << 28 | random.below(4) as u32,
        _ => random.next() as u32,
    };
    if random.one_in(10) {
        return word ^ 1 << random.below(32);
    }
    word
}
