//! The requirements read anew, from their words alone: boards and their words, convexity, pins by rule book and those that the package has taken,
//! cuts, the wire to order, odd vertices and their pairings, the revised cut test of source document 004, the judge of routing words, and whether two
//! routings are alike. Nothing here is taken from the proved library; it is what the library is held against.

#![allow(dead_code)]

use std::collections::{BTreeMap, BTreeSet};

/// A refusal's number and place; the second place number is 0 where the place is one number.
#[derive(Clone, Copy, Debug, PartialEq, Eq)]
pub struct Refusal {
    pub number: u32,
    pub place: [u32; 2],
}

pub fn refuse<T>(number: u32, place: usize) -> Result<T, Refusal> {
    Err(Refusal { number, place: [place as u32, 0] })
}

/// (line, column).
pub type Vertex = (usize, usize);

/// An edge by its two ends, the upper or left one first.
pub type Edge = (Vertex, Vertex);

pub const UP: usize = 0;
pub const RIGHT: usize = 1;
pub const DOWN: usize = 2;
pub const LEFT: usize = 3;

/// The vertex one step away; the caller sees to it that the edge is there.
pub fn step(v: Vertex, direction: usize) -> Vertex {
    match direction {
        UP => (v.0 - 1, v.1),
        RIGHT => (v.0, v.1 + 1),
        DOWN => (v.0 + 1, v.1),
        _ => (v.0, v.1 - 1),
    }
}

#[derive(Clone, Debug, PartialEq, Eq)]
pub struct Net {
    pub number: u32,
    pub first: Vertex,
    pub second: Vertex,
}

/// The foundry's rule books, at their numbers in a board's end word.
#[derive(Clone, Copy, Debug, PartialEq, Eq)]
pub enum Book {
    Old,
    New,
}

pub const BOOKS: [Book; 2] = [Book::Old, Book::New];

#[derive(Clone, Debug, PartialEq, Eq)]
pub struct Board {
    /// Left and right of each row, from the top.
    pub rows: Vec<(usize, usize)>,
    pub book: Book,
    /// For each vertex with pins that the package has taken, how many; in reading order.
    pub taken: BTreeMap<Vertex, usize>,
    /// In rising number.
    pub nets: Vec<Net>,
}

// ---------------------------------------------------------------- the board

impl Board {
    /// Under the old rule, no pins taken and no nets.
    pub fn bare(rows: &[(usize, usize)]) -> Board {
        Board { rows: rows.to_vec(), book: Book::Old, taken: BTreeMap::new(), nets: Vec::new() }
    }

    /// The same under this book.
    pub fn under(self, book: Book) -> Board {
        Board { book, ..self }
    }

    pub fn lines(&self) -> usize {
        self.rows.len() + 1
    }

    /// Whether the unit cell of that row between `column` and `column + 1` is on the board.
    fn cell(&self, row: isize, column: isize) -> bool {
        row >= 0 && (row as usize) < self.rows.len() && {
            let (left, right) = self.rows[row as usize];
            left as isize <= column && column < right as isize
        }
    }

    /// Vertices are the corners of cells.
    pub fn vertex(&self, v: Vertex) -> bool {
        let (l, c) = (v.0 as isize, v.1 as isize);
        self.cell(l - 1, c - 1) || self.cell(l - 1, c) || self.cell(l, c - 1) || self.cell(l, c)
    }

    /// How many cells meet there.
    pub fn cells(&self, v: Vertex) -> usize {
        let (l, c) = (v.0 as isize, v.1 as isize);
        [(l - 1, c - 1), (l - 1, c), (l, c - 1), (l, c)].into_iter().filter(|&(row, column)| self.cell(row, column)).count()
    }

    /// Edges are the sides of cells: the one that leaves `v` in that direction.
    pub fn edge(&self, v: Vertex, direction: usize) -> bool {
        let (l, c) = (v.0 as isize, v.1 as isize);
        match direction {
            UP => self.cell(l - 1, c - 1) || self.cell(l - 1, c),
            RIGHT => self.cell(l - 1, c) || self.cell(l, c),
            DOWN => self.cell(l, c - 1) || self.cell(l, c),
            _ => self.cell(l - 1, c - 1) || self.cell(l, c - 1),
        }
    }

    pub fn vertices(&self) -> Vec<Vertex> {
        let all = (0..self.lines()).flat_map(|l| (0..32).map(move |c| (l, c)));
        all.filter(|&v| self.vertex(v)).collect()
    }

    pub fn degree(&self, v: Vertex) -> usize {
        (0..4).filter(|&d| self.edge(v, d)).count()
    }

    /// The pins of a vertex before any are taken, by the board's book.
    pub fn all_pins(&self, v: Vertex) -> usize {
        match (self.degree(v), self.book) {
            (2, Book::New) => 1,
            (degree, _) => 4 - degree,
        }
    }

    /// The pins of a vertex that the package has left.
    pub fn pins(&self, v: Vertex) -> usize {
        self.all_pins(v).saturating_sub(self.taken.get(&v).copied().unwrap_or(0))
    }

    /// Whether so many pins can be taken there.
    pub fn can_take(&self, v: Vertex, count: usize) -> bool {
        self.vertex(v) && count <= self.all_pins(v)
    }

    pub fn terminals(&self, v: Vertex) -> usize {
        self.nets.iter().map(|n| (n.first == v) as usize + (n.second == v) as usize).sum()
    }
}

// ---------------------------------------------------------------- convexity

impl Board {
    /// Any two vertices are joined by a path with at most one bend. From (l, c) to (m, d) such a path goes along line l to column d
    /// and then along that column, or along column c to line m and then along that line. Sets of columns are bits of a word.
    pub fn convex(&self) -> bool {
        let lines = self.lines();
        let set = |test: &dyn Fn(usize) -> bool| (0..32).filter(|&c| test(c)).fold(0u32, |s, c| s | 1 << c);
        let on: Vec<u32> = (0..lines).map(|l| set(&|c| self.vertex((l, c)))).collect();
        let down: Vec<u32> = (0..lines).map(|l| set(&|c| self.edge((l, c), DOWN))).collect();
        let along: Vec<[u32; 32]> = (0..lines).map(|l| self.along(l)).collect();
        for l in 0..lines {
            // The columns along which one comes from line l to line m.
            let mut straight = on[l];
            for m in l..lines {
                if m > l {
                    straight &= down[m - 1];
                }
                for c in (0..32).filter(|c| on[l] >> c & 1 == 1) {
                    let line_first = along[l][c] & straight;
                    let column_first = if straight >> c & 1 == 1 { along[m][c] } else { 0 };
                    if on[m] & !(line_first | column_first) != 0 {
                        return false;
                    }
                }
            }
        }
        true
    }

    /// For each column c: the columns reached from (line, c) along that line's edges.
    fn along(&self, line: usize) -> [u32; 32] {
        let mut reached = [0u32; 32];
        let mut start = 0;
        for c in 0..32 {
            if c == 31 || !self.edge((line, c), RIGHT) {
                let stretch = (start..=c).fold(0u32, |s, d| s | 1 << d);
                (start..=c).for_each(|d| reached[d] = stretch);
                start = c + 1;
            }
        }
        reached
    }

    /// The same by the bare definition, for the self test: every two vertices, both ways round, edge by edge.
    pub fn convex_by_definition(&self) -> bool {
        let all = self.vertices();
        all.iter().all(|&u| all.iter().all(|&v| self.one_bend(u, v) || self.one_bend(v, u)))
    }

    fn one_bend(&self, u: Vertex, v: Vertex) -> bool {
        self.straight(u, (u.0, v.1)) && self.straight((u.0, v.1), v)
    }

    fn straight(&self, u: Vertex, v: Vertex) -> bool {
        let (top, bottom) = (u.0.min(v.0), u.0.max(v.0));
        let (left, right) = (u.1.min(v.1), u.1.max(v.1));
        (top..bottom).all(|l| self.edge((l, u.1), DOWN)) && (left..right).all(|c| self.edge((u.0, c), RIGHT))
    }

    /// Lemma 1 in the requirements' words, for the self test.
    pub fn convex_by_lemma(&self) -> bool {
        let r = &self.rows;
        let within = |a: (usize, usize), b: (usize, usize)| b.0 <= a.0 && a.1 <= b.1;
        let nested = (0..r.len()).all(|i| (0..r.len()).all(|j| within(r[i], r[j]) || within(r[j], r[i])));
        let width = |i: usize| r[i].1 - r[i].0;
        let dips = (0..r.len()).any(|j| (0..j).any(|i| width(i) > width(j)) && (j + 1..r.len()).any(|k| width(k) > width(j)));
        nested && !dips
    }
}

// ---------------------------------------------------------------- cuts and odd vertices

#[derive(Clone, Copy, Debug, PartialEq, Eq)]
pub enum Cut {
    Row(usize),
    Column(usize),
}

impl Board {
    /// Rows from the top, then columns from the left.
    pub fn cuts(&self) -> Vec<Cut> {
        (0..self.rows.len()).map(Cut::Row).chain((0..31).map(Cut::Column)).collect()
    }

    pub fn cut_edges(&self, cut: Cut) -> i32 {
        match cut {
            Cut::Row(i) => (0..32).filter(|&c| self.edge((i, c), DOWN)).count() as i32,
            Cut::Column(j) => (0..self.lines()).filter(|&l| self.edge((l, j), RIGHT)).count() as i32,
        }
    }

    pub fn crosses(net: &Net, cut: Cut) -> bool {
        match cut {
            Cut::Row(i) => (net.first.0 <= i) != (net.second.0 <= i),
            Cut::Column(j) => (net.first.1 <= j) != (net.second.1 <= j),
        }
    }

    pub fn margin(&self, cut: Cut) -> i32 {
        self.cut_edges(cut) - self.nets.iter().filter(|n| Board::crosses(n, cut)).count() as i32
    }

    pub fn first_overfull(&self) -> Option<Cut> {
        self.cuts().into_iter().find(|&cut| self.margin(cut) < 0)
    }

    /// Every odd vertex, in reading order.
    pub fn odd_vertices(&self) -> Vec<Vertex> {
        let mut ends = [[0usize; 32]; 32];
        for n in &self.nets {
            ends[n.first.0][n.first.1] += 1;
            ends[n.second.0][n.second.1] += 1;
        }
        self.vertices().into_iter().filter(|&v| (self.degree(v) + ends[v.0][v.1]) % 2 == 1).collect()
    }
}

// ---------------------------------------------------------------- wire to order

/// What is told of a board and its nets before they are routed.
#[derive(Clone, Copy, Debug, PartialEq, Eq)]
pub struct Wire {
    /// The sum of crossing nets over all rows and columns.
    pub crossing: usize,
    /// The board's edge count.
    pub edges: usize,
}

impl Board {
    pub fn wire(&self) -> Wire {
        Wire { crossing: self.crossing_sum(), edges: self.edge_count() }
    }

    fn crossing_sum(&self) -> usize {
        let crossing = |cut: Cut| self.nets.iter().filter(|net| Board::crosses(net, cut)).count();
        self.cuts().into_iter().map(crossing).sum()
    }

    /// Edges are the sides of cells, and a side that two cells have in common is one edge: it is marked once, at its upper or left end.
    fn edge_count(&self) -> usize {
        let mut down_and_right = [[[false; 2]; 32]; 32];
        for (row, &(left, right)) in self.rows.iter().enumerate() {
            for column in left..right {
                down_and_right[row][column] = [true; 2];
                down_and_right[row][column + 1][0] = true;
                down_and_right[row + 1][column][1] = true;
            }
        }
        down_and_right.as_flattened().as_flattened().iter().filter(|&&mark| mark).count()
    }

    /// The most words of a routing, and the fewest that its buffer has to have room for: 1 plus nets plus edges.
    pub fn word_limit(&self) -> usize {
        1 + self.nets.len() + self.edge_count()
    }

    /// How far a list that uses so many edges and has so many words is within the bounds for lists that judging passes: the edges that it uses
    /// beyond the sum of crossing nets, those that it leaves unused, and the words that it has fewer than the limit. Below zero beyond a bound.
    pub fn within_bounds(&self, used: u32, words: usize) -> [i64; 3] {
        let Wire { crossing, edges } = self.wire();
        let used = used as i64;
        [used - crossing as i64, edges as i64 - used, self.word_limit() as i64 - words as i64]
    }
}

// ---------------------------------------------------------------- odd vertices paired off

/// More odd vertices than these are refused.
pub const MOST_ODD: usize = 12;

/// Pairs off the vertices in every way; `fits` is asked of the pairs laid so far, none at first, and a way is left where it does not hold.
/// Whether a way was found in which it holds to the end; its pairs are then left.
pub fn pair_off(vertices: &[Vertex], pairs: &mut Vec<(Vertex, Vertex)>, fits: &mut dyn FnMut(&[(Vertex, Vertex)]) -> bool) -> bool {
    if !fits(pairs) {
        return false;
    }
    let Some((&first, others)) = vertices.split_first() else { return true };
    for (i, &partner) in others.iter().enumerate() {
        let rest = [&others[..i], &others[i + 1..]].concat();
        pairs.push((first, partner));
        if pair_off(&rest, pairs, fits) {
            return true;
        }
        pairs.pop();
    }
    false
}

impl Board {
    /// In how many ways the odd vertices can be paired off so that no cut is overfull with the pairs as further nets, counted up to `most`.
    pub fn pairings(&self, most: usize) -> usize {
        let (odd, margins, mut count) = (self.odd_vertices(), self.margins(), 0);
        let crossed = |pairs: &[(Vertex, Vertex)], cut: Cut| pairs.iter().filter(|p| before(p.0, cut) != before(p.1, cut)).count() as i32;
        let mut fits = |pairs: &[(Vertex, Vertex)]| {
            let fits = margins.iter().all(|&(cut, margin)| crossed(pairs, cut) <= margin);
            let whole = 2 * pairs.len() == odd.len();
            count += (fits && whole) as usize;
            fits && (!whole || count == most)
        };
        pair_off(&odd, &mut Vec::new(), &mut fits);
        count
    }

    /// Whether disjoint paths for all nets exist: whether there is such a pairing.
    /// - Where paths exist, the edges that they leave have an odd count at the odd vertices and an even one elsewhere. So trails along these
    ///   edges, no edge used twice, pair the odd vertices off. Paths and trails together take an edge for each crossing of each cut.
    /// - Where there is such a pairing, each odd vertex has room for its pair's end, for it has three edges and no terminal or two and one. That is
    ///   so under either book: pairs need no pins.
    ///   With the pairs no vertex is odd and no cut is overfull, so there are paths for nets and pairs, and those of the pairs are dropped.
    pub fn paths_exist(&self) -> bool {
        self.pairings(1) == 1
    }
}

// ---------------------------------------------------------------- the revised cut test of source document 004

/// Whether a vertex lies above the row, or to the left of the column.
fn before(v: Vertex, cut: Cut) -> bool {
    match cut {
        Cut::Row(i) => v.0 <= i,
        Cut::Column(j) => v.1 <= j,
    }
}

fn is_row(cut: Cut) -> bool {
    matches!(cut, Cut::Row(_))
}

impl Board {
    pub fn edges(&self) -> Vec<Edge> {
        let from = |v: Vertex| [RIGHT, DOWN].into_iter().filter(move |&d| self.edge(v, d)).map(move |d| (v, step(v, d)));
        self.vertices().into_iter().flat_map(from).collect()
    }

    /// The edges, and one more for each net between its terminals.
    fn edges_and_nets(&self) -> Vec<Edge> {
        let nets = self.nets.iter().map(|n| (n.first, n.second));
        self.edges().into_iter().chain(nets).collect()
    }

    /// The cuts that have edges, each with its margin.
    pub fn margins(&self) -> Vec<(Cut, i32)> {
        let own = self.cuts().into_iter().filter(|&cut| self.cut_edges(cut) > 0);
        own.map(|cut| (cut, self.margin(cut))).collect()
    }

    /// The parity demand of each cut that has edges. The saturated rows, those with margin 0, part the vertices to the left of a column into
    /// sets; the saturated columns those above a row. The demand is the count of odd sets.
    pub fn parity_demands(&self) -> Vec<i32> {
        let (margins, edges) = (self.margins(), self.edges_and_nets());
        let saturated: Vec<Cut> = margins.iter().filter(|(_, margin)| *margin == 0).map(|&(cut, _)| cut).collect();
        let demand = |&(cut, _): &(Cut, i32)| {
            let parting: Vec<Cut> = saturated.iter().copied().filter(|&other| is_row(other) != is_row(cut)).collect();
            odd_sets(&edges, cut, &parting)
        };
        margins.iter().map(demand).collect()
    }

    /// Whether no cut's crossing nets and parity demand together are more than its edges.
    pub fn revised_cuts_hold(&self) -> bool {
        self.margins().iter().zip(self.parity_demands()).all(|(&(_, margin), demand)| demand <= margin)
    }
}

/// The vertices before a cut are parted by others across it. A set is odd when the edges with one end in it and one outside it are odd in number.
fn odd_sets(edges: &[Edge], cut: Cut, parting: &[Cut]) -> i32 {
    // The sets by number; None for the vertices behind the cut.
    let set = |v: Vertex| before(v, cut).then(|| parting.iter().filter(|&&other| before(v, other)).count());
    let mut leaving = vec![0; parting.len() + 1];
    for &(u, v) in edges {
        if set(u) != set(v) {
            [u, v].into_iter().filter_map(set).for_each(|i| leaving[i] += 1);
        }
    }
    leaving.iter().filter(|&&count| count % 2 == 1).count() as i32
}

// ---------------------------------------------------------------- board words

/// Bits `high` down to `low` of a word.
fn bits(word: u32, high: u32, low: u32) -> usize {
    ((word >> low) & ((1u64 << (high - low + 1)) - 1) as u32) as usize
}

pub fn words_of(bytes: &[u8]) -> Result<Vec<u32>, Refusal> {
    if bytes.len() % 4 != 0 {
        return refuse(10, 0);
    }
    Ok(bytes.chunks(4).map(|b| u32::from_le_bytes([b[0], b[1], b[2], b[3]])).collect())
}

pub fn bytes_of(words: &[u32]) -> Vec<u8> {
    words.iter().flat_map(|w| w.to_le_bytes()).collect()
}

/// The most words that a board can have.
pub const MOST_WORDS: usize = 224;

pub fn read(bytes: &[u8]) -> Result<Board, Refusal> {
    let words = words_of(bytes)?;
    if words.is_empty() || words.len() > MOST_WORDS {
        return refuse(11, 0);
    }
    let scanned = scan(&words)?;
    let mut board = Board::bare(&scanned.rows).under(scanned.book);
    if !board.convex() {
        return refuse(16, 0);
    }
    for (index, v, count) in scanned.taken {
        if !board.can_take(v, count) {
            return refuse(38, index);
        }
        board.taken.insert(v, count);
    }
    for (index, net) in scanned.nets {
        if let Some(number) = board.add_refused(&net) {
            return refuse(number, index);
        }
        board.nets.push(net);
    }
    Ok(board)
}

/// What the words of a board say. Taken pins and nets come with the index of their word.
struct Scanned {
    rows: Vec<(usize, usize)>,
    book: Book,
    taken: Vec<(usize, Vertex, usize)>,
    nets: Vec<(usize, Net)>,
}

/// The words one by one, each through 12 to 15.
fn scan(words: &[u32]) -> Result<Scanned, Refusal> {
    let (mut rows, mut taken, mut nets): (Vec<_>, Vec<_>, Vec<(usize, Net)>) = Default::default();
    // The book, once the end word has told it.
    let mut ended = None;
    for (index, &word) in words.iter().enumerate() {
        let kind = bits(word, 31, 28);
        let unnamed = match kind {
            1 => bits(word, 27, 10),
            2 => 0,
            3 => bits(word, 27, 12),
            15 => bits(word, 23, 16),
            _ => return refuse(12, index),
        };
        let (count, book) = (bits(word, 11, 10), bits(word, 27, 24));
        if unnamed != 0 || (kind == 3 && (count == 0 || count == 3)) || (kind == 15 && book > 1) {
            return refuse(12, index);
        }
        let number = bits(word, 27, 20) as u32;
        let vertex = (bits(word, 9, 5), bits(word, 4, 0));
        let misplaced = match kind {
            1 => !taken.is_empty() || !nets.is_empty(),
            2 => nets.last().is_some_and(|(_, last)| number <= last.number),
            3 => !nets.is_empty() || taken.last().is_some_and(|&(_, last, _)| vertex <= last),
            _ => false,
        };
        if (index == 0 && kind != 1) || misplaced || ended.is_some() {
            return refuse(13, index);
        }
        match kind {
            1 => {
                let (left, right) = (bits(word, 9, 5), bits(word, 4, 0));
                if left >= right || rows.len() == 31 {
                    return refuse(14, index);
                }
                rows.push((left, right));
            }
            2 => {
                let first = (bits(word, 19, 15), bits(word, 14, 10));
                let second = (bits(word, 9, 5), bits(word, 4, 0));
                nets.push((index, Net { number, first, second }));
            }
            3 => taken.push((index, vertex, count)),
            _ => {
                if bits(word, 15, 8) != rows.len() || bits(word, 7, 0) != nets.len() {
                    return refuse(15, index);
                }
                ended = Some(BOOKS[book]);
            }
        }
    }
    match ended {
        Some(book) => Ok(Scanned { rows, book, taken, nets }),
        None => refuse(13, words.len()),
    }
}

impl Board {
    /// The number of the refusal that an add of this net gets, if any.
    pub fn add_refused(&self, net: &Net) -> Option<u32> {
        if net.number < 1 || net.number > 64 {
            return Some(21);
        }
        if self.nets.iter().any(|n| n.number == net.number) {
            return Some(22);
        }
        if !self.vertex(net.first) || !self.vertex(net.second) {
            return Some(23);
        }
        if net.first == net.second {
            return Some(24);
        }
        let full = |v: Vertex| self.terminals(v) >= self.pins(v);
        if full(net.first) || full(net.second) {
            return Some(25);
        }
        None
    }

    pub fn words(&self) -> Vec<u32> {
        let row = |r: &(usize, usize)| 1 << 28 | (r.0 << 5) as u32 | r.1 as u32;
        let end = 15 << 28 | (self.book as u32) << 24 | (self.rows.len() << 8) as u32 | self.nets.len() as u32;
        let taken = self.taken.iter().map(|(&v, &count)| taken_word(v, count));
        self.rows.iter().map(row).chain(taken).chain(self.nets.iter().map(net_word)).chain([end]).collect()
    }
}

/// So many taken pins of a vertex.
pub fn taken_word(v: Vertex, count: usize) -> u32 {
    3 << 28 | (count << 10 | v.0 << 5 | v.1) as u32
}

/// A board's bytes without the words of taken pins; the end word does not count these.
pub fn without_taken(bytes: &[u8]) -> Vec<u8> {
    bytes.chunks(4).filter(|word| word.len() < 4 || word[3] >> 4 != 3).flatten().copied().collect()
}

/// A board's bytes under the other book: the end word is the last.
pub fn under_other_book(bytes: &[u8]) -> Vec<u8> {
    let mut other = bytes.to_vec();
    other.last_mut().into_iter().for_each(|byte| *byte ^= 1);
    other
}

/// The book that a board's last word tells, be the board refused or not; None where that is no end word or tells none.
pub fn book_told(bytes: &[u8]) -> Option<Book> {
    BOOKS.into_iter().find(|&book| bytes.last() == Some(&(0xF0 | book as u8)))
}

pub fn net_word(n: &Net) -> u32 {
    let ends = n.first.0 << 15 | n.first.1 << 10 | n.second.0 << 5 | n.second.1;
    2 << 28 | n.number << 20 | ends as u32
}

// ---------------------------------------------------------------- routing

/// What stands before a routing: room, too many odd vertices, overfull cuts, no paths. None: a routing is owed. A buffer counts as its whole groups
/// of four bytes.
pub fn route_refused(board: &Board, buffer_length: usize) -> Option<Refusal> {
    if buffer_length / 4 < board.word_limit() {
        return Some(Refusal { number: 31, place: [0, 0] });
    }
    let odd = board.odd_vertices();
    if odd.len() > MOST_ODD {
        return Some(Refusal { number: 32, place: [odd[0].0 as u32, odd[0].1 as u32] });
    }
    match board.first_overfull() {
        Some(Cut::Row(i)) => Some(Refusal { number: 33, place: [0, i as u32] }),
        Some(Cut::Column(j)) => Some(Refusal { number: 33, place: [1, j as u32] }),
        None if !board.paths_exist() => Some(Refusal { number: 34, place: [0, 0] }),
        None => None,
    }
}

/// The board of request §4: the revised cut test holds, and no routing exists.
pub fn bare_pins_board() -> Board {
    let ends = [((0, 2), (1, 4)), ((2, 5), (4, 4)), ((5, 3), (4, 1)), ((3, 0), (1, 1)), ((0, 3), (5, 2)), ((3, 5), (2, 0))];
    let nets = (1..).zip(ends).map(|(number, (first, second))| Net { number, first, second }).collect();
    Board { nets, ..Board::bare(&[(2, 3), (1, 4), (0, 5), (1, 4), (2, 3)]) }
}

/// The routing words of paths given by their steps, one path for each net in order.
pub fn routing_words(board: &Board, paths: &[Vec<usize>]) -> Vec<u32> {
    let mut words = Vec::new();
    for (net, path) in board.nets.iter().zip(paths) {
        let mut runs: Vec<(usize, u32)> = Vec::new();
        for &direction in path {
            match runs.last_mut() {
                Some((same, length)) if *same == direction => *length += 1,
                _ => runs.push((direction, 1)),
            }
        }
        words.push(4 << 28 | net.number << 20 | runs.len() as u32);
        words.extend(runs.iter().map(|&(direction, length)| 5 << 28 | (direction as u32) << 26 | length));
    }
    words.push(14 << 28 | paths.len() as u32);
    words
}

/// The steps of each path of true routing words.
pub fn steps_of(words: &[u32]) -> Vec<Vec<usize>> {
    let mut paths: Vec<Vec<usize>> = Vec::new();
    for &word in words {
        match (bits(word, 31, 28), paths.last_mut()) {
            (4, _) => paths.push(Vec::new()),
            (5, Some(path)) => path.extend(vec![bits(word, 27, 26); bits(word, 4, 0)]),
            _ => {}
        }
    }
    paths
}

// ---------------------------------------------------------------- judging

#[derive(Clone, Copy, Debug, PartialEq, Eq)]
pub struct Report {
    pub edges: u32,
    pub turns: u32,
    /// Vertices where two turns occur, whether of two paths or of one.
    pub knock_knees: u32,
    /// Those of them where one net turns twice.
    pub turned_twice: u32,
    /// The greatest number of turns at a vertex.
    pub most_turns: u32,
}

/// Indices of a path word and of the word after its last run.
struct Part {
    path: usize,
    end: usize,
}

pub fn judge(board: &Board, bytes: &[u8]) -> Result<Report, Refusal> {
    judge_edges(board, bytes, &mut |_, _| {})
}

/// The same; `each` is told every edge as it is walked, with the net that uses it.
pub fn judge_edges(board: &Board, bytes: &[u8], each: &mut dyn FnMut(&Net, Edge)) -> Result<Report, Refusal> {
    let words = words_of(bytes)?;
    if words.is_empty() || words.len() > 2049 {
        return refuse(41, 0);
    }
    let parts = shape(board, &words)?;
    walk(board, &words, &parts, each)
}

/// The words one by one, 42 before 43.
fn shape(board: &Board, words: &[u32]) -> Result<Vec<Part>, Refusal> {
    let mut parts: Vec<Part> = Vec::new();
    let mut runs_end = 0;
    let mut ended = false;
    for (index, &word) in words.iter().enumerate() {
        let kind = bits(word, 31, 28);
        if ended {
            return refuse(43, index);
        }
        if index < runs_end {
            // A run is due.
            let first_of_path = index == parts[parts.len() - 1].path + 1;
            let repeated = !first_of_path && bits(words[index - 1], 27, 26) == bits(word, 27, 26);
            if kind != 5 || bits(word, 25, 5) != 0 || bits(word, 4, 0) == 0 || repeated {
                return refuse(42, index);
            }
        } else if kind == 4 && bits(word, 19, 11) == 0 {
            let next = board.nets.get(parts.len());
            if next.map_or(true, |net| net.number as usize != bits(word, 27, 20)) {
                return refuse(43, index);
            }
            runs_end = index + 1 + bits(word, 10, 0);
            parts.push(Part { path: index, end: runs_end });
        } else if kind == 14 && bits(word, 27, 8) == 0 {
            if parts.len() != board.nets.len() || bits(word, 7, 0) != parts.len() {
                return refuse(43, index);
            }
            ended = true;
        } else {
            return refuse(42, index);
        }
    }
    if !ended {
        return refuse(43, words.len());
    }
    Ok(parts)
}

/// The paths walked, in order.
fn walk(board: &Board, words: &[u32], parts: &[Part], each: &mut dyn FnMut(&Net, Edge)) -> Result<Report, Refusal> {
    let mut used = [[[false; 2]; 32]; 32];
    let mut turning: Vec<(Vertex, u32)> = Vec::new();
    let mut report = Report { edges: 0, turns: 0, knock_knees: 0, turned_twice: 0, most_turns: 0 };
    for (net, part) in board.nets.iter().zip(parts) {
        let mut at = net.first;
        for index in part.path + 1..part.end {
            let (direction, length) = (bits(words[index], 27, 26), bits(words[index], 4, 0));
            if index > part.path + 1 {
                report.turns += 1;
                turning.push((at, net.number));
            }
            for _ in 0..length {
                if !board.edge(at, direction) {
                    return refuse(44, index);
                }
                let to = step(at, direction);
                // An edge is known by its upper or left end.
                let end = at.min(to);
                let mark = &mut used[end.0][end.1][direction % 2];
                if *mark {
                    return refuse(45, index);
                }
                *mark = true;
                each(net, (end, at.max(to)));
                report.edges += 1;
                at = to;
            }
        }
        if at != net.second {
            return refuse(46, part.path);
        }
    }
    count_turns(&mut report, turning);
    Ok(report)
}

/// What occurs at the vertices where paths turn; each turn is given by its vertex and its net.
fn count_turns(report: &mut Report, mut turning: Vec<(Vertex, u32)>) {
    turning.sort();
    for turns in turning.chunk_by(|a, b| a.0 == b.0) {
        report.knock_knees += (turns.len() > 1) as u32;
        report.turned_twice += turns.windows(2).any(|w| w[0] == w[1]) as u32;
        report.most_turns = report.most_turns.max(turns.len() as u32);
    }
}

// ---------------------------------------------------------------- two routings

/// For each net's number, the set of edges that its path uses.
pub type EdgesByNet = BTreeMap<u32, BTreeSet<Edge>>;

/// The edges that a list's paths use. The list is judged whole.
pub fn edges_by_net(board: &Board, bytes: &[u8]) -> Result<EdgesByNet, Refusal> {
    let mut sets: EdgesByNet = board.nets.iter().map(|net| (net.number, BTreeSet::new())).collect();
    judge_edges(board, bytes, &mut |net, edge| {
        sets.entry(net.number).or_default().insert(edge);
    })?;
    Ok(sets)
}

/// Two routings are alike when each net uses the same set of edges in both. The first list is judged whole, then the second.
pub fn alike(board: &Board, one: &[u8], two: &[u8]) -> Result<bool, Refusal> {
    let in_one = edges_by_net(board, one).map_err(|refusal| of_list(0, refusal))?;
    let in_two = edges_by_net(board, two).map_err(|refusal| of_list(1, refusal))?;
    Ok(board.nets.iter().all(|net| in_one[&net.number] == in_two[&net.number]))
}

/// 41 to 46 put 0 or 1 for the list before the judge's place; a list's 10 has its place alone.
fn of_list(list: u32, refusal: Refusal) -> Refusal {
    match refusal.number {
        41..=46 => Refusal { number: refusal.number, place: [list, refusal.place[0]] },
        _ => refusal,
    }
}
