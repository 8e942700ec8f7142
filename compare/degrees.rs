//! Holds the program degrees, which draws a board's vertices by the cells that meet there, against a drawing made from the requirements' words.
//!
//!     degrees [SEED]          all cases
//!     degrees SEED CASE       one case again
//!
//! Here a board is the set of its cells. Cells that meet at a vertex and edges that end there are counted apart, and the two counts have to go
//! together as the requirements say. Taken pins and the rule book do not show in a drawing, but they may have a board refused. The first difference
//! ends the run with status 1 and prints seed, case, the input's bytes and both texts. So does a run whose boards reach too little.

#[allow(dead_code)]
mod books;
#[allow(dead_code)]
mod generate;
mod independent;
mod program;
mod taken;

use books::{made_bytes, MADE_KINDS};
use generate::{any_bare, any_nets, board_bytes, even_nets, take_pins, wrong_net, Random, BOARD_KINDS};
use independent::{book_told, bytes_of, read, under_other_book, Board, Book, Net, Vertex, MOST_WORDS};
use std::collections::{BTreeMap, BTreeSet, VecDeque};
use std::time::Instant;

const PROGRAM: &str = "target/bin/degrees";
/// Most rows, and most columns of cells.
const MOST: usize = 31;
/// The first cases are convex boards, one of each size.
const SIZES: u64 = (MOST * MOST) as u64;
/// Up to here cases are convex boards; the others are seldom read.
const CONVEX: u64 = 1_300;
const CASES: u64 = 2_400;
/// The program reads as many bytes and no more.
const LONGEST: usize = 65_536;
/// As many bytes of an input as are printed.
const SHOWN: usize = 600;

type Rows = Vec<(usize, usize)>;
/// A unit cell: its row, and the column at its left.
type Cell = (usize, usize);
/// An edge: its upper or left end, then the other.
type Edge = (Vertex, Vertex);

// ---------------------------------------------------------------- cells, corners and sides

/// The cells of a board: row i has those from column left to column right.
fn cells(rows: &[(usize, usize)]) -> BTreeSet<Cell> {
    rows.iter().enumerate().flat_map(|(row, &(left, right))| (left..right).map(move |column| (row, column))).collect()
}

fn corners((row, column): Cell) -> [Vertex; 4] {
    [(row, column), (row, column + 1), (row + 1, column), (row + 1, column + 1)]
}

/// Top, bottom, left and right side.
fn sides((row, column): Cell) -> [Edge; 4] {
    let (below, after) = (row + 1, column + 1);
    [
        ((row, column), (row, after)),
        ((below, column), (below, after)),
        ((row, column), (below, column)),
        ((row, after), (below, after)),
    ]
}

fn side_in_common(a: Cell, b: Cell) -> bool {
    sides(a).iter().any(|side| sides(b).contains(side))
}

/// Each corner of a cell, with the cells that have it as a corner.
fn cells_at(cells: &BTreeSet<Cell>) -> BTreeMap<Vertex, Vec<Cell>> {
    let mut at: BTreeMap<Vertex, Vec<Cell>> = BTreeMap::new();
    for &cell in cells {
        corners(cell).into_iter().for_each(|vertex| at.entry(vertex).or_default().push(cell));
    }
    at
}

/// Each end of a cell's side, with how many sides end there. Two cells that have a side in common have one edge there, not two.
fn edges_at(cells: &BTreeSet<Cell>) -> BTreeMap<Vertex, usize> {
    let edges: BTreeSet<Edge> = cells.iter().flat_map(|&cell| sides(cell)).collect();
    let mut at: BTreeMap<Vertex, usize> = BTreeMap::new();
    for (one, other) in edges {
        *at.entry(one).or_insert(0) += 1;
        *at.entry(other).or_insert(0) += 1;
    }
    at
}

// ---------------------------------------------------------------- the drawing

/// The kinds of vertices: sign, cells that meet, edges, and the name for a count of them.
const KINDS: [(char, usize, usize, &str); 4] =
    [('o', 1, 2, "outer corners"), ('s', 2, 3, "on straight sides"), ('c', 3, 4, "concave corners"), ('i', 4, 4, "inside")];

/// The kind of a vertex, an index into KINDS, from the cells that meet there and the count of edges. None: it is no vertex of a convex board.
fn kind(cells: &[Cell], edges: usize) -> Option<usize> {
    if cells.len() == 2 && !side_in_common(cells[0], cells[1]) {
        return None;
    }
    KINDS.iter().position(|&(_, meeting, degree, _)| cells.len() == meeting && edges == degree)
}

/// What the program is to print, and what it shows.
struct Expected {
    text: String,
    /// How many vertices of each kind.
    kinds: [u64; 4],
    refused: Option<u32>,
}

/// A convex board: for each line 32 signs and a line feed.
fn drawn(board: &Board) -> Expected {
    let cells = cells(&board.rows);
    let (meeting, edges) = (cells_at(&cells), edges_at(&cells));
    assert!(meeting.keys().eq(edges.keys()), "corners and ends of sides differ on {:?}", board.rows);
    let (mut text, mut kinds) = (String::new(), [0; 4]);
    for line in 0..=board.rows.len() {
        for column in 0..32 {
            let vertex = (line, column);
            let Some(here) = meeting.get(&vertex) else {
                text.push(' ');
                continue;
            };
            // The reader of board words, which needs it for pins, counts edges in a way of its own.
            assert_eq!(edges[&vertex], board.degree(vertex), "edges at {vertex:?} of {:?}", board.rows);
            let kind = kind(here, edges[&vertex]);
            let kind = kind.unwrap_or_else(|| panic!("{here:?} meet at {vertex:?} of {:?}, with {} edges", board.rows, edges[&vertex]));
            text.push(KINDS[kind].0);
            kinds[kind] += 1;
        }
        text.push('\n');
    }
    Expected { text, kinds, refused: None }
}

/// The drawing, or the refusal that reading gives.
fn expected(bytes: &[u8]) -> Expected {
    match read(bytes) {
        Ok(board) => drawn(&board),
        Err(refusal) => {
            let text = format!("refused {} {}\n", refusal.number, refusal.place[0]);
            Expected { text, kinds: [0; 4], refused: Some(refusal.number) }
        }
    }
}

// ---------------------------------------------------------------- convex boards

/// Spans, each within the last, the first as wide as told. Steps are of any width.
fn narrowing(random: &mut Random, count: usize, width: usize) -> Rows {
    let steep = random.pick(&[1, 2, 5, 20]);
    let mut span = (0, width);
    let mut rows = vec![span];
    while rows.len() < count {
        if random.one_in(steep) {
            let least = if random.one_in(2) { (span.1 - span.0 + 1) / 2 } else { 1 };
            let width = least + random.below(span.1 - span.0 - least + 1);
            let left = span.0 + random.below(span.1 - span.0 - width + 1);
            span = (left, left + width);
        }
        rows.push(span);
    }
    rows
}

/// The spans of `narrowing`, each laid on top or below.
fn wide_in_the_middle(random: &mut Random, count: usize, width: usize) -> Rows {
    let mut rows = VecDeque::new();
    for span in narrowing(random, count, width) {
        if random.one_in(2) {
            rows.push_front(span);
        } else {
            rows.push_back(span);
        }
    }
    rows.into()
}

/// A wide part with a narrower arm above and the same below, where there is room for them.
fn plus(random: &mut Random, count: usize, width: usize) -> Rows {
    if count < 3 || width < 3 {
        return vec![(0, width); count];
    }
    let left = 1 + random.below(width - 2);
    let arm = (left, left + 1 + random.below(width - 1 - left));
    let above = 1 + random.below(count - 2);
    let below = 1 + random.below(count - above - 1);
    let mut rows = vec![(0, width); count];
    rows[..above].fill(arm);
    rows[count - below..].fill(arm);
    rows
}

/// Convex rows, as many as told and the widest as wide as told; from column 0, up to column 31, or in between.
fn shape(random: &mut Random, count: usize, width: usize) -> Rows {
    let mut rows = match random.below(8) {
        0 => vec![(0, width); count],
        1 => narrowing(random, count, width),
        2 => narrowing(random, count, width).into_iter().rev().collect(),
        3 => plus(random, count, width),
        _ => wide_in_the_middle(random, count, width),
    };
    let room = 31 - width;
    let start = match random.below(4) {
        0 => 0,
        1 => room,
        _ => random.below(room + 1),
    };
    rows.iter_mut().for_each(|row| *row = (row.0 + start, row.1 + start));
    rows
}

/// No nets, nets on some pins, or nets that leave no vertex odd.
fn nets(random: &mut Random, bare: &Board) -> Vec<Net> {
    match random.below(3) {
        0 => Vec::new(),
        1 => any_nets(random, bare),
        _ => even_nets(random, bare, false),
    }
}

/// A board of these rows under either book, with nets and taken pins or without.
fn any_board(random: &mut Random, rows: &[(usize, usize)]) -> Board {
    let mut board = any_bare(random, rows);
    board.nets = nets(random, &board);
    take_pins(random, &mut board);
    board
}

fn convex_board(random: &mut Random, count: usize, width: usize) -> Board {
    let rows = shape(random, count, width);
    any_board(random, &rows)
}

/// A convex board of any size, with those at the limits more often than others.
fn any_convex_board(random: &mut Random) -> Board {
    if random.one_in(20) {
        return full_board(random);
    }
    let mut length = || match random.below(4) {
        0 => random.pick(&[1, 1, MOST - 1, MOST]),
        1 => 1 + random.below(5),
        _ => 1 + random.below(MOST),
    };
    let (count, width) = (length(), length());
    convex_board(random, count, width)
}

/// 31 rows and 64 nets, under the old rule. These take all pins, which a random choice of nets seldom does.
fn full_board(random: &mut Random) -> Board {
    let mut board = Board::bare(&shape(random, MOST, MOST));
    for _ in 0..100 {
        if board.nets.len() == 64 {
            break;
        }
        board.nets = even_nets(random, &Board::bare(&board.rows), false);
    }
    board
}

// ---------------------------------------------------------------- boards that are seldom read

/// Two parts that touch at a corner alone, or lie apart.
fn parted(random: &mut Random) -> Rows {
    let end = 1 + random.below(30);
    let begin = (end + random.pick(&[0, 0, 1, 4])).min(30);
    let one = (random.below(end), end);
    let other = (begin, begin + 1 + random.below(31 - begin));
    let mut rows = vec![one; 1 + random.below(15)];
    rows.extend(vec![other; 1 + random.below(15)]);
    if random.one_in(2) {
        rows.reverse();
    }
    rows
}

/// Rows that shrink and then grow again.
fn waist(random: &mut Random) -> Rows {
    let (count, width) = (3 + random.below(29), 2 + random.below(30));
    let mut rows = shape(random, count, width);
    let wide = rows.iter().copied().max_by_key(|row| row.1 - row.0).unwrap();
    let at = 1 + random.below(count - 2);
    (rows[at - 1], rows[at + 1]) = (wide, wide);
    rows[at] = random.pick(&[(wide.0, wide.1 - 1), (wide.0 + 1, wide.1), (wide.0, wide.0 + 1)]);
    rows
}

/// Convex rows, of which one then has an end elsewhere.
fn bent(random: &mut Random) -> Rows {
    let (count, width) = (2 + random.below(30), 1 + random.below(MOST));
    let mut rows = shape(random, count, width);
    let row = random.below(count);
    let (left, right) = rows[row];
    rows[row] = match random.below(4) {
        0 if left > 0 => (left - 1, right),
        1 if right < 31 => (left, right + 1),
        2 => (random.below(right), right),
        _ => (left, left + 1 + random.below(31 - left)),
    };
    rows
}

fn not_convex(random: &mut Random) -> Vec<u8> {
    let rows = match random.below(3) {
        0 => parted(random),
        1 => waist(random),
        _ => bent(random),
    };
    bytes_of(&any_board(random, &rows).words())
}

/// A convex board's bytes and more bytes after them.
fn many_bytes(random: &mut Random) -> Vec<u8> {
    let most = 4 * MOST_WORDS;
    let length = random.pick(&[most + 1, most + 2, most + 4, most + 8, 4_095, 4_096, 4_097, LONGEST - 4, LONGEST - 2, LONGEST - 1, LONGEST]);
    let mut bytes = bytes_of(&any_convex_board(random).words());
    while bytes.len() < length {
        bytes.push(random.next() as u8);
    }
    bytes
}

/// The bytes of a case.
fn case_bytes(seed: u64, case: u64) -> Vec<u8> {
    let mut random = Random::of_case(seed, 'v', case);
    if case < SIZES {
        let (count, width) = (1 + case as usize % MOST, 1 + case as usize / MOST);
        return bytes_of(&convex_board(&mut random, count, width).words());
    }
    if case < CONVEX {
        return bytes_of(&any_convex_board(&mut random).words());
    }
    match random.below(16) {
        0..=4 => {
            // The first five kinds there are true boards.
            let kind = 5 + random.below(BOARD_KINDS.len() - 5);
            board_bytes(&mut random, kind)
        }
        // Each of these kinds in turn.
        10..=15 => made_bytes(&mut random, case as usize % MADE_KINDS).0,
        5..=7 => not_convex(&mut random),
        8 => {
            let board = any_convex_board(&mut random);
            wrong_net(&mut random, board)
        }
        _ => many_bytes(&mut random),
    }
}

// ---------------------------------------------------------------- boards drawn by hand

/// Words of boards, and the lines to be printed, worked out from the requirements.
const BY_HAND: [(&[u32], &[&str]); 27] = [
    // One cell.
    (
        &[0x10000001, 0xF0000100],
        &[
            "oo                              ",
            "oo                              ",
        ],
    ),
    // Board h: rows 1-2, 0-3, 1-2.
    (
        &[0x10000022, 0x10000003, 0x10000022, 0xF0000300],
        &[
            " oo                             ",
            "occo                            ",
            "occo                            ",
            " oo                             ",
        ],
    ),
    // A square of 2 by 2 cells.
    (
        &[0x10000002, 0x10000002, 0xF0000200],
        &[
            "oso                             ",
            "sis                             ",
            "oso                             ",
        ],
    ),
    // One row of three cells: straight sides between the corners.
    (
        &[0x10000003, 0xF0000100],
        &[
            "osso                            ",
            "osso                            ",
        ],
    ),
    // Rows 29-31 and 30-31, up to the last column.
    (
        &[0x100003BF, 0x100003DF, 0xF0000200],
        &[
            "                             oso",
            "                             ocs",
            "                              oo",
        ],
    ),
    // The ring: nets leave the drawing as it is.
    (
        &[0x10000001, 0x20100001, 0x20200421, 0x20308420, 0x20408000, 0xF0000104],
        &[
            "oo                              ",
            "oo                              ",
        ],
    ),
    // Boards f and g.
    (&[0x10000001, 0x10000022, 0xF0000200], &["refused 16 0"]),
    (&[0x10000002, 0x10000001, 0x10000002, 0xF0000300], &["refused 16 0"]),
    // A net from a concave corner of board h, (1,1), which has no pin: the place is the word's index.
    (&[0x10000022, 0x10000003, 0x10000022, 0x20108401, 0xF0000301], &["refused 25 3"]),
    // No words.
    (&[], &["refused 11 0"]),
    // Taken pins leave the drawing as it is: two at (0,0), one at (0,1), one of two at (1,2), where a net ends too.
    (
        &[0x10000002, 0x30000800, 0x30000401, 0x30000422, 0x20108022, 0xF0000101],
        &[
            "oso                             ",
            "oso                             ",
        ],
    ),
    // That net to (0,1) instead; two pins taken there; at (0,3), where no vertex is; at the vertex inside a square of 2 by 2 cells.
    (&[0x10000002, 0x30000800, 0x30000401, 0x30000422, 0x20108001, 0xF0000101], &["refused 25 4"]),
    (&[0x10000002, 0x30000800, 0x30000801, 0x30000422, 0x20108022, 0xF0000101], &["refused 38 2"]),
    (&[0x10000002, 0x30000800, 0x30000403, 0x30000422, 0x20108022, 0xF0000101], &["refused 38 2"]),
    (&[0x10000002, 0x10000002, 0x30000421, 0xF0000200], &["refused 38 2"]),
    // Three pins taken, a vertex before the last one's, and a taken word after a net.
    (&[0x10000002, 0x30000C00, 0xF0000100], &["refused 12 1"]),
    (&[0x10000002, 0x30000401, 0x30000800, 0xF0000100], &["refused 13 2"]),
    (&[0x10000002, 0x20108022, 0x30000401, 0xF0000101], &["refused 13 2"]),
    // The new rule leaves the drawing as it is: one net at (0,0), one pin taken at (1,1).
    (
        &[0x10000001, 0x30000421, 0x20100020, 0xF1000101],
        &[
            "oo                              ",
            "oo                              ",
        ],
    ),
    // Two nets at (0,0), under the old rule and the new; there two pins taken, and one besides a net.
    (
        &[0x10000001, 0x20100020, 0x20200001, 0xF0000102],
        &[
            "oo                              ",
            "oo                              ",
        ],
    ),
    (&[0x10000001, 0x20100020, 0x20200001, 0xF1000102], &["refused 25 2"]),
    (&[0x10000001, 0x30000800, 0xF1000100], &["refused 38 1"]),
    (&[0x10000001, 0x30000400, 0x20100020, 0xF1000101], &["refused 25 2"]),
    // The books 2 and 15, an unnamed bit, and the new rule with a net too many.
    (&[0x10000001, 0xF2000100], &["refused 12 1"]),
    (&[0x10000001, 0xFF000100], &["refused 12 1"]),
    (&[0x10000001, 0xF1800100], &["refused 12 1"]),
    (&[0x10000001, 0xF1000101], &["refused 15 1"]),
];

/// Board f once more: two cells meet at (1,1) without a side in common, and four edges end there. That is none of the four kinds.
fn corner_alone() {
    let cells = cells(&[(0, 1), (1, 2)]);
    let (meeting, edges) = (cells_at(&cells), edges_at(&cells));
    assert_eq!((meeting[&(1, 1)].len(), edges[&(1, 1)]), (2, 4));
    assert_eq!(kind(&meeting[&(1, 1)], 4), None);
    assert_eq!(kind(&meeting[&(1, 1)], 3), None);
}

/// The drawings made here, held against those by hand.
fn self_test() {
    corner_alone();
    for (words, lines) in BY_HAND {
        let text: String = lines.iter().map(|line| format!("{line}\n")).collect();
        assert_eq!(expected(&bytes_of(words)).text, text, "a board drawn by hand: {words:08X?}");
    }
}

// ---------------------------------------------------------------- the program held against the drawing

/// A text line by line, so that spaces and line feeds can be seen.
fn shown(text: &str) -> String {
    text.split_inclusive('\n').map(|line| format!("    {line:?}\n")).collect()
}

fn difference(what: &str, bytes: &[u8], expected: &str, found: &str) -> ! {
    let hex: String = bytes.iter().take(SHOWN).map(|byte| format!("{byte:02x}")).collect();
    let more = if bytes.len() > SHOWN { format!(" and {} more", bytes.len() - SHOWN) } else { String::new() };
    println!("DIFFERENCE: {what}");
    println!("{} board bytes: {hex}{more}", bytes.len());
    println!("expected:\n{}found, {PROGRAM}:\n{}", shown(expected), shown(found));
    std::process::exit(1)
}

/// The program may end with any status of its own after a refusal; after a drawing it ends well.
fn compare(what: &str, bytes: &[u8], expected: &Expected) {
    let (output, status) = program::printed(PROGRAM, bytes);
    let output = String::from_utf8_lossy(&output).into_owned();
    if output != expected.text {
        difference(what, bytes, &expected.text, &output);
    }
    if status.code().is_none() || (expected.refused.is_none() && !status.success()) {
        difference(&format!("{what}: the program ended badly, {status}"), bytes, &expected.text, &output);
    }
}

// ---------------------------------------------------------------- what was reached

#[derive(Default)]
struct Run {
    drawn: u64,
    kinds: [u64; 4],
    refusals: BTreeMap<u32, u64>,
    /// The same for boards whose last word tells the new rule.
    refusals_new: BTreeMap<u32, u64>,
    /// Rows and columns of boards that were drawn.
    sizes: BTreeSet<(usize, usize)>,
    with_nets: u64,
    right_of_0: u64,
    reach_31: u64,
    with_taken: u64,
    /// Boards drawn under the old rule, and under the new one.
    under: [u64; 2],
    /// Boards of one book drawn once more under the other, and those that the new rule alone refuses.
    under_both: u64,
    under_old_alone: u64,
    of_96_words: u64,
    of_more_words: u64,
}

/// All that reading can refuse. A number that is on the board already is not above the last one, and gets 13 instead of 22.
const REFUSALS: [u32; 12] = [10, 11, 12, 13, 14, 15, 16, 38, 21, 23, 24, 25];

impl Run {
    /// One case.
    fn case(&mut self, seed: u64, case: u64) {
        let bytes = case_bytes(seed, case);
        let expected = expected(&bytes);
        compare(&format!("seed {seed} case {case}"), &bytes, &expected);
        match expected.refused {
            Some(number) => {
                *self.refusals.entry(number).or_insert(0) += 1;
                if book_told(&bytes) == Some(Book::New) {
                    *self.refusals_new.entry(number).or_insert(0) += 1;
                }
            }
            None => {
                self.count_drawn(&bytes, &expected);
                self.other_book(&format!("seed {seed} case {case}, under the other book"), &bytes, &expected);
            }
        }
    }

    /// A board that is drawn, once more under the other book: the drawing is the same, unless the new rule refuses the board.
    fn other_book(&mut self, what: &str, bytes: &[u8], drawn: &Expected) {
        let bytes = under_other_book(bytes);
        let other = expected(&bytes);
        assert!(other.text == drawn.text || book_told(&bytes) == Some(Book::New) && other.refused.is_some());
        compare(what, &bytes, &other);
        self.under_both += other.refused.is_none() as u64;
        self.under_old_alone += other.refused.is_some() as u64;
    }

    fn count_drawn(&mut self, bytes: &[u8], expected: &Expected) {
        let Ok(board) = read(bytes) else { return };
        let left = board.rows.iter().map(|row| row.0).min().unwrap_or(0);
        let right = board.rows.iter().map(|row| row.1).max().unwrap_or(0);
        self.drawn += 1;
        (0..4).for_each(|kind| self.kinds[kind] += expected.kinds[kind]);
        self.sizes.insert((board.rows.len(), right - left));
        self.with_nets += !board.nets.is_empty() as u64;
        self.right_of_0 += (left > 0) as u64;
        self.reach_31 += (right == 31) as u64;
        self.with_taken += !board.taken.is_empty() as u64;
        self.under[board.book as usize] += 1;
        self.of_96_words += (bytes.len() == 4 * 96) as u64;
        self.of_more_words += (bytes.len() > 4 * 96) as u64;
    }

    fn refused(&self) -> u64 {
        self.refusals.values().sum()
    }

    /// What the run did not reach.
    fn too_little(&self) -> Vec<String> {
        let reached = [
            ("boards drawn", self.drawn, CONVEX),
            ("boards refused", self.refused(), 600),
            ("sizes of boards", self.sizes.len() as u64, SIZES),
            ("boards with nets", self.with_nets, 500),
            ("boards without nets", self.drawn - self.with_nets, 300),
            ("boards that begin right of column 0", self.right_of_0, 500),
            ("boards that reach column 31", self.reach_31, 300),
            ("boards with taken pins", self.with_taken, 380),
            ("boards under the old rule", self.under[0], 440),
            ("boards under the new rule", self.under[1], 440),
            ("boards drawn under both books", self.under_both, 600),
            ("boards drawn under the old rule and refused under the new", self.under_old_alone, 150),
            ("boards of 96 words", self.of_96_words, 5),
            ("boards of more words", self.of_more_words, 15),
        ];
        let mut all: Vec<(String, u64, u64)> = reached.map(|(what, seen, least)| (what.to_string(), seen, least)).into();
        all.extend((0..4).map(|kind| (format!("vertices: {}", KINDS[kind].3), self.kinds[kind], 1_000)));
        // Those by 10 and 11 come before any word is looked at.
        let by_book = [("", &REFUSALS[..], &self.refusals, 5), (" under the new rule", &REFUSALS[2..], &self.refusals_new, 1)];
        for (book, numbers, refusals, least) in by_book {
            let seen = |number: &u32| refusals.get(number).copied().unwrap_or(0);
            all.extend(numbers.iter().map(|number| (format!("refusals by {number}{book}"), seen(number), least)));
        }
        let short = all.into_iter().filter(|(_, seen, least)| seen < least);
        short.map(|(what, seen, least)| format!("{what}: {seen}, at least {least} are due")).collect()
    }
}

fn whole(seed: u64) {
    let (start, mut run) = (Instant::now(), Run::default());
    for (words, _) in BY_HAND {
        let bytes = bytes_of(words);
        compare("a board drawn by hand", &bytes, &expected(&bytes));
    }
    (0..CASES).for_each(|case| run.case(seed, case));
    let short = run.too_little();
    if !short.is_empty() {
        println!("FAILED: degrees reaches too little\n{}", short.join("\n"));
        std::process::exit(1);
    }
    let vertices: Vec<String> = KINDS.iter().zip(run.kinds).map(|(kind, count)| format!("{count} {}", kind.3)).collect();
    let time = start.elapsed().as_secs_f64();
    println!("degrees: {} boards drawn, of every size, and {} refused; {time:.1} s", run.drawn, run.refused());
    println!("degrees: {} of them under both books, {} under the old rule alone", run.under_both, run.under_old_alone);
    println!("degrees: vertices: {}; no difference", vertices.join(", "));
}

fn usage() -> ! {
    eprintln!("usage: degrees [SEED [CASE]], with a case below {CASES}");
    std::process::exit(2)
}

fn main() {
    let args: Vec<String> = std::env::args().skip(1).collect();
    let number = |text: &String| text.parse().unwrap_or_else(|_| usage());
    self_test();
    let seed = args.first().map_or(1985, number);
    match &args[..] {
        [] | [_] => whole(seed),
        [_, one] if number(one) < CASES => {
            Run::default().case(seed, number(one));
            println!("no difference in this case");
        }
        _ => usage(),
    }
}
