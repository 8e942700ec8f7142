//! Part f: small boards with odd vertices, by hand and at random, through routing and the exhaustive router. Besides, what the boards with odd
//! vertices of all parts reach.

use crate::generate::*;
use crate::independent::*;
use crate::wire::{buffers_of_small, held_reached};
use crate::{answered, end_if_short, print_small, taken_and, under};
use crate::{Found, Run, CASES_F, EXHAUSTIVE, OTHER_BOOK, STRIPPED, TAKEN_ALL, TAKEN_NET_BESIDE};
use std::time::Instant;

// ---------------------------------------------------------------- boards by hand

fn board(rows: &[(usize, usize)], ends: &[(Vertex, Vertex)]) -> Board {
    let nets = (1..).zip(ends).map(|(number, &(first, second))| Net { number, first, second }).collect();
    Board { nets, ..Board::bare(rows) }
}

/// Boards with the refusal that routing owes them, worked out from the requirements.
fn by_hand() -> Vec<(Board, Option<Refusal>)> {
    let refused = |number, place| Some(Refusal { number, place });
    let no_paths = refused(34, [0, 0]);
    // The board of request §4, as it is and mirrored, each in four turns.
    let mut all: Vec<(Board, Option<Refusal>)> = Vec::new();
    for mut image in [bare_pins_board(), mirrored(&bare_pins_board())] {
        for _ in 0..4 {
            all.push((image.clone(), no_paths));
            image = turned(&image);
        }
    }
    all.extend([
        // Board e: two odd vertices and no nets.
        (board(&[(0, 2)], &[]), None),
        // Two nets across one cell: either takes both edges of an end of the other. One of them alone has a path.
        (board(&[(0, 1)], &[((0, 0), (1, 1)), ((0, 1), (1, 0))]), no_paths),
        (board(&[(0, 1)], &[((0, 0), (1, 1))]), None),
        // Row 1 and column 2 are full, so the two odd vertices beyond each have to be paired off. These pairs fill column 0 and row 0, and
        // every way to pair off the other four odd vertices crosses one of these again. The revised cut test holds.
        (board(&[(0, 3), (0, 1)], &[((2, 1), (0, 0)), ((2, 0), (0, 3)), ((0, 2), (1, 3))]), no_paths),
        // No nets, and 12 or 14 odd vertices.
        (board(&[(0, 7)], &[]), None),
        (board(&[(0, 8)], &[]), refused(32, [0, 1])),
        // 14 odd vertices come before an overfull cut, 12 do not, and it comes before no paths.
        (board(&[(0, 10)], &[((0, 0), (1, 10)), ((0, 0), (1, 10)), ((0, 1), (0, 9)), ((0, 2), (0, 8))]), refused(32, [0, 3])),
        (board(&[(0, 9)], &[((0, 0), (1, 9)), ((0, 0), (1, 9)), ((0, 1), (0, 8)), ((0, 2), (0, 7))]), refused(33, [1, 1])),
    ]);
    all
}

// ---------------------------------------------------------------- boards at random

const AS_THEY_COME: &str = "odd: nets as they come";
const MENDED: &str = "odd: overfull cuts mended";
const FILLED: &str = "odd: cuts filled";
const HIDDEN: &str = "odd: no paths, but the revised cut test holds";
const ONE_PAIRING: &str = "odd: one pairing alone fits";
const ODD_KINDS: [&str; 8] = [AS_THEY_COME, AS_THEY_COME, MENDED, MENDED, FILLED, FILLED, HIDDEN, ONE_PAIRING];

/// A board of up to 6 by 6 cells with one of these counts of odd vertices, or fewer.
fn odd_board(random: &mut Random, counts: &[usize], care: Care) -> Board {
    let size = random.pick(&[3, 4, 4, 5, 5, 6]);
    let rows = if random.one_in(4) { convex_rows(random, size, size) } else { stepped_rows(random, size, size) };
    let (count, mut board) = (random.pick(counts), any_bare(random, &rows));
    board.nets = odd_nets(random, &board, count, care);
    board
}

/// The first of many boards with filled cuts that is such, if one is.
fn sought(random: &mut Random, counts: &[usize], such: &dyn Fn(&Board) -> bool) -> Option<Board> {
    (0..2_000).map(|_| odd_board(random, counts, Care::Filled)).find(|board| board.first_overfull().is_none() && such(board))
}

/// A board of that kind, where one is found.
fn board_of_kind(random: &mut Random, kind: &str) -> Option<Board> {
    let any = [2, 4, 6, 8, 10, 12, 12];
    match kind {
        AS_THEY_COME => Some(odd_board(random, &any, Care::None)),
        MENDED => Some(odd_board(random, &any, Care::Mended)),
        FILLED => Some(odd_board(random, &any, Care::Filled)),
        HIDDEN => sought(random, &[8, 10, 12, 12], &|board| !board.paths_exist() && board.revised_cuts_hold()),
        _ => sought(random, &[6, 8, 10, 12, 12], &|board| board.odd_vertices().len() >= 6 && board.pairings(2) == 1),
    }
}

// ---------------------------------------------------------------- the part

impl Run {
    pub fn part_f(&mut self, case: u64, found: &mut Found) {
        (self.part, self.case) = ('f', case);
        let mut random = Random::of_case(self.seed, 'f', case);
        if let Some((board, due)) = by_hand().into_iter().nth(case as usize) {
            return self.board_by_hand(&mut random, &board, due, found);
        }
        let kind = ODD_KINDS[case as usize % ODD_KINDS.len()];
        if let Some(board) = board_of_kind(&mut random, kind) {
            self.count(kind);
            self.small(&mut random, &board, 200_000, found);
        }
    }

    /// A board whose answer is known.
    fn board_by_hand(&mut self, random: &mut Random, board: &Board, due: Option<Refusal>, found: &mut Found) {
        let bytes = bytes_of(&board.words());
        let answer = route_refused(board, 8196);
        if answer != due {
            self.difference(&format!("by hand {due:?}, independent {answer:?}"), &bytes, &[]);
        }
        if due.is_some_and(|refusal| refusal.number == 32) {
            self.route_and_judge(random, &bytes, 8196);
        } else {
            self.small(random, board, u64::MAX, found);
        }
    }

    // ------------------------------------------------------------ what was reached

    /// Counts what a board with odd vertices came to; `refused` is what routing owes it.
    pub fn count_odd(&mut self, board: &Board, refused: Option<Refusal>) {
        let odd = board.odd_vertices();
        let number = refused.map_or(0, |refusal| refusal.number);
        if odd.is_empty() || number == 31 {
            return;
        }
        self.count(&odd_and(odd.len(), number));
        let large = board.rows.len() >= 16 && board.nets.len() >= 16;
        if large && odd.len() <= MOST_ODD {
            self.count(&large_and(number));
        }
        if number == 34 {
            self.count(if board.revised_cuts_hold() { REVISED_HOLDS } else { REVISED_FAILS });
        }
        if number == 0 && !in_order_fits(board, &odd) {
            self.count(OTHER_PAIRS);
        }
    }
}

/// Whether no cut is overfull with the odd vertices paired off in reading order.
fn in_order_fits(board: &Board, odd: &[Vertex]) -> bool {
    let mut more = board.clone();
    more.nets.extend(odd.chunks(2).map(|pair| Net { number: 0, first: pair[0], second: pair[1] }));
    more.first_overfull().is_none()
}

pub const REVISED_HOLDS: &str = "odd: 34, the revised cut test holds";
pub const REVISED_FAILS: &str = "odd: 34, the revised cut test fails";
const OTHER_PAIRS: &str = "odd: routed, but not with pairs in reading order";

fn odd_and(odd: usize, number: u32) -> String {
    let vertices = if odd > 14 { "more than 14".to_string() } else { odd.to_string() };
    format!("odd: {vertices} vertices, {}", answered(number))
}

fn large_and(number: u32) -> String {
    format!("odd: 16 rows and 16 nets or more, {}", answered(number))
}

/// Counts of odd vertices, with what boards of parts a and b come to and how often is due: two thirds or less of what each of the seeds 1985, 1
/// and 2 reaches. Two odd vertices never get 34: the margin of a cut between them is odd.
const DUE: [(usize, u32, u64); 19] = [
    (2, 0, 5_000), (4, 0, 5_500), (6, 0, 5_500), (8, 0, 5_500), (10, 0, 4_500), (12, 0, 4_500),
    (2, 33, 1_400), (4, 33, 1_700), (6, 33, 1_100), (8, 33, 620), (10, 33, 360), (12, 33, 290),
    (4, 34, 1_300), (6, 34, 1_900), (8, 34, 1_700), (10, 34, 1_350), (12, 34, 480),
    (14, 32, 2_000), (16, 32, 1_500),
];

fn seen(run: &Run, due: Vec<(String, u64)>) -> Vec<(String, u64, u64)> {
    due.into_iter().map(|(what, least)| (what.clone(), run.counted(&what), least)).collect()
}

/// What the boards with odd vertices of parts a and b reached, and how often is due.
pub fn reached(run: &Run) -> Vec<(String, u64, u64)> {
    let mut due: Vec<(String, u64)> = DUE.map(|(odd, number, least)| (odd_and(odd, number), least)).into();
    due.extend([(0, 400), (33, 130), (34, 70)].map(|(number, least)| (large_and(number), least)));
    due.extend([(OTHER_PAIRS, 11_000), (REVISED_HOLDS, 14), (REVISED_FAILS, 6_900)].map(|(what, least)| (what.to_string(), least)));
    seen(run, due)
}

/// The same for the small boards of parts c, d and f.
fn reached_by_small(run: &Run) -> Vec<(String, u64, u64)> {
    let kinds = [(AS_THEY_COME, 950), (MENDED, 950), (FILLED, 950), (HIDDEN, 490), (ONE_PAIRING, 490)];
    let answers = [(OTHER_PAIRS, 4_500), (REVISED_HOLDS, 500), (REVISED_FAILS, 1_600)];
    let mut due: Vec<(String, u64)> = kinds.iter().chain(&answers).map(|&(what, least)| (what.to_string(), least)).collect();
    due.extend([(odd_and(12, 0), 300), (odd_and(12, 34), 120)]);
    due.extend([(STRIPPED, 77_000), (TAKEN_ALL, 40_000), (TAKEN_NET_BESIDE, 30_000)].map(|(what, least)| (what.to_string(), least)));
    due.extend([(0, 26_000), (33, 49_000), (34, 940)].map(|(number, least)| (taken_and(number), least)));
    due.extend([(OTHER_BOOK.to_string(), 18_000), (EXHAUSTIVE.to_string(), 73_500)]);
    let answers = [(0, 13_000), (33, 1_100), (34, 1_400)];
    due.extend(BOOKS.into_iter().flat_map(|book| answers.map(|(number, least)| (under(book, &answered(number)), least))));
    due.extend(buffers_of_small());
    let mut reached = seen(run, due);
    reached.extend(held_reached(run, [[73_500, 11_000, 11_000, 70], [73_500, 29_500, 36_000, 850]]));
    reached
}

/// All cases, and what they and the small boards before them reached.
pub fn whole(run: &mut Run) {
    let (mut found, start) = (Found::default(), Instant::now());
    (0..CASES_F).for_each(|case| run.part_f(case, &mut found));
    print_small("odd boards up to 6 by 6", &found, start);
    let reached = reached_by_small(run);
    reached.iter().for_each(|(what, seen, _)| println!("{seen:8} {what}"));
    end_if_short("parts c, d and f reach", reached);
}

/// How often 34 was due in all, and what the revised cut test says of these boards.
pub fn print_34(runs: [&Run; 2]) {
    let sum = |what: &str| runs.iter().map(|run| run.counted(what)).sum::<u64>();
    let (holds, fails) = (sum(REVISED_HOLDS), sum(REVISED_FAILS));
    println!("refusal 34 in parts a, b, c, d and f: {}; the revised cut test holds on {holds} of these boards and fails on {fails}", holds + fails);
    let reached = [("refusals by 34", holds + fails, 9_000), ("refusals by 34 where the revised cut test holds", holds, 520)];
    end_if_short("all parts reach", reached.map(|(what, seen, least)| (what.to_string(), seen, least)).into());
}
