//! Part g: lists, true and damaged, through drawing. Edges are read off each page again, and pages of one board are held against each other.

use crate::books::made_kinds;
use crate::generate::*;
use crate::independent::*;
use crate::page::{page_length, read_off, used_edges, ROOM};
use crate::pairs::{any_of, any_state, backwards, in_state, other_paths, Paths, TRUE_PAIRS};
use crate::wire::held_reached;
use crate::{end_if_short, under, Run, CASES_G, LOOPS, OTHER_LIST, PAGES, TAKEN_DRAWN};
use std::collections::{BTreeSet, HashSet};
use std::time::Instant;

/// A routing with the library's page.
struct Drawn {
    board: Vec<u8>,
    list: Vec<u8>,
    page: Vec<u8>,
    used: BTreeSet<Edge>,
}

// ---------------------------------------------------------------- inputs

/// The length of a buffer that any page has room in.
fn long_enough(random: &mut Random) -> usize {
    match random.below(8) {
        0 => ROOM + 1,
        1 => ROOM + random.below(200),
        2 => random.pick(&[4_095, 4_096, 8_064, 9_001]),
        _ => ROOM,
    }
}

/// The length of a buffer that is refused, at times though a page of that length has room in it.
fn too_short(random: &mut Random, page: usize) -> usize {
    match random.below(7) {
        0 => 0,
        1 => 1,
        2 | 3 => ROOM - 1,
        4 => page.min(ROOM - 1),
        5 => random.pick(&[page - 1, page + 1, 2 * page]).min(ROOM - 1),
        _ => random.below(ROOM),
    }
}

/// The same edges by other nets: paths go to other numbers, and some are walked backwards between exchanged ends.
fn by_other_nets(random: &mut Random, board: &Board, paths: &Paths) -> (Board, Paths) {
    let mut order: Vec<usize> = (0..paths.len()).collect();
    random.shuffle(&mut order);
    let (mut other, mut steps) = (Board { nets: Vec::new(), ..board.clone() }, Vec::new());
    for (place, &index) in order.iter().enumerate() {
        let (number, net, path) = (board.nets[place].number, &board.nets[index], &paths[index]);
        let (first, second, path) =
            if random.one_in(2) { (net.first, net.second, path.clone()) } else { (net.second, net.first, backwards(path)) };
        other.nets.push(Net { number, first, second });
        steps.push(path);
    }
    (other, steps)
}

/// Edges by their upper or left end, as `edge_of` gives them.
type Edges = HashSet<(Vertex, usize)>;

/// A board with one net whose path is about as long as can be: it uses the edges of every second cell, as on a chessboard, but for the edge between
/// its terminals. These cells have no edge in common, and an even count of their edges ends at each vertex.
fn winding(random: &mut Random) -> (Board, Paths) {
    let rows = if random.one_in(2) { vec![(0, 31); 31] } else { convex_rows(random, 31, 31) };
    let (mut board, left) = (any_bare(random, &rows), rows[0].0);
    let (first, second) = ((0, left), (0, left + 1));
    let cells = (0..rows.len()).flat_map(|row| (rows[row].0..rows[row].1).map(move |column| (row, column)));
    let dark = cells.filter(|(row, column)| (row + column) % 2 == left % 2);
    let sides = |(row, column): Vertex| [((row, column), 0), ((row, column), 1), ((row, column + 1), 0), ((row + 1, column), 1)];
    let mut free: Edges = dark.flat_map(sides).collect();
    free.remove(&edge_of(first, RIGHT));
    let (mut path, mut at, mut index) = (Vec::new(), first, 0);
    loop {
        // What can be walked from here and back, at first up to the second terminal.
        path.splice(index..index, along_free(random, &board, &mut free, at));
        if index == path.len() {
            break;
        }
        at = step(at, path[index]);
        index += 1;
    }
    board.nets.push(Net { number: 1 + random.below(64) as u32, first, second });
    take_pins(random, &mut board);
    (board, vec![path])
}

/// Steps from a vertex along free edges until none is left where they lead, with a turn at each vertex that leaves the choice.
fn along_free(random: &mut Random, board: &Board, free: &mut Edges, mut at: Vertex) -> Vec<usize> {
    let mut steps: Vec<usize> = Vec::new();
    loop {
        let open: Vec<usize> = (0..4).filter(|&d| board.edge(at, d) && free.contains(&edge_of(at, d))).collect();
        let turns: Vec<usize> = open.iter().copied().filter(|d| steps.last().is_some_and(|last| last % 2 != d % 2)).collect();
        let Some(direction) = any_of(random, &turns).or_else(|| any_of(random, &open)) else { return steps };
        free.remove(&edge_of(at, direction));
        at = step(at, direction);
        steps.push(direction);
    }
}

// ---------------------------------------------------------------- the part

impl Run {
    pub fn part_g(&mut self, case: u64) {
        (self.part, self.case) = ('g', case);
        let mut random = Random::of_case(self.seed, 'g', case);
        let (board, paths) = self.paths_to_draw(&mut random);
        self.pages_of_one_board(&mut random, &board, &paths);
        let (bytes, words) = (bytes_of(&board.words()), routing_words(&board, &paths));
        for _ in 0..3 {
            let (kind, length) = (random.below(LIST_KINDS.len()), long_enough(&mut random));
            let list = list_bytes(&mut random, kind, &words, &OTHER_LIST);
            self.count(LIST_KINDS[kind]);
            self.draw_and_read(&mut random, &bytes, &list, length);
        }
        for _ in 0..2 {
            let (state, length) = (any_state(&mut random), too_short(&mut random, page_length(&board)));
            let list = in_state(&mut random, state, &words);
            self.draw_and_read(&mut random, &bytes, &list, length);
        }
        self.damaged_board(&mut random, &board, &words);
    }

    /// A board with paths for its nets: routed by the library or random trails, at times with loops laid on; or one path about as long as can be.
    pub fn paths_to_draw(&mut self, random: &mut Random) -> (Board, Paths) {
        if random.one_in(120) {
            self.count(WINDING);
            return winding(random);
        }
        let (board, mut paths, routed) = self.first_paths(random);
        self.count(if routed { BY_LIBRARY } else { BY_TRAILS });
        if random.one_in(3) {
            let words = self.with_loops(random, &board, routing_words(&board, &paths));
            paths = steps_of(&words);
        }
        (board, paths)
    }

    /// Draws, and reads the edges off the library's page again. Hands back the page with these edges.
    fn draw_and_read(&mut self, random: &mut Random, board: &[u8], list: &[u8], length: usize) -> Option<(Vec<u8>, BTreeSet<Edge>)> {
        let page = self.draw(random, board, list, length)?;
        let used = read(board).and_then(|board| used_edges(&board, list)).ok();
        let edges = read_off(&page);
        if edges != used {
            self.difference(&format!("edges read off the library's page: {edges:?}, in use: {used:?}"), board, list);
        }
        Some((page, edges?))
    }

    /// Draws a routing of a board.
    fn routing_drawn(&mut self, random: &mut Random, board: &Board, paths: &Paths) -> Drawn {
        self.count_all(&[(LARGEST, board.rows == [(0, 31); 31])]);
        let (board, list) = (bytes_of(&board.words()), bytes_of(&routing_words(board, paths)));
        let length = long_enough(random);
        let Some((page, used)) = self.draw_and_read(random, &board, &list, length) else {
            self.difference("both sides refuse to draw a routing", &board, &list)
        };
        Drawn { board, list, page, used }
    }

    /// A routing and others on the same board, each kind made for the same edges, for other ones, or for either.
    fn pages_of_one_board(&mut self, random: &mut Random, board: &Board, paths: &Paths) {
        let one = self.routing_drawn(random, board, paths);
        for (kind, _, made_for) in TRUE_PAIRS {
            let Some(other) = other_paths(random, kind, board, paths) else { continue };
            let two = self.routing_drawn(random, board, &other);
            self.pages_alike(kind, made_for, &one, &two);
        }
        let (other_nets, other) = by_other_nets(random, board, paths);
        let two = self.routing_drawn(random, &other_nets, &other);
        self.pages_alike(OTHER_NETS, Some(true), &one, &two);
        if let Ok(other_book) = read(&under_other_book(&one.board)) {
            let two = self.routing_drawn(random, &other_book, paths);
            self.pages_alike(OTHER_BOOK, Some(true), &one, &two);
        }
    }

    /// The library's pages of two routings on one board are the same exactly when both use the same edges.
    fn pages_alike(&mut self, kind: &str, made_for: Option<bool>, one: &Drawn, two: &Drawn) {
        let (edges, page) = (one.used == two.used, one.page == two.page);
        if page != edges || made_for.is_some_and(|made_for| made_for != edges) {
            let what = format!("{kind}: the same edges {edges}, the same page {page}, made for {made_for:?}");
            self.difference_in(&what, &[("board", &one.board), ("list", &one.list), ("other board", &two.board), ("other list", &two.list)]);
        }
        self.count(kind);
        let same_input = one.list == two.list && one.board == two.board;
        self.count_all(&[(SAME_INPUT, same_input), (SAME_PAGE, page && !same_input), (OTHER_PAGE, !page)]);
    }

    /// A damaged board, one made for an answer, or this one with a net that is refused. The list, which may be damaged too, is for this one: the
    /// board is read first.
    fn damaged_board(&mut self, random: &mut Random, board: &Board, words: &[u32]) {
        // The first five kinds are true boards.
        let (kind, state) = (5 + random.below(BOARD_KINDS.len() - 5), any_state(random));
        let damaged = match random.below(7) {
            0 => {
                self.count(WRONG_NET);
                wrong_net(random, board.clone())
            }
            1 | 2 => self.made_board(random),
            _ => {
                self.count(BOARD_KINDS[kind]);
                board_bytes(random, kind)
            }
        };
        let list = in_state(random, state, words);
        let length = if random.one_in(2) { long_enough(random) } else { too_short(random, page_length(board)) };
        self.draw_and_read(random, &damaged, &list, length);
    }

    // ------------------------------------------------------------ what was reached

    /// Counts what a call of drawing came to.
    pub fn count_drawn(&mut self, board: &Result<Board, Refusal>, list: &[u8], room: usize, drawn: &Result<Vec<u8>, Refusal>) {
        match (board, drawn) {
            (Err(refusal), _) => self.count_board_refused(refusal.number, list, room),
            (Ok(board), Err(refusal)) if refusal.number == 37 => self.count_short(board, list, room),
            (_, Err(refusal)) => self.count(&list_by(refusal.number)),
            (_, Ok(page)) => self.count_page(list, page, room),
        }
    }

    fn count_page(&mut self, list: &[u8], page: &[u8], room: usize) {
        self.most_words = self.most_words.max(list.len() / 4);
        self.count_all(&[
            (DRAWN, true),
            (FULL_PAGE, page.len() == ROOM),
            (JUST_ROOM, room == ROOM),
            (ROOM_FOR_MORE, room == ROOM + 1),
            (MORE_ROOM, room > ROOM + 1),
        ]);
    }

    /// Counts a board's refusal, with what else would have been refused.
    fn count_board_refused(&mut self, number: u32, list: &[u8], room: usize) {
        let (short, uneven) = (room < ROOM, list.len() % 4 != 0);
        self.count(&board_by(number, short));
        self.count_all(&[(BOARD_FIRST, uneven && !short), (BOARD_FIRST_OF_ALL, uneven && short)]);
    }

    /// Counts a refusal by 37: what the buffer is like, and what would have been said of the list.
    fn count_short(&mut self, board: &Board, list: &[u8], room: usize) {
        let page = page_length(board);
        self.count_all(&[
            (BY_37, true),
            ("page: 37, no bytes", room == 0),
            ("page: 37, one byte", room == 1),
            ("page: 37, a byte too few", room + 1 == ROOM),
            ("page: 37, as many bytes as this page has", room == page),
            ("page: 37, more bytes than this page has", room > page),
            ("page: 37, fewer bytes than this page has", room < page),
        ]);
        match used_edges(board, list) {
            Ok(_) => self.count(LIST_PASSES),
            Err(refusal) => self.count(&before_list_by(refusal.number)),
        }
    }
}

const BY_LIBRARY: &str = "page: paths routed by the library";
const BY_TRAILS: &str = "page: paths by random trails";
const WINDING: &str = "page: a path about as long as can be";
const WRONG_NET: &str = "a net that an add refuses";
const OTHER_NETS: &str = "pair: the same edges by other nets";
const OTHER_BOOK: &str = "pair: the same paths under the other book";
const SAME_INPUT: &str = "pages the same, of the same bytes";
const SAME_PAGE: &str = "pages the same, of other bytes";
const OTHER_PAGE: &str = "pages that differ";
const DRAWN: &str = "page: drawn";
const FULL_PAGE: &str = "page: drawn, of 4,032 bytes";
const LARGEST: &str = "page: a routing on 31 by 31 cells";
const JUST_ROOM: &str = "page: drawn into 4,032 bytes";
const ROOM_FOR_MORE: &str = "page: drawn into 4,033 bytes";
const MORE_ROOM: &str = "page: drawn into more bytes";
const BOARD_FIRST: &str = "page: the board refused, the list uneven";
const BOARD_FIRST_OF_ALL: &str = "page: the board refused, the buffer short and the list uneven";
const BY_37: &str = "page: refused by 37";
const LIST_PASSES: &str = "page: 37, the list would pass";

fn board_by(number: u32, short: bool) -> String {
    let buffer = if short { "short" } else { "long enough" };
    format!("page: the board refused by {number}, the buffer {buffer}")
}

fn list_by(number: u32) -> String {
    format!("page: the list refused by {number}")
}

fn before_list_by(number: u32) -> String {
    format!("page: 37, the list would be refused by {number}")
}

// ---------------------------------------------------------------- the whole part

/// The refusals of reading; 22 cannot come.
pub const OF_BOARDS: [u32; 12] = [10, 11, 12, 13, 14, 15, 16, 38, 21, 23, 24, 25];
pub const OF_LISTS: [u32; 7] = [10, 41, 42, 43, 44, 45, 46];

/// What is due besides kinds and refusals.
const DUE: [(&str, u64); 27] = [
    (BY_LIBRARY, 1_600),
    (BY_TRAILS, 13_000),
    (WINDING, 130),
    (LOOPS, 1_900),
    (WRONG_NET, 2_250),
    (TAKEN_DRAWN, 71_000),
    (OTHER_NETS, 16_000),
    (OTHER_BOOK, 10_000),
    (SAME_INPUT, 25_000),
    (SAME_PAGE, 20_000),
    (OTHER_PAGE, 20_000),
    (DRAWN, 90_000),
    (FULL_PAGE, 3_800),
    (LARGEST, 3_400),
    (JUST_ROOM, 56_000),
    (ROOM_FOR_MORE, 11_000),
    (MORE_ROOM, 22_000),
    (BOARD_FIRST, 1_250),
    (BOARD_FIRST_OF_ALL, 1_250),
    (BY_37, 32_000),
    (LIST_PASSES, 12_000),
    ("page: 37, no bytes", 4_500),
    ("page: 37, one byte", 4_500),
    ("page: 37, a byte too few", 9_600),
    ("page: 37, as many bytes as this page has", 4_300),
    ("page: 37, more bytes than this page has", 15_700),
    ("page: 37, fewer bytes than this page has", 12_000),
];

/// What part g reached, and how often is due: 200,000 calls, and of the others two thirds or less of what each of the seeds 1985, 1 and 2 reaches.
fn reached(run: &Run) -> Vec<(String, u64, u64)> {
    let mut due: Vec<(String, u64)> = DUE.map(|(what, least)| (what.to_string(), least)).into();
    due.extend(TRUE_PAIRS.map(|(kind, ..)| (kind.to_string(), 1_100)));
    due.extend(LIST_KINDS.map(|kind| (kind.to_string(), 2_400)));
    due.extend(BOARD_KINDS[5..].iter().map(|kind| (kind.to_string(), 500)));
    due.extend(made_kinds().into_iter().map(|kind| (kind.to_string(), 45)));
    due.extend(BOOKS.map(|book| (under(book, PAGES), 70_000)));
    due.extend(OF_BOARDS.iter().flat_map(|&number| [true, false].map(|short| (board_by(number, short), 190))));
    due.extend(OF_LISTS.iter().flat_map(|&number| [(list_by(number), 2_500), (before_list_by(number), 780)]));
    let mut reached: Vec<_> = due.into_iter().map(|(what, least)| (what.clone(), run.counted(&what), least)).collect();
    let others = [("calls of drawing", run.drawn, 200_000), ("words of the longest list drawn", run.most_words as u64, 1_200)];
    reached.extend(others.map(|(what, seen, least)| (what.to_string(), seen, least)));
    reached.extend(held_reached(run, [[5_500, 0, 0, 0], [95_000, 40_000, 5_900, 1_000]]));
    reached
}

/// All cases, and what they reached. Answers with the run.
pub fn whole(seed: u64) -> Run {
    let (mut run, start) = (Run { seed, ..Run::default() }, Instant::now());
    (0..CASES_G).for_each(|case| run.part_g(case));
    println!("part g: {CASES_G} boards, {} calls of drawing; {:.1} s", run.drawn, start.elapsed().as_secs_f64());
    let reached = reached(&run);
    reached.iter().for_each(|(what, seen, _)| println!("{seen:8} {what}"));
    end_if_short("part g reaches", reached);
    run
}
