//! How much the search for helper pairs does on a board: counted, not timed.
//!
//! The search takes the first odd vertex with each later one in turn and drops the pair where a cut has no edge left for it. Of cuts that part the
//! odd vertices alike, only the first of those with the least margin counts here: it is full when any of them is. Its margin stands in four bits of
//! one number, the highest of them set; that bit is cleared when a pair too many crosses.

use crate::boards::{Board, Margins, Vertex};

/// What the search did, and whether it found pairs.
#[derive(Clone, Copy, Default)]
pub struct Effort {
    pub found: bool,
    /// Sets of pairs that fit, that of no pairs among them: how often the rest was to be paired up.
    pub nodes: u64,
    /// Pairs tried.
    pub pairs: u64,
    /// Cuts looked at for these pairs, where columns 0 to 30 and then rows are gone through, up to a full one that the pair crosses.
    pub cuts: u64,
}

const GUARDS: u128 = 0x8888_8888_8888_8888_8888_8888_8888_8888;

struct Search {
    /// For two vertices, a bit for each margin of a cut between them.
    crossed: [[u128; 12]; 12],
    /// For each margin, the place of its cut, from 1.
    places: Vec<u64>,
    /// All cuts.
    all: u64,
    effort: Effort,
}

impl Search {
    /// The search, and the margins of the cuts of the odd vertices.
    fn new(odd: &[Vertex], margins: &Margins, rows: usize) -> (Search, u128) {
        let mut search = Search { crossed: [[0; 12]; 12], places: Vec::new(), all: 31 + rows as u64, effort: Effort::default() };
        let mut left = u128::MAX;
        search.add_cuts(odd, |v| v.1, &margins.0[31..], 1, &mut left);
        search.add_cuts(odd, |v| v.0, &margins.0[..31], 32, &mut left);
        (search, left)
    }

    /// The columns, or the rows: the coordinate tells a vertex's side, and the places begin here.
    fn add_cuts(&mut self, odd: &[Vertex], coordinate: impl Fn(&Vertex) -> usize, margins: &[i32], begin: u64, left: &mut u128) {
        let mut bounds: Vec<usize> = odd.iter().map(&coordinate).collect();
        bounds.sort();
        bounds.dedup();
        for pair in bounds.windows(2) {
            let cut = (pair[0]..pair[1]).min_by_key(|&i| margins[i]).expect("bounds differ");
            let low = 4 * self.places.len();
            self.places.push(begin + cut as u64);
            *left &= !((7 - margins[cut].clamp(0, 7) as u128) << low);
            for (i, v) in odd.iter().enumerate() {
                for (j, w) in odd.iter().enumerate() {
                    let crosses = (coordinate(v) <= cut) != (coordinate(w) <= cut);
                    self.crossed[i][j] |= (crosses as u128) << low;
                }
            }
        }
    }

    /// Counts a pair tried; what is left with it, if it fits.
    fn with_pair(&mut self, left: u128, first: usize, second: usize) -> Option<u128> {
        let less = left - self.crossed[first][second];
        let full = !less & GUARDS;
        self.effort.pairs += 1;
        self.effort.cuts += if full == 0 { self.all } else { self.places[full.trailing_zeros() as usize / 4] };
        (full == 0).then_some(less)
    }

    fn pair_up(&mut self, odd: &mut [usize], left: u128) -> bool {
        self.effort.nodes += 1;
        let Some((&mut first, later)) = odd.split_first_mut() else { return true };
        for k in 0..later.len() {
            if let Some(less) = self.with_pair(left, first, later[k]) {
                later.swap(0, k);
                if self.pair_up(&mut later[1..], less) {
                    return true;
                }
                later.swap(0, k);
            }
        }
        false
    }
}

/// The search on a board with these odd vertices, at most 12, and these margins, none below zero.
pub fn effort(odd: &[Vertex], margins: &Margins, rows: usize) -> Effort {
    let (mut search, left) = Search::new(odd, margins, rows);
    let mut order = [0, 1, 2, 3, 4, 5, 6, 7, 8, 9, 10, 11];
    search.effort.found = search.pair_up(&mut order[..odd.len()], left);
    search.effort
}

/// The same from the board alone.
pub fn effort_of(board: &Board) -> Effort {
    let mut margins = Margins::new(board);
    board.nets.iter().for_each(|&net| margins.count(net, 1));
    effort(&board.odd_vertices(), &margins, board.rows.len())
}
