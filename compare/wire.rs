//! Wire to order: the two numbers told of a board before routing; routing into buffers that are just too short, just long enough and longer; and the
//! bounds that hold of every list that judging passes, whoever made it.

use crate::cidrask::{cidrask_route, cidrask_wire};
use crate::full::{filled, turning};
use crate::generate::*;
use crate::independent::*;
use crate::{answered, pattern, Answered, Lent, Numbers, Run, GUARD, UNTOUCHED};

// ---------------------------------------------------------------- the two numbers

impl Run {
    /// Calls the wire to order and compares result and numbers, or the place and 0. Hands back the board, where it is read.
    pub fn wire(&mut self, random: &mut Random, bytes: &[u8]) -> Option<Board> {
        let expected = read(bytes);
        let lent = Lent::new(bytes, random.below(8));
        let mut numbers = Numbers::new();
        let [first, second, _] = numbers.lend();
        let result = unsafe { cidrask_wire(lent.start(), bytes.len(), first, second) };
        let [first, second, third] = numbers.taken();
        if !lent.unchanged() || !numbers.guarded() || third != UNTOUCHED {
            self.difference("the wire to order wrote to what it is not lent for writing", bytes, &[]);
        }
        let due = match &expected {
            Ok(board) => {
                let wire = board.wire();
                self.count_wire(board, wire);
                (0, wire.crossing as u64, wire.edges as u64)
            }
            Err(refusal) => {
                self.count(&wire_refused(refusal.number));
                (refusal.number, refusal.place[0] as u64, 0)
            }
        };
        if (result, first, second) != due {
            self.difference(&format!("wire to order: library {result} at {first} {second}, independent {due:?}"), bytes, &[]);
        }
        expected.ok()
    }

    /// Counts what the board is like whose wire was told.
    fn count_wire(&mut self, board: &Board, Wire { crossing, edges }: Wire) {
        let (rows, nets) = (&board.rows, &board.nets);
        self.most_crossing = self.most_crossing.max(crossing);
        self.most_edges = self.most_edges.max(edges);
        let beyond = |row: (usize, usize)| nets.iter().any(|n| n.first.1.min(n.second.1) < row.0 || row.1 < n.first.1.max(n.second.1));
        self.count_all(&[
            (TOLD, true),
            (TOLD_NO_NETS, nets.is_empty()),
            (TOLD_UNEVEN, rows.iter().any(|row| row != &rows[0])),
            (TOLD_TAKEN, !board.taken.is_empty()),
            (TOLD_NEW, board.book == Book::New),
            (TOLD_BEYOND_TOP, beyond(rows[0])),
            (TOLD_BEYOND_BOTTOM, beyond(rows[rows.len() - 1])),
            (TOLD_ONE_LINE, nets.iter().any(|n| n.first.0 == n.second.0)),
            (TOLD_ONE_COLUMN, nets.iter().any(|n| n.first.1 == n.second.1)),
            (TOLD_TOO_MANY, crossing > edges),
            (TOLD_ALL, crossing == edges),
        ]);
    }
}

const TOLD: &str = "wire: told";
const TOLD_NO_NETS: &str = "wire: told, no nets";
const TOLD_UNEVEN: &str = "wire: told, rows that differ";
const TOLD_TAKEN: &str = "wire: told, pins taken";
const TOLD_NEW: &str = "wire: told, under the new rule";
const TOLD_BEYOND_TOP: &str = "wire: told, a net crosses columns beyond the first row";
const TOLD_BEYOND_BOTTOM: &str = "wire: told, a net crosses columns beyond the last row";
const TOLD_ONE_LINE: &str = "wire: told, a net with both ends on one line";
const TOLD_ONE_COLUMN: &str = "wire: told, a net with both ends on one column";
const TOLD_TOO_MANY: &str = "wire: told, a sum above the count of edges";
const TOLD_ALL: &str = "wire: told, a sum as large as the count of edges";

fn wire_refused(number: u32) -> String {
    format!("wire: refused by {number}")
}

fn told_but(number: u32) -> String {
    format!("wire: told, routing {}", answered(number))
}

// ---------------------------------------------------------------- buffers

const NO_WORD: &str = "without a word";
const FEWER: &str = "of fewer words";
const ONE_SHORT: &str = "one word short";
const JUST: &str = "just long enough";
const FEW_MORE: &str = "longer by a few words";
const MOST: &str = "of 2,049 words";
const MORE: &str = "of more than 2,049 words";
const BUFFERS: [&str; 7] = [NO_WORD, FEWER, ONE_SHORT, JUST, FEW_MORE, MOST, MORE];

/// The bytes of a buffer of that kind for a routing of so many words at most; often one to three more than whole words have.
pub fn buffer(random: &mut Random, kind: &str, limit: usize) -> usize {
    let words = match kind {
        NO_WORD => 0,
        FEWER => random.below(limit),
        ONE_SHORT => limit - 1,
        JUST => limit,
        FEW_MORE => limit + 1 + random.below(5),
        MOST => 2049,
        _ => 2050 + random.below(300),
    };
    4 * words + random.pick(&[0, 0, 0, 1, 2, 3])
}

/// The bytes of a buffer for a board, which need not be one that is read: one in five is too short.
pub fn any_buffer(random: &mut Random, board: Option<&Board>) -> usize {
    let limit = board.map_or_else(|| 1 + random.below(2049), Board::word_limit);
    let kind = random.pick(&[NO_WORD, FEWER, ONE_SHORT, ONE_SHORT, FEW_MORE, FEW_MORE, MORE, MOST, MOST, MOST]);
    let kind = if random.one_in(2) { JUST } else { kind };
    buffer(random, kind, limit)
}

/// The bytes of a buffer that is long enough, mostly just so.
pub fn room(random: &mut Random, board: &Board) -> usize {
    let kind = random.pick(&[JUST, JUST, JUST, MOST]);
    buffer(random, kind, board.word_limit())
}

/// Calls routing. Answers with what it tells and the words that it wrote, none where it refuses; or with what is wrong, where anything else in the
/// buffer or around it was written to.
pub fn called(random: &mut Random, board: &[u8], length: usize) -> Result<(Answered, Vec<u8>), &'static str> {
    let start = GUARD + random.below(8);
    let before = pattern(random.next(), start + length + GUARD);
    let mut memory = before.clone();
    let lent = Lent::new(board, random.below(8));
    let mut numbers = Numbers::new();
    let buffer = memory[start..start + length].as_mut_ptr();
    let [first, second, _] = numbers.lend();
    let result = unsafe { cidrask_route(lent.start(), board.len(), buffer, length, first, second) };
    let [first, second, third] = numbers.taken();
    if !lent.unchanged() || !numbers.guarded() || third != UNTOUCHED {
        return Err("routing wrote to what it is not lent for writing");
    }
    let words = if result == 0 { first } else { 0 };
    if words > (length / 4) as u64 {
        return Err("routing tells more words than the buffer has room for");
    }
    let end = start + 4 * words as usize;
    if memory[..start] != before[..start] || memory[end..] != before[end..] {
        return Err("routing wrote outside its words, or refused and wrote");
    }
    Ok(((result, first, second), memory[start..end].to_vec()))
}

impl Run {
    /// Calls routing and compares result, place and every byte with what is due: this refusal, or a routing. Hands back what the library tells, and
    /// the words where there are any.
    pub fn called_as_due(&mut self, random: &mut Random, board: &[u8], length: usize, refused: Option<Refusal>) -> (Answered, Vec<u8>) {
        let (answer, words) = called(random, board, length).unwrap_or_else(|what| self.difference(what, board, &[]));
        let as_due = match refused {
            Some(r) => answer == (r.number, r.place[0] as u64, r.place[1] as u64),
            None => (answer.0, answer.2) == (0, 0),
        };
        if !as_due {
            self.difference(&format!("routing into {length} bytes: library {answer:?}, independent {refused:?}"), board, &words);
        }
        if refused.is_none() {
            self.own.clone_from(&words);
        }
        (answer, words)
    }

    /// Routes a board that is read into a buffer of each kind. Those that are too short get 31. The others are all answered alike, with the same
    /// refusal or with a routing each, and every routing is judged.
    pub fn in_buffers(&mut self, random: &mut Random, bytes: &[u8], board: &Board) {
        let due = route_refused(board, usize::MAX);
        let number = due.map_or(0, |r| r.number);
        self.count(&told_but(number));
        for kind in BUFFERS {
            let length = buffer(random, kind, board.word_limit());
            let refused = if length / 4 < board.word_limit() { route_refused(board, length) } else { due };
            let (_, words) = self.called_as_due(random, bytes, length, refused);
            self.count_buffer(board, length, refused, &words);
            if refused.is_some_and(|r| r.number == 31) {
                self.count(&short_but(number));
            }
            if refused.is_none() && self.judge(bytes, &words).is_none() {
                self.difference(&format!("both judges refuse the routing handed back in a buffer {kind}"), bytes, &words);
            }
        }
    }

    /// Counts a call of routing for a board that is read, by its buffer and what is due.
    pub fn count_buffer(&mut self, board: &Board, length: usize, refused: Option<Refusal>, words: &[u8]) {
        let (limit, room, number) = (board.word_limit(), length / 4, refused.map_or(0, |r| r.number));
        let kind = match room {
            0 => NO_WORD,
            _ if room + 1 == limit => ONE_SHORT,
            _ if room < limit => FEWER,
            _ if room == limit => JUST,
            _ if room < 2049 => FEW_MORE,
            2049 => MOST,
            _ => MORE,
        };
        self.count(&into(kind, number));
        let around = kind == ONE_SHORT || kind == JUST;
        if around && length % 4 != 0 {
            self.count(&not_whole(&into(kind, number)));
        }
        if around && board.nets.is_empty() {
            self.count(&no_nets(&into(kind, number)));
        }
        self.count_all(&[
            (FILLS, kind == JUST && words.len() == 4 * limit),
            (FILLS_MANY, kind == JUST && words.len() == 4 * limit && board.nets.len() > 4),
            (LARGEST, kind == JUST && number == 0 && limit >= 2045),
        ]);
    }

    /// Routes a board whose nets have paths along every edge. Mostly it is a small one on which every routing has as many words as can be, so that
    /// they fill a buffer that is just long enough.
    pub fn full_board(&mut self, random: &mut Random) {
        let whole = random.below(8) > 0;
        let board = if whole { filled(random) } else { turning(random).0 };
        let bytes = bytes_of(&board.words());
        self.count(if whole { FILLED } else { TURNING });
        self.wire(random, &bytes);
        self.in_buffers(random, &bytes, &board);
        if whole && self.own.len() != 4 * board.word_limit() {
            self.difference("a board on which every routing is made to have as many words as can be", &bytes, &self.own);
        }
    }

    /// A board with a list that has as many words as can be.
    pub fn full_list(&mut self, random: &mut Random) -> (Board, Vec<u32>) {
        let (board, paths) = turning(random);
        let words = routing_words(&board, &paths);
        let (bytes, list) = (bytes_of(&board.words()), bytes_of(&words));
        if self.judge(&bytes, &list).is_none() || words.len() != board.word_limit() {
            self.difference("a list made to have as many words as can be", &bytes, &list);
        }
        self.count(FULL_LIST);
        self.count_all(&[(LONGEST_LIST, words.len() == 2049)]);
        (board, words)
    }
}

const TURNING: &str = "full: a board with paths along every edge";
const FILLED: &str = "full: a board on which every routing has as many words as can be";
const FULL_LIST: &str = "full: a list with as many words as can be";
const LONGEST_LIST: &str = "full: a list of 2,049 words";
const FILLS: &str = "buffer: the words fill it";
const FILLS_MANY: &str = "buffer: the words fill it, five nets or more";
const LARGEST: &str = "buffer: just long enough, 2,045 words or more, routed";

fn into(kind: &str, number: u32) -> String {
    format!("buffer {kind}: {}", answered(number))
}

fn not_whole(what: &str) -> String {
    format!("{what}, bytes beyond its words")
}

fn no_nets(what: &str) -> String {
    format!("{what}, no nets")
}

fn short_but(number: u32) -> String {
    format!("buffer too short, otherwise {}", answered(number))
}

// ---------------------------------------------------------------- bounds

/// How many lists that judging passed were held against the bounds, and how many of them meet each: as few edges as the nets cross rows and columns,
/// every edge, as many words as can be.
#[derive(Clone, Copy, Default)]
pub struct Held {
    pub lists: u64,
    pub met: [u64; 3],
}

/// Whose lists: the library's and those of other makers.
const MAKERS: [&str; 2] = ["the library's lists", "other lists"];
const BOUNDS: [&str; 3] = ["with the fewest edges by rows and columns", "with every edge used", "with as many words as can be"];

impl Run {
    /// Holds a list that judging passes against the bounds: it uses at least as many edges as the nets cross rows and columns and at most all of
    /// them, and its words are at most 1 plus nets plus edges. One that the library did not hand back last is another maker's.
    pub fn hold_bounds(&mut self, board: &Board, list: &[u8], used: u32) {
        let words = list.len() / 4;
        let left = board.within_bounds(used, words);
        if left.iter().any(|&left| left < 0) {
            let what = format!("both judges pass a list with {used} edges and {words} words: within the bounds by {left:?}, with {:?}", board.wire());
            self.difference(&what, &bytes_of(&board.words()), list);
        }
        let held = &mut self.held[(list != self.own) as usize];
        held.lists += 1;
        held.met.iter_mut().zip(left).for_each(|(met, left)| *met += (left == 0) as u64);
    }

    /// The same for a list as it comes: one that judging does not pass is left.
    pub fn hold_if_passed(&mut self, board: &Board, list: &[u8]) {
        if let Ok(report) = judge(board, list) {
            self.hold_bounds(board, list, report.edges);
        }
    }
}

/// What was reached of the library's lists and of others, and how often is due: lists, then those that meet each bound.
pub fn held_reached(run: &Run, due: [[u64; 4]; 2]) -> Vec<(String, u64, u64)> {
    let mut reached = Vec::new();
    for ((maker, held), [lists, bounds @ ..]) in MAKERS.iter().zip(run.held).zip(due) {
        reached.push((format!("bounds: {maker}"), held.lists, lists));
        let met = BOUNDS.iter().zip(held.met).zip(bounds);
        reached.extend(met.map(|((bound, seen), least)| (format!("bounds: {maker} {bound}"), seen, least)));
    }
    reached
}

/// How many lists were held in all parts.
pub fn print_held(runs: &[&Run]) {
    let sum = |count: &dyn Fn(&Held) -> u64, maker: usize| runs.iter().map(|run| count(&run.held[maker])).sum::<u64>();
    for (maker, name) in MAKERS.iter().enumerate() {
        let met: Vec<String> = (0..3).map(|i| format!("{} {}", sum(&|held| held.met[i], maker), BOUNDS[i])).collect();
        println!("{name} within the bounds of the wire to order: {}; {}", sum(&|held| held.lists, maker), met.join(", "));
    }
    println!("(a list that was judged twice counts twice)");
}

// ---------------------------------------------------------------- what was reached

/// What is due in parts a and b besides answers and buffers.
const DUE: [(&str, u64); 18] = [
    (TOLD, 43_000),
    (TOLD_NO_NETS, 3_200),
    (TOLD_UNEVEN, 13_000),
    (TOLD_TAKEN, 19_500),
    (TOLD_NEW, 20_000),
    (TOLD_BEYOND_TOP, 8_000),
    (TOLD_BEYOND_BOTTOM, 8_000),
    (TOLD_ONE_LINE, 22_500),
    (TOLD_ONE_COLUMN, 23_000),
    (TOLD_TOO_MANY, 1_700),
    (TOLD_ALL, 3_900),
    (TURNING, 430),
    (FILLED, 3_100),
    (FULL_LIST, 1_900),
    (LONGEST_LIST, 8),
    (FILLS, 3_100),
    (FILLS_MANY, 600),
    (LARGEST, 240),
];

/// The refusals of a board, with how often they are due.
const REFUSED_DUE: [(u32, u64); 12] = [
    (10, 9_300), (11, 9_500), (12, 15_000), (13, 31_000), (14, 4_100), (15, 13_500), (16, 4_100), (38, 4_800), (21, 1_600), (23, 4_600), (24, 550),
    (25, 6_900),
];

/// What routing comes to in buffers of every kind for one board, with how often is due, and how often in those of them that are too short.
const IN_ALL_DUE: [(u32, u64, u64); 4] = [(0, 5_100, 15_500), (32, 140, 430), (33, 200, 610), (34, 85, 260)];

/// Kinds of buffers, with what routing comes to there and how often is due.
const BUFFERS_DUE: [(&str, u32, u64); 19] = [
    (NO_WORD, 31, 8_100), (FEWER, 31, 6_500), (ONE_SHORT, 31, 10_000),
    (JUST, 0, 20_000), (JUST, 32, 1_600), (JUST, 33, 2_400), (JUST, 34, 1_150),
    (FEW_MORE, 0, 8_000), (FEW_MORE, 32, 430), (FEW_MORE, 33, 620), (FEW_MORE, 34, 290),
    (MOST, 0, 61_000), (MOST, 32, 2_600), (MOST, 33, 8_100), (MOST, 34, 5_600),
    (MORE, 0, 6_700), (MORE, 32, 280), (MORE, 33, 420), (MORE, 34, 190),
];

/// What parts a and b reached, and how often is due: two thirds or less of what each of the seeds 1985, 1 and 2 reaches. Of what goes by the routing
/// that the library chooses, two thirds or less of what any choice reaches on the boards that are made for it.
pub fn reached(run: &Run) -> Vec<(String, u64, u64)> {
    let mut due: Vec<(String, u64)> = DUE.map(|(what, least)| (what.to_string(), least)).into();
    due.extend(REFUSED_DUE.map(|(number, least)| (wire_refused(number), least)));
    due.extend(IN_ALL_DUE.into_iter().flat_map(|(number, all, short)| [(told_but(number), all), (short_but(number), short)]));
    due.extend(BUFFERS_DUE.map(|(kind, number, least)| (into(kind, number), least)));
    let (short, just) = (into(ONE_SHORT, 31), into(JUST, 0));
    due.extend([(not_whole(&short), 5_100), (no_nets(&short), 500), (not_whole(&just), 10_000), (no_nets(&just), 1_200)]);
    let mut reached: Vec<_> = due.into_iter().map(|(what, least)| (what.clone(), run.counted(&what), least)).collect();
    let most = [("edges of a board whose wire was told", run.most_edges, 1_984), ("the largest sum that was told", run.most_crossing, 1_400)];
    reached.extend(most.map(|(what, seen, least)| (what.to_string(), seen as u64, least)));
    reached.extend(held_reached(run, [[120_000, 12_000, 12_000, 12_000], [39_000, 11_000, 12_500, 3_400]]));
    reached
}

/// What is due of wire and buffers on the small boards of parts c, d and f.
pub fn buffers_of_small() -> Vec<(String, u64)> {
    let just = into(JUST, 0);
    let mut due = vec![(TOLD.to_string(), 255_000), (FILLS.to_string(), 50), (not_whole(&just), 27_000), (no_nets(&just), 180)];
    due.extend([(0, 55_000), (33, 135_000), (34, 2_100)].map(|(number, least)| (into(JUST, number), least)));
    due
}
