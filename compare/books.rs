//! Boards under both rule books, each made for a refusal of reading or for none: end words that tell no book, nets and taken pins at outer corners
//! and on straight sides, boards of one book under the other, as many nets and words as the new rule accepts. Besides, all boards made for an answer.

use crate::generate::*;
use crate::independent::*;
use crate::taken::*;
use std::collections::HashSet;

/// What stands at one vertex: the book, the cells that meet there, the pins taken, the nets that end there, and the number of the refusal that the
/// last of these gets, or 0.
const AT_A_VERTEX: [(&str, Book, [usize; 3], u32); 16] = [
    ("new rule: one terminal at an outer corner", Book::New, [1, 0, 1], 0),
    ("new rule: two terminals at an outer corner", Book::New, [1, 0, 2], 25),
    ("old rule: two terminals at an outer corner", Book::Old, [1, 0, 2], 0),
    ("old rule: three terminals at an outer corner", Book::Old, [1, 0, 3], 25),
    ("new rule: one terminal on a straight side", Book::New, [2, 0, 1], 0),
    ("new rule: two terminals on a straight side", Book::New, [2, 0, 2], 25),
    ("new rule: a terminal at a concave corner", Book::New, [3, 0, 1], 25),
    ("new rule: a terminal inside", Book::New, [4, 0, 1], 25),
    ("new rule: one pin taken at an outer corner", Book::New, [1, 1, 0], 0),
    ("new rule: two pins taken at an outer corner", Book::New, [1, 2, 0], 38),
    ("old rule: two pins taken at an outer corner", Book::Old, [1, 2, 0], 0),
    ("new rule: one pin taken on a straight side", Book::New, [2, 1, 0], 0),
    ("new rule: two pins taken on a straight side", Book::New, [2, 2, 0], 38),
    ("new rule: the pin of an outer corner taken, a net there", Book::New, [1, 1, 1], 25),
    ("old rule: one pin of an outer corner taken, a net there", Book::Old, [1, 1, 1], 0),
    ("new rule: the pin of a straight side taken, a net there", Book::New, [2, 1, 1], 25),
];

const END_WORDS: [&str; 7] = [
    "end word: a book of 2 to 15", "end word: a book of 2 to 15 in the first word, 12 before 13",
    "end word: a book of 2 to 15 after the end, 12 before 13", "end word: a book of 2 to 15 and counts off, 12 before 15",
    "end word: a bit of 23 to 16", "end word: first, of either book", "end word: after the end, of the other book",
];

const NEW_RULE: [&str; 8] = [
    "new rule: counts off", "new rule: a word out of order", "new rule: not convex",
    "new rule: both terminals of a net at an outer corner, 24 before 25", "new rule: 38 at an outer corner before a wrong net",
    "new rule: 38 at two outer corners, the first is told", "new rule: not convex, 16 before 38 at an outer corner",
    "new rule: a word later, 12 to 15 before 38 at an outer corner",
];

const WHOLE_BOARDS: [&str; 6] = [
    "new rule: a board of the old one", "old rule: a board of the new one", "new rule: 62 nets, all that can be accepted",
    "new rule: 64 nets of the old one", "new rule: 156 words, all that can be accepted", "new rule: 158 words of the old one",
];

// ---------------------------------------------------------------- all boards made for an answer

/// How many kinds of boards are made for an answer of reading.
pub const MADE_KINDS: usize = TAKEN_KINDS.len() + AT_A_VERTEX.len() + END_WORDS.len() + NEW_RULE.len() + WHOLE_BOARDS.len();

/// Their names: those for taken pins, then those for books.
pub fn made_kinds() -> Vec<&'static str> {
    let at_a_vertex = AT_A_VERTEX.map(|kind| kind.0);
    [&TAKEN_KINDS[..], &at_a_vertex, &END_WORDS, &NEW_RULE, &WHOLE_BOARDS].concat()
}

/// The board's bytes of that kind (an index into these names), and the refusal that reading owes them.
pub fn made_bytes(random: &mut Random, kind: usize) -> (Vec<u8>, Option<Refusal>) {
    let name = made_kinds()[kind];
    let (words, due) = match name {
        _ if kind < TAKEN_KINDS.len() => return taken_bytes(random, kind),
        _ if END_WORDS.contains(&name) => end_word(random, name),
        _ if NEW_RULE.contains(&name) => new_rule(random, name),
        _ if WHOLE_BOARDS.contains(&name) => whole_board(random, name),
        _ => at_a_vertex(random, kind - TAKEN_KINDS.len()),
    };
    (bytes_of(&words), due)
}

/// A board's bytes of any kind, every fourth one of those above.
pub fn any_bytes(random: &mut Random) -> Vec<u8> {
    if random.one_in(4) {
        let kind = random.below(MADE_KINDS);
        return made_bytes(random, kind).0;
    }
    let kind = random.below(BOARD_KINDS.len());
    board_bytes(random, kind)
}

// ---------------------------------------------------------------- one vertex

fn at_a_vertex(random: &mut Random, kind: usize) -> Made {
    let (_, book, [cells, taken, nets], number) = AT_A_VERTEX[kind];
    let (mut board, v, free) = free_vertex(random, nets, &|board, v| board.book == book && board.cells(v) == cells);
    if taken > 0 {
        board.taken.insert(v, taken);
    }
    let ends: Vec<(Vertex, Vertex)> = free.iter().map(|&u| if random.one_in(2) { (v, u) } else { (u, v) }).collect();
    let last = lay(random, &mut board, &ends) + nets;
    let refused = match number {
        0 => None,
        38 => due(38, index_of(&board, &|u| u == v)),
        _ => due(number, last - 1),
    };
    (board.words(), refused)
}

// ---------------------------------------------------------------- end words

/// An end word with these bits for its book.
fn with_book(word: u32, book: usize) -> u32 {
    word & !(15 << 24) | (book as u32) << 24
}

fn end_word(random: &mut Random, name: &str) -> Made {
    let size = size(random);
    let mut words = true_board(random, size).words();
    let end = words.len() - 1;
    let (right, none) = (words[end], with_book(words[end], 2 + random.below(14)));
    match name {
        "end word: a book of 2 to 15" => words[end] = none,
        "end word: a book of 2 to 15 and counts off, 12 before 15" => words[end] = none ^ random.pick(&[1, 0x100]),
        "end word: a bit of 23 to 16" => words[end] |= 1 << (16 + random.below(8)),
        "end word: a book of 2 to 15 in the first word, 12 before 13" => {
            words.insert(0, none);
            return (words, due(12, 0));
        }
        "end word: a book of 2 to 15 after the end, 12 before 13" => {
            words.push(none);
            return (words, due(12, end + 1));
        }
        "end word: first, of either book" => {
            words.insert(0, with_book(right, random.below(2)));
            return (words, due(13, 0));
        }
        _ => {
            words.push(right ^ 1 << 24);
            return (words, due(13, end + 1));
        }
    }
    (words, due(12, end))
}

// ---------------------------------------------------------------- the new rule

fn new_rule(random: &mut Random, name: &str) -> Made {
    let (mut board, v, free) = free_vertex(random, 1, &|board, v| board.book == Book::New && board.cells(v) == 1);
    let end = board.words().len() - 1;
    match name {
        "new rule: counts off" => {
            let mut words = board.words();
            words[end] ^= random.pick(&[1, 0x100]);
            return (words, due(15, end));
        }
        "new rule: a word out of order" => {
            // A row after a taken word or a net, two nets exchanged, or a taken word after a net.
            lay(random, &mut board, &[(v, free[0]), (free[0], v)]);
            let (mut words, end) = (board.words(), end + 2);
            let word = random.pick(&[words[0], words[end - 2], taken_word(v, 1)]);
            words.insert(end, word);
            return (words, due(13, end));
        }
        "new rule: not convex" => {
            lay_apart(random, &mut board);
            return (board.words(), due(16, 0));
        }
        "new rule: both terminals of a net at an outer corner, 24 before 25" => {
            let first = lay(random, &mut board, &[(v, free[0]), (v, v)]);
            return (board.words(), due(24, first + 1));
        }
        _ => board.taken.insert(v, 2),
    };
    match name {
        "new rule: 38 at an outer corner before a wrong net" => lay_wrong_net(random, &mut board, v),
        "new rule: 38 at two outer corners, the first is told" => {
            let others: Vec<Vertex> = board.vertices().into_iter().filter(|&u| u != v && board.cells(u) == 1).collect();
            board.taken.insert(random.pick(&others), 2);
        }
        "new rule: not convex, 16 before 38 at an outer corner" => {
            lay_apart(random, &mut board);
            board.taken.insert((0, 0), 2);
            return (board.words(), due(16, 0));
        }
        _ => return later(random, &board),
    }
    (board.words(), due(38, index_of(&board, &|u| board.taken[&u] == 2)))
}

// ---------------------------------------------------------------- whole boards

/// What the new rule says of a board that the old one accepts: the first taken word that takes two pins at an outer corner, or the first net that
/// ends at one where a pin is taken or a net ends already.
fn beyond_one_pin(board: &Board) -> Option<Refusal> {
    let corner = |v: &Vertex| board.cells(*v) == 1;
    if let Some(at) = board.taken.iter().position(|(v, &count)| corner(v) && count == 2) {
        return due(38, board.rows.len() + at);
    }
    let mut used: HashSet<Vertex> = board.taken.keys().copied().collect();
    let second = |net: &Net| [net.first, net.second].iter().filter(|v| corner(v)).any(|&v| !used.insert(v));
    let at = board.nets.iter().position(second)?;
    due(25, board.rows.len() + board.taken.len() + at)
}

/// Pins in pairs, one after the other, as nets.
fn joined(random: &mut Random, pins: &[Vertex]) -> Vec<Net> {
    numbered(random, pins.chunks_exact(2).map(|two| (two[0], two[1])).collect())
}

fn whole_board(random: &mut Random, name: &str) -> Made {
    let (size, mut board) = (size(random), Board::bare(&[(0, 31); 31]));
    let corners = [(0, 0), (0, 31), (31, 0), (31, 31)];
    // One pin of each vertex that has some, in reading order.
    let mut pins: Vec<Vertex> = free_pins(&board).into_iter().map(|(v, _)| v).collect();
    match name {
        "old rule: a board of the new one" => return (board_under(random, Book::New, size).under(Book::Old).words(), None),
        "new rule: a board of the old one" => board = board_under(random, Book::Old, size),
        "new rule: 62 nets, all that can be accepted" => {
            // As they stand they can be routed: along the first line and the last, and across each line between.
            if random.one_in(2) {
                random.shuffle(&mut pins);
            }
            board.nets = joined(random, &pins);
        }
        "new rule: 64 nets of the old one" => {
            pins.splice(60..60, corners);
            board.nets = joined(random, &pins);
        }
        "new rule: 158 words of the old one" => {
            board.taken = pins.into_iter().map(|v| (v, 1)).collect();
            board.nets = joined(random, &corners);
        }
        _ => board.taken = pins.into_iter().map(|v| (v, 1)).collect(),
    }
    let refused = beyond_one_pin(&board);
    (board.under(Book::New).words(), refused)
}
