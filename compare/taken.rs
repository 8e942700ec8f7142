//! Boards with pins that the package has taken, each made for a refusal of reading or for none: taken words ill made, out of order, at vertices
//! without so many pins; nets where pins are taken; as many words as can be. They come under both books, those where an outer corner has two pins
//! under the old one.

use crate::generate::*;
use crate::independent::*;

/// A board's words, and the refusal that reading owes them.
pub type Made = (Vec<u32>, Option<Refusal>);

/// What is asked of a board's vertex.
pub type Such<'a> = &'a dyn Fn(&Board, Vertex) -> bool;

pub const TAKEN_KINDS: [&str; 35] = [
    "taken: a count of 0", "taken: a count of 3", "taken: an unnamed bit", "taken: a count of 0 and the vertex again, 12 before 13",
    "taken: a count of 3 in the first word, 12 before 13", "taken: the first word", "taken: after a net", "taken: after the end",
    "taken: the vertex again", "taken: an earlier line", "taken: an earlier line, a later column", "taken: an earlier column of the line",
    "taken: a row after it", "taken: a row after it, 13 before 14 for left and right", "taken: a 32nd row after it, 13 before 14",
    "taken: no vertex", "taken: a vertex inside", "taken: a concave corner", "taken: two at a straight side", "taken: 38 before a wrong net",
    "taken: 38 twice, the first is told", "taken: not convex, 16 before 38", "taken: a word later, 12 to 15 before 38",
    "taken: two at an outer corner", "taken: one at a straight side", "taken: all pins, a net's first terminal there",
    "taken: all pins, a net's second terminal there", "taken: one of two at an outer corner, one net there",
    "taken: one of two at an outer corner, two nets there", "taken: every free pin, then a net", "taken: 158 words, all that can be accepted",
    "taken: 200 to 223 words", "taken: 224 words", "taken: 225 words", "taken: 226 words or more",
];

/// The board's bytes of that kind (an index into TAKEN_KINDS), and the refusal that reading owes them.
pub fn taken_bytes(random: &mut Random, kind: usize) -> (Vec<u8>, Option<Refusal>) {
    let name = TAKEN_KINDS[kind];
    let (words, due) = match kind {
        0..=4 => ill_made(random, name),
        5..=14 => out_of_order(random, name),
        15..=22 => too_few_pins(random, name),
        23..=29 => with_nets(random, name),
        _ => lengths(random, name),
    };
    (bytes_of(&words), due)
}

pub fn due(number: u32, index: usize) -> Option<Refusal> {
    Some(Refusal { number, place: [index as u32, 0] })
}

// ---------------------------------------------------------------- boards to begin with

/// A board that is accepted, without taken pins, the numbers of its nets from 1 on; there are free pins, and fewer nets than can be.
fn begun(random: &mut Random) -> Board {
    let (most_rows, most_width) = size(random);
    let rows = if random.one_in(2) { stepped_rows(random, most_rows, most_width) } else { convex_rows(random, most_rows, most_width) };
    let mut board = any_bare(random, &rows);
    board.nets = any_nets(random, &board);
    board.nets.truncate(random.below(20));
    renumber(&mut board);
    board
}

fn renumber(board: &mut Board) {
    (1..).zip(&mut board.nets).for_each(|(number, net)| net.number = number);
}

/// The same with taken pins, one that is such.
fn sought(random: &mut Random, such: &dyn Fn(&Board) -> bool) -> Board {
    loop {
        let mut board = begun(random);
        take_some_pins(random, &mut board);
        if !board.taken.is_empty() && such(&board) {
            return board;
        }
    }
}

/// The same with a vertex that is such; taken pins on every second board, none of them there.
fn with_vertex(random: &mut Random, such: Such) -> (Board, Vertex) {
    loop {
        let mut board = begun(random);
        take_pins(random, &mut board);
        let all = (0..32).flat_map(|line| (0..32).map(move |column| (line, column)));
        let there: Vec<Vertex> = all.filter(|&v| such(&board, v)).collect();
        if !there.is_empty() {
            let v = random.pick(&there);
            board.taken.remove(&v);
            return (board, v);
        }
    }
}

/// The index of the first taken word that is such.
pub fn index_of(board: &Board, such: &dyn Fn(Vertex) -> bool) -> usize {
    board.rows.len() + board.taken.keys().position(|&v| such(v)).unwrap_or(board.taken.len())
}

// ---------------------------------------------------------------- 12

fn ill_made(random: &mut Random, name: &str) -> Made {
    let board = sought(random, &|_| true);
    let (mut words, mut at) = (board.words(), board.rows.len() + random.below(board.taken.len()));
    match name {
        "taken: a count of 0" => words[at] &= !(3 << 10),
        "taken: a count of 3" => words[at] |= 3 << 10,
        "taken: an unnamed bit" => words[at] |= 1 << (12 + random.below(16)),
        "taken: a count of 3 in the first word, 12 before 13" => {
            words.insert(0, words[at] | 3 << 10);
            at = 0;
        }
        _ => {
            words.insert(at + 1, words[at] & !(3 << 10));
            at += 1;
        }
    }
    (words, due(12, at))
}

// ---------------------------------------------------------------- 13

fn out_of_order(random: &mut Random, name: &str) -> Made {
    match name {
        "taken: the first word" | "taken: after a net" | "taken: after the end" => elsewhere(random, name),
        "taken: the vertex again" => {
            let board = sought(random, &|_| true);
            let (mut words, at) = (board.words(), board.rows.len() + random.below(board.taken.len()));
            let count = random.pick(&[1, 2]);
            words.insert(at + 1, words[at] & !(3 << 10) | count << 10);
            (words, due(13, at + 1))
        }
        "taken: an earlier line" => exchanged(random, &|u, v| u.0 < v.0),
        "taken: an earlier line, a later column" => exchanged(random, &|u, v| u.0 < v.0 && u.1 > v.1),
        "taken: an earlier column of the line" => exchanged(random, &|u, v| u.0 == v.0),
        _ => row_after(random, name),
    }
}

/// The last taken word put before the rows, among the nets, or after the end.
fn elsewhere(random: &mut Random, name: &str) -> Made {
    let board = sought(random, &|board| !board.nets.is_empty());
    let (mut words, last) = (board.words(), board.rows.len() + board.taken.len() - 1);
    let word = words.remove(last);
    let at = match name {
        "taken: the first word" => 0,
        "taken: after a net" => last + 1 + random.below(board.nets.len()),
        _ => words.len(),
    };
    words.insert(at, word);
    (words, due(13, at))
}

/// Two taken words, one after the other in reading order and such, exchanged.
fn exchanged(random: &mut Random, such: &dyn Fn(Vertex, Vertex) -> bool) -> Made {
    let neighbours = |board: &Board| {
        let taken: Vec<Vertex> = board.taken.keys().copied().collect();
        (1..taken.len()).filter(|&i| such(taken[i - 1], taken[i])).collect::<Vec<_>>()
    };
    let board = sought(random, &|board| !neighbours(board).is_empty());
    let at = board.rows.len() + random.pick(&neighbours(&board));
    let mut words = board.words();
    words.swap(at - 1, at);
    (words, due(13, at))
}

/// A row after one taken word or more.
fn row_after(random: &mut Random, name: &str) -> Made {
    let mut board = sought(random, &|_| true);
    if name == "taken: a 32nd row after it, 13 before 14" {
        // The last row as often as it takes; what was taken on the last line would lie inside now.
        let last = board.rows[board.rows.len() - 1];
        board = Board::bare(&board.rows).under(board.book);
        board.rows.resize(31, last);
        while board.taken.is_empty() {
            take_some_pins(random, &mut board);
        }
    }
    let (mut words, end) = (board.words(), board.rows.len() - 1);
    let mut row = words[random.pick(&[0, end])];
    if name == "taken: a row after it, 13 before 14 for left and right" {
        let left = random.below(32);
        row = 1 << 28 | (left << 5 | random.below(left + 1)) as u32;
    }
    let at = board.rows.len() + 1 + random.below(board.taken.len());
    words.insert(at, row);
    (words, due(13, at))
}

// ---------------------------------------------------------------- 38

/// A board with a taken word that gets 38, and its vertex. The others are right.
fn one_too_few(random: &mut Random, name: &str) -> (Board, Vertex) {
    let such: Such = match name {
        "taken: no vertex" => &|board, v| !board.vertex(v),
        "taken: a vertex inside" => &|board, v| board.cells(v) == 4,
        "taken: a concave corner" => &|board, v| board.cells(v) == 3,
        _ => &|board, v| board.cells(v) == 2,
    };
    let (mut board, v) = with_vertex(random, such);
    let count = if board.cells(v) == 2 { 2 } else { random.pick(&[1, 2]) };
    board.taken.insert(v, count);
    (board, v)
}

fn too_few_pins(random: &mut Random, name: &str) -> Made {
    let kinds = ["taken: no vertex", "taken: a vertex inside", "taken: a concave corner", "taken: two at a straight side"];
    let one = if kinds.contains(&name) { name } else { random.pick(&kinds) };
    let (mut board, v) = one_too_few(random, one);
    let at = |board: &Board| index_of(board, &|u| !board.can_take(u, board.taken[&u]));
    match name {
        "taken: 38 before a wrong net" => {
            lay_wrong_net(random, &mut board, v);
            (board.words(), due(38, at(&board)))
        }
        "taken: 38 twice, the first is told" => {
            let other = (0..).find_map(|_| Some((random.below(32), random.below(32))).filter(|&u| u != v && board.cells(u) != 1));
            board.taken.insert(other.unwrap_or(v), 2);
            (board.words(), due(38, at(&board)))
        }
        "taken: not convex, 16 before 38" => {
            // The last line has no vertex.
            lay_apart(random, &mut board);
            board.taken.insert((31, 31), 1);
            (board.words(), due(16, 0))
        }
        "taken: a word later, 12 to 15 before 38" => later(random, &board),
        _ => (board.words(), due(38, at(&board))),
    }
}

/// A last net from a vertex that is none or has no pin.
pub fn lay_wrong_net(random: &mut Random, board: &mut Board, first: Vertex) {
    let number = random.pick(&[board.nets.len() as u32 + 1, 65, 255]);
    let second = random.pick(&[first, (0, 0), (31, 31)]);
    board.nets.push(Net { number, first, second });
}

/// Two rows that lie apart on top, with what rows there were below.
pub fn lay_apart(random: &mut Random, board: &mut Board) {
    let apart = [(0, 1 + random.below(5)), (6 + random.below(5), 12 + random.below(20))];
    board.rows.truncate(20);
    board.rows.splice(0..0, apart);
}

/// A word that is refused by 12, 13 or 15 after all taken words.
pub fn later(random: &mut Random, board: &Board) -> Made {
    let mut words = board.words();
    let end = words.len() - 1;
    match random.below(4) {
        0 => {
            // Bit 24 is named: it is the new rule's.
            words[end] |= 1 << random.pick(&[16, 17, 18, 19, 20, 21, 22, 23, 25, 26, 27]);
            (words, due(12, end))
        }
        1 => {
            words.truncate(end);
            (words, due(13, end))
        }
        2 => {
            words.insert(end, words[0]);
            (words, due(13, end))
        }
        _ => {
            words[end] ^= random.pick(&[1, 0x100]);
            (words, due(15, end))
        }
    }
}

// ---------------------------------------------------------------- nets where pins are taken

/// Puts nets in at any place, one after the other, and numbers all from 1 on. Answers with the index of the first one's word.
pub fn lay(random: &mut Random, board: &mut Board, ends: &[(Vertex, Vertex)]) -> usize {
    let at = random.below(board.nets.len() + 1);
    board.nets.splice(at..at, ends.iter().map(|&(first, second)| Net { number: 0, first, second }));
    renumber(board);
    board.rows.len() + board.taken.len() + at
}

/// A board with a vertex that is such, no net there and no pin taken; besides, other vertices with free pins, as many as told and one as often as it
/// has such.
pub fn free_vertex(random: &mut Random, others: usize, such: Such) -> (Board, Vertex, Vec<Vertex>) {
    loop {
        let (board, v) = with_vertex(random, &|board, v| board.vertex(v) && such(board, v) && board.terminals(v) == 0);
        let mut free: Vec<Vertex> = free_pins(&board).into_iter().filter(|f| f.0 != v).flat_map(|(u, count)| vec![u; count]).collect();
        random.shuffle(&mut free);
        if free.len() >= others {
            free.truncate(others);
            return (board, v, free);
        }
    }
}

fn with_nets(random: &mut Random, name: &str) -> Made {
    let two_pins: Such = &|board, v| board.all_pins(v) == 2;
    let (such, others): (Such, usize) = match name {
        "taken: two at an outer corner" => (two_pins, 0),
        "taken: one at a straight side" => (&|board, v| board.cells(v) == 2, 0),
        "taken: one of two at an outer corner, one net there" => (two_pins, 1),
        "taken: one of two at an outer corner, two nets there" => (two_pins, 2),
        _ => (&|board, v| board.all_pins(v) > 0, 1),
    };
    let (mut board, v, free) = free_vertex(random, others, such);
    let mut ends: Vec<(Vertex, Vertex)> = free.iter().map(|&u| if random.one_in(2) { (v, u) } else { (u, v) }).collect();
    // How many of the nets go on; the next one is refused.
    let mut right = others;
    match name {
        "taken: two at an outer corner" => drop(board.taken.insert(v, 2)),
        "taken: one at a straight side" | "taken: one of two at an outer corner, one net there" => drop(board.taken.insert(v, 1)),
        "taken: one of two at an outer corner, two nets there" => {
            board.taken.insert(v, 1);
            right = 1;
        }
        "taken: every free pin, then a net" => {
            free_pins(&board).into_iter().for_each(|(u, count)| *board.taken.entry(u).or_insert(0) += count);
            // It comes after the others, so that these are accepted.
            let index = board.words().len() - 1;
            board.nets.push(Net { number: board.nets.len() as u32 + 1, first: ends[0].0, second: ends[0].1 });
            return (board.words(), due(25, index));
        }
        _ => {
            board.taken.insert(v, board.all_pins(v));
            ends[0] = if name == "taken: all pins, a net's first terminal there" { (v, free[0]) } else { (free[0], v) };
            right = 0;
        }
    }
    let index = lay(random, &mut board, &ends);
    (board.words(), if right < others { due(25, index + right) } else { None })
}

// ---------------------------------------------------------------- many words

/// 31 rows of 31 cells, with a pin taken at each of the 124 vertices that have some: under the old rule one is left at each corner.
fn lengths(random: &mut Random, name: &str) -> Made {
    let mut board = any_bare(random, &[(0, 31); 31]);
    if name == "taken: 158 words, all that can be accepted" {
        board.book = Book::Old;
    }
    board.taken = free_pins(&board).into_iter().map(|(v, _)| (v, 1)).collect();
    let mut corners = [(0, 0), (0, 31), (31, 0), (31, 31)];
    random.shuffle(&mut corners);
    let length = match name {
        "taken: 158 words, all that can be accepted" => 158,
        "taken: 200 to 223 words" => 200 + random.below(24),
        "taken: 224 words" => 224,
        "taken: 225 words" => 225,
        _ => 226 + random.below(60),
    };
    let more = length - board.words().len();
    // Up to 64 nets, the first two at the corners; for the other words pins are taken inside.
    let nets = if random.one_in(2) { more.min(64) } else { random.below(more.min(64) + 1) };
    let nets = if length == 158 { 2 } else { nets };
    let mut inside: Vec<Vertex> = (1..31).flat_map(|line| (1..31).map(move |column| (line, column))).collect();
    random.shuffle(&mut inside);
    board.taken.extend(inside[..more - nets].iter().map(|&v| (v, 1 + random.below(2))));
    let sides = |random: &mut Random| ((0, 1 + random.below(30)), (1 + random.below(30), 0));
    let mut ends: Vec<(Vertex, Vertex)> = (2..nets).map(|_| sides(random)).collect();
    ends.splice(0..0, [(corners[0], corners[1]), (corners[2], corners[3])].into_iter().take(nets));
    board.nets = (1..).zip(ends).map(|(number, (first, second))| Net { number, first, second }).collect();
    let first_net = board.rows.len() + board.taken.len();
    let right = if board.book == Book::Old { 2 } else { 0 };
    let refused = match more - nets {
        _ if length > MOST_WORDS => due(11, 0),
        0 if nets > right => due(25, first_net + right),
        0 => None,
        _ => due(38, index_of(&board, &|v| board.cells(v) == 4)),
    };
    (board.words(), refused)
}
