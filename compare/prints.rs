//! Part h: boards and lists, true and damaged, one after the other through the program draw.

use crate::books::{made_bytes, MADE_KINDS};
use crate::generate::*;
use crate::independent::*;
use crate::page::{drawn_from, parted, printed, LONGEST};
use crate::pages::{OF_BOARDS, OF_LISTS};
use crate::pairs::{any_state, in_state};
use crate::wire::held_reached;
use crate::{end_if_short, program, under, Run, CASES_H};
use std::time::Instant;

const PROGRAM: &str = "target/bin/draw";

// ---------------------------------------------------------------- inputs

/// The first cases: no bytes, fewer than a word has, an end word alone, under the old rule, the new one and none, one cut short, and one shifted by a
/// byte.
const SHORT: [&[u8]; 7] =
    [&[], &[0xF0], &[0, 0, 0, 0xF0], &[0, 0, 0, 0xF1], &[0, 0, 0, 0xF2], &[0, 0, 0xF0], &[0, 0, 0, 0, 0xF0]];

const INPUTS: [&str; 16] = [
    "input: a routing", "input: a routing", "input: a damaged list", "input: a damaged list", "input: a damaged list", "input: a damaged board",
    "input: a damaged board", MADE, MADE, "input: a wrong net", "input: a board alone", "input: no end word", "input: an end word too soon",
    "input: a board twice", "input: bytes more or fewer", "input: many bytes",
];

/// An input of that kind, made from a board and a routing of its nets.
fn input(random: &mut Random, kind: &str, board: &Board, words: &[u32]) -> Vec<u8> {
    let (mut own, list) = (board.words(), bytes_of(words));
    let end = own.len() - 1;
    match kind {
        "input: a routing" => {}
        "input: a damaged list" => {
            let state = if random.one_in(3) { any_state(random) } else { "damaged" };
            return [bytes_of(&own), in_state(random, state, words)].concat();
        }
        "input: a damaged board" => {
            // The first five kinds are true boards.
            let kind = 5 + random.below(BOARD_KINDS.len() - 5);
            return [board_bytes(random, kind), list].concat();
        }
        MADE => {
            let kind = random.below(MADE_KINDS);
            return [made_bytes(random, kind).0, list].concat();
        }
        "input: a wrong net" => return [wrong_net(random, board.clone()), list].concat(),
        "input: a board alone" => return bytes_of(&own),
        "input: no end word" => own.truncate(end),
        "input: an end word too soon" => own[random.below(end)] |= 15 << 28,
        "input: a board twice" => own = own.repeat(2),
        "input: bytes more or fewer" => return elsewhere(random, [bytes_of(&own), list].concat()),
        _ => return many_bytes(random, [bytes_of(&own), list].concat()),
    }
    [bytes_of(&own), list].concat()
}

/// One to three bytes put in or taken out at any place.
fn elsewhere(random: &mut Random, mut bytes: Vec<u8>) -> Vec<u8> {
    let (at, count) = (random.below(bytes.len() - 3), 1 + random.below(3));
    if random.one_in(2) {
        bytes.drain(at..at + count);
    } else {
        bytes.splice(at..at, (0..count).map(|_| random.next() as u8));
    }
    bytes
}

/// More bytes at the end, about as many as are read; at times in place of all others, with no end word or any.
fn many_bytes(random: &mut Random, mut bytes: Vec<u8>) -> Vec<u8> {
    let most = random.pick(&[0x7F, 0xFF]);
    if random.one_in(2) {
        bytes.clear();
    }
    let length = random.pick(&[100, 600, 8_000, LONGEST - 4, LONGEST - 1, LONGEST, LONGEST + 1, LONGEST + 2, LONGEST + 4, LONGEST + 9_000]);
    while bytes.len() < length {
        bytes.push(random.next() as u8 & most);
    }
    bytes
}

// ---------------------------------------------------------------- the part

impl Run {
    pub fn part_h(&mut self, case: u64) {
        (self.part, self.case) = ('h', case);
        if let Some(input) = SHORT.get(case as usize) {
            return self.print(input);
        }
        let mut random = Random::of_case(self.seed, 'h', case);
        let (board, paths) = self.paths_to_draw(&mut random);
        let kind = INPUTS[case as usize % INPUTS.len()];
        self.count(kind);
        self.count_all(&[(TAKEN_ROUTING, kind == "input: a routing" && !board.taken.is_empty())]);
        self.print(&input(&mut random, kind, &board, &routing_words(&board, &paths)));
    }

    /// Runs the program on an input and compares every byte that it prints. It ends well on a refusal too.
    fn print(&mut self, input: &[u8]) {
        let (due, (found, status)) = (printed(input), program::printed(PROGRAM, input));
        if found != due || !status.success() {
            let [found, due] = [found, due].map(|bytes| String::from_utf8_lossy(&bytes).into_owned());
            let what = format!("the program ended with {status}\n---- {PROGRAM}\n{found}\n---- independent\n{due}\n----");
            self.difference_in(&what, &[("input", input)]);
        }
        let (board, list) = parted(&input[..input.len().min(LONGEST)]);
        read(board).iter().for_each(|board| self.hold_if_passed(board, list));
        let what = drawn_from(input).map_or_else(|refusal| refused_by(refusal.number), |_| PAGE.to_string());
        self.count(&what);
        if let Some(book) = book_told(parted(input).0) {
            self.count(&under(book, &what));
        }
        self.count_all(&[(TOO_LONG, input.len() > LONGEST)]);
    }
}

const MADE: &str = "input: a board made for an answer";
const TAKEN_ROUTING: &str = "input: a routing, pins taken";
const PAGE: &str = "printed: a page";
const TOO_LONG: &str = "printed: for more bytes than are read";

fn refused_by(number: u32) -> String {
    format!("printed: refused by {number}")
}

// ---------------------------------------------------------------- the whole part

/// What part h reached, and how often is due: two thirds or less of what each of the seeds 1985, 1 and 2 reaches.
fn reached(run: &Run) -> Vec<(String, u64, u64)> {
    let mut due: Vec<(String, u64)> = INPUTS.map(|kind| (kind.to_string(), 60)).into();
    due.dedup();
    due.extend(OF_BOARDS.iter().chain(&OF_LISTS[1..]).map(|&number| (refused_by(number), 2)));
    for book in BOOKS {
        due.extend([12, 13, 15, 38, 25, 41, 42, 43].map(|number| (under(book, &refused_by(number)), 3)));
        due.push((under(book, PAGE), 70));
    }
    due.extend([(TAKEN_ROUTING, 45), (PAGE, 175), (TOO_LONG, 23)].map(|(what, least)| (what.to_string(), least)));
    let mut reached: Vec<_> = due.into_iter().map(|(what, least)| (what.clone(), run.counted(&what), least)).collect();
    reached.extend(held_reached(run, [[100, 0, 0, 0], [280, 75, 15, 1]]));
    reached
}

/// All cases, and what they reached. Answers with the run.
pub fn whole(seed: u64) -> Run {
    let (mut run, start) = (Run { seed, ..Run::default() }, Instant::now());
    (0..CASES_H).for_each(|case| run.part_h(case));
    println!("part h: {CASES_H} inputs of the program draw; {:.1} s", start.elapsed().as_secs_f64());
    let reached = reached(&run);
    reached.iter().for_each(|(what, seen, _)| println!("{seen:8} {what}"));
    end_if_short("part h reaches", reached);
    run
}
