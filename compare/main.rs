//! Holds the proved library, over its C interface, against the independent side.
//!
//!     main [SEED]              all parts
//!     main SEED PART           part e, g or h alone
//!     main SEED PART CASE      one case again
//!
//! Parts: a, boards true and damaged through the wire to order and through routing, into buffers just too short, just long enough and longer; b,
//! lists true and damaged through judging; c, random small boards without odd vertices against the exhaustive router; d, every assignment of nets on
//! small boards against it; e, pairs of lists true and damaged through the comparison of two routings; f, small boards with odd vertices, by hand
//! and at random, against the exhaustive router; g, lists true and damaged through drawing; h, boards and lists true and damaged through the program
//! draw.
//! In all parts boards come under both rule books, and many have pins that the package has taken. Where a board is read, routing is called once more
//! under the other book, and without the words of taken pins: the answer and every byte have to be the same, unless the new rule refuses the board.
//! Whether a board with odd vertices has a routing is decided by trying every way to pair them off. On small boards this way is itself held
//! against the exhaustive router.
//! In all parts every list that judging passes is held against the bounds of the wire to order, be it the library's or another maker's.
//! The first difference ends the run with status 1 and prints seed, part, case and the input's bytes. So does a run whose inputs reach too little.

mod books;
#[path = "../editor/cidrask.rs"]
mod cidrask;
mod exhaustive;
mod full;
mod generate;
mod independent;
mod odd;
mod page;
mod pages;
mod pairs;
mod prints;
mod program;
mod taken;
mod wire;

use books::{any_bytes, made_bytes, made_kinds, MADE_KINDS};
use cidrask::{cidrask_alike, cidrask_draw, cidrask_judge};
use exhaustive::Answer;
use generate::*;
use independent::*;
use std::collections::BTreeMap;
use std::time::Instant;
use wire::{any_buffer, called, print_held, room, Held};

const CASES_A: u64 = 220_000;
const CASES_B: u64 = 120_000;
const CASES_C: u64 = 6_000;
const CASES_E: u64 = 30_000;
const CASES_F: u64 = 6_000;
const CASES_G: u64 = 24_000;
const CASES_H: u64 = 1_600;
/// Routing words for a board of their own.
const OTHER_LIST: [u32; 5] = [0x40100001, 0x54000001, 0x40200001, 0x58000001, 0xE0000002];
/// Bytes before and after a buffer that must stay as they are.
const GUARD: usize = 16;
const LOOPS: &str = "list with loops laid on";
const TURNED_TWICE: &str = "lists with a vertex where one net turns twice";
const EXHAUSTIVE: &str = "list of the exhaustive router";

/// The refusals that reading, routing and judging of bytes can give. 22 is not among them: a number that is on the board
/// already is not above the last one, and gets 13 before any net is added.
const REFUSALS: [u32; 22] = [10, 11, 12, 13, 14, 15, 16, 38, 21, 23, 24, 25, 31, 32, 33, 34, 41, 42, 43, 44, 45, 46];

#[derive(Default)]
struct Run {
    seed: u64,
    part: char,
    case: u64,
    kinds: BTreeMap<String, u64>,
    refusals: BTreeMap<u32, u64>,
    boards: u64,
    routed: u64,
    judged: u64,
    pairs: u64,
    drawn: u64,
    most_words: usize,
    most_nets: usize,
    most_taken: usize,
    /// The same of boards under the new rule.
    most_nets_new: usize,
    most_taken_new: usize,
    large: u64,
    full_cuts: u64,
    passed: u64,
    knock_knees: u64,
    /// Lists that passed with a vertex where one net turns twice, and the count of these vertices.
    lists_turned_twice: u64,
    turned_twice: u64,
    /// The most rows and columns that the nets of a board cross, and the most edges of a board, whose wire was told.
    most_crossing: usize,
    most_edges: usize,
    /// The list that the library handed back last; of its lists, and of others, those that were held against the bounds.
    own: Vec<u8>,
    held: [Held; 2],
}

impl Run {
    fn count(&mut self, kind: &str) {
        *self.kinds.entry(kind.to_string()).or_insert(0) += 1;
    }

    /// Counts those that hold.
    fn count_all(&mut self, seen: &[(&str, bool)]) {
        seen.iter().filter(|(_, holds)| *holds).for_each(|(what, _)| self.count(what));
    }

    fn counted(&self, kind: &str) -> u64 {
        self.kinds.get(kind).copied().unwrap_or(0)
    }

    fn count_refused(&mut self, r: &Refusal) {
        *self.refusals.entry(r.number).or_insert(0) += 1;
        if r.number == 33 {
            self.count(if r.place[0] == 0 { "33 for a row" } else { "33 for a column" });
        }
    }

    fn count_routed(&mut self, b: &Board, words: usize) {
        self.routed += 1;
        self.most_words = self.most_words.max(words);
        self.most_nets = self.most_nets.max(b.nets.len());
        self.large += (b.rows.len() >= 16 && b.nets.len() >= 16 && b.rows.iter().any(|row| row != &b.rows[0])) as u64;
        self.full_cuts += b.cuts().iter().any(|&cut| b.cut_edges(cut) > 0 && b.margin(cut) == 0) as u64;
    }

    /// Counts what a board with taken pins came to; `refused` is what routing owes it.
    fn count_taken(&mut self, b: &Board, refused: Option<Refusal>) {
        if b.taken.is_empty() {
            return;
        }
        let free = free_pins(b);
        let left_at = |v: &Vertex| free.iter().any(|(u, _)| u == v);
        self.most_taken = self.most_taken.max(b.taken.len());
        self.count(&taken_and(refused.map_or(0, |r| r.number)));
        self.count_all(&[
            (TAKEN_FEW, b.taken.len() <= 3),
            (TAKEN_MANY, b.taken.len() >= 40),
            (TAKEN_LONG, b.rows.len() + b.taken.len() + b.nets.len() + 1 > 96),
            (TAKEN_NO_NETS, b.nets.is_empty()),
            (TAKEN_ALL, free.is_empty()),
            (TAKEN_ALL_AT_SOME, !free.is_empty() && b.taken.keys().any(|v| !left_at(v))),
            (TAKEN_NET_BESIDE, b.taken.keys().any(|&v| b.terminals(v) > 0)),
            (TAKEN_LEFT_BESIDE, b.taken.keys().any(left_at)),
        ]);
    }

    /// Counts what a list that passes has. That no vertex has more than two turns is seen here, not taken for granted.
    fn count_passed(&mut self, report: &Report, board: &[u8], list: &[u8]) {
        if report.most_turns > 2 {
            self.difference(&format!("both judges pass a list with {} turns at one vertex", report.most_turns), board, list);
        }
        self.passed += 1;
        self.knock_knees += report.knock_knees as u64;
        self.lists_turned_twice += (report.turned_twice > 0) as u64;
        self.turned_twice += report.turned_twice as u64;
    }

    /// How often this refusal was due.
    fn refused(&self, number: u32) -> u64 {
        self.refusals.get(&number).copied().unwrap_or(0)
    }

    fn difference(&self, what: &str, board: &[u8], list: &[u8]) -> ! {
        self.difference_in(what, &[("board", board), ("list", list)])
    }

    fn difference_in(&self, what: &str, inputs: &[(&str, &[u8])]) -> ! {
        println!("DIFFERENCE: {what}");
        println!("seed {} part {} case {}", self.seed, self.part, self.case);
        inputs.iter().for_each(|(name, bytes)| println!("{name} bytes: {}", hex(bytes)));
        std::process::exit(1)
    }

    // ------------------------------------------------------------ the calls

    /// Calls routing and compares result, place and every byte. Hands back the routing words, where there are any.
    fn route(&mut self, random: &mut Random, board: &[u8], buffer_length: usize) -> Option<Vec<u8>> {
        let expected = read(board);
        let refused = match &expected {
            Ok(b) => route_refused(b, buffer_length),
            Err(refusal) => Some(*refusal),
        };
        let (answer, words) = self.called_as_due(random, board, buffer_length, refused);
        self.boards += 1;
        if let Ok(b) = &expected {
            self.count_odd(b, refused);
            self.count_taken(b, refused);
            self.count_buffer(b, buffer_length, refused, &words);
        }
        self.count_book(board, &expected, refused);
        if let Ok(b) = &expected {
            self.route_otherwise(random, (board, b), buffer_length, answer, &words);
        }
        if let Some(r) = refused {
            self.count_refused(&r);
            return None;
        }
        if let Ok(b) = &expected {
            self.count_routed(b, words.len() / 4);
            if !b.odd_vertices().is_empty() && !b.revised_cuts_hold() {
                self.difference("routing hands back words where the revised cut test fails", board, &words);
            }
        }
        Some(words)
    }

    /// Calls routing for a board that was read, without the words of its taken pins and under the other book. The answer is the same, and so is every
    /// byte; but the new rule may refuse what the old one accepts.
    fn route_otherwise(&mut self, random: &mut Random, board: (&[u8], &Board), buffer_length: usize, answer: Answered, words: &[u8]) {
        let (bytes, board) = board;
        let mut again = |run: &Run, what: &str, other: &[u8], answer: Answered, words: &[u8]| {
            let found = called(random, other, buffer_length);
            if found != Ok((answer, words.to_vec())) {
                let what = format!("routing: {answer:?} is due {what} and the same words, but library {found:?}");
                run.difference_in(&what, &[("board", bytes), ("called with", other), ("routing", words)]);
            }
        };
        if !board.taken.is_empty() {
            again(self, "without the words of taken pins", &without_taken(bytes), answer, words);
            self.count(STRIPPED);
        }
        let other = under_other_book(bytes);
        match read(&other) {
            Ok(_) => {
                again(self, "under the other book", &other, answer, words);
                self.count(OTHER_BOOK);
            }
            Err(r) if board.book == Book::Old => {
                again(self, "under the new rule", &other, (r.number, r.place[0] as u64, 0), &[]);
                self.count(&new_rule_alone(r.number));
            }
            Err(r) => self.difference(&format!("independent refuses by {r:?} under the old rule what the new one accepts"), bytes, &[]),
        }
    }

    /// Calls judging and compares result and report or place.
    fn judge(&mut self, board: &[u8], list: &[u8]) -> Option<Report> {
        let board_read = read(board);
        let expected = board_read.as_ref().map_err(|refusal| *refusal).and_then(|b| judge(b, list));
        let shift = self.case as usize + list.len() / 4;
        let (lent_board, lent_list) = (Lent::new(board, shift % 8), Lent::new(list, shift / 8 % 8));
        let mut lent = Numbers::new();
        let [first, second, third] = lent.lend();
        let result = unsafe { cidrask_judge(lent_board.start(), board.len(), lent_list.start(), list.len(), first, second, third) };
        let n = lent.taken();
        if !lent_board.unchanged() || !lent_list.unchanged() || !lent.guarded() {
            self.difference("judging wrote to what it is not lent for writing", board, list);
        }
        let (number, numbers) = match expected {
            Ok(report) => (0, [report.edges as u64, report.turns as u64, report.knock_knees as u64]),
            Err(refusal) => (refusal.number, [refusal.place[0] as u64, 0, 0]),
        };
        if (result, n) != (number, numbers) {
            self.difference(&format!("judging: library {result} {n:?}, independent {number} {numbers:?}"), board, list);
        }
        self.judged += 1;
        self.count_all(&[(TAKEN_JUDGED, with_taken(&board_read))]);
        self.count_call_under(&board_read, JUDGED);
        if let Err(refusal) = &expected {
            self.count_refused(refusal);
        }
        let report = expected.ok()?;
        self.count_passed(&report, board, list);
        board_read.iter().for_each(|b| self.hold_bounds(b, list, report.edges));
        Some(report)
    }

    /// Calls the comparison of two lists and compares result and answer or place. Where the lists are the same, they may be lent as one.
    fn alike(&mut self, board: &[u8], one: &[u8], two: &[u8]) -> Option<bool> {
        let board_read = read(board);
        let expected = board_read.as_ref().map_err(|refusal| *refusal).and_then(|b| alike(b, one, two));
        let shift = self.case as usize + (one.len() + two.len()) / 4;
        let lent = [(board, shift), (one, shift / 8), (two, shift / 64)].map(|(bytes, shift)| Lent::new(bytes, shift % 8));
        let lists = [lent[1].start(), if one == two && shift % 2 == 0 { lent[1].start() } else { lent[2].start() }];
        let mut numbers = Numbers::new();
        let [first, second, _] = numbers.lend();
        let result = unsafe { cidrask_alike(lent[0].start(), board.len(), lists[0], one.len(), lists[1], two.len(), first, second) };
        let [first, second, third] = numbers.taken();
        let inputs = [("board", board), ("first list", one), ("second list", two)];
        if !lent.iter().all(Lent::unchanged) || !numbers.guarded() || third != UNTOUCHED {
            self.difference_in("the comparison wrote to what it is not lent for writing", &inputs);
        }
        let due = match expected {
            Ok(answer) => (0, answer as u64, 0),
            Err(refusal) => (refusal.number, refusal.place[0] as u64, refusal.place[1] as u64),
        };
        if (result, first, second) != due {
            self.difference_in(&format!("comparing: library {result} at {first} {second}, independent {expected:?}"), &inputs);
        }
        self.pairs += 1;
        self.count_all(&[(TAKEN_COMPARED, with_taken(&board_read))]);
        self.count_call_under(&board_read, COMPARED);
        match board_read {
            Ok(b) => self.count_pair(&b, one, two, expected),
            Err(_) => self.count("refused: the board of a pair"),
        }
        expected.ok()
    }

    /// Calls drawing and compares result, count or place, and every byte in and around the buffer: the page alone is written, and nothing where
    /// there is none. Hands back the library's page.
    fn draw(&mut self, random: &mut Random, board: &[u8], list: &[u8], length: usize) -> Option<Vec<u8>> {
        let board_read = read(board);
        let expected = board_read.as_ref().map_err(|refusal| *refusal).and_then(|b| page::draw(b, list, length));
        let start = GUARD + random.below(8);
        let mut due = pattern(random.next(), start + length + GUARD);
        let mut memory = due.clone();
        let lent = [board, list].map(|bytes| Lent::new(bytes, random.below(8)));
        let mut numbers = Numbers::new();
        let buffer = memory[start..start + length].as_mut_ptr();
        let [first, ..] = numbers.lend();
        let result = unsafe { cidrask_draw(lent[0].start(), board.len(), lent[1].start(), list.len(), buffer, length, first) };
        self.drawn += 1;
        self.count_all(&[(TAKEN_DRAWN, with_taken(&board_read))]);
        self.count_call_under(&board_read, PAGES);
        let [first, second, third] = numbers.taken();
        if !lent.iter().all(Lent::unchanged) || !numbers.guarded() || [second, third] != [UNTOUCHED; 2] {
            self.difference("drawing wrote to what it is not lent for writing", board, list);
        }
        let (number, place) = match &expected {
            Ok(page) => (0, page.len()),
            Err(refusal) => (refusal.number, refusal.place[0] as usize),
        };
        if (result, first) != (number, place as u64) {
            let what = format!("drawing into {length} bytes: library {result} at {first}, independent {number} at {place}");
            self.difference(&what, board, list);
        }
        let count = expected.as_ref().map_or(0, Vec::len);
        due[start..start + count].copy_from_slice(expected.as_deref().unwrap_or(&[]));
        if let Some(at) = (0..due.len()).find(|&at| memory[at] != due[at]) {
            let (found, place) = (memory[at], at as isize - start as isize);
            self.difference(&format!("drawing into {length} bytes: byte {place} is {found}, independent {}", due[at]), board, list);
        }
        self.count_drawn(&board_read, list, length, &expected);
        if expected.is_ok() {
            board_read.iter().for_each(|b| self.hold_if_passed(b, list));
        }
        expected.is_ok().then(|| memory[start..start + count].to_vec())
    }

    /// Routes, and has the routing judged by both.
    fn route_and_judge(&mut self, random: &mut Random, board: &[u8], buffer_length: usize) -> Option<Vec<u8>> {
        let words = self.route(random, board, buffer_length)?;
        if self.judge(board, &words).is_none() {
            self.difference("both judges refuse the routing handed back", board, &words);
        }
        Some(words)
    }

    // ------------------------------------------------------------ the parts

    fn part_a(&mut self, case: u64) {
        (self.part, self.case) = ('a', case);
        let mut random = Random::of_case(self.seed, 'a', case);
        let bytes = if random.one_in(5) { self.made_board(&mut random) } else { self.any_board(&mut random) };
        let board = self.wire(&mut random, &bytes);
        let length = any_buffer(&mut random, board.as_ref());
        self.route_and_judge(&mut random, &bytes, length);
        if let Some(board) = board.filter(|_| random.one_in(20)) {
            self.in_buffers(&mut random, &bytes, &board);
        }
        if random.one_in(40) {
            self.full_board(&mut random);
        }
    }

    /// A board of any kind but those made for an answer.
    fn any_board(&mut self, random: &mut Random) -> Vec<u8> {
        let kind = random.below(BOARD_KINDS.len());
        self.count(BOARD_KINDS[kind]);
        board_bytes(random, kind)
    }

    /// A board of the kinds made for taken pins or books. Reading gives what it is made for.
    fn made_board(&mut self, random: &mut Random) -> Vec<u8> {
        let kind = random.below(MADE_KINDS);
        let (board, due) = made_bytes(random, kind);
        let (name, answer) = (made_kinds()[kind], read(&board).err());
        if answer != due {
            self.difference(&format!("{name}: made for {due:?}, but independent {answer:?}"), &board, &[]);
        }
        self.count(name);
        board
    }

    fn part_b(&mut self, case: u64) {
        (self.part, self.case) = ('b', case);
        let mut random = Random::of_case(self.seed, 'b', case);
        let size = size(&mut random);
        let board = true_board(&mut random, size);
        self.lists_of(&mut random, &board, None);
        if random.one_in(40) {
            let (board, list) = self.full_list(&mut random);
            self.lists_of(&mut random, &board, Some(list));
        }
    }

    /// Lists true and damaged for a board; a true one may be given.
    fn lists_of(&mut self, random: &mut Random, board: &Board, given: Option<Vec<u32>>) {
        let (bytes, mut words) = (bytes_of(&board.words()), given);
        if words.is_none() && random.one_in(3) {
            words = (0..4).find_map(|_| trails(random, board)).map(|paths| routing_words(board, &paths));
            if let Some(list) = &words {
                self.count("routing from random trails");
                if self.judge(&bytes, &bytes_of(list)).is_none() {
                    self.difference("both judges refuse trails", &bytes, &bytes_of(list));
                }
            }
        }
        if words.is_none() {
            words = self.route_and_judge(random, &bytes, 8196).map(|list| words_of(&list).unwrap());
        }
        if random.one_in(3) {
            words = words.map(|list| self.with_loops(random, board, list));
        }
        let words = words.unwrap_or_else(|| {
            // No routing: straight runs that need not be on the board.
            let paths: Vec<Vec<usize>> = board.nets.iter().map(toward).collect();
            routing_words(board, &paths)
        });
        for _ in 0..3 {
            let kind = random.below(LIST_KINDS.len());
            let list = list_bytes(random, kind, &words, &OTHER_LIST);
            self.count(LIST_KINDS[kind]);
            self.judge(&bytes, &list);
        }
        if random.one_in(4) {
            self.judge_under_other_book(board, &bytes_of(&words));
        }
        if random.one_in(30) {
            // A damaged board with a list: the board is read first.
            let damaged = any_bytes(random);
            let mut list = bytes_of(&words);
            list.truncate(list.len() - random.below(3));
            self.count("list for a damaged board");
            self.judge(&damaged, &list);
        }
    }

    /// A list is judged in the same way under both books, where both accept the board.
    fn judge_under_other_book(&mut self, board: &Board, list: &[u8]) {
        let bytes = bytes_of(&board.words());
        let other = under_other_book(&bytes);
        if read(&other).is_err() {
            return;
        }
        let reports = [&bytes, &other].map(|board| self.judge(board, list));
        if reports[0] != reports[1] {
            self.difference(&format!("judged under both books: {reports:?}"), &bytes, list);
        }
        self.count(OTHER_BOOK_JUDGED);
    }

    /// A list with up to three loops laid on, each at a vertex where its net then turns twice; the list as it is where there is no room.
    fn with_loops(&mut self, random: &mut Random, board: &Board, words: Vec<u32>) -> Vec<u32> {
        let (mut paths, mut loops) = (steps_of(&words), 0);
        for _ in 0..1 + random.below(3) {
            let Some(longer) = loop_laid_on(random, board, &paths) else { break };
            (paths, loops) = (longer, loops + 1);
        }
        if loops == 0 {
            return words;
        }
        self.count(LOOPS);
        let words = routing_words(board, &paths);
        let (bytes, list) = (bytes_of(&board.words()), bytes_of(&words));
        let twice = self.judge(&bytes, &list).map(|report| report.turned_twice);
        if twice.is_none_or(|twice| twice < loops) {
            self.difference(&format!("{loops} loops are laid on, but vertices where one net turns twice: {twice:?}"), &bytes, &list);
        }
        words
    }

    /// A random even board of up to 5 by 5 cells.
    fn part_c(&mut self, case: u64, found: &mut Found) {
        (self.part, self.case) = ('c', case);
        let mut random = Random::of_case(self.seed, 'c', case);
        let size = random.pick(&[3, 3, 4, 5]);
        let rows = convex_rows(&mut random, size, size);
        let (mut board, mend) = (any_bare(&mut random, &rows), random.one_in(2));
        board.nets = even_nets(&mut random, &board, mend);
        self.small(&mut random, &board, 200_000, found);
    }

    /// These pairs as nets on this board, under either book where the new rule accepts them.
    fn part_d(&mut self, case: u64, bare: &Board, pairs: &[(Vertex, Vertex)], found: &mut Found) {
        (self.part, self.case) = ('d', case);
        let mut random = Random::of_case(self.seed, 'd', case);
        let mut board = Board { nets: numbered(&mut random, pairs.to_vec()), ..bare.clone() };
        if random.one_in(2) && read(&bytes_of(&board.clone().under(Book::New).words())).is_ok() {
            board.book = Book::New;
        }
        self.small(&mut random, &board, u64::MAX, found);
    }

    /// One board with its nets and at most 12 odd vertices: the exhaustive router finds paths exactly when the odd vertices can be paired off,
    /// and routing is accepted exactly then. Pins that the nets leave free may be taken, which changes none of this.
    fn small(&mut self, random: &mut Random, board: &Board, steps: u64, found: &mut Found) {
        let mut board = board.clone();
        take_pins(random, &mut board);
        let board = &board;
        let bytes = bytes_of(&board.words());
        let answer = exhaustive::route(board, steps);
        let paths = match &answer {
            Answer::Undecided => None,
            Answer::None => Some(false),
            Answer::Paths(_) => Some(true),
        };
        if paths.is_some_and(|paths| paths != board.paths_exist()) {
            self.difference(&format!("the exhaustive router finds paths: {paths:?}, but pairing off the odd vertices tells otherwise"), &bytes, &[]);
        }
        self.wire(random, &bytes);
        let length = room(random, board);
        let routed = self.route_and_judge(random, &bytes, length).is_some();
        if paths.is_some_and(|paths| paths != routed) {
            self.difference(&format!("routed: {routed}, but the exhaustive router finds paths: {paths:?}"), &bytes, &[]);
        }
        found.count(board, paths);
        if let Answer::Paths(paths) = answer {
            let list = bytes_of(&routing_words(board, &paths));
            // Another maker's list, be it the same as the library's.
            self.own.clear();
            self.count(EXHAUSTIVE);
            if self.judge(&bytes, &list).is_none() {
                self.difference("both judges refuse the exhaustive router's paths", &bytes, &list);
            }
        }
    }
}

// ---------------------------------------------------------------- taken pins

const STRIPPED: &str = "taken: the same without these words";
const TAKEN_JUDGED: &str = "taken: lists judged";
const TAKEN_COMPARED: &str = "taken: pairs compared";
const TAKEN_DRAWN: &str = "taken: calls of drawing";
const TAKEN_FEW: &str = "taken: at three vertices or fewer";
const TAKEN_MANY: &str = "taken: at 40 vertices or more";
const TAKEN_LONG: &str = "taken: a board of more than 96 words";
const TAKEN_NO_NETS: &str = "taken: no nets";
const TAKEN_ALL: &str = "taken: no pin is free";
const TAKEN_ALL_AT_SOME: &str = "taken: no pin is free at some of these vertices, but elsewhere";
const TAKEN_NET_BESIDE: &str = "taken: one pin by the package and one by a net";
const TAKEN_LEFT_BESIDE: &str = "taken: one pin by the package, the other free";

/// What is due in parts a and b besides kinds and answers.
const TAKEN_DUE: [(&str, u64); 10] = [
    (STRIPPED, 45_000),
    (TAKEN_JUDGED, 125_000),
    (TAKEN_FEW, 32_000),
    (TAKEN_MANY, 520),
    (TAKEN_LONG, 480),
    (TAKEN_NO_NETS, 2_000),
    (TAKEN_ALL, 12_000),
    (TAKEN_ALL_AT_SOME, 30_000),
    (TAKEN_NET_BESIDE, 9_600),
    (TAKEN_LEFT_BESIDE, 4_700),
];

fn with_taken(board: &Result<Board, Refusal>) -> bool {
    board.as_ref().is_ok_and(|board| !board.taken.is_empty())
}

fn taken_and(number: u32) -> String {
    format!("taken: {}", answered(number))
}

fn answered(number: u32) -> String {
    if number == 0 { "routed".to_string() } else { format!("refused by {number}") }
}

// ---------------------------------------------------------------- books

const OTHER_BOOK: &str = "books: the same under the other";
const OTHER_BOOK_JUDGED: &str = "books: a list judged under both";
const JUDGED: &str = "lists judged";
const COMPARED: &str = "pairs compared";
const PAGES: &str = "calls of drawing";
const NEW_CORNER_USED: &str = "new rule: read, a terminal at an outer corner";
const NEW_CORNER_TAKEN: &str = "new rule: read, a pin taken at an outer corner";
const NEW_NO_PIN_FREE: &str = "new rule: read, no pin is free";
const OLD_CORNER_USED: &str = "old rule: read, two terminals at an outer corner";
const OLD_CORNER_TAKEN: &str = "old rule: read, two pins taken at an outer corner";
const OLD_CORNER_BOTH: &str = "old rule: read, a pin by the package and one by a net at an outer corner";

/// What is due in parts a and b besides kinds, answers and calls.
const BOOKS_DUE: [(&str, u64); 8] = [
    (OTHER_BOOK, 65_000),
    (OTHER_BOOK_JUDGED, 12_500),
    (NEW_CORNER_USED, 24_500),
    (NEW_CORNER_TAKEN, 18_500),
    (NEW_NO_PIN_FREE, 10_000),
    (OLD_CORNER_USED, 29_500),
    (OLD_CORNER_TAKEN, 11_500),
    (OLD_CORNER_BOTH, 9_600),
];

/// What a board comes to, 0 for routed, with how often is due in parts a and b under each book.
const ANSWERS_DUE: [(u32, u64); 15] = [
    (12, 3_000), (13, 9_000), (14, 1_500), (15, 6_000), (16, 1_500), (38, 1_500), (21, 750), (23, 2_200), (24, 80), (25, 2_100),
    (31, 3_900), (32, 2_100), (33, 2_700), (34, 3_300), (0, 36_000),
];

fn under(book: Book, what: &str) -> String {
    format!("{} rule: {what}", if book == Book::Old { "old" } else { "new" })
}

/// The old rule accepts the board, the new one refuses it by that number.
fn new_rule_alone(number: u32) -> String {
    format!("books: refused by {number} under the new rule alone")
}

fn no_book(number: u32) -> String {
    format!("books: 12 for the number {number}")
}

impl Run {
    /// Counts a call for a board that was read.
    fn count_call_under(&mut self, board: &Result<Board, Refusal>, call: &str) {
        if let Ok(board) = board {
            self.count(&under(board.book, call));
        }
    }

    /// Counts what a board came to under its book; `refused` is what routing owes it.
    fn count_book(&mut self, bytes: &[u8], board: &Result<Board, Refusal>, refused: Option<Refusal>) {
        if let Some(book) = book_told(bytes) {
            self.count(&under(book, &answered(refused.map_or(0, |r| r.number))));
        }
        let Ok(b) = board else {
            return self.count_no_book(bytes, refused);
        };
        if b.book == Book::New {
            self.most_nets_new = self.most_nets_new.max(b.nets.len());
            self.most_taken_new = self.most_taken_new.max(b.taken.len());
        }
        let corners: Vec<Vertex> = b.vertices().into_iter().filter(|&v| b.cells(v) == 1).collect();
        let terminals = |least: usize| corners.iter().any(|&v| b.terminals(v) >= least);
        let taken = |least: usize| corners.iter().any(|v| b.taken.get(v).is_some_and(|&count| count >= least));
        self.count_all(&match b.book {
            Book::Old => [
                (OLD_CORNER_USED, terminals(2)),
                (OLD_CORNER_TAKEN, taken(2)),
                (OLD_CORNER_BOTH, corners.iter().any(|&v| b.terminals(v) == 1 && b.taken.contains_key(&v))),
            ],
            Book::New => [
                (NEW_CORNER_USED, terminals(1)),
                (NEW_CORNER_TAKEN, taken(1)),
                (NEW_NO_PIN_FREE, free_pins(b).is_empty()),
            ],
        });
    }

    /// Counts a 12 that the book of an end word alone is due to.
    fn count_no_book(&mut self, bytes: &[u8], refused: Option<Refusal>) {
        let Some(Refusal { number: 12, place: [index, _] }) = refused else { return };
        let word = words_of(bytes).map_or(0, |words| words[index as usize]);
        if word >> 28 == 15 && word >> 16 & 0xFF == 0 {
            self.count(&no_book(word >> 24 & 15));
        }
    }
}

/// A call's number and the two numbers that it tells.
type Answered = (u32, u64, u64);

/// What the exhaustive router decided of small boards.
#[derive(Default)]
struct Found {
    paths: u64,
    none: u64,
    undecided: u64,
    /// Those with odd vertices.
    odd_paths: u64,
    odd_none: u64,
    /// Those of the last on which no cut is overfull, and of these the ones on which the revised cut test holds.
    no_overfull: u64,
    revised: u64,
}

impl Found {
    fn count(&mut self, board: &Board, paths: Option<bool>) {
        let odd = !board.odd_vertices().is_empty() as u64;
        match paths {
            None => self.undecided += 1,
            Some(true) => {
                self.paths += 1;
                self.odd_paths += odd;
            }
            Some(false) => {
                self.none += 1;
                self.odd_none += odd;
                let no_overfull = board.first_overfull().is_none();
                self.no_overfull += no_overfull as u64;
                self.revised += (no_overfull && board.revised_cuts_hold()) as u64;
            }
        }
    }
}

/// Bytes lent for reading, at any alignment, with a copy to see that they stay as they are.
struct Lent {
    memory: Vec<u8>,
    copy: Vec<u8>,
    shift: usize,
}

impl Lent {
    fn new(bytes: &[u8], shift: usize) -> Lent {
        let mut memory = vec![0; shift];
        memory.extend(bytes);
        Lent { copy: memory.clone(), memory, shift }
    }

    fn start(&self) -> *const u8 {
        self.memory[self.shift..].as_ptr()
    }

    fn unchanged(&self) -> bool {
        self.memory == self.copy
    }
}

const UNTOUCHED: u64 = 0xA5C3_960F_1E2D_4B78;

/// The numbers that a call writes to, each with eight bytes before and after that must stay as they are.
struct Numbers([u64; 7]);

impl Numbers {
    fn new() -> Numbers {
        Numbers([UNTOUCHED; 7])
    }

    /// Pointers to the three numbers, all made from one.
    fn lend(&mut self) -> [*mut u64; 3] {
        let all = self.0.as_mut_ptr();
        unsafe { [all.add(1), all.add(3), all.add(5)] }
    }

    /// Read as memory, since the calls write through pointers.
    fn now(&self) -> [u64; 7] {
        unsafe { std::ptr::read_volatile(&self.0) }
    }

    fn taken(&self) -> [u64; 3] {
        let n = self.now();
        [n[1], n[3], n[5]]
    }

    fn guarded(&self) -> bool {
        let n = self.now();
        [n[0], n[2], n[4], n[6]] == [UNTOUCHED; 4]
    }
}

fn hex(bytes: &[u8]) -> String {
    bytes.iter().map(|b| format!("{b:02x}")).collect()
}

fn pattern(start: u64, length: usize) -> Vec<u8> {
    (0..length).map(|i| (start as usize).wrapping_add(i.wrapping_mul(151)).wrapping_add(i >> 8) as u8).collect()
}

/// Steps from a net's first terminal to its second, first along the line.
fn toward(net: &Net) -> Vec<usize> {
    let ((a, b), (c, d)) = (net.first, net.second);
    let mut steps = vec![if d > b { RIGHT } else { LEFT }; d.abs_diff(b)];
    steps.extend(vec![if c > a { DOWN } else { UP }; c.abs_diff(a)]);
    steps
}

// ---------------------------------------------------------------- every assignment of nets

/// Calls `each` with every set of nets on the pins, as pairs of vertices; where `even`, only with those that leave no vertex odd.
fn assignments(bare: &Board, even: bool, each: &mut dyn FnMut(&[(Vertex, Vertex)])) {
    let vertices = bare.vertices();
    let pins: Vec<usize> = vertices.iter().map(|&v| bare.pins(v)).collect();
    let odd: Vec<usize> = vertices.iter().map(|&v| bare.degree(v) % 2).collect();
    let taken = vec![0; vertices.len()];
    pair_up(&Pins { vertices, pins, odd, even }, 0, 0, taken, &mut Vec::new(), each);
}

struct Pins {
    vertices: Vec<Vertex>,
    pins: Vec<usize>,
    odd: Vec<usize>,
    even: bool,
}

/// Vertex `u` takes further partners from `from` on, none before it, then the next vertex.
fn pair_up(p: &Pins, u: usize, from: usize, taken: Vec<usize>, pairs: &mut Vec<(Vertex, Vertex)>, each: &mut dyn FnMut(&[(Vertex, Vertex)])) {
    if u == p.vertices.len() {
        return each(pairs);
    }
    if !p.even || (p.odd[u] + taken[u]) % 2 == 0 {
        pair_up(p, u + 1, u + 2, taken.clone(), pairs, each);
    }
    if taken[u] < p.pins[u] {
        for v in from.max(u + 1)..p.vertices.len() {
            if taken[v] < p.pins[v] {
                let mut more = taken.clone();
                more[u] += 1;
                more[v] += 1;
                pairs.push((p.vertices[u], p.vertices[v]));
                pair_up(p, u, v, more, pairs, each);
                pairs.pop();
            }
        }
    }
}

/// Every convex board of up to that many rows and columns of cells.
fn boards_within(rows: usize, columns: usize) -> Vec<Board> {
    let spans: Vec<(usize, usize)> = (0..columns).flat_map(|l| (l + 1..=columns).map(move |r| (l, r))).collect();
    let mut boards = Vec::new();
    for count in 1..=rows {
        for code in 0..spans.len().pow(count as u32) {
            let picked: Vec<_> = (0..count).map(|i| spans[code / spans.len().pow(i as u32) % spans.len()]).collect();
            boards.push(Board::bare(&picked));
        }
    }
    boards.retain(|b| b.convex());
    boards
}

/// The small boards: those for every assignment of nets, those for every even one, and those for every one under the new rule. On the last of the
/// first and of the third, one assignment without paths passes the revised cut test.
fn small_boards() -> [(&'static str, Vec<Board>, bool); 3] {
    let last = Board::bare(&[(0, 3), (0, 1)]);
    let mut every = boards_within(2, 2);
    every.extend([Board::bare(&[(0, 3)]), Board::bare(&[(0, 1), (0, 1), (0, 1)]), last.clone()]);
    let pins = |b: &Board| b.vertices().iter().map(|&v| b.pins(v)).sum::<usize>();
    let mut only_even = boards_within(3, 3);
    only_even.retain(|b| !every.contains(b) && pins(b) <= 14);
    let mut new_rule: Vec<Board> = boards_within(3, 3).into_iter().map(|b| b.under(Book::New)).filter(|b| pins(b) <= 8).collect();
    new_rule.push(last.under(Book::New));
    [("every assignment", every, false), ("every even assignment", only_even, true), (EVERY_NEW, new_rule, false)]
}

const EVERY_NEW: &str = "every assignment under the new rule";

/// Every assignment on the small boards, or the one of that number alone. Answers with how many there are.
fn part_d(run: &mut Run, only: Option<u64>) -> u64 {
    let mut case = 0;
    for (what, boards, even) in small_boards() {
        let (mut found, start) = (Found::default(), Instant::now());
        for bare in &boards {
            assignments(bare, even, &mut |pairs| {
                if only.is_none_or(|one| one == case) {
                    run.part_d(case, bare, pairs, &mut found);
                }
                case += 1;
            });
        }
        if only.is_none() {
            print_small(&format!("{what} on {} boards", boards.len()), &found, start);
        }
        if only.is_none() && !even {
            let Found { odd_paths, no_overfull, revised, .. } = found;
            let least = if what == EVERY_NEW { [12_000, 1_100] } else { [30_000, 1_600] };
            let due = [
                ("boards with odd vertices and paths", odd_paths, least[0]),
                ("boards without paths on which no cut is overfull", no_overfull, least[1]),
                ("of these boards that pass the revised cut test", revised, 1),
            ];
            end_if_short(&format!("{what} reaches"), due.map(|(what, seen, least)| (what.to_string(), seen, least)).into());
        }
    }
    case
}

fn print_small(what: &str, found: &Found, start: Instant) {
    let Found { paths, none, undecided, odd_paths, odd_none, no_overfull, revised } = found;
    if *paths < 100 || *none < 100 || undecided * 20 > paths + none {
        println!("FAILED: exhaustive, {what}: too little was decided: {paths} with paths, {none} without, {undecided} not decided");
        std::process::exit(1);
    }
    let time = start.elapsed().as_secs_f64();
    println!("exhaustive, {what}: {paths} with paths, {none} without, {undecided} not decided; {time:.1} s");
    if odd_paths + odd_none > 0 {
        println!("of them with odd vertices {odd_paths} with paths and {odd_none} without; pairing these off tells the same of every board");
        println!("of the last {no_overfull} without an overfull cut, {revised} of them passing the revised cut test");
    }
}

// ---------------------------------------------------------------- the whole run

/// Every kind of input.
fn kinds() -> impl Iterator<Item = &'static str> {
    let others = ["33 for a row", "33 for a column", "routing from random trails", LOOPS, "list for a damaged board"];
    BOARD_KINDS.into_iter().chain(LIST_KINDS).chain(others)
}

/// What boards with taken pins come to in parts a and b, and how often is due; more than 124 vertices with pins no board has.
fn taken_reached(run: &Run) -> Vec<(String, u64, u64)> {
    let mut due: Vec<(String, u64)> = TAKEN_DUE.map(|(what, least)| (what.to_string(), least)).into();
    due.extend(made_kinds().into_iter().map(|kind| (kind.to_string(), 360)));
    due.extend([(0, 30_000), (31, 3_500), (32, 2_200), (33, 3_700), (34, 3_000)].map(|(number, least)| (taken_and(number), least)));
    let mut reached: Vec<_> = due.into_iter().map(|(what, least)| (what.clone(), run.counted(&what), least)).collect();
    reached.push(("vertices with taken pins on a board".to_string(), run.most_taken as u64, 124));
    reached
}

/// What boards come to under each book in parts a and b, and how often is due; under the new rule no board has more pins than 124.
fn books_reached(run: &Run) -> Vec<(String, u64, u64)> {
    let mut due: Vec<(String, u64)> = BOOKS_DUE.map(|(what, least)| (what.to_string(), least)).into();
    due.extend(BOOKS.map(|book| (under(book, JUDGED), 150_000)));
    due.extend(BOOKS.into_iter().flat_map(|book| ANSWERS_DUE.map(|(number, least)| (under(book, &answered(number)), least))));
    due.extend([(25, 28_000), (38, 11_500)].map(|(number, least)| (new_rule_alone(number), least)));
    due.extend((2..=15).map(|number| (no_book(number), 100)));
    let mut reached: Vec<_> = due.into_iter().map(|(what, least)| (what.clone(), run.counted(&what), least)).collect();
    let most = [("nets on a board under the new rule", run.most_nets_new, 62), ("vertices with taken pins under it", run.most_taken_new, 124)];
    reached.extend(most.map(|(what, seen, least)| (what.to_string(), seen as u64, least)));
    reached
}

/// What parts a and b reached, and how often is due: two thirds or less of what each of the seeds 1985, 1 and 2 reaches;
/// 64 nets are all there can be.
fn reached(run: &Run) -> Vec<(String, u64, u64)> {
    let reached = [
        ("boards through routing", run.boards, 200_000),
        ("routings handed back", run.routed, 50_000),
        ("routings on large uneven boards", run.large, 500),
        ("routings with a full cut", run.full_cuts, 35_000),
        ("nets on a board that is routed", run.most_nets as u64, 64),
        ("words of the longest routing", run.most_words as u64, 350),
        ("lists judged", run.judged, 200_000),
        ("knock-knees", run.knock_knees, 240_000),
        (TURNED_TWICE, run.lists_turned_twice, 9_500),
    ];
    let mut all: Vec<(String, u64, u64)> = reached.map(|(what, seen, least)| (what.to_string(), seen, least)).into();
    all.extend(kinds().map(|kind| (format!("inputs of the kind \"{kind}\""), run.counted(kind), 1_000)));
    all.extend(REFUSALS.map(|number| (format!("refusals by {number}"), run.refused(number), 50)));
    all.extend(taken_reached(run));
    all.extend(books_reached(run));
    all.extend(odd::reached(run));
    all.extend(wire::reached(run));
    all
}

/// Ends the run where something was reached less often than is due.
fn end_if_short(parts: &str, reached: Vec<(String, u64, u64)>) {
    let short = reached.into_iter().filter(|(_, seen, least)| seen < least);
    let short: Vec<String> = short.map(|(what, seen, least)| format!("{what}: {seen}, at least {least} are due")).collect();
    if !short.is_empty() {
        println!("FAILED: {parts} too little\n{}", short.join("\n"));
        std::process::exit(1);
    }
}

fn print_run(run: &Run) {
    for (kind, count) in &run.kinds {
        println!("{count:8} {kind}");
    }
    println!("{} boards through routing, {} lists judged", run.boards, run.judged);
    println!("{} routings handed back, at most {} nets and {} words", run.routed, run.most_nets, run.most_words);
    println!("of them {} with a full cut, {} on uneven boards with 16 rows and 16 nets or more", run.full_cuts, run.large);
    println!("{} knock-knees in the lists that passed", run.knock_knees);
    print_turned_twice("parts a and b", &[run]);
    REFUSALS.iter().for_each(|&number| println!("refusal {number}: {}", run.refused(number)));
    println!("refusal 22: {} (13 comes before it)", run.refused(22));
}

/// How many lists that passed have a vertex where one net turns twice; a list that was judged twice counts twice. A list with a vertex of more turns
/// has ended the run.
fn print_turned_twice(parts: &str, runs: &[&Run]) {
    let sum = |count: &dyn Fn(&Run) -> u64| runs.iter().map(|run| count(run)).sum::<u64>();
    let (passed, lists, vertices) = (sum(&|run| run.passed), sum(&|run| run.lists_turned_twice), sum(&|run| run.turned_twice));
    println!("{parts}: {passed} lists passed, {lists} of them with a vertex where one net turns twice, {vertices} such vertices in all;");
    println!("none of them has a vertex with more than two turns (a list that was judged twice counts twice)");
}

/// Parts c, d and f: small boards through the exhaustive router.
fn exhaustive(run: &mut Run) {
    let (mut found, start) = (Found::default(), Instant::now());
    (0..CASES_C).for_each(|case| run.part_c(case, &mut found));
    print_small("random even boards up to 5 by 5", &found, start);
    part_d(run, None);
    odd::whole(run);
}

/// All parts; the small boards on a thread of their own.
fn whole(run: &mut Run) {
    let mut other = Run { seed: run.seed, ..Run::default() };
    let small = std::thread::spawn(move || {
        exhaustive(&mut other);
        other
    });
    let start = Instant::now();
    (0..CASES_A).for_each(|case| run.part_a(case));
    println!("part a: {CASES_A} boards, {} routings handed back; {:.1} s", run.routed, start.elapsed().as_secs_f64());
    let start = Instant::now();
    (0..CASES_B).for_each(|case| run.part_b(case));
    println!("part b: {CASES_B} boards, each with 3 lists or more; {:.1} s", start.elapsed().as_secs_f64());
    print_run(run);
    end_if_short("parts a and b reach", reached(run));
    let (compared, drawn, printed) = (pairs::whole(run.seed), pages::whole(run.seed), prints::whole(run.seed));
    let Ok(other) = small.join() else {
        println!("FAILED: the small boards were broken off");
        std::process::exit(1);
    };
    odd::print_34([run, &other]);
    print_turned_twice("parts a to f", &[run, &compared, &other]);
    print_held(&[run, &compared, &drawn, &printed, &other]);
    println!("no difference");
}

fn usage() -> ! {
    eprintln!("usage: compare/run [SEED [PART CASE]], with part a, b, c, d, e, f, g or h; part e, g or h also without a case");
    std::process::exit(2)
}

/// All cases of a part that stands alone.
fn whole_part(seed: u64, part: &str) {
    match part {
        "e" => pairs::whole(seed),
        "g" => pages::whole(seed),
        "h" => prints::whole(seed),
        _ => usage(),
    };
    println!("no difference in this part");
}

fn again(run: &mut Run, part: &str, case: u64) {
    match part {
        "a" => run.part_a(case),
        "b" => run.part_b(case),
        "c" => run.part_c(case, &mut Found::default()),
        "d" if case < part_d(run, Some(case)) => {}
        "e" => run.part_e(case),
        "f" => run.part_f(case, &mut Found::default()),
        "g" => run.part_g(case),
        "h" => run.part_h(case),
        _ => usage(),
    }
    println!("no difference in this case");
}

fn main() {
    let args: Vec<String> = std::env::args().skip(1).collect();
    let number = |text: &String| text.parse().unwrap_or_else(|_| usage());
    let mut run = Run { seed: args.first().map_or(1985, number), ..Run::default() };
    match &args[..] {
        [] | [_] => {
            println!("seed {}", run.seed);
            whole(&mut run);
        }
        [_, part] => whole_part(run.seed, part),
        [_, part, case] => again(&mut run, part, number(case)),
        _ => usage(),
    }
}
