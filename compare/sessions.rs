//! Holds the program replay, run on random texts of calls, against a list machine written from the requirements alone.
//!
//!     sessions [SEED]          all cases
//!     sessions SEED s CASE     one case again
//!
//! The call paths asks for a routing. Which one is handed back is left open, so its words are judged for the nets that the calls before leave,
//! returns to nets kept under a name among them. The call wire tells how much wire these nets take, and changes nothing. After the calls the nets,
//! the pile, what each name holds and the book are compared. Rows, taken pins and books come in any order, and each of them starts the session
//! afresh; a move brings the session under the new rule with its nets.
//! The first difference ends the run with status 1 and prints seed, case, the text and both outputs. So does a run whose texts reach too little.
//! With SESSIONS_COUNTS set in the environment, all that was reached is printed with its count.

#[allow(dead_code)]
mod generate;
mod independent;
mod program;

use generate::{any_book, convex_rows, free_pins, Random};
use independent::{bytes_of, judge, route_refused, Board, Book, Net, Vertex, Wire, BOOKS};
use std::collections::{BTreeMap, VecDeque};
use std::time::Instant;

const PROGRAM: &str = "target/bin/replay";
const CASES: u64 = 4_800;
/// The longest text that the program reads.
const MOST_BYTES: usize = 65_536;
/// The most changes on a pile.
const PILE: usize = 64;
/// How many names a session has, numbered from 0.
const NAMES: usize = 8;
/// The bytes of a buffer that any routing has room in.
const ROOM: usize = 4 * 2049;
/// Stands in the answers for the words of a routing.
const ROUTING: &str = "a routing of the nets on the board";

/// A refusal's number and place.
type Refused = (u32, u32);
/// The same where the place may be two numbers.
type RefusedAt = (u32, Vec<u32>);
type Rows = Vec<(usize, usize)>;
type Counts = BTreeMap<String, u64>;

// ---------------------------------------------------------------- the list machine

#[derive(Clone, Debug, PartialEq, Eq)]
enum Change {
    Added(Net),
    Withdrawn(Net),
}

/// The board with its nets in rising number, the pile, its lowest change first, and for each name the nets kept, if any are, be they none.
/// Besides, the answers so far and what was reached.
#[derive(Clone)]
struct Machine {
    board: Board,
    pile: VecDeque<Change>,
    names: [Option<Vec<Net>>; NAMES],
    /// What makes the board unsound, once it was looked for; whether it was taken pins when last looked for, and the new rule for these.
    flaw: Option<Option<&'static str>>,
    wrongly_taken: bool,
    too_few_by_rule: bool,
    /// How many changes full piles have lost.
    lost: u64,
    /// The last call, or the last line that told the board; the sum that wire told last, since the session was started afresh.
    last: &'static str,
    told: Option<usize>,
    output: String,
    /// The boards whose routings the output has, in order.
    routed: Vec<Board>,
    counts: Counts,
    past: Past,
}

/// What the counts go by besides the session: the last return since the session was started afresh or came over to the new rule, the names returned
/// to since they were kept, and the names that lost their nets to a row, to taken pins, to a book or to a move, by the word that did it. Of moves
/// since the session was started afresh: the one that brought it over, the last one with how it went and the calls since, and whether one was refused
/// by 39 and none brought it over since.
#[derive(Clone, Default)]
struct Past {
    returned: Option<Returned>,
    returned_to: [bool; NAMES],
    forgotten: [Option<&'static str>; NAMES],
    over: Option<Over>,
    last_move: Option<(&'static str, u64)>,
    crowded: bool,
    ever: Ever,
}

/// How a move went.
const OVER: &str = "a move";
const STAYED: &str = "a move that left all as it was";
const CROWDED: &str = "a move refused 39";

/// What a text reached, however often the session was started afresh: taken pins on a sound board, and a net refused by 25 for them alone; a sound
/// board under the new rule, and a net refused by 25 for that rule alone; a sound board under the old rule after one under the new; how many moves
/// brought a session over, and whether one left it as it was, was refused by 39, or brought it over in spite of such a refusal.
#[derive(Clone, Default)]
struct Ever {
    taken: bool,
    refused_for_taken: bool,
    new_rule: bool,
    refused_for_rule: bool,
    old_again: bool,
    over: u64,
    stayed: bool,
    crowded: bool,
    relieved: bool,
}

/// What a return did.
#[derive(Clone, Copy)]
struct Returned {
    /// How many changes it dropped from the pile.
    dropped: usize,
    /// Whether the nets were others before it.
    changed: bool,
    /// How many changes full piles had lost by then.
    lost: u64,
    /// The calls since, the one that is looked at among them.
    calls: u64,
}

/// What a move did that brought the session over.
#[derive(Clone, Copy)]
struct Over {
    /// How many changes it dropped from the pile.
    dropped: usize,
    /// How many changes full piles had lost by then.
    lost: u64,
    /// The calls since, the one that is looked at among them.
    calls: u64,
}

/// What keeps a session on this board from being sound.
fn flaw(board: &Board) -> Option<&'static str> {
    let rows = &board.rows;
    if rows.is_empty() {
        return Some("no rows");
    }
    if rows.len() > 31 {
        return Some(match rows.len() {
            32 => "32 rows",
            33..=255 => "33 rows or more",
            _ => "256 rows or more",
        });
    }
    if rows.iter().any(|row| row.0 >= row.1 || row.1 > 31) {
        return Some("a row out of bounds");
    }
    if !board.convex() {
        return Some("not convex");
    }
    let wrong = board.taken.iter().find(|(&v, &count)| !board.can_take(v, count));
    wrong.map(|(&v, &count)| match board.all_pins(v) {
        _ if !board.vertex(v) => TAKEN_FLAWS[0],
        0 => TAKEN_FLAWS[1],
        _ if board.clone().under(Book::Old).can_take(v, count) => TAKEN_FLAWS[3],
        _ => TAKEN_FLAWS[2],
    })
}

const TAKEN_FLAWS: [&str; 4] =
    ["pins taken at no vertex", "pins taken where there are none", "more pins taken than there are", "two pins taken at a corner under the new rule"];

/// The refusal that an add of this net gets on a sound session: the table's lines in their order, at each the first terminal before the second.
fn add_refused(board: &Board, net: &Net) -> Option<Refused> {
    let ends = [net.first, net.second];
    let full = |v: Vertex| board.terminals(v) >= board.pins(v);
    let refused = if net.number == 0 || net.number > 64 {
        Some((21, 0))
    } else if board.nets.iter().any(|n| n.number == net.number) {
        Some((22, 0))
    } else if let Some(end) = ends.iter().position(|&v| !board.vertex(v)) {
        Some((23, end as u32))
    } else if net.first == net.second {
        Some((24, 0))
    } else {
        ends.iter().position(|&v| full(v)).map(|end| (25, end as u32))
    };
    // The reader of board words has the same check without the place.
    assert_eq!(refused.map(|r| r.0), board.add_refused(net));
    refused
}

/// Puts a net in, by its number.
fn put(board: &mut Board, net: &Net) {
    let at = board.nets.iter().position(|n| n.number > net.number).unwrap_or(board.nets.len());
    board.nets.insert(at, net.clone());
}

/// Takes the net of that number out.
fn take(board: &mut Board, number: u32) -> Option<Net> {
    let at = board.nets.iter().position(|n| n.number == number)?;
    Some(board.nets.remove(at))
}

/// How many pins of a vertex the package and the nets use together.
fn in_use(board: &Board, v: Vertex) -> usize {
    board.terminals(v) + board.taken.get(&v).copied().unwrap_or(0)
}

/// The vertices in reading order where more pins are in use than the board's rule gives before any are taken.
fn crowded(board: &Board) -> Vec<Vertex> {
    board.vertices().into_iter().filter(|&v| in_use(board, v) > board.all_pins(v)).collect()
}

/// The board again, from its rows and its book: the taken pins are entered one by one, then the nets. Or the number of the first refusal.
fn entered_afresh(board: &Board) -> Result<Board, u32> {
    let mut afresh = Board::bare(&board.rows).under(board.book);
    for (&v, &count) in &board.taken {
        if !afresh.can_take(v, count) {
            return Err(38);
        }
        afresh.taken.insert(v, count);
    }
    for net in &board.nets {
        if let Some((number, _)) = add_refused(&afresh, net) {
            return Err(number);
        }
        put(&mut afresh, net);
    }
    Ok(afresh)
}

/// What has to hold of a sound session that is to be moved, its board here under the new book: where no vertex is crowded, it can be entered afresh
/// and is the same then; otherwise a taken pin gets 38 or a net 25.
fn check_move(new: &Board, crowded: &[Vertex]) {
    let afresh = entered_afresh(new);
    let holds = if crowded.is_empty() { afresh.as_ref() == Ok(new) } else { matches!(afresh, Err(38 | 25)) };
    assert!(holds, "the machine's own move: crowded at {crowded:?}, entered afresh as {afresh:?}: {new:?}");
}

impl Machine {
    fn new() -> Machine {
        Machine {
            board: Board::bare(&[]),
            pile: VecDeque::new(),
            names: Default::default(),
            flaw: None,
            wrongly_taken: false,
            too_few_by_rule: false,
            lost: 0,
            last: "",
            told: None,
            output: String::new(),
            routed: Vec::new(),
            counts: Counts::new(),
            past: Past::default(),
        }
    }

    /// A row more; the session starts afresh.
    fn row(&mut self, left: usize, right: usize) {
        self.board.rows.push((left, right));
        self.afresh("row");
    }

    /// So many pins of a vertex are taken, in place of what was said of it before; the session starts afresh. A vertex beyond line or column 31 is
    /// passed over.
    fn taken(&mut self, v: Vertex, count: usize) {
        self.count_taken(v, count);
        if v.0 <= 31 && v.1 <= 31 {
            self.board.taken.insert(v, count);
            self.board.taken.retain(|_, count| *count > 0);
        }
        self.afresh("taken");
    }

    /// The board comes under the book of that number, and the session starts afresh; any other number is passed over.
    fn book(&mut self, number: usize) {
        self.count_book(number);
        if let Some(&book) = BOOKS.get(number) {
            self.board.book = book;
            self.afresh("book");
        }
    }

    /// No nets, an empty pile and nothing kept; rows, taken pins and the book stay.
    fn afresh(&mut self, word: &'static str) {
        if !self.pile.is_empty() {
            self.count(&format!("{word}: a session with changes dropped"));
        }
        if self.past.over.is_some() {
            self.count(&format!("{word}: the session afresh after a move"));
        }
        self.count_forgotten(word);
        self.board.nets.clear();
        self.pile.clear();
        self.names = Default::default();
        self.flaw = None;
        self.told = None;
    }

    /// 20 where the session is not sound. From a fresh session on, calls keep nets, pile and names sound (see `lifts`), so the board decides.
    fn unsound(&mut self) -> Result<(), Refused> {
        if self.flaw.is_none() {
            let found = flaw(&self.board);
            let rows = self.board.rows.len();
            self.count(&format!("session: {}", found.unwrap_or("sound")));
            if found.is_none() && (rows == 1 || rows == 31) {
                self.count(&format!("session: sound, rows: {rows}"));
            }
            self.count_sound_taken(found);
            self.count_sound_under(found);
            self.flaw = Some(found);
        }
        match self.flaw {
            Some(Some(_)) => Err((20, 0)),
            _ => Ok(()),
        }
    }

    /// Lays a change on the pile; a full pile loses its lowest.
    fn lay(&mut self, change: Change) {
        if self.pile.len() == PILE {
            self.pile.pop_front();
            self.lost += 1;
        }
        self.pile.push_back(change);
    }

    fn add(&mut self, net: &Net) -> Result<(), Refused> {
        self.unsound()?;
        if let Some(refused) = add_refused(&self.board, net) {
            return Err(refused);
        }
        put(&mut self.board, net);
        self.lay(Change::Added(net.clone()));
        Ok(())
    }

    /// The nets one by one up to the first that is refused. Answers with how many went on.
    fn adds(&mut self, nets: &[Net]) -> (usize, Result<(), Refused>) {
        // An unsound session is refused first, by an empty list too.
        if let Err(refused) = self.unsound() {
            return (0, Err(refused));
        }
        for (count, net) in nets.iter().enumerate() {
            if let Err(refused) = self.add(net) {
                return (count, Err(refused));
            }
        }
        (nets.len(), Ok(()))
    }

    fn withdraw(&mut self, number: u32) -> Result<(), Refused> {
        self.unsound()?;
        let net = take(&mut self.board, number).ok_or((26, 0))?;
        self.lay(Change::Withdrawn(net));
        Ok(())
    }

    fn take_back(&mut self) -> Result<(), Refused> {
        self.unsound()?;
        match self.pile.pop_back().ok_or((27, 0))? {
            Change::Added(net) => {
                assert_eq!(take(&mut self.board, net.number), Some(net));
                self.count("back: an added net left");
            }
            Change::Withdrawn(net) => {
                put(&mut self.board, &net);
                self.count("back: a withdrawn net returned");
            }
        }
        Ok(())
    }

    /// Stores the nets now on the board under the name, over what it held.
    fn keep(&mut self, name: usize) -> Result<(), Refused> {
        self.unsound()?;
        let kept = self.names.get_mut(name).ok_or((35, 0))?;
        *kept = Some(self.board.nets.clone());
        Ok(())
    }

    /// Makes the nets kept under the name current and empties the pile. The name goes on holding them.
    fn return_to(&mut self, name: usize) -> Result<(), Refused> {
        self.unsound()?;
        let kept = self.names.get(name).ok_or((35, 0))?;
        self.board.nets = kept.clone().ok_or((36, 0))?;
        self.pile.clear();
        Ok(())
    }

    /// Moves the session to the new rule with its nets; the pile is emptied and the names are forgotten. Where the new rule holds, all stays.
    fn move_over(&mut self) -> Result<(), RefusedAt> {
        self.unsound().map_err(|(number, place)| (number, vec![place]))?;
        if self.board.book == Book::New {
            self.count_stayed();
            return Ok(());
        }
        let new = self.board.clone().under(Book::New);
        let crowded = crowded(&new);
        check_move(&new, &crowded);
        if let Some(&(line, column)) = crowded.first() {
            self.count_crowded(&crowded);
            return Err((39, vec![line as u32, column as u32]));
        }
        self.count_over();
        self.board = new;
        self.pile.clear();
        self.names = Default::default();
        self.flaw = None;
        Ok(())
    }

    /// The sum of crossing nets over all rows and columns, and the board's edge count. Nothing changes.
    fn wire(&mut self) -> Result<Wire, Refused> {
        self.unsound()?;
        Ok(self.board.wire())
    }

    /// The bare board with these nets added one by one, where each of them is accepted.
    fn with_all(&self, nets: &[Net]) -> Option<Board> {
        let mut board = Board { nets: Vec::new(), ..self.board.clone() };
        for net in nets {
            if add_refused(&board, net).is_some() {
                return None;
            }
            put(&mut board, net);
        }
        Some(board)
    }

    /// The rest of soundness by its definition: the nets, and those of each name, could all be added to the bare board, and the pile can be lifted
    /// to the bottom. Nets on the board and kept ones are in rising number.
    fn lifts(&self) -> bool {
        let addable = |nets: &Vec<Net>| self.with_all(nets).is_some_and(|board| board.nets == *nets);
        let Some(mut board) = self.with_all(&self.board.nets) else { return false };
        self.pile.len() <= PILE
            && board == self.board
            && self.names.iter().flatten().all(addable)
            && self.pile.iter().rev().all(|change| match change {
                Change::Added(net) => take(&mut board, net.number).as_ref() == Some(net),
                Change::Withdrawn(net) => {
                    let accepted = add_refused(&board, net).is_none();
                    put(&mut board, net);
                    accepted
                }
            })
    }
}

// ---------------------------------------------------------------- the text and its answers

/// The words that tell a call.
const CALLS: [&str; 12] = ["row", "add", "adds", "withdraw", "back", "paths", "keep", "return", "taken", "book", "move", "wire"];
/// Those of them that tell the board and have no answer.
const OF_BOARDS: [&str; 3] = ["row", "taken", "book"];

/// A word in decimal; above 249 it is read as 255.
fn number(word: &str) -> usize {
    let value = word.bytes().fold(0, |value, digit| (10 * value + (digit - b'0') as usize).min(1000));
    if value > 249 {
        255
    } else {
        value
    }
}

/// A net from five numbers, 0 for each that is missing.
fn net_of(numbers: &[usize]) -> Net {
    let n = |i: usize| numbers.get(i).copied().unwrap_or(0);
    Net { number: n(0) as u32, first: (n(1), n(2)), second: (n(3), n(4)) }
}

fn net_text(net: &Net) -> String {
    format!("{} {} {} {} {}", net.number, net.first.0, net.first.1, net.second.0, net.second.1)
}

fn nets_text(nets: &[Net]) -> String {
    nets.iter().map(|net| format!("net {}\n", net_text(net))).collect()
}

fn refused_text((number, place): &RefusedAt) -> String {
    format!("refused {number} {}\n", place.iter().map(u32::to_string).collect::<Vec<_>>().join(" "))
}

impl Machine {
    /// One line of the text: its first word, whole, tells the call; other lines are passed over.
    fn line(&mut self, line: &str) {
        let mut words = line.split(' ').filter(|word| !word.is_empty());
        let word = words.next().unwrap_or("");
        let Some(&call) = CALLS.iter().find(|&&call| call == word) else {
            return self.count_passed_over(word);
        };
        let numbers: Vec<usize> = words.map(number).collect();
        if !OF_BOARDS.contains(&call) {
            self.count_call();
        }
        self.count_numbers(call, &numbers);
        let lost = self.lost;
        let n = |i: usize| numbers.get(i).copied().unwrap_or(0);
        match call {
            "row" => self.row(n(0), n(1)),
            "taken" => self.taken((n(0), n(1)), n(2)),
            "book" => self.book(n(0)),
            "adds" => self.list(&numbers),
            "paths" => self.paths(),
            "move" => self.moved(),
            "wire" => self.wired(&numbers),
            _ => self.single(call, &numbers),
        }
        if self.lost > lost {
            self.count_since(&format!("{call}: a pile of 64 lost changes"));
        }
        self.count_after_wire(call);
        self.last = call;
    }

    /// A call that is accepted or refused, with no more to its answer.
    fn single(&mut self, call: &str, numbers: &[usize]) {
        let first = numbers.first().copied().unwrap_or(0);
        let result = match call {
            "add" => self.add(&net_of(numbers)),
            "withdraw" => self.withdraw(first as u32),
            "keep" => self.kept(first),
            "return" => self.returned(first),
            _ => self.take_back(),
        };
        self.count_result(call, result);
        if call == "add" {
            self.count_refused_for(call, &net_of(numbers), result);
            self.count_added(&net_of(numbers), result);
        }
        self.output += &match result {
            Ok(()) => "accepted\n".to_string(),
            Err((number, place)) => format!("refused {number} {place}\n"),
        };
    }

    /// The call keep, with what it reached.
    fn kept(&mut self, name: usize) -> Result<(), Refused> {
        let held = self.names.get(name).cloned().flatten();
        let result = self.keep(name);
        match result {
            Ok(()) => self.count_keep(name, held.as_deref()),
            Err((number, _)) => self.count_name_refused("keep", number, name),
        }
        result
    }

    /// The call return, with what it reached.
    fn returned(&mut self, name: usize) -> Result<(), Refused> {
        let (nets, dropped) = (self.board.nets.clone(), self.pile.len());
        let result = self.return_to(name);
        match result {
            Ok(()) => self.count_return(name, &nets, dropped),
            Err((number, _)) => self.count_name_refused("return", number, name),
        }
        result
    }

    /// The call adds and its answer.
    fn list(&mut self, numbers: &[usize]) {
        let nets: Vec<Net> = numbers.chunks(5).map(net_of).collect();
        let (count, result) = self.adds(&nets);
        self.count_result("adds", result);
        self.count_list(&nets, count, result);
        if count < nets.len() {
            self.count_refused_for("adds", &nets[count], result);
        }
        self.output += &match result {
            Ok(()) => format!("accepted {count}\n"),
            Err((number, place)) => format!("refused {number} {place} after {count}\n"),
        };
    }

    /// The call paths and its answer: a routing, or a refusal with two numbers for the place of 32 and 33.
    fn paths(&mut self) {
        let refused = match self.unsound() {
            Err((number, place)) => Some((number, vec![place])),
            Ok(()) => route_refused(&self.board, ROOM).map(|r| match r.number {
                32 | 33 => (r.number, r.place.to_vec()),
                _ => (r.number, vec![r.place[0]]),
            }),
        };
        self.count_paths(refused.as_ref().map(|r| r.0));
        self.output += &match refused {
            Some(refused) => refused_text(&refused),
            None => {
                self.routed.push(self.board.clone());
                format!("{ROUTING}\n")
            }
        };
    }

    /// The call move and its answer: a refusal has two numbers for the place of 39.
    fn moved(&mut self) {
        let result = self.move_over();
        if let Err((20, _)) = result {
            self.count_move_unsound();
        }
        self.output += &match result {
            Ok(()) => "accepted\n".to_string(),
            Err(refused) => refused_text(&refused),
        };
    }

    /// The call wire and its answer: the two numbers. What stands behind it on the line is passed over.
    fn wired(&mut self, numbers: &[usize]) {
        let result = self.wire();
        self.count_wire(result, numbers.len());
        self.output += &match result {
            Ok(Wire { crossing, edges }) => format!("{crossing} {edges}\n"),
            Err((number, place)) => format!("refused {number} {place}\n"),
        };
    }

    /// After the text: the nets, the pile from its top, each name that holds something, with its nets, and the book where it is the new one.
    fn finish(&mut self) {
        assert!(self.lifts(), "the machine's own session became unsound");
        self.count_held();
        self.count_ever();
        self.output += &nets_text(&self.board.nets);
        for change in self.pile.iter().rev() {
            self.output += &match change {
                Change::Added(net) => format!("added {}\n", net_text(net)),
                Change::Withdrawn(net) => format!("withdrawn {}\n", net_text(net)),
            };
        }
        for (name, nets) in self.names.iter().enumerate() {
            if let Some(nets) = nets {
                self.output += &format!("kept {name} {}\n{}", nets.len(), nets_text(nets));
            }
        }
        if self.board.book == Book::New {
            self.output += "book 1\n";
        }
    }
}

/// The machine after a text, with its answers.
fn answered(text: &str) -> Machine {
    let mut machine = Machine::new();
    text.split('\n').for_each(|line| machine.line(line));
    machine.finish();
    machine
}

/// A line that holds a routing word: eight digits and a line feed.
fn word_of(line: &str) -> Option<u32> {
    let digits = line.strip_suffix('\n').filter(|digits| digits.len() == 8)?;
    let all = digits.bytes().all(|digit| digit.is_ascii_digit() || (b'A'..=b'F').contains(&digit));
    all.then(|| u32::from_str_radix(digits, 16).ok())?
}

/// Whether a list is a routing of the board's nets, with no more than two turns at a vertex and within the bounds of the wire to order.
fn is_routing(board: &Board, list: &[u8]) -> Result<(), String> {
    let report = judge(board, list).map_err(|refusal| format!("{refusal:?}"))?;
    let left = board.within_bounds(report.edges, list.len() / 4);
    let holds = report.most_turns <= 2 && left.iter().all(|&left| left >= 0);
    holds.then_some(()).ok_or_else(|| format!("{report:?}, within the bounds by {left:?}"))
}

/// The program's answers with the words of each routing judged, for the machine's boards in order, and one line put for them.
fn with_routings_judged(output: &str, routed: &[Board]) -> String {
    let (mut text, mut words, mut boards) = (String::new(), Vec::new(), routed.iter());
    for line in output.split_inclusive('\n') {
        match word_of(line) {
            Some(word) => words.push(word),
            None => text += line,
        }
        let ends = words.last().is_some_and(|word| word >> 28 == 14);
        if ends || word_of(line).is_none() && !words.is_empty() {
            let list = bytes_of(&std::mem::take(&mut words));
            text += &match boards.next().map(|board| is_routing(board, &list)) {
                Some(Ok(())) => format!("{ROUTING}\n"),
                judged => format!("no routing: {judged:?}\n"),
            };
        }
    }
    // Words without an end at the end.
    words.iter().for_each(|word| text += &format!("{word:08X}\n"));
    text
}

// ---------------------------------------------------------------- what was reached

impl Machine {
    fn count(&mut self, what: &str) {
        match self.counts.get_mut(what) {
            Some(count) => *count += 1,
            None => drop(self.counts.insert(what.to_string(), 1)),
        }
    }

    /// Counts what a call came to, and once more where a return came before it, or a move.
    fn count_since(&mut self, what: &str) {
        self.count(what);
        if self.past.returned.is_some_and(|returned| returned.calls > 0) {
            self.count(&format!("{what}, since a return"));
        }
        if self.past.over.is_some_and(|over| over.calls > 0) {
            self.count(&format!("{what}, since a move"));
        }
        if let Some((way, 1)) = self.past.last_move {
            self.count(&format!("{what} right after {way}"));
        }
    }

    /// One more call, and one more since the last return and since moves.
    fn count_call(&mut self) {
        self.count("call");
        let past = &mut self.past;
        past.returned.iter_mut().for_each(|returned| returned.calls += 1);
        past.over.iter_mut().for_each(|over| over.calls += 1);
        past.last_move.iter_mut().for_each(|(_, calls)| *calls += 1);
    }

    fn count_result(&mut self, call: &str, result: Result<(), Refused>) {
        if result == Err((27, 0)) {
            self.count_pile_empty();
        }
        match result {
            Ok(()) => self.count_since(&format!("{call} accepted")),
            Err((number, place)) => self.count_since(&format!("{call} refused {number} at {place}")),
        }
    }

    /// A take back refused by 27: right after a return or a move, or with nets left though more changes were made than the pile holds.
    fn count_pile_empty(&mut self) {
        let (returned, over) = (self.past.returned, self.past.over);
        let right_after = returned.filter(|returned| returned.calls == 1).map(|returned| returned.dropped);
        let came_over = over.filter(|over| over.calls == 1).map(|over| over.dropped);
        // Of a return and a move the return is the later one.
        let lost = self.lost > returned.map(|returned| returned.lost).or(over.map(|over| over.lost)).unwrap_or(0);
        let reached = [
            ("back refused 27 right after a return", right_after.is_some()),
            ("back refused 27 right after a return that dropped changes", right_after.is_some_and(|dropped| dropped > 0)),
            ("back refused 27 right after a return that dropped 64 changes", right_after == Some(PILE)),
            ("back refused 27 right after a move that dropped changes", came_over.is_some_and(|dropped| dropped > 0)),
            ("back refused 27 right after a move that dropped 64 changes", came_over == Some(PILE)),
            ("back: pile empty, nets left, since changes were lost", lost && !self.board.nets.is_empty()),
        ];
        self.count_all(&reached);
    }

    /// What a call of paths came to: the number of its refusal, or a routing.
    fn count_paths(&mut self, refused: Option<u32>) {
        self.count_came_back(refused);
        self.count_came_over(refused);
        if let Some(number) = refused {
            self.count_under(&format!("paths refused {number}"));
            return self.count_since(&format!("paths refused {number}"));
        }
        self.count_since("paths: a routing");
        self.count_under("paths: a routing");
        if !self.board.odd_vertices().is_empty() {
            self.count("paths: a routing, odd vertices");
        }
        if self.board.nets.len() >= 16 {
            self.count("paths: a routing, 16 nets or more");
        }
        if self.lost > 0 || self.pile.iter().any(|change| matches!(change, Change::Withdrawn(_))) {
            self.count("paths: a routing, after withdrawals or lost changes");
        }
    }

    fn count_passed_over(&mut self, word: &str) {
        let like_a_call = CALLS.iter().any(|call| word.starts_with(call));
        if word.starts_with("keep") || word.starts_with("return") {
            self.count("line passed over that begins as keep or return does");
        }
        for call in ["taken", "book", "move", "wire"].iter().filter(|call| word.starts_with(**call)) {
            self.count(&format!("line passed over that begins as {call} does"));
        }
        self.count(match word {
            "" => "line without a word",
            _ if like_a_call => "line passed over that begins as a call does",
            _ => "line passed over",
        });
    }

    fn count_numbers(&mut self, call: &str, numbers: &[usize]) {
        if numbers.contains(&255) {
            self.count(&format!("{call}: a number above 249"));
        }
        let missing = match call {
            "row" => numbers.len() < 2,
            "taken" => numbers.len() < 3,
            "add" => numbers.len() < 5,
            "adds" => numbers.len() % 5 > 0,
            "withdraw" | "keep" | "return" | "book" => numbers.is_empty(),
            _ => false,
        };
        if missing {
            self.count(&format!("{call}: a number missing"));
        }
    }

    /// How a list ended; `count` nets of it are on the board now.
    fn count_list(&mut self, nets: &[Net], count: usize, result: Result<(), Refused>) {
        let Err((number, place)) = result else {
            self.count(if nets.is_empty() { "list: empty" } else { "list: whole" });
            if count >= 40 {
                self.count("list: whole, 40 nets or more");
            }
            return;
        };
        if number == 20 {
            return self.count(if nets.is_empty() { "list: empty, session unsound" } else { "list: session unsound" });
        }
        self.count(match count {
            0 => "list: stopped at the first",
            _ if count + 1 == nets.len() => "list: stopped at the last",
            _ => "list: stopped in the middle",
        });
        let (on, stop) = (&nets[..count], &nets[count]);
        let end = if place == 0 { stop.first } else { stop.second };
        let here = on.iter().map(|n| (n.first == end) as usize + (n.second == end) as usize).sum::<usize>();
        if number == 22 && on.iter().any(|n| n.number == stop.number) {
            self.count("list: a number twice");
        }
        if number == 25 && here > 0 && self.board.terminals(end) - here < self.board.pins(end) {
            self.count("list: a pin used up within it");
        }
        if count == 64 {
            self.count("list: stopped at the 65th");
        }
    }
}

// ---------------------------------------------------------------- what was reached of taken pins

impl Machine {
    /// A line of taken pins, before it is followed.
    fn count_taken(&mut self, v: Vertex, count: usize) {
        let held = self.board.taken.get(&v).copied();
        let reached = [
            ("taken: beyond line 31", v.0 > 31),
            ("taken: beyond column 31", v.1 > 31),
            ("taken: beyond line or column 31, changes on the pile", (v.0 > 31 || v.1 > 31) && !self.pile.is_empty()),
            ("taken: at line or column 31", v.0.max(v.1) == 31),
            ("taken: before any row", self.board.rows.is_empty()),
            ("taken: at no vertex so far", count > 0 && !self.board.vertex(v)),
            ("taken: a count of 0", count == 0),
            ("taken: a count of 0 in place of another", count == 0 && held.is_some()),
            ("taken: a count in place of another", count > 0 && held.is_some_and(|held| held != count)),
            ("taken: the same count again", held == Some(count)),
            ("taken: at more than 128 vertices so far", self.board.taken.len() > 128),
            ("taken: in the middle of a session", !self.board.nets.is_empty()),
        ];
        self.count_all(&reached);
    }

    /// What taken pins make of the board: `found` is its flaw.
    fn count_sound_taken(&mut self, found: Option<&'static str>) {
        let sound = found.is_none() && !self.board.taken.is_empty();
        let reached = [
            ("session: sound, pins taken", sound),
            ("session: sound, pins taken at 30 vertices or more", sound && self.board.taken.len() >= 30),
            ("session: sound since taken pins were told again", found.is_none() && self.wrongly_taken),
        ];
        self.count_all(&reached);
        self.past.ever.taken |= sound;
        self.wrongly_taken = found.is_some_and(|found| TAKEN_FLAWS.contains(&found));
    }

    /// An add that was refused, by itself or in a list, and how it would be with no pins taken, or under the old rule.
    fn count_refused_for(&mut self, call: &str, net: &Net, result: Result<(), Refused>) {
        let Err((25, place)) = result else { return };
        let end = if place == 0 { net.first } else { net.second };
        if !self.board.taken.is_empty() {
            let without = Board { taken: BTreeMap::new(), ..self.board.clone() };
            if self.count_otherwise(call, place, "with no pins taken", add_refused(&without, net)) {
                self.past.ever.refused_for_taken = true;
                if self.board.terminals(end) > 0 {
                    self.count(&format!("{call} refused 25 at {place}, one pin taken and one used"));
                }
            }
        }
        if self.board.book == Book::New {
            let old = self.board.clone().under(Book::Old);
            if self.count_otherwise(call, place, "under the old rule", add_refused(&old, net)) {
                self.past.ever.refused_for_rule = true;
                if self.board.taken.contains_key(&end) {
                    self.count(&format!("{call} refused 25 at {place}, one pin taken, accepted under the old rule"));
                }
            }
        }
    }

    /// An add that was refused by 25, and what it would have got otherwise. Answers whether it would have been accepted.
    fn count_otherwise(&mut self, call: &str, place: u32, how: &str, otherwise: Option<Refused>) -> bool {
        match otherwise {
            None => self.count_since(&format!("{call} refused 25 at {place}, accepted {how}")),
            Some(other) if other != (25, place) => self.count(&format!("{call} refused 25 at {place}, at 1 {how}")),
            _ => {}
        }
        otherwise.is_none()
    }
}

// ---------------------------------------------------------------- what was reached of books

impl Machine {
    /// Counts once more where the board is under the new rule.
    fn count_under(&mut self, what: &str) {
        if self.board.book == Book::New {
            self.count(&format!("{what}, under the new rule"));
        }
    }

    /// A line of a book, before it is followed.
    fn count_book(&mut self, number: usize) {
        let (told, nets, pile) = (BOOKS.get(number), !self.board.nets.is_empty(), !self.pile.is_empty());
        let (names, same) = (self.names.iter().any(Option::is_some), told == Some(&self.board.book));
        let reached = [
            ("book: the old rule", told == Some(&Book::Old)),
            ("book: the new rule", told == Some(&Book::New)),
            ("book: the old rule in place of the new", told == Some(&Book::Old) && !same),
            ("book: the new rule in place of the old", told == Some(&Book::New) && !same),
            ("book: the same again", same),
            ("book: the same again, nets dropped", same && nets),
            ("book: another, nets dropped", told.is_some() && !same && nets),
            ("book: before any row", told.is_some() && self.board.rows.is_empty()),
            ("book: passed over", told.is_none()),
            ("book: passed over, the number 2", number == 2),
            ("book: passed over, under the new rule", told.is_none() && self.board.book == Book::New),
            ("book: passed over, nets and pile stay", told.is_none() && nets && pile),
            ("book: passed over, names stay", told.is_none() && names),
            ("book: the old rule after a move", told == Some(&Book::Old) && self.past.over.is_some()),
            ("book: the new rule after a move", told == Some(&Book::New) && self.past.over.is_some()),
            ("book: passed over after a move", told.is_none() && self.past.over.is_some()),
        ];
        self.count_all(&reached);
    }

    /// What the book makes of the board: `found` is its flaw.
    fn count_sound_under(&mut self, found: Option<&'static str>) {
        let (new, sound) = (self.board.book == Book::New, found.is_none());
        let two_taken = self.board.taken.values().any(|&count| count == 2);
        let reached = [
            ("session: sound, under the new rule", sound && new),
            ("session: sound, under the new rule with pins taken", sound && new && !self.board.taken.is_empty()),
            ("session: sound, two pins taken at a corner under the old rule", sound && two_taken),
            ("session: sound under the old rule, for the new one had too few pins", sound && !new && self.too_few_by_rule),
            ("session: sound under the new rule, since pins were told again", sound && new && self.too_few_by_rule),
        ];
        self.count_all(&reached);
        self.too_few_by_rule = found == Some(TAKEN_FLAWS[3]);
        let ever = &mut self.past.ever;
        ever.old_again |= sound && !new && ever.new_rule;
        ever.new_rule |= sound && new;
    }

    /// What the text reached, and the book at its end.
    fn count_ever(&mut self) {
        let ever = self.past.ever.clone();
        let new = self.board.book == Book::New;
        let reached = [
            ("text: pins taken, sound", ever.taken),
            ("text: a net refused 25, accepted with no pins taken", ever.refused_for_taken),
            ("text: under the new rule, sound", ever.new_rule),
            ("text: a net refused 25, accepted under the old rule", ever.refused_for_rule),
            ("text: under the old rule after the new, both sound", ever.old_again),
            ("text: a move", ever.over > 0),
            ("text: two moves or more", ever.over > 1),
            ("text: a move, and one that left all as it was", ever.over > 0 && ever.stayed),
            ("text: a move refused 39", ever.crowded),
            ("text: a move refused 39, then a move of the same session", ever.relieved),
            ("end: the new rule", new),
            ("end: the new rule, no nets", new && self.board.nets.is_empty()),
            ("end: the new rule, nets and changes on the pile", new && !self.board.nets.is_empty() && !self.pile.is_empty()),
            ("end: the new rule, names held", new && self.names.iter().any(Option::is_some)),
            ("end: the new rule, session unsound", new && flaw(&self.board).is_some()),
        ];
        self.count_all(&reached);
        self.count_moved();
    }
}

// ---------------------------------------------------------------- what was reached of moves

impl Machine {
    /// Nets on the board, changes on the pile and names that hold something: all three.
    fn all_three(&self) -> bool {
        !self.board.nets.is_empty() && !self.pile.is_empty() && self.names.iter().any(Option::is_some)
    }

    /// A move refused by 20.
    fn count_move_unsound(&mut self) {
        self.count("move refused 20");
        self.count_under("move refused 20");
        let reached = [
            ("move refused 20, for taken pins", self.wrongly_taken),
            ("move refused 20, for taken pins under the new rule alone", self.too_few_by_rule),
        ];
        self.count_all(&reached);
    }

    /// A move of a session that is under the new rule.
    fn count_stayed(&mut self) {
        self.count_since("move: all stays");
        let (all, over) = (self.all_three(), self.past.over.is_some());
        let reached = [
            ("move: all stays, nets, changes and names", all),
            ("move: all stays, nets, changes and names, since a move", all && over),
            ("move: all stays, 64 changes", self.pile.len() == PILE),
            ("move: all stays, under the new rule by a line book", !over),
        ];
        self.count_all(&reached);
        self.past.last_move = Some((STAYED, 0));
        self.past.ever.stayed = true;
    }

    /// A move that brings the session over, before it does.
    fn count_over(&mut self) {
        self.count_since("move: over");
        let (board, dropped) = (self.board.clone(), self.pile.len());
        let with = |degree: usize, taken: usize| {
            let alone = |&v: &Vertex| board.taken.get(&v).copied().unwrap_or(0) == taken && in_use(&board, v) == 1;
            board.vertices().iter().filter(|&&v| board.degree(v) == degree).any(alone)
        };
        let right_after = self.past.returned.is_some_and(|returned| returned.calls == 1);
        let reached = [
            ("move: over, no nets", board.nets.is_empty()),
            ("move: over with nets", !board.nets.is_empty()),
            ("move: over with 40 nets or more", board.nets.len() >= 40),
            ("move: over, changes dropped", dropped > 0),
            ("move: over, 64 changes dropped", dropped == PILE),
            ("move: over with nets, changes dropped and what names held", self.all_three()),
            ("move: over right after a return to nets", right_after && !board.nets.is_empty()),
            ("move: over, refused 39 before", self.past.crowded),
            ("move: over, a pin taken at a corner, no terminal", with(2, 1)),
            ("move: over, a terminal at a corner, no pin taken", with(2, 0)),
            ("move: over, the pin of a straight side taken", with(3, 1)),
            ("move: over, a terminal at a straight side", with(3, 0)),
        ];
        self.count_all(&reached);
        self.past.ever.over += 1;
        self.past.ever.relieved |= self.past.crowded;
        self.count_forgotten("move");
        self.past.over = Some(Over { dropped, lost: self.lost, calls: 0 });
        self.past.last_move = Some((OVER, 0));
    }

    /// A move refused by 39 for these vertices.
    fn count_crowded(&mut self, crowded: &[Vertex]) {
        self.count_since("move refused 39");
        self.count_why(crowded[0]);
        let (first, board) = (crowded[0], &self.board);
        let by_columns = crowded.iter().min_by_key(|v| (v.1, v.0));
        let full = |&v: &Vertex| v < first && in_use(board, v) == 1;
        let (corners, sides): (Vec<Vertex>, Vec<Vertex>) = board.vertices().into_iter().filter(full).partition(|&v| board.degree(v) == 2);
        let reached = [
            ("move refused 39: one vertex alone", crowded.len() == 1),
            ("move refused 39: another on the same line", crowded.iter().any(|&v| v != first && v.0 == first.0)),
            ("move refused 39: another on a later line", crowded.iter().any(|v| v.0 > first.0)),
            ("move refused 39: another is the first column by column", by_columns != Some(&first)),
            ("move refused 39: after corners with one pin in use", !corners.is_empty()),
            ("move refused 39: after straight sides with their pin in use", !sides.is_empty()),
            ("move refused 39: line and column differ", first.0 != first.1),
            ("move refused 39: on the last line", first.0 == board.rows.len()),
            ("move refused 39: at line 31", first.0 == 31),
            ("move refused 39: at column 31", first.1 == 31),
            ("move refused 39: nets, changes and names", self.all_three()),
            ("move refused 39: 64 nets", board.nets.len() == 64),
        ];
        self.count_all(&reached);
        self.past.last_move = Some((CROWDED, 0));
        self.past.crowded = true;
        self.past.ever.crowded = true;
    }

    /// Which two pins are in use at a corner that is in the way.
    fn count_why(&mut self, v: Vertex) {
        let count = |ends: &dyn Fn(&Net) -> Vertex| self.board.nets.iter().filter(|net| ends(net) == v).count();
        self.count(match (count(&|net| net.first), count(&|net| net.second), self.board.taken.get(&v)) {
            (2, 0, None) => "move refused 39: two first terminals",
            (0, 2, None) => "move refused 39: two second terminals",
            (1, 1, None) => "move refused 39: a first and a second terminal",
            (1, 0, Some(1)) => "move refused 39: a first terminal and a pin taken",
            (0, 1, Some(1)) => "move refused 39: a second terminal and a pin taken",
            (0, 0, Some(2)) => "move refused 39: two pins taken",
            other => panic!("the machine's own session has {other:?} at {v:?}"),
        });
    }

    /// An add accepted by the old rule alone, though a move was refused by 39 before it.
    fn count_added(&mut self, net: &Net, result: Result<(), Refused>) {
        if result.is_err() || !self.past.crowded {
            return;
        }
        let crowded = crowded(&self.board.clone().under(Book::New));
        if crowded.contains(&net.first) || crowded.contains(&net.second) {
            self.count("add accepted by the old rule alone, since a move refused 39");
        }
    }

    /// A routing given or refused, where the nets are those that came over: nothing was lost since, and nothing is on the pile.
    fn count_came_over(&mut self, refused: Option<u32>) {
        let since = self.past.over.is_some_and(|over| over.lost == self.lost) && self.past.returned.is_none();
        if since && self.pile.is_empty() && !self.board.nets.is_empty() {
            self.count(&match refused {
                Some(number) => format!("paths refused {number} for nets that came over"),
                None => "paths: a routing of nets that came over".to_string(),
            });
        }
    }

    /// What moves have left at the end.
    fn count_moved(&mut self) {
        let (over, crowded) = (self.past.over.is_some(), self.past.crowded);
        let reached = [
            ("end: the new rule, since a move", over),
            ("end: the new rule, since a move, nets and an empty pile", over && !self.board.nets.is_empty() && self.pile.is_empty()),
            ("end: the new rule, since a move, nets, changes and names", over && self.all_three()),
            ("end: the old rule, since a move refused 39", crowded),
            ("end: the old rule, since a move refused 39, nets, changes and names", crowded && self.all_three()),
        ];
        self.count_all(&reached);
    }
}

// ---------------------------------------------------------------- what was reached of wire

impl Machine {
    /// A call of wire; `behind` is how many words stand behind it on the line.
    fn count_wire(&mut self, result: Result<Wire, Refused>, behind: usize) {
        if behind > 0 {
            self.count("wire: words behind it");
        }
        let Ok(Wire { crossing, edges }) = result else { return self.count_wire_unsound() };
        self.count_since("wire told");
        self.count_under("wire told");
        self.count(&format!("wire told, {} before it", self.last));
        let (nets, last) = (self.board.nets.len(), self.told.replace(crossing));
        let reached = [
            ("wire: no nets", nets == 0),
            ("wire: 64 nets", nets == 64),
            ("wire: rows that differ", self.board.rows.iter().any(|row| row != &self.board.rows[0])),
            ("wire: pins taken", !self.board.taken.is_empty()),
            ("wire: 1,984 edges", edges == 1_984),
            ("wire: a sum of 1,000 or more", crossing >= 1_000),
            ("wire: a sum above the edges", crossing > edges),
            ("wire: a larger sum than the last", last.is_some_and(|last| last < crossing)),
            ("wire: a smaller sum than the last", last.is_some_and(|last| last > crossing)),
            ("wire: the same sum as the last", last == Some(crossing)),
            ("wire: a smaller sum right after back", self.last == "back" && last.is_some_and(|last| last > crossing)),
            ("wire: a larger sum right after back", self.last == "back" && last.is_some_and(|last| last < crossing)),
            ("wire: another sum right after return", self.last == "return" && last.is_some_and(|last| last != crossing)),
            ("wire: nets, changes and names", self.all_three()),
            ("wire: 64 changes on the pile", self.pile.len() == PILE),
        ];
        self.count_all(&reached);
    }

    /// A call of wire refused by 20.
    fn count_wire_unsound(&mut self) {
        self.count("wire refused 20");
        self.count_under("wire refused 20");
        let flaw = self.flaw.flatten().unwrap_or_default();
        self.count(&format!("wire refused 20, {flaw}"));
    }

    /// A call right after one of wire.
    fn count_after_wire(&mut self, call: &str) {
        if self.last == "wire" {
            self.count(&format!("{call} right after wire"));
        }
    }
}

// ---------------------------------------------------------------- what was reached of names

impl Machine {
    /// A keep that was accepted; `held` are the nets that the name held before.
    fn count_keep(&mut self, name: usize, held: Option<&[Net]>) {
        self.past.returned_to[name] = false;
        let (nets, pile) = (self.board.nets.len(), self.pile.len());
        let reached = [
            ("keep: the name 7", name == 7),
            ("keep: no nets", nets == 0),
            ("keep: 64 nets", nets == 64),
            ("keep: over what the name held", held.is_some()),
            ("keep: over other nets", held.is_some_and(|held| held != &self.board.nets[..])),
            ("keep: over more nets", held.is_some_and(|held| held.len() > nets)),
            ("keep: no nets over nets", held.is_some_and(|held| nets == 0 && !held.is_empty())),
            ("keep: changes on the pile", pile > 0),
            ("keep: 64 changes on the pile", pile == PILE),
        ];
        self.count_all(&reached);
    }

    /// A return that was accepted; `before` are the nets that it found, `dropped` is how many changes it found on the pile.
    fn count_return(&mut self, name: usize, before: &[Net], dropped: usize) {
        let now = &self.board.nets;
        let changed = before != &now[..];
        let reached = [
            ("return: the name 7", name == 7),
            ("return: no nets", now.is_empty()),
            ("return: no nets, nets left", now.is_empty() && changed),
            ("return: 64 nets", now.len() == 64),
            ("return: nets changed", changed),
            ("return: nets the same, changes dropped", !changed && dropped > 0),
            ("return: fewer nets than before", now.len() < before.len()),
            ("return: more nets than before", now.len() > before.len()),
            ("return: a number with other terminals", before.iter().any(|net| now.iter().any(|n| n.number == net.number && n != net))),
            ("return: changes dropped", dropped > 0),
            ("return: 64 changes dropped", dropped == PILE),
            ("return: to a name returned to before", self.past.returned_to[name]),
            ("return: right after a return", self.past.returned.is_some_and(|returned| returned.calls == 1)),
        ];
        self.count_all(&reached);
        self.past.returned_to[name] = true;
        self.past.returned = Some(Returned { dropped, changed, lost: self.lost, calls: 0 });
    }

    fn count_all(&mut self, reached: &[(&str, bool)]) {
        reached.iter().filter(|(_, holds)| *holds).for_each(|(what, _)| self.count(what));
    }

    /// A keep or a return that was refused by that number.
    fn count_name_refused(&mut self, call: &str, number: u32, name: usize) {
        if number == 20 && name >= NAMES {
            self.count(&format!("{call} refused 20 at 0, no name"));
        }
        if number == 35 && name == NAMES {
            self.count(&format!("{call} refused 35 at 0, the number 8"));
        }
        if number != 20 && !self.pile.is_empty() {
            self.count(&format!("{call} refused {number} at 0, changes on the pile"));
        }
        if let Some(word) = self.past.forgotten.get(name).copied().flatten().filter(|_| number == 36) {
            self.count(&format!("return refused 36 at 0, kept before {word}"));
        }
    }

    /// A routing given or refused, where there was a return before it.
    fn count_came_back(&mut self, refused: Option<u32>) {
        let Some(returned) = self.past.returned else { return };
        let (routing, changes) = (refused.is_none(), !self.pile.is_empty());
        // With nothing lost, an empty pile means that the nets are those that came back.
        let came_back = !changes && returned.lost == self.lost && !self.board.nets.is_empty();
        let reached = [
            ("paths: a routing of nets that came back", routing && came_back),
            ("paths: a routing of nets that came back for others", routing && came_back && returned.changed),
            ("paths: a routing, changes since a return", routing && changes),
            ("paths: refused for nets that came back for others", !routing && came_back && returned.changed),
        ];
        self.count_all(&reached);
    }

    /// A row, taken pins, a book or a move make the session forget its names.
    fn count_forgotten(&mut self, word: &'static str) {
        if self.names.iter().any(Option::is_some) {
            self.count(&format!("{word}: what names held dropped"));
        }
        let forgotten = std::array::from_fn(|name| self.names[name].as_ref().map(|_| word).or(self.past.forgotten[name]));
        self.past = Past { forgotten, ever: self.past.ever.clone(), ..Past::default() };
    }

    /// What the names hold at the end.
    fn count_held(&mut self) {
        let held = self.names.iter().flatten().count();
        let reached = [
            ("end: nets kept", self.names.iter().flatten().any(|nets| !nets.is_empty())),
            ("end: no nets kept under a name", self.names.iter().flatten().any(Vec::is_empty)),
            ("end: all eight names held", held == NAMES),
            ("end: names held, since a return", held > 0 && self.past.returned.is_some()),
            ("end: names held, changes on the pile", held > 0 && !self.pile.is_empty()),
        ];
        self.count_all(&reached);
    }
}

// ---------------------------------------------------------------- what has to be reached

/// What has to be reached in a whole run, and how often at least. Each bound is two thirds or less of what each of the seeds 1985, 1 to 5 reaches.
const FLOORS: [(&str, u64); 398] = [
    ("call", 150_000),
    ("add accepted", 20_000),
    ("add refused 20 at 0", 2_000),
    ("add refused 21 at 0", 1_500),
    ("add refused 22 at 0", 2_000),
    ("add refused 23 at 0", 2_000),
    ("add refused 23 at 1", 1_000),
    ("add refused 24 at 0", 2_000),
    ("add refused 25 at 0", 6_000),
    ("add refused 25 at 1", 700),
    ("adds accepted", 6_500),
    ("adds refused 20 at 0", 1_500),
    ("adds refused 21 at 0", 1_500),
    ("adds refused 22 at 0", 3_500),
    ("adds refused 23 at 0", 2_000),
    ("adds refused 23 at 1", 1_000),
    ("adds refused 24 at 0", 2_000),
    ("adds refused 25 at 0", 2_500),
    ("adds refused 25 at 1", 1_000),
    ("withdraw accepted", 35_000),
    ("withdraw refused 20 at 0", 2_000),
    ("withdraw refused 26 at 0", 10_000),
    ("back accepted", 25_000),
    ("back refused 20 at 0", 2_000),
    ("back refused 27 at 0", 5_500),
    ("add: a number above 249", 400),
    ("add: a number missing", 900),
    ("add: a pile of 64 lost changes", 4_000),
    ("adds: a number above 249", 500),
    ("adds: a number missing", 350),
    ("adds: a pile of 64 lost changes", 1_200),
    ("withdraw: a number above 249", 1_000),
    ("withdraw: a number missing", 650),
    ("withdraw: a pile of 64 lost changes", 10_000),
    ("back: a withdrawn net returned", 10_000),
    ("back: an added net left", 15_000),
    ("back: pile empty, nets left, since changes were lost", 200),
    ("list: a number twice", 1_000),
    ("list: a pin used up within it", 1_000),
    ("list: empty", 1_500),
    ("list: empty, session unsound", 150),
    ("list: session unsound", 1_500),
    ("list: stopped at the 65th", 25),
    ("list: stopped at the first", 9_500),
    ("list: stopped at the last", 1_500),
    ("list: stopped in the middle", 4_000),
    ("list: whole", 5_000),
    ("list: whole, 40 nets or more", 65),
    ("session: 256 rows or more", 8),
    ("session: 32 rows", 40),
    ("session: 33 rows or more", 12),
    ("session: a row out of bounds", 60),
    ("session: no rows", 100),
    ("session: not convex", 100),
    ("session: sound", 1_500),
    ("session: sound, rows: 1", 200),
    ("session: sound, rows: 31", 200),
    ("row: a number above 249", 15),
    ("row: a number missing", 10),
    ("row: a session with changes dropped", 100),
    ("paths refused 20", 750),
    ("paths refused 32", 2_600),
    ("paths refused 33", 4_200),
    ("paths refused 34", 38),
    ("paths: a routing", 2_200),
    ("paths: a routing, 16 nets or more", 70),
    ("paths: a routing, after withdrawals or lost changes", 1_400),
    ("paths: a routing, odd vertices", 1_900),
    ("line passed over", 3_500),
    ("line passed over that begins as a call does", 3_000),
    ("line passed over that begins as keep or return does", 1_100),
    ("keep accepted", 4_000),
    ("keep accepted, since a return", 2_500),
    ("keep refused 20 at 0", 200),
    ("keep refused 20 at 0, no name", 40),
    ("keep refused 35 at 0", 300),
    ("keep refused 35 at 0, changes on the pile", 200),
    ("keep refused 35 at 0, the number 8", 65),
    ("keep: 64 changes on the pile", 100),
    ("keep: 64 nets", 100),
    ("keep: a number above 249", 50),
    ("keep: a number missing", 150),
    ("keep: changes on the pile", 3_200),
    ("keep: no nets", 800),
    ("keep: no nets over nets", 85),
    ("keep: over more nets", 300),
    ("keep: over other nets", 1_100),
    ("keep: over what the name held", 1_300),
    ("keep: the name 7", 450),
    ("return accepted", 2_700),
    ("return refused 20 at 0", 150),
    ("return refused 20 at 0, no name", 45),
    ("return refused 35 at 0", 350),
    ("return refused 35 at 0, changes on the pile", 250),
    ("return refused 35 at 0, the number 8", 85),
    ("return refused 36 at 0", 1_100),
    ("return refused 36 at 0, changes on the pile", 700),
    ("return refused 36 at 0, kept before row", 38),
    ("return: 64 changes dropped", 40),
    ("return: 64 nets", 40),
    ("return: a number above 249", 55),
    ("return: a number missing", 150),
    ("return: a number with other terminals", 420),
    ("return: changes dropped", 1_800),
    ("return: fewer nets than before", 1_200),
    ("return: more nets than before", 550),
    ("return: nets changed", 2_000),
    ("return: nets the same, changes dropped", 100),
    ("return: no nets", 750),
    ("return: no nets, nets left", 450),
    ("return: right after a return", 200),
    ("return: the name 7", 300),
    ("return: to a name returned to before", 1_200),
    ("add accepted, since a return", 8_600),
    ("add refused 22 at 0, since a return", 610),
    ("add refused 25 at 0, since a return", 1_400),
    ("add refused 25 at 1, since a return", 250),
    ("add: a pile of 64 lost changes, since a return", 700),
    ("adds accepted, since a return", 2_300),
    ("adds refused 22 at 0, since a return", 1_100),
    ("adds refused 25 at 0, since a return", 940),
    ("adds refused 25 at 1, since a return", 500),
    ("adds: a pile of 64 lost changes, since a return", 140),
    ("withdraw accepted, since a return", 12_500),
    ("withdraw refused 26 at 0, since a return", 4_400),
    ("withdraw: a pile of 64 lost changes, since a return", 1_000),
    ("back accepted, since a return", 7_400),
    ("back refused 27 right after a return", 1_100),
    ("back refused 27 right after a return that dropped 64 changes", 18),
    ("back refused 27 right after a return that dropped changes", 850),
    ("paths refused 32, since a return", 1_100),
    ("paths refused 33, since a return", 1_100),
    ("paths refused 34, since a return", 19),
    ("paths: a routing of nets that came back", 150),
    ("paths: a routing of nets that came back for others", 100),
    ("paths: a routing, changes since a return", 650),
    ("paths: a routing, since a return", 1_000),
    ("paths: refused for nets that came back for others", 520),
    ("row: what names held dropped", 85),
    ("end: all eight names held", 62),
    ("end: names held, changes on the pile", 560),
    ("end: names held, since a return", 500),
    ("end: nets kept", 580),
    ("end: no nets kept under a name", 250),
    ("text: a net refused 25, accepted with no pins taken", 560),
    ("text: pins taken, sound", 860),
    ("session: more pins taken than there are", 90),
    ("session: pins taken at no vertex", 110),
    ("session: pins taken where there are none", 100),
    ("session: sound since taken pins were told again", 95),
    ("session: sound, pins taken", 1_400),
    ("session: sound, pins taken at 30 vertices or more", 65),
    ("taken: a count in place of another", 150),
    ("taken: a count of 0", 1_500),
    ("taken: a count of 0 in place of another", 630),
    ("taken: a number above 249", 170),
    ("taken: a number missing", 220),
    ("taken: a session with changes dropped", 680),
    ("taken: at line or column 31", 700),
    ("taken: at more than 128 vertices so far", 9_000),
    ("taken: at no vertex so far", 4_300),
    ("taken: before any row", 3_400),
    ("taken: beyond column 31", 230),
    ("taken: beyond line 31", 250),
    ("taken: beyond line or column 31, changes on the pile", 40),
    ("taken: in the middle of a session", 650),
    ("taken: the same count again", 95),
    ("taken: what names held dropped", 220),
    ("add refused 25 at 0, accepted with no pins taken", 680),
    ("add refused 25 at 0, accepted with no pins taken, since a return", 160),
    ("add refused 25 at 0, at 1 with no pins taken", 130),
    ("add refused 25 at 0, one pin taken and one used", 190),
    ("add refused 25 at 1, accepted with no pins taken", 490),
    ("add refused 25 at 1, accepted with no pins taken, since a return", 100),
    ("add refused 25 at 1, one pin taken and one used", 200),
    ("adds refused 25 at 0, accepted with no pins taken", 470),
    ("adds refused 25 at 0, accepted with no pins taken, since a return", 100),
    ("adds refused 25 at 0, at 1 with no pins taken", 56),
    ("adds refused 25 at 0, one pin taken and one used", 68),
    ("adds refused 25 at 1, accepted with no pins taken", 420),
    ("adds refused 25 at 1, accepted with no pins taken, since a return", 90),
    ("adds refused 25 at 1, one pin taken and one used", 62),
    ("line passed over that begins as taken does", 860),
    ("return refused 36 at 0, kept before taken", 110),
    ("text: a net refused 25, accepted under the old rule", 440),
    ("text: under the new rule, sound", 1_000),
    ("text: under the old rule after the new, both sound", 170),
    ("session: sound under the new rule, since pins were told again", 15),
    ("session: sound under the old rule, for the new one had too few pins", 25),
    ("session: sound, two pins taken at a corner under the old rule", 520),
    ("session: sound, under the new rule", 1_700),
    ("session: sound, under the new rule with pins taken", 790),
    ("session: two pins taken at a corner under the new rule", 110),
    ("book: a number above 249", 66),
    ("book: a number missing", 110),
    ("book: a session with changes dropped", 700),
    ("book: another, nets dropped", 310),
    ("book: before any row", 380),
    ("book: passed over", 300),
    ("book: passed over, names stay", 61),
    ("book: passed over, nets and pile stay", 170),
    ("book: passed over, the number 2", 63),
    ("book: passed over, under the new rule", 120),
    ("book: the new rule", 1_600),
    ("book: the new rule in place of the old", 1_400),
    ("book: the old rule", 940),
    ("book: the old rule in place of the new", 310),
    ("book: the same again", 850),
    ("book: the same again, nets dropped", 320),
    ("book: what names held dropped", 230),
    ("add refused 25 at 0, accepted under the old rule", 480),
    ("add refused 25 at 0, accepted under the old rule, since a return", 120),
    ("add refused 25 at 0, at 1 under the old rule", 480),
    ("add refused 25 at 0, one pin taken, accepted under the old rule", 71),
    ("add refused 25 at 1, accepted under the old rule", 370),
    ("add refused 25 at 1, accepted under the old rule, since a return", 78),
    ("add refused 25 at 1, one pin taken, accepted under the old rule", 38),
    ("adds refused 25 at 0, accepted under the old rule", 300),
    ("adds refused 25 at 0, accepted under the old rule, since a return", 80),
    ("adds refused 25 at 0, at 1 under the old rule", 110),
    ("adds refused 25 at 0, one pin taken, accepted under the old rule", 48),
    ("adds refused 25 at 1, accepted under the old rule", 270),
    ("adds refused 25 at 1, accepted under the old rule, since a return", 70),
    ("adds refused 25 at 1, one pin taken, accepted under the old rule", 44),
    ("line passed over that begins as book does", 890),
    ("return refused 36 at 0, kept before book", 120),
    ("paths refused 20, under the new rule", 1_000),
    ("paths refused 32, under the new rule", 2_300),
    ("paths refused 33, under the new rule", 1_000),
    ("paths refused 34, under the new rule", 120),
    ("paths: a routing, under the new rule", 2_700),
    ("end: the new rule", 1_100),
    ("end: the new rule, names held", 270),
    ("end: the new rule, nets and changes on the pile", 600),
    ("end: the new rule, no nets", 490),
    ("end: the new rule, session unsound", 260),
    ("text: a move", 510),
    ("text: a move refused 39", 400),
    ("text: a move refused 39, then a move of the same session", 200),
    ("text: a move, and one that left all as it was", 390),
    ("text: two moves or more", 240),
    ("move refused 20", 870),
    ("move refused 20, for taken pins", 640),
    ("move refused 20, for taken pins under the new rule alone", 38),
    ("move refused 20, under the new rule", 310),
    ("move refused 39", 1_200),
    ("move refused 39 right after a move refused 39", 76),
    ("move refused 39, since a return", 150),
    ("move refused 39: 64 nets", 7),
    ("move refused 39: a first and a second terminal", 350),
    ("move refused 39: a first terminal and a pin taken", 94),
    ("move refused 39: a second terminal and a pin taken", 100),
    ("move refused 39: after corners with one pin in use", 450),
    ("move refused 39: after straight sides with their pin in use", 430),
    ("move refused 39: another is the first column by column", 210),
    ("move refused 39: another on a later line", 720),
    ("move refused 39: another on the same line", 400),
    ("move refused 39: at column 31", 23),
    ("move refused 39: at line 31", 6),
    ("move refused 39: line and column differ", 1_000),
    ("move refused 39: nets, changes and names", 260),
    ("move refused 39: on the last line", 180),
    ("move refused 39: one vertex alone", 400),
    ("move refused 39: two first terminals", 160),
    ("move refused 39: two pins taken", 190),
    ("move refused 39: two second terminals", 160),
    ("move: all stays", 3_200),
    ("move: all stays right after a move", 89),
    ("move: all stays right after a move that left all as it was", 220),
    ("move: all stays, 64 changes", 46),
    ("move: all stays, nets, changes and names", 530),
    ("move: all stays, nets, changes and names, since a move", 190),
    ("move: all stays, since a move", 1_400),
    ("move: all stays, since a return", 440),
    ("move: all stays, under the new rule by a line book", 1_700),
    ("move: over", 1_200),
    ("move: over right after a return to nets", 10),
    ("move: over with 40 nets or more", 28),
    ("move: over with nets", 750),
    ("move: over with nets, changes dropped and what names held", 210),
    ("move: over, 64 changes dropped", 35),
    ("move: over, a pin taken at a corner, no terminal", 350),
    ("move: over, a terminal at a corner, no pin taken", 670),
    ("move: over, a terminal at a straight side", 640),
    ("move: over, changes dropped", 890),
    ("move: over, no nets", 520),
    ("move: over, refused 39 before", 260),
    ("move: over, since a return", 100),
    ("move: over, the pin of a straight side taken", 490),
    ("move: what names held dropped", 350),
    ("add accepted by the old rule alone, since a move refused 39", 860),
    ("add accepted, since a move", 2_200),
    ("add refused 25 at 0, accepted under the old rule, since a move", 170),
    ("add refused 25 at 0, accepted with no pins taken, since a move", 21),
    ("add refused 25 at 1, accepted under the old rule, since a move", 170),
    ("add refused 25 at 1, accepted with no pins taken, since a move", 23),
    ("adds accepted, since a move", 690),
    ("adds refused 25 at 0, accepted under the old rule, since a move", 250),
    ("adds refused 25 at 0, accepted with no pins taken, since a move", 24),
    ("adds refused 25 at 1, accepted under the old rule, since a move", 220),
    ("adds refused 25 at 1, accepted with no pins taken, since a move", 20),
    ("withdraw accepted right after a move", 90),
    ("withdraw accepted right after a move refused 39", 180),
    ("withdraw accepted right after a move that left all as it was", 350),
    ("withdraw: a pile of 64 lost changes, since a move", 140),
    ("back accepted right after a move refused 39", 210),
    ("back accepted right after a move that left all as it was", 440),
    ("back accepted, since a move", 2_300),
    ("back refused 27 at 0 right after a move", 260),
    ("back refused 27 right after a move that dropped 64 changes", 17),
    ("back refused 27 right after a move that dropped changes", 180),
    ("keep accepted, since a move", 260),
    ("return accepted right after a move refused 39", 50),
    ("return accepted right after a move that left all as it was", 110),
    ("return accepted, since a move", 200),
    ("return refused 36 at 0 right after a move", 45),
    ("return refused 36 at 0, kept before move", 190),
    ("paths refused 32 for nets that came over", 56),
    ("paths refused 32, since a move", 460),
    ("paths refused 33 for nets that came over", 20),
    ("paths refused 33, since a move", 190),
    ("paths refused 34 for nets that came over", 2),
    ("paths refused 34, since a move", 23),
    ("paths: a routing of nets that came over", 94),
    ("paths: a routing right after a move", 95),
    ("paths: a routing right after a move refused 39", 62),
    ("paths: a routing, since a move", 590),
    ("book: passed over after a move", 49),
    ("book: the new rule after a move", 79),
    ("book: the old rule after a move", 650),
    ("row: the session afresh after a move", 57),
    ("taken: the session afresh after a move", 210),
    ("line passed over that begins as move does", 680),
    ("end: the new rule, since a move", 220),
    ("end: the new rule, since a move, nets and an empty pile", 52),
    ("end: the new rule, since a move, nets, changes and names", 25),
    ("end: the old rule, since a move refused 39", 130),
    ("end: the old rule, since a move refused 39, nets, changes and names", 34),
    ("wire told", 18_000),
    ("wire told, since a return", 5_100),
    ("wire told, since a move", 1_100),
    ("wire told, under the new rule", 9_200),
    ("add right after wire", 5_000),
    ("adds right after wire", 3_400),
    ("back right after wire", 4_700),
    ("book right after wire", 100),
    ("keep right after wire", 550),
    ("line passed over that begins as wire does", 790),
    ("move right after wire", 150),
    ("paths right after wire", 600),
    ("return right after wire", 600),
    ("row right after wire", 11),
    ("taken right after wire", 91),
    ("wire refused 20", 2_600),
    ("wire refused 20, 256 rows or more", 39),
    ("wire refused 20, 32 rows", 220),
    ("wire refused 20, 33 rows or more", 86),
    ("wire refused 20, a row out of bounds", 280),
    ("wire refused 20, more pins taken than there are", 330),
    ("wire refused 20, no rows", 200),
    ("wire refused 20, not convex", 430),
    ("wire refused 20, pins taken at no vertex", 330),
    ("wire refused 20, pins taken where there are none", 280),
    ("wire refused 20, two pins taken at a corner under the new rule", 240),
    ("wire refused 20, under the new rule", 1_300),
    ("wire right after wire", 170),
    ("wire told right after a move", 88),
    ("wire told right after a move refused 39", 100),
    ("wire told right after a move that left all as it was", 230),
    ("wire told, add before it", 3_100),
    ("wire told, adds before it", 2_500),
    ("wire told, back before it", 3_400),
    ("wire told, book before it", 130),
    ("wire told, keep before it", 310),
    ("wire told, move before it", 420),
    ("wire told, paths before it", 1_800),
    ("wire told, return before it", 1_200),
    ("wire told, row before it", 430),
    ("wire told, taken before it", 210),
    ("wire told, wire before it", 140),
    ("wire told, withdraw before it", 4_200),
    ("wire: 1,984 edges", 750),
    ("wire: 64 changes on the pile", 940),
    ("wire: 64 nets", 240),
    ("wire: a larger sum right after back", 950),
    ("wire: a larger sum than the last", 5_700),
    ("wire: a smaller sum right after back", 920),
    ("wire: a smaller sum than the last", 4_300),
    ("wire: a sum above the edges", 3_300),
    ("wire: a sum of 1,000 or more", 930),
    ("wire: another sum right after return", 540),
    ("wire: nets, changes and names", 4_100),
    ("wire: no nets", 5_300),
    ("wire: pins taken", 8_300),
    ("wire: rows that differ", 6_700),
    ("wire: the same sum as the last", 4_200),
    ("wire: words behind it", 6_200),
    ("withdraw right after wire", 5_400),
];

fn too_little(counts: &Counts) -> Vec<String> {
    let seen = |what: &str| counts.get(what).copied().unwrap_or(0);
    let short = FLOORS.iter().filter(|(what, least)| seen(what) < *least);
    short.map(|(what, least)| format!("{what}: {}, at least {least} are due", seen(what))).collect()
}

// ---------------------------------------------------------------- boards

/// Rows of a convex board: spans, each within the last, laid on top or below, with steps of any width.
fn stepped_rows(random: &mut Random, count: usize, width: usize) -> Rows {
    let left = random.below(32 - width);
    let mut span = (left, left + width);
    let mut rows = VecDeque::from([span]);
    let steep = random.pick(&[1, 2, 5, 20]);
    while rows.len() < count {
        if random.one_in(steep) {
            let width = 1 + random.below(span.1 - span.0);
            let left = span.0 + random.below(span.1 - span.0 - width + 1);
            span = (left, left + width);
        }
        if random.one_in(2) {
            rows.push_front(span);
        } else {
            rows.push_back(span);
        }
    }
    rows.into()
}

/// Convex rows of many shapes and sizes.
fn shape(random: &mut Random) -> Rows {
    let most = random.pick(&[2, 4, 8, 16, 31, 31]);
    match random.below(4) {
        0 => convex_rows(random, most, most),
        1 => vec![(0, 1 + random.below(most)); 1 + random.below(most)],
        _ => {
            let (count, width) = (1 + random.below(most), 1 + random.below(most));
            stepped_rows(random, count, width)
        }
    }
}

/// Convex rows as tall and as wide as can be, which alone have pins for 64 nets.
fn full_shape(random: &mut Random) -> Rows {
    if random.one_in(3) {
        return vec![(0, 31); 31];
    }
    stepped_rows(random, 31, 31)
}

/// Rows that are seldom convex: one or two of a convex board changed, a row laid in, or all at random.
fn bent_rows(random: &mut Random) -> Rows {
    let span = |random: &mut Random| {
        let left = random.below(31);
        (left, left + 1 + random.below(31 - left))
    };
    if random.one_in(4) {
        return (0..2 + random.below(6)).map(|_| span(random)).collect();
    }
    let mut rows = shape(random);
    for _ in 0..1 + random.below(2) {
        let at = random.below(rows.len());
        match random.below(4) {
            0 => rows[at] = span(random),
            1 if rows.len() < 31 => rows.insert(at, span(random)),
            2 if rows[at].1 < 31 => rows[at].1 += 1,
            _ if rows[at].0 > 0 => rows[at].0 -= 1,
            _ => rows[at].1 = rows[at].0 + 1,
        }
    }
    rows
}

/// Rows at and beyond the limits: none, 31, 32 and more of them, ends out of bounds or the wrong way round.
fn limit_rows(random: &mut Random) -> Rows {
    let count = match random.below(12) {
        0 | 1 => 0,
        2 => 31,
        3..=5 => 32,
        6 => 33 + random.below(32),
        7 => random.pick(&[255, 256, 257, 258, 260, 287, 288]),
        _ => {
            let mut rows = shape(random);
            let at = random.pick(&[0, rows.len() / 2, rows.len() - 1]);
            let (left, right) = rows[at];
            rows[at] = random.pick(&[(left, left), (right, left), (left, 32), (left, 255), (255, right), (left, 0), (0, 0)]);
            return rows;
        }
    };
    let width = random.pick(&[1, 2, 31]);
    vec![(0, width); count]
}

// ---------------------------------------------------------------- texts

/// Numbers above 249, all read as 255. Some would be small ones in 8, 16, 32 or 64 bits.
const LARGE: [&str; 17] = [
    "250", "251", "255", "256", "257", "258", "260", "300", "512", "513", "1000", "65536", "65537", "4294967297", "18446744073709551616",
    "18446744073709551617", "99999999999999999999999999999999999999999",
];

/// Numbers that are no names. Some would be names in 3, 4 or 8 bits.
const NO_NAMES: [usize; 12] = [8, 8, 8, 9, 10, 15, 16, 64, 128, 249, 255, 255];

/// Numbers that are no books. Some would be books in 1, 3, 4 or 8 bits.
const NO_BOOKS: [usize; 14] = [2, 2, 2, 3, 4, 8, 9, 9, 16, 128, 249, 255, 255, 255];

/// Lines that are passed over, whatever numbers follow.
const PASSED_OVER: [&str; 93] = [
    "", "", "#", "a", "ad", "addsx", "addx", "adds1", "add1", "added", "addadd", "addss", "Add", "ADDS", "xadd", "r", "ro", "rows", "row0", "Row",
    "b", "bac", "backs", "back1", "Back", "backback", "w", "withdra", "withdraws", "withdrawn", "net", "path", "Paths", "pathss", "accepted", "7",
    "k", "kee", "keeps", "keep8", "keep0", "keepkeep", "Keep", "kept", "re", "ret", "retur", "returns", "return1", "returned", "returnrow",
    "rowreturn", "Return", "RETURN", "t", "take", "takens", "taken0", "taken1", "takentaken", "takenrow", "takenx", "Taken", "TAKEN", "bo", "boo",
    "books", "book0", "book1", "bookbook", "booktaken", "bookx", "Book", "BOOK", "m", "mov", "moves", "moved", "move1", "movemove", "moverow",
    "bookmove", "Move", "MOVE", "wi", "wir", "wires", "wire1", "wired", "wirewire", "wirerow", "Wire", "WIRE",
];

/// Writes a text line by line. Its own machine tells what would be right or wrong next.
struct Writer {
    random: Random,
    machine: Machine,
    text: String,
    calls: usize,
    /// The board's vertices with a pin that is not taken, in reading order and each as often as it has such, and those without; of the last those
    /// whose pins are all taken.
    pins: Vec<Vertex>,
    inner: Vec<Vertex>,
    spent: Vec<Vertex>,
    /// Net numbers up to this one come first.
    low: usize,
}

impl Writer {
    fn new(mut random: Random) -> Writer {
        let low = random.pick(&[4, 12, 64]);
        let (machine, text) = (Machine::new(), String::new());
        Writer { random, machine, text, calls: 0, pins: Vec::new(), inner: Vec::new(), spent: Vec::new(), low }
    }

    /// Whether there is room for another line, however long.
    fn room(&self) -> bool {
        self.text.len() < MOST_BYTES - 5_000
    }

    fn line(&mut self, line: &str) {
        self.machine.line(line);
        self.text += line;
        self.text += "\n";
        self.calls += 1;
    }

    /// A call with its numbers, at times with the last ones missing, with zeros before a number or more spaces than one.
    fn say(&mut self, call: &str, numbers: &[usize]) {
        let mut shown = numbers.len();
        if self.random.one_in(40) {
            shown -= self.random.below(shown.min(5) + 1);
        }
        let mut line = call.to_string();
        for &number in &numbers[..shown] {
            line += if self.random.one_in(60) { "   " } else { " " };
            line += &self.numeral(number);
        }
        if self.random.one_in(30) {
            line += " ";
        }
        self.line(&line);
    }

    fn numeral(&mut self, number: usize) -> String {
        if number > 249 {
            return self.random.pick(&LARGE).to_string();
        }
        if self.random.one_in(60) {
            return format!("{number:04}");
        }
        number.to_string()
    }

    /// More rows, with taken pins in between or none, and a book anywhere or none.
    fn rows(&mut self, rows: &[(usize, usize)], taken: &[[usize; 3]], book: Option<Book>) {
        // All taken pins before the rows, all after them, or anywhere.
        let (from, to) = self.random.pick(&[(0, 0), (rows.len(), rows.len()), (rows.len(), rows.len()), (0, rows.len())]);
        let mut places: Vec<usize> = taken.iter().map(|_| from + self.random.below(to - from + 1)).collect();
        places.sort();
        let many = taken.len() > 100;
        let mut lines: Vec<(usize, &str, Vec<usize>)> = places.into_iter().zip(taken).map(|(place, t)| (place, "taken", t.to_vec())).collect();
        if let Some(book) = book {
            // Of the taken pins at its place it comes before all or after all.
            let (place, at) = (self.random.below(rows.len() + 1), self.random.pick(&[0, lines.len()]));
            lines.insert(at, (place, "book", vec![book as usize]));
            lines.sort_by_key(|line| line.0);
        }
        let mut lines = lines.into_iter().peekable();
        for place in 0..=rows.len() {
            while let Some((_, call, numbers)) = lines.next_if(|line| line.0 == place) {
                // Of very many, none may go wrong.
                match many {
                    true => self.line(&format!("{call} {}", numbers.iter().map(usize::to_string).collect::<Vec<_>>().join(" "))),
                    false => self.say(call, &numbers),
                }
            }
            if let Some(&(left, right)) = rows.get(place) {
                // A 0 at the end may be left out, for a number that is missing is 0.
                let missing = if right > 0 || self.random.one_in(4) { 0 } else { 1 + (left == 0) as usize };
                let numbers = [self.numeral(left), self.numeral(right)];
                self.line(&format!("row {}", numbers[..2 - missing].join(" ")));
            }
        }
        self.look_up();
    }

    /// Looks up the pins of the board so far.
    fn look_up(&mut self) {
        let bare = Board { nets: Vec::new(), ..self.machine.board.clone() };
        let (pins, inner): (Vec<Vertex>, Vec<Vertex>) = bare.vertices().into_iter().partition(|&v| bare.pins(v) > 0);
        self.pins = pins.into_iter().flat_map(|v| vec![v; bare.pins(v)]).collect();
        self.spent = inner.iter().copied().filter(|&v| bare.all_pins(v) > 0).collect();
        self.inner = inner;
    }
}

// ---------------------------------------------------------------- taken pins, right and wrong

impl Writer {
    /// Numbers for lines of taken pins on this board: right ones at some vertices, at times with others before them; seldom wrong ones among them.
    fn some_taken(&mut self, bare: &Board) -> Vec<[usize; 3]> {
        let mut vertices: Vec<Vertex> = bare.vertices().into_iter().filter(|&v| v.0 <= 31 && bare.all_pins(v) > 0).collect();
        self.random.shuffle(&mut vertices);
        let most = self.random.pick(&[2, 5, 12, 40, 128]);
        vertices.truncate(1 + self.random.below(most));
        let mut last: Vec<[usize; 3]> = Vec::new();
        for v in vertices {
            let count = self.random.pick(&[1, bare.all_pins(v)]);
            last.push([v.0, v.1, count]);
        }
        let mut all = Vec::new();
        let (others, many) = (self.random.one_in(3), self.random.one_in(20));
        if others || many {
            // What is said of a vertex last holds. At times there are more vertices than a board has pins.
            let count = if many { 150 + self.random.below(150) } else { 1 + self.random.below(4) };
            for _ in 0..count {
                let other = if many { [self.random.below(32), self.random.below(32), 1] } else { self.any_taken(bare) };
                all.push(other);
                if !last.iter().any(|l| l[..2] == other[..2]) {
                    last.push([other[0], other[1], 0]);
                }
            }
        }
        all.extend(last);
        if self.random.one_in(9) {
            all.push(self.any_taken(bare));
        }
        all
    }

    /// Numbers for a line of taken pins, right or wrong.
    fn any_taken(&mut self, board: &Board) -> [usize; 3] {
        let vertices = board.vertices();
        let on = if vertices.is_empty() { (0, 0) } else { self.random.pick(&vertices) };
        let far = self.random.pick(&[32, 32, 33, 63, 64, 128, 249, 255]);
        let (line, column) = match self.random.below(9) {
            0 => (far, on.1),
            1 => (on.0, far),
            2 => (self.random.below(32), self.random.below(32)),
            3 => (on.0 + 1, on.1 + 1),
            4 => self.random.pick(&[(31, on.1), (on.0, 31), (31, 31)]),
            _ => on,
        };
        [line, column, self.random.pick(&[0, 1, 1, 1, 2, 2, 3, 4, 5, 249, 255])]
    }

    /// Lines of taken pins in the middle: the session starts afresh. A wrong one is mostly told again after a few calls.
    fn say_taken(&mut self) {
        let board = self.machine.board.clone();
        let numbers = if self.random.below(3) > 0 { self.right_taken(&board) } else { self.any_taken(&board) };
        self.say("taken", &numbers);
        self.look_up();
        if flaw(&board).is_none() {
            self.mend_taken();
        }
    }

    /// Where taken pins have become too many, mostly a few calls, and then all is right again: the pins are told anew, or the old rule holds.
    fn mend_taken(&mut self) {
        if self.machine.unsound().is_ok() || self.random.one_in(4) {
            return;
        }
        (0..self.random.below(4)).for_each(|_| self.say_change());
        self.may_say_wire(3);
        if self.random.one_in(3) {
            self.say("move", &[]);
        }
        if self.machine.too_few_by_rule && self.random.one_in(2) {
            self.line("book 0");
            return self.look_up();
        }
        self.say_taken_again();
    }

    /// Numbers for a line of taken pins that is right, where there is one; seldom right under the old rule alone.
    fn right_taken(&mut self, board: &Board) -> [usize; 3] {
        let board = &board.clone().under(if self.random.one_in(6) { Book::Old } else { board.book });
        let vertices: Vec<Vertex> = board.vertices().into_iter().filter(|&v| v.0 <= 31 && board.all_pins(v) > 0).collect();
        if vertices.is_empty() {
            return [0, 0, 0];
        }
        let v = self.random.pick(&vertices);
        [v.0, v.1, self.random.below(board.all_pins(v) + 1)]
    }

    /// Every vertex with wrongly taken pins is told again, with as many as there are or none.
    fn say_taken_again(&mut self) {
        let board = self.machine.board.clone();
        for (&v, _) in board.taken.iter().filter(|(&v, &count)| !board.can_take(v, count)) {
            let count = if board.vertex(v) && self.random.one_in(2) { board.all_pins(v) } else { 0 };
            self.line(&format!("taken {} {} {count}", v.0, v.1));
        }
        self.look_up();
    }
}

// ---------------------------------------------------------------- books, right and wrong

impl Writer {
    /// A line of a book in the middle: the session starts afresh, unless the number is no book's.
    fn say_book(&mut self) {
        let number = match self.random.below(8) {
            0 | 1 => self.random.pick(&NO_BOOKS),
            2..=4 => 0,
            _ => 1,
        };
        let numbers = [number];
        let missing = self.random.one_in(15);
        let sound = self.machine.unsound().is_ok();
        self.say("book", if missing { &[] } else { &numbers });
        self.look_up();
        if sound {
            self.mend_taken();
        }
    }
}

// ---------------------------------------------------------------- moves

impl Writer {
    /// A move, with what may stand in its way or make way for it, and calls that show what it left.
    fn say_move(&mut self) {
        let before = self.random.below(7);
        if before < 4 {
            self.make_way();
        }
        match before {
            3 | 4 => self.say_crowding(),
            5 => self.say_return(),
            _ => {}
        }
        let held: Vec<usize> = (0..NAMES).filter(|&name| self.machine.names[name].is_some()).collect();
        self.say("move", &[]);
        self.look_up();
        (0..self.random.pick(&[0, 1, 1, 2, 4])).for_each(|_| self.say_after_move(&held));
    }

    /// A call after a move; `held` are the names that held something before it.
    fn say_after_move(&mut self, held: &[usize]) {
        match self.random.below(12) {
            11 => self.say_wire(),
            0 | 1 => self.say_back(),
            2 | 3 if !held.is_empty() => {
                let name = self.random.pick(held);
                self.say("return", &[name]);
            }
            4 | 5 => self.say_paths(),
            6 | 7 => self.say_crowding(),
            8 => self.say_withdraw(),
            9 => {
                self.say("move", &[]);
                self.look_up();
            }
            _ => self.say_change(),
        }
    }

    /// Nets that end at a corner, until both its pins are in use, taken ones among them: the old rule allows that, the new one does not.
    fn say_crowding(&mut self) {
        let board = &self.machine.board;
        let corners: Vec<Vertex> = board.vertices().into_iter().filter(|&v| board.degree(v) == 2 && in_use(board, v) < 2).collect();
        if self.machine.unsound().is_err() || corners.is_empty() {
            return;
        }
        let corner = self.random.pick(&corners);
        for _ in in_use(&self.machine.board, corner)..2 {
            let length = self.random.pick(&[1, 1, 1, 2, 4]);
            let mut nets = self.list_of(length, None, "");
            // The second or the first terminal of the last net.
            let at = nets.len() - self.random.pick(&[2, 4]);
            (nets[at], nets[at + 1]) = corner;
            let call = if length > 1 || self.random.one_in(3) { "adds" } else { "add" };
            self.say(call, &nets);
        }
    }

    /// Nets that stand in the way of a move are withdrawn, and some of them put elsewhere.
    fn make_way(&mut self) {
        while let Some(net) = self.in_the_way() {
            self.line(&format!("withdraw {}", net.number));
            let free: Vec<Vertex> = free_pins(&self.machine.board.clone().under(Book::New)).into_iter().map(|(v, _)| v).collect();
            if free.len() > 1 && self.random.one_in(2) {
                let first = self.random.pick(&free);
                let others: Vec<Vertex> = free.into_iter().filter(|&v| v != first).collect();
                let second = self.random.pick(&others);
                self.line(&format!("add {} {} {} {} {}", net.number, first.0, first.1, second.0, second.1));
            }
        }
    }

    /// A net at one of the vertices that keep the session from the new rule.
    fn in_the_way(&self) -> Option<Net> {
        let new = self.machine.board.clone().under(Book::New);
        let crowded = crowded(&new);
        new.nets.into_iter().find(|net| crowded.contains(&net.first) || crowded.contains(&net.second))
    }

    /// Where the package alone stands in the way of a move, its pins are told again, one of two or none.
    fn say_taken_for_move(&mut self) {
        let taken = self.machine.board.taken.clone();
        for (v, _) in taken.into_iter().filter(|&(_, count)| count == 2) {
            let count = self.random.below(2);
            self.line(&format!("taken {} {} {count}", v.0, v.1));
        }
        self.look_up();
    }

    /// A block begun under the old rule and moved to the new one, with changes and trial layouts before and after; then begun again.
    fn moves(&mut self, count: usize) {
        let last = self.calls + count;
        while self.calls < last && self.room() {
            (0..self.random.pick(&[0, 2, 5, 9])).for_each(|_| self.say_change());
            match self.random.below(6) {
                0..=2 => self.say_keep_or_return(),
                3 => self.say_nothing(),
                _ => {}
            }
            self.say_move();
            match self.random.below(9) {
                0 => self.say_book(),
                1 => self.say_taken(),
                2..=4 if self.machine.board.book == Book::New => self.say_old_rule(),
                2..=4 => self.say_taken_for_move(),
                5 if self.random.one_in(4) => self.say_row(),
                _ => {}
            }
        }
    }

    /// The old rule again; the session starts afresh.
    fn say_old_rule(&mut self) {
        self.line("book 0");
        self.look_up();
    }

    /// One row more, from and to where the last one goes; the session starts afresh.
    fn say_row(&mut self) {
        if let Some(&(left, right)) = self.machine.board.rows.last() {
            self.line(&format!("row {left} {right}"));
            self.look_up();
        }
    }
}

// ---------------------------------------------------------------- nets, right and wrong

/// What can be wrong with a net; the last two are 25.
const FAULTS: [&str; 8] = ["number", "number on the board", "first no vertex", "second no vertex", "same", "same", "first full", "second full"];

impl Writer {
    /// The vertices with a pin that is not taken, each as often as it has such pins.
    fn free_pins(&self, board: &Board) -> Vec<Vertex> {
        let mut taken: Vec<Vertex> = board.nets.iter().flat_map(|n| [n.first, n.second]).collect();
        taken.sort_unstable();
        let mut taken = taken.into_iter().peekable();
        let mut free = self.pins.clone();
        free.retain(|v| {
            while taken.next_if(|t| t < v).is_some() {}
            taken.next_if_eq(v).is_none()
        });
        free
    }

    /// A net that an add accepts on this board, where there is one.
    fn right(&mut self, board: &Board) -> [usize; 5] {
        let number = self.free_number(board);
        let free = self.free_pins(board);
        let first = self.pin(&free);
        let others: Vec<Vertex> = free.into_iter().filter(|&v| v != first).collect();
        let second = self.pin(&others);
        [number, first.0, first.1, second.0, second.1]
    }

    /// A number that is not on the board, mostly a low one, so that numbers come again.
    fn free_number(&mut self, board: &Board) -> usize {
        let used = board.nets.iter().fold(0u64, |used, n| used | 1 << (n.number - 1));
        let free = |most: usize| (1..=most).filter(|i| used >> (i - 1) & 1 == 0).collect::<Vec<_>>();
        let (low, all) = (free(self.low), free(64));
        match (low.is_empty(), all.is_empty()) {
            (false, _) => self.random.pick(&low),
            (_, false) => self.random.pick(&all),
            _ => 1 + self.random.below(64),
        }
    }

    /// One of these vertices; where there is none, any vertex with a pin, taken or not.
    fn pin(&mut self, free: &[Vertex]) -> Vertex {
        match (free.is_empty(), self.pins.is_empty()) {
            (false, _) => self.random.pick(free),
            (_, false) => self.random.pick(&self.pins),
            _ => (self.random.below(3), self.random.below(3)),
        }
    }

    /// Five numbers at random.
    fn any(&mut self) -> [usize; 5] {
        let most = self.random.pick(&[3, 9, 34]);
        let mut n = || self.random.below(most);
        let ends = [n(), n(), n(), n()];
        [self.random.below(67), ends[0], ends[1], ends[2], ends[3]]
    }

    /// A net with one fault or several.
    fn wrong(&mut self, board: &Board) -> [usize; 5] {
        let mut net = self.right(board);
        let count = self.random.pick(&[1, 1, 1, 2, 3]);
        for _ in 0..count {
            let fault = self.random.pick(&FAULTS);
            self.damage(board, &mut net, fault);
        }
        net
    }

    fn damage(&mut self, board: &Board, net: &mut [usize; 5], fault: &str) {
        let at = if fault.starts_with("first") { 1 } else { 3 };
        let end = match fault {
            "number" => {
                net[0] = self.random.pick(&[0, 0, 65, 65, 66, 100, 128, 129, 249, 255]);
                return;
            }
            "number on the board" => {
                if !board.nets.is_empty() {
                    net[0] = board.nets[self.random.below(board.nets.len())].number as usize;
                }
                return;
            }
            "same" => (net[1], net[2]),
            "first full" | "second full" => self.full_vertex(board),
            _ => self.no_vertex(board),
        };
        (net[at], net[at + 1]) = end;
        if fault == "same" && self.random.one_in(4) && !self.inner.is_empty() {
            // The same vertex twice, and one without pins: 24 comes before 25.
            let v = self.random.pick(&self.inner);
            (net[1], net[2], net[3], net[4]) = (v.0, v.1, v.0, v.1);
        }
    }

    /// A vertex without pins, one whose pins are all taken, or one where a net ends.
    fn full_vertex(&mut self, board: &Board) -> Vertex {
        if !self.spent.is_empty() && self.random.one_in(2) {
            return self.random.pick(&self.spent);
        }
        if !self.inner.is_empty() && (board.nets.is_empty() || self.random.one_in(2)) {
            return self.random.pick(&self.inner);
        }
        if board.nets.is_empty() {
            return (0, 0);
        }
        let net = &board.nets[self.random.below(board.nets.len())];
        if self.random.one_in(2) { net.first } else { net.second }
    }

    /// Lines and columns that are no vertex, where they are found: one step off the board, within its bounds, or far away.
    fn no_vertex(&mut self, board: &Board) -> Vertex {
        let far = self.random.pick(&[31, 32, 33, 63, 64, 128, 249, 255]);
        let near = if self.pins.is_empty() { (0, 0) } else { self.random.pick(&self.pins) };
        for _ in 0..20 {
            let v = match self.random.below(6) {
                0 => (near.0 + 1, near.1),
                1 => (near.0, near.1 + 1),
                2 => (near.0.saturating_sub(1), near.1.saturating_sub(1)),
                3 => (self.random.below(33), self.random.below(33)),
                4 => (far, near.1),
                _ => (near.0, far),
            };
            if !board.vertex(v) {
                return v;
            }
        }
        (255, 255)
    }
}

// ---------------------------------------------------------------- lists of nets

impl Writer {
    /// A list of nets of one kind or another, as its numbers.
    fn list(&mut self) -> Vec<usize> {
        let length = match self.random.below(10) {
            0..=5 => 1 + self.random.below(8),
            6..=7 => 1 + self.random.below(30),
            _ => 1 + self.random.below(80),
        };
        let board = &self.machine.board;
        let fits = (self.free_pins(board).len() / 2).min(64 - board.nets.len()).max(1);
        let fitting = length.min(fits);
        match self.random.below(14) {
            0 => Vec::new(),
            1..=3 => self.list_of(fitting, None, ""),
            4 => self.list_of(length, None, ""),
            5 => self.list_of(length, Some(0), "wrong"),
            6 => self.list_of(fitting, Some(fitting / 2), "wrong"),
            7 => self.list_of(fitting, Some(fitting - 1), "wrong"),
            8..=9 => {
                let stop = self.random.below(fitting);
                self.list_of(length, Some(stop), "number twice")
            }
            10..=11 => {
                let stop = self.random.below(fitting);
                self.list_of(length, Some(stop), "pin used up")
            }
            12 => {
                let stop = self.random.below(fitting);
                self.list_of(length, Some(stop), "wrong")
            }
            _ => (0..length).flat_map(|_| self.any()).collect(),
        }
    }

    /// Right nets one after the other, but at `stop` one that is wrong in that way.
    fn list_of(&mut self, length: usize, stop: Option<usize>, way: &str) -> Vec<usize> {
        let mut board = self.machine.board.clone();
        let mut numbers: Vec<usize> = Vec::new();
        for i in 0..length {
            let mut net = self.right(&board);
            let earlier = if i == 0 { [0; 5] } else { net_at(&numbers, self.random.below(i)) };
            if stop == Some(i) {
                match way {
                    "number twice" if i > 0 => net[0] = earlier[0],
                    "pin used up" if i > 0 => {
                        let (from, to) = (self.random.pick(&[1, 3]), self.random.pick(&[1, 3]));
                        (net[to], net[to + 1]) = (earlier[from], earlier[from + 1]);
                    }
                    _ => net = self.wrong(&board),
                }
            }
            if add_refused(&board, &net_of(&net)).is_none() {
                put(&mut board, &net_of(&net));
            }
            numbers.extend(net);
        }
        numbers
    }
}

fn net_at(numbers: &[usize], index: usize) -> [usize; 5] {
    numbers[5 * index..5 * index + 5].try_into().unwrap()
}

// ---------------------------------------------------------------- calls

impl Writer {
    fn say_add(&mut self) {
        let board = self.machine.board.clone();
        let net = match self.random.below(20) {
            0 => self.any(),
            1..=7 => self.wrong(&board),
            _ => self.right(&board),
        };
        self.say("add", &net);
    }

    fn say_right_add(&mut self) {
        let board = self.machine.board.clone();
        let net = self.right(&board);
        self.say("add", &net);
    }

    fn say_adds(&mut self) {
        let list = self.list();
        self.say("adds", &list);
    }

    fn say_withdraw(&mut self) {
        let nets = self.machine.board.nets.len();
        let number = match self.random.below(6) {
            0 => self.random.pick(&[0, 1, 2, 63, 64, 65, 128, 255]),
            _ if nets == 0 => 1 + self.random.below(64),
            _ => self.machine.board.nets[self.random.below(nets)].number as usize,
        };
        self.say("withdraw", &[number]);
    }

    fn say_back(&mut self) {
        self.say("back", &[]);
    }

    fn say_paths(&mut self) {
        self.say("paths", &[]);
    }

    /// Asks for the wire, at times with numbers behind that are passed over.
    fn say_wire(&mut self) {
        let count = self.random.pick(&[0, 0, 0, 0, 0, 0, 0, 1, 2, 5]);
        let numbers: Vec<usize> = (0..count).map(|_| self.random.below(70)).collect();
        self.say("wire", &numbers);
    }

    /// The same, one time out of so many.
    fn may_say_wire(&mut self, seldom: usize) {
        if self.random.one_in(seldom) {
            self.say_wire();
        }
    }

    fn say_keep(&mut self) {
        let name = self.random.below(NAMES);
        self.say_named("keep", name);
    }

    /// A return, mostly to a name that holds something.
    fn say_return(&mut self) {
        let held: Vec<usize> = (0..NAMES).filter(|&name| self.machine.names[name].is_some()).collect();
        let name = match self.random.below(6) {
            0 => self.random.below(NAMES),
            _ if held.is_empty() => self.random.below(NAMES),
            _ => self.random.pick(&held),
        };
        self.say_named("return", name);
    }

    /// At times the number is missing, or it is no name, more often so where 20 comes first.
    fn say_named(&mut self, call: &str, name: usize) {
        let seldom = if self.machine.unsound().is_err() { 3 } else { 10 };
        if self.random.one_in(30) {
            self.say(call, &[]);
        } else if self.random.one_in(seldom) {
            let name = self.random.pick(&NO_NAMES);
            self.say(call, &[name]);
        } else {
            self.say(call, &[name]);
        }
    }

    /// A keep, or a return with what may follow it: the pile is empty then, and a routing is one of the nets that came back.
    fn say_keep_or_return(&mut self) {
        if self.random.one_in(2) {
            return self.say_keep();
        }
        self.say_return();
        self.may_say_wire(8);
        (0..self.random.pick(&[0, 0, 1, 2])).for_each(|_| self.say_back());
        if self.random.one_in(4) {
            self.say_return();
        }
        self.may_say_wire(6);
        if self.random.one_in(3) {
            self.say_paths();
        }
    }

    /// A line that is passed over, with numbers as a call would have them.
    fn say_nothing(&mut self) {
        let word = self.random.pick(&PASSED_OVER);
        let board = self.machine.board.clone();
        let net = self.right(&board);
        let count = self.random.pick(&[0, 1, 2, 5]);
        let numbers: Vec<String> = net[..count].iter().map(|n| format!(" {n}")).collect();
        self.line(&format!("{word}{}", if word.is_empty() { String::new() } else { numbers.concat() }));
    }

    /// Calls of all kinds; each text has its own mixture.
    fn mixture(&mut self, count: usize) {
        let weights: Vec<usize> = (0..4).map(|_| self.random.pick(&[1, 2, 4, 8])).collect();
        let kinds: Vec<usize> = (0..4).flat_map(|kind| vec![kind; weights[kind]]).collect();
        // How seldom names are used, and how seldom pins are taken, books told and moves made in the middle; 0 for never.
        let seldom = self.random.pick(&[0, 0, 0, 0, 0, 6, 15, 40]);
        let seldom_taken = self.random.pick(&[0, 0, 0, 0, 0, 0, 0, 20, 60]);
        let seldom_book = self.random.pick(&[0, 0, 0, 0, 0, 0, 20, 60]);
        let seldom_move = self.random.pick(&[0, 0, 0, 0, 0, 15, 60]);
        for _ in 0..count {
            if !self.room() {
                return;
            }
            if self.random.one_in(13) {
                self.say_nothing();
            }
            if seldom > 0 && self.random.one_in(seldom) {
                self.say_keep_or_return();
            }
            if seldom_taken > 0 && self.random.one_in(seldom_taken) {
                self.say_taken();
            }
            if seldom_book > 0 && self.random.one_in(seldom_book) {
                self.say_book();
            }
            if seldom_move > 0 && self.random.one_in(seldom_move) {
                self.say_move();
            }
            if self.random.one_in(12) {
                self.say_paths();
            }
            self.may_say_wire(12);
            match self.random.pick(&kinds) {
                0 => self.say_add(),
                1 if self.full() && self.random.below(5) > 0 => self.say_withdraw(),
                1 => self.say_adds(),
                2 => self.say_withdraw(),
                _ => self.say_back(),
            }
        }
    }

    /// Whether no net more fits on the board.
    fn full(&self) -> bool {
        self.free_pins(&self.machine.board).len() < 2
    }

    /// The same call many times in a row, then another, so that the pile fills up, loses changes and is lifted.
    fn bursts(&mut self, count: usize) {
        let names = self.random.one_in(3);
        let last = self.calls + if names { count + count / 2 } else { count };
        if names {
            self.say_keep();
        }
        while self.calls < last {
            if self.random.one_in(2) {
                self.say_paths();
            }
            if names && self.random.one_in(2) {
                self.say_keep_or_return();
            }
            self.may_say_wire(4);
            let kind = self.random.below(6);
            let times = self.random.pick(&[1, 3, 8, 20, 70]);
            for _ in 0..times {
                if self.calls >= last || !self.room() {
                    return;
                }
                self.may_say_wire(40);
                match kind {
                    0 => self.say_right_add(),
                    1 => self.say_withdraw(),
                    2 => self.say_back(),
                    3 if self.full() => self.say_withdraw(),
                    3 if self.random.one_in(2) => self.say_adds(),
                    _ => {
                        // A net that comes and goes.
                        self.say_right_add();
                        self.say_withdraw();
                    }
                }
            }
        }
    }

    /// Up to 64 nets in one list, and more; then some leave, some are taken back, and another list comes.
    fn full_board(&mut self) {
        for _ in 0..self.random.pick(&[0, 0, 2, 10, 35]) {
            self.say_right_add();
            self.say_withdraw();
        }
        for _ in 0..2 + self.random.below(3) {
            let length = self.random.pick(&[40, 63, 64, 64, 65, 65, 66, 80]);
            let list = self.list_of(length, None, "");
            self.say("adds", &list);
            self.may_say_wire(2);
            let (withdrawals, backs) = (self.random.pick(&[0, 1, 5, 64]), self.random.pick(&[0, 1, 5, 66]));
            if self.random.one_in(2) {
                self.say_keep();
            }
            (0..withdrawals).for_each(|_| self.say_withdraw());
            self.say_paths();
            (0..backs).for_each(|_| self.say_back());
            if self.random.one_in(4) {
                self.say_return();
            }
            if self.random.one_in(6) {
                self.say_move();
            }
        }
        self.mixture(10);
    }

    /// Layouts tried in turn, each made from the one before by a few changes; they are routed and kept, and returned to.
    fn trials(&mut self, count: usize) {
        let last = self.calls + count;
        while self.calls < last && self.room() {
            (0..self.random.pick(&[0, 1, 3, 6])).for_each(|_| self.say_change());
            if self.random.one_in(3) {
                self.say_paths();
            }
            self.may_say_wire(4);
            match self.random.below(12) {
                0 => self.say_nothing(),
                1 => self.empty_board(),
                _ => self.say_keep_or_return(),
            }
        }
        if self.random.one_in(3) {
            self.all_names();
        }
    }

    /// A call that mostly changes the nets.
    fn say_change(&mut self) {
        match self.random.below(10) {
            0 => self.say_add(),
            1 => self.say_adds(),
            2 => self.say_back(),
            3..=5 => self.say_withdraw(),
            _ if self.full() => self.say_withdraw(),
            _ => self.say_right_add(),
        }
    }

    /// Every net is withdrawn; then no nets are kept, and perhaps returned to after a few changes.
    fn empty_board(&mut self) {
        for number in self.machine.board.nets.iter().map(|net| net.number as usize).collect::<Vec<_>>() {
            self.say("withdraw", &[number]);
        }
        let name = self.random.below(NAMES);
        self.say("keep", &[name]);
        if self.random.one_in(2) {
            (0..1 + self.random.below(4)).for_each(|_| self.say_change());
            self.say("return", &[name]);
        }
    }

    /// A keep under every name, in any order and with a change between.
    fn all_names(&mut self) {
        let mut names: Vec<usize> = (0..NAMES).collect();
        self.random.shuffle(&mut names);
        for name in names {
            self.say("keep", &[name]);
            self.say_change();
        }
    }

    /// Calls between rows, taken pins and books: each of them starts the session afresh.
    fn restarts(&mut self) {
        if self.random.one_in(2) {
            self.mixture(5);
        }
        let rows = if self.random.one_in(4) { bent_rows(&mut self.random) } else { shape(&mut self.random) };
        let mut from = 0;
        while from < rows.len() {
            let to = (from + 1 + self.random.below(6)).min(rows.len());
            let name = self.random.below(NAMES);
            if self.random.one_in(2) {
                self.say("keep", &[name]);
            }
            let book = if self.random.one_in(6) { Some(any_book(&mut self.random)) } else { None };
            self.rows(&rows[from..to], &[], book);
            from = to;
            self.may_say_wire(3);
            if self.random.one_in(2) {
                self.say("return", &[name]);
            }
            if self.random.one_in(4) {
                self.say_move();
            }
            if self.random.one_in(3) {
                (0..self.random.below(6)).for_each(|_| self.say_change());
                self.say("keep", &[name]);
                if self.random.one_in(2) {
                    self.say_taken();
                } else {
                    self.say_book();
                }
                self.say("return", &[name]);
            }
            let count = 5 + self.random.below(20);
            self.mixture(count);
        }
    }

    /// One list of very many nets, the first of them right.
    fn long_list(&mut self) {
        let (right, length) = (self.random.below(70), 81 + self.random.below(2_500));
        let mut list = self.list_of(right, None, "");
        while list.len() < 5 * length {
            list.extend(self.any());
        }
        self.say("adds", &list);
    }

    /// A line before all others that makes the text as long as can be.
    fn fill(&mut self) {
        let room = MOST_BYTES - self.text.len();
        let line = match self.random.below(3) {
            0 => "\n".repeat(room),
            1 => format!("{}\n", "x".repeat(room - 1)),
            _ => format!("adds{}\n", " ".repeat(room - 5)),
        };
        self.text.insert_str(0, &line);
    }
}

/// A text of calls.
fn text(random: Random) -> String {
    let mut writer = Writer::new(random);
    let count = 20 + writer.random.below(181);
    let kind = writer.random.below(19);
    let rows = match kind {
        10 | 11 => full_shape(&mut writer.random),
        12 => bent_rows(&mut writer.random),
        13 | 16 => limit_rows(&mut writer.random),
        14 => Vec::new(),
        17 => convex_rows(&mut writer.random, 4, 4),
        18 if writer.random.one_in(6) => full_shape(&mut writer.random),
        _ => shape(&mut writer.random),
    };
    // Few of the texts that are to have 64 nets get taken pins or the new rule, and few that are to be moved to it begin under it.
    let (full, moves) = (kind == 10 || kind == 11, kind > 16);
    let book = if (full || moves) && writer.random.below(8) > 0 { Book::Old } else { any_book(&mut writer.random) };
    let taken = if writer.random.one_in(if full { 8 } else { 2 }) {
        // Seldom as many pins as the old rule gives.
        let book = if writer.random.one_in(4) { Book::Old } else if moves { Book::New } else { book };
        writer.some_taken(&Board::bare(&rows).under(book))
    } else {
        Vec::new()
    };
    let told = (book == Book::New || writer.random.one_in(6)).then_some(book);
    writer.rows(&rows, &taken, told);
    if writer.machine.unsound().is_err() && writer.machine.too_few_by_rule {
        writer.mend_taken();
    }
    writer.may_say_wire(6);
    match kind {
        5 | 6 => {
            writer.trials(count / 2);
            writer.mixture(count);
        }
        7..=9 => {
            writer.bursts(count);
            if writer.random.one_in(6) {
                writer.say_return();
                writer.say_back();
            }
            if writer.random.one_in(3) {
                writer.make_way();
                writer.say("move", &[]);
                writer.say_back();
            }
        }
        10 => writer.full_board(),
        12 | 13 | 16 => writer.mixture(20 + count / 10),
        14 => writer.restarts(),
        15 => {
            writer.long_list();
            writer.mixture(count / 2);
        }
        17 | 18 => writer.moves(count),
        _ => writer.mixture(count),
    }
    if writer.random.one_in(4) {
        // The last line without a line feed.
        writer.text.pop();
    }
    if writer.random.one_in(20) {
        writer.fill();
    }
    writer.text
}

// ---------------------------------------------------------------- texts answered by hand

/// Texts and their answers, worked out from the requirements.
const BY_HAND: [(&str, &str); 15] = [
    // Each refusal of an add in turn; a vertex of degree 2 has two pins.
    (
        "row 0 1\nadd 1 0 0 1 1\nadd 1 0 0 1 1\nadd 0 0 0 1 1\nadd 65 0 0 1 1\nadd 2 0 2 1 1\nadd 2 0 0 2 0\nadd 2 0 0 0 0\nadd 2 0 0 1 1\n\
         add 3 0 0 0 1\nadd 3 0 1 1 1\nwithdraw 3\nback\nback\nback\n",
        "accepted\nrefused 22 0\nrefused 21 0\nrefused 21 0\nrefused 23 0\nrefused 23 1\nrefused 24 0\naccepted\n\
         refused 25 0\nrefused 25 1\nrefused 26 0\naccepted\naccepted\nrefused 27 0\n",
    ),
    // A list stopped at its third net, whose first terminal lost its only pin to the second.
    (
        "row 0 2\nadds\nadds 5 0 0 1 1 2 0 1 1 0 7 0 1 0 2 8 0 0 1 0\nwithdraw 5\nback\n",
        "accepted 0\nrefused 25 0 after 2\naccepted\naccepted\nnet 2 0 1 1 0\nnet 5 0 0 1 1\nadded 2 0 1 1 0\nadded 5 0 0 1 1\n",
    ),
    // The same number twice in one list, and a list that goes on whole after it.
    (
        "row 0 1\nadds 9 0 0 0 1 9 1 0 1 1\nadds 8 1 1 1 0 10 0 1 1 1\nwithdraw 9\n",
        "refused 22 0 after 1\naccepted 2\naccepted\nnet 8 1 1 1 0\nnet 10 0 1 1 1\n\
         withdrawn 9 0 0 0 1\nadded 10 0 1 1 1\nadded 8 1 1 1 0\nadded 9 0 0 0 1\n",
    ),
    // No rows.
    (
        "add 1 0 0 1 1\nadds\nadds 1 0 0 1 1\nwithdraw 1\nback\n",
        "refused 20 0\nrefused 20 0 after 0\nrefused 20 0 after 0\nrefused 20 0\nrefused 20 0\n",
    ),
    // Boards f and g.
    ("row 0 1\nadd 1 0 0 1 1\nrow 1 2\nadd 1 0 0 1 1\nback\n", "accepted\nrefused 20 0\nrefused 20 0\n"),
    ("row 0 2\nrow 0 1\nback\nrow 0 2\nback\n", "refused 27 0\nrefused 20 0\n"),
    // Board h: the concave corners have no pin.
    (
        "row 1 2\nrow 0 3\nrow 1 2\nadd 1 1 1 0 1\nadd 1 0 1 1 2\nadd 1 1 0 2 3\nadd 2 0 0 2 3\n",
        "refused 25 0\nrefused 25 1\naccepted\nrefused 23 0\nnet 1 1 0 2 3\nadded 1 1 0 2 3\n",
    ),
    // Only whole words are calls.
    (
        "row 0 1\nrows 0 1\naddsx 1 0 0 1 1\nad 1 0 0 1 1\nadd1 0 0 1 1\nbacks\n\n#\nwithdrawn 1\nadd 1 0 0 1 1\nback",
        "accepted\naccepted\n",
    ),
    // Numbers missing, and too large.
    (
        "row 0 1\nadd 257 0 0 1 1\nadd 1 256 0 1 1\nadd 1 0 0 1\nwithdraw\nadds 2 0 0 1 1 3\nwithdraw 257\nadd\n",
        "refused 21 0\nrefused 23 0\naccepted\nrefused 26 0\nrefused 24 0 after 1\nrefused 26 0\nrefused 21 0\n\
         net 1 0 0 1 0\nnet 2 0 0 1 1\nadded 2 0 0 1 1\nadded 1 0 0 1 0\n",
    ),
    // A row starts afresh.
    ("row 0 1\nadd 1 0 0 1 1\nrow 0 1\nback\nwithdraw 1\nadd 1 0 0 2 1\n", "accepted\nrefused 27 0\nrefused 26 0\naccepted\n\
         net 1 0 0 2 1\nadded 1 0 0 2 1\n"),
    // Rows out of bounds.
    ("row 1 1\nback\n", "refused 20 0\n"),
    ("row 0 32\nadds\n", "refused 20 0 after 0\n"),
    // Routings: of no nets, of one net between odd vertices; none of two nets across a cell; an overfull cut.
    (
        "paths\nrow 0 1\npaths\nadds 1 0 0 1 1 2 0 1 1 0\npaths\nback\npaths\nadds 2 0 0 1 1 3 0 1 1 0\npaths\nwithdraw 2\nwithdraw 3\n\
         withdraw 1\n",
        "refused 20 0\na routing of the nets on the board\naccepted 2\nrefused 34 0\naccepted\na routing of the nets on the board\n\
         accepted 2\nrefused 33 0 0\naccepted\naccepted\naccepted\nwithdrawn 1 0 0 1 1\nwithdrawn 3 0 1 1 0\nwithdrawn 2 0 0 1 1\n\
         added 3 0 1 1 0\nadded 2 0 0 1 1\nadded 1 0 0 1 1\n",
    ),
    // 12 odd vertices, then 14.
    ("row 0 7\npaths\nrow 0 7\npaths\n", "a routing of the nets on the board\nrefused 32 0 1\n"),
    // The board of request §4.
    (
        "row 2 3\nrow 1 4\nrow 0 5\nrow 1 4\nrow 2 3\nadds 1 0 2 1 4 2 2 5 4 4 3 5 3 4 1 4 3 0 1 1 5 0 3 5 2 6 3 5 2 0\npaths\n\
         back\nback\nback\nback\nback\nback\n",
        "accepted 6\nrefused 34 0\naccepted\naccepted\naccepted\naccepted\naccepted\naccepted\n",
    ),
];

/// The same with names.
const NAMES_BY_HAND: [(&str, &str); 10] = [
    // A keep and a return lay nothing on the pile, and a return empties it, though the nets stay; the name goes on holding them.
    ("row 0 1\nadd 1 0 0 1 1\nkeep 0\nreturn 0\nback\n", "accepted\naccepted\naccepted\nrefused 27 0\nnet 1 0 0 1 1\nkept 0 1\nnet 1 0 0 1 1\n"),
    (
        "row 0 1\nadd 1 0 0 1 1\nkeep 3\nwithdraw 1\nadd 2 0 1 1 0\nkeep 0\nreturn 3\nback\npaths\nreturn 3\nadd 1 0 0 1 1\nadd 3 0 0 1 1\nback\n",
        "accepted\naccepted\naccepted\naccepted\naccepted\naccepted\nrefused 27 0\na routing of the nets on the board\naccepted\nrefused 22 0\n\
         accepted\naccepted\nnet 1 0 0 1 1\nkept 0 1\nnet 2 0 1 1 0\nkept 3 1\nnet 1 0 0 1 1\n",
    ),
    // A refused one changes nothing.
    (
        "row 0 1\nadd 1 0 0 1 1\nkeep 1\nkeep 8\nreturn 2\nreturn 9\nback\nback\n",
        "accepted\naccepted\nrefused 35 0\nrefused 36 0\nrefused 35 0\naccepted\nrefused 27 0\nkept 1 1\nnet 1 0 0 1 1\n",
    ),
    // 20 comes first, then 35, then 36; no nets count as kept; a missing number is 0.
    (
        "keep 0\nreturn 0\nkeep 8\nreturn 8\nreturn\nrow 0 1\nreturn 0\nreturn 8\nkeep 8\nreturn 255\nkeep 250\nkeep 7\nreturn 7\nreturn 249\n\
         keep 256\nkeep\nreturn\nreturn 6\n",
        "refused 20 0\nrefused 20 0\nrefused 20 0\nrefused 20 0\nrefused 20 0\nrefused 36 0\nrefused 35 0\nrefused 35 0\nrefused 35 0\n\
         refused 35 0\naccepted\naccepted\nrefused 35 0\nrefused 35 0\naccepted\naccepted\nrefused 36 0\nkept 0 0\nkept 7 0\n",
    ),
    ("row 0 1\nkeep 2\nrow 1 2\nreturn 2\nkeep 9\nreturn 9\n", "accepted\nrefused 20 0\nrefused 20 0\nrefused 20 0\n"),
    // A row makes the session forget what was kept.
    ("row 0 1\nadd 1 0 0 1 1\nkeep 4\nrow 0 1\nreturn 4\nkeep 4\nreturn 4\n", "accepted\naccepted\nrefused 36 0\naccepted\naccepted\nkept 4 0\n"),
    // Fewer nets over more, then none and back again.
    (
        "row 0 1\nadds 1 0 0 1 1 2 0 1 1 0\nkeep 5\nback\nkeep 5\nwithdraw 1\nkeep 6\nreturn 5\nreturn 6\nreturn 5\nwithdraw 1\n",
        "accepted 2\naccepted\naccepted\naccepted\naccepted\naccepted\naccepted\naccepted\naccepted\naccepted\nwithdrawn 1 0 0 1 1\n\
         kept 5 1\nnet 1 0 0 1 1\nkept 6 0\n",
    ),
    // Pins and numbers are taken by the nets that came back, and by no others.
    (
        "row 0 1\nadds 1 0 0 1 1 2 0 0 1 1\nkeep 0\nwithdraw 1\nwithdraw 2\nadds 3 0 1 1 0 4 0 1 1 0\nkeep 1\nreturn 0\nadd 5 0 0 0 1\nwithdraw 3\n\
         withdraw 2\nadd 3 0 0 0 1\n",
        "accepted 2\naccepted\naccepted\naccepted\naccepted 2\naccepted\naccepted\nrefused 25 0\nrefused 26 0\naccepted\naccepted\nnet 1 0 0 1 1\n\
         net 3 0 0 0 1\nadded 3 0 0 0 1\nwithdrawn 2 0 0 1 1\nkept 0 2\nnet 1 0 0 1 1\nnet 2 0 0 1 1\nkept 1 2\nnet 3 0 1 1 0\nnet 4 0 1 1 0\n",
    ),
    // Routings after returns: none of two nets across a cell, one of one net, an overfull cut of three.
    (
        "row 0 1\nadds 1 0 0 1 1 2 0 1 1 0\nkeep 0\npaths\nback\nkeep 1\npaths\nreturn 0\npaths\nreturn 1\npaths\nadds 2 0 0 1 1 3 0 1 1 0\nkeep 2\n\
         paths\nreturn 1\npaths\nreturn 2\npaths\n",
        "accepted 2\naccepted\nrefused 34 0\naccepted\naccepted\na routing of the nets on the board\naccepted\nrefused 34 0\naccepted\n\
         a routing of the nets on the board\naccepted 2\naccepted\nrefused 33 0 0\naccepted\na routing of the nets on the board\naccepted\n\
         refused 33 0 0\nnet 1 0 0 1 1\nnet 2 0 0 1 1\nnet 3 0 1 1 0\nkept 0 2\nnet 1 0 0 1 1\nnet 2 0 1 1 0\nkept 1 1\nnet 1 0 0 1 1\n\
         kept 2 3\nnet 1 0 0 1 1\nnet 2 0 0 1 1\nnet 3 0 1 1 0\n",
    ),
    // Only whole words are calls.
    (
        "row 0 1\nkeeps 1\nkeep1\nkee 1\nKeep 1\nkept 1 0\nreturns 1\nretur 1\nreturn1\nreturnrow 0 1\nreturn 1\nkeep 1\nreturn 1\n",
        "refused 36 0\naccepted\naccepted\nkept 1 0\n",
    ),
];

/// The same with taken pins.
const TAKEN_BY_HAND: [(&str, &str); 13] = [
    // The one pin of (0,1), for either terminal; given back, with nothing left of the session.
    (
        "row 0 2\ntaken 0 1 1\nadd 1 0 1 1 0\nadd 1 1 0 0 1\nadd 1 0 0 1 0\ntaken 0 1 0\nback\nadd 1 0 1 1 0\n",
        "refused 25 0\nrefused 25 1\naccepted\nrefused 27 0\naccepted\nnet 1 0 1 1 0\nadded 1 0 1 1 0\n",
    ),
    // One of the two pins of (0,0): one net there, no second one, by itself or in a list; another once the first has left, and the first once more.
    (
        "row 0 1\ntaken 0 0 1\nadd 1 0 0 1 1\nadd 2 0 0 0 1\nadds 2 0 1 1 0 3 1 1 0 0\nwithdraw 1\nadd 4 1 0 0 0\nback\nback\nadd 4 0 0 1 0\n",
        "accepted\nrefused 25 0\nrefused 25 1 after 1\naccepted\naccepted\naccepted\naccepted\nrefused 25 0\n\
         net 1 0 0 1 1\nnet 2 0 1 1 0\nadded 2 0 1 1 0\nadded 1 0 0 1 1\n",
    ),
    // Both pins of (0,0).
    ("row 0 1\ntaken 0 0 2\nadd 1 0 0 1 1\nadds 1 1 1 0 0\nadds\n", "refused 25 0\nrefused 25 1 after 0\naccepted 0\n"),
    // Two taken of one: every call is refused, until one alone is taken.
    (
        "row 0 2\ntaken 0 1 2\nadd 1 0 0 1 1\nadds\nwithdraw 1\nback\nkeep 0\nreturn 9\npaths\ntaken 0 1 1\nback\npaths\n",
        "refused 20 0\nrefused 20 0 after 0\nrefused 20 0\nrefused 20 0\nrefused 20 0\nrefused 20 0\nrefused 20 0\nrefused 27 0\n\
         a routing of the nets on the board\n",
    ),
    // Rows and taken pins in any order: (1,0) has two pins below one row, one between two; (2,0) comes with the second row.
    (
        "taken 1 0 2\nback\nrow 0 1\nback\ntaken 2 0 1\nback\nrow 0 1\nback\ntaken 1 0 1\nback\nadd 1 1 0 0 1\nadd 1 2 0 0 1\nadd 2 0 0 2 0\n",
        "refused 20 0\nrefused 27 0\nrefused 20 0\nrefused 20 0\nrefused 27 0\nrefused 25 0\naccepted\nrefused 25 1\nnet 1 2 0 0 1\n\
         added 1 2 0 0 1\n",
    ),
    // Board h: the concave corner (1,1) has no pin to take, the outer corner (1,0) two. Inside a square there is none.
    (
        "row 1 2\nrow 0 3\nrow 1 2\ntaken 1 1 1\nback\ntaken 1 1 0\nback\ntaken 1 0 2\nadd 1 1 0 2 3\nadd 1 2 0 2 3\n",
        "refused 20 0\nrefused 27 0\nrefused 25 0\naccepted\nnet 1 2 0 2 3\nadded 1 2 0 2 3\n",
    ),
    ("row 0 2\nrow 0 2\ntaken 1 1 1\nback\ntaken 1 1 0\nback\n", "refused 20 0\nrefused 27 0\n"),
    // Nets, pile and names are forgotten, though the pins are those that were taken before.
    (
        "row 0 1\nadd 1 0 0 1 1\nkeep 4\ntaken 0 1 1\nreturn 4\nback\nwithdraw 1\nadd 1 0 1 1 0\nkeep 4\ntaken 0 1 1\nreturn 4\npaths\n",
        "accepted\naccepted\nrefused 36 0\nrefused 27 0\nrefused 26 0\naccepted\naccepted\nrefused 36 0\na routing of the nets on the board\n",
    ),
    // A vertex beyond line or column 31 is passed over, but the session starts afresh; (31,31) is not beyond.
    (
        "row 0 1\nadd 1 0 0 1 1\ntaken 32 0 1\nback\nadd 1 0 0 1 1\ntaken 0 255 9\nback\ntaken 31 31 1\nback\ntaken 31 31\nback\n",
        "accepted\nrefused 27 0\naccepted\nrefused 27 0\nrefused 20 0\nrefused 27 0\n",
    ),
    // Numbers missing and too large; only the whole word.
    (
        "row 0 1\ntaken\nback\ntaken 0 0 256\nback\ntaken 0 0 3\nback\ntaken 0 0 2\nback\nadd 1 0 0 1 1\ntaken 0\nadd 1 0 0 1 1\ntakens 0 0 2\n\
         taken1 0 2\ntake 0 0 2\nTaken 0 0 2\nback\n",
        "refused 27 0\nrefused 20 0\nrefused 20 0\nrefused 27 0\nrefused 25 0\naccepted\naccepted\n",
    ),
    // Nets that come back use the pin that is left.
    (
        "row 0 1\ntaken 0 0 1\nadd 1 0 0 1 1\nkeep 0\nwithdraw 1\nadd 2 1 0 0 0\nreturn 0\nadd 3 0 0 0 1\nwithdraw 1\nadd 3 0 0 0 1\nreturn 0\n",
        "accepted\naccepted\naccepted\naccepted\naccepted\nrefused 25 0\naccepted\naccepted\naccepted\nnet 1 0 0 1 1\n\
         kept 0 1\nnet 1 0 0 1 1\n",
    ),
    // Taken pins leave odd vertices and cuts as they are: two odd ones between full columns; 14.
    (
        "row 0 2\ntaken 0 1 1\ntaken 1 1 1\npaths\nadds 1 0 0 1 2 2 0 0 1 2\npaths\n",
        "a routing of the nets on the board\naccepted 2\na routing of the nets on the board\nnet 1 0 0 1 2\nnet 2 0 0 1 2\n\
         added 2 0 0 1 2\nadded 1 0 0 1 2\n",
    ),
    ("row 0 8\ntaken 0 1 1\ntaken 1 7 1\npaths\n", "refused 32 0 1\n"),
];

/// The same with books.
const BOOKS_BY_HAND: [(&str, &str); 14] = [
    // One cell under the new rule: one net at each corner, and no second one.
    (
        "row 0 1\nbook 1\nadd 1 0 0 1 1\nadd 2 0 0 0 1\nadd 2 0 1 1 1\nadd 2 0 1 1 0\n",
        "accepted\nrefused 25 0\nrefused 25 1\naccepted\nnet 1 0 0 1 1\nnet 2 0 1 1 0\nadded 2 0 1 1 0\nadded 1 0 0 1 1\nbook 1\n",
    ),
    // A straight side keeps its one pin; a list stopped at its third net, which the old rule would accept.
    (
        "row 0 2\nbook 1\nadd 1 0 1 1 1\nadd 2 0 1 1 0\nadds 3 0 0 1 0 4 0 2 1 2 5 1 2 0 0\n",
        "accepted\nrefused 25 0\nrefused 25 0 after 2\nnet 1 0 1 1 1\nnet 3 0 0 1 0\nnet 4 0 2 1 2\nadded 4 0 2 1 2\nadded 3 0 0 1 0\n\
         added 1 0 1 1 1\nbook 1\n",
    ),
    // Before the row. The same book again and the other one start afresh: no nets, no pile, no names.
    (
        "book 1\nrow 0 1\nadd 1 0 0 1 1\nadd 2 0 0 0 1\nkeep 3\nbook 1\nback\nreturn 3\nadd 1 0 0 1 1\nbook 0\nback\nadd 1 0 0 1 1\n\
         add 2 0 0 0 1\n",
        "accepted\nrefused 25 0\naccepted\nrefused 27 0\nrefused 36 0\naccepted\nrefused 27 0\naccepted\naccepted\n\
         net 1 0 0 1 1\nnet 2 0 0 0 1\nadded 2 0 0 0 1\nadded 1 0 0 1 1\n",
    ),
    // Other numbers are passed over: the new rule, the net, the pile and the name stay. A missing number is 0.
    (
        "row 0 1\nbook 1\nadd 1 0 0 1 1\nkeep 2\nbook 2\nbook 9\nbook 255\nbook 300\nbook 256\nbook 257\nadd 2 0 0 1 0\nback\nbook 249\n\
         return 2\nbook\nback\nadd 1 0 0 1 1\nadd 2 0 0 1 0\n",
        "accepted\naccepted\nrefused 25 0\naccepted\naccepted\nrefused 27 0\naccepted\naccepted\nnet 1 0 0 1 1\nnet 2 0 0 1 0\n\
         added 2 0 0 1 0\nadded 1 0 0 1 1\n",
    ),
    // Two pins taken at a corner: sound under the old rule, not under the new, until one alone is taken.
    (
        "row 0 1\ntaken 0 0 2\nback\nbook 1\nadd 1 0 1 1 1\nadds\nkeep 8\npaths\nbook 0\nadd 1 0 1 1 1\nbook 1\ntaken 0 0 1\nadd 1 0 0 1 1\n\
         add 1 0 1 1 1\n",
        "refused 27 0\nrefused 20 0\nrefused 20 0 after 0\nrefused 20 0\nrefused 20 0\naccepted\nrefused 25 0\naccepted\n\
         net 1 0 1 1 1\nadded 1 0 1 1 1\nbook 1\n",
    ),
    // Rows and taken pins keep the book: (1,0) is on a straight side once there are two rows, (0,0) and (2,0) are corners.
    (
        "book 1\nrow 0 1\nadd 1 0 0 1 0\nrow 0 1\ntaken 32 0 1\nadd 1 0 0 1 0\nadd 2 1 0 0 0\nadd 2 2 0 0 0\nadd 2 2 0 1 1\nadd 3 2 1 2 0\n",
        "accepted\naccepted\nrefused 25 0\nrefused 25 1\naccepted\nrefused 25 1\nnet 1 0 0 1 0\nnet 2 2 0 1 1\nadded 2 2 0 1 1\n\
         added 1 0 0 1 0\nbook 1\n",
    ),
    // The book alone, after others or with no rows.
    ("book 1\n", "book 1\n"),
    ("book 1\nbook 0\n", ""),
    ("book 1\nback\nbook 7", "refused 20 0\nbook 1\n"),
    ("book 0\nrow 0 1\nbook  0001 \nkeep 0\nadd 1 0 0 1 1\nkeep 7\nreturn 0\n",
     "accepted\naccepted\naccepted\naccepted\nkept 0 0\nkept 7 1\nnet 1 0 0 1 1\nbook 1\n"),
    // Only the whole word.
    (
        "row 0 1\nbooks 1\nbook1\nBook 1\nbo 1\nbookrow 1\nadd 1 0 0 1 1\nadd 2 0 0 1 1\n",
        "accepted\naccepted\nnet 1 0 0 1 1\nnet 2 0 0 1 1\nadded 2 0 0 1 1\nadded 1 0 0 1 1\n",
    ),
    // Routings under the new rule: of no nets, of two along two sides, none of two across the cell.
    (
        "book 1\nrow 0 1\npaths\nadds 1 0 0 0 1 2 1 1 1 0\npaths\nback\nback\nadds 1 0 0 1 1 2 0 1 1 0\npaths\nback\nback\n",
        "a routing of the nets on the board\naccepted 2\na routing of the nets on the board\naccepted\naccepted\naccepted 2\nrefused 34 0\n\
         accepted\naccepted\nbook 1\n",
    ),
    // The board of request §4 has one terminal at each corner.
    (
        "row 2 3\nrow 1 4\nrow 0 5\nrow 1 4\nrow 2 3\nbook 1\nadds 1 0 2 1 4 2 2 5 4 4 3 5 3 4 1 4 3 0 1 1 5 0 3 5 2 6 3 5 2 0\npaths\n\
         add 7 0 2 5 3\nback\nback\nback\nback\nback\nback\n",
        "accepted 6\nrefused 34 0\nrefused 25 0\naccepted\naccepted\naccepted\naccepted\naccepted\naccepted\nbook 1\n",
    ),
    // Three nets across the middle one of three narrow rows; 14 odd vertices.
    (
        "row 0 1\nrow 0 1\nrow 0 1\nbook 1\nadds 1 0 0 2 0 2 0 1 2 1 3 1 0 3 0\npaths\nrow 0 1\nrow 0 1\nrow 0 1\nrow 0 1\npaths\nrow 0 1\npaths\n",
        "accepted 3\nrefused 33 0 1\na routing of the nets on the board\nrefused 32 1 0\nbook 1\n",
    ),
];

/// The same with moves.
const MOVES_BY_HAND: [(&str, &str); 16] = [
    // The net stays, the pile and the names are gone, no nets under one of them. By the new rule (0,0) has no second pin, for a list (0,1) neither;
    // the withdrawn net's terminals are free.
    (
        "row 0 1\nkeep 5\nadd 1 0 0 1 1\nadd 2 0 1 1 0\nkeep 3\nwithdraw 2\nmove\nback\nreturn 3\nreturn 5\nadd 3 0 0 1 0\n\
         adds 3 0 1 1 0 4 0 1 1 0\n",
        "accepted\naccepted\naccepted\naccepted\naccepted\naccepted\nrefused 27 0\nrefused 36 0\nrefused 36 0\nrefused 25 0\n\
         refused 25 0 after 1\nnet 1 0 0 1 1\nnet 3 0 1 1 0\nadded 3 0 1 1 0\nbook 1\n",
    ),
    // Two nets at (0,0), later two at (1,2): nets, pile, name and rule stay, until no corner has two.
    (
        "row 0 2\nadds 1 0 0 1 1 2 0 2 0 0\nkeep 7\nmove\nreturn 6\nadd 3 1 2 1 0\nadd 4 0 1 1 2\nmove\nwithdraw 2\nmove\nback\nreturn 7\n\
         withdraw 2\nmove\nreturn 7\nback\n",
        "accepted 2\naccepted\nrefused 39 0 0\nrefused 36 0\naccepted\naccepted\nrefused 39 0 0\naccepted\nrefused 39 1 2\naccepted\naccepted\n\
         accepted\naccepted\nrefused 36 0\nrefused 27 0\nnet 1 0 0 1 1\nbook 1\n",
    ),
    // After a refused one at the end all is printed as it was.
    (
        "row 0 1\nadd 9 1 1 0 0\nkeep 0\nadd 2 0 0 1 0\nwithdraw 9\nback\nmove\n",
        "accepted\naccepted\naccepted\naccepted\naccepted\nrefused 39 0 0\nnet 2 0 0 1 0\nnet 9 1 1 0 0\nadded 2 0 0 1 0\nadded 9 1 1 0 0\n\
         kept 0 1\nnet 9 1 1 0 0\n",
    ),
    // Under the new rule already, by the book or by a move: pile and name stay.
    (
        "book 1\nrow 0 1\nmove\nadd 1 0 0 1 1\nkeep 2\nwithdraw 1\nmove\nback\nback\nreturn 2\nmove\nreturn 2\nback\n",
        "accepted\naccepted\naccepted\naccepted\naccepted\naccepted\naccepted\naccepted\naccepted\naccepted\nrefused 27 0\n\
         net 1 0 0 1 1\nkept 2 1\nnet 1 0 0 1 1\nbook 1\n",
    ),
    (
        "row 0 1\nadd 1 0 0 1 1\nkeep 4\nmove\nadd 2 0 1 1 0\nkeep 5\nwithdraw 1\nmove\nmove\nback\nreturn 4\nreturn 5\nadd 3 0 0 0 1\nback\n\
         withdraw 2\nmove\n",
        "accepted\naccepted\naccepted\naccepted\naccepted\naccepted\naccepted\naccepted\naccepted\nrefused 36 0\naccepted\nrefused 25 0\n\
         refused 27 0\naccepted\naccepted\nnet 1 0 0 1 1\nwithdrawn 2 0 1 1 0\nkept 5 2\nnet 1 0 0 1 1\nnet 2 0 1 1 0\nbook 1\n",
    ),
    // 20 comes first: no rows, under either rule; two pins taken of one, where 39 would be due; then not convex.
    (
        "move\nbook 1\nmove\nrow 0 2\ntaken 0 1 2\nmove\nbook 0\nmove\ntaken 0 1 1\nrow 1 3\nmove\n",
        "refused 20 0\nrefused 20 0\nrefused 20 0\nrefused 20 0\nrefused 20 0\n",
    ),
    // Two pins taken at a corner: no net is there, and a move is refused under the old rule, as is every call under the new one.
    (
        "row 0 1\ntaken 1 0 2\nmove\nadd 1 0 0 1 1\nmove\nback\nbook 1\nmove\nbook 0\ntaken 1 0 1\nmove\nadd 1 0 1 1 0\nadd 1 0 0 1 1\n",
        "refused 39 1 0\naccepted\nrefused 39 1 0\naccepted\nrefused 20 0\naccepted\nrefused 25 1\naccepted\nnet 1 0 0 1 1\n\
         added 1 0 0 1 1\nbook 1\n",
    ),
    // A pin taken and a terminal at (1,2), at either end of the net. One of the two alone is not too many there, nor is it on a straight side.
    (
        "row 0 2\ntaken 1 2 1\ntaken 0 1 1\nadd 1 0 0 1 2\nmove\nwithdraw 1\nadd 2 1 2 1 1\nmove\nback\nadd 3 0 0 1 1\nmove\nadd 1 0 2 1 2\n\
         add 1 0 1 1 0\nadd 1 0 2 1 1\nadd 1 0 2 1 0\n",
        "accepted\nrefused 39 1 2\naccepted\naccepted\nrefused 39 1 2\naccepted\naccepted\naccepted\nrefused 25 1\nrefused 25 0\n\
         refused 25 1\naccepted\nnet 1 0 2 1 0\nnet 3 0 0 1 1\nadded 1 0 2 1 0\nbook 1\n",
    ),
    // Board h, the first of six corners and then of fewer: line by line, (1,3) before (2,0), and on one line (0,1) before (0,2).
    (
        "row 1 2\nrow 0 3\nrow 1 2\ntaken 2 0 2\ntaken 1 3 2\nmove\nadds 1 0 1 3 1 2 0 1 3 2 3 0 2 3 1 4 3 2 0 2\nmove\nwithdraw 1\nmove\n\
         withdraw 3\nmove\ntaken 1 3 0\nadds 1 3 1 0 1 2 0 2 3 1\nmove\ntaken 2 0 1\nadds 1 3 1 0 1 2 0 2 3 1\nmove\nback\nmove\n",
        "refused 39 1 3\naccepted 4\nrefused 39 0 1\naccepted\nrefused 39 0 2\naccepted\nrefused 39 1 3\naccepted 2\nrefused 39 2 0\naccepted 2\n\
         refused 39 3 1\naccepted\naccepted\nnet 1 3 1 0 1\nbook 1\n",
    ),
    // Rows and taken pins keep the rule that a move brought, a book does not; each starts afresh.
    (
        "row 0 1\nadd 1 0 0 1 1\nmove\nrow 0 1\nback\nadd 1 0 0 2 1\nadd 2 2 1 0 1\ntaken 2 0 1\nadd 2 2 0 0 1\nadd 2 1 0 0 1\nbook 0\nback\n\
         adds 1 0 0 2 0 2 0 0 2 1\nmove\nback\nmove\nwithdraw 1\nmove\n",
        "accepted\naccepted\nrefused 27 0\naccepted\nrefused 25 0\nrefused 25 0\naccepted\nrefused 27 0\naccepted 2\nrefused 39 0 0\naccepted\n\
         refused 39 2 0\naccepted\naccepted\nbook 1\n",
    ),
    (
        "row 0 1\nmove\nadds 1 0 0 1 1 2 0 1 1 0\nbook 7\nback\nbook 1\nback\nmove\nbook 0\n",
        "accepted\naccepted 2\naccepted\nrefused 27 0\naccepted\n",
    ),
    // Only the whole word.
    (
        "row 0 1\nmoves\nmove1\nMove\nmov\nmoverow 0 1\nbookmove 1\nmoved\nadd 1 0 0 1 1\nadd 2 0 0 1 1\nmove  \nback\nmove",
        "accepted\naccepted\nrefused 39 0 0\naccepted\naccepted\nnet 1 0 0 1 1\nbook 1\n",
    ),
    // Routings after moves: of two nets along two sides, none of two across the cell, by a move before or after them.
    (
        "row 0 1\nadds 1 0 0 0 1 2 1 1 1 0\nmove\npaths\nwithdraw 1\nwithdraw 2\nadds 1 0 0 1 1 2 0 1 1 0\npaths\nbook 0\n\
         adds 1 0 0 1 1 2 0 1 1 0\nmove\npaths\nwithdraw 2\npaths\n",
        "accepted 2\naccepted\na routing of the nets on the board\naccepted\naccepted\naccepted 2\nrefused 34 0\naccepted 2\naccepted\n\
         refused 34 0\naccepted\na routing of the nets on the board\nnet 1 0 0 1 1\nwithdrawn 2 0 1 1 0\nbook 1\n",
    ),
    // Three nets across the middle one of three narrow rows; 14 odd vertices.
    (
        "row 0 1\nrow 0 1\nrow 0 1\nadds 1 0 0 2 0 2 0 1 2 1 3 1 0 3 0\nmove\npaths\nwithdraw 3\npaths\n",
        "accepted 3\naccepted\nrefused 33 0 1\naccepted\na routing of the nets on the board\nnet 1 0 0 2 0\nnet 2 0 1 2 1\n\
         withdrawn 3 1 0 3 0\nbook 1\n",
    ),
    ("row 0 8\nmove\npaths\n", "accepted\nrefused 32 0 1\nbook 1\n"),
    // The board of request §4 has one terminal at each corner.
    (
        "row 2 3\nrow 1 4\nrow 0 5\nrow 1 4\nrow 2 3\nadds 1 0 2 1 4 2 2 5 4 4 3 5 3 4 1 4 3 0 1 1 5 0 3 5 2 6 3 5 2 0\npaths\nmove\npaths\n\
         add 7 0 2 5 3\nback\n",
        "accepted 6\nrefused 34 0\naccepted\nrefused 34 0\nrefused 25 0\nrefused 27 0\nnet 1 0 2 1 4\nnet 2 2 5 4 4\nnet 3 5 3 4 1\nnet 4 3 0 1 1\n\
         net 5 0 3 5 2\nnet 6 3 5 2 0\nbook 1\n",
    ),
];

/// The same with wire.
const WIRE_BY_HAND: [(&str, &str); 9] = [
    // No rows; then the ring, each net of it across one row or column. It is routed, taken back and withdrawn from.
    (
        "wire\nrow 0 1\nwire\nadds 1 0 0 0 1 2 0 1 1 1 3 1 1 1 0 4 1 0 0 0\nwire\npaths\nwire\nback\nwire\nwithdraw 1\nwire\n",
        "refused 20 0\n0 4\naccepted 4\n4 4\na routing of the nets on the board\n4 4\naccepted\n3 4\naccepted\n2 4\nnet 2 0 1 1 1\n\
         net 3 1 1 1 0\nwithdrawn 1 0 0 0 1\nadded 3 1 1 1 0\nadded 2 0 1 1 1\nadded 1 0 0 0 1\n",
    ),
    // Board c, which is overfull, and then b: the sum may be above the edges.
    (
        "row 0 1\nadds 1 0 0 1 1 2 0 0 1 1 3 0 1 1 0 4 0 1 1 0\nwire\npaths\nback\nwire\npaths\nback\nwire\npaths\n",
        "accepted 4\n8 4\nrefused 33 0 0\naccepted\n6 4\nrefused 33 0 0\naccepted\n4 4\na routing of the nets on the board\nnet 1 0 0 1 1\n\
         net 2 0 0 1 1\nadded 2 0 0 1 1\nadded 1 0 0 1 1\n",
    ),
    // One row of two cells: nets across it, along it and both, kept, taken back and returned to. Refused calls change no number.
    (
        "row 0 2\nadd 1 0 0 1 2\nkeep 3\nwire\nback\nwire\nadd 2 0 1 1 1\nwire\nadd 3 0 1 0 2\nwire\nreturn 3\nwire\nback\nwire\n\
         return 4\nwire\nadd 4 0 2 0 0\nwire\n",
        "accepted\naccepted\n3 7\naccepted\n0 7\naccepted\n1 7\nrefused 25 0\n1 7\naccepted\n3 7\nrefused 27 0\n3 7\nrefused 36 0\n3 7\n\
         accepted\n5 7\nnet 1 0 0 1 2\nnet 4 0 2 0 0\nadded 4 0 2 0 0\nkept 3 1\nnet 1 0 0 1 2\n",
    ),
    // Two pins taken of one; one, under both rules; not convex; rows out of bounds.
    (
        "row 0 2\ntaken 0 1 2\nwire\ntaken 0 1 1\nwire\nbook 1\nwire\nrow 1 3\nwire\nrow 0 32\nwire\n",
        "refused 20 0\n0 7\n0 7\nrefused 20 0\nrefused 20 0\nbook 1\n",
    ),
    // Board h: two nets across the other way, each past the rows' ends. 14 odd vertices; two rows of eight cells.
    (
        "row 1 2\nrow 0 3\nrow 1 2\nadd 1 1 0 2 3\nwire\nadd 2 3 1 0 2\nwire\n",
        "accepted\n4 16\naccepted\n8 16\nnet 1 1 0 2 3\nnet 2 3 1 0 2\nadded 2 3 1 0 2\nadded 1 1 0 2 3\n",
    ),
    ("row 0 8\nwire\npaths\nwire\nrow 0 8\nwire\n", "0 25\nrefused 32 0 1\n0 25\n0 42\n"),
    // Nets, pile and names stay; it starts nothing afresh, a book does.
    (
        "row 0 1\nadd 1 0 0 1 1\nkeep 0\nwire\nback\nreturn 0\nwire\nadd 2 0 1 1 1\nwire\nmove\nwire\nback\nwire\nback\nbook 0\nwire\n\
         return 0\n",
        "accepted\naccepted\n2 4\naccepted\naccepted\n2 4\naccepted\n3 4\nrefused 39 1 1\n3 4\naccepted\n2 4\nrefused 27 0\n0 4\n\
         refused 36 0\n",
    ),
    // The board of request §4: rows 2, 2, 4, 2 and 2, columns the same; a move changes neither number.
    (
        "row 2 3\nrow 1 4\nrow 0 5\nrow 1 4\nrow 2 3\nadds 1 0 2 1 4 2 2 5 4 4 3 5 3 4 1 4 3 0 1 1 5 0 3 5 2 6 3 5 2 0\nwire\npaths\n\
         move\nwire\nback\nwithdraw 6\nwire\nback\nwire\n",
        "accepted 6\n24 36\nrefused 34 0\naccepted\n24 36\nrefused 27 0\naccepted\n18 36\naccepted\n24 36\nnet 1 0 2 1 4\nnet 2 2 5 4 4\n\
         net 3 5 3 4 1\nnet 4 3 0 1 1\nnet 5 0 3 5 2\nnet 6 3 5 2 0\nbook 1\n",
    ),
    // Only the whole word; what stands behind it is passed over.
    (
        "row 0 1\nadd 1 0 0 1 1\nwires\nwire1\nWire\nwir\nwirewire\nrowwire 0 1\nwire 9 9\nwire wire\nwire back\nwire 250 row 0 1\nwire  \n\
         back\nwire",
        "accepted\n2 4\n2 4\n2 4\n2 4\n2 4\naccepted\n0 4\n",
    ),
];

/// The largest board with a net across all its rows and columns, and then a row too many.
fn largest_by_hand() -> (String, String) {
    let text = format!("{}wire\nadd 64 31 0 0 31\nwire\nadd 1 0 0 31 0\nwire\nrow 0 31\nwire\n", "row 0 31\n".repeat(31));
    (text, "0 1984\naccepted\n62 1984\naccepted\n93 1984\nrefused 20 0\n".to_string())
}

/// A net that comes and goes, told each time: of 64 changes none is lost.
fn told_by_hand() -> (String, String) {
    let text = format!("row 0 1\n{}{}wire\n", "add 1 0 0 1 1\nwire\nwithdraw 1\nwire\n".repeat(32), "back\nwire\n".repeat(65));
    let told = "accepted\n2 4\naccepted\n0 4\n".repeat(32);
    (text, format!("{told}{told}refused 27 0\n0 4\n0 4\n"))
}

/// A net that comes and goes: of 65 changes the first is lost, and when 64 are taken back the net is there still.
fn lost_by_hand() -> (String, String) {
    let comes_and_goes = "add 1 0 0 1 1\nwithdraw 1\n".repeat(32);
    let text = format!("row 0 1\n{comes_and_goes}adds 1 0 0 1 1\n{}", "back\n".repeat(65));
    let answers = format!("{}accepted 1\n{}refused 27 0\nnet 1 0 0 1 1\n", "accepted\n".repeat(64), "accepted\n".repeat(64));
    (text, answers)
}

/// A full pile that has lost a change is emptied by a return; another one, with none lost, is then taken back to the nets that the return brought.
fn emptied_by_hand() -> (String, String) {
    let (comes_and_goes, goes_and_comes) = ("add 1 0 0 1 1\nwithdraw 1\n".repeat(32), "withdraw 1\nadd 1 0 0 1 1\n".repeat(32));
    let text = format!(
        "row 0 1\nkeep 6\n{comes_and_goes}add 1 0 0 1 1\nkeep 2\nreturn 6\nback\nreturn 2\n{goes_and_comes}{}",
        "back\n".repeat(65),
    );
    let accepted = "accepted\n".repeat(64);
    let answers = format!(
        "accepted\n{accepted}accepted\naccepted\naccepted\nrefused 27 0\naccepted\n{accepted}{accepted}refused 27 0\nnet 1 0 0 1 1\n\
         kept 2 1\nnet 1 0 0 1 1\nkept 6 0\n"
    );
    (text, answers)
}

/// A full pile that has lost a change is emptied by a move; another one, with none lost, is left as it is by the next, and is then taken back.
fn moved_by_hand() -> (String, String) {
    let (comes_and_goes, goes_and_comes) = ("add 1 0 0 1 1\nwithdraw 1\n".repeat(32), "withdraw 1\nadd 1 0 0 1 1\n".repeat(32));
    let text = format!(
        "row 0 1\n{comes_and_goes}add 1 0 0 1 1\nkeep 6\nmove\nback\n{goes_and_comes}keep 7\nmove\n{}return 6\n",
        "back\n".repeat(65),
    );
    let accepted = "accepted\n".repeat(64);
    let answers = format!(
        "{accepted}accepted\naccepted\naccepted\nrefused 27 0\n{accepted}accepted\naccepted\n{accepted}refused 27 0\nrefused 36 0\nnet 1 0 0 1 1\n\
         kept 7 1\nnet 1 0 0 1 1\nbook 1\n"
    );
    (text, answers)
}

/// The machine's answers, and the program's, to the texts above.
fn by_hand() {
    let texts = BY_HAND.iter().chain(&NAMES_BY_HAND).chain(&TAKEN_BY_HAND).chain(&BOOKS_BY_HAND).chain(&MOVES_BY_HAND).chain(&WIRE_BY_HAND);
    let mut all: Vec<(String, String)> = texts.map(|(text, answers)| (text.to_string(), answers.to_string())).collect();
    all.push(lost_by_hand());
    all.push(emptied_by_hand());
    all.push(moved_by_hand());
    all.push(largest_by_hand());
    all.push(told_by_hand());
    for (text, answers) in all {
        let machine = answered(&text);
        assert_eq!(machine.output, answers, "the machine on a text answered by hand:\n{text}");
        compare("a text answered by hand", &text, &machine);
    }
}

// ---------------------------------------------------------------- the program held against the machine

fn difference(what: &str, text: &str, output: &str, machine: &Machine) -> ! {
    let (judged, answers) = (with_routings_judged(output, &machine.routed), &machine.output);
    let same = judged.lines().zip(answers.lines()).take_while(|(a, b)| a == b).count();
    println!("DIFFERENCE: {what}, line {} of the answers, a routing taken as one", same + 1);
    println!("---- the text\n{text}\n---- {PROGRAM}\n{output}\n---- the same, routings judged\n{judged}\n---- independent\n{answers}\n----");
    std::process::exit(1)
}

fn compare(what: &str, text: &str, machine: &Machine) {
    assert!(text.len() <= MOST_BYTES);
    let (output, status) = program::printed(PROGRAM, text.as_bytes());
    let output = String::from_utf8_lossy(&output).into_owned();
    if with_routings_judged(&output, &machine.routed) != machine.output {
        difference(what, text, &output, machine);
    }
    if !status.success() {
        difference(&format!("{what}: the program ended badly"), text, &output, machine);
    }
}

/// One case. Answers with what it reached.
fn case(seed: u64, case: u64) -> Counts {
    let text = text(Random::of_case(seed, 's', case));
    let machine = answered(&text);
    compare(&format!("seed {seed} part s case {case}"), &text, &machine);
    machine.counts
}

fn whole(seed: u64) {
    let start = Instant::now();
    by_hand();
    let mut counts = Counts::new();
    for number in 0..CASES {
        for (what, count) in case(seed, number) {
            *counts.entry(what).or_insert(0) += count;
        }
    }
    if std::env::var_os("SESSIONS_COUNTS").is_some() {
        counts.iter().for_each(|(what, count)| println!("{count:8} {what}"));
    }
    let short = too_little(&counts);
    if !short.is_empty() {
        println!("FAILED: sessions reach too little\n{}", short.join("\n"));
        std::process::exit(1);
    }
    let seen = |what: &str| counts.get(what).copied().unwrap_or(0);
    let lists = seen("list: stopped at the first") + seen("list: stopped in the middle") + seen("list: stopped at the last");
    let time = start.elapsed().as_secs_f64();
    println!(
        "sessions: {CASES} texts with {} calls, {} lists of nets that went on whole and {lists} that were stopped,",
        seen("call"),
        seen("list: whole"),
    );
    println!("{} keeps and {} returns,", seen("keep accepted"), seen("return accepted"));
    println!(
        "{} texts with taken pins, {} of them with a net refused for these alone,",
        seen("text: pins taken, sound"),
        seen("text: a net refused 25, accepted with no pins taken"),
    );
    println!(
        "{} texts under the new rule, {} of them with a net refused for that rule alone,",
        seen("text: under the new rule, sound"),
        seen("text: a net refused 25, accepted under the old rule"),
    );
    println!(
        "{} moves to the new rule, {} that left a session under it as it was and {} refused by 39,",
        seen("move: over"),
        seen("move: all stays"),
        seen("move refused 39"),
    );
    println!("{} wires told and {} refused,", seen("wire told"), seen("wire refused 20"));
    println!("{} routings and {} refused by 34; {time:.1} s; no difference", seen("paths: a routing"), seen("paths refused 34"));
}

fn usage() -> ! {
    eprintln!("usage: compare/run [SEED [s CASE]]");
    std::process::exit(2)
}

fn main() {
    let args: Vec<String> = std::env::args().skip(1).collect();
    let number = |text: &String| text.parse().unwrap_or_else(|_| usage());
    let seed = args.first().map_or(1985, number);
    match &args[..] {
        [] | [_] => whole(seed),
        [_, part, one] if part == "s" => {
            case(seed, number(one));
            println!("no difference in this case");
        }
        _ => usage(),
    }
}
