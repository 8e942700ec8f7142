//! Boards with odd vertices: those of bench/odd, on which the search for helper pairs is dear, and random ones with bare pins.

use crate::boards::{any_nets, with_bare_pins, Board, Random};
use crate::effort::effort_of;
use crate::{broken, judged, median, pass, proved, same, seconds, slowest, turns, Call, Group, BUFFER, ROUNDS};
use std::collections::BTreeMap;
use std::hint::black_box;

/// The files of bench/odd; README.md there tells what they are.
const STORED: [&str; 10] = [
    "late_5", "late_16", "late_31", "late_uneven", "late_10_odd", "none_5", "none_16", "none_31", "none_uneven", "none_10_odd",
];

/// The aim, in seconds: no board of up to 12 odd vertices takes longer, routed or refused.
const AIM: f64 = 1e-3;

/// A line that is printed: a board or several, and how much the search does on it.
struct Row {
    group: Group,
    odd: f64,
    pairs: f64,
    answer: &'static str,
}

impl Row {
    /// The two routers must agree on these boards, and the judge must pass what is routed.
    fn new(name: &str, boards: &[Board]) -> Row {
        let mean = |f: &dyn Fn(&Board) -> usize| boards.iter().map(f).sum::<usize>() as f64 / boards.len() as f64;
        let cases: Vec<(Vec<u8>, Vec<u8>)> = boards.iter().map(|b| (b.bytes(), routed(b))).collect();
        Row {
            odd: mean(&|b| b.odd_vertices().len()),
            pairs: mean(&|b| effort_of(b).pairs as usize),
            answer: if cases.iter().all(|c| c.1.is_empty()) { "34" } else { "routed" },
            group: Group { name: name.to_string(), vertices: mean(&|b| b.vertices()), nets: mean(&|b| b.nets.len()), cases },
        }
    }

    fn print(&self, times: &[f64; 3], slowest: f64, single: f64) {
        let g = &self.group;
        print!("{:19} {:8.0} {:5.0} {:4.0} {:12.0}  {:7}", g.name, g.vertices, g.nets, self.odd, self.pairs, self.answer);
        println!("{:8.0} {:8.0} {:13.2} {:8.0} {:9.0}", 1e6 * times[0], 1e6 * times[1], times[2], 1e6 * slowest, 1e6 * single);
    }
}

/// The bytes of the board's routing, none where it gets 34.
fn routed(board: &Board) -> Vec<u8> {
    let bytes = board.bytes();
    match same(&bytes) {
        (Ok(count), mut list) => {
            list.truncate(4 * count);
            assert_eq!(judged(&bytes, &list).0, 0, "the judge passes the routing");
            list
        }
        (Err(refusal), _) => {
            assert_eq!((refusal.number, refusal.place), (34, (0, 0)), "what a board with at most 12 odd vertices and no overfull cut can get");
            Vec::new()
        }
    }
}

fn stored(name: &str) -> Board {
    let file = format!("bench/odd/{name}.board");
    Board::read(&std::fs::read(&file).unwrap_or_else(|_| panic!("{file} is there")))
}

fn boards_of(group: &Group) -> impl Iterator<Item = Board> + '_ {
    group.cases.iter().map(|case| Board::read(&case.0))
}

/// A row for each board that is stored, and for each group of even boards one where some of their nets are withdrawn.
fn rows(random: &mut Random, even: &[Group]) -> Vec<Row> {
    let mut rows: Vec<Row> = STORED.iter().map(|name| Row::new(name, &[stored(name)])).collect();
    for group in even {
        let bare: Vec<Board> = boards_of(group).map(|board| with_bare_pins(random, &board)).collect();
        rows.push(Row::new(&format!("bare pins, {}", group.name), &bare));
    }
    rows
}

/// Both routers on boards that are not timed: even ones with so many nets withdrawn that most get 32, small ones with any nets, and damaged copies of
/// these and of the rows. Answers with how often each refusal came; 0 stands for routed.
fn compare(random: &mut Random, rows: &[Row], even: &[Group]) -> BTreeMap<u32, usize> {
    let mut boards: Vec<Vec<u8>> = rows.iter().flat_map(|row| row.group.cases.iter().map(|c| c.0.clone())).collect();
    boards.extend(even.iter().flat_map(boards_of).map(|board| board.without(random, 9).bytes()));
    boards.extend((0..20_000).map(|_| any_nets(random).bytes()));
    for i in 0..20_000 {
        boards.push(broken(random, &boards[i]));
    }
    let mut answers = BTreeMap::new();
    for board in &boards {
        let number = same(board).0.err().map_or(0, |refusal| refusal.number);
        *answers.entry(number).or_default() += 1;
    }
    answers
}

/// The proved router's seconds a call, the plain one's and their ratio, row by row; each is the median of rounds in which they all take turns.
fn times(rows: &[Row]) -> Vec<[f64; 3]> {
    let mut buffer = vec![0; BUFFER];
    let calls = [Call::Proved, Call::Plain];
    let often: Vec<[usize; 2]> = rows.iter().map(|row| calls.map(|call| turns(|| pass(&row.group, call, &mut buffer)))).collect();
    let mut one = |row: &Row, often: &[usize; 2]| {
        let [proved, plain] = calls.map(|call| seconds(often[call as usize], || pass(&row.group, call, &mut buffer)));
        let boards = row.group.cases.len() as f64;
        [proved / boards, plain / boards, proved / plain]
    };
    let rounds: Vec<Vec<[f64; 3]>> = (0..ROUNDS).map(|_| rows.iter().zip(&often).map(|(row, often)| one(row, often)).collect()).collect();
    (0..rows.len()).map(|i| [0, 1, 2].map(|k| median(rounds.iter().map(|round| round[i][k]).collect()))).collect()
}

fn print_answers(answers: &BTreeMap<u32, usize>) {
    for number in [0, 32, 33, 34] {
        assert!(answers.contains_key(&number), "answer {number} has come");
    }
    let told: Vec<String> = answers.iter().filter(|a| *a.0 != 0).map(|(number, count)| format!("{number}: {count}")).collect();
    println!("\nboards with odd vertices, small boards and damaged copies: {} in all, the same bytes from both", answers.values().sum::<usize>());
    println!("{} routed; refused, by number: {}", answers[&0], told.join(", "));
}

/// Compares and times the two routers on boards with odd vertices.
pub fn report(seed: u64, even: &[Group]) {
    let mut random = Random::new(seed ^ 0x0DD);
    let rows = rows(&mut random, even);
    print_answers(&compare(&mut random, &rows, even));
    println!("                                                               microseconds a call              slowest   longest");
    println!("boards              vertices  nets  odd  pairs tried  answer    proved    plain  proved:plain    board    single");
    let (mut worst, mut buffer) = ((0f64, 0f64), vec![0; BUFFER]);
    for (row, times) in rows.iter().zip(times(&rows)) {
        let (board, single) = slowest(std::slice::from_ref(&row.group), &mut |c| _ = black_box(proved(black_box(&c.0), &mut buffer)));
        row.print(&times, board, single);
        worst = (worst.0.max(board), worst.1.max(single));
    }
    print!("slowest board of up to 12 odd vertices: {:.3} ms; longest single call seen: {:.3} ms; ", 1e3 * worst.0, 1e3 * worst.1);
    println!("the aim, 1 ms, is {}", if worst.0 <= AIM { "met" } else { "missed" });
}
