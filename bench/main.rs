//! Times the proved library, over its C interface, beside a plain Rust router that does the same steps.
//!
//!     main [SEED]
//!     main once ROUTER FILE      the router proved or plain routes the board of that file, once: for counting instructions
//!
//! Before anything is timed, both route every board, and every damaged copy of one, and must answer with the same numbers and the same bytes.
//! Boards with odd vertices are compared and timed in a block of their own.
//! Each figure is the median of many rounds; in a round the sizes, the proved router, the plain one and the judge take turns, so that a change of
//! load meets all of them. A ratio is the median of the rounds' ratios.

mod boards;
#[path = "../editor/cidrask.rs"]
mod cidrask;
mod effort;
mod odd;
mod plain;

use boards::{every_edge, longest, routable, Board, Random};
use cidrask::{cidrask_alike, cidrask_draw, cidrask_judge, cidrask_route};
use std::hint::black_box;
use std::io::Write;
use std::process::{Command, Stdio};
use std::time::Instant;

const ROUNDS: usize = 41;
/// How long each part of a round takes, in seconds, about.
const TURN: f64 = 0.012;
const BUFFER: usize = 4 * 2049;

fn proved(board: &[u8], buffer: &mut [u8]) -> plain::Answer {
    let (mut first, mut second) = (0, 0);
    let number = unsafe { cidrask_route(board.as_ptr(), board.len(), buffer.as_mut_ptr(), buffer.len(), &mut first, &mut second) };
    match number {
        0 => Ok(first as usize),
        _ => Err(plain::Refusal { number, place: (first as usize, second as usize) }),
    }
}

/// The refusal's number or 0, and the edges, turns and knock-knees or the place.
fn judged(board: &[u8], list: &[u8]) -> (u32, [u64; 3]) {
    let [mut first, mut second, mut third] = [0; 3];
    let number = unsafe { cidrask_judge(board.as_ptr(), board.len(), list.as_ptr(), list.len(), &mut first, &mut second, &mut third) };
    (number, [first, second, third])
}

/// Whether two lists are alike.
fn alike(board: &[u8], one: &[u8], two: &[u8]) -> bool {
    let (mut first, mut second) = (0, 0);
    let number =
        unsafe { cidrask_alike(board.as_ptr(), board.len(), one.as_ptr(), one.len(), two.as_ptr(), two.len(), &mut first, &mut second) };
    assert_eq!(number, 0, "both lists pass");
    first == 1
}

/// The page of a list; how many bytes it has.
fn drawn(board: &[u8], list: &[u8], page: &mut [u8]) -> u64 {
    let mut first = 0;
    let number = unsafe { cidrask_draw(board.as_ptr(), board.len(), list.as_ptr(), list.len(), page.as_mut_ptr(), page.len(), &mut first) };
    assert_eq!(number, 0, "the list passes");
    first
}

/// Boards of a kind, each with the bytes of its routing.
struct Group {
    name: String,
    vertices: f64,
    nets: f64,
    cases: Vec<(Vec<u8>, Vec<u8>)>,
}

/// Both routers on these bytes: the same answer and the same buffer, to the last byte.
fn same(board: &[u8]) -> (plain::Answer, Vec<u8>) {
    let mut words = vec![0xA5; BUFFER];
    let answer = proved(board, &mut words);
    let mut others = vec![0xA5; BUFFER];
    let other = plain::route(board, &mut others);
    if answer != other || words != others {
        println!("DIFFERENCE: proved {answer:?}, plain {other:?}, on {board:02X?}");
        std::process::exit(1);
    }
    (answer, words)
}

fn group(random: &mut Random, name: &str, count: usize, bare: impl Fn(&mut Random) -> Board) -> Group {
    let boards: Vec<Board> = (0..count).map(|_| routable(random, &bare)).collect();
    let mut cases = Vec::new();
    for board in &boards {
        let bytes = board.bytes();
        let (answer, mut list) = same(&bytes);
        list.truncate(4 * answer.expect("a board that can be routed"));
        assert_eq!(judged(&bytes, &list).0, 0, "the judge passes the routing");
        cases.push((bytes, list));
    }
    let mean = |f: &dyn Fn(&Board) -> usize| boards.iter().map(f).sum::<usize>() as f64 / count as f64;
    Group { name: name.to_string(), vertices: mean(&|b| b.vertices()), nets: mean(&|b| b.nets.len()), cases }
}

/// A copy of a board with a few bits turned over, or cut short.
fn broken(random: &mut Random, board: &[u8]) -> Vec<u8> {
    let mut bytes = board.to_vec();
    for _ in 0..1 + random.below(2) {
        let at = random.below(bytes.len());
        bytes[at] ^= 1 << random.below(8);
    }
    if random.below(20) == 0 {
        bytes.truncate(random.below(bytes.len()));
    }
    bytes
}

/// Damaged copies of boards: the two must refuse alike. Answers with the counts of refused and of routed copies.
fn damaged(random: &mut Random, groups: &[Group]) -> (usize, usize) {
    let (mut refused, mut routed) = (0, 0);
    for i in 0..40_000 {
        let cases = &groups[i % groups.len()].cases;
        let at = random.below(cases.len());
        match same(&broken(random, &cases[at].0)).0 {
            Ok(_) => routed += 1,
            Err(_) => refused += 1,
        }
    }
    (refused, routed)
}

fn median(mut times: Vec<f64>) -> f64 {
    times.sort_by(f64::total_cmp);
    times[times.len() / 2]
}

/// How often `call` goes over all cases in a turn.
fn turns(mut call: impl FnMut()) -> usize {
    call();
    let start = Instant::now();
    call();
    (TURN / start.elapsed().as_secs_f64()).ceil() as usize
}

/// Seconds for each time that `call` is made.
fn seconds(times: usize, mut call: impl FnMut()) -> f64 {
    let start = Instant::now();
    for _ in 0..times {
        call();
    }
    start.elapsed().as_secs_f64() / times as f64
}

/// What is timed.
#[derive(Clone, Copy)]
enum Call {
    Proved,
    Plain,
    Judge,
}

const CALLS: [Call; 3] = [Call::Proved, Call::Plain, Call::Judge];

/// One call on each board of a group.
fn pass(group: &Group, call: Call, buffer: &mut [u8]) {
    for (board, list) in &group.cases {
        let board = black_box(board);
        match call {
            Call::Proved => _ = black_box(proved(board, buffer)),
            Call::Plain => _ = black_box(plain::route(board, buffer)),
            Call::Judge => _ = black_box(judged(board, black_box(list))),
        }
    }
}

/// Seconds a call in each round, by group and by what is called.
struct Rounds(Vec<Vec<[f64; 3]>>);

impl Rounds {
    fn new(groups: &[Group]) -> Rounds {
        let mut buffer = vec![0; BUFFER];
        let often: Vec<[usize; 3]> = groups.iter().map(|g| CALLS.map(|call| turns(|| pass(g, call, &mut buffer)))).collect();
        let mut one = |g: &Group, often: &[usize; 3]| {
            CALLS.map(|call| seconds(often[call as usize], || pass(g, call, &mut buffer)) / g.cases.len() as f64)
        };
        Rounds((0..ROUNDS).map(|_| groups.iter().zip(&often).map(|(g, o)| one(g, o)).collect()).collect())
    }

    fn median(&self, figure: impl Fn(&[[f64; 3]]) -> f64) -> f64 {
        median(self.0.iter().map(|round| figure(round)).collect())
    }

    fn time(&self, group: usize, call: Call) -> f64 {
        self.median(|round| round[group][call as usize])
    }

    /// The proved router's time over another's.
    fn ratio(&self, group: usize, other: Call) -> f64 {
        self.median(|round| round[group][0] / round[group][other as usize])
    }

    /// The time a vertex of the group `large` over that of the group `small`.
    fn growth(&self, groups: &[Group], call: Call, small: usize, large: usize) -> f64 {
        let time = |round: &[[f64; 3]], g: usize| round[g][call as usize] / groups[g].vertices;
        self.median(|round| time(round, large) / time(round, small))
    }
}

fn print_rounds(groups: &[Group], rounds: &Rounds) {
    println!("\n                          routes a second                    ns a vertex      judgements");
    println!("boards    vertices  nets   proved    plain  proved:plain   proved    plain    a second");
    for (i, g) in groups.iter().enumerate() {
        let (proved, plain, judge) = (rounds.time(i, Call::Proved), rounds.time(i, Call::Plain), rounds.time(i, Call::Judge));
        let ratio = rounds.ratio(i, Call::Plain);
        print!("{:9} {:8.0} {:5.0} {:8.0} {:8.0} {:13.2}", g.name, g.vertices, g.nets, 1.0 / proved, 1.0 / plain, ratio);
        println!(" {:8.0} {:8.0} {:11.0}", 1e9 * proved / g.vertices, 1e9 * plain / g.vertices, 1.0 / judge);
    }
    let [proved, plain] = [Call::Proved, Call::Plain].map(|call| rounds.growth(groups, call, 0, 3));
    println!("time a vertex, 31 by 31 over 4 by 4: proved {proved:.2}, plain {plain:.2}");
}

/// Of all boards the one that takes longest, by the median of several calls; and the longest single call, whatever else the machine did.
fn slowest(groups: &[Group], call: &mut dyn FnMut(&(Vec<u8>, Vec<u8>))) -> (f64, f64) {
    let (mut board, mut single) = (0f64, 0f64);
    for case in groups.iter().flat_map(|g| &g.cases) {
        let times: Vec<f64> = (0..15).map(|_| seconds(1, || call(case))).collect();
        single = times.iter().copied().fold(single, f64::max);
        board = board.max(median(times));
    }
    (board, single)
}

/// Seconds that the program `laps` takes for so many laps of the kind that the word tells.
fn laps(word: &str, laps: usize) -> f64 {
    let start = Instant::now();
    let mut child = Command::new("target/bin/laps").stdin(Stdio::piped()).stdout(Stdio::piped()).spawn().expect("target/bin/laps is there");
    child.stdin.take().unwrap().write_all(format!("{word}{laps}").as_bytes()).unwrap();
    let output = child.wait_with_output().unwrap();
    assert_eq!(output.stdout, b"accepted\n");
    start.elapsed().as_secs_f64()
}

fn load() -> String {
    let text = std::fs::read_to_string("/proc/loadavg").unwrap_or_default();
    text.split(' ').next().unwrap_or("unknown").to_string()
}

fn once(router: &str, file: &str) {
    let route = match router {
        "proved" => proved,
        "plain" => plain::route,
        _ => usage(),
    };
    let board = std::fs::read(file).unwrap_or_else(|_| usage());
    println!("{:?}", route(&board, &mut [0; BUFFER]));
}

fn usage() -> ! {
    eprintln!("usage: bench/run [SEED]; target/bench/main once proved|plain FILE");
    std::process::exit(2)
}

fn main() {
    let args: Vec<String> = std::env::args().skip(1).collect();
    match &args[..] {
        [] => times(1),
        [seed] => times(seed.parse().unwrap_or_else(|_| usage())),
        [word, router, file] if word == "once" => once(router, file),
        _ => usage(),
    }
}

fn times(seed: u64) {
    println!("seed {seed}, load over the last minute {}, {} processors", load(), std::thread::available_parallelism().map_or(0, |n| n.get()));
    let mut random = Random::new(seed);
    let mut groups: Vec<Group> =
        [4, 8, 16, 31].iter().map(|&n| group(&mut random, &format!("{n} by {n}"), 24, |_| Board::square(n))).collect();
    groups.push(group(&mut random, "uneven", 24, Board::uneven));
    let (refused, routed) = damaged(&mut random, &groups);
    println!("{} boards, and {} damaged copies ({refused} refused, {routed} routed): the same bytes from both", 24 * groups.len(), refused + routed);

    print_rounds(&groups, &Rounds::new(&groups));

    let mut buffer = vec![0; BUFFER];
    let (board, single) = slowest(&groups, &mut |c| _ = black_box(proved(black_box(&c.0), &mut buffer)));
    println!("slowest board to route: {:.3} ms; longest single call seen: {:.3} ms", 1e3 * board, 1e3 * single);
    odd::report(seed, &groups);

    let (board, list) = (longest(), every_edge(1, true));
    assert_eq!(judged(&board, &list).0, 0);
    assert_eq!(judged(&board, &list).1[0], 1984);
    let all = median((0..ROUNDS).map(|_| seconds(20, || _ = black_box(judged(black_box(&board), black_box(&list))))).collect());
    println!("judging a list that uses all 1,984 edges: {:.3} ms", 1e3 * all);
    for (what, two, due) in [("alike", every_edge(1, false), true), ("not alike", every_edge(2, true), false)] {
        assert_eq!(alike(&board, &list, &two), due);
        let both = median((0..ROUNDS).map(|_| seconds(20, || _ = black_box(alike(black_box(&board), black_box(&list), black_box(&two))))).collect());
        println!("comparing two lists that each use all 1,984 edges, {what}: {:.3} ms", 1e3 * both);
    }
    let mut page = [0; 4032];
    assert_eq!(drawn(&board, &list, &mut page), 4032);
    let draw = median((0..ROUNDS).map(|_| seconds(20, || _ = black_box(drawn(black_box(&board), black_box(&list), &mut page)))).collect());
    println!("drawing such a list as a page: {:.3} ms", 1e3 * draw);
    let lap = |word| (laps(word, 22_000) - laps(word, 2_000)) / 20_000.0;
    let (bare, named): (Vec<f64>, Vec<f64>) = (0..11).map(|_| (lap(""), lap("names "))).unzip();
    println!("a call of a session with 64 nets and a pile of 64 changes: {:.1} microseconds", 1e6 * median(bare));
    println!("the same with 64 nets under each of the eight names: {:.1} microseconds", 1e6 * median(named));
    let forty = |word| (laps(word, 1_100) - laps(word, 100)) / 1_000.0;
    let (list, single): (Vec<f64>, Vec<f64>) = (0..11).map(|_| (forty("list "), forty("single "))).unzip();
    println!("40 nets on a bare board: {:.1} microseconds in one call, {:.1} in 40 calls", 1e6 * median(list), 1e6 * median(single));
    println!("load over the last minute {}", load());
}
