//! Part e: pairs of lists, true and damaged, through the comparison of two routings. The true ones are judged as well.

use crate::books::any_bytes;
use crate::generate::*;
use crate::independent::*;
use crate::wire::held_reached;
use crate::{end_if_short, under, Run, CASES_E, COMPARED, OTHER_LIST, TAKEN_COMPARED, TURNED_TWICE};
use std::collections::{HashMap, HashSet};
use std::time::Instant;

pub type Paths = Vec<Vec<usize>>;

// ---------------------------------------------------------------- boards

/// A board with any nets, with two nets between the same corners, for which the old rule alone has pins, or with nets round corners.
fn pair_board(random: &mut Random) -> Board {
    let (most_rows, most_width) = size(random);
    let kind = random.below(5);
    if kind > 1 {
        return true_board(random, (most_rows, most_width));
    }
    let whole = random.one_in(12);
    let rows = if whole { vec![(0, 31); 31] } else { convex_rows(random, most_rows, most_width) };
    let bare = if kind == 0 { Board::bare(&rows) } else { any_bare(random, &rows) };
    let mut corners: Vec<Vertex> = bare.vertices().into_iter().filter(|&v| bare.cells(v) == 1).collect();
    random.shuffle(&mut corners);
    let mut pairs: Vec<(Vertex, Vertex)> = if kind == 0 {
        vec![(corners[0], corners[1]); 2]
    } else {
        corners.iter().map(|&v| neighbours(&bare, v)).collect()
    };
    let others = any_nets(random, &bare);
    let most = random.pick(&[0, 1, 3, 64]);
    pairs.extend(others.iter().take(most).map(|net| (net.first, net.second)));
    let mut board = with_room(random, bare, &pairs);
    take_pins(random, &mut board);
    board
}

/// The two neighbours of a corner.
fn neighbours(bare: &Board, corner: Vertex) -> (Vertex, Vertex) {
    let near: Vec<Vertex> = (0..4).filter(|&d| bare.edge(corner, d)).map(|d| step(corner, d)).collect();
    (near[0], near[1])
}

/// Those of the pairs as nets that the pins leave room for, taken in order.
fn with_room(random: &mut Random, mut board: Board, pairs: &[(Vertex, Vertex)]) -> Board {
    for &(first, second) in pairs {
        let net = Net { number: board.nets.len() as u32 + 1, first, second };
        if board.add_refused(&net).is_none() {
            board.nets.push(net);
        }
    }
    let taken = board.nets.iter().map(|net| (net.first, net.second)).collect();
    board.nets = numbered(random, taken);
    board
}

/// Random trails on the board, with fewer of its nets where they get stuck.
fn thinned(random: &mut Random, mut board: Board) -> (Board, Paths) {
    loop {
        if let Some(paths) = trails(random, &board) {
            return (board, paths);
        }
        board.nets.retain(|_| random.below(4) > 0);
    }
}

// ---------------------------------------------------------------- other paths for the same nets

/// Pairs of true lists, with the answer that each is made for, and whether all nets together use the same edges in both.
pub const TRUE_PAIRS: [(&str, Option<bool>, Option<bool>); 7] = [
    ("pair: a list with itself", Some(true), Some(true)),
    ("pair: with random trails", None, None),
    ("pair: loops walked the other way", Some(true), Some(true)),
    ("pair: a loop left out", Some(false), Some(false)),
    ("pair: paths of two nets exchanged", Some(false), Some(true)),
    ("pair: parts of two paths exchanged", Some(false), Some(true)),
    ("pair: round a cell the other way", Some(false), Some(false)),
];

/// Other paths for the same nets, as that kind of pair has them. None where these paths have no such thing.
pub fn other_paths(random: &mut Random, kind: &str, board: &Board, paths: &Paths) -> Option<Paths> {
    match kind {
        "pair: a list with itself" => Some(paths.clone()),
        "pair: with random trails" => (0..4).find_map(|_| trails(random, board)),
        "pair: loops walked the other way" => {
            let times = 1 + random.below(3);
            (0..times).try_fold(paths.clone(), |turned, _| with_loop(random, board, turned, &backwards))
        }
        "pair: a loop left out" => with_loop(random, board, paths.clone(), &|_| Vec::new()),
        "pair: paths of two nets exchanged" => exchanged(random, board, paths, true),
        "pair: parts of two paths exchanged" => exchanged(random, board, paths, false),
        _ => round_a_cell(random, board, paths),
    }
}

/// Steps walked from their end to their start.
pub fn backwards(steps: &[usize]) -> Vec<usize> {
    steps.iter().rev().map(|direction| (direction + 2) % 4).collect()
}

/// The vertices of a path, the first terminal first.
fn passed(net: &Net, path: &[usize]) -> Vec<Vertex> {
    let mut all = vec![net.first];
    for &direction in path {
        all.push(step(all[all.len() - 1], direction));
    }
    all
}

/// A visit of a vertex: the index of the path and its count of steps up to there.
type Visit = (usize, usize);

/// The two visits of each vertex that is passed twice. Edges and pins are too few for a third.
fn passed_twice(board: &Board, paths: &Paths) -> Vec<[Visit; 2]> {
    let (mut earlier, mut twice) = (HashMap::new(), Vec::new());
    for (index, (net, path)) in board.nets.iter().zip(paths).enumerate() {
        for (steps, vertex) in passed(net, path).into_iter().enumerate() {
            if let Some(visit) = earlier.insert(vertex, (index, steps)) {
                twice.push([visit, (index, steps)]);
            }
        }
    }
    twice
}

/// One of a list, if there are any.
pub fn any_of<T: Copy>(random: &mut Random, list: &[T]) -> Option<T> {
    (!list.is_empty()).then(|| random.pick(list))
}

/// The paths with `change` made to a loop of one of them: the steps between two visits of one vertex. None where no path has a loop.
fn with_loop(random: &mut Random, board: &Board, mut paths: Paths, change: &dyn Fn(&[usize]) -> Vec<usize>) -> Option<Paths> {
    let loops: Vec<_> = passed_twice(board, &paths).into_iter().filter(|[a, b]| a.0 == b.0).collect();
    let [(index, start), (_, end)] = any_of(random, &loops)?;
    let changed = change(&paths[index][start..end]);
    paths[index].splice(start..end, changed);
    Some(paths)
}

/// Two paths exchange what lies between two vertices that both pass; where `whole`, these are the ends of both.
/// None where no two paths meet so. The edges in use stay the same, those of the two parts with the other net.
fn exchanged(random: &mut Random, board: &Board, paths: &Paths, whole: bool) -> Option<Paths> {
    let end = |v: Visit| v.1 == 0 || v.1 == paths[v.0].len();
    let mut meetings = passed_twice(board, paths);
    meetings.retain(|&[a, b]| a.0 != b.0 && (!whole || end(a) && end(b)));
    random.shuffle(&mut meetings);
    let nets = |i: usize| meetings[i].map(|visit| visit.0);
    let earlier = |i: usize| (0..i).find(|&j| nets(j) == nets(i)).map(|j| (meetings[j], meetings[i]));
    let (from, to) = (0..meetings.len()).find_map(earlier)?;
    let between = |k: usize| from[k].1.min(to[k].1)..from[k].1.max(to[k].1);
    let same_way = (from[0].1 < to[0].1) == (from[1].1 < to[1].1);
    let part = |k: usize| {
        let steps = &paths[from[k].0][between(k)];
        if same_way { steps.to_vec() } else { backwards(steps) }
    };
    let mut other = paths.clone();
    other[from[0].0].splice(between(0), part(1));
    other[from[1].0].splice(between(1), part(0));
    Some(other)
}

/// One path goes round one cell on the other side, where the cell's other two edges are free. None where no path can.
fn round_a_cell(random: &mut Random, board: &Board, paths: &Paths) -> Option<Paths> {
    let vertices: Vec<Vec<Vertex>> = board.nets.iter().zip(paths).map(|(net, path)| passed(net, path)).collect();
    let edges = vertices.iter().zip(paths).flat_map(|(passed, path)| passed.iter().zip(path));
    let used: HashSet<_> = edges.map(|(&v, &direction)| edge_of(v, direction)).collect();
    let free = |v: Vertex, direction: usize| board.edge(v, direction) && !used.contains(&edge_of(v, direction));
    let mut turns = Vec::new();
    for (index, path) in paths.iter().enumerate() {
        for k in 1..path.len() {
            let (v, before, after) = (vertices[index][k - 1], path[k - 1], path[k]);
            if before % 2 != after % 2 && free(v, after) && free(step(v, after), before) {
                turns.push((index, k));
            }
        }
    }
    let (index, k) = any_of(random, &turns)?;
    let mut other = paths.clone();
    other[index].swap(k - 1, k);
    Some(other)
}

// ---------------------------------------------------------------- lists as they may come

const LISTS: [&str; 2] = ["first", "second"];

fn state_of(list: &str, state: &str) -> String {
    format!("pair: the {list} list {state}")
}

fn refused_by(list: &str, number: u32) -> String {
    format!("refused: the {list} list by {number}")
}

const STATES: [&str; 6] = ["true", "damaged", "uneven", "too long", "too long and uneven", "without words"];

/// A true list's words as bytes of that state; damaged ones may still be true.
pub fn in_state(random: &mut Random, state: &str, words: &[u32]) -> Vec<u8> {
    let mut words = words.to_vec();
    if state == "too long" || state == "too long and uneven" {
        words.resize(random.pick(&[2050, 2050, 2051, 2300]), words[words.len() - 1]);
    }
    match state {
        "damaged" => {
            let kind = random.below(LIST_KINDS.len());
            list_bytes(random, kind, &words, &OTHER_LIST)
        }
        "uneven" | "too long and uneven" => uneven(random, bytes_of(&words)),
        "without words" => Vec::new(),
        _ => bytes_of(&words),
    }
}

/// A state, most often true or damaged.
pub fn any_state(random: &mut Random) -> &'static str {
    let count = if random.one_in(2) { STATES.len() } else { 2 };
    STATES[random.below(count)]
}

// ---------------------------------------------------------------- the part

impl Run {
    pub fn part_e(&mut self, case: u64) {
        (self.part, self.case) = ('e', case);
        let mut random = Random::of_case(self.seed, 'e', case);
        let (board, paths, routed) = self.first_paths(&mut random);
        let (bytes, words) = (bytes_of(&board.words()), routing_words(&board, &paths));
        for (kind, made_for, _) in TRUE_PAIRS {
            let Some(other) = other_paths(&mut random, kind, &board, &paths) else { continue };
            let mut lists = [bytes_of(&words), bytes_of(&routing_words(&board, &other))];
            // In the first pair the second list is the first once more, so that it is judged too.
            self.judge(&bytes, &lists[1]);
            if random.one_in(2) {
                lists.swap(0, 1);
            }
            self.count(kind);
            if routed && made_for.is_none() {
                self.count("pair: a routed list with random trails");
            }
            let answer = self.alike(&bytes, &lists[0], &lists[1]);
            if answer.is_none() || made_for.is_some() && answer != made_for {
                let what = format!("{kind}: both sides answer {answer:?}, but the pair is made for {made_for:?}");
                self.difference_in(&what, &[("board", &bytes), ("first list", &lists[0]), ("second list", &lists[1])]);
            }
        }
        for _ in 0..3 {
            self.in_states(&mut random, &bytes, &words);
        }
        if random.one_in(4) {
            let damaged = any_bytes(&mut random);
            self.count("pair: for a damaged board");
            self.in_states(&mut random, &damaged, &words);
        }
    }

    /// A board with paths for its nets, and whether they were routed by the library.
    pub fn first_paths(&mut self, random: &mut Random) -> (Board, Paths, bool) {
        let board = pair_board(random);
        if random.one_in(6) {
            if let Some(list) = self.route_and_judge(random, &bytes_of(&board.words()), 8196) {
                return (board, steps_of(&words_of(&list).unwrap()), true);
            }
        }
        let (board, paths) = thinned(random, board);
        (board, paths, false)
    }

    /// Two lists made from the same words, each in any state.
    fn in_states(&mut self, random: &mut Random, board: &[u8], words: &[u32]) {
        let states = [any_state(random), any_state(random)];
        let [one, two] = states.map(|state| in_state(random, state, words));
        LISTS.iter().zip(states).for_each(|(list, state)| self.count(&state_of(list, state)));
        self.alike(board, &one, &two);
    }

    // ------------------------------------------------------------ what was reached

    /// Counts what a pair of lists for a board that is accepted reaches.
    pub fn count_pair(&mut self, board: &Board, one: &[u8], two: &[u8], answer: Result<bool, Refusal>) {
        [one, two].iter().for_each(|list| self.hold_if_passed(board, list));
        match answer {
            Ok(alike) => self.count_answer(board, one, two, alike),
            Err(refusal) => {
                let judged = [one, two].map(|list| judge(board, list).err());
                let list = LISTS[judged[0].is_none() as usize];
                self.count(&refused_by(list, refusal.number));
                let [Some(r), Some(s)] = judged else { return };
                if r.number != s.number {
                    self.count("refused: both lists, the second by another number");
                }
                if r.number != 10 && s.number == 10 {
                    self.count("refused: both lists, the second alone by 10");
                }
            }
        }
    }

    /// Routings that are alike have equal lengths as well, net by net.
    fn count_answer(&mut self, board: &Board, one: &[u8], two: &[u8], alike: bool) {
        let lengths = |list: &[u8]| steps_of(&words_of(list).unwrap()).iter().map(Vec::len).collect::<Vec<_>>();
        let equal_lengths = lengths(one) == lengths(two);
        if alike && !equal_lengths {
            let inputs = [("board", &bytes_of(&board.words())[..]), ("first list", one), ("second list", two)];
            self.difference_in("both sides answer that the lists are alike, but lengths differ", &inputs);
        }
        if alike {
            return self.count(if one == two { "alike: the same bytes" } else { "alike: other bytes" });
        }
        let [in_one, in_two] = [one, two].map(|list| edges_by_net(board, list).unwrap());
        let in_all = |sets: &EdgesByNet| sets.values().flatten().copied().collect::<HashSet<_>>();
        let within = |a: &EdgesByNet, b: &EdgesByNet| a.iter().all(|(net, edges)| edges.is_subset(&b[net]));
        let seen = [
            ("not alike", true),
            ("not alike: equal lengths for every net", equal_lengths),
            ("not alike: the same edges in all", in_all(&in_one) == in_all(&in_two)),
            ("not alike: every net's edges of the first list within the second's", within(&in_one, &in_two)),
            ("not alike: every net's edges of the second list within the first's", within(&in_two, &in_one)),
        ];
        self.count_all(&seen);
    }
}

// ---------------------------------------------------------------- the whole part

/// What is due besides the kinds of pairs, the states of lists and their refusals.
const DUE: [(&str, u64); 13] = [
    ("pair: a routed list with random trails", 1_000),
    ("pair: for a damaged board", 4_800),
    (TAKEN_COMPARED, 52_000),
    ("alike: the same bytes", 30_000),
    ("alike: other bytes", 1_700),
    ("not alike", 30_000),
    ("not alike: equal lengths for every net", 13_000),
    ("not alike: the same edges in all", 6_000),
    ("not alike: every net's edges of the first list within the second's", 1_400),
    ("not alike: every net's edges of the second list within the first's", 1_400),
    ("refused: the board of a pair", 3_400),
    ("refused: both lists, the second by another number", 18_000),
    ("refused: both lists, the second alone by 10", 4_500),
];

/// What part e reached, and how often is due: two thirds or less of what each of the seeds 1985, 1 and 2 reaches.
fn reached(run: &Run) -> Vec<(String, u64, u64)> {
    let mut due: Vec<(String, u64)> = TRUE_PAIRS.map(|(kind, ..)| (kind.to_string(), 1_400)).into();
    LISTS.iter().for_each(|list| due.extend(STATES.map(|state| (state_of(list, state), 5_000))));
    due.extend(DUE.map(|(what, least)| (what.to_string(), least)));
    due.extend(BOOKS.map(|book| (under(book, COMPARED), 40_000)));
    LISTS.iter().for_each(|list| due.extend([10, 41, 42, 43, 44, 45, 46].map(|number| (refused_by(list, number), 500))));
    let mut reached: Vec<_> = due.into_iter().map(|(what, least)| (what.clone(), run.counted(&what), least)).collect();
    reached.push((TURNED_TWICE.to_string(), run.lists_turned_twice, 4_300));
    reached.extend(held_reached(run, [[15_000, 0, 0, 0], [190_000, 90_000, 11_000, 2_700]]));
    reached
}

/// All cases, and what they reached. Answers with the run.
pub fn whole(seed: u64) -> Run {
    let (mut run, start) = (Run { seed, ..Run::default() }, Instant::now());
    (0..CASES_E).for_each(|case| run.part_e(case));
    println!("part e: {CASES_E} boards, {} pairs of lists; {:.1} s", run.pairs, start.elapsed().as_secs_f64());
    let reached = reached(&run);
    reached.iter().for_each(|(what, seen, _)| println!("{seen:8} {what}"));
    end_if_short("part e reaches", reached);
    run
}
