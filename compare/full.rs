//! Boards whose nets have paths that use every edge and turn at every vertex that they pass, so that no routing has more words. Among them are small
//! ones on which every routing is such.

use crate::generate::*;
use crate::independent::*;
use std::collections::{BTreeMap, HashSet};

/// A board with a path for each of its nets.
pub type Routed = (Board, Vec<Vec<usize>>);

// ---------------------------------------------------------------- every edge used, a turn at every vertex

/// How paths turn at each vertex. True: the edges upward and to the left are joined there, and those downward and to the right; otherwise upward and
/// to the right, downward and to the left. An edge whose partner is not on the board ends there: at a corner that is both edges or none.
type Turns = [[bool; 32]; 32];

/// The edge along which a path goes on that comes along this one.
fn partner(board: &Board, turns: &Turns, v: Vertex, edge: usize) -> Option<usize> {
    let other = match (edge, turns[v.0][v.1]) {
        (UP, true) | (DOWN, false) => LEFT,
        (UP, false) | (DOWN, true) => RIGHT,
        (LEFT, true) | (RIGHT, false) => UP,
        _ => DOWN,
    };
    board.edge(v, other).then_some(other)
}

/// Whether paths end at the vertex.
fn ends(board: &Board, turns: &Turns, v: Vertex) -> bool {
    (0..4).any(|edge| board.edge(v, edge) && partner(board, turns, v, edge).is_none())
}

/// Turns at random. Two paths end at a corner only where it has two pins, and on some boards seldom or never.
fn any_turns(random: &mut Random, board: &Board) -> Turns {
    let (mut turns, corners) = ([[false; 32]; 32], random.below(5));
    for v in board.vertices() {
        turns[v.0][v.1] = random.one_in(2);
        let end = board.all_pins(v) == 2 && random.below(4) < corners;
        if board.degree(v) == 2 && ends(board, &turns, v) != end {
            turns[v.0][v.1] ^= true;
        }
    }
    turns
}

/// A path, or a loop: a vertex to start from, and the steps.
type Trail = (Vertex, Vec<usize>);

/// The path or loop that begins with this step.
fn trail(board: &Board, turns: &Turns, from: Vertex, first: usize) -> Trail {
    let (mut at, mut steps) = (step(from, first), vec![first]);
    while let Some(next) = partner(board, turns, at, (steps[steps.len() - 1] + 2) % 4) {
        if (at, next) == (from, first) {
            break;
        }
        at = step(at, next);
        steps.push(next);
    }
    (from, steps)
}

/// The vertices of a path or loop, one for each step, and then where it ends.
fn passed((from, steps): &Trail) -> Vec<Vertex> {
    let mut all = vec![*from];
    for &direction in steps {
        all.push(step(all[all.len() - 1], direction));
    }
    all
}

/// The edges of a path or loop, as `edge_of` gives them.
fn edges_of(trail: &Trail) -> Vec<(Vertex, usize)> {
    passed(trail).into_iter().zip(&trail.1).map(|(at, &direction)| edge_of(at, direction)).collect()
}

/// The paths that these turns lead to, and the edges that they use.
fn all_trails(board: &Board, turns: &Turns) -> (Vec<Trail>, HashSet<(Vertex, usize)>) {
    let (mut trails, mut used) = (Vec::new(), HashSet::new());
    for v in board.vertices() {
        for direction in (0..4).filter(|&d| board.edge(v, d) && partner(board, turns, v, d).is_none()) {
            if !used.contains(&edge_of(v, direction)) {
                let one = trail(board, turns, v, direction);
                used.extend(edges_of(&one));
                trails.push(one);
            }
        }
    }
    (trails, used)
}

/// A vertex of a loop where another path or loop passes or ends: with other turns there the two become one. None where the loop is all there is.
fn another_there(board: &Board, around: &Trail) -> Option<Vertex> {
    let mut visits = BTreeMap::new();
    passed(around)[1..].iter().for_each(|&v| *visits.entry(v).or_insert(0) += 1);
    visits.into_iter().find(|&(v, count)| board.degree(v) > 2 * count).map(|(v, _)| v)
}

/// Makes each loop one with a path or with another loop, until none is left. None where one loop is all there is.
fn open_loops(board: &Board, turns: &mut Turns) -> Option<()> {
    let (_, mut used) = all_trails(board, turns);
    for (v, to) in board.edges() {
        let direction = if v.0 == to.0 { RIGHT } else { DOWN };
        // An edge that no path uses is on a loop, be that loop made of others by now.
        if !used.contains(&edge_of(v, direction)) {
            let around = trail(board, turns, v, direction);
            used.extend(edges_of(&around));
            let (line, column) = another_there(board, &around)?;
            turns[line][column] ^= true;
        }
    }
    Some(())
}

/// Paths that use every edge and turn at every vertex that they pass. None closes, and none ends where it starts. None at all where one loop is left.
fn turning_trails(random: &mut Random, board: &Board) -> Option<Vec<Trail>> {
    let mut turns = any_turns(random, board);
    loop {
        open_loops(board, &mut turns)?;
        let (trails, _) = all_trails(board, &turns);
        let back = trails.iter().find(|trail| passed(trail).last() == Some(&trail.0));
        // From a corner and back to it: the path passes there instead.
        let Some(&((line, column), _)) = back else { return Some(trails) };
        turns[line][column] ^= true;
    }
}

/// The same as nets with their paths. Pins that are left may be taken.
fn turning_on(random: &mut Random, rows: &[(usize, usize)]) -> Option<Routed> {
    let mut board = any_bare(random, rows);
    let trails = turning_trails(random, &board)?;
    let mut ended: Vec<(Trail, Vertex)> = trails.into_iter().map(|trail| (trail.clone(), passed(&trail)[trail.1.len()])).collect();
    board.nets = numbered(random, ended.iter().map(|((first, _), second)| (*first, *second)).collect());
    let mut paths = Vec::new();
    for net in &board.nets {
        // Of two paths between the same ends either will do.
        let between = |((from, _), to): &(Trail, Vertex)| [(*from, *to), (*to, *from)].contains(&(net.first, net.second));
        let ((from, steps), _) = ended.swap_remove(ended.iter().position(between)?);
        paths.push(if from == net.first { steps } else { steps.iter().rev().map(|direction| (direction + 2) % 4).collect() });
    }
    take_pins(random, &mut board);
    Some((board, paths))
}

/// A board of any size with such paths for its nets, at times the largest.
pub fn turning(random: &mut Random) -> Routed {
    loop {
        let (most_rows, most_width) = size(random);
        let rows = match random.below(16) {
            0 => vec![(0, 31); 31],
            1..=5 => stepped_rows(random, most_rows, most_width),
            _ => convex_rows(random, most_rows, most_width),
        };
        if let Some(routed) = turning_on(random, &rows) {
            return routed;
        }
    }
}

// ---------------------------------------------------------------- boards on which every routing is such

/// A board with a routing, on which every routing uses every edge and turns at every vertex that a path passes.
pub fn filled(random: &mut Random) -> Board {
    loop {
        let (most_rows, most_width) = random.pick(&[(1, 1), (1, 2), (2, 1), (2, 2), (3, 2), (2, 3)]);
        let rows = stepped_rows(random, most_rows, most_width);
        match turning_on(random, &rows) {
            Some((board, _)) if always_filled(&board) => return board,
            _ => {}
        }
    }
}

/// Whether the nets need every edge, and no routing has two steps of a path in one direction. As many edges as the nets cross rows and columns are
/// then all that there are, so that every path is as short as can be.
pub fn always_filled(board: &Board) -> bool {
    let Wire { crossing, edges } = board.wire();
    crossing == edges && !Search { board, used: HashSet::new() }.straight(0, board.nets[0].first, None, false)
}

/// Every choice of paths as short as can be.
struct Search<'a> {
    board: &'a Board,
    used: HashSet<(Vertex, usize)>,
}

impl Search<'_> {
    /// Whether there is a routing with two steps of a path in one direction. This net's path has come to `at`, by `last` if it has steps already;
    /// `found` tells whether there were two such steps so far.
    fn straight(&mut self, net: usize, at: Vertex, last: Option<usize>, found: bool) -> bool {
        let to = self.board.nets[net].second;
        if at == to {
            let next = self.board.nets.get(net + 1).map(|next| next.first);
            return next.map_or(found, |first| self.straight(net + 1, first, None, found));
        }
        let nearer = [(UP, to.0 < at.0), (RIGHT, to.1 > at.1), (DOWN, to.0 > at.0), (LEFT, to.1 < at.1)];
        nearer.into_iter().filter(|(_, leads)| *leads).any(|(direction, _)| {
            let edge = edge_of(at, direction);
            if !self.board.edge(at, direction) || !self.used.insert(edge) {
                return false;
            }
            let straight = self.straight(net, step(at, direction), Some(direction), found || last == Some(direction));
            self.used.remove(&edge);
            straight
        })
    }
}
