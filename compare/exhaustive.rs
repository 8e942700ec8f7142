//! An exhaustive router for small boards: it tries every set of edge-disjoint paths, net by net, edge by edge.
//! It knows nothing of cuts or corners. What it leaves out cannot change the answer:
//! - paths that pass a vertex twice or go on past their end (cutting the detour out uses fewer edges);
//! - states of used edges that have already failed with the same nets left;
//! - states in which a net that is left has no path at all any more, or the nets left need, each on its own shortest path,
//!   more edges than are free.

use crate::independent::{step, Board, Vertex};
use std::collections::{HashMap, HashSet};

#[derive(Debug, PartialEq, Eq)]
pub enum Answer {
    /// The steps of each net's path, in the order of the nets.
    Paths(Vec<Vec<usize>>),
    None,
    /// More than the given number of steps would be needed.
    Undecided,
}

struct Search {
    /// For each vertex and direction: the edge's number and the vertex it leads to.
    next: Vec<[Option<(usize, usize)>; 4]>,
    ends: Vec<(usize, usize)>,
    edges: u32,
    failed: HashSet<(usize, u128)>,
    paths: Vec<Vec<usize>>,
    steps_left: u64,
}

/// Tries every set of paths on a board of at most 128 edges.
pub fn route(board: &Board, steps: u64) -> Answer {
    let vertices = board.vertices();
    let place: HashMap<Vertex, usize> = vertices.iter().enumerate().map(|(i, &v)| (v, i)).collect();
    let mut numbers: HashMap<(Vertex, Vertex), usize> = HashMap::new();
    let mut next = vec![[None; 4]; vertices.len()];
    for (i, &v) in vertices.iter().enumerate() {
        for d in (0..4).filter(|&d| board.edge(v, d)) {
            let to = step(v, d);
            let count = numbers.len();
            let number = *numbers.entry((v.min(to), v.max(to))).or_insert(count);
            next[i][d] = Some((number, place[&to]));
        }
    }
    assert!(numbers.len() <= 128, "too large a board for the exhaustive router");
    let ends = board.nets.iter().map(|n| (place[&n.first], place[&n.second])).collect();
    let paths = vec![Vec::new(); board.nets.len()];
    let mut search = Search { next, ends, edges: numbers.len() as u32, failed: HashSet::new(), paths, steps_left: steps };
    match search.nets_from(0, 0) {
        _ if search.steps_left == 0 => Answer::Undecided,
        true => Answer::Paths(search.paths),
        false => Answer::None,
    }
}

impl Search {
    /// Whether the nets from `net` on have disjoint paths besides the used edges.
    fn nets_from(&mut self, net: usize, used: u128) -> bool {
        if net == self.ends.len() {
            return true;
        }
        if self.failed.contains(&(net, used)) {
            return false;
        }
        let found = self.hopeful(net, used) && self.path_from(net, self.ends[net].0, used, 0);
        if !found {
            self.failed.insert((net, used));
        }
        found
    }

    /// Goes on from a vertex of this net's path; `seen` are the vertices behind it.
    fn path_from(&mut self, net: usize, at: usize, used: u128, seen: u128) -> bool {
        if self.steps_left == 0 {
            return false;
        }
        self.steps_left -= 1;
        if at == self.ends[net].1 {
            return self.nets_from(net + 1, used);
        }
        for direction in 0..4 {
            if let Some((edge, to)) = self.next[at][direction] {
                if used >> edge & 1 == 0 && seen >> to & 1 == 0 {
                    self.paths[net].push(direction);
                    if self.path_from(net, to, used | 1 << edge, seen | 1 << at) {
                        return true;
                    }
                    self.paths[net].pop();
                }
            }
        }
        false
    }

    fn hopeful(&self, net: usize, used: u128) -> bool {
        let mut needed = 0;
        for &(from, to) in &self.ends[net..] {
            match self.distance(from, to, used) {
                Some(d) => needed += d,
                None => return false,
            }
        }
        needed + used.count_ones() <= self.edges
    }

    /// The length of a shortest path along free edges.
    fn distance(&self, from: usize, to: usize, used: u128) -> Option<u32> {
        let mut seen: u128 = 1 << from;
        let mut front = vec![from];
        let mut length = 0;
        while !front.is_empty() {
            if seen >> to & 1 == 1 {
                return Some(length);
            }
            let mut reached = Vec::new();
            for v in front {
                for &(edge, w) in self.next[v].iter().flatten() {
                    if used >> edge & 1 == 0 && seen >> w & 1 == 0 {
                        seen |= 1 << w;
                        reached.push(w);
                    }
                }
            }
            front = reached;
            length += 1;
        }
        None
    }
}
