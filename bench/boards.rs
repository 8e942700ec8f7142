//! Seeded random boards: those that can be routed, every vertex even and no cut overfull; the same with some nets withdrawn, so that pins are bare;
//! and small ones with any nets.

pub struct Random(u64);

impl Random {
    pub fn new(seed: u64) -> Random {
        Random(seed.wrapping_mul(0x2545_F491_4F6C_DD1D) | 1)
    }

    pub fn next(&mut self) -> u64 {
        self.0 = self.0.wrapping_add(0x9E37_79B9_7F4A_7C15);
        let x = (self.0 ^ self.0 >> 32).wrapping_mul(0xD6E8_FEB8_6659_FD93);
        (x ^ x >> 29).wrapping_mul(0xA076_1D64_78BD_642F) >> 16
    }

    pub fn below(&mut self, n: usize) -> usize {
        (self.next() % n as u64) as usize
    }
}

/// Line and column.
pub type Vertex = (usize, usize);
/// A first and a second terminal.
pub type Net = (Vertex, Vertex);

#[derive(Clone)]
pub struct Board {
    pub rows: Vec<(usize, usize)>,
    pub nets: Vec<Net>,
}

impl Board {
    /// A board of n by n cells, without nets.
    pub fn square(n: usize) -> Board {
        Board { rows: vec![(0, n); n], nets: Vec::new() }
    }

    /// A board of 12 to 31 rows, without nets.
    pub fn uneven(random: &mut Random) -> Board {
        let widest = 12 + random.below(20);
        let more = 11 + random.below(20);
        Board::nested(random, widest, more, 4)
    }

    /// A board of 1 to 6 rows, without nets.
    pub fn small(random: &mut Random) -> Board {
        let widest = 2 + random.below(5);
        let more = random.below(6);
        Board::nested(random, widest, more, 2)
    }

    /// A board of one row of this width and so many more, each within the one before it in a random order from the middle outwards. Rows that are no
    /// wider than `narrow` shrink no more.
    fn nested(random: &mut Random, widest: usize, more: usize, narrow: usize) -> Board {
        let mut row = (0, widest);
        let mut rows = vec![row];
        for _ in 0..more {
            if random.below(2) == 0 && row.1 - row.0 > narrow {
                let left = row.0 + random.below(3);
                row = (left, (row.1 - random.below(2)).max(left + 1));
            }
            let at = if random.below(2) == 0 { 0 } else { rows.len() };
            rows.insert(at, row);
        }
        Board { rows, nets: Vec::new() }
    }

    /// The board of these bytes, which must be those of a board's words.
    pub fn read(bytes: &[u8]) -> Board {
        let mut board = Board { rows: Vec::new(), nets: Vec::new() };
        for word in bytes.chunks_exact(4) {
            let w = u32::from_le_bytes([word[0], word[1], word[2], word[3]]);
            let five = |low: u32| (w >> low & 31) as usize;
            match w >> 28 {
                1 => board.rows.push((five(5), five(0))),
                2 => board.nets.push(((five(15), five(10)), (five(5), five(0)))),
                _ => (),
            }
        }
        board
    }

    fn cell(&self, row: usize, column: usize) -> bool {
        self.rows.get(row).is_some_and(|&(left, right)| left <= column && column < right)
    }

    /// The count of a vertex's edges, 0 where there is none.
    pub fn degree(&self, (line, column): Vertex) -> usize {
        let (above, left) = (line.wrapping_sub(1), column.wrapping_sub(1));
        let round = [self.cell(above, left), self.cell(above, column), self.cell(line, column), self.cell(line, left)];
        (0..4).filter(|&i| round[i] || round[(i + 1) % 4]).count()
    }

    /// In reading order.
    pub fn all_vertices(&self) -> Vec<Vertex> {
        let all = (0..=self.rows.len()).flat_map(|line| (0..32).map(move |column| (line, column)));
        all.filter(|&v| self.degree(v) > 0).collect()
    }

    pub fn vertices(&self) -> usize {
        self.all_vertices().len()
    }

    /// The odd vertices in reading order.
    pub fn odd_vertices(&self) -> Vec<Vertex> {
        let terminals = |v: Vertex| self.nets.iter().map(|n| (n.0 == v) as usize + (n.1 == v) as usize).sum::<usize>();
        self.all_vertices().into_iter().filter(|&v| (self.degree(v) + terminals(v)) % 2 == 1).collect()
    }

    /// The board without so many of its nets, at most, taken at random.
    pub fn without(&self, random: &mut Random, count: usize) -> Board {
        let mut board = self.clone();
        for _ in 0..count.min(board.nets.len()) {
            board.nets.remove(random.below(board.nets.len()));
        }
        board
    }

    /// One terminal at each vertex of degree 3, two or none at one of degree 2; at most 128.
    fn terminals(&self, random: &mut Random) -> Vec<Vertex> {
        let vertices = self.all_vertices();
        let mut terminals: Vec<Vertex> = vertices.iter().copied().filter(|&v| self.degree(v) == 3).collect();
        for &v in vertices.iter().filter(|&&v| self.degree(v) == 2) {
            if random.below(2) == 0 && terminals.len() + 2 <= 128 {
                terminals.extend([v, v]);
            }
        }
        shuffle(random, &mut terminals);
        terminals
    }

    /// The bytes of the board's words.
    pub fn bytes(&self) -> Vec<u8> {
        let mut words: Vec<u32> = self.rows.iter().map(|&(left, right)| 1 << 28 | (left as u32) << 5 | right as u32).collect();
        for (i, &((a, b), (c, d))) in self.nets.iter().enumerate() {
            let places = (a << 15 | b << 10 | c << 5 | d) as u32;
            words.push(2 << 28 | (i as u32 + 1) << 20 | places);
        }
        words.push(15 << 28 | (self.rows.len() as u32) << 8 | self.nets.len() as u32);
        words.iter().flat_map(|w| w.to_le_bytes()).collect()
    }
}

fn shuffle(random: &mut Random, vertices: &mut [Vertex]) {
    for i in (1..vertices.len()).rev() {
        vertices.swap(i, random.below(i + 1));
    }
}

/// For each cut, rows first and then columns from place 31 on: edges minus crossing nets.
#[derive(Clone)]
pub struct Margins(pub [i32; 62]);

impl Margins {
    /// Those of the board without its nets.
    pub fn new(board: &Board) -> Margins {
        let mut margins = [0; 62];
        for (i, &(left, right)) in board.rows.iter().enumerate() {
            margins[i] = (right - left + 1) as i32;
        }
        for column in 0..31 {
            let edge = |line: usize| board.cell(line, column) || line > 0 && board.cell(line - 1, column);
            margins[31 + column] = (0..=board.rows.len()).filter(|&line| edge(line)).count() as i32;
        }
        Margins(margins)
    }

    /// Every cut that the net crosses loses `by`.
    pub fn count(&mut self, net: Net, by: i32) {
        let ((a, b), (c, d)) = net;
        self.0[a.min(c)..a.max(c)].iter_mut().for_each(|m| *m -= by);
        self.0[31 + b.min(d)..31 + b.max(d)].iter_mut().for_each(|m| *m -= by);
    }

    /// Two nets take the place of two others.
    fn exchange(&mut self, old: (Net, Net), new: (Net, Net)) {
        self.count(old.0, -1);
        self.count(old.1, -1);
        self.count(new.0, 1);
        self.count(new.1, 1);
    }

    /// By how much cuts are overfull, and 1,000 for each of the nets whose terminals are one vertex.
    fn fault(&self, nets: &[Net]) -> i32 {
        let overfull: i32 = self.0.iter().map(|&m| (-m).max(0)).sum();
        overfull + 1000 * nets.iter().filter(|n| n.0 == n.1).count() as i32
    }
}

/// Gives the board nets between random terminals: paired at random, then two nets at a time exchange ends, until no cut is overfull.
fn pair_up(board: &mut Board, random: &mut Random) -> bool {
    let terminals = board.terminals(random);
    let mut nets: Vec<Net> = terminals.chunks_exact(2).map(|t| (t[0], t[1])).collect();
    let mut margins = Margins::new(board);
    nets.iter().for_each(|&net| margins.count(net, 1));
    let mut fault = margins.fault(&nets);
    for _ in 0..20_000 {
        if fault == 0 {
            board.nets = nets;
            return true;
        }
        let (i, j) = (random.below(nets.len()), random.below(nets.len()));
        if i == j {
            continue;
        }
        let old = (nets[i], nets[j]);
        let ((a, b), (c, d)) = old;
        let new = if random.below(2) == 0 { ((a, d), (c, b)) } else { ((a, c), (b, d)) };
        margins.exchange(old, new);
        (nets[i], nets[j]) = new;
        let now = margins.fault(&nets);
        if now <= fault {
            fault = now;
        } else {
            margins.exchange(new, old);
            (nets[i], nets[j]) = old;
        }
    }
    false
}

/// A random board with nets, from one without.
pub fn routable(random: &mut Random, bare: impl Fn(&mut Random) -> Board) -> Board {
    loop {
        let mut board = bare(random);
        if pair_up(&mut board, random) {
            return board;
        }
    }
}

/// A board with some nets withdrawn, so that 2 to 12 vertices are odd.
pub fn with_bare_pins(random: &mut Random, board: &Board) -> Board {
    loop {
        let count = 1 + random.below(6);
        let bare = board.without(random, count);
        if !bare.odd_vertices().is_empty() {
            return bare;
        }
    }
}

/// A small board with nets between random pins: cuts may be overfull, and up to 16 pins stay bare.
pub fn any_nets(random: &mut Random) -> Board {
    let mut board = Board::small(random);
    let pins = |v: Vertex| std::iter::repeat(v).take(4 - board.degree(v));
    let mut ends: Vec<Vertex> = board.all_vertices().into_iter().flat_map(pins).collect();
    shuffle(random, &mut ends);
    ends.truncate(ends.len() - random.below(17).min(ends.len()));
    board.nets = ends.chunks_exact(2).filter(|e| e[0] != e[1]).map(|e| (e[0], e[1])).collect();
    board
}

/// The board of 31 by 31 cells with a net along each inner line and down each inner column: 60 nets.
pub fn longest() -> Vec<u8> {
    let mut board = Board::square(31);
    board.nets.extend((1..31).map(|line| ((line, 0), (line, 31))));
    board.nets.extend((1..31).map(|column| ((0, column), (31, column))));
    board.bytes()
}

/// A routing of it that uses all 1,984 edges: each net straight, after the net along this line has gone once round the border, either way.
pub fn every_edge(line: u32, clockwise: bool) -> Vec<u8> {
    let run = |direction: u32, length: u32| 5 << 28 | direction << 26 | length;
    let round = match clockwise {
        true => [run(0, line), run(1, 31), run(2, 31), run(3, 31), run(0, 31 - line)],
        false => [run(2, 31 - line), run(1, 31), run(0, 31), run(3, 31), run(2, line)],
    };
    let mut words: Vec<u32> = Vec::new();
    for number in 1..=60 {
        let before = if number == line { &round[..] } else { &[] };
        words.push(4 << 28 | number << 20 | (before.len() as u32 + 1));
        words.extend(before);
        words.push(run(if number <= 30 { 1 } else { 2 }, 31));
    }
    words.push(14 << 28 | 60);
    words.iter().flat_map(|w| w.to_le_bytes()).collect()
}
