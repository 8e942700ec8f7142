//! A plain Rust router beside which the proved one is timed: the same checks, the same search for helper pairs and the same corner steps in the same
//! order, so that it hands back the same bytes. Nothing is proved here. Safe Rust, each index checked, nets and boards lent and not copied.

/// The count of words, or a refusal's number and place.
pub type Answer = Result<usize, Refusal>;

#[derive(Clone, Copy, Debug, PartialEq, Eq)]
pub struct Refusal {
    pub number: u32,
    pub place: (usize, usize),
}

fn refuse<T>(number: u32, first: usize, second: usize) -> Result<T, Refusal> {
    Err(Refusal { number, place: (first, second) })
}

// ------------------------------------------------------------ boards and nets

#[derive(Clone, Copy, PartialEq, Eq)]
struct Vertex {
    line: u8,
    column: u8,
}

#[derive(Clone, Copy)]
struct Row {
    left: u8,
    right: u8,
}

impl Row {
    fn contains(self, other: Row) -> bool {
        self.left <= other.left && other.right <= self.right
    }
}

#[derive(Clone, Copy)]
struct Pair {
    first: Vertex,
    second: Vertex,
}

/// Net n at place n - 1.
type Nets = [Option<Pair>; 64];

/// Which of the four cells around a vertex are there.
struct Around {
    above_left: bool,
    above_right: bool,
    below_left: bool,
    below_right: bool,
}

impl Around {
    fn any(&self) -> bool {
        self.above_left || self.above_right || self.below_left || self.below_right
    }

    fn down(&self) -> bool {
        self.below_left || self.below_right
    }

    fn right(&self) -> bool {
        self.above_right || self.below_right
    }

    fn degree(&self) -> usize {
        let up = self.above_left || self.above_right;
        let left = self.above_left || self.below_left;
        up as usize + self.right() as usize + self.down() as usize + left as usize
    }
}

struct Board {
    rows: Vec<Row>,
    /// An outer corner has one pin.
    new_rule: bool,
    /// How many pins of each vertex the package has taken.
    taken: [u8; 1024],
}

impl Board {
    fn cell(&self, row: u8, column: u8) -> bool {
        self.rows.get(row as usize).is_some_and(|r| r.left <= column && column < r.right)
    }

    fn around(&self, v: Vertex) -> Around {
        let (above, below) = (v.line.wrapping_sub(1), v.line);
        let (left, right) = (v.column.wrapping_sub(1), v.column);
        Around {
            above_left: self.cell(above, left),
            above_right: self.cell(above, right),
            below_left: self.cell(below, left),
            below_right: self.cell(below, right),
        }
    }

    /// The pins of a vertex by the board's book, before any are taken.
    fn pins(&self, around: &Around) -> usize {
        match around.degree() {
            2 if self.new_rule => 1,
            degree => 4 - degree,
        }
    }

    /// The pins of a vertex, less those that are taken.
    fn pins_left(&self, around: Around, v: Vertex) -> usize {
        self.pins(&around).saturating_sub(self.taken[spot(v) as usize] as usize)
    }

    /// More pins are taken than the vertex has, or it is no vertex.
    fn over_taken(&self, v: Vertex, count: u8) -> bool {
        let around = self.around(v);
        !around.any() || self.pins(&around) < count as usize
    }

    /// The rows nested, widths never shrinking and then growing: row after row is taken from the top or the bottom, the inner one first.
    fn is_convex(&self) -> bool {
        if self.rows.is_empty() || self.rows.len() > 31 || self.rows.iter().any(|r| r.left >= r.right || r.right > 31) {
            return false;
        }
        let (mut low, mut high) = (0, self.rows.len() - 1);
        let mut inner = Row { left: 31, right: 0 };
        while low < high {
            let (top, bottom) = (self.rows[low], self.rows[high]);
            let taken = if bottom.contains(top) {
                low += 1;
                top
            } else {
                high -= 1;
                bottom
            };
            if !taken.contains(inner) {
                return false;
            }
            inner = taken;
        }
        self.rows[low].contains(inner)
    }
}

fn terminals_at(nets: &Nets, v: Vertex) -> usize {
    nets.iter().flatten().map(|p| (p.first == v) as usize + (p.second == v) as usize).sum()
}

/// The number of the refusal that adding the net gets, if any.
fn add_refused(board: &Board, nets: &Nets, number: u8, ends: Pair) -> Option<u32> {
    if !(1..=64).contains(&number) {
        return Some(21);
    }
    if nets[number as usize - 1].is_some() {
        return Some(22);
    }
    let (first, second) = (board.around(ends.first), board.around(ends.second));
    if !first.any() || !second.any() {
        return Some(23);
    }
    if ends.first == ends.second {
        return Some(24);
    }
    let full = |around: Around, v: Vertex| board.pins_left(around, v) <= terminals_at(nets, v);
    if full(first, ends.first) || full(second, ends.second) {
        return Some(25);
    }
    None
}

// ------------------------------------------------------------ reading

enum BoardWord {
    Row(Row),
    Taken(Vertex, u8),
    Net(u8, Pair),
    /// The book, 0 or 1, and the counts of rows and nets.
    End(u8, u8, u8),
}

fn bits(w: u32, low: u32, count: u32) -> u8 {
    (w >> low & ((1 << count) - 1)) as u8
}

fn board_word(w: u32) -> Option<BoardWord> {
    match w >> 28 {
        1 if w & 0x0FFF_FC00 == 0 => Some(BoardWord::Row(Row { left: bits(w, 5, 5), right: bits(w, 0, 5) })),
        2 => {
            let first = Vertex { line: bits(w, 15, 5), column: bits(w, 10, 5) };
            let second = Vertex { line: bits(w, 5, 5), column: bits(w, 0, 5) };
            Some(BoardWord::Net(bits(w, 20, 8), Pair { first, second }))
        }
        3 if w & 0x0FFF_F000 == 0 && (1..=2).contains(&bits(w, 10, 2)) => {
            Some(BoardWord::Taken(Vertex { line: bits(w, 5, 5), column: bits(w, 0, 5) }, bits(w, 10, 2)))
        }
        15 if w & 0x0EFF_0000 == 0 => Some(BoardWord::End(bits(w, 24, 4), bits(w, 8, 8), bits(w, 0, 8))),
        _ => None,
    }
}

/// The words one by one, each through refusals 12 to 15.
fn scan(words: &[u32]) -> Result<Board, Refusal> {
    let mut rows = Vec::with_capacity(31);
    let (mut nets, mut last, mut ended) = (0, 0, false);
    let (mut last_taken, mut new_rule) = (None, false);
    for (i, &w) in words.iter().enumerate() {
        match board_word(w) {
            None => return refuse(12, i, 0),
            Some(BoardWord::Row(row)) => {
                if last_taken.is_some() || nets > 0 || ended {
                    return refuse(13, i, 0);
                }
                if row.left >= row.right || rows.len() == 31 {
                    return refuse(14, i, 0);
                }
                rows.push(row);
            }
            Some(BoardWord::Taken(v, _)) => {
                if i == 0 || nets > 0 || ended || last_taken.is_some_and(|last| spot(v) <= last) {
                    return refuse(13, i, 0);
                }
                last_taken = Some(spot(v));
            }
            Some(BoardWord::Net(number, _)) => {
                if i == 0 || ended || nets > 0 && number <= last {
                    return refuse(13, i, 0);
                }
                nets += 1;
                last = number;
            }
            Some(BoardWord::End(book, row_count, net_count)) => {
                if i == 0 || ended {
                    return refuse(13, i, 0);
                }
                if (row_count as usize, net_count) != (rows.len(), nets) {
                    return refuse(15, i, 0);
                }
                (ended, new_rule) = (true, book == 1);
            }
        }
    }
    if ended { Ok(Board { rows, new_rule, taken: [0; 1024] }) } else { refuse(13, words.len(), 0) }
}

fn read(bytes: &[u8]) -> Result<(Board, Nets), Refusal> {
    if bytes.len() % 4 != 0 {
        return refuse(10, 0, 0);
    }
    if bytes.is_empty() || bytes.len() > 4 * 224 {
        return refuse(11, 0, 0);
    }
    let words: Vec<u32> = bytes.chunks_exact(4).map(|b| u32::from_le_bytes([b[0], b[1], b[2], b[3]])).collect();
    let mut board = scan(&words)?;
    if !board.is_convex() {
        return refuse(16, 0, 0);
    }
    for (i, &w) in words.iter().enumerate() {
        if let Some(BoardWord::Taken(v, count)) = board_word(w) {
            if board.over_taken(v, count) {
                return refuse(38, i, 0);
            }
            board.taken[spot(v) as usize] = count;
        }
    }
    let mut nets: Nets = [None; 64];
    for (i, &w) in words.iter().enumerate() {
        if let Some(BoardWord::Net(number, ends)) = board_word(w) {
            if let Some(refusal) = add_refused(&board, &nets, number, ends) {
                return refuse(refusal, i, 0);
            }
            nets[number as usize - 1] = Some(ends);
        }
    }
    Ok((board, nets))
}

// ------------------------------------------------------------ what routing checks first

/// A convex board, taken pins that are there, and nets that could all be added to it. The pile of a board that was read is empty.
fn is_sound(board: &Board, nets: &Nets) -> bool {
    let mut on: Nets = [None; 64];
    let mut ok = board.is_convex();
    for (i, &count) in board.taken.iter().enumerate() {
        ok &= count == 0 || !board.over_taken(Vertex { line: (i / 32) as u8, column: (i % 32) as u8 }, count);
    }
    for (i, net) in nets.iter().enumerate() {
        if let Some(ends) = *net {
            ok &= add_refused(board, &on, i as u8 + 1, ends).is_none();
        }
        on[i] = *net;
    }
    ok
}

/// The odd vertices in reading order.
fn odd_vertices(board: &Board, nets: &Nets) -> Vec<Vertex> {
    let mut terminals = [0; 1024];
    for p in nets.iter().flatten() {
        terminals[spot(p.first) as usize] += 1;
        terminals[spot(p.second) as usize] += 1;
    }
    let mut odd = Vec::new();
    for line in 0..=board.rows.len() as u8 {
        for column in 0..32 {
            let v = Vertex { line, column };
            let around = board.around(v);
            if around.any() && (around.degree() + terminals[spot(v) as usize]) % 2 == 1 {
                odd.push(v);
            }
        }
    }
    odd
}

/// Edges minus crossing nets.
fn row_margin(board: &Board, nets: &Nets, i: u8) -> i32 {
    let edges = (0..32).filter(|&column| board.around(Vertex { line: i, column }).down()).count();
    let crossing = nets.iter().flatten().filter(|p| (p.first.line <= i) != (p.second.line <= i)).count();
    edges as i32 - crossing as i32
}

fn column_margin(board: &Board, nets: &Nets, j: u8) -> i32 {
    let edges = (0..32).filter(|&line| board.around(Vertex { line, column: j }).right()).count();
    let crossing = nets.iter().flatten().filter(|p| (p.first.column <= j) != (p.second.column <= j)).count();
    edges as i32 - crossing as i32
}

/// The first overfull cut: 0 for a row or 1 for a column, and its index.
fn first_overfull(board: &Board, nets: &Nets) -> Option<(usize, usize)> {
    let row = (0..board.rows.len() as u8).find(|&i| row_margin(board, nets, i) < 0).map(|i| (0, i as usize));
    row.or_else(|| (0..31).find(|&j| column_margin(board, nets, j) < 0).map(|j| (1, j as usize)))
}

// ------------------------------------------------------------ helper pairs for odd vertices

/// What is left at each cut: its margin, less the helper pairs that cross it.
struct Slack {
    rows: Vec<i32>,
    columns: Vec<i32>,
}

impl Slack {
    fn new(board: &Board, nets: &Nets) -> Slack {
        Slack {
            rows: (0..board.rows.len() as u8).map(|i| row_margin(board, nets, i)).collect(),
            columns: (0..31).map(|j| column_margin(board, nets, j)).collect(),
        }
    }

    /// What is left at the cuts that the pair crosses.
    fn crossed(&mut self, p: Pair) -> impl Iterator<Item = &mut i32> {
        let between = |a: u8, b: u8| a.min(b) as usize..a.max(b) as usize;
        let rows = &mut self.rows[between(p.first.line, p.second.line)];
        rows.iter_mut().chain(&mut self.columns[between(p.first.column, p.second.column)])
    }

    /// One pair more, unless a cut that it crosses is full.
    fn take(&mut self, p: Pair) -> bool {
        let fits = self.crossed(p).all(|left| *left > 0);
        if fits {
            self.crossed(p).for_each(|left| *left -= 1);
        }
        fits
    }

    /// One pair less.
    fn give_back(&mut self, p: Pair) {
        self.crossed(p).for_each(|left| *left += 1);
    }
}

/// Pairs up the vertices: the first with each later one in turn, and then the rest, in which the second stands where that one stood. The pairs are
/// pushed as the search comes back from the last of them.
fn pair_up(odd: &mut [Vertex], slack: &mut Slack, helpers: &mut Vec<Pair>) -> bool {
    let Some((&mut first, later)) = odd.split_first_mut() else { return true };
    for k in 0..later.len() {
        let pair = Pair { first, second: later[k] };
        if slack.take(pair) {
            later.swap(0, k);
            if pair_up(&mut later[1..], slack, helpers) {
                helpers.push(pair);
                return true;
            }
            later.swap(0, k);
            slack.give_back(pair);
        }
    }
    false
}

/// Helper pairs for the odd vertices that leave no cut overfull, if there are any.
fn helpers_of(board: &Board, nets: &Nets, mut odd: Vec<Vertex>) -> Option<Vec<Pair>> {
    let mut helpers = Vec::new();
    if odd.is_empty() {
        return Some(helpers);
    }
    pair_up(&mut odd, &mut Slack::new(board, nets), &mut helpers).then_some(helpers)
}

// ------------------------------------------------------------ the corner steps

const UP: u8 = 0;
const RIGHT: u8 = 1;
const DOWN: u8 = 2;
const LEFT: u8 = 3;

/// A vertex as 32 * line + column.
type Spot = u16;

fn spot(v: Vertex) -> Spot {
    32 * v.line as Spot + v.column as Spot
}

fn at(line: usize, column: usize) -> Spot {
    (32 * line + column) as Spot
}

fn line_of(s: Spot) -> usize {
    s as usize / 32
}

fn column_of(s: Spot) -> usize {
    s as usize % 32
}

/// A pair that is still to be joined.
#[derive(Clone, Copy)]
struct Live {
    a: Spot,
    b: Spot,
    id: u16,
}

impl Live {
    fn ends_at(&self, s: Spot) -> bool {
        self.a == s || self.b == s
    }

    fn far(&self, from: Spot) -> Spot {
        if self.a == from { self.b } else { self.a }
    }

    fn move_end(&mut self, from: Spot, to: Spot) {
        if self.a == from {
            self.a = to;
        } else {
            self.b = to;
        }
    }
}

/// The halves of a divided pair: the first one's id, the second's is the next, and the two moves between them.
#[derive(Clone, Copy)]
struct Halves {
    first: u16,
    moves: [u8; 2],
}

/// A pair as it was made.
struct Made {
    start: Spot,
    end: Spot,
    halves: Option<Halves>,
}

/// Lines top to bottom as the shape is read, upside down where `up` holds; the live pairs; and notes, for each vertex, of who left it: id + 1 to the
/// right, 2 * id + 2 downwards or 2 * id + 3 upwards.
struct Router {
    low: [usize; 32],
    high: [usize; 32],
    top: usize,
    bottom: usize,
    up: bool,
    live: Vec<Live>,
    made: Vec<Made>,
    side: [u16; 1024],
    vertical: [u16; 1024],
}

impl Router {
    /// The nets' pairs in rising number, then the helpers'.
    fn new(board: &Board, nets: &Nets, helpers: &[Pair]) -> Router {
        let n = board.rows.len();
        let (mut low, mut high) = ([0; 32], [0; 32]);
        for line in 0..=n {
            let (above, below) = (board.rows[line.saturating_sub(1)], board.rows[line.min(n - 1)]);
            low[line] = above.left.min(below.left) as usize;
            high[line] = above.right.max(below.right) as usize;
        }
        let mut live = Vec::with_capacity(1024);
        let mut made = Vec::with_capacity(2112);
        for (id, p) in nets.iter().flatten().chain(helpers).enumerate() {
            let (a, b) = (spot(p.first), spot(p.second));
            live.push(Live { a, b, id: id as u16 });
            made.push(Made { start: a, end: b, halves: None });
        }
        Router { low, high, top: 0, bottom: n, up: false, live, made, side: [0; 1024], vertical: [0; 1024] }
    }

    /// Pairs whose ends have met are dropped; the last row takes the place of one.
    fn tidy(&mut self) {
        let mut i = 0;
        while i < self.live.len() {
            if self.live[i].a == self.live[i].b {
                self.live.swap_remove(i);
            } else {
                i += 1;
            }
        }
    }

    fn seen(&self, line: usize) -> usize {
        if self.up { 31 - line } else { line }
    }

    fn below(&self, s: Spot) -> Spot {
        if self.up { s - 32 } else { s + 32 }
    }

    /// The shape is read upside down, if the bottom line is narrower than the top line.
    fn turn(&mut self) {
        let (t, b) = (self.seen(self.top), self.seen(self.bottom));
        if self.high[b] + self.low[t] < self.high[t] + self.low[b] {
            (self.top, self.bottom) = (31 - self.bottom, 31 - self.top);
            self.up = !self.up;
        }
    }

    fn first_at(&self, s: Spot, from: usize) -> Option<usize> {
        self.live[from..].iter().position(|p| p.ends_at(s)).map(|i| from + i)
    }

    fn crossing(&self, x: usize) -> usize {
        self.live.iter().filter(|p| (column_of(p.a) <= x) != (column_of(p.b) <= x)).count()
    }

    fn leaving(&self, line: usize) -> usize {
        self.live.iter().filter(|p| (line_of(p.a) == line) != (line_of(p.b) == line)).count()
    }

    /// Of the pairs that cross column x, the first one whose right end has the least line, as the shape is read.
    fn least(&self, x: usize) -> Option<usize> {
        let crossing = self.live.iter().enumerate().filter(|(_, p)| (column_of(p.a) <= x) != (column_of(p.b) <= x));
        crossing.min_by_key(|(_, p)| self.seen(line_of(if column_of(p.a) <= x { p.b } else { p.a }))).map(|(i, _)| i)
    }

    fn leave_right(&mut self, i: usize, from: Spot) {
        self.side[from as usize] = self.live[i].id + 1;
        self.live[i].move_end(from, from + 1);
    }

    fn leave_down(&mut self, i: usize, from: Spot) {
        let to = self.below(from);
        self.vertical[from as usize] = 2 * self.live[i].id + 2 + self.up as u16;
        self.live[i].move_end(from, to);
    }

    /// Two pairs end at the corner: which goes right, and which down?
    fn two_ends(&mut self, i: usize, line: usize, x: usize) -> Option<()> {
        let from = at(line, x);
        let j = self.first_at(from, i + 1)?;
        let (s, t) = (self.live[i].far(from), self.live[j].far(from));
        let swap = match (line_of(s) == line, line_of(t) == line) {
            (true, false) => false,
            (false, true) => true,
            _ => column_of(s) <= x,
        };
        let (right, down) = if swap { (j, i) } else { (i, j) };
        self.low[line] = x + 1;
        self.leave_right(right, from);
        self.leave_down(down, from);
        Some(())
    }

    /// Pair i is divided at the corner: it comes from the right neighbour where `from_right` holds, else from the one below.
    fn divide(&mut self, i: usize, from_right: bool, right: Spot, below: Spot) {
        let (x, y) = if from_right { (right, below) } else { (below, right) };
        let (down, up) = if self.up { (UP, DOWN) } else { (DOWN, UP) };
        let moves = if from_right { [LEFT, down] } else { [up, RIGHT] };
        let next = self.made.len() as u16;
        let Live { a, b, id } = self.live[i];
        self.made[id as usize].halves = Some(Halves { first: next, moves });
        self.made.push(Made { start: a, end: x, halves: None });
        self.made.push(Made { start: y, end: b, halves: None });
        self.live[i] = Live { a, b: x, id: next };
        self.live.push(Live { a: y, b, id: next + 1 });
    }

    /// No pair ends at the corner: one is divided there, or a helper pair is added.
    fn no_end(&mut self, line: usize, x: usize) -> Option<()> {
        let corner = at(line, x);
        let (right, below) = (corner + 1, self.below(corner));
        self.low[line] = x + 1;
        if self.crossing(x) == self.bottom - self.top + 1 {
            let i = self.least(x)?;
            self.divide(i, x < column_of(self.live[i].a), right, below);
        } else if self.leaving(line) + x == self.high[line] + 1 {
            let i = self.first_at(right, 0)?;
            self.divide(i, self.live[i].a == right, right, below);
        } else {
            self.live.push(Live { a: right, b: below, id: self.made.len() as u16 });
            self.made.push(Made { start: right, end: below, halves: None });
        }
        Some(())
    }

    /// The corner is cut off.
    fn step(&mut self) -> Option<()> {
        let line = self.seen(self.top);
        let (x, end) = (self.low[line], self.high[line]);
        let corner = at(line, x);
        let first = self.first_at(corner, 0);
        if self.top == self.bottom {
            self.low[line] = x + 1;
            self.leave_right(first?, corner);
        } else if x == end {
            self.leave_down(first?, corner);
            self.top += 1;
        } else if let Some(i) = first {
            self.two_ends(i, line, x)?;
        } else {
            self.no_end(line, x)?;
        }
        Some(())
    }

    /// Corner after corner until no pair is live.
    fn run(&mut self) -> Option<()> {
        self.tidy();
        while !self.live.is_empty() {
            self.turn();
            self.step()?;
            self.tidy();
        }
        Some(())
    }

    // ------------------------------------------------------------ paths

    /// The moves of a pair's end from where it started.
    fn trail(&self, id: u16, start: Spot, out: &mut Vec<u8>) {
        let mut at = start as usize;
        loop {
            let (side, vertical) = (self.side[at], self.vertical[at]);
            if side == id + 1 {
                out.push(RIGHT);
                at += 1;
            } else if vertical == 2 * id + 2 {
                out.push(DOWN);
                at += 32;
            } else if vertical == 2 * id + 3 {
                out.push(UP);
                at -= 32;
            } else {
                return;
            }
        }
    }

    /// The path of a pair: its first end's moves, its halves with the two moves between them, its second end's moves backwards.
    fn assemble(&self, id: u16, out: &mut Vec<u8>) {
        let made = &self.made[id as usize];
        self.trail(id, made.start, out);
        if let Some(halves) = made.halves {
            self.assemble(halves.first, out);
            out.extend(halves.moves);
            self.assemble(halves.first + 1, out);
        }
        let from = out.len();
        self.trail(id, made.end, out);
        out[from..].reverse();
        for d in &mut out[from..] {
            *d = (*d + 2) % 4;
        }
    }

    /// The nets' paths; the helpers' are left out.
    fn words(&self, nets: &Nets) -> Vec<u32> {
        let mut words = Vec::with_capacity(2049);
        let mut moves = Vec::with_capacity(2048);
        let mut count = 0;
        for (i, _) in nets.iter().enumerate().filter(|(_, net)| net.is_some()) {
            moves.clear();
            self.assemble(count, &mut moves);
            let head = words.len();
            words.push(0);
            words.extend(moves.chunk_by(|a, b| a == b).map(|run| 5 << 28 | (run[0] as u32) << 26 | run.len() as u32));
            let runs = words.len() - head - 1;
            words[head] = 4 << 28 | (i as u32 + 1) << 20 | runs as u32;
            count += 1;
        }
        words.push(14 << 28 | count as u32);
        words
    }
}

/// The most words of a routing: 1, the nets and the edges of a convex board, which are two for each cell, one more for each row, and as many besides
/// as the widest row has cells.
fn word_limit(board: &Board, nets: &Nets) -> usize {
    let widths = board.rows.iter().map(|r| (r.right - r.left) as usize);
    let edges: usize = widths.clone().map(|w| 2 * w + 1).sum();
    1 + nets.iter().flatten().count() + edges + widths.max().unwrap_or(0)
}

/// Reads a board and routes its nets into the buffer, as `cidrask_route` does.
pub fn route(board: &[u8], buffer: &mut [u8]) -> Answer {
    let (board, nets) = read(board)?;
    if !is_sound(&board, &nets) {
        return refuse(20, 0, 0);
    }
    if buffer.len() / 4 < word_limit(&board, &nets) {
        return refuse(31, 0, 0);
    }
    let odd = odd_vertices(&board, &nets);
    if odd.len() > 12 {
        return refuse(32, odd[0].line as usize, odd[0].column as usize);
    }
    if let Some((kind, index)) = first_overfull(&board, &nets) {
        return refuse(33, kind, index);
    }
    let Some(helpers) = helpers_of(&board, &nets, odd) else {
        return refuse(34, 0, 0);
    };
    let mut router = Router::new(&board, &nets, &helpers);
    router.run().expect("a board without an overfull cut, even with its helper pairs, is never stuck");
    let words = router.words(&nets);
    for (bytes, w) in buffer.chunks_exact_mut(4).zip(&words) {
        bytes.copy_from_slice(&w.to_le_bytes());
    }
    Ok(words.len())
}
