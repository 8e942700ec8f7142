//! The independent side tried on its own: the ring and the boards a to i of the requirements, the wire to order by hand and against other ways to
//! work it out, the room that routing asks for, the bounds on lists of several makers, taken pins and rule books by hand and on boards made for a
//! refusal, reports by hand and against another way to work them out, pairs of routings whose answer is known, pages drawn by hand and against
//! another way to draw them, the three readings of convexity against each other, the exhaustive router on boards whose answer is known, odd vertices
//! and their pairings, and the revised cut test on boards worked out by hand and against other ways to work it out.

#[allow(dead_code)]
mod books;
mod exhaustive;
mod full;
#[allow(dead_code)]
mod generate;
mod independent;
mod page;
mod taken;

use books::{made_bytes, made_kinds, MADE_KINDS};
use exhaustive::{route, Answer};
use full::{always_filled, filled, turning};
use generate::{any_bare, convex_rows, free_pins, loop_laid_on, mirrored, odd_nets, stepped_rows, take_pins, trails, true_board, turned, Care, Random};
use independent::*;
use page::{draw, page_length, printed, read_off, used_edges, LONGEST, ROOM};
use std::collections::{BTreeMap, BTreeSet};

const RING: [u32; 6] = [0x10000001, 0x20100001, 0x20200421, 0x20308420, 0x20408000, 0xF0000104];
const RING_ROUTED: [u32; 9] =
    [0x40100001, 0x54000001, 0x40200001, 0x58000001, 0x40300001, 0x5C000001, 0x40400001, 0x50000001, 0xE0000004];

fn with_nets(rows: &[(usize, usize)], nets: &[(u32, Vertex, Vertex)]) -> Board {
    let mut board = Board::bare(rows);
    for &(number, first, second) in nets {
        let net = Net { number, first, second };
        assert_eq!(board.add_refused(&net), None);
        board.nets.push(net);
    }
    board
}

fn refused(number: u32, place: u32) -> Refusal {
    Refusal { number, place: [place, 0] }
}

/// Edges, turns and knock-knees; the vertices where one net turns twice, and the most turns at a vertex.
fn report([edges, turns, knock_knees]: [u32; 3], turned_twice: u32, most_turns: u32) -> Report {
    Report { edges, turns, knock_knees, turned_twice, most_turns }
}

fn routes(board: &Board) -> bool {
    match route(board, u64::MAX) {
        Answer::Paths(paths) => {
            assert!(judge(board, &bytes_of(&routing_words(board, &paths))).is_ok());
            true
        }
        answer => {
            assert_eq!(answer, Answer::None);
            false
        }
    }
}

fn ring_and_boards() {
    // a
    let a = read(&bytes_of(&RING)).unwrap();
    assert_eq!(a.words(), RING);
    assert_eq!(judge(&a, &bytes_of(&RING_ROUTED)), Ok(report([4, 0, 0], 0, 0)));
    assert_eq!(route_refused(&a, 8196), None);
    let steps = [vec![RIGHT], vec![DOWN], vec![LEFT], vec![UP]];
    assert_eq!(routing_words(&a, &steps), RING_ROUTED);
    // b
    let b = with_nets(&[(0, 1)], &[(1, (0, 0), (1, 1)), (2, (0, 0), (1, 1))]);
    assert_eq!((b.margin(Cut::Row(0)), b.margin(Cut::Column(0))), (0, 0));
    assert!(b.odd_vertices().is_empty() && routes(&b));
    // c
    let mut c = b.clone();
    c.nets.push(Net { number: 3, first: (0, 1), second: (1, 0) });
    c.nets.push(Net { number: 4, first: (0, 1), second: (1, 0) });
    assert_eq!(c.margin(Cut::Row(0)), -2);
    assert_eq!(route_refused(&c, 8196), Some(Refusal { number: 33, place: [0, 0] }));
    assert!(!routes(&c));
    // d
    let d = with_nets(&[(0, 2)], &[(1, (0, 1), (1, 1))]);
    assert_eq!(d.margin(Cut::Row(0)), 2);
    assert!(d.odd_vertices().is_empty() && routes(&d));
    // e
    let e = Board::bare(&[(0, 2)]);
    assert_eq!(e.odd_vertices(), [(0, 1), (1, 1)]);
    assert_eq!(route_refused(&e, 8196), None);
    // f, g, h
    assert!(!Board::bare(&[(0, 1), (1, 2)]).convex());
    assert!(!Board::bare(&[(0, 2), (0, 1), (0, 2)]).convex());
    let h = Board::bare(&[(1, 2), (0, 3), (1, 2)]);
    assert!(h.convex());
    assert_eq!((h.degree((1, 1)), h.pins((1, 1))), (4, 0));
    assert_eq!(h.add_refused(&Net { number: 1, first: (1, 1), second: (0, 1) }), Some(25));
    // i
    let i = with_nets(&[(0, 2), (0, 2)], &[(1, (0, 1), (1, 0)), (2, (1, 2), (2, 1))]);
    let crossing = routing_words(&i, &[vec![DOWN, LEFT], vec![LEFT, DOWN]]);
    assert_eq!(judge(&i, &bytes_of(&crossing)), Ok(report([4, 2, 1], 0, 2)));
}

type Ends = (u32, Vertex, Vertex);

/// What the judge says of these paths for these nets.
fn judged(rows: &[(usize, usize)], nets: &[Ends], paths: &[&[usize]]) -> Result<Report, Refusal> {
    let board = with_nets(rows, nets);
    let paths: Vec<Vec<usize>> = paths.iter().map(|path| path.to_vec()).collect();
    judge(&board, &bytes_of(&routing_words(&board, &paths)))
}

/// Turns of one net on the board of i and on three rows of three cells.
fn turns_of_one_net() {
    let (two, three) = ([(0, 2); 2], [(0, 3); 3]);
    let (right, left) = ([(1, (0, 1), (1, 2))], [(1, (0, 1), (1, 0))]);
    // Twice at (1, 1), which takes its edges upward and to the left together or upward and to the right.
    assert_eq!(judged(&two, &right, &[&[DOWN, LEFT, DOWN, RIGHT, UP, RIGHT]]), Ok(report([6, 5, 1], 1, 2)));
    assert_eq!(judged(&two, &left, &[&[DOWN, RIGHT, DOWN, LEFT, UP, LEFT]]), Ok(report([6, 5, 1], 1, 2)));
    // Twice at (1, 1) and at (2, 2).
    let back = [DOWN, RIGHT, DOWN, RIGHT, DOWN, LEFT, UP, LEFT, UP, LEFT];
    assert_eq!(judged(&three, &left, &[&back]), Ok(report([10, 9, 2], 2, 2)));
    // Once at each vertex, or at none.
    assert_eq!(judged(&two, &[(1, (0, 0), (2, 2))], &[&[RIGHT, DOWN, RIGHT, DOWN]]), Ok(report([4, 3, 0], 0, 1)));
    assert_eq!(judged(&two, &[(1, (0, 1), (2, 1))], &[&[DOWN, DOWN]]), Ok(report([2, 0, 0], 0, 0)));
    // Twice through (1, 1), straight on both times.
    assert_eq!(judged(&two, &right, &[&[DOWN, DOWN, LEFT, UP, RIGHT, RIGHT]]), Ok(report([6, 3, 0], 0, 1)));
    // Twice at (0, 1), which is a terminal: a turn there and an end, straight on and an end, a start and a turn, a start and straight on.
    let (to, from) = ([(1, (0, 0), (0, 1))], [(1, (0, 1), (0, 0))]);
    assert_eq!(judged(&[(0, 2)], &to, &[&[RIGHT, DOWN, RIGHT, UP, LEFT]]), Ok(report([5, 4, 0], 0, 1)));
    assert_eq!(judged(&[(0, 2)], &to, &[&[RIGHT, RIGHT, DOWN, LEFT, UP]]), Ok(report([5, 3, 0], 0, 1)));
    assert_eq!(judged(&[(0, 2)], &from, &[&[RIGHT, DOWN, LEFT, UP, LEFT]]), Ok(report([5, 4, 0], 0, 1)));
    assert_eq!(judged(&[(0, 2)], &from, &[&[DOWN, RIGHT, UP, LEFT, LEFT]]), Ok(report([5, 3, 0], 0, 1)));
    // Straight on through (1, 1) and then a turn there: one edge is used again.
    assert_eq!(judged(&two, &right, &[&[DOWN, DOWN, LEFT, UP, RIGHT, UP]]), Err(refused(45, 5)));
}

/// Turns of two nets on the same boards.
fn turns_of_two_nets() {
    let (two, three) = ([(0, 2); 2], [(0, 3); 3]);
    // Both at (1, 1), as on board i and the other way.
    let other_way = [(1, (0, 1), (1, 2)), (2, (1, 0), (2, 1))];
    assert_eq!(judged(&two, &other_way, &[&[DOWN, RIGHT], &[RIGHT, DOWN]]), Ok(report([4, 2, 1], 0, 2)));
    // Both at (1, 1) and at (2, 2).
    let stairs = [(1, (1, 0), (3, 2)), (2, (0, 1), (2, 3))];
    assert_eq!(judged(&three, &stairs, &[&[RIGHT, DOWN, RIGHT, DOWN], &[DOWN, RIGHT, DOWN, RIGHT]]), Ok(report([8, 6, 2], 0, 2)));
    // Net 1 twice at (1, 1), both at (1, 2).
    let mixed = [(1, (0, 1), (3, 2)), (2, (0, 2), (1, 3))];
    assert_eq!(judged(&three, &mixed, &[&[DOWN, LEFT, DOWN, RIGHT, UP, RIGHT, DOWN, DOWN], &[DOWN, RIGHT]]), Ok(report([10, 7, 2], 1, 2)));
    // Both straight on through (1, 1).
    assert_eq!(judged(&two, &[(1, (0, 1), (2, 1)), (2, (1, 0), (1, 2))], &[&[DOWN, DOWN], &[RIGHT, RIGHT]]), Ok(report([4, 0, 0], 0, 0)));
    // Net 1 turns at (0, 1), where net 2 starts.
    assert_eq!(judged(&two, &[(1, (0, 0), (1, 0)), (2, (0, 1), (1, 2))], &[&[RIGHT, DOWN, LEFT], &[RIGHT, DOWN]]), Ok(report([5, 3, 0], 0, 1)));
    // Net 1 turns at (1, 1), and net 2 goes straight on: along the line or along the column, one edge is used again.
    let along_line = [(1, (0, 1), (1, 0)), (2, (1, 2), (2, 0))];
    assert_eq!(judged(&two, &along_line, &[&[DOWN, LEFT], &[LEFT, LEFT, DOWN]]), Err(refused(45, 4)));
    let along_column = [(1, (0, 1), (1, 0)), (2, (2, 1), (0, 2))];
    assert_eq!(judged(&two, &along_column, &[&[DOWN, LEFT], &[UP, UP, RIGHT]]), Err(refused(45, 4)));
}

/// For each vertex the nets of the turns there: a step along a line and one along a column, one after the other.
fn turns_by_steps(board: &Board, paths: &[Vec<usize>]) -> BTreeMap<Vertex, Vec<u32>> {
    let mut turns: BTreeMap<Vertex, Vec<u32>> = BTreeMap::new();
    for (net, path) in board.nets.iter().zip(paths) {
        let mut at = net.first;
        for two in path.windows(2) {
            at = step(at, two[0]);
            if two[0] % 2 != two[1] % 2 {
                turns.entry(at).or_default().push(net.number);
            }
        }
    }
    turns
}

/// The report step by step.
fn report_by_steps(board: &Board, paths: &[Vec<usize>]) -> Report {
    let turns = turns_by_steps(board, paths);
    let counts: Vec<u32> = turns.values().map(|nets| nets.len() as u32).collect();
    let two = counts.iter().filter(|&&count| count == 2).count() as u32;
    let of_one = turns.values().filter(|nets| nets.len() == 2 && nets[0] == nets[1]).count() as u32;
    let edges = paths.iter().map(|path| path.len() as u32).sum();
    report([edges, counts.iter().sum(), two], of_one, counts.iter().copied().max().unwrap_or(0))
}

/// Reports on random trails, some with a loop laid on. Answers with how many lists were judged, and how many of them have a vertex where one net
/// turns twice.
fn reports_on_trails() -> (usize, usize) {
    let (mut lists, mut twice) = (0, 0);
    for case in 0..6_000 {
        let mut random = Random::of_case(7, 'k', case);
        let size = random.pick(&[2, 4, 6]);
        let board = true_board(&mut random, (size, size));
        let Some(mut paths) = trails(&mut random, &board) else { continue };
        if random.one_in(2) {
            paths = loop_laid_on(&mut random, &board, &paths).unwrap_or(paths);
        }
        let due = report_by_steps(&board, &paths);
        assert!(due.most_turns <= 2);
        assert_eq!(judge(&board, &bytes_of(&routing_words(&board, &paths))), Ok(due));
        lists += 1;
        twice += (due.turned_twice > 0) as usize;
    }
    assert!(lists > 1_000 && twice > 100, "{lists} {twice}");
    (lists, twice)
}

/// Lists one word away from the ring's, with the refusal that the table gives.
fn refusals() {
    let board = |change: &dyn Fn(&mut Vec<u32>)| {
        let mut words = RING.to_vec();
        change(&mut words);
        read(&bytes_of(&words)).err()
    };
    assert_eq!(read(&[0; 5]), Err(refused(10, 0)));
    assert_eq!(read(&[]), Err(refused(11, 0)));
    assert_eq!(read(&[0xFF; 4 * 225]), Err(refused(11, 0)));
    assert_eq!([read(&[0xFF; 4 * 97]), read(&[0xFF; 4 * 224])], [Err(refused(12, 0)), Err(refused(12, 0))]);
    assert_eq!(board(&|w| w[0] |= 1 << 10), Some(refused(12, 0)));
    assert_eq!(board(&|w| w[5] |= 1 << 16), Some(refused(12, 5)));
    assert_eq!(board(&|w| w[3] = 0x30308420), Some(refused(12, 3)));
    assert_eq!(board(&|w| w.push(0)), Some(refused(12, 6)));
    assert_eq!(board(&|w| w.push(0xF0000104)), Some(refused(13, 6)));
    assert_eq!(board(&|w| w.truncate(5)), Some(refused(13, 5)));
    assert_eq!(board(&|w| w.swap(0, 1)), Some(refused(13, 0)));
    assert_eq!(board(&|w| w.swap(1, 2)), Some(refused(13, 2)));
    assert_eq!(board(&|w| w[2] = 0x20000421), Some(refused(13, 2)));
    assert_eq!(board(&|w| w[0] = 0x10000021), Some(refused(14, 0)));
    assert_eq!(board(&|w| w[5] = 0xF0000103), Some(refused(15, 5)));
    assert_eq!(board(&|w| w[5] = 0xF0000204), Some(refused(15, 5)));
    assert_eq!(board(&|w| w[1] = 0x20000001), Some(refused(21, 1)));
    assert_eq!(board(&|w| w[4] = 0x24108000), Some(refused(21, 4)));
    assert_eq!(board(&|w| w[4] = 0x24008000), None);
    assert_eq!(board(&|w| w[2] = 0x20200422), Some(refused(23, 2)));
    assert_eq!(board(&|w| w[2] = 0x20200401), Some(refused(24, 2)));
    assert_eq!(board(&|w| w[4] = 0x20408001), Some(refused(25, 4)));
    let mut rows = vec![0x10000001; 32];
    rows.push(0xF0002000);
    assert_eq!(read(&bytes_of(&rows)).err(), Some(refused(14, 31)));
    rows.remove(0);
    rows[31] = 0xF0001F00;
    assert_eq!(read(&bytes_of(&rows)).unwrap().rows.len(), 31);
    assert_eq!(read(&bytes_of(&[0x10000001, 0x10000022, 0xF0000200])).err(), Some(refused(16, 0)));

    let a = read(&bytes_of(&RING)).unwrap();
    let list = |change: &dyn Fn(&mut Vec<u32>)| {
        let mut words = RING_ROUTED.to_vec();
        change(&mut words);
        judge(&a, &bytes_of(&words)).err()
    };
    assert_eq!(judge(&a, &[0; 3]), Err(refused(10, 0)));
    assert_eq!(judge(&a, &[]), Err(refused(41, 0)));
    assert_eq!(judge(&a, &[0; 4 * 2050]), Err(refused(41, 0)));
    assert_eq!(judge(&a, &[0; 4 * 2049]), Err(refused(42, 0)));
    assert_eq!(list(&|w| w[1] = 0x54000000), Some(refused(42, 1)));
    assert_eq!(list(&|w| w[1] = 0x54000021), Some(refused(42, 1)));
    assert_eq!(list(&|w| w[0] |= 1 << 11), Some(refused(42, 0)));
    assert_eq!(list(&|w| w[8] |= 1 << 8), Some(refused(42, 8)));
    assert_eq!(list(&|w| w[1] = 0x40200001), Some(refused(42, 1)));
    assert_eq!(list(&|w| { w[0] = 0x40100002; w.insert(1, 0x54000001) }), Some(refused(42, 2)));
    assert_eq!(list(&|w| w[2] = 0x40300001), Some(refused(43, 2)));
    assert_eq!(list(&|w| w[2] = 0xE0000004), Some(refused(43, 2)));
    assert_eq!(list(&|w| w[8] = 0x40500001), Some(refused(43, 8)));
    assert_eq!(list(&|w| w[8] = 0xE0000003), Some(refused(43, 8)));
    assert_eq!(list(&|w| w.truncate(8)), Some(refused(43, 8)));
    assert_eq!(list(&|w| w.push(0)), Some(refused(43, 9)));
    assert_eq!(list(&|w| w[1] = 0x54000002), Some(refused(44, 1)));
    assert_eq!(list(&|w| w[1] = 0x50000001), Some(refused(44, 1)));
    assert_eq!(list(&|w| { w[0] = 0x40100003; w.splice(2..2, [0x5C000001, 0x54000001]); }), Some(refused(45, 2)));
    assert_eq!(list(&|w| w[1] = 0x58000001), Some(refused(46, 0)));
}

/// Pairs of routings, alike and not.
fn pairs() {
    let answer = |board: &Board, one: &[Vec<usize>], two: &[Vec<usize>]| {
        let [one, two] = [one, two].map(|paths| bytes_of(&routing_words(board, paths)));
        let answers = [alike(board, &one, &two).unwrap(), alike(board, &two, &one).unwrap()];
        assert!(answers[0] == answers[1] && alike(board, &one, &one) == Ok(true));
        answers[0]
    };
    // Round one cell on either side.
    let cell = with_nets(&[(0, 1)], &[(1, (0, 0), (1, 1))]);
    assert!(!answer(&cell, &[vec![RIGHT, DOWN]], &[vec![DOWN, RIGHT]]));
    // A loop walked either way, or not at all; it may begin at the first terminal.
    let row = with_nets(&[(0, 2)], &[(1, (0, 0), (0, 1))]);
    let (one_way, other_way) = ([vec![RIGHT, DOWN, RIGHT, UP, LEFT]], [vec![RIGHT, RIGHT, DOWN, LEFT, UP]]);
    assert!(answer(&row, &one_way, &other_way));
    assert!(!answer(&row, &one_way, &[vec![RIGHT]]));
    let back = with_nets(&[(0, 2)], &[(1, (0, 1), (0, 0))]);
    assert!(answer(&back, &[vec![RIGHT, DOWN, LEFT, UP, LEFT]], &[vec![DOWN, RIGHT, UP, LEFT, LEFT]]));
    // Paths of two nets exchanged, which join the same vertices in the same order or not.
    let twins = with_nets(&[(0, 1)], &[(1, (0, 0), (1, 1)), (2, (0, 0), (1, 1))]);
    assert!(!answer(&twins, &[vec![RIGHT, DOWN], vec![DOWN, RIGHT]], &[vec![DOWN, RIGHT], vec![RIGHT, DOWN]]));
    let turned = with_nets(&[(0, 1)], &[(1, (0, 0), (1, 1)), (2, (1, 1), (0, 0))]);
    assert!(!answer(&turned, &[vec![RIGHT, DOWN], vec![LEFT, UP]], &[vec![DOWN, RIGHT], vec![UP, LEFT]]));
    // Equally many edges in all, but not for each net.
    let two_rows = with_nets(&[(0, 1), (0, 1)], &[(1, (0, 0), (0, 1)), (2, (2, 0), (2, 1))]);
    let (upper, lower) = ([vec![DOWN, RIGHT, UP], vec![RIGHT]], [vec![RIGHT], vec![UP, RIGHT, DOWN]]);
    assert!(!answer(&two_rows, &upper, &lower));
    assert!(answer(&Board::bare(&[(0, 1)]), &[], &[]));
    assert_eq!(steps_of(&routing_words(&row, &other_way)), other_way);
}

/// Lists that are refused on the ring's board, each with its number and place.
fn refused_lists() -> [(u32, u32, Vec<u8>); 8] {
    let changed = |index: usize, word: u32| {
        let mut words = RING_ROUTED.to_vec();
        words[index] = word;
        bytes_of(&words)
    };
    let astray = [0x40100003, 0x58000001, 0x54000001, 0x50000001, 0x40200001, 0x5C000001];
    [
        (41, 0, Vec::new()),
        (41, 0, vec![0; 4 * 2050]),
        (42, 3, changed(3, 0x58000000)),
        (43, 6, changed(6, 0x40500001)),
        (43, 8, bytes_of(&RING_ROUTED[..8])),
        (44, 5, changed(5, 0x5C000002)),
        (45, 3, changed(3, 0x5C000001)),
        (46, 4, bytes_of(&[&astray, &RING_ROUTED[4..]].concat())),
    ]
}

/// The first list is judged whole, then the second; 41 to 46 put the list before the place, 10 does not.
fn refusals_of_pairs() {
    let ring = read(&bytes_of(&RING)).unwrap();
    let (passes, lists) = (bytes_of(&RING_ROUTED), refused_lists());
    let uneven = &passes[..35];
    let ten = Err(refused(10, 0));
    for (number, place, list) in &lists {
        let of_list = |index: u32| Err(Refusal { number: *number, place: [index, *place] });
        assert_eq!(alike(&ring, list, &passes), of_list(0));
        assert_eq!(alike(&ring, &passes, list), of_list(1));
        assert_eq!(alike(&ring, list, uneven), of_list(0));
        assert_eq!(alike(&ring, uneven, list), ten);
        lists.iter().for_each(|(_, _, other)| assert_eq!(alike(&ring, list, other), of_list(0)));
    }
    assert_eq!([alike(&ring, uneven, &passes), alike(&ring, &passes, uneven), alike(&ring, uneven, uneven)], [ten; 3]);
}

// ---------------------------------------------------------------- wire to order

/// The sum of crossing nets and the edge count.
fn wire(board: &Board) -> (usize, usize) {
    let Wire { crossing, edges } = board.wire();
    (crossing, edges)
}

fn wire_by_hand() {
    // The ring: nets 2 and 4 cross row 0, nets 1 and 3 column 0.
    assert_eq!(wire(&read(&bytes_of(&RING)).unwrap()), (4, 4));
    // b and c: each net crosses the row and the column.
    let diagonal = [(1, (0, 0), (1, 1)), (2, (0, 0), (1, 1)), (3, (0, 1), (1, 0)), (4, (0, 1), (1, 0))];
    assert_eq!([1, 2, 3, 4].map(|nets| wire(&with_nets(&[(0, 1)], &diagonal[..nets]))), [(2, 4), (4, 4), (6, 4), (8, 4)]);
    // d and e: three edges down, two and two across.
    assert_eq!(wire(&with_nets(&[(0, 2)], &[(1, (0, 1), (1, 1))])), (1, 7));
    assert_eq!(wire(&Board::bare(&[(0, 2)])), (0, 7));
    // h: its five cells have 20 sides, and four of them are common to two.
    let h = [(1, 2), (0, 3), (1, 2)];
    assert_eq!(wire(&Board::bare(&h)), (0, 16));
    assert_eq!(wire(&with_nets(&h, &[(1, (1, 0), (2, 3)), (2, (3, 1), (0, 2))])), (8, 16));
    // i: row 0 and column 0 are crossed by net 1, row 1 and column 1 by net 2.
    assert_eq!(wire(&with_nets(&[(0, 2), (0, 2)], &[(1, (0, 1), (1, 0)), (2, (1, 2), (2, 1))])), (4, 12));
    // The board of request §4: 2, 2, 4, 2 and 2 nets cross rows 0 to 4, and columns 0 to 4. It has 2, 4, 6, 4 and 2 edges down, and as many across.
    assert_eq!(wire(&bare_pins_board()), (24, 36));
    // Both ends on one line, or on one column, at the right edge of the plane; the same net the other way.
    let corner = [(29, 31), (29, 31)];
    assert_eq!(wire(&with_nets(&corner, &[(1, (0, 29), (0, 31))])), (2, 12));
    assert_eq!(wire(&with_nets(&corner, &[(1, (2, 31), (0, 31))])), (2, 12));
    assert_eq!(wire(&with_nets(&corner, &[(1, (2, 31), (0, 29)), (9, (0, 29), (2, 31))])), (8, 12));
    // The largest board: 31 rows of 32 edges and 31 columns of 32. A net along its first line, and one across all rows and columns.
    let largest = [(0, 31); 31];
    assert_eq!(wire(&Board::bare(&largest)), (0, 1_984));
    assert_eq!(wire(&with_nets(&largest, &[(1, (0, 0), (0, 31)), (64, (31, 0), (0, 31))])), (93, 1_984));
    // One row, or one column, of so many cells.
    (1..32).for_each(|cells| assert_eq!(wire(&Board::bare(&[(31 - cells, 31)])), (0, 3 * cells + 1)));
    (1..32).for_each(|cells| assert_eq!(wire(&Board::bare(&vec![(4, 5); cells])), (0, 3 * cells + 1)));
    // Taken pins and the book play no part.
    let taken = read(&bytes_of(&TAKEN)).unwrap();
    assert_eq!([wire(&taken), wire(&read(&without_taken(&bytes_of(&TAKEN))).unwrap())], [(3, 10); 2]);
    assert_eq!(wire(&read(&bytes_of(&TWO_SIDES)).unwrap()), (2, 4));
}

/// The room that routing asks for, in bytes.
fn room_by_hand() {
    let short = Some(refused(31, 0));
    // One word short, with three bytes more too; long enough, with three bytes more and with a word more.
    let answers = |board: &Board, words: usize| [-4, -1, 0, 3, 4].map(|bytes| route_refused(board, (4 * words as isize + bytes) as usize));
    // The ring's routing has 9 words; one cell without nets, for whose routing one would do, asks for 5.
    let ring = read(&bytes_of(&RING)).unwrap();
    assert_eq!((ring.word_limit(), answers(&ring, 9)), (RING_ROUTED.len(), [short, short, None, None, None]));
    let cell = Board::bare(&[(0, 1)]);
    assert_eq!((cell.word_limit(), answers(&cell, 5)), (5, [short, short, None, None, None]));
    assert_eq!([0, 1, 3, 4, 16].map(|length| route_refused(&cell, length)), [short; 5]);
    // The numbers of the nets play no part, their count does.
    assert_eq!(with_nets(&[(0, 1)], &[(64, (0, 0), (0, 1))]).word_limit(), 6);
    // 31 comes before 32, 33 and 34: 14 odd vertices on 25 edges; board c; the board of request §4 with 6 nets and 36 edges.
    let odd = Some(Refusal { number: 32, place: [0, 1] });
    assert_eq!(answers(&Board::bare(&[(0, 8)]), 26), [short, short, odd, odd, odd]);
    let c = with_nets(&[(0, 1)], &[(1, (0, 0), (1, 1)), (2, (0, 0), (1, 1)), (3, (0, 1), (1, 0)), (4, (0, 1), (1, 0))]);
    let overfull = Some(refused(33, 0));
    assert_eq!(answers(&c, 9), [short, short, overfull, overfull, overfull]);
    let none = Some(refused(34, 0));
    assert_eq!(answers(&bare_pins_board(), 43), [short, short, none, none, none]);
    // 2,049 words are enough for every board, and some ask for as many.
    let largest = turning_on_largest();
    assert_eq!((largest.nets.len(), largest.word_limit()), (64, 2_049));
    assert_eq!(answers(&largest, 2_049), [short, short, None, None, None]);
}

/// The largest board with 64 nets.
fn turning_on_largest() -> Board {
    let mut boards = (0..).map(|case| turning(&mut Random::of_case(7, 'l', case)).0);
    boards.find(|board| board.rows == [(0, 31); 31] && board.nets.len() == 64).unwrap()
}

/// Edges beyond the sum, edges unused and words fewer than the limit, of these paths for these nets.
fn bounds(rows: &[(usize, usize)], nets: &[Ends], paths: &[&[usize]]) -> [i64; 3] {
    let board = with_nets(rows, nets);
    let words = routing_words(&board, &paths.iter().map(|path| path.to_vec()).collect::<Vec<_>>());
    let report = judge(&board, &bytes_of(&words)).unwrap();
    board.within_bounds(report.edges, words.len())
}

fn bounds_by_hand() {
    let cell = [(0, 1)];
    // The ring, and one net of it along one side or round the other three.
    let ring = [(1, (0, 0), (0, 1)), (2, (0, 1), (1, 1)), (3, (1, 1), (1, 0)), (4, (1, 0), (0, 0))];
    assert_eq!(bounds(&cell, &ring, &[&[RIGHT], &[DOWN], &[LEFT], &[UP]]), [0, 0, 0]);
    assert_eq!(bounds(&cell, &ring[..1], &[&[RIGHT]]), [0, 3, 3]);
    assert_eq!(bounds(&cell, &ring[..1], &[&[DOWN, RIGHT, UP]]), [2, 1, 1]);
    // Two nets along one side: one of them goes round, and no edge is left.
    assert_eq!(bounds(&cell, &[(1, (0, 0), (0, 1)), (2, (0, 0), (0, 1))], &[&[RIGHT], &[DOWN, RIGHT, UP]]), [2, 0, 0]);
    // Board b, and no nets.
    assert_eq!(bounds(&cell, &[(1, (0, 0), (1, 1)), (2, (0, 0), (1, 1))], &[&[RIGHT, DOWN], &[DOWN, RIGHT]]), [0, 0, 0]);
    assert_eq!(bounds(&cell, &[], &[]), [0, 4, 4]);
    // A run of two is one word; a loop uses edges beyond the sum.
    assert_eq!(bounds(&[(0, 2)], &[(1, (0, 0), (0, 2))], &[&[RIGHT, RIGHT]]), [0, 5, 6]);
    assert_eq!(bounds(&[(0, 2)], &[(1, (0, 0), (0, 1))], &[&[RIGHT, DOWN, RIGHT, UP, LEFT]]), [4, 2, 2]);
    // Board i.
    assert_eq!(bounds(&[(0, 2), (0, 2)], &[(1, (0, 1), (1, 0)), (2, (1, 2), (2, 1))], &[&[DOWN, LEFT], &[LEFT, DOWN]]), [0, 8, 8]);
    // Beyond each of the bounds by one.
    let board = with_nets(&cell, &ring);
    assert_eq!([board.within_bounds(3, 9), board.within_bounds(5, 9), board.within_bounds(4, 10)], [[-1, 1, 0], [1, -1, 0], [0, 0, -1]]);
}

/// Random boards: the sum by the nets' distances, the edges by their ends, by rows and columns, and by vertices and cells. Answers with how many.
fn wire_other_ways() -> usize {
    let boards = 6_000;
    for case in 0..boards {
        let mut random = Random::of_case(7, 'w', case);
        let size = random.pick(&[2, 4, 8, 31]);
        let board = true_board(&mut random, (size, size));
        let distance = |net: &Net| net.first.0.abs_diff(net.second.0) + net.first.1.abs_diff(net.second.1);
        let edges: BTreeSet<Edge> = board.edges().into_iter().collect();
        let degrees: usize = board.vertices().iter().map(|&v| board.degree(v)).sum();
        let by_cuts: i32 = board.cuts().iter().map(|&cut| board.cut_edges(cut)).sum();
        let cells: usize = board.rows.iter().map(|row| row.1 - row.0).sum();
        assert_eq!(wire(&board), (board.nets.iter().map(distance).sum(), edges.len()));
        // Every edge has two ends. Vertices and cells together are one more than the edges.
        assert_eq!([degrees, 2 * by_cuts as usize, 2 * (board.vertices().len() + cells - 1)], [2 * edges.len(); 3]);
        assert!(board.word_limit() <= 2_049);
        assert_eq!(wire(&mirrored(&board)), wire(&board));
        assert_eq!(wire(&turned(&board)), wire(&board));
    }
    boards as usize
}

/// The bounds hold of trails, of the exhaustive router's paths, and of paths along every edge that turn at every vertex. Where every routing is of
/// the last kind, the exhaustive router's is. Answers with how many lists.
fn bounds_of_lists() -> usize {
    let (mut lists, mut seen) = (0, [0; 3]);
    let mut hold = |board: &Board, paths: &[Vec<usize>]| {
        let words = routing_words(board, paths);
        let report = judge(board, &bytes_of(&words)).unwrap();
        let left = board.within_bounds(report.edges, words.len());
        assert!(left.iter().all(|&left| left >= 0), "{left:?}");
        // As many words as can be: every edge is used, and every run has one.
        assert_eq!(left[2] == 0, left[1] == 0 && steps_of(&words).iter().all(|path| path.windows(2).all(|two| two[0] != two[1])));
        lists += 1;
        seen.iter_mut().zip(left).for_each(|(seen, left)| *seen += (left == 0) as usize);
        left
    };
    for case in 0..4_000 {
        let mut random = Random::of_case(7, 'n', case);
        let size = random.pick(&[1, 2, 3, 6]);
        let board = true_board(&mut random, (size, size));
        if let Some(paths) = trails(&mut random, &board) {
            hold(&board, &loop_laid_on(&mut random, &board, &paths).unwrap_or(paths));
        }
        if let (1..=2, Answer::Paths(paths)) = (size, route(&board, 20_000)) {
            hold(&board, &paths);
        }
        if case % 10 == 0 {
            let (board, paths) = turning(&mut random);
            assert_eq!(read(&bytes_of(&board.words())).as_ref(), Ok(&board));
            assert!(board.odd_vertices().is_empty());
            assert_eq!(hold(&board, &paths)[1..], [0, 0]);
            let board = filled(&mut random);
            assert_eq!(read(&bytes_of(&board.words())).as_ref(), Ok(&board));
            assert!(matches!(route(&board, u64::MAX), Answer::Paths(paths) if hold(&board, &paths) == [0, 0, 0]));
        }
    }
    assert!(lists > 2_500 && seen.iter().all(|&count| count > 800), "{lists} {seen:?}");
    lists
}

/// Whether every routing has as many words as can be.
fn always_filled_by_hand() {
    let cell = |ends: &[Ends]| always_filled(&with_nets(&[(0, 1)], ends));
    assert!(always_filled(&read(&bytes_of(&RING)).unwrap()));
    assert!(cell(&[(1, (0, 0), (1, 1)), (2, (0, 0), (1, 1))]));
    assert!(cell(&[(1, (0, 0), (1, 1)), (2, (0, 0), (1, 0)), (3, (1, 0), (1, 1))]));
    assert!(!cell(&[(1, (0, 0), (1, 1))]));
    // Right, down, right is left for net 1. Then nets 1 and 2 that go straight along the lines.
    let sides = [(2, (0, 1), (0, 2)), (3, (0, 2), (1, 2)), (4, (1, 0), (1, 1)), (5, (0, 0), (1, 0))];
    let row = |nets: &[Ends]| always_filled(&with_nets(&[(0, 2)], nets));
    assert!(row(&[&[(1, (0, 0), (1, 2))], &sides[..]].concat()));
    assert!(!row(&[(1, (0, 0), (0, 2)), (2, (1, 0), (1, 2)), (3, (0, 0), (1, 0)), (4, (0, 1), (1, 1)), (5, (0, 2), (1, 2))]));
}

// ---------------------------------------------------------------- taken pins

/// Rows 0-2 and 0-1: two pins taken at the outer corner (0,0), one on the straight side at (0,1), one of two at the outer corner (1,2); net 1 from
/// there to (2,0).
const TAKEN: [u32; 7] = [0x10000002, 0x10000001, 0x30000800, 0x30000401, 0x30000422, 0x20108840, 0xF0000201];

/// What reading says of these words with a change.
fn taken_changed(change: &dyn Fn(&mut Vec<u32>)) -> Option<Refusal> {
    let mut words = TAKEN.to_vec();
    change(&mut words);
    read(&bytes_of(&words)).err()
}

fn pins_left() {
    let board = read(&bytes_of(&TAKEN)).unwrap();
    assert_eq!(board.words(), TAKEN);
    assert_eq!(board.taken, BTreeMap::from([((0, 0), 2), ((0, 1), 1), ((1, 2), 1)]));
    let pins: Vec<usize> = board.vertices().iter().map(|&v| board.pins(v)).collect();
    // (0,0) to (0,2), (1,0) to (1,2), (2,0) and (2,1); (1,1) is a concave corner.
    assert_eq!(pins, [0, 0, 2, 1, 0, 1, 2, 2]);
    assert_eq!(free_pins(&board), [((0, 2), 2), ((1, 0), 1), ((2, 0), 1), ((2, 1), 2)]);
    let add = |first, second| board.add_refused(&Net { number: 2, first, second });
    assert_eq!([add((0, 0), (2, 1)), add((2, 1), (0, 1)), add((1, 2), (2, 1)), add((2, 1), (1, 2))], [Some(25); 4]);
    assert_eq!([add((0, 2), (1, 0)), add((2, 0), (2, 1))], [None; 2]);
    // Both terminals at a vertex with no pin left, one vertex twice, or one that is not there: 24 and 23 come first.
    assert_eq!([add((0, 0), (0, 1)), add((0, 0), (0, 0)), add((0, 0), (2, 2))], [Some(25), Some(24), Some(23)]);
    // Without the taken words the same nets, odd vertices and cuts; the end word stays.
    let bare = read(&without_taken(&bytes_of(&TAKEN))).unwrap();
    assert_eq!(bare.words(), [0x10000002, 0x10000001, 0x20108840, 0xF0000201]);
    assert_eq!((bare.odd_vertices(), bare.margins()), (board.odd_vertices(), board.margins()));
    assert_eq!(board.odd_vertices(), [(0, 1), (1, 0), (1, 2), (2, 0)]);
    assert!(routes(&board) && route_refused(&board, 8196).is_none());
}

fn taken_ill_made_or_out_of_order() {
    let changed = taken_changed;
    assert_eq!(changed(&|_| ()), None);
    assert_eq!([changed(&|w| w[3] = 0x30000001), changed(&|w| w[3] = 0x30000C01)], [Some(refused(12, 3)); 2]);
    (12..28).for_each(|bit| assert_eq!(changed(&|w| w[3] |= 1 << bit), Some(refused(12, 3))));
    // 12 before 13: a count of 0 at an earlier vertex, one of 3 in the first word, one of 0 after the end.
    assert_eq!(changed(&|w| w[4] = 0x30000001), Some(refused(12, 4)));
    assert_eq!(changed(&|w| w.insert(0, 0x30000C00)), Some(refused(12, 0)));
    assert_eq!(changed(&|w| w.push(0x30000040)), Some(refused(12, 7)));
    // First, in place of a row too; after a net; after the end.
    assert_eq!([changed(&|w| w.insert(0, 0x30000400)), changed(&|w| w[0] = 0x30000400)], [Some(refused(13, 0)); 2]);
    assert_eq!(changed(&|w| w.insert(6, 0x30000440)), Some(refused(13, 6)));
    assert_eq!(changed(&|w| w.push(0x30000440)), Some(refused(13, 7)));
    assert_eq!(changed(&|w| w.insert(5, 0x30000440)), None);
    // A vertex twice; an earlier line, with the same column, a later one or an earlier one; an earlier column of the line.
    assert_eq!([changed(&|w| w.insert(4, 0x30000401)), changed(&|w| w.insert(4, 0x30000801))], [Some(refused(13, 4)); 2]);
    assert_eq!([changed(&|w| w.insert(5, 0x30000402)), changed(&|w| w.insert(5, 0x30000401))], [Some(refused(13, 5)); 2]);
    assert_eq!(changed(&|w| { w[4] = 0x30000420; w.insert(5, 0x30000402) }), Some(refused(13, 5)));
    assert_eq!(changed(&|w| w.insert(5, 0x30000420)), Some(refused(13, 5)));
    assert_eq!(changed(&|w| w.swap(2, 3)), Some(refused(13, 3)));
    // A later line with an earlier column is right.
    assert_eq!(changed(&|w| w[4] = 0x30000440), None);
    // A row after a taken word, be its left not below its right or its bits wrong.
    assert_eq!([changed(&|w| w.insert(3, 0x10000001)), changed(&|w| w.swap(1, 2))], [Some(refused(13, 3)), Some(refused(13, 2))]);
    assert_eq!([changed(&|w| w.insert(5, 0x10000021)), changed(&|w| w.insert(5, 0x10000040))], [Some(refused(13, 5)); 2]);
    assert_eq!(changed(&|w| w.insert(5, 0x10000401)), Some(refused(12, 5)));
    let rows = [0x10000001; 31];
    let read_words = |words: &[&[u32]]| read(&bytes_of(&words.concat())).err();
    assert_eq!(read_words(&[&rows, &[0x30000400, 0x10000001, 0xF0002000]]), Some(refused(13, 32)));
    assert_eq!(read_words(&[&rows, &[0x10000001, 0x30000400, 0xF0002000]]), Some(refused(14, 31)));
    assert_eq!(read_words(&[&rows, &[0x30000400, 0xF0001F00]]), None);
    // The end word counts rows and nets alone.
    assert_eq!([changed(&|w| w[6] = 0xF0000204), changed(&|w| w[6] = 0xF0000501)], [Some(refused(15, 6)); 2]);
}

fn taken_too_many() {
    let changed = taken_changed;
    // No vertex: below a short row, right of the board, far away. A concave corner, one pin or two. Two on a straight side.
    for word in [0x30000442, 0x30000423, 0x300007FF, 0x30000421, 0x30000821] {
        assert_eq!(changed(&|w| w[4] = word), Some(refused(38, 4)));
    }
    assert_eq!(changed(&|w| w[3] = 0x30000801), Some(refused(38, 3)));
    // Inside.
    let square = |word: u32| read(&bytes_of(&[0x10000002, 0x10000002, word, 0xF0000200])).err();
    assert_eq!([square(0x30000421), square(0x30000821), square(0x30000801)], [Some(refused(38, 2)); 3]);
    assert_eq!([square(0x30000401), square(0x30000800), square(0x30000842)], [None; 3]);
    // The first of two; before the nets, whatever is wrong with them.
    assert_eq!(changed(&|w| (w[3], w[4]) = (0x30000801, 0x30000421)), Some(refused(38, 3)));
    for net in [0x24108840, 0x20008840, 0x20108842, 0x20108822, 0x20100040] {
        assert!(changed(&|w| w[5] = net).is_some_and(|refusal| refusal.number > 20 && refusal.number < 26));
        assert_eq!(changed(&|w| (w[4], w[5]) = (0x30000442, net)), Some(refused(38, 4)));
    }
    // After all words, and after 16: boards f and g.
    assert_eq!(changed(&|w| (w[4], w[6]) = (0x30000442, 0xF0000202)), Some(refused(15, 6)));
    assert_eq!(changed(&|w| { w[4] = 0x30000442; w.truncate(6) }), Some(refused(13, 6)));
    assert_eq!(changed(&|w| (w[2], w[4]) = (0x30000C00, 0x30000442)), Some(refused(12, 2)));
    assert_eq!(changed(&|w| (w[2], w[4]) = (0x30000402, 0x30000C22)), Some(refused(13, 3)));
    assert_eq!(read(&bytes_of(&[0x10000001, 0x10000022, 0x300007FF, 0xF0000200])).err(), Some(refused(16, 0)));
    assert_eq!(read(&bytes_of(&[0x10000002, 0x10000001, 0x10000002, 0x300007FF, 0xF0000300])).err(), Some(refused(16, 0)));
}

/// Nets where pins are taken.
fn taken_and_nets() {
    let changed = taken_changed;
    // First and second terminal at (0,0), and at (0,1).
    for net in [0x20100040, 0x20110000, 0x20100440, 0x20110001] {
        assert_eq!(changed(&|w| w[5] = net), Some(refused(25, 5)));
    }
    // Without that taken word each of them is right.
    assert_eq!([changed(&|w| { w[5] = 0x20100040; w.remove(2); }), changed(&|w| { w[5] = 0x20110001; w.remove(3); })], [None; 2]);
    // A second net at (1,2), either way round; right where no pin is taken there. With both taken net 1 is refused.
    for net in [0x20208840, 0x20210422] {
        let second = |w: &mut Vec<u32>| { w[6] = 0xF0000202; w.insert(6, net); };
        assert_eq!(changed(&second), Some(refused(25, 6)));
        assert_eq!(changed(&|w| { second(w); w.remove(4); }), None);
    }
    assert_eq!(changed(&|w| w[4] = 0x30000822), Some(refused(25, 5)));
    // Pins taken at every vertex as many as there are: with no nets a board that is read and routed.
    let all = [0x30000800, 0x30000401, 0x30000802, 0x30000420, 0x30000822, 0x30000840, 0x30000841];
    let words = [&TAKEN[..2], &all, &[0xF0000200]].concat();
    let board = read(&bytes_of(&words)).unwrap();
    assert!(board.words() == words && free_pins(&board).is_empty() && route_refused(&board, 8196).is_none());
    assert_eq!(board.odd_vertices(), [(0, 1), (1, 0)]);
    // 14 odd vertices, with pins taken at the first of them.
    let wide = read(&bytes_of(&[0x10000008, 0x30000401, 0xF0000100])).unwrap();
    assert_eq!(route_refused(&wide, 8196), Some(Refusal { number: 32, place: [0, 1] }));
}

/// Boards made for a refusal, or for none. Answers with how many.
fn boards_made_for_an_answer() -> usize {
    let each = 40;
    for (kind, name) in made_kinds().iter().enumerate() {
        for case in 0..each {
            let (bytes, due) = made_bytes(&mut Random::of_case(7, 'z', 1_000 * kind as u64 + case), kind);
            assert_eq!(read(&bytes).err(), due, "{name}");
        }
    }
    MADE_KINDS * each as usize
}

/// Boards with taken pins are written and read, and have the answers of the boards without: whether paths exist, and what routing owes. A net more
/// is accepted exactly where each end has a pin that is neither taken nor used. Answers with how many boards.
fn boards_with_taken_pins() -> usize {
    let (mut boards, mut refused) = (0, 0);
    for case in 0..6_000 {
        let mut random = Random::of_case(7, 'x', case);
        let size = random.pick(&[2, 4, 8]);
        let board = true_board(&mut random, (size, size));
        if board.taken.is_empty() {
            continue;
        }
        let (bytes, bare) = (bytes_of(&board.words()), Board { taken: BTreeMap::new(), ..board.clone() });
        assert_eq!(read(&bytes).as_ref(), Ok(&board));
        assert_eq!(read(&without_taken(&bytes)).as_ref(), Ok(&bare));
        assert_eq!(route_refused(&board, 8196), route_refused(&bare, 8196));
        let vertices = board.vertices();
        let (first, second) = (random.pick(&vertices), random.pick(&vertices));
        let net = Net { number: 64, first, second };
        if first != second && board.nets.iter().all(|net| net.number != 64) {
            // Edges, terminals and taken pins together are four at most, three at a corner under the new rule.
            let at = |v: Vertex| board.degree(v) + board.terminals(v) + board.taken.get(&v).unwrap_or(&0);
            let most = |v: Vertex| if board.book == Book::New && board.cells(v) == 1 { 3 } else { 4 };
            assert_eq!(board.add_refused(&net).is_none(), at(first) < most(first) && at(second) < most(second));
            refused += (board.add_refused(&net) != bare.add_refused(&net)) as usize;
        }
        boards += 1;
    }
    assert!(boards > 1_500 && refused > 100, "{boards} {refused}");
    boards
}

// ---------------------------------------------------------------- rule books

/// The pins of all vertices, in reading order, before any are taken: under the old rule and under the new.
fn pins_by_book(rows: &[(usize, usize)]) -> [Vec<usize>; 2] {
    BOOKS.map(|book| {
        let board = Board::bare(rows).under(book);
        board.vertices().iter().map(|&v| board.all_pins(v)).collect()
    })
}

fn pins_under_both_books() {
    // One row of two cells, a square of 2 by 2 cells, and board h with its concave corners.
    assert_eq!(pins_by_book(&[(0, 2)]), [[2, 1, 2, 2, 1, 2], [1; 6]]);
    assert_eq!(pins_by_book(&[(0, 2), (0, 2)]), [[2, 1, 2, 1, 0, 1, 2, 1, 2], [1, 1, 1, 1, 0, 1, 1, 1, 1]]);
    assert_eq!(pins_by_book(&[(1, 2), (0, 3), (1, 2)]), [[2, 2, 2, 0, 0, 2, 2, 0, 0, 2, 2, 2], [1, 1, 1, 0, 0, 1, 1, 0, 0, 1, 1, 1]]);
    // The largest board has 128 pins or 124.
    assert_eq!(pins_by_book(&[(0, 31); 31]).map(|pins| pins.iter().sum::<usize>()), [128, 124]);
    // What a net leaves at a corner of one cell, and a taken pin: of two pins one, of one none.
    let left = |book: Book, taken: usize| {
        let mut board = with_nets(&[(0, 1)], &[(1, (0, 0), (0, 1))]).under(book);
        board.taken = BTreeMap::from([((1, 0), taken)]);
        let add = |number, first, second| board.add_refused(&Net { number, first, second });
        [add(2, (0, 0), (1, 1)), add(2, (1, 1), (0, 1)), add(2, (1, 0), (1, 1)), add(2, (1, 1), (0, 0)), add(1, (0, 0), (1, 1))]
    };
    assert_eq!(left(Book::Old, 1), [None, None, None, None, Some(22)]);
    assert_eq!(left(Book::Old, 2), [None, None, Some(25), None, Some(22)]);
    assert_eq!(left(Book::New, 1), [Some(25), Some(25), Some(25), Some(25), Some(22)]);
    // Whether so many pins can be taken at a corner, on a straight side, at no vertex.
    let can_take = |book: Book, v: Vertex| [0, 1, 2, 3].map(|count| Board::bare(&[(0, 2)]).under(book).can_take(v, count));
    assert_eq!([can_take(Book::Old, (1, 2)), can_take(Book::New, (1, 2))], [[true, true, true, false], [true, true, false, false]]);
    BOOKS.iter().for_each(|&book| assert_eq!(can_take(book, (0, 1)), [true, true, false, false]));
    BOOKS.iter().for_each(|&book| assert_eq!(can_take(book, (2, 0)), [false; 4]));
}

/// The ring without its nets 2 and 4: one terminal at each corner.
const TWO_SIDES: [u32; 4] = [0x10000001, 0x20100001, 0x20308420, 0xF1000102];

/// End words and the books that they tell.
fn books_told() {
    let changed = |change: &dyn Fn(&mut Vec<u32>)| {
        let mut words = TWO_SIDES.to_vec();
        change(&mut words);
        read(&bytes_of(&words)).map(|board| board.book)
    };
    let twelve = |index: u32| Err(refused(12, index));
    let thirteen = |index: u32| Err(refused(13, index));
    assert_eq!(changed(&|_| ()), Ok(Book::New));
    assert_eq!(changed(&|w| w[3] = 0xF0000102), Ok(Book::Old));
    assert_eq!(read(&bytes_of(&TWO_SIDES)).unwrap().words(), TWO_SIDES);
    // Other books; 12 before 15, before 13 in the first word and after the end.
    for book in 2..16 {
        let other = 0xF0000102 | book << 24;
        assert_eq!([changed(&|w| w[3] = other), changed(&|w| w[3] = other ^ 1), changed(&|w| w[3] = other ^ 0x300)], [twelve(3); 3]);
        assert_eq!([changed(&|w| w.insert(0, other)), changed(&|w| w[0] = other)], [twelve(0); 2]);
        assert_eq!([changed(&|w| w.push(other)), changed(&|w| w.insert(3, other))], [twelve(4), twelve(3)]);
    }
    // A bit that is still unnamed, under either book.
    for bit in 16..24 {
        assert_eq!([changed(&|w| w[3] |= 1 << bit), changed(&|w| w[3] = 0xF0000102 | 1 << bit)], [twelve(3); 2]);
    }
    // An end word first, or two of them; counts that differ; no end word.
    for end in [0xF0000102, 0xF1000102] {
        assert_eq!([changed(&|w| w.insert(0, end)), changed(&|w| w[0] = end)], [thirteen(0); 2]);
        assert_eq!(changed(&|w| w.push(end)), thirteen(4));
        assert_eq!([changed(&|w| w[3] = end ^ 1), changed(&|w| w[3] = end ^ 0x300)], [Err(refused(15, 3)); 2]);
    }
    assert_eq!(changed(&|w| w.truncate(3)), thirteen(3));
    assert_eq!([&[][..], &[0xF1], &[0, 0, 0, 0xF2]].map(book_told), [None, Some(Book::New), None]);
    assert_eq!([&RING[..], &TWO_SIDES].map(|words| book_told(&bytes_of(words))), [Some(Book::Old), Some(Book::New)]);
    // The other book, and back.
    let other = under_other_book(&bytes_of(&TWO_SIDES));
    assert_eq!(words_of(&other).unwrap(), [0x10000001, 0x20100001, 0x20308420, 0xF0000102]);
    assert_eq!(under_other_book(&other), bytes_of(&TWO_SIDES));
}

/// Words up to the end word, with an end word of so many rows and nets: what reading says under the old rule and under the new.
fn read_under_both(words: &[u32], rows: u32, nets: u32) -> [Option<Refusal>; 2] {
    [0, 1].map(|book: u32| {
        let end = 0xF0000000 | book << 24 | rows << 8 | nets;
        read(&bytes_of(&[words, &[end]].concat())).err()
    })
}

fn corners_under_both_books() {
    let only_new = |number, place| [None, Some(refused(number, place))];
    let both = |number, place| [Some(refused(number, place)); 2];
    let cell = 0x10000001;
    // The ring's second net is the second one at (0,1). Net 1 alone, and nets 1 and 3, leave one at each corner.
    assert_eq!(read_under_both(&RING[..5], 1, 4), only_new(25, 2));
    assert_eq!([read_under_both(&RING[..2], 1, 1), read_under_both(&TWO_SIDES[..3], 1, 2)], [[None; 2]; 2]);
    // Board b: two nets from corner to corner. Two terminals on a straight side, and one.
    assert_eq!(read_under_both(&[cell, 0x20100021, 0x20200021], 1, 2), only_new(25, 2));
    assert_eq!(read_under_both(&[0x10000002, 0x20100400, 0x20200422], 1, 2), both(25, 2));
    assert_eq!(read_under_both(&[0x10000002, 0x20100421], 1, 1), [None; 2]);
    // One pin taken at a corner, or at all four; two; two after one.
    assert_eq!(read_under_both(&[cell, 0x30000400], 1, 0), [None; 2]);
    assert_eq!(read_under_both(&[cell, 0x30000400, 0x30000401, 0x30000420, 0x30000421], 1, 0), [None; 2]);
    assert_eq!(read_under_both(&[cell, 0x30000800], 1, 0), only_new(38, 1));
    assert_eq!(read_under_both(&[cell, 0x30000800, 0x30000821], 1, 0), only_new(38, 1));
    assert_eq!(read_under_both(&[cell, 0x30000400, 0x30000821], 1, 0), only_new(38, 2));
    // On a straight side as before.
    assert_eq!(read_under_both(&[0x10000002, 0x30000401], 1, 0), [None; 2]);
    assert_eq!(read_under_both(&[0x10000002, 0x30000801], 1, 0), both(38, 1));
    // A corner's pin taken and a net there, which starts or ends; the other net ends elsewhere.
    assert_eq!(read_under_both(&[cell, 0x30000400, 0x20100021], 1, 1), only_new(25, 2));
    assert_eq!(read_under_both(&[cell, 0x30000400, 0x20108400], 1, 1), only_new(25, 2));
    assert_eq!(read_under_both(&[cell, 0x30000400, 0x20100420, 0x20208400], 1, 2), only_new(25, 3));
    assert_eq!(read_under_both(&[cell, 0x30000400, 0x20100420], 1, 1), [None; 2]);
    // 38 before the nets: the number 0, no vertex, one vertex twice, no pin.
    for (net, number) in [(0x20000421, 21), (0x20100442, 23), (0x20100421, 0), (0x20108421, 24), (0x20100001, 25)] {
        let words = [cell, 0x30000800, net];
        let old = (number > 0).then(|| refused(number, 2));
        assert_eq!(read_under_both(&words, 1, 1), [old, Some(refused(38, 1))]);
    }
    // 12, 13, 15 and 16 before 38.
    assert_eq!(read_under_both(&[cell, 0x30000800, 0x40000000], 1, 0), both(12, 2));
    assert_eq!(read_under_both(&[cell, 0x30000800, cell], 2, 0), both(13, 2));
    assert_eq!(read_under_both(&[cell, 0x30000800], 1, 1), both(15, 2));
    assert_eq!(read_under_both(&[cell, 0x10000022, 0x30000800], 2, 0), both(16, 0));
    // Both terminals at a corner whose pin is taken; a concave corner and the vertex inside a square have no pin.
    assert_eq!(read_under_both(&[cell, 0x30000400, 0x20100000], 1, 1), both(24, 2));
    assert_eq!(read_under_both(&[0x10000022, 0x10000003, 0x10000022, 0x20108401], 3, 1), both(25, 3));
    assert_eq!(read_under_both(&[0x10000002, 0x10000002, 0x20108400], 2, 1), both(25, 2));
    // The board of taken pins above: with one pin taken at (0,0) the net at (1,2) is left, where one is taken too.
    assert_eq!(read_under_both(&TAKEN[..6], 2, 1), only_new(38, 2));
    assert_eq!(read_under_both(&[&TAKEN[..2], &[0x30000400], &TAKEN[3..6]].concat(), 2, 1), only_new(25, 5));
    assert_eq!(read_under_both(&[&TAKEN[..2], &[0x30000400, 0x30000401, 0x20108840]].concat(), 2, 1), [None; 2]);
}

/// Routing, judging, odd vertices and cuts do not look at the book.
fn the_same_under_both_books() {
    // The board of request §4 has one terminal at each of its twelve outer corners.
    let block = bare_pins_board().under(Book::New);
    assert_eq!(read(&bytes_of(&block.words())).as_ref(), Ok(&block));
    assert_eq!(free_pins(&block), []);
    assert_eq!(route_refused(&block, 8196), Some(refused(34, 0)));
    // Two sides of the ring: all four vertices are odd, and a routing exists.
    let sides = read(&bytes_of(&TWO_SIDES)).unwrap();
    assert_eq!(sides.odd_vertices(), [(0, 0), (0, 1), (1, 0), (1, 1)]);
    assert_eq!([route_refused(&sides, 8196), route_refused(&sides, 28), route_refused(&sides, 27)], [None, None, Some(refused(31, 0))]);
    assert!(routes(&sides) && routes(&sides.clone().under(Book::Old)));
    let list = bytes_of(&[0x40100001, 0x54000001, 0x40300001, 0x5C000001, 0xE0000002]);
    assert_eq!(judge(&sides, &list), Ok(report([2, 0, 0], 0, 0)));
    // 14 odd vertices; three nets across a row of two cells, each from a corner or a side of its own.
    let wide = Board::bare(&[(0, 8)]).under(Book::New);
    assert_eq!(route_refused(&wide, 8196), Some(Refusal { number: 32, place: [0, 1] }));
    let full = with_nets(&[(0, 2)], &[(1, (0, 0), (0, 2)), (2, (1, 0), (1, 2)), (3, (0, 1), (1, 1))]).under(Book::New);
    assert!(read(&bytes_of(&full.words())).is_ok() && route_refused(&full, 8196).is_none());
}

/// Random boards are read under the other book exactly when no outer corner has more than one terminal and taken pin together, or that book is the
/// old one; routing owes both the same. Answers with how many boards.
fn boards_under_both_books() -> usize {
    let (mut boards, mut answers) = ([0; 2], BTreeMap::new());
    for case in 0..6_000 {
        let mut random = Random::of_case(7, 'b', case);
        let size = random.pick(&[2, 4, 8]);
        let board = true_board(&mut random, (size, size));
        let bytes = bytes_of(&board.words());
        assert_eq!(read(&bytes).as_ref(), Ok(&board));
        let other = read(&under_other_book(&bytes));
        let at = |v: Vertex| board.terminals(v) + board.taken.get(&v).unwrap_or(&0);
        let within = board.vertices().into_iter().all(|v| board.cells(v) != 1 || at(v) < 2);
        assert!(within || board.book == Book::Old);
        assert_eq!(other.is_ok(), within || board.book == Book::New);
        match &other {
            Ok(other) => {
                assert!(other.book != board.book && other.words() != board.words());
                assert_eq!(other.clone().under(board.book), board);
                assert_eq!(route_refused(other, 8196), route_refused(&board, 8196));
            }
            // Two taken pins are seen before the nets are.
            Err(refusal) => assert_eq!(refusal.number == 38, board.taken.values().any(|&count| count == 2)),
        }
        boards[board.book as usize] += 1;
        *answers.entry(other.err().map_or(0, |refusal| refusal.number)).or_insert(0) += 1;
    }
    assert!(boards.iter().all(|&count| count > 2_500), "{boards:?}");
    assert!(answers.len() == 3 && answers.values().all(|&count| count > 200), "{answers:?}");
    boards.iter().sum()
}

// ---------------------------------------------------------------- pages

/// A page by its text lines, each filled up with spaces.
fn text(lines: &[&str]) -> String {
    lines.iter().map(|line| format!("{line:63}\n")).collect()
}

/// The page of these paths for these nets. The edges read off it are those in use.
fn drawn(rows: &[(usize, usize)], nets: &[Ends], paths: &[&[usize]]) -> String {
    let board = with_nets(rows, nets);
    let paths: Vec<Vec<usize>> = paths.iter().map(|path| path.to_vec()).collect();
    let list = bytes_of(&routing_words(&board, &paths));
    let page = draw(&board, &list, ROOM).unwrap();
    assert_eq!(page.len(), page_length(&board));
    assert_eq!(read_off(&page), used_edges(&board, &list).ok());
    String::from_utf8(page).unwrap()
}

fn pages_by_hand() {
    // The ring, and the same edges by two nets, one on either side.
    let ring = text(&["+-+", "| |", "+-+"]);
    let around = [(1, (0, 0), (0, 1)), (2, (0, 1), (1, 1)), (3, (1, 1), (1, 0)), (4, (1, 0), (0, 0))];
    assert_eq!(drawn(&[(0, 1)], &around, &[&[RIGHT], &[DOWN], &[LEFT], &[UP]]), ring);
    let twins = [(1, (0, 0), (1, 1)), (2, (0, 0), (1, 1))];
    assert_eq!(drawn(&[(0, 1)], &twins, &[&[RIGHT, DOWN], &[DOWN, RIGHT]]), ring);
    assert_eq!(drawn(&[(0, 1)], &twins, &[&[DOWN, RIGHT], &[RIGHT, DOWN]]), ring);
    // One edge unused: the net takes the other three, or that one alone.
    let one = [(1, (0, 0), (0, 1))];
    assert_eq!(drawn(&[(0, 1)], &one, &[&[DOWN, RIGHT, UP]]), text(&["+ +", "| |", "+-+"]));
    assert_eq!(drawn(&[(0, 1)], &one, &[&[RIGHT]]), text(&["+-+", "", "+ +"]));
    // A straight net, walked either way, and a vertical edge.
    assert_eq!(drawn(&[(0, 2)], &[(1, (0, 0), (0, 2))], &[&[RIGHT, RIGHT]]), text(&["+-+-+", "", "+ + +"]));
    assert_eq!(drawn(&[(0, 2)], &[(9, (0, 2), (0, 0))], &[&[LEFT, LEFT]]), text(&["+-+-+", "", "+ + +"]));
    assert_eq!(drawn(&[(0, 2)], &[(1, (0, 1), (1, 1))], &[&[DOWN]]), text(&["+ + +", "  |", "+ + +"]));
    // A loop walked either way.
    let (row, loops) = ([(0, 2)], text(&["+-+-+", "  | |", "+ +-+"]));
    assert_eq!(drawn(&row, &one, &[&[RIGHT, DOWN, RIGHT, UP, LEFT]]), loops);
    assert_eq!(drawn(&row, &one, &[&[RIGHT, RIGHT, DOWN, LEFT, UP]]), loops);
    // Board i: the two nets touch at (1, 1).
    let i = [(1, (0, 1), (1, 0)), (2, (1, 2), (2, 1))];
    assert_eq!(drawn(&[(0, 2), (0, 2)], &i, &[&[DOWN, LEFT], &[LEFT, DOWN]]), text(&["+ + +", "  |", "+-+-+", "  |", "+ + +"]));
    // Boards that start right of column 0; the last reaches column 31.
    let steps = text(&["      +-+-+", "          |", "      + + +", "          |", "        + +"]);
    assert_eq!(drawn(&[(3, 5), (4, 5)], &[(1, (0, 3), (2, 5))], &[&[RIGHT, RIGHT, DOWN, DOWN]]), steps);
    let h = text(&["    + +", "    |", "  +-+ + +", "", "  + + + +", "", "    + +"]);
    assert_eq!(drawn(&[(2, 3), (1, 4), (2, 3)], &[(1, (0, 2), (1, 1))], &[&[DOWN, LEFT]]), h);
    let left = " ".repeat(60);
    let corner = [format!("{left}+-+"), format!("{left}  |"), format!("{left}+ +")];
    assert_eq!(drawn(&[(30, 31)], &[(1, (0, 30), (1, 31))], &[&[RIGHT, DOWN]]), text(&corner.each_ref().map(String::as_str)));
    // No nets: vertices alone, on the smallest page and on the largest.
    assert_eq!(drawn(&[(0, 1)], &[], &[]), text(&["+ +", "", "+ +"]));
    let all = ["+ ".repeat(31) + "+", String::new()];
    let lines: Vec<&str> = (0..63).map(|line| &all[line % 2][..]).collect();
    let largest = drawn(&[(0, 31); 31], &[], &[]);
    assert!(largest == text(&lines) && largest.len() == ROOM);
}

/// Pages on which signs do not lie between two vertices, or lines are too short or too long.
fn pages_not_read() {
    let page = |lines: &[&str]| read_off(text(lines).as_bytes()).map(|edges| edges.len());
    assert_eq!(page(&["+-+", "| |", "+-+"]), Some(4));
    assert_eq!(page(&["+-+", "  |", "+ +"]), Some(2));
    assert_eq!([page(&["+--", "", "+ +"]), page(&["+ +", "-", "+ +"]), page(&["+ +", " |", "+ +"]), page(&["+|+", "", "+ +"])], [None; 4]);
    assert_eq!(read_off(text(&["+ +", &" ".repeat(64), "+ +"]).as_bytes()), None);
    assert_eq!([read_off(b""), read_off(b"+ +\n"), read_off(text(&["+ +"]).trim_end().as_bytes())], [const { None }; 3]);
}

/// The page by walking: the corners of each cell, then each step of each path, two characters long.
fn page_by_steps(board: &Board, paths: &[Vec<usize>]) -> String {
    let mut text = vec![[' '; 63]; 2 * board.rows.len() + 1];
    for (row, &(left, right)) in board.rows.iter().enumerate() {
        for column in left..=right {
            (text[2 * row][2 * column], text[2 * row + 2][2 * column]) = ('+', '+');
        }
    }
    for (net, path) in board.nets.iter().zip(paths) {
        let mut at = (2 * net.first.0, 2 * net.first.1);
        for &direction in path {
            at = step(at, direction);
            text[at.0][at.1] = if direction % 2 == 0 { '|' } else { '-' };
            at = step(at, direction);
        }
    }
    text.iter().map(|line| line.iter().collect::<String>() + "\n").collect()
}

/// Pages of random trails, two of them for each board: they are the same exactly when the edges are. Answers with how many were drawn.
fn pages_of_trails() -> usize {
    let (mut pages, mut same, mut other) = (0, 0, 0);
    for case in 0..6_000 {
        let mut random = Random::of_case(7, 'p', case);
        let size = random.pick(&[1, 2, 4, 31]);
        let board = true_board(&mut random, (size, size));
        let two: Vec<_> = (0..2).filter_map(|_| trails(&mut random, &board)).collect();
        let lists: Vec<_> = two.iter().map(|paths| bytes_of(&routing_words(&board, paths))).collect();
        let drawn: Vec<_> = lists.iter().map(|list| draw(&board, list, ROOM).unwrap()).collect();
        for ((paths, list), page) in two.iter().zip(&lists).zip(&drawn) {
            assert_eq!(String::from_utf8_lossy(page), page_by_steps(&board, paths));
            assert_eq!(read_off(page), used_edges(&board, list).ok());
        }
        pages += drawn.len();
        if let [one, two] = &drawn[..] {
            assert_eq!(one == two, used_edges(&board, &lists[0]) == used_edges(&board, &lists[1]));
            same += (one == two && lists[0] != lists[1]) as usize;
            other += (one != two) as usize;
        }
    }
    assert!(pages > 2_000 && same > 30 && other > 200, "{pages} {same} {other}");
    pages
}

/// The board comes first, then the buffer, then the list. The ring's page has 192 bytes.
fn refusals_of_drawing() {
    let (ring, routed) = (bytes_of(&RING), bytes_of(&RING_ROUTED));
    let answer = |board: &[u8], list: &[u8], room: usize| read(board).and_then(|board| draw(&board, list, room)).map(|page| page.len());
    assert_eq!([ROOM, ROOM + 1, 9_001].map(|room| answer(&ring, &routed, room)), [Ok(192); 3]);
    let mut lists: Vec<Vec<u8>> = vec![routed.clone(), routed[..35].to_vec(), vec![0; 4 * 2050 + 1]];
    lists.extend(refused_lists().map(|(.., list)| list));
    let boards = [
        (refused(10, 0), ring[..23].to_vec()),
        (refused(11, 0), Vec::new()),
        (refused(13, 5), ring[..20].to_vec()),
        (refused(16, 0), bytes_of(&[0x10000001, 0x10000022, 0xF0000200])),
        (refused(25, 4), bytes_of(&[&RING[..4], &[0x20408001, 0xF0000104]].concat())),
    ];
    for room in [0, 1, 191, 192, 193, ROOM - 1, ROOM, ROOM + 1] {
        for list in &lists {
            boards.iter().for_each(|(refusal, board)| assert_eq!(answer(board, list, room), Err(*refusal)));
            assert!(room >= ROOM || answer(&ring, list, room) == Err(refused(37, 0)));
        }
    }
    for list in &lists[1..3] {
        assert_eq!(answer(&ring, list, ROOM), Err(refused(10, 0)));
    }
    for (number, place, list) in refused_lists() {
        assert_eq!(answer(&ring, &list, ROOM), Err(refused(number, place)));
    }
}

/// What the program is to print: the board's words end with the first of kind 15.
fn printed_by_hand() {
    let (ring, routed) = (bytes_of(&RING), bytes_of(&RING_ROUTED));
    let print = |parts: &[&[u8]]| String::from_utf8(printed(&parts.concat())).unwrap();
    assert_eq!(print(&[&ring, &routed]), text(&["+-+", "| |", "+-+"]));
    assert_eq!(print(&[]), "refused 11 0\n");
    assert_eq!(print(&[&[0xF0]]), "refused 10 0\n");
    assert_eq!(print(&[&[0, 0, 0, 0xF0]]), "refused 13 0\n");
    // The board alone; without its end word, so that the list's words are taken for the board's; twice.
    assert_eq!(print(&[&ring]), "refused 41 0\n");
    assert_eq!(print(&[&ring[..20], &routed]), "refused 12 5\n");
    assert_eq!(print(&[&ring[..20]]), "refused 13 5\n");
    assert_eq!(print(&[&ring, &ring, &routed]), "refused 42 0\n");
    // An end word too soon; bytes missing from the list and from the board.
    assert_eq!(print(&[&ring[..20], &[0, 0, 0, 0xF0], &routed]), "refused 15 5\n");
    assert_eq!(print(&[&ring, &routed[..35]]), "refused 10 0\n");
    assert_eq!(print(&[&ring[..22]]), "refused 10 0\n");
    // Taken words belong to the board and do not show on the page.
    let (board, list) = (bytes_of(&TAKEN), bytes_of(&[0x40100002, 0x5C000002, 0x58000001, 0xE0000001]));
    let page = text(&["+ + +", "", "+-+-+", "|", "+ +"]);
    assert_eq!([print(&[&board, &list]), print(&[&without_taken(&board), &list])], [page.clone(), page]);
    assert_eq!(print(&[&board[..12], &bytes_of(&[0x30000801]), &board[16..], &list]), "refused 38 3\n");
    assert_eq!(print(&[&board, &bytes_of(&[0x30000800]), &list]), "refused 42 0\n");
    // The book is part of the end word and does not show on the page; end words alone, of a book and of none.
    let list = bytes_of(&[0x40100001, 0x54000001, 0x40300001, 0x5C000001, 0xE0000002]);
    let (sides, page) = (bytes_of(&TWO_SIDES), text(&["+-+", "", "+-+"]));
    assert_eq!([print(&[&sides, &list]), print(&[&under_other_book(&sides), &list])], [page.clone(), page]);
    assert_eq!(print(&[&under_other_book(&ring), &routed]), "refused 25 2\n");
    assert_eq!([print(&[&[0, 0, 0, 0xF1]]), print(&[&[0, 0, 0, 0xF2]])], ["refused 13 0\n", "refused 12 0\n"]);
    assert_eq!(print(&[&sides[..15], &[0xF3], &list]), "refused 12 3\n");
    // No more bytes are read than the most; with all of them the list would be uneven.
    assert_eq!(print(&[&ring, &vec![0; LONGEST - ring.len() + 1]]), "refused 41 0\n");
    assert_eq!(print(&[&ring, &vec![0; LONGEST - ring.len() - 1]]), "refused 10 0\n");
}

/// Counts of odd vertices, and what they lead to.
fn odd_vertices() {
    let bare = |right: usize| Board::bare(&[(0, right)]);
    let top_and_bottom: Vec<Vertex> = (0..2).flat_map(|line| (1..7).map(move |column| (line, column))).collect();
    assert_eq!(bare(7).odd_vertices(), top_and_bottom);
    assert_eq!(route_refused(&bare(7), 8196), None);
    assert_eq!(bare(8).odd_vertices().len(), 14);
    assert_eq!(route_refused(&bare(8), 8196), Some(Refusal { number: 32, place: [0, 1] }));
    assert_eq!(route_refused(&bare(8), 4 * 26), Some(Refusal { number: 32, place: [0, 1] }));
    assert_eq!(route_refused(&bare(8), 4 * 26 - 1), Some(refused(31, 0)));
    // A terminal at a vertex with three edges, one of two at a corner.
    let one = with_nets(&[(0, 2)], &[(1, (0, 1), (0, 2))]);
    assert_eq!(one.odd_vertices(), [(0, 2), (1, 1)]);
    let two = with_nets(&[(0, 2)], &[(1, (0, 1), (0, 2)), (2, (1, 0), (0, 2))]);
    assert_eq!(two.odd_vertices(), [(1, 0), (1, 1)]);
    // An overfull cut comes before no paths.
    let three = with_nets(&[(0, 1)], &[(1, (0, 0), (1, 1)), (2, (0, 1), (1, 0)), (3, (0, 1), (1, 1))]);
    assert_eq!(three.odd_vertices(), [(0, 0), (1, 0)]);
    assert_eq!(route_refused(&three, 8196), Some(refused(33, 0)));
    assert!(!routes(&three));
}

/// Every way to pair vertices off comes once: (n - 1)(n - 3)...1 ways.
fn ways_to_pair_off() {
    for (count, ways) in [(0, 1), (2, 1), (4, 3), (6, 15), (8, 105), (10, 945), (12, 10_395)] {
        let vertices: Vec<Vertex> = (0..count).map(|column| (column % 3, column)).collect();
        let mut seen = std::collections::HashSet::new();
        let found = pair_off(&vertices, &mut Vec::new(), &mut |pairs| {
            if 2 * pairs.len() < count {
                return true;
            }
            let mut ends: Vec<Vertex> = pairs.iter().flat_map(|pair| [pair.0, pair.1]).collect();
            ends.sort_by_key(|v| v.1);
            assert_eq!(ends, vertices);
            assert!(seen.insert(pairs.to_vec()));
            false
        });
        assert!(!found && seen.len() == ways);
    }
}

/// Boards without paths although no cut is overfull: two nets across one cell, a board of 13 edges, and the one of request §4.
fn no_paths() -> [Board; 3] {
    let cell = with_nets(&[(0, 1)], &[(1, (0, 0), (1, 1)), (2, (0, 1), (1, 0))]);
    let nets = [(1, (2, 1), (0, 0)), (2, (2, 0), (0, 3)), (3, (0, 2), (1, 3))];
    [cell, with_nets(&[(0, 3), (0, 1)], &nets), bare_pins_board()]
}

fn boards_without_paths() {
    for (board, odd) in no_paths().iter().zip([4, 8, 12]) {
        assert!(board.convex() && read(&bytes_of(&board.words())).as_ref() == Ok(board));
        assert_eq!(board.odd_vertices().len(), odd);
        assert_eq!((board.first_overfull(), board.pairings(usize::MAX)), (None, 0));
        assert_eq!(route_refused(board, 8196), Some(refused(34, 0)));
        assert!(!routes(board));
    }
    // One net fewer on the cell: two odd vertices, and a path.
    let mut cell = no_paths()[0].clone();
    cell.nets.pop();
    assert_eq!((cell.odd_vertices().len(), cell.pairings(usize::MAX)), (2, 1));
    assert!(routes(&cell) && route_refused(&cell, 8196).is_none());
    // Four odd vertices and no nets: each of the three ways to pair them off fits.
    assert_eq!(Board::bare(&[(0, 3)]).pairings(usize::MAX), 3);
    assert_eq!(Board::bare(&[(0, 3)]).pairings(2), 2);
}

/// The revised cut test by hand.
fn revised_cuts() {
    let numbers = |board: &Board| (board.margins().iter().map(|m| m.1).collect::<Vec<_>>(), board.parity_demands());
    let [cell, small, block] = no_paths();
    // Row and column are full, and part the vertex above or to the left from the others: each vertex has two edges and a net.
    assert_eq!(numbers(&cell), (vec![0, 0], vec![2, 2]));
    assert!(!cell.revised_cuts_hold());
    // Rows 0 and 1, columns 0 to 2. Row 1 and column 2 are full. To the left of column 0 row 1 parts off (2, 0), to the left of column 1
    // it parts off three odd vertices above; above row 0 column 2 parts off (0, 3).
    assert_eq!(numbers(&small), (vec![1, 0, 1, 1, 0], vec![1, 0, 1, 1, 0]));
    assert!(small.revised_cuts_hold());
    // Rows 0 to 4, columns 0 to 4; the first and the last of each are full. Row 2 and column 2 have two odd sets each, at the ends.
    assert_eq!(numbers(&block), (vec![0, 2, 2, 2, 0, 0, 2, 2, 2, 0], vec![0, 0, 2, 0, 0, 0, 0, 2, 0, 0]));
    assert!(block.revised_cuts_hold());
    assert_eq!(numbers(&Board::bare(&[(0, 2)])), (vec![3, 2, 2], vec![1, 0, 0]));
}

/// The parity demands by counting the odd vertices in each set.
fn demands_by_odd_vertices(board: &Board) -> Vec<i32> {
    let behind = |v: Vertex, cut: Cut| match cut {
        Cut::Row(i) => v.0 > i,
        Cut::Column(j) => v.1 > j,
    };
    let margins = board.margins();
    let mut demands = Vec::new();
    for &(cut, _) in &margins {
        let mut sets: BTreeMap<Vec<bool>, i32> = BTreeMap::new();
        for v in board.odd_vertices().into_iter().filter(|&v| !behind(v, cut)) {
            let parting = margins.iter().filter(|(other, margin)| *margin == 0 && matches!(other, Cut::Row(_)) != matches!(cut, Cut::Row(_)));
            *sets.entry(parting.map(|&(other, _)| behind(v, other)).collect()).or_insert(0) += 1;
        }
        demands.push(sets.values().filter(|&&count| count % 2 == 1).count() as i32);
    }
    demands
}

/// Whether a pairing fits, by trying each as nets of the board.
fn paths_by_trying(board: &Board) -> bool {
    let odd = board.odd_vertices();
    pair_off(&odd, &mut Vec::new(), &mut |pairs| {
        let mut more = board.clone();
        more.nets.extend(pairs.iter().map(|pair| Net { number: 0, first: pair.0, second: pair.1 }));
        2 * pairs.len() < odd.len() || more.first_overfull().is_none() && more.odd_vertices().is_empty()
    })
}

/// Random boards: what holds of their odd vertices, pairings, parity demands and images.
fn odd_boards() -> usize {
    let mut counts = [0; 4];
    for case in 0..6_000 {
        let mut random = Random::of_case(7, 't', case);
        let size = random.pick(&[2, 4, 6]);
        let rows = if random.one_in(2) { convex_rows(&mut random, size, size) } else { stepped_rows(&mut random, size, size) };
        let (count, care) = (random.pick(&[0, 2, 4, 6, 8]), random.pick(&[Care::None, Care::Mended, Care::Filled]));
        let mut board = any_bare(&mut random, &rows);
        board.nets = odd_nets(&mut random, &board, count, care);
        take_pins(&mut random, &mut board);
        assert!(board.convex() && read(&bytes_of(&board.words())).as_ref() == Ok(&board));
        let odd = board.odd_vertices().len();
        assert!(odd == count || odd < count && board.vertices().iter().filter(|&&v| board.all_pins(v) > 0).count() < count + 2);
        assert_eq!(board.parity_demands(), demands_by_odd_vertices(&board));
        assert_eq!(board.paths_exist(), paths_by_trying(&board));
        let (holds, exist) = (board.revised_cuts_hold(), board.paths_exist());
        assert!(holds || !exist);
        assert!(odd > 0 || holds == board.first_overfull().is_none() && exist == holds);
        images(&board, holds, exist);
        counts[2 * (board.first_overfull().is_none() as usize) + exist as usize] += 1;
    }
    assert!(counts[0] > 200 && counts[1] == 0 && counts[2] > 500 && counts[3] > 2_000, "{counts:?}");
    counts.iter().sum()
}

/// Mirrored and turned boards have the same answers; mirrored twice or turned four times a board is as it was, from column 0 on.
fn images(board: &Board, holds: bool, exist: bool) {
    let (back, mut image) = (mirrored(&mirrored(board)), board.clone());
    for _ in 0..4 {
        image = turned(&image);
        for other in [&image, &mirrored(&image)] {
            assert!(other.convex() && read(&bytes_of(&other.words())).as_ref() == Ok(other));
            assert_eq!((other.revised_cuts_hold(), other.paths_exist()), (holds, exist));
        }
    }
    assert_eq!(image, back);
}

/// The three readings of convexity agree on every board of up to three rows within five columns, and of four within four.
fn convexity() -> usize {
    let mut tried = 0;
    for (most_rows, columns) in [(3, 6), (4, 5)] {
        let spans: Vec<(usize, usize)> = (0..columns).flat_map(|l| (l + 1..columns).map(move |r| (l, r))).collect();
        for rows in 1..=most_rows {
            for code in 0..spans.len().pow(rows as u32) {
                let picked: Vec<_> = (0..rows).map(|i| spans[code / spans.len().pow(i as u32) % spans.len()]).collect();
                let board = Board::bare(&picked);
                let answer = board.convex_by_definition();
                assert_eq!(board.convex(), answer, "{picked:?}");
                assert_eq!(board.convex_by_lemma(), answer, "{picked:?}");
                tried += 1;
            }
        }
    }
    tried
}

fn main() {
    ring_and_boards();
    turns_of_one_net();
    turns_of_two_nets();
    let (lists, twice) = reports_on_trails();
    refusals();
    wire_by_hand();
    room_by_hand();
    bounds_by_hand();
    always_filled_by_hand();
    let (wires, bounds) = (wire_other_ways(), bounds_of_lists());
    pins_left();
    taken_ill_made_or_out_of_order();
    taken_too_many();
    taken_and_nets();
    pins_under_both_books();
    books_told();
    corners_under_both_books();
    the_same_under_both_books();
    let (made, taken, both) = (boards_made_for_an_answer(), boards_with_taken_pins(), boards_under_both_books());
    pairs();
    refusals_of_pairs();
    pages_by_hand();
    pages_not_read();
    let pages = pages_of_trails();
    refusals_of_drawing();
    printed_by_hand();
    odd_vertices();
    ways_to_pair_off();
    boards_without_paths();
    revised_cuts();
    let odd = odd_boards();
    let boards = convexity();
    println!("self test: the ring, boards a to i, the refusals, taken pins and books by hand and on {made} boards made for an answer,");
    println!("the wire to order by hand and on {wires} boards in other ways, its bounds by hand and on {bounds} lists;");
    println!("taken pins on {taken} others and books on {both}; pairs of routings; reports by hand and on {lists} lists, {twice} of them");
    println!("with a vertex where one net turns twice; pages by hand and {pages} drawn two ways; odd vertices, pairings and the revised cut test");
    println!("by hand and on {odd} boards; convexity on {boards} boards three ways: passed");
}
