//! The page on which a routing is drawn, from the requirements' words and the C header: what drawing owes, the edges read off a page again, and what
//! the program draw is to print.

#![allow(dead_code)]

use crate::independent::{judge_edges, read, refuse, Board, Edge, Refusal};
use std::collections::BTreeSet;

/// The characters of a text line, without its line feed.
const WIDTH: usize = 63;
/// The fewest bytes that a page's buffer may have.
pub const ROOM: usize = 4_032;
/// The program reads as many bytes and no more.
pub const LONGEST: usize = 65_536;

/// The page of a list on a board that was read, into a buffer of `room` bytes. The buffer comes before the list.
pub fn draw(board: &Board, list: &[u8], room: usize) -> Result<Vec<u8>, Refusal> {
    if room < ROOM {
        return refuse(37, 0);
    }
    Ok(page(board, &used_edges(board, list)?))
}

/// The edges that the paths of a list use, all nets together. The list is judged whole.
pub fn used_edges(board: &Board, list: &[u8]) -> Result<BTreeSet<Edge>, Refusal> {
    let mut used = BTreeSet::new();
    judge_edges(board, list, &mut |_, edge| {
        used.insert(edge);
    })?;
    Ok(used)
}

/// Two text lines per line of the board, less one.
fn text_lines(board: &Board) -> usize {
    2 * board.lines() - 1
}

/// The count of bytes of a board's page, whatever is drawn on it.
pub fn page_length(board: &Board) -> usize {
    text_lines(board) * (WIDTH + 1)
}

/// Spaces everywhere at first. A vertex stands at twice its line and twice its column, the sign of a used edge halfway between those of its ends.
fn page(board: &Board, used: &BTreeSet<Edge>) -> Vec<u8> {
    let mut text = vec![[b' '; WIDTH]; text_lines(board)];
    for (line, column) in board.vertices() {
        text[2 * line][2 * column] = b'+';
    }
    for (one, other) in used {
        text[one.0 + other.0][one.1 + other.1] = if one.0 == other.0 { b'-' } else { b'|' };
    }
    text.iter().flat_map(|line| line.iter().copied().chain([b'\n'])).collect()
}

// ---------------------------------------------------------------- a page read

/// The edges that can be read off a page: along each text line "+", "-" and "+" one after the other, down each column of characters "+", "|" and "+".
/// None where a line is not as wide as it should be, or a sign is left over.
pub fn read_off(page: &[u8]) -> Option<BTreeSet<Edge>> {
    let text: Vec<&[u8]> = page.strip_suffix(b"\n")?.split(|&byte| byte == b'\n').collect();
    if text.iter().any(|line| line.len() != WIDTH) {
        return None;
    }
    let mut edges = BTreeSet::new();
    for (line, along) in text.iter().step_by(2).enumerate() {
        edges.extend(joined(along, b"+-+").map(|column| ((line, column), (line, column + 1))));
    }
    for (column, character) in (0..WIDTH).step_by(2).enumerate() {
        let down: Vec<u8> = text.iter().map(|line| line[character]).collect();
        edges.extend(joined(&down, b"+|+").map(|line| ((line, column), (line + 1, column))));
    }
    let signs = page.iter().filter(|sign| b"-|".contains(sign)).count();
    (signs == edges.len()).then_some(edges)
}

/// Where two neighbours are joined by a sign: the first one's column or line on the board.
fn joined<'a>(signs: &'a [u8], sign: &'a [u8; 3]) -> impl Iterator<Item = usize> + 'a {
    signs.windows(3).step_by(2).enumerate().filter(move |(_, three)| three == sign).map(|(place, _)| place)
}

// ---------------------------------------------------------------- the program

/// The board's bytes and the list's: the board goes up to the first whole word of kind 15 and has all bytes where there is none.
pub fn parted(input: &[u8]) -> (&[u8], &[u8]) {
    let end = input.chunks_exact(4).position(|word| word[3] >> 4 == 15);
    input.split_at(end.map_or(input.len(), |index| 4 * (index + 1)))
}

/// What drawing owes the two parts of the program's input.
pub fn drawn_from(input: &[u8]) -> Result<Vec<u8>, Refusal> {
    let (board, list) = parted(&input[..input.len().min(LONGEST)]);
    draw(&read(board)?, list, ROOM)
}

/// What the program is to print.
pub fn printed(input: &[u8]) -> Vec<u8> {
    match drawn_from(input) {
        Ok(page) => page,
        Err(refusal) => format!("refused {} {}\n", refusal.number, refusal.place[0]).into_bytes(),
    }
}
