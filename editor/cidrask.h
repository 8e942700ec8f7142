/* Cidrask for C: routing boards, the wire that a board's nets take, judging routings, comparing two and drawing one, on bytes.
 *
 * Boards. A board is 1 to 31 rows of unit cells, row 0 at the top; a row runs from column left to column right, 0 <= left < right <= 31. The corners
 * of its cells are the vertices and their sides the edges. A vertex is written (line, column); line i is the top of row i. A board is convex when of
 * any two rows one contains the other, and widths never shrink and then grow again from top to bottom. A board has a rule book, 0 the old rule or 1
 * the new. A vertex of degree d has 4 - d pins, but under the new rule one of degree 2 has one pin. Of these the package may have taken some, and
 * the vertex takes as many terminals as pins are left. It is odd when d plus its terminals is odd, whatever the book and the pins that are taken.
 * Where a board takes its nets under both books, a routing is given or refused alike under both, the same wire is told, and lists are judged,
 * compared and drawn the same.
 * A net has a number from 1 to 64 and a first and a second terminal. Row i has the vertical edges of its cells, column j the horizontal edges
 * between columns j and j + 1; a net crosses it when its terminals lie on different sides. Reading order is line by line and column by column.
 *
 * Words. A word is four bytes, lowest first; bits not named are 0. A board is a row word for each row from the top, a taken word for each vertex
 * with taken pins, in reading order and no vertex twice, a net word for each net in rising number, and an end word: at most 224 words. A routing is
 * for each net, in rising number, a path word and its run words, then an end word: at most 1 + nets + edges words, the counts of the board's nets and
 * of all its edges, and so at most 2,049. A path goes from its net's first terminal to its second, two runs in a row differ in direction, and no edge
 * is used twice.
 *   row            31-28 = 1, 9-5 left, 4-0 right
 *   taken          31-28 = 3, 11-10 how many pins are taken (1 or 2), 9-5 line and 4-0 column of the vertex
 *   net            31-28 = 2, 27-20 number, 19-15 line and 14-10 column of the first terminal, 9-5 line and 4-0 column of the second
 *   board's end    31-28 = 15, 27-24 rule book (0 or 1), 15-8 count of rows, 7-0 count of nets
 *   path           31-28 = 4, 27-20 net number, 10-0 count of run words that follow
 *   run            31-28 = 5, 27-26 direction (0 up, 1 right, 2 down, 3 left), 4-0 length 1 to 31
 *   routing's end  31-28 = 14, 7-0 count of paths
 *
 * The functions are proved: they end on every input, read and write nothing but what they are lent, and keep no state between calls.
 * The caller sees to this:
 *   - a pointer to bytes goes with a length, and may be read (or written) for that many bytes; it is not NULL, also where the length is 0,
 *     and no length is above PTRDIFF_MAX;
 *   - first, second and third each point to a uint64_t that may be written;
 *   - what a call writes to (the buffer or page, and the numbers) overlaps nothing else that the call is lent;
 *   - no other thread writes to what is lent while the call runs;
 *   - there is stack enough. This is not proved, and was measured with an older Rattle kit: in the library for x86-64, frames times the code's bounds
 *     on recursion came to under 600 KiB for cidrask_route, and to under 40 KiB for cidrask_judge, cidrask_alike and cidrask_draw, which do not
 *     recurse; nor does cidrask_wire. Seen in use were at most 63 KiB by cidrask_route, over 12,000 random large boards, half of them with odd
 *     vertices, 39 KiB by cidrask_judge, and 22 KiB by cidrask_wire, over the boards of examples/.
 *
 * Answers. The result is 0 where the call is accepted, otherwise the number of the first refusal that holds, in the order told at the call.
 * An index counts words from 0. *first is the place; only 32 and 33 have a second number, in *second. (cidrask_alike tells 41 to 46 otherwise: see
 * there.)
 *   10  the count of the board's bytes, or of a list's, is not a multiple of 4        0
 *   11  the board has no words or more than 224                                       0
 *   12  a board word of another kind, or with an unnamed bit set, or a taken word
 *       that takes 0 or 3 pins, or an end word whose rule book is 2 to 15             its index
 *   13  the first word is no row, a row comes after a taken word or a net, a taken
 *       word after a net or with a vertex that is not after the last one's in reading
 *       order, a net's number is not above the last one's, or a word comes after the
 *       end                                                                           its index
 *       the board is over without an end word                                         count of its words
 *   14  a row whose left is not below its right, or a 32nd row                        its index
 *   15  a count of the end word differs                                               its index
 *   16  the board is not convex                                                       0
 *   38  a taken word's vertex is missing, or has fewer pins by the board's book,
 *       before any are taken, than the word takes                                     its index
 *   21  a net's number is not 1 to 64                                                 its word's index
 *   23  a terminal is no vertex                                                       its word's index
 *   24  both terminals are one vertex                                                 its word's index
 *   25  a terminal has no pin by the board's book, or none that is left by the taken
 *       pins and the nets before                                                      its word's index
 *   31  the buffer has room for fewer than 1 + nets + edges words, the counts of the
 *       board's nets and of all its edges                                             0
 *   32  more than 12 vertices are odd: the first in reading order                     its line; its column
 *   33  a row or column is crossed by more nets than it has edges: the first, rows
 *       from the top, then columns from the left                                      0 row or 1 column; its index
 *   34  no row or column is crossed by too many nets, and yet there is no routing     0
 *   37  the buffer for a page has fewer than 4,032 bytes                              0
 *   41  the list has no words or more than 2,049                                      0
 *   42  a routing word not of the kind due, with an unnamed bit set, of length 0, or
 *       in the direction of the run before                                            its index
 *   43  a path not of the next net, an end word before all nets have a path or with
 *       another count, or a word after the end                                        its index
 *       the list is over without an end word                                          count of its words
 *   44  a run leaves the board's edges                                                the run's index
 *   45  a run uses an edge again                                                      the run's index
 *   46  a path does not end at its net's second terminal                              the path word's index
 */
#ifndef CIDRASK_H
#define CIDRASK_H

#include <stddef.h>
#include <stdint.h>

#define CIDRASK_BOARD_WORDS 224    /* the most words of a board */
#define CIDRASK_ROUTING_WORDS 2049 /* the most words of a routing of any board: room for so many, 4 * 2049 bytes, is never refused by 31 */
#define CIDRASK_PAGE_BYTES 4032    /* the most bytes of a page, and the least room for one */

#ifdef __cplusplus
extern "C" {
#endif

/* Reads a board and routes its nets into a buffer, which counts as its whole groups of four bytes.
 * Accepted: a routing's words stand at the start of the buffer; *first is their count, and *second is 0. The bytes after them are untouched.
 * Refused: *first and *second are the place, *second 0 where it is one number; the whole buffer is untouched.
 * Order: 10, 11; each word in turn through 12 to 15; 16; each taken word in turn, 38; each net in turn through 21, 23, 24, 25; 31, 32, 33, 34. No
 * other number comes.
 * Past 31, where at most 12 vertices are odd, a routing is given exactly when pairwise edge-disjoint paths joining all nets exist; where none is odd,
 * 34 never comes. */
uint32_t cidrask_route(const uint8_t *board, size_t board_length, uint8_t *buffer, size_t buffer_length, uint64_t *first, uint64_t *second);

/* Reads a board and tells between which two numbers the wire of its nets lies, before they are routed: from the board and its nets alone.
 * Accepted: *first is the sum, over all rows and columns, of the nets that cross each of them; *second is the count of the board's edges. Every list
 * that cidrask_judge accepts for this board, of this or of another tool, uses at least *first and at most *second edges, and has at most 1 + nets +
 * *second words: the least room that cidrask_route asks for. The numbers are told of every board that is read, also of one that has no routing.
 * Refused: *first is the place, and *second is 0.
 * Order: the board's 10 to 16, 38 and 21 to 25 as above. No other number comes. */
uint32_t cidrask_wire(const uint8_t *board, size_t board_length, uint64_t *first, uint64_t *second);

/* Reads a board and judges a list of routing words against it; the board may be odd or have overfull rows and columns.
 * Accepted: the list is the words of a routing of the board's nets. *first is the count of edges used, *second the count of turns (changes of
 * direction along paths), *third that of knock-knees: vertices where two turns occur, whether of two paths or of one, each counted once. At no
 * vertex do more than two turns occur.
 * Refused: *first is the place, *second and *third are 0.
 * Order: the board's 10 to 16, 38 and 21 to 25 as above; the list's 10, 41; each word in turn through 42, 43; then path by path, each run's edges in
 * turn through 44, 45, and 46 after the last run. No other number comes. A word after the end gets 43 whatever it holds. */
uint32_t cidrask_judge(const uint8_t *board, size_t board_length, const uint8_t *list, size_t list_length, uint64_t *first, uint64_t *second,
                       uint64_t *third);

/* Reads a board and tells whether two routings of it, as lists of routing words, are alike: whether each net uses the same set of edges in both.
 * The direction in which a path walks a loop of its own, and the order of its edges, play no part.
 * Accepted: both lists are the words of routings of the board's nets. *first is 1 where they are alike, otherwise 0; *second is 0.
 * Refused: for 41 to 46 *first is 0 for the list one or 1 for the list two, and *second is the place in that list; for the others, a list's 10 too,
 * *first is the place alone, and *second is 0.
 * Order: the board's 10 to 16, 38 and 21 to 25 as above; then the list one whole, in the order of cidrask_judge: 10, 41; each word in turn through
 * 42, 43; path by path, 44 to 46; then the list two whole, in the same order. No other number comes. */
uint32_t cidrask_alike(const uint8_t *board, size_t board_length, const uint8_t *one, size_t one_length, const uint8_t *two, size_t two_length,
                       uint64_t *first, uint64_t *second);

/* Reads a board, judges a list of routing words against it, and draws the routing as a page of text into a buffer of bytes.
 * A board of n rows has a page of 2 n + 1 text lines, each of 63 characters and a line feed. Text lines and characters are counted from 0:
 *   - the vertex (i, j) stands at character 2 j of text line 2 i, as "+";
 *   - where a path uses the edge between the vertices (i, j) and (i, j + 1), "-" stands at character 2 j + 1 of text line 2 i;
 *   - where a path uses the edge between the vertices (i, j) and (i + 1, j), "|" stands at character 2 j of text line 2 i + 1;
 *   - all other characters are spaces.
 * So every used edge can be read off the page, and two routings of one board that use the same edges, by whatever nets, give the same page.
 * Accepted: the list is the words of a routing of the board's nets, and its page stands at the start of the buffer. *first is the count of bytes
 * written, 64 (2 n + 1), which is at most 4,032. The bytes after them are untouched.
 * Refused: *first is the place; the whole buffer is untouched.
 * Order: the board's 10 to 16, 38 and 21 to 25 as above; 37, also where this page would be shorter than 4,032 bytes; then the list in the order of
 * cidrask_judge: 10, 41; each word in turn through 42, 43; path by path, 44 to 46. No other number comes. */
uint32_t cidrask_draw(const uint8_t *board, size_t board_length, const uint8_t *list, size_t list_length, uint8_t *page, size_t page_length,
                      uint64_t *first);

#ifdef __cplusplus
}
#endif
#endif
