/* A small layout editor: reads a board from a file, has it routed, has the routing judged, and prints a picture of the board with the routing.
 *
 *     layout FILE
 *     layout FILE LIST         judges the routing words in the file LIST, instead of having the board routed
 *     layout FILE LIST LIST    prints instead whether two lists are "alike" or "not alike"
 *     layout --page FILE       prints instead the page of the routing, for the wall: 63 characters and a line feed for each line of text
 *     layout --page FILE LIST  the same of the routing words in the file LIST
 *
 * Ends with status 0, or with
 *   1  the board, or a list, is refused: prints "refused", the number and the place; of two lists 0 or 1 for the list stands before the place, but
 *      not where the count of its bytes is refused;
 *   2  a file cannot be read, or the program is called another way;
 *   3  the routing does not pass the judge.
 * What belongs to 2 and 3 is told on standard error.
 *
 * Below the picture stand the edges that the routing uses, with two numbers that are told before routing: no routing of these nets uses fewer edges
 * than the first or more than the second; then its turns and its knock-knees.
 *
 * In the picture "+" is a vertex, "o" one with terminals, "x" one with taken pins, "*" one with both. An edge that a net uses shows the net's sign:
 * 1 to 9, A to Z, a to z, then #, @ and & for nets 1 to 64; an edge that no net uses is drawn thin. */
#include <stdint.h>
#include <stdio.h>
#include <stdlib.h>
#include <string.h>

#include "cidrask.h"

enum { LINES = 32 };

static const char signs[] = "?123456789ABCDEFGHIJKLMNOPQRSTUVWXYZabcdefghijklmnopqrstuvwxyz#@&";

struct picture {
    char across[LINES][LINES]; /* the sign of the edge from a vertex to the right, '-' if it is unused, 0 if there is none */
    char down[LINES][LINES];   /* the same downwards, with '|' */
    char vertex[LINES][LINES]; /* '+', 'o', 'x' or '*', or 0 */
};

static uint32_t word_at(const uint8_t *bytes, size_t index) {
    const uint8_t *b = bytes + 4 * index;
    return b[0] | (uint32_t)b[1] << 8 | (uint32_t)b[2] << 16 | (uint32_t)b[3] << 24;
}

/* The cells of a row: their corners are vertices, their sides edges. */
static void draw_row(struct picture *p, int line, uint32_t word) {
    int left = word >> 5 & 31, right = word & 31;
    for (int c = left; c < right; c++) {
        p->across[line][c] = p->across[line + 1][c] = '-';
        p->down[line][c] = p->down[line][c + 1] = '|';
        for (int k = 0; k < 4; k++)
            if (!p->vertex[line + k / 2][c + k % 2]) p->vertex[line + k / 2][c + k % 2] = '+';
    }
}

/* A terminal at a vertex. */
static void draw_terminal(struct picture *p, int line, int column) {
    char *v = &p->vertex[line][column];
    *v = *v == 'x' || *v == '*' ? '*' : 'o';
}

/* Words of taken pins come before those of nets. */
static void draw_board(struct picture *p, const uint8_t *board, size_t words) {
    int line = 0;
    for (size_t i = 0; i < words; i++) {
        uint32_t w = word_at(board, i);
        if (w >> 28 == 1) draw_row(p, line++, w);
    }
    for (size_t i = 0; i < words; i++) {
        uint32_t w = word_at(board, i);
        if (w >> 28 == 3) p->vertex[w >> 5 & 31][w & 31] = 'x';
        if (w >> 28 == 2) {
            draw_terminal(p, w >> 15 & 31, w >> 10 & 31);
            draw_terminal(p, w >> 5 & 31, w & 31);
        }
    }
}

/* Where the path of a net starts: its first terminal. */
static void start_of(const uint8_t *board, size_t words, uint32_t number, int *line, int *column) {
    for (size_t i = 0; i < words; i++) {
        uint32_t w = word_at(board, i);
        if (w >> 28 == 2 && (w >> 20 & 255) == number) {
            *line = w >> 15 & 31;
            *column = w >> 10 & 31;
        }
    }
}

static void draw_step(struct picture *p, int *line, int *column, int direction, char sign) {
    switch (direction) {
    case 0: p->down[--*line][*column] = sign; break;
    case 1: p->across[*line][(*column)++] = sign; break;
    case 2: p->down[(*line)++][*column] = sign; break;
    default: p->across[*line][--*column] = sign; break;
    }
}

static void draw_paths(struct picture *p, const uint8_t *board, size_t words, const uint8_t *routing, size_t count) {
    int line = 0, column = 0;
    char sign = '?';
    for (size_t i = 0; i < count; i++) {
        uint32_t w = word_at(routing, i);
        if (w >> 28 == 4) {
            start_of(board, words, w >> 20 & 255, &line, &column);
            sign = signs[w >> 20 & 255];
        } else if (w >> 28 == 5) {
            for (uint32_t k = 0; k < (w & 31); k++) draw_step(p, &line, &column, w >> 26 & 3, sign);
        }
    }
}

/* The length of a line of text without the blanks at its end. */
static int used(const char *text, int length) {
    while (length > 0 && text[length - 1] == ' ') length--;
    return length;
}

static void print_text(const char *text, int length) { printf("%.*s\n", used(text, length), text); }

static void print_picture(const struct picture *p) {
    for (int l = 0; l < LINES; l++) {
        char level[4 * LINES], upright[4 * LINES];
        memset(level, ' ', sizeof level);
        memset(upright, ' ', sizeof upright);
        for (int c = 0; c < LINES; c++) {
            if (p->vertex[l][c]) level[4 * c] = p->vertex[l][c];
            if (p->across[l][c]) memset(level + 4 * c + 1, p->across[l][c] == '-' ? '.' : p->across[l][c], 3);
            if (p->down[l][c]) upright[4 * c] = p->down[l][c] == '|' ? ':' : p->down[l][c];
        }
        if (used(level, 4 * LINES) == 0) continue;
        print_text(level, 4 * LINES);
        if (used(upright, 4 * LINES) > 0) print_text(upright, 4 * LINES);
    }
}

/* A place has one number, or two: 32 and 33, and of two lists 41 to 46. */
static int refused(uint32_t number, uint64_t first, uint64_t second, int numbers) {
    printf("refused %u %llu", (unsigned)number, (unsigned long long)first);
    if (numbers == 2) printf(" %llu", (unsigned long long)second);
    printf("\n");
    return 1;
}

/* Reads a file's bytes, where a list of more than `most` words is refused whatever it holds: of a longer file one word more is kept, and as many
 * bytes as tell whether their count is a multiple of 4. */
static size_t read_file(const char *name, uint8_t *bytes, size_t most) {
    FILE *f = fopen(name, "rb");
    size_t length = f ? fread(bytes, 1, 4 * most + 4, f) : 0, more = 0;
    while (length == 4 * most + 4 && fgetc(f) != EOF) more++;
    if (!f || ferror(f)) {
        fprintf(stderr, "layout: %s cannot be read\n", name);
        exit(2);
    }
    fclose(f);
    for (size_t i = 0; i < more % 4; i++) bytes[length++] = 0;
    return length;
}

static int compare(const uint8_t *board, size_t length, const char *one_name, const char *two_name) {
    static uint8_t one[4 * CIDRASK_ROUTING_WORDS + 7], two[4 * CIDRASK_ROUTING_WORDS + 7];
    uint64_t first, second;
    size_t one_length = read_file(one_name, one, CIDRASK_ROUTING_WORDS), two_length = read_file(two_name, two, CIDRASK_ROUTING_WORDS);
    uint32_t r = cidrask_alike(board, length, one, one_length, two, two_length, &first, &second);
    if (r != 0) return refused(r, first, second, r >= 41 ? 2 : 1);
    printf(first ? "alike\n" : "not alike\n");
    return 0;
}

/* The board's routing: its words at the start of the buffer, and how many bytes they are in *listed. Or prints the refusal. */
static int route(const uint8_t *board, size_t length, uint8_t *routing, size_t room, size_t *listed) {
    uint64_t first, second;
    uint32_t r = cidrask_route(board, length, routing, room, &first, &second);
    if (r != 0) return refused(r, first, second, r == 32 || r == 33 ? 2 : 1);
    *listed = 4 * first;
    return 0;
}

/* A list from a file is refused; the board's own routing must pass. */
static int not_passed(uint32_t number, uint64_t place, int from_file) {
    if (from_file) return refused(number, place, 0, 1);
    fprintf(stderr, "layout: the routing does not pass the judge: %u %llu\n", (unsigned)number, (unsigned long long)place);
    return 3;
}

static int print_page(const uint8_t *board, size_t length, const uint8_t *routing, size_t listed, int from_file) {
    static uint8_t page[CIDRASK_PAGE_BYTES];
    uint64_t first;
    uint32_t r = cidrask_draw(board, length, routing, listed, page, sizeof page, &first);
    if (r != 0) return not_passed(r, first, from_file);
    fwrite(page, 1, first, stdout);
    return 0;
}

/* How many edges any routing of the board's nets uses; the board has been read. */
static void print_bounds(const uint8_t *board, size_t length) {
    uint64_t least, most;
    if (cidrask_wire(board, length, &least, &most) == 0)
        printf(" (at least %llu, at most %llu)", (unsigned long long)least, (unsigned long long)most);
}

static int print_layout(const uint8_t *board, size_t length, const uint8_t *routing, size_t listed, int from_file) {
    static struct picture p;
    uint64_t first, second, third;
    uint32_t r = cidrask_judge(board, length, routing, listed, &first, &second, &third);
    if (r != 0) return not_passed(r, first, from_file);
    draw_board(&p, board, length / 4);
    draw_paths(&p, board, length / 4, routing, listed / 4);
    print_picture(&p);
    printf("%llu edges", (unsigned long long)first);
    print_bounds(board, length);
    printf(", %llu turns, %llu knock-knees\n", (unsigned long long)second, (unsigned long long)third);
    return 0;
}

int main(int argc, char **argv) {
    static uint8_t board[4 * CIDRASK_BOARD_WORDS + 7], routing[4 * CIDRASK_ROUTING_WORDS + 7];
    int as_page = argc > 1 && strcmp(argv[1], "--page") == 0, files = argc - 1 - as_page;
    char **names = argv + 1 + as_page;
    if (files < 1 || files > 3 - as_page) {
        fprintf(stderr, "usage: layout FILE [LIST [LIST]]\n       layout --page FILE [LIST]\n");
        return 2;
    }
    size_t length = read_file(names[0], board, CIDRASK_BOARD_WORDS), listed;
    if (files == 3) return compare(board, length, names[1], names[2]);
    if (files == 2) {
        listed = read_file(names[1], routing, CIDRASK_ROUTING_WORDS);
    } else if (route(board, length, routing, sizeof routing, &listed) != 0) {
        return 1;
    }
    return (as_page ? print_page : print_layout)(board, length, routing, listed, files == 2);
}
