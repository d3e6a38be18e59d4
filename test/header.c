/* include/gridtable.h, with a guard page on both sides of every slice that a call is handed: each
 * run stands flush with one side, and the whole test is run for both. Arguments are sheets, each
 * followed by what it redraws as; `-n N` sets the number of random sheets.
 */
#define _DEFAULT_SOURCE
#include <stdio.h>
#include <string.h>
#include <sys/mman.h>
#include <unistd.h>

#include "gridtable.h"

/* ---- Checks ---- */

static size_t checks, failures, sheets, redrawn;

#define CHECK(holds)                                                               \
    do {                                                                           \
        checks++;                                                                  \
        if (!(holds)) {                                                            \
            failures++;                                                            \
            fprintf(stderr, "%s:%d: not so: %s\n", __FILE__, __LINE__, #holds);    \
        }                                                                          \
    } while (0)

/* ---- Guarded memory ---- */

enum side { LEFT_FLUSH, RIGHT_FLUSH };
static enum side side;

/* Whole pages between two that can't be touched. */
typedef struct {
    uint8_t *start;
    size_t bytes;
} region;

static region new_region(size_t bytes)
{
    const size_t page = (size_t)sysconf(_SC_PAGESIZE);
    region made;
    made.bytes = (bytes + page - 1) / page * page;
    uint8_t *all = (uint8_t *)mmap(NULL, made.bytes + 2 * page, PROT_READ | PROT_WRITE,
        MAP_PRIVATE | MAP_ANONYMOUS, -1, 0);
    if (all == (uint8_t *)MAP_FAILED || mprotect(all, page, PROT_NONE) != 0
        || mprotect(all + page + made.bytes, page, PROT_NONE) != 0) {
        perror("guard pages");
        exit(2);
    }
    made.start = all + page;
    return made;
}

/* The place of so many bytes in a region, flush with its guard. */
static void *flush(region of, size_t bytes)
{
    return side == LEFT_FLUSH ? of.start : of.start + of.bytes - bytes;
}

/* A copy of given bytes, flush with a guard. */
static const void *lent(region of, const void *from, size_t bytes)
{
    void *at = flush(of, bytes);
    if (bytes > 0)
        memcpy(at, from, bytes);
    return at;
}

enum { BYTES_MOST = 1 << 16 };
static const uint8_t PATTERN = 0xAB;

/* A region for each array of a space, and for what is handed in. */
static struct {
    struct { region offsets, starts, glyphs, down, right, rects, counts; } reading;
    struct { region starts, ends, firsts, heights, wides, canvas, rects; } drawing;
    struct { region columns, rows, cells, ranges; } layout;
    struct { region columns, cells, lengths, sections, text; } table;
    struct { region lengths, columns, text; } drawn;
    struct { region rows, cells; } positions;
    region cell;
} regions;
static region given[6], ends_regions[3], page_region;

/* A space whose arrays have the lengths that the archive says, each flush with a guard. */
static gridtable_space guarded;
#define PLACE(array)                                                                     \
    guarded.array.at = flush(regions.array, guarded.array.length * sizeof *guarded.array.at);
#define MAKE(array)                                                                      \
    regions.array = new_region(guarded.array.length * sizeof *guarded.array.at);
#define PAINT(array)                                                                     \
    memset(guarded.array.at, PATTERN, guarded.array.length * sizeof *guarded.array.at);

static void place_space(void)
{
    guarded = gridtable_space_lengths();
    GRIDTABLE_U32S(PLACE)
    GRIDTABLE_U16S(PLACE)
    GRIDTABLE_U8S(PLACE)
    GRIDTABLE_U32S(PAINT)
    GRIDTABLE_U16S(PAINT)
    GRIDTABLE_U8S(PAINT)
}

static void make_regions(void)
{
    guarded = gridtable_space_lengths();
    GRIDTABLE_U32S(MAKE)
    GRIDTABLE_U16S(MAKE)
    GRIDTABLE_U8S(MAKE)
    for (size_t i = 0; i < 6; i++)
        given[i] = new_region(BYTES_MOST);
    for (size_t i = 0; i < 3; i++)
        ends_regions[i] = new_region((grid_register_room() + 1) * sizeof(uint32_t));
    page_region = new_region(4 * BYTES_MOST);
}

/* An array of the guarded space with another length. */
#define SET_LENGTH(array, entries)                                                       \
    do {                                                                                 \
        guarded.array.length = (entries);                                                \
        PLACE(array)                                                                     \
        memset(guarded.array.at, PATTERN, guarded.array.length * sizeof *guarded.array.at); \
    } while (0)

/* Whether all bytes past so many entries are as they were painted. */
static bool painted(const void *at, size_t entry, size_t used, size_t length)
{
    const uint8_t *bytes = (const uint8_t *)at;
    for (size_t i = used * entry; i < length * entry; i++)
        if (bytes[i] != PATTERN)
            return false;
    return true;
}
#define PAINTED(array, used)                                                             \
    painted(guarded.array.at, sizeof *guarded.array.at, (used), guarded.array.length)
#define SAME(one, other, entries) (memcmp((one), (other), (entries) * sizeof *(one)) == 0)

/* ---- Sheets ---- */

typedef struct {
    uint8_t text[BYTES_MOST];
    uint16_t lengths[256];
    uint16_t columns[256];
    size_t lines, bytes;
} sheet;

static void add_line(sheet *to, const uint8_t *text, size_t bytes)
{
    memcpy(to->text + to->bytes, text, bytes);
    to->lengths[to->lines] = (uint16_t)bytes;
    to->columns[to->lines] = 0;
    to->lines++;
    to->bytes += bytes;
}

/* A text's lines; the last may lack its line feed. */
static sheet *sheet_of(const char *text, size_t bytes)
{
    static sheet made;
    made.lines = made.bytes = 0;
    for (size_t at = 0; at < bytes;) {
        const char *feed = (const char *)memchr(text + at, '\n', bytes - at);
        const size_t end = feed == NULL ? bytes : (size_t)(feed - text);
        add_line(&made, (const uint8_t *)text + at, end - at);
        at = end + 1;
    }
    return &made;
}

static sheet *sheet_of_string(const char *text)
{
    return sheet_of(text, strlen(text));
}

/* The sheet's arrays, each flush with a guard. */
static gridtable_drawing drawing_of(const sheet *of)
{
    gridtable_drawing d;
    d.lines = of->lines;
    d.bytes = of->bytes;
    d.lengths = (const uint16_t *)lent(given[0], of->lengths, of->lines * sizeof(uint16_t));
    d.columns = (const uint16_t *)lent(given[1], of->columns, of->lines * sizeof(uint16_t));
    d.text = (const uint8_t *)lent(given[2], of->text, of->bytes);
    return d;
}

static gridtable_source source_of(const sheet *of)
{
    static uint32_t numbers[256], table_bytes[256];
    gridtable_source source;
    for (size_t i = 0; i < of->lines; i++) {
        numbers[i] = (uint32_t)(10 + i);
        table_bytes[i] = 3;
    }
    source.drawing = drawing_of(of);
    source.numbers = (const uint32_t *)lent(given[3], numbers, of->lines * sizeof(uint32_t));
    source.table_bytes
        = (const uint32_t *)lent(given[4], table_bytes, of->lines * sizeof(uint32_t));
    return source;
}

/* The pages on both sides of a region can't be read: the system refuses to take a byte there. */
static void check_guards(void)
{
    int ends[2];
    const region one = regions.cell;
    CHECK(pipe(ends) == 0);
    CHECK(write(ends[1], one.start, 1) == 1);
    CHECK(write(ends[1], one.start + one.bytes - 1, 1) == 1);
    CHECK(write(ends[1], one.start - 1, 1) == -1);
    CHECK(write(ends[1], one.start + one.bytes, 1) == -1);
    close(ends[0]);
    close(ends[1]);
}

/* ---- Every call on a sheet, beside the same in plain memory ---- */

static gridtable_space plain;

static void check_layout(const sheet *of)
{
    const gridtable_layout_reply expected = gridtable_layout(drawing_of(of), &plain);
    gridtable_layout_reply reply = gridtable_layout(drawing_of(of), &guarded);
    CHECK(SAME(&reply, &expected, 1));
    CHECK(PAINTED(layout.columns, 2 * reply.columns) && PAINTED(layout.rows, 3 * reply.rows));
    CHECK(PAINTED(layout.cells, 5 * reply.cells) && PAINTED(layout.ranges, 2 * reply.ranges));
    CHECK(SAME(guarded.layout.columns.at, plain.layout.columns.at, 2 * reply.columns));
    CHECK(SAME(guarded.layout.rows.at, plain.layout.rows.at, 3 * reply.rows));
    CHECK(SAME(guarded.layout.cells.at, plain.layout.cells.at, 5 * reply.cells));
    CHECK(SAME(guarded.layout.ranges.at, plain.layout.ranges.at, 2 * reply.ranges));
    if (reply.number != GRIDTABLE_ACCEPTED)
        return;
    /* Outputs of just the result's length, then one short. */
    SET_LENGTH(layout.columns, 2 * reply.columns);
    SET_LENGTH(layout.rows, 3 * reply.rows);
    SET_LENGTH(layout.cells, 5 * reply.cells);
    SET_LENGTH(layout.ranges, 2 * reply.ranges);
    reply = gridtable_layout(drawing_of(of), &guarded);
    CHECK(SAME(&reply, &expected, 1));
    SET_LENGTH(layout.cells, 5 * reply.cells - 1);
    reply = gridtable_layout(drawing_of(of), &guarded);
    CHECK(reply.number == GRIDTABLE_OUTPUT_TOO_SHORT && reply.cells == 0);
    CHECK(PAINTED(layout.cells, 0));
}

static void check_cells(const sheet *of, size_t cells)
{
    for (size_t k = 0; k <= cells; k++) {
        const gridtable_cell_reply expected = gridtable_cell(drawing_of(of), k, &plain);
        SET_LENGTH(cell, 4 * expected.lines);
        const gridtable_cell_reply reply = gridtable_cell(drawing_of(of), k, &guarded);
        CHECK(SAME(&reply, &expected, 1));
        CHECK(SAME(guarded.cell.at, plain.cell.at, 4 * reply.lines));
        CHECK((reply.number == GRIDTABLE_ARGUMENTS_CONTRADICT) == (k == cells));
    }
}

static void check_positions(const sheet *of)
{
    const gridtable_positions_reply expected = gridtable_positions(source_of(of), &plain);
    SET_LENGTH(positions.rows, 4 * expected.rows);
    SET_LENGTH(positions.cells, 4 * expected.cells);
    const gridtable_positions_reply reply = gridtable_positions(source_of(of), &guarded);
    CHECK(reply.number == expected.number && reply.place == expected.place);
    CHECK(reply.end_line == expected.end_line && reply.end_column == expected.end_column);
    CHECK(SAME(guarded.positions.rows.at, plain.positions.rows.at, 4 * reply.rows));
    CHECK(SAME(guarded.positions.cells.at, plain.positions.cells.at, 4 * reply.cells));
    for (size_t k = 0; k < reply.cells; k++) {
        const gridtable_cell_position_reply one
            = gridtable_cell_position(source_of(of), k, &guarded);
        const uint32_t *position = guarded.positions.cells.at + 4 * k;
        CHECK(one.number == GRIDTABLE_ACCEPTED);
        CHECK(one.start_line == position[0] && one.start_column == position[1]);
        CHECK(one.end_line == position[2] && one.end_column == position[3]);
    }
    CHECK(gridtable_cell_position(source_of(of), reply.cells, &guarded).number != 0);
}

/* The table that was read into plain memory, each array flush with a guard. */
static gridtable_table table_of(gridtable_table_reply read)
{
    gridtable_table t = gridtable_table_read(read, &plain);
    t.column_entries = (const uint16_t *)lent(given[0], t.column_entries, 4 * t.columns);
    t.sections = (const uint8_t *)lent(given[1], t.sections, t.rows);
    t.cell_entries = (const uint16_t *)lent(given[2], t.cell_entries, 10 * t.cells);
    t.lengths = (const uint16_t *)lent(given[3], t.lengths, 2 * t.lines);
    t.text = (const uint8_t *)lent(given[4], t.text, t.bytes);
    return t;
}

/* A page whose cells' inner bytes are their lines, one after the other. */
static void check_page(gridtable_table_reply read)
{
    gridtable_table t = gridtable_table_read(read, &plain);
    static uint16_t cells[5 * 1024];
    size_t line = 0;
    for (size_t k = 0; k < t.cells; k++) {
        size_t bytes = 0;
        memcpy(cells + 5 * k, t.cell_entries + 5 * k, 5 * sizeof *cells);
        for (size_t i = 0; i < cells[5 * k + 4]; i++)
            bytes += t.lengths[line++];
        cells[5 * k + 4] = (uint16_t)bytes;
    }
    t = table_of(read);
    t.cell_entries = (const uint16_t *)lent(given[2], cells, 10 * t.cells);
    gridtable_u8s out = { (uint8_t *)page_region.start, page_region.bytes };
    const gridtable_page_reply page = gridtable_page(t, true, out);
    CHECK(page.number == GRIDTABLE_ACCEPTED && memcmp(out.at, "<table>\n", 8) == 0);
    out.length = page.bytes;
    out.at = (uint8_t *)flush(page_region, out.length);
    CHECK(gridtable_page(t, true, out).bytes == page.bytes);
    CHECK(memcmp(out.at + out.length - 9, "</table>\n", 9) == 0);
    out.length--;
    out.at = (uint8_t *)flush(page_region, out.length);
    memset(out.at, PATTERN, out.length);
    CHECK(gridtable_page(t, true, out).number == GRIDTABLE_OUTPUT_TOO_SHORT);
    CHECK(painted(out.at, 1, 0, out.length));
}

/* Reading, redraw and both in one; true where it was redrawn. */
static bool check_redraw(const sheet *of, size_t origin)
{
    gridtable_table_reply read = gridtable_read(drawing_of(of), &plain);
    const gridtable_table_reply guarded_read = gridtable_read(drawing_of(of), &guarded);
    CHECK(SAME(&read, &guarded_read, 1));
    CHECK(PAINTED(table.columns, 2 * read.columns) && PAINTED(table.sections, read.rows));
    CHECK(PAINTED(table.cells, 5 * read.cells) && PAINTED(table.lengths, read.lines));
    CHECK(PAINTED(table.text, read.bytes));
    CHECK(SAME(guarded.table.columns.at, plain.table.columns.at, 2 * read.columns));
    CHECK(SAME(guarded.table.cells.at, plain.table.cells.at, 5 * read.cells));
    CHECK(SAME(guarded.table.lengths.at, plain.table.lengths.at, read.lines));
    CHECK(SAME(guarded.table.text.at, plain.table.text.at, read.bytes));
    gridtable_sheet_reply sheet_reply = gridtable_redraw_sheet(drawing_of(of), origin, &guarded);
    if (read.number != GRIDTABLE_ACCEPTED) {
        CHECK(sheet_reply.step == 1 && sheet_reply.number == read.number);
        CHECK(PAINTED(drawn.text, 0) && PAINTED(drawn.lengths, 0) && PAINTED(drawn.columns, 0));
        return false;
    }
    check_page(read);
    const gridtable_redraw_reply expected
        = gridtable_redraw(gridtable_table_read(read, &plain), origin, &plain);
    CHECK(sheet_reply.number == expected.number && sheet_reply.place == expected.place);
    CHECK(sheet_reply.step == (expected.number == GRIDTABLE_ACCEPTED ? 0u : 2u));
    SET_LENGTH(drawn.lengths, expected.lines);
    SET_LENGTH(drawn.columns, expected.lines);
    SET_LENGTH(drawn.text, expected.bytes);
    const gridtable_redraw_reply reply = gridtable_redraw(table_of(read), origin, &guarded);
    CHECK(SAME(&reply, &expected, 1));
    CHECK(SAME(guarded.drawn.lengths.at, plain.drawn.lengths.at, reply.lines));
    CHECK(SAME(guarded.drawn.columns.at, plain.drawn.columns.at, reply.lines));
    CHECK(SAME(guarded.drawn.text.at, plain.drawn.text.at, reply.bytes));
    if (reply.number != GRIDTABLE_ACCEPTED)
        return false;
    SET_LENGTH(drawn.text, expected.bytes - 1);
    CHECK(gridtable_redraw(table_of(read), origin, &guarded).number == GRIDTABLE_OUTPUT_TOO_SHORT);
    sheet_reply = gridtable_redraw_sheet(drawing_of(of), origin, &guarded);
    CHECK(sheet_reply.step == 2 && sheet_reply.number == GRIDTABLE_OUTPUT_TOO_SHORT);
    CHECK(PAINTED(drawn.text, 0));
    /* What was drawn reads back with as many columns, rows, cells, lines and bytes. */
    const gridtable_drawing drawn = gridtable_drawn(reply.lines, reply.bytes, &plain);
    CHECK(gridtable_redraw_sheet(drawn, origin, &plain).number == GRIDTABLE_ARGUMENTS_CONTRADICT);
    const gridtable_table_reply again = gridtable_read(drawn, &plain);
    CHECK(SAME(&again, &read, 1));
    return true;
}

static void check_sheet(const sheet *of, size_t origin)
{
    place_space();
    check_layout(of);
    const size_t cells = gridtable_layout(drawing_of(of), &plain).cells;
    check_positions(of);
    if (cells > 0)
        check_cells(of, cells);
    place_space();
    sheets++;
    redrawn += check_redraw(of, origin);
}

/* ---- Files: a sheet, and what it redraws as ---- */

static size_t file(const char *name, char *text)
{
    FILE *from = fopen(name, "rb");
    if (from == NULL) {
        perror(name);
        exit(2);
    }
    const size_t bytes = fread(text, 1, BYTES_MOST, from);
    fclose(from);
    return bytes;
}

static void check_file(const char *name, const char *redrawn)
{
    static char text[BYTES_MOST], expected[BYTES_MOST], drawn[2 * BYTES_MOST];
    const sheet *of = sheet_of(text, file(name, text));
    check_sheet(of, 0);
    place_space();
    const gridtable_sheet_reply reply = gridtable_redraw_sheet(drawing_of(of), 0, &guarded);
    CHECK(reply.number == GRIDTABLE_ACCEPTED);
    size_t bytes = 0, at = 0;
    for (size_t i = 0; i < reply.lines; i++) {
        const size_t length = guarded.drawn.lengths.at[i];
        CHECK(guarded.drawn.columns.at[i] == 0);
        memcpy(drawn + bytes, guarded.drawn.text.at + at, length);
        drawn[bytes + length] = '\n';
        bytes += length + 1;
        at += length;
    }
    CHECK(file(redrawn, expected) == bytes && memcmp(drawn, expected, bytes) == 0);
}

/* ---- Random small sheets of signs ---- */

static uint64_t seed = 88172645463325252u;

static size_t below(size_t n)
{
    seed ^= seed << 13;
    seed ^= seed >> 7;
    seed ^= seed << 17;
    return (size_t)(seed % n);
}

static void check_random(void)
{
    static const char *const rows[]
        = { "+-+-+-+", "+-----+", "+=+=+=+", "|a|b|c|", "|  |  |", "| a +-+", "+-+ b |", "+:---:+",
              "|\t|  |", "| \xCC\x81 | |", "\xE2\x82\xAC", "| \xE4\xB8\xAD  |", "" };
    static sheet made;
    const size_t lines = 1 + below(7);
    made.lines = made.bytes = 0;
    for (size_t i = 0; i < lines; i++) {
        const char *row = i == 0 && below(8) > 0 ? rows[below(2)] : rows[below(13)];
        if (i > 0 && i + 1 == lines && below(4) > 0)
            row = rows[0];
        add_line(&made, (const uint8_t *)row, strlen(row));
    }
    check_sheet(&made, below(4) == 0 ? 255 : 0);
}

/* ---- Every refusal ---- */

static size_t reading_refuses(const char *text)
{
    place_space();
    const gridtable_layout_reply reply = gridtable_layout(drawing_of(sheet_of_string(text)), &guarded);
    CHECK(PAINTED(layout.columns, 0) && PAINTED(layout.rows, 0) && PAINTED(layout.cells, 0));
    return reply.number;
}

/* One column of declared width 1 and one row, with one cell and its line. */
static size_t redraw_refuses(uint8_t section, uint16_t colspan, const char *line)
{
    const uint16_t columns[] = { GRIDTABLE_NONE, 1 };
    const uint16_t cells[] = { 0, 0, colspan, 1, 1 };
    const uint16_t lengths[] = { (uint16_t)strlen(line) };
    gridtable_table t;
    t.columns = t.rows = t.cells = t.lines = 1;
    t.bytes = lengths[0];
    t.column_entries = (const uint16_t *)lent(given[0], columns, sizeof columns);
    t.sections = (const uint8_t *)lent(given[1], &section, 1);
    t.cell_entries = (const uint16_t *)lent(given[2], cells, sizeof cells);
    t.lengths = (const uint16_t *)lent(given[3], lengths, sizeof lengths);
    t.text = (const uint8_t *)lent(given[4], line, t.bytes);
    place_space();
    return gridtable_redraw(t, 0, &guarded).number;
}

static void check_reading_refusals(void)
{
    static char many[2 * 129 * 128];
    gridtable_drawing none = { 0, 0, NULL, NULL, NULL };
    CHECK(reading_refuses("") == GRIDTABLE_EMPTY);
    place_space();
    CHECK(gridtable_layout(none, &guarded).number == GRIDTABLE_EMPTY);
    CHECK(gridtable_redraw_sheet(none, 0, &guarded).number == GRIDTABLE_EMPTY);
    size_t at = 0;
    for (size_t i = 0; i < 129; i++, at += 4)
        memcpy(many + at, "+-+\n", 5);
    CHECK(reading_refuses(many) == GRIDTABLE_LIMIT_PASSED);
    CHECK(reading_refuses("+-+\n|\xFF|\n+-+") == GRIDTABLE_CHARACTER_OUTSIDE_SET);
    CHECK(reading_refuses("x") == GRIDTABLE_FIRST_LINE_NO_BORDER);
    CHECK(reading_refuses("+-+\n|") == GRIDTABLE_LINE_SHORTER_OR_WIDER);
    CHECK(reading_refuses("+") == GRIDTABLE_NOT_PARTED_INTO_CELLS);
    at = 0;
    for (size_t line = 0; line < 67; line++) {
        for (size_t i = 0; i < 32; i++, at += 2)
            memcpy(many + at, line % 2 == 0 ? "+-" : "| ", 2);
        memcpy(many + at, line % 2 == 0 ? "+\n" : "|\n", 3);
        at += 2;
    }
    CHECK(reading_refuses(many) == GRIDTABLE_TOO_MANY_CELLS);
    gridtable_drawing wrong = drawing_of(sheet_of_string("+-+\n+-+"));
    wrong.bytes--;
    CHECK(gridtable_layout(wrong, &guarded).number == GRIDTABLE_ARGUMENTS_CONTRADICT);
}

static void check_redraw_refusals(void)
{
    CHECK(redraw_refuses(GRIDTABLE_BODY, 1, "ab") == GRIDTABLE_ACCEPTED);
    CHECK(redraw_refuses(GRIDTABLE_BODY, 0, "ab") == GRIDTABLE_GRID_RULE_BROKEN);
    CHECK(redraw_refuses(GRIDTABLE_FOOT, 1, "ab") == GRIDTABLE_FOOT_WITHOUT_HEAD);
    CHECK(redraw_refuses(3, 1, "ab") == GRIDTABLE_ARGUMENTS_CONTRADICT);
    CHECK(redraw_refuses(GRIDTABLE_BODY, 1, "\r") == GRIDTABLE_CHARACTER_OUTSIDE_SET);
    /* Two columns, the second aligned and hidden under a cell over both. */
    const uint16_t columns[] = { GRIDTABLE_NONE, 1, GRIDTABLE_LEFT, 1 };
    const uint16_t cells[] = { 0, 0, 2, 1, 0, 1, 0, 1, 1, 0, 1, 1, 1, 1, 0 };
    const uint8_t sections[] = { GRIDTABLE_BODY, GRIDTABLE_BODY };
    gridtable_table hidden = { 2, 2, 3, 0, 0, NULL, NULL, NULL, NULL, NULL };
    hidden.column_entries = (const uint16_t *)lent(given[0], columns, sizeof columns);
    hidden.sections = (const uint8_t *)lent(given[1], sections, sizeof sections);
    hidden.cell_entries = (const uint16_t *)lent(given[2], cells, sizeof cells);
    place_space();
    const gridtable_redraw_reply reply = gridtable_redraw(hidden, 0, &guarded);
    CHECK(reply.number == GRIDTABLE_ALIGNED_COLUMN_WITHOUT_CORNER && reply.place == 1);
    const char *split = "+---+---+\n| a | b |\n+---+---+\n|xx|y   |\n+---+---+\n| c | d |\n+---+---+";
    place_space();
    const gridtable_sheet_reply sheet_reply
        = gridtable_redraw_sheet(drawing_of(sheet_of_string(split)), 0, &guarded);
    CHECK(sheet_reply.step == 2 && sheet_reply.number == GRIDTABLE_CELL_WOULD_SPLIT);
    CHECK(sheet_reply.place == 2);
}

/* Each array of working space one entry short, with a guard behind it. */
static void check_short_spaces(void)
{
    const sheet *of = sheet_of_string("+-+\n|a|\n+-+");
#define SHORT(array)                                                                            \
    place_space();                                                                              \
    SET_LENGTH(array, guarded.array.length - 1);                                                \
    CHECK(gridtable_redraw_sheet(drawing_of(of), 0, &guarded).number == GRIDTABLE_ARGUMENTS_CONTRADICT);
    SHORT(reading.glyphs)
    SHORT(reading.offsets)
    SHORT(reading.down)
    SHORT(reading.right)
    SHORT(reading.rects)
    SHORT(reading.starts)
    SHORT(reading.counts)
    SHORT(drawing.starts)
    SHORT(drawing.ends)
    SHORT(drawing.firsts)
    SHORT(drawing.heights)
    SHORT(drawing.wides)
    SHORT(drawing.rects)
    SHORT(drawing.canvas)
#undef SHORT
    place_space();
    CHECK(gridtable_redraw_sheet(drawing_of(of), 0, &guarded).number == GRIDTABLE_ACCEPTED);
}

/* ---- Lines, line ends and shares ---- */

static void check_lines(void)
{
    static const struct {
        const char *text;
        bool rule;
        size_t trimmed;
    } cases[] = { { "", false, 0 }, { "+", true, 1 }, { "+--+", true, 4 }, { "+:-:+", true, 5 },
        { "+::+", false, 4 }, { "++", false, 2 }, { "+-+ \t", false, 3 }, { "+=+", false, 3 },
        { " \t ", false, 0 }, { "+-", false, 2 } };
    for (size_t i = 0; i < sizeof cases / sizeof cases[0]; i++) {
        const size_t bytes = strlen(cases[i].text);
        const uint8_t *text = (const uint8_t *)lent(given[0], cases[i].text, bytes);
        CHECK(gridtable_is_rule(text, bytes, '-') == cases[i].rule);
        CHECK(gridtable_trim_end(text, bytes) == cases[i].trimmed);
    }
    gridtable_cut cut = { NULL, 5, 0, 7, 2, 1, 4, 0 };
    cut.text = (const uint8_t *)lent(given[0], "| a |", 5);
    gridtable_cut_reply reply = gridtable_cell_fragment(cut);
    CHECK(reply.number == GRIDTABLE_ACCEPTED && reply.start == 2 && reply.end == 3);
    CHECK(reply.line == 7 && reply.byte == 4 && reply.column == 2);
    cut.end = 6;
    CHECK(gridtable_cell_fragment(cut).number == GRIDTABLE_ARGUMENTS_CONTRADICT);
    cut.end = 4;
    cut.left = 128;
    CHECK(gridtable_cell_fragment(cut).number == GRIDTABLE_LIMIT_PASSED);
    CHECK(gridtable_share(1, 3).hundredths == 3333 && gridtable_share(2, 3).hundredths == 6667);
    CHECK(gridtable_share(1, 0).hundredths == 0 && gridtable_share(1, 8).percent > 12.4);
}

static gridtable_line_end line_end(uint32_t line, uint32_t start, uint32_t eol)
{
    gridtable_line_end end;
    end.line = line;
    end.start = start;
    end.eol = eol;
    return end;
}

static void check_ends(void)
{
    const size_t room = grid_register_room(), bytes = room * sizeof(uint32_t);
    gridtable_register ends;
    ends.count = 0;
    ends.lines.at = (uint32_t *)flush(ends_regions[0], bytes);
    ends.starts.at = (uint32_t *)flush(ends_regions[1], bytes);
    ends.eols.at = (uint32_t *)flush(ends_regions[2], bytes);
    ends.lines.length = ends.starts.length = ends.eols.length = room;
    ends.memory = NULL;
    CHECK(gridtable_add_line_end(&ends, line_end(0, 1, 1)).number == GRIDTABLE_ARGUMENTS_CONTRADICT);
    CHECK(gridtable_add_line_end(&ends, line_end(65536, 1, 1)).number == GRIDTABLE_LIMIT_PASSED);
    CHECK(ends.count == 0);
    for (size_t i = 1; i <= room; i++)
        CHECK(gridtable_add_line_end(&ends, line_end(1, (uint32_t)i, (uint32_t)i + 1)).count == i);
    CHECK(gridtable_add_line_end(&ends, line_end(1, 1, 1)).number == GRIDTABLE_REGISTER_FULL);
    CHECK(ends.count == room);
    gridtable_find_reply found = gridtable_find_line_end(&ends, 1, 7);
    CHECK(found.found == 1 && found.eol == 8);
    CHECK(gridtable_find_line_end(&ends, 2, 7).found == 0);
    CHECK(gridtable_find_line_end(&ends, 0, 7).number == GRIDTABLE_ARGUMENTS_CONTRADICT);
    const uint32_t lines[] = { 9, 3 }, places[] = { 10, 65535 };
    gridtable_fragments fragments = { 2, NULL, NULL };
    fragments.lines = (const uint32_t *)lent(given[0], lines, sizeof lines);
    fragments.bytes = (const uint32_t *)lent(given[1], places, sizeof places);
    const gridtable_remap_reply moved = gridtable_remap_line_end(fragments, line_end(1, 2, 3));
    CHECK(moved.line == 9 && moved.start == 12 && moved.eol == 13);
    CHECK(gridtable_remap_line_end(fragments, line_end(2, 1, 1)).number == GRIDTABLE_LIMIT_PASSED);
    CHECK(gridtable_remap_line_end(fragments, line_end(3, 1, 1)).number
        == GRIDTABLE_ARGUMENTS_CONTRADICT);
    gridtable_register made = gridtable_register_new();
    CHECK(made.memory != NULL && gridtable_add_line_end(&made, line_end(1, 2, 9)).count == 1);
    CHECK(gridtable_find_line_end(&made, 1, 9).eol == 9);
    gridtable_register_free(&made);
}

int main(int count, char **arguments)
{
    size_t random = 10000;
    int first = 1;
    if (count > 2 && strcmp(arguments[1], "-n") == 0) {
        random = (size_t)strtoul(arguments[2], NULL, 10);
        first = 3;
    }
    plain = gridtable_space_new();
    CHECK(plain.memory != NULL);
    make_regions();
    /* valgrind, which has fewer sheets, would report the bytes asked for. */
    if (first == 1)
        check_guards();
    for (int s = 0; s < 2; s++) {
        side = s == 0 ? LEFT_FLUSH : RIGHT_FLUSH;
        for (int i = first; i + 1 < count; i += 2)
            check_file(arguments[i], arguments[i + 1]);
        for (size_t i = 0; i < random; i++)
            check_random();
        check_reading_refusals();
        check_redraw_refusals();
        check_short_spaces();
        check_lines();
        check_ends();
    }
    for (size_t number = 0; number <= 14; number++)
        CHECK(strlen(gridtable_words(number)) > 0);
    gridtable_space_free(&plain);
    printf("header: %zu sheets, %zu of them redrawn; %zu checks, %zu failed\n", sheets, redrawn,
        checks, failures);
    return failures > 0;
}
