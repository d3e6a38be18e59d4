/* Grid tables for C11 and C++, over libgridtable.a.
 *
 *     gridtable_space space = gridtable_space_new();
 *     gridtable_sheet_reply reply = gridtable_redraw_sheet(drawing, 0, &space);
 *     if (reply.number == 0)
 *         use(gridtable_drawn(reply.lines, reply.bytes, &space));
 *     gridtable_space_free(&space);
 *
 * Arrays stand in structs by their names, so that no two can be exchanged, and each has the
 * length that the archive says. What is written to a space stays there until a call that
 * writes to the same arrays. A space serves one thread at a time.
 *
 * The functions `gridtable_...` are inline and pass on to the archive's `grid_...`. They ask
 * that the pointers given are valid and aligned for the lengths given (null where that is 0
 * does too), and that nothing given stands in what is written.
 */
#ifndef GRIDTABLE_H
#define GRIDTABLE_H

#include <stdbool.h>
#include <stddef.h>
#include <stdint.h>
#include <stdlib.h>

#ifdef __cplusplus
extern "C" {
#endif

/* ---- Numbers that stand for a case ---- */

enum gridtable_alignment {
    GRIDTABLE_NONE = 0,
    GRIDTABLE_LEFT = 1,
    GRIDTABLE_RIGHT = 2,
    GRIDTABLE_CENTER = 3
};

enum gridtable_section { GRIDTABLE_HEAD = 0, GRIDTABLE_BODY = 1, GRIDTABLE_FOOT = 2 };

/* Refusals by their names; 0 is acceptance. */
enum gridtable_refusal {
    GRIDTABLE_ACCEPTED = 0,
    GRIDTABLE_EMPTY = 1,
    GRIDTABLE_LIMIT_PASSED = 2,
    GRIDTABLE_CHARACTER_OUTSIDE_SET = 3,
    GRIDTABLE_FIRST_LINE_NO_BORDER = 4,
    GRIDTABLE_LINE_SHORTER_OR_WIDER = 5,
    GRIDTABLE_NOT_PARTED_INTO_CELLS = 6,
    GRIDTABLE_TOO_MANY_CELLS = 7,
    GRIDTABLE_GRID_RULE_BROKEN = 8,
    GRIDTABLE_FOOT_WITHOUT_HEAD = 9,
    GRIDTABLE_ALIGNED_COLUMN_WITHOUT_CORNER = 10,
    GRIDTABLE_CELL_WOULD_SPLIT = 11,
    GRIDTABLE_OUTPUT_TOO_SHORT = 12,
    GRIDTABLE_ARGUMENTS_CONTRADICT = 13,
    GRIDTABLE_REGISTER_FULL = 14
};

/* A refusal in words. */
static inline const char *gridtable_words(size_t number)
{
    static const char *const words[] = {
        "accepted",
        "the drawing has no lines, or the table no columns, rows or cells",
        "a limit is passed",
        "a line is not UTF-8, or has a character outside the set",
        "the first line is no border",
        "a line is shorter or wider than the first one",
        "the borders do not part the drawing into cells",
        "a 1,025th cell was found",
        "the table breaks a grid rule",
        "the table has a Foot row and no Head row",
        "an aligned column has no corner on the line that shows alignments",
        "a cell's text would be read as a border, and the cell would split",
        "the output space is too short for the result",
        "the arguments contradict each other",
        "the register of line ends is full",
    };
    return number < sizeof words / sizeof words[0] ? words[number] : "no refusal";
}

/* ---- Replies: number 0 is acceptance; a refusal has its number and place, and 0 for the rest ---- */

/* The width, and how many columns, rows, cells and ranges were written. */
typedef struct {
    size_t number;
    size_t place;
    size_t width;
    size_t columns;
    size_t rows;
    size_t cells;
    size_t ranges;
} gridtable_layout_reply;

/* The cut text is the part of the line from `start` to `end`, with its line, byte and column. */
typedef struct {
    size_t number;
    size_t place;
    size_t start;
    size_t end;
    size_t line;
    size_t byte;
    size_t column;
} gridtable_cut_reply;

/* How many columns, rows, cells, lines and bytes were written. */
typedef struct {
    size_t number;
    size_t place;
    size_t columns;
    size_t rows;
    size_t cells;
    size_t lines;
    size_t bytes;
} gridtable_table_reply;

/* How many cut lines were written: line, start, end and column of each. */
typedef struct {
    size_t number;
    size_t place;
    size_t lines;
} gridtable_cell_reply;

/* How many lines and bytes were drawn. */
typedef struct {
    size_t number;
    size_t place;
    size_t lines;
    size_t bytes;
} gridtable_redraw_reply;

/* Step 1 is a refusal by reading, 2 one by redraw. */
typedef struct {
    size_t step;
    size_t number;
    size_t place;
    size_t lines;
    size_t bytes;
} gridtable_sheet_reply;

/* The table's position, and how many rows and cells were written. */
typedef struct {
    size_t number;
    size_t place;
    uint32_t start_line;
    uint32_t start_column;
    uint32_t end_line;
    uint32_t end_column;
    size_t rows;
    size_t cells;
} gridtable_positions_reply;

/* The cell's position. */
typedef struct {
    size_t number;
    size_t place;
    uint32_t start_line;
    uint32_t start_column;
    uint32_t end_line;
    uint32_t end_column;
} gridtable_cell_position_reply;

/* How many ends the register holds. */
typedef struct {
    size_t number;
    size_t place;
    size_t count;
} gridtable_add_reply;

/* `found` is 1, and `eol` that of the end; or both are 0. */
typedef struct {
    size_t number;
    size_t place;
    size_t found;
    uint32_t eol;
} gridtable_find_reply;

/* The end as it was moved. */
typedef struct {
    size_t number;
    size_t place;
    uint32_t line;
    uint32_t start;
    uint32_t eol;
} gridtable_remap_reply;

/* How many bytes the page has. */
typedef struct {
    size_t number;
    size_t place;
    size_t bytes;
} gridtable_page_reply;

/* A share in hundredths of a percent, and their quotient by 100. */
typedef struct {
    uint32_t hundredths;
    double percent;
} gridtable_share_reply;

/* ---- Sizes, in entries, as the archive says them ---- */

/* Working space of reading. */
typedef struct {
    size_t glyphs;
    size_t offsets;
    size_t down;
    size_t right;
    size_t rects;
    size_t starts;
    size_t counts;
} gridtable_reading_space;

/* Working space of redraw. */
typedef struct {
    size_t starts;
    size_t ends;
    size_t firsts;
    size_t heights;
    size_t wides;
    size_t rects;
    size_t canvas;
} gridtable_drawing_space;

/* What a layout is written to. */
typedef struct {
    size_t columns;
    size_t rows;
    size_t cells;
    size_t ranges;
} gridtable_layout_room;

/* What a table is written to. */
typedef struct {
    size_t columns;
    size_t sections;
    size_t cells;
    size_t lengths;
    size_t text;
} gridtable_table_room;

/* What a drawing is written to. */
typedef struct {
    size_t lengths;
    size_t columns;
    size_t text;
} gridtable_drawing_room;

/* What positions are written to. */
typedef struct {
    size_t rows;
    size_t cells;
} gridtable_positions_room;

/* ---- The archive's calls: a slice is a pointer and a length ---- */

gridtable_reading_space grid_reading_space(void);
gridtable_drawing_space grid_drawing_space(void);
gridtable_layout_room grid_layout_room(void);
gridtable_table_room grid_table_room(void);
gridtable_drawing_room grid_drawing_room(void);
gridtable_positions_room grid_positions_room(void);
size_t grid_cell_room(void);
size_t grid_register_room(void);
bool grid_is_rule(const uint8_t *text, size_t text_len, uint8_t fill);
size_t grid_trim_end(const uint8_t *text, size_t text_len);
gridtable_cell_reply grid_cell(size_t lines, size_t bytes,
    const uint16_t *lengths, size_t lengths_len, const uint16_t *columns, size_t columns_len,
    const uint8_t *text, size_t text_len, uint8_t *glyphs, size_t glyphs_len,
    uint16_t *offsets, size_t offsets_len, uint8_t *down, size_t down_len,
    uint8_t *right, size_t right_len, uint8_t *rects, size_t rects_len,
    uint16_t *starts, size_t starts_len, size_t k, uint16_t *out, size_t out_len);
gridtable_cut_reply grid_cell_fragment(const uint8_t *text, size_t text_len, size_t column,
    size_t line, size_t table_byte, size_t start, size_t end, size_t left);
gridtable_layout_reply grid_layout(size_t lines, size_t bytes,
    const uint16_t *lengths, size_t lengths_len, const uint16_t *columns, size_t columns_len,
    const uint8_t *text, size_t text_len, uint8_t *glyphs, size_t glyphs_len,
    uint16_t *offsets, size_t offsets_len, uint8_t *down, size_t down_len,
    uint8_t *right, size_t right_len, uint8_t *rects, size_t rects_len,
    uint16_t *cols, size_t cols_len, uint16_t *rows, size_t rows_len,
    uint16_t *cells, size_t cells_len, uint16_t *ranges, size_t ranges_len);
gridtable_page_reply grid_page(bool widths, size_t columns, size_t rows, size_t cells,
    size_t bytes, const uint16_t *cols, size_t cols_len,
    const uint8_t *sections, size_t sections_len,
    const uint16_t *cell_numbers, size_t cell_numbers_len, const uint8_t *inner, size_t inner_len,
    uint8_t *out, size_t out_len);
gridtable_share_reply grid_share(uint16_t width, uint32_t total);
gridtable_redraw_reply grid_redraw(size_t origin, size_t columns, size_t rows, size_t cells,
    size_t lines, size_t bytes, const uint16_t *cols, size_t cols_len,
    const uint8_t *sections, size_t sections_len,
    const uint16_t *cell_numbers, size_t cell_numbers_len,
    const uint16_t *lengths, size_t lengths_len, const uint8_t *text, size_t text_len,
    uint16_t *starts, size_t starts_len, uint16_t *ends, size_t ends_len,
    uint16_t *firsts, size_t firsts_len, uint16_t *heights, size_t heights_len,
    uint16_t *wides, size_t wides_len, uint8_t *rects, size_t rects_len,
    uint16_t *canvas, size_t canvas_len, uint16_t *out_lengths, size_t out_lengths_len,
    uint16_t *out_columns, size_t out_columns_len, uint8_t *out_text, size_t out_text_len);
gridtable_add_reply grid_add_line_end(size_t count, uint32_t *lines, size_t lines_len,
    uint32_t *starts, size_t starts_len, uint32_t *eols, size_t eols_len, uint32_t line,
    uint32_t start, uint32_t eol);
gridtable_find_reply grid_find_line_end(size_t count, const uint32_t *lines, size_t lines_len,
    const uint32_t *starts, size_t starts_len, const uint32_t *eols, size_t eols_len,
    uint32_t line, uint32_t column);
gridtable_remap_reply grid_remap_line_end(size_t count, const uint32_t *lines, size_t lines_len,
    const uint32_t *bytes, size_t bytes_len, uint32_t line, uint32_t start, uint32_t eol);
gridtable_sheet_reply grid_redraw_sheet(size_t origin, size_t lines, size_t bytes,
    const uint16_t *lengths, size_t lengths_len, const uint16_t *columns, size_t columns_len,
    const uint8_t *text, size_t text_len, uint8_t *glyphs, size_t glyphs_len,
    uint16_t *offsets, size_t offsets_len, uint8_t *down, size_t down_len,
    uint8_t *right, size_t right_len, uint8_t *rects, size_t rects_len,
    uint16_t *starts, size_t starts_len, uint8_t *counts, size_t counts_len,
    uint16_t *cols, size_t cols_len, uint8_t *sections, size_t sections_len,
    uint16_t *cells, size_t cells_len, uint16_t *table_lengths, size_t table_lengths_len,
    uint8_t *table_text, size_t table_text_len, uint16_t *line_starts, size_t line_starts_len,
    uint16_t *line_ends, size_t line_ends_len, uint16_t *firsts, size_t firsts_len,
    uint16_t *heights, size_t heights_len, uint16_t *wides, size_t wides_len,
    uint8_t *frames, size_t frames_len, uint16_t *canvas, size_t canvas_len,
    uint16_t *out_lengths, size_t out_lengths_len, uint16_t *out_columns, size_t out_columns_len,
    uint8_t *out_text, size_t out_text_len);
gridtable_positions_reply grid_positions(size_t lines, size_t bytes,
    const uint16_t *lengths, size_t lengths_len, const uint16_t *columns, size_t columns_len,
    const uint8_t *text, size_t text_len, const uint32_t *numbers, size_t numbers_len,
    const uint32_t *table_bytes, size_t table_bytes_len, uint8_t *glyphs, size_t glyphs_len,
    uint16_t *offsets, size_t offsets_len, uint8_t *down, size_t down_len,
    uint8_t *right, size_t right_len, uint8_t *rects, size_t rects_len,
    uint16_t *starts, size_t starts_len, uint32_t *row_positions, size_t row_positions_len,
    uint32_t *cell_positions, size_t cell_positions_len);
gridtable_cell_position_reply grid_cell_position(size_t lines, size_t bytes,
    const uint16_t *lengths, size_t lengths_len, const uint16_t *columns, size_t columns_len,
    const uint8_t *text, size_t text_len, const uint32_t *numbers, size_t numbers_len,
    const uint32_t *table_bytes, size_t table_bytes_len, uint8_t *glyphs, size_t glyphs_len,
    uint16_t *offsets, size_t offsets_len, uint8_t *down, size_t down_len,
    uint8_t *right, size_t right_len, uint8_t *rects, size_t rects_len,
    uint16_t *starts, size_t starts_len, size_t k);
gridtable_table_reply grid_table(size_t lines, size_t bytes,
    const uint16_t *lengths, size_t lengths_len, const uint16_t *columns, size_t columns_len,
    const uint8_t *text, size_t text_len, uint8_t *glyphs, size_t glyphs_len,
    uint16_t *offsets, size_t offsets_len, uint8_t *down, size_t down_len,
    uint8_t *right, size_t right_len, uint8_t *rects, size_t rects_len,
    uint16_t *starts, size_t starts_len, uint8_t *counts, size_t counts_len,
    uint16_t *cols, size_t cols_len, uint8_t *sections, size_t sections_len,
    uint16_t *cells, size_t cells_len, uint16_t *out_lengths, size_t out_lengths_len,
    uint8_t *out_text, size_t out_text_len);

/* ---- What is handed in ---- */

/* A drawing: its lines back to back, without line ends. */
typedef struct {
    size_t lines;
    size_t bytes;
    const uint16_t *lengths; /* bytes of each line */
    const uint16_t *columns; /* the column at which each line starts, 0 to 255 */
    const uint8_t *text;
} gridtable_drawing;

/* A drawing with the place of its lines in a document. */
typedef struct {
    gridtable_drawing drawing;
    const uint32_t *numbers;     /* of each line */
    const uint32_t *table_bytes; /* the byte of its line at which each one starts */
} gridtable_source;

/* A table. For a page `text` has the cells' inner bytes, the last entry of a cell is the number
 * of its inner bytes, and `lines` and `lengths` are not looked at. */
typedef struct {
    size_t columns;
    size_t rows;
    size_t cells;
    size_t lines;
    size_t bytes;
    const uint16_t *column_entries; /* alignment, declared width */
    const uint8_t *sections;        /* of each row */
    const uint16_t *cell_entries;   /* row, column, colspan, rowspan, number of lines */
    const uint16_t *lengths;        /* bytes of each line, over all cells */
    const uint8_t *text;            /* the lines, back to back */
} gridtable_table;

/* One line to cut: a range of it, in a cell with this left column. */
typedef struct {
    const uint8_t *text;
    size_t bytes;
    size_t column;
    size_t line;
    size_t table_byte;
    size_t start;
    size_t end;
    size_t left;
} gridtable_cut;

/* A line's end: its line, first column and the column of its end. */
typedef struct {
    uint32_t line;
    uint32_t start;
    uint32_t eol;
} gridtable_line_end;

/* Line and byte of each of the fragments that a text was put together from. */
typedef struct {
    size_t count;
    const uint32_t *lines;
    const uint32_t *bytes;
} gridtable_fragments;

/* ---- What is lent ---- */

typedef struct {
    uint8_t *at;
    size_t length;
} gridtable_u8s;

typedef struct {
    uint16_t *at;
    size_t length;
} gridtable_u16s;

typedef struct {
    uint32_t *at;
    size_t length;
} gridtable_u32s;

/* Working space, and the arrays that results are written to. */
typedef struct {
    struct {
        gridtable_u8s glyphs;
        gridtable_u16s offsets;
        gridtable_u8s down;
        gridtable_u8s right;
        gridtable_u8s rects;
        gridtable_u16s starts;
        gridtable_u8s counts;
    } reading;
    struct {
        gridtable_u16s starts;
        gridtable_u16s ends;
        gridtable_u16s firsts;
        gridtable_u16s heights;
        gridtable_u16s wides;
        gridtable_u8s rects;
        gridtable_u16s canvas;
    } drawing;
    struct {
        gridtable_u16s columns; /* alignment, width */
        gridtable_u16s rows;    /* section, top, bottom */
        gridtable_u16s cells;   /* row, column, colspan, rowspan, left */
        gridtable_u16s ranges;  /* start, end: one for each inner line of each cell */
    } layout;
    struct {
        gridtable_u16s columns; /* as in gridtable_table */
        gridtable_u8s sections;
        gridtable_u16s cells;
        gridtable_u16s lengths;
        gridtable_u8s text;
    } table;
    struct {
        gridtable_u16s lengths; /* as in gridtable_drawing */
        gridtable_u16s columns;
        gridtable_u8s text;
    } drawn;
    struct {
        gridtable_u32s rows; /* line and column of the start, line and column of the end */
        gridtable_u32s cells;
    } positions;
    gridtable_u16s cell; /* line, start, end, column of each cut line */
    void *memory;        /* of all arrays; null where there was not enough */
} gridtable_space;

/* A register of line ends. */
typedef struct {
    size_t count;
    gridtable_u32s lines;
    gridtable_u32s starts;
    gridtable_u32s eols;
    void *memory; /* of all arrays; null where there was not enough */
} gridtable_register;

/* All arrays of a space, by the type of their entries. */
#define GRIDTABLE_U32S(X) X(positions.rows) X(positions.cells)
#define GRIDTABLE_U16S(X)                                                                   \
    X(reading.offsets) X(reading.starts)                                                    \
    X(drawing.starts) X(drawing.ends) X(drawing.firsts) X(drawing.heights) X(drawing.wides) \
    X(drawing.canvas)                                                                       \
    X(layout.columns) X(layout.rows) X(layout.cells) X(layout.ranges)                       \
    X(table.columns) X(table.cells) X(table.lengths)                                        \
    X(drawn.lengths) X(drawn.columns)                                                       \
    X(cell)
#define GRIDTABLE_U8S(X)                                                                    \
    X(reading.glyphs) X(reading.down) X(reading.right) X(reading.rects) X(reading.counts)   \
    X(drawing.rects)                                                                        \
    X(table.sections) X(table.text)                                                         \
    X(drawn.text)

/* A space with the lengths that the archive says, and no arrays yet. */
static inline gridtable_space gridtable_space_lengths(void)
{
    const gridtable_reading_space reading = grid_reading_space();
    const gridtable_drawing_space drawing = grid_drawing_space();
    const gridtable_layout_room layout = grid_layout_room();
    const gridtable_table_room table = grid_table_room();
    const gridtable_drawing_room drawn = grid_drawing_room();
    const gridtable_positions_room positions = grid_positions_room();
    gridtable_space space;
#define GRIDTABLE_EMPTY_(array) space.array.at = NULL;
    GRIDTABLE_U32S(GRIDTABLE_EMPTY_)
    GRIDTABLE_U16S(GRIDTABLE_EMPTY_)
    GRIDTABLE_U8S(GRIDTABLE_EMPTY_)
#undef GRIDTABLE_EMPTY_
    space.memory = NULL;
    space.reading.glyphs.length = reading.glyphs;
    space.reading.offsets.length = reading.offsets;
    space.reading.down.length = reading.down;
    space.reading.right.length = reading.right;
    space.reading.rects.length = reading.rects;
    space.reading.starts.length = reading.starts;
    space.reading.counts.length = reading.counts;
    space.drawing.starts.length = drawing.starts;
    space.drawing.ends.length = drawing.ends;
    space.drawing.firsts.length = drawing.firsts;
    space.drawing.heights.length = drawing.heights;
    space.drawing.wides.length = drawing.wides;
    space.drawing.rects.length = drawing.rects;
    space.drawing.canvas.length = drawing.canvas;
    space.layout.columns.length = layout.columns;
    space.layout.rows.length = layout.rows;
    space.layout.cells.length = layout.cells;
    space.layout.ranges.length = layout.ranges;
    space.table.columns.length = table.columns;
    space.table.sections.length = table.sections;
    space.table.cells.length = table.cells;
    space.table.lengths.length = table.lengths;
    space.table.text.length = table.text;
    space.drawn.lengths.length = drawn.lengths;
    space.drawn.columns.length = drawn.columns;
    space.drawn.text.length = drawn.text;
    space.positions.rows.length = positions.rows;
    space.positions.cells.length = positions.cells;
    space.cell.length = grid_cell_room();
    return space;
}

/* A space in one piece of memory; its `memory` is null where there was not enough. */
static inline gridtable_space gridtable_space_new(void)
{
    gridtable_space space = gridtable_space_lengths();
    size_t bytes = 0;
#define GRIDTABLE_COUNT_(array) bytes += space.array.length * sizeof *space.array.at;
    GRIDTABLE_U32S(GRIDTABLE_COUNT_)
    GRIDTABLE_U16S(GRIDTABLE_COUNT_)
    GRIDTABLE_U8S(GRIDTABLE_COUNT_)
#undef GRIDTABLE_COUNT_
    space.memory = malloc(bytes);
    if (space.memory == NULL)
        return space;
    /* The widest entries first, so that all are aligned. */
    uint32_t *u32s = (uint32_t *)space.memory;
#define GRIDTABLE_PLACE_(array) space.array.at = u32s, u32s += space.array.length;
    GRIDTABLE_U32S(GRIDTABLE_PLACE_)
#undef GRIDTABLE_PLACE_
    uint16_t *u16s = (uint16_t *)(void *)u32s;
#define GRIDTABLE_PLACE_(array) space.array.at = u16s, u16s += space.array.length;
    GRIDTABLE_U16S(GRIDTABLE_PLACE_)
#undef GRIDTABLE_PLACE_
    uint8_t *u8s = (uint8_t *)u16s;
#define GRIDTABLE_PLACE_(array) space.array.at = u8s, u8s += space.array.length;
    GRIDTABLE_U8S(GRIDTABLE_PLACE_)
#undef GRIDTABLE_PLACE_
    return space;
}

static inline void gridtable_space_free(gridtable_space *space)
{
    free(space->memory);
    space->memory = NULL;
}

/* An empty register in one piece of memory; its `memory` is null where there was not enough. */
static inline gridtable_register gridtable_register_new(void)
{
    gridtable_register ends;
    const size_t length = grid_register_room();
    uint32_t *memory = (uint32_t *)malloc(3 * length * sizeof *memory);
    ends.count = 0;
    ends.memory = memory;
    ends.lines.at = memory;
    ends.starts.at = memory == NULL ? NULL : memory + length;
    ends.eols.at = memory == NULL ? NULL : memory + 2 * length;
    ends.lines.length = ends.starts.length = ends.eols.length = memory == NULL ? 0 : length;
    return ends;
}

static inline void gridtable_register_free(gridtable_register *ends)
{
    free(ends->memory);
    ends->memory = NULL;
}

/* ---- The calls ---- */

#define GRIDTABLE_LENT_(array) (array).at, (array).length
#define GRIDTABLE_DRAWING_(d) \
    (d).lines, (d).bytes, (d).lengths, (d).lines, (d).columns, (d).lines, (d).text, (d).bytes
#define GRIDTABLE_TRACED_(s)                                                                    \
    GRIDTABLE_LENT_((s)->reading.glyphs), GRIDTABLE_LENT_((s)->reading.offsets),                \
        GRIDTABLE_LENT_((s)->reading.down), GRIDTABLE_LENT_((s)->reading.right),                \
        GRIDTABLE_LENT_((s)->reading.rects)
#define GRIDTABLE_TABLE_(s)                                                                     \
    GRIDTABLE_LENT_((s)->table.columns), GRIDTABLE_LENT_((s)->table.sections),                  \
        GRIDTABLE_LENT_((s)->table.cells), GRIDTABLE_LENT_((s)->table.lengths),                 \
        GRIDTABLE_LENT_((s)->table.text)
#define GRIDTABLE_REDRAWN_(s)                                                                   \
    GRIDTABLE_LENT_((s)->drawing.starts), GRIDTABLE_LENT_((s)->drawing.ends),                   \
        GRIDTABLE_LENT_((s)->drawing.firsts), GRIDTABLE_LENT_((s)->drawing.heights),            \
        GRIDTABLE_LENT_((s)->drawing.wides), GRIDTABLE_LENT_((s)->drawing.rects),               \
        GRIDTABLE_LENT_((s)->drawing.canvas), GRIDTABLE_LENT_((s)->drawn.lengths),              \
        GRIDTABLE_LENT_((s)->drawn.columns), GRIDTABLE_LENT_((s)->drawn.text)

/* Whether a line, its end trimmed, is a rule of segments of the fill byte. */
static inline bool gridtable_is_rule(const uint8_t *text, size_t bytes, uint8_t fill)
{
    return grid_is_rule(text, bytes, fill);
}

/* The length of a line without the blanks at its end. */
static inline size_t gridtable_trim_end(const uint8_t *text, size_t bytes)
{
    return grid_trim_end(text, bytes);
}

/* The layout of a drawing, into `space->layout`. */
static inline gridtable_layout_reply gridtable_layout(gridtable_drawing drawing,
    gridtable_space *space)
{
    return grid_layout(GRIDTABLE_DRAWING_(drawing), GRIDTABLE_TRACED_(space),
        GRIDTABLE_LENT_(space->layout.columns), GRIDTABLE_LENT_(space->layout.rows),
        GRIDTABLE_LENT_(space->layout.cells), GRIDTABLE_LENT_(space->layout.ranges));
}

/* The table that a drawing reads as, into `space->table`. */
static inline gridtable_table_reply gridtable_read(gridtable_drawing drawing,
    gridtable_space *space)
{
    return grid_table(GRIDTABLE_DRAWING_(drawing), GRIDTABLE_TRACED_(space),
        GRIDTABLE_LENT_(space->reading.starts), GRIDTABLE_LENT_(space->reading.counts),
        GRIDTABLE_TABLE_(space));
}

/* The table that was read, to be handed in. */
static inline gridtable_table gridtable_table_read(gridtable_table_reply reply,
    const gridtable_space *space)
{
    gridtable_table table;
    table.columns = reply.columns;
    table.rows = reply.rows;
    table.cells = reply.cells;
    table.lines = reply.lines;
    table.bytes = reply.bytes;
    table.column_entries = space->table.columns.at;
    table.sections = space->table.sections.at;
    table.cell_entries = space->table.cells.at;
    table.lengths = space->table.lengths.at;
    table.text = space->table.text.at;
    return table;
}

/* The cut lines of cell `k`, into `space->cell`. */
static inline gridtable_cell_reply gridtable_cell(gridtable_drawing drawing, size_t k,
    gridtable_space *space)
{
    return grid_cell(GRIDTABLE_DRAWING_(drawing), GRIDTABLE_TRACED_(space),
        GRIDTABLE_LENT_(space->reading.starts), k, GRIDTABLE_LENT_(space->cell));
}

/* One line, cut. */
static inline gridtable_cut_reply gridtable_cell_fragment(gridtable_cut cut)
{
    return grid_cell_fragment(cut.text, cut.bytes, cut.column, cut.line, cut.table_byte,
        cut.start, cut.end, cut.left);
}

/* A table's drawing with its lines at the column `origin`, into `space->drawn`. The table may
 * be the one that was read into the same space. */
static inline gridtable_redraw_reply gridtable_redraw(gridtable_table table, size_t origin,
    gridtable_space *space)
{
    return grid_redraw(origin, table.columns, table.rows, table.cells, table.lines, table.bytes,
        table.column_entries, 2 * table.columns, table.sections, table.rows,
        table.cell_entries, 5 * table.cells, table.lengths, table.lines,
        table.text, table.bytes, GRIDTABLE_REDRAWN_(space));
}

/* What was drawn into a space, to be handed in. */
static inline gridtable_drawing gridtable_drawn(size_t lines, size_t bytes,
    const gridtable_space *space)
{
    gridtable_drawing drawing;
    drawing.lines = lines;
    drawing.bytes = bytes;
    drawing.lengths = space->drawn.lengths.at;
    drawing.columns = space->drawn.columns.at;
    drawing.text = space->drawn.text.at;
    return drawing;
}

/* From a drawing to its redrawing, into `space->drawn`; the table between is in `space->table`.
 * What was drawn into a space can't be redrawn in the same: a 13. */
static inline gridtable_sheet_reply gridtable_redraw_sheet(gridtable_drawing drawing,
    size_t origin, gridtable_space *space)
{
    if (drawing.lines > 0 && drawing.lengths == space->drawn.lengths.at) {
        const gridtable_sheet_reply refused = { 1, GRIDTABLE_ARGUMENTS_CONTRADICT, 0, 0, 0 };
        return refused;
    }
    return grid_redraw_sheet(origin, GRIDTABLE_DRAWING_(drawing), GRIDTABLE_TRACED_(space),
        GRIDTABLE_LENT_(space->reading.starts), GRIDTABLE_LENT_(space->reading.counts),
        GRIDTABLE_TABLE_(space), GRIDTABLE_REDRAWN_(space));
}

/* The positions of table, rows and cells, into `space->positions`. */
static inline gridtable_positions_reply gridtable_positions(gridtable_source source,
    gridtable_space *space)
{
    return grid_positions(GRIDTABLE_DRAWING_(source.drawing), source.numbers,
        source.drawing.lines, source.table_bytes, source.drawing.lines,
        GRIDTABLE_TRACED_(space), GRIDTABLE_LENT_(space->reading.starts),
        GRIDTABLE_LENT_(space->positions.rows), GRIDTABLE_LENT_(space->positions.cells));
}

/* The position of cell `k`. */
static inline gridtable_cell_position_reply gridtable_cell_position(gridtable_source source,
    size_t k, gridtable_space *space)
{
    return grid_cell_position(GRIDTABLE_DRAWING_(source.drawing), source.numbers,
        source.drawing.lines, source.table_bytes, source.drawing.lines,
        GRIDTABLE_TRACED_(space), GRIDTABLE_LENT_(space->reading.starts), k);
}

/* A table's page. How long it can get is not said: on 12, ask again with twice the room. */
static inline gridtable_page_reply gridtable_page(gridtable_table table, bool widths,
    gridtable_u8s out)
{
    return grid_page(widths, table.columns, table.rows, table.cells, table.bytes,
        table.column_entries, 2 * table.columns, table.sections, table.rows,
        table.cell_entries, 5 * table.cells, table.text, table.bytes, GRIDTABLE_LENT_(out));
}

/* The share of a width of the total of all widths. */
static inline gridtable_share_reply gridtable_share(uint16_t width, uint32_t total)
{
    return grid_share(width, total);
}

/* Adds an end to the register. */
static inline gridtable_add_reply gridtable_add_line_end(gridtable_register *ends,
    gridtable_line_end end)
{
    const gridtable_add_reply reply = grid_add_line_end(ends->count, GRIDTABLE_LENT_(ends->lines),
        GRIDTABLE_LENT_(ends->starts), GRIDTABLE_LENT_(ends->eols), end.line, end.start, end.eol);
    if (reply.number == GRIDTABLE_ACCEPTED)
        ends->count = reply.count;
    return reply;
}

/* The eol of the last end on the line that reaches the column. */
static inline gridtable_find_reply gridtable_find_line_end(const gridtable_register *ends,
    uint32_t line, uint32_t column)
{
    return grid_find_line_end(ends->count, GRIDTABLE_LENT_(ends->lines),
        GRIDTABLE_LENT_(ends->starts), GRIDTABLE_LENT_(ends->eols), line, column);
}

/* An end moved onto its fragment. */
static inline gridtable_remap_reply gridtable_remap_line_end(gridtable_fragments fragments,
    gridtable_line_end end)
{
    return grid_remap_line_end(fragments.count, fragments.lines, fragments.count,
        fragments.bytes, fragments.count, end.line, end.start, end.eol);
}

#undef GRIDTABLE_LENT_
#undef GRIDTABLE_DRAWING_
#undef GRIDTABLE_TRACED_
#undef GRIDTABLE_TABLE_
#undef GRIDTABLE_REDRAWN_

#ifdef __cplusplus
}
#endif

#endif
