/* Reads a sheet from standard input and prints its redrawing.
 *
 *     cc -Iinclude include/example.c crates/gridtable/out/libgridtable.a -o example
 *     ./example < examples/untidy.txt
 */
#include <stdio.h>

#include "gridtable.h"

enum { READ_MOST = 1 << 16, LINES_MOST = 1 << 10 };

/* A sheet longer than this passes the limits of a drawing too: refusal 2. */
static uint8_t text[READ_MOST];
static uint16_t lengths[LINES_MOST];
static uint16_t columns[LINES_MOST];

/* The lines of standard input, back to back; a line feed ends a line. False where they pass the
 * arrays. */
static bool read_sheet(gridtable_drawing *sheet)
{
    size_t lines = 0, bytes = 0, start = 0;
    int byte = getchar();
    while (byte != EOF) {
        if (lines == LINES_MOST)
            return false;
        for (; byte != EOF && byte != '\n'; byte = getchar()) {
            if (bytes == READ_MOST || bytes - start == UINT16_MAX)
                return false;
            text[bytes++] = (uint8_t)byte;
        }
        lengths[lines++] = (uint16_t)(bytes - start);
        start = bytes;
        if (byte == '\n')
            byte = getchar();
    }
    sheet->lines = lines;
    sheet->bytes = bytes;
    sheet->lengths = lengths;
    sheet->columns = columns; /* all 0 */
    sheet->text = text;
    return true;
}

static int refuse(const char *step, size_t number, size_t place)
{
    fprintf(stderr, "%s refused %zu at %zu: %s\n", step, number, place, gridtable_words(number));
    return 1;
}

int main(void)
{
    gridtable_drawing sheet;
    if (!read_sheet(&sheet))
        return refuse("reading", GRIDTABLE_LIMIT_PASSED, 0);
    gridtable_space space = gridtable_space_new();
    if (space.memory == NULL) {
        fputs("not enough memory\n", stderr);
        return 1;
    }
    const gridtable_sheet_reply reply = gridtable_redraw_sheet(sheet, 0, &space);
    int status = 0;
    if (reply.number == GRIDTABLE_ACCEPTED) {
        const gridtable_drawing drawn = gridtable_drawn(reply.lines, reply.bytes, &space);
        const uint8_t *line = drawn.text;
        for (size_t i = 0; i < drawn.lines; line += drawn.lengths[i], i++) {
            fwrite(line, 1, drawn.lengths[i], stdout);
            putchar('\n');
        }
    } else {
        status = refuse(reply.step == 1 ? "reading" : "redraw", reply.number, reply.place);
    }
    gridtable_space_free(&space);
    return status;
}
