/* Reads a route from standard input and writes it to standard output with the other decimal mark. Status: 0 for a route, 1 for a refusal, 2 where
   the text cannot be read or written. */
#include <stdio.h>
#include <senruhobi.h>

static uint8_t text[SENRUHOBI_MOST_BYTES + 1]; /* a byte more, so that a text that is too long is seen to be so */
static uint8_t out[SENRUHOBI_MOST_WRITTEN];

int main(void)
{
    int32_t points[SENRUHOBI_MOST_NUMBERS];
    size_t bytes = fread(text, 1, sizeof text, stdin);
    if (ferror(stdin))
        return 2;
    senruhobi_reading route = senruhobi_read_route(text, bytes, points, SENRUHOBI_MOST_NUMBERS);
    if (route.refusal) {
        fprintf(stderr, "refused: %u at line %u\n", route.refusal, route.line);
        return 1;
    }

    uint32_t comma = text[6] == 'p'; /* line 1 is `route`, a tab, and `point` or `comma` */
    senruhobi_written w = senruhobi_write_route(points, SENRUHOBI_NUMBERS * route.points, route.has_target, route.target,
                                                comma, out, sizeof out, 0);
    if (w.refusal) {
        fprintf(stderr, "refused: %u\n", w.refusal);
        return 1;
    }
    return fwrite(out, 1, w.bytes, stdout) == w.bytes && fflush(stdout) == 0 ? 0 : 2;
}
