/* Senruhobi's doors for C: sines, map sheets, lengths, targets, courses, roots, route texts and the pen of the route desk. The library is for
 * x86-64 Linux.
 *
 * Each door answers for all arguments; nobody has to check first. In `refusal` 0 means accepted, and any other number says why not: see
 * `senruhobi_refusal`. Beside a refusal every other field is 0, but for a text's line and the pen, and no buffer is written to. Where nothing
 * can be refused, as with roots, there is no such field.
 *
 * Angles are in ticks, ten-millionths of a degree: latitude from -900000000 to 900000000, longitude and central meridian from
 * -1800000000 up to but not including 1800000000. One door takes half ticks. Lengths are in millimetres.
 *
 *     // a quarter of the equator, measured as a leg, as a point buffer and as a text
 *     #include <stdio.h>
 *     #include <senruhobi.h>
 *
 *     int main(void)
 *     {
 *         static const char text[] = "route\tpoint\np\t0\t0\np\t0\t90\n";
 *         int32_t points[SENRUHOBI_MOST_NUMBERS];
 *         senruhobi_reading route = senruhobi_read_route((const uint8_t *)text, sizeof text - 1, points, SENRUHOBI_MOST_NUMBERS);
 *         senruhobi_length whole = senruhobi_measure(points, SENRUHOBI_NUMBERS * route.points);
 *         senruhobi_length leg = senruhobi_leg(0, 0, 0, 900000000);
 *         printf("%lu %lu %lu\n", route.length, whole.millimetres, leg.millimetres);
 *         if (senruhobi_leg(900000001, 0, 0, 0).refusal == SENRUHOBI_REFUSED_LATITUDE)
 *             printf("no such latitude\n");
 *         return 0;
 *     }
 *
 * Threads: the library has no data that is written to and calls nothing but memcpy and memset, so every door may be called from any thread
 * at any time, with buffers that no other thread writes to meanwhile.
 * Stack: a call takes some 1 KB, a reading some 13 KB, at the most; the first call may take some more, where the loader binds symbols
 * late. Nothing is allocated.
 * Pointers: a text and an output may lie at any address, numbers lie as int32_t does, at a multiple of 4. A text and the buffer lent beside
 * it must not overlap, nor a point buffer and an output. With a count of 0 a pointer is not looked at and may be null; with any other it
 * points to at least so many.
 */
#ifndef SENRUHOBI_H
#define SENRUHOBI_H

#include <stddef.h>
#include <stdint.h>

#ifdef __cplusplus
extern "C" {
#endif

/* Why something is refused. */
typedef enum {
    SENRUHOBI_ACCEPTED = 0,
    SENRUHOBI_REFUSED_TEXT = 1, /* text longer than 60,000 bytes (line 0) */
    SENRUHOBI_REFUSED_HEADER = 2, /* line 1 missing, without LF, or other than the two headers */
    SENRUHOBI_REFUSED_LINE = 3, /* another line has an unknown kind, the wrong number of fields, or no LF */
    SENRUHOBI_REFUSED_NUMBER = 4, /* a number breaks its rule */
    SENRUHOBI_REFUSED_MARK = 5, /* a number holds the mark that line 1 did not name */
    SENRUHOBI_REFUSED_LATITUDE = 6, /* latitude out of range (-90 to 90 degrees, both allowed), or the angle for a sine (-180 to 180, both allowed; in half ticks 0 to 90) */
    SENRUHOBI_REFUSED_LONGITUDE = 7, /* longitude out of range (-180 degrees up to but not including 180) */
    SENRUHOBI_REFUSED_ORDER = 8, /* `t` or `g` in a wrong place; a last `g` names its own line */
    SENRUHOBI_REFUSED_POINTS = 9, /* the 1,001st `p` line; more than 1,000 points in a buffer */
    SENRUHOBI_REFUSED_ROOM = 10, /* the buffer that was lent is shorter than three numbers a point (line 0) */
    SENRUHOBI_REFUSED_PLACE = 11, /* no accepted point has this place */
    SENRUHOBI_REFUSED_WINDOW = 12, /* an edge of the window is NaN, left is not below right, or bottom is not below top */
    SENRUHOBI_REFUSED_DIVISOR = 13, /* divisor outside 1 to 1,000,000 */
    SENRUHOBI_REFUSED_MERIDIAN = 14, /* central meridian out of range */
    SENRUHOBI_REFUSED_OUTPUT = 15, /* the output from the place on is too short for the text; a place past its end leaves no room */
    SENRUHOBI_REFUSED_TARGET = 16, /* a target above 999,999,000 mm; for a route's text also one that is not a whole number of metres */
    SENRUHOBI_REFUSED_BUFFER = 17, /* a point buffer that is no multiple of three, a third number other than 0 or 1, or a first one of 0 */
    SENRUHOBI_REFUSED_COURSE = 18 /* no course: the rule's two numbers are both zero, as between equal points, opposite ones, and some that are nearly so */
} senruhobi_refusal;

enum {
    SENRUHOBI_MOST_BYTES = 60000, /* of a route's text that is read */
    SENRUHOBI_NUMBERS = 3, /* of a point in a buffer: latitude, longitude, and 1 where the pen was up before it, else 0 */
    SENRUHOBI_MOST_POINTS = 1000, /* of a route */
    SENRUHOBI_MOST_NUMBERS = SENRUHOBI_NUMBERS * SENRUHOBI_MOST_POINTS, /* room for every route */
    SENRUHOBI_MOST_WRITTEN = 29020, /* bytes of a route's text that is written: room for every route. n points need at most 20 + 29n, none up to 22 */
    SENRUHOBI_MOST_PAIRS = 10 /* of decimal digits: no uint64_t has more than 20 digits */
};

/* What a step of the pen draws. */
typedef enum { SENRUHOBI_OUTSIDE = 0, SENRUHOBI_MOVE = 1, SENRUHOBI_LINE = 2 } senruhobi_stroke;

typedef struct { uint32_t refusal; int64_t value; } senruhobi_sine;
typedef struct { uint32_t refusal; int64_t x, y; } senruhobi_place;
typedef struct { uint32_t refusal; int32_t latitude, longitude; } senruhobi_point;
typedef struct { uint32_t refusal; uint64_t millimetres; } senruhobi_length;
typedef struct { uint32_t refusal, met /* 1 yes, 0 no */, points; } senruhobi_met;
typedef struct { uint32_t refusal; uint32_t ticks; } senruhobi_direction;
typedef struct { uint64_t pair, digit, rest; } senruhobi_root_step;
typedef struct { uint64_t root, count; senruhobi_root_step steps[SENRUHOBI_MOST_PAIRS]; } senruhobi_working;
typedef struct { uint32_t refusal, line, points, has_target; uint64_t length, target; } senruhobi_reading;
typedef struct { uint32_t refusal; uint64_t bytes; } senruhobi_written;
typedef struct { uint32_t refusal, stroke; double x, y; uint32_t pen /* 0 up, 1 down */; } senruhobi_step;

/* 10^13 times the sine of an angle from -180 to 180 degrees, both allowed, and 10^9 times it. Refusal: 6. */
senruhobi_sine senruhobi_long_sine(int32_t angle);
senruhobi_sine senruhobi_short_sine(int32_t angle);

/* 10^13 times the sine of an angle in half ticks, from 0 to 1800000000, which are 90 degrees, both allowed. Refusal: 6. */
senruhobi_sine senruhobi_long_sine_half(int32_t half_ticks);

/* A point's place on the Lambert cylindrical equal-area sheet, and on the sinusoidal one. Refusals: 14, 6, 7. */
senruhobi_place senruhobi_cylindrical(int32_t latitude, int32_t longitude, int32_t meridian);
senruhobi_place senruhobi_sinusoidal(int32_t latitude, int32_t longitude, int32_t meridian);

/* The point whose place x and y are, exactly; at a sinusoidal pole the meridian's own longitude. Refusals: 14, 11. */
senruhobi_point senruhobi_cylindrical_back(int64_t x, int64_t y, int32_t meridian);
senruhobi_point senruhobi_sinusoidal_back(int64_t x, int64_t y, int32_t meridian);

/* The length of a leg along the great circle, the shorter way round. Refusals: 6 and 7 of the first point, then of the second. */
senruhobi_length senruhobi_leg(int32_t latitude1, int32_t longitude1, int32_t latitude2, int32_t longitude2);

/* The course at which a leg starts, in ticks east of north, from 0 up to but not including 3600000000, which is more than an int32_t holds.
 * Refusals: 6 and 7 of the first point, then of the second, then 18. */
senruhobi_direction senruhobi_course(int32_t latitude1, int32_t longitude1, int32_t latitude2, int32_t longitude2);

/* The square root of a number, the greatest whole number whose square is at most that number, and the steps of the school method that lead to
 * it, two decimal digits at a time. `count` is the number of steps, one for each pair of digits from the left: the pair, the digit of the root
 * that was found, and the rest after the subtraction. The pairs are made from the right, so that the first may be a single digit; 0 has one
 * pair. Behind the last step all numbers are 0. Nothing is refused. docs/SCHOOL_ROOT.md goes through an example. */
senruhobi_working senruhobi_root_steps(uint64_t number);

/* The length of a point buffer, the sum of its legs; the leg into a point whose third number is 1 is not counted. `numbers` is the whole
 * buffer's, SENRUHOBI_NUMBERS a point. Refusals: 17, 9, then 6 and 7 point by point. */
senruhobi_length senruhobi_measure(const int32_t *points, size_t numbers);

/* Whether a point buffer is at least as long as a target in millimetres, which need not be whole metres. The legs are added up only until the sum
 * reaches the target, and `points` says how many points were looked at: those of the shortest beginning that is long enough, none for a target
 * of 0, and all where the target is not met. `numbers` is the whole buffer's. Refusals, all found before a leg is measured: 17, 9, then 6 and 7
 * point by point, then 16, only for a target above 999,999,000. */
senruhobi_met senruhobi_target_met(const int32_t *points, size_t numbers, uint64_t target);

/* Reads a route's text. Of an accepted one the buffer begins with the numbers of its points, the third 1 for the first point and after
 * `g`, else 0; its other numbers stay as they were. Refusals: 1 to 10, with the line. */
senruhobi_reading senruhobi_read_route(const uint8_t *text, size_t bytes, int32_t *buffer, size_t numbers);

/* How many bytes senruhobi_write_route would write of the same points, target and mark, given as there, without writing them. What is refused
 * here is refused there by the same number, whatever the output. Otherwise a writing is refused by 15 exactly where the output from the place
 * on is shorter than this, and else writes exactly so many bytes. Refusals: 17, 9, then 6 and 7 point by point, 16. */
senruhobi_written senruhobi_route_size(const int32_t *points, size_t numbers, uint32_t has_target, uint64_t target, uint32_t comma);

/* Writes a route's text into `out`, which has `bytes` bytes, from `place` onward, and answers how many bytes the text has; all others stay as
 * they were. SENRUHOBI_MOST_WRITTEN from the place on are room for every route. `numbers` is the whole point buffer's. In `has_target` 0 means
 * no target, and the number beside it is not looked at; in `comma` 0 means the point, any other number the comma. Each number is written one
 * way, the shortest, and reading the text gives back points, target and length. Refusals: 17, 9, then 6 and 7 point by point, 16, 15. */
senruhobi_written senruhobi_write_route(const int32_t *points, size_t numbers, uint32_t has_target, uint64_t target, uint32_t comma,
                                        uint8_t *out, size_t bytes, size_t place);

/* What a pen (0 up, any other number down) draws at a point on the sinusoidal sheet. The window's edges are in millimetres on the sheet
 * and may be infinite, the divisor is in millimetres a pixel, third is the point's third number in a route's buffer. x and y are the
 * position of a move or a line. Hand `pen` on to the next step. Refusals: 12, 13, 14, 6, 7; the pen is then the one that came in. */
senruhobi_step senruhobi_pen_step(uint32_t pen, double left, double right, double bottom, double top,
                                  uint32_t divisor, int32_t meridian, int32_t latitude, int32_t longitude, int32_t third);

#ifdef __cplusplus
}
#endif

#endif
