/* The document's rules in plain C, as a careful programmer writes them who proves nothing. The table stands in memory once, for all
   calls; numbers are whole and have 64 bits, but for the window and the pen's last step. */
#include "twin.h"
#include "table.h" /* static const uint64_t sines[], out of the Rattle source */

void *memchr(const void *, int, size_t);
int memcmp(const void *, const void *, size_t);
void *memcpy(void *restrict, const void *restrict, size_t);

enum {
    TEXT = 1, HEADER, LINE, NUMBER, MARK, LATITUDE, LONGITUDE, ORDER, POINTS, ROOM, PLACE, WINDOW, DIVISOR, MERIDIAN,
    OUTPUT, TARGET, BUFFER, COURSE
};

enum { ROWS = 4500, STEP = 200000, STEP_HALVES = 2 * STEP }; /* from one entry to the next, in ticks and in half ticks */
enum { QUARTER = 900000000, HALF_TURN = 1800000000, SHORTENING = 10000, SHORT_UNIT = 1000000000 };
enum { LEG_SHORTENING = 5000, LEG_UNIT = 2000000000 }; /* in the length rule alone */
enum { DEGREE = 10000000, DEGREE_LENGTH = 111194927 }; /* in ticks, in millimetres */
enum { MOST_BYTES = 60000, MOST_POINTS = SENRUHOBI_MOST_POINTS, NUMBERS = SENRUHOBI_NUMBERS, MOST_DIVISOR = 1000000 };
enum { METRE = 1000, KILOMETRE = 1000000, MOST_TARGET = 999999000 }; /* in millimetres */

#define TURN 3600000000

_Static_assert(sizeof sines / sizeof *sines == ROWS + 1, "the table has 4,501 entries");

/* Angles and sines */

static int is_latitude(int64_t z)
{
    return -QUARTER <= z && z <= QUARTER;
}

static int is_longitude(int64_t z)
{
    return -HALF_TURN <= z && z < HALF_TURN;
}

static int is_angle(int64_t z)
{
    return -HALF_TURN <= z && z <= HALF_TURN;
}

static uint32_t point_refusal(int32_t latitude, int32_t longitude)
{
    return !is_latitude(latitude) ? LATITUDE : !is_longitude(longitude) ? LONGITUDE : 0;
}

static uint32_t leg_refusal(int32_t latitude1, int32_t longitude1, int32_t latitude2, int32_t longitude2)
{
    uint32_t refusal = point_refusal(latitude1, longitude1);
    return refusal ? refusal : point_refusal(latitude2, longitude2);
}

static uint32_t sheet_refusal(int32_t latitude, int32_t longitude, int32_t meridian)
{
    return !is_longitude(meridian) ? MERIDIAN : point_refusal(latitude, longitude);
}

static uint32_t size(int32_t z)
{
    return z < 0 ? -(uint32_t)z : (uint32_t)z;
}

/* Of an angle from 0 to 90 degrees, in a unit of which so many make a step of the table. */
static inline uint64_t sine_by(uint32_t step, uint32_t a)
{
    uint32_t k = a / step, f = a % step;
    if (k == ROWS)
        return sines[ROWS];
    return sines[k] + f * (sines[k + 1] - sines[k]) / step;
}

static uint64_t long_sine(uint32_t a)
{
    return sine_by(STEP, a);
}

static uint64_t short_sine(uint32_t a)
{
    return long_sine(a) / SHORTENING;
}

static uint64_t short_cosine(int32_t latitude)
{
    return short_sine(QUARTER - size(latitude));
}

static int64_t signed_long_sine(int32_t a)
{
    int64_t sine = (int64_t)long_sine(size(a));
    return a < 0 ? -sine : sine;
}

/* Of an angle up to 180 degrees: beyond 90, the sine of 180 less the angle. */
static int64_t long_around(int32_t a)
{
    return signed_long_sine(a > QUARTER ? HALF_TURN - a : a < -QUARTER ? -HALF_TURN - a : a);
}

static int64_t short_around(int32_t a)
{
    return long_around(a) / SHORTENING;
}

senruhobi_sine twin_long_sine(int32_t angle)
{
    if (!is_angle(angle))
        return (senruhobi_sine){.refusal = LATITUDE};
    return (senruhobi_sine){.value = long_around(angle)};
}

senruhobi_sine twin_long_sine_half(int32_t half_ticks)
{
    if (half_ticks < 0 || half_ticks > ROWS * STEP_HALVES)
        return (senruhobi_sine){.refusal = LATITUDE};
    return (senruhobi_sine){.value = (int64_t)sine_by(STEP_HALVES, (uint32_t)half_ticks)};
}

senruhobi_sine twin_short_sine(int32_t angle)
{
    if (!is_angle(angle))
        return (senruhobi_sine){.refusal = LATITUDE};
    return (senruhobi_sine){.value = short_around(angle)};
}

/* Two sheets */

static int64_t into_turn(int64_t d)
{
    return d < -HALF_TURN ? d + TURN : d >= HALF_TURN ? d - TURN : d;
}

static int64_t offset(int32_t longitude, int32_t meridian)
{
    return into_turn((int64_t)longitude - meridian);
}

senruhobi_place twin_cylindrical(int32_t latitude, int32_t longitude, int32_t meridian)
{
    uint32_t refusal = sheet_refusal(latitude, longitude, meridian);
    if (refusal)
        return (senruhobi_place){.refusal = refusal};
    return (senruhobi_place){.x = offset(longitude, meridian), .y = signed_long_sine(latitude)};
}

senruhobi_place twin_sinusoidal(int32_t latitude, int32_t longitude, int32_t meridian)
{
    uint32_t refusal = sheet_refusal(latitude, longitude, meridian);
    if (refusal)
        return (senruhobi_place){.refusal = refusal};
    return (senruhobi_place){.x = offset(longitude, meridian) * (int64_t)short_cosine(latitude), .y = latitude};
}

/* The last row whose entry is at most y. The halves are chosen without a branch, since none could be foretold. */
static uint32_t last_row(uint64_t y)
{
    const uint64_t *row = sines;
    for (size_t rows = ROWS + 1; rows > 1;) {
        size_t half = rows / 2;
        row = row[half] <= y ? row + half : row;
        rows -= half;
    }
    return (uint32_t)(row - sines);
}

/* The last angle up to 90 degrees whose long sine is at most y, in a unit of which so many make a step of the table. */
static inline uint32_t last_angle(uint32_t step, uint64_t y)
{
    uint32_t k = last_row(y);
    if (k == ROWS)
        return ROWS * step;
    return k * step + (uint32_t)(((y - sines[k] + 1) * step - 1) / (sines[k + 1] - sines[k]));
}

static senruhobi_point nobody(void)
{
    return (senruhobi_point){.refusal = PLACE};
}

/* x is an offset times the width. */
static senruhobi_point point_at(int32_t latitude, int64_t width, int64_t x, int32_t meridian)
{
    if (x % width || !is_longitude(x / width))
        return nobody();
    return (senruhobi_point){.latitude = latitude, .longitude = (int32_t)into_turn(meridian + x / width)};
}

senruhobi_point twin_cylindrical_back(int64_t x, int64_t y, int32_t meridian)
{
    if (!is_longitude(meridian))
        return (senruhobi_point){.refusal = MERIDIAN};
    uint64_t sine = y < 0 ? -(uint64_t)y : (uint64_t)y;
    uint32_t a = last_angle(STEP, sine);
    if (long_sine(a) != sine)
        return nobody();
    return point_at(y < 0 ? -(int32_t)a : (int32_t)a, 1, x, meridian);
}

senruhobi_point twin_sinusoidal_back(int64_t x, int64_t y, int32_t meridian)
{
    if (!is_longitude(meridian))
        return (senruhobi_point){.refusal = MERIDIAN};
    if (!is_latitude(y))
        return nobody();
    int32_t latitude = (int32_t)y;
    int64_t width = (int64_t)short_cosine(latitude);
    if (width)
        return point_at(latitude, width, x, meridian);
    /* a pole: any longitude goes to x = 0, and the meridian's answers */
    return x ? nobody() : (senruhobi_point){.latitude = latitude, .longitude = meridian};
}

/* Root by the school method */

#define FIRST_POWER 1000000000000000000 /* of 100: the place of the first pair in the longest numbers */

/* The root of the pairs of digits that are brought down so far, and what is left of them. */
typedef struct { uint64_t root, rest; } working;

/* With one pair more, and one digit: the greatest d with (20 × root + d) × d at most the rest. Since (t + d) × d + 25 is
   (t + 10) × d + (5 - d)², the digit that is tried first is never too small; the longer the root, the more seldom it is too great. */
static inline working bring_down(working w, uint64_t pair)
{
    uint64_t rest = 100 * w.rest + pair, t = 20 * w.root, d = (rest + 25) / (t + 10);
    while ((t + d) * d > rest)
        d--;
    return (working){10 * w.root + d, rest - (t + d) * d};
}

/* Unrolled, so that the powers are constants and no pair waits for another. */
static uint64_t root(uint64_t h)
{
    working w = {0};
#pragma unroll
    for (uint64_t power = FIRST_POWER; power; power /= 100)
        if (h >= power)
            w = bring_down(w, h / power % 100);
    return w.root;
}

/* 0 has a pair too. */
senruhobi_working twin_root_steps(uint64_t number)
{
    senruhobi_working answer = {0};
    working w = {0};
#pragma unroll
    for (uint64_t power = FIRST_POWER; power; power /= 100)
        if (number >= power || power == 1) {
            uint64_t pair = number / power % 100;
            w = bring_down(w, pair);
            answer.steps[answer.count++] = (senruhobi_root_step){pair, w.root % 10, w.rest};
        }
    answer.root = w.root;
    return answer;
}

/* Length of a leg */

/* The length rule's short sine of an angle in half ticks, and its short cosine. Their unit is 2 × 10^9. */
static uint64_t leg_sine(uint32_t half_ticks)
{
    return sine_by(STEP_HALVES, half_ticks) / LEG_SHORTENING;
}

static uint64_t leg_cosine(int32_t latitude)
{
    return long_sine(QUARTER - size(latitude)) / LEG_SHORTENING;
}

/* The greatest angle up to 90 degrees, in half ticks, whose short sine is at most r. */
static uint32_t greatest_angle(uint64_t r)
{
    return last_angle(STEP_HALVES, r * LEG_SHORTENING + LEG_SHORTENING - 1);
}

/* m × s / (2 × 10^9): the product reaches 8 × 10^27, so s is split at the divisor, where each part fits 64 bits. */
static uint64_t scaled(uint64_t m, uint64_t s)
{
    return m * (s / LEG_UNIT) + m * (s % LEG_UNIT) / LEG_UNIT;
}

static uint64_t leg_length(int32_t latitude1, int32_t longitude1, int32_t latitude2, int32_t longitude2)
{
    int64_t d = (int64_t)longitude1 - longitude2;
    if (d < 0)
        d = -d;
    /* the whole differences, in half ticks, are their halves, and u, in half ticks, is half the arc */
    uint64_t p = leg_sine(size(latitude1 - latitude2));
    uint64_t q = leg_sine((uint32_t)(d <= TURN - d ? d : TURN - d));
    uint64_t m = leg_cosine(latitude1) * leg_cosine(latitude2) / LEG_UNIT;
    uint64_t arc = greatest_angle(root(p * p + scaled(m, q * q)));
    return arc * DEGREE_LENGTH / DEGREE;
}

senruhobi_length twin_leg(int32_t latitude1, int32_t longitude1, int32_t latitude2, int32_t longitude2)
{
    uint32_t refusal = leg_refusal(latitude1, longitude1, latitude2, longitude2);
    if (refusal)
        return (senruhobi_length){.refusal = refusal};
    return (senruhobi_length){.millimetres = leg_length(latitude1, longitude1, latitude2, longitude2)};
}

/* Course of a leg */

/* Of two signed short sines. The product is at most 10^18 in size, and C's division drops toward zero. */
static int64_t short_product(int64_t a, int64_t b)
{
    return a * b / SHORT_UNIT;
}

/* N and D, at most 10^9 and 2 × 10^9 in size: how far east and how far north a leg starts. */
typedef struct { int32_t n, d; } heading;

static heading leg_heading(int32_t latitude1, int32_t longitude1, int32_t latitude2, int32_t longitude2)
{
    int32_t east = (int32_t)offset(longitude2, longitude1);
    int64_t cosine1 = (int64_t)short_cosine(latitude1), cosine2 = (int64_t)short_cosine(latitude2);
    int64_t there = short_product(cosine1, short_around(latitude2)), here = short_product(short_around(latitude1), cosine2);
    /* beyond 90 degrees the offset's cosine is negative */
    int64_t cosine = short_around(QUARTER - (int32_t)size(east));
    return (heading){.n = (int32_t)short_product(cosine2, short_around(east)), .d = (int32_t)(there - short_product(here, cosine))};
}

/* The greatest angle up to 90 degrees whose short sine times d is at most its short cosine times n. The one never falls and the other never
   rises, so the angles are halved. */
static uint32_t angle_of_ratio(uint64_t n, uint64_t d)
{
    uint32_t a = 0;
    for (uint32_t angles = QUARTER + 1; angles > 1;) {
        uint32_t half = angles / 2, middle = a + half;
        a = short_sine(middle) * d <= short_sine(QUARTER - middle) * n ? middle : a;
        angles -= half;
    }
    return a;
}

static uint32_t course_of(heading h)
{
    uint32_t a = angle_of_ratio(size(h.n), size(h.d));
    if (h.n >= 0)
        return h.d >= 0 ? a : HALF_TURN - a;
    return h.d < 0 ? HALF_TURN + a : a ? (uint32_t)(TURN - a) : 0;
}

senruhobi_direction twin_course(int32_t latitude1, int32_t longitude1, int32_t latitude2, int32_t longitude2)
{
    uint32_t refusal = leg_refusal(latitude1, longitude1, latitude2, longitude2);
    if (refusal)
        return (senruhobi_direction){.refusal = refusal};
    heading h = leg_heading(latitude1, longitude1, latitude2, longitude2);
    return h.n || h.d ? (senruhobi_direction){.ticks = course_of(h)} : (senruhobi_direction){.refusal = COURSE};
}

/* Point buffer */

/* Where the pen was up, as it is before the first point, no leg is counted. */
static inline uint64_t leg_into(const int32_t *at)
{
    return at[2] ? 0 : leg_length(at[-NUMBERS], at[1 - NUMBERS], at[0], at[1]);
}

static uint64_t measure(const int32_t *points, size_t n)
{
    uint64_t length = 0;
    for (const int32_t *at = points + NUMBERS; at < points + NUMBERS * n; at += NUMBERS)
        length += leg_into(at);
    return length;
}

static uint32_t buffer_refusal(const int32_t *points, size_t numbers)
{
    if (numbers % NUMBERS)
        return BUFFER;
    for (size_t i = 2; i < numbers; i += NUMBERS)
        if (points[i] != 1 && (points[i] != 0 || i == 2))
            return BUFFER;
    if (numbers / NUMBERS > MOST_POINTS)
        return POINTS;
    for (size_t i = 0; i < numbers; i += NUMBERS) {
        uint32_t refusal = point_refusal(points[i], points[i + 1]);
        if (refusal)
            return refusal;
    }
    return 0;
}

senruhobi_length twin_measure(const int32_t *points, size_t numbers)
{
    uint32_t refusal = buffer_refusal(points, numbers);
    if (refusal)
        return (senruhobi_length){.refusal = refusal};
    return (senruhobi_length){.millimetres = numbers ? measure(points, numbers / NUMBERS) : 0};
}

senruhobi_met twin_target_met(const int32_t *points, size_t numbers, uint64_t target)
{
    uint32_t refusal = buffer_refusal(points, numbers);
    if (!refusal && target > MOST_TARGET)
        refusal = TARGET;
    if (refusal)
        return (senruhobi_met){.refusal = refusal};
    uint64_t length = 0;
    size_t i = 0;
    for (; i < numbers && length < target; i += NUMBERS)
        length += leg_into(points + i);
    return (senruhobi_met){.met = length >= target, .points = (uint32_t)(i / NUMBERS)};
}

/* Route text */

static const char point_header[] = "route\tpoint\n", comma_header[] = "route\tcomma\n";

enum { HEADER_BYTES = sizeof point_header - 1 };

typedef struct { const uint8_t *from, *end; } piece;

/* How a number is written: its mark, the one that it may not have, how many decimals at the most, and whether with a minus. */
typedef struct { uint8_t mark, other; int decimals, minus; } form;

static const uint8_t *find(piece s, uint8_t byte)
{
    return memchr(s.from, byte, (size_t)(s.end - s.from));
}

/* At most so many digits, put behind those of the value. Answers how many there were. */
static int digits(piece *s, int most, int64_t *value)
{
    int n = 0;
    for (; n < most && s->from < s->end && *s->from >= '0' && *s->from <= '9'; n++)
        *value = *value * 10 + (*s->from++ - '0');
    return n;
}

/* A number in units of its last decimal. One that keeps its rule has no other mark, so that is looked for only in one that does not. */
static uint32_t read_number(piece s, form as, int64_t *value)
{
    static const int64_t tens[] = {1, 10, 100, 1000, 10000, 100000, 1000000, 10000000};
    piece rest = s;
    int minus = as.minus && rest.from < rest.end && *rest.from == '-', decimals = 0;
    rest.from += minus;
    *value = 0;
    int good = digits(&rest, 3, value) > 0;
    if (good && rest.from < rest.end && *rest.from == as.mark) {
        rest.from++;
        decimals = digits(&rest, as.decimals, value);
        good = decimals > 0;
    }
    if (!good || rest.from < rest.end)
        return find(s, as.other) ? MARK : NUMBER;
    *value *= tens[as.decimals - decimals];
    if (minus)
        *value = -*value;
    return 0;
}

typedef struct {
    uint8_t mark, other;
    uint8_t before; /* the kind of the line before */
    uint32_t line, points, has_target;
    uint64_t target;
    int32_t buffer[NUMBERS * MOST_POINTS];
} route;

static uint32_t read_gap(route *r)
{
    return r->before == 'p' ? 0 : ORDER;
}

static uint32_t read_target(route *r, piece field)
{
    int64_t metres;
    if (r->line != 2)
        return ORDER;
    uint32_t refusal = read_number(field, (form){r->mark, r->other, .decimals = 3}, &metres);
    if (refusal)
        return refusal;
    r->has_target = 1;
    r->target = (uint64_t)metres * METRE;
    return 0;
}

static uint32_t read_point(route *r, piece first, piece second)
{
    const form degrees = {r->mark, r->other, .decimals = 7, .minus = 1};
    int64_t latitude, longitude;
    if (r->points == MOST_POINTS)
        return POINTS;
    uint32_t refusal = read_number(first, degrees, &latitude);
    if (refusal || !is_latitude(latitude))
        return refusal ? refusal : LATITUDE;
    refusal = read_number(second, degrees, &longitude);
    if (refusal || !is_longitude(longitude))
        return refusal ? refusal : LONGITUDE;
    int32_t *point = r->buffer + NUMBERS * r->points++;
    point[0] = (int32_t)latitude;
    point[1] = (int32_t)longitude;
    point[2] = r->before != 'p';
    return 0;
}

/* The number of fields and the kind have to agree before anything else is judged. */
static uint32_t read_line(route *r, piece s)
{
    uint8_t kind = s.from < s.end ? *s.from++ : 0;
    if (s.from == s.end)
        return kind == 'g' ? read_gap(r) : LINE;
    if (*s.from++ != '\t')
        return LINE;
    const uint8_t *tab = find(s, '\t');
    if (!tab)
        return kind == 't' ? read_target(r, s) : LINE;
    piece second = {tab + 1, s.end};
    if (kind != 'p' || find(second, '\t'))
        return LINE;
    return read_point(r, (piece){s.from, tab}, second);
}

static senruhobi_reading refused(uint32_t refusal, uint32_t line)
{
    return (senruhobi_reading){.refusal = refusal, .line = line};
}

/* The points go into a buffer of our own first: nothing is written to the lent one before the last line is judged. */
senruhobi_reading twin_read_route(const uint8_t *text, size_t bytes, int32_t *buffer, size_t numbers)
{
    if (bytes > MOST_BYTES)
        return refused(TEXT, 0);
    route r;
    r.before = 0, r.points = 0, r.has_target = 0, r.target = 0;
    if (bytes >= HEADER_BYTES && memcmp(text, point_header, HEADER_BYTES) == 0)
        r.mark = '.', r.other = ',';
    else if (bytes >= HEADER_BYTES && memcmp(text, comma_header, HEADER_BYTES) == 0)
        r.mark = ',', r.other = '.';
    else
        return refused(HEADER, 1);
    piece rest = {text + HEADER_BYTES, text + bytes};
    for (r.line = 2; rest.from < rest.end; r.line++) {
        const uint8_t *lf = find(rest, '\n');
        uint8_t kind = *rest.from;
        uint32_t refusal = lf ? read_line(&r, (piece){rest.from, lf}) : LINE;
        if (refusal)
            return refused(refusal, r.line);
        r.before = kind;
        rest.from = lf + 1;
    }
    if (r.before == 'g')
        return refused(ORDER, r.line - 1);
    if (numbers < NUMBERS * r.points)
        return refused(ROOM, 0);
    memcpy(buffer, r.buffer, NUMBERS * r.points * sizeof *buffer);
    return (senruhobi_reading){.points = r.points, .has_target = r.has_target, .length = measure(r.buffer, r.points), .target = r.target};
}

/* Writing a route */

enum { DECIMALS = 7, PARTS = 10000000 };

/* A number as it is written: at most three digits before the mark, and ten-millionths behind it. */
typedef struct { uint32_t minus, whole, parts; } decimal;

static decimal degrees(int32_t angle)
{
    return (decimal){angle < 0, size(angle) / DEGREE, size(angle) % DEGREE};
}

static decimal kilometres(uint64_t target)
{
    return (decimal){0, (uint32_t)(target / KILOMETRE), (uint32_t)(target % KILOMETRE) * (PARTS / KILOMETRE)};
}

/* Of a tab and the number behind it. */
static size_t field_bytes(decimal z)
{
    size_t bytes = 2 + z.minus + (z.whole >= 10) + (z.whole >= 100);
    if (z.parts == 0)
        return bytes;
    bytes += 1 + DECIMALS;
    for (uint32_t rest = z.parts; rest % 10 == 0; rest /= 10)
        bytes--;
    return bytes;
}

/* Decimals are written until nothing is left, so the last is no zero. */
static uint8_t *write_field(uint8_t *to, decimal z, uint8_t mark)
{
    *to++ = '\t';
    if (z.minus)
        *to++ = '-';
    if (z.whole >= 100)
        *to++ = (uint8_t)('0' + z.whole / 100);
    if (z.whole >= 10)
        *to++ = (uint8_t)('0' + z.whole / 10 % 10);
    *to++ = (uint8_t)('0' + z.whole % 10);
    if (z.parts)
        *to++ = mark;
    for (uint32_t rest = z.parts; rest; rest = rest * 10 % PARTS)
        *to++ = (uint8_t)('0' + rest * 10 / PARTS);
    return to;
}

/* Beside its fields a line has its kind and LF. */
static size_t route_bytes(const int32_t *points, size_t numbers, uint32_t has_target, uint64_t target)
{
    size_t bytes = HEADER_BYTES;
    if (has_target)
        bytes += 2 + field_bytes(kilometres(target));
    for (size_t i = 0; i < numbers; i += NUMBERS)
        bytes += (i && points[i + 2] ? 4 : 2) + field_bytes(degrees(points[i])) + field_bytes(degrees(points[i + 1]));
    return bytes;
}

static void write_route(uint8_t *to, const int32_t *points, size_t numbers, uint32_t has_target, uint64_t target, uint32_t comma)
{
    uint8_t mark = comma ? ',' : '.';
    memcpy(to, comma ? comma_header : point_header, HEADER_BYTES);
    to += HEADER_BYTES;
    if (has_target) {
        *to++ = 't';
        to = write_field(to, kilometres(target), mark);
        *to++ = '\n';
    }
    for (size_t i = 0; i < numbers; i += NUMBERS) {
        if (i && points[i + 2]) {
            *to++ = 'g';
            *to++ = '\n';
        }
        *to++ = 'p';
        to = write_field(to, degrees(points[i]), mark);
        to = write_field(to, degrees(points[i + 1]), mark);
        *to++ = '\n';
    }
}

/* The bytes are as many under either mark. */
senruhobi_written twin_route_size(const int32_t *points, size_t numbers, uint32_t has_target, uint64_t target, uint32_t comma)
{
    (void)comma;
    uint32_t refusal = buffer_refusal(points, numbers);
    if (!refusal && has_target && (target % METRE || target > MOST_TARGET))
        refusal = TARGET;
    if (refusal)
        return (senruhobi_written){.refusal = refusal};
    return (senruhobi_written){.bytes = route_bytes(points, numbers, has_target, target)};
}

/* The text is counted first: nothing is written to an output without room for all of it. */
senruhobi_written twin_write_route(const int32_t *points, size_t numbers, uint32_t has_target, uint64_t target, uint32_t comma,
                                   uint8_t *out, size_t bytes, size_t place)
{
    senruhobi_written counted = twin_route_size(points, numbers, has_target, target, comma);
    if (counted.refusal)
        return counted;
    if (place > bytes || bytes - place < counted.bytes)
        return (senruhobi_written){.refusal = OUTPUT};
    write_route(out + place, points, numbers, has_target, target, comma);
    return counted;
}

/* The pen */

/* An edge that is NaN is below nothing. */
static uint32_t pen_refusal(double left, double right, double bottom, double top, uint32_t divisor)
{
    return !(left < right && bottom < top) ? WINDOW : divisor < 1 || divisor > MOST_DIVISOR ? DIVISOR : 0;
}

senruhobi_step twin_pen_step(uint32_t pen, double left, double right, double bottom, double top,
                             uint32_t divisor, int32_t meridian, int32_t latitude, int32_t longitude, int32_t third)
{
    uint32_t refusal = pen_refusal(left, right, bottom, top, divisor);
    if (!refusal)
        refusal = sheet_refusal(latitude, longitude, meridian);
    if (refusal)
        return (senruhobi_step){.refusal = refusal, .pen = pen};
    int64_t x = offset(longitude, meridian) * (int64_t)short_cosine(latitude) / SHORT_UNIT * DEGREE_LENGTH / DEGREE;
    int64_t y = (int64_t)latitude * DEGREE_LENGTH / DEGREE;
    if (!(left <= (double)x && (double)x <= right && bottom <= (double)y && (double)y <= top))
        return (senruhobi_step){.pen = 0};
    uint32_t stroke = pen && third == 0 ? 2 : 1;
    return (senruhobi_step){.stroke = stroke, .x = (double)x / divisor, .y = (double)y / divisor, .pen = 1};
}
