/* Times each door against its twin and against the usual way, on the same inputs, and prints what a call costs and the ratios. A door and
   its twin have to answer the same: where they do not, this says so and ends with status 1. */
#include "twin.h"
#include "usual.h"

struct timespec { long tv_sec, tv_nsec; };
int clock_gettime(int, struct timespec *);
int memcmp(const void *, const void *, size_t);
void *memcpy(void *restrict, const void *restrict, size_t);
int printf(const char *restrict, ...);
int sprintf(char *restrict, const char *restrict, ...);

enum { SEED = 1395, CALLS = 1000, POINTS = SENRUHOBI_MOST_POINTS, NUMBERS = SENRUHOBI_MOST_NUMBERS, FEW_POINTS = 10, REPETITIONS = 60 };
enum { QUARTER = 900000000, HALF_TURN = 1800000000, DEGREE = 10000000 };
enum { STRIDE = 5000 }; /* a step of a walk, in ticks: up to some 50 metres either way */
enum { MONOTONIC = 1 }; /* clock_gettime's number for the clock that nobody sets */

#define SECTION 1e6 /* the least nanoseconds between two looks at the clock, unless each is asked for once */
#define EDGE 5e9 /* the pen's window, in millimetres either way: some points lie in it and some do not */
#define DIVISOR 1000
#define TARGET 42195000 /* in millimetres */
#define NEAR_H 100000000 /* about the most that H is in a step of a walk */
#define FAR_H 4000000000000000000 /* and half round the globe */

/* Inputs */

/* In ticks for a door and its twin, but for the angle, from 0 to 90 degrees, which is in half ticks; in degrees for the usual way. The fields
   have the same names, so that the calls read alike. */
typedef struct {
    int32_t latitude, longitude, meridian, latitude2, longitude2, angle, third, pen;
    senruhobi_place cylindrical, sinusoidal;
} input;

typedef struct {
    double latitude, longitude, meridian, latitude2, longitude2, angle;
    int32_t third, pen;
    usual_place cylindrical, sinusoidal;
} usual_input;

static input accepted[CALLS], refused[CALLS];
static const input *ticks; /* one of the two */
static usual_input degrees[CALLS];

/* Routes with points from all round the globe (far) and of a walk (near). In a joined one a leg goes into each point but the first; in a
   parted one `g` stands between all points, and there is no leg. Each text ends in a zero byte, for strtod. */
typedef struct { char bytes[60001]; size_t length; } text;

static text far_joined, far_parted, near_joined, near_parted, few_points, no_points;
static int32_t senruhobi_buffer[NUMBERS], twin_buffer[NUMBERS];
static double usual_buffer[NUMBERS];
static uint8_t senruhobi_output[SENRUHOBI_MOST_WRITTEN], twin_output[SENRUHOBI_MOST_WRITTEN];
static char usual_output[SENRUHOBI_MOST_WRITTEN + 1]; /* with a zero byte */

/* The points of the joined routes, in ticks and in degrees. */
static int32_t near_points[NUMBERS], far_points[NUMBERS];
static double near_degrees[NUMBERS], far_degrees[NUMBERS];

/* A target is the length of so many of the near points, from the first, by the twin and by the usual way: the last of them meets it. */
typedef struct { uint64_t exact; double usual; } target;

static target target_10, target_500, target_1000;

/* Numbers of the sizes that H has in near legs and in far ones, by turns. */
static uint64_t h[CALLS];

/* A number up to most, by splitmix64. */
static uint64_t up_to(uint64_t most)
{
    static uint64_t state = SEED;
    uint64_t z = state += 0x9e3779b97f4a7c15;
    z = (z ^ z >> 30) * 0xbf58476d1ce4e5b9;
    z = (z ^ z >> 27) * 0x94d049bb133111eb;
    z ^= z >> 31;
    return z % (most + 1);
}

static int32_t between(int64_t least, int64_t most)
{
    return (int32_t)(least + (int64_t)up_to((uint64_t)(most - least)));
}

static int32_t some_latitude(void)
{
    return between(-QUARTER, QUARTER);
}

static int32_t some_longitude(void)
{
    return between(-HALF_TURN, HALF_TURN - 1);
}

static double in_degrees(int32_t angle)
{
    return angle / (double)DEGREE;
}

/* The ways back get the places of the same points. */
static void make_input(input *t, usual_input *d)
{
    t->latitude = some_latitude(), d->latitude = in_degrees(t->latitude);
    t->longitude = some_longitude(), d->longitude = in_degrees(t->longitude);
    t->meridian = some_longitude(), d->meridian = in_degrees(t->meridian);
    t->latitude2 = some_latitude(), d->latitude2 = in_degrees(t->latitude2);
    t->longitude2 = some_longitude(), d->longitude2 = in_degrees(t->longitude2);
    t->angle = between(0, 2 * QUARTER), d->angle = in_degrees(t->angle) / 2;
    t->third = d->third = between(0, 1);
    t->pen = d->pen = between(0, 1);
    t->cylindrical = twin_cylindrical(t->latitude, t->longitude, t->meridian);
    t->sinusoidal = twin_sinusoidal(t->latitude, t->longitude, t->meridian);
    d->cylindrical = usual_cylindrical(d->latitude, d->longitude, d->meridian);
    d->sinusoidal = usual_sinusoidal(d->latitude, d->longitude, d->meridian);
}

/* Whatever is asked of a refused input, its latitude, its longitude, its meridian or its angle forbids. */
static void make_inputs(void)
{
    for (int i = 0; i < CALLS; i++) {
        make_input(&accepted[i], &degrees[i]);
        refused[i] = (input){.latitude = QUARTER + 1, .longitude = HALF_TURN + 1, .meridian = HALF_TURN, .angle = -1};
    }
}

/* With all its seven decimals. */
static char *write_angle(char *to, int32_t angle)
{
    int32_t size = angle < 0 ? -angle : angle;
    return to + sprintf(to, "%s%d.%07d", angle < 0 ? "-" : "", size / DEGREE, size % DEGREE);
}

static void make_text(text *route, int32_t points[][2], int n, const char *parting)
{
    char *to = route->bytes + sprintf(route->bytes, "route\tpoint\n");
    for (int i = 0; i < n; i++) {
        to += sprintf(to, "%sp\t", i ? parting : "");
        to = write_angle(to, points[i][0]);
        to += sprintf(to, "\t");
        to = write_angle(to, points[i][1]);
        to += sprintf(to, "\n");
    }
    route->length = (size_t)(to - route->bytes);
}

static void make_points(int32_t points[][2], int32_t *ticks, double *degrees)
{
    for (int i = 0; i < POINTS; i++, ticks += SENRUHOBI_NUMBERS, degrees += SENRUHOBI_NUMBERS) {
        degrees[0] = in_degrees(ticks[0] = points[i][0]);
        degrees[1] = in_degrees(ticks[1] = points[i][1]);
        degrees[2] = ticks[2] = i == 0;
    }
}

static void make_routes(void)
{
    static int32_t far[POINTS][2], near[POINTS][2];
    int32_t latitude = 46 * DEGREE, longitude = 8 * DEGREE;
    for (int i = 0; i < POINTS; i++) {
        far[i][0] = some_latitude();
        far[i][1] = some_longitude();
        near[i][0] = latitude += between(-STRIDE, STRIDE);
        near[i][1] = longitude += between(-STRIDE, STRIDE);
    }
    make_text(&far_joined, far, POINTS, "");
    make_text(&far_parted, far, POINTS, "g\n");
    make_text(&near_joined, near, POINTS, "");
    make_text(&near_parted, near, POINTS, "g\n");
    make_text(&few_points, near, FEW_POINTS, "");
    make_text(&no_points, near, 0, "");
    make_points(near, near_points, near_degrees);
    make_points(far, far_points, far_degrees);
}

static target make_target(size_t points)
{
    size_t numbers = SENRUHOBI_NUMBERS * points;
    return (target){twin_measure(near_points, numbers).millimetres, usual_measure(near_degrees, numbers).value};
}

static void make_targets(void)
{
    target_10 = make_target(10);
    target_500 = make_target(500);
    target_1000 = make_target(1000);
}

static void make_h(void)
{
    for (int i = 0; i < CALLS; i++)
        h[i] = up_to(i % 2 ? FAR_H : NEAR_H);
}

/* Rounds: a call for each input, or one for a route. Each answers the sum of what it was answered, so that no call can be left out. */

static uint64_t bits(double x)
{
    uint64_t n;
    memcpy(&n, &x, sizeof n);
    return n;
}

#define ROUND(way, name, given, number, answer, call, added) \
    static uint64_t way##_##name##_round(void)               \
    {                                                        \
        number sum = 0;                                      \
        for (int i = 0; i < CALLS; i++) {                    \
            given[i];                                        \
            answer a = way##_##call;                         \
            sum += added;                                    \
        }                                                    \
        return (uint64_t)(int64_t)sum;                       \
    }

/* A door and its twin have one signature. */
#define EXACT(name, answer, call, added)                                             \
    ROUND(senruhobi, name, const input *in = &ticks, uint64_t, answer, call, added) \
    ROUND(twin, name, const input *in = &ticks, uint64_t, answer, call, added)

#define USUAL(name, answer, call, added) ROUND(usual, name, const usual_input *in = &degrees, double, answer, call, added)

#define PLACE a.refusal + (uint64_t)a.x + 3 * (uint64_t)a.y
#define POINT a.refusal + (uint64_t)a.latitude + 3 * (uint64_t)a.longitude
#define STEP pen_step(in->pen, -EDGE, EDGE, -EDGE, EDGE, DIVISOR, in->meridian, in->latitude, in->longitude, in->third)

EXACT(long_sine, senruhobi_sine, long_sine(in->longitude), a.refusal + (uint64_t)a.value)
EXACT(long_sine_half, senruhobi_sine, long_sine_half(in->angle), a.refusal + (uint64_t)a.value)
EXACT(short_sine, senruhobi_sine, short_sine(in->longitude), a.refusal + (uint64_t)a.value)
EXACT(cylindrical, senruhobi_place, cylindrical(in->latitude, in->longitude, in->meridian), PLACE)
EXACT(sinusoidal, senruhobi_place, sinusoidal(in->latitude, in->longitude, in->meridian), PLACE)
EXACT(cylindrical_back, senruhobi_point, cylindrical_back(in->cylindrical.x, in->cylindrical.y, in->meridian), POINT)
EXACT(sinusoidal_back, senruhobi_point, sinusoidal_back(in->sinusoidal.x, in->sinusoidal.y, in->meridian), POINT)
EXACT(leg, senruhobi_length, leg(in->latitude, in->longitude, in->latitude2, in->longitude2), a.refusal + a.millimetres)
EXACT(course, senruhobi_direction, course(in->latitude, in->longitude, in->latitude2, in->longitude2), a.refusal + (uint64_t)a.ticks)
EXACT(pen_step, senruhobi_step, STEP, a.refusal + a.stroke + a.pen + bits(a.x) + 3 * bits(a.y))

USUAL(long_sine, usual_number, sine(in->longitude), a.refused + a.value)
USUAL(long_sine_half, usual_number, quarter_sine(in->angle), a.refused + a.value)
USUAL(short_sine, usual_number, sine(in->longitude), a.refused + a.value)
USUAL(cylindrical, usual_place, cylindrical(in->latitude, in->longitude, in->meridian), a.refused + a.x + a.y)
USUAL(sinusoidal, usual_place, sinusoidal(in->latitude, in->longitude, in->meridian), a.refused + a.x + a.y)
USUAL(cylindrical_back, usual_point, cylindrical_back(in->cylindrical.x, in->cylindrical.y, in->meridian),
      a.refused + a.latitude + a.longitude)
USUAL(sinusoidal_back, usual_point, sinusoidal_back(in->sinusoidal.x, in->sinusoidal.y, in->meridian),
      a.refused + a.latitude + a.longitude)
USUAL(leg, usual_number, leg(in->latitude, in->longitude, in->latitude2, in->longitude2), a.refused + a.value)
USUAL(course, usual_number, course(in->latitude, in->longitude, in->latitude2, in->longitude2), a.refused + a.value)
USUAL(pen_step, usual_step, STEP, a.refused + a.stroke + a.pen + a.x + a.y)

/* All 32 numbers count, each in its place. To read them is a part of the time. */
static uint64_t working_sum(const senruhobi_working *w)
{
    uint64_t sum = w->root + 3 * w->count;
    for (int i = 0; i < SENRUHOBI_MOST_PAIRS; i++)
        sum = 9 * sum + w->steps[i].pair + 3 * w->steps[i].digit + 5 * w->steps[i].rest;
    return sum;
}

ROUND(senruhobi, root_steps, uint64_t number = h, uint64_t, senruhobi_working, root_steps(number), working_sum(&a))
ROUND(twin, root_steps, uint64_t number = h, uint64_t, senruhobi_working, root_steps(number), working_sum(&a))
ROUND(usual, root_steps, uint64_t number = h, uint64_t, senruhobi_working, root_steps(number), working_sum(&a))

#define READ_EXACT(way, route, kind, numbers)                                                                     \
    static uint64_t way##_##route##_##kind(void)                                                                  \
    {                                                                                                             \
        senruhobi_reading a = way##_read_route((const uint8_t *)route.bytes, route.length, way##_buffer, numbers); \
        return a.refusal + a.line + a.points + a.has_target + a.length + 3 * a.target;                            \
    }

#define READ_USUAL(route)                                                             \
    static uint64_t usual_##route##_round(void)                                       \
    {                                                                                 \
        usual_reading a = usual_read_route(route.bytes, usual_buffer, NUMBERS);       \
        return (uint64_t)(a.refused + a.points + a.has_target + a.length + a.target); \
    }

/* Without room for the points a route is refused once all its lines are judged. */
#define READ(route)                                   \
    READ_EXACT(senruhobi, route, round, NUMBERS)      \
    READ_EXACT(twin, route, round, NUMBERS)           \
    READ_EXACT(senruhobi, route, judging, 0)          \
    READ_EXACT(twin, route, judging, 0)               \
    READ_USUAL(route)

READ_EXACT(senruhobi, no_points, round, NUMBERS)
READ_EXACT(twin, no_points, round, NUMBERS)
READ(few_points)
READ(near_joined)
READ(near_parted)
READ(far_joined)
READ(far_parted)

#define MEASURE_EXACT(way, name, points, numbers)             \
    static uint64_t way##_measure_##name(void)                \
    {                                                         \
        senruhobi_length a = way##_measure(points, numbers);  \
        return a.refusal + a.millimetres;                     \
    }

#define MEASURE(name)                                                      \
    MEASURE_EXACT(senruhobi, name, name##_points, NUMBERS)                 \
    MEASURE_EXACT(twin, name, name##_points, NUMBERS)                      \
    static uint64_t usual_measure_##name(void)                             \
    {                                                                      \
        usual_number a = usual_measure(name##_degrees, NUMBERS);           \
        return (uint64_t)(a.refused + a.value);                            \
    }

MEASURE_EXACT(senruhobi, none, 0, 0)
MEASURE_EXACT(twin, none, 0, 0)
MEASURE(near)
MEASURE(far)

#define MEET_EXACT(way, name, buffer, numbers, target)               \
    static uint64_t way##_target_met_##name(void)                    \
    {                                                                \
        senruhobi_met a = way##_target_met(buffer, numbers, target); \
        return a.refusal + a.met + 3 * (uint64_t)a.points;           \
    }

/* All get the 1,000 near points. */
#define MEET(looked_at)                                                                  \
    MEET_EXACT(senruhobi, looked_at, near_points, NUMBERS, target_##looked_at.exact)     \
    MEET_EXACT(twin, looked_at, near_points, NUMBERS, target_##looked_at.exact)          \
    static uint64_t usual_target_met_##looked_at(void)                                   \
    {                                                                                    \
        usual_met a = usual_target_met(near_degrees, NUMBERS, target_##looked_at.usual); \
        return (uint64_t)(a.refused + a.met + 3 * a.points);                             \
    }

MEET_EXACT(senruhobi, none, 0, 0, TARGET)
MEET_EXACT(twin, none, 0, 0, TARGET)
MEET(10)
MEET(500)
MEET(1000)

/* A text's size and its writing are asked for alike: with a target, and a comma for a mark. */
#define SIZE_EXACT(way, name, points, numbers)                                 \
    static uint64_t way##_size_##name(void)                                    \
    {                                                                          \
        senruhobi_written a = way##_route_size(points, numbers, 1, TARGET, 1); \
        return a.refusal + a.bytes;                                            \
    }

#define SIZE(name, route, numbers)                                                  \
    SIZE_EXACT(senruhobi, name, route##_points, numbers)                            \
    SIZE_EXACT(twin, name, route##_points, numbers)                                 \
    static uint64_t usual_size_##name(void)                                         \
    {                                                                               \
        usual_written a = usual_route_size(route##_degrees, numbers, 1, TARGET, 1); \
        return (uint64_t)a.refused + a.bytes;                                       \
    }

SIZE(few, near, SENRUHOBI_NUMBERS * FEW_POINTS)
SIZE(near, near, NUMBERS)
SIZE(far, far, NUMBERS)

#define WRITE_EXACT(way, name, points, numbers)                                                                       \
    static uint64_t way##_write_##name(void)                                                                          \
    {                                                                                                                 \
        senruhobi_written a = way##_write_route(points, numbers, 1, TARGET, 1, way##_output, sizeof way##_output, 0); \
        return a.refusal + a.bytes;                                                                                   \
    }

#define WRITE(name, route, numbers)                                                                                     \
    WRITE_EXACT(senruhobi, name, route##_points, numbers)                                                               \
    WRITE_EXACT(twin, name, route##_points, numbers)                                                                    \
    static uint64_t usual_write_##name(void)                                                                            \
    {                                                                                                                   \
        usual_written a = usual_write_route(route##_degrees, numbers, 1, TARGET, 1, usual_output, sizeof usual_output); \
        return (uint64_t)a.refused + a.bytes;                                                                           \
    }

WRITE(few, near, SENRUHOBI_NUMBERS * FEW_POINTS)
WRITE(near, near, NUMBERS)
WRITE(far, far, NUMBERS)

/* Jobs */

/* Beside the three ways: a call that does nothing else than begin; and a reading that only judges the lines. */
enum { DOOR, TWIN, USUALLY, IDLE_DOOR, IDLE_TWIN, JUDGING_DOOR, JUDGING_TWIN, WAYS };

typedef struct {
    const char *name;
    int calls; /* in a round */
    uint64_t (*round[WAYS])(void); /* or none */
    const void *lent[TWIN + 1]; /* to the door and to its twin, or nothing */
    size_t lent_bytes; /* to each */
    int rounds[WAYS]; /* in a section */
    double best[WAYS]; /* nanoseconds a call */
    uint64_t sum[WAYS]; /* of one round */
    int differ;
} job;

/* A door that refuses its input, and one that reads or measures no points, are idle. */
#define EACH(door)                                                                                                  \
    {                                                                                                               \
        .name = #door, .calls = CALLS,                                                                              \
        .round = {[DOOR] = senruhobi_##door##_round, [TWIN] = twin_##door##_round, [USUALLY] = usual_##door##_round, \
                  [IDLE_DOOR] = senruhobi_##door##_round, [IDLE_TWIN] = twin_##door##_round}                        \
    }

/* Of a door that refuses nothing no call is idle. */
#define TABLELESS(door)                                                                                             \
    {                                                                                                               \
        .name = #door, .calls = CALLS,                                                                              \
        .round = {[DOOR] = senruhobi_##door##_round, [TWIN] = twin_##door##_round, [USUALLY] = usual_##door##_round} \
    }

#define READING(title, route)                                                                                          \
    {                                                                                                                  \
        .name = "read_route, " title, .calls = 1,                                                                      \
        .round = {[DOOR] = senruhobi_##route##_round, [TWIN] = twin_##route##_round, [USUALLY] = usual_##route##_round, \
                  [IDLE_DOOR] = senruhobi_no_points_round, [IDLE_TWIN] = twin_no_points_round,                         \
                  [JUDGING_DOOR] = senruhobi_##route##_judging, [JUDGING_TWIN] = twin_##route##_judging},              \
        .lent = {[DOOR] = senruhobi_buffer, [TWIN] = twin_buffer}, .lent_bytes = sizeof twin_buffer                    \
    }

#define MEASURING(door, title, name_)                                                                                    \
    {                                                                                                                    \
        .name = #door ", " title, .calls = 1,                                                                            \
        .round = {[DOOR] = senruhobi_##door##_##name_, [TWIN] = twin_##door##_##name_, [USUALLY] = usual_##door##_##name_, \
                  [IDLE_DOOR] = senruhobi_##door##_none, [IDLE_TWIN] = twin_##door##_none}                               \
    }

/* Neither a size nor a writing has a buffer of its own, so no call is idle. */
#define SIZING(title, name_)                                                                                   \
    {                                                                                                          \
        .name = "route_size, " title, .calls = 1,                                                              \
        .round = {[DOOR] = senruhobi_size_##name_, [TWIN] = twin_size_##name_, [USUALLY] = usual_size_##name_} \
    }

#define WRITING(title, name_)                                                                                      \
    {                                                                                                              \
        .name = "write_route, " title, .calls = 1,                                                                 \
        .round = {[DOOR] = senruhobi_write_##name_, [TWIN] = twin_write_##name_, [USUALLY] = usual_write_##name_}, \
        .lent = {[DOOR] = senruhobi_output, [TWIN] = twin_output}, .lent_bytes = sizeof twin_output                \
    }

enum {
    LONG_SINE, LONG_SINE_HALF, SHORT_SINE, CYLINDRICAL, SINUSOIDAL, CYLINDRICAL_BACK, SINUSOIDAL_BACK, LEG, COURSE, ROOT_STEPS, PEN_STEP,
    MEASURE_NEAR, MEASURE_FAR, MET_10, MET_500, MET_1000, READ_FEW, NEAR_JOINED, NEAR_PARTED, FAR_JOINED, FAR_PARTED, SIZE_FEW, SIZE_NEAR,
    SIZE_FAR, WRITE_FEW, WRITE_NEAR, WRITE_FAR, JOBS
};

static job jobs[JOBS] = {
    [LONG_SINE] = EACH(long_sine),
    [LONG_SINE_HALF] = EACH(long_sine_half),
    [SHORT_SINE] = EACH(short_sine),
    [CYLINDRICAL] = EACH(cylindrical),
    [SINUSOIDAL] = EACH(sinusoidal),
    [CYLINDRICAL_BACK] = EACH(cylindrical_back),
    [SINUSOIDAL_BACK] = EACH(sinusoidal_back),
    [LEG] = EACH(leg),
    [COURSE] = EACH(course),
    [ROOT_STEPS] = TABLELESS(root_steps),
    [PEN_STEP] = EACH(pen_step),
    [MEASURE_NEAR] = MEASURING(measure, "near", near),
    [MEASURE_FAR] = MEASURING(measure, "far", far),
    [MET_10] = MEASURING(target_met, "10 points", 10),
    [MET_500] = MEASURING(target_met, "500 points", 500),
    [MET_1000] = MEASURING(target_met, "1000 points", 1000),
    [READ_FEW] = READING("few points", few_points),
    [NEAR_JOINED] = READING("near, joined", near_joined),
    [NEAR_PARTED] = READING("near, parted", near_parted),
    [FAR_JOINED] = READING("far, joined", far_joined),
    [FAR_PARTED] = READING("far, parted", far_parted),
    [SIZE_FEW] = SIZING("few points", few),
    [SIZE_NEAR] = SIZING("near", near),
    [SIZE_FAR] = SIZING("far", far),
    [WRITE_FEW] = WRITING("few points", few),
    [WRITE_NEAR] = WRITING("near", near),
    [WRITE_FAR] = WRITING("far", far),
};

static double now(void)
{
    struct timespec t;
    clock_gettime(MONOTONIC, &t);
    return 1e9 * (double)t.tv_sec + (double)t.tv_nsec;
}

/* The nanoseconds of one section. */
static double section(job *j, int way)
{
    ticks = way == IDLE_DOOR || way == IDLE_TWIN ? refused : accepted;
    double start = now();
    for (int i = 0; i < j->rounds[way]; i++)
        j->sum[way] = j->round[way]();
    return now() - start;
}

/* So many rounds that a section is long enough for the clock. */
static void prepare(job *j, double least)
{
    for (int way = 0; way < WAYS; way++)
        for (j->rounds[way] = 1; j->round[way] && section(j, way) < least;)
            j->rounds[way] *= 2;
}

/* The door and its twin have to answer the same, and to leave the same in what was lent to them. */
static void compare(job *j)
{
    j->differ |= j->sum[DOOR] != j->sum[TWIN] || j->sum[IDLE_DOOR] != j->sum[IDLE_TWIN] ||
                 j->sum[JUDGING_DOOR] != j->sum[JUDGING_TWIN] ||
                 (j->lent_bytes && memcmp(j->lent[DOOR], j->lent[TWIN], j->lent_bytes) != 0);
}

static void repeat(job *j)
{
    for (int way = 0; way < WAYS && j->round[way]; way++) {
        double each = section(j, way) / j->rounds[way] / j->calls;
        if (j->best[way] == 0 || each < j->best[way])
            j->best[way] = each;
    }
    compare(j);
}

/* A rest below a twentieth of what is idle is little more than the noise of two large figures, and has no ratio. */
static void print_row(const char *name, const double *each, double idle)
{
    double door = each[DOOR], rest = door - idle, twin = each[TWIN], usual = each[USUALLY];
    char ratio[32] = "-";
    if (rest >= idle / 20)
        sprintf(ratio, "%.2f", rest / twin);
    printf("%-25s %9.1f %8.1f %9.1f %9.1f %9.1f %10.2f %10s %11.2f\n", name, door, idle, rest, twin, usual, door / twin, ratio,
           door / usual);
}

/* What a `g` line costs a reader, however often it reads a line: of the time for all lines, the share that it has of their judging. */
static double gap(const job *joined, const job *parted, int way)
{
    double lines = parted->best[way] - parted->best[IDLE_DOOR + way];
    double share = 1 - joined->best[JUDGING_DOOR + way] / parted->best[JUDGING_DOOR + way];
    return share * lines / (POINTS - 1);
}

/* The parted text has a `g` line in the place of each leg. To the usual way that is one byte more, and is let go. */
static void print_leg(const char *name, const job *joined, const job *parted)
{
    double each[] = {[DOOR] = gap(joined, parted, DOOR), [TWIN] = gap(joined, parted, TWIN), [USUALLY] = 0};
    for (int way = DOOR; way <= USUALLY; way++)
        each[way] += (joined->best[way] - parted->best[way]) / (POINTS - 1);
    print_row(name, each, 0);
}

/* The two lines before the first point are let go. */
static void print_point(const char *name, const job *j)
{
    double each[] = {[DOOR] = j->best[DOOR] / POINTS, [TWIN] = j->best[TWIN] / POINTS, [USUALLY] = j->best[USUALLY] / POINTS};
    print_row(name, each, 0);
}

static void print_jobs(int from, int end)
{
    for (int i = from; i < end; i++)
        print_row(jobs[i].name, jobs[i].best, jobs[i].best[IDLE_DOOR] - jobs[i].best[IDLE_TWIN]);
}

static void print_rows(void)
{
    printf("%-25s %9s %8s %9s %9s %9s %10s %10s %11s\n", "ns a call", "door", "idle", "rest", "twin", "usual", "door/twin", "rest/twin",
           "door/usual");
    print_jobs(0, SIZE_FEW);
    print_leg("a leg inside it, near", &jobs[NEAR_JOINED], &jobs[NEAR_PARTED]);
    print_leg("a leg inside it, far", &jobs[FAR_JOINED], &jobs[FAR_PARTED]);
    print_jobs(SIZE_FEW, JOBS);
    print_point("a point inside it, near", &jobs[WRITE_NEAR]);
    print_point("a point inside it, far", &jobs[WRITE_FAR]);
    printf("\n"
           "door    the library's own function; twin: the same rules in plain C; usual: sin, asin, atan2, sqrt, strtod, snprintf, doubles\n"
           "idle    an idle call (refused, or without points) less the twin's: a reading clears a buffer of its own, and no other call has one\n"
           "rest    door less idle; no ratio below a twentieth of it, where it is mostly noise\n"
           "few     %d points of a walk; near: %d of them; far: %d points from all round the globe\n"
           "met     once so many of the near points are looked at, out of %d\n"
           "joined  a leg into each point but the first; parted: `g` between all points, and no leg\n"
           "roots   of numbers as great as H is in near legs and in far ones, by turns\n"
           "size    of the text that write_route writes of the same points, without writing it\n"
           "a leg   (joined - parted) / %d, plus the cost of the `g` line that stands in its place in the parted text\n"
           "a point a call of write_route / %d, with the lines before the first point\n",
           FEW_POINTS, POINTS, POINTS, POINTS, POINTS - 1, POINTS);
}

/* The sums of one round each, so that every answer is used. Answers whether a door and its twin differ. */
static int print_sums(void)
{
    uint64_t sums[WAYS] = {0};
    int differ = 0;
    for (int i = 0; i < JOBS; i++) {
        for (int way = 0; way < WAYS; way++)
            sums[way] += jobs[i].sum[way];
        if (jobs[i].differ)
            printf("MISMATCH: %s: the door and its twin differ, in a sum or in a buffer\n", jobs[i].name);
        differ |= jobs[i].differ;
    }
    printf("sums    door %016lx, twin %016lx, usual %016lx\n", sums[DOOR], sums[TWIN], sums[USUALLY]);
    return differ;
}

/* With any argument each way is gone once, to see that all runs and agrees. */
int main(int arguments, char **words)
{
    (void)words;
    int repetitions = arguments > 1 ? 1 : REPETITIONS;
    printf("seed %d; the best of %d\n\n", SEED, repetitions);
    make_inputs();
    make_routes();
    make_targets();
    make_h();
    for (int i = 0; i < JOBS; i++)
        prepare(&jobs[i], arguments > 1 ? 0 : SECTION);
    /* turn by turn, so that a slow moment of the machine falls on all alike */
    for (int r = 0; r < repetitions; r++)
        for (int i = 0; i < JOBS; i++)
            repeat(&jobs[i]);
    print_rows();
    return print_sums();
}
