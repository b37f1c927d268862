/* The doors for C, a line in, a line out. A line in is a door's name, without its prefix, and its arguments; the line out has every field
   of the answer, in the order of the struct. Whole numbers are decimal, a float is the 16 hex digits of its bits.

   "read_route ROOM :TEXT" lends a buffer of ROOM numbers; TEXT is in hex digits. Behind the fields of the answer stand 1, or 0 where
   anything but the buffer was changed, and then all the numbers of the buffer. "measure COUNT NUMBER .." lends COUNT numbers; behind the
   fields stands 1, or 0 where a number was changed, of these or around them. "target_met COUNT NUMBER .. TARGET" and "route_size COUNT
   NUMBER .. HAS_TARGET TARGET COMMA" do the same. "write_route COUNT NUMBER .. HAS_TARGET TARGET COMMA ROOM FROM" lends COUNT numbers and an
   output of ROOM bytes, to be written to from FROM on. Behind the fields stand 1, or 0 where anything but the output was changed, and then
   :OUTPUT in hex digits. A text or an output of no bytes and a buffer of no numbers are NULL.

   Before these five may stand "at PLACE": where in their memory text, buffer and output lie, counted in bytes and in numbers. At 0 the first
   byte or number is the first of the memory, at 1 the second; at -1 the last one is the last of the memory, at -2 the last but one. What lies
   before and behind the memory may not be read. A text, a buffer or an output of none is then not NULL: it points to its place.

   Or "far COUNT": the buffer is said to have COUNT numbers, or the output COUNT bytes, and what is more than its memory holds may not be
   read. "far_text COUNT" reads a text of COUNT bytes, none of which may be read, into no buffer; "far_points COUNT" writes a buffer of COUNT
   such numbers into no output.

   A door that reads or writes where it may not ends the driver, and so does memory that cannot be had; the driver then says so.

   The kit has a C library and no headers, so what is called of it is declared here. */
#include <senruhobi.h>

int scanf(const char *, ...);
int printf(const char *, ...);
int dprintf(int, const char *, ...);
int strcmp(const char *, const char *);
size_t strlen(const char *);
void free(void *);
void *mmap(void *, size_t, int, int, int, long);
int mprotect(void *, size_t, int);
void (*signal(int, void (*)(int)))(int);
void exit(int);
void _exit(int);

/* The numbers that these have on Linux for x86-64. */
enum { PROT_NONE = 0, PROT_READ = 1, PROT_WRITE = 2, MAP_PRIVATE = 0x2, MAP_ANONYMOUS = 0x20, MAP_NORESERVE = 0x4000, SIGSEGV = 11 };

/* What is protected at a time: a page or several, as pages have 4, 16 or 64 KiB. */
enum { BLOCK = 65536 };
/* The memory for a text, in bytes, for a buffer, in numbers, and for an output, in bytes; and where they lie in it unless something else is said. */
enum { TEXTS = 4 * BLOCK, NUMBERS = BLOCK / sizeof(int32_t), OUTPUTS = BLOCK, MIDDLE = 4096 };
static uint8_t *texts, *outputs;
static int32_t *numbers;
/* the buffer and the output, inside that memory, of which the rest has to stay as it is */
static int32_t *lent;
static uint8_t *out;

/* Memory with a block before it and so many bytes behind it that may not be read. */
static void *memory(size_t bytes, size_t behind)
{
    const size_t all = 2 * BLOCK + bytes + behind;
    uint8_t *begin = mmap(0, all, PROT_NONE, MAP_PRIVATE | MAP_ANONYMOUS | MAP_NORESERVE, -1, 0);
    uint8_t *found = begin + 2 * BLOCK - (size_t)begin % BLOCK; /* a multiple of BLOCK, so that it ends where pages end */
    if (begin == (void *)-1 || mprotect(found, bytes, PROT_READ | PROT_WRITE)) {
        dprintf(2, "no address space of %lu bytes\n", all);
        exit(1);
    }
    return found;
}

/* A block with 2^32 numbers behind it, and as many as fit into a block, that may not be read. */
static void *far(void)
{
    static void *found;
    if (!found)
        found = memory(BLOCK, ((size_t)1 << 34) + BLOCK);
    return found;
}

/* Where something begins that has so many units and is at a place in memory of so many. */
static size_t begin_of(size_t units, long place, size_t most)
{
    const size_t begin = place < 0 ? most - units + place + 1 : (size_t)place;
    if (units > most || begin > most - units) {
        dprintf(2, "no room for %lu at %ld\n", units, place);
        exit(1);
    }
    return begin;
}

/* The pointer that a door gets to it. */
static void *pointer(void *begin, size_t units, long place) { return units || place != MIDDLE ? begin : 0; }

/* What stands at each place before a call: out of range, so that no reader writes it, and nowhere the same. */
static int32_t filling(long place) { return -2000000000 - place; }
/* In an output: no byte of a text, so that no writer writes it, and not the same side by side. */
static uint8_t byte_filling(long place) { return 128 | (place & 127); }

static void fill(size_t room, long place)
{
    lent = numbers + begin_of(room, place, NUMBERS);
    for (int32_t *n = numbers; n < numbers + NUMBERS; n++)
        *n = filling(n - lent);
}

static int guarded(size_t room)
{
    int kept = 1;
    for (int32_t *n = numbers; n < lent; n++)
        kept &= *n == filling(n - lent);
    for (int32_t *n = lent + room; n < numbers + NUMBERS; n++)
        kept &= *n == filling(n - lent);
    return kept;
}

static void fill_output(size_t room, long place)
{
    out = outputs + begin_of(room, place, OUTPUTS);
    for (uint8_t *b = outputs; b < outputs + OUTPUTS; b++)
        *b = byte_filling(b - out);
}

static int output_guarded(size_t room)
{
    int kept = 1;
    for (uint8_t *b = outputs; b < out; b++)
        kept &= *b == byte_filling(b - out);
    for (uint8_t *b = out + room; b < outputs + OUTPUTS; b++)
        kept &= *b == byte_filling(b - out);
    return kept;
}

static unsigned digit(char c) { return c <= '9' ? c - '0' : c - 'a' + 10; }
static uint8_t byte_at(const char *hex, size_t k) { return digit(hex[2 * k]) << 4 | digit(hex[2 * k + 1]); }

static int same(const uint8_t *text, const char *hex, size_t bytes)
{
    for (size_t k = 0; k < bytes; k++)
        if (text[k] != byte_at(hex, k))
            return 0;
    return 1;
}

union number { uint64_t bits; double value; };

static void say_step(senruhobi_step r)
{
    union number x = { .value = r.x }, y = { .value = r.y };
    printf("%u %u %016lx %016lx %u", r.refusal, r.stroke, x.bits, y.bits, r.pen);
}

static void say_working(senruhobi_working r)
{
    printf("%lu %lu", r.root, r.count);
    for (int k = 0; k < SENRUHOBI_MOST_PAIRS; k++)
        printf(" %lu %lu %lu", r.steps[k].pair, r.steps[k].digit, r.steps[k].rest);
}

static void say_sine(senruhobi_sine r) { printf("%u %ld", r.refusal, r.value); }
static void say_place(senruhobi_place r) { printf("%u %ld %ld", r.refusal, r.x, r.y); }
static void say_point(senruhobi_point r) { printf("%u %d %d", r.refusal, r.latitude, r.longitude); }
static void say_length(senruhobi_length r) { printf("%u %lu", r.refusal, r.millimetres); }
static void say_met(senruhobi_met r) { printf("%u %u %u", r.refusal, r.met, r.points); }
static void say_direction(senruhobi_direction r) { printf("%u %u", r.refusal, r.ticks); }
static void say_written(senruhobi_written r) { printf("%u %lu", r.refusal, r.bytes); }
static void say_reading(senruhobi_reading r) { printf("%u %u %u %u %lu %lu", r.refusal, r.line, r.points, r.has_target, r.length, r.target); }

/* The count of a buffer or an output is its room unless it is said to be far. */

static void read_route(size_t room, size_t count, long place, const char *hex)
{
    const size_t bytes = strlen(hex) / 2;
    uint8_t *text = texts + begin_of(bytes, place, TEXTS);
    for (size_t k = 0; k < bytes; k++)
        text[k] = byte_at(hex, k);
    if (text + bytes < texts + TEXTS)
        text[bytes] = '\n'; /* a reader that goes on behind the text would take its last line for ended */
    fill(room, place);
    say_reading(senruhobi_read_route(pointer(text, bytes, place), bytes, pointer(lent, room, place), count ? count : room));
    printf(" %d", guarded(room) && same(text, hex, bytes));
    for (size_t k = 0; k < room; k++)
        printf(" %d", lent[k]);
}

static int32_t given[NUMBERS];

/* Lends a buffer of so many numbers, those of the line. */
static void lend(size_t room, long place)
{
    fill(room, place);
    for (size_t k = 0; k < room; k++) {
        if (scanf("%d", given + k) != 1)
            exit(1);
        lent[k] = given[k];
    }
}

static int unchanged(size_t room)
{
    int kept = guarded(room);
    for (size_t k = 0; k < room; k++)
        kept &= lent[k] == given[k];
    return kept;
}

static void measure(size_t room, size_t count, long place)
{
    lend(room, place);
    say_length(senruhobi_measure(pointer(lent, room, place), count ? count : room));
    printf(" %d", unchanged(room));
}

static void target_met(size_t room, size_t count, long place)
{
    uint64_t target;
    lend(room, place);
    if (scanf("%lu", &target) != 1)
        exit(1);
    say_met(senruhobi_target_met(pointer(lent, room, place), count ? count : room, target));
    printf(" %d", unchanged(room));
}

static void route_size(size_t room, size_t count, long place)
{
    uint32_t has_target, comma;
    uint64_t target;
    lend(room, place);
    if (scanf("%u%lu%u", &has_target, &target, &comma) != 3)
        exit(1);
    say_written(senruhobi_route_size(pointer(lent, room, place), count ? count : room, has_target, target, comma));
    printf(" %d", unchanged(room));
}

static void write_route(size_t many, size_t count, long place)
{
    uint32_t has_target, comma;
    uint64_t target;
    size_t room, from;
    lend(many, place);
    if (scanf("%u%lu%u%lu%lu", &has_target, &target, &comma, &room, &from) != 5)
        exit(1);
    fill_output(room, place);
    say_written(senruhobi_write_route(pointer(lent, many, place), many, has_target, target, comma,
                                      pointer(out, room, place), count ? count : room, from));
    printf(" %d :", unchanged(many) && output_guarded(room));
    for (size_t k = 0; k < room; k++)
        printf("%02x", out[k]);
}

static char door[32];
static int line;
static int is(const char *name) { return !strcmp(door, name); }

static void trespassed(int number)
{
    (void)number;
    dprintf(2, "%s in line %d read or wrote where it may not\n", door, line);
    _exit(1);
}

int main(void)
{
    int32_t a, b, c, d;
    int64_t x, y;
    uint64_t number;
    uint32_t pen, divisor;
    union number left, right, bottom, top;
    char *text;
    signal(SIGSEGV, trespassed);
    texts = memory(TEXTS, BLOCK);
    int32_t *const near_numbers = memory(BLOCK, BLOCK);
    uint8_t *const near_outputs = memory(BLOCK, BLOCK);
    for (line = 1; scanf("%31s", door) == 1; line++) {
        long place = MIDDLE;
        size_t room, count = 0;
        if (is("at") && scanf("%ld%31s", &place, door) != 2)
            return 1;
        if (is("far") && scanf("%lu%31s", &count, door) != 2)
            return 1;
        numbers = count && !is("write_route") ? far() : near_numbers;
        outputs = count && is("write_route") ? far() : near_outputs;
        if (is("long_sine") && scanf("%d", &a) == 1)
            say_sine(senruhobi_long_sine(a));
        else if (is("short_sine") && scanf("%d", &a) == 1)
            say_sine(senruhobi_short_sine(a));
        else if (is("long_sine_half") && scanf("%d", &a) == 1)
            say_sine(senruhobi_long_sine_half(a));
        else if (is("cylindrical") && scanf("%d%d%d", &a, &b, &c) == 3)
            say_place(senruhobi_cylindrical(a, b, c));
        else if (is("sinusoidal") && scanf("%d%d%d", &a, &b, &c) == 3)
            say_place(senruhobi_sinusoidal(a, b, c));
        else if (is("cylindrical_back") && scanf("%ld%ld%d", &x, &y, &a) == 3)
            say_point(senruhobi_cylindrical_back(x, y, a));
        else if (is("sinusoidal_back") && scanf("%ld%ld%d", &x, &y, &a) == 3)
            say_point(senruhobi_sinusoidal_back(x, y, a));
        else if (is("leg") && scanf("%d%d%d%d", &a, &b, &c, &d) == 4)
            say_length(senruhobi_leg(a, b, c, d));
        else if (is("course") && scanf("%d%d%d%d", &a, &b, &c, &d) == 4)
            say_direction(senruhobi_course(a, b, c, d));
        else if (is("root_steps") && scanf("%lu", &number) == 1)
            say_working(senruhobi_root_steps(number));
        else if (is("pen_step") && scanf("%u%lx%lx%lx%lx%u%d%d%d%d", &pen, &left.bits, &right.bits, &bottom.bits, &top.bits, &divisor,
                                         &a, &b, &c, &d) == 10)
            say_step(senruhobi_pen_step(pen, left.value, right.value, bottom.value, top.value, divisor, a, b, c, d));
        else if (is("measure") && scanf("%lu", &room) == 1)
            measure(room, count, place);
        else if (is("target_met") && scanf("%lu", &room) == 1)
            target_met(room, count, place);
        else if (is("route_size") && scanf("%lu", &room) == 1)
            route_size(room, count, place);
        else if (is("write_route") && scanf("%lu", &room) == 1)
            write_route(room, count, place);
        else if (is("read_route") && scanf("%lu%ms", &room, &text) == 2) {
            read_route(room, count, place, text + 1);
            free(text);
        } else if (is("far_text") && scanf("%lu", &count) == 1)
            say_reading(senruhobi_read_route((uint8_t *)far() + BLOCK, count, 0, 0));
        else if (is("far_points") && scanf("%lu", &count) == 1)
            say_written(senruhobi_write_route((int32_t *)far() + NUMBERS, count, 0, 0, 0, 0, 0, 0));
        else
            return 1;
        printf("\n");
    }
    return 0;
}
