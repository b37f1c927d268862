/* How much stack each door takes, in bytes: marks the stack below, calls the door, and looks how far down the marks are gone. */
#include <senruhobi.h>

int printf(const char *, ...);
int sprintf(char *restrict, const char *restrict, ...);

enum { ROOM = 1 << 18, MARK = 0xa5 };
static int32_t points[SENRUHOBI_MOST_NUMBERS];
static char text[SENRUHOBI_MOST_BYTES];

__attribute__((noinline)) static void mark(void)
{
    volatile uint8_t stack[ROOM];
    for (int i = 0; i < ROOM; i++)
        stack[i] = MARK;
}

/* Lies where `mark` lay: what it finds there was left by the call between them. */
__attribute__((noinline)) static int taken(void)
{
    volatile uint8_t stack[ROOM];
    int i = 0;
    while (i < ROOM && stack[i] == MARK)
        i++;
    return ROOM - i;
}

#define SAY(door, ...) (mark(), (void)senruhobi_##door(__VA_ARGS__), printf("%s %d\n", #door, taken()))

int main(void)
{
    int bytes = sprintf(text, "route\tpoint\n");
    for (int i = 0; i < SENRUHOBI_MOST_POINTS; i++)
        bytes += sprintf(text + bytes, "p\t%d.%d\t-%d\n", i % 90, i, i % 180);
    SAY(long_sine, 123456789);
    SAY(short_sine, 123456789);
    SAY(long_sine_half, 123456789);
    SAY(cylindrical, 1, 2, 3);
    SAY(sinusoidal, 1, 2, 3);
    SAY(cylindrical_back, -1, 17453, 3);
    SAY(sinusoidal_back, 0, 1, 3);
    SAY(leg, 1, 2, 3, 4);
    SAY(course, 1, 2, 3, 4);
    SAY(root_steps, 18446744073709551615u);
    SAY(read_route, (const uint8_t *)text, bytes, points, SENRUHOBI_MOST_NUMBERS);
    SAY(measure, points, SENRUHOBI_MOST_NUMBERS);
    SAY(target_met, points, SENRUHOBI_MOST_NUMBERS, 999999000);
    SAY(route_size, points, SENRUHOBI_MOST_NUMBERS, 1, 123456000, 1);
    SAY(write_route, points, SENRUHOBI_MOST_NUMBERS, 1, 123456000, 1, (uint8_t *)text, sizeof text, 0);
    SAY(pen_step, 0, -1e12, 1e12, -1e12, 1e12, 1, 0, 1, 2, 0);
    return 0;
}
