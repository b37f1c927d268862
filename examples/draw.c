/* Reads a route, prints its length, and says whether it meets its target and what a pen draws of it on a page of 1,000 metres a pixel. */
#include <stdio.h>
#include <senruhobi.h>

static const char text[] = "route\tcomma\n"
                           "t\t55,5\n"
                           "p\t60\t10\n"
                           "p\t60\t11\n"
                           "g\n"
                           "p\t60,5\t10,5\n"
                           "p\t-33,9\t151,2\n";

int main(void)
{
    int32_t numbers[SENRUHOBI_MOST_NUMBERS];
    senruhobi_reading route = senruhobi_read_route((const uint8_t *)text, sizeof text - 1, numbers, SENRUHOBI_MOST_NUMBERS);
    if (route.refusal) {
        printf("refused: %u at line %u\n", route.refusal, route.line);
        return 1;
    }
    printf("%u points, %llu mm\n", route.points, (unsigned long long)route.length);
    if (route.has_target) {
        senruhobi_met plan = senruhobi_target_met(numbers, SENRUHOBI_NUMBERS * route.points, route.target);
        printf("target %llu mm, %s: %u points looked at\n", (unsigned long long)route.target, plan.met ? "met" : "not met", plan.points);
    }

    /* a window from the middle of the sheet to the north-east, in millimetres */
    const double left = 0, right = 1e9, bottom = 0, top = 1e10;
    uint32_t pen = 0;
    for (uint32_t i = 0; i < route.points; i++) {
        const int32_t *p = numbers + SENRUHOBI_NUMBERS * i;
        senruhobi_step s = senruhobi_pen_step(pen, left, right, bottom, top, 1000000, 0, p[0], p[1], p[2]);
        if (s.refusal)
            printf("refused: %u\n", s.refusal);
        else if (s.stroke == SENRUHOBI_OUTSIDE)
            printf("outside\n");
        else
            printf("%s %.6f %.6f\n", s.stroke == SENRUHOBI_LINE ? "line" : "move", s.x, s.y);
        pen = s.pen;
    }
    return 0;
}
