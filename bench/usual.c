/* The usual floating-point way: sin, cos, asin, atan2 and sqrt of the C library, the haversine, numbers read by strtod and written by snprintf.
   Ranges are checked, and nothing else that the document asks: answers are near, not exact, but for a root's; a text may be read that should
   be refused, and an output may be half written when its room ends. */
#include "usual.h"

double asin(double);
double atan2(double, double);
double cos(double);
double sin(double);
double sqrt(double);
double strtod(const char *restrict, char **restrict);
int snprintf(char *restrict, size_t, const char *restrict, ...);
char *strchr(const char *, int);
int strncmp(const char *, const char *, size_t);

#define RADIUS 6371000000.0 /* millimetres */
#define RADIAN (3.14159265358979323846 / 180)

static int is_latitude(double degrees)
{
    return -90 <= degrees && degrees <= 90;
}

static int is_longitude(double degrees)
{
    return -180 <= degrees && degrees < 180;
}

static int is_angle(double degrees)
{
    return -180 <= degrees && degrees <= 180;
}

static int is_point(double latitude, double longitude)
{
    return is_latitude(latitude) && is_longitude(longitude);
}

static int is_target(double millimetres)
{
    return 0 <= millimetres && millimetres < 1e9;
}

static double into_turn(double degrees)
{
    return degrees < -180 ? degrees + 360 : degrees >= 180 ? degrees - 360 : degrees;
}

usual_number usual_sine(double angle)
{
    if (!is_angle(angle))
        return (usual_number){.refused = 1};
    return (usual_number){.value = sin(angle * RADIAN)};
}

usual_number usual_quarter_sine(double angle)
{
    if (!(0 <= angle && angle <= 90))
        return (usual_number){.refused = 1};
    return (usual_number){.value = sin(angle * RADIAN)};
}

usual_place usual_cylindrical(double latitude, double longitude, double meridian)
{
    if (!is_longitude(meridian) || !is_point(latitude, longitude))
        return (usual_place){.refused = 1};
    return (usual_place){.x = RADIUS * RADIAN * into_turn(longitude - meridian), .y = RADIUS * sin(latitude * RADIAN)};
}

usual_place usual_sinusoidal(double latitude, double longitude, double meridian)
{
    if (!is_longitude(meridian) || !is_point(latitude, longitude))
        return (usual_place){.refused = 1};
    return (usual_place){.x = RADIUS * RADIAN * into_turn(longitude - meridian) * cos(latitude * RADIAN),
                         .y = RADIUS * RADIAN * latitude};
}

static usual_point point_at(double latitude, double offset, double meridian)
{
    if (!is_point(latitude, offset))
        return (usual_point){.refused = 1};
    return (usual_point){.latitude = latitude, .longitude = into_turn(meridian + offset)};
}

usual_point usual_cylindrical_back(double x, double y, double meridian)
{
    if (!is_longitude(meridian) || !(-RADIUS <= y && y <= RADIUS))
        return (usual_point){.refused = 1};
    return point_at(asin(y / RADIUS) / RADIAN, x / (RADIUS * RADIAN), meridian);
}

usual_point usual_sinusoidal_back(double x, double y, double meridian)
{
    double latitude = y / (RADIUS * RADIAN);
    if (!is_longitude(meridian) || !is_latitude(latitude))
        return (usual_point){.refused = 1};
    return point_at(latitude, x / (RADIUS * RADIAN * cos(latitude * RADIAN)), meridian);
}

static double leg_length(double latitude1, double longitude1, double latitude2, double longitude2)
{
    double p = sin((latitude2 - latitude1) * RADIAN / 2), q = sin((longitude2 - longitude1) * RADIAN / 2);
    double h = p * p + cos(latitude1 * RADIAN) * cos(latitude2 * RADIAN) * q * q;
    return 2 * RADIUS * asin(h < 1 ? sqrt(h) : 1);
}

usual_number usual_leg(double latitude1, double longitude1, double latitude2, double longitude2)
{
    if (!is_point(latitude1, longitude1) || !is_point(latitude2, longitude2))
        return (usual_number){.refused = 1};
    return (usual_number){.value = leg_length(latitude1, longitude1, latitude2, longitude2)};
}

usual_number usual_course(double latitude1, double longitude1, double latitude2, double longitude2)
{
    if (!is_point(latitude1, longitude1) || !is_point(latitude2, longitude2))
        return (usual_number){.refused = 1};
    double east = (longitude2 - longitude1) * RADIAN, cosine2 = cos(latitude2 * RADIAN);
    double n = cosine2 * sin(east);
    double d = cos(latitude1 * RADIAN) * sin(latitude2 * RADIAN) - sin(latitude1 * RADIAN) * cosine2 * cos(east);
    double course = atan2(n, d) / RADIAN;
    return n == 0 && d == 0 ? (usual_number){.refused = 1} : (usual_number){.value = course < 0 ? course + 360 : course};
}

/* By sqrt, and one less where the number has more bits than a double and was rounded up to a square. */
static uint64_t whole_root(uint64_t n)
{
    uint64_t root = (uint64_t)sqrt((double)n);
    return root > 0xffffffff || root * root > n ? root - 1 : root;
}

/* Not the school method: sqrt, once. The digits of the root are those that the steps find, and a step's rest is what its beginning of the
   number has over the square of its beginning of the root. */
senruhobi_working usual_root_steps(uint64_t number)
{
    senruhobi_working w = {.root = whole_root(number), .count = 1};
    for (uint64_t n = number; n >= 100; n /= 100)
        w.count++;
    for (uint64_t n = number, root = w.root, i = w.count; i-- > 0; n /= 100, root /= 10)
        w.steps[i] = (senruhobi_root_step){n % 100, root % 10, n - root * root};
    return w;
}

/* Into the first point there is no leg, and where the pen was up none is counted. */
static double leg_into(const double *points, const double *at)
{
    return at > points && at[2] == 0 ? leg_length(at[-SENRUHOBI_NUMBERS], at[1 - SENRUHOBI_NUMBERS], at[0], at[1]) : 0;
}

usual_number usual_measure(const double *points, size_t numbers)
{
    usual_number r = {0};
    if (numbers % SENRUHOBI_NUMBERS)
        return (usual_number){.refused = 1};
    for (const double *at = points; at < points + numbers; at += SENRUHOBI_NUMBERS) {
        if (!is_point(at[0], at[1]))
            return (usual_number){.refused = 1};
        r.value += leg_into(points, at);
    }
    return r;
}

/* Nothing is looked at behind the point that meets the target. */
usual_met usual_target_met(const double *points, size_t numbers, double target)
{
    usual_met r = {0};
    double length = 0;
    if (numbers % SENRUHOBI_NUMBERS || !is_target(target))
        return (usual_met){.refused = 1};
    for (const double *at = points; at < points + numbers && length < target; at += SENRUHOBI_NUMBERS) {
        if (!is_point(at[0], at[1]))
            return (usual_met){.refused = 1};
        length += leg_into(points, at);
        r.points++;
    }
    r.met = length >= target;
    return r;
}

/* The text ends in a zero byte. */
usual_reading usual_read_route(const char *text, double *buffer, size_t numbers)
{
    static const char header[] = "route\tpoint\n";
    const usual_reading refused = {.refused = 1};
    usual_reading r = {0};
    int joined = 0;
    if (strncmp(text, header, sizeof header - 1) != 0)
        return refused;
    char *end;
    for (const char *line = text + sizeof header - 1; *line; line = end + 1) {
        double *point = buffer + SENRUHOBI_NUMBERS * r.points;
        if (*line == 'p' && numbers >= SENRUHOBI_NUMBERS * (size_t)(r.points + 1)) {
            point[0] = strtod(line + 2, &end);
            point[1] = strtod(end + 1, &end);
            point[2] = !joined;
            if (!is_point(point[0], point[1]))
                return refused;
            if (joined)
                r.length += leg_length(point[-SENRUHOBI_NUMBERS], point[1 - SENRUHOBI_NUMBERS], point[0], point[1]);
            r.points++;
        } else if (*line == 't') {
            r.has_target = 1;
            r.target = 1e6 * strtod(line + 2, &end);
        } else if (*line == 'g') {
            end = (char *)line + 1;
        } else {
            return refused;
        }
        if (*end != '\n')
            return refused;
        joined = *line == 'p';
    }
    return r;
}

/* Without the zeros at the end. */
static void write_number(char *to, size_t room, int decimals, double value, int comma)
{
    char *end = to + snprintf(to, room, "%.*f", decimals, value);
    while (end[-1] == '0')
        end--;
    if (end[-1] == '.')
        end--;
    *end = 0;
    char *mark = comma ? strchr(to, '.') : 0;
    if (mark)
        *mark = ',';
}

static size_t least(size_t a, size_t b)
{
    return a < b ? a : b;
}

/* Line by line, each into the room that is left, with a zero byte at the end. As snprintf does, it counts also what has no room. */
static usual_written print_route(const double *points, size_t numbers, int has_target, double target, int comma, char *out, size_t bytes)
{
    const usual_written refused = {.refused = 1};
    char first[32], second[32];
    if (numbers % SENRUHOBI_NUMBERS || (has_target && !is_target(target)))
        return refused;
    size_t at = (size_t)snprintf(out, bytes, "route\t%s\n", comma ? "comma" : "point");
    if (has_target) {
        size_t used = least(at, bytes);
        write_number(first, sizeof first, 3, target / 1e6, comma);
        at += (size_t)snprintf(out + used, bytes - used, "t\t%s\n", first);
    }
    for (size_t i = 0; i < numbers; i += SENRUHOBI_NUMBERS) {
        size_t used = least(at, bytes);
        if (!is_point(points[i], points[i + 1]))
            return refused;
        write_number(first, sizeof first, 7, points[i], comma);
        write_number(second, sizeof second, 7, points[i + 1], comma);
        at += (size_t)snprintf(out + used, bytes - used, "%sp\t%s\t%s\n", i && points[i + 2] != 0 ? "g\n" : "", first, second);
    }
    return (usual_written){.bytes = at};
}

usual_written usual_route_size(const double *points, size_t numbers, int has_target, double target, int comma)
{
    char none; /* not a null pointer, since places in it are counted on */
    return print_route(points, numbers, has_target, target, comma, &none, 0);
}

usual_written usual_write_route(const double *points, size_t numbers, int has_target, double target, int comma, char *out, size_t bytes)
{
    usual_written w = print_route(points, numbers, has_target, target, comma, out, bytes);
    return w.bytes < bytes ? w : (usual_written){.refused = 1};
}

usual_step usual_pen_step(int pen, double left, double right, double bottom, double top,
                          double divisor, double meridian, double latitude, double longitude, int third)
{
    if (!(left < right && bottom < top) || !(1 <= divisor && divisor <= 1000000))
        return (usual_step){.refused = 1, .pen = pen};
    usual_place at = usual_sinusoidal(latitude, longitude, meridian);
    if (at.refused)
        return (usual_step){.refused = 1, .pen = pen};
    if (!(left <= at.x && at.x <= right && bottom <= at.y && at.y <= top))
        return (usual_step){.pen = 0};
    return (usual_step){.stroke = pen && third == 0 ? 2 : 1, .x = at.x / divisor, .y = at.y / divisor, .pen = 1};
}
