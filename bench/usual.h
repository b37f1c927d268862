/* The doors' jobs done the usual way: degrees, millimetres and pixels are doubles. */
#ifndef USUAL_H
#define USUAL_H
#include "../include/senruhobi.h" /* how a buffer is laid out */

typedef struct { int refused; double value; } usual_number;
typedef struct { int refused; double x, y; } usual_place;
typedef struct { int refused; double latitude, longitude; } usual_point;
typedef struct { int refused, met, points; } usual_met;
typedef struct { int refused, points, has_target; double length, target; } usual_reading;
typedef struct { int refused; size_t bytes; } usual_written;
typedef struct { int refused, stroke; double x, y; int pen; } usual_step;

usual_number usual_sine(double angle);
usual_number usual_quarter_sine(double angle); /* from 0 to 90 degrees */
usual_place usual_cylindrical(double latitude, double longitude, double meridian);
usual_place usual_sinusoidal(double latitude, double longitude, double meridian);
usual_point usual_cylindrical_back(double x, double y, double meridian);
usual_point usual_sinusoidal_back(double x, double y, double meridian);
usual_number usual_leg(double latitude1, double longitude1, double latitude2, double longitude2);
usual_number usual_course(double latitude1, double longitude1, double latitude2, double longitude2);
senruhobi_working usual_root_steps(uint64_t number);
usual_number usual_measure(const double *points, size_t numbers);
usual_met usual_target_met(const double *points, size_t numbers, double target);
usual_reading usual_read_route(const char *text, double *buffer, size_t numbers);
usual_written usual_route_size(const double *points, size_t numbers, int has_target, double target, int comma);
usual_written usual_write_route(const double *points, size_t numbers, int has_target, double target, int comma, char *out, size_t bytes);
usual_step usual_pen_step(int pen, double left, double right, double bottom, double top,
                          double divisor, double meridian, double latitude, double longitude, int third);
#endif
