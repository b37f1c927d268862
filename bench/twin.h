/* The doors once more, by the same rules in plain C. */
#ifndef TWIN_H
#define TWIN_H
#include "../include/senruhobi.h"

senruhobi_sine twin_long_sine(int32_t angle);
senruhobi_sine twin_long_sine_half(int32_t half_ticks);
senruhobi_sine twin_short_sine(int32_t angle);
senruhobi_place twin_cylindrical(int32_t latitude, int32_t longitude, int32_t meridian);
senruhobi_place twin_sinusoidal(int32_t latitude, int32_t longitude, int32_t meridian);
senruhobi_point twin_cylindrical_back(int64_t x, int64_t y, int32_t meridian);
senruhobi_point twin_sinusoidal_back(int64_t x, int64_t y, int32_t meridian);
senruhobi_length twin_leg(int32_t latitude1, int32_t longitude1, int32_t latitude2, int32_t longitude2);
senruhobi_direction twin_course(int32_t latitude1, int32_t longitude1, int32_t latitude2, int32_t longitude2);
senruhobi_working twin_root_steps(uint64_t number);
senruhobi_length twin_measure(const int32_t *points, size_t numbers);
senruhobi_met twin_target_met(const int32_t *points, size_t numbers, uint64_t target);
senruhobi_reading twin_read_route(const uint8_t *text, size_t bytes, int32_t *buffer, size_t numbers);
senruhobi_written twin_route_size(const int32_t *points, size_t numbers, uint32_t has_target, uint64_t target, uint32_t comma);
senruhobi_written twin_write_route(const int32_t *points, size_t numbers, uint32_t has_target, uint64_t target, uint32_t comma,
                                   uint8_t *out, size_t bytes, size_t place);
senruhobi_step twin_pen_step(uint32_t pen, double left, double right, double bottom, double top,
                             uint32_t divisor, int32_t meridian, int32_t latitude, int32_t longitude, int32_t third);
#endif
