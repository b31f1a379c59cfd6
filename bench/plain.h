/* The calls of grain.h as a C programmer would write them: the peer to measure the core against. */
#ifndef PLAIN_H
#define PLAIN_H

#include "grain.h"

struct grain_value plain_reading(float percent);
struct grain_answer plain_open(struct grain_station *station, uint64_t row);
struct grain_outcome plain_sheet(struct grain_station *restrict station, uint32_t day, uint64_t line,
                                 const int32_t *restrict numbers, size_t numbers_len);
struct grain_answer plain_repair(struct grain_station *station, uint32_t day);
struct grain_certificate plain_market(struct grain_station *station, uint32_t day, uint64_t line, uint32_t scan_kind,
                                      float first, float second, float third, uint32_t asked, uint32_t basis_kind,
                                      int32_t basis);
struct grain_answer plain_chart_open(struct grain_chart *chart, uint64_t row);
struct grain_charted plain_chart_set(struct grain_chart *restrict chart, uint32_t week, const int32_t *restrict numbers,
                                     size_t numbers_len, uint8_t *restrict line, size_t line_len);
struct grain_written plain_chart_text(const uint8_t *restrict text, size_t text_len, uint8_t *restrict out,
                                      size_t out_len);
struct grain_day plain_day_from_date(uint32_t year, uint32_t month, uint32_t day);
struct grain_date plain_date_from_day(uint32_t day);
struct grain_weekday plain_weekday_of_day(uint32_t day);
struct grain_day plain_working_day(uint32_t day, uint32_t count, const int32_t *holidays, size_t holidays_len);
struct grain_day plain_results_due(uint32_t day, const int32_t *holidays, size_t holidays_len);
struct grain_lot plain_ship_lot(const struct grain_sublot *records, size_t count);

#endif
