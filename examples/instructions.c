/* Many calls alike, of the core or of plain C, for counting instructions: the difference of two counts is that of the
 * calls between.
 *
 *     lib=target/dist/$(tools/dist --name)/lib/libgrain.a
 *     cc -O2 -Iinclude -Ibench examples/instructions.c bench/plain.c $lib -o target/instructions
 *     for n in 1000 2000; do valgrind --tool=callgrind target/instructions core market-corn $n; done
 */
#include "plain.h"

#include <stdio.h>
#include <stdlib.h>
#include <string.h>

struct side {
    const char *name;
    struct grain_answer (*open)(struct grain_station *, uint64_t);
    struct grain_outcome (*sheet)(struct grain_station *, uint32_t, uint64_t, const int32_t *, size_t);
    struct grain_answer (*repair)(struct grain_station *, uint32_t);
    struct grain_certificate (*market)(struct grain_station *, uint32_t, uint64_t, uint32_t, float, float, float,
                                       uint32_t, uint32_t, int32_t);
    struct grain_answer (*chart_open)(struct grain_chart *, uint64_t);
    struct grain_charted (*chart_set)(struct grain_chart *, uint32_t, const int32_t *, size_t, uint8_t *, size_t);
    struct grain_date (*date_from_day)(uint32_t);
    struct grain_day (*day_from_date)(uint32_t, uint32_t, uint32_t);
    struct grain_day (*working_day)(uint32_t, uint32_t, const int32_t *, size_t);
    struct grain_lot (*ship_lot)(const struct grain_sublot *, size_t);
};

static const struct side sides[2] = {
    {"core", grain_open, grain_sheet, grain_repair, grain_market, grain_chart_open, grain_chart_set,
     grain_date_from_day, grain_day_from_date, grain_working_day, grain_ship_lot},
    {"plain", plain_open, plain_sheet, plain_repair, plain_market, plain_chart_open, plain_chart_set,
     plain_date_from_day, plain_day_from_date, plain_working_day, plain_ship_lot},
};

/* A station whose lines each hold four sets that aren't zero, of days 1 to 4, and the newest two of them as its
 * newest. */
static struct grain_station opened(const struct side *side, uint64_t row)
{
    struct grain_station station;
    int32_t numbers[GRAIN_WHEAT_SHEET];
    for (int i = 0; i < 6; i++) {
        const int32_t sample[6] = {1000, i % 2 ? 998 : 1001, 1001, -1, -1, -1};
        memcpy(numbers + 6 * i, sample, sizeof sample);
    }
    if (!side->open(&station, row).accepted)
        exit(1);
    for (uint32_t day = 1; day <= 4; day++)
        for (uint64_t line = 0; line < (row == GRAIN_ROW_CORN ? 3 : 1); line++)
            if (side->sheet(&station, day, line, numbers, row == GRAIN_ROW_CORN ? 24 : 36).phase != GRAIN_OPEN)
                exit(1);
    return station;
}

/* Market tests on such lines: one of wheat, three of corn. */
static long market(const struct side *side, uint64_t row, long count)
{
    struct grain_station station = opened(side, row);
    long accepted = 0;
    for (long i = 0; i < count; i++) {
        uint64_t line = row == GRAIN_ROW_CORN ? (uint64_t)(i % 3) : 0;
        struct grain_certificate c = side->market(&station, 5, line, (uint32_t)row, 10.0f, 20.0f, 30.0f,
                                                  GRAIN_LINE_FIGURE, GRAIN_STANDARD, 0);
        accepted += c.accepted;
    }
    return accepted;
}

static long market_wheat(const struct side *side, long count)
{
    return market(side, GRAIN_ROW_WHEAT, count);
}

static long market_corn(const struct side *side, long count)
{
    return market(side, GRAIN_ROW_CORN, count);
}

/* Wheat sheets on such a line, which stays open; each is tested with the newest set, the newest two, and the four. */
static long sheet(const struct side *side, long count)
{
    struct grain_station station = opened(side, GRAIN_ROW_WHEAT);
    int32_t numbers[GRAIN_WHEAT_SHEET];
    for (int i = 0; i < 6; i++) {
        const int32_t sample[6] = {1000, i % 2 ? 999 : 1002, 1000, -1, -1, -1};
        memcpy(numbers + 6 * i, sample, sizeof sample);
    }
    long accepted = 0;
    for (long i = 0; i < count; i++)
        accepted += side->sheet(&station, 4, 0, numbers, GRAIN_WHEAT_SHEET).phase == GRAIN_OPEN;
    return accepted;
}

/* Repairs of a corn station with three such lines; the copy is counted with each. */
static long repair(const struct side *side, long count)
{
    const struct grain_station whole = opened(side, GRAIN_ROW_CORN);
    long accepted = 0;
    for (long i = 0; i < count; i++) {
        struct grain_station station = whole;
        accepted += side->repair(&station, 5).accepted;
    }
    return accepted;
}

/* Sets of five pairs on a chart with four sets. */
static long chart_set(const struct side *side, long count)
{
    static const int32_t pairs[10] = {1315, 1307, 1018, 1054, 1447, 1479, 1256, 1223, 1857, 1877};
    struct grain_chart chart;
    uint8_t line[GRAIN_LINE_BYTES];
    if (!side->chart_open(&chart, GRAIN_CHART_WHEAT_PROTEIN).accepted)
        exit(1);
    for (uint32_t week = 1; week <= 4; week++)
        if (!side->chart_set(&chart, week, pairs, 10, line, sizeof line).accepted)
            exit(1);
    long accepted = 0;
    for (long i = 0; i < count; i++) {
        chart.week = 4;
        accepted += side->chart_set(&chart, 5, pairs, 10, line, sizeof line).accepted;
    }
    return accepted;
}

/* Dates of days all over the calendar. */
static long date(const struct side *side, long count)
{
    long accepted = 0;
    for (long i = 0; i < count; i++)
        accepted += side->date_from_day((uint32_t)(i * 7919 % (GRAIN_LAST_DAY + 1))).accepted;
    return accepted;
}

/* Days of dates all over the calendar. */
static long day(const struct side *side, long count)
{
    long accepted = 0;
    for (long i = 0; i < count; i++) {
        uint32_t year = (uint32_t)(2000 + i * 37 % 273);
        accepted += side->day_from_date(year, (uint32_t)(1 + i % 12), (uint32_t)(1 + i % 28)).accepted;
    }
    return accepted;
}

/* Up to ten working days after days among sixty holidays, a month apart. */
static long working_day(const struct side *side, long count)
{
    int32_t holidays[60];
    for (int i = 0; i < 60; i++)
        holidays[i] = 9000 + 30 * i;
    long accepted = 0;
    for (long i = 0; i < count; i++) {
        uint32_t start = (uint32_t)(9000 + i * 7919 % 1800);
        accepted += side->working_day(start, (uint32_t)(1 + i % 10), holidays, 60).accepted;
    }
    return accepted;
}

/* Ship lots of so many records at one basis. */
static long lot(const struct side *side, size_t length, long count)
{
    struct grain_sublot records[GRAIN_LOT_RECORDS];
    for (int32_t i = 0; i < GRAIN_LOT_RECORDS; i++)
        records[i] = (struct grain_sublot){110 + i * 17 % 40, 1200, 300 + i * 7919 % 2700};
    long accepted = 0;
    for (long i = 0; i < count; i++)
        accepted += side->ship_lot(records, length).accepted;
    return accepted;
}

static long lot_5(const struct side *side, long count)
{
    return lot(side, 5, count);
}

static long lot_500(const struct side *side, long count)
{
    return lot(side, 500, count);
}

static const struct {
    const char *name;
    long (*calls)(const struct side *, long);
} modes[] = {
    {"market-wheat", market_wheat}, {"market-corn", market_corn}, {"sheet", sheet},
    {"repair", repair},             {"chart-set", chart_set},     {"date", date},
    {"day", day},                   {"working-day", working_day}, {"lot-5", lot_5},
    {"lot-500", lot_500},
};

int main(int argc, char **argv)
{
    for (size_t i = 0; argc == 4 && i < 2; i++)
        for (size_t j = 0; j < sizeof modes / sizeof modes[0]; j++)
            if (strcmp(argv[1], sides[i].name) == 0 && strcmp(argv[2], modes[j].name) == 0) {
                long count = strtol(argv[3], NULL, 10);
                return modes[j].calls(&sides[i], count) == count ? 0 : 1;
            }
    fprintf(stderr, "instructions core|plain market-wheat|market-corn|sheet|repair|chart-set|date|day|working-day|"
                    "lot-5|lot-500 COUNT\n");
    return 2;
}
