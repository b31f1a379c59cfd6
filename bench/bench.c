/* The core beside plain C: first both are given random and hostile calls, a sheet also with its samples in another order,
 * sets of sheets and of charts at every limit and beside it, every day and date of the calendar, a ship lot also in other
 * records, and every byte of their answers and states is compared; then they are timed.
 *
 *     lib=target/dist/$(tools/dist --name)/lib/libgrain.a
 *     cc -O2 -Iinclude bench/bench.c bench/plain.c $lib -o target/bench
 *     target/bench          21 rounds after one to warm up
 *     target/bench 1        the comparison, and one round to see that it runs
 *
 * With -DPLAIN_DIGITS plain C writes a chart line's numbers by hand, not by snprintf.
 *
 * Both sides are compiled apart from this file and called alike. Where the code of a call lies shifts the shortest ones:
 * the same code of a reading took 1.9 ns in one build of the library and 2.2 in another. */
#define _POSIX_C_SOURCE 200809L

#include "plain.h"

#include <inttypes.h>
#include <stdbool.h>
#include <stdio.h>
#include <stdlib.h>
#include <string.h>
#include <time.h>

struct side {
    struct grain_value (*reading)(float);
    struct grain_answer (*open)(struct grain_station *, uint64_t);
    struct grain_outcome (*sheet)(struct grain_station *, uint32_t, uint64_t, const int32_t *, size_t);
    struct grain_answer (*repair)(struct grain_station *, uint32_t);
    struct grain_certificate (*market)(struct grain_station *, uint32_t, uint64_t, uint32_t, float, float, float,
                                       uint32_t, uint32_t, int32_t);
    struct grain_answer (*chart_open)(struct grain_chart *, uint64_t);
    struct grain_charted (*chart_set)(struct grain_chart *, uint32_t, const int32_t *, size_t, uint8_t *, size_t);
    struct grain_written (*chart_text)(const uint8_t *, size_t, uint8_t *, size_t);
    struct grain_day (*day_from_date)(uint32_t, uint32_t, uint32_t);
    struct grain_date (*date_from_day)(uint32_t);
    struct grain_weekday (*weekday_of_day)(uint32_t);
    struct grain_day (*working_day)(uint32_t, uint32_t, const int32_t *, size_t);
    struct grain_day (*results_due)(uint32_t, const int32_t *, size_t);
    struct grain_lot (*ship_lot)(const struct grain_sublot *, size_t);
};

static const struct side core = {
    grain_reading,        grain_open,        grain_sheet,       grain_repair,        grain_market,
    grain_chart_open,     grain_chart_set,   grain_chart_text,  grain_day_from_date, grain_date_from_day,
    grain_weekday_of_day, grain_working_day, grain_results_due, grain_ship_lot,
};
static const struct side plain = {
    plain_reading,        plain_open,        plain_sheet,       plain_repair,        plain_market,
    plain_chart_open,     plain_chart_set,   plain_chart_text,  plain_day_from_date, plain_date_from_day,
    plain_weekday_of_day, plain_working_day, plain_results_due, plain_ship_lot,
};

static void fail(const char *why)
{
    fprintf(stderr, "bench: %s\n", why);
    exit(1);
}

/* ---- Random numbers (SplitMix64): the same calls everywhere ---- */

static uint64_t seed;

static uint64_t bits(void)
{
    uint64_t z = seed += UINT64_C(0x9E3779B97F4A7C15);
    z = (z ^ (z >> 30)) * UINT64_C(0xBF58476D1CE4E5B9);
    z = (z ^ (z >> 27)) * UINT64_C(0x94D049BB133111EB);
    return z ^ (z >> 31);
}

/* One of least to most, both included. */
static int32_t range(int32_t least, int32_t most)
{
    return least + (int32_t)(bits() % (uint64_t)((int64_t)most - least + 1));
}

static bool one_in(int32_t count)
{
    return range(1, count) == 1;
}

static float float_of(uint32_t word)
{
    float value;
    memcpy(&value, &word, sizeof value);
    return value;
}

/* Numbers beside some edge. */
static int32_t edge(void)
{
    static const int32_t edges[] = {
        INT32_MIN, -132001, -10001, -10000, -1001, -1000, -500,  -2,    -1,    0,      1,      2,
        3,         4,       5,      6,      10,    12,    500,   1000,  1001,  1400,   5000,   5001,
        9999,      10000,   10001,  20000,  20001, 65536, 99990, 99998, 99999, 100000, 132001, INT32_MAX,
    };
    return edges[bits() % (sizeof edges / sizeof edges[0])];
}

/* ---- Inputs ---- */

/* The numbers of a sheet whose average is bias hundredths off; messy ones have thirds and again pairs. */
static void fill_sheet(int32_t *numbers, int samples, int32_t intercept, int32_t bias, bool messy)
{
    bool outlier = messy && one_in(6);
    for (int i = 0; i < samples; i++) {
        int32_t *n = numbers + 6 * i;
        int32_t baseline = range(1100, 1800), value = baseline + bias - intercept;
        n[0] = baseline;
        n[1] = value + range(-8, 8);
        n[2] = value + range(-8, 8);
        n[3] = n[4] = n[5] = -1;
        if (outlier && i == 0) {
            n[1] += 190;
            n[2] += 190;
            n[4] = value + range(-60, 60);
            n[5] = value + range(-60, 60);
        } else if (messy && one_in(20)) {
            n[2] = n[1] + 95;
            n[3] = value;
        }
    }
}

/* Makes all samples of a sheet deviate, by their again pairs too: none is kept. */
static void drop_samples(int32_t *numbers, int samples, int32_t intercept)
{
    for (int i = 0; i < samples; i++) {
        int32_t *n = numbers + 6 * i;
        n[1] = n[2] = n[4] = n[5] = n[0] - intercept + (i ? 200 : -200);
        n[3] = -1;
    }
}

/* The numbers of a sheet that keeps all its samples and has this S. */
static void fill_sum(int32_t *numbers, int samples, int32_t intercept, int32_t sum)
{
    for (int left = samples; left > 0; left--) {
        int32_t *n = numbers + 6 * (samples - left), apart = range(-8, 8);
        int32_t share = left == 1 ? sum : sum / left + range(-3, 3);
        sum -= share;
        n[0] = range(1100, 1800);
        n[1] = n[0] - intercept + share / 2 + apart;
        n[2] = n[0] - intercept + share - share / 2 - apart;
        n[3] = n[4] = n[5] = -1;
    }
}

/* What a set is tested for: it alone, with the newest one, with the newest two, with the newest four that aren't zero; or
 * as a check. */
enum { ONE, TWO, THREE, FIVE, CHECK, TESTS };

/* The limits of these tests, of wheat's line and of corn's three. */
static const int32_t set_limits[4][TESTS] = {
    {10, 7, 5, 3, 5}, {15, 10, 7, 5, 7}, {15, 10, 7, 6, 7}, {35, 25, 20, 15, 20}};

/* The S by which a set of so many results comes to the limit of one of its tests or beside it, mostly of the five. A
 * damaged line holds any numbers. */
static int64_t limit_sum(const struct grain_line *line, const int32_t *limits, int32_t results)
{
    static const int others[TESTS] = {0, 1, 2, 4, 0};
    bool due = line->phase == GRAIN_ADJUSTED || line->phase == GRAIN_SHUT;
    int test = due ? CHECK : one_in(2) ? FIVE : range(ONE, THREE);
    const struct grain_past_set *sets = test == FIVE ? line->nonzero : line->newest;
    int64_t sum = 0, count = results;
    for (int i = 0; i < others[test]; i++) {
        sum += sets[i].sum;
        count += sets[i].count;
    }
    int64_t limit = limits[test] * count + range(-1, 1);
    return (sum < 0 || (sum == 0 && one_in(2)) ? -limit : limit) - sum;
}

/* An S of 0, at a limit or beside it, or a small one, mostly on the side of the newest set that isn't zero. */
static int32_t some_sum(const struct grain_line *line, const int32_t *limits, int32_t results)
{
    int64_t sum = limit_sum(line, limits, results);
    if (one_in(4))
        return 0;
    if (one_in(2) && sum >= -400 && sum <= 400)
        return (int32_t)sum;
    int32_t newest = line->nonzero[0].sum;
    bool below = newest ? (newest < 0) != one_in(12) : one_in(2);
    return (below ? -1 : 1) * range(1, limits[FIVE] * results);
}

/* Fills places with sets of a day and before it, newest first: mostly with all results, on one side of zero and within or
 * beyond the limit of the five; the first or a later one often 14 days old or beside it. */
static void fill_sets(struct grain_past_set *sets, int places, int32_t day, int samples, int32_t limit, bool zeros)
{
    int32_t side = one_in(2) ? -1 : 1, age = one_in(4) ? range(13, 15) : range(0, 2);
    for (int i = 0; i < places; i++) {
        int32_t results = one_in(4) ? 2 * range(1, samples) : 2 * samples;
        int32_t sum = one_in(40) ? 11000 * results : range(1, 2 * limit * results);
        sets[i].day = day < age ? 0 : day - age;
        sets[i].sum = zeros && one_in(3) ? 0 : (one_in(12) ? -side : side) * sum;
        sets[i].count = results;
        age = one_in(5) && age < 13 ? range(13, 15) : age + range(0, 1);
    }
}

/* Opens a line, wheat's or one of corn's, and gives it sets of both kinds, each filled by itself: where one kind is of old
 * sets, above zero or few, the other need not be. */
static void arrange(struct grain_station *station, int line)
{
    int samples = station->row == GRAIN_ROW_CORN ? 4 : 6;
    int32_t limit = set_limits[station->row + line][FIVE];
    struct grain_line *held = &station->lines[line];
    held->phase = GRAIN_OPEN;
    held->newest_held = range(1, 2);
    held->nonzero_held = one_in(4) ? range(0, 3) : 4;
    fill_sets(held->newest, 2, station->day, samples, limit, true);
    fill_sets(held->nonzero, 4, station->day, samples, limit, false);
}

static size_t put(uint8_t *text, size_t at, const char *line)
{
    size_t length = strlen(line);
    memcpy(text + at, line, length);
    return at + length;
}

/* Of each chart row the absolute, the tolerance and the run limit of plots. */
static const int32_t plot_limits[4][3] = {{20, 15, 10}, {25, 20, 10}, {25, 20, 15}, {20, 15, 10}};

/* The plot whose sum with three held ones is four times the run limit or beside it. A damaged chart holds any. */
static int64_t run_plot(const struct grain_chart *chart, int32_t limit)
{
    int left_out = chart->held == 4 ? range(0, 3) : 3;
    int64_t sum = 4 * limit + range(-1, 1), three = 0;
    for (int i = 0; i < 4; i++)
        if (i != left_out)
            three += chart->sets[i].plot;
    return (three < 0 ? -sum : sum) - three;
}

/* A plot at a limit of the chart's row or beside it, or a small one; mostly on the side of the newest. */
static int32_t some_plot(const struct grain_chart *chart)
{
    const int32_t *limits = plot_limits[(uint32_t)chart->row % 4];
    int32_t side = (chart->sets[0].plot < 0) != one_in(8) ? -1 : 1;
    int64_t run = side * run_plot(chart, limits[2]);
    switch (range(0, 8)) {
    case 0:
        return side * (limits[0] + range(-1, 1));
    case 1:
    case 2:
        return side * (limits[1] + range(-1, 1));
    case 3:
    case 4:
    case 5:
        return side * (run > 0 && run < 100 ? (int32_t)run : range(1, 3));
    case 6:
        return 0;
    default:
        return side * range(1, limits[2]);
    }
}

/* A set of pairs that plots this. The monitors' mean lies anywhere; the originals' lies anywhere that is rounded to the
 * hundredth it needs, from the half below, which goes up, to beside the half above. */
static void fill_set(int32_t *numbers, int32_t pairs, int32_t plot)
{
    int32_t most = range(0, 45), originals = 0, monitors = 0;
    for (int32_t i = 0; i < pairs; i++) {
        int32_t *pair = numbers + 2 * i;
        pair[1] = range(900, 1900);
        pair[0] = pair[1] + range(-most, most);
        originals += pair[0];
        monitors += pair[1];
    }
    int32_t mean = (monitors + pairs / 2) / pairs + plot;
    int32_t missing = pairs * mean + range(-(pairs / 2), (pairs - 1) / 2) - originals;
    for (int32_t i = 0; i < pairs; i++)
        numbers[2 * i] += missing / pairs;
    numbers[0] += missing % pairs;
}

/* A set that aims at the chart's limits, or one of results at their bounds or one inside; answers its length. */
static size_t aim_set(int32_t *numbers, const struct grain_chart *chart)
{
    int32_t pairs = one_in(3) ? 5 : range(1, 5);
    if (one_in(40)) {
        const int32_t least[2] = {one_in(2) ? 0 : 9999, one_in(2) ? 0 : 9999};
        for (int32_t i = 0; i < 2 * pairs; i++)
            numbers[i] = least[i % 2] + range(0, 1);
    } else {
        fill_set(numbers, pairs, some_plot(chart));
    }
    return (size_t)(2 * pairs);
}

/* Four or five pairs; answers the set's length. */
static size_t any_set(int32_t *numbers)
{
    int32_t pairs = range(4, 5);
    for (int32_t i = 0; i < pairs; i++) {
        int32_t monitor = range(800, 1900);
        numbers[2 * i] = monitor + range(-40, 40);
        numbers[2 * i + 1] = monitor;
    }
    return (size_t)(2 * pairs);
}

/* A good text of at least so many bytes; its sets aim at the limits of the chart that they make, or are any. */
static size_t fill_text(uint8_t *text, size_t least, bool aimed)
{
    struct grain_chart chart = {0};
    size_t at = put(text, 0, "week sample original monitor\n");
    for (uint32_t week = 1; at < least; week++) {
        int32_t numbers[10];
        size_t length = aimed ? aim_set(numbers, &chart) : any_set(numbers);
        uint8_t charted[GRAIN_LINE_BYTES];
        if (!plain.chart_set(&chart, week, numbers, length, charted, sizeof charted).accepted)
            fail("a set of a text was refused");
        for (size_t i = 0; i < length; i += 2) {
            char line[64];
            snprintf(line, sizeof line, "%" PRIu32 " %zu %" PRId32 " %" PRId32 "\n", week, i / 2 + 1, numbers[i],
                     numbers[i + 1]);
            at = put(text, at, line);
        }
    }
    return at;
}

/* ---- The comparison ---- */

enum { CALLS = 200000, TEXTS = 20000, GUARD = 16, KINDS = 14, NUMBERS = 32 };

static uint64_t gluten_certified, compared, accepted[KINDS], refused[NUMBERS], moved_accepted, moved_refused[8];
static uint64_t adjusted, shut_nothing_kept, shut_at_bound; /* lines, by sheets */
static uint64_t opened_by_check[2];                         /* lines, by a set with S 0 and by another */
/* by line, test and side of zero: sums one below the limit, at it, one above */
static uint64_t sums_met[4][TESTS][2][3];
/* tests of the five by how many of the newest sets are valid; those with a zero set among the newest two */
static uint64_t fives[3], fives_past_zero;
/* five that are beyond their limit and aren't tested: this one is zero, another is on the other side, one is too old */
static uint64_t five_with_zero, five_on_both_sides, five_too_old;
/* the newest sets, and those that aren't zero, that were 14 days old at a test and 15 */
static uint64_t ages_met[2][2];
/* certificates by a zero set, the newest one that isn't zero being of another day */
static uint64_t certified_by_zero;
static uint64_t lots_moved, lots_spelled_out, halves_up, largest_lots;
/* sets by count of pairs, and by the remainders of the originals' and the monitors' sum by that count */
static uint64_t means_met[6][5][5];
/* by chart row, limit and side of zero: one below the limit, at it, one above */
static uint64_t limits_met[4][3][2][3];
/* sets that reach the absolute limit by the rounded average of their differences only, and by their plot only */
static uint64_t average_only, plot_only;
/* plots 0 of sums that are not 0, where their sum's side would make a run */
static uint64_t on_no_side;
static uint64_t largest_plots[2]; /* 10000 and -10000 */

/* Counts an answer; its first two words are accepted and number. */
static void count(int call, const void *answer)
{
    uint32_t head[2];
    memcpy(head, answer, sizeof head);
    compared++;
    if (head[0])
        accepted[call]++;
    else
        refused[head[1]]++;
}

/* Exits unless both are the same: the core's and plain C's, or a sheet's or lot's as given and in another order. */
static void same(const char *what, const void *first, const void *second, size_t size)
{
    if (memcmp(first, second, size) == 0)
        return;
    fprintf(stderr, "bench: call %" PRIu64 ", %s differs\n", compared, what);
    for (size_t i = 0; i < size; i++) {
        const uint8_t *one = first, *other = second;
        if (one[i] != other[i])
            fprintf(stderr, "  byte %zu: %u and %u\n", i, (unsigned)one[i], (unsigned)other[i]);
    }
    exit(1);
}

/* A state between two guards that no call may touch. */
struct guarded_station {
    uint8_t before[GUARD];
    struct grain_station station;
    uint8_t after[GUARD];
};

struct guarded_chart {
    uint8_t before[GUARD];
    struct grain_chart chart;
    uint8_t after[GUARD];
};

static void fill(void *memory, size_t size)
{
    uint8_t *bytes = memory;
    for (size_t i = 0; i < size; i++)
        bytes[i] = (uint8_t)bits();
}

/* Sometimes overwrites places of a state. */
static void damage(void *state, size_t places)
{
    if (!one_in(4))
        return;
    for (int i = range(1, 3); i > 0; i--) {
        int32_t number = edge();
        memcpy((uint8_t *)state + 4 * (bits() % places), &number, sizeof number);
    }
}

static uint32_t some_day(const struct grain_station *station)
{
    switch (range(0, 15)) {
    case 0:
        return (uint32_t)edge();
    case 1:
        return (uint32_t)station->day - 1;
    case 2:
    case 3:
        return (uint32_t)station->day + (uint32_t)range(7, 15);
    default:
        return (uint32_t)station->day + (uint32_t)range(0, 1);
    }
}

/* Mostly one that there is, else any, also one whose lower 32 bits are that of a line. */
static uint64_t some_row_or_line(uint64_t most)
{
    uint64_t good = bits() % (most + 1);
    if (!one_in(40))
        return good;
    uint64_t any = bits();
    int32_t places = range(2, 63);
    return one_in(2) ? any >> places : good | UINT64_C(1) << places;
}

static uint64_t some_line(const struct grain_station *station)
{
    return some_row_or_line(station->row == 1 ? 2 : 0);
}

/* Puts a sheet's samples into another order; the numbers behind the last whole sample stay at the end. */
static void move_samples(int32_t *numbers, size_t length)
{
    for (size_t left = length / 6; left > 1; left--) {
        int32_t *last = numbers + 6 * (left - 1), *one = numbers + 6 * (bits() % left), sample[6];
        memcpy(sample, last, sizeof sample);
        memmove(last, one, sizeof sample);
        memcpy(one, sample, sizeof sample);
    }
}

/* A sheet's day, line and numbers. */
struct sheet {
    uint32_t day;
    uint64_t line;
    size_t length;
    int32_t numbers[48];
};

static struct grain_outcome both_sheets(struct guarded_station *by_core, struct guarded_station *by_plain,
                                        struct sheet sheet)
{
    struct sheet copy = sheet;
    struct grain_outcome one = core.sheet(&by_core->station, sheet.day, sheet.line,
                                          sheet.length ? sheet.numbers : NULL, sheet.length);
    struct grain_outcome other = plain.sheet(&by_plain->station, copy.day, copy.line, copy.numbers, copy.length);
    same("a sheet's answer", &one, &other, sizeof one);
    same("a sheet's numbers", sheet.numbers, copy.numbers, sizeof copy.numbers);
    same("a sheet's station", by_core, by_plain, sizeof *by_core);
    count(2, &one);
    return one;
}

static void count_beside(uint64_t *met, int32_t above)
{
    if (above >= -1 && above <= 1)
        met[above + 1]++;
}

/* How many sets are at most 14 days old. */
static int valid_sets(const struct grain_past_set *sets, int held, int32_t day, uint64_t *ages)
{
    int valid = 0;
    for (int i = 0; i < held; i++) {
        int32_t age = day - sets[i].day;
        valid += age <= 14;
        if (age == 14 || age == 15)
            ages[age - 14]++;
    }
    return valid;
}

static void add_set(struct grain_past_set *sum, const struct grain_past_set *set)
{
    sum->sum += set->sum;
    sum->count += set->count;
}

static int32_t above_limit(int row, int test, const struct grain_past_set *sum)
{
    return abs(sum->sum) - set_limits[row][test] * sum->count;
}

static bool count_test(int row, int test, const struct grain_past_set *sum)
{
    count_beside(sums_met[row][test][sum->sum < 0], above_limit(row, test, sum));
    return above_limit(row, test, sum) <= 0;
}

/* Counts a set with the newest four that aren't zero, tested or not; answers whether they are met if they are tested.
 * newest: how many of the newest sets are valid. */
static bool count_five(int row, const struct grain_line *then, const struct grain_past_set *set, int newest)
{
    int valid = valid_sets(then->nonzero, then->nonzero_held, set->day, ages_met[1]);
    int above = set->sum > 0, below = set->sum < 0;
    if (then->nonzero_held < 4)
        return true;
    struct grain_past_set sum = *set;
    for (int i = 0; i < 4; i++) {
        add_set(&sum, &then->nonzero[i]);
        above += then->nonzero[i].sum > 0;
        below += then->nonzero[i].sum < 0;
    }
    bool beyond = above_limit(row, FIVE, &sum) > 0;
    if (valid == 4 && (above == 5 || below == 5)) {
        fives[newest]++;
        fives_past_zero += then->newest[0].sum == 0 || (then->newest_held == 2 && then->newest[1].sum == 0);
        return count_test(row, FIVE, &sum);
    }
    five_too_old += beyond && valid < 4 && (above == 5 || below == 5);
    five_with_zero += beyond && valid == 4 && set->sum == 0 && (above == 4 || below == 4);
    five_on_both_sides += beyond && valid == 4 && set->sum != 0;
    return true;
}

/* Counts a set by its tests, until one is not met; answers whether all are. then: its line before it. */
static bool count_tests(int row, const struct grain_line *then, const struct grain_past_set *set)
{
    struct grain_past_set sum = *set;
    if (then->phase == GRAIN_ADJUSTED || then->phase == GRAIN_SHUT)
        return count_test(row, CHECK, &sum);
    int newest = valid_sets(then->newest, then->newest_held, set->day, ages_met[0]);
    for (int test = ONE; test <= newest; test++) {
        if (test > ONE)
            add_set(&sum, &then->newest[test - 1]);
        if (!count_test(row, test, &sum))
            return false;
    }
    return count_five(row, then, set, newest);
}

/* Counts what an accepted sheet was tested for and what it made of its line; the outcome says check due for an adjusted
 * line and for a shut one. */
static void count_sheet(const struct grain_station *then, const struct grain_station *now, uint64_t line,
                        const struct grain_outcome *outcome)
{
    struct grain_past_set set = {now->day, outcome->sum, (int32_t)outcome->count};
    bool met = outcome->count > 0 && count_tests(then->row + (int)line, &then->lines[line], &set);
    if (met != (outcome->phase == GRAIN_OPEN))
        fail("a line is open though a test was not met, or is not though all were");
    int32_t phase = now->lines[line].phase, before = then->lines[line].phase;
    if (phase != (met ? GRAIN_OPEN : outcome->change ? GRAIN_ADJUSTED : GRAIN_SHUT))
        fail("a line is adjusted without a change or shut with one");
    adjusted += phase == GRAIN_ADJUSTED;
    shut_nothing_kept += phase == GRAIN_SHUT && outcome->count == 0;
    shut_at_bound += phase == GRAIN_SHUT && outcome->count > 0;
    if (met && (before == GRAIN_ADJUSTED || before == GRAIN_SHUT))
        opened_by_check[set.sum != 0]++;
}

/* Any numbers of a sheet on a line, mostly good ones. */
static void fill_any_sheet(int32_t *numbers, const struct grain_station *station, uint64_t line)
{
    bool used = line < (station->row == GRAIN_ROW_CORN ? 3 : 1);
    const struct grain_line *held = &station->lines[used ? line : 0];
    int samples = station->row == GRAIN_ROW_CORN ? 4 : 6, row = (station->row == GRAIN_ROW_CORN) + (used ? (int)line : 0);
    int32_t intercept = held->intercept;
    if (intercept < -1000 || intercept > 1000)
        intercept = 0;
    if (one_in(2))
        fill_sum(numbers, samples, intercept, some_sum(held, set_limits[row], 2 * samples));
    else
        fill_sheet(numbers, samples, intercept, one_in(4) ? range(-40, 40) : range(-6, 6), true);
    if (one_in(40))
        drop_samples(numbers, samples, intercept);
    for (int wrong = one_in(20) ? range(1, 3) : 0; wrong > 0; wrong--) {
        int32_t *number = &numbers[range(0, 6 * samples - 1)];
        *number = one_in(2) ? edge() : -1;
    }
}

/* A sheet; then the same samples in another order on the stations as they were: the core must answer and leave the same,
 * and both_sheets holds plain C to the core. */
static void compare_sheet(struct guarded_station *by_core, struct guarded_station *by_plain)
{
    struct grain_station *station = &by_core->station;
    struct guarded_station then_core = *by_core, then_plain = *by_plain;
    struct sheet sheet = {0};
    sheet.day = some_day(station);
    sheet.line = some_line(station);
    fill_any_sheet(sheet.numbers, station, sheet.line);
    sheet.length = one_in(40) ? (size_t)range(0, 48) : station->row == GRAIN_ROW_CORN ? 24 : 36;
    struct grain_outcome given = both_sheets(by_core, by_plain, sheet);
    if (given.accepted)
        count_sheet(&then_core.station, station, sheet.line, &given);
    struct sheet moved = sheet;
    move_samples(moved.numbers, moved.length);
    if (memcmp(moved.numbers, sheet.numbers, sizeof sheet.numbers) == 0)
        return;
    struct grain_outcome then = both_sheets(&then_core, &then_plain, moved);
    same("the answer in another order", &given, &then, sizeof given);
    same("the station in another order", by_core, &then_core, sizeof then_core);
    if (then.accepted)
        moved_accepted++;
    else
        moved_refused[then.number]++;
}

/* A market test's day, line, scan and request. */
struct market {
    uint32_t day, scan, asked, kind;
    uint64_t line;
    float floats[3];
    int32_t basis;
};

static struct grain_certificate both_markets(struct guarded_station *by_core, struct guarded_station *by_plain,
                                             struct market m)
{
    const float *f = m.floats;
    struct grain_certificate one =
        core.market(&by_core->station, m.day, m.line, m.scan, f[0], f[1], f[2], m.asked, m.kind, m.basis);
    struct grain_certificate other =
        plain.market(&by_plain->station, m.day, m.line, m.scan, f[0], f[1], f[2], m.asked, m.kind, m.basis);
    same("a market test's answer", &one, &other, sizeof one);
    same("a market test's station", by_core, by_plain, sizeof *by_core);
    count(4, &one);
    return one;
}

static void compare_market(struct guarded_station *by_core, struct guarded_station *by_plain)
{
    struct grain_station *station = &by_core->station;
    struct market m = {.day = some_day(station), .scan = (uint32_t)station->row};
    m.kind = (uint32_t)range(0, 3);
    m.line = some_line(station);
    if (one_in(station->row == GRAIN_ROW_WHEAT ? 2 : 20)) {
        m.asked = one_in(8) ? GRAIN_GLUTEN_OTHER_CLASS : (uint32_t)range(1, 2);
        m.kind = one_in(3) ? m.kind : GRAIN_STANDARD;
    }
    /* where the gluten intercept is rounded at a half */
    if (m.asked && one_in(20))
        by_core->station.lines[0].intercept = by_plain->station.lines[0].intercept = one_in(2) ? 500 : -500;
    if (one_in(20))
        m.asked = one_in(2) ? (uint32_t)edge() : (uint32_t)bits();
    if (station->row == GRAIN_ROW_WHEAT && !one_in(m.asked ? 8 : 2))
        m.scan = GRAIN_WHEAT_GLUTEN;
    if (one_in(20))
        m.scan = (uint32_t)edge();
    if (one_in(20))
        m.kind = (uint32_t)edge();
    m.basis = one_in(10) ? edge() : range(0, 5000);
    for (int i = 0; i < 3; i++) {
        m.floats[i] = (float)range(0, one_in(8) ? 10100 : 3000) / 100.0f;
        if (one_in(20))
            m.floats[i] = float_of((uint32_t)bits());
    }
    struct grain_certificate certificate = both_markets(by_core, by_plain, m);
    if (!certificate.accepted)
        return;
    const struct grain_line *line = &station->lines[m.line];
    gluten_certified += m.asked != GRAIN_LINE_FIGURE;
    certified_by_zero += line->newest[0].sum == 0 && line->nonzero_held > 0 && line->nonzero[0].day != line->newest[0].day;
}

static struct grain_answer both_repairs(struct guarded_station *by_core, struct guarded_station *by_plain, uint32_t day)
{
    struct grain_answer one = core.repair(&by_core->station, day);
    struct grain_answer other = plain.repair(&by_plain->station, day);
    same("a repair's answer", &one, &other, sizeof one);
    same("a repair's station", by_core, by_plain, sizeof *by_core);
    count(3, &one);
    return one;
}

static void compare_open(struct guarded_station *by_core, struct guarded_station *by_plain)
{
    uint64_t row = some_row_or_line(1);
    struct grain_answer one = core.open(&by_core->station, row);
    struct grain_answer other = plain.open(&by_plain->station, row);
    same("an opening's answer", &one, &other, sizeof one);
    count(1, &one);
}

/* Calls on a station that goes on; damaged copies of it are dropped again. */
static void compare_stations(void)
{
    struct guarded_station kept, by_core, by_plain;
    fill(&kept, sizeof kept);
    for (int i = 0; i < CALLS; i++) {
        by_core = kept;
        if (one_in(4) && (kept.station.row == GRAIN_ROW_WHEAT || kept.station.row == GRAIN_ROW_CORN))
            arrange(&by_core.station, kept.station.row == GRAIN_ROW_CORN ? range(0, 2) : 0);
        damage(&by_core.station, sizeof by_core.station / 4);
        bool whole = memcmp(&by_core, &kept, sizeof kept) == 0;
        by_plain = by_core;
        if (i % 200 == 0)
            compare_open(&by_core, &by_plain);
        else if (one_in(20))
            both_repairs(&by_core, &by_plain, some_day(&by_core.station));
        else if (one_in(3))
            compare_market(&by_core, &by_plain);
        else
            compare_sheet(&by_core, &by_plain);
        same("a station", &by_core, &by_plain, sizeof by_core);
        if (whole || one_in(100))
            kept = by_core;
    }
}

/* A repair, a market test and a sheet on a station: all of them are refused by 0, or none is. */
static void compare_soundness(const struct guarded_station *given, uint64_t line, bool sound)
{
    struct guarded_station by_core = *given, by_plain = *given;
    uint32_t day = (uint32_t)given->station.day, row = (uint32_t)given->station.row;
    struct sheet sheet = {.day = day, .line = line, .length = row == GRAIN_ROW_CORN ? 24 : 36};
    fill_sum(sheet.numbers, row == GRAIN_ROW_CORN ? 4 : 6, 0, range(-40, 40));
    struct grain_answer repair = both_repairs(&by_core, &by_plain, day);
    by_core = by_plain = *given;
    struct grain_certificate market =
        both_markets(&by_core, &by_plain, (struct market){.day = day, .scan = row, .line = line, .floats = {10, 10, 10}});
    by_core = by_plain = *given;
    struct grain_outcome outcome = both_sheets(&by_core, &by_plain, sheet);
    if (repair.accepted != sound || (market.accepted || market.number) != sound || outcome.accepted != sound)
        fail("a station is refused at its bounds or accepted beyond them");
}

/* A station of day 1000 with a line, wheat's or one of corn's, that holds so many sets of each kind. What stands behind a
 * kind's places would pass for another set. */
static struct guarded_station with_sets(int row, int32_t newest_held, int32_t nonzero_held)
{
    static const struct grain_past_set set = {.day = 995, .sum = 2, .count = 4};
    const struct grain_line full = {
        .phase = GRAIN_OPEN,
        .newest_held = 2,
        .newest = {set, set},
        .nonzero_held = 4,
        .nonzero = {set, set, set, set},
    };
    struct guarded_station given;
    fill(&given, sizeof given);
    given.station = (struct grain_station){.row = row > 0, .day = 1000, .lines = {full, full, full}};
    struct grain_line *held = &given.station.lines[row ? row - 1 : 0];
    held->newest_held = newest_held;
    held->nonzero_held = nonzero_held;
    return given;
}

/* Sheets whose S is 0 or brings a test of their line to its limit or beside it. */
static void compare_sums(void)
{
    for (int i = 0; i < CALLS / 4; i++) {
        int row = i % 4, line = row ? row - 1 : 0, samples = row ? 4 : 6;
        struct guarded_station by_core = with_sets(row, 1, 0);
        arrange(&by_core.station, line);
        struct guarded_station then = by_core, by_plain = by_core;
        struct sheet sheet = {.line = (uint64_t)line, .length = (size_t)(6 * samples)};
        sheet.day = (uint32_t)(then.station.day + range(0, 1));
        fill_sum(sheet.numbers, samples, 0, some_sum(&then.station.lines[line], set_limits[row], 2 * samples));
        struct grain_outcome outcome = both_sheets(&by_core, &by_plain, sheet);
        if (!outcome.accepted)
            fail("a sheet at a limit was refused");
        count_sheet(&then.station, &by_core.station, sheet.line, &outcome);
    }
}

/* Every count of sets of both kinds in every phase, and beside them. */
static void compare_held_counts(void)
{
    for (int i = 0; i < 4 * 6 * 5 * 7; i++) {
        int row = i % 4, phase = i / 4 % 6 - 1, newest = i / 24 % 5 - 1, nonzero = i / 120 - 1;
        struct guarded_station given = with_sets(row, newest, nonzero);
        int line = row ? row - 1 : 0;
        given.station.lines[line].phase = phase;
        bool open = newest >= 1 && newest <= 2 && nonzero >= 0 && nonzero <= 4;
        bool none = newest == 0 && nonzero == 0 && phase >= GRAIN_NEW && phase <= GRAIN_SHUT;
        compare_soundness(&given, (uint64_t)line, phase == GRAIN_OPEN ? open : none);
    }
}

/* What bounds a held set: its day, N and S. */
enum { DAY_BEFORE, DAY_0, N_2, N_OF_ALL, N_EVEN, S_ABOVE, S_BELOW, S_NOT_0, BOUNDS };

/* Puts the set of a place at a bound, or beyond it; on day 0 those behind it too. */
static void put_at_bound(struct grain_past_set *sets, int places, int place, int bound, int beyond, int samples)
{
    struct grain_past_set *set = &sets[place];
    switch (bound) {
    case DAY_BEFORE:
        set->day = (place ? sets[place - 1].day : 1000) + beyond;
        break;
    case DAY_0:
        for (int i = place; i < places; i++)
            sets[i].day = -beyond;
        break;
    case N_2:
        set->count = beyond ? 0 : 2;
        break;
    case N_OF_ALL:
        set->count = 2 * samples + 2 * beyond;
        break;
    case N_EVEN:
        set->count += beyond;
        break;
    case S_NOT_0:
        set->sum = beyond ? 0 : -1;
        break;
    default:
        set->sum = (bound == S_BELOW ? -1 : 1) * (11000 * set->count + beyond);
    }
}

/* A set of either kind at each bound or beyond it, in every place and with every count of held sets: it is refused by 0
 * where it is beyond and the place is in use. S 0 is beyond only where sets that aren't zero are held. */
static void compare_held_sets(void)
{
    for (int i = 0; i < 4 * 2 * 5 * 4 * BOUNDS * 2; i++) {
        int row = i % 4, held = i / 8 % 5, place = i / 40 % 4, bound = i / 160 % BOUNDS, beyond = i / 160 / BOUNDS;
        bool nonzero = i / 4 % 2;
        if (!nonzero && (held < 1 || held > 2 || place > 1))
            continue;
        struct guarded_station given = nonzero ? with_sets(row, range(1, 2), held) : with_sets(row, held, range(0, 4));
        int line = row ? row - 1 : 0;
        struct grain_line *l = &given.station.lines[line];
        put_at_bound(nonzero ? l->nonzero : l->newest, nonzero ? 4 : 2, place, bound, beyond, row ? 4 : 6);
        bool sound = !beyond || place >= held || (bound == S_NOT_0 && !nonzero);
        compare_soundness(&given, (uint64_t)line, sound);
    }
}

static void compare_chart_open(struct guarded_chart *by_core, struct guarded_chart *by_plain)
{
    uint64_t row = some_row_or_line(3);
    struct grain_answer one = core.chart_open(&by_core->chart, row);
    struct grain_answer other = plain.chart_open(&by_plain->chart, row);
    same("a chart opening's answer", &one, &other, sizeof one);
    count(5, &one);
}

/* The sum of a chart's three largest plots on a side, turned above zero, or 0 where there are not three. */
static int32_t three_on_side(const struct grain_chart *chart, int32_t side)
{
    int32_t found = 0, sum = 0, least = INT32_MAX;
    for (int i = 0; i < chart->held; i++) {
        int32_t plot = side * chart->sets[i].plot;
        if (plot <= 0)
            continue;
        found++;
        sum += plot;
        if (plot < least)
            least = plot;
    }
    return found < 3 ? 0 : found == 3 ? sum : sum - least;
}

/* Counts a plot by what its row's limits judge: the plot, the smaller one of it and the last, and the largest sum of four.
 * then: the chart before it. */
static void count_plot(const struct grain_chart *then, int32_t plot)
{
    const int32_t *limits = plot_limits[then->row];
    uint64_t(*met)[2][3] = limits_met[then->row];
    for (int below = 0; below < 2; below++) {
        int32_t side = below ? -1 : 1, own = side * plot, three = three_on_side(then, side);
        int32_t last = then->held ? side * then->sets[0].plot : 0;
        count_beside(met[0][below], own - limits[0]);
        count_beside(met[1][below], (own < last ? own : last) - limits[1]);
        if (own > 0 && three > 0)
            count_beside(met[2][below], own + three - 4 * limits[2]);
    }
    largest_plots[plot < 0] += abs(plot) == 10000;
}

/* A set's week, numbers and room for its line. */
struct set {
    uint32_t week;
    size_t length, room;
    int32_t numbers[16];
};

/* Counts an accepted set by its sums and its plot. */
static void count_set(const struct grain_chart *then, const struct set *set, int32_t plot)
{
    int32_t pairs = (int32_t)(set->length / 2), originals = 0, monitors = 0;
    for (size_t i = 0; i < set->length; i += 2) {
        originals += set->numbers[i];
        monitors += set->numbers[i + 1];
    }
    means_met[pairs][originals % pairs][monitors % pairs]++;
    int32_t sum = originals - monitors, absolute = plot_limits[then->row][0], run = plot_limits[then->row][2];
    bool by_average = 2 * abs(sum) >= pairs * (2 * absolute - 1), by_plot = abs(plot) >= absolute;
    average_only += by_average && !by_plot;
    plot_only += by_plot && !by_average;
    on_no_side += plot == 0 && sum != 0 && three_on_side(then, sum < 0 ? -1 : 1) > 4 * run;
    count_plot(then, plot);
}

static struct grain_charted both_sets(struct guarded_chart *by_core, struct guarded_chart *by_plain, struct set set)
{
    struct set copy = set;
    uint8_t line[80], line_copy[80];
    fill(line, sizeof line);
    memcpy(line_copy, line, sizeof line);
    struct grain_charted one = core.chart_set(&by_core->chart, set.week, set.length ? set.numbers : NULL, set.length,
                                              set.room ? line : NULL, set.room);
    struct grain_charted other =
        plain.chart_set(&by_plain->chart, copy.week, copy.numbers, copy.length, line_copy, copy.room);
    same("a set's answer", &one, &other, sizeof one);
    same("a set's numbers", set.numbers, copy.numbers, sizeof copy.numbers);
    same("a set's line", line, line_copy, sizeof line);
    same("a set's chart", by_core, by_plain, sizeof *by_core);
    count(6, &one);
    return one;
}

static void compare_set(struct guarded_chart *by_core, struct guarded_chart *by_plain)
{
    struct grain_chart then = by_core->chart;
    struct set set = {0};
    set.week = one_in(20) ? (uint32_t)edge() : (uint32_t)then.week + (uint32_t)range(0, 9);
    set.length = aim_set(set.numbers, &then);
    if (one_in(20)) {
        int32_t *number = &set.numbers[bits() % set.length];
        *number = edge();
    }
    if (one_in(20))
        set.length = (size_t)range(0, 16);
    set.room = one_in(10) ? (size_t)range(0, 39) : (size_t)range(40, 64);
    struct grain_charted charted = both_sets(by_core, by_plain, set);
    if (charted.accepted)
        count_set(&then, &set, charted.plot);
}

/* Calls on a chart that goes on; damaged copies of it are dropped again. */
static void compare_charts(void)
{
    struct guarded_chart kept, by_core, by_plain;
    fill(&kept, sizeof kept);
    for (int i = 0; i < CALLS; i++) {
        by_core = kept;
        damage(&by_core.chart, sizeof by_core.chart / 4);
        bool whole = memcmp(&by_core, &kept, sizeof kept) == 0;
        by_plain = by_core;
        if (i % 200 == 0)
            compare_chart_open(&by_core, &by_plain);
        else
            compare_set(&by_core, &by_plain);
        same("a chart", &by_core, &by_plain, sizeof by_core);
        if (whole || one_in(100))
            kept = by_core;
    }
}

/* A plot at its bound or one beyond, of every count and in every place of a chart whose other plots are the largest: it is
 * refused by 0 where it is beyond and the place is in use. */
static void compare_held_plots(void)
{
    static const struct grain_held_set largest = {.count = 1, .plot = 10000};
    for (int i = 0; i < 5 * 4 * 5 * 4; i++) {
        struct guarded_chart by_core, by_plain;
        struct set set = {.week = 2, .length = 2, .room = GRAIN_LINE_BYTES, .numbers = {10000}};
        int place = i / 5 % 4, beyond = i / 100 % 2;
        fill(&by_core, sizeof by_core);
        by_core.chart = (struct grain_chart){.week = 1, .held = i % 5, .sets = {largest, largest, largest, largest}};
        by_core.chart.sets[place].count = 1 + i / 20 % 5;
        by_core.chart.sets[place].plot = (i / 200 ? -1 : 1) * (10000 + beyond);
        by_plain = by_core;
        bool sound = !beyond || place >= by_core.chart.held;
        if (both_sets(&by_core, &by_plain, set).accepted != sound)
            fail("a held plot is refused at its bound or accepted beyond it");
    }
}

static void compare_texts(void)
{
    static uint8_t text[70000], copy[70000], out[GRAIN_OUTPUT_BYTES], out_copy[GRAIN_OUTPUT_BYTES];
    for (int i = 0; i < TEXTS; i++) {
        bool large = one_in(500);
        size_t length = fill_text(text, large ? 65400 : (size_t)range(29, 300), true), room = large ? 400000 : 1600;
        if (!one_in(3)) {
            uint8_t *byte = &text[bits() % length];
            *byte = (uint8_t) "0123456789 \n\r-x"[bits() % 15];
        }
        if (one_in(10))
            length -= (size_t)range(0, 29);
        if (large && one_in(2))
            length = GRAIN_TEXT_BYTES + (size_t)range(0, 1);
        if (one_in(50))
            length = 0;
        if (one_in(10))
            room = (size_t)range(0, 400);
        memcpy(copy, text, sizeof text);
        fill(out, 2000);
        memcpy(out_copy, out, sizeof out);
        struct grain_written one =
            core.chart_text(length ? text : NULL, length, room ? out : NULL, room);
        struct grain_written other = plain.chart_text(copy, length, out_copy, room);
        same("a text's answer", &one, &other, sizeof one);
        same("a text", text, copy, sizeof text);
        same("a text's output", out, out_copy, sizeof out);
        count(7, &one);
    }
}

static void compare_readings(void)
{
    for (int i = 0; i < CALLS; i++) {
        uint32_t word = one_in(2) ? (uint32_t)bits() : 0x3B000000 + (uint32_t)bits() % 0x07D00000;
        struct grain_value one = core.reading(float_of(word)), other = plain.reading(float_of(word));
        same("a reading", &one, &other, sizeof one);
        count(0, &one);
    }
}

static void compare_date(uint32_t year, uint32_t month, uint32_t day)
{
    struct grain_day one = core.day_from_date(year, month, day), other = plain.day_from_date(year, month, day);
    same("a date's day", &one, &other, sizeof one);
    count(8, &one);
}

/* A day's date, which must turn back into the day, and its weekday. */
static void compare_day(uint32_t day)
{
    struct grain_date one = core.date_from_day(day), other = plain.date_from_day(day);
    same("a day's date", &one, &other, sizeof one);
    count(9, &one);
    struct grain_weekday weekday = core.weekday_of_day(day), by_plain = plain.weekday_of_day(day);
    same("a weekday", &weekday, &by_plain, sizeof weekday);
    count(10, &weekday);
    if (one.accepted && core.day_from_date(one.year, one.month, one.day).day != day)
        fail("a date does not come back");
}

/* Every day, and every date of 1998 to 2276 with months and days beside their bounds; then any numbers. */
static void compare_dates(void)
{
    for (uint32_t day = 0; day <= GRAIN_LAST_DAY + 100; day++)
        compare_day(day);
    for (uint32_t year = 1998; year <= 2276; year++)
        for (uint32_t month = 0; month <= 13; month++)
            for (uint32_t day = 0; day <= 32; day++)
                compare_date(year, month, day);
    for (int i = 0; i < CALLS / 10; i++) {
        uint32_t any = one_in(2) ? (uint32_t)edge() : (uint32_t)bits(), other = one_in(2) ? (uint32_t)edge() : 1;
        compare_day(any);
        compare_date(any, other, 1);
        compare_date(2000, any, other);
        compare_date(2000, other, any);
    }
}

/* Holidays near a day, or all over the calendar; sometimes with a bad one. */
static size_t fill_holidays(int32_t *holidays, uint32_t near)
{
    int32_t middle = near > GRAIN_LAST_DAY ? GRAIN_LAST_DAY : (int32_t)near, most = range(0, 9);
    bool all = one_in(500);
    int32_t first = all ? 0 : middle - range(0, 40), last = all ? GRAIN_LAST_DAY : middle + range(0, 80);
    size_t length = 0;
    for (int32_t day = first < 0 ? 0 : first; day <= last && day <= GRAIN_LAST_DAY; day++)
        if (range(1, 10) <= most)
            holidays[length++] = day;
    if (length && one_in(8))
        holidays[bits() % length] = one_in(2) ? edge() : holidays[length - 1];
    if (one_in(12))
        holidays[length++] = edge();
    return length;
}

static uint32_t some_count(uint32_t day)
{
    switch (range(0, 9)) {
    case 0:
        return 0;
    case 1:
        return (uint32_t)bits() >> range(0, 31);
    case 2: /* to the calendar's end, in weeks of five days */
        return (GRAIN_LAST_DAY - day) / 7 * 5 + (uint32_t)range(0, 6);
    default:
        return (uint32_t)range(1, 40);
    }
}

static void compare_working_days(void)
{
    static int32_t holidays[GRAIN_LAST_DAY + 3], copy[GRAIN_LAST_DAY + 3];
    for (int i = 0; i < CALLS; i++) {
        uint32_t day = one_in(10)  ? (uint32_t)edge()
                       : one_in(5) ? (uint32_t)range(GRAIN_LAST_DAY - 50, GRAIN_LAST_DAY + 1)
                                   : (uint32_t)range(0, GRAIN_LAST_DAY);
        size_t length = fill_holidays(holidays, day), size = (length + 1) * sizeof holidays[0];
        holidays[length] = (int32_t)bits();
        memcpy(copy, holidays, size);
        const int32_t *lent = length ? holidays : NULL;
        if (one_in(4)) {
            struct grain_day one = core.results_due(day, lent, length), other = plain.results_due(day, copy, length);
            same("results due", &one, &other, sizeof one);
            count(12, &one);
        } else {
            uint32_t working = some_count(day);
            struct grain_day one = core.working_day(day, working, lent, length);
            struct grain_day other = plain.working_day(day, working, copy, length);
            same("a working day", &one, &other, sizeof one);
            count(11, &one);
        }
        same("the holidays", holidays, copy, size);
    }
}

/* A number at or beside a bound, or any edge. */
static int32_t beside(int32_t least, int32_t most)
{
    switch (range(0, 4)) {
    case 0:
        return least - range(0, 1);
    case 1:
    case 2:
        return most + range(0, 1);
    case 3:
        return (int32_t)bits();
    default:
        return edge();
    }
}

/* Room for lots that have too many records. */
enum { LOT_ROOM = GRAIN_LOT_RECORDS + 10 };

static size_t some_lot_length(void)
{
    switch (range(0, 39)) {
    case 0:
        return 0;
    case 1:
        return (size_t)range(GRAIN_LOT_RECORDS - 1, GRAIN_LOT_RECORDS + 2);
    case 2:
        return (size_t)range(1, LOT_ROOM);
    default:
        return (size_t)range(1, 12);
    }
}

/* Puts a record at a bound or beyond it, or at another basis. */
static void spoil_sublot(struct grain_sublot *record)
{
    switch (range(0, 4)) {
    case 0:
        record->figure = beside(0, 1000);
        break;
    case 1:
        record->basis = beside(0, 5000);
        break;
    case 2:
        record->tonnes = beside(1, 1000000);
        break;
    default:
        record->basis += record->basis < 5000 ? 1 : -1;
    }
}

/* Sublots of one basis: figures near each other or not, few tonnes or many, or the largest of both. One or two of their
 * records are sometimes spoiled, also the last. */
static void fill_lot(struct grain_sublot *records, size_t length)
{
    static const int32_t bases[4] = {0, 1200, 1400, 5000}, spreads[4] = {0, 1, 9, 1000};
    static const int32_t heaviest[4] = {1, 12, 60000, 1000000};
    int32_t basis = one_in(2) ? range(0, 5000) : bases[bits() % 4], spread = spreads[bits() % 4];
    int32_t lowest = range(0, 1000 - spread), most = heaviest[bits() % 4];
    bool largest = one_in(50);
    for (size_t i = 0; i < length; i++) {
        records[i].figure = largest ? 1000 : lowest + range(0, spread);
        records[i].basis = basis;
        records[i].tonnes = largest ? 1000000 : range(1, most);
    }
    if (length && one_in(3))
        for (int wrong = range(1, 2); wrong > 0; wrong--)
            spoil_sublot(&records[one_in(4) ? length - 1 : bits() % length]);
}

static struct grain_lot both_lots(const struct grain_sublot *records, size_t length)
{
    static struct grain_sublot copy[LOT_ROOM + 1];
    size_t size = (length + 1) * sizeof records[0];
    memcpy(copy, records, size);
    struct grain_lot one = core.ship_lot(length ? records : NULL, length), other = plain.ship_lot(copy, length);
    same("a lot's answer", &one, &other, sizeof one);
    same("a lot's records", records, copy, size);
    count(13, &one);
    return one;
}

static void move_records(struct grain_sublot *records, size_t length)
{
    for (size_t left = length; left > 1; left--) {
        struct grain_sublot *one = &records[bits() % left], last = records[left - 1];
        records[left - 1] = *one;
        *one = last;
    }
}

/* Writes a lot in records of one tonne; answers how many they are. */
static size_t spell_out(const struct grain_sublot *records, size_t length, struct grain_sublot *singles)
{
    size_t tonnes = 0;
    for (size_t i = 0; i < length; i++)
        for (int32_t left = records[i].tonnes; left > 0; left--) {
            singles[tonnes] = records[i];
            singles[tonnes++].tonnes = 1;
        }
    return tonnes;
}

/* A lot; then, where that changes its records, its tonnes in records of one, if there are few enough, or its records in
 * another order: the core must answer the same, and both_lots holds plain C to the core. Behind the last record stands one
 * that is not the lot's. */
static void compare_lots(void)
{
    static struct grain_sublot records[LOT_ROOM + 1], was[LOT_ROOM], singles[LOT_ROOM + 1];
    for (int i = 0; i < CALLS; i++) {
        size_t length = some_lot_length();
        fill_lot(records, length);
        fill(&records[length], sizeof records[0]);
        struct grain_lot given = both_lots(records, length), then;
        halves_up += given.accepted && 2 * (given.weighted_sum % given.tonnes) == given.tonnes;
        largest_lots += given.weighted_sum == UINT64_C(500000000000);
        if (given.accepted && given.tonnes <= GRAIN_LOT_RECORDS && given.tonnes > length && one_in(2)) {
            size_t tonnes = spell_out(records, length, singles);
            fill(&singles[tonnes], sizeof singles[0]);
            then = both_lots(singles, tonnes);
            lots_spelled_out++;
        } else {
            memcpy(was, records, length * sizeof was[0]);
            move_records(records, length);
            if (memcmp(was, records, length * sizeof was[0]) == 0)
                continue;
            then = both_lots(records, length);
            lots_moved++;
        }
        same("the answer to other records", &given, &then, sizeof given);
    }
}

/* Sums lay at every limit of a set's tests and beside it, and sets where another rule of the five would judge otherwise. */
static void sums_all_met(void)
{
    for (int i = 0; i < 4 * TESTS * 2 * 3; i++) {
        int row = i / 6 / TESTS, test = i / 6 % TESTS, below = i / 3 % 2, above = i % 3;
        if (!sums_met[row][test][below][above]) {
            fprintf(stderr, "bench: line %d, test %d, side %d: no sum lay %d above\n", row, test, below, above - 1);
            exit(1);
        }
    }
    if (!fives[0] || !fives[1] || !fives[2] || !fives_past_zero)
        fail("no five were tested with so many newest sets valid, or none past a zero set");
    if (!five_with_zero || !five_on_both_sides || !five_too_old)
        fail("no five beyond their limit were left out for a zero set, the side or the age of one");
    if (!ages_met[0][0] || !ages_met[0][1] || !ages_met[1][0] || !ages_met[1][1])
        fail("no set of a kind was 14 days old, or none 15");
    if (!opened_by_check[0] || !opened_by_check[1] || !certified_by_zero)
        fail("no line was opened by a check with S 0, or by another, or no certificate rests on a zero set");
}

/* Sets lay at all places between two halves, at every limit and beside it, and where another rule of plots would judge
 * otherwise. */
static void plots_met(void)
{
    for (int pairs = 1; pairs <= 5; pairs++)
        for (int i = 0; i < pairs * pairs; i++)
            if (!means_met[pairs][i / pairs][i % pairs]) {
                fprintf(stderr, "bench: no set of %d pairs had remainders %d and %d\n", pairs, i / pairs, i % pairs);
                exit(1);
            }
    for (int i = 0; i < 4 * 3 * 2 * 3; i++) {
        int row = i / 18, limit = i / 6 % 3, below = i / 3 % 2, above = i % 3;
        if (!limits_met[row][limit][below][above]) {
            fprintf(stderr, "bench: row %d, limit %d, side %d: nothing lay %d above\n", row, limit, below, above - 1);
            exit(1);
        }
    }
    if (!average_only || !plot_only)
        fail("no set reached its limit by the rounded average of its differences only, or none by its plot only");
    if (!on_no_side || !largest_plots[0] || !largest_plots[1])
        fail("no plot 0 of another sum kept a run away, or none was 10000 or -10000");
}

/* Every call was accepted and every number met. */
static void all_met(const char *const calls[KINDS])
{
    for (int i = 0; i < KINDS; i++)
        if (!accepted[i]) {
            fprintf(stderr, "bench: no %s was accepted\n", calls[i]);
            exit(1);
        }
    if (!gluten_certified)
        fail("no gluten was certified");
    if (!adjusted || !shut_nothing_kept || !shut_at_bound)
        fail("no line was adjusted, or none was shut in one of the two ways");
    if (!lots_moved || !lots_spelled_out)
        fail("no ship lot was given in another order, or none in records of one tonne");
    if (!halves_up || !largest_lots)
        fail("no ship lot had its mean at a half, or none was the largest");
    for (int i = 0; i < NUMBERS; i++)
        if (!refused[i]) {
            fprintf(stderr, "bench: number %d was never met\n", i);
            exit(1);
        }
}

/* How many sheets were entered in another order. */
static uint64_t moved_met(void)
{
    uint64_t moved = moved_accepted;
    if (!moved_accepted)
        fail("no sheet was accepted in another order");
    for (int i = 0; i < 8; i++) {
        moved += moved_refused[i];
        /* 1 is an opening's */
        if (i != 1 && !moved_refused[i])
            fail("a number was never met by a sheet in another order");
    }
    return moved;
}

static void compare(void)
{
    static const char *const calls[KINDS] = {
        "reading", "opening",       "sheet",         "repair",  "market test", "chart opening", "set",
        "text",    "day from date", "date from day", "weekday", "working day", "results due",   "ship lot",
    };
    seed = 1;
    compare_readings();
    compare_stations();
    compare_sums();
    compare_held_counts();
    compare_held_sets();
    compare_charts();
    compare_held_plots();
    compare_texts();
    uint64_t before_calendar = compared;
    compare_dates();
    compare_working_days();
    uint64_t before_lots = compared;
    compare_lots();
    all_met(calls);
    sums_all_met();
    plots_met();
    uint64_t moved = moved_met();
    printf("%" PRIu64 " calls compared, %" PRIu64 " of them sheets in another order, %" PRIu64 " of the calendar and ",
           compared, moved, before_lots - before_calendar);
    printf("%" PRIu64 " ship lots, ", compared - before_lots);
    printf("of these %" PRIu64 " in another order and %" PRIu64 " in records of one tonne, no difference; ", lots_moved,
           lots_spelled_out);
    printf("every refusal and every limit of sets and of charts met; accepted:");
    for (int i = 0; i < KINDS; i++)
        printf("%s %s %" PRIu64, i ? "," : "", calls[i], accepted[i]);
    printf("\n");
}

/* ---- The timing ---- */

static double now(void)
{
    struct timespec time;
    clock_gettime(CLOCK_MONOTONIC, &time);
    return (double)time.tv_sec + 1e-9 * (double)time.tv_nsec;
}

/* A work makes its calls, adds their time to *seconds and answers a checksum of what they answered. It is compiled once for
 * each side, with direct calls: a call through a pointer with two targets favours the one that comes more often. */
typedef uint64_t work(double *seconds);

#define WORK(name) static inline __attribute__((always_inline)) uint64_t name(const struct side *side, double *seconds)
#define FOR_BOTH(name) \
    static uint64_t core_##name(double *seconds) \
    { \
        return name(&core, seconds); \
    } \
    static uint64_t plain_##name(double *seconds) \
    { \
        return name(&plain, seconds); \
    }

enum { INPUTS = 2000, HOLIDAYS = 60 };

static int32_t the_row;
static struct grain_station the_station;
static struct {
    uint32_t day;
    uint64_t line;
    int32_t numbers[36];
} sheets[INPUTS];
static struct {
    uint64_t line;
    float floats[3];
    uint32_t kind;
    int32_t basis;
} requests[INPUTS];
static float floats[INPUTS];
static struct {
    size_t length;
    int32_t numbers[10];
} sets[INPUTS];
static uint8_t the_text[70000], the_output[GRAIN_OUTPUT_BYTES];
static size_t text_length;
static struct grain_date dates[INPUTS];
static uint32_t days[INPUTS], starts[INPUTS], counts[INPUTS];
static int32_t the_holidays[HOLIDAYS];
static size_t holidays_length;
static struct grain_sublot sublots[INPUTS + GRAIN_LOT_RECORDS];
static size_t lot_length;
static int lot_passes;

static int samples_of(int32_t row)
{
    return row == 1 ? 4 : 6;
}

/* Sheets of a laboratory, all accepted: mostly within the limits, some adjusted, some with thirds or again pairs. They are
 * written along a station, whose intercepts they have to fit. */
static void make_sheets(void)
{
    struct grain_station station;
    if (!plain.open(&station, (uint64_t)the_row).accepted)
        fail("no station");
    for (int i = 0; i < INPUTS;) {
        uint32_t day = (uint32_t)(station.day + range(0, 2));
        uint64_t line = (uint64_t)range(0, the_row == 1 ? 2 : 0);
        int32_t drift = one_in(10) ? 20 : 2, bias = range(-drift, drift);
        int32_t *numbers = sheets[i].numbers;
        fill_sheet(numbers, samples_of(the_row), station.lines[line].intercept, bias, one_in(3));
        if (!plain.sheet(&station, day, line, numbers, (size_t)(6 * samples_of(the_row))).accepted)
            continue;
        sheets[i].day = day;
        sheets[i].line = line;
        i++;
    }
}

WORK(sheets_work)
{
    uint64_t sum = 0;
    size_t length = (size_t)(6 * samples_of(the_row));
    struct grain_station station;
    double start = now();
    for (int pass = 0; pass < 20; pass++) {
        sum += side->open(&station, (uint64_t)the_row).accepted;
        for (int i = 0; i < INPUTS; i++) {
            struct grain_outcome o = side->sheet(&station, sheets[i].day, sheets[i].line, sheets[i].numbers, length);
            sum += o.accepted + (uint64_t)(int64_t)(o.sum + o.change) + o.count + o.phase;
        }
    }
    *seconds += now() - start;
    return sum + (uint64_t)station.day;
}
FOR_BOTH(sheets_work)

/* A station whose lines hold so many sets each that aren't zero, and the newest two of them as their newest; and requests
 * on it. */
static void make_requests(int held)
{
    if (!plain.open(&the_station, (uint64_t)the_row).accepted)
        fail("no station");
    int lines = the_row == GRAIN_ROW_CORN ? 3 : 1;
    for (int i = 0; i < lines * held; i++) {
        int32_t numbers[36], sum = range(1, 30);
        uint32_t day = (uint32_t)(2 + i / lines / 2);
        fill_sum(numbers, samples_of(the_row), 0, one_in(2) ? -sum : sum);
        if (plain.sheet(&the_station, day, (uint64_t)(i % lines), numbers, (size_t)(6 * samples_of(the_row))).phase !=
            GRAIN_OPEN)
            fail("a line was adjusted");
    }
    for (int i = 0; i < lines; i++)
        if (the_station.lines[i].newest_held != (held < 2 ? held : 2) || the_station.lines[i].nonzero_held != held)
            fail("a line holds other sets");
    for (int i = 0; i < INPUTS; i++) {
        requests[i].line = (uint64_t)range(0, the_row == 1 ? 2 : 0);
        for (int j = 0; j < 3; j++)
            requests[i].floats[j] = (float)range(300, 6000) / 100.0f;
        requests[i].kind = (uint32_t)range(0, 3);
        requests[i].basis = range(0, 2000);
    }
}

WORK(market_work)
{
    uint64_t sum = 0;
    struct grain_station station = the_station;
    double start = now();
    for (int pass = 0; pass < 60; pass++)
        for (int i = 0; i < INPUTS; i++) {
            const float *f = requests[i].floats;
            struct grain_certificate c = side->market(&station, 5, requests[i].line, (uint32_t)the_row, f[0], f[1], f[2],
                                                      GRAIN_LINE_FIGURE, requests[i].kind, requests[i].basis);
            sum += c.accepted + c.figure + c.converted + c.day + (uint64_t)(int64_t)(c.intercept + c.basis);
        }
    *seconds += now() - start;
    return sum + (uint64_t)station.day;
}
FOR_BOTH(market_work)

/* Wet gluten of both classes, by an intercept that is rounded. */
WORK(gluten_work)
{
    uint64_t sum = 0;
    struct grain_station station = the_station;
    station.lines[0].intercept = 137;
    double start = now();
    for (int pass = 0; pass < 60; pass++)
        for (int i = 0; i < INPUTS; i++) {
            const float *f = requests[i].floats;
            uint32_t asked = i % 2 ? GRAIN_GLUTEN_HARD_RED_SPRING : GRAIN_GLUTEN_HARD_RED_WINTER;
            struct grain_certificate c = side->market(&station, 5, requests[i].line, GRAIN_WHEAT_GLUTEN, f[0], f[1], f[2],
                                                      asked, GRAIN_STANDARD, requests[i].basis);
            sum += c.accepted + c.figure + c.converted + c.day + (uint64_t)(int64_t)(c.intercept + c.basis);
        }
    *seconds += now() - start;
    return sum + (uint64_t)station.day;
}
FOR_BOTH(gluten_work)

/* Repairs of one station after another, each as it was made; the copies are not timed. */
WORK(repairs_work)
{
    static struct grain_station stations[100];
    uint64_t sum = 0;
    for (int pass = 0; pass < 600; pass++) {
        for (int i = 0; i < 100; i++)
            stations[i] = the_station;
        double start = now();
        for (int i = 0; i < 100; i++)
            sum += side->repair(&stations[i], (uint32_t)(10 + i)).accepted;
        *seconds += now() - start;
        for (int i = 0; i < 100; i++)
            sum += (uint64_t)(stations[i].day + stations[i].lines[2].newest_held + stations[i].lines[2].nonzero_held +
                              stations[i].lines[1].phase);
    }
    return sum;
}
FOR_BOTH(repairs_work)

/* Repairs of one station day after day. */
WORK(repairs_again_work)
{
    uint64_t sum = 0;
    struct grain_station station = the_station;
    double start = now();
    for (uint32_t day = 10; day < 80010; day++)
        sum += side->repair(&station, day).accepted;
    *seconds += now() - start;
    return sum + (uint64_t)station.day;
}
FOR_BOTH(repairs_again_work)

WORK(openings_work)
{
    uint64_t sum = 0;
    struct grain_station station;
    double start = now();
    for (int i = 0; i < 200000; i++) {
        sum += side->open(&station, sheets[i % INPUTS].line & 1).accepted;
        sum += (uint64_t)station.row;
    }
    *seconds += now() - start;
    return sum;
}
FOR_BOTH(openings_work)

static void make_floats(void)
{
    for (int i = 0; i < INPUTS; i++)
        floats[i] = float_of(0x3C000000 + (uint32_t)bits() % 0x06C80000);
}

WORK(readings_work)
{
    uint64_t sum = 0;
    double start = now();
    for (int pass = 0; pass < 200; pass++)
        for (int i = 0; i < INPUTS; i++) {
            struct grain_value v = side->reading(floats[i]);
            sum += v.accepted + v.hundredths;
        }
    *seconds += now() - start;
    return sum;
}
FOR_BOTH(readings_work)

static void make_sets(void)
{
    for (int i = 0; i < INPUTS; i++) {
        int pairs = one_in(4) ? range(1, 5) : 5;
        sets[i].length = (size_t)(2 * pairs);
        for (int j = 0; j < pairs; j++) {
            sets[i].numbers[2 * j + 1] = range(900, 1900);
            sets[i].numbers[2 * j] = sets[i].numbers[2 * j + 1] + range(-40, 40);
        }
    }
}

WORK(sets_work)
{
    uint64_t sum = 0;
    uint8_t line[GRAIN_LINE_BYTES];
    double start = now();
    for (int pass = 0; pass < 20; pass++) {
        struct grain_chart chart;
        sum += side->chart_open(&chart, (uint64_t)(pass % 4)).accepted;
        for (int i = 0; i < INPUTS; i++) {
            struct grain_charted c =
                side->chart_set(&chart, (uint32_t)(i + 1), sets[i].numbers, sets[i].length, line, sizeof line);
            sum += c.accepted + c.length + c.al + c.tl + c.run + c.ral + c.rtl + line[c.length - 2];
        }
    }
    *seconds += now() - start;
    return sum;
}
FOR_BOTH(sets_work)

static void make_text(void)
{
    text_length = fill_text(the_text, 65400, false);
    if (text_length > GRAIN_TEXT_BYTES)
        fail("the text is too long");
}

/* The output is cleared before each text and added up after it; neither is timed. */
WORK(text_work)
{
    uint64_t sum = 0;
    for (int pass = 0; pass < 15; pass++) {
        memset(the_output, 0, sizeof the_output);
        double start = now();
        struct grain_written w = side->chart_text(the_text, text_length, the_output, sizeof the_output);
        *seconds += now() - start;
        sum += w.accepted;
        for (size_t i = 0; i < w.length; i++)
            sum = 31 * sum + the_output[i];
    }
    return sum;
}
FOR_BOTH(text_work)

/* Eleven holidays a year from 2024 on, some of them on weekends; days and dates of the whole calendar, and days among the
 * holidays to count from. */
static void make_dates(void)
{
    static const uint32_t fixed[11][2] = {{1, 1}, {1, 19},  {2, 16},  {5, 25},  {6, 19}, {7, 4},
                                          {9, 7}, {10, 12}, {11, 11}, {11, 26}, {12, 25}};
    for (uint32_t i = 0; i < HOLIDAYS; i++) {
        const uint32_t *date = fixed[i % 11];
        the_holidays[i] = (int32_t)plain.day_from_date(2024 + i / 11, date[0], date[1]).day;
    }
    for (int i = 0; i < INPUTS; i++) {
        days[i] = (uint32_t)range(0, GRAIN_LAST_DAY);
        dates[i] = plain.date_from_day(days[i]);
        starts[i] = (uint32_t)range(the_holidays[0], the_holidays[HOLIDAYS - 1]);
        counts[i] = (uint32_t)range(1, 10);
    }
}

WORK(days_work)
{
    uint64_t sum = 0;
    double start = now();
    for (int pass = 0; pass < 100; pass++)
        for (int i = 0; i < INPUTS; i++) {
            struct grain_day d = side->day_from_date(dates[i].year, dates[i].month, dates[i].day);
            sum += d.accepted + d.day;
        }
    *seconds += now() - start;
    return sum;
}
FOR_BOTH(days_work)

WORK(dates_work)
{
    uint64_t sum = 0;
    double start = now();
    for (int pass = 0; pass < 100; pass++)
        for (int i = 0; i < INPUTS; i++) {
            struct grain_date d = side->date_from_day(days[i]);
            sum += d.accepted + d.year + d.month + d.day;
        }
    *seconds += now() - start;
    return sum;
}
FOR_BOTH(dates_work)

WORK(working_days_work)
{
    uint64_t sum = 0;
    double start = now();
    for (int pass = 0; pass < 60; pass++)
        for (int i = 0; i < INPUTS; i++) {
            struct grain_day d = side->working_day(starts[i], counts[i], the_holidays, holidays_length);
            sum += d.accepted + d.day;
        }
    *seconds += now() - start;
    return sum;
}
FOR_BOTH(working_days_work)

static void make_sublots(void)
{
    for (int i = 0; i < INPUTS + GRAIN_LOT_RECORDS; i++) {
        sublots[i].figure = range(110, 150);
        sublots[i].basis = 1200;
        sublots[i].tonnes = range(300, 3000);
    }
}

/* Each lot begins with another sublot. */
WORK(lots_work)
{
    uint64_t sum = 0;
    double start = now();
    for (int pass = 0; pass < lot_passes; pass++)
        for (int i = 0; i < INPUTS; i++) {
            struct grain_lot l = side->ship_lot(&sublots[i], lot_length);
            sum += l.accepted + (uint64_t)l.basis + l.lowest + l.highest + l.mean + l.tonnes + l.weighted_sum;
        }
    *seconds += now() - start;
    return sum;
}
FOR_BOTH(lots_work)

enum { MOST_ROUNDS = 1000 };

static int rounds = 21;

static int by_size(const void *one, const void *other)
{
    double a = *(const double *)one, b = *(const double *)other;
    return (a > b) - (a < b);
}

static double median(double *times)
{
    qsort(times, (size_t)rounds, sizeof *times, by_size);
    return times[rounds / 2];
}

/* How far apart the fastest and the slowest of sorted times are, in percent of the median. */
static double spread(const double *times)
{
    return 100.0 * (times[rounds - 1] - times[0]) / times[rounds / 2];
}

/* Times core, plain and plain again in turn, in the other order in every second round. */
static void row(const char *name, work *core_work, work *plain_work, double units, const char *unit)
{
    static double times[3][MOST_ROUNDS];
    work *const works[3] = {core_work, plain_work, plain_work};
    uint64_t expected = 0;
    for (int round = -1; round < rounds; round++)
        for (int turn = 0; turn < 3; turn++) {
            int who = round % 2 ? 2 - turn : turn;
            double seconds = 0;
            uint64_t sum = works[who](&seconds);
            if (round < 0 && turn == 0)
                expected = sum;
            if (sum != expected)
                fail("the sides' checksums differ");
            if (round >= 0)
                times[who][round] = 1e9 * seconds / units;
        }
    double by_core = median(times[0]), by_plain = median(times[1]), again = median(times[2]);
    printf("%-30s %8.2f %8.2f   %5.2f   %4.0f %% %4.0f %%   %5.2f   %s\n", name, by_core, by_plain, by_core / by_plain,
           spread(times[0]), spread(times[1]), again / by_plain, unit);
}

#define ROW(name, work, units, unit) row(name, core_##work, plain_##work, units, unit)

static void time_calendar(void)
{
    make_dates();
    ROW("days from dates", days_work, 100.0 * INPUTS, "a call");
    ROW("dates from days", dates_work, 100.0 * INPUTS, "a call");
    holidays_length = 0;
    ROW("working days, no holiday", working_days_work, 60.0 * INPUTS, "a call");
    holidays_length = HOLIDAYS;
    ROW("working days, 60 holidays", working_days_work, 60.0 * INPUTS, "a call");
}

static void time_lots(void)
{
    make_sublots();
    lot_length = 5;
    lot_passes = 60;
    ROW("ship lots, 5 records", lots_work, 60.0 * INPUTS, "a call");
    lot_length = GRAIN_LOT_RECORDS;
    lot_passes = 2;
    ROW("ship lots, 500 records", lots_work, 2.0 * INPUTS, "a call");
}

int main(int argc, char **argv)
{
    if (argc > 1)
        rounds = atoi(argv[1]);
    if (argc > 2 || rounds < 1 || rounds > MOST_ROUNDS)
        fail("usage: bench [ROUNDS]");
    compare();

    printf("%d rounds; ns, median; ratio: core over plain; spread of core and plain; noise: plain over itself\n", rounds);
    printf("%-30s %8s %8s   %5s   %13s   %5s\n", "", "core", "plain", "ratio", "spread", "noise");
    seed = 2;
    the_row = GRAIN_ROW_WHEAT;
    make_sheets();
    ROW("sheets, wheat", sheets_work, 20.0 * INPUTS, "a call");
    make_requests(1);
    ROW("market, wheat, 1 sheet", market_work, 60.0 * INPUTS, "a call");
    make_requests(4);
    ROW("market, wheat, 4 sheets", market_work, 60.0 * INPUTS, "a call");
    ROW("market, gluten, 4 sheets", gluten_work, 60.0 * INPUTS, "a call");
    the_row = GRAIN_ROW_CORN;
    make_sheets();
    ROW("sheets, corn", sheets_work, 20.0 * INPUTS, "a call");
    make_requests(4);
    ROW("market, corn, 12 sheets", market_work, 60.0 * INPUTS, "a call");
    ROW("repairs, corn, 12 sheets", repairs_work, 60000, "a call");
    ROW("repairs, corn, nothing held", repairs_again_work, 80000, "a call");
    ROW("openings", openings_work, 200000, "a call");
    make_floats();
    ROW("readings", readings_work, 200.0 * INPUTS, "a call");
    make_sets();
    ROW("chart sets", sets_work, 20.0 * INPUTS, "a call");
    make_text();
    ROW("chart text", text_work, 15.0 * (double)text_length, "a byte");
    time_calendar();
    time_lots();
    return 0;
}
