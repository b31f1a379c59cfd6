/* grain_station_check and grain_chart_check answer what grain_repair and grain_chart_set tell by number 0, on fresh,
 * used and damaged states, and change nothing. Each place of a state is damaged in turn, and then two at once. */
#include "grain.h"

#include <inttypes.h>
#include <stdio.h>
#include <stdlib.h>
#include <string.h>

enum { STATION = sizeof(struct grain_station) / 4, CHART = sizeof(struct grain_chart) / 4, ROUNDS = 200 };

static long sound, unsound;
static uint64_t random_state = 1;

static uint32_t draw(uint32_t below)
{
    random_state = random_state * UINT64_C(6364136223846793005) + UINT64_C(1442695040888963407);
    return (uint32_t)(random_state >> 33) % below;
}

static void count(struct grain_answer answer, uint32_t expected, const char *what)
{
    if (answer.accepted != expected || answer.number != 0) {
        fprintf(stderr, "checks: a %s is answered %" PRIu32 ", %" PRIu32 " where %" PRIu32 ", 0 is expected\n", what,
                answer.accepted, answer.number, expected);
        exit(1);
    }
    sound += answer.accepted;
    unsound += !answer.accepted;
}

static void try_station(const int32_t *places)
{
    struct grain_station station, repaired;
    memcpy(&station, places, sizeof station);
    repaired = station;
    struct grain_answer repair = grain_repair(&repaired, 99999);
    count(grain_station_check(&station), repair.accepted, "station");
    if (memcmp(&station, places, sizeof station) != 0 || repair.number != 0)
        exit(1);
}

static void try_chart(const int32_t *places)
{
    static const int32_t numbers[2] = {1200, 1201};
    struct grain_chart chart, charted;
    uint8_t line[GRAIN_LINE_BYTES];
    memcpy(&chart, places, sizeof chart);
    charted = chart;
    struct grain_charted set = grain_chart_set(&charted, 9999, numbers, 2, line, sizeof line);
    count(grain_chart_check(&chart), set.accepted || set.number != 0, "chart");
    if (memcmp(&chart, places, sizeof chart) != 0)
        exit(1);
}

/* A number that may be out of its bounds: an edge, or near what stood there. */
static int32_t damage(int32_t held, uint32_t choice)
{
    static const int32_t edges[] = {INT32_MIN, INT32_MIN + 1, -132001, -10001, -10000, -1001, -1000, -1,   0,
                                    1,         2,             3,       4,      5,      6,     8,     9,    10,
                                    11,        12,            13,      14,     1000,   1001,  9999,  10000, 10001,
                                    88000,     88001,         99999,   100000, 132000, 132001, INT32_MAX};
    uint32_t known = sizeof edges / sizeof edges[0];
    return choice < known ? edges[choice] : (int32_t)((uint32_t)held + choice - known - 20);
}

enum { CHOICES = 34 + 41 };

static void damage_each(const int32_t *state, int places, void (*try)(const int32_t *))
{
    int32_t changed[STATION];
    memcpy(changed, state, (size_t)places * sizeof *state);
    try(changed);
    for (int i = 0; i < places; i++)
        for (uint32_t choice = 0; choice < CHOICES; choice++) {
            changed[i] = damage(state[i], choice);
            try(changed);
            int other = (int)draw((uint32_t)places);
            int32_t held = changed[other];
            changed[other] = damage(held, draw(CHOICES));
            try(changed);
            changed[other] = held;
            changed[i] = state[i];
        }
}

/* A sheet whose results lie near their baselines, sometimes so far off that the line is adjusted or shut. */
static void enter_sheet(struct grain_station *station, uint64_t line)
{
    int32_t numbers[GRAIN_WHEAT_SHEET], bias = draw(8) == 0 ? 2000 : (int32_t)draw(9) - 4;
    size_t length = station->row == GRAIN_ROW_CORN ? GRAIN_CORN_SHEET : GRAIN_WHEAT_SHEET;
    for (size_t i = 0; i < length; i += 6) {
        int32_t value = 3000 + bias - station->lines[line].intercept;
        const int32_t sample[6] = {3000, value + (int32_t)draw(4), value - (int32_t)draw(4), -1, -1, -1};
        memcpy(numbers + i, sample, sizeof sample);
    }
    if (!grain_sheet(station, (uint32_t)station->day + draw(3), line, numbers, length).accepted)
        exit(1);
}

static void used_station(struct grain_station *station)
{
    uint64_t row = draw(2);
    if (!grain_open(station, row).accepted)
        exit(1);
    for (uint32_t i = draw(25); i > 0; i--)
        if (draw(10) != 0)
            enter_sheet(station, row == GRAIN_ROW_CORN ? draw(3) : 0);
        else if (!grain_repair(station, (uint32_t)station->day).accepted)
            exit(1);
}

static void used_chart(struct grain_chart *chart)
{
    uint8_t line[GRAIN_LINE_BYTES];
    if (!grain_chart_open(chart, draw(4)).accepted)
        exit(1);
    for (uint32_t i = draw(7); i > 0; i--) {
        const int32_t numbers[4] = {1200, 1200 + (int32_t)draw(90), 1210, 1200 + (int32_t)draw(90)};
        uint32_t week = (uint32_t)chart->week + 1;
        if (!grain_chart_set(chart, week, numbers, 2 * (1 + draw(2)), line, sizeof line).accepted)
            exit(1);
    }
}

int main(void)
{
    int32_t places[STATION];
    for (int i = 0; i < ROUNDS; i++) {
        struct grain_station station;
        struct grain_chart chart;
        used_station(&station);
        memcpy(places, &station, sizeof station);
        damage_each(places, STATION, try_station);
        used_chart(&chart);
        memcpy(places, &chart, sizeof chart);
        damage_each(places, CHART, try_chart);
    }
    memset(places, 0xff, sizeof places);
    try_station(places);
    try_chart(places);
    printf("checks: %ld sound and %ld unsound states\n", sound, unsound);
    return sound == 0 || unsound == 0;
}
