/* All sixteen calls from four threads at once, each on stations and charts of its own and all over the same holidays
 * and sublots, beside the same calls by one thread: every answer, state and output must be the same. */
#define _POSIX_C_SOURCE 200809L

#include "grain.h"

#include <pthread.h>
#include <stdbool.h>
#include <stdio.h>
#include <stdlib.h>
#include <string.h>

enum { THREADS = 4, CALLS = 100000, STATIONS = 8, CHARTS = 8, KINDS = 16, HOLIDAYS = 11, SUBLOTS = 8 };

/* Those of 2026, as days. */
static const int32_t holidays[HOLIDAYS] = {9497, 9515, 9543, 9641, 9666, 9681, 9746, 9781, 9811, 9826, 9855};

/* The last two are of another basis, and the last has no tonnes. */
static const struct grain_sublot sublots[SUBLOTS] = {
    {134, 1200, 11000}, {135, 1200, 9000},    {128, 1200, 1},    {141, 1200, 500},
    {137, 1200, 26000}, {129, 1200, 1000000}, {152, 0, 20000},   {151, 0, 0},
};

/* What one thread works on and what it was answered. */
struct job {
    uint64_t random;
    struct grain_station stations[STATIONS];
    struct grain_chart charts[CHARTS];
    uint8_t line[GRAIN_LINE_BYTES];
    uint8_t out[2000];
    uint64_t answers;         /* a hash of all answers and outputs */
    uint32_t accepted[KINDS]; /* of each call */
};

static uint32_t draw(struct job *job, uint32_t below)
{
    job->random = job->random * UINT64_C(6364136223846793005) + UINT64_C(1442695040888963407);
    return (uint32_t)(job->random >> 33) % below;
}

/* Takes an answer or an output into the hash. */
static void take(struct job *job, const void *memory, size_t size)
{
    const uint8_t *bytes = memory;
    for (size_t i = 0; i < size; i++)
        job->answers = (job->answers ^ bytes[i]) * UINT64_C(1099511628211);
}

static void calendar_call(struct job *job)
{
    uint32_t day = 9480 + draw(job, 400), call = draw(job, 5);
    if (call == 0) {
        struct grain_day d = grain_day_from_date(1990 + draw(job, 300), draw(job, 14), draw(job, 33));
        take(job, &d, sizeof d);
        job->accepted[8] += d.accepted;
    } else if (call == 1) {
        struct grain_date d = grain_date_from_day(draw(job, 101000));
        take(job, &d, sizeof d);
        job->accepted[9] += d.accepted;
    } else if (call == 2) {
        struct grain_weekday w = grain_weekday_of_day(draw(job, 101000));
        take(job, &w, sizeof w);
        job->accepted[10] += w.accepted;
    } else if (call == 3) {
        struct grain_day d = grain_working_day(day, draw(job, 30), holidays, draw(job, HOLIDAYS + 1));
        take(job, &d, sizeof d);
        job->accepted[11] += d.accepted;
    } else {
        struct grain_day d = grain_results_due(day, holidays, HOLIDAYS);
        take(job, &d, sizeof d);
        job->accepted[12] += d.accepted;
    }
}

/* A lot of sublots that follow each other, or of none. */
static void lot_call(struct job *job)
{
    uint32_t first = draw(job, SUBLOTS), count = draw(job, SUBLOTS - first + 1);
    struct grain_lot l = grain_ship_lot(&sublots[first], count);
    take(job, &l, sizeof l);
    job->accepted[13] += l.accepted;
}

static void check_call(struct job *job, const struct grain_station *station, const struct grain_chart *chart)
{
    struct grain_answer s = grain_station_check(station), c = grain_chart_check(chart);
    take(job, &s, sizeof s);
    take(job, &c, sizeof c);
    job->accepted[14] += s.accepted;
    job->accepted[15] += c.accepted;
}

static void one_call(struct job *job)
{
    struct grain_station *station = &job->stations[draw(job, STATIONS)];
    struct grain_chart *chart = &job->charts[draw(job, CHARTS)];
    uint32_t day = (uint32_t)station->day + draw(job, 2), call = draw(job, 47);
    uint64_t line = station->row == GRAIN_ROW_CORN ? draw(job, 3) : 0;
    if (call == 46) {
        check_call(job, station, chart);
    } else if (call == 45) {
        lot_call(job);
    } else if (call >= 40) {
        calendar_call(job);
    } else if (call == 0) {
        struct grain_answer a = grain_open(station, draw(job, 3));
        take(job, &a, sizeof a);
        job->accepted[0] += a.accepted;
    } else if (call == 1) {
        struct grain_answer a = grain_chart_open(chart, draw(job, 5));
        take(job, &a, sizeof a);
        job->accepted[1] += a.accepted;
    } else if (call == 2) {
        struct grain_answer a = grain_repair(station, day);
        take(job, &a, sizeof a);
        job->accepted[2] += a.accepted;
    } else if (call < 6) {
        struct grain_value v = grain_reading((float)draw(job, 10200) / 99.0f);
        take(job, &v, sizeof v);
        job->accepted[3] += v.accepted;
    } else if (call < 12) {
        bool gluten = station->row == GRAIN_ROW_WHEAT && draw(job, 2) == 1;
        uint32_t scan = gluten ? GRAIN_WHEAT_GLUTEN : (uint32_t)station->row, asked = gluten ? 1 + draw(job, 3) : 0;
        struct grain_certificate c =
            grain_market(station, day, line, scan, (float)draw(job, 9000) / 100.0f, (float)draw(job, 9000) / 100.0f,
                         (float)draw(job, 9000) / 100.0f, asked, gluten ? draw(job, 2) : draw(job, 5), 1400);
        take(job, &c, sizeof c);
        job->accepted[4] += c.accepted;
    } else if (call < 28) {
        int32_t numbers[GRAIN_WHEAT_SHEET], bias = (int32_t)draw(job, 13) - 6;
        size_t length = station->row == GRAIN_ROW_CORN ? GRAIN_CORN_SHEET : GRAIN_WHEAT_SHEET;
        for (size_t i = 0; i < length; i += 6) {
            int32_t baseline = 1200 + (int32_t)draw(job, 500);
            int32_t value = baseline + bias - station->lines[line].intercept;
            int32_t first = value + (int32_t)draw(job, 9), second = value - (int32_t)draw(job, 9);
            const int32_t sample[6] = {baseline, first, second, -1, -1, -1};
            memcpy(numbers + i, sample, sizeof sample);
        }
        struct grain_outcome o = grain_sheet(station, day, line, numbers, length);
        take(job, &o, sizeof o);
        job->accepted[5] += o.accepted;
    } else if (call < 39) {
        int32_t numbers[10];
        size_t length = 2 * (1 + draw(job, 5));
        for (size_t i = 0; i < length; i++)
            numbers[i] = 1200 + (int32_t)draw(job, 40);
        struct grain_charted c =
            grain_chart_set(chart, (uint32_t)chart->week + 1, numbers, length, job->line, sizeof job->line);
        take(job, &c, sizeof c);
        take(job, job->line, c.length);
        job->accepted[6] += c.accepted;
    } else {
        char text[2000];
        int length = sprintf(text, "week sample original monitor\n");
        for (int week = 1; week < 20; week++)
            length += sprintf(text + length, "%d 1 %u %u\n", week, 1200 + draw(job, 40), 1200 + draw(job, 40));
        struct grain_written w =
            grain_chart_text((const uint8_t *)text, (size_t)length - draw(job, 2), job->out, sizeof job->out);
        take(job, &w, sizeof w);
        take(job, job->out, w.length);
        job->accepted[7] += w.accepted;
    }
}

static void run(struct job *job)
{
    for (int i = 0; i < CALLS; i++)
        one_call(job);
}

/* All threads wait for each other before their first call. */
static pthread_barrier_t all_ready;

static void *thread(void *job)
{
    pthread_barrier_wait(&all_ready);
    run(job);
    return NULL;
}

static void prepare(struct job *job, uint64_t seed)
{
    memset(job, 0, sizeof *job);
    job->random = seed;
    for (uint64_t i = 0; i < STATIONS; i++)
        if (!grain_open(&job->stations[i], i % 2).accepted || !grain_chart_open(&job->charts[i], i % 4).accepted)
            exit(1);
}

int main(void)
{
    static struct job together[THREADS], alone;
    pthread_t threads[THREADS];
    if (pthread_barrier_init(&all_ready, NULL, THREADS) != 0)
        return 1;
    for (int i = 0; i < THREADS; i++)
        prepare(&together[i], (uint64_t)i + 1);
    for (int i = 0; i < THREADS; i++)
        if (pthread_create(&threads[i], NULL, thread, &together[i]) != 0)
            return 1;
    for (int i = 0; i < THREADS; i++)
        if (pthread_join(threads[i], NULL) != 0)
            return 1;
    for (int i = 0; i < THREADS; i++) {
        prepare(&alone, (uint64_t)i + 1);
        run(&alone);
        if (memcmp(&alone, &together[i], sizeof alone) != 0) {
            fprintf(stderr, "threads: thread %d and one thread alone differ\n", i);
            return 1;
        }
        for (int call = 0; call < KINDS; call++)
            if (alone.accepted[call] == 0) {
                fprintf(stderr, "threads: call %d was never accepted\n", call);
                return 1;
            }
    }
    printf("%d threads with %d calls each: all answers and states as by one thread\n", THREADS, CALLS);
    return 0;
}
