/* The rules of docs/SPECIFICATION.md in plain C over the structs of grain.h. Written from the rules, it shares nothing with
 * the core. */
#include "plain.h"

#include <stdbool.h>
#include <stdio.h>
#include <stdlib.h>
#include <string.h>

/* ---- Stations ---- */

struct limits {
    int32_t pair, sample, range; /* of a sheet's numbers */
    int32_t one, two, three, five, check;
};

struct product {
    int32_t samples, standard, lines;
    struct limits limits[3];
};

static const struct product products[2] = {
    {6, 1200, 1, {{30, 40, 50, 10, 7, 5, 3, 5}}},
    {4, 0, 3, {{30, 40, 50, 15, 10, 7, 5, 7}, {40, 50, 60, 15, 10, 7, 6, 7}, {90, 80, 150, 35, 25, 20, 15, 20}}},
};

enum { LAST_DAY = 99999, MOST_SAMPLES = 6 };

static bool sound_set(const struct grain_past_set *set, int32_t samples, int32_t last)
{
    if (set->day < 0 || set->day > last)
        return false;
    if (set->count < 2 || set->count > 2 * samples || set->count % 2)
        return false;
    return set->sum <= 11000 * set->count && set->sum >= -11000 * set->count;
}

static bool sound_line(const struct grain_line *line, int32_t samples, int32_t today)
{
    if (line->intercept < -1000 || line->intercept > 1000)
        return false;
    if (line->phase != GRAIN_OPEN)
        return line->phase >= GRAIN_NEW && line->phase <= GRAIN_SHUT && line->newest_held == 0 && line->nonzero_held == 0;
    if (line->newest_held < 1 || line->newest_held > 2 || line->nonzero_held < 0 || line->nonzero_held > 4)
        return false;
    int32_t last = today;
    for (int i = 0; i < line->newest_held; i++) {
        if (!sound_set(&line->newest[i], samples, last))
            return false;
        last = line->newest[i].day;
    }
    last = today;
    for (int i = 0; i < line->nonzero_held; i++) {
        if (line->nonzero[i].sum == 0 || !sound_set(&line->nonzero[i], samples, last))
            return false;
        last = line->nonzero[i].day;
    }
    return true;
}

static bool sound_station(const struct grain_station *station)
{
    if (station->row < 0 || station->row > 1 || station->day < 0 || station->day > LAST_DAY)
        return false;
    const struct product *product = &products[station->row];
    for (int i = 0; i < product->lines; i++)
        if (!sound_line(&station->lines[i], product->samples, station->day))
            return false;
    return true;
}

static bool bad_day(const struct grain_station *station, uint32_t day)
{
    return day < (uint32_t)station->day || day > LAST_DAY;
}

/* 100 times a float is exact in double precision, and so is the half added to it. */
static bool read_percent(float percent, int32_t *hundredths)
{
    if (!(percent >= 0.0f && percent <= 100.0f))
        return false;
    *hundredths = (int32_t)(100.0 * (double)percent + 0.5);
    return true;
}

struct grain_value plain_reading(float percent)
{
    int32_t hundredths;
    if (!read_percent(percent, &hundredths))
        return (struct grain_value){.number = 9};
    return (struct grain_value){.accepted = 1, .hundredths = (uint32_t)hundredths};
}

struct grain_answer plain_open(struct grain_station *station, uint64_t row)
{
    memset(station, 0, sizeof *station);
    if (row > 1)
        return (struct grain_answer){.number = 1};
    station->row = (int32_t)row;
    return (struct grain_answer){.accepted = 1};
}

/* Takes a line's sets away: none is held, and their places are 0. */
static void empty(struct grain_line *line)
{
    line->newest_held = 0;
    memset(line->newest, 0, sizeof line->newest);
    line->nonzero_held = 0;
    memset(line->nonzero, 0, sizeof line->nonzero);
}

struct grain_answer plain_repair(struct grain_station *station, uint32_t day)
{
    if (!sound_station(station))
        return (struct grain_answer){.number = 0};
    if (bad_day(station, day))
        return (struct grain_answer){.number = 2};
    for (int i = 0; i < 3; i++) {
        struct grain_line *line = &station->lines[i];
        if (line->phase == GRAIN_OPEN)
            line->phase = GRAIN_NEW;
        empty(line);
    }
    station->day = (int32_t)day;
    return (struct grain_answer){.accepted = 1};
}

static struct grain_certificate no_certificate(uint32_t number)
{
    return (struct grain_certificate){.number = number};
}

/* Whether the scan has what is asked for. */
static bool has_asked(int32_t row, uint32_t scan_kind, bool gluten)
{
    if (row == GRAIN_ROW_CORN)
        return !gluten && scan_kind == GRAIN_CORN;
    return scan_kind == GRAIN_WHEAT_GLUTEN || (!gluten && scan_kind == GRAIN_WHEAT);
}

static uint32_t not_open(const struct grain_line *line)
{
    return line->phase == GRAIN_NEW ? 12 : line->phase == GRAIN_ADJUSTED ? 25 : 26;
}

/* Times 3.029, halves away from zero. */
static int32_t gluten_intercept(int32_t intercept)
{
    return (3029 * intercept + (intercept < 0 ? -500 : 500)) / 1000;
}

struct grain_certificate plain_market(struct grain_station *station, uint32_t day, uint64_t line, uint32_t scan_kind,
                                      float first, float second, float third, uint32_t asked, uint32_t basis_kind,
                                      int32_t basis)
{
    if (!sound_station(station))
        return no_certificate(0);
    if (bad_day(station, day))
        return no_certificate(2);
    const struct product *product = &products[station->row];
    if (line >= (uint64_t)product->lines)
        return no_certificate(3);
    bool gluten = asked != GRAIN_LINE_FIGURE;
    if (!has_asked(station->row, scan_kind, gluten))
        return no_certificate(8);
    const struct grain_line *held = &station->lines[line];
    int32_t intercept = held->intercept, standard = product->standard;
    float percent = line == 0 ? first : line == 1 ? second : third;
    if (gluten) {
        if (asked > GRAIN_GLUTEN_HARD_RED_SPRING)
            return no_certificate(23);
        if (basis_kind != GRAIN_STANDARD)
            return no_certificate(24);
        intercept = gluten_intercept(intercept);
        standard = 1400;
        percent = second;
    }
    int32_t reading;
    if (!read_percent(percent, &reading))
        return no_certificate(9);
    if (basis_kind > GRAIN_AS_IS)
        return no_certificate(10);
    if (basis_kind == GRAIN_STANDARD)
        basis = standard;
    else if (basis_kind == GRAIN_DRY)
        basis = 0;
    if (basis < 0 || basis > 5000)
        return no_certificate(10);
    int32_t value = reading + intercept;
    if (value < 0 || value > 10000)
        return no_certificate(11);
    if (held->phase != GRAIN_OPEN)
        return no_certificate(not_open(held));
    if ((int32_t)day - held->newest[0].day > 7)
        return no_certificate(13);
    int32_t above = value * (10000 - basis), below = 10000 - standard;
    if (above > 10000 * below)
        return no_certificate(14);
    station->day = (int32_t)day;
    return (struct grain_certificate){
        .accepted = 1,
        .day = (uint32_t)held->newest[0].day,
        .intercept = intercept,
        .basis = basis,
        .figure = (uint32_t)((value + 5) / 10),
        .converted = (uint32_t)((above + 5 * below) / (10 * below)),
    };
}

static bool outside(int32_t number, int32_t least)
{
    return number < least || number > 10000;
}

static bool bad_sample(const int32_t *n)
{
    return outside(n[0], 0) || outside(n[1], 0) || outside(n[2], 0) || outside(n[3], -1) || outside(n[4], -1) ||
           outside(n[5], -1) || (n[4] == -1) != (n[5] == -1);
}

static int32_t deviation(int32_t one, int32_t other, int32_t intercept, int32_t baseline)
{
    return one + other + 2 * intercept - 2 * baseline;
}

/* The deviation of the closest pair, the earlier named among equals. */
static int32_t first_deviation(const int32_t *n, bool third, int32_t intercept)
{
    int32_t one = n[1], other = n[2];
    if (third) {
        if (abs(n[1] - n[3]) < abs(one - other))
            other = n[3];
        if (abs(n[2] - n[3]) < abs(one - other)) {
            one = n[2];
            other = n[3];
        }
    }
    return deviation(one, other, intercept, n[0]);
}

/* Number 5, 6 or 7, or 0 and the set's S and N. */
static uint32_t read_sheet(const int32_t *numbers, int32_t samples, const struct limits *limits, int32_t intercept,
                           struct grain_past_set *set)
{
    for (int i = 0; i < samples; i++)
        if (bad_sample(numbers + 6 * i))
            return 5;
    int32_t deviations[MOST_SAMPLES], least = INT32_MAX, most = INT32_MIN;
    bool deviates = false;
    for (int i = 0; i < samples; i++) {
        const int32_t *n = numbers + 6 * i;
        bool third = abs(n[1] - n[2]) > limits->pair;
        if (third != (n[3] != -1))
            return 6;
        int32_t d = deviations[i] = first_deviation(n, third, intercept);
        if (d < least)
            least = d;
        if (d > most)
            most = d;
        if (abs(d) > 2 * limits->sample)
            deviates = true;
    }
    bool again = deviates && most - least > 2 * limits->range;
    set->sum = 0;
    set->count = 0;
    for (int i = 0; i < samples; i++) {
        const int32_t *n = numbers + 6 * i;
        int32_t d = deviations[i];
        bool due = again && abs(d) > 2 * limits->sample;
        if (due != (n[4] != -1))
            return 7;
        if (due) {
            d = deviation(n[4], n[5], intercept, n[0]);
            if (abs(d) > 2 * limits->sample)
                continue;
        }
        set->sum += d;
        set->count += 2;
    }
    return 0;
}

static bool within(const struct grain_past_set *sum, int32_t limit)
{
    return abs(sum->sum) <= limit * sum->count;
}

static void add(struct grain_past_set *sum, const struct grain_past_set *set)
{
    sum->sum += set->sum;
    sum->count += set->count;
}

static bool check_due(const struct grain_line *line)
{
    return line->phase == GRAIN_ADJUSTED || line->phase == GRAIN_SHUT;
}

/* How many of the newest sets are at most 14 days old. */
static int valid_newest(const struct grain_line *line, int32_t day)
{
    int valid = 0;
    while (valid < line->newest_held && day - line->newest[valid].day <= 14)
        valid++;
    return valid;
}

/* Whether the newest four sets that aren't zero are valid, of which the last is the oldest, and all five with this one lie
 * on one side of zero. */
static bool five_due(const struct grain_line *line, const struct grain_past_set *set)
{
    if (line->nonzero_held < 4 || set->day - line->nonzero[3].day > 14)
        return false;
    int up = set->sum > 0, down = set->sum < 0;
    for (int i = 0; i < 4; i++) {
        up += line->nonzero[i].sum > 0;
        down += line->nonzero[i].sum < 0;
    }
    return up == 5 || down == 5;
}

/* Whether every average due of a set is met; *sum becomes the sums of the last test made. */
static bool meets(const struct grain_line *line, const struct limits *limits, const struct grain_past_set *set,
                  struct grain_past_set *sum)
{
    *sum = *set;
    if (set->count == 0)
        return false;
    if (check_due(line))
        return within(sum, limits->check);
    if (!within(sum, limits->one))
        return false;
    int valid = valid_newest(line, set->day);
    if (valid >= 1) {
        add(sum, &line->newest[0]);
        if (!within(sum, limits->two))
            return false;
    }
    if (valid >= 2) {
        add(sum, &line->newest[1]);
        if (!within(sum, limits->three))
            return false;
    }
    if (!five_due(line, set))
        return true;
    *sum = *set;
    for (int i = 0; i < 4; i++)
        add(sum, &line->nonzero[i]);
    return within(sum, limits->five);
}

/* A set that met joins the newest, and those that aren't zero unless it is zero. */
static void join(struct grain_line *line, const struct grain_past_set *set)
{
    line->newest[1] = line->newest[0];
    line->newest[0] = *set;
    if (line->newest_held < 2)
        line->newest_held++;
    if (set->sum == 0)
        return;
    memmove(line->nonzero + 1, line->nonzero, 3 * sizeof line->nonzero[0]);
    line->nonzero[0] = *set;
    if (line->nonzero_held < 4)
        line->nonzero_held++;
}

/* The change by an average rounded with halves away from zero, 0 where nothing was kept or the intercept would leave its
 * bounds. An average that exceeds its limit is never rounded to 0. */
static int32_t change_by(const struct grain_past_set *sum, int32_t intercept)
{
    if (sum->count == 0)
        return 0;
    int32_t change = (2 * abs(sum->sum) + sum->count) / (2 * sum->count);
    if (sum->sum > 0)
        change = -change;
    return abs(intercept + change) <= 1000 ? change : 0;
}

struct grain_outcome plain_sheet(struct grain_station *restrict station, uint32_t day, uint64_t line,
                                 const int32_t *restrict numbers, size_t numbers_len)
{
    if (!sound_station(station))
        return (struct grain_outcome){.number = 0};
    if (bad_day(station, day))
        return (struct grain_outcome){.number = 2};
    const struct product *product = &products[station->row];
    if (line >= (uint64_t)product->lines)
        return (struct grain_outcome){.number = 3};
    if (numbers_len != (size_t)(6 * product->samples))
        return (struct grain_outcome){.number = 4};
    const struct limits *limits = &product->limits[line];
    struct grain_line *held = &station->lines[line];
    struct grain_past_set set = {.day = (int32_t)day};
    uint32_t number = read_sheet(numbers, product->samples, limits, held->intercept, &set);
    if (number)
        return (struct grain_outcome){.number = number};

    struct grain_past_set sum;
    int32_t change = 0;
    if (meets(held, limits, &set, &sum)) {
        if (check_due(held))
            empty(held);
        join(held, &set);
        held->phase = GRAIN_OPEN;
    } else {
        change = change_by(&sum, held->intercept);
        held->intercept += change;
        held->phase = change ? GRAIN_ADJUSTED : GRAIN_SHUT;
        empty(held);
    }
    station->day = (int32_t)day;
    return (struct grain_outcome){
        .accepted = 1,
        .sum = set.sum,
        .count = (uint32_t)set.count,
        .phase = held->phase == GRAIN_OPEN ? GRAIN_OPEN : GRAIN_CHECK_DUE,
        .change = change,
    };
}

/* ---- Charts ---- */

struct chart_row {
    int32_t absolute, tolerance, run; /* of the plotted average */
    int32_t range_absolute, range_tolerance;
};

static const struct chart_row chart_rows[4] = {
    {20, 15, 10, 60, 40},
    {25, 20, 10, 70, 50},
    {25, 20, 15, 80, 60},
    {20, 15, 10, 60, 45},
};

enum { LAST_WEEK = 9999 };

static bool sound_chart(const struct grain_chart *chart)
{
    if (chart->row < 0 || chart->row > 3 || chart->week < 0 || chart->week > LAST_WEEK)
        return false;
    if (chart->held < 0 || chart->held > 4)
        return false;
    for (int i = 0; i < chart->held; i++) {
        const struct grain_held_set *set = &chart->sets[i];
        if (set->count < 1 || set->count > 5 || set->range < 0 || set->range > 20000)
            return false;
        if (set->plot < -10000 || set->plot > 10000)
            return false;
    }
    return true;
}

struct grain_answer plain_chart_open(struct grain_chart *chart, uint64_t row)
{
    memset(chart, 0, sizeof *chart);
    if (row > 3)
        return (struct grain_answer){.number = 1};
    chart->row = (int32_t)row;
    return (struct grain_answer){.accepted = 1};
}

/* A mean of results, which are never negative, to the nearest hundredth: a half goes up. */
static int32_t mean(int32_t sum, int32_t count)
{
    return (sum + count / 2) / count;
}

static struct grain_held_set set_of(const int32_t *numbers, size_t numbers_len)
{
    struct grain_held_set set = {.count = (int32_t)(numbers_len / 2)};
    int32_t originals = 0, monitors = 0, least = INT32_MAX, most = INT32_MIN;
    for (size_t i = 0; i < numbers_len; i += 2) {
        int32_t difference = numbers[i] - numbers[i + 1];
        originals += numbers[i];
        monitors += numbers[i + 1];
        if (difference < least)
            least = difference;
        if (difference > most)
            most = difference;
    }
    set.plot = mean(originals, set.count) - mean(monitors, set.count);
    set.range = most - least;
    return set;
}

/* Three of the previous four (or of three) with this plot: one side of zero, and their mean, which is not rounded, beyond
 * the limit. */
static bool has_run(const struct grain_chart *chart, int32_t plot, int32_t limit)
{
    if (chart->held < 3)
        return false;
    for (int skip = chart->held == 3 ? 3 : 0; skip < 4; skip++) {
        int up = plot > 0, down = plot < 0;
        int32_t sum = plot;
        for (int i = 0; i < chart->held; i++) {
            if (i == skip)
                continue;
            int32_t past = chart->sets[i].plot;
            up += past > 0;
            down += past < 0;
            sum += past;
        }
        if ((up == 4 || down == 4) && abs(sum) > 4 * limit)
            return true;
    }
    return false;
}

/* The output line, without a NUL. snprintf takes most of a set's time: with PLAIN_DIGITS the numbers are written by hand,
 * as one would who has measured that. */
#ifdef PLAIN_DIGITS
static uint8_t *put_number(uint8_t *at, uint32_t number)
{
    uint8_t digits[10];
    int count = 0;
    do {
        digits[count++] = (uint8_t)('0' + number % 10);
        number /= 10;
    } while (number);
    while (count)
        *at++ = digits[--count];
    return at;
}

static uint32_t write_line(const struct grain_charted *charted, uint8_t *line)
{
    const uint32_t flags[5] = {charted->al, charted->tl, charted->run, charted->ral, charted->rtl};
    uint8_t *at = put_number(line, charted->week);
    *at++ = ' ';
    at = put_number(at, charted->count);
    *at++ = ' ';
    if (charted->plot < 0)
        *at++ = '-';
    at = put_number(at, (uint32_t)abs(charted->plot));
    *at++ = ' ';
    at = put_number(at, charted->range);
    for (int i = 0; i < 5; i++) {
        *at++ = ' ';
        *at++ = (uint8_t)('0' + flags[i]);
    }
    *at++ = '\n';
    return (uint32_t)(at - line);
}
#else
static uint32_t write_line(const struct grain_charted *charted, uint8_t *line)
{
    char text[64];
    int length = snprintf(text, sizeof text, "%u %u %d %u %u %u %u %u %u\n", charted->week, charted->count,
                          charted->plot, charted->range, charted->al, charted->tl, charted->run, charted->ral,
                          charted->rtl);
    memcpy(line, text, (size_t)length);
    return (uint32_t)length;
}
#endif

/* Charts a set of good numbers on a sound chart. */
static struct grain_charted chart_numbers(struct grain_chart *chart, uint32_t week, const int32_t *numbers,
                                          size_t numbers_len, uint8_t *line)
{
    const struct chart_row *row = &chart_rows[chart->row];
    struct grain_held_set set = set_of(numbers, numbers_len);
    bool tl = false, rtl = false;
    if (chart->held > 0) {
        const struct grain_held_set *last = &chart->sets[0];
        int32_t limit = row->tolerance;
        tl = (set.plot >= limit && last->plot >= limit) || (set.plot <= -limit && last->plot <= -limit);
        rtl = set.range >= row->range_tolerance && last->range >= row->range_tolerance;
    }
    struct grain_charted charted = {
        .accepted = 1,
        .week = week,
        .count = (uint32_t)set.count,
        .plot = set.plot,
        .range = (uint32_t)set.range,
        .al = abs(set.plot) >= row->absolute,
        .tl = tl,
        .run = has_run(chart, set.plot, row->run),
        .ral = set.range >= row->range_absolute,
        .rtl = rtl,
    };
    charted.length = write_line(&charted, line);
    memmove(chart->sets + 1, chart->sets, 3 * sizeof chart->sets[0]);
    chart->sets[0] = set;
    if (chart->held < 4)
        chart->held++;
    chart->week = (int32_t)week;
    return charted;
}

struct grain_charted plain_chart_set(struct grain_chart *restrict chart, uint32_t week, const int32_t *restrict numbers,
                                     size_t numbers_len, uint8_t *restrict line, size_t line_len)
{
    if (!sound_chart(chart))
        return (struct grain_charted){.number = 0};
    if (week <= (uint32_t)chart->week || week > LAST_WEEK)
        return (struct grain_charted){.number = 19};
    if (numbers_len < 1 || numbers_len > 10 || numbers_len % 2)
        return (struct grain_charted){.number = 20};
    for (size_t i = 0; i < numbers_len; i++)
        if (numbers[i] < 0 || numbers[i] > 10000)
            return (struct grain_charted){.number = 21};
    if (line_len < GRAIN_LINE_BYTES)
        return (struct grain_charted){.number = 22};
    return chart_numbers(chart, week, numbers, numbers_len, line);
}

/* ---- Texts ---- */

static const char input_names[] = "week sample original monitor\n";
static const char output_names[] = "week n plot range al tl run ral rtl\n";

enum { INPUT_NAMES = sizeof input_names - 1, OUTPUT_NAMES = sizeof output_names - 1 };

static struct grain_written refused_text(uint32_t number, uint32_t line)
{
    return (struct grain_written){.number = number, .line = line};
}

/* Four decimals at *at, single spaces between them and a line feed after them; *at moves past it. */
static bool read_line(const uint8_t *text, size_t text_len, size_t *at, int32_t fields[4])
{
    size_t i = *at;
    for (int field = 0; field < 4; field++) {
        size_t start = i;
        int32_t value = 0;
        while (i < text_len && i - start < 6 && text[i] >= '0' && text[i] <= '9')
            value = 10 * value + (text[i++] - '0');
        size_t digits = i - start;
        if (digits == 0 || digits > 5 || (digits > 1 && text[start] == '0'))
            return false;
        if (i == text_len || text[i] != (field == 3 ? '\n' : ' '))
            return false;
        i++;
        fields[field] = value;
    }
    *at = i;
    return true;
}

/* Goes through the value lines. Without out it judges them and gives the length of out that is needed; with out the text is
 * good, and its output is written. */
static struct grain_written go_through(const uint8_t *text, size_t text_len, uint8_t *out)
{
    struct grain_chart chart = {0};
    int32_t week = 0, sample = 0, numbers[10];
    size_t at = INPUT_NAMES, count = 0, weeks = 0, length = 0;
    uint32_t line = 1;
    if (out) {
        memcpy(out, output_names, OUTPUT_NAMES);
        length = OUTPUT_NAMES;
    }
    while (at < text_len) {
        int32_t fields[4];
        line++;
        if (!read_line(text, text_len, &at, fields))
            return refused_text(17, line);
        bool same = line > 2 && fields[0] == week;
        if (same ? fields[1] != sample + 1 || fields[1] > 5 : fields[1] != 1)
            return refused_text(18, line);
        if (!same && (fields[0] <= week || fields[0] > LAST_WEEK))
            return refused_text(19, line);
        if (fields[2] > 10000 || fields[3] > 10000)
            return refused_text(21, line);
        if (!same) {
            if (out && count)
                length += chart_numbers(&chart, (uint32_t)week, numbers, count, out + length).length;
            weeks++;
            count = 0;
        }
        numbers[count++] = fields[2];
        numbers[count++] = fields[3];
        week = fields[0];
        sample = fields[1];
    }
    if (!out)
        length = GRAIN_LINE_BYTES * (weeks + 1);
    else if (count)
        length += chart_numbers(&chart, (uint32_t)week, numbers, count, out + length).length;
    return (struct grain_written){.accepted = 1, .length = (uint32_t)length};
}

struct grain_written plain_chart_text(const uint8_t *restrict text, size_t text_len, uint8_t *restrict out,
                                      size_t out_len)
{
    if (text_len > GRAIN_TEXT_BYTES)
        return refused_text(15, 0);
    if (text_len < INPUT_NAMES || memcmp(text, input_names, INPUT_NAMES) != 0)
        return refused_text(16, 1);
    struct grain_written judged = go_through(text, text_len, NULL);
    if (!judged.accepted)
        return judged;
    if (out_len < judged.length)
        return refused_text(22, 0);
    return go_through(text, text_len, out);
}

/* ---- The calendar ---- */

enum { FIRST_YEAR = 2000, LAST_YEAR = 2273, WEEK = 7, WORKING_WEEK = 5 };

/* Days of a year before each month, and of the whole year; of a leap year below. */
static const uint32_t month_starts[2][13] = {
    {0, 31, 59, 90, 120, 151, 181, 212, 243, 273, 304, 334, 365},
    {0, 31, 60, 91, 121, 152, 182, 213, 244, 274, 305, 335, 366},
};

/* Of the years up to 2273 only 2100 and 2200 break the rule of four. */
static bool leap_year(uint32_t year)
{
    return year % 4 == 0 && year != 2100 && year != 2200;
}

/* The day of 1 January, of a year up to 2274. */
static uint32_t year_start(uint32_t year)
{
    uint32_t years = year - FIRST_YEAR;
    return 365 * years + (years + 3) / 4 - (year > 2100) - (year > 2200);
}

struct grain_day plain_day_from_date(uint32_t year, uint32_t month, uint32_t day)
{
    if (year < FIRST_YEAR || year > LAST_YEAR || month < 1 || month > 12)
        return (struct grain_day){.number = 27};
    const uint32_t *starts = month_starts[leap_year(year)];
    if (day < 1 || day > starts[month] - starts[month - 1])
        return (struct grain_day){.number = 27};
    uint32_t found = year_start(year) + starts[month - 1] + day - 1;
    if (found > LAST_DAY)
        return (struct grain_day){.number = 27};
    return (struct grain_day){.accepted = 1, .day = found};
}

/* A year of 366 days and a month of 31 are the longest: counted by these, year and month come out right or one too
 * early. */
struct grain_date plain_date_from_day(uint32_t day)
{
    if (day > LAST_DAY)
        return (struct grain_date){.number = 27};
    uint32_t year = FIRST_YEAR + day / 366;
    if (year_start(year + 1) <= day)
        year++;
    const uint32_t *starts = month_starts[leap_year(year)];
    uint32_t left = day - year_start(year), month = 1 + left / 31;
    if (starts[month] <= left)
        month++;
    return (struct grain_date){.accepted = 1, .year = year, .month = month, .day = left - starts[month - 1] + 1};
}

/* Weeks are counted from Monday, 27 December 1999, five days before day 0. */
static uint32_t since_monday(uint32_t day)
{
    return day + 5;
}

struct grain_weekday plain_weekday_of_day(uint32_t day)
{
    if (day > LAST_DAY)
        return (struct grain_weekday){.number = 27};
    return (struct grain_weekday){.accepted = 1, .weekday = since_monday(day) % WEEK + 1};
}

/* How many days from Monday to Friday there are up to a day, the day included. */
static uint32_t weekdays_up_to(uint32_t day)
{
    uint32_t weeks = since_monday(day) / WEEK, in_week = since_monday(day) % WEEK + 1;
    return WORKING_WEEK * weeks + (in_week < WORKING_WEEK ? in_week : WORKING_WEEK);
}

static bool bad_holidays(const int32_t *holidays, size_t holidays_len)
{
    int32_t last = -1;
    for (size_t i = 0; i < holidays_len; i++) {
        if (holidays[i] <= last || holidays[i] > LAST_DAY)
            return true;
        last = holidays[i];
    }
    return false;
}

/* Without holidays it is the weekday that is count later; every holiday up to there moves it on by one. */
struct grain_day plain_working_day(uint32_t day, uint32_t count, const int32_t *holidays, size_t holidays_len)
{
    if (day > LAST_DAY)
        return (struct grain_day){.number = 27};
    if (bad_holidays(holidays, holidays_len))
        return (struct grain_day){.number = 28};
    if (count == 0)
        return (struct grain_day){.accepted = 1, .day = day};
    if (count > LAST_DAY)
        return (struct grain_day){.number = 27};
    uint32_t weekday = weekdays_up_to(day) + count;
    size_t i = 0;
    while (i < holidays_len && holidays[i] <= (int32_t)day)
        i++;
    for (; i < holidays_len && weekdays_up_to((uint32_t)holidays[i]) <= weekday; i++)
        if (since_monday((uint32_t)holidays[i]) % WEEK < WORKING_WEEK)
            weekday++;
    /* the first weekday is the Monday five days before day 0 */
    uint32_t found = (weekday - 1) / WORKING_WEEK * WEEK + (weekday - 1) % WORKING_WEEK - since_monday(0);
    if (found > LAST_DAY)
        return (struct grain_day){.number = 27};
    return (struct grain_day){.accepted = 1, .day = found};
}

struct grain_day plain_results_due(uint32_t day, const int32_t *holidays, size_t holidays_len)
{
    return plain_working_day(day, 2, holidays, holidays_len);
}

/* ---- Ship lots ---- */

static bool bad_sublot(const struct grain_sublot *record)
{
    return record->tonnes < 1 || record->tonnes > 1000000 || record->figure < 0 || record->figure > 1000 ||
           record->basis < 0 || record->basis > 5000;
}

/* A bad record ends the pass, wherever it stands; unlike bases are told after it, as a bad record may still come. Of a
 * good record, figure times tonnes is at most 1000000000. */
struct grain_lot plain_ship_lot(const struct grain_sublot *records, size_t count)
{
    if (count < 1 || count > GRAIN_LOT_RECORDS)
        return (struct grain_lot){.number = 29};
    int32_t basis = records[0].basis, lowest = INT32_MAX, highest = INT32_MIN;
    uint64_t tonnes = 0, weighted_sum = 0;
    bool unlike = false;
    for (size_t i = 0; i < count; i++) {
        const struct grain_sublot *record = &records[i];
        if (bad_sublot(record))
            return (struct grain_lot){.number = 30};
        if (record->basis != basis)
            unlike = true;
        if (record->figure < lowest)
            lowest = record->figure;
        if (record->figure > highest)
            highest = record->figure;
        tonnes += (uint64_t)record->tonnes;
        weighted_sum += (uint64_t)(record->figure * record->tonnes);
    }
    if (unlike)
        return (struct grain_lot){.number = 31};
    return (struct grain_lot){
        .accepted = 1,
        .basis = basis,
        .lowest = (uint32_t)lowest,
        .highest = (uint32_t)highest,
        .mean = (uint32_t)((2 * weighted_sum + tonnes) / (2 * tonnes)),
        .tonnes = tonnes,
        .weighted_sum = weighted_sum,
    };
}
