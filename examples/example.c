/* A wheat station's first days, wet gluten too, a chart set and a chart text, the calendar, and a ship lot of sublots
 * that the station certifies. Prints what the calls answer. A line that isn't open says why: it was adjusted (day 1),
 * it is new (day 4), it was shut (day 5). */
#include "grain.h"

#include <inttypes.h>
#include <stdbool.h>
#include <stdio.h>
#include <string.h>

static void refused(const char *call, uint32_t number)
{
    printf("%s refused (%" PRIu32 "): %s\n", call, number, grain_message(number));
}

/* Six samples of baseline 10.00 percent, measured twice with the same result; the last has a result of its own. */
static void sheet(struct grain_station *station, uint32_t day, int32_t result, int32_t last)
{
    int32_t numbers[GRAIN_WHEAT_SHEET];
    for (int i = 0; i < 6; i++) {
        int32_t *sample = numbers + GRAIN_SAMPLE_NUMBERS * i;
        sample[GRAIN_BASELINE] = 1000;
        sample[GRAIN_FIRST] = i == 5 ? last : result;
        sample[GRAIN_SECOND] = i == 5 ? last : result;
        sample[GRAIN_THIRD] = GRAIN_NOT_MEASURED;
        sample[GRAIN_AGAIN_FIRST] = GRAIN_NOT_MEASURED;
        sample[GRAIN_AGAIN_SECOND] = GRAIN_NOT_MEASURED;
    }
    printf("day %" PRIu32 ": ", day);
    struct grain_outcome o = grain_sheet(station, day, GRAIN_LINE_PROTEIN, numbers, GRAIN_WHEAT_SHEET);
    if (!o.accepted) {
        refused("sheet", o.number);
        return;
    }
    printf("sheet: S %" PRId32 ", N %" PRIu32 ", intercept changed by %" PRId32 ", %s\n", o.sum, o.count, o.change,
           o.phase == GRAIN_OPEN ? "open" : "check due");
}

static void market(struct grain_station *station, uint32_t day, float percent)
{
    printf("day %" PRIu32 ": ", day);
    struct grain_certificate c = grain_market_wheat(station, day, percent, grain_basis_dry());
    if (!c.accepted) {
        refused("market test", c.number);
        return;
    }
    printf("certificate: %" PRIu32 ".%" PRIu32 " percent, dry %" PRIu32 ".%" PRIu32 "; sheet of day %" PRIu32
           ", intercept %" PRId32 "\n",
           c.figure / 10, c.figure % 10, c.converted / 10, c.converted % 10, c.day, c.intercept);
}

/* Wet gluten of a class of wheat. */
static void gluten(struct grain_station *station, uint32_t day, float percent, uint32_t wheat_class)
{
    printf("day %" PRIu32 ": ", day);
    struct grain_certificate c = grain_market_gluten(station, day, wheat_class, percent);
    if (!c.accepted) {
        refused("gluten test", c.number);
        return;
    }
    printf("certificate: wet gluten %" PRIu32 ".%" PRIu32 " percent at moisture %" PRId32 ".%" PRId32
           "; sheet of day %" PRIu32 ", intercept %" PRId32 "\n",
           c.figure / 10, c.figure % 10, c.basis / 100, c.basis / 10 % 10, c.day, c.intercept);
}

/* A sheet entered by its date: the calendar gives the day. */
static void dated_sheet(struct grain_station *station, uint32_t year, uint32_t month, uint32_t day)
{
    printf("%" PRIu32 "-%02" PRIu32 "-%02" PRIu32 ": ", year, month, day);
    struct grain_day found = grain_day_from_date(year, month, day);
    if (!found.accepted) {
        refused("date", found.number);
        return;
    }
    sheet(station, found.day, 1010, 1011);
}

/* Monitor samples retrieved on the Wednesday before a holiday: when are their results due? */
static void monitored(void)
{
    static const char *const weekdays[7] = {"Monday", "Tuesday",  "Wednesday", "Thursday",
                                            "Friday", "Saturday", "Sunday"};
    struct grain_day retrieved = grain_day_from_date(2026, 11, 25), holiday = grain_day_from_date(2026, 11, 26);
    const int32_t holidays[1] = {(int32_t)holiday.day};
    struct grain_day due = grain_results_due(retrieved.day, holidays, 1);
    struct grain_date date = grain_date_from_day(due.day);
    struct grain_weekday weekday = grain_weekday_of_day(due.day);
    if (!retrieved.accepted || !holiday.accepted || !due.accepted || !date.accepted || !weekday.accepted)
        return;
    printf("retrieved on day %" PRIu32 ": results due on %s, %" PRIu32 "-%02" PRIu32 "-%02" PRIu32, retrieved.day,
           weekdays[weekday.weekday - GRAIN_MONDAY], date.year, date.month, date.day);
    printf(", day %" PRIu32 "\n", due.day);
}

static void calendar(struct grain_station *station)
{
    dated_sheet(station, 2026, 2, 29); /* no such date */
    dated_sheet(station, 2026, 11, 16);
    monitored();
}

/* Certifies a sublot and writes its record. The figure that stands at the certificate's basis is the converted one. A
 * refused certificate is all zeros, which would pass for a record. */
static bool certify(struct grain_station *station, float percent, struct grain_basis basis, int32_t tonnes,
                    struct grain_sublot *record)
{
    struct grain_certificate c = grain_market_wheat(station, (uint32_t)station->day, percent, basis);
    if (!c.accepted) {
        refused("sublot", c.number);
        return false;
    }
    record->figure = (int32_t)c.converted;
    record->basis = c.basis;
    record->tonnes = tonnes;
    return true;
}

static void ship_lot(const struct grain_sublot *records, size_t count)
{
    struct grain_lot l = grain_ship_lot(records, count);
    if (!l.accepted) {
        refused("ship lot", l.number);
        return;
    }
    printf("ship lot: %" PRIu64 " tonnes, %" PRIu32 ".%" PRIu32 " to %" PRIu32 ".%" PRIu32 " percent", l.tonnes,
           l.lowest / 10, l.lowest % 10, l.highest / 10, l.highest % 10);
    printf(" at moisture %" PRId32 ".%02" PRId32 ", mean %" PRIu32 ".%" PRIu32 " (%" PRIu64 " / %" PRIu64 " tenths)\n",
           l.basis / 100, l.basis % 100, l.mean / 10, l.mean % 10, l.weighted_sum, l.tonnes);
}

/* Of the figures 13.4 and 13.5 alone the mean would be rounded to 13.5; by tonnes it is 13.4. The third sublot was
 * certified dry: it can't be stated with them. */
static void shipped(struct grain_station *station)
{
    struct grain_sublot records[3];
    if (!certify(station, 13.54f, grain_basis_standard(), 11000, &records[0]) ||
        !certify(station, 13.61f, grain_basis_standard(), 9000, &records[1]) ||
        !certify(station, 13.54f, grain_basis_dry(), 5000, &records[2]))
        return;
    ship_lot(records, 2);
    ship_lot(records, 3);
}

int main(void)
{
    struct grain_station station;
    if (!grain_open(&station, GRAIN_ROW_WHEAT).accepted)
        return 1;
    sheet(&station, 1, 1010, 1011); /* 10.17 hundredths high: adjusted by 10 */
    market(&station, 1, 13.54f);    /* the check is due after an adjustment */
    sheet(&station, 2, 1010, 1011); /* the check is met */
    market(&station, 3, 13.54f);
    gluten(&station, 3, 34.12f, GRAIN_GLUTEN_HARD_RED_WINTER);
    gluten(&station, 3, 34.12f, GRAIN_GLUTEN_OTHER_CLASS);
    sheet(&station, 2, 1010, 1011); /* a day before the last */
    if (!grain_repair(&station, 4).accepted)
        return 1;
    market(&station, 4, 13.54f);    /* new again */
    sheet(&station, 5, 2010, 2011); /* the intercept would leave -1000 to 1000: shut */
    market(&station, 5, 13.54f);    /* the check is due after shutting */

    struct grain_chart chart;
    const int32_t pairs[10] = {1315, 1307, 1018, 1054, 1447, 1479, 1256, 1223, 1857, 1877};
    uint8_t line[GRAIN_LINE_BYTES];
    if (!grain_chart_open(&chart, GRAIN_CHART_WHEAT_PROTEIN).accepted)
        return 1;
    struct grain_charted set = grain_chart_set(&chart, 26, pairs, 10, line, sizeof line);
    if (!set.accepted)
        return 1;
    printf("chart set: %.*s", (int)set.length, (const char *)line);

    static const char text[] = "week sample original monitor\n26 1 1315 1307\n26 2 1018\n";
    static uint8_t out[GRAIN_OUTPUT_BYTES];
    struct grain_written written = grain_chart_text((const uint8_t *)text, strlen(text), out, sizeof out);
    if (!written.accepted) {
        printf("text line %" PRIu32 ": ", written.line);
        refused("chart text", written.number);
    }
    calendar(&station);
    shipped(&station);
    return 0;
}
