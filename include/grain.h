/* The measuring core of a grain laboratory service: analyser readings, reference sheets and intercepts, market tests,
 * control charts, a calendar, ship lots. For C11, C++11 and later, on x86-64.
 *
 *     cc program.c $(pkg-config --cflags --libs grain)
 *     cc program.c -Iinclude lib/libgrain.a
 *
 * A day's calls. grain_open makes a station for a product, once. grain_sheet enters a reference sheet and tells whether
 * the line is open. On an open line grain_market_wheat, grain_market_corn and grain_market_gluten test market grain;
 * each answers a certificate. grain_repair enters a repair. grain_chart_open and grain_chart_set keep a control chart.
 *
 * Answers. Every call answers a struct by value. Look at `accepted` first: it is 1, or 0 for a refused call. Then
 * `number` is the reason (GRAIN_REFUSED_...), and grain_message gives its sentence. All other fields of a refused call
 * are 0, except a text's `line`. A refused call writes nothing at all: no field of the state, no byte of a buffer.
 * There is one exception: a refused opening leaves a fresh state of row 0, every field 0.
 *
 * Units. "Hundredths" are whole hundredths of a percent (1354 is 13.54 percent), "tenths" whole tenths of a percent.
 * Days are whole numbers from 0 to 99999, weeks from 1 to 9999. On a station days never go back, on a chart weeks rise;
 * both are counted as the laboratory likes. The calendar below is one way to count days: its day 0 is 1 January 2000.
 * Station calls take a day's number and do not look at the calendar.
 *
 * State. A station and a chart are plain structs of int32_t in the caller's memory, opened by a call and then changed
 * in place. They hold no pointers: copy, store and compare them as you like, and store GRAIN_LAYOUT beside them.
 * Whatever comes back from storage under this layout's number may be handed in: a state with a field out of its bounds,
 * or sheets out of the order of their days, is refused by number 0. grain_station_check and grain_chart_check ask for
 * that alone. The calendar and ship lots have no state.
 *
 * Spare places, which are the lines that the row lacks and the sets beyond the held ones, may hold anything: no answer
 * depends on them, and number 0 does not look at them. They do not always stay as they are. An opening sets everything
 * to 0. A repair empties the sets of all three lines, so those that wheat lacks are written too: every set and both
 * counts become 0, phase 1 becomes 0, and intercepts and all other phases stay. A sheet that adjusts or shuts its line,
 * and one that meets its check, sets the line's sets to 0 before it enters its own, if it does. A sheet or a chart set
 * that joins others moves every place of its kind on by one, spare ones too.
 *
 * The order of refusals. The first that applies is answered, in the order of the numbers, 23 and 24 standing between 8
 * and 9, 25 and 26 in the place of 12, between 11 and 13. Where working days are counted, 27 is tried twice: of the day
 * handed in before 28, of the day found after it.
 *
 * Pointers. A station or chart must not be NULL. Any other array may be NULL if its length is 0: a sheet without
 * numbers is refused by 4, a set without numbers by 20, an empty text by 16, a buffer of length 0 by 22, and a lot
 * without records by 29, each where no earlier number applies; a list of holidays of length 0 says that there are none.
 * Arrays handed to one call must not overlap each other or the state (GRAIN_RESTRICT).
 *
 * Threads. There is no global state, and nothing is allocated: calls on different stations and charts may run on any
 * threads at once. Calls on the same station or chart must not, except grain_station_check and grain_chart_check, which
 * only read. So do the calls of the calendar and of ship lots: any number of them may run at once, also over one list,
 * as long as nobody writes to it.
 *
 * Other versions. A program links only with a library of this header's GRAIN_INTERFACE. States that an earlier version
 * stored are carried over as docs/MIGRATION.md says. */
#ifndef GRAIN_H
#define GRAIN_H

#include <stddef.h>
#include <stdint.h>

#define GRAIN_VERSION "0.9.1"

/* The number of stored states: it changes whenever struct grain_station or struct grain_chart does, or what their
 * fields mean. Store it beside each state. One stored under another number is not to be used before it is carried
 * over. */
#define GRAIN_LAYOUT 4

/* The number of the calls: it is raised whenever a struct that crosses or a call's signature changes, states and
 * answers alike. It is part of the names by which the library's calls are linked (grain_open_1) and of the shared
 * library's own name (libgrain.so.1). So a program that was compiled by the header of another number does not link with
 * this library, nor start with it. Languages without headers write the name with its number. */
#define GRAIN_INTERFACE 1

#ifdef __cplusplus
#define GRAIN_STATIC_ASSERT(test, text) static_assert(test, text)
#if defined(__GNUC__) || defined(__clang__) || defined(_MSC_VER)
#define GRAIN_RESTRICT __restrict
#else
#define GRAIN_RESTRICT
#endif
#else
#define GRAIN_STATIC_ASSERT(test, text) _Static_assert(test, text)
#define GRAIN_RESTRICT restrict
#endif

/* An answer that nobody looks at is a mistake: a warning where compilers know one. */
#if defined(__cplusplus) && __cplusplus >= 201703L
#define GRAIN_NODISCARD [[nodiscard]]
#elif defined(__GNUC__) || defined(__clang__)
#define GRAIN_NODISCARD __attribute__((warn_unused_result))
#else
#define GRAIN_NODISCARD
#endif

/* ---- Names, as they are linked ---- */

/* Callers write grain_open, and grain_open_1 is linked. */
#define GRAIN_JOINED(name, number) name##_##number
#define GRAIN_NUMBERED(name, number) GRAIN_JOINED(name, number)
#define GRAIN_LINKED(name) GRAIN_NUMBERED(name, GRAIN_INTERFACE)

#define grain_reading GRAIN_LINKED(grain_reading)
#define grain_open GRAIN_LINKED(grain_open)
#define grain_sheet GRAIN_LINKED(grain_sheet)
#define grain_repair GRAIN_LINKED(grain_repair)
#define grain_market GRAIN_LINKED(grain_market)
#define grain_station_check GRAIN_LINKED(grain_station_check)
#define grain_chart_open GRAIN_LINKED(grain_chart_open)
#define grain_chart_set GRAIN_LINKED(grain_chart_set)
#define grain_chart_text GRAIN_LINKED(grain_chart_text)
#define grain_chart_check GRAIN_LINKED(grain_chart_check)
#define grain_day_from_date GRAIN_LINKED(grain_day_from_date)
#define grain_date_from_day GRAIN_LINKED(grain_date_from_day)
#define grain_weekday_of_day GRAIN_LINKED(grain_weekday_of_day)
#define grain_working_day GRAIN_LINKED(grain_working_day)
#define grain_results_due GRAIN_LINKED(grain_results_due)
#define grain_ship_lot GRAIN_LINKED(grain_ship_lot)

#ifdef __cplusplus
extern "C" {
#endif

/* ---- Stations ---- */

/* Product rows. */
#define GRAIN_ROW_WHEAT 0 /* line 0 protein; 6 samples a sheet; standard moisture basis 1200 hundredths */
#define GRAIN_ROW_CORN 1  /* line 0 protein, 1 oil, 2 starch; 4 samples a sheet; standard moisture basis 0 */

/* Lines of corn. Wheat has line 0 only. */
#define GRAIN_LINE_PROTEIN 0
#define GRAIN_LINE_OIL 1
#define GRAIN_LINE_STARCH 2

/* Phases of a line in a station. Only an open line tests market grain. A repair leaves an adjusted line adjusted and a
 * shut one shut. */
#define GRAIN_NEW 0      /* no accepted sheet yet, or open and then repaired */
#define GRAIN_OPEN 1     /* the newest sheet met every average due */
#define GRAIN_ADJUSTED 2 /* the newest sheet changed the intercept: the next sheet is the check */
#define GRAIN_SHUT 3     /* the newest sheet kept no sample, or would have moved the intercept out of -1000 to 1000, and
                            changed nothing: the next sheet is the check */

/* Phases of a sheet's outcome: GRAIN_OPEN, or this. */
#define GRAIN_CHECK_DUE 2 /* adjusted or shut; the line's phase in the station tells which */

/* The result of an accepted reference sheet. Its average deviation is sum / count hundredths. */
struct grain_past_set {
    int32_t day;   /* the sheet's day */
    int32_t sum;   /* S: the sum of the kept samples' deviations, hundredths */
    int32_t count; /* N: twice the number of samples kept (two results each) */
};

/* One constituent of the grain. Number 0 asks each kind of its sets by itself and does not compare the two; it refuses
 * a sum of 0 among those of nonzero. */
struct grain_line {
    int32_t intercept;                /* added to every reading, hundredths, -1000 to 1000 */
    int32_t phase;                    /* GRAIN_NEW, GRAIN_OPEN, GRAIN_ADJUSTED or GRAIN_SHUT */
    int32_t newest_held;              /* how many of newest are in use: 1 or 2 on an open line, else 0 */
    struct grain_past_set newest[2];  /* the newest sheets that met, newest first */
    int32_t nonzero_held;             /* how many of nonzero are in use: 0 to 4 on an open line, else 0 */
    struct grain_past_set nonzero[4]; /* the newest sheets that met and whose sum isn't 0, newest first */
};

struct grain_station {
    int32_t row;                /* GRAIN_ROW_WHEAT or GRAIN_ROW_CORN */
    int32_t day;                /* the day of the last accepted call, 0 if there was none */
    struct grain_line lines[3]; /* wheat uses the first */
};

/* A sheet's numbers: six for each sample, sample after sample, in this order, in hundredths. Each lies in 0 to 10000; a
 * third and an again pair that were not measured are GRAIN_NOT_MEASURED. The samples may stand in any order: the answer
 * and the station after it are the same, and so is a refusal.
 *
 * A third is due where first and second differ by more than the pair limit, and must not be given elsewhere. The
 * closest two of a sample's results are its pair; its deviation is their sum plus twice the line's intercept minus
 * twice the baseline. A sample deviates if this is beyond twice the sample limit. If one does, and the sheet's largest
 * minus its smallest deviation is above twice the range limit, an again pair is due for each deviating sample, and must
 * not be given elsewhere; a sample that still deviates by its again pair is dropped.
 *
 *     limits, hundredths    pair  sample  range
 *     wheat protein           30      40     50
 *     corn protein            30      40     50
 *     corn oil                40      50     60
 *     corn starch             90      80    150
 */
#define GRAIN_BASELINE 0    /* the sample's reference value */
#define GRAIN_FIRST 1       /* results by the analyser, without intercept */
#define GRAIN_SECOND 2
#define GRAIN_THIRD 3
#define GRAIN_AGAIN_FIRST 4
#define GRAIN_AGAIN_SECOND 5
#define GRAIN_SAMPLE_NUMBERS 6
#define GRAIN_NOT_MEASURED (-1)
#define GRAIN_WHEAT_SHEET 36 /* numbers of a sheet: six samples */
#define GRAIN_CORN_SHEET 24  /* four samples */

/* Kinds of scan. */
#define GRAIN_WHEAT 0        /* first is protein; second and third are not looked at */
#define GRAIN_CORN 1         /* first is protein, second oil, third starch; only the asked line's is looked at */
#define GRAIN_FAULT 2        /* the analyser reported a fault, as does every number above 3: refused by 8 */
#define GRAIN_WHEAT_GLUTEN 3 /* first is protein, second wet gluten; only what is asked for is looked at, third never */

/* What a market test asks for. Wet gluten is asked for on line 0 of wheat, with the wheat's class and GRAIN_STANDARD,
 * and needs a scan GRAIN_WHEAT_GLUTEN. */
#define GRAIN_LINE_FIGURE 0            /* the line's own figure */
#define GRAIN_GLUTEN_HARD_RED_WINTER 1 /* wet gluten of Hard Red Winter wheat */
#define GRAIN_GLUTEN_HARD_RED_SPRING 2 /* wet gluten of Hard Red Spring wheat */
#define GRAIN_GLUTEN_OTHER_CLASS 3     /* wet gluten of another class, as is every larger number: refused by 23 */

/* Kinds of moisture basis. A kind that there isn't is refused by 10. Where wet gluten is asked for, every kind but
 * GRAIN_STANDARD is refused by 24, whatever basis is. */
#define GRAIN_STANDARD 0  /* the grain's standard basis, for wet gluten 1400; basis is not looked at */
#define GRAIN_DRY 1       /* 0; basis is not looked at */
#define GRAIN_SPECIFIED 2 /* basis, hundredths, 0 to 5000 */
#define GRAIN_AS_IS 3     /* basis is the official moisture, hundredths, 0 to 5000 */

/* ---- Charts ---- */

/* Chart rows. */
#define GRAIN_CHART_WHEAT_PROTEIN 0
#define GRAIN_CHART_BARLEY_PROTEIN 1
#define GRAIN_CHART_SOYBEAN_PROTEIN 2
#define GRAIN_CHART_SOYBEAN_OIL 3

/* A charted set. */
struct grain_held_set {
    int32_t count; /* pairs, 1 to 5 */
    int32_t plot;  /* the plotted average: original mean minus monitor mean, each first rounded to a hundredth, halves
                      going up */
    int32_t range; /* largest minus smallest difference, hundredths */
};

struct grain_chart {
    int32_t row;                   /* GRAIN_CHART_... */
    int32_t week;                  /* of the set charted last, 0 if there is none */
    int32_t held;                  /* how many of sets are in use, 0 to 4 */
    struct grain_held_set sets[4]; /* the newest sets, newest first */
};

/* A buffer for an output line needs this many bytes, whatever the line's length. */
#define GRAIN_LINE_BYTES 40
/* A buffer for a text's output needs GRAIN_LINE_BYTES for each line to be written, its names line too: one line for
 * each week of the text. This many bytes are enough for any text. */
#define GRAIN_OUTPUT_BYTES 400000
/* The longest text. */
#define GRAIN_TEXT_BYTES 65536

/* ---- The calendar ---- */

/* Day 0 is 1 January 2000, a Saturday; the last is 15 October 2273, a Wednesday. Years, months and days of a month are
 * those of the Gregorian calendar: 2000 is a leap year, 2100 and 2200 are not. */
#define GRAIN_LAST_DAY 99999

/* Weekdays, numbered as in ISO 8601. Monday to Friday are working days unless they are holidays. */
#define GRAIN_MONDAY 1
#define GRAIN_TUESDAY 2
#define GRAIN_WEDNESDAY 3
#define GRAIN_THURSDAY 4
#define GRAIN_FRIDAY 5
#define GRAIN_SATURDAY 6
#define GRAIN_SUNDAY 7

/* ---- Ship lots ---- */

/* The most records that a lot may have. */
#define GRAIN_LOT_RECORDS 500

/* A sublot as its record has it. Any numbers may stand here: those out of their bounds are refused by 30. Of a
 * certificate take `converted` and `basis`, which belong together; of a refused one both are 0, which is within the
 * bounds: look at its `accepted` first. */
struct grain_sublot {
    int32_t figure; /* as it was certified, tenths: 0 to 1000 */
    int32_t basis;  /* the moisture basis that the figure stands at, hundredths: 0 to 5000 */
    int32_t tonnes; /* 1 to 1000000 */
};

/* ---- Answers ---- */

struct grain_answer {
    uint32_t accepted; /* 1, or 0 if refused */
    uint32_t number;   /* GRAIN_REFUSED_... if refused, else 0 */
};

struct grain_value {
    uint32_t accepted, number;
    uint32_t hundredths; /* 0 to 10000 */
};

struct grain_outcome {
    uint32_t accepted, number;
    int32_t sum;    /* S: the sum of the kept samples' deviations, hundredths */
    uint32_t count; /* N: twice the number of samples kept; 0 if none was */
    uint32_t phase; /* of the line after the sheet: GRAIN_OPEN, or GRAIN_CHECK_DUE whether adjusted or shut */
    int32_t change; /* of the line's intercept, hundredths, 0 if none; check due with 0 says that the line is shut */
};

struct grain_certificate {
    uint32_t accepted, number;
    uint32_t day;       /* of the line's newest sheet */
    int32_t intercept;  /* the line's, or the one derived from it for wet gluten, hundredths */
    int32_t basis;      /* the moisture basis B, hundredths; for wet gluten 1400 */
    uint32_t figure;    /* the reading with its intercept (that is, at the standard basis), tenths */
    uint32_t converted; /* the same at B, tenths; rounded once, not from figure */
};

struct grain_charted {
    uint32_t accepted, number;
    uint32_t week;
    uint32_t count;  /* pairs */
    int32_t plot;    /* the plotted average, hundredths */
    uint32_t range;  /* hundredths */
    uint32_t al;     /* 1 or 0: the plot is at or beyond the absolute limit */
    uint32_t tl;     /* the plot and the one before are at or beyond the tolerance limit, on one side */
    uint32_t run;    /* this and three of the previous four plots: on one side of 0, their exact mean beyond the
                        limit */
    uint32_t ral;    /* the range is at or above its absolute limit */
    uint32_t rtl;    /* the range and the one before are at or above their tolerance limit */
    uint32_t length; /* of the output line, its line feed included */
};

struct grain_written {
    uint32_t accepted, number;
    uint32_t line;   /* the text line that is refused (the names line is 1), 0 if none is meant or it is accepted */
    uint32_t length; /* bytes written, 0 if refused */
};

struct grain_day {
    uint32_t accepted, number;
    uint32_t day; /* 0 to GRAIN_LAST_DAY */
};

struct grain_date {
    uint32_t accepted, number;
    uint32_t year;  /* 2000 to 2273 */
    uint32_t month; /* 1 to 12 */
    uint32_t day;   /* of the month, 1 to 31 */
};

struct grain_weekday {
    uint32_t accepted, number;
    uint32_t weekday; /* GRAIN_MONDAY to GRAIN_SUNDAY */
};

/* The mean figure is the fraction weighted_sum over tonnes, in tenths, not reduced; `mean` is it rounded. Of a refused
 * lot both are 0. */
struct grain_lot {
    uint32_t accepted, number;
    int32_t basis;         /* that of every record, hundredths */
    uint32_t lowest;       /* figure, tenths */
    uint32_t highest;      /* figure, tenths */
    uint32_t mean;         /* tenths; rounded once, an exact half going up */
    uint64_t tonnes;       /* of all records; at most 500000000 */
    uint64_t weighted_sum; /* of figure times tonnes; at most 500000000000 */
};

/* ---- Refusals ---- */

/* Each number's sentence stands in grain_message below. */
#define GRAIN_REFUSED_UNSOUND 0
#define GRAIN_REFUSED_ROW 1
#define GRAIN_REFUSED_DAY 2
#define GRAIN_REFUSED_LINE 3
#define GRAIN_REFUSED_SHEET_LENGTH 4
#define GRAIN_REFUSED_SHEET_NUMBER 5
#define GRAIN_REFUSED_THIRD 6
#define GRAIN_REFUSED_AGAIN 7
#define GRAIN_REFUSED_SCAN 8
#define GRAIN_REFUSED_FLOAT 9
#define GRAIN_REFUSED_BASIS 10
#define GRAIN_REFUSED_CORRECTED 11
#define GRAIN_REFUSED_NEW_LINE 12
#define GRAIN_REFUSED_SET_TOO_OLD 13
#define GRAIN_REFUSED_AT_BASIS 14
#define GRAIN_REFUSED_TEXT_TOO_LONG 15
#define GRAIN_REFUSED_NAMES_LINE 16
#define GRAIN_REFUSED_VALUE_LINE 17
#define GRAIN_REFUSED_SAMPLE_NUMBER 18
#define GRAIN_REFUSED_WEEK 19
#define GRAIN_REFUSED_PAIR_COUNT 20
#define GRAIN_REFUSED_RESULT 21
#define GRAIN_REFUSED_BUFFER 22
#define GRAIN_REFUSED_GLUTEN_CLASS 23
#define GRAIN_REFUSED_GLUTEN_BASIS 24
#define GRAIN_REFUSED_ADJUSTED_LINE 25
#define GRAIN_REFUSED_SHUT_LINE 26
#define GRAIN_REFUSED_NO_SUCH_DAY 27
#define GRAIN_REFUSED_HOLIDAYS 28
#define GRAIN_REFUSED_LOT_SIZE 29
#define GRAIN_REFUSED_SUBLOT 30
#define GRAIN_REFUSED_UNLIKE_BASIS 31

/* What is wrong, in a technician's words. Languages without headers find the same sentences in the library, as `const
 * char *grain_message_1(uint32_t number)`. */
static inline const char *grain_message(uint32_t number)
{
    switch (number) {
    case GRAIN_REFUSED_UNSOUND:
        return "the stored station or chart is damaged; restore it from a copy or open a new one";
    case GRAIN_REFUSED_ROW:
        return "there is no product or chart with this row number";
    case GRAIN_REFUSED_DAY:
        return "the day lies before the station's last accepted call or is above 99999";
    case GRAIN_REFUSED_LINE:
        return "this grain is not measured for that constituent";
    case GRAIN_REFUSED_SHEET_LENGTH:
        return "the reference sheet must have six numbers for every sample of this grain";
    case GRAIN_REFUSED_SHEET_NUMBER:
        return "a number on the reference sheet lies outside 0.00 to 100.00 percent, is missing, or only one half of "
               "an again pair is filled in";
    case GRAIN_REFUSED_THIRD:
        return "a third measurement is missing where first and second are too far apart, or is filled in where they "
               "are not";
    case GRAIN_REFUSED_AGAIN:
        return "an again pair is missing for a sample that must be measured again, or is filled in where none is due";
    case GRAIN_REFUSED_SCAN:
        return "the analyser reported a fault, the scan is of another grain, or gluten is asked for and the scan has "
               "none";
    case GRAIN_REFUSED_FLOAT:
        return "the analyser's value is not a number, below 0 or above 100 percent";
    case GRAIN_REFUSED_BASIS:
        return "the moisture basis lies outside 0.00 to 50.00 percent or is of no known kind";
    case GRAIN_REFUSED_CORRECTED:
        return "the reading with its intercept lies outside 0.00 to 100.00 percent";
    case GRAIN_REFUSED_NEW_LINE:
        return "the line is new: no reference sheet of it was accepted since the station was opened or repaired; enter "
               "one that meets its averages first";
    case GRAIN_REFUSED_SET_TOO_OLD:
        return "the line's newest reference sheet is more than 7 days old; enter a new one first";
    case GRAIN_REFUSED_AT_BASIS:
        return "the value at this moisture basis is above 100 percent";
    case GRAIN_REFUSED_TEXT_TOO_LONG:
        return "the chart text is longer than 65536 bytes";
    case GRAIN_REFUSED_NAMES_LINE:
        return "the chart text must begin with the line `week sample original monitor`";
    case GRAIN_REFUSED_VALUE_LINE:
        return "the line must be four whole numbers of at most five digits without leading zeros, with single spaces "
               "between them and a line feed after them";
    case GRAIN_REFUSED_SAMPLE_NUMBER:
        return "the sample number is neither the next of its week (up to 5) nor 1 of another week";
    case GRAIN_REFUSED_WEEK:
        return "the week is not later than the chart's last week or is above 9999";
    case GRAIN_REFUSED_PAIR_COUNT:
        return "a set must have one to five pairs of original and monitor result";
    case GRAIN_REFUSED_RESULT:
        return "an original or monitor result lies outside 0.00 to 100.00 percent";
    case GRAIN_REFUSED_BUFFER:
        return "the output buffer has fewer than 40 bytes for each line";
    case GRAIN_REFUSED_GLUTEN_CLASS:
        return "wet gluten is reported for Hard Red Winter and Hard Red Spring wheat only";
    case GRAIN_REFUSED_GLUTEN_BASIS:
        return "wet gluten is reported at 14.0 percent moisture only: ask for the standard basis";
    case GRAIN_REFUSED_ADJUSTED_LINE:
        return "the line was adjusted and its check is due: enter a reference sheet that meets the check limit first";
    case GRAIN_REFUSED_SHUT_LINE:
        return "the line was shut, as its sheet kept no sample or called for an intercept beyond 10.00 percent, and "
               "its check is due: enter a reference sheet that meets the check limit first";
    case GRAIN_REFUSED_NO_SUCH_DAY:
        return "there is no such date or day, or the day found is past the last: the calendar runs from 1 January "
               "2000, day 0, to 15 October 2273, day 99999";
    case GRAIN_REFUSED_HOLIDAYS:
        return "the holidays must be day numbers from 0 to 99999, each later than the one before it";
    case GRAIN_REFUSED_LOT_SIZE:
        return "a ship lot must have 1 to 500 sublot records";
    case GRAIN_REFUSED_SUBLOT:
        return "a sublot's record must have 1 to 1000000 tonnes, a figure of 0.0 to 100.0 percent and a moisture basis "
               "of 0.00 to 50.00 percent";
    case GRAIN_REFUSED_UNLIKE_BASIS:
        return "the sublots' figures do not all stand at one moisture basis; they are not converted";
    default:
        return "there is no refusal with this number";
    }
}

/* ---- Calls on stations ---- */

/* The whole hundredth nearest to an analyser's value in percent, an exact half going up. Refused by 9.
 *
 * The answer does not depend on the thread's floating-point state: every float is answered alike in each rounding mode,
 * and where denormal floats are read or written as zero. So it is with the floats of a market test. A signaling NaN is
 * refused by 9 as every NaN is; but where the thread has unmasked the invalid-operation exception, the processor traps
 * inside the comparison, and where it has unmasked the denormal-operand exception, so it does at a denormal float. */
GRAIN_NODISCARD struct grain_value grain_reading(float percent);

/* Makes *station a fresh station of a product row, whatever stood there. Refused by 1: then it is one of row 0. */
GRAIN_NODISCARD struct grain_answer grain_open(struct grain_station *station, uint64_t row);

/* Enters a reference sheet for a line; changes the station's day and that line. Refused by 0, 2 to 7.
 *
 * An average is a sum over a count, of one sheet or of several together; it exceeds a limit beyond it on either side.
 * On a new or open line the sheet is tested alone, then with the newest set of `newest`, then with both, as far as
 * these are at most 14 days old; then with the four sets of `nonzero`, if all four are at most 14 days old and all five
 * sums lie on one side of 0. A sheet whose sum is 0 is so tested for no five, and sets whose sum is 0 are passed over
 * by it. On an adjusted or shut line there is one test, the check. The first average that exceeds its limit, rounded to
 * a whole hundredth with halves away from zero, is subtracted from the intercept, and the line is adjusted, or shut
 * where the intercept would leave -1000 to 1000. A sheet that keeps no sample shuts its line. Both kinds of sets are
 * emptied by each of these.
 *
 *     limits of averages, hundredths    one  two  three  five  check
 *     wheat protein                      10    7      5     3      5
 *     corn protein                       15   10      7     5      7
 *     corn oil                           15   10      7     6      7
 *     corn starch                        35   25     20    15     20
 */
GRAIN_NODISCARD struct grain_outcome grain_sheet(struct grain_station *GRAIN_RESTRICT station, uint32_t day,
                                                 uint64_t line, const int32_t *GRAIN_RESTRICT numbers,
                                                 size_t numbers_len);

/* Enters a repair or a new slope: every line's past sheets go, open lines become new, a check that is due stays due (an
 * adjusted line stays adjusted, a shut one shut), intercepts stay. Refused by 0, 2. */
GRAIN_NODISCARD struct grain_answer grain_repair(struct grain_station *station, uint32_t day);

/* Tests market grain on a line; changes the station's day only. The floats are in percent. asked: the line's own figure
 * (GRAIN_LINE_FIGURE), or wet gluten of a class of wheat (GRAIN_GLUTEN_...).
 *
 * Wet gluten is tested under the protein line's phase and newest sheet. Its intercept is that line's times 3.029,
 * rounded to a hundredth, halves away from zero. It is reported at 14.0 percent moisture and not converted: both
 * figures are equal.
 *
 * Refused by 0, 2, 3, 8, 23, 24, 9, 10, 11, then 12 (a new line), 25 (an adjusted one) or 26 (a shut one), then 13, 14,
 * in this order; by 23 and 24 only where wet gluten is asked for, and by 10 and 14 only where it isn't. */
GRAIN_NODISCARD struct grain_certificate grain_market(struct grain_station *station, uint32_t day, uint64_t line,
                                                      uint32_t scan_kind, float first, float second, float third,
                                                      uint32_t asked, uint32_t basis_kind, int32_t basis);

/* Whether a station may be handed in, as every call on it asks first: accepted, or refused by 0. It only reads. */
GRAIN_NODISCARD struct grain_answer grain_station_check(const struct grain_station *station);

/* ---- Market tests by product ---- */

/* grain_market with few arguments. A basis and a corn scan are structs, so that they do not compile in another's place.
 * A day and a line, or a day and a class, that change places are refused by 2, 3 or 23 where both days are above 2. A
 * day and a float that change places are told by -Wconversion. The answers and refusals are those of grain_market. */

/* A moisture basis: GRAIN_STANDARD, GRAIN_DRY, GRAIN_SPECIFIED or GRAIN_AS_IS with its hundredths. */
struct grain_basis {
    uint32_t kind;
    int32_t hundredths;
};

/* The grain's standard basis: 12.00 percent of wheat, 0 of corn. */
static inline struct grain_basis grain_basis_standard(void)
{
    struct grain_basis basis = {GRAIN_STANDARD, 0};
    return basis;
}

/* Dry: 0 percent. */
static inline struct grain_basis grain_basis_dry(void)
{
    struct grain_basis basis = {GRAIN_DRY, 0};
    return basis;
}

/* A basis that the customer specifies, in hundredths of a percent, 0 to 5000. */
static inline struct grain_basis grain_basis_specified(int32_t hundredths)
{
    struct grain_basis basis = {GRAIN_SPECIFIED, hundredths};
    return basis;
}

/* The grain as it is: its official moisture, in hundredths of a percent, 0 to 5000. */
static inline struct grain_basis grain_basis_as_is(int32_t moisture)
{
    struct grain_basis basis = {GRAIN_AS_IS, moisture};
    return basis;
}

/* Protein of wheat. protein: the scan's, percent. Refused by 8 on a corn station. */
GRAIN_NODISCARD static inline struct grain_certificate grain_market_wheat(struct grain_station *station, uint32_t day,
                                                                          float protein, struct grain_basis basis)
{
    return grain_market(station, day, GRAIN_LINE_PROTEIN, GRAIN_WHEAT, protein, 0, 0, GRAIN_LINE_FIGURE, basis.kind,
                        basis.hundredths);
}

/* A scan of corn, percent. */
struct grain_corn_scan {
    float protein;
    float oil;
    float starch;
};

/* A constituent of corn. line: GRAIN_LINE_PROTEIN, GRAIN_LINE_OIL or GRAIN_LINE_STARCH. Of the scan only its value is
 * looked at. Refused by 8 on a wheat station, where line is 0, and else by 3. */
GRAIN_NODISCARD static inline struct grain_certificate grain_market_corn(struct grain_station *station, uint32_t day,
                                                                         uint64_t line, struct grain_corn_scan scan,
                                                                         struct grain_basis basis)
{
    return grain_market(station, day, line, GRAIN_CORN, scan.protein, scan.oil, scan.starch, GRAIN_LINE_FIGURE,
                        basis.kind, basis.hundredths);
}

/* Wet gluten of wheat. wheat_class: GRAIN_GLUTEN_HARD_RED_WINTER or GRAIN_GLUTEN_HARD_RED_SPRING; every other number is
 * refused by 23. gluten: the scan's, percent. It is reported at 14.0 percent moisture. Refused by 8 on a corn
 * station. */
GRAIN_NODISCARD static inline struct grain_certificate grain_market_gluten(struct grain_station *station, uint32_t day,
                                                                           uint32_t wheat_class, float gluten)
{
    uint32_t asked = wheat_class == GRAIN_LINE_FIGURE ? GRAIN_GLUTEN_OTHER_CLASS : wheat_class;
    return grain_market(station, day, GRAIN_LINE_PROTEIN, GRAIN_WHEAT_GLUTEN, 0, gluten, 0, asked, GRAIN_STANDARD, 0);
}

/* ---- Calls on charts ---- */

/* Makes *chart a fresh chart of a chart row, whatever stood there. Refused by 1: then it is one of row 0. */
GRAIN_NODISCARD struct grain_answer grain_chart_open(struct grain_chart *chart, uint64_t row);

/* Charts a week's set. numbers: original and monitor of one to five pairs in turn, hundredths, 0 to 10000. The output
 * line (`26 5 -9 69 0 0 0 1 0` and a line feed, no NUL) is written from the start of line, and no byte after it.
 * Refused by 0, 19 to 22. */
GRAIN_NODISCARD struct grain_charted grain_chart_set(struct grain_chart *GRAIN_RESTRICT chart, uint32_t week,
                                                     const int32_t *GRAIN_RESTRICT numbers, size_t numbers_len,
                                                     uint8_t *GRAIN_RESTRICT line, size_t line_len);

/* Charts a whole text as wheat protein on a fresh chart. The text is a names line `week sample original monitor`, then
 * a line for each pair: week, number of the sample in its week from 1, original, monitor, whole numbers with single
 * spaces between them and a line feed after them. The output is a names line and one line for each week; no byte after
 * it is written. The text's lines are judged in turn: the first bad one is answered. Refused by 15 to 19, 21, 22. */
GRAIN_NODISCARD struct grain_written grain_chart_text(const uint8_t *GRAIN_RESTRICT text, size_t text_len,
                                                      uint8_t *GRAIN_RESTRICT out, size_t out_len);

/* Whether a chart may be handed in, as grain_chart_set asks first: accepted, or refused by 0. It only reads. */
GRAIN_NODISCARD struct grain_answer grain_chart_check(const struct grain_chart *chart);

/* ---- Calls of the calendar ---- */

/* They take bounded time whatever they are given: dates and weekdays are found by arithmetic, working days in one pass
 * over the holidays that ends at the first bad one, so that at most 100001 of them are looked at. */

/* The day that has this date. Refused by 27: there is no such date from 1 January 2000 to 15 October 2273. */
GRAIN_NODISCARD struct grain_day grain_day_from_date(uint32_t year, uint32_t month, uint32_t day);

/* The date of a day. Refused by 27: the day is above 99999. */
GRAIN_NODISCARD struct grain_date grain_date_from_day(uint32_t day);

/* The weekday of a day. Refused by 27: the day is above 99999. */
GRAIN_NODISCARD struct grain_weekday grain_weekday_of_day(uint32_t day);

/* The day that is count working days after a day: of the days that come after it, the count-th that is a working day.
 * The day itself is never counted, working or not; a count of 0 gives it back whatever it is.
 *
 * holidays: day numbers, each later than the one before it. A holiday on a Saturday or Sunday changes nothing. The
 * whole list is judged, also the holidays before the day and those after the day found, and also where count is 0.
 *
 * Refused by 27 (the day is above 99999), then 28, then 27 (the day found would be above 99999). */
GRAIN_NODISCARD struct grain_day grain_working_day(uint32_t day, uint32_t count, const int32_t *holidays,
                                                   size_t holidays_len);

/* The day by which monitoring results are due at the service point: 2 working days after the day of retrieval, which is
 * not counted. The same as grain_working_day with count 2, and refused alike. */
GRAIN_NODISCARD struct grain_day grain_results_due(uint32_t day, const int32_t *holidays, size_t holidays_len);

/* ---- The call for ship lots ---- */

/* States a ship lot from its sublots' records: the lowest and the highest figure, the tonnes, and the tonnage-weighted
 * mean, exactly and in tenths. A record of n tonnes counts as n records of one: the records' order makes no difference,
 * nor does it whether a sublot stands in one record or in several of its figure and basis, as long as there are no more
 * than 500 and none has more than 1000000 tonnes. The records are only read, 500 of them at most.
 *
 * Refused by 29 (no record or more than 500), then 30 (a record out of its bounds, wherever it stands), then 31 (the
 * records' bases are not all equal). */
GRAIN_NODISCARD struct grain_lot grain_ship_lot(const struct grain_sublot *records, size_t count);

/* ---- Which library it is ---- */

/* These three keep their names and signatures in every version: the library's own GRAIN_LAYOUT, GRAIN_INTERFACE and
 * GRAIN_VERSION. */
uint32_t grain_layout(void);
uint32_t grain_interface(void);
const char *grain_version(void);

/* ---- Layout, as the library has it ---- */

#define GRAIN_SIZE(type, size) GRAIN_STATIC_ASSERT(sizeof(struct type) == (size), "size of " #type)
#define GRAIN_AT(type, field, offset) \
    GRAIN_STATIC_ASSERT(offsetof(struct type, field) == (offset), "offset of " #type "." #field)

GRAIN_STATIC_ASSERT(sizeof(float) == 4, "size of float");
GRAIN_SIZE(grain_past_set, 12);
GRAIN_AT(grain_past_set, day, 0);
GRAIN_AT(grain_past_set, sum, 4);
GRAIN_AT(grain_past_set, count, 8);
GRAIN_SIZE(grain_line, 88);
GRAIN_AT(grain_line, intercept, 0);
GRAIN_AT(grain_line, phase, 4);
GRAIN_AT(grain_line, newest_held, 8);
GRAIN_AT(grain_line, newest, 12);
GRAIN_AT(grain_line, nonzero_held, 36);
GRAIN_AT(grain_line, nonzero, 40);
GRAIN_SIZE(grain_station, 272);
GRAIN_AT(grain_station, row, 0);
GRAIN_AT(grain_station, day, 4);
GRAIN_AT(grain_station, lines, 8);
GRAIN_SIZE(grain_held_set, 12);
GRAIN_AT(grain_held_set, count, 0);
GRAIN_AT(grain_held_set, plot, 4);
GRAIN_AT(grain_held_set, range, 8);
GRAIN_SIZE(grain_chart, 60);
GRAIN_AT(grain_chart, row, 0);
GRAIN_AT(grain_chart, week, 4);
GRAIN_AT(grain_chart, held, 8);
GRAIN_AT(grain_chart, sets, 12);
GRAIN_SIZE(grain_answer, 8);
GRAIN_AT(grain_answer, accepted, 0);
GRAIN_AT(grain_answer, number, 4);
GRAIN_SIZE(grain_value, 12);
GRAIN_AT(grain_value, accepted, 0);
GRAIN_AT(grain_value, number, 4);
GRAIN_AT(grain_value, hundredths, 8);
GRAIN_SIZE(grain_outcome, 24);
GRAIN_AT(grain_outcome, accepted, 0);
GRAIN_AT(grain_outcome, number, 4);
GRAIN_AT(grain_outcome, sum, 8);
GRAIN_AT(grain_outcome, count, 12);
GRAIN_AT(grain_outcome, phase, 16);
GRAIN_AT(grain_outcome, change, 20);
GRAIN_SIZE(grain_certificate, 28);
GRAIN_AT(grain_certificate, accepted, 0);
GRAIN_AT(grain_certificate, number, 4);
GRAIN_AT(grain_certificate, day, 8);
GRAIN_AT(grain_certificate, intercept, 12);
GRAIN_AT(grain_certificate, basis, 16);
GRAIN_AT(grain_certificate, figure, 20);
GRAIN_AT(grain_certificate, converted, 24);
GRAIN_SIZE(grain_charted, 48);
GRAIN_AT(grain_charted, accepted, 0);
GRAIN_AT(grain_charted, number, 4);
GRAIN_AT(grain_charted, week, 8);
GRAIN_AT(grain_charted, count, 12);
GRAIN_AT(grain_charted, plot, 16);
GRAIN_AT(grain_charted, range, 20);
GRAIN_AT(grain_charted, al, 24);
GRAIN_AT(grain_charted, tl, 28);
GRAIN_AT(grain_charted, run, 32);
GRAIN_AT(grain_charted, ral, 36);
GRAIN_AT(grain_charted, rtl, 40);
GRAIN_AT(grain_charted, length, 44);
GRAIN_SIZE(grain_written, 16);
GRAIN_AT(grain_written, accepted, 0);
GRAIN_AT(grain_written, number, 4);
GRAIN_AT(grain_written, line, 8);
GRAIN_AT(grain_written, length, 12);
GRAIN_SIZE(grain_day, 12);
GRAIN_AT(grain_day, accepted, 0);
GRAIN_AT(grain_day, number, 4);
GRAIN_AT(grain_day, day, 8);
GRAIN_SIZE(grain_date, 20);
GRAIN_AT(grain_date, accepted, 0);
GRAIN_AT(grain_date, number, 4);
GRAIN_AT(grain_date, year, 8);
GRAIN_AT(grain_date, month, 12);
GRAIN_AT(grain_date, day, 16);
GRAIN_SIZE(grain_weekday, 12);
GRAIN_AT(grain_weekday, accepted, 0);
GRAIN_AT(grain_weekday, number, 4);
GRAIN_AT(grain_weekday, weekday, 8);
GRAIN_SIZE(grain_sublot, 12);
GRAIN_AT(grain_sublot, figure, 0);
GRAIN_AT(grain_sublot, basis, 4);
GRAIN_AT(grain_sublot, tonnes, 8);
GRAIN_SIZE(grain_lot, 40);
GRAIN_AT(grain_lot, accepted, 0);
GRAIN_AT(grain_lot, number, 4);
GRAIN_AT(grain_lot, basis, 8);
GRAIN_AT(grain_lot, lowest, 12);
GRAIN_AT(grain_lot, highest, 16);
GRAIN_AT(grain_lot, mean, 20);
GRAIN_AT(grain_lot, tonnes, 24);
GRAIN_AT(grain_lot, weighted_sum, 32);

#undef GRAIN_SIZE
#undef GRAIN_AT

#ifdef __cplusplus
}
#endif

#endif
