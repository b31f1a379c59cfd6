/* grain_market_wheat, grain_market_corn and grain_market_gluten answer what grain_market does, and leave the same
 * station. */
#include "grain.h"

#include <stdio.h>
#include <stdlib.h>
#include <string.h>

static long accepted, refused;

static struct grain_station opened(uint64_t row)
{
    struct grain_station station;
    int32_t numbers[GRAIN_WHEAT_SHEET];
    for (int i = 0; i < 6; i++) {
        const int32_t sample[6] = {1000, 1000, 1001, -1, -1, -1};
        memcpy(numbers + 6 * i, sample, sizeof sample);
    }
    if (!grain_open(&station, row).accepted)
        exit(1);
    for (uint64_t line = 0; line < (row == GRAIN_ROW_CORN ? 3 : 1); line++)
        if (grain_sheet(&station, 4, line, numbers, row == GRAIN_ROW_CORN ? 24 : 36).phase != GRAIN_OPEN)
            exit(1);
    return station;
}

static void same(const char *helper, const struct grain_certificate *one, const struct grain_certificate *other,
                 const struct grain_station *left, const struct grain_station *right)
{
    if (memcmp(one, other, sizeof *one) != 0 || memcmp(left, right, sizeof *left) != 0) {
        fprintf(stderr, "helpers: %s answers otherwise than grain_market\n", helper);
        exit(1);
    }
    accepted += one->accepted;
    refused += !one->accepted;
}

static void compare_line(const struct grain_station *station, uint32_t day, float percent, struct grain_basis basis)
{
    struct grain_station one = *station, other = *station;
    struct grain_certificate by_helper = grain_market_wheat(&one, day, percent, basis);
    struct grain_certificate by_call = grain_market(&other, day, GRAIN_LINE_PROTEIN, GRAIN_WHEAT, percent, 0, 0,
                                                    GRAIN_LINE_FIGURE, basis.kind, basis.hundredths);
    same("grain_market_wheat", &by_helper, &by_call, &one, &other);
    const struct grain_corn_scan scan = {percent, percent + 1, percent - 2};
    for (uint64_t line = 0; line < 4; line++) {
        one = other = *station;
        by_helper = grain_market_corn(&one, day, line, scan, basis);
        by_call = grain_market(&other, day, line, GRAIN_CORN, percent, percent + 1, percent - 2, GRAIN_LINE_FIGURE,
                               basis.kind, basis.hundredths);
        same("grain_market_corn", &by_helper, &by_call, &one, &other);
    }
}

static void compare_gluten(const struct grain_station *station, uint32_t day, float percent)
{
    for (uint32_t wheat_class = 1; wheat_class < 6; wheat_class++) {
        struct grain_station one = *station, other = *station;
        struct grain_certificate by_helper = grain_market_gluten(&one, day, wheat_class, percent);
        struct grain_certificate by_call = grain_market(&other, day, GRAIN_LINE_PROTEIN, GRAIN_WHEAT_GLUTEN, 50,
                                                        percent, 50, wheat_class, GRAIN_STANDARD, 0);
        same("grain_market_gluten", &by_helper, &by_call, &one, &other);
    }
    /* the number that asks grain_market for the line's own figure is no class */
    struct grain_station left = *station;
    struct grain_certificate none = grain_market_gluten(&left, day, GRAIN_LINE_FIGURE, percent);
    if (none.accepted || (station->row == GRAIN_ROW_WHEAT && day >= 4 && none.number != GRAIN_REFUSED_GLUTEN_CLASS))
        exit(1);
}

int main(void)
{
    static const float percents[] = {-1, 0, 9.99f, 13.54f, 34.12f, 99.99f, 100, 101};
    const struct grain_basis bases[] = {
        grain_basis_standard(),        grain_basis_dry(),         grain_basis_specified(0), grain_basis_specified(5000),
        grain_basis_specified(5001),   grain_basis_as_is(1150),   grain_basis_as_is(-1),    {GRAIN_AS_IS + 1, 0},
    };
    const struct grain_station stations[2] = {opened(GRAIN_ROW_WHEAT), opened(GRAIN_ROW_CORN)};
    for (int row = 0; row < 2; row++)
        for (uint32_t day = 3; day < 14; day++)
            for (size_t i = 0; i < sizeof percents / sizeof percents[0]; i++) {
                for (size_t j = 0; j < sizeof bases / sizeof bases[0]; j++)
                    compare_line(&stations[row], day, percents[i], bases[j]);
                compare_gluten(&stations[row], day, percents[i]);
            }
    printf("helpers: %ld accepted and %ld refused market tests as by grain_market\n", accepted, refused);
    return accepted == 0 || refused == 0;
}
