/* A float is answered alike whatever the thread's floating-point state is: readings and market tests in the default
 * state and in every combination of rounding mode, denormals as zero (DAZ) and flush to zero (FTZ). */
#include "grain.h"

#include <inttypes.h>
#include <stdbool.h>
#include <stdio.h>
#include <stdlib.h>
#include <string.h>
#include <xmmintrin.h>

enum { DRAWN = 300000, DAZ = 0x0040, FTZ = 0x8000, NEAREST = 0, ROUNDING = 0x6000, ROUNDING_STEP = 0x2000 };

/* What a float is answered. */
struct answers {
    struct grain_value reading;
    struct grain_certificate wheat, gluten;
};

static struct grain_station open_station;
static unsigned default_state;

static float of_bits(uint32_t bits)
{
    float value;
    memcpy(&value, &bits, sizeof value);
    return value;
}

/* The x87 unit's rounding is set with the other: the core should use neither. */
static void set_state(unsigned state)
{
    _mm_setcsr(state);
    uint16_t control;
    __asm__ volatile("fnstcw %0" : "=m"(control));
    control = (uint16_t)((control & 0xf3ff) | (state & ROUNDING) >> 3);
    __asm__ volatile("fldcw %0" : : "m"(control));
}

static struct answers ask(uint32_t bits, unsigned state)
{
    struct grain_station first = open_station, second = open_station;
    float value = of_bits(bits);
    set_state(state);
    struct answers answers = {
        grain_reading(value),
        grain_market(&first, 1, 0, GRAIN_WHEAT, value, 0, 0, GRAIN_LINE_FIGURE, GRAIN_DRY, 0),
        grain_market(&second, 1, 0, GRAIN_WHEAT_GLUTEN, 0, value, 0, GRAIN_GLUTEN_HARD_RED_WINTER, GRAIN_STANDARD, 0),
    };
    set_state(default_state);
    return answers;
}

/* Whether the state does what it should to a program's own floats: else nothing would be tried. Numbers and results are
 * volatile, so that the compiler works them out while the state is set. */
static bool takes_effect(unsigned state)
{
    volatile float denormal = of_bits(1), small = of_bits(0x00800000), half = 0.5f, one = 1.0f;
    volatile float bit = of_bits(0x33000000);
    set_state(state);
    volatile bool zero = denormal == 0.0f, flushed = small * half == 0.0f;
    volatile bool up = one + bit > one, down = one - bit < one, down_below = -one - bit < -one;
    set_state(default_state);
    unsigned rounding = state & ROUNDING;
    bool is_up = rounding == 2 * ROUNDING_STEP, is_down = rounding == ROUNDING_STEP;
    bool is_cut = rounding == 3 * ROUNDING_STEP;
    return zero == ((state & DAZ) != 0) && flushed == ((state & (FTZ | DAZ)) != 0) && up == is_up &&
           down == (is_down || is_cut) && down_below == is_down;
}

static long differing, accepted, refused;

static void compare(uint32_t bits)
{
    struct answers usual = ask(bits, default_state);
    accepted += usual.reading.accepted + usual.wheat.accepted + usual.gluten.accepted;
    refused += !usual.reading.accepted;
    for (unsigned i = 0; i < 16; i++) {
        unsigned state = (default_state & ~(unsigned)(ROUNDING | DAZ | FTZ)) | (i & 3) * ROUNDING_STEP |
                         (i & 4 ? DAZ : 0) | (i & 8 ? FTZ : 0);
        struct answers answers = ask(bits, state);
        if (memcmp(&answers, &usual, sizeof usual) != 0 && differing++ < 10)
            fprintf(stderr, "float_state: %08" PRIx32 " is answered otherwise in state %04x\n", bits, state);
    }
}

static void check_states(void)
{
    for (unsigned i = 0; i < 16; i++) {
        unsigned state = (default_state & ~(unsigned)(ROUNDING | DAZ | FTZ)) | (i & 3) * ROUNDING_STEP |
                         (i & 4 ? DAZ : 0) | (i & 8 ? FTZ : 0);
        if (!takes_effect(state)) {
            fprintf(stderr, "float_state: state %04x has not the effect that is to be tried\n", state);
            exit(1);
        }
    }
}

/* The edges of each exponent, zero and the denormals among them, of both signs. */
static void compare_edges(void)
{
    for (uint32_t exponent = 0; exponent < 256; exponent++)
        for (uint32_t sign = 0; sign < 2; sign++)
            for (uint32_t i = 0; i < 8; i++) {
                static const uint32_t edges[8] = {0, 1, 2, 0x3fffff, 0x400000, 0x400001, 0x7ffffe, 0x7fffff};
                compare(sign << 31 | exponent << 23 | edges[i]);
            }
}

/* Half of them any patterns, half of them percentages between hundredths. */
static void compare_drawn(void)
{
    uint64_t random = 1;
    for (int i = 0; i < DRAWN; i++) {
        random = random * UINT64_C(6364136223846793005) + UINT64_C(1442695040888963407);
        uint32_t drawn = (uint32_t)(random >> 32), bits;
        float percent = (float)(drawn % 20002) / 200.0f;
        memcpy(&bits, &percent, sizeof bits);
        compare(i % 2 ? drawn : bits + drawn % 3 - 1);
    }
}

int main(void)
{
    default_state = _mm_getcsr();
    int32_t numbers[GRAIN_WHEAT_SHEET];
    for (int i = 0; i < 6; i++) {
        const int32_t sample[6] = {1000, 1000, 1001, -1, -1, -1};
        memcpy(numbers + 6 * i, sample, sizeof sample);
    }
    if (!grain_open(&open_station, GRAIN_ROW_WHEAT).accepted ||
        grain_sheet(&open_station, 1, 0, numbers, GRAIN_WHEAT_SHEET).phase != GRAIN_OPEN)
        return 1;
    check_states();
    compare_edges();
    compare_drawn();
    if (grain_reading(of_bits(0x80000001)).number != GRAIN_REFUSED_FLOAT)
        return 1;
    printf("float_state: %d floats in 16 states, %ld answers accepted, %ld readings refused, %ld differ\n",
           256 * 16 + DRAWN, accepted, refused, differing);
    return differing != 0 || accepted == 0 || refused == 0;
}
