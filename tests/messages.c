/* What the library exports for languages without headers is what the header says: every sentence, the layout, the
 * interface and the version. */
#include "grain.h"

#include <inttypes.h>
#include <stdio.h>
#include <string.h>

const char *GRAIN_LINKED(grain_message)(uint32_t number);

static int bad;

static void expect(int holds, const char *what, uint32_t number)
{
    if (!holds) {
        fprintf(stderr, "messages: %s, %" PRIu32 "\n", what, number);
        bad = 1;
    }
}

static void compare(uint32_t number)
{
    const char *symbol = GRAIN_LINKED(grain_message)(number);
    expect(strcmp(symbol, grain_message(number)) == 0, "symbol and header have other sentences", number);
    expect((strcmp(symbol, "there is no refusal with this number") == 0) == (number > GRAIN_REFUSED_UNLIKE_BASIS),
           "a sentence is missing or too much", number);
}

int main(void)
{
    static const uint32_t beyond[] = {100, 255, 256, 287, 65536, 65567, 0x7fffffff, 0x80000000, 0xffffffff};
    for (uint32_t number = 0; number <= 40; number++)
        compare(number);
    for (size_t i = 0; i < sizeof beyond / sizeof beyond[0]; i++)
        compare(beyond[i]);
    for (uint32_t one = 0; one <= GRAIN_REFUSED_UNLIKE_BASIS; one++)
        for (uint32_t other = 0; other < one; other++)
            expect(strcmp(grain_message(one), grain_message(other)) != 0, "two numbers have one sentence", one);
    expect(grain_layout() == GRAIN_LAYOUT, "layout", grain_layout());
    expect(grain_interface() == GRAIN_INTERFACE, "interface", grain_interface());
    expect(strcmp(grain_version(), GRAIN_VERSION) == 0, grain_version(), 0);
    return bad;
}
