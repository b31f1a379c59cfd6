/* What the library exports besides the proved calls, for languages that have no header: the sentences of the refusals and
 * the three numbers by which a caller tells which library it has. No prover sees this file. */
#include "grain.h"

#define EXPORTED __attribute__((visibility("default")))

EXPORTED const char *GRAIN_LINKED(grain_message)(uint32_t number);
EXPORTED uint32_t grain_layout(void);
EXPORTED uint32_t grain_interface(void);
EXPORTED const char *grain_version(void);

const char *GRAIN_LINKED(grain_message)(uint32_t number)
{
    return grain_message(number);
}

uint32_t grain_layout(void)
{
    return GRAIN_LAYOUT;
}

uint32_t grain_interface(void)
{
    return GRAIN_INTERFACE;
}

const char *grain_version(void)
{
    return GRAIN_VERSION;
}
