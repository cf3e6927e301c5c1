/*
 * An old record in small: of each dial it has a lowest and a highest value. It is judged by a rule typed as text; then again after a letter from
 * the station has told what the start signal was at first, and what the level was later; and once more with the two lists in the wrong order.
 */
#include <inttypes.h>
#include <stdio.h>
#include <string.h>

#include "guard.h"

enum { PRESENTATIONS = 4, TOLD = 3 };

/* Registers 1 to 3 are the tone, the start signal and the level; the others are 0. */
static const uint16_t lowest[PRESENTATIONS][TOLD] = {{0, 0, 45}, {1, 0, 45}, {1, 0, 38}, {0, 0, 45}};
static const uint16_t highest[PRESENTATIONS][TOLD] = {{0, 1, 45}, {1, 0, 45}, {1, 0, 42}, {0, 0, 45}};

static uint32_t rule[GUARD_MOST_NODES];
static size_t nodes;

static void fill(uint16_t *limits, const uint16_t told[PRESENTATIONS][TOLD])
{
    memset(limits, 0, sizeof(uint16_t) * GUARD_REGISTERS * PRESENTATIONS);
    for (int i = 0; i < PRESENTATIONS; i++)
        for (int r = 0; r < TOLD; r++)
            limits[GUARD_REGISTERS * i + 1 + r] = told[i][r];
}

static void judge(const char *what, const uint16_t *lows, const uint16_t *highs)
{
    static const char *const words[] = {[GUARD_LIMITS_FALSE] = "false", [GUARD_LIMITS_TRUE] = "true", [GUARD_LIMITS_OPEN] = "open"};
    uint8_t answers[PRESENTATIONS];
    uint64_t numbers[GUARD_LIMITS_NUMBERS];
    uint32_t question = guard_limits(rule, nodes, lows, GUARD_REGISTERS * PRESENTATIONS, highs, GUARD_REGISTERS * PRESENTATIONS,
                                     answers, PRESENTATIONS, numbers, GUARD_LIMITS_NUMBERS);
    printf("%s:", what);
    if (question != GUARD_YES)
        printf(" refused %" PRIu32 " at %" PRIu64, question, numbers[GUARD_PLACE]);
    else
        for (uint64_t i = 0; i < numbers[GUARD_LIMITS_INDICES]; i++)
            printf(" %s", words[answers[i]]);
    printf("\n");
}

int main(void)
{
    static const char text[] = "r1=1 since r2=1 and not r3<40";
    uint64_t numbers[GUARD_TEXT_NUMBERS];
    if (guard_text((const uint8_t *)text, sizeof text - 1, rule, GUARD_MOST_NODES, numbers, GUARD_TEXT_NUMBERS) != GUARD_YES)
        return 1;
    nodes = (size_t)numbers[GUARD_TEXT_NODES];
    printf("%s\n", text);
    uint16_t lows[GUARD_REGISTERS * PRESENTATIONS], highs[GUARD_REGISTERS * PRESENTATIONS];
    fill(lows, lowest);
    fill(highs, highest);
    judge("as recorded", lows, highs);
    lows[2] = 1; /* the start signal came */
    judge("the start signal came", lows, highs);
    lows[GUARD_REGISTERS * 2 + 3] = 40; /* and the level was not below 40 */
    judge("the level was at least 40", lows, highs);
    judge("highest and lowest exchanged", highs, lows);
    return 0;
}
