/*
 * Four stations of a clinic in small, with an allowance of five presentations between them: each has a rule typed as text and a bare script
 * into which a guard is woven. They take turns until none can go on. It is told which turn made each presentation, what stopped each station,
 * which of them is ready to present and which waits for the allowance; and each record is judged by its own rule.
 */
#include <inttypes.h>
#include <stdio.h>
#include <stdlib.h>
#include <string.h>

#include "guard.h"

enum { MOST_LINES = 64, MOST_INPUTS = 4, MOST_PRESENTATIONS = 4, ALLOWANCE = 5, MOST_TURNS = 10000 };

/* What each station is given: the rule, the bare script, its inputs, and for how many presentations it has memory. */
static const struct plan {
    const char *rule;
    uint32_t bare[5];
    size_t lines;
    uint16_t inputs[MOST_INPUTS];
    size_t input_count, space;
} plans[GUARD_STATIONS] = {
    /* the level in register 1 stays below 40: take an input as the level, present it, start again */
    {"r1<40", {0x41000000, 0x80000000, 0x70000000}, 3, {10, 50, 20}, 3, MOST_PRESENTATIONS},
    /* no two tones in succession: switch the tone in register 2 on, present, present again, halt */
    {"r2=1 implies wprev r2=0", {0x12000400, 0x80000000, 0x80000000, 0x00000000}, 4, {0}, 0, MOST_PRESENTATIONS},
    /* the tone ever since the start signal: both on, then present again and again; but it has memory for one presentation only */
    {"r1=1 since r2=1", {0x11000400, 0x12000400, 0x80000000, 0x70000002}, 4, {0}, 0, 1},
    /* the level in register 3 never falls below 2: raise it by 1, by 1 and by 1, present, start again */
    {"sofar not r3<2", {0x33000400, 0x33000400, 0x33000400, 0x80000000, 0x70000000}, 5, {0}, 0, MOST_PRESENTATIONS},
};

static uint32_t rules[GUARD_STATIONS][GUARD_MOST_NODES];
static uint32_t scripts[GUARD_STATIONS][GUARD_LINE_WORDS * MOST_LINES];
static uint16_t histories[GUARD_STATIONS][GUARD_REGISTERS * MOST_PRESENTATIONS];

static void tell_refusal(const char *what, uint32_t question, uint64_t place)
{
    printf("%s: refused %" PRIu32 " at %" PRIu64 "\n", what, question, place);
}

static void stop_if_refused(const char *what, uint32_t question, const uint64_t *numbers)
{
    if (question != GUARD_YES) {
        tell_refusal(what, question, numbers[GUARD_PLACE]);
        exit(1);
    }
}

/* Station k, its rule read and the guard woven into its script. */
static struct guard_station prepare(int k)
{
    const struct plan *plan = &plans[k];
    uint64_t numbers[GUARD_WEAVE_NUMBERS];
    uint32_t question = guard_text((const uint8_t *)plan->rule, strlen(plan->rule), rules[k], GUARD_MOST_NODES,
                                   numbers, GUARD_TEXT_NUMBERS);
    stop_if_refused(plan->rule, question, numbers);
    size_t nodes = (size_t)numbers[GUARD_TEXT_NODES];
    question = guard_weave(rules[k], nodes, plan->bare, plan->lines, scripts[k], GUARD_LINE_WORDS * MOST_LINES,
                           numbers, GUARD_WEAVE_NUMBERS);
    stop_if_refused(plan->rule, question, numbers);
    printf("station %d: %s; %zu lines became %" PRIu64 "\n", k, plan->rule, plan->lines, numbers[GUARD_WEAVE_LINES]);
    struct guard_station station = {
        rules[k], nodes, scripts[k], GUARD_LINE_WORDS * (size_t)numbers[GUARD_WEAVE_LINES],
        plan->inputs, plan->input_count, histories[k], GUARD_REGISTERS * plan->space,
    };
    return station;
}

/* What keeps a station from moving, or NULL where it could. */
static const char *stopped(const struct guard_station *station, const uint64_t *state, uint64_t left)
{
    uint32_t opcode = station->script[GUARD_LINE_WORDS * state[GUARD_STATE_LINE]] >> 28;
    if (opcode == 0)
        return "halted";
    if (opcode == 4 && state[GUARD_STATE_INPUTS_READ] == station->inputs_length)
        return "no input left";
    if (opcode == 8 && state[GUARD_STATE_PRESENTATIONS] == station->history_length / GUARD_REGISTERS)
        return "no memory left for a presentation";
    if (opcode == 8 && left == 0)
        return "waits for the allowance";
    return NULL;
}

static void judge(int k, const struct guard_station *station, uint64_t presentations)
{
    uint64_t numbers[GUARD_JUDGE_NUMBERS];
    uint32_t question = guard_judge(station->rule, station->rule_length, station->history, GUARD_REGISTERS * (size_t)presentations,
                                    numbers, GUARD_JUDGE_NUMBERS);
    stop_if_refused("record", question, numbers);
    if (numbers[GUARD_JUDGE_BREACH])
        printf("record of station %d: the rule is false first at presentation %" PRIu64 "\n", k, numbers[GUARD_JUDGE_INDEX]);
    else
        printf("record of station %d: the rule is true at every presentation\n", k);
}

int main(void)
{
    struct guard_station stations[GUARD_STATIONS];
    uint64_t states[GUARD_STATIONS_STATES], before[GUARD_STATIONS_STATES], numbers[GUARD_STATIONS_NUMBERS];
    uint64_t left = ALLOWANCE, turns = 0, presented = 0;
    for (int k = 0; k < GUARD_STATIONS; k++)
        stations[k] = prepare(k);

    /* The run up to its first turn, to its second, and so on, until a larger budget makes no more of it. A turn after which less is left of
     * the allowance was a presentation. */
    for (uint64_t budget = 1; budget <= MOST_TURNS; budget++) {
        uint32_t question = guard_stations_of(states, GUARD_STATIONS_STATES, budget, ALLOWANCE, stations,
                                              numbers, GUARD_STATIONS_NUMBERS);
        stop_if_refused("run", question, numbers);
        turns = numbers[GUARD_STATIONS_TURNS];
        if (turns < budget)
            break;
        if (numbers[GUARD_STATIONS_LEFT] < left) {
            left = numbers[GUARD_STATIONS_LEFT];
            printf("turn %" PRIu64 ": station %" PRIu64 " presents, %" PRIu64 " left\n", turns - 1, (turns - 1) % GUARD_STATIONS, left);
        }
    }
    for (int k = 0; k < GUARD_STATIONS; k++)
        presented += states[GUARD_STATE_NUMBERS * k + GUARD_STATE_PRESENTATIONS];
    printf("run: %" PRIu64 " turns, %" PRIu64 " presentations, %" PRIu64 " left of %d\n", turns, presented, left, ALLOWANCE);
    for (int k = 0; k < GUARD_STATIONS; k++) {
        const uint64_t *state = &states[GUARD_STATE_NUMBERS * k];
        const char *why = stopped(&stations[k], state, left);
        printf("station %d: presentations %" PRIu64 "; %s; %s\n", k, state[GUARD_STATE_PRESENTATIONS],
               why != NULL ? why : "could go on", state[GUARD_STATE_READY] ? "ready" : "not ready");
    }
    for (int k = 0; k < GUARD_STATIONS; k++)
        judge(k, &stations[k], states[GUARD_STATE_NUMBERS * k + GUARD_STATE_PRESENTATIONS]);

    /* What is refused leaves the states as they were: three states in the place of four; then a script of station 2 that takes node 0 of its
     * rule for true at the first line, before anything was written or asked. */
    memcpy(before, states, sizeof states);
    uint32_t question = guard_stations_of(states, (GUARD_STATIONS - 1) * GUARD_STATE_NUMBERS, MOST_TURNS, ALLOWANCE, stations,
                                          numbers, GUARD_STATIONS_NUMBERS);
    tell_refusal("three states", question, numbers[GUARD_PLACE]);
    scripts[2][1] |= UINT32_C(1) << 31;
    question = guard_stations_of(states, GUARD_STATIONS_STATES, MOST_TURNS, ALLOWANCE, stations, numbers, GUARD_STATIONS_NUMBERS);
    tell_refusal("a spoiled script", question, numbers[GUARD_PLACE]);
    printf("states: %s\n", memcmp(before, states, sizeof states) == 0 ? "as they were" : "CHANGED");
    return 0;
}
