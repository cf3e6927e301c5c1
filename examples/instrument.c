/*
 * An audiometer in small: it loads a rule typed as text and a bare script in hexadecimal, has the guard woven in and checked, plays
 * the script step by step with inputs from a list, tells whenever it becomes ready to present or no longer is, prints each presentation as it
 * is made, and has the record judged afterwards.
 *
 *     instrument RULE SCRIPT ACCIDENT HAND INPUT...
 */
#include <ctype.h>
#include <stdbool.h>
#include <stdio.h>
#include <stdlib.h>
#include <string.h>

#include "guard.h"

enum { MOST_TEXT = 1024, MOST_INPUTS = 256, MOST_PRESENTATIONS = 64, MOST_STEPS = 10000 };

static FILE *open_file(const char *path)
{
    FILE *file = fopen(path, "r");
    if (file == NULL) {
        perror(path);
        exit(2);
    }
    return file;
}

/* Words in hexadecimal, with blanks between them; # starts a comment. */
static size_t read_hex(const char *path, uint32_t *words, size_t most)
{
    FILE *file = open_file(path);
    size_t n = 0;
    int c = fgetc(file);
    while (c != EOF) {
        if (isspace(c)) {
            c = fgetc(file);
        } else if (c == '#') {
            while (c != EOF && c != '\n')
                c = fgetc(file);
        } else {
            uint32_t word = 0;
            int digits = 0;
            for (; isxdigit(c); c = fgetc(file), digits++)
                word = 16 * word + (uint32_t)(isdigit(c) ? c - '0' : tolower(c) - 'a' + 10);
            if (digits == 0 || digits > 8 || n == most) {
                fprintf(stderr, "%s: word %zu is none, or one too many\n", path, n);
                exit(2);
            }
            words[n++] = word;
        }
    }
    fclose(file);
    return n;
}

static void tell_refusal(const char *what, uint32_t question, uint64_t place)
{
    printf("%s: refused %u at %llu\n", what, (unsigned)question, (unsigned long long)place);
}

/* The instrument does nothing with what is refused: it goes back to its author. */
static void stop_if_refused(const char *what, uint32_t question, const uint64_t *numbers)
{
    if (question != GUARD_YES) {
        tell_refusal(what, question, numbers[GUARD_PLACE]);
        exit(1);
    }
}

/* The first line of a file, without its end. */
static void read_line(const char *path, char *line, int most)
{
    FILE *file = open_file(path);
    if (fgets(line, most, file) == NULL)
        line[0] = '\0';
    line[strcspn(line, "\r\n")] = '\0';
    fclose(file);
}

/* A rule typed as text, and how many nodes it has. Where the text goes wrong, it is shown with a mark under the byte. */
static size_t read_rule(const char *path, uint32_t *rule)
{
    char text[MOST_TEXT];
    uint64_t numbers[GUARD_TEXT_NUMBERS];
    read_line(path, text, MOST_TEXT);
    uint32_t question = guard_text((const uint8_t *)text, strlen(text), rule, GUARD_MOST_NODES, numbers, GUARD_TEXT_NUMBERS);
    if (question == GUARD_TEXT_GRAMMAR || question == GUARD_TEXT_RANGE)
        printf("%s\n%*s\n", text, (int)numbers[GUARD_PLACE] + 1, "^");
    stop_if_refused("rule", question, numbers);
    printf("rule: %llu nodes\n", (unsigned long long)numbers[GUARD_TEXT_NODES]);
    return (size_t)numbers[GUARD_TEXT_NODES];
}

static void print_registers(uint64_t one, uint64_t two)
{
    printf("register 1 = %u, register 2 = %u\n", (unsigned)one, (unsigned)two);
}

/* The ready lamp, which is on if a presentation made now would keep the rule. */
static void tell_ready(const uint64_t *state)
{
    const uint64_t *registers = &state[GUARD_STATE_REGISTERS];
    printf("%s: ", state[GUARD_STATE_READY] ? "ready" : "not ready");
    print_registers(registers[1], registers[2]);
}

/* Plays the script: the next input is fetched when the machine waits for one. Answers how many presentations were made. */
static uint64_t play(const uint32_t *rule, size_t nodes, const uint32_t *script, size_t words,
                     const uint16_t *list, size_t list_length, uint16_t *history, size_t history_length)
{
    uint64_t state[GUARD_STATE_NUMBERS];
    uint16_t inputs[MOST_INPUTS] = {0};
    size_t arrived = 0;
    guard_fresh(rule, nodes, state, GUARD_STATE_NUMBERS);
    tell_ready(state);
    for (int step = 0; step < MOST_STEPS; step++) {
        uint64_t presented = state[GUARD_STATE_PRESENTATIONS], ready = state[GUARD_STATE_READY];
        uint32_t opcode = script[GUARD_LINE_WORDS * state[GUARD_STATE_LINE]] >> 28;
        if (opcode == 0)
            break;
        if (opcode == 4 && state[GUARD_STATE_INPUTS_READ] == arrived) {
            if (arrived == list_length)
                break;
            inputs[arrived] = list[arrived];
            arrived++;
        }
        guard_step(rule, nodes, script, words, inputs, arrived, history, history_length, state, GUARD_STATE_NUMBERS);
        if (state[GUARD_STATE_PRESENTATIONS] > presented) {
            const uint16_t *made = &history[GUARD_REGISTERS * presented];
            printf("presentation %llu: ", (unsigned long long)presented);
            print_registers(made[1], made[2]);
        }
        if (state[GUARD_STATE_READY] != ready)
            tell_ready(state);
    }
    return state[GUARD_STATE_PRESENTATIONS];
}

static void judge(const char *what, const uint32_t *rule, size_t nodes, const uint16_t *history, size_t presentations)
{
    uint64_t numbers[GUARD_JUDGE_NUMBERS];
    uint32_t question = guard_judge(rule, nodes, history, GUARD_REGISTERS * presentations, numbers, GUARD_JUDGE_NUMBERS);
    stop_if_refused(what, question, numbers);
    if (numbers[GUARD_JUDGE_BREACH])
        printf("%s: the rule is false first at presentation %llu\n", what, (unsigned long long)numbers[GUARD_JUDGE_INDEX]);
    else
        printf("%s: the rule is true at all %llu presentations\n", what, (unsigned long long)numbers[GUARD_JUDGE_STATES]);
}

/* Has facts found for a guard that was written by hand without. */
static void find(const char *what, const uint32_t *rule, size_t nodes, const uint32_t *hand, size_t lines)
{
    static uint32_t found[GUARD_LINE_WORDS * GUARD_MOST_LINES];
    uint64_t numbers[GUARD_FACTS_NUMBERS];
    uint32_t question = guard_facts(rule, nodes, hand, lines, found, GUARD_LINE_WORDS * GUARD_MOST_LINES,
                                    numbers, GUARD_FACTS_NUMBERS);
    if (question != GUARD_YES) {
        tell_refusal(what, question, numbers[GUARD_PLACE]);
        return;
    }
    uint64_t facts = numbers[GUARD_FACTS_COUNT];
    question = guard_script(rule, nodes, found, GUARD_LINE_WORDS * lines, numbers, GUARD_SCRIPT_NUMBERS);
    stop_if_refused(what, question, numbers);
    printf("%s: %llu facts found, accepted\n", what, (unsigned long long)facts);
}

int main(int argc, char **argv)
{
    static uint32_t rule[GUARD_MOST_NODES], bare[GUARD_MOST_LINES], hand[GUARD_MOST_LINES];
    static uint32_t script[GUARD_LINE_WORDS * GUARD_MOST_LINES], accident[GUARD_LINE_WORDS * GUARD_MOST_LINES];
    static uint16_t inputs[MOST_INPUTS], history[GUARD_REGISTERS * MOST_PRESENTATIONS];
    static uint16_t again[GUARD_REGISTERS * MOST_PRESENTATIONS];
    uint64_t numbers[GUARD_RUN_NUMBERS];

    if (argc < 5 || argc - 5 > MOST_INPUTS) {
        fprintf(stderr, "usage: %s RULE SCRIPT ACCIDENT HAND INPUT...\n", argv[0]);
        return 2;
    }
    size_t nodes = read_rule(argv[1], rule);
    size_t lines = read_hex(argv[2], bare, GUARD_MOST_LINES);
    size_t input_count = (size_t)argc - 5;
    for (size_t i = 0; i < input_count; i++)
        inputs[i] = (uint16_t)strtoul(argv[5 + i], NULL, 10);

    uint32_t question = guard_weave(rule, nodes, bare, lines, script, GUARD_LINE_WORDS * GUARD_MOST_LINES,
                                    numbers, GUARD_WEAVE_NUMBERS);
    stop_if_refused("script", question, numbers);
    printf("woven: %zu lines became %llu\n", lines, (unsigned long long)numbers[GUARD_WEAVE_LINES]);
    size_t words = GUARD_LINE_WORDS * (size_t)numbers[GUARD_WEAVE_LINES];

    /* Only an accepted script is played. */
    question = guard_script(rule, nodes, script, words, numbers, GUARD_SCRIPT_NUMBERS);
    stop_if_refused("woven script", question, numbers);
    printf("woven script: accepted\n");
    size_t made = (size_t)play(rule, nodes, script, words, inputs, input_count, history, GUARD_REGISTERS * MOST_PRESENTATIONS);
    judge("record", rule, nodes, history, made);

    /* The same in one call. */
    question = guard_run(rule, nodes, script, words, inputs, input_count, MOST_STEPS,
                         again, GUARD_REGISTERS * MOST_PRESENTATIONS, numbers, GUARD_RUN_NUMBERS);
    stop_if_refused("run", question, numbers);
    static const char *const stops[] = {"refused", "halted", "spent", "dry", "full"};
    printf("run: %s at line %llu after %llu steps, %llu presentations, %llu inputs read\n", stops[numbers[GUARD_RUN_STOP]],
           (unsigned long long)numbers[GUARD_RUN_LINE], (unsigned long long)numbers[GUARD_RUN_STEPS],
           (unsigned long long)numbers[GUARD_RUN_PRESENTATIONS], (unsigned long long)numbers[GUARD_RUN_INPUTS_READ]);
    bool same = made == numbers[GUARD_RUN_PRESENTATIONS];
    for (size_t i = 0; i < GUARD_REGISTERS * made; i++)
        same = same && history[i] == again[i];
    printf("run and steps: %s\n", same ? "the same record" : "DIFFERENT RECORDS");

    /* A record of another instrument, which presented what the rule forbids: registers 1 and 2 as 0 1, 1 0, 0 0. */
    static uint16_t other[3 * GUARD_REGISTERS];
    other[2] = 1;
    other[GUARD_REGISTERS + 1] = 1;
    judge("another's record", rule, nodes, other, 3);

    /* A guard that keeps its bit before the presentation is made. */
    size_t accident_words = read_hex(argv[3], accident, GUARD_LINE_WORDS * GUARD_MOST_LINES);
    question = guard_script(rule, nodes, accident, accident_words, numbers, GUARD_SCRIPT_NUMBERS);
    if (question == GUARD_YES)
        printf("accident: accepted\n");
    else
        tell_refusal("accident", question, numbers[GUARD_PLACE]);

    /* A guard without facts; then the same with its present and the line after it in the wrong order, which no facts can save. */
    size_t hand_lines = read_hex(argv[4], hand, GUARD_MOST_LINES);
    find("by hand", rule, nodes, hand, hand_lines);
    for (size_t i = 0; i + 1 < hand_lines; i++) {
        if (hand[i] >> 28 == 8) {
            uint32_t present = hand[i];
            hand[i] = hand[i + 1];
            hand[i + 1] = present;
            break;
        }
    }
    find("by hand, kept too early", rule, nodes, hand, hand_lines);
    return 0;
}
