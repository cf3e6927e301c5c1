/*
 * The presentation guard, for C and C++.
 *
 * Link libguard.a (`tools/libraries` writes it to out/; Linux on x86-64-v2), and for the functions over the second form and
 * the moves libguard64.a; guard_stations is in libguard_four.a, guard_stations64 in libguard_four64.a. A program may
 * link all of them. They need no other library, keep nothing between calls, allocate nothing, and may be called from several threads at once.
 *
 * Every function here is proved: for each input it ends, reads and writes only what is lent to it, and answers what
 * crates/spec/specs says, a move what crates/moves/specs says, a run of four stations what crates/turns/specs says, judging within limits
 * what crates/intervals/specs says (the src folders of crates guard_c, guard64_c, guard_four_c and guard_four64_c have the contracts).
 *
 * LENT MEMORY. Each array comes as a pointer and its length in elements, not in bytes. A pointer is aligned for its elements and
 * is not null, also where the length is 0 (any aligned address serves then). `const` arrays are only read. An array that a
 * function may write overlaps no other array of the same call, and no other thread uses it during the call. Every length is
 * allowed; nothing is read or written past it.
 *
 * THE NUMBER HANDED BACK is 0, or 1 to 23: the question that has a no (enum guard_question), or GUARD_TOO_SHORT where the lent
 * `numbers` or `state` is shorter than the function needs, or (a step alone) GUARD_TOO_LARGE.
 *
 * THE OTHER NUMBERS of an answer go into the first elements of `numbers`, as many as the function's GUARD_..._NUMBERS; elements
 * after these stay as they were. On a refusal (1 to 23) numbers[GUARD_PLACE] is the place and every other number of the answer
 * is 0; otherwise the place is 0.
 *
 * WHAT A REFUSAL LEAVES UNTOUCHED. With 1 to 23 `out`, the history of a run, and the states and histories of a run of four stations are as
 * they were. With GUARD_TOO_SHORT and GUARD_TOO_LARGE nothing at all is written, `numbers`, `state` and `states` included.
 *
 * FORMATS. A rule is 1 to 32 nodes, one 32-bit word each, from the most significant bit: kind 3 bits, register 4, constant 14,
 * left 5, right 5, a zero bit; an operand is a node's number, from 0. A node may be an operand more than once. Since and weak previous,
 * kinds 4 and 5, are past nodes; any other node that is an operand twice or more (`implies 0 0` counts two) is shared: it is worked out
 * once in a block, and has a work bit and the fact W. A bare script is 1 to 1,024 lines of one 32-bit word:
 * opcode 4 bits, r 4, c 14, target 10; opcodes 0 to 8, 13 and 14. An annotated script has eight words a line: the instruction,
 * opcodes 0 to 14, and seven sets of facts in the order T, F, A, B, M, W, C, node 0 at the most significant bit. A node of kind 6 is
 * true if its register equals the one whose number, 0 to 15, is in its constant. Opcode 3 raises register r by c and stops at 16,383;
 * 13 goes to its target if register r equals the one whose number is in c; 14 lowers register r by c and stops at 0. A history has
 * 16 numbers for each presentation, the registers at that time, each at most 16,383.
 *
 * THE SECOND FORM of rules and annotated scripts has room for 64 nodes. A rule is 1 to 64 nodes, one 64-bit word each: kind 3 bits,
 * register 4, constant 14, left 6, right 6, 31 zero bits. An annotated script has eight 64-bit words a line, the instruction in the upper
 * half of the first and zeros below it. Bare scripts and instructions without facts have 32-bit words in both forms. A function whose
 * name ends in 64 is the one of the same name over the second form. guard_rule_up to guard_script_back move what is stored from one
 * form to the other.
 *
 * STACK. A proof knows nothing of the stack, so what a call takes was measured: on a painted stack, with rules as deeply nested as
 * 32 or 64 nodes allow, full scripts and random requests (reference/compare/tests/stack.rs, which also holds enum guard_stack to it).
 * The numbers are for the libraries named above, which are x86-64; another compiler's are its own. No call takes more for a longer input. Only
 * guard_weave and guard_weave64 call themselves inside, once for each implies that has a node in its left operand; guard_facts and guard_facts64 have the notes
 * of their search there, 57 KB, so they take the most.
 */
#ifndef GUARD_H
#define GUARD_H

#include <stddef.h>
#include <stdint.h>

#ifdef __cplusplus
extern "C" {
#endif

/* The questions, in the order in which they are put, but for a text: 16, 17, 18, then 13, for facts to be found: 1 to 7, 19, then 13,
 * for a move back: 1 to 4, 20, of a script 5 to 8, then 13, for four stations: 21, then 1 to 11 of one station after the other, then 15
 * likewise, and for limits: 1 to 4, 14 of the lows, 14 of the highs, 22, 13, 15 of the lows, 15 of the highs, then 23. Each is put to the
 * whole input before the next, of four stations to the station's. In brackets what the place counts, from 0; the others have place 0. A run
 * of four stations has the station for its place, 0 to 3, whatever the question counts. */
enum guard_question {
    GUARD_YES = 0,                /* every question has a yes */
    GUARD_NODE_COUNT = 1,         /* has the rule 1 to 32 nodes, in the second form 1 to 64? */
    GUARD_NODE_FIELDS = 2,        /* are kinds 0 to 6, unused fields zero, register in the constant at most 15? (node) */
    GUARD_NODE_OPERANDS = 3,      /* are operands lower than their node? (node) */
    GUARD_NODE_USED = 4,          /* is each node but the last an operand at least once? (node) */
    GUARD_NODE_USED_ONCE = 4,     /* the name that it had when "exactly once" was asked */
    GUARD_LINE_COUNT = 5,         /* has the script 1 to 1,024 whole lines? */
    GUARD_LINE_FIELDS = 6,        /* opcodes allowed, unused fields zero, register in c at most 15, node in c a past node
                                     (9 and 11: or a shared one), set bit 0 or 1? (line) */
    GUARD_LINE_FOLLOWERS = 7,     /* does every line that can follow exist? (line) */
    GUARD_FACTS_BELONG = 8,       /* facts only where they belong? (line) */
    GUARD_FACTS_FIRST = 9,        /* are line 0's facts among the first facts? */
    GUARD_PRESENT_KNOWN = 10,     /* at each present, is the rule known to be true? (line) */
    GUARD_FACTS_FOLLOW = 11,      /* are the facts noted at each following line among those passed on? (the line passing) */
    GUARD_WOVEN_LINES = 12,       /* has the woven script at most 1,024 lines? */
    GUARD_OUTPUT_WORDS = 13,      /* are there enough words in the output, eight for an annotated line, one for a node; of limits enough
                                     bytes, one for an index? */
    GUARD_HISTORY_LENGTH = 14,    /* is the length of the history, or of a list of limits, a multiple of 16? */
    GUARD_NUMBERS_SMALL = 15,     /* are all numbers of the history, of the inputs, or of a list of limits, at most 16,383? (position) */
    GUARD_TEXT_GRAMMAR = 16,      /* is the text one of the grammar? (the first byte that no continuation could follow, or the
                                     length where the text ends too soon) */
    GUARD_TEXT_RANGE = 17,        /* are registers at most 15, numbers at most 16,383? (the first byte of the number) */
    GUARD_TEXT_NODE_COUNT = 18,   /* has the rule that the text stands for at most 32 nodes, in the second form 64? */
    GUARD_PRESENT_LOST = 19,      /* at each present, is the rule known to be true by the largest facts? If not, no facts whatever get
                                     these instructions accepted (line) */
    GUARD_MOVED_NODE_COUNT = 20,  /* has the rule that moves back to the first form at most 32 nodes? */
    GUARD_STATION_COUNT = 21,     /* are four states lent, neither more nor less? */
    GUARD_LIMITS_LENGTH = 22,     /* are there as many lows as highs? */
    GUARD_LIMITS_ORDER = 23,      /* is no low above its high? (position) */
    GUARD_TOO_LARGE = 98,         /* a step: a register in `state` is above 65,535, or state[GUARD_STATE_READY] above 1 */
    GUARD_TOO_SHORT = 99          /* `numbers` or `state` is shorter than the function needs */
};

enum {
    GUARD_REGISTERS = 16,         /* registers of a script, numbers of a state in a history */
    GUARD_LARGEST = 16383,        /* the largest number of a register */
    GUARD_MOST_NODES = 32,
    GUARD_MOST_NODES64 = 64,      /* in the second form */
    GUARD_MOST_LINES = 1024,
    GUARD_LINE_WORDS = 8          /* words of an annotated line */
};

/* Bytes of stack that a call of each function takes at most, its return address included, rounded up to the next 128. What
 * interrupts and signal handlers put on the same stack comes on top. */
enum guard_stack {
    GUARD_STACK_TEXT = 2304,
    GUARD_STACK_RULE = 128,
    GUARD_STACK_BARE = 256,
    GUARD_STACK_SCRIPT = 1024,
    GUARD_STACK_WEAVE = 8704,
    GUARD_STACK_FACTS = 58752,
    GUARD_STACK_JUDGE = 512,
    GUARD_STACK_LIMITS = 512,
    GUARD_STACK_RUN = 1152,
    GUARD_STACK_FRESH = 512,
    GUARD_STACK_STEP = 1024,
    GUARD_STACK_STATIONS = 3072,
    GUARD_STACK_TEXT64 = 2304,
    GUARD_STACK_RULE64 = 128,
    GUARD_STACK_BARE64 = 256,
    GUARD_STACK_SCRIPT64 = 768,
    GUARD_STACK_WEAVE64 = 13056,
    GUARD_STACK_FACTS64 = 58240,
    GUARD_STACK_JUDGE64 = 256,
    GUARD_STACK_LIMITS64 = 256,
    GUARD_STACK_RUN64 = 1024,
    GUARD_STACK_FRESH64 = 256,
    GUARD_STACK_STEP64 = 768,
    GUARD_STACK_STATIONS64 = 2816,
    GUARD_STACK_RULE_UP = 256,
    GUARD_STACK_RULE_BACK = 256,
    GUARD_STACK_SCRIPT_UP = 512,
    GUARD_STACK_SCRIPT_BACK = 256
};

/* In the numbers of every function. */
enum { GUARD_PLACE = 0 };

/* A rule typed as text: questions 16, 17, 18 and 13. Its nodes go to the first words of `out`, operands first, left before right,
 * none shared, and guard_rule lets them pass; later words of `out` stay. The text and its nodes have the same verdict on every history.
 *
 * A text is bytes of ASCII, small letters only; no zero byte ends it. In a text
 *
 *     r1=1  r3<40  true  false                   register 1 equals 1; register 3 is below 40; the constants
 *     not a                                      a is false
 *     prev a  wprev a                            a was true at the last presentation; the same, or this is the first
 *     once a  sofar a                            a is or was true at some presentation; a is and was true at every one
 *     a since b                                  b is or was true, and a has been true ever since
 *     a and b  a or b  a implies b
 *
 * The words before a formula bind tightest, then since, then and, then or, then implies; since, and and or group to the left, implies to
 * the right, and round brackets override. Spaces may stand between words, numbers and signs and at either end, and must between two
 * words; r and its number touch and count as a word. Numbers may have leading zeros.
 *
 *     static const char text[] = "r1=1 since r2=1 and not r3<40";
 *     uint32_t rule[GUARD_MOST_NODES];
 *     uint64_t numbers[GUARD_TEXT_NUMBERS];
 *     uint32_t question = guard_text((const uint8_t *)text, sizeof text - 1, rule, GUARD_MOST_NODES, numbers, GUARD_TEXT_NUMBERS);
 *     if (question == GUARD_YES)
 *         printf("%u nodes\n", (unsigned)numbers[GUARD_TEXT_NODES]);                            prints "11 nodes"
 *     else
 *         printf("refused %u\n%s\n%*s\n", question, text, (int)numbers[GUARD_PLACE] + 1, "^");  a mark under the byte
 */
enum {
    GUARD_TEXT_NODES = 1,         /* how many nodes were written */
    GUARD_TEXT_NUMBERS = 2
};
uint32_t guard_text(const uint8_t *text, size_t text_length, uint32_t *out, size_t out_length,
                    uint64_t *numbers, size_t numbers_length);

/* A rule: questions 1 to 4. */
enum { GUARD_RULE_NUMBERS = 1 /* place */ };
uint32_t guard_rule(const uint32_t *rule, size_t rule_length, uint64_t *numbers, size_t numbers_length);

/* A bare script for a rule: questions 1 to 7. */
enum { GUARD_BARE_NUMBERS = 1 /* place */ };
uint32_t guard_bare(const uint32_t *rule, size_t rule_length, const uint32_t *script, size_t script_length,
                    uint64_t *numbers, size_t numbers_length);

/* An annotated script for a rule: questions 1 to 11. With 0 it is accepted: whatever the inputs, the rule is true at every
 * presentation that it makes. `script_length` counts words, eight for a line. Two scripts with the same instructions that are both
 * accepted for a rule may be put together: of each line the first word, and of each of the other seven the bitwise or. That is
 * accepted too. */
enum { GUARD_SCRIPT_NUMBERS = 1 /* place */ };
uint32_t guard_script(const uint32_t *rule, size_t rule_length, const uint32_t *script, size_t script_length,
                      uint64_t *numbers, size_t numbers_length);

/* Puts a guard for the rule before each present of a bare script: questions 1 to 7, 12 and 13. The annotated script goes to the
 * first 8 x lines words of `out`, and guard_script accepts it; later words of `out` stay. */
enum {
    GUARD_WEAVE_LINES = 1,        /* how many lines were written */
    GUARD_WEAVE_NUMBERS = 2
};
uint32_t guard_weave(const uint32_t *rule, size_t rule_length, const uint32_t *bare, size_t bare_length,
                     uint32_t *out, size_t out_length, uint64_t *numbers, size_t numbers_length);

/* Finds facts for instructions that have none, so that guard_script accepts them: questions 1 to 7, 19 and 13. `instructions` has one
 * word a line, as a bare script, with the opcodes of annotated scripts, 0 to 14. The annotated script goes to the first 8 x lines
 * words of `out`: the instructions, each with the largest facts that the checker accepts there; any other facts that it accepts lie
 * within them. A line that nothing leads to (but the first) gets every fact that belongs, so that T and F of one node may stand
 * together there. Later words of `out` stay.
 *
 * 19 names the lowest present at which the rule is not known to be true by the largest facts; then no facts whatever would get these
 * instructions accepted. It is put before 13, so that an output of no words serves to ask for it.
 *
 * The search has memory of its own on the stack (GUARD_STACK_FACTS): seven sets of 64 nodes for each of 1,024 lines, however few the
 * lines are. */
enum {
    GUARD_FACTS_COUNT = 1,        /* how many facts were written: the ones over the seven sets of each line */
    GUARD_FACTS_NUMBERS = 2
};
uint32_t guard_facts(const uint32_t *rule, size_t rule_length, const uint32_t *instructions, size_t instructions_length,
                     uint32_t *out, size_t out_length, uint64_t *numbers, size_t numbers_length);

/* Looks for the first presentation of a history at which the rule was false: questions 1 to 4, 14 and 15. The offending state is
 * history[16 x index] to history[16 x index + 15]. */
enum {
    GUARD_JUDGE_BREACH = 1,       /* 1 if the rule is false somewhere, else 0 */
    GUARD_JUDGE_INDEX = 2,        /* the lowest such presentation, from 0; 0 where there is none */
    GUARD_JUDGE_STATES = 3,       /* how many presentations the history has, where the rule is true at all of them; else 0 */
    GUARD_JUDGE_NUMBERS = 4
};
uint32_t guard_judge(const uint32_t *rule, size_t rule_length, const uint16_t *history, size_t history_length,
                     uint64_t *numbers, size_t numbers_length);

/* Judges a history whose registers are known only within limits: `lows` has the lowest and `highs` the highest number that each register can
 * have had, 16 for each presentation, in the order of a history. Questions 1 to 4; 14 of `lows`, then of `highs`; 22; 13; 15 of `lows`, then of
 * `highs`; 23. The answer for each presentation goes to the first bytes of `out`, one an index; later bytes of `out` stay.
 *
 * An exact history lies within the limits if it is as long and each of its numbers is at least its low and at most its high. At an index
 *
 *     GUARD_LIMITS_TRUE    says that the rule is true there in every exact history within the limits;
 *     GUARD_LIMITS_FALSE   says that it is false there in every one;
 *     GUARD_LIMITS_OPEN    says neither. Each operand is taken by itself, so that an answer may be open although every exact history has
 *                          the same: of `r1=5 or not r1=5` with register 1 from 4 to 6 both sides are open, and so is the whole.
 *
 * Where every low equals its high no answer is open, and the first index with GUARD_LIMITS_FALSE is the one that guard_judge finds. */
enum guard_limit {
    GUARD_LIMITS_FALSE = 0,
    GUARD_LIMITS_TRUE = 1,
    GUARD_LIMITS_OPEN = 2
};
enum {
    GUARD_LIMITS_INDICES = 1,     /* how many answers were written */
    GUARD_LIMITS_NUMBERS = 2
};
uint32_t guard_limits(const uint32_t *rule, size_t rule_length, const uint16_t *lows, size_t lows_length,
                      const uint16_t *highs, size_t highs_length, uint8_t *out, size_t out_length,
                      uint64_t *numbers, size_t numbers_length);

/* Runs an annotated script from a fresh start: questions 1 to 11, and 15 of the inputs, then steps until something stops it.
 * `history` is memory for the presentations, of any length; presentation n goes to history[16 x n] to history[16 x n + 15], and
 * later numbers stay. What `history` holds before is not looked at. */
enum guard_stop {
    GUARD_REFUSED = 0,            /* it did not run */
    GUARD_HALTED = 1,             /* at a halt */
    GUARD_SPENT = 2,              /* as many steps as `budget` were made */
    GUARD_DRY = 3,                /* at an input when none is left */
    GUARD_FULL = 4                /* at a present with fewer than 16 free numbers in `history` */
};
enum {
    GUARD_RUN_STOP = 1,           /* enum guard_stop */
    GUARD_RUN_LINE = 2,           /* the line where it stopped, from 0 */
    GUARD_RUN_STEPS = 3,          /* how many steps were made */
    GUARD_RUN_PRESENTATIONS = 4,  /* how many presentations */
    GUARD_RUN_INPUTS_READ = 5,    /* how many inputs were read */
    GUARD_RUN_REGISTERS = 6,      /* the 16 registers, numbers[6] to numbers[21] */
    GUARD_RUN_NUMBERS = 22
};
uint32_t guard_run(const uint32_t *rule, size_t rule_length, const uint32_t *script, size_t script_length,
                   const uint16_t *inputs, size_t inputs_length, uint64_t budget,
                   uint16_t *history, size_t history_length, uint64_t *numbers, size_t numbers_length);

/* A machine between two steps, in the caller's memory. Bits of a node: node 0 is the most significant of the 64; bits of a register
 * likewise, register 0 the most significant.
 *
 * state[GUARD_STATE_READY] is 1 if a presentation made now would keep the rule, else 0: the rule at the last index of the history so far
 * with the present registers added, whether the history has space for them or not. It is right at the start and after every step for a rule
 * that passes questions 1 to 4 and a state that guard_fresh wrote for it and that only guard_step, with the same rule and history, has
 * changed since; for any script, accepted or not, woven, by hand or wrong. After a woven block that did not present, and after a present
 * that found the history full, it is what it was before. The three numbers after it are for guard_step, which works it out with them. */
enum {
    GUARD_STATE_LINE = 0,
    GUARD_STATE_PRESENTATIONS = 1,
    GUARD_STATE_INPUTS_READ = 2,
    GUARD_STATE_KEPT = 3,         /* the kept bits of the past nodes */
    GUARD_STATE_WORK = 4,         /* the work bits of the past and the shared nodes */
    GUARD_STATE_REGISTERS = 5,    /* the 16 registers, state[5] to state[20] */
    GUARD_STATE_READY = 21,       /* 1 if a presentation made now would keep the rule, else 0 */
    GUARD_STATE_PRIORS = 22,      /* the priors of the past nodes after the presentations made, whatever the kept bits are */
    GUARD_STATE_NEXT_PRIORS = 23, /* the priors that a presentation made now would leave */
    GUARD_STATE_TESTED = 24,      /* the registers that a test of the rule reads */
    GUARD_STATE_NUMBERS = 25
};

/* Writes the fresh start into the first 25 elements of `state`: line 0, all registers 0, nothing presented or read, the kept bits
 * and the priors of the rule's first 32 nodes as they are at first, all work bits 0, and from these nodes whether a first presentation, with
 * all registers 0, would keep the rule. It puts no question: 0 or GUARD_TOO_SHORT. */
uint32_t guard_fresh(const uint32_t *rule, size_t rule_length, uint64_t *state, size_t state_length);

/* One step of an annotated script, from the machine in `state` to the next, in its place; a presentation goes into `history` as
 * in guard_run. Hands back 0, GUARD_TOO_SHORT or GUARD_TOO_LARGE.
 *
 * It puts no question to the rule and the script, so that a step costs little: ask guard_script once before. The promise about
 * the rule holds for an accepted script, a state that guard_fresh wrote and that only guard_step has changed since, inputs of at
 * most 16,383, and rule, script, inputs, state and history that nothing else writes. `state` and `history` stay as they are at a
 * halt, at an input when none is left, at a present with fewer than 16 free numbers, at a line that is not there, and at an
 * instruction that question 6 would refuse. A register of more than 16,383, which no run has, becomes 16,383 where opcode 3 raises it,
 * and has c less where opcode 14 lowers it.
 *
 * A write of a register that is in state[GUARD_STATE_TESTED] works state[GUARD_STATE_READY] and the next priors out anew, from the
 * registers after it and the priors; a write of another leaves them. A presentation makes the next priors the priors, then works both
 * out anew. No other step changes any of the four. To work them out, the rule's first 32 nodes are gone through once in rising order; of a
 * table that fails a question, an operand that is not lower than its node counts as false, a kind of 7 as false, and a register above 15 as
 * 0. */
uint32_t guard_step(const uint32_t *rule, size_t rule_length, const uint32_t *script, size_t script_length,
                    const uint16_t *inputs, size_t inputs_length, uint16_t *history, size_t history_length,
                    uint64_t *state, size_t state_length);

/* Runs four annotated scripts, one a station, each from a fresh start, with one allowance of presentations between them. Each station has its
 * own rule, script, inputs and history. Question 21 comes first: has `states` GUARD_STATIONS_STATES elements? Then, station by station, 1 to
 * 11, and then, station by station, 15 of the inputs; numbers[GUARD_PLACE] is the lowest station that has a no.
 *
 * Turns go to stations 0, 1, 2, 3, then 0 again, and a turn is one step. A station is passed over, and nothing of it changes, where a run
 * would stop: at a halt, at an input when none is left, at a present with fewer than 16 free numbers in its history; and at a present when
 * nothing is left of the allowance. A present that is made takes one from the allowance. A pass is a turn too. The run ends when as many turns
 * as `budget` were made, or when four successive stations were passed over, for then none of them can ever move.
 *
 * The state of station k goes to states[25 x k] to states[25 x k + 24], in the order of guard_step's, and its presentations into its history as
 * in guard_run. What `states` and the histories hold before is not looked at, so there is no GUARD_TOO_LARGE.
 *
 * Of every run that is not refused it is proved:
 *   - each station's history obeys its own rule, at every presentation;
 *   - a station able to move at its turn moves; at the turn of another it stays as it is; and until the run ends its next turn comes after
 *     three others, so that none is forgotten;
 *   - the presentations of the four plus what is left equal the allowance;
 *   - each state is one that guard_fresh and some number of guard_steps make of the station by itself, ready included: guard_step may go on
 *     from there. */
enum {
    GUARD_STATIONS = 4,
    GUARD_STATIONS_TURNS = 1,     /* how many turns were made, passes included */
    GUARD_STATIONS_LEFT = 2,      /* what is left of the allowance */
    GUARD_STATIONS_NUMBERS = 3,
    GUARD_STATIONS_STATES = 100   /* GUARD_STATIONS x GUARD_STATE_NUMBERS */
};
uint32_t guard_stations(uint64_t *states, size_t states_length, uint64_t budget, uint64_t allowance,
                        const uint32_t *rule0, size_t rule0_length, const uint32_t *rule1, size_t rule1_length,
                        const uint32_t *rule2, size_t rule2_length, const uint32_t *rule3, size_t rule3_length,
                        const uint32_t *script0, size_t script0_length, const uint32_t *script1, size_t script1_length,
                        const uint32_t *script2, size_t script2_length, const uint32_t *script3, size_t script3_length,
                        const uint16_t *inputs0, size_t inputs0_length, const uint16_t *inputs1, size_t inputs1_length,
                        const uint16_t *inputs2, size_t inputs2_length, const uint16_t *inputs3, size_t inputs3_length,
                        uint16_t *history0, size_t history0_length, uint16_t *history1, size_t history1_length,
                        uint16_t *history2, size_t history2_length, uint16_t *history3, size_t history3_length,
                        uint64_t *numbers, size_t numbers_length);

/* What is lent for one station, besides its state. */
struct guard_station {
    const uint32_t *rule;
    size_t rule_length;
    const uint32_t *script;
    size_t script_length;
    const uint16_t *inputs;
    size_t inputs_length;
    uint16_t *history;
    size_t history_length;
};

/* guard_stations with the four in an array, GUARD_STATIONS of them. */
static inline uint32_t guard_stations_of(uint64_t *states, size_t states_length, uint64_t budget, uint64_t allowance,
                                         const struct guard_station *stations, uint64_t *numbers, size_t numbers_length)
{
    const struct guard_station *a = &stations[0], *b = &stations[1], *c = &stations[2], *d = &stations[3];
    return guard_stations(states, states_length, budget, allowance,
                          a->rule, a->rule_length, b->rule, b->rule_length, c->rule, c->rule_length, d->rule, d->rule_length,
                          a->script, a->script_length, b->script, b->script_length,
                          c->script, c->script_length, d->script, d->script_length,
                          a->inputs, a->inputs_length, b->inputs, b->inputs_length,
                          c->inputs, c->inputs_length, d->inputs, d->inputs_length,
                          a->history, a->history_length, b->history, b->history_length,
                          c->history, c->history_length, d->history, d->history_length, numbers, numbers_length);
}

/* The same twelve over the second form: what is said of guard_text holds for guard_text64, and so on, with 64 nodes for 32, and the same
 * GUARD_..._NUMBERS, GUARD_STATE_NUMBERS and GUARD_STATIONS_STATES. The rules and annotated scripts of one call have the same form; a state has
 * none, its sets have a bit for each of 64 nodes in both. */
uint32_t guard_text64(const uint8_t *text, size_t text_length, uint64_t *out, size_t out_length,
                      uint64_t *numbers, size_t numbers_length);
uint32_t guard_rule64(const uint64_t *rule, size_t rule_length, uint64_t *numbers, size_t numbers_length);
uint32_t guard_bare64(const uint64_t *rule, size_t rule_length, const uint32_t *script, size_t script_length,
                      uint64_t *numbers, size_t numbers_length);
uint32_t guard_script64(const uint64_t *rule, size_t rule_length, const uint64_t *script, size_t script_length,
                        uint64_t *numbers, size_t numbers_length);
uint32_t guard_weave64(const uint64_t *rule, size_t rule_length, const uint32_t *bare, size_t bare_length,
                       uint64_t *out, size_t out_length, uint64_t *numbers, size_t numbers_length);
uint32_t guard_facts64(const uint64_t *rule, size_t rule_length, const uint32_t *instructions, size_t instructions_length,
                       uint64_t *out, size_t out_length, uint64_t *numbers, size_t numbers_length);
uint32_t guard_judge64(const uint64_t *rule, size_t rule_length, const uint16_t *history, size_t history_length,
                       uint64_t *numbers, size_t numbers_length);
uint32_t guard_limits64(const uint64_t *rule, size_t rule_length, const uint16_t *lows, size_t lows_length,
                        const uint16_t *highs, size_t highs_length, uint8_t *out, size_t out_length,
                        uint64_t *numbers, size_t numbers_length);
uint32_t guard_run64(const uint64_t *rule, size_t rule_length, const uint64_t *script, size_t script_length,
                     const uint16_t *inputs, size_t inputs_length, uint64_t budget,
                     uint16_t *history, size_t history_length, uint64_t *numbers, size_t numbers_length);
uint32_t guard_fresh64(const uint64_t *rule, size_t rule_length, uint64_t *state, size_t state_length);
uint32_t guard_step64(const uint64_t *rule, size_t rule_length, const uint64_t *script, size_t script_length,
                      const uint16_t *inputs, size_t inputs_length, uint16_t *history, size_t history_length,
                      uint64_t *state, size_t state_length);
uint32_t guard_stations64(uint64_t *states, size_t states_length, uint64_t budget, uint64_t allowance,
                          const uint64_t *rule0, size_t rule0_length, const uint64_t *rule1, size_t rule1_length,
                          const uint64_t *rule2, size_t rule2_length, const uint64_t *rule3, size_t rule3_length,
                          const uint64_t *script0, size_t script0_length, const uint64_t *script1, size_t script1_length,
                          const uint64_t *script2, size_t script2_length, const uint64_t *script3, size_t script3_length,
                          const uint16_t *inputs0, size_t inputs0_length, const uint16_t *inputs1, size_t inputs1_length,
                          const uint16_t *inputs2, size_t inputs2_length, const uint16_t *inputs3, size_t inputs3_length,
                          uint16_t *history0, size_t history0_length, uint16_t *history1, size_t history1_length,
                          uint16_t *history2, size_t history2_length, uint16_t *history3, size_t history3_length,
                          uint64_t *numbers, size_t numbers_length);

struct guard_station64 {
    const uint64_t *rule;
    size_t rule_length;
    const uint64_t *script;
    size_t script_length;
    const uint16_t *inputs;
    size_t inputs_length;
    uint16_t *history;
    size_t history_length;
};

static inline uint32_t guard_stations_of64(uint64_t *states, size_t states_length, uint64_t budget, uint64_t allowance,
                                           const struct guard_station64 *stations, uint64_t *numbers, size_t numbers_length)
{
    const struct guard_station64 *a = &stations[0], *b = &stations[1], *c = &stations[2], *d = &stations[3];
    return guard_stations64(states, states_length, budget, allowance,
                            a->rule, a->rule_length, b->rule, b->rule_length, c->rule, c->rule_length, d->rule, d->rule_length,
                            a->script, a->script_length, b->script, b->script_length,
                            c->script, c->script_length, d->script, d->script_length,
                            a->inputs, a->inputs_length, b->inputs, b->inputs_length,
                            c->inputs, c->inputs_length, d->inputs, d->inputs_length,
                            a->history, a->history_length, b->history, b->history_length,
                            c->history, c->history_length, d->history, d->history_length, numbers, numbers_length);
}

/* The moves, of a rule and of an annotated script: up, from the first form to the second, and back. A rule: questions 1 to 4, back 20, and
 * 13. A script, with its rule in the form that it moves from: 1 to 4, back 20, 5 to 8, and 13; one that 9, 10 or 11 would refuse moves all
 * the same. The words in the other form go to the first words of `out`, as many as there were; later ones stay. What has moved is the
 * same rule or script: every other function answers as before, and what comes back is what it was. */
enum {
    GUARD_MOVE_COUNT = 1,         /* how many nodes, or lines, were written */
    GUARD_MOVE_NUMBERS = 2
};
uint32_t guard_rule_up(const uint32_t *rule, size_t rule_length, uint64_t *out, size_t out_length,
                       uint64_t *numbers, size_t numbers_length);
uint32_t guard_rule_back(const uint64_t *rule, size_t rule_length, uint32_t *out, size_t out_length,
                         uint64_t *numbers, size_t numbers_length);
uint32_t guard_script_up(const uint32_t *rule, size_t rule_length, const uint32_t *script, size_t script_length,
                         uint64_t *out, size_t out_length, uint64_t *numbers, size_t numbers_length);
uint32_t guard_script_back(const uint64_t *rule, size_t rule_length, const uint64_t *script, size_t script_length,
                           uint32_t *out, size_t out_length, uint64_t *numbers, size_t numbers_length);

#ifdef __cplusplus
}
#endif

#endif
