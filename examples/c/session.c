/* A whole session: a drip plan for an orchard block, whose rows are 4 m apart and whose drip lines are 120 m long. A plan is a
 * distance between emitters, the hours of a watering (three a week) and one of three valves. Wanted are little water, a high yield
 * and a low cost; the pressure at a line's far end has to do. Some generations are asked for and tried, in edition 2: the plans kept
 * wait and are selected from again beside their children. Those that wait at the end are told, and of all plans tried the best are
 * kept, each with its reference line and what put it on the list. */
#include <math.h>
#include <stdbool.h>
#include <stdio.h>
#include <stdlib.h>
#include <string.h>

#include "locustdomino.h"

#define SIZE 24
#define GENERATIONS 8
#define KEPT 8
#define FAULTY 7 /* the plan whose first trial gives no readings */
#define DIMENSIONS 3
#define PLANS (SIZE * GENERATIONS + 1)
#define NEEDED 10.0 /* the pressure that an emitter needs, m of water */

/* The pressure that each valve leaves at a line's head (m), and its cost (EUR/ha in a year). */
static const double VALVES[3][2] = {{12.0, 40.0}, {16.0, 55.0}, {22.0, 80.0}};

/* What put a plan on the kept list, by its mark. */
static const char *const RULES[] = {
    [LOCUSTDOMINO_RULE_WHOLE_FRONT] = "whole front",
    [LOCUSTDOMINO_RULE_NEAREST] = "nearest on an empty line",
    [LOCUSTDOMINO_RULE_DRAWN] = "drawn on a line with plans",
    [LOCUSTDOMINO_RULE_PADDING] = "padding",
};

static uint64_t history[PLANS * LOCUSTDOMINO_PLAN_WORDS];

/* The plans bred from, twice the size; those that wait stand in front. */
static uint64_t pool[2 * SIZE * LOCUSTDOMINO_PLAN_WORDS];

static uint64_t *plan_at(size_t k)
{
    return history + k * LOCUSTDOMINO_PLAN_WORDS;
}

static uint64_t bits(double x)
{
    uint64_t w;
    memcpy(&w, &x, sizeof w);
    return w;
}

static double real(uint64_t w)
{
    double x;
    memcpy(&x, &w, sizeof x);
    return x;
}

static uint64_t word_of_int(int64_t n)
{
    return n < 0 ? 2 * ~(uint64_t)n + 1 : 2 * (uint64_t)n;
}

static int64_t int_of_word(uint64_t w)
{
    return w % 2 ? -(int64_t)(w / 2) - 1 : (int64_t)(w / 2);
}

static void must(const char *call, uint64_t code)
{
    if (code != LOCUSTDOMINO_ACCEPTED) {
        fprintf(stderr, "%s: refused %u\n", call, (unsigned)code);
        exit(1);
    }
}

struct settings {
    double spacing, hours;
    const double *valve;
};

static struct settings settings(const uint64_t *plan)
{
    const uint64_t *s = plan + LOCUSTDOMINO_PLAN_SETTINGS;
    return (struct settings){real(s[2]), (double)int_of_word(s[5]), VALVES[s[8]]};
}

/* Tries a plan: its row and constraint, with NaN where there were no readings. */
static void try_plan(uint64_t *plan, bool read)
{
    struct settings s = settings(plan);
    /* An emitter's flow (l/h), and the share of 480 l/h that the line carries; with 480 it loses 3.3 m. */
    double flow = 1.6 * sqrt(s.valve[0] / 10.0);
    double share = flow * (120.0 / s.spacing) / 480.0;
    double shortage = NEEDED - (s.valve[0] - 3.3 * share * share);
    /* What a week's waterings bring (mm), and what of it the trees get: with 14 of rain, 36 are enough. */
    double depth = 3.0 * s.hours * flow / (4.0 * s.spacing);
    double useful = depth * (1.0 - 0.02 * s.hours) * (1.0 - 0.15 * (s.spacing - 0.3));
    double lack = fmax(1.0 - (14.0 + useful) / 36.0, 0.0);
    double water = 10.0 * depth;
    double cost = 2500.0 / s.spacing * 0.04 + s.valve[1] + 24.0 * water * s.valve[0] * 0.0009;
    plan[LOCUSTDOMINO_PLAN_ROW_LENGTH] = 3;
    plan[LOCUSTDOMINO_PLAN_ROW] = bits(water);
    plan[LOCUSTDOMINO_PLAN_ROW + 1] = bits(read ? 3.0 * (1.0 - 0.9 * lack) : NAN);
    plan[LOCUSTDOMINO_PLAN_ROW + 2] = bits(cost);
    plan[LOCUSTDOMINO_PLAN_CONSTRAINT_COUNT] = 1;
    plan[LOCUSTDOMINO_PLAN_CONSTRAINTS] = bits(shortage);
}

/* A plan's next setting; plans before this one have been tried. */
static uint64_t sample(uint64_t *session, const uint64_t *dimension, uint64_t number, uint64_t *setting)
{
    static uint64_t candidates[LOCUSTDOMINO_CANDIDATE_WORDS];
    static uint64_t plans[LOCUSTDOMINO_MAX_PLANS];
    static size_t next_dims[LOCUSTDOMINO_MAX_PLANS];
    return locustdomino_sample(
        session, LOCUSTDOMINO_SESSION_WORDS, dimension, LOCUSTDOMINO_DIMENSION_WORDS, number, history, number * LOCUSTDOMINO_PLAN_WORDS,
        candidates, LOCUSTDOMINO_CANDIDATE_WORDS, plans, LOCUSTDOMINO_MAX_PLANS, next_dims, LOCUSTDOMINO_MAX_PLANS,
        pool, sizeof pool / sizeof pool[0], &setting[1], &setting[2]);
}

/* Tells who waits. One that waits is new where it is of the generation that was bred from last. */
static void tell_waiting(const uint64_t *session)
{
    size_t waiting = session[LOCUSTDOMINO_SESSION_WAITING], new = 0;
    for (size_t k = 0; k < waiting; k++)
        new += pool[k * LOCUSTDOMINO_PLAN_WORDS + LOCUSTDOMINO_PLAN_NUMBER] > SIZE * (GENERATIONS - 2);
    printf("after %d generations %zu plans wait, %zu of them new:\n", GENERATIONS - 1, waiting, new);
    for (size_t k = 0; k < waiting; k++)
        printf(" %u", (unsigned)pool[k * LOCUSTDOMINO_PLAN_WORDS + LOCUSTDOMINO_PLAN_NUMBER]);
    printf("\n");
}

/* Tries the generations' plans. */
static void generations(const uint8_t *directions)
{
    static uint64_t session[LOCUSTDOMINO_SESSION_WORDS];
    const uint64_t dimensions[DIMENSIONS][LOCUSTDOMINO_DIMENSION_WORDS] = {
        {LOCUSTDOMINO_FLOAT, bits(0.3), bits(1.2), 0, 0, 0},
        {LOCUSTDOMINO_INT, word_of_int(2), word_of_int(12), 0, 0, 0},
        {LOCUSTDOMINO_CATEGORICAL, 3, 0, 0, 0, 0},
    };
    must("open", locustdomino_open(
        LOCUSTDOMINO_SECOND_EDITION, directions, 3, 7, 1, SIZE, 0, 0, 1.0, 30.0, 20.0, 0, 0, session, LOCUSTDOMINO_SESSION_WORDS));
    /* One plan more than the generations: the first plan finds the dimensions and is in no generation. */
    for (uint64_t number = 0; number < PLANS; number++) {
        uint64_t *plan = plan_at(number);
        plan[LOCUSTDOMINO_PLAN_NUMBER] = number;
        plan[LOCUSTDOMINO_PLAN_SETTING_COUNT] = DIMENSIONS;
        for (size_t d = 0; d < DIMENSIONS; d++) {
            uint64_t *setting = plan + LOCUSTDOMINO_PLAN_SETTINGS + 3 * d;
            setting[0] = d;
            uint64_t code = sample(session, dimensions[d], number, setting);
            /* A refused call changes nothing: it is made again when the record is mended. */
            if (code == LOCUSTDOMINO_BAD_PLAN) {
                printf("plan %u: refused %u, plan %d is tried again\n", (unsigned)number, (unsigned)code, FAULTY);
                try_plan(plan_at(FAULTY), true);
                code = sample(session, dimensions[d], number, setting);
            }
            must("sample", code);
        }
        try_plan(plan, number != FAULTY);
    }
    tell_waiting(session);
}

int main(void)
{
    const uint8_t directions[3] = {0, 1, 0};
    size_t kept[KEPT], fronts[PLANS], lines[PLANS], first = 0;
    uint8_t rules[KEPT];
    double ideal[3] = {INFINITY, INFINITY, INFINITY};
    uint64_t state = 7;

    generations(directions);
    must("select", locustdomino_select(
        LOCUSTDOMINO_SECOND_EDITION, history, PLANS * LOCUSTDOMINO_PLAN_WORDS, directions, 3, 3, KEPT, &state, ideal, 3, kept, KEPT,
        rules, KEPT, fronts, PLANS, lines, PLANS));
    for (size_t k = 0; k < PLANS; k++)
        first += fronts[k] == 0;
    printf("%d plans tried, %zu of them dominated by none, %d kept\n", PLANS, first, KEPT);
    printf("plan  spacing  hours  valve  water  yield  cost    far end  ref. line  kept as\n");
    printf("      m               m      m3/ha  t/ha   EUR/ha  m\n");
    for (size_t k = 0; k < KEPT; k++) {
        const uint64_t *plan = plan_at(kept[k]), *row = plan + LOCUSTDOMINO_PLAN_ROW;
        struct settings s = settings(plan);
        char line[24] = "-";
        if (lines[kept[k]] != LOCUSTDOMINO_NO_LINE)
            snprintf(line, sizeof line, "%zu", lines[kept[k]]);
        printf("%-4u  %-7.2f  %-5.0f  %-5.0f  %-5.0f  %-5.2f  %-6.0f  %-7.1f  %-9s  %s\n", (unsigned)plan[LOCUSTDOMINO_PLAN_NUMBER],
            s.spacing, s.hours, s.valve[0], real(row[0]), real(row[1]), real(row[2]), NEEDED - real(plan[LOCUSTDOMINO_PLAN_CONSTRAINTS]),
            line, RULES[rules[k]]);
    }
    return 0;
}
