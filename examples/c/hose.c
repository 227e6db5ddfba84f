/* A burst hose: seven watering plans, of which the last is short of pressure at the far end of the block. Three are kept, by each
 * edition, once with its own readings and once with those of a burst hose. In edition 1 these stretch the scale for all the others; in
 * edition 2 they change nothing. */
#include <math.h>
#include <stdio.h>
#include <stdlib.h>
#include <string.h>

#include "locustdomino.h"

#define PLANS 7
#define KEPT 3

/* Litres a tree and day, how much of the soil is dry (%), and by how many bar the pressure is short; below 0 there is some to spare. */
struct readings {
    double litres, dry, bar_short;
};

static const struct readings READINGS[PLANS] = {
    {10.0, 6.0, -0.4}, {12.0, 4.5, -0.4}, {15.0, 3.2, -0.3}, {20.0, 2.1, -0.2}, {28.0, 1.4, -0.2}, {40.0, 1.0, -0.1}, {22.0, 2.5, 0.3},
};

/* What the last plan's meter and probe read when its hose has burst. */
static const struct readings BURST = {9000.0, -40.0, 0.3};

static uint64_t bits(double x)
{
    uint64_t w;
    memcpy(&w, &x, sizeof w);
    return w;
}

static void row(const struct readings *r, unsigned plan)
{
    printf("%-4u  %-6.1f  %-5.1f  %.1f\n", plan, r->litres, r->dry, r->bar_short);
}

/* Keeps three plans, with these readings of the last one. */
static void keep(unsigned edition, const char *hose, const struct readings *last)
{
    static uint64_t pool[PLANS * LOCUSTDOMINO_PLAN_WORDS];
    const uint8_t directions[2] = {0, 0};
    size_t kept[KEPT], fronts[PLANS], lines[PLANS];
    uint8_t rules[KEPT];
    double ideal[2] = {INFINITY, INFINITY};
    uint64_t state = 1;

    for (size_t k = 0; k < PLANS; k++) {
        const struct readings *r = k == PLANS - 1 ? last : &READINGS[k];
        uint64_t *plan = pool + k * LOCUSTDOMINO_PLAN_WORDS;
        plan[LOCUSTDOMINO_PLAN_NUMBER] = k;
        plan[LOCUSTDOMINO_PLAN_ROW_LENGTH] = 2;
        plan[LOCUSTDOMINO_PLAN_ROW] = bits(r->litres);
        plan[LOCUSTDOMINO_PLAN_ROW + 1] = bits(r->dry);
        plan[LOCUSTDOMINO_PLAN_CONSTRAINT_COUNT] = 1;
        plan[LOCUSTDOMINO_PLAN_CONSTRAINTS] = bits(r->bar_short);
    }
    uint64_t code = locustdomino_select(
        edition, pool, PLANS * LOCUSTDOMINO_PLAN_WORDS, directions, 2, 2, KEPT, &state, ideal, 2, kept, KEPT, rules, KEPT, fronts, PLANS,
        lines, PLANS);
    if (code != LOCUSTDOMINO_ACCEPTED) {
        fprintf(stderr, "select: refused %u\n", (unsigned)code);
        exit(1);
    }
    printf("%-7u  %-5s ", edition, hose);
    for (size_t k = 0; k < KEPT; k++)
        printf(" %u", (unsigned)kept[k]);
    printf(" ");
    for (size_t k = 0; k < PLANS; k++) {
        if (lines[k] == LOCUSTDOMINO_NO_LINE)
            printf(" -");
        else
            printf(" %u", (unsigned)lines[k]);
    }
    printf("\n");
}

int main(void)
{
    printf("plan  litres  dry %%  bar short\n");
    for (unsigned k = 0; k < PLANS; k++)
        row(&READINGS[k], k);
    printf("with a burst hose\n");
    row(&BURST, PLANS - 1);
    printf("\nedition  hose   kept   line of each plan\n");
    for (unsigned edition = LOCUSTDOMINO_FIRST_EDITION; edition <= LOCUSTDOMINO_SECOND_EDITION; edition++) {
        keep(edition, "whole", &READINGS[PLANS - 1]);
        keep(edition, "burst", &BURST);
    }
    return 0;
}
