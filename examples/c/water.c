/* Prices a kept list: six places are filled from four watering plans, so that some are listed twice, and each is priced by the
 * water company's bands. Every number can be followed by hand, and each row says what put its plan on the list. */
#include <math.h>
#include <stdio.h>
#include <stdlib.h>
#include <string.h>

#include "locustdomino.h"

#define PLANS 4
#define KEPT 6
#define BANDS 3

/* Of each plan its litres in a season, and what it yields (t/ha). */
static const uint64_t LITRES[PLANS] = {5000, 5010, 12345, 20011};
static const double YIELDS[PLANS] = {2.1, 2.3, 3.0, 3.1};

/* Litres 1 to 5,000 at 20 hundredths of a cent, to 20,000 at 35, all above at 60. */
static const uint64_t PRICES[BANDS * LOCUSTDOMINO_BAND_WORDS] = {5000, 20, 20000, 35, 0, 60};

/* What put a plan on the kept list, by its mark. */
static const char *const RULES[] = {
    [LOCUSTDOMINO_RULE_WHOLE_FRONT] = "whole front",
    [LOCUSTDOMINO_RULE_NEAREST] = "nearest on an empty line",
    [LOCUSTDOMINO_RULE_DRAWN] = "drawn on a line with plans",
    [LOCUSTDOMINO_RULE_PADDING] = "padding",
};

static void must(const char *call, uint64_t code)
{
    if (code != LOCUSTDOMINO_ACCEPTED) {
        fprintf(stderr, "%s: refused %u\n", call, (unsigned)code);
        exit(1);
    }
}

static uint64_t bits(double x)
{
    uint64_t w;
    memcpy(&w, &x, sizeof w);
    return w;
}

static uint64_t least(uint64_t a, uint64_t b)
{
    return a < b ? a : b;
}

/* The plans to keep: little water and a high yield are wanted. */
static void select_plans(size_t *kept, uint8_t *rules)
{
    static uint64_t pool[PLANS * LOCUSTDOMINO_PLAN_WORDS];
    const uint8_t directions[2] = {0, 1};
    size_t fronts[PLANS], lines[PLANS];
    double ideal[2] = {INFINITY, INFINITY};
    uint64_t state = 7;

    for (size_t k = 0; k < PLANS; k++) {
        uint64_t *plan = pool + k * LOCUSTDOMINO_PLAN_WORDS;
        plan[LOCUSTDOMINO_PLAN_NUMBER] = k;
        plan[LOCUSTDOMINO_PLAN_ROW_LENGTH] = 2;
        plan[LOCUSTDOMINO_PLAN_ROW] = bits((double)LITRES[k]);
        plan[LOCUSTDOMINO_PLAN_ROW + 1] = bits(YIELDS[k]);
    }
    must("select", locustdomino_select(
        LOCUSTDOMINO_SECOND_EDITION, pool, PLANS * LOCUSTDOMINO_PLAN_WORDS, directions, 2, 3, KEPT, &state, ideal, 2, kept, KEPT, rules,
        KEPT, fronts, PLANS, lines, PLANS));
}

int main(void)
{
    size_t kept[KEPT];
    uint8_t rules[KEPT];
    uint64_t costs[KEPT], total;

    select_plans(kept, rules);
    must("price_water", locustdomino_price_water(LITRES, PLANS, PRICES, BANDS * LOCUSTDOMINO_BAND_WORDS, kept, KEPT, costs, KEPT, &total));
    printf("plan  litres  at %-6u  at %-6u  at %-6u  hundredths  EUR    kept as\n", (unsigned)PRICES[1], (unsigned)PRICES[3], (unsigned)PRICES[5]);
    for (size_t k = 0; k < KEPT; k++) {
        uint64_t litres = LITRES[kept[k]];
        uint64_t a = least(litres, PRICES[0]), b = least(litres, PRICES[2]) - a, c = litres - a - b;
        uint64_t hundredths = a * PRICES[1] + b * PRICES[3] + c * PRICES[5];
        printf("%-4u  %-6u  %-9u  %-9u  %-9u  %-10u  %u.%02u  %s\n", (unsigned)kept[k], (unsigned)litres, (unsigned)a, (unsigned)b,
            (unsigned)c, (unsigned)hundredths, (unsigned)(costs[k] / 100), (unsigned)(costs[k] % 100), RULES[rules[k]]);
    }
    printf("total %u.%02u\n", (unsigned)(total / 100), (unsigned)(total % 100));
    return 0;
}
