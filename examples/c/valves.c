/* Valves that move in eighths of a turn: two of a drip line, from 0 to 2 turns each. A plan is how far each is open; wanted are little
 * water and an even flow. A session of edition 2 hands out only settings that the valves have, and one of edition 1 leaves bred ones
 * between them. */
#include <math.h>
#include <stdio.h>
#include <stdlib.h>
#include <string.h>

#include "locustdomino.h"

#define SIZE 8
#define GENERATIONS 3
#define PLANS (SIZE * GENERATIONS + 1)

static uint64_t session[LOCUSTDOMINO_SESSION_WORDS], candidates[LOCUSTDOMINO_CANDIDATE_WORDS], plans[LOCUSTDOMINO_MAX_PLANS];
static size_t next_dims[LOCUSTDOMINO_MAX_PLANS];
static uint64_t pool[2 * SIZE * LOCUSTDOMINO_PLAN_WORDS], history[PLANS * LOCUSTDOMINO_PLAN_WORDS];

static uint64_t bits(double x)
{
    uint64_t w;
    memcpy(&w, &x, sizeof w);
    return w;
}

static void must(const char *call, uint64_t code)
{
    if (code != LOCUSTDOMINO_ACCEPTED) {
        fprintf(stderr, "%s: refused %u\n", call, (unsigned)code);
        exit(1);
    }
}

/* Runs a session; how many settings of each generation are eighths of a turn, and how many are not. */
static void run(uint64_t edition)
{
    const uint8_t directions[2] = {0, 0};
    const uint64_t valve[LOCUSTDOMINO_DIMENSION_WORDS] = {LOCUSTDOMINO_FLOAT, bits(0.0), bits(2.0), 0, 1, bits(0.125)};
    int counts[GENERATIONS][2] = {{0}};

    must("open", locustdomino_open(edition, directions, 2, 7, 1, SIZE, 0, 0, 1.0, 30.0, 20.0, 0, 0, session, LOCUSTDOMINO_SESSION_WORDS));
    /* The first plan finds the dimensions and is in no generation. */
    for (size_t number = 0; number < PLANS; number++) {
        uint64_t *plan = history + number * LOCUSTDOMINO_PLAN_WORDS;
        double open[2];
        memset(plan, 0, LOCUSTDOMINO_PLAN_WORDS * sizeof *plan);
        for (size_t d = 0; d < 2; d++) {
            uint64_t kind, value, *setting = plan + LOCUSTDOMINO_PLAN_SETTINGS + 3 * d;
            must("sample", locustdomino_sample(session, LOCUSTDOMINO_SESSION_WORDS, valve, LOCUSTDOMINO_DIMENSION_WORDS, number,
                history, number * LOCUSTDOMINO_PLAN_WORDS, candidates, LOCUSTDOMINO_CANDIDATE_WORDS, plans, LOCUSTDOMINO_MAX_PLANS,
                next_dims, LOCUSTDOMINO_MAX_PLANS, pool, 2 * SIZE * LOCUSTDOMINO_PLAN_WORDS, &kind, &value));
            memcpy(&open[d], &value, sizeof value);
            setting[0] = d;
            setting[1] = kind;
            setting[2] = value;
            if (number > 0)
                counts[(number - 1) / SIZE][open[d] * 8.0 != floor(open[d] * 8.0)]++;
        }
        plan[LOCUSTDOMINO_PLAN_NUMBER] = number;
        plan[LOCUSTDOMINO_PLAN_ROW_LENGTH] = 2;
        plan[LOCUSTDOMINO_PLAN_ROW] = bits(open[0] + open[1]);
        plan[LOCUSTDOMINO_PLAN_ROW + 1] = bits((open[0] - 0.7) * (open[0] - 0.7) + (open[1] - 1.2) * (open[1] - 1.2));
        plan[LOCUSTDOMINO_PLAN_SETTING_COUNT] = 2;
    }
    for (int generation = 0; generation < GENERATIONS; generation++)
        printf("generation %d: %d on the step, %d off it\n", generation, counts[generation][0], counts[generation][1]);
}

int main(void)
{
    printf("edition 1\n");
    run(LOCUSTDOMINO_FIRST_EDITION);
    printf("edition 2\n");
    run(LOCUSTDOMINO_SECOND_EDITION);
    return 0;
}
