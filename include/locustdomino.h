/* Locustdomino: which plans of a pool to keep (NSGA-III), the next plans to try, sessions that ask for settings one by one, and
 * what the water of the plans kept costs, and trial loads.
 *
 * Link with the archive that `wrapper/staticlib` writes. Each call is proved to do what its definition says
 * (crates/model/specs/Calls.antt, Water.antt, Load.antt and Convert.antt). A slice is a pointer and a number of entries. size_t must have 64 bits.
 *
 * What every call asks of its caller:
 *   - a pointer is aligned and points to as many entries as its length says, and is not null, also where that length is 0;
 *   - what is lent for writing overlaps nothing else that is passed;
 *   - about 2 MB of stack are free. Measured on x86-64: locustdomino_sample 1.72 MB where it breeds and 0.88 elsewhere,
 *     locustdomino_choose 1.45, locustdomino_generate_offspring 0.85, locustdomino_select 0.58. The pages are touched one by one,
 *     so that a call with too little left meets the stack's guard page, where there is one.
 * What every call answers: LOCUSTDOMINO_ACCEPTED where no refusal applies, and else the number of the first that does, which is
 * never 0. A refused call writes nothing, and leaves the generator where it was.
 *
 * A real as a word is its 64 IEEE bits; every NaN is one. An Int n as a word is 2n from zero up and -2n - 1 below. */
#ifndef LOCUSTDOMINO_H
#define LOCUSTDOMINO_H

#include <stddef.h>
#include <stdint.h>

/* An array of a negative length where size_t has not 64 bits. */
typedef char locustdomino_size_t_has_64_bits[sizeof(size_t) == sizeof(uint64_t) ? 1 : -1];

#ifdef __cplusplus
extern "C" {
#endif

enum {
    LOCUSTDOMINO_ACCEPTED = 0,
    LOCUSTDOMINO_BAD_FORM = 1,       /* a pool file's form is broken (one that opens with 64 meets 17 instead), or that of a trial
                                        load's seven numbers */
    LOCUSTDOMINO_BAD_DIRECTIONS = 2, /* objectives are not 1 to 8, or a direction is neither 0 nor 1 */
    LOCUSTDOMINO_BAD_SIZE = 3,       /* a session's size is above 1,024; another's is 0 or above 1,024 */
    LOCUSTDOMINO_BAD_DIVISIONS = 4,  /* divisions are not 1 to 199, or there would be over 1,024 lines */
    LOCUSTDOMINO_BAD_OPERATORS = 5,  /* an eta is no whole number 0 to 99, or the probability is not within 0..1 */
    LOCUSTDOMINO_BAD_DIMENSION = 6,  /* a dimension is not valid, is one over LOCUSTDOMINO_MAX_DIMENSIONS, or is to be added and
                                        has fewer than six words */
    LOCUSTDOMINO_BAD_COUNT = 7,      /* a pool is empty, or above 1,024 plans in edition 1 and LOCUSTDOMINO_MAX_POOL in edition 2, or a
                                        history is above 4,096 */
    LOCUSTDOMINO_BAD_PLAN = 8,       /* a plan's row, constraints or the ideal: a wrong length, a NaN, or beyond 2^1000 (but the
                                        ideal's plus infinity, which passes) */
    LOCUSTDOMINO_BAD_PARENT = 9,     /* a plan to be bred from has settings that do not fit its dimensions */
    LOCUSTDOMINO_NO_ROOM = 10,       /* a lent slice is shorter than the call's full answer */
    LOCUSTDOMINO_FULL = 11,          /* a new plan number, and the generation has 2,048 plans */
    LOCUSTDOMINO_BAD_STEP = 12,      /* a Float's step is not finite, not above 0, or (high - low) / step is above 2^53; looked at right
                                        after 6 */
    LOCUSTDOMINO_BAD_LOAD = 13,      /* a trial load's counts would meet 2, 3, 4, 7 or 8 in locustdomino_choose, or its file would be
                                        over 65,536 bytes */
    LOCUSTDOMINO_BAD_WINDOW = 14,    /* a window is given and is not 1 to LOCUSTDOMINO_MAX_WINDOW generations: looked at right after 5 */
    LOCUSTDOMINO_BAD_BANDS = 15,     /* no bands, over 16, upper litres not strictly rising, or a price above 1,000,000 */
    LOCUSTDOMINO_BAD_LITRES = 16,    /* a kept list over 1,024 long, a plan in it without litres, or any litres above 1,000,000,000 */
    LOCUSTDOMINO_BAD_SECOND_FORM = 17, /* a pool file of the second edition, which opens with 64, breaks its form */
    LOCUSTDOMINO_NOT_HELD = 18       /* a pool file that the first edition cannot hold, or whose conversion would be over 65,536 bytes */
};

/* The editions of selection, generation step and session. Edition 1 is the Rust that this library is carried over from, edition 2 the
 * algorithm as it was published. Who begins opens edition 2. They part in
 *   the pool: in edition 1 a session selects from the children alone, in edition 2 from parents and children together: the plans kept
 *     wait for the next generation, so that a good plan stays where its children are worse;
 *   tournaments: in edition 1 the better row wins, in edition 2 a plan that keeps its constraints against one that breaks them;
 *   the scale: edition 1 divides by the greatest value less the ideal, edition 2 by the intercepts of the plane through the extreme
 *     plans, and by edition 1's where that plane does not serve;
 *   distances: edition 2 compares their squares, of which edition 1 takes the roots, so that row order decides between equally near
 *     plans only;
 *   infeasible plans: in edition 2, where every plan of the split front is feasible, the feasible plans alone make the scale (ideal,
 *     greatest values, extremes), so that absurd readings of the others stretch nothing, and the others have no line.
 * ANY OTHER NUMBER MEANS EDITION 1. */
#define LOCUSTDOMINO_FIRST_EDITION 1
#define LOCUSTDOMINO_SECOND_EDITION 2

/* The most plans of a pool in edition 2; in edition 1 they are 1,024. A size is at most 1,024 in both. */
#define LOCUSTDOMINO_MAX_POOL 2048

/* A plan is LOCUSTDOMINO_PLAN_WORDS words. Pools and histories are plans one after the other; words after the last whole plan
 * are not looked at.
 *   0 number · 1 row length · 2.. 8 values · 10 constraint count · 11.. 16 constraints · 27 setting count ·
 *   28.. LOCUSTDOMINO_MAX_SETTINGS settings of three words: parameter number, kind, value
 * What stands past a count is not looked at.
 * A plan that is bred from has its settings sorted by parameter number and matched to the dimensions by position. So parameter
 * numbers must rise in the order of the dimensions: of a session, the order in which its first plan asked for them. A plan with
 * other numbers meets 9 where a kind or a bound does not fit, and else is bred from with its settings exchanged. Where a plan
 * lacks settings, whichever they are, those of the last dimensions are drawn. */
#define LOCUSTDOMINO_MAX_SETTINGS 24
#define LOCUSTDOMINO_PLAN_NUMBER 0
#define LOCUSTDOMINO_PLAN_ROW_LENGTH 1
#define LOCUSTDOMINO_PLAN_ROW 2
#define LOCUSTDOMINO_PLAN_CONSTRAINT_COUNT 10
#define LOCUSTDOMINO_PLAN_CONSTRAINTS 11
#define LOCUSTDOMINO_PLAN_SETTING_COUNT 27
#define LOCUSTDOMINO_PLAN_SETTINGS 28
#define LOCUSTDOMINO_PLAN_WORDS (LOCUSTDOMINO_PLAN_SETTINGS + 3 * LOCUSTDOMINO_MAX_SETTINGS)

/* The kinds of settings and dimensions. A Categorical's value is its choice's number. */
#define LOCUSTDOMINO_FLOAT 0
#define LOCUSTDOMINO_INT 1
#define LOCUSTDOMINO_CATEGORICAL 2

/* A dimension is six words: kind, low (a Categorical: its number of choices), high, log scale, whether there is a step, step (a
 * Float's as its bits, an Int's as a setting's). A mark of 0 is no and any other yes. A kind other than 0 and 1 is Categorical.
 * A Float with a step is drawn as low + k * step, k from 0 to the floor of (high - low) / step, held within low..high: a valve of 0 to 2
 * turns in eighths has the step 0.125. A bred child's is moved to its nearest such value in edition 2; edition 1 leaves it where
 * crossover and mutation put it. A plan's setting may lie off the step. */
#define LOCUSTDOMINO_DIMENSION_WORDS 6

/* "No line": where a selection splits no front, and in edition 2 of an infeasible plan where the split front is feasible. */
#define LOCUSTDOMINO_NO_LINE SIZE_MAX

/* Sizes of what is lent with a session: 35 words of its own and those of its dimensions; a word for each setting of the plans of a
 * generation; and the words of the plans bred from, size many in edition 1 and twice as many in edition 2, of which
 * LOCUSTDOMINO_MAX_POOL are always enough. With a window the pool's slice has to hold, behind these, the least values of the window's
 * generations but one, a word an objective. Its words and its four slices are not to be changed by the caller; all five together may
 * be stored and brought back. */
#define LOCUSTDOMINO_MAX_DIMENSIONS LOCUSTDOMINO_MAX_SETTINGS
#define LOCUSTDOMINO_SESSION_WORDS (35 + LOCUSTDOMINO_DIMENSION_WORDS * LOCUSTDOMINO_MAX_DIMENSIONS)
#define LOCUSTDOMINO_MAX_PLANS 2048
#define LOCUSTDOMINO_CANDIDATE_WORDS (LOCUSTDOMINO_MAX_PLANS * LOCUSTDOMINO_MAX_DIMENSIONS)
#define LOCUSTDOMINO_MAX_HISTORY 4096
#define LOCUSTDOMINO_MAX_WINDOW 64
#define LOCUSTDOMINO_WINDOW_WORDS(window, objectives) (((window) - 1) * (objectives))

/* What may be read of a session's words: how many plans a generation has, how many plans wait, and from the last place on the ideal, the
 * bits of a double an objective. The plans that wait stand at the front of the pool's slice, in the kept list's order. In edition 1
 * none waits; in edition 2 none before the first breeding, and from then on as many as a generation has. In the ideal the values of
 * maximised objectives are negated, and it is plus infinity before the first breeding. */
#define LOCUSTDOMINO_SESSION_SIZE 10
#define LOCUSTDOMINO_SESSION_WAITING 24
#define LOCUSTDOMINO_SESSION_IDEAL 27

/* What put a plan on the kept list: its front was listed whole; it was the nearest on a reference line that had no plan yet; it was
 * drawn among those of a line that had one; or the pool had no plan left, and it was drawn to fill the list. */
#define LOCUSTDOMINO_RULE_WHOLE_FRONT 0
#define LOCUSTDOMINO_RULE_NEAREST 1
#define LOCUSTDOMINO_RULE_DRAWN 2
#define LOCUSTDOMINO_RULE_PADDING 3

/* The plans to keep: `kept` gets `size` places in the pool and `rules` what put each of them there, `fronts` each plan's front and
 * `lines` each plan's reference line.
 * `state` is the generator's and moves on. `ideal` has as many entries as there are objectives: the least values met so far, as
 * minimised, and plus infinity where none was met, so at the start; it moves on where a front is split.
 * The pool is taken as it is, with no look at plan numbers; parents and children in one pool are for the caller to put there.
 * Refusals: 2, 3, 4, 7, 8, 10. */
uint64_t locustdomino_select(
    uint64_t edition,
    const uint64_t *pool, size_t pool_words,
    const uint8_t *directions, size_t objectives, /* 0 minimise, 1 maximise */
    size_t divisions, size_t size,
    uint64_t *state,
    double *ideal, size_t ideal_length,
    size_t *kept, size_t kept_length,
    uint8_t *rules, size_t rules_length,
    size_t *fronts, size_t fronts_length,
    size_t *lines, size_t lines_length);

/* A generation step: selects, breeds from what is kept and writes the settings of `size` new plans to `offspring`, plan after
 * plan, a word a setting, of the kind of its dimension. `dimensions` has six words a dimension; words after the last whole one are
 * not looked at. `n_kept` gets the length of the kept list: the size; or 0 for a pool of one plan, whose step selects nothing,
 * leaves the ideal alone and writes neither kept, rules, fronts nor lines. Refusals: 2 to 10, and 12 right after 6. */
uint64_t locustdomino_generate_offspring(
    uint64_t edition,
    const uint64_t *pool, size_t pool_words,
    const uint8_t *directions, size_t objectives,
    size_t divisions, size_t size,
    uint64_t *state,
    const uint64_t *dimensions, size_t dimension_words,
    double crossover_prob, double crossover_eta, double mutation_eta,
    double *ideal, size_t ideal_length,
    size_t *kept, size_t kept_length,
    uint8_t *rules, size_t rules_length,
    size_t *fronts, size_t fronts_length,
    size_t *lines, size_t lines_length,
    uint64_t *offspring, size_t offspring_words,
    size_t *n_kept);

/* Opens a session of an edition: its LOCUSTDOMINO_SESSION_WORDS words go to `session`, and a shorter slice meets 10 where no lower number
 * applies. A size, divisions and a window count where their mark is not 0: a window of 0 generations that counts meets 14.
 * With a window of so many generations the ideal is the least over the pools of the last so many, the present one included, whether
 * they split a front or not, and what came before is forgotten. Without one it is the least over all pools that split a front.
 * Refusals: 2, 3, 4, 5, 14, 10. */
uint64_t locustdomino_open(
    uint64_t edition,
    const uint8_t *directions, size_t objectives,
    uint64_t seed,
    uint8_t has_size, size_t size,
    uint8_t has_divisions, size_t divisions,
    double crossover_prob, double crossover_eta, double mutation_eta,
    uint8_t has_window, size_t window,
    uint64_t *session, size_t session_words);

/* The next setting of plan `plan`. Its kind goes to `kind` and its word to `value`. While the first plan asks, each call adds
 * `dimension` to the session: six words, of which fewer meet 6 and more are not looked at. Afterwards the dimension is ignored, and
 * may have no words. `history` has the plans that were tried, with their values; once it has the first size plans of the present
 * generation, the next is bred.
 * In edition 1 it is bred from these plans alone, as history has them. In edition 2 the plans that wait come first, in the kept
 * list's order, and then these, but for those whose number a waiting plan has: they have to stand in history and are left out. The
 * plans kept wait afterwards, each as history had it when it came into the pool: a later record of its number changes nothing. 8
 * and 9 look at all plans of that pool, kept or not, and at no other. A waiting plan is no plan of the generation: a call with its
 * number opens a new one.
 * `candidates`, `plans`, `next_dims` and `pool` are lent with every call and are the session's: LOCUSTDOMINO_CANDIDATE_WORDS entries
 * at least, LOCUSTDOMINO_MAX_PLANS for each of the next two, and LOCUSTDOMINO_PLAN_WORDS for each plan bred from: size plans in
 * edition 1, twice as many in edition 2, and with a window LOCUSTDOMINO_WINDOW_WORDS more. A shorter one meets 10.
 * ASKED of the caller, and not checked: the session's words are as an accepted locustdomino_open or the last locustdomino_sample
 * left them, with the same four slices as that call left them (after opening the four may hold anything). Words or slices that
 * were changed may have any effect. A session slice of fewer than LOCUSTDOMINO_SESSION_WORDS words meets 7 where the history is
 * above 4,096, and else 10: nothing else can be told without the session.
 * Refusals: 6 to 12, 12 right after 6. */
uint64_t locustdomino_sample(
    uint64_t *session, size_t session_words,
    const uint64_t *dimension, size_t dimension_words,
    uint64_t plan,
    const uint64_t *history, size_t history_words,
    uint64_t *candidates, size_t candidate_words,
    uint64_t *plans, size_t plans_length,
    size_t *next_dims, size_t next_dims_length,
    uint64_t *pool, size_t pool_length,
    uint64_t *kind, uint64_t *value);

/* The listing for a pool file of either edition; `length` gets its length, at most 20,501 bytes. Of a file of the second edition, which
 * opens with 64, the plans' numbers and settings are passed over. The selection is edition 1's for both. Refusals: 1, 17, 2, 3, 4, 7,
 * 8, 10. */
uint64_t locustdomino_choose(
    const uint8_t *file, size_t file_length,
    uint8_t *out, size_t out_length,
    size_t *length);

/* A band of the water company's prices is two words: its upper litre, itself included, and its price per litre in hundredths of a
 * cent. The last band is open: its upper litre is not looked at. A word after the last whole band is not looked at either. */
#define LOCUSTDOMINO_BAND_WORDS 2
#define LOCUSTDOMINO_MAX_BANDS 16

/* What the water of the plans kept costs: `costs` gets each one's cost in cents, in the kept list's order, and `total` their sum,
 * in which a plan counts as often as it is listed. `litres` has the litres of every plan of the pool. Each litre is charged in the
 * band that it falls in; a plan's hundredths are summed and rounded once to the cent, halves up. A cost is at most 10^13 cents.
 * Refusals: 10 (fewer costs are lent than are kept), 15, 16. */
uint64_t locustdomino_price_water(
    const uint64_t *litres, size_t litres_length,
    const uint64_t *bands, size_t band_words,
    const size_t *kept, size_t kept_length,
    uint64_t *costs, size_t costs_length,
    uint64_t *total);

/* The pool file of a trial load, which anyone can rebuild from its seven numbers; `length` gets its length, at most
 * LOCUSTDOMINO_MAX_FILE bytes. `input` has the numbers in the form of a pool file (seven bits a byte, lowest first, the top bit set
 * on all but the last) and nothing else: objectives, divisions, size, plan count, constraint count, seed, and how many words behind
 * the seed the draws begin. locustdomino_choose reads the file and turns it down with nothing. Refusals: 1, 13, 10 (`out` is shorter
 * than the file). */
#define LOCUSTDOMINO_MAX_FILE 65536
uint64_t locustdomino_write_load(
    const uint8_t *input, size_t input_length,
    uint8_t *out, size_t out_length,
    size_t *length);

/* A pool file in the other edition: one that opens with 64 is turned back, any other forwards, its plans numbered from 0. There and
 * back again gives the same bytes. `length` gets the converted file's length, at most LOCUSTDOMINO_MAX_FILE bytes. Backwards only
 * plans with the numbers 0, 1, 2, .. and without settings are taken, and not 64 objectives. What the numbers of a file say is not
 * looked at otherwise. Refusals: 1, 17, 18, 10 (`out` is shorter than the converted file). */
uint64_t locustdomino_convert(
    const uint8_t *file, size_t file_length,
    uint8_t *out, size_t out_length,
    size_t *length);

#ifdef __cplusplus
}
#endif

#endif
