/*
 * Teams 400 points and more apart get their quality without a division by 400. No answer shows that, but the processor does: it notes in a flag that
 * a result had to be rounded. All else that a call works out is exact here, so behind it the flag is clear unless a difference was divided. Every
 * call that works a quality out is made among guests far apart and, to see that the flag would tell, among others.
 */
#include "yilgashe.h"

#include <fenv.h>
#include <stdio.h>
#include <stdlib.h>

enum { GUESTS = 4, SHEET = 64 };
static const uint64_t ids[GUESTS] = {1, 2, 3, 4};
static const double deviations[GUESTS];
static const uint64_t parties[GUESTS];
static const uint32_t roles[GUESTS];
static const uint8_t regions[GUESTS];
static uint64_t players[SHEET];
static double qualities[SHEET];

/* As many guests as seats. However they are seated, the teams' difference is no multiple of 25, so that its 400th is rounded. */
typedef struct scene {
    size_t a, b;
    double far_apart[GUESTS];
    double close_by[GUESTS];
} scene;

/* The 200th of the average over both teams is exact: latency divides it all the same. */
static const scene whole_latency[] = {
    {1, 1, {2901.0, 1099.0}, {1101.0, 899.0}},
    {2, 1, {2901.0, 3003.0, 1071.0}, {1001.0, 1003.0, 996.0}},
    {2, 2, {1001.0, 3003.0, 9009.0, 27012.0}, {1001.0, 1002.0, 1004.0, 993.0}},
};

/* The 400th of the first guest's rating is exact: the compiler has the beam score him alone, ahead of those who may join him. */
static const scene whole_first[] = {{1, 1, {3000.0, 1001.0}, {3000.0, 2899.0}}};

static const yilgashe_match_objective objective = {1.0, 1.0, 1.0, 1.0};
static const yilgashe_soft_objectives soft = {{YILGASHE_SKILL, YILGASHE_LATENCY, YILGASHE_WAIT}, {1.0, 1.0, 1.0}, 3};
static const yilgashe_soft_objectives skill = {{YILGASHE_SKILL}, {1.0}, 1};
static const yilgashe_beam_search beam = {32};
static const yilgashe_constraints no_constraints;
static const yilgashe_round_rules no_rules;

/* What a call is given: the roster's length, the sizes, the match of all guests, who waits, two matches to select from, and a hall. */
static size_t rows;
static yilgashe_team_composition sizes;
static yilgashe_proposed_match proposed;
static yilgashe_queue queue;
static yilgashe_candidates candidates;
static yilgashe_hall hall;

static void set_up(const scene *drawn, const double *ratings)
{
    yilgashe_games games = {{{0, 0}, {0, 0}, {0, 0}, {0, 0}, {0, 0}, {0, 0}, {0, 0}, {0, 0}}};
    size_t n;
    rows = drawn->a + drawn->b;
    sizes.a = proposed.a.len = drawn->a;
    sizes.b = proposed.b.len = drawn->b;
    games.sizes[0] = sizes;
    queue = yilgashe_queue_empty();
    hall = yilgashe_hall_empty(games);
    for (n = 0; n < rows; n++) {
        yilgashe_queue_entry entry = {ids[n], 0, ratings[n], 0, 0};
        yilgashe_booking booking = {ids[n], 0, yilgashe_rating_bits(ratings[n]), 0, 0, 0};
        queue = yilgashe_queue_enqueue(queue, entry).queue;
        hall = yilgashe_hall_book(hall, n, booking).hall;
        if (n < drawn->a) {
            proposed.a.players[n] = ids[n];
        } else {
            proposed.b.players[n - drawn->a] = ids[n];
        }
    }
    candidates.items[0] = candidates.items[1] = proposed;
    candidates.len = 2;
}

/* Each says whether the call did what it was to do. */

static bool match_quality(const double *ratings)
{
    return yilgashe_match_quality(proposed, ids, rows, ratings, rows).refusal == 0;
}

static bool match_score(const double *ratings)
{
    return yilgashe_match_score(objective, proposed, queue, ids, rows, ratings, rows, deviations, rows, 0).refusal == 0;
}

static bool soft_value(const double *ratings)
{
    return yilgashe_soft_value(YILGASHE_SKILL, 1.0, proposed, ids, rows, ratings, rows).refusal == 0;
}

static bool soft_score(const double *ratings)
{
    return yilgashe_soft_score(soft, proposed, ids, rows, ratings, rows).refusal == 0;
}

static bool policy_score(const double *ratings)
{
    return yilgashe_policy_score(no_constraints, soft, proposed, ids, rows, ratings, rows, parties, rows, roles, rows, regions,
                                 rows)
               .refusal == 0;
}

static bool select_greedy(const double *ratings)
{
    return yilgashe_select_greedy(soft, candidates, ids, rows, ratings, rows).refusal == 0;
}

static bool select_threshold(const double *ratings)
{
    return yilgashe_select_threshold(1.0, soft, candidates, ids, rows, ratings, rows).refusal == 0;
}

/* By skill alone: of the others a thousandth is taken. */
static bool select_lexicographic(const double *ratings)
{
    return yilgashe_select_lexicographic(skill, candidates, ids, rows, ratings, rows).refusal == 0;
}

static bool select_weighted(const double *ratings)
{
    const yilgashe_objective_weights weights = {1.0, 0.0, 0.0, 0.0, 0.0, 0.0};
    return yilgashe_select_weighted(weights, candidates, ids, rows, ratings, rows).refusal == 0;
}

static bool search_greedy(const double *ratings)
{
    return yilgashe_search_greedy(queue, sizes, ids, rows, ratings, rows, players, SHEET, qualities, SHEET).count == 1;
}

static bool search_beam(const double *ratings)
{
    return yilgashe_search_beam(beam, queue, sizes, objective, ids, rows, ratings, rows, deviations, rows, 0, players, SHEET,
                                qualities, SHEET)
               .count == 1;
}

static bool best_choice(const double *ratings)
{
    return yilgashe_best_choice(queue, sizes, no_constraints, soft, ids, rows, ratings, rows, parties, rows, roles, rows, regions,
                                rows)
        .found;
}

static bool greedy_round(const double *ratings)
{
    return yilgashe_hall_greedy_round(hall, 0, 0, ids, rows, ratings, rows, players, SHEET, qualities, SHEET).count == 1;
}

static bool beam_round(const double *ratings)
{
    return yilgashe_hall_beam_round(hall, beam, 0, objective, 0, ids, rows, ratings, rows, deviations, rows, players, SHEET,
                                    qualities, SHEET)
               .count == 1;
}

static bool full_round(const double *ratings)
{
    return yilgashe_hall_full_round(hall, 0, no_rules, soft, 0, ids, rows, ratings, rows, parties, rows, roles, rows, regions,
                                    rows, players, SHEET, qualities, SHEET)
               .count == 1;
}

static bool dispatch(const double *ratings)
{
    return yilgashe_hall_dispatch(hall, 0, ids, rows, ratings, rows, players, SHEET, qualities, SHEET).count == 1;
}

#define SCENES(list) list, sizeof(list) / sizeof(list)[0]

static const struct {
    const char *name;
    bool (*made)(const double *ratings);
    const scene *scenes;
    size_t count;
} calls[] = {
    {"match_quality", match_quality, SCENES(whole_latency)},
    {"match_score", match_score, SCENES(whole_latency)},
    {"soft_value", soft_value, SCENES(whole_latency)},
    {"soft_score", soft_score, SCENES(whole_latency)},
    {"policy_score", policy_score, SCENES(whole_latency)},
    {"select_greedy", select_greedy, SCENES(whole_latency)},
    {"select_threshold", select_threshold, SCENES(whole_latency)},
    {"select_lexicographic", select_lexicographic, SCENES(whole_latency)},
    {"select_weighted", select_weighted, SCENES(whole_latency)},
    {"search_greedy", search_greedy, SCENES(whole_latency)},
    {"search_beam", search_beam, SCENES(whole_first)},
    {"best_choice", best_choice, SCENES(whole_latency)},
    {"hall_greedy_round", greedy_round, SCENES(whole_latency)},
    {"hall_beam_round", beam_round, SCENES(whole_first)},
    {"hall_full_round", full_round, SCENES(whole_latency)},
    {"hall_dispatch", dispatch, SCENES(whole_latency)},
};

static void fail(const char *name, const char *what)
{
    printf("undivided.c: yilgashe_%s %s\n", name, what);
    exit(1);
}

/* Is a result rounded in the call? */
static bool rounds(size_t call, const scene *drawn, const double *ratings)
{
    bool made, rounded;
    set_up(drawn, ratings);
    feclearexcept(FE_ALL_EXCEPT);
    made = calls[call].made(ratings);
    rounded = fetestexcept(FE_INEXACT) != 0;
    if (!made) {
        fail(calls[call].name, "is refused or forms nothing");
    }
    return rounded;
}

int main(void)
{
    const size_t count = sizeof calls / sizeof calls[0];
    size_t n, s;
    for (n = 0; n < count; n++) {
        for (s = 0; s < calls[n].count; s++) {
            const scene *drawn = &calls[n].scenes[s];
            if (rounds(n, drawn, drawn->far_apart)) {
                fail(calls[n].name, "divides a difference of 400 points and more");
            }
            if (!rounds(n, drawn, drawn->close_by)) {
                fail(calls[n].name, "rounds nothing where it must divide");
            }
        }
    }
    printf("%u calls\n", (unsigned)count);
    return 0;
}
