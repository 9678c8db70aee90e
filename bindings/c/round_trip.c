/*
 * Every field of every struct through the library: each is filled with a value of its own, sent through a call that hands it back or
 * answers by it, and compared. A field at another place or of another width shows.
 */
#include "yilgashe.h"

#include <math.h>
#include <stdio.h>
#include <stdlib.h>
#include <string.h>

static unsigned passed;

#define CHECK(fact) check((fact), __LINE__, #fact)

static void check(bool fact, int line, const char *text)
{
    if (!fact) {
        printf("round_trip.c:%d: not so: %s\n", line, text);
        exit(1);
    }
    passed++;
}

/* Empty columns, and structs of zeros: C++ has no {0} for them. */
static uint64_t none_ids[1];
static double none_ratings[1];
static yilgashe_queue_entry blank;
static yilgashe_role_requirements no_requirements;
static yilgashe_constraints no_rules;
static yilgashe_round_rules no_round_rules;
static yilgashe_games no_games;
static yilgashe_note blank_note;

/* Numbers whose bytes all differ, one for each n. */
static uint64_t wide(uint64_t n)
{
    return UINT64_C(0x0123456789abcd00) + n;
}

static yilgashe_queue_entry entry(uint64_t n)
{
    yilgashe_queue_entry e = blank;
    e.player = wide(n);
    e.joined = UINT64_C(0x0010203040506000) + n;
    e.rating = 1000.5 + (double)n;
    e.party = ~wide(n);
    e.role = (uint32_t)(0x89abcd00u + n);
    return e;
}

static bool same_entry(yilgashe_queue_entry x, yilgashe_queue_entry y)
{
    return x.player == y.player && x.joined == y.joined && x.rating == y.rating && x.party == y.party && x.role == y.role;
}

/* 64 entries, by 64 calls. */
static yilgashe_queue full_queue(void)
{
    yilgashe_queue queue = yilgashe_queue_empty();
    uint64_t n;
    CHECK(queue.len == 0);
    for (n = 0; n < 64; n++) {
        yilgashe_enqueued after = yilgashe_queue_enqueue(queue, entry(n));
        CHECK(after.refusal == YILGASHE_ACCEPTED && after.queue.len == n + 1);
        queue = after.queue;
    }
    return queue;
}

static void queues(void)
{
    yilgashe_queue queue = full_queue();
    yilgashe_enqueued more = yilgashe_queue_enqueue(queue, entry(64));
    uint64_t n;
    CHECK(more.refusal == YILGASHE_OVER_LIMIT && more.queue.len == 64);
    for (n = 0; n < 64; n++) {
        CHECK(same_entry(more.queue.entries[n], entry(n)));
    }
    for (n = 0; n < 64; n++) {
        yilgashe_removed taken = yilgashe_queue_remove(queue, wide(n));
        CHECK(taken.refusal == YILGASHE_ACCEPTED && taken.found && same_entry(taken.entry, entry(n)));
        queue = taken.queue;
        CHECK(queue.len == 63 - n && (n == 63 || same_entry(queue.entries[0], entry(n + 1))));
    }
    CHECK(!yilgashe_queue_remove(queue, wide(0)).found);
    queue.len = 65;
    CHECK(yilgashe_queue_remove(queue, wide(0)).refusal == YILGASHE_OVER_LIMIT);
}

static void batches(void)
{
    const uint64_t odd[2] = {wide(63), wide(1)};
    yilgashe_queue queue = full_queue();
    yilgashe_batch parted = yilgashe_queue_remove_batch(queue, odd, 2);
    CHECK(parted.refusal == YILGASHE_ACCEPTED && parted.kept.len == 62 && parted.removed.len == 2);
    CHECK(same_entry(parted.kept.entries[0], entry(0)) && same_entry(parted.kept.entries[61], entry(62)));
    CHECK(same_entry(parted.removed.entries[0], entry(1)) && same_entry(parted.removed.entries[1], entry(63)));
    queue.entries[63].joined = YILGASHE_MAX_TIME + 1;
    CHECK(yilgashe_queue_remove_batch(queue, odd, 0).refusal == YILGASHE_CLOCK);
}

static void times(void)
{
    yilgashe_queue queue = full_queue();
    yilgashe_wait waited = yilgashe_queue_waiting_time(queue, wide(5), entry(5).joined + wide(0) / 1024);
    yilgashe_duration gone = yilgashe_time_duration_since(YILGASHE_MAX_TIME, 1);
    yilgashe_seconds told = yilgashe_time_as_secs_f64(UINT64_C(1500000000));
    CHECK(waited.nanos == wide(0) / 1024 && waited.found && waited.refusal == YILGASHE_ACCEPTED);
    waited = yilgashe_queue_waiting_time(queue, 1, 0);
    CHECK(waited.nanos == 0 && !waited.found && waited.refusal == YILGASHE_ACCEPTED);
    CHECK(yilgashe_queue_waiting_time(queue, 1, YILGASHE_MAX_TIME + 1).refusal == YILGASHE_CLOCK);
    CHECK(gone.nanos == YILGASHE_MAX_TIME - 1 && gone.refusal == YILGASHE_ACCEPTED);
    CHECK(yilgashe_time_duration_since(YILGASHE_MAX_TIME + 1, 0).refusal == YILGASHE_CLOCK);
    CHECK(told.seconds == 1.5 && told.refusal == YILGASHE_ACCEPTED);
    CHECK(yilgashe_time_as_secs_f64(YILGASHE_MAX_TIME + 1).refusal == YILGASHE_CLOCK);
}

/* Each column must be as long as the first, and a region code at most 4. */
static void rosters(void)
{
    const uint64_t ids[2] = {1, 2}, parties[2] = {0, 0};
    const double ratings[2] = {1.0, 2.0}, deviations[2] = {3.0, 4.0};
    const uint32_t roles[2] = {0, 0};
    const uint8_t regions[2] = {YILGASHE_NO_RECORD, 5};
    unsigned column;
    for (column = 0; column < 6; column++) {
        size_t len[6] = {1, 1, 1, 1, 1, 1};
        CHECK(yilgashe_roster_check(ids, len[0], ratings, len[1], deviations, len[2], parties, len[3], roles, len[4], regions,
                                    len[5]) == YILGASHE_ACCEPTED);
        len[column] = 2;
        CHECK(yilgashe_roster_check(ids, len[0], ratings, len[1], deviations, len[2], parties, len[3], roles, len[4], regions,
                                    len[5]) == YILGASHE_BAD_ROSTER);
    }
    CHECK(yilgashe_roster_check(ids, 2, ratings, 2, deviations, 2, parties, 2, roles, 2, regions, 2) == YILGASHE_BAD_ROSTER);
}

/* Teams of 8 guests, all different: a's are wide(0) to wide(7), b's wide(8) to wide(15). */
static yilgashe_proposed_match full_match(void)
{
    yilgashe_proposed_match m = {{{0}, 8}, {{0}, 8}};
    uint64_t n;
    for (n = 0; n < 8; n++) {
        m.a.players[n] = wide(n);
        m.b.players[n] = wide(8 + n);
    }
    return m;
}

/* Guest x against guest y. */
static yilgashe_proposed_match pair(uint64_t x, uint64_t y)
{
    yilgashe_proposed_match m = {{{0}, 1}, {{0}, 1}};
    m.a.players[0] = x;
    m.b.players[0] = y;
    return m;
}

/* With one guest rostered, the quality says at which of the 16 seats the guest sits, or that it is none. */
static void matches(void)
{
    yilgashe_proposed_match m = full_match();
    uint64_t n;
    for (n = 0; n < 16; n++) {
        const uint64_t id = wide(n);
        const double rating = 160.0 * (double)(n + 1);
        yilgashe_scored seated = yilgashe_match_quality(m, &id, 1, &rating, 1);
        CHECK(seated.refusal == YILGASHE_ACCEPTED && seated.value == 1.0 - 20.0 * (double)(n + 1) / 400.0);
        m = full_match();
        (n < 8 ? &m.a : &m.b)->players[n % 8] = 0;
        CHECK(yilgashe_match_quality(m, &id, 1, &rating, 1).value == 1.0);
        m = full_match();
    }
    m.b.len = 9;
    CHECK(yilgashe_match_quality(m, none_ids, 0, none_ratings, 0).refusal == YILGASHE_OVER_LIMIT);
    m.b.len = 8;
    m.a.len = 9;
    CHECK(yilgashe_match_quality(m, none_ids, 0, none_ratings, 0).refusal == YILGASHE_OVER_LIMIT);
}

/* By the fields' names, so that their order shows. */
static yilgashe_match_objective objective(double quality, double wait, double ping, double uncertainty)
{
    yilgashe_match_objective o;
    o.quality = quality;
    o.wait = wait;
    o.ping = ping;
    o.uncertainty = uncertainty;
    return o;
}

static yilgashe_team_composition teams_of(size_t a, size_t b)
{
    yilgashe_team_composition sizes;
    sizes.a = a;
    sizes.b = b;
    return sizes;
}

/* Quality 0.75, a wait of 2 minutes and an average deviation of 175 / 350. The ping is 0.0: only an infinite weight shows. */
static void scores(void)
{
    const uint64_t ids[2] = {1, 2};
    const double ratings[2] = {1000.0, 1100.0}, deviations[2] = {100.0, 250.0};
    const uint64_t clock = UINT64_C(120000000000);
    yilgashe_match_objective weights = objective(1000.0, 10.0, 1.0, 4.0);
    yilgashe_queue queue = yilgashe_queue_empty();
    yilgashe_queue_entry first = {1, 0, 0.0, 0, 0};
    yilgashe_scored score;
    queue = yilgashe_queue_enqueue(queue, first).queue;
    score = yilgashe_match_score(weights, pair(1, 2), queue, ids, 2, ratings, 2, deviations, 2, clock);
    CHECK(score.refusal == YILGASHE_ACCEPTED && score.value == 1000.0 * 0.75 - 10.0 * 2.0 - 4.0 * 0.5);
    weights.ping = HUGE_VAL;
    CHECK(isnan(yilgashe_match_score(weights, pair(1, 2), queue, ids, 2, ratings, 2, deviations, 2, clock).value));
    CHECK(yilgashe_match_score(weights, pair(1, 2), queue, ids, 2, ratings, 2, deviations, 1, clock).refusal == YILGASHE_BAD_ROSTER);
}

/* At each of the 8 places, each kind with a weight of its own. */
static void soft_objectives(void)
{
    const uint64_t ids[2] = {1, 2};
    const double ratings[2] = {100.0, 60.0};
    const double values[3] = {1.0 - 40.0 / 400.0, 1.0 - 80.0 / 200.0, 0.5};
    size_t n;
    for (n = 0; n < 8; n++) {
        uint8_t kind;
        for (kind = 0; kind < 3; kind++) {
            yilgashe_soft_objectives wishes = {{0}, {0.0}, 8};
            yilgashe_scored score;
            wishes.kinds[n] = kind;
            wishes.weights[n] = 3.0 + (double)n;
            score = yilgashe_soft_score(wishes, pair(1, 2), ids, 2, ratings, 2);
            CHECK(score.refusal == YILGASHE_ACCEPTED && score.value == (3.0 + (double)n) * values[kind]);
            wishes.len = n;
            CHECK(yilgashe_soft_score(wishes, pair(1, 2), ids, 2, ratings, 2).value == 0.0);
            CHECK(yilgashe_soft_value(kind, 7.0, pair(1, 2), ids, 2, ratings, 2).value == values[kind]);
        }
    }
    CHECK(yilgashe_soft_value(3, 1.0, pair(1, 2), ids, 2, ratings, 2).refusal == YILGASHE_OVER_LIMIT);
}

static double *coordinate(yilgashe_match_objective_vector *v, unsigned n)
{
    double *all[6] = {&v->skill, &v->role, &v->latency, &v->party, &v->wait, &v->utilization};
    return all[n];
}

static void vectors(void)
{
    const yilgashe_objective_weights weights = {2.0, 3.0, 5.0, 7.0, 11.0, 13.0};
    const double signs[6] = {2.0, 3.0, 5.0, 7.0, -11.0, 13.0};
    const yilgashe_objective_weights usual = yilgashe_weights_default();
    const yilgashe_match_objective_vector zeros = yilgashe_vector_default();
    unsigned n;
    for (n = 0; n < 6; n++) {
        yilgashe_match_objective_vector v = zeros;
        CHECK(*coordinate(&v, n) == 0.0);
        *coordinate(&v, n) = 1.5;
        CHECK(yilgashe_vector_scalarize(v, weights) == 1.5 * signs[n]);
        CHECK(yilgashe_vector_dominates(v, zeros) == (n != 4) && yilgashe_vector_dominates(zeros, v) == (n == 4));
    }
    CHECK(usual.skill == 1.0 && usual.role == 0.5 && usual.latency == 0.3 && usual.party == 0.2);
    CHECK(usual.wait == 0.8 && usual.utilization == 0.0);
}

/* At each of the 8 places, a requirement of its own that fails by its minimum, then by its maximum. */
static void requirements(void)
{
    const uint64_t ids[3] = {1, 2, 3};
    const uint32_t roles[3] = {0x89abcdefu, 0x89abcdefu, 7};
    const yilgashe_team team = {{1, 2, 3}, 3};
    size_t n;
    for (n = 0; n < 8; n++) {
        yilgashe_role_requirements asked = no_requirements;
        yilgashe_role_requirement *item = &asked.items[n];
        yilgashe_validity told;
        asked.len = n + 1;
        item->role = 0x89abcdefu;
        item->least = 3;
        told = yilgashe_team_validate(3, asked, team, ids, 3, roles, 3);
        CHECK(told.refusal == YILGASHE_ACCEPTED && told.fault == YILGASHE_TOO_FEW && told.place == n);
        item->least = 2;
        item->most = 1;
        CHECK(yilgashe_team_validate(3, asked, team, ids, 3, roles, 3).fault == YILGASHE_VALID);
        CHECK(yilgashe_roles_satisfied(asked, pair(1, 2), ids, 3, roles, 3).satisfied);
        item->bounded = true;
        told = yilgashe_team_validate(3, asked, team, ids, 3, roles, 3);
        CHECK(told.fault == YILGASHE_TOO_MANY && told.place == n);
        CHECK(!yilgashe_roles_satisfied(asked, pair(1, 2), ids, 3, roles, 3).satisfied);
        CHECK(yilgashe_team_validate(2, asked, team, ids, 3, roles, 3).fault == YILGASHE_WRONG_SIZE);
        asked.len = 9;
        CHECK(yilgashe_team_validate(3, asked, team, ids, 3, roles, 3).refusal == YILGASHE_OVER_LIMIT);
        CHECK(yilgashe_roles_satisfied(asked, pair(1, 2), ids, 3, roles, 3).refusal == YILGASHE_OVER_LIMIT);
    }
}

/* Region 1 meets region 2 only by the pair at one of the 16 places, which no shorter list has. */
static void region_pairs(void)
{
    const uint64_t ids[2] = {1, 2};
    const uint8_t regions[2] = {YILGASHE_EU, YILGASHE_ASIA};
    size_t n;
    for (n = 0; n < 16; n++) {
        yilgashe_region_constraint allowed = {{{0, 0}}, 16};
        yilgashe_verdict told;
        allowed.pairs[n].first = YILGASHE_ASIA;
        CHECK(!yilgashe_regions_satisfied(allowed, pair(1, 2), ids, 2, regions, 2).satisfied);
        allowed.pairs[n].second = YILGASHE_EU;
        told = yilgashe_regions_satisfied(allowed, pair(1, 2), ids, 2, regions, 2);
        CHECK(told.satisfied && told.refusal == YILGASHE_ACCEPTED);
        allowed.count = n;
        CHECK(!yilgashe_regions_satisfied(allowed, pair(1, 2), ids, 2, regions, 2).satisfied);
        allowed.pairs[0].second = 5;
        allowed.count = 1;
        CHECK(yilgashe_regions_satisfied(allowed, pair(1, 2), ids, 2, regions, 2).refusal == YILGASHE_BAD_ROSTER);
    }
}

/* Constraint n is brought alone and violated, and no other would be; at last all are brought and met. */
static void constraints(void)
{
    const uint64_t ids[3] = {1, 2, 3};
    const uint32_t roles[3] = {0, 0, 0};
    const uint8_t regions[3] = {YILGASHE_EU, YILGASHE_ASIA, YILGASHE_EU};
    const yilgashe_soft_objectives wishes = {{YILGASHE_WAIT}, {6.0}, 1};
    unsigned n, k;
    for (n = 0; n < 6; n++) {
        const uint64_t parties[3] = {9, 0, n == 2 ? 9u : 8u};
        const double ratings[3] = {n == 3 ? -1.0 : 1.0, 1.0, 1.0};
        yilgashe_constraints rules = no_rules;
        bool *brought[5];
        yilgashe_verdict told;
        yilgashe_scored score;
        brought[0] = &rules.brought.sizes;
        brought[1] = &rules.brought.roles;
        brought[2] = &rules.brought.parties;
        brought[3] = &rules.brought.latency;
        brought[4] = &rules.brought.regions;
        rules.sizes.a = 1;
        rules.sizes.b = n == 0 ? 2 : 1;
        rules.roles.items[0].role = 5;
        rules.roles.items[0].least = n == 1 ? 1 : 0;
        rules.roles.len = 1;
        rules.regions.pairs[0].first = YILGASHE_EU;
        rules.regions.pairs[0].second = n == 4 ? YILGASHE_EU : YILGASHE_ASIA;
        rules.regions.count = 1;
        for (k = 0; k < 5; k++) {
            *brought[k] = n == k || n == 5;
        }
        told = yilgashe_constraints_satisfied(rules, pair(1, 2), ids, 3, ratings, 3, parties, 3, roles, 3, regions, 3);
        score = yilgashe_policy_score(rules, wishes, pair(1, 2), ids, 3, ratings, 3, parties, 3, roles, 3, regions, 3);
        CHECK(told.refusal == YILGASHE_ACCEPTED && told.satisfied == (n == 5));
        CHECK(score.refusal == YILGASHE_ACCEPTED && score.value == (n == 5 ? 3.0 : -HUGE_VAL));
    }
}

/* The five constraints by themselves, where they take other arguments. */
static void single_constraints(void)
{
    const uint64_t ids[3] = {1, 2, 3}, parties[3] = {9, 0, 9};
    const double ratings[2] = {-1.0, 1.0};
    yilgashe_proposed_match m = full_match();
    yilgashe_team_size_constraint sizes = {3, 5};
    m.a.len = 3;
    m.b.len = 5;
    CHECK(yilgashe_sizes_satisfied(sizes, m).satisfied);
    sizes.a = 5;
    sizes.b = 3;
    CHECK(!yilgashe_sizes_satisfied(sizes, m).satisfied);
    m.a.len = 9;
    CHECK(yilgashe_sizes_satisfied(sizes, m).refusal == YILGASHE_OVER_LIMIT);
    CHECK(yilgashe_parties_satisfied(pair(1, 3), ids, 3, parties, 3).satisfied);
    CHECK(!yilgashe_parties_satisfied(pair(1, 2), ids, 3, parties, 3).satisfied);
    CHECK(yilgashe_latency_satisfied(pair(2, 2), ids, 2, ratings, 2).satisfied);
    CHECK(!yilgashe_latency_satisfied(pair(1, 2), ids, 2, ratings, 2).satisfied);
}

/* 64 candidates of different quality: their order names every place. */
static void selections(void)
{
    static yilgashe_candidates all;
    uint64_t ids[65];
    double ratings[65];
    const yilgashe_soft_objectives skill = {{YILGASHE_SKILL}, {1.0}, 1};
    yilgashe_objective_weights weights = {0.0, 0.0, 0.0, 0.0, 0.0, 0.0};
    yilgashe_selected told;
    size_t n;
    all.len = 64;
    ids[64] = wide(64);
    ratings[64] = 1000.0;
    for (n = 0; n < 64; n++) {
        ids[n] = wide(n);
        ratings[n] = 1000.0 + (double)(n * 37 % 64);
        all.items[n] = pair(wide(n), wide(64));
    }
    weights.skill = 1.0;
    told = yilgashe_select_weighted(weights, all, ids, 65, ratings, 65);
    CHECK(told.refusal == YILGASHE_ACCEPTED && told.len == 64);
    for (n = 0; n < 64; n++) {
        CHECK(told.places[n] < 64 && told.places[n] * 37 % 64 == n);
    }
    told = yilgashe_select_greedy(skill, all, ids, 65, ratings, 65);
    CHECK(told.len == 1 && told.places[0] == 0);
    told = yilgashe_select_threshold(0.9975, skill, all, ids, 65, ratings, 65);
    CHECK(told.len == 1 && told.places[0] == 0);
    told = yilgashe_select_lexicographic(skill, all, ids, 65, ratings, 65);
    CHECK(told.len == 1 && told.places[0] == 0);
    all.len = 65;
    CHECK(yilgashe_select_greedy(skill, all, ids, 65, ratings, 65).refusal == YILGASHE_OVER_LIMIT);
}

enum { SHEET = 64 };
static uint64_t players[SHEET + 1];
static double qualities[SHEET + 1];

/* Sheets whose untouched places can be told. */
static void fresh_sheets(void)
{
    size_t n;
    for (n = 0; n <= SHEET; n++) {
        players[n] = ~(uint64_t)0;
        qualities[n] = -1.0;
    }
}

/* Four guests wait with ratings 1000, 1280, 1010, 1090. */
static yilgashe_queue four(void)
{
    const double ratings[4] = {1000.0, 1280.0, 1010.0, 1090.0};
    yilgashe_queue queue = yilgashe_queue_empty();
    uint64_t n;
    for (n = 0; n < 4; n++) {
        yilgashe_queue_entry e = {n + 1, 0, ratings[n], 0, 0};
        queue = yilgashe_queue_enqueue(queue, e).queue;
    }
    return queue;
}

static const uint64_t ids4[4] = {1, 2, 3, 4}, parties4[4] = {0};
static const double ratings4[4] = {1000.0, 1280.0, 1010.0, 1090.0}, deviations4[4] = {0.0};
static const uint32_t roles4[4] = {0};
static const uint8_t regions4[4] = {0};

static bool seated(uint64_t a, uint64_t b, uint64_t c, uint64_t end)
{
    return players[0] == a && players[1] == b && players[2] == c && players[3] == end;
}

/* Guests 2 and 3 are as near to guest 1: the seat goes to the earlier joined time, then to the earlier place. */
static void longer_wait(void)
{
    const double ratings[3] = {1000.0, 1010.0, 990.0};
    uint64_t joined, n;
    for (joined = 4; joined <= 6; joined++) {
        yilgashe_queue queue = yilgashe_queue_empty();
        yilgashe_formed told;
        for (n = 0; n < 3; n++) {
            yilgashe_queue_entry e = {n + 1, n < 2 ? 5 : joined, ratings[n], 0, 0};
            queue = yilgashe_queue_enqueue(queue, e).queue;
        }
        fresh_sheets();
        told = yilgashe_search_greedy(queue, teams_of(1, 1), ids4, 3, ratings, 3, players, SHEET, qualities, SHEET);
        CHECK(told.refusal == YILGASHE_ACCEPTED && told.count == 1 && players[0] == 1 && players[1] == (joined < 5 ? 3 : 2));
    }
}

/* Teams of 2 and 1 are not teams of 1 and 2; the place behind the sheet is never touched. */
static void searches(void)
{
    const yilgashe_team_composition two_one = teams_of(2, 1), one_two = teams_of(1, 2);
    const yilgashe_match_objective quality = objective(1.0, 0.0, 0.0, 0.0);
    const yilgashe_greedy_nearest_generator one = {1};
    yilgashe_beam_search beam = {32};
    yilgashe_formed told;
    fresh_sheets();
    told = yilgashe_search_greedy(four(), two_one, ids4, 4, ratings4, 4, players, SHEET, qualities, SHEET);
    CHECK(told.refusal == YILGASHE_ACCEPTED && told.count == 1 && seated(1, 4, 3, ~(uint64_t)0) && qualities[1] == -1.0);
    CHECK(yilgashe_search_greedy(four(), two_one, ids4, 4, ratings4, 4, players, SHEET - 1, qualities, SHEET).refusal ==
          YILGASHE_SHORT_SHEET);
    CHECK(yilgashe_search_greedy(four(), two_one, ids4, 4, ratings4, 4, players, SHEET, qualities, SHEET - 1).refusal ==
          YILGASHE_SHORT_SHEET);
    fresh_sheets();
    told = yilgashe_search_greedy(four(), one_two, ids4, 4, ratings4, 4, players, SHEET, qualities, SHEET);
    CHECK(told.count == 1 && seated(1, 3, 4, ~(uint64_t)0) && qualities[0] == 1.0 - 50.0 / 400.0);
    fresh_sheets();
    told = yilgashe_search_beam(beam, four(), one_two, quality, ids4, 4, ratings4, 4, deviations4, 4, 0, players, SHEET, qualities,
                                SHEET);
    CHECK(told.refusal == YILGASHE_ACCEPTED && told.count == 1 && seated(1, 3, 4, ~(uint64_t)0));
    beam.width = 33;
    told = yilgashe_search_beam(beam, four(), one_two, quality, ids4, 4, ratings4, 4, deviations4, 4, 0, players, SHEET, qualities,
                                SHEET);
    CHECK(told.refusal == YILGASHE_OVER_LIMIT && told.count == 0);
    fresh_sheets();
    told = yilgashe_generate_nearest(one, four(), one_two, ids4, 4, ratings4, 4, players, SHEET, qualities, SHEET);
    CHECK(told.refusal == YILGASHE_ACCEPTED && told.count == 1 && seated(1, 3, 4, ~(uint64_t)0) && qualities[0] == 0.0);
    fresh_sheets();
    told = yilgashe_generate_exhaustive(four(), two_one, players, 12, qualities, 4);
    CHECK(told.refusal == YILGASHE_ACCEPTED && told.count == 4 && seated(1, 2, 3, 1) && players[11] == 4);
    CHECK(players[12] == ~(uint64_t)0 && qualities[3] == 0.0 && qualities[4] == -1.0);
}

/* 16 guests for two teams of 8: one choice, which names every seat of the answer. */
static void choices(void)
{
    const yilgashe_team_composition eights = teams_of(8, 8), pairs = teams_of(1, 1);
    const yilgashe_soft_objectives wishes = {{YILGASHE_WAIT}, {1.0}, 1};
    yilgashe_constraints rules = no_rules;
    yilgashe_queue queue = yilgashe_queue_empty();
    yilgashe_chosen told;
    uint64_t n;
    for (n = 0; n < 16; n++) {
        queue = yilgashe_queue_enqueue(queue, entry(n)).queue;
    }
    told = yilgashe_best_choice(queue, eights, rules, wishes, ids4, 4, ratings4, 4, parties4, 4, roles4, 4, regions4, 4);
    CHECK(told.refusal == YILGASHE_ACCEPTED && told.found && told.tried == 1 && told.teams.a.len == 8 && told.teams.b.len == 8);
    for (n = 0; n < 8; n++) {
        CHECK(told.teams.a.players[n] == wide(n) && told.teams.b.players[n] == wide(8 + n));
    }
    rules.brought.sizes = true;
    told = yilgashe_best_choice(queue, pairs, rules, wishes, ids4, 4, ratings4, 4, parties4, 4, roles4, 4, regions4, 4);
    CHECK(told.refusal == YILGASHE_ACCEPTED && !told.found && told.tried == 120);
    told = yilgashe_best_choice(full_queue(), pairs, rules, wishes, ids4, 4, ratings4, 4, parties4, 4, roles4, 4, regions4, 4);
    CHECK(told.refusal == YILGASHE_TOO_WIDE && !told.found && told.tried == 0);
}

static yilgashe_booking booking_of(yilgashe_queue_entry e, uint8_t game)
{
    yilgashe_booking b;
    b.player = e.player;
    b.joined = e.joined;
    b.rating_bits = yilgashe_rating_bits(e.rating);
    b.party = e.party;
    b.role = e.role;
    b.game = game;
    return b;
}

/* The n-th booking, for each game by turns. */
static yilgashe_booking booking(uint64_t n)
{
    return booking_of(entry(n), (uint8_t)(n % 8));
}

static bool same_booking(yilgashe_booking x, yilgashe_booking y)
{
    return x.player == y.player && x.joined == y.joined && x.rating_bits == y.rating_bits && x.party == y.party && x.role == y.role &&
           x.game == y.game;
}

/* Is this the n-th entry's booking for the game? */
static bool booked(yilgashe_booking b, uint64_t n, uint8_t game)
{
    return same_booking(b, booking_of(entry(n), game));
}

/* The note of a booking that got this answer. */
static yilgashe_note note_of(yilgashe_booking b, uint8_t answer)
{
    yilgashe_note note;
    note.player = b.player;
    note.joined = b.joined;
    note.rating_bits = b.rating_bits;
    note.party = b.party;
    note.role = b.role;
    note.game = b.game;
    note.kind = YILGASHE_BOOKING;
    note.answer = answer;
    return note;
}

/* A note that holds its guest alone. */
static yilgashe_note note_of_guest(uint64_t player, uint8_t kind, uint8_t answer)
{
    yilgashe_note note = blank_note;
    note.player = player;
    note.kind = kind;
    note.answer = answer;
    return note;
}

static yilgashe_booking booking_in(yilgashe_note note)
{
    yilgashe_booking b;
    b.player = note.player;
    b.joined = note.joined;
    b.rating_bits = note.rating_bits;
    b.party = note.party;
    b.role = note.role;
    b.game = note.game;
    return b;
}

static bool same_sizes(const yilgashe_team_composition *x, const yilgashe_team_composition *y)
{
    bool same = true;
    size_t g;
    for (g = 0; g < 8; g++) {
        same = same && x[g].a == y[g].a && x[g].b == y[g].b;
    }
    return same;
}

/* Is this key noted at place n, with this note beside it? */
static bool noted(const yilgashe_hall *hall, uint64_t n, uint64_t key, yilgashe_note note)
{
    const yilgashe_note there = hall->notes[n];
    return hall->keys[n] == key && same_booking(booking_in(there), booking_in(note)) && there.kind == note.kind &&
           there.answer == note.answer;
}

/* Is it the same hall, in every field that means anything? */
static bool same_hall(const yilgashe_hall *x, const yilgashe_hall *y)
{
    bool same = x->waiting == y->waiting && x->noted == y->noted && x->served == y->served && same_sizes(x->sizes, y->sizes);
    size_t n;
    for (n = 0; same && n < x->waiting; n++) {
        same = same_booking(x->bookings[n], y->bookings[n]);
    }
    for (n = 0; same && n < x->noted; n++) {
        same = noted(x, n, y->keys[n], y->notes[n]);
    }
    return same;
}

/* Does the booking get this answer, and leave the hall as it was? */
static bool idle_booking(const yilgashe_hall *hall, uint64_t key, yilgashe_booking b, uint8_t answer)
{
    static yilgashe_keyed told;
    told = yilgashe_hall_book(*hall, key, b);
    return told.refusal == answer && same_hall(&told.hall, hall);
}

/* And so the withdrawal? */
static bool idle_withdrawal(const yilgashe_hall *hall, uint64_t key, uint64_t player, uint8_t answer)
{
    static yilgashe_keyed told;
    told = yilgashe_hall_withdraw(*hall, key, player);
    return told.refusal == answer && same_hall(&told.hall, hall);
}

/* Eight games of nine seats, no two alike: 1 and 8, 2 and 7, .., 8 and 1. */
static yilgashe_games nines(void)
{
    yilgashe_games games;
    size_t g;
    for (g = 0; g < 8; g++) {
        games.sizes[g] = teams_of(g + 1, 8 - g);
    }
    return games;
}

/* The sizes of all games stand in the empty hall. Those over 8 are refused by the next call, which hands them back. */
static void empty_halls(void)
{
    static yilgashe_keyed told;
    yilgashe_games games;
    size_t g;
    for (g = 0; g < 8; g++) {
        games.sizes[g] = teams_of(wide(2 * g), wide(2 * g + 1));
    }
    told.hall = yilgashe_hall_empty(games);
    CHECK(told.hall.waiting == 0 && told.hall.noted == 0 && told.hall.served == YILGASHE_NONE_SERVED);
    CHECK(same_sizes(told.hall.sizes, games.sizes));
    told = yilgashe_hall_book(told.hall, 1, booking(0));
    CHECK(told.refusal == YILGASHE_OVER_LIMIT && told.hall.noted == 0 && same_sizes(told.hall.sizes, games.sizes));
}

/* Each booking waits as it came, and its key gets its note; the 65th meets a full hall, and a resend the noted answer. */
static void bookings(void)
{
    static yilgashe_keyed told;
    const yilgashe_games games = nines();
    uint64_t n;
    told.hall = yilgashe_hall_empty(games);
    told.hall.served = 3;
    for (n = 0; n < 65; n++) {
        told = yilgashe_hall_book(told.hall, ~wide(n), booking(n));
        CHECK(told.refusal == (n == 64 ? YILGASHE_HALL_FULL : YILGASHE_ACCEPTED));
        CHECK(told.hall.noted == n + 1 && noted(&told.hall, n, ~wide(n), note_of(booking(n), told.refusal)));
        CHECK(told.hall.served == 3 && same_sizes(told.hall.sizes, games.sizes));
    }
    told = yilgashe_hall_book(told.hall, ~wide(64), booking(64));
    CHECK(told.refusal == YILGASHE_HALL_FULL && told.hall.noted == 65 && told.hall.waiting == 64);
    for (n = 0; n < 64; n++) {
        CHECK(booked(told.hall.bookings[n], n, (uint8_t)(n % 8)));
    }
    told = yilgashe_hall_withdraw(told.hall, 5, wide(0));
    CHECK(told.refusal == YILGASHE_ACCEPTED && told.hall.waiting == 63);
    CHECK(booked(told.hall.bookings[62], 63, 7));
    CHECK(noted(&told.hall, 65, 5, note_of_guest(wide(0), YILGASHE_WITHDRAWAL, YILGASHE_ACCEPTED)));
    told = yilgashe_hall_withdraw(told.hall, 6, wide(0));
    CHECK(told.refusal == YILGASHE_NOT_WAITING);
    CHECK(noted(&told.hall, 66, 6, note_of_guest(wide(0), YILGASHE_WITHDRAWAL, YILGASHE_NOT_WAITING)));
    CHECK(told.hall.served == 3 && same_sizes(told.hall.sizes, games.sizes));
}

/* What is noted of bookings, and of withdrawals. */
static const uint8_t booked_answers[5] = {YILGASHE_ACCEPTED, YILGASHE_CLOCK, YILGASHE_ALREADY_WAITING, YILGASHE_HALL_FULL,
                                          YILGASHE_NO_SUCH_GAME};
static const uint8_t left_answers[2] = {YILGASHE_ACCEPTED, YILGASHE_NOT_WAITING};

/* The n-th note of a full book, every field of its own, by turns of the three kinds. */
static yilgashe_note own_note(uint64_t n)
{
    yilgashe_note note;
    note.player = UINT64_C(0x99aabbccddee0000) + n;
    note.joined = UINT64_C(0x5060708090a00000) + n;
    note.rating_bits = UINT64_C(0x7ff123456789a000) + n; /* a NaN that would be quieted on the way through arithmetic */
    note.party = UINT64_C(0xb0c0d0e0f0a10000) + n;
    note.role = (uint32_t)(0xbbcc0000u + n);
    note.game = (uint8_t)(37 * n);
    note.kind = (uint8_t)(n / 5 % 3);
    note.answer = note.kind == YILGASHE_WITHDRAWAL ? left_answers[n % 2] : booked_answers[n % 5];
    return note;
}

/* A hall of 64 bookings and 1,024 keys: each booking's game is of its own too, though no call accepts one over 7. */
static void fill_all(yilgashe_hall *hall)
{
    uint64_t n;
    for (n = 0; n < 64; n++) {
        hall->bookings[n] = booking_of(entry(n), (uint8_t)(0x95 + n));
    }
    hall->waiting = 64;
    for (n = 0; n < 1024; n++) {
        hall->keys[n] = UINT64_C(0x1122334455660000) + n;
        hall->notes[n] = own_note(n);
    }
    hall->noted = 1024;
}

/* What a booking or a withdrawal that its key stands for hears from a note of this kind with this number for an answer. */
static uint8_t heard(bool leaves, unsigned kind, unsigned answer)
{
    const bool known = leaves ? kind == YILGASHE_WITHDRAWAL : kind == YILGASHE_BOOKING || kind == YILGASHE_OLDER_BOOKING;
    const uint8_t *answers = leaves ? left_answers : booked_answers;
    size_t n;
    for (n = 0; known && n < (leaves ? 2 : 5); n++) {
        if (answers[n] == answer) {
            return answers[n];
        }
    }
    return YILGASHE_KEY_CLASH;
}

/* 1,024 keys and notes, every field of them of its own, come back from a call that is refused, and answer by any of them. */
static void notes(void)
{
    static yilgashe_hall hall;
    static yilgashe_keyed told;
    uint64_t n;
    fill_all(&hall);
    told = yilgashe_hall_book(hall, 1, booking_of(entry(0), 8));
    CHECK(told.refusal == YILGASHE_BOOK_FULL && told.hall.noted == 1024 && told.hall.waiting == 64);
    for (n = 0; n < 1024; n++) {
        CHECK(noted(&told.hall, n, hall.keys[n], own_note(n)));
        CHECK(n >= 64 || booked(told.hall.bookings[n], n, (uint8_t)(0x95 + n)));
    }
    for (n = 0; n < 1024; n += 31) {
        const uint64_t key = hall.keys[n];
        const yilgashe_note note = own_note(n);
        CHECK(idle_booking(&hall, key, booking_in(note), heard(false, note.kind, note.answer)));
        CHECK(idle_withdrawal(&hall, key, note.player, heard(true, note.kind, note.answer)));
    }
}

/* A kind or an answer that no call notes answers nobody. */
static void notes_of_no_call(void)
{
    static yilgashe_hall hall;
    const unsigned kinds[5] = {YILGASHE_BOOKING, YILGASHE_WITHDRAWAL, YILGASHE_OLDER_BOOKING, 3, 255};
    unsigned n, answer;
    hall = yilgashe_hall_empty(no_games);
    hall.keys[0] = 1;
    hall.noted = 1;
    for (n = 0; n < 5; n++) {
        for (answer = 0; answer < 256; answer++) {
            hall.notes[0] = note_of(booking(0), (uint8_t)answer);
            hall.notes[0].kind = (uint8_t)kinds[n];
            CHECK(idle_booking(&hall, 1, booking(0), heard(false, kinds[n], answer)));
            CHECK(idle_withdrawal(&hall, 1, wide(0), heard(true, kinds[n], answer)));
        }
    }
}

/* Both zeros, both infinities, the least number, NaNs of either sign, quiet and not, with other bits, and 1510.5. */
enum { RATINGS = 13 };
static const uint64_t rating_bits[RATINGS] = {
    UINT64_C(0),
    UINT64_C(0x8000000000000000),
    UINT64_C(0x7ff0000000000000),
    UINT64_C(0xfff0000000000000),
    UINT64_C(1),
    UINT64_C(0x7ff8000000000000),
    UINT64_C(0xfff8000000000000),
    UINT64_C(0x7ff8000000000001),
    UINT64_C(0x7ff0000000000001),
    UINT64_C(0xfff4dcba98765432),
    UINT64_C(0x7ffedcba98765432),
    UINT64_C(0xffffffffffffffff),
    UINT64_C(0x40979a0000000000),
};

/* The bits of a double are what the booking gets, and they come back from it. */
static void bits_of_doubles(void)
{
    size_t n;
    for (n = 0; n < RATINGS; n++) {
        CHECK(yilgashe_rating_bits(yilgashe_rating(rating_bits[n])) == rating_bits[n]);
        CHECK(isnan(yilgashe_rating(rating_bits[n])) ? n >= 5 && n < 12 : n < 5 || n == 12);
    }
    CHECK(yilgashe_rating_bits(0.0) == rating_bits[0] && yilgashe_rating_bits(-0.0) == rating_bits[1]);
    CHECK(yilgashe_rating_bits(HUGE_VAL) == rating_bits[2] && yilgashe_rating_bits(1510.5) == rating_bits[12]);
    CHECK(yilgashe_rating(rating_bits[12]) == 1510.5 && yilgashe_rating(rating_bits[3]) == -HUGE_VAL);
}

/* The n-th of these ratings, by a double. */
static yilgashe_booking rated(uint64_t guest, size_t n)
{
    yilgashe_booking b = booking(guest);
    b.rating_bits = yilgashe_rating_bits(yilgashe_rating(rating_bits[n]));
    return b;
}

/* All bits of a rating stand in the booking that waits and in its note, and the key stands for all of them: under it neither the other
 * zero nor another NaN is the rating that was sent. */
static void bits_of_bookings(void)
{
    static yilgashe_keyed told;
    size_t n, m;
    told.hall = yilgashe_hall_empty(no_games);
    for (n = 0; n < RATINGS; n++) {
        told = yilgashe_hall_book(told.hall, n, rated(n, n));
        CHECK(told.refusal == YILGASHE_ACCEPTED);
    }
    for (n = 0; n < RATINGS; n++) {
        CHECK(told.hall.bookings[n].rating_bits == rating_bits[n] && told.hall.notes[n].rating_bits == rating_bits[n]);
        for (m = 0; m < RATINGS; m++) {
            CHECK(idle_booking(&told.hall, n, rated(n, m), m == n ? YILGASHE_ACCEPTED : YILGASHE_KEY_CLASH));
        }
    }
    told = yilgashe_hall_withdraw(told.hall, 99, wide(0));
    for (n = 1; n < RATINGS; n++) {
        CHECK(told.hall.bookings[n - 1].rating_bits == rating_bits[n] && told.hall.notes[n].rating_bits == rating_bits[n]);
    }
}

/* A booking with one bit changed. What stands behind its game is padding. */
enum { BITS = 8 * (offsetof(yilgashe_booking, game) + 1), WITH_PADDING = 8 * sizeof(yilgashe_booking) };
static yilgashe_booking flipped(yilgashe_booking b, unsigned bit)
{
    unsigned char bytes[sizeof b];
    memcpy(bytes, &b, sizeof b);
    bytes[bit / 8] = (unsigned char)(bytes[bit / 8] ^ 1u << bit % 8);
    memcpy(&b, bytes, sizeof b);
    return b;
}

/* Does the key stand for this booking in each of its bits, and not look at what stands behind them? */
static bool stands_for(const yilgashe_hall *hall, uint64_t key, yilgashe_booking b, uint8_t answer)
{
    bool stands = idle_booking(hall, key, b, answer);
    unsigned bit;
    for (bit = 0; bit < BITS; bit++) {
        stands = stands && idle_booking(hall, key, flipped(b, bit), YILGASHE_KEY_CLASH);
    }
    for (bit = BITS; bit < WITH_PADDING; bit++) {
        stands = stands && idle_booking(hall, key, flipped(b, bit), answer);
    }
    return stands;
}

/* So it is for a booking that was accepted, and for one of each refusal that is noted; corrected, it is another. */
static void whole_bookings(void)
{
    static yilgashe_keyed told;
    yilgashe_booking sent[5];
    uint64_t n;
    sent[0] = booking(63);
    sent[1] = booking(70);
    sent[1].joined = YILGASHE_MAX_TIME + 1;
    sent[2] = booking_of(entry(0), 5);
    sent[3] = booking(71);
    sent[4] = booking_of(entry(72), 200);
    told.hall = yilgashe_hall_empty(nines());
    for (n = 0; n < 63; n++) {
        told = yilgashe_hall_book(told.hall, ~wide(n), booking(n));
    }
    for (n = 0; n < 5; n++) {
        told = yilgashe_hall_book(told.hall, wide(n), sent[n]);
        CHECK(told.refusal == booked_answers[n] && noted(&told.hall, 63 + n, wide(n), note_of(sent[n], booked_answers[n])));
    }
    for (n = 0; n < 5; n++) {
        CHECK(stands_for(&told.hall, wide(n), sent[n], booked_answers[n]));
    }
    told = yilgashe_hall_withdraw(told.hall, 1, wide(0)); /* there is a place now, and the guest of the third waits no more */
    CHECK(told.refusal == YILGASHE_ACCEPTED);
    for (n = 0; n < 5; n++) {
        CHECK(stands_for(&told.hall, wide(n), sent[n], booked_answers[n]));
    }
    sent[1].joined = YILGASHE_MAX_TIME;
    CHECK(yilgashe_hall_book(told.hall, wide(1), sent[1]).refusal == YILGASHE_KEY_CLASH);
    CHECK(yilgashe_hall_book(told.hall, 2, sent[1]).refusal == YILGASHE_ACCEPTED);
    sent[4].game = 7;
    CHECK(yilgashe_hall_book(told.hall, wide(4), sent[4]).refusal == YILGASHE_KEY_CLASH);
    sent[0].game = 8; /* what the key says comes first */
    CHECK(yilgashe_hall_book(told.hall, wide(0), sent[0]).refusal == YILGASHE_KEY_CLASH);
}

enum { GREEDY = 0, BEAM = 1, FULL = 2, DISPATCH = 3 };

static yilgashe_rounded full_round(yilgashe_hall hall, uint8_t game, yilgashe_round_rules rules, uint8_t soft_kind, uint64_t clock)
{
    const yilgashe_soft_objectives wishes = {{soft_kind}, {1.0}, 1};
    return yilgashe_hall_full_round(hall, game, rules, wishes, clock, ids4, 4, ratings4, 4, parties4, 4, roles4, 4, regions4, 4, players,
                                    SHEET, qualities, SHEET);
}

/* A round of this kind; a dispatch does not read the game. */
static yilgashe_rounded round_of(unsigned kind, yilgashe_hall hall, uint8_t game, uint64_t clock)
{
    const yilgashe_match_objective quality = objective(1.0, 0.0, 0.0, 0.0);
    const yilgashe_beam_search beam = {32};
    switch (kind) {
    case GREEDY:
        return yilgashe_hall_greedy_round(hall, game, clock, ids4, 4, ratings4, 4, players, SHEET, qualities, SHEET);
    case BEAM:
        return yilgashe_hall_beam_round(hall, beam, game, quality, clock, ids4, 4, ratings4, 4, deviations4, 4, players, SHEET,
                                        qualities, SHEET);
    case FULL:
        return full_round(hall, game, no_round_rules, YILGASHE_SKILL, clock);
    default:
        return yilgashe_hall_dispatch(hall, clock, ids4, 4, ratings4, 4, players, SHEET, qualities, SHEET);
    }
}

/* Guest 9 waits for game 6, which is not used, and then the four for game 5 with these sizes. Game 4 was served last. */
static yilgashe_hall five_guests(size_t a, size_t b)
{
    const yilgashe_queue queue = four();
    yilgashe_games games = no_games;
    yilgashe_hall hall;
    size_t n;
    games.sizes[5] = teams_of(a, b);
    hall = yilgashe_hall_empty(games);
    hall.bookings[0] = booking_of(queue.entries[0], 6);
    hall.bookings[0].player = 9;
    for (n = 0; n < 4; n++) {
        hall.bookings[1 + n] = booking_of(queue.entries[n], 5);
    }
    hall.waiting = 5;
    hall.keys[0] = wide(1);
    hall.notes[0] = note_of(hall.bookings[0], YILGASHE_ACCEPTED);
    hall.noted = 1;
    hall.served = 4;
    return hall;
}

/* Do the hall's note and sizes stay as they were, and is this the last game served? */
static bool stays(const yilgashe_hall *after, const yilgashe_hall *before, uint8_t served)
{
    return after->noted == 1 && noted(after, 0, wide(1), before->notes[0]) && same_sizes(after->sizes, before->sizes) &&
           after->served == served;
}

/* Did the round hand out one match, and wait only guest 9 and this one now? */
static bool one_left(const yilgashe_rounded *told, uint64_t tried, uint64_t left)
{
    const yilgashe_booking *waiting = told->hall.bookings;
    return told->refusal == YILGASHE_ACCEPTED && told->count == 1 && told->tried == tried && told->hall.waiting == 2 &&
           waiting[0].player == 9 && waiting[0].game == 6 && waiting[1].player == left && waiting[1].game == 5;
}

/* Each round hands back the hall without the seated, the number of matches, the number of choices, and the game served. */
static void rounds(void)
{
    static yilgashe_hall hall;
    static yilgashe_rounded told;
    hall = five_guests(2, 1);
    fresh_sheets();
    told = round_of(GREEDY, hall, 5, 0);
    CHECK(one_left(&told, 0, 2) && seated(1, 4, 3, ~(uint64_t)0));
    CHECK(told.served == YILGASHE_NONE_SERVED && stays(&told.hall, &hall, 4));
    fresh_sheets();
    told = round_of(DISPATCH, hall, 0, 0);
    CHECK(one_left(&told, 0, 2) && seated(1, 4, 3, ~(uint64_t)0));
    CHECK(told.served == 5 && stays(&told.hall, &hall, 5));
    fresh_sheets();
    told = round_of(FULL, hall, 5, 0);
    CHECK(one_left(&told, 4, 3) && seated(1, 2, 4, ~(uint64_t)0) && qualities[0] == 0.0);
    CHECK(told.served == YILGASHE_NONE_SERVED && stays(&told.hall, &hall, 4));
    hall = five_guests(1, 2);
    fresh_sheets();
    told = round_of(BEAM, hall, 5, 0);
    CHECK(one_left(&told, 0, 2) && seated(1, 3, 4, ~(uint64_t)0));
    CHECK(told.served == YILGASHE_NONE_SERVED && stays(&told.hall, &hall, 4));
}

/* Did the round answer so, and leave all as it was? */
static bool idle(const yilgashe_rounded *told, uint8_t answer)
{
    return told->refusal == answer && told->count == 0 && told->tried == 0 && told->served == YILGASHE_NONE_SERVED &&
           told->hall.waiting == 5 && told->hall.served == 4 && players[0] == ~(uint64_t)0 && qualities[0] == -1.0;
}

/* A clock, or the joined time of anyone who waits, for another game too. */
static void late_rounds(void)
{
    static yilgashe_hall hall;
    static yilgashe_rounded told;
    unsigned kind;
    fresh_sheets();
    for (kind = GREEDY; kind <= DISPATCH; kind++) {
        hall = five_guests(2, 1);
        told = round_of(kind, hall, 5, YILGASHE_MAX_TIME + 1);
        CHECK(idle(&told, YILGASHE_CLOCK) && stays(&told.hall, &hall, 4));
        hall.bookings[0].joined = YILGASHE_MAX_TIME + 1;
        told = round_of(kind, hall, 5, 0);
        CHECK(idle(&told, YILGASHE_CLOCK) && stays(&told.hall, &hall, 4));
    }
}

/* Nine wait for the game and nine for the next one, by turns. */
static yilgashe_hall by_turns(uint8_t game)
{
    yilgashe_hall hall = yilgashe_hall_empty(nines());
    uint64_t n;
    for (n = 0; n < 18; n++) {
        hall.bookings[n] = booking_of(entry(n), (uint8_t)((game + n % 2) % 8));
    }
    hall.waiting = 18;
    return hall;
}

/* A round has the sizes of its own game, as the constraint on sizes tells, and seats whoever waits for it; the others wait on. */
static void rounds_of_games(void)
{
    static yilgashe_rounded told;
    uint8_t game;
    uint64_t n;
    for (game = 0; game < 8; game++) {
        yilgashe_round_rules rules = no_round_rules;
        rules.constraints.brought.sizes = true;
        rules.constraints.sizes.a = 8u - game;
        rules.constraints.sizes.b = game + 1u;
        fresh_sheets();
        told = full_round(by_turns(game), game, rules, YILGASHE_SKILL, 0);
        CHECK(told.refusal == YILGASHE_ACCEPTED && told.count == 0 && told.tried == 1 && told.hall.waiting == 18);
        rules.constraints.sizes.a = game + 1u;
        rules.constraints.sizes.b = 8u - game;
        told = full_round(by_turns(game), game, rules, YILGASHE_SKILL, 0);
        CHECK(told.refusal == YILGASHE_ACCEPTED && told.count == 1 && told.tried == 1 && told.hall.waiting == 9);
        for (n = 0; n < 9; n++) {
            CHECK(players[n] == wide(2 * n) && booked(told.hall.bookings[n], 2 * n + 1, (uint8_t)((game + 1) % 8)));
        }
        CHECK(players[9] == ~(uint64_t)0);
    }
}

/* The limit of 20 is each game's: 20 wait for game 0, and 21 for game 1. Whoever is seated leaves with a booking for another game. */
static void limits_of_games(void)
{
    static yilgashe_hall hall;
    static yilgashe_rounded told;
    yilgashe_games games = no_games;
    uint64_t n;
    games.sizes[0] = games.sizes[1] = teams_of(1, 1);
    hall = yilgashe_hall_empty(games);
    for (n = 0; n < 41; n++) {
        hall.bookings[n] = booking_of(entry(n), n % 2 == 1 ? 0 : 1);
    }
    hall.waiting = 41;
    hall.bookings[0].player = wide(39);
    told = round_of(FULL, hall, 1, 0);
    CHECK(told.refusal == YILGASHE_TOO_WIDE && told.hall.waiting == 41);
    told = round_of(FULL, hall, 0, 0);
    CHECK(told.refusal == YILGASHE_ACCEPTED && told.tried == 190 && players[0] == wide(37) && players[1] == wide(39));
    CHECK(told.hall.waiting == 38 && booked(told.hall.bookings[0], 1, 0) && booked(told.hall.bookings[37], 40, 1));
}

/* A game over 7 is refused before anything else: here the hall is over its limits, the clock late, and the soft kind none. */
static void rounds_of_no_game(void)
{
    static yilgashe_hall hall;
    static yilgashe_rounded told;
    const uint8_t games[4] = {8, 9, 128, YILGASHE_NONE_SERVED};
    unsigned kind, n;
    fresh_sheets();
    hall = five_guests(2, 1);
    hall.noted = 1025;
    for (n = 0; n < 4; n++) {
        for (kind = GREEDY; kind <= FULL; kind++) {
            told = round_of(kind, hall, games[n], YILGASHE_MAX_TIME + 1);
            CHECK(idle(&told, YILGASHE_NO_SUCH_GAME) && told.hall.noted == 1025);
        }
        told = full_round(hall, games[n], no_round_rules, 3, 0);
        CHECK(idle(&told, YILGASHE_NO_SUCH_GAME));
    }
    told = full_round(five_guests(2, 1), 5, no_round_rules, 3, YILGASHE_MAX_TIME + 1);
    CHECK(idle(&told, YILGASHE_OVER_LIMIT));
}

/* In a booking it comes behind what the key says and before all else, and it is noted. */
static void bookings_for_no_game(void)
{
    static yilgashe_keyed told;
    yilgashe_booking b = booking(0);
    told.hall = five_guests(2, 1);
    b.player = 9;
    b.joined = YILGASHE_MAX_TIME + 1;
    b.game = 8;
    told = yilgashe_hall_book(told.hall, 7, b);
    CHECK(told.refusal == YILGASHE_NO_SUCH_GAME && told.hall.waiting == 5 && told.hall.noted == 2);
    CHECK(noted(&told.hall, 1, 7, note_of(b, YILGASHE_NO_SUCH_GAME)));
    told = yilgashe_hall_book(told.hall, 7, b);
    CHECK(told.refusal == YILGASHE_NO_SUCH_GAME && told.hall.waiting == 5 && told.hall.noted == 2);
    b.player = 8;
    CHECK(yilgashe_hall_book(told.hall, 7, b).refusal == YILGASHE_KEY_CLASH);
    b.game = 7;
    CHECK(yilgashe_hall_book(told.hall, 70, b).refusal == YILGASHE_CLOCK);
    b.player = 9;
    b.joined = 0;
    CHECK(yilgashe_hall_book(told.hall, 70, b).refusal == YILGASHE_ALREADY_WAITING);
    b.player = 8;
    told = yilgashe_hall_book(told.hall, 70, b);
    CHECK(told.refusal == YILGASHE_ACCEPTED && told.hall.waiting == 6 && told.hall.bookings[5].game == 7);
}

/* Does every call answer so? */
static bool all_answer(const yilgashe_hall *hall, uint8_t refusal)
{
    bool all = yilgashe_hall_book(*hall, 5, booking(0)).refusal == refusal && yilgashe_hall_withdraw(*hall, 5, 9).refusal == refusal;
    unsigned kind;
    for (kind = GREEDY; kind <= DISPATCH; kind++) {
        all = all && round_of(kind, *hall, 5, 0).refusal == refusal;
    }
    return all;
}

/* A size over 8 in any game, used or not. */
static void sizes_over_limits(void)
{
    static yilgashe_hall hall;
    size_t n;
    for (n = 0; n < 16; n++) {
        size_t *size;
        hall = five_guests(2, 1);
        size = n % 2 == 0 ? &hall.sizes[n / 2].a : &hall.sizes[n / 2].b;
        *size = 8;
        CHECK(all_answer(&hall, YILGASHE_ACCEPTED));
        *size = 9;
        CHECK(all_answer(&hall, YILGASHE_OVER_LIMIT));
        *size = ~(size_t)0;
        CHECK(all_answer(&hall, YILGASHE_OVER_LIMIT));
    }
}

/* More bookings or keys than there are places, and a last game served that is neither a game nor none. */
static void numbers_over_limits(void)
{
    static yilgashe_hall hall;
    unsigned served;
    hall = five_guests(2, 1);
    for (served = 0; served < 256; served++) {
        hall.served = (uint8_t)served;
        CHECK(all_answer(&hall, served < 8 || served == YILGASHE_NONE_SERVED ? YILGASHE_ACCEPTED : YILGASHE_OVER_LIMIT));
    }
    hall.waiting = 65;
    CHECK(all_answer(&hall, YILGASHE_OVER_LIMIT));
    hall.waiting = 5;
    hall.noted = 1025;
    CHECK(all_answer(&hall, YILGASHE_OVER_LIMIT));
}

/* Eight games of one against one, for each of which two wait: guests 0 and 1 for game 0, and so on. */
static yilgashe_hall pairs_for_all(uint8_t served)
{
    yilgashe_games games;
    yilgashe_hall hall;
    size_t n;
    for (n = 0; n < 8; n++) {
        games.sizes[n] = teams_of(1, 1);
    }
    hall = yilgashe_hall_empty(games);
    for (n = 0; n < 16; n++) {
        hall.bookings[n] = booking_of(blank, (uint8_t)(n / 2));
        hall.bookings[n].player = n;
    }
    hall.waiting = 16;
    hall.served = served;
    return hall;
}

/* The games take turns behind the last one served, from game 0 where none was. The ninth dispatch finds nobody. */
static void turns(void)
{
    static yilgashe_rounded told;
    unsigned first, n;
    for (first = 0; first <= 8; first++) {
        told.hall = pairs_for_all(first == 0 ? (uint8_t)YILGASHE_NONE_SERVED : (uint8_t)(first - 1));
        for (n = 0; n < 8; n++) {
            const unsigned game = (first + n) % 8;
            fresh_sheets();
            told = round_of(DISPATCH, told.hall, 0, 0);
            CHECK(told.refusal == YILGASHE_ACCEPTED && told.served == game && told.hall.served == game && told.count == 1);
            CHECK(told.tried == 0 && seated(2 * game, 2 * game + 1, ~(uint64_t)0, ~(uint64_t)0) && qualities[1] == -1.0);
            CHECK(told.hall.waiting == 14 - 2 * n);
        }
        told = round_of(DISPATCH, told.hall, 0, 0);
        CHECK(told.refusal == YILGASHE_ACCEPTED && told.served == YILGASHE_NONE_SERVED && told.count == 0);
        CHECK(told.hall.served == (first + 7) % 8);
    }
}

/* Four guests are too few for five seats, and a game that is not used has none to fill. The checks are made all the same. */
static void none_served(void)
{
    static yilgashe_hall hall;
    static yilgashe_rounded told;
    hall = five_guests(4, 1);
    fresh_sheets();
    told = round_of(DISPATCH, hall, 0, 0);
    CHECK(idle(&told, YILGASHE_ACCEPTED) && stays(&told.hall, &hall, 4));
    told = yilgashe_hall_dispatch(hall, YILGASHE_MAX_TIME + 1, ids4, 4, ratings4, 4, players, SHEET, qualities, SHEET - 1);
    CHECK(idle(&told, YILGASHE_SHORT_SHEET));
    told = yilgashe_hall_dispatch(hall, 0, ids4, 4, ratings4, 4, players, SHEET - 1, qualities, SHEET);
    CHECK(idle(&told, YILGASHE_SHORT_SHEET));
    told = yilgashe_hall_dispatch(hall, 0, ids4, 4, ratings4, 3, players, SHEET - 1, qualities, SHEET);
    CHECK(idle(&told, YILGASHE_BAD_ROSTER));
    told = round_of(DISPATCH, hall, 0, YILGASHE_MAX_TIME + 1);
    CHECK(idle(&told, YILGASHE_CLOCK));
}

/* Nobody against one forms no match, and is served; as the last one served it comes again behind all others, which have too few. */
static void served_without_a_match(void)
{
    static yilgashe_hall hall;
    static yilgashe_rounded told;
    unsigned n;
    hall = five_guests(4, 1);
    hall.sizes[6] = teams_of(0, 1);
    told.hall = hall;
    for (n = 0; n < 2; n++) {
        told = round_of(DISPATCH, told.hall, 0, 0);
        CHECK(told.refusal == YILGASHE_ACCEPTED && told.served == 6 && told.count == 0);
        CHECK(told.hall.waiting == 5 && stays(&told.hall, &hall, 6));
    }
    told.hall.sizes[5] = teams_of(3, 1); /* just enough */
    told = round_of(DISPATCH, told.hall, 0, 0);
    CHECK(told.served == 5 && told.count == 1 && told.hall.waiting == 1 && told.hall.bookings[0].player == 9);
}

/* A game that is not used has one choice, which seats nobody; a search forms nothing. */
static void unused_games(void)
{
    static yilgashe_rounded told;
    unsigned kind;
    fresh_sheets();
    for (kind = GREEDY; kind <= FULL; kind++) {
        told = round_of(kind, five_guests(2, 1), 6, 0);
        CHECK(told.refusal == YILGASHE_ACCEPTED && told.hall.waiting == 5 && players[0] == ~(uint64_t)0);
        CHECK(told.count == (kind == FULL ? 1 : 0) && told.tried == (kind == FULL ? 1 : 0));
    }
    CHECK(qualities[0] == 0.0);
}

/* Which NaN a rating is, or which zero, is nothing to a round: it seats whom it would. */
static void rounds_by_any_bits(void)
{
    static yilgashe_hall hall;
    static yilgashe_rounded told, due;
    uint64_t due_players[SHEET + 1];
    double due_qualities[SHEET + 1];
    unsigned kind;
    size_t n;
    for (kind = GREEDY; kind <= DISPATCH; kind++) {
        for (n = 0; n < RATINGS; n++) {
            const uint64_t bits = rating_bits[n];
            const double rating = yilgashe_rating(bits);
            const uint64_t plain = isnan(rating) ? rating_bits[5] : yilgashe_rating_bits(rating + 0.0);
            hall = five_guests(2, 1);
            hall.bookings[0].rating_bits = hall.bookings[3].rating_bits = plain;
            fresh_sheets();
            due = round_of(kind, hall, 5, 0);
            memcpy(due_players, players, sizeof players);
            memcpy(due_qualities, qualities, sizeof qualities);
            hall.bookings[0].rating_bits = hall.bookings[3].rating_bits = bits;
            fresh_sheets();
            told = round_of(kind, hall, 5, 0);
            CHECK(told.refusal == due.refusal && told.count == due.count && told.hall.waiting == due.hall.waiting);
            CHECK(memcmp(players, due_players, sizeof players) == 0 && memcmp(qualities, due_qualities, sizeof qualities) == 0);
            CHECK(told.hall.bookings[0].player == 9 && told.hall.bookings[0].rating_bits == bits);
        }
    }
}

/* A hall as it was kept before a key stood for the whole booking: ratings were doubles, and a note held kind, guest and answer. */
typedef struct kept_booking {
    uint64_t player;
    uint64_t joined;
    double rating;
    uint64_t party;
    uint32_t role;
    uint8_t game;
} kept_booking;

typedef struct kept_note {
    uint64_t player;
    uint8_t kind;
    uint8_t answer;
} kept_note;

typedef struct kept_hall {
    kept_booking bookings[64];
    size_t waiting;
    uint64_t keys[1024];
    kept_note notes[1024];
    size_t noted;
    yilgashe_team_composition sizes[8];
    uint8_t served;
} kept_hall;

/* Brings it over, field by field. A note's other fields are 0. */
static void bring_over(yilgashe_hall *hall, const kept_hall *kept)
{
    size_t n;
    for (n = 0; n < 64; n++) {
        const kept_booking b = kept->bookings[n];
        hall->bookings[n].player = b.player;
        hall->bookings[n].joined = b.joined;
        hall->bookings[n].rating_bits = yilgashe_rating_bits(b.rating);
        hall->bookings[n].party = b.party;
        hall->bookings[n].role = b.role;
        hall->bookings[n].game = b.game;
    }
    for (n = 0; n < 1024; n++) {
        const kept_note note = kept->notes[n];
        hall->keys[n] = kept->keys[n];
        hall->notes[n] = note_of_guest(note.player, note.kind, note.answer);
        if (note.kind == YILGASHE_BOOKING) {
            hall->notes[n].kind = YILGASHE_OLDER_BOOKING;
        }
    }
    hall->waiting = kept->waiting;
    hall->noted = kept->noted;
    memcpy(hall->sizes, kept->sizes, sizeof hall->sizes);
    hall->served = kept->served;
}

/* Notes a call as it was done then. */
static void keep_note(kept_hall *kept, uint64_t key, uint64_t player, uint8_t kind, uint8_t answer)
{
    kept->keys[kept->noted] = key;
    kept->notes[kept->noted].player = player;
    kept->notes[kept->noted].kind = kind;
    kept->notes[kept->noted].answer = answer;
    kept->noted++;
}

/* The evening of the five guests, as far as it got: the keys 0 to 4 brought them, and 5 to 10 were turned away or left. */
static void keep_evening(kept_hall *kept)
{
    static yilgashe_hall hall;
    size_t n;
    hall = five_guests(2, 1);
    memset(kept, 0, sizeof *kept);
    for (n = 0; n < 5; n++) {
        const yilgashe_booking b = hall.bookings[n];
        kept->bookings[n].player = b.player;
        kept->bookings[n].joined = n;
        kept->bookings[n].rating = n == 0 ? yilgashe_rating(rating_bits[9]) : ratings4[n - 1];
        kept->bookings[n].party = ~wide(n);
        kept->bookings[n].role = (uint32_t)(7 + n);
        kept->bookings[n].game = b.game;
        keep_note(kept, n, b.player, YILGASHE_BOOKING, YILGASHE_ACCEPTED);
    }
    kept->waiting = 5;
    keep_note(kept, 5, 20, YILGASHE_BOOKING, YILGASHE_CLOCK);
    keep_note(kept, 6, 9, YILGASHE_BOOKING, YILGASHE_ALREADY_WAITING);
    keep_note(kept, 7, 21, YILGASHE_BOOKING, YILGASHE_HALL_FULL);
    keep_note(kept, 8, 22, YILGASHE_BOOKING, YILGASHE_NO_SUCH_GAME);
    keep_note(kept, 9, 23, YILGASHE_WITHDRAWAL, YILGASHE_ACCEPTED);
    keep_note(kept, 10, 24, YILGASHE_WITHDRAWAL, YILGASHE_NOT_WAITING);
    memcpy(kept->sizes, hall.sizes, sizeof kept->sizes);
    kept->served = 4;
}

/* Does each key of that evening still answer its guest as it did, whatever his booking brings, and nobody else? */
static bool answers_as_kept(const yilgashe_hall *hall, const kept_hall *kept)
{
    bool as_kept = true;
    size_t n, m;
    for (n = 0; n < kept->noted; n++) {
        const uint64_t key = kept->keys[n];
        const kept_note note = kept->notes[n];
        for (m = 0; m < RATINGS; m++) {
            yilgashe_booking b = rated(m, m); /* with any fields, late times and games that are none among them */
            b.joined = m % 2 == 0 ? m : YILGASHE_MAX_TIME + m;
            b.game = (uint8_t)(m % 3 == 0 ? m : 200 + m);
            as_kept = as_kept && idle_booking(hall, key, b, YILGASHE_KEY_CLASH);
            b.player = note.player;
            as_kept = as_kept && idle_booking(hall, key, b, heard(false, note.kind, note.answer));
        }
        as_kept = as_kept && idle_withdrawal(hall, key, note.player, heard(true, note.kind, note.answer));
        as_kept = as_kept && idle_withdrawal(hall, key, ~note.player, YILGASHE_KEY_CLASH);
    }
    return as_kept;
}

/* An evening under way keeps running: old notes answer as before and stay what they are, new ones are whole. */
static void evening_under_way(void)
{
    static kept_hall kept;
    static yilgashe_hall hall;
    static yilgashe_rounded round;
    static yilgashe_keyed told;
    size_t n;
    keep_evening(&kept);
    bring_over(&hall, &kept);
    CHECK(sizeof kept == 27288 && hall.waiting == 5 && hall.noted == 11 && hall.bookings[0].rating_bits == rating_bits[9]);
    CHECK(answers_as_kept(&hall, &kept));
    round = round_of(DISPATCH, hall, 0, 0);
    CHECK(one_left(&round, 0, 2) && round.served == 5 && answers_as_kept(&round.hall, &kept));
    told = yilgashe_hall_book(round.hall, 11, booking(70));
    CHECK(told.refusal == YILGASHE_ACCEPTED && noted(&told.hall, 11, 11, note_of(booking(70), YILGASHE_ACCEPTED)));
    told = yilgashe_hall_withdraw(told.hall, 12, 9);
    CHECK(told.refusal == YILGASHE_ACCEPTED && noted(&told.hall, 12, 12, note_of_guest(9, YILGASHE_WITHDRAWAL, YILGASHE_ACCEPTED)));
    CHECK(stands_for(&told.hall, 11, booking(70), YILGASHE_ACCEPTED) && answers_as_kept(&told.hall, &kept));
    for (n = 0; n < 11; n++) {
        const yilgashe_note note = hall.notes[n];
        CHECK(note.kind == (n < 9 ? YILGASHE_OLDER_BOOKING : YILGASHE_WITHDRAWAL) && noted(&told.hall, n, n, note));
    }
}

/* What an older note holds beside its guest counts as little as what a withdrawal's does. */
static void older_notes_of_any_fields(void)
{
    static yilgashe_hall hall;
    static kept_hall kept;
    size_t n;
    keep_evening(&kept);
    bring_over(&hall, &kept);
    for (n = 0; n < hall.noted; n++) {
        const yilgashe_note note = hall.notes[n];
        hall.notes[n] = own_note(n);
        hall.notes[n].player = note.player;
        hall.notes[n].kind = note.kind;
        hall.notes[n].answer = note.answer;
    }
    CHECK(answers_as_kept(&hall, &kept));
}

/* One from before there were games is the first 27,152 bytes of such a hall. Where a booking got its game was no field: any byte may
 * stand there. */
static void hall_of_before_games(void)
{
    static unsigned char bytes[27152];
    static kept_hall kept;
    static yilgashe_hall hall;
    static yilgashe_rounded told;
    size_t n;
    keep_evening(&kept);
    memcpy(bytes, &kept, sizeof bytes);
    for (n = 0; n < 64; n++) {
        bytes[n * sizeof(kept_booking) + offsetof(kept_booking, game)] = 0xab;
    }
    memset(&kept, 0, sizeof kept);
    memcpy(&kept, bytes, sizeof bytes);
    for (n = 0; n < 64; n++) {
        kept.bookings[n].game = 0;
    }
    kept.bookings[0].rating = ratings4[0];
    kept.sizes[0] = teams_of(2, 1);
    kept.served = YILGASHE_NONE_SERVED;
    bring_over(&hall, &kept);
    told = round_of(GREEDY, hall, 0, 0);
    CHECK(told.refusal == YILGASHE_ACCEPTED && told.count == 1 && seated(9, 3, 1, ~(uint64_t)0));
    CHECK(told.hall.waiting == 2 && told.hall.bookings[0].player == 2 && told.hall.bookings[1].player == 4);
    CHECK(told.hall.served == YILGASHE_NONE_SERVED && same_sizes(told.hall.sizes, hall.sizes) && answers_as_kept(&told.hall, &kept));
}

/* The n-th of these guests waits for game 0 with the n-th of these parties. */
static yilgashe_hall coming(const uint64_t *guests, const uint64_t *parties, size_t len)
{
    yilgashe_hall hall = yilgashe_hall_empty(no_games);
    size_t n;
    for (n = 0; n < len; n++) {
        yilgashe_booking b = {guests[n], 0, 0, parties[n], 0, 0};
        hall.bookings[n] = b;
    }
    hall.waiting = len;
    return hall;
}

/* A full round that scores all choices alike, with the roster's parties for guests 1, 2 and one more: 5, 0 and 5. */
static yilgashe_rounded friends_round(yilgashe_hall hall, yilgashe_team_composition sizes, uint64_t more, bool parties,
                                      bool waiting_friends)
{
    const uint64_t ids[3] = {1, 2, more}, of_rows[3] = {5, 0, 5};
    const yilgashe_soft_objectives wait = {{YILGASHE_WAIT}, {1.0}, 1};
    yilgashe_round_rules rules = no_round_rules;
    rules.constraints.brought.parties = parties;
    rules.waiting_friends = waiting_friends;
    hall.sizes[0] = sizes;
    fresh_sheets();
    return yilgashe_hall_full_round(hall, 0, rules, wait, 0, ids, 3, ratings4, 3, of_rows, 3, roles4, 3, regions4, 3, players, SHEET,
                                    qualities, SHEET);
}

/* Did the round try so many choices and seat these two, the last of those that pass? */
static bool pair_of(const yilgashe_rounded *told, uint64_t tried, uint64_t a, uint64_t b)
{
    return told->refusal == YILGASHE_ACCEPTED && told->tried == tried && told->count == 1 &&
           seated(a, b, ~(uint64_t)0, ~(uint64_t)0);
}

/* Did it try so many and seat nobody? */
static bool nobody(const yilgashe_rounded *told, uint64_t tried)
{
    return told->refusal == YILGASHE_ACCEPTED && told->tried == tried && told->count == 0 && players[0] == ~(uint64_t)0;
}

/* Friends by their bookings are seated together or not at all, whatever the roster says. */
static void waiting_friends(void)
{
    static yilgashe_rounded told;
    const yilgashe_team_composition pairs = teams_of(1, 1), alone = teams_of(1, 0);
    const uint64_t guests[3] = {1, 2, 3}, apart[3] = {7, 0, 7}, both[2] = {7, 7}, none[3] = {0, 0, 0};
    told = friends_round(coming(guests, apart, 3), pairs, 9, false, false);
    CHECK(pair_of(&told, 3, 2, 3));
    told = friends_round(coming(guests, apart, 3), pairs, 9, false, true);
    CHECK(pair_of(&told, 3, 1, 3) && told.hall.waiting == 1 && told.hall.bookings[0].player == 2);
    /* One seat parts two friends, so neither gets it; a party of one waits for nobody. */
    told = friends_round(coming(guests, both, 2), alone, 9, false, true);
    CHECK(nobody(&told, 2) && told.hall.waiting == 2);
    told = friends_round(coming(guests, both, 1), alone, 9, false, true);
    CHECK(told.refusal == YILGASHE_ACCEPTED && told.count == 1 && told.tried == 1 && players[0] == 1);
    /* Party 0 is none, and the roster's parties bind the other kind alone. */
    told = friends_round(coming(guests, none, 3), pairs, 3, false, true);
    CHECK(pair_of(&told, 3, 2, 3));
    told = friends_round(coming(guests, none, 3), pairs, 3, true, true);
    CHECK(pair_of(&told, 3, 1, 3));
}

/* Guest 3, of guest 1's party, waits for another game, and holds nobody back. */
static void friends_of_another_game(void)
{
    static yilgashe_hall hall;
    static yilgashe_rounded told;
    const uint64_t guests[3] = {1, 2, 3}, apart[3] = {7, 0, 7};
    hall = coming(guests, apart, 3);
    hall.bookings[2].game = 1;
    told = friends_round(hall, teams_of(1, 1), 9, false, true);
    CHECK(pair_of(&told, 1, 1, 2) && told.hall.waiting == 1 && told.hall.bookings[0].player == 3);
}

/* Guest 9 stayed at home. By the roster that holds back guest 1, and with him the one table there is. */
static void friends_at_home(void)
{
    static yilgashe_rounded told;
    const uint64_t guests[2] = {1, 2}, parties[2] = {5, 0};
    const yilgashe_hall hall = coming(guests, parties, 2);
    told = friends_round(hall, teams_of(1, 1), 9, true, false);
    CHECK(nobody(&told, 1) && told.hall.waiting == 2);
    told = friends_round(hall, teams_of(1, 1), 9, true, true);
    CHECK(nobody(&told, 1) && told.hall.waiting == 2);
    told = friends_round(hall, teams_of(1, 1), 9, false, true);
    CHECK(pair_of(&told, 1, 1, 2) && told.hall.waiting == 0);
}

/* Guest 2 waits twice, and is a friend by both parties: all three sit, or none. */
static void friends_of_two_parties(void)
{
    static yilgashe_rounded told;
    const uint64_t guests[4] = {1, 2, 2, 3}, parties[4] = {7, 7, 8, 8};
    const yilgashe_hall hall = coming(guests, parties, 4);
    told = friends_round(hall, teams_of(1, 1), 9, false, true);
    CHECK(nobody(&told, 6) && told.hall.waiting == 4);
    told = friends_round(hall, teams_of(2, 1), 9, false, true);
    CHECK(told.refusal == YILGASHE_ACCEPTED && told.count == 1 && told.tried == 4 && seated(1, 2, 3, ~(uint64_t)0));
    CHECK(told.hall.waiting == 0);
}

/* Each number's word, and none beyond. */
static void words(void)
{
    static const char *const due[] = {"accepted",  "over limit",  "bad roster", "short sheet",  "clock",
                                      "unranked",  "too wide",    "key clash",  "book full",    "already waiting",
                                      "hall full", "not waiting", "no seats",   "no such game", "?"};
    unsigned n;
    for (n = 0; n < 15; n++) {
        CHECK(strcmp(yilgashe_refusal_word(n), due[n]) == 0);
    }
    CHECK(YILGASHE_NO_SUCH_GAME == 13 && YILGASHE_NO_SEATS == 12 && YILGASHE_ALREADY_WAITING == 9 && YILGASHE_CLOCK == 4);
}

static void halls(void)
{
    empty_halls();
    bookings();
    notes();
    notes_of_no_call();
    bits_of_doubles();
    bits_of_bookings();
    whole_bookings();
    rounds();
    late_rounds();
    rounds_of_games();
    limits_of_games();
    rounds_of_no_game();
    bookings_for_no_game();
    sizes_over_limits();
    numbers_over_limits();
    turns();
    none_served();
    served_without_a_match();
    unused_games();
    rounds_by_any_bits();
    evening_under_way();
    older_notes_of_any_fields();
    hall_of_before_games();
    waiting_friends();
    friends_of_another_game();
    friends_at_home();
    friends_of_two_parties();
}

int main(void)
{
    words();
    queues();
    batches();
    times();
    rosters();
    matches();
    scores();
    soft_objectives();
    vectors();
    requirements();
    region_pairs();
    constraints();
    single_constraints();
    selections();
    longer_wait();
    searches();
    choices();
    halls();
    printf("%u passed\n", passed);
    return 0;
}
