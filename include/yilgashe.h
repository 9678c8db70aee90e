/*
 * yilgashe.h: the matchmaking hall, for C99 and C++ programs that link libcapi.a.
 *
 * Guests book at the counter or by phone and wait with a rating, friends and a role; searches and rounds form two teams for each
 * table. Every function here is proved to meet its definition for every input, also for input that it refuses. What an array holds past
 * the length that stands with it is in no definition, and free.
 *
 *     cc -I include program.c target/staticlib/libcapi.a
 *
 * The archive is for x86-64 Linux and needs nothing of the C library but memcpy and memset.
 *
 * STATE. The library keeps none. A queue or a hall is a struct that the caller owns: it goes in by value, and the answer carries
 * the new one. Nothing is allocated and nothing is to be freed, and any number of threads may call at once. A refused call hands
 * the queue or the hall back with the lengths that it stated and what these hold, save for what a hall notes with a key; and every call
 * hands back a hall's sizes as it got them.
 *
 * SLICES. A list crosses as a pointer and the number of its elements, in this order: `const uint64_t *ids, size_t ids_len`. The
 * proofs take for granted, and the caller sees to it, that
 *   - the pointer is not null and is aligned for its type, even where the number is 0;
 *   - that many elements stand there, and no other thread writes them during the call;
 *   - a list without const (a sheet) overlaps no other list of the call.
 * A null pointer, or a number that is larger than the list, is undefined behaviour and not a refusal.
 *
 * STRUCTS. Zero a struct before you fill it (`yilgashe_constraints rules = {0};`, in C++ `= {};`): all of it is copied across, and a
 * bool must hold 0 or 1 even where nothing reads it. Elements past a struct's `len` or `count`, and past a hall's `waiting` and
 * `noted`, mean nothing. Such a number over the array's size is no error of the caller's: the call answers YILGASHE_OVER_LIMIT.
 *
 * FLOATS. The proofs are about IEEE 754 binary64. The caller leaves the floating-point environment as it is by default: rounding to
 * nearest, flush-to-zero and denormals-are-zero off. With denormals taken for zero, yilgashe_latency_satisfied of 5e-324 turns.
 *
 * STACK. A hall is 51,864 bytes, and calls pass it by value. Leave a call 512 KB of stack.
 */
#ifndef YILGASHE_H
#define YILGASHE_H

#include <stdbool.h>
#include <stddef.h>
#include <stdint.h>
#include <string.h>

#ifdef __cplusplus
extern "C" {
#endif

/* ---- Refusals ---------------------------------------------------------------------------------------------------------------- */

/*
 * What a call says no with. A field `refusal`, and a note's `answer`, holds one of these numbers.
 *
 * Searches and generators check 1, 2, 3, 4, 12, 6, 5 in this order, but the exhaustive generator checks 3 after 6. A round of a game
 * checks 13, 1, 2, 3, 4, 6, 5; a dispatch, which names no game, 1, 2, 3, 4. Scores, constraints and selections check 1, 2, 4, 5. The
 * queue's functions and times refuse with 1 and 4 alone. A booking checks 1, 7, 8, 13, 4, 9, 10; a withdrawal 1, 7, 8, 11. A call checks
 * just what it is given.
 */
enum yilgashe_refusal {
    YILGASHE_ACCEPTED = 0,
    /* over limit: a list is longer than the limits below allow, a soft objective's kind is over 2, or a hall has a game with a size over 8,
       used or not, or a `served` that is neither 0 to 7 nor YILGASHE_NONE_SERVED */
    YILGASHE_OVER_LIMIT = 1,
    /* bad roster: columns of unequal length, a guest in two rows, a region code over 4 in a row or a region pair */
    YILGASHE_BAD_ROSTER = 2,
    /* short sheet: fewer than 64 places for guests or for qualities; for the exhaustive generator, fewer than the listing fills */
    YILGASHE_SHORT_SHEET = 3,
    /* clock: a clock or a joined time above YILGASHE_MAX_TIME; in a round, the joined time of anyone who waits, for whatever game */
    YILGASHE_CLOCK = 4,
    /* unranked: two or more scores or ratings are to be ranked, and one is NaN */
    YILGASHE_UNRANKED = 5,
    /* too wide: exhaustive listing with more than 20 entries, or full round of a game that more than 20 wait for */
    YILGASHE_TOO_WIDE = 6,
    /* key clash: the key is noted for another kind of call, another guest, or a booking that differs in any field */
    YILGASHE_KEY_CLASH = 7,
    /* book full: an unknown key, and 1,024 keys are noted */
    YILGASHE_BOOK_FULL = 8,
    /* already waiting: a booking for a waiting guest, whatever the games */
    YILGASHE_ALREADY_WAITING = 9,
    /* hall full: 64 are waiting, for all games together */
    YILGASHE_HALL_FULL = 10,
    /* not waiting: a withdrawal of a guest who isn't waiting */
    YILGASHE_NOT_WAITING = 11,
    /* no seats: the nearest generator with two teams of 0 */
    YILGASHE_NO_SEATS = 12,
    /* no such game: a booking or a round for a game number over 7 */
    YILGASHE_NO_SUCH_GAME = 13
};

/* A refusal's word, "accepted" for 0, "?" for a number that is none. */
static inline const char *yilgashe_refusal_word(unsigned refusal)
{
    static const char *const words[] = {
        "accepted",  "over limit", "bad roster",      "short sheet", "clock",       "unranked", "too wide",
        "key clash", "book full",  "already waiting", "hall full",   "not waiting", "no seats", "no such game",
    };
    return refusal < sizeof words / sizeof *words ? words[refusal] : "?";
}

/* ---- Limits ------------------------------------------------------------------------------------------------------------------ */

enum yilgashe_limit {
    YILGASHE_MAX_WAITING = 64,     /* entries of a queue, bookings that wait in a hall for all games together */
    YILGASHE_MAX_KEYS = 1024,      /* keys that a hall notes; none is ever dropped */
    YILGASHE_MAX_GAMES = 8,        /* games of a hall, with the numbers 0 to 7 */
    YILGASHE_MAX_ROSTER = 128,     /* rows of a roster column */
    YILGASHE_MAX_TEAM = 8,         /* guests of a team */
    YILGASHE_MAX_WIDTH = 32,       /* a beam's width */
    YILGASHE_MAX_REQUIREMENTS = 8, /* role requirements of a call */
    YILGASHE_MAX_PAIRS = 16,       /* region pairs of a call */
    YILGASHE_MAX_OBJECTIVES = 8,   /* soft objectives of a call */
    YILGASHE_MAX_CANDIDATES = 64,  /* candidates of a selection */
    YILGASHE_MAX_LISTED = 20,      /* entries of an exhaustive listing, bookings for the game of a full round */
    YILGASHE_MIN_SHEET = 64        /* places of each sheet of a round, a search or the nearest generator */
};

/* 2^53, the last time in nanoseconds that is taken. */
#define YILGASHE_MAX_TIME UINT64_C(9007199254740992)

/* ---- Queue and times --------------------------------------------------------------------------------------------------------- */

/* Who waits. Times are in nanoseconds; party 0 and role 0 mean none. Guest 0 is a guest like others. */
typedef struct yilgashe_queue_entry {
    uint64_t player;
    uint64_t joined;
    double rating;
    uint64_t party;
    uint32_t role;
} yilgashe_queue_entry;

/* The first `len` entries wait, in this order. All zeros is the empty queue. */
typedef struct yilgashe_queue {
    yilgashe_queue_entry entries[64];
    size_t len;
} yilgashe_queue;

typedef struct yilgashe_enqueued {
    yilgashe_queue queue;
    uint8_t refusal;
} yilgashe_enqueued;

/* The entry is blank unless found. */
typedef struct yilgashe_removed {
    yilgashe_queue queue;
    yilgashe_queue_entry entry;
    bool found;
    uint8_t refusal;
} yilgashe_removed;

typedef struct yilgashe_batch {
    yilgashe_queue kept;
    yilgashe_queue removed;
    uint8_t refusal;
} yilgashe_batch;

/* 0 ns unless found. */
typedef struct yilgashe_wait {
    uint64_t nanos;
    bool found;
    uint8_t refusal;
} yilgashe_wait;

/* 0 ns where it is refused. */
typedef struct yilgashe_duration {
    uint64_t nanos;
    uint8_t refusal;
} yilgashe_duration;

/* 0.0 where it is refused. */
typedef struct yilgashe_seconds {
    double seconds;
    uint8_t refusal;
} yilgashe_seconds;

yilgashe_queue yilgashe_queue_empty(void);

/* Appends. */
yilgashe_enqueued yilgashe_queue_enqueue(yilgashe_queue queue, yilgashe_queue_entry entry);

/* Takes the guest's first entry. */
yilgashe_removed yilgashe_queue_remove(yilgashe_queue queue, uint64_t player);

/* Takes every entry of the named guests, and keeps the order in both results. */
yilgashe_batch yilgashe_queue_remove_batch(yilgashe_queue queue, const uint64_t *players, size_t players_len);

/* How long the guest's first entry has waited: the clock minus the joined time, 0 if negative. */
yilgashe_wait yilgashe_queue_waiting_time(yilgashe_queue queue, uint64_t player, uint64_t clock);

/* The later time minus the earlier, 0 if negative. */
yilgashe_duration yilgashe_time_duration_since(uint64_t later, uint64_t earlier);

/* The time divided by 1000000000.0, rounded once. */
yilgashe_seconds yilgashe_time_as_secs_f64(uint64_t nanos);

/* ---- Roster ------------------------------------------------------------------------------------------------------------------ */

/*
 * The roster is the lounge's list of guests, one row a guest, given as columns of equal length: ids, ratings, rating deviations,
 * parties, roles, regions. A call takes the columns that it reads. A guest without a row has no observation.
 */
enum yilgashe_region {
    YILGASHE_NA = 0,
    YILGASHE_EU = 1,
    YILGASHE_ASIA = 2,
    YILGASHE_OTHER = 3,
    YILGASHE_NO_RECORD = 4 /* no player record: constraints on regions pass over this guest */
};

/* The refusal that the six columns would meet, or 0. */
uint8_t yilgashe_roster_check(const uint64_t *ids, size_t ids_len, const double *ratings, size_t ratings_len,
                              const double *deviations, size_t deviations_len, const uint64_t *parties, size_t parties_len,
                              const uint32_t *roles, size_t roles_len, const uint8_t *regions, size_t regions_len);

/* ---- Quality and scores ------------------------------------------------------------------------------------------------------ */

/* The first `len` guests. */
typedef struct yilgashe_team {
    uint64_t players[8];
    size_t len;
} yilgashe_team;

typedef struct yilgashe_proposed_match {
    yilgashe_team a;
    yilgashe_team b;
} yilgashe_proposed_match;

/* The weights of a match's score. */
typedef struct yilgashe_match_objective {
    double quality;
    double wait;
    double ping;
    double uncertainty;
} yilgashe_match_objective;

/* 0.0 where it is refused. */
typedef struct yilgashe_scored {
    double value;
    uint8_t refusal;
} yilgashe_scored;

enum yilgashe_soft_kind {
    YILGASHE_SKILL = 0,   /* the match's quality */
    YILGASHE_LATENCY = 1, /* 1.0 minus the smaller of the average rating / 200.0 and 1.0, over both teams */
    YILGASHE_WAIT = 2     /* 0.5 */
};

/* The first `len` soft objectives: a kind, and its weight at the same place. */
typedef struct yilgashe_soft_objectives {
    uint8_t kinds[8];
    double weights[8];
    size_t len;
} yilgashe_soft_objectives;

typedef struct yilgashe_match_objective_vector {
    double skill;
    double role;
    double latency;
    double party;
    double wait;
    double utilization;
} yilgashe_match_objective_vector;

/* A weight for each coordinate. */
typedef struct yilgashe_objective_weights {
    double skill;
    double role;
    double latency;
    double party;
    double wait;
    double utilization;
} yilgashe_objective_weights;

/* 1.0 minus the smaller of 1.0 and the difference of the teams' average ratings / 400.0; within 0.0 to 1.0. */
yilgashe_scored yilgashe_match_quality(yilgashe_proposed_match proposed, const uint64_t *ids, size_t ids_len, const double *ratings,
                                       size_t ratings_len);

/*
 * The quality, less the longest wait in minutes, the ping (0.0) and the average deviation / 350.0, each times its weight. The wait
 * is read from a guest's first entry in the queue.
 */
yilgashe_scored yilgashe_match_score(yilgashe_match_objective objective, yilgashe_proposed_match proposed, yilgashe_queue queue,
                                     const uint64_t *ids, size_t ids_len, const double *ratings, size_t ratings_len,
                                     const double *deviations, size_t deviations_len, uint64_t clock);

/* A soft objective's value for the match, without its weight. */
yilgashe_scored yilgashe_soft_value(uint8_t kind, double weight, yilgashe_proposed_match proposed, const uint64_t *ids,
                                    size_t ids_len, const double *ratings, size_t ratings_len);

/* The sum of weight times value, in the list's order. */
yilgashe_scored yilgashe_soft_score(yilgashe_soft_objectives objectives, yilgashe_proposed_match proposed, const uint64_t *ids,
                                    size_t ids_len, const double *ratings, size_t ratings_len);

/* The weighted sum of the coordinates, the wait's share taken off. */
double yilgashe_vector_scalarize(yilgashe_match_objective_vector vector, yilgashe_objective_weights weights);

/* Is the vector nowhere worse than the other, and somewhere better? A lower wait is better; NaN is neither better nor worse. */
bool yilgashe_vector_dominates(yilgashe_match_objective_vector vector, yilgashe_match_objective_vector other);

/* All zeros. */
yilgashe_match_objective_vector yilgashe_vector_default(void);

/* 1.0, 0.5, 0.3, 0.2, 0.8 and 0.0. */
yilgashe_objective_weights yilgashe_weights_default(void);

/* ---- Constraints and policy -------------------------------------------------------------------------------------------------- */

/* How many of a role there must be and, where it is bounded, may be. A requirement for role 0 counts nobody. */
typedef struct yilgashe_role_requirement {
    uint32_t role;
    size_t least;
    bool bounded;
    size_t most;
} yilgashe_role_requirement;

/* The first `len` requirements. */
typedef struct yilgashe_role_requirements {
    yilgashe_role_requirement items[8];
    size_t len;
} yilgashe_role_requirements;

/* Two regions that may play each other, either way round. */
typedef struct yilgashe_region_pair {
    uint8_t first;
    uint8_t second;
} yilgashe_region_pair;

/* The first `count` pairs are allowed. */
typedef struct yilgashe_region_constraint {
    yilgashe_region_pair pairs[16];
    size_t count;
} yilgashe_region_constraint;

typedef struct yilgashe_team_size_constraint {
    size_t a;
    size_t b;
} yilgashe_team_size_constraint;

/* Which constraints a call brings. */
typedef struct yilgashe_brought {
    bool sizes;
    bool roles;
    bool parties;
    bool latency;
    bool regions;
} yilgashe_brought;

/* What is not brought is not read. All zeros brings none. */
typedef struct yilgashe_constraints {
    yilgashe_brought brought;
    yilgashe_team_size_constraint sizes;
    yilgashe_role_requirements roles;
    yilgashe_region_constraint regions;
} yilgashe_constraints;

/* False where it is refused. */
typedef struct yilgashe_verdict {
    bool satisfied;
    uint8_t refusal;
} yilgashe_verdict;

enum yilgashe_fault {
    YILGASHE_VALID = 0,
    YILGASHE_WRONG_SIZE = 1,
    YILGASHE_TOO_FEW = 2, /* of the requirement at the place */
    YILGASHE_TOO_MANY = 3 /* likewise */
};

/* The first fault of a team: size, then for each requirement the minimum, then the maximum. On a refusal the fault is YILGASHE_VALID and
 * the place 0. */
typedef struct yilgashe_validity {
    size_t place;
    uint8_t fault;
    uint8_t refusal;
} yilgashe_validity;

/* Are the teams of just these sizes? */
yilgashe_verdict yilgashe_sizes_satisfied(yilgashe_team_size_constraint sizes, yilgashe_proposed_match proposed);

/* Are the requirements met by the roster's roles, counted over both teams? */
yilgashe_verdict yilgashe_roles_satisfied(yilgashe_role_requirements requirements, yilgashe_proposed_match proposed,
                                          const uint64_t *ids, size_t ids_len, const uint32_t *roles, size_t roles_len);

/* Is every roster row of a seated guest's party seated? */
yilgashe_verdict yilgashe_parties_satisfied(yilgashe_proposed_match proposed, const uint64_t *ids, size_t ids_len,
                                            const uint64_t *parties, size_t parties_len);

/* Is every rostered rating above 0.0? */
yilgashe_verdict yilgashe_latency_satisfied(yilgashe_proposed_match proposed, const uint64_t *ids, size_t ids_len,
                                            const double *ratings, size_t ratings_len);

/* Is each recorded guest of team A with each of team B an allowed pair? */
yilgashe_verdict yilgashe_regions_satisfied(yilgashe_region_constraint allowed, yilgashe_proposed_match proposed,
                                            const uint64_t *ids, size_t ids_len, const uint8_t *regions, size_t regions_len);

/* All constraints that are brought. */
yilgashe_verdict yilgashe_constraints_satisfied(yilgashe_constraints constraints, yilgashe_proposed_match proposed,
                                                const uint64_t *ids, size_t ids_len, const double *ratings, size_t ratings_len,
                                                const uint64_t *parties, size_t parties_len, const uint32_t *roles,
                                                size_t roles_len, const uint8_t *regions, size_t regions_len);

/* One team's size and roles. */
yilgashe_validity yilgashe_team_validate(size_t size, yilgashe_role_requirements requirements, yilgashe_team team,
                                         const uint64_t *ids, size_t ids_len, const uint32_t *roles, size_t roles_len);

/* The soft objectives' score, minus infinity where a constraint is violated. */
yilgashe_scored yilgashe_policy_score(yilgashe_constraints constraints, yilgashe_soft_objectives objectives,
                                      yilgashe_proposed_match proposed, const uint64_t *ids, size_t ids_len, const double *ratings,
                                      size_t ratings_len, const uint64_t *parties, size_t parties_len, const uint32_t *roles,
                                      size_t roles_len, const uint8_t *regions, size_t regions_len);

/* ---- Selections -------------------------------------------------------------------------------------------------------------- */

/* The first `len` candidates. */
typedef struct yilgashe_candidates {
    yilgashe_proposed_match items[64];
    size_t len;
} yilgashe_candidates;

/* The first `len` places of the given list, from 0. */
typedef struct yilgashe_selected {
    size_t places[64];
    size_t len;
    uint8_t refusal;
} yilgashe_selected;

/* The best by score, the last of equal best. */
yilgashe_selected yilgashe_select_greedy(yilgashe_soft_objectives objectives, yilgashe_candidates candidates, const uint64_t *ids,
                                         size_t ids_len, const double *ratings, size_t ratings_len);

/* The first whose score is at or above the minimum. */
yilgashe_selected yilgashe_select_threshold(double minimum, yilgashe_soft_objectives objectives, yilgashe_candidates candidates,
                                            const uint64_t *ids, size_t ids_len, const double *ratings, size_t ratings_len);

/* Per objective, without its weight, those within 0.001 of the best, until one is left. */
yilgashe_selected yilgashe_select_lexicographic(yilgashe_soft_objectives objectives, yilgashe_candidates candidates,
                                                const uint64_t *ids, size_t ids_len, const double *ratings, size_t ratings_len);

/* All of them, the best first, equal ones in the list's order; the score is the skill weight times the quality. */
yilgashe_selected yilgashe_select_weighted(yilgashe_objective_weights weights, yilgashe_candidates candidates, const uint64_t *ids,
                                           size_t ids_len, const double *ratings, size_t ratings_len);

/* ---- Searches and generators ------------------------------------------------------------------------------------------------- */

/*
 * Matches are written to two sheets of the caller's: `players` match by match, team A then team B, and `qualities`, one a match.
 * Match m of teams of a and b guests begins at players[m * (a + b)]. What stands behind the last match is left as it was, and so
 * are both sheets where the call is refused. 64 places each are enough for every search, round and nearest listing.
 */

/* The sizes of the two teams, each 0 to 8. */
typedef struct yilgashe_team_composition {
    size_t a;
    size_t b;
} yilgashe_team_composition;

/* How many partial matches a beam search keeps, 0 to 32. */
typedef struct yilgashe_beam_search {
    size_t width;
} yilgashe_beam_search;

/* At most this many matches. */
typedef struct yilgashe_greedy_nearest_generator {
    size_t max;
} yilgashe_greedy_nearest_generator;

/* How many matches were written, 0 where it is refused. */
typedef struct yilgashe_formed {
    size_t count;
    uint8_t refusal;
} yilgashe_formed;

/* In queue order, each guest draws the nearest ratings to their table; of equally near ones the earlier joined time, then the earlier
   place. The qualities are those of the matches. A guest may stand in the queue twice, with other ratings too: nobody is seated twice,
   and later copies of an entry that joined no earlier change no match. */
yilgashe_formed yilgashe_search_greedy(yilgashe_queue queue, yilgashe_team_composition sizes, const uint64_t *ids, size_t ids_len,
                                       const double *ratings, size_t ratings_len, uint64_t *players, size_t players_len,
                                       double *qualities, size_t qualities_len);

/* In queue order, each guest's table grows by the partial matches of best score. Whoever stands in the queue twice is seated once at
   most; but a copy counts as one more guest to draw from, and may change the matches. */
yilgashe_formed yilgashe_search_beam(yilgashe_beam_search search, yilgashe_queue queue, yilgashe_team_composition sizes,
                                     yilgashe_match_objective objective, const uint64_t *ids, size_t ids_len, const double *ratings,
                                     size_t ratings_len, const double *deviations, size_t deviations_len, uint64_t clock,
                                     uint64_t *players, size_t players_len, double *qualities, size_t qualities_len);

/* Neighbours by rating (1000.0 where it is missing), in chunks; quality 0.0. */
yilgashe_formed yilgashe_generate_nearest(yilgashe_greedy_nearest_generator generator, yilgashe_queue queue,
                                          yilgashe_team_composition sizes, const uint64_t *ids, size_t ids_len,
                                          const double *ratings, size_t ratings_len, uint64_t *players, size_t players_len,
                                          double *qualities, size_t qualities_len);

/* Every choice of a + b entries in ascending lexicographic order, its first a for team A; quality 0.0. At most 184,756 matches. */
yilgashe_formed yilgashe_generate_exhaustive(yilgashe_queue queue, yilgashe_team_composition sizes, uint64_t *players,
                                             size_t players_len, double *qualities, size_t qualities_len);

/* The teams seat nobody where no match was found, and nothing is tried where it is refused. */
typedef struct yilgashe_chosen {
    yilgashe_proposed_match teams;
    uint64_t tried;
    bool found;
    uint8_t refusal;
} yilgashe_chosen;

/* The best by the soft objectives among all choices that meet the constraints, the last of equal best, and how many were tried. */
yilgashe_chosen yilgashe_best_choice(yilgashe_queue queue, yilgashe_team_composition sizes, yilgashe_constraints constraints,
                                     yilgashe_soft_objectives objectives, const uint64_t *ids, size_t ids_len,
                                     const double *ratings, size_t ratings_len, const uint64_t *parties, size_t parties_len,
                                     const uint32_t *roles, size_t roles_len, const uint8_t *regions, size_t regions_len);

/* ---- The hall ---------------------------------------------------------------------------------------------------------------- */

/* The kind of a note. */
enum yilgashe_kind {
    YILGASHE_BOOKING = 0,
    YILGASHE_WITHDRAWAL = 1,
    YILGASHE_OLDER_BOOKING = 2 /* a booking that was noted before notes held more than its guest; no call makes such a note */
};

/* What stands in the place of a game's number where no game was served. */
enum yilgashe_served { YILGASHE_NONE_SERVED = 255 };

/*
 * The sizes of the games 0 to 7, which share a hall's places and its keys. A game that is not used has sizes 0 and 0, and so has each
 * that an initializer leaves out. Here game 0 is five against five, game 1 two against two, and the others are not used:
 *
 *     yilgashe_games games = {{{5, 5}, {2, 2}}};
 */
typedef struct yilgashe_games {
    yilgashe_team_composition sizes[8];
} yilgashe_games;

/*
 * What a booking brings beside its key, and what waits. Party 0 and role 0 mean none. The game is 0 to 7; one that is not used is taken too.
 * The rating comes as its bits, since a key stands for these; searches and rounds go by the double that they are of. Fill it with
 * yilgashe_rating_bits and read it with yilgashe_rating: a double that is assigned to it would be cut to a whole number.
 */
typedef struct yilgashe_booking {
    uint64_t player;
    uint64_t joined;
    uint64_t rating_bits;
    uint64_t party;
    uint32_t role;
    uint8_t game;
} yilgashe_booking;

/* The 64 bits of a rating, as a booking and a note hold them. */
static inline uint64_t yilgashe_rating_bits(double rating)
{
    uint64_t rating_bits;
    memcpy(&rating_bits, &rating, sizeof rating_bits);
    return rating_bits;
}

/* The rating that the bits are of. */
static inline double yilgashe_rating(uint64_t rating_bits)
{
    double rating;
    memcpy(&rating, &rating_bits, sizeof rating);
    return rating;
}

/*
 * What is noted beside a key: the booking that came with it, the kind of the call, and the refusal that it got. The note of a withdrawal holds
 * its guest alone, and so does that of an older booking; their other fields are written 0 and read by no call. A booking that was refused
 * is noted as it came, with a game over 7 too. A note with another kind, or with an answer that its kind cannot get, comes from no call:
 * whoever calls with its key gets YILGASHE_KEY_CLASH.
 */
typedef struct yilgashe_note {
    uint64_t player;
    uint64_t joined;
    uint64_t rating_bits;
    uint64_t party;
    uint32_t role;
    uint8_t game;
    uint8_t kind;
    uint8_t answer;
} yilgashe_note;

/*
 * The first `waiting` bookings wait, in the order of coming, for whatever game. The first `noted` keys are noted, in the order of coming,
 * each with the note at its place. `sizes` are those of the eight games. `served` is the last game that a dispatch served,
 * YILGASHE_NONE_SERVED where none was: only yilgashe_hall_dispatch changes it.
 *
 * Begin with yilgashe_hall_empty. All zeros is no empty hall: it is one without a game, of which game 0 was served last.
 *
 * More than 64 waiting or 1,024 noted, a size over 8 in any game, or a `served` of 8 to 254 is YILGASHE_OVER_LIMIT in every call. A booking
 * for a game over 7, which no call accepts and only a hall from elsewhere can hold, keeps its place and is in no round.
 */
typedef struct yilgashe_hall {
    yilgashe_booking bookings[64];
    size_t waiting;
    uint64_t keys[1024];
    yilgashe_note notes[1024];
    size_t noted;
    yilgashe_team_composition sizes[8];
    uint8_t served;
} yilgashe_hall;

/* The hall as a keyed call leaves it, and its answer. */
typedef struct yilgashe_keyed {
    yilgashe_hall hall;
    uint8_t refusal;
} yilgashe_keyed;

/*
 * What the match of a full round must meet: the constraints that are brought and, where waiting friends are, that no seated guest has
 * a friend who is left waiting. Friends are guests who wait for the round's game with the same party in their bookings, other than 0; the
 * roster's parties do not count, so a friend who stayed at home, or waits for another game, holds nobody back. Seated is seated in either
 * team. Whoever waits twice, with two parties, has the friends of both. All zeros brings nothing, and what a designated initializer leaves
 * out is not brought:
 *
 *     yilgashe_round_rules rules = {.waiting_friends = true};
 *
 * Beside constraints.brought.parties, which goes by the roster's rows, both have to be met.
 */
typedef struct yilgashe_round_rules {
    yilgashe_constraints constraints;
    bool waiting_friends;
} yilgashe_round_rules;

/*
 * The hall as a round leaves it, how many matches stand on the sheets, how many choices a full round tried, and which game a dispatch
 * served: YILGASHE_NONE_SERVED where it served none or was refused, and in the answer of every other round. Where a round is refused, both
 * numbers are 0, and hall and sheets are as they were.
 */
typedef struct yilgashe_rounded {
    yilgashe_hall hall;
    size_t count;
    uint64_t tried;
    uint8_t served;
    uint8_t refusal;
} yilgashe_rounded;

/* Nobody waits, no key is noted, and no game was served. Sizes over 8 are taken, and refused by every call that gets this hall. */
yilgashe_hall yilgashe_hall_empty(yilgashe_games games);

/*
 * A booking or a withdrawal under a key of the caller's choice. A call that is sent again with its key gets the answer that it got
 * and changes nothing. Refusals 4, 9, 10, 11 and 13 are noted with the key, so a corrected call needs a new key; 1, 7 and 8 change
 * nothing. A guest waits for one game at a time: 9 looks at all of them. A withdrawal names no game.
 *
 * A key stands for the whole booking. One is sent again where player, game, joined, rating_bits, party and role all agree with the note, and
 * is YILGASHE_KEY_CLASH where one of them differs, whatever it brings. Equal numbers are not enough: 0.0 and -0.0 differ in their bits, and
 * so may two NaNs. Under a key whose note is older, every booking of its guest is the noted one sent again.
 */
yilgashe_keyed yilgashe_hall_book(yilgashe_hall hall, uint64_t key, yilgashe_booking booking);
yilgashe_keyed yilgashe_hall_withdraw(yilgashe_hall hall, uint64_t key, uint64_t player);

/*
 * A round of a game takes that game's sizes, and its bookings alone, in the order booked: they are the queue that is searched, by which the
 * limit of 20, waiting friends and the beam's wait go. The seated leave, with every booking of theirs. Everybody else, of whatever game,
 * goes on waiting in the order of before, and `served` of the hall stays. A game number over 7 is YILGASHE_NO_SUCH_GAME before any other
 * refusal. Of a game that is not used a full round hands out the one match that seats nobody, if it meets the rules, and the other rounds
 * form none.
 */

/* The greedy search: of equally near guests the longer wait goes first. */
yilgashe_rounded yilgashe_hall_greedy_round(yilgashe_hall hall, uint8_t game, uint64_t clock, const uint64_t *ids, size_t ids_len,
                                            const double *ratings, size_t ratings_len, uint64_t *players, size_t players_len,
                                            double *qualities, size_t qualities_len);

/* The beam search. */
yilgashe_rounded yilgashe_hall_beam_round(yilgashe_hall hall, yilgashe_beam_search search, uint8_t game,
                                          yilgashe_match_objective objective, uint64_t clock, const uint64_t *ids, size_t ids_len,
                                          const double *ratings, size_t ratings_len, const double *deviations,
                                          size_t deviations_len, uint64_t *players, size_t players_len, double *qualities,
                                          size_t qualities_len);

/* The best choice, if any meets the rules, with quality 0.0. */
yilgashe_rounded yilgashe_hall_full_round(yilgashe_hall hall, uint8_t game, yilgashe_round_rules rules,
                                          yilgashe_soft_objectives objectives, uint64_t clock, const uint64_t *ids, size_t ids_len,
                                          const double *ratings, size_t ratings_len, const uint64_t *parties, size_t parties_len,
                                          const uint32_t *roles, size_t roles_len, const uint8_t *regions, size_t regions_len,
                                          uint64_t *players, size_t players_len, double *qualities, size_t qualities_len);

/*
 * The greedy round of the game whose turn it is: the next one in circular order behind the last one served that has seats (a + b above 0),
 * and at least as many bookings as seats. Game 7 is followed by game 0, the last one served comes last itself, and where none was served
 * it begins at game 0. That game is then served, whether its round forms a match or none: `served` names it, in the answer and in the hall.
 * The sheets are read by its sizes:
 *
 *     if (told.served != YILGASHE_NONE_SERVED)
 *         sizes = told.hall.sizes[told.served];
 *
 * Where no game has enough, none is served: the count is 0, and the hall is as it was, its `served` too. The checks are those of a greedy
 * round and come first, also where no game has enough. A game that has enough before each of eight dispatches in a row, refused ones not
 * counted, is served by one of them, whatever other calls stand between.
 */
yilgashe_rounded yilgashe_hall_dispatch(yilgashe_hall hall, uint64_t clock, const uint64_t *ids, size_t ids_len,
                                        const double *ratings, size_t ratings_len, uint64_t *players, size_t players_len,
                                        double *qualities, size_t qualities_len);

#ifdef __cplusplus
}
#endif

#endif
