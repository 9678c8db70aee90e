/*
 * A dispatch in plain C by document 02's 2.4 and 2.2: what the library's is timed beside. It takes the hall by value and hands it back
 * by value, as plain.c does.
 */
#include "plain.h"

#include <math.h>

typedef struct roster {
    const uint64_t *ids;
    const double *ratings;
    size_t rows;
} roster;

/* Those who wait for one game, and who of them is used. */
typedef struct search {
    const yilgashe_booking *own[YILGASHE_MAX_WAITING];
    bool used[YILGASHE_MAX_WAITING];
    size_t count;
    yilgashe_team_composition sizes;
    roster roster;
} search;

/* ---- the checks, and whose turn it is ---------------------------------------------------------------------------------------- */

/* Rows mostly ascend; where they do not, each is held against all before it. */
static bool has_doubles(const uint64_t *ids, size_t len)
{
    size_t i, j;
    for (i = 1; i < len; i++) {
        if (ids[i] <= ids[i - 1]) {
            break;
        }
    }
    for (; i < len; i++) {
        for (j = 0; j < i; j++) {
            if (ids[i] == ids[j]) {
                return true;
            }
        }
    }
    return false;
}

static bool is_late(const yilgashe_hall *hall, uint64_t clock)
{
    size_t i;
    for (i = 0; i < hall->waiting; i++) {
        if (hall->bookings[i].joined > YILGASHE_MAX_TIME) {
            return true;
        }
    }
    return clock > YILGASHE_MAX_TIME;
}

/* The game whose turn it is, or YILGASHE_NONE_SERVED; where that was served last, this begins at 255 + 1, a multiple of eight. */
static uint8_t next_game(const yilgashe_hall *hall)
{
    size_t waiting[256] = {0};
    size_t i;
    for (i = 0; i < hall->waiting; i++) {
        waiting[hall->bookings[i].game]++;
    }
    for (i = 1; i <= YILGASHE_MAX_GAMES; i++) {
        const size_t game = (hall->served + i) % YILGASHE_MAX_GAMES;
        const size_t seats = hall->sizes[game].a + hall->sizes[game].b;
        if (seats > 0 && waiting[game] >= seats) {
            return (uint8_t)game;
        }
    }
    return YILGASHE_NONE_SERVED;
}

/* ---- the greedy search ------------------------------------------------------------------------------------------------------- */

/* Whoever has no row counts in the length. */
static double average(const roster *roster, const uint64_t *players, size_t len)
{
    double sum = 0.0;
    size_t i, row;
    for (i = 0; i < len; i++) {
        for (row = 0; row < roster->rows && roster->ids[row] != players[i]; row++) {
        }
        if (row < roster->rows) {
            sum += roster->ratings[row];
        }
    }
    return sum / (double)(len > 0 ? len : 1);
}

/* Of a NaN share too. */
static double quality(const search *search, const uint64_t *seats)
{
    const size_t a = search->sizes.a;
    const double of_a = average(&search->roster, seats, a);
    const double of_b = average(&search->roster, seats + a, search->sizes.b);
    const double share = fabs(of_a - of_b) / 400.0;
    return share < 1.0 ? 1.0 - share : 0.0;
}

static void use(search *search, uint64_t player)
{
    size_t i;
    for (i = 0; i < search->count; i++) {
        search->used[i] |= search->own[i]->player == player;
    }
}

/* The place of the nearest, of equally near ones of the one who joined first; or how many there are. */
static size_t nearest(const search *search, double reference)
{
    size_t i, best = search->count;
    double least = 0.0;
    for (i = 0; i < search->count; i++) {
        const double distance = fabs(yilgashe_rating(search->own[i]->rating_bits) - reference);
        if (search->used[i] || !isfinite(distance)) {
            continue;
        }
        if (best == search->count || distance < least ||
            (distance == least && search->own[i]->joined < search->own[best]->joined)) {
            best = i;
            least = distance;
        }
    }
    return best;
}

/* Seats both teams, A before B, or says that nobody can be picked. */
static bool fill(search *search, size_t anchor, uint64_t *seats)
{
    const yilgashe_team_composition sizes = search->sizes;
    double reference = yilgashe_rating(search->own[anchor]->rating_bits);
    size_t a = 1, b = 0;
    seats[0] = search->own[anchor]->player;
    use(search, seats[0]);
    while (a < sizes.a || b < sizes.b) {
        const size_t at = nearest(search, reference);
        if (at == search->count) {
            return false;
        }
        use(search, search->own[at]->player);
        if (a < sizes.a && (a <= b || b == sizes.b)) {
            seats[a++] = search->own[at]->player;
            reference = average(&search->roster, seats, a);
        } else {
            seats[sizes.a + b++] = search->own[at]->player;
        }
    }
    return true;
}

/* Lays the matches on the sheets and says how many there are. */
static size_t greedy(search *search, uint64_t *players, double *qualities)
{
    uint64_t seats[2 * YILGASHE_MAX_TEAM];
    const size_t places = search->sizes.a + search->sizes.b;
    size_t i, anchor, count = 0;
    for (anchor = 0; anchor < search->count && search->sizes.a > 0; anchor++) {
        if (search->used[anchor] || !fill(search, anchor, seats)) {
            continue;
        }
        for (i = 0; i < places; i++) {
            players[count * places + i] = seats[i];
        }
        qualities[count++] = quality(search, seats);
    }
    return count;
}

/* ---- the call ---------------------------------------------------------------------------------------------------------------- */

/* The seated leave, with all their bookings. */
static void depart(yilgashe_hall *hall, const uint64_t *seated, size_t len)
{
    size_t i, j, kept = 0;
    for (i = 0; i < hall->waiting; i++) {
        for (j = 0; j < len && seated[j] != hall->bookings[i].player; j++) {
        }
        if (j == len) {
            hall->bookings[kept++] = hall->bookings[i];
        }
    }
    hall->waiting = kept;
}

static size_t serve(yilgashe_hall *hall, uint8_t game, roster roster, uint64_t *players, double *qualities)
{
    search search = {{0}, {0}, 0, hall->sizes[game], roster};
    size_t i, count;
    for (i = 0; i < hall->waiting; i++) {
        if (hall->bookings[i].game == game) {
            search.own[search.count++] = &hall->bookings[i];
        }
    }
    count = greedy(&search, players, qualities);
    depart(hall, players, count * (search.sizes.a + search.sizes.b));
    hall->served = game;
    return count;
}

yilgashe_rounded plain_dispatch(yilgashe_hall hall, uint64_t clock, const uint64_t *ids, size_t ids_len, const double *ratings,
                                size_t ratings_len, uint64_t *players, size_t players_len, double *qualities, size_t qualities_len)
{
    const roster roster = {ids, ratings, ids_len};
    uint8_t refusal = YILGASHE_ACCEPTED, game = YILGASHE_NONE_SERVED;
    size_t count = 0;
    if (is_over(&hall) || ids_len > YILGASHE_MAX_ROSTER || ratings_len > YILGASHE_MAX_ROSTER) {
        refusal = YILGASHE_OVER_LIMIT;
    } else if (ids_len != ratings_len || has_doubles(ids, ids_len)) {
        refusal = YILGASHE_BAD_ROSTER;
    } else if (players_len < YILGASHE_MIN_SHEET || qualities_len < YILGASHE_MIN_SHEET) {
        refusal = YILGASHE_SHORT_SHEET;
    } else if (is_late(&hall, clock)) {
        refusal = YILGASHE_CLOCK;
    } else {
        game = next_game(&hall);
    }
    if (game != YILGASHE_NONE_SERVED) {
        count = serve(&hall, game, roster, players, qualities);
    }
    return (yilgashe_rounded){hall, count, 0, game, refusal};
}
