/* A short evening at the lounge. bindings/rust/examples/evening.rs tells the same story and prints the same text. */
#include "yilgashe.h"

#include <inttypes.h>
#include <stdio.h>

#define MINUTE UINT64_C(60000000000)
enum { GUESTS = 8 };
static const uint64_t ids[GUESTS] = {1, 2, 3, 4, 5, 6, 7, 8};
static const double ratings[GUESTS] = {1000.0, 1280.0, 1010.0, 1090.0, 1150.0, 1200.0, 1300.0, 1180.0};

/* Says a call's answer, and gives back the hall that it left. */
static yilgashe_hall told(uint64_t key, const char *does, yilgashe_keyed answer)
{
    printf("key %" PRIu64 " %s: %s\n", key, does, yilgashe_refusal_word(answer.refusal));
    return answer.hall;
}

static yilgashe_hall book(yilgashe_hall hall, uint64_t key, uint64_t guest, double rating, uint8_t game)
{
    const yilgashe_booking booking = {guest, guest * MINUTE, yilgashe_rating_bits(rating), 0, 0, game};
    return told(key, "books", yilgashe_hall_book(hall, key, booking));
}

static void say_team(const char *before, const uint64_t *players, size_t size)
{
    size_t n;
    printf("%s[", before);
    for (n = 0; n < size; n++) {
        printf("%s%" PRIu64, n == 0 ? "" : ", ", players[n]);
    }
    printf("]");
}

/* Says which game was served and who plays, and gives back the hall that the dispatch left. */
static yilgashe_hall dispatch(yilgashe_hall hall, uint64_t minute)
{
    uint64_t players[YILGASHE_MIN_SHEET];
    double qualities[YILGASHE_MIN_SHEET];
    const yilgashe_rounded round = yilgashe_hall_dispatch(hall, minute * MINUTE, ids, GUESTS, ratings, GUESTS, players,
                                                          YILGASHE_MIN_SHEET, qualities, YILGASHE_MIN_SHEET);
    size_t m;
    if (round.served == YILGASHE_NONE_SERVED) {
        puts(round.refusal == YILGASHE_ACCEPTED ? "no game has enough" : yilgashe_refusal_word(round.refusal));
    }
    for (m = 0; m < round.count; m++) {
        const yilgashe_team_composition sizes = round.hall.sizes[round.served];
        const uint64_t *seats = players + m * (sizes.a + sizes.b);
        printf("game %u", round.served);
        say_team(": ", seats, sizes.a);
        say_team(" against ", seats + sizes.a, sizes.b);
        printf(", quality %.2f\n", qualities[m]);
    }
    return round.hall;
}

int main(void)
{
    const yilgashe_games games = {{{2, 2}, {1, 1}}}; /* game 0 and game 1 */
    yilgashe_hall hall = yilgashe_hall_empty(games);
    uint64_t guest;

    for (guest = 1; guest <= GUESTS; guest++) {
        hall = book(hall, 100 + guest, guest, ratings[guest - 1], guest <= 4 ? 0 : 1);
    }
    hall = book(hall, 103, 3, 1010.0, 0); /* the phone lost the answer and sends it again */
    hall = book(hall, 103, 3, 1020.0, 0); /* with another rating it is another booking, and needs another key */
    hall = book(hall, 109, 1, 1000.0, 1); /* waits for game 0 */
    hall = told(110, "leaves", yilgashe_hall_withdraw(hall, 110, 5));
    hall = dispatch(hall, 10);
    hall = dispatch(hall, 11);
    hall = dispatch(hall, 12);
    printf("still waiting: %zu\n", hall.waiting);
    return 0;
}
