/*
 * The hall's keyed calls in plain C by the papers' rules, and a round that seats nobody: what the library's calls are timed beside.
 * Each takes the hall by value and hands it back by value: the caller copies it in, the call copies it out, and nothing else does.
 */
#include "plain.h"

#include <string.h>

/* The place of a noted key, or how many are noted. */
static size_t place_of(const yilgashe_hall *hall, uint64_t key)
{
    size_t i = 0;
    while (i < hall->noted && hall->keys[i] != key) {
        i++;
    }
    return i;
}

/* The place of the guest's first booking, or how many wait. */
static size_t booking_of(const yilgashe_hall *hall, uint64_t player)
{
    size_t i = 0;
    while (i < hall->waiting && hall->bookings[i].player != player) {
        i++;
    }
    return i;
}

static bool is_same(const yilgashe_note *note, const yilgashe_booking *booking)
{
    return note->player == booking->player && note->game == booking->game && note->joined == booking->joined &&
           note->rating_bits == booking->rating_bits && note->party == booking->party && note->role == booking->role;
}

/* Does the note stand for this booking, whole or, where it is older, by its guest? */
static bool is_of_booking(const yilgashe_note *note, const yilgashe_booking *booking)
{
    return note->kind == YILGASHE_BOOKING ? is_same(note, booking)
                                          : note->kind == YILGASHE_OLDER_BOOKING && note->player == booking->player;
}

/* What a note says to a booking with its key. */
static uint8_t heard_booking(const yilgashe_note *note, const yilgashe_booking *booking)
{
    const uint8_t answer = note->answer;
    const bool readable = answer == YILGASHE_ACCEPTED || answer == YILGASHE_CLOCK || answer == YILGASHE_ALREADY_WAITING ||
                          answer == YILGASHE_HALL_FULL || answer == YILGASHE_NO_SUCH_GAME;
    return readable && is_of_booking(note, booking) ? answer : (uint8_t)YILGASHE_KEY_CLASH;
}

static uint8_t heard_withdrawal(const yilgashe_note *note, uint64_t player)
{
    const uint8_t answer = note->answer;
    const bool readable = answer == YILGASHE_ACCEPTED || answer == YILGASHE_NOT_WAITING;
    return readable && note->kind == YILGASHE_WITHDRAWAL && note->player == player ? answer : (uint8_t)YILGASHE_KEY_CLASH;
}

static void take_note(yilgashe_hall *hall, uint64_t key, yilgashe_note note)
{
    hall->keys[hall->noted] = key;
    hall->notes[hall->noted] = note;
    hall->noted++;
}

static void note_booking(yilgashe_hall *hall, uint64_t key, const yilgashe_booking *booking, uint8_t answer)
{
    const yilgashe_note note = {booking->player, booking->joined, booking->rating_bits, booking->party,
                                booking->role,   booking->game,   YILGASHE_BOOKING,     answer};
    take_note(hall, key, note);
}

static void note_withdrawal(yilgashe_hall *hall, uint64_t key, uint64_t player, uint8_t answer)
{
    const yilgashe_note note = {player, 0, 0, 0, 0, 0, YILGASHE_WITHDRAWAL, answer};
    take_note(hall, key, note);
}

static uint8_t booking_answer(const yilgashe_hall *hall, const yilgashe_booking *booking)
{
    if (is_no_game(booking->game)) {
        return YILGASHE_NO_SUCH_GAME;
    }
    if (booking->joined > YILGASHE_MAX_TIME) {
        return YILGASHE_CLOCK;
    }
    if (booking_of(hall, booking->player) < hall->waiting) {
        return YILGASHE_ALREADY_WAITING;
    }
    return hall->waiting < YILGASHE_MAX_WAITING ? YILGASHE_ACCEPTED : YILGASHE_HALL_FULL;
}

static uint8_t book_in(yilgashe_hall *hall, uint64_t key, const yilgashe_booking *booking)
{
    size_t at;
    uint8_t answer;
    if (is_over(hall)) {
        return YILGASHE_OVER_LIMIT;
    }
    at = place_of(hall, key);
    if (at < hall->noted) {
        return heard_booking(&hall->notes[at], booking);
    }
    if (hall->noted == YILGASHE_MAX_KEYS) {
        return YILGASHE_BOOK_FULL;
    }
    answer = booking_answer(hall, booking);
    note_booking(hall, key, booking, answer);
    if (answer == YILGASHE_ACCEPTED) {
        hall->bookings[hall->waiting++] = *booking;
    }
    return answer;
}

/* Those behind move up by one. */
static void remove_at(yilgashe_hall *hall, size_t at)
{
    memmove(&hall->bookings[at], &hall->bookings[at + 1], (hall->waiting - at - 1) * sizeof hall->bookings[0]);
    hall->waiting--;
}

static uint8_t withdraw_in(yilgashe_hall *hall, uint64_t key, uint64_t player)
{
    size_t at;
    uint8_t answer;
    if (is_over(hall)) {
        return YILGASHE_OVER_LIMIT;
    }
    at = place_of(hall, key);
    if (at < hall->noted) {
        return heard_withdrawal(&hall->notes[at], player);
    }
    if (hall->noted == YILGASHE_MAX_KEYS) {
        return YILGASHE_BOOK_FULL;
    }
    at = booking_of(hall, player);
    answer = at < hall->waiting ? YILGASHE_ACCEPTED : YILGASHE_NOT_WAITING;
    note_withdrawal(hall, key, player, answer);
    if (answer == YILGASHE_ACCEPTED) {
        remove_at(hall, at);
    }
    return answer;
}

/* The answers are built where the caller wants them: a local one is copied once more by some compilers. */

yilgashe_keyed plain_book(yilgashe_hall hall, uint64_t key, yilgashe_booking booking)
{
    const uint8_t answer = book_in(&hall, key, &booking);
    return (yilgashe_keyed){hall, answer};
}

yilgashe_keyed plain_withdraw(yilgashe_hall hall, uint64_t key, uint64_t player)
{
    const uint8_t answer = withdraw_in(&hall, key, player);
    return (yilgashe_keyed){hall, answer};
}

yilgashe_rounded plain_round(yilgashe_hall hall)
{
    const uint8_t answer = is_over(&hall) ? YILGASHE_OVER_LIMIT : YILGASHE_ACCEPTED;
    return (yilgashe_rounded){hall, 0, 0, YILGASHE_NONE_SERVED, answer};
}
