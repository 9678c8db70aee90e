/* What both files of plain C share. */
#ifndef PLAIN_H
#define PLAIN_H

#include "yilgashe.h"

static inline bool is_no_game(uint8_t game)
{
    return game >= YILGASHE_MAX_GAMES;
}

/* Too many wait or are noted, a game has a size over 8, or the last one served is none. */
static inline bool is_over(const yilgashe_hall *hall)
{
    size_t i;
    for (i = 0; i < YILGASHE_MAX_GAMES; i++) {
        if (hall->sizes[i].a > YILGASHE_MAX_TEAM || hall->sizes[i].b > YILGASHE_MAX_TEAM) {
            return true;
        }
    }
    return hall->waiting > YILGASHE_MAX_WAITING || hall->noted > YILGASHE_MAX_KEYS ||
           (is_no_game(hall->served) && hall->served != YILGASHE_NONE_SERVED);
}

#endif
