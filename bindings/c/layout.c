/* The size of every struct and the place of every field, as the library has them: a declaration that differs does not compile. */
#include "yilgashe.h"

#define SIZE(type, size) typedef char size_of_##type[sizeof(type) == (size) ? 1 : -1];
#define AT(type, field, offset) typedef char at_##type##_##field[offsetof(type, field) == (offset) ? 1 : -1];

SIZE(yilgashe_queue_entry, 40)
AT(yilgashe_queue_entry, player, 0)
AT(yilgashe_queue_entry, joined, 8)
AT(yilgashe_queue_entry, rating, 16)
AT(yilgashe_queue_entry, party, 24)
AT(yilgashe_queue_entry, role, 32)

SIZE(yilgashe_queue, 2568)
AT(yilgashe_queue, entries, 0)
AT(yilgashe_queue, len, 2560)

SIZE(yilgashe_enqueued, 2576)
AT(yilgashe_enqueued, queue, 0)
AT(yilgashe_enqueued, refusal, 2568)

SIZE(yilgashe_removed, 2616)
AT(yilgashe_removed, queue, 0)
AT(yilgashe_removed, entry, 2568)
AT(yilgashe_removed, found, 2608)
AT(yilgashe_removed, refusal, 2609)

SIZE(yilgashe_batch, 5144)
AT(yilgashe_batch, kept, 0)
AT(yilgashe_batch, removed, 2568)
AT(yilgashe_batch, refusal, 5136)

SIZE(yilgashe_wait, 16)
AT(yilgashe_wait, nanos, 0)
AT(yilgashe_wait, found, 8)
AT(yilgashe_wait, refusal, 9)

SIZE(yilgashe_duration, 16)
AT(yilgashe_duration, nanos, 0)
AT(yilgashe_duration, refusal, 8)

SIZE(yilgashe_seconds, 16)
AT(yilgashe_seconds, seconds, 0)
AT(yilgashe_seconds, refusal, 8)

SIZE(yilgashe_team, 72)
AT(yilgashe_team, players, 0)
AT(yilgashe_team, len, 64)

SIZE(yilgashe_proposed_match, 144)
AT(yilgashe_proposed_match, a, 0)
AT(yilgashe_proposed_match, b, 72)

SIZE(yilgashe_match_objective, 32)
AT(yilgashe_match_objective, quality, 0)
AT(yilgashe_match_objective, wait, 8)
AT(yilgashe_match_objective, ping, 16)
AT(yilgashe_match_objective, uncertainty, 24)

SIZE(yilgashe_scored, 16)
AT(yilgashe_scored, value, 0)
AT(yilgashe_scored, refusal, 8)

SIZE(yilgashe_soft_objectives, 80)
AT(yilgashe_soft_objectives, kinds, 0)
AT(yilgashe_soft_objectives, weights, 8)
AT(yilgashe_soft_objectives, len, 72)

SIZE(yilgashe_match_objective_vector, 48)
AT(yilgashe_match_objective_vector, skill, 0)
AT(yilgashe_match_objective_vector, role, 8)
AT(yilgashe_match_objective_vector, latency, 16)
AT(yilgashe_match_objective_vector, party, 24)
AT(yilgashe_match_objective_vector, wait, 32)
AT(yilgashe_match_objective_vector, utilization, 40)

SIZE(yilgashe_objective_weights, 48)
AT(yilgashe_objective_weights, skill, 0)
AT(yilgashe_objective_weights, role, 8)
AT(yilgashe_objective_weights, latency, 16)
AT(yilgashe_objective_weights, party, 24)
AT(yilgashe_objective_weights, wait, 32)
AT(yilgashe_objective_weights, utilization, 40)

SIZE(yilgashe_role_requirement, 32)
AT(yilgashe_role_requirement, role, 0)
AT(yilgashe_role_requirement, least, 8)
AT(yilgashe_role_requirement, bounded, 16)
AT(yilgashe_role_requirement, most, 24)

SIZE(yilgashe_role_requirements, 264)
AT(yilgashe_role_requirements, items, 0)
AT(yilgashe_role_requirements, len, 256)

SIZE(yilgashe_region_pair, 2)
AT(yilgashe_region_pair, first, 0)
AT(yilgashe_region_pair, second, 1)

SIZE(yilgashe_region_constraint, 40)
AT(yilgashe_region_constraint, pairs, 0)
AT(yilgashe_region_constraint, count, 32)

SIZE(yilgashe_team_size_constraint, 16)
AT(yilgashe_team_size_constraint, a, 0)
AT(yilgashe_team_size_constraint, b, 8)

SIZE(yilgashe_brought, 5)
AT(yilgashe_brought, sizes, 0)
AT(yilgashe_brought, roles, 1)
AT(yilgashe_brought, parties, 2)
AT(yilgashe_brought, latency, 3)
AT(yilgashe_brought, regions, 4)

SIZE(yilgashe_constraints, 328)
AT(yilgashe_constraints, brought, 0)
AT(yilgashe_constraints, sizes, 8)
AT(yilgashe_constraints, roles, 24)
AT(yilgashe_constraints, regions, 288)

SIZE(yilgashe_verdict, 2)
AT(yilgashe_verdict, satisfied, 0)
AT(yilgashe_verdict, refusal, 1)

SIZE(yilgashe_validity, 16)
AT(yilgashe_validity, place, 0)
AT(yilgashe_validity, fault, 8)
AT(yilgashe_validity, refusal, 9)

SIZE(yilgashe_candidates, 9224)
AT(yilgashe_candidates, items, 0)
AT(yilgashe_candidates, len, 9216)

SIZE(yilgashe_selected, 528)
AT(yilgashe_selected, places, 0)
AT(yilgashe_selected, len, 512)
AT(yilgashe_selected, refusal, 520)

SIZE(yilgashe_team_composition, 16)
AT(yilgashe_team_composition, a, 0)
AT(yilgashe_team_composition, b, 8)

SIZE(yilgashe_beam_search, 8)
AT(yilgashe_beam_search, width, 0)

SIZE(yilgashe_greedy_nearest_generator, 8)
AT(yilgashe_greedy_nearest_generator, max, 0)

SIZE(yilgashe_formed, 16)
AT(yilgashe_formed, count, 0)
AT(yilgashe_formed, refusal, 8)

SIZE(yilgashe_chosen, 160)
AT(yilgashe_chosen, teams, 0)
AT(yilgashe_chosen, tried, 144)
AT(yilgashe_chosen, found, 152)
AT(yilgashe_chosen, refusal, 153)

SIZE(yilgashe_games, 128)
AT(yilgashe_games, sizes, 0)

SIZE(yilgashe_booking, 40)
AT(yilgashe_booking, player, 0)
AT(yilgashe_booking, joined, 8)
AT(yilgashe_booking, rating_bits, 16)
AT(yilgashe_booking, party, 24)
AT(yilgashe_booking, role, 32)
AT(yilgashe_booking, game, 36)

SIZE(yilgashe_note, 40)
AT(yilgashe_note, player, 0)
AT(yilgashe_note, joined, 8)
AT(yilgashe_note, rating_bits, 16)
AT(yilgashe_note, party, 24)
AT(yilgashe_note, role, 32)
AT(yilgashe_note, game, 36)
AT(yilgashe_note, kind, 37)
AT(yilgashe_note, answer, 38)

SIZE(yilgashe_hall, 51864)
AT(yilgashe_hall, bookings, 0)
AT(yilgashe_hall, waiting, 2560)
AT(yilgashe_hall, keys, 2568)
AT(yilgashe_hall, notes, 10760)
AT(yilgashe_hall, noted, 51720)
AT(yilgashe_hall, sizes, 51728)
AT(yilgashe_hall, served, 51856)

SIZE(yilgashe_keyed, 51872)
AT(yilgashe_keyed, hall, 0)
AT(yilgashe_keyed, refusal, 51864)

SIZE(yilgashe_round_rules, 336)
AT(yilgashe_round_rules, constraints, 0)
AT(yilgashe_round_rules, waiting_friends, 328)

SIZE(yilgashe_rounded, 51888)
AT(yilgashe_rounded, hall, 0)
AT(yilgashe_rounded, count, 51864)
AT(yilgashe_rounded, tried, 51872)
AT(yilgashe_rounded, served, 51880)
AT(yilgashe_rounded, refusal, 51881)
