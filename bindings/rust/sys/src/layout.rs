//! The size of every struct and the place of every field, as the library has them: a declaration that differs does not compile.

use crate::*;

/// `Struct, size, field at offset, ..;` for each. The pattern names every field, so none can be left out.
macro_rules! layout {
    ($($name:ident, $size:literal, $($field:ident at $offset:literal),+;)+) => {
        $(const _: () = {
            assert!(size_of::<$name>() == $size);
            $(assert!(std::mem::offset_of!($name, $field) == $offset);)+
            #[allow(dead_code)]
            fn names_every_field($name { $($field: _),+ }: &$name) {}
        };)+
    };
}

layout! {
    QueueEntry, 40, player at 0, joined at 8, rating at 16, party at 24, role at 32;
    Queue, 2568, entries at 0, len at 2560;
    Enqueued, 2576, queue at 0, refusal at 2568;
    Removed, 2616, queue at 0, entry at 2568, found at 2608, refusal at 2609;
    Batch, 5144, kept at 0, removed at 2568, refusal at 5136;
    Wait, 16, nanos at 0, found at 8, refusal at 9;
    Duration, 16, nanos at 0, refusal at 8;
    Seconds, 16, seconds at 0, refusal at 8;
    Team, 72, players at 0, len at 64;
    ProposedMatch, 144, a at 0, b at 72;
    MatchObjective, 32, quality at 0, wait at 8, ping at 16, uncertainty at 24;
    Scored, 16, value at 0, refusal at 8;
    SoftObjectives, 80, kinds at 0, weights at 8, len at 72;
    MatchObjectiveVector, 48, skill at 0, role at 8, latency at 16, party at 24, wait at 32, utilization at 40;
    ObjectiveWeights, 48, skill at 0, role at 8, latency at 16, party at 24, wait at 32, utilization at 40;
    RoleRequirement, 32, role at 0, least at 8, bounded at 16, most at 24;
    RoleRequirements, 264, of at 0, len at 256;
    RegionPair, 2, first at 0, second at 1;
    RegionConstraint, 40, pairs at 0, count at 32;
    TeamSizeConstraint, 16, a at 0, b at 8;
    Brought, 5, sizes at 0, roles at 1, parties at 2, latency at 3, regions at 4;
    Constraints, 328, brought at 0, sizes at 8, roles at 24, regions at 288;
    Verdict, 2, satisfied at 0, refusal at 1;
    Validity, 16, place at 0, fault at 8, refusal at 9;
    Candidates, 9224, of at 0, len at 9216;
    Selected, 528, places at 0, len at 512, refusal at 520;
    TeamComposition, 16, a at 0, b at 8;
    BeamSearch, 8, width at 0;
    GreedyNearestGenerator, 8, max at 0;
    Formed, 16, count at 0, refusal at 8;
    Chosen, 160, teams at 0, tried at 144, found at 152, refusal at 153;
    Games, 128, sizes at 0;
    Booking, 40, player at 0, joined at 8, rating_bits at 16, party at 24, role at 32, game at 36;
    Note, 40, player at 0, joined at 8, rating_bits at 16, party at 24, role at 32, game at 36, kind at 37, answer at 38;
    Hall, 51864, bookings at 0, waiting at 2560, keys at 2568, notes at 10760, noted at 51720, sizes at 51728, served at 51856;
    Keyed, 51872, hall at 0, refusal at 51864;
    RoundRules, 336, constraints at 0, waiting_friends at 328;
    Rounded, 51888, hall at 0, count at 51864, tried at 51872, served at 51880, refusal at 51881;
}
