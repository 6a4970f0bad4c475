//! The places, by the numbers that the tables of cases use: the place, and
//! the stage of a mark or of a round, 0 where there is neither.

use claysaucer_bench::{CollectorPlace, MarkStage, MutatorPlace, RoundStage};

/// A place and a stage.
pub type Code = (u8, u8);

/// The mutator's place of that code, if it is one.
pub fn mutator_place(code: Code) -> Option<MutatorPlace> {
    let mut places = MutatorPlace::all().into_iter();
    places.find(|&place| mutator_code(place) == code)
}

/// The collector's place of that code, if it is one.
pub fn collector_place(code: Code) -> Option<CollectorPlace> {
    let mut places = CollectorPlace::all().into_iter();
    places.find(|&place| collector_code(place) == code)
}

pub fn mutator_code(place: MutatorPlace) -> Code {
    use MutatorPlace::*;
    match place {
        Top => (0, 0),
        StoreMarkOld(stage) => (1, of_mark(stage)),
        StoreMarkNew(stage) => (2, of_mark(stage)),
        StoreWrite => (3, 0),
        NoOpFence => (4, 0),
        NoOpFinish => (5, 0),
        RootsFence => (6, 0),
        RootsMark(stage) => (7, of_mark(stage)),
        RootsFinish => (8, 0),
        WorkFence => (9, 0),
        WorkFinish => (10, 0),
    }
}

pub fn collector_code(place: CollectorPlace) -> Code {
    use CollectorPlace::*;
    match place {
        Row1Round(stage) => (11, of_round(stage)),
        Row2Read => (12, 0),
        Row2Write => (13, 0),
        Row3Round(stage) => (14, of_round(stage)),
        Row4WriteInit => (15, 0),
        Row4Round(stage) => (16, of_round(stage)),
        Row5WriteMark => (17, 0),
        Row5WriteSense => (18, 0),
        Row5Round(stage) => (19, of_round(stage)),
        Row6Round(stage) => (20, of_round(stage)),
        Row6Take => (21, 0),
        Row7FirstRead => (22, 0),
        Row7Mark(stage) => (23, of_mark(stage)),
        Row7NextRead => (24, 0),
        Row7Drop => (25, 0),
        Row8Round(stage) => (26, of_round(stage)),
        Row8Take => (27, 0),
        Row9WriteSweep => (28, 0),
        Row10Look => (29, 0),
        Row10Free => (30, 0),
        Row11WriteIdle => (31, 0),
    }
}

/// 1 to 7, in the order of the seven steps.
pub fn of_mark(stage: MarkStage) -> u8 {
    stage as u8 + 1
}

/// 1 to 4: fence, set type, raise, poll.
pub fn of_round(stage: RoundStage) -> u8 {
    stage as u8 + 1
}
