//! Where a process is in its program.

/// The seven steps of "Marking a cell r".
#[derive(Clone, Copy, Debug, PartialEq, Eq, PartialOrd, Ord, Hash)]
pub enum MarkStage {
    Look,
    ReadSense,
    ReadPhase,
    Lock,
    LookAgain,
    Write,
    Unlock,
}

impl MarkStage {
    pub const ALL: [MarkStage; 7] = [
        MarkStage::Look,
        MarkStage::ReadSense,
        MarkStage::ReadPhase,
        MarkStage::Lock,
        MarkStage::LookAgain,
        MarkStage::Write,
        MarkStage::Unlock,
    ];
}

/// The four kinds of step of a round of the collector.
#[derive(Clone, Copy, Debug, PartialEq, Eq, PartialOrd, Ord, Hash)]
pub enum RoundStage {
    Fence,
    SetType,
    Raise,
    Poll,
}

impl RoundStage {
    pub const ALL: [RoundStage; 4] = [
        RoundStage::Fence,
        RoundStage::SetType,
        RoundStage::Raise,
        RoundStage::Poll,
    ];
}

/// The mutator's places. An answer's branch keeps the type it has read.
#[derive(Clone, Copy, Debug, Default, PartialEq, Eq, PartialOrd, Ord, Hash)]
pub enum MutatorPlace {
    #[default]
    Top,
    StoreMarkOld(MarkStage),
    StoreMarkNew(MarkStage),
    StoreWrite,
    NoOpFence,
    NoOpFinish,
    RootsFence,
    RootsMark(MarkStage),
    RootsFinish,
    WorkFence,
    WorkFinish,
}

impl MutatorPlace {
    /// The step of a mark this place is, if it is one.
    pub fn mark_stage(self) -> Option<MarkStage> {
        match self {
            Self::StoreMarkOld(stage) | Self::StoreMarkNew(stage) | Self::RootsMark(stage) => {
                Some(stage)
            }
            _ => None,
        }
    }

    /// Whether an operation 3 is running.
    pub fn in_store(self) -> bool {
        matches!(
            self,
            Self::StoreMarkOld(_) | Self::StoreMarkNew(_) | Self::StoreWrite
        )
    }

    /// Every place, each marking site with its seven stages.
    pub fn all() -> Vec<MutatorPlace> {
        let marks = [Self::StoreMarkOld, Self::StoreMarkNew, Self::RootsMark];
        let mut places = vec![
            Self::Top,
            Self::StoreWrite,
            Self::NoOpFence,
            Self::NoOpFinish,
            Self::RootsFence,
            Self::RootsFinish,
            Self::WorkFence,
            Self::WorkFinish,
        ];
        places.extend(marks.iter().flat_map(|site| MarkStage::ALL.map(site)));
        places.sort();
        places
    }
}

/// The collector's places, by the rows of its table.
#[derive(Clone, Copy, Debug, PartialEq, Eq, PartialOrd, Ord, Hash)]
pub enum CollectorPlace {
    Row1Round(RoundStage),
    Row2Read,
    Row2Write,
    Row3Round(RoundStage),
    Row4WriteInit,
    Row4Round(RoundStage),
    Row5WriteMark,
    Row5WriteSense,
    Row5Round(RoundStage),
    Row6Round(RoundStage),
    Row6Take,
    Row7FirstRead,
    Row7Mark(MarkStage),
    Row7NextRead,
    Row7Drop,
    Row8Round(RoundStage),
    Row8Take,
    Row9WriteSweep,
    Row10Look,
    Row10Free,
    Row11WriteIdle,
}

impl Default for CollectorPlace {
    /// Opening: "collector at row 1".
    fn default() -> Self {
        Self::Row1Round(RoundStage::Fence)
    }
}

impl CollectorPlace {
    /// The step of a mark this place is, if it is one.
    pub fn mark_stage(self) -> Option<MarkStage> {
        match self {
            Self::Row7Mark(stage) => Some(stage),
            _ => None,
        }
    }

    /// The step of a round this place is, if it is one.
    pub fn round_stage(self) -> Option<RoundStage> {
        match self {
            Self::Row1Round(stage)
            | Self::Row3Round(stage)
            | Self::Row4Round(stage)
            | Self::Row5Round(stage)
            | Self::Row6Round(stage)
            | Self::Row8Round(stage) => Some(stage),
            _ => None,
        }
    }

    /// Whether row 7 has named its x and has not dropped it yet.
    pub fn in_scan(self) -> bool {
        self.keeps_fields() || self == Self::Row7Drop
    }

    /// Whether row 7 keeps which fields of its x are not yet scanned.
    pub fn keeps_fields(self) -> bool {
        matches!(self, Self::Row7Mark(_) | Self::Row7NextRead)
    }

    /// Every place, each round with its four stages, the mark with its seven.
    pub fn all() -> Vec<CollectorPlace> {
        let rounds = [
            Self::Row1Round,
            Self::Row3Round,
            Self::Row4Round,
            Self::Row5Round,
            Self::Row6Round,
            Self::Row8Round,
        ];
        let mut places = vec![
            Self::Row2Read,
            Self::Row2Write,
            Self::Row4WriteInit,
            Self::Row5WriteMark,
            Self::Row5WriteSense,
            Self::Row6Take,
            Self::Row7FirstRead,
            Self::Row7NextRead,
            Self::Row7Drop,
            Self::Row8Take,
            Self::Row9WriteSweep,
            Self::Row10Look,
            Self::Row10Free,
            Self::Row11WriteIdle,
        ];
        places.extend(rounds.iter().flat_map(|site| RoundStage::ALL.map(site)));
        places.extend(MarkStage::ALL.map(Self::Row7Mark));
        places.sort();
        places
    }
}
