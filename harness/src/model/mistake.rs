//! Plausible mistakes. The model makes one where it is told to, and the comparison with the library must then find a difference.

macro_rules! mistakes {
    ($($name:ident)*) => {
        #[derive(Clone, Copy, Debug, PartialEq, Eq)]
        pub enum Mistake {
            $($name,)*
        }

        impl Mistake {
            pub const ALL: &'static [Mistake] = &[$(Mistake::$name,)*];
        }
    };
}

mistakes! {
    // the paper's five
    FreesAtAgeT
    NoStoreOnFastPath
    FreesTwoEpochsOn
    ScansCurrentLimboOnly
    KeepsPresenceOverSwitch
    // in the rules
    NoAgeTest
    NoVisibleTest
    TickOneLate
    NoQuestion17
    ChecksRemoved
    SwitchesOverC
    CountsRetiredOfAll
    ScansNodesOfAll
    SwitchesWithoutScan
    ReturnsWithoutPresence
    AdvancesWithOneBehind
    ProtectKeepsValidated
    RefusedCheckClearsValidated
    FlushDrainsOnce
    ScanLooksAtAssigned
    // in the epochs: nodes are freed never, two epochs early, and late
    AdvanceWaitsForOneMore
    FreesListOfBefore
    CountsToOneMoreThanQ
    // in what a scan sees of pending stores
    OwnStoresUnknown
    OwnFirstStore
    OwnAssigned
    OthersStoresKnown
    OwnVisibleToo
    // in the putting back of a node
    ReinsertKeepsOwner
    ReinsertByAnyone
    ReinsertTakesRetired
    ReinsertLosesGuest
    ReinsertNotRaised
    // in leaving and joining
    LeaveKeepsStamp
    LeaveKeepsLimbo
    LeaveLeavesNodes
    WaitsForAbsentEpoch
    WaitsForAbsentPresence
    AbsentMayAct
    JoinKeepsEpoch
    // in what a process may leave with, and to whom
    LeaveWithAssigned
    LeaveWithStores
    LeaveWithAllocated
    LeaveWithRemoved
    LeaveToAbsent
    LeaveToSelf
    // in the lateness of flushes
    ScanWithoutLateness
    TickWithoutLateness
    LatenessTwice
    // in the panel's pass
    PanelWellAgain
    PanelCountsRemoved
    PanelLeavesOutLast
    // in why a node waits
    WhyReadyWithoutHazards
    WhyForgetsOwnStores
    WhyYoungOneShort
    WhyHighestProcess
    WhyHighestHazard
    WhyNamesAbsent
    WhyHighestBehind
    WhyAsksOnFallback
    WhyAsksNodeFirst
    // in a portion of a scan
    PortionWithoutAge
    PortionWithoutHazards
    PortionForgetsOwnStores
    PortionExaminedAreFreed
    PortionNextIsLast
    PortionNextPastLastRetired
    PortionLeftFromStart
    PortionLimitsNodes
    PortionOfAll
    PortionFreesPastNext
    PortionTakesNone
    PortionTakes257
    PortionFromPastNodes
    PortionNextWhereRefused
    // in the order of the questions
    AsksOwnerBeforeState
    AsksAgeBeforeClock
    AsksBufferBeforeNode
    AsksHeirBeforeTies
    AsksHazardBeforePresent
    AsksLimitBeforeStart
    // in the check of words
    TakesLongerSlices
    TakesValidatedUnassigned
    TakesStoresPastLength
    TakesTimePastClock
    TakesRetiredAtPastClock
    TakesRetiredAtOutsideRetired
    TakesLimboOutsideRetired
    TakesOwnerOfFree
    TakesOwnerOfReachable
    TakesGuestOfFree
    TakesCallsOfQ
    TakesPresentOfTwo
    TakesStoreToHazardK
    TakesFourthLimbo
    RefusesLastNode
    RefusesTimeOfNow
}

impl Mistake {
    /// Of those in the order of the questions, the number that is asked too early, and the one that should come before it.
    pub fn early(self) -> Option<(u32, u32)> {
        match self {
            Mistake::AsksOwnerBeforeState => Some((9, 8)),
            Mistake::AsksAgeBeforeClock => Some((16, 15)),
            Mistake::AsksBufferBeforeNode => Some((13, 7)),
            Mistake::AsksHeirBeforeTies => Some((22, 21)),
            Mistake::AsksHazardBeforePresent => Some((6, 20)),
            Mistake::AsksLimitBeforeStart => Some((23, 7)),
            _ => None,
        }
    }

    /// Those that the reference must object to: a node freed under a process that has validated it, a check or a use that is wrong.
    pub const UNSAFE: &'static [Mistake] = &[
        Mistake::FreesAtAgeT,
        Mistake::NoStoreOnFastPath,
        Mistake::FreesTwoEpochsOn,
        Mistake::NoAgeTest,
        Mistake::NoVisibleTest,
        Mistake::TickOneLate,
        Mistake::NoQuestion17,
        Mistake::ChecksRemoved,
        Mistake::AdvancesWithOneBehind,
        Mistake::ProtectKeepsValidated,
        Mistake::FreesListOfBefore,
        Mistake::LeaveKeepsLimbo,
        Mistake::AbsentMayAct,
        Mistake::JoinKeepsEpoch,
        Mistake::LeaveWithAssigned,
        Mistake::LeaveToAbsent,
        Mistake::ScanWithoutLateness,
        Mistake::PortionWithoutAge,
        Mistake::PortionWithoutHazards,
    ];

    /// Those by which a process comes to hold more unfreed nodes than the bound allows.
    pub const UNBOUNDED: &'static [Mistake] = &[
        Mistake::ScansCurrentLimboOnly,
        Mistake::SwitchesOverC,
        Mistake::SwitchesWithoutScan,
        Mistake::OwnVisibleToo,
        Mistake::LatenessTwice,
    ];

    /// Those in a step that the reference has too: it asks a question with the answer no, or holds the node otherwise afterwards.
    pub const UNFOLLOWED: &'static [Mistake] = &[
        Mistake::ReinsertKeepsOwner,
        Mistake::ReinsertByAnyone,
        Mistake::ReinsertTakesRetired,
        Mistake::ReinsertLosesGuest,
        Mistake::ReinsertNotRaised,
        Mistake::LeaveLeavesNodes,
        Mistake::PortionFromPastNodes,
        Mistake::PortionTakesNone,
        Mistake::PortionTakes257,
    ];

    /// Those that the reference cannot object to; only answers and words tell them from the rules.
    pub const UNSEEN: &'static [Mistake] = &[
        // by the time that a scan may free a node, the store of a claim on it is committed, and no later one to that hazard is pending
        Mistake::OwnStoresUnknown,
        Mistake::OwnFirstStore,
        Mistake::OwnAssigned,
        Mistake::OthersStoresKnown,
        // a claim's store is no later than the first retirement
        Mistake::LeaveKeepsStamp,
        // nodes are freed later, and the scans that keep the bound go on
        Mistake::AdvanceWaitsForOneMore,
        Mistake::CountsToOneMoreThanQ,
        Mistake::WaitsForAbsentEpoch,
        Mistake::WaitsForAbsentPresence,
        // what stays behind claims nothing, and can only stop the clock or a node's way until its process joins
        Mistake::LeaveWithStores,
        Mistake::LeaveWithAllocated,
        Mistake::LeaveWithRemoved,
        // the nodes stay on the list of an epoch to which their owner has come
        Mistake::LeaveToSelf,
        // stores are visible earlier than they need be
        Mistake::TickWithoutLateness,
        // as of a scan's own stores
        Mistake::PortionForgetsOwnStores,
        // what a scan may free is claimed by nobody, whichever of it is freed now
        Mistake::PortionOfAll,
        Mistake::PortionLimitsNodes,
        Mistake::PortionFreesPastNext,
    ];

    /// Those by which a node is still Retired after the rounds within which it is to be freed.
    pub const LATE: &'static [Mistake] = &[
        Mistake::AdvanceWaitsForOneMore,
        Mistake::CountsToOneMoreThanQ,
        Mistake::WaitsForAbsentEpoch,
        // nobody frees the nodes of an owner that is absent
        Mistake::LeaveLeavesNodes,
        // an owner passes over the epoch of its list
        Mistake::AdvancesWithOneBehind,
        // the epoch waits for one that joined behind it
        Mistake::JoinKeepsEpoch,
    ];
}

/// The rules, with at most one mistake in them.
#[derive(Clone, Copy, Default)]
pub struct Rules {
    mistake: Option<Mistake>,
}

impl Rules {
    pub fn with(mistake: Mistake) -> Rules {
        Rules { mistake: Some(mistake) }
    }

    pub fn have(self, mistake: Mistake) -> bool {
        self.mistake == Some(mistake)
    }

    pub fn early(self) -> Option<(u32, u32)> {
        self.mistake.and_then(Mistake::early)
    }
}
