//! The refusals, by layer, each with its number and what it names.

/// Which of the two sheets.
#[derive(Debug, Clone, Copy, PartialEq, Eq)]
pub enum Sheet {
    Book,
    Task,
}

/// Why a sheet does not open.
#[derive(Debug, Clone, Copy, PartialEq, Eq)]
pub enum Reason {
    Cut,
    AboveLimit,
    WrongOffset,
    OutOfRange,
    NotAscending,
    DeletesAnAdd,
    EmptyLevel,
    WrongTotal,
    BytesFollow,
}

impl Reason {
    pub fn number(self) -> u8 {
        match self {
            Reason::Cut => 1,
            Reason::AboveLimit => 2,
            Reason::WrongOffset => 3,
            Reason::OutOfRange => 4,
            Reason::NotAscending => 5,
            Reason::DeletesAnAdd => 6,
            Reason::EmptyLevel => 7,
            Reason::WrongTotal => 8,
            Reason::BytesFollow => 9,
        }
    }
}

/// The first refusal of a sheet and the byte it names.
#[derive(Debug, Clone, Copy, PartialEq, Eq)]
pub struct SheetFault {
    pub sheet: Sheet,
    pub reason: Reason,
    pub place: usize,
}

/// Why a plan is not accepted, from its sheets to its goal.
#[derive(Debug, Clone, Copy, PartialEq, Eq)]
pub enum PlanFault {
    Sheet(SheetFault),
    Mismatch,
    LacksNeed {
        level: usize,
        step: usize,
        fact: usize,
    },
    NoOrder {
        level: usize,
    },
    MissesGoal {
        fact: usize,
    },
}

impl PlanFault {
    pub fn number(self) -> u8 {
        match self {
            PlanFault::Sheet(fault) => fault.reason.number(),
            PlanFault::Mismatch => 10,
            PlanFault::LacksNeed { .. } => 11,
            PlanFault::NoOrder { .. } => 12,
            PlanFault::MissesGoal { .. } => 13,
        }
    }
}

impl From<SheetFault> for PlanFault {
    fn from(fault: SheetFault) -> PlanFault {
        PlanFault::Sheet(fault)
    }
}

/// Why a call on a run is refused.
#[derive(Debug, Clone, Copy, PartialEq, Eq)]
pub enum RunFault {
    Plan(PlanFault),
    StepInHand,
    SpanTooSmall,
    NoSuchPlace,
    WrongState,
    Unfinished { place: usize },
}

impl RunFault {
    pub fn number(self) -> u8 {
        match self {
            RunFault::Plan(fault) => fault.number(),
            RunFault::StepInHand => 14,
            RunFault::SpanTooSmall => 15,
            RunFault::NoSuchPlace => 16,
            RunFault::WrongState => 17,
            RunFault::Unfinished { .. } => 18,
        }
    }
}

impl From<PlanFault> for RunFault {
    fn from(fault: PlanFault) -> RunFault {
        RunFault::Plan(fault)
    }
}

/// Refusal 19: a lent buffer is too short, with the length needed.
#[derive(Debug, Clone, Copy, PartialEq, Eq)]
pub struct TooShort {
    pub needed: usize,
}

impl TooShort {
    pub const NUMBER: u8 = 19;
}

/// Refusal 20: there is no such rack.
#[derive(Debug, Clone, Copy, PartialEq, Eq)]
pub struct NoSuchRack;

impl NoSuchRack {
    pub const NUMBER: u8 = 20;
}

/// Writes `text` to the front of `out`, or nothing where it does not fit.
pub fn write_into(out: &mut [u8], text: &[u8]) -> Result<usize, TooShort> {
    let needed = text.len();
    let front = out.get_mut(..needed).ok_or(TooShort { needed })?;
    front.copy_from_slice(text);
    Ok(needed)
}
