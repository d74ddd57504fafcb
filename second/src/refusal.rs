//! Why a line is turned back.

/// A reason for turning a line back.
#[derive(Clone, Copy, Debug, PartialEq, Eq)]
pub enum Refusal {
    /// The yard would have no controller, or more than 16.
    ControllerCount,
    /// A set is empty or names a controller outside the yard.
    BadSet,
    /// A row has not one word for each controller.
    RowLength,
    /// A value does not fit its duty.
    Unfit,
    /// The settings of a duty are out of range.
    Settings,
    /// A line is not in form: the field at fault, or 0 for a line too long.
    Form { field: usize },
    /// The draft has 64 sets.
    DraftFull,
    /// The set contains, equals or lies within the one at this place.
    Comparable { place: usize },
    /// Sealing without a set.
    NoSet,
    /// Three sets lack a common controller.
    NoCommon,
    /// The draft, table or controller that the line needs is not there.
    NotThere,
}

impl Refusal {
    /// The number by which the reason is known.
    pub fn number(self) -> usize {
        match self {
            Refusal::ControllerCount => 1,
            Refusal::BadSet => 2,
            Refusal::RowLength => 3,
            Refusal::Unfit => 4,
            Refusal::Settings => 6,
            Refusal::Form { .. } => 7,
            Refusal::DraftFull => 11,
            Refusal::Comparable { .. } => 12,
            Refusal::NoSet => 13,
            Refusal::NoCommon => 14,
            Refusal::NotThere => 16,
        }
    }

    /// The detail told beside the number.
    pub fn detail(self) -> usize {
        match self {
            Refusal::Form { field } => field,
            Refusal::Comparable { place } => place,
            _ => 0,
        }
    }
}
