//! Why a call did not answer.
use core::fmt;

/// The refusals, with the numbers that the archive gives.
#[derive(Clone, Copy, Debug, PartialEq, Eq)]
#[repr(u8)]
pub enum Refusal {
    NotNormalized = 1,
    FirstBeyond = 2,
    CountBeyond = 3,
    LengthsDiffer = 4,
    RestBeyond = 5,
    ValueBeyond = 6,
}

impl Refusal {
    pub fn number(self) -> u8 {
        self as u8
    }

    fn meaning(self) -> &'static str {
        match self {
            Refusal::NotNormalized => "the value is below the bound of the normalised call",
            Refusal::FirstBeyond => "`first` is above the number of values",
            Refusal::CountBeyond => "`count` is above the number of values less `first`",
            Refusal::LengthsDiffer => "there are not as many roots as values",
            Refusal::RestBeyond => "the rest is above what the root can leave",
            Refusal::ValueBeyond => "the rebuilt value is above the greatest of its width",
        }
    }
}

impl fmt::Display for Refusal {
    fn fmt(&self, out: &mut fmt::Formatter<'_>) -> fmt::Result {
        write!(out, "refusal {}: {}", self.number(), self.meaning())
    }
}

#[cfg(feature = "std")]
impl std::error::Error for Refusal {}

/// The answer, or the refusal of that number. The archive is proved to give no number but these.
pub(crate) fn answered<T>(number: u8, answer: T) -> Result<T, Refusal> {
    match number {
        0 => Ok(answer),
        1 => Err(Refusal::NotNormalized),
        2 => Err(Refusal::FirstBeyond),
        3 => Err(Refusal::CountBeyond),
        4 => Err(Refusal::LengthsDiffer),
        5 => Err(Refusal::RestBeyond),
        6 => Err(Refusal::ValueBeyond),
        _ => unreachable!("refusal {number}"),
    }
}
