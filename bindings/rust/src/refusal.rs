use std::fmt;

/// Why a call is refused: docs/SCOPE.md's number, the lowest that applies. A refused call writes nothing.
#[derive(Debug, PartialEq, Eq, Clone, Copy)]
pub struct Refusal(pub u8);

impl fmt::Display for Refusal {
    fn fmt(&self, f: &mut fmt::Formatter<'_>) -> fmt::Result {
        f.pad(match self.0 {
            1 => "the letters are not 1 to 64, the rack's tiles not 1 to 15, or the length is above 4,294,967,294",
            2 => "a slice of wrong length",
            3 => "a letter that the lattice has not, a blank among placed tiles, or sparse letters that do not ascend",
            4 => "too many tiles, or a size, rank or number of rows out of range",
            5 => "an entry or a score beyond ±536,870,911, or a drop beyond ±16,777,215",
            6 => "a table of ranks that is not its lattice's",
            7 => "scatter is in force and sheet is negative, sheet[0] is not 0, or leave_max is not leave's subset maximum",
            8 => "num, den or ways is not +0.0",
            9 => "the weight is above 2^53, so that the sums might not be exact",
            _ => "not refused",
        })
    }
}

impl std::error::Error for Refusal {}

// a call's number as a result
pub(crate) fn accepted(number: u8) -> Result<(), Refusal> {
    match number {
        0 => Ok(()),
        _ => Err(Refusal(number)),
    }
}
