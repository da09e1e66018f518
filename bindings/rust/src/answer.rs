//! What the machine answers: endings of a run, and refusals. Their numbers stand here and nowhere else.

use std::error::Error;
use std::fmt;

/// How a run ended. The discriminants are the papers' numbers.
///
/// ```
/// use torzimlak::Ending;
/// assert_eq!(Ending::BudgetUsed.number(), 21);
/// assert_eq!(Ending::try_from(21), Ok(Ending::BudgetUsed));
/// assert!(Ending::try_from(30).is_err());
/// ```
#[derive(Clone, Copy, PartialEq, Eq, Hash, Debug)]
#[repr(u32)]
pub enum Ending {
    /// 20: a JSR to an EXP; the host answers by a resume.
    Waiting = 20,
    /// 21: the budget is used; the next run goes on.
    BudgetUsed = 21,
    /// 22: an address past memory, or unaligned for a word. By 22 to 29 state and memory are as before that step.
    BadAddress = 22,
    /// 23: a write to a constant word.
    ConstantWrite = 23,
    /// 24: BRI or LEI on an address that is no entry, or LEI on an entry without a value.
    NoEntry = 24,
    /// 25: a switch value without an IFF, and no default.
    NoCase = 25,
    /// 26: an exit was taken whose PPM has no label.
    ImpossibleExit = 26,
    /// 27: a call with 256 calls open.
    LinksFull = 27,
    /// 28: SSS above the count of open calls.
    AboveCount = 28,
    /// 29: CVM or CVD of a positive number, or CVM of no digit.
    BadDigit = 29,
}

impl Ending {
    /// All of them, in the order of their numbers.
    pub const ALL: [Ending; 10] = [
        Ending::Waiting,
        Ending::BudgetUsed,
        Ending::BadAddress,
        Ending::ConstantWrite,
        Ending::NoEntry,
        Ending::NoCase,
        Ending::ImpossibleExit,
        Ending::LinksFull,
        Ending::AboveCount,
        Ending::BadDigit,
    ];

    /// The number that the papers give it.
    pub const fn number(self) -> u32 {
        self as u32
    }
}

impl TryFrom<u32> for Ending {
    type Error = UnknownNumber;

    fn try_from(number: u32) -> Result<Ending, UnknownNumber> {
        Ending::ALL.into_iter().find(|e| e.number() == number).ok_or(UnknownNumber(number))
    }
}

impl fmt::Display for Ending {
    fn fmt(&self, f: &mut fmt::Formatter) -> fmt::Result {
        f.write_str(match self {
            Ending::Waiting => "waiting for the host at a call of an external procedure",
            Ending::BudgetUsed => "the budget is used",
            Ending::BadAddress => "an address past memory, or unaligned for a word",
            Ending::ConstantWrite => "a write to a constant word",
            Ending::NoEntry => "BRI or LEI on an address that is no entry, or LEI on an entry without a value",
            Ending::NoCase => "a switch value without an IFF, and no default",
            Ending::ImpossibleExit => "an exit was taken whose PPM has no label",
            Ending::LinksFull => "a call with 256 calls open",
            Ending::AboveCount => "SSS above the count of open calls",
            Ending::BadDigit => "CVM or CVD of a positive number, or CVM of no digit",
        })
    }
}

/// Why a call was refused; it then changed nothing. The discriminants are the papers' numbers.
///
/// ```
/// use torzimlak::{Refusal, Table};
/// let refusal = Table::from_words(vec![1, 2, 3]).unwrap_err();
/// assert_eq!(refusal, Refusal::BadTable);
/// assert_eq!(refusal.number(), 30);
/// assert_eq!(refusal.to_string(), "refused (30): the table does not pass its check");
/// ```
#[derive(Clone, Copy, PartialEq, Eq, Hash, Debug)]
#[repr(u32)]
pub enum Refusal {
    /// 1: a byte, the line's length or a field is malformed.
    Malformed = 1,
    /// 2: the operation is unknown, or not of this section.
    UnknownOperation = 2,
    /// 3: the label is missing, unwanted or used a second time.
    BadLabel = 3,
    /// 4: the operands' count, kind or range does not fit.
    BadOperand = 4,
    /// 5: a symbol is undefined, or the name has no supplied value.
    UndefinedSymbol = 5,
    /// 6: an exit or switch list, or a procedure unlike its declaration.
    BadList = 6,
    /// 7: a rule of the program's shape is broken.
    BadShape = 7,
    /// 8: SEC or END is missing, section 4, 5 or 6 is empty, or a declared name has no place.
    MissingPart = 8,
    /// 9: the text is over 32,768 bytes, or the program over a limit.
    OverLimit = 9,
    /// 10: the table's room is short, or memory's length is unfit.
    UnfitLength = 10,
    /// 30: the table does not pass its check.
    BadTable = 30,
    /// 31: the state does not pass its check.
    BadState = 31,
    /// 32: the budget is over 1,000,000.
    OverBudget = 32,
    /// 33: the machine is not waiting, or the exit is above the declared count.
    NotResumable = 33,
    /// 40: the file has no lawful trailer.
    BadTrailer = 40,
    /// 41: the file is of another program or build.
    OtherProgram = 41,
    /// 42: the frozen state does not pass its check.
    BadFrozen = 42,
    /// 43: the count of fresh words is not the program's.
    FreshCountOff = 43,
    /// 44: the lent memory is not as long as the frozen one.
    MemoryLengthOff = 44,
    /// 45: the room is shorter than the file.
    ShortRoom = 45,
}

impl Refusal {
    /// All of them, in the order of their numbers.
    pub const ALL: [Refusal; 20] = [
        Refusal::Malformed,
        Refusal::UnknownOperation,
        Refusal::BadLabel,
        Refusal::BadOperand,
        Refusal::UndefinedSymbol,
        Refusal::BadList,
        Refusal::BadShape,
        Refusal::MissingPart,
        Refusal::OverLimit,
        Refusal::UnfitLength,
        Refusal::BadTable,
        Refusal::BadState,
        Refusal::OverBudget,
        Refusal::NotResumable,
        Refusal::BadTrailer,
        Refusal::OtherProgram,
        Refusal::BadFrozen,
        Refusal::FreshCountOff,
        Refusal::MemoryLengthOff,
        Refusal::ShortRoom,
    ];

    /// The number that the papers give it.
    pub const fn number(self) -> u32 {
        self as u32
    }

    /// The refusal that the library answered. It is proved to answer no other numbers.
    pub(crate) fn answered(number: u32) -> Refusal {
        Refusal::try_from(number).expect("the library answers the papers' numbers")
    }

    const fn reason(self) -> &'static str {
        match self {
            Refusal::Malformed => "a byte, the line's length or a field is malformed",
            Refusal::UnknownOperation => "the operation is unknown, or not of this section",
            Refusal::BadLabel => "the label is missing, unwanted or used a second time",
            Refusal::BadOperand => "the operands' count, kind or range does not fit",
            Refusal::UndefinedSymbol => "a symbol is undefined, or the name has no supplied value",
            Refusal::BadList => "an exit or switch list, or a procedure unlike its declaration",
            Refusal::BadShape => "a rule of the program's shape is broken",
            Refusal::MissingPart => {
                "SEC or END is missing, section 4, 5 or 6 is empty, or a declared name has no place"
            }
            Refusal::OverLimit => "the text is over 32,768 bytes, or the program over a limit",
            Refusal::UnfitLength => "the table's room is short, or memory's length is unfit",
            Refusal::BadTable => "the table does not pass its check",
            Refusal::BadState => "the state does not pass its check",
            Refusal::OverBudget => "the budget is over 1,000,000",
            Refusal::NotResumable => "the machine is not waiting, or the exit is above the declared count",
            Refusal::BadTrailer => "the file has no lawful trailer",
            Refusal::OtherProgram => "the file is of another program or build",
            Refusal::BadFrozen => "the frozen state does not pass its check",
            Refusal::FreshCountOff => "the count of fresh words is not the program's",
            Refusal::MemoryLengthOff => "the lent memory is not as long as the frozen one",
            Refusal::ShortRoom => "the room is shorter than the file",
        }
    }
}

impl TryFrom<u32> for Refusal {
    type Error = UnknownNumber;

    fn try_from(number: u32) -> Result<Refusal, UnknownNumber> {
        Refusal::ALL.into_iter().find(|r| r.number() == number).ok_or(UnknownNumber(number))
    }
}

impl fmt::Display for Refusal {
    fn fmt(&self, f: &mut fmt::Formatter) -> fmt::Result {
        write!(f, "refused ({}): {}", self.number(), self.reason())
    }
}

impl Error for Refusal {}

/// A number that is not one of the papers'.
#[derive(Clone, Copy, PartialEq, Eq, Hash, Debug)]
pub struct UnknownNumber(pub u32);

impl fmt::Display for UnknownNumber {
    fn fmt(&self, f: &mut fmt::Formatter) -> fmt::Result {
        write!(f, "{} is none of the papers' numbers for this", self.0)
    }
}

impl Error for UnknownNumber {}
