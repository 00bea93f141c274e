//! Marks: which branches of the model a text has gone through. A list of
//! sources is chosen so that each is gone through.

use std::sync::atomic::{AtomicU64, Ordering};

macro_rules! marks {
    ($($name:ident,)*) => {
        /// A branch of the model.
        #[derive(Clone, Copy, Debug, PartialEq, Eq)]
        #[repr(u8)]
        pub enum Mark { $($name,)* }

        /// The marks' names, in the order of their numbers.
        pub const NAMES: &[&str] = &[$(stringify!($name),)*];
    };
}

marks! {
    OuterMinus,
    OuterPlus,
    Hexadecimal,
    Binary,
    OwnMinus,
    OwnPlus,
    DigitsBeyond,
    OuterBeyond,
    NumberRead,
    NoDigits,
    NoDigit,
    LiteralOpen,
    LiteralByte,
    LiteralBad,
    LiteralEscape,
    UpperHalf,
    ImmBeyond,
    RegisterX,
    RegisterXBad,
    RegisterFp,
    RegisterAbi,
    RegisterBad,
    BaseAbove,
    TextAbove,
    ByteAbove,
    LabelWordUndefined,
    LabelWordFilled,
    Accepted,
    LineText,
    LineData,
    LineBss,
    LabelAlone,
    LabelThen,
    SectionMissing,
    SectionNote,
    SectionText,
    SectionData,
    SectionBss,
    SectionUnknown,
    LabelsAbove,
    LabelAgain,
    LabelText,
    LabelData,
    LabelBss,
    LabelEmpty,
    GlobalMissing,
    Global,
    Ignored,
    Assignment,
    NoAssignment,
    EquComma,
    EquBlank,
    EquNoName,
    EquNoExpression,
    EquatesAbove,
    EquateText,
    EquateData,
    EquateBss,
    OtherPseudo,
    ItemOrdinary,
    ItemPseudo,
    ItemsAbove,
    WordsAbove,
    Byte,
    Half,
    DwordUnreadable,
    Dword,
    Float,
    StringBad,
    StringZero,
    AsciiBad,
    Ascii,
    StringLabelled,
    StringUnlabelled,
    StringUnopened,
    StringUnclosed,
    StringBeside,
    StringCommented,
    StringColon,
    StringCommentMark,
    EscapeBackspace,
    EscapeFormFeed,
    EscapeLineFeed,
    EscapeReturn,
    EscapeTab,
    EscapeBackslash,
    EscapeQuote,
    EscapeOther,
    OctalOne,
    OctalTwo,
    OctalThree,
    OctalEightNine,
    OctalBeyond,
    LabelQuoted,
    LabelQuotedBad,
    DataUnknown,
    Word,
    WordMalformed,
    LabelWordsAbove,
    LabelWord,
    DataAbove,
    ZerosAbove,
    Zeros,
    BssSpace,
    BssAlign,
    BssStored,
    BssUnknown,
    BssAbove,
    ValueOutside,
    ValueUnreadable,
    AlignmentBelow,
    AlignmentUnreadable,
    SizeBelow,
    SizeUnreadable,
    AlignStays,
    AlignMoves,
    AlignNoPower,
    NoEquates,
    OneRound,
    MoreRounds,
    EquateIsLabel,
    EquateAgain,
    EquateFound,
    EquateWaits,
    Unresolved,
    UnresolvedLater,
    TokenComma,
    TokenBlank,
    TokenDot,
    TokenName,
    TokenElevenTwelve,
    TokenUnreadable,
    TokenHexadecimal,
    TokenBinary,
    TokenDecimal,
    TokenNumberBad,
    JoinPlus,
    JoinMinus,
    NoOperator,
    SignMinus,
    SignPlus,
    NameEquate,
    NameLabel,
    NameWaits,
    NoTerms,
    NoTerm,
    SignBeyond,
    JoinBeyond,
    SumBeyond,
    NameEndsLine,
    LiFewOperands,
    LiReservesOne,
    LiReservesTwo,
    LiNameReservesTwo,
    OperandsFew,
    OperandsMany,
    RegisterForLabel,
    PrintStr,
    Read,
    ReadByte,
    RegisterMissing,
    La,
    Push,
    Pop,
    Print,
    Random,
    LabelNotFound,
    LaEdge,
    LaUpper,
    LiLiteral,
    LiNumberOne,
    LiNumberTwo,
    LiNameUpperZero,
    LiNameUpper,
    LiLiteralBad,
    LiUnknown,
    LiEquateBeyond,
}

const WORDS: usize = 4;

/// A set of marks, one bit each.
#[derive(Clone, Copy, Debug, Default, PartialEq, Eq, Hash)]
pub struct Seen([u64; WORDS]);

impl Seen {
    pub fn has(&self, mark: usize) -> bool {
        self.0[mark / 64] >> (mark % 64) & 1 == 1
    }

    pub fn all(&self) -> impl Iterator<Item = usize> + '_ {
        (0..NAMES.len()).filter(|mark| self.has(*mark))
    }
}

/// The marks since the last `take`. One thread alone uses the model.
static SEEN: [AtomicU64; WORDS] = [const { AtomicU64::new(0) }; WORDS];

pub fn set(mark: Mark) {
    let word = &SEEN[mark as usize / 64];
    let bits = word.load(Ordering::Relaxed) | 1 << (mark as usize % 64);
    word.store(bits, Ordering::Relaxed);
}

/// The marks that were set, and none from now on.
pub fn take() -> Seen {
    let mut seen = Seen::default();
    for (bits, word) in seen.0.iter_mut().zip(&SEEN) {
        *bits = word.swap(0, Ordering::Relaxed);
    }
    seen
}

macro_rules! mark {
    ($name:ident) => {
        $crate::model::marks::set($crate::model::marks::Mark::$name)
    };
}
pub(crate) use mark;
