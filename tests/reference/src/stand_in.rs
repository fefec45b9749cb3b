//! The reference behind the auditor's C interface, to try the checks with: they must pass it, and must
//! find each of the mistakes that it can be told to make. Those about the roll are in `rolls`, those about the
//! widths of contest sets in `widths`, those about curves in `curves`, those about receipts in `receipts`, those about notes
//! in `notes`, those about plans in `plans`.

use crate::ancestry::ancestry_with;
use crate::audit::{audit_with, is_good_roll, is_spoiled, Board, History, Item, Opening, Rules, RULES};
use crate::compare::{compare_with, Comparison, Side, Tables};
use crate::format::*;
use crate::interface::*;
use crate::notes::Agreement;
use std::slice::{from_raw_parts, from_raw_parts_mut};
use std::sync::Mutex;

mod curves;
pub mod notes;
mod plans;
pub mod receipts;
mod rolls;
mod widths;

/// What the ballot table needed before request (viii): a row for each item. A planted mistake
/// asks for it still, and the checks pass it as a longer table.
pub const BALLOTS_NEED_BEFORE: usize = 6_144;
/// What an audit's answer needed before request (ix): an end address of eight words. A planted mistake takes it still, and
/// the checks pass it as one that is too short.
pub const ANSWER_NEED_BEFORE: usize = 14;
/// What the index table needed before request (vii): rows of four words. A planted mistake takes it
/// still, and the checks pass it as one that is too short.
pub const INDEX_NEED_BEFORE: usize = 8_192;

pub fn stand_in() -> Interface {
    Interface {
        audit: stand_in_audit,
        compare: Some(stand_in_compare),
        ancestry: Some(stand_in_ancestry),
        receipts: Some(stand_in_receipts),
        notes: Some(stand_in_notes),
        plan: Some(stand_in_plan),
    }
}

/// What a mistake is about: which boards and which lengths of tables show it.
#[derive(Clone, Copy, PartialEq, Eq, Debug)]
pub enum About {
    /// The words that are written, or the result.
    Words,
    /// The lengths of tables, and the ballot table's last row.
    Lengths,
    /// Who closed a ballot.
    Closed,
    /// An opening that is to be refused: it passes.
    Accepted,
    /// An opening or a session that is to pass: it is refused.
    Refused,
    /// A main item that depends on hidden ones.
    Hidden,
    /// A bad roll: it passes, or is refused too soon, too late, or with other tables.
    BadRoll,
    /// A session that is not on the roll: it passes.
    Unenrolled,
    /// A session that is refused for two reasons, one of them the roll.
    Order,
    /// The roll of a comparison's other board.
    OtherRoll,
    /// Traits, or what depends on the width of contest sets.
    Width,
    /// A contest set, or its cryptograms, that is to be refused: it passes.
    Contests,
    /// The curve, or what is as wide as it has it.
    Curve,
    /// A commitment or a cryptogram with low bits that are to be zero: it passes.
    Zeros,
    /// The end address of an audit's answer.
    End,
    /// The words that an audit's answer needs.
    Answer,
    /// A comparison of two boards with different layouts.
    TwoLayouts,
    /// The answers to receipts of an accepted board.
    Answers,
    /// The tests of receipts and of the buffer of their answers, their order, and what a refusal leaves.
    Receipts,
    /// Which of several casts with one address and one signature is answered.
    FirstCast,
    /// The answer to notes for an accepted board.
    Agreement,
    /// The test of notes, its order, what a refusal or a disagreement leaves, and the words that the answer needs.
    Notes,
    /// Which of several main items with one address is noted.
    FirstNoted,
    /// The answer to a plan, where an audit of the board tells that it is wrong.
    Planned,
    /// The same at the limits of words and of items.
    PlanLimits,
    /// The answer to a plan otherwise, and the words that it needs.
    Plans,
}

/// Makes the mistakes of a list: each has a name, what it is about, and what is wrong.
macro_rules! mistakes {
    ($($name:ident, $about:ident, $what:literal;)*) => {
        #[derive(Clone, Copy, PartialEq, Eq, Debug)]
        pub enum Mistake {
            $($name),*
        }

        /// All of them.
        pub const MISTAKES: &[Mistake] = &[$(Mistake::$name),*];

        impl Mistake {
            pub fn about(self) -> About {
                match self {
                    $(Mistake::$name => About::$about),*
                }
            }

            pub fn what(self) -> &'static str {
                match self {
                    $(Mistake::$name => $what),*
                }
            }
        }
    };
}

mistakes! {
    AnswerWord, Words, "an answer word is wrong";
    LastAnswerWord, Words, "the last answer word is wrong";
    IndexWord, Words, "an index word is wrong";
    LastIndexWord, Words, "the last index word is not written";
    BallotWord, Words, "a ballot word is wrong";
    LastBallotWord, Words, "the last ballot word is not written";
    BehindIndex, Words, "a word behind the index is written";
    BehindBallots, Words, "a word behind the ballots is written";
    ShortAnswer, Words, "a short answer buffer is written";
    Result, Words, "the result is wrong";
    LongBallots, Lengths, "6,144 words of ballot table are asked for";
    ShortBallots, Lengths, "a ballot table of one row less is taken";
    LastBallotRow, Lengths, "the 408th ballot row is not written";
    ShortBallotsCleared, Lengths, "a ballot table that is too short is cleared";
    ShortIndex, Lengths, "8,192 words of index table are taken";
    CloserInItsOwnRow, Closed, "a cast or spoil is named in its own index row";
    SpoilNotNamed, Closed, "a spoil is named in no index row";
    CloserByMainNumber, Closed, "a ballot's index row has a main number";
    OpenBallotHasZero, Closed, "an open ballot's index row has 0";
    SpoilNotNamedInKept, Closed, "a spoil is named in no index row of the kept board";
    SpoilNotAskedFor, Accepted, "an opening needs no spoil";
    CastForSpoil, Accepted, "an opening passes beside a cast";
    SpoilOfSession, Accepted, "an opening passes with a spoil of its session";
    SpoilBehind, Accepted, "an opening passes with a spoil behind it whose time is not later";
    SpoilOfLaterTime, Refused, "an opening is refused with a spoil before it whose time is later";
    CastOfOpened, Hidden, "a cast of an opened ballot is out of phase, not a second";
    RollNotTested, BadRoll, "a bad roll is not refused";
    EqualVoters, BadRoll, "equal voter numbers pass as rising";
    FirstVoterAlone, BadRoll, "a voter number is compared with the first alone";
    SignedVoters, BadRoll, "voter numbers are compared as signed numbers";
    LastVoterUnseen, BadRoll, "the last voter number is compared with none";
    OddRoll, BadRoll, "an odd number of roll words passes up to 4,096";
    LongRoll, BadRoll, "2,049 pairs pass";
    RollAfterBlank, BadRoll, "20 comes after 3";
    RollBeforeLengths, BadRoll, "20 comes before 1 and 2";
    RollKeepsTables, BadRoll, "20 leaves the tables as they were";
    RollNotAsked, Unenrolled, "a session's voter is not sought on the roll";
    WeightNotCompared, Unenrolled, "a session's weight is not compared";
    VoterNotCompared, Unenrolled, "a session passes with any voter's weight";
    LessWeight, Unenrolled, "a session passes with less than the roll's weight";
    AcrossPairs, Unenrolled, "a session passes with words across two pairs";
    BehindRoll, Unenrolled, "a session passes with the pair behind the roll";
    FirstPairUnseen, Refused, "the roll's first pair is not looked at";
    LastPairUnseen, Refused, "the roll's last pair is not looked at";
    HalvingLeavesOne, Refused, "a search by halving ends with one pair left";
    BallotOnRoll, Refused, "a ballot's first two words are sought on the roll";
    RollBeforeContent, Order, "21 comes before 13";
    RollAfterVerdict, Order, "21 comes after 14";
    RollOfKept, OtherRoll, "the later board is audited with the kept board's roll";
    LaterTraits, Width, "the traits of a later genesis are read";
    AnyFirstHead, Width, "traits are read whatever item is the first";
    NarrowSets, Width, "sets have one word on a wide board";
    WideByHead, Width, "a traits word of 0 makes sets wide";
    TraitsPass, Width, "traits that are not known pass";
    TraitsPassAsWide, Width, "traits that are not known pass, and make sets wide";
    TraitPasses, Width, "one trait that is not known, bit 9, passes";
    TraitsBeforeAddress, Width, "traits are refused before the address";
    TraitsAfterVerdict, Width, "traits are refused after a missing verdict";
    BitsAcross, Width, "contest j is bit j div 8 of word j mod 8";
    NumbersTo31, Width, "contest numbers go up to 31 on a wide board";
    NumbersTo255, Width, "contest numbers go up to 255 on a narrow board";
    TimesUnshifted, Width, "a wide round's times are read behind the first word of its set";
    SessionsFirstWord, Width, "a session's set is read from its first word alone";
    RoundsFirstWord, Width, "a round's set is read from its first word alone";
    EmptyFirstWord, Width, "a set without a contest below 32 is refused as empty";
    CryptogramsOfFirstWord, Width, "a ballot's cryptograms are counted from the first word of its set alone";
    CryptogramsUnshifted, Width, "cryptograms are read behind the first word of a wide set";
    FirstCryptograms, Width, "the low bits of a ballot's first 32 cryptograms alone are looked at";
    CryptogramsTo200, Width, "cryptograms past the 200th are not looked at";
    CryptogramsTo32, Width, "33 cryptograms are a misfit on a wide board";
    CryptogramsTo256, Width, "33 cryptograms are no misfit on a narrow board";
    WideTrustees, Width, "trustees are a set of eight words on a wide board";
    GenesisOf17, Width, "a genesis of 18 words is a misfit";
    LongGenesis, Width, "a genesis of 19 words is no misfit";
    BallotsFirstWord, Contests, "contests of a ballot's later words pass unseen";
    UndefinedLater, Contests, "contests of a set's later words need not be defined";
    EmptySets, Contests, "a round or a session without contests passes";
    CryptogramsUncounted, Contests, "a ballot's cryptograms are not counted";
    OneCurve, Curve, "every board is on secp256r1";
    WideOnOne, Curve, "sets are wide on secp256r1 alone";
    CurveBitsTurned, Curve, "secp384r1 and secp521r1 are taken for each other";
    UnknownTraitsTell, Curve, "a board with unknown traits is read as on its curve until it is refused";
    Curve3As2, Curve, "a curve with the number 3 is taken for secp521r1";
    Curve3Passes, Curve, "a curve with the number 3 passes as secp256r1";
    Sha512Cut, Curve, "addresses on secp384r1 are SHA-512, cut to twelve words";
    HashedOf19, Curve, "the hashed words are n + 19 on every curve";
    Sha256OnAll, Curve, "addresses are SHA-256 on every curve";
    AddressOfEight, Curve, "an address's first eight words alone are compared with the hash";
    PreviousOfEight, Curve, "the first eight words of a previous field alone are compared";
    ParentOfEight, Curve, "a parent is sought by the first eight words of its address";
    AddressOfTwelve, Curve, "an address's first twelve words alone are compared with the hash";
    PreviousOfTwelve, Curve, "the first twelve words of a previous field alone are compared";
    ParentOfTwelve, Curve, "a parent is sought by the first twelve words of its address";
    SignatureOf16, Curve, "a signature has 16 words on every curve";
    SignatureOf32, Curve, "a signature has 32 words on secp521r1";
    VerdictAsAddress, Curve, "a verdict's key fingerprint is as wide as an address";
    KeyAsAddress, Curve, "a verifier's key fingerprint is as wide as an address";
    FingerprintByCurve, Curve, "the fingerprint of ballots is the curve's hash, cut to eight words";
    ShareAsSignature, Curve, "a trustee's share is as wide as a signature";
    CommitmentOf9, Curve, "a commitment has nine words on every curve";
    NinthWord, Curve, "the ninth word of a commitment is the last on every curve";
    ZerosOf24, Curve, "the low 24 bits of a commitment are zero on secp521r1, too";
    CryptogramOf17, Curve, "a cryptogram has 17 words on every curve";
    SeventeenthWord, Curve, "the 17th word of a cryptogram is the last on every curve";
    CryptogramOf33, Curve, "a cryptogram has 33 words on secp521r1";
    ZerosOf8, Zeros, "eight low bits of a commitment are zero on every curve, the others any";
    CryptogramsUnseen, Zeros, "the low bits of cryptograms are not looked at";
    CryptogramZerosOf8, Zeros, "eight low bits of a cryptogram are zero on secp521r1, the others any";
    AnswerOf14, Answer, "14 words of answer are taken, for an end address of eight";
    EndOfEight, End, "the end address has eight words and zeros on every curve";
    EndUnpadded, End, "the words behind an end address stay as they were";
    LayoutOfKept, TwoLayouts, "the later board is read with the kept board's layout";
    ApartBeforeAudit, TwoLayouts, "boards on two curves are apart though the later one is refused";
    ApartBeforeNumber, TwoLayouts, "boards on two curves are apart before 19";
    SpoilAnswered, Answers, "a receipt of a spoil is answered";
    MainAnswered, Answers, "a receipt of any main item is answered";
    HiddenAnswered, Answers, "a receipt of a hidden item is answered";
    AddressAlone, Answers, "a receipt's signature is not compared";
    SignatureAlone, Answers, "a receipt's address is not compared";
    AddressBefore, Answers, "a receipt has its address before its signature";
    AcrossCasts, Answers, "a receipt's signature may be that of another cast";
    EightOfAddress, Answers, "the first eight words of a receipt's address alone are compared";
    SixteenOfSignature, Answers, "the first sixteen words of a receipt's signature alone are compared";
    LastOfAddress, Answers, "the last word of a receipt's address is not compared";
    LastOfSignature, Answers, "the last word of a receipt's signature is not compared";
    FirstOfSignature, Answers, "the first word of a receipt's signature is not compared";
    ItemNumber, Answers, "the answer is the cast's item number";
    MainsBefore, Answers, "the answer is the number of main items before the cast";
    BallotNumber, Answers, "the answer is the main number of the cast's ballot";
    CastNumber, Answers, "the answer is the cast's number among the casts";
    CountedAlone, Answers, "a cast that was replaced is not found";
    LastOfVoter, Answers, "the answer is the last cast of the same voter";
    LastMainUnseen, Answers, "a cast that is the last main item is not found";
    OneReceiptEach, Answers, "the second of two equal receipts is not answered";
    FirstOfAddress, Answers, "of several receipts with one address the first alone is compared";
    ZeroForNone, Answers, "the answer is 0 where there is no cast";
    LastReceipt, Answers, "the last receipt is not answered";
    To256, Answers, "receipts past the 256th are not answered";
    AnswersTurned, Answers, "the answers stand in the order from the last receipt to the first";
    FoundFirst, Answers, "the receipts that have a cast are answered first";
    RestUnwritten, Answers, "the words behind the answers stay as they were";
    RestTo512, Answers, "zeros stand behind the answers up to the 512th word alone";
    RestAsNone, Answers, "the words behind the answers are as for no cast";
    AnswersZeroed, Receipts, "the answers are zeros where the board is refused";
    AnswersUnderway, Receipts, "the answers up to the item that is refused stay";
    FoundUnderway, Receipts, "the answers that are found before the item that is refused stay";
    Refuses512, Receipts, "512 receipts are refused";
    Takes513, Receipts, "513 receipts are taken";
    ManyTaken, Receipts, "any number of receipts is taken";
    WidthOf24, Receipts, "22 goes by receipts of 24 words on every curve";
    OversizeOf24, Receipts, "22 goes by receipts of 24 words where the board has too many words";
    RefusedOf24, Receipts, "22 goes by receipts of 24 words where the board is refused";
    WidthByUnknown, Receipts, "22 goes by the curve of a traits word that is not known";
    MostOf24, Receipts, "more words than 512 receipts of secp256r1 are refused on every curve";
    MostOf49, Receipts, "as many words as 512 receipts of secp521r1 are taken on every curve";
    PartTaken, Receipts, "the words behind the last whole receipt are left aside";
    NoneRefused, Receipts, "no receipts are refused";
    BadAfterAudit, Receipts, "22 comes after the audit";
    BadAfterLimit, Receipts, "22 comes after the word limit";
    BadAfterTables, Receipts, "22 comes after the tables' 2";
    BadClears, Receipts, "22 leaves the tables all zero";
    BadHasItems, Receipts, "22 gives the number of receipts as items";
    ShortBeforeBad, Receipts, "2 comes before 22";
    ShortAfterLimit, Receipts, "the answers' 2 comes after the word limit";
    ShortAfterAudit, Receipts, "the answers' 2 comes after the audit";
    ShortClears, Receipts, "the answers' 2 leaves the tables all zero";
    OneLessTaken, Receipts, "a buffer with one word less than there are receipts is taken";
    SameRefused, Receipts, "a buffer with just a word for each receipt is refused";
    BufferOf512, Receipts, "a buffer of fewer than 512 words is refused";
    EmptyRefused, Receipts, "a buffer without words is refused for no receipts";
    BehindAnswers, Receipts, "a word behind the answers is written";
    LastCast, FirstCast, "the last of several casts is answered";
    HiddenAgrees, Agreement, "a hidden item's address agrees";
    HiddenSkipped, Agreement, "a note of a hidden item is left aside";
    GenesisUnseen, Agreement, "the first main item is not found";
    LastMainNotNoted, Agreement, "the last main item is not found";
    EightOfNoted, Agreement, "the first eight words of a note's address alone are compared";
    TwelveOfNoted, Agreement, "the first twelve words of a note's address alone are compared";
    LastOfNoted, Agreement, "the last word of a note's address is not compared";
    FirstOfNoted, Agreement, "the first word of a note's address is not compared";
    AddressBeforeTime, Agreement, "a note has its address before its time";
    EqualRefused, Agreement, "the same main item as that of the note before is out of order";
    BackByOneTaken, Agreement, "the main item before that of the note before is in order";
    OrderNotTested, Agreement, "the order of main items is not looked at";
    OrderOfFirst, Agreement, "the order is that of a note and the first one";
    OrderByTime, Agreement, "of two main items the one with the lesser time is the earlier";
    TimeNotTested, Agreement, "the time of a note is not looked at";
    TimesMustRise, Agreement, "a time less than that of the note before is too early";
    TimeOfNoteBefore, Agreement, "a note's time is compared with that of the note before, not with its item's";
    SameTimeRefused, Agreement, "a time that is the item's own is too early";
    OneLessInTime, Agreement, "a time one less than the item's is not too early";
    LowWordAlone, Agreement, "the low words of two times alone are compared";
    HighWordAlone, Agreement, "the high words of two times alone are compared";
    WordByWord, Agreement, "a time with a lesser low word is too early, whatever its high word";
    TimeTurned, Agreement, "a note's time has its low word first";
    SignedTime, Agreement, "times are compared as signed numbers";
    NextPassed, Agreement, "a note later than the main item behind its own disagrees";
    ReasonsTurned, Agreement, "of two reasons the time goes before the order";
    OneReason, Agreement, "every disagreement has the first reason";
    NoteFromZero, Agreement, "notes are numbered from 0";
    MainForNote, Agreement, "the number is the main item's, not the note's";
    LastDisagreeing, Agreement, "the last note that disagrees is named";
    FirstNoteUnseen, Agreement, "the first note is not looked at";
    LastNoteUnseen, Agreement, "the last note is not looked at";
    NotesTo512, Agreement, "notes past the 512th are not looked at";
    NoneNotHeld, Agreement, "no notes are not held";
    Refuses1024, Notes, "1,024 notes are refused";
    Takes1025, Notes, "1,025 notes are taken";
    ManyNotesTaken, Notes, "any number of notes is taken";
    NoteOf10, Notes, "23 goes by notes of ten words on every curve";
    OversizeNoteOf10, Notes, "23 goes by notes of ten words where the board has too many words";
    RefusedNoteOf10, Notes, "23 goes by notes of ten words where the board is refused";
    NoteByUnknown, Notes, "23 goes by the curve of a traits word that is not known";
    MostNotesOf10, Notes, "more words than 1,024 notes of secp256r1 are refused on every curve";
    MostNotesOf18, Notes, "as many words as 1,024 notes of secp521r1 are taken on every curve";
    PartOfNoteTaken, Notes, "the words behind the last whole note are left aside";
    NoNotesRefused, Notes, "no notes are refused";
    NotesAfterAudit, Notes, "23 comes after the audit";
    NotesAfterLimit, Notes, "23 comes after the word limit";
    NotesAfterTables, Notes, "23 comes after the tables' 2";
    NotesAfterRoll, Notes, "23 comes after 20";
    NotesClear, Notes, "23 leaves the tables all zero";
    NotesHaveItems, Notes, "23 gives the number of notes as items";
    BadAgree, Notes, "bad notes agree";
    RefusedAgrees, Notes, "notes agree where the board is refused";
    HeldUnderway, Notes, "notes are held against the items before the one that is refused";
    DisagreementClears, Notes, "a disagreement leaves the tables all zero";
    DisagreementClearsBallots, Notes, "a disagreement leaves the ballot table all zero";
    DisagreementHasNoItems, Notes, "a disagreement gives 0 items";
    DisagreementHasNoEnd, Notes, "a disagreement gives no end address";
    DisagreementRefuses, Notes, "a disagreement is refused by 23";
    AgreementUnwritten, Notes, "the last two words of the answer stay as they were in a refusal";
    AgreementUnnumbered, Notes, "the last word of the answer stays as it was where all agree";
    AnswerOf22, Notes, "22 words of answer to notes are taken";
    LaterMeant, FirstNoted, "the last of several main items is noted";
    ContentAlone, Planned, "the blocks are those of the contents alone";
    ContentUncounted, Planned, "the blocks are those of items without content";
    WholeItem, Planned, "the blocks are those of whole items";
    WithSignatureHashed, Planned, "signatures are counted as hashed";
    HeadUnhashed, Planned, "heads are not counted as hashed";
    BlocksOf19, Planned, "n + 19 words are counted as hashed on every curve";
    Unpadded, Planned, "the padding takes no room";
    FullBlocksAlone, Planned, "full blocks alone are counted";
    NoSecondBlock, Planned, "a block short where a message ends in the last words of a block, 2 or 4";
    NoRoomForOne, Planned, "a block short where the length alone has room behind a message";
    AlwaysTwo, Planned, "two blocks are counted for the end of every message";
    RoomOfTwo, Planned, "a block too many where the padding just has room";
    LengthOf64, Planned, "the length has 64 bits on every curve";
    LengthOf128, Planned, "the length has 128 bits on every curve";
    BlocksOf64Bytes, Planned, "blocks have 64 bytes on every curve";
    BlocksOf128Bytes, Planned, "blocks have 128 bytes on every curve";
    Sha384In64, Planned, "blocks have 64 bytes on secp384r1";
    Sha512In64, Planned, "blocks have 64 bytes on secp521r1";
    FingerprintHashed, Planned, "the fingerprint of an extraction counts as a block";
    BlocksOfMains, Planned, "the blocks of hidden items are not counted";
    GenesisUnhashed, Planned, "the blocks of the first item are not counted";
    LastUnhashed, Planned, "the blocks of the last item are not counted";
    RowOfFour, Planned, "an index row has four words";
    RowsOfMains, Planned, "hidden items have no index rows";
    WholeIndex, Planned, "the index words are those that a table needs";
    RowsAsItems, Planned, "the index words are the items";
    SumsTurned, Planned, "the blocks stand before the index words";
    ItemsOfMains, Planned, "the items are the main items";
    ItemsWithClose, Planned, "the closing word is counted as an item";
    RefusalAtNone, Planned, "a refusal has 0 items";
    RefusalAtNext, Planned, "a refusal counts the item that is refused";
    RefusalHasIndex, Planned, "a refusal has the index words of the items passed";
    RefusalHasBlocks, Planned, "a refusal has the blocks of the items passed";
    WordsTo262143, PlanLimits, "262,144 words are refused";
    WordsTo262145, PlanLimits, "262,145 words are taken";
    WordsUncounted, PlanLimits, "any number of words is taken";
    WordsOfProgram, PlanLimits, "more than 16,384 words are refused";
    BlankBeforeOversize, PlanLimits, "3 comes before 1";
    EmptyTorn, Planned, "no words are 4";
    CloseFirstPlanned, Planned, "a closing word alone is planned";
    TraitsRefused, Planned, "unknown traits are refused by 13";
    CurveByHighestBit, Plans, "traits above 5 are read as a larger curve";
    ItemsTo2047, PlanLimits, "2,048 items are refused";
    ItemsTo2049, PlanLimits, "2,049 items are taken";
    ItemsUncounted, PlanLimits, "any number of items is taken";
    CloseAtLimitRefused, PlanLimits, "a closing word behind 2,048 items is refused by 1";
    LimitAfterHead, PlanLimits, "the item limit comes after 5, 6 and 4";
    KindUnseen, Planned, "a type passes under the other kind";
    HiddenAmongMains, Planned, "a hidden type passes as a main item";
    TypeUnseen, Planned, "a type that is not listed passes";
    StrangersPass, Planned, "every kind and type passes";
    CountUnseen, Planned, "every count passes";
    TornByTwo, Planned, "an item that ends one word behind the board passes";
    TornWithoutMore, Planned, "an item that ends where the board does is torn";
    TornBySignature, Planned, "an item without signature and address passes";
    UnclosedPlanned, Planned, "a board without a closing word is planned";
    TornBeforeStranger, Planned, "4 comes before 5 and 6";
    TornBeforeMisfit, Planned, "4 comes before 6";
    MisfitBeforeStranger, Planned, "6 comes before 5";
    CloseHasMains, Planned, "the closing word is to have the number of main items";
    CloseUnread, Plans, "the number of a closing word is not looked at";
    CloseOf16Bits, Plans, "the low 16 bits of a closing word alone are looked at";
    CloseAtLeast, Plans, "a closing word may have a larger number";
    WordsBehindPass, Plans, "words behind the closing word pass";
    ZerosBehindPass, Plans, "zeros behind the closing word pass";
    PlanOf3, Plans, "three words of answer to a plan are taken";
    PlanOf5, Plans, "five words of answer to a plan are asked for";
    PlanOf22, Plans, "an audit's words of answer are written";
    ShortPlanCleared, Plans, "an answer to a plan that is too short is cleared";
}

/// The mistake that the stand-in makes.
static MADE: Mutex<Option<Mistake>> = Mutex::new(None);

/// Tells the stand-in to make a mistake from now on, or none.
pub fn make_mistake(mistake: Option<Mistake>) {
    *MADE.lock().expect("nothing fails while it is held") = mistake;
}

fn made() -> Option<Mistake> {
    *MADE.lock().expect("nothing fails while it is held")
}

/// Runs an entry with the tables that were passed for a board, or with what a mistake makes of them.
fn with_tables<T>(board: Board, tables: Tables, run: impl FnOnce(Tables) -> T) -> T {
    let Tables { index, ballots } = tables;
    if made() == Some(Mistake::RollKeepsTables) && !is_good_roll(board.roll) {
        // With such a roll nothing but zeros is written.
        return run(Tables { index: &mut index.to_vec(), ballots: &mut ballots.to_vec() });
    }
    with_index(index, |index| with_ballots(ballots, |ballots| run(Tables { index, ballots })))
}

/// Runs an entry with a table of `need` words in the place of a shorter one, which gets the first of them.
fn with_longer<T>(table: &mut [u32], need: usize, run: impl FnOnce(&mut [u32]) -> T) -> T {
    let mut longer = table.to_vec();
    longer.resize(need, 0);
    let given = run(&mut longer);
    table.copy_from_slice(&longer[..table.len()]);
    given
}

/// Runs an entry with the index table that was passed, or with what a mistake makes of it.
fn with_index<T>(table: &mut [u32], run: impl FnOnce(&mut [u32]) -> T) -> T {
    match made() {
        Some(Mistake::ShortIndex) if (INDEX_NEED_BEFORE..INDEX_NEED).contains(&table.len()) => {
            with_longer(table, INDEX_NEED, run)
        }
        _ => run(table),
    }
}

/// Runs an entry with the ballot table that was passed, or with what a mistake makes of it.
fn with_ballots<T>(table: &mut [u32], run: impl FnOnce(&mut [u32]) -> T) -> T {
    let len = table.len();
    match made() {
        // The reference refuses what is left.
        Some(Mistake::LongBallots) if len < BALLOTS_NEED_BEFORE => run(&mut table[..len.min(BALLOTS_NEED - 1)]),
        Some(Mistake::ShortBallots) if (BALLOTS_NEED - BALLOT_ROW..BALLOTS_NEED).contains(&len) => {
            with_longer(table, BALLOTS_NEED, run)
        }
        Some(Mistake::LastBallotRow) if len >= BALLOTS_NEED => {
            let row = BALLOTS_NEED - BALLOT_ROW..BALLOTS_NEED;
            let before = table[row.clone()].to_vec();
            let given = run(table);
            // Where no word is to be written, the row stays as it was.
            if table[row.clone()] != before {
                table[row].fill(0);
            }
            given
        }
        Some(Mistake::ShortBallotsCleared) if len < BALLOTS_NEED => {
            let given = run(table);
            table.fill(0);
            given
        }
        _ => run(table),
    }
}

/// The rules by which the stand-in audits: a mistake about openings, casts of opened ballots, the roll, contest sets or
/// curves makes one of them wrong.
fn rules() -> Rules {
    let may_open: fn(&Opening) -> bool = match made() {
        Some(Mistake::SpoilNotAskedFor) => |_| true,
        Some(Mistake::CastForSpoil) => |opening| is_spoiled(opening) || opening.history.has_under(opening.ballot, CAST),
        Some(Mistake::SpoilOfSession) => |opening| {
            let session = opening.history.item(opening.ballot).session;
            any_spoil(opening, |spoil| spoil.session == session)
        },
        Some(Mistake::SpoilBehind) => |opening| is_spoiled(opening) || is_spoiled_behind(opening),
        Some(Mistake::SpoilOfLaterTime) => {
            |opening| any_spoil(opening, |spoil| spoil.parent == opening.ballot && spoil.time <= opening.time)
        }
        _ => is_spoiled,
    };
    let may_cast: fn(&History, usize) -> bool = match made() {
        Some(Mistake::CastOfOpened) => |history, ballot| !is_opened(history, ballot),
        _ => RULES.may_cast,
    };
    Rules {
        may_open,
        may_cast,
        is_good_roll: rolls::roll_test(),
        is_enrolled: rolls::roll_search(),
        layout: curves::layout_rules(widths::layout_rules()),
        sets: widths::set_rules(),
        hash: curves::hash_rule(),
        fingerprint: curves::fingerprint_rule(),
    }
}

/// The refusal that tests in a wrong order give in place of this one.
fn in_wrong_order(board: Board, number: u32, items: u32) -> u32 {
    widths::in_wrong_order(board, rolls::in_wrong_order(board, number, items), items)
}

/// Whether a ballot has a voter opening on its track.
fn is_opened(history: &History, ballot: usize) -> bool {
    let mut numbers = 1..=history.items();
    numbers.any(|number| {
        let item = history.item(number);
        item.code == VOTER_OPENING && history.item(history.item(item.parent).parent).parent == ballot
    })
}

/// Whether there is such a spoil before an opening.
fn any_spoil(opening: &Opening, fits: impl Fn(&Item) -> bool) -> bool {
    let mut before = (1..=opening.history.items()).map(|number| opening.history.item(number));
    before.any(|item| item.code == SPOIL && fits(item))
}

/// Whether the words have a spoil of the opening's ballot, at no later time, anywhere behind the ballot.
fn is_spoiled_behind(opening: &Opening) -> bool {
    let (ballot, curve) = (opening.history.item(opening.ballot), opening.history.layout().curve);
    let mut words = &opening.board[ballot.place..];
    while !words.is_empty() && words.len() >= count(words[0]) + curve.frame() {
        let (item, behind) = words.split_at(count(words[0]) + curve.frame());
        // A spoil has no content: its parent follows its head.
        let is_spoil = item[0] == head(MAIN, SPOIL, 0);
        let time_at = curve.hashed_frame() - 2;
        if is_spoil && curve.address(item, 1) == ballot.address && time(item, time_at) <= opening.time {
            return true;
        }
        words = behind;
    }
    false
}

/// Which board an index table is of.
#[derive(Clone, Copy, PartialEq, Eq)]
enum Of {
    OneBoard,
    Kept,
    Later,
}

/// Makes a mistake about who closed a ballot in an accepted board's index table. In a comparison one of
/// these mistakes is made for the kept board, the others for the later one.
fn close_wrongly(board: Board, index: &mut [u32], of: Of) {
    let Some(mistake) = made().filter(|mistake| mistake.about() == About::Closed) else { return };
    let spared = if mistake == Mistake::SpoilNotNamedInKept { Of::Later } else { Of::Kept };
    if of == spared {
        return;
    }
    let right = index.to_vec();
    let rows: Vec<&[u32]> = right.chunks(INDEX_ROW).take(board.verdicts.len() / VERDICT_WORDS).collect();
    let is = |row: &[u32], wanted: u32| code(board.words[row[index_row::PLACE] as usize]) == wanted;
    let fifth = |number: usize| (number - 1) * INDEX_ROW + index_row::CLOSED_BY;
    for (number, row) in (1..).zip(&rows).filter(|(_, row)| is(row, BALLOT)) {
        let closed_by = row[index_row::CLOSED_BY] as usize;
        // An open ballot's fifth word is no item's number.
        match (mistake, rows.get(closed_by - 1)) {
            (Mistake::CloserInItsOwnRow, Some(_)) => {
                index[fifth(number)] = NO_ITEM;
                index[fifth(closed_by)] = closed_by as u32;
            }
            (Mistake::SpoilNotNamed | Mistake::SpoilNotNamedInKept, Some(closer)) if is(closer, SPOIL) => {
                index[fifth(number)] = NO_ITEM;
            }
            (Mistake::CloserByMainNumber, Some(closer)) => {
                index[fifth(number)] = closer[index_row::MAINS_BEFORE] + 1;
            }
            (Mistake::OpenBallotHasZero, None) => index[fifth(number)] = 0,
            _ => {}
        }
    }
}

unsafe fn finish(answer: *mut u32, answer_len: usize, words: &[u32], tables: [(*mut u32, usize); 2]) -> bool {
    let [(index, index_len), (ballots, ballots_len)] = tables;
    let mistake = made();
    let answer = from_raw_parts_mut(answer, answer_len);
    answer[..words.len()].copy_from_slice(words);
    match mistake {
        Some(Mistake::AnswerWord) => answer[0] ^= 1,
        Some(Mistake::LastAnswerWord) => answer[words.len() - 1] ^= 1,
        Some(Mistake::IndexWord) if index_len > 0 => *index ^= 1,
        Some(Mistake::LastIndexWord) if index_len > 0 => *index.add(index_len - 1) ^= 1,
        Some(Mistake::BallotWord) if ballots_len > 1 => *ballots.add(1) ^= 1,
        Some(Mistake::LastBallotWord) if ballots_len > 0 => *ballots.add(ballots_len - 1) ^= 1,
        Some(Mistake::BehindIndex) => *index.add(index_len) ^= 1,
        Some(Mistake::BehindBallots) => *ballots.add(ballots_len) ^= 1,
        _ => {}
    }
    mistake != Some(Mistake::Result)
}

unsafe fn too_short(answer: *mut u32, answer_len: usize) -> bool {
    if made() == Some(Mistake::ShortAnswer) && answer_len > 0 {
        *answer ^= 1;
    }
    false
}

#[rustfmt::skip]
unsafe extern "C" fn stand_in_audit(
    board: *const u32, board_len: usize, verdicts: *const u32, verdicts_len: usize,
    roll: *const u32, roll_len: usize,
    index: *mut u32, index_len: usize, ballots: *mut u32, ballots_len: usize,
    answer: *mut u32, answer_len: usize,
) -> bool {
    if answer_len < AUDIT_ANSWER && made() == Some(Mistake::AnswerOf14) && answer_len >= ANSWER_NEED_BEFORE {
        let mut longer = [0; AUDIT_ANSWER];
        let given = stand_in_audit(
            board, board_len, verdicts, verdicts_len, roll, roll_len, index, index_len, ballots, ballots_len,
            longer.as_mut_ptr(), AUDIT_ANSWER);
        from_raw_parts_mut(answer, answer_len)[..ANSWER_NEED_BEFORE].copy_from_slice(&longer[..ANSWER_NEED_BEFORE]);
        return given;
    }
    if answer_len < AUDIT_ANSWER {
        return too_short(answer, answer_len);
    }
    let board = Board {
        words: from_raw_parts(board, board_len),
        verdicts: from_raw_parts(verdicts, verdicts_len),
        roll: rolls::taken(roll, roll_len),
    };
    let tables =
        Tables { index: from_raw_parts_mut(index, index_len), ballots: from_raw_parts_mut(ballots, ballots_len) };
    let report = with_tables(board, tables, |Tables { index, ballots }| {
        let mut report = audit_with(rules(), board, index, ballots).0;
        if report.number == 0 {
            close_wrongly(board, index, Of::OneBoard);
        }
        report.number = in_wrong_order(board, report.number, report.items);
        report
    });
    let words = curves::answer_with_end(board, audit_words(&report), from_raw_parts(answer, answer_len));
    finish(answer, answer_len, &words, [(index, index_len), (ballots, ballots_len)])
}

#[rustfmt::skip]
unsafe extern "C" fn stand_in_compare(
    kept: *const u32, kept_len: usize, kept_verdicts: *const u32, kept_verdicts_len: usize,
    kept_roll: *const u32, kept_roll_len: usize,
    later: *const u32, later_len: usize, later_verdicts: *const u32, later_verdicts_len: usize,
    later_roll: *const u32, later_roll_len: usize,
    main_number: usize,
    kept_index: *mut u32, kept_index_len: usize, kept_ballots: *mut u32, kept_ballots_len: usize,
    later_index: *mut u32, later_index_len: usize, later_ballots: *mut u32, later_ballots_len: usize,
    answer: *mut u32, answer_len: usize,
) -> bool {
    if answer_len < COMPARE_ANSWER {
        return too_short(answer, answer_len);
    }
    let kept = Board {
        words: from_raw_parts(kept, kept_len),
        verdicts: from_raw_parts(kept_verdicts, kept_verdicts_len),
        roll: rolls::taken(kept_roll, kept_roll_len),
    };
    let mut later = Board {
        words: from_raw_parts(later, later_len),
        verdicts: from_raw_parts(later_verdicts, later_verdicts_len),
        roll: rolls::taken(later_roll, later_roll_len),
    };
    if made() == Some(Mistake::RollOfKept) {
        later.roll = kept.roll;
    }
    let kept_tables = Tables {
        index: from_raw_parts_mut(kept_index, kept_index_len),
        ballots: from_raw_parts_mut(kept_ballots, kept_ballots_len),
    };
    let later_tables = Tables {
        index: from_raw_parts_mut(later_index, later_index_len),
        ballots: from_raw_parts_mut(later_ballots, later_ballots_len),
    };
    let comparison = with_tables(kept, kept_tables, |of_kept| with_tables(later, later_tables, |of_later| {
        let kept_tables = Tables { index: &mut *of_kept.index, ballots: of_kept.ballots };
        let later_tables = Tables { index: &mut *of_later.index, ballots: of_later.ballots };
        let both = [rules(), curves::later_rules(rules(), kept)];
        let mut comparison = compare_with(both, kept, later, main_number, kept_tables, later_tables);
        if let Comparison::Refused { side, number, items } = &mut comparison {
            let board = if *side == Side::Kept { kept } else { later };
            *number = in_wrong_order(board, *number, *items);
        }
        let refused = match comparison {
            Comparison::Refused { side, number, .. } if number != 19 => Some(side),
            _ => None,
        };
        if refused != Some(Side::Kept) {
            close_wrongly(kept, of_kept.index, Of::Kept);
        }
        if refused.is_none() {
            close_wrongly(later, of_later.index, Of::Later);
        }
        curves::apart_too_soon(kept, later, comparison)
    }));
    let tables = [(later_index, later_index_len), (later_ballots, later_ballots_len)];
    finish(answer, answer_len, &compare_words(&comparison), tables)
}

#[rustfmt::skip]
unsafe extern "C" fn stand_in_ancestry(
    board: *const u32, board_len: usize, verdicts: *const u32, verdicts_len: usize,
    roll: *const u32, roll_len: usize,
    item_number: usize,
    index: *mut u32, index_len: usize, ballots: *mut u32, ballots_len: usize,
    list: *mut u32, list_len: usize, answer: *mut u32, answer_len: usize,
) -> bool {
    if answer_len < ANCESTRY_ANSWER {
        return too_short(answer, answer_len);
    }
    let board = Board {
        words: from_raw_parts(board, board_len),
        verdicts: from_raw_parts(verdicts, verdicts_len),
        roll: rolls::taken(roll, roll_len),
    };
    let tables =
        Tables { index: from_raw_parts_mut(index, index_len), ballots: from_raw_parts_mut(ballots, ballots_len) };
    let written = from_raw_parts_mut(list, list_len);
    let given = with_tables(board, tables, |Tables { index, ballots }| {
        let mut given = ancestry_with(rules(), board, item_number, index, ballots, written);
        if matches!(given.number, 0 | 19) {
            close_wrongly(board, index, Of::OneBoard);
        }
        given.number = in_wrong_order(board, given.number, given.count);
        given
    });
    let tables = [(list, list_len), (ballots, ballots_len)];
    finish(answer, answer_len, &ancestry_words(&given), tables)
}

#[rustfmt::skip]
unsafe extern "C" fn stand_in_receipts(
    board: *const u32, board_len: usize, verdicts: *const u32, verdicts_len: usize,
    roll: *const u32, roll_len: usize, asked: *const u32, asked_len: usize,
    index: *mut u32, index_len: usize, ballots: *mut u32, ballots_len: usize,
    answers: *mut u32, answers_len: usize, answer: *mut u32, answer_len: usize,
) -> bool {
    if answer_len < AUDIT_ANSWER && made() == Some(Mistake::AnswerOf14) && answer_len >= ANSWER_NEED_BEFORE {
        let mut longer = [0; AUDIT_ANSWER];
        let given = stand_in_receipts(
            board, board_len, verdicts, verdicts_len, roll, roll_len, asked, asked_len, index, index_len,
            ballots, ballots_len, answers, answers_len, longer.as_mut_ptr(), AUDIT_ANSWER);
        from_raw_parts_mut(answer, answer_len)[..ANSWER_NEED_BEFORE].copy_from_slice(&longer[..ANSWER_NEED_BEFORE]);
        return given;
    }
    if answer_len < AUDIT_ANSWER {
        return too_short(answer, answer_len);
    }
    let board = Board {
        words: from_raw_parts(board, board_len),
        verdicts: from_raw_parts(verdicts, verdicts_len),
        roll: rolls::taken(roll, roll_len),
    };
    let tables =
        Tables { index: from_raw_parts_mut(index, index_len), ballots: from_raw_parts_mut(ballots, ballots_len) };
    let (asked, written) = (from_raw_parts(asked, asked_len), from_raw_parts_mut(answers, answers_len));
    let report = with_tables(board, tables, |Tables { index, ballots }| {
        let tables = Tables { index: &mut *index, ballots };
        let mut report = receipts::answered(rules(), board, asked, tables, written);
        if report.number == 0 {
            close_wrongly(board, index, Of::OneBoard);
        }
        report.number = in_wrong_order(board, report.number, report.items);
        report
    });
    if made() == Some(Mistake::BehindAnswers) {
        *answers.add(answers_len) ^= 1;
    }
    let words = curves::answer_with_end(board, audit_words(&report), from_raw_parts(answer, answer_len));
    finish(answer, answer_len, &words, [(index, index_len), (ballots, ballots_len)])
}

#[rustfmt::skip]
unsafe extern "C" fn stand_in_notes(
    board: *const u32, board_len: usize, verdicts: *const u32, verdicts_len: usize,
    roll: *const u32, roll_len: usize, asked: *const u32, asked_len: usize,
    index: *mut u32, index_len: usize, ballots: *mut u32, ballots_len: usize,
    answer: *mut u32, answer_len: usize,
) -> bool {
    if answer_len < NOTES_ANSWER && made() == Some(Mistake::AnswerOf22) && answer_len >= AUDIT_ANSWER {
        let mut longer = [0; NOTES_ANSWER];
        let given = stand_in_notes(
            board, board_len, verdicts, verdicts_len, roll, roll_len, asked, asked_len, index, index_len,
            ballots, ballots_len, longer.as_mut_ptr(), NOTES_ANSWER);
        from_raw_parts_mut(answer, answer_len).copy_from_slice(&longer[..answer_len]);
        return given;
    }
    if answer_len < NOTES_ANSWER {
        return too_short(answer, answer_len);
    }
    let board = Board {
        words: from_raw_parts(board, board_len),
        verdicts: from_raw_parts(verdicts, verdicts_len),
        roll: rolls::taken(roll, roll_len),
    };
    let tables =
        Tables { index: from_raw_parts_mut(index, index_len), ballots: from_raw_parts_mut(ballots, ballots_len) };
    let asked = from_raw_parts(asked, asked_len);
    let (report, agreement) = with_tables(board, tables, |Tables { index, ballots }| {
        let tables = Tables { index: &mut *index, ballots };
        let (mut report, agreement) = notes::held(rules(), board, asked, tables);
        if report.number == 0 {
            close_wrongly(board, index, Of::OneBoard);
        }
        report.number = in_wrong_order(board, report.number, report.items);
        (report, agreement)
    });
    let mut words = notes_words(&report, agreement);
    let before = from_raw_parts(answer, answer_len);
    let audited = curves::answer_with_end(board, audit_words(&report), before);
    words[..AUDIT_ANSWER].copy_from_slice(&audited);
    match (made(), agreement) {
        (Some(Mistake::AgreementUnwritten), Agreement::NotHeld) => {
            words[AUDIT_ANSWER..].copy_from_slice(&before[AUDIT_ANSWER..NOTES_ANSWER]);
        }
        (Some(Mistake::AgreementUnnumbered), Agreement::AllAgree) => {
            words[notes_answer::NOTE] = before[notes_answer::NOTE];
        }
        _ => {}
    }
    finish(answer, answer_len, &words, [(index, index_len), (ballots, ballots_len)])
}

unsafe extern "C" fn stand_in_plan(board: *const u32, board_len: usize, answer: *mut u32, answer_len: usize) -> bool {
    let need = match made() {
        Some(Mistake::PlanOf3) => PLAN_ANSWER - 1,
        Some(Mistake::PlanOf5) => PLAN_ANSWER + 1,
        _ => PLAN_ANSWER,
    };
    let written = from_raw_parts_mut(answer, answer_len);
    if answer_len < need {
        if made() == Some(Mistake::ShortPlanCleared) {
            written.fill(0);
        }
        return too_short(answer, answer_len);
    }
    let mut words = plans::planned(from_raw_parts(board, board_len));
    match made() {
        Some(Mistake::AnswerWord) => words[0] ^= 1,
        Some(Mistake::LastAnswerWord) => words[PLAN_ANSWER - 1] ^= 1,
        Some(Mistake::PlanOf22) => written.fill(0),
        _ => {}
    }
    written.iter_mut().zip(words).for_each(|(to, word)| *to = word);
    made() != Some(Mistake::Result)
}
