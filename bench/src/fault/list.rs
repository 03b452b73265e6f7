//! The list of wrong versions, each with what is wrong in it.

use crate::order::Clause;

/// The model with one fault: where its fault has nothing to say, it keeps the rules.
#[derive(Clone, Copy, PartialEq, Eq, Debug)]
pub struct Wrong(pub Fault);

/// Declares the faults, each with the sentence that tells what is wrong.
macro_rules! faults {
    ($($name:ident: $says:literal,)*) => {
        /// One wrong version of the model.
        #[derive(Clone, Copy, PartialEq, Eq, Debug)]
        pub enum Fault {
            $(#[doc = $says] $name,)*
            /// One clause of "in order" is not checked.
            Unchecked(Clause),
        }

        impl Fault {
            /// Every fault, in the order of the list, then one for each clause.
            pub fn all() -> Vec<Fault> {
                let clauses = Clause::ALL.iter().map(|clause| Fault::Unchecked(*clause));
                [$(Fault::$name,)*].into_iter().chain(clauses).collect()
            }

            /// What is wrong, in a sentence.
            pub fn says(&self) -> String {
                match self {
                    $(Fault::$name => $says.to_string(),)*
                    Fault::Unchecked(clause) => format!("in order without: {}", clause.says()),
                }
            }
        }
    };
}

faults! {
    CommitAppliedAtOnce: "a commit is applied at once, ahead of an older event that is undecided",
    OnlyAllOrNone: "only the outcomes 'all commit' and 'none commit' are weighed",
    RequestPassesHeld: "a new request passes a held one",
    LaterHeldPasses: "a later held request passes one that stays held",
    FiledByTransaction: "events in progress are filed by transaction",
    FiledBySecond: "events in progress are filed by second",
    LimitOneShort: "the highest balance is 999,999",
    WithdrawNeedsMore: "Withdraw asks for a balance above its amount",
    AmountZeroTaken: "Withdraw and Deposit of 0 are taken",
    DepositWraps: "the sum of a Deposit is taken in 32 bits",
    OpenOverLimit: "Open has no upper limit",
    ClosedOpensAgain: "a closed account may be opened again",
    CloseNeedsEmpty: "Close asks for balance 0",
    CloseKeepsBalance: "Close leaves the balance",
    ReasonOfAllApplied: "a rejection has the reason of the last outcome, all applied",
    ReasonOfNewestAlone: "a rejection has the reason of the outcome in which the newest event alone is applied",
    ReasonOfFirstOther: "a rejection has the reason of the first outcome that has another than outcome 0",
    ReasonLowest: "a rejection has the lowest reason among the outcomes",
    ReasonHighest: "a rejection has the highest reason among the outcomes",
    ReasonWithoutCommitted: "a rejection has the reason in the applied state, without committed events that wait",
    ReasonFromHolding: "a request that was held is rejected with the reason that it had then",
    ReasonZero: "a rejection has the reason 0",
    ZeroBeforeLife: "reason 2 comes before 1",
    LimitBeforeLife: "for an Open reason 4 comes before 1",
    TooFewForDeposit: "a Deposit over the limit has the reason 3",
    LimitForWithdraw: "a Withdraw of more than 1,000,000 has the reason 4",
    OldKindWritten: "a rejection is written in kind 18",
    OldKindUnread: "the entry reader takes no kind 18",
    OldKindAsNew: "the entry reader takes a kind 18 for a kind 23 with the reason 0",
    ReasonChecked: "the entry reader takes the reasons 1 to 4 alone",
    ReasonBeforeCount: "in the bytes of a rejection the reason comes before the count",
    LineReasonFirst: "in the line of a rejection the reason comes before the count",
    LineWithoutReason: "the line of a rejection has no reason",
    CountOfInProgress: "the count is 2 to the number in progress, committed ones too",
    CountOfUnweighed: "a request held without weighing gets the count of the outcomes",
    UndecidedFillPlaces: "only undecided events count towards the 8 in progress",
    NinePlaces: "a ninth event is taken in progress",
    NineHeld: "a ninth request is held",
    BitsFromNewest: "the bits of an outcome's number go from the newest event",
    OneAppliedACall: "one event at most is applied in a call",
    OneHeldACall: "one held request at most is decided in a call",
    HeldNeedsApplication: "held requests are looked at only where something was applied",
    AbortOfHeldDrainsNothing: "held requests are not looked at after the abort of a held one",
    EntryForStaying: "a held request that stays held gets another entry",
    FreedPlaceKept: "a freed place keeps what stood in it",
    CommitSecondInApplied: "an applied entry carries the second of the commit",
    AbortSecondInDropped: "a dropped entry carries the second of the abort",
    BalanceAfterCall: "an applied entry carries the balance after the call",
    NumberNeverReturns: "the transaction number of an ended event stays taken",
    NumberOfAllAccounts: "refusal 6 looks at every account",
    SevenBeforeSix: "refusal 7 comes before 6",
    EightForHeld: "commit of a held request gets 8",
    TenElevenSwapped: "refusals 10 and 11 are swapped",
    AbortOfCommitted: "abort of a committed event is taken",
    ShortBeforeKind: "an unknown kind in fewer than 11 bytes gets 1",
    AccountBeforeShort: "a torn message that shows account 16 gets 3",
    AccountLowByte: "only the low byte of the account is looked at",
    AfterWholeLookedAt: "bytes after a whole message count as consumed",
    RoomOneShort: "a buffer of 322 bytes is enough",
    OrderBeforeRoom: "refusal 5 comes before 4",
    RefusalSpoils: "a refused call writes into the buffer",
    OutcomeOneMore: "the outcome number 2 to the power u is answered",
    WriterCloseAmount: "the message writer gives Close an amount",
    WriterRoomFirst: "the message writer gives 4 before 3",
    EntryCloseAmount: "the entry reader takes a Close with an amount",
    CountsInAByte: "the probe keeps the counts in a byte, 264 becomes 8",
    ShowsUsedOnly: "the probe shows used places alone",
    TornNotCounted: "the probe does not count a torn frame",
    KindDropsAmount: "the probe sets the amount to 0 with the event kind",
    TooLongEarly: "65,536 bytes are too long",
    RefusedNotMet: "a refused message is not counted among those met",
    StopNotCounted: "a refusal that stops reading is not counted",
    SkipsFifteen: "a refused message is skipped by 15 bytes",
    OrderWithoutHeld: "the order question leaves out the oldest held request",
    LineOfEntryAlone: "an entry's line of text is given only where no byte follows the entry",
    RefusedStepCounts: "a refused step counts an entry",
    StepLeavesAccount: "the register goes on with the account as it was before a step",
    StopsWithoutRoom: "a run stops where too little room is left",
    SkippedNotPassed: "a run does not count the bytes of a refused message as passed",
    NextByteTouched: "a run touches the byte after its entries",
    RegisterKept: "a run goes on with the register of the run before it",
    FourPlacesOrNone: "the counts of a run are stored only where there are four places",
    ShortImageFresh: "words that an image does not have count as 0",
    LifeAboveTwo: "a life above 2 in an image counts as closed",
    EventAboveThree: "an event above 3 in an image counts as Close",
    CloseWithAmount: "the amount of a Close in an image is not looked at",
    DecisionAboveOne: "a decision above 1 in an image counts as committed",
    NeighbourTouched: "a call writes to the words of another account",
    RefusalTouches: "a refused call writes to the image",
}
