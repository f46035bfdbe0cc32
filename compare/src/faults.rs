//! Tests of the comparison itself: sides with one fault each, which must be found.

use crate::abi::*;
use crate::judge::Judge;
use crate::kinds::KINDS;
use crate::model::holder::{self, Memories};
use crate::model::{bridge, counter_after, identifier, mlg, value, BURN, CMD, REQ, RSP, XTND};
use crate::rng::Rng;
use crate::side::{Buffers, BuffersMut, Model, Side};
use std::ops::Range;

/// The faults, and the list of all of them.
macro_rules! faults {
    ($($name:ident),* $(,)?) => {
        #[derive(Clone, Copy, Debug, PartialEq)]
        enum Fault { None, $($name),* }
        use Fault::*;
        const FAULTS: &[Fault] = &[$($name),*];
    };
}

faults! {
    // 01, "Tempting and wrong"
    ScalesBeforeShifting,
    DropsTableBit4,
    TakesReplyOfAnyDevice,
    TakesReplyOfAnyLength,
    SumsHeaderBytes,
    ServesSlot0First,
    // identifier and request bytes
    SpareBitsBefore2To29,
    RefusedPartsShown,
    CountOver8InRequestBytes,
    // reserved bits of a request, read by itself
    TableReadWithTopBits,
    CountReadWithBit4,
    NothingReadUnlessClear,
    ReadAlwaysClear,
    ReadNeverClear,
    ReadClearExchanged,
    ReadClearByTopBitsAlone,
    ReadClearByBit4Alone,
    ReadClearUnlessBothAreSet,
    ReadClearByBits5And6Alone,
    ReadClearByBit7Alone,
    TopBitPacked,
    Bit4Packed,
    // holder
    MemoryLengthBefore11,
    TotalOf32769,
    RightNotAsked,
    RangeBeforeCount,
    RspServed,
    XtndLength0Is5,
    GarbagePastReply,
    CmdClearsLastByte,
    // reserved bits of a REQ or a query, and the mark beside its answer
    ReplyTableWithTopBits,
    TopBitsAre7,
    Bit4IsCounted,
    ReqWithTopBitsIs6,
    ReqWithBit4Is6,
    QueryWithTopBitsIs6,
    QueryWithBit4Is6,
    ReservedBitsOfRefusedAre6,
    NotClearIsSilent,
    AnswerNeverClear,
    AnswerAlwaysClear,
    ReqNeverClear,
    ReqAlwaysClear,
    QueryNeverClear,
    QueryAlwaysClear,
    AnswerClearExchanged,
    AnswerClearByTopBitsAlone,
    AnswerClearByBit4Alone,
    AnswerClearUnlessBothAreSet,
    AnswerClearByBits5And6Alone,
    AnswerClearByBit7Alone,
    QueryReadFromByte0,
    QueryClearByByte2,
    ReqClearAsAQuery,
    CmdIsClear,
    CmdClearAsAReq,
    ReqWithoutRightIsClear,
    ReqPastTheEndIsClear,
    ReqOfNoCountIsClear,
    QueryOfNoCountIsClear,
    RefusedFramesAreClear,
    // burn: what is served
    BurnNotServed,
    Type3IsBurn,
    Type5IsBurn,
    Type3BurnsToo,
    Type5BurnsToo,
    BurnOfALengthServed,
    BurnOfOneByteServed,
    BurnsRightBeforeLength,
    Right1Burns,
    AnyRightBurns,
    EmptyTableBurns,
    BurnPastTheEndIs8,
    BurnOfABurntTableIsSilent,
    RefusedBurnBurns,
    BurnOfALengthBurns,
    // burn: what it changes
    BurnsNothing,
    BurnsTheWholeMemory,
    BurnsUpToTheTable,
    BurnsFromTheOffset,
    BurnsEightBytes,
    BurnsFromTheFlash,
    BurnExchangesTheTwo,
    BurnClearsTheTable,
    BurnErasesAlone,
    FirstByteNotBurnt,
    LastByteNotBurnt,
    ByteBeforeBurntToo,
    ByteAfterBurntToo,
    BurnsToTheBeginning,
    BurnsFromTheBeginning,
    // burn: its acknowledgement
    BurnIsSilent,
    BurnIsClear,
    BurnFailed,
    AcknowledgementExchanged,
    AcknowledgementOfOneByte,
    AcknowledgementOfEightBytes,
    AcknowledgedByRsp,
    AcknowledgedByBurn,
    AcknowledgedToItself,
    AcknowledgedFromTheSender,
    AcknowledgedWithItsOffset,
    AcknowledgedOfTable0,
    AcknowledgedOfTable6,
    AcknowledgedOfTheNextTable,
    AcknowledgedWithoutTableBit4,
    ArrivingAcknowledgementTaken,
    ArrivingAcknowledgementIs6,
    // the flash and frames other than a burn
    CmdWritesFlashToo,
    CmdWritesFlashAlone,
    CmdToABurntTableWritesFlash,
    RefusedCmdWritesFlash,
    ReqAnswersFromFlash,
    ReqBurns,
    QueryBurns,
    // the length of the flash
    FlashUnjudged,
    LongerFlashTaken,
    ShorterFlashTaken,
    FlashJudgedByBurnsAlone,
    MemoryJudgedByFlash,
    FlashLengthBefore11,
    FlashLengthAfter1,
    FlashLengthAfter4,
    // the holder's state: which is sound
    Family0Taken,
    Family1Taken,
    Family4Taken,
    FamiliesOver3Taken,
    EmptyCurrentTaken,
    Current32Taken,
    CurrentTakenModulo32,
    HasCurrent2Taken,
    UnusedCurrentTaken,
    UnusedCurrentIsCurrent,
    NoneRefused,
    Current0Refused,
    Current31Refused,
    StateAfter10,
    StateAfter1,
    StateAfterAllElse,
    StateUnjudgedByQuery,
    // when a table is reloaded
    NeverReloads,
    ReloadsOnFamily3,
    CmdDoesNotReload,
    ReqDoesNotReload,
    BurnDoesNotReload,
    NoneDoesNotReload,
    NoneIsTable0,
    TableThatMayBeReadIsKept,
    CurrentReloaded,
    CmdBeforeReload,
    ReqBeforeReload,
    RefusedReloads,
    WrongLengthReloads,
    WithoutRightReloads,
    PastTheEndReloads,
    NoCountReloads,
    QueryReloads,
    // what is reloaded
    WholeMemoryReloaded,
    ReloadsUpToTheTable,
    ReloadsFromTheOffset,
    EightBytesReloaded,
    FirstByteNotReloaded,
    LastByteNotReloaded,
    ByteBeforeReloadedToo,
    ByteAfterReloadedToo,
    ReloadsToTheBeginning,
    ReloadsFromTheBeginning,
    ReloadsTheTableLeft,
    TableLeftReloadedToo,
    TableLeftIsBurnt,
    ReloadClearsTheTable,
    ReloadBurns,
    ReloadExchangesTheTwo,
    ReloadErasesTheFlash,
    // which table is current after a call
    CmdKeepsCurrent,
    ReqKeepsCurrent,
    BurnKeepsCurrent,
    NoneStaysNone,
    FirstStaysCurrent,
    Family2RemembersNothing,
    Family3RemembersNothing,
    BurnLeavesNone,
    RefusedIsCurrent,
    WrongLengthIsCurrent,
    WithoutRightIsCurrent,
    PastTheEndIsCurrent,
    NoCountIsCurrent,
    QueryIsCurrent,
    QueryLeavesNone,
    NextTableIsCurrent,
    CurrentWithoutTableBit4,
    ReplyTableIsCurrent,
    CurrentIsUnmarked,
    ServedBecomesFamily2,
    ServedBecomesFamily3,
    RefusalClearsState,
    RefusalLeavesNone,
    UnsoundStateCleared,
    UnsoundCurrentCleared,
    // first states
    FirstStateHasTable0,
    FirstStateOfFamily1,
    FirstStateOfFamily4,
    FirstStateAlwaysOfFamily2,
    FirstStateAlwaysOfFamily3,
    RefusedFirstStateHasFamily,
    RefusedFirstStateIs5,
    // bridge
    BufferBeforeState,
    OpensWithTicket0AtEnd,
    TakesHighestFreeSlot,
    NineteenTurns,
    SendsKeptAfterReply,
    FreedSlotKeepsTicket,
    Ticket0Known,
    BytesOfDoneWrite,
    ResetKeepsTickets,
    TurnInPlaceForgets,
    FrameOverrunsPart,
    UnsoundSendsTaken,
    EqualTicketsTaken,
    ProgressOddTaken,
    // checked writes and the second buffer
    SecondUnjudgedByOpenRead,
    SecondUnjudgedByOpenWrite,
    SecondUnjudgedByOpenCheck,
    SecondUnjudgedByTurn,
    SecondUnjudgedByFrame,
    SecondBufferAfterRange,
    TurnInPlaceExchangesBuffers,
    FrameInPlaceExchangesBuffers,
    CheckCopiedIntoFirst,
    CheckCopiedIntoBoth,
    WriteCopiedIntoBoth,
    CmdFromFirstBuffer,
    DoneOnceSent,
    ReadsBackAfterFirstCmd,
    ReadsBackFromTheEnd,
    LastCmdAndRequestInOneTurn,
    ComparedWithFirst,
    FirstByteCompared,
    EightBytesCompared,
    DifferingReplyStored,
    EqualReplyNotStored,
    DifferenceGoesOnWaiting,
    DifferingReplyIs17,
    SendsKeptAtDifference,
    TurnsLeftKeptAtDifference,
    ProgressResetAtDifference,
    DifferentIs16,
    GivenUpCheckIsDone,
    BytesOfDoneCheck,
    SendingCheckDone,
    SendingCheckWaits,
    SendingCheckGaveUp,
    SendingCheckDifferent,
    SendingCheckWithSends,
    DifferenceOfRead,
    DifferenceOfWrite,
    DifferenceWithSends,
    DifferenceWithTurnsLeft,
    DifferenceAtTheCount,
    DifferenceWithOddProgress,
    Kind4Taken,
    Phase6Taken,
    // slots that rest
    RestsFor58Turns,
    RestsFor59Turns, // as where a turn is taken off after the send
    CmdRests,
    FirstSendAloneRests,
    ReadingBackDoesNotRest,
    OnlyFreeSlotsRestLess,
    OnlyHeldSlotsRestLess,
    SilentTurnKeepsRests,
    RefusedTurnLowersRests,
    TurnInPlaceKeepsRests,
    TakenReplyClearsRest,
    ClosingClearsRest,
    RestsFromItsClosing,
    ResetKeepsRests,
    RestingSlotGivenToRead,
    RestingSlotGivenToWrite,
    RestingSlotGivenToCheck,
    GivenATurnEarly,
    LowestFreeTakenThoughItRests,
    HighestFreeTakenThoughItRests,
    AllRestingIs12,
    AllHeldIs19,
    AllHeldIs19WhereOneRests,
    OneRestingIs19,
    TicketsBeforeRest,
    RestBeforeRange,
    Rest61Taken,
    LastRestUnjudged,
    Rest60Refused,
    RestOfFreeSlotRefused,
    RestOfHeldSlotRefused,
    // MLG
    BeginAtEndRefused,
    InfoAtBeginTaken,
    BitsOverWidthTaken,
    NamesEndAtInfo,
    SizeBeforeFields,
    CounterModulo255,
    DataCounterModulo255,
    MarkCounterModulo255,
    WrongCounterRefused,
    EndIs23,
    MarkTextOf50,
    RefusalWithoutPlace,
    U32AsSigned,
    NegativeZeroLost,
    NonFiniteProductShown,
    ShownOfU32,
    BitFieldMasked,
    EmptyInfoHasZero,
    OutputBeforeReader,
    WriterTouchesRest,
    MarkPaddedWithSpaces,
    TooManyFieldsWritten,
    TallyWithoutMarks,
    TallyEndsAtWrongCounter,
    TallyWithoutPlaceAtEnd,
    FieldsWithoutTheLast,
    FieldAlwaysTheFirst,
    FieldAfterTheLast,
    NamesEmpty,
    NamesToBegin,
    InfoEmpty,
    InfoWithItsZero,
    EmptyInfoStartsAt0,
    // FRD
    FrdCounterModulo255,
    FrdDataCounterModulo255,
    FrdTimeCounterModulo255,
    FrdBeginFree,
    FrdTimeWithoutCounter,
    FrdType0Taken,
    FrdTallyPlace81OfRefused,
    SignatureOf62,
    // listing
    NoMarkOfWrongCounter,
    ListedModulo255,
    ControlBytesPrinted,
    TooLongAt65536,
}

/// The model with one fault.
struct Faulty(Fault);

impl Faulty {
    fn has(&self, fault: Fault) -> bool {
        self.0 == fault
    }

    /// The lent buffers, with a second of the right length in place of a wrong one where the fault is not to judge that.
    fn unjudged<'a>(&self, fault: Fault, lent: BuffersMut<'a>, spare: &'a mut [u8]) -> BuffersMut<'a> {
        if self.has(fault) && lent.second.len() != spare.len() {
            return BuffersMut { second: spare, ..lent };
        }
        lent
    }

    /// This side reloads by itself where that is due, so that it may do so wrongly; then the model acts, and reloads nothing.
    fn serve_frame(&self, call: &mut Holding) -> Served {
        let taken = taken_state(self.0, call);
        let served = call.number(taken) == 0;
        let due = served && call.reloads(taken);
        let late = [(CmdBeforeReload, CMD), (ReqBeforeReload, REQ)];
        let late = due && late.contains(&(self.0, call.parts.kind));
        if due && !late {
            reload(self.0, call);
        }
        call.left = call.before.clone();
        let answer = self.act(call, if served { NOTHING_RELOADED } else { taken });
        if late || undue_reload(self.0, call, answer.number) {
            copy_table(Extent::Table, call.place.clone(), &call.left.flash, &mut call.left.working);
        }
        answer
    }

    /// What this side answers to a frame, and leaves in both memories, where it takes the state so.
    fn act(&self, call: &mut Holding, state: HolderState) -> Served {
        let (mut directory, mut frame) = (call.directory, call.frame);
        let kind = call.parts.kind;
        frame_asked(self.0, kind, call.parts.table, &mut directory, &mut frame);
        let mut answer = self.judged(call, directory, state, frame);
        answer = match kind {
            BURN => burn_with(self.0, call, answer),
            _ => beside_flash(self.0, call, &frame, answer),
        };
        if let Some(bytes) = request_bytes_of(kind, &frame) {
            answer = answer_with(self.0, kind, &frame, bytes, answer);
        }
        answer.clear = match (self.0, answer.number) {
            (CmdIsClear, 0) if kind == CMD => 1,
            (CmdClearAsAReq, 0) if kind == CMD && frame.len == 3 => (reserved(&frame.bytes) == (false, false)) as u8,
            (RefusedFramesAreClear, 1..) => 1,
            _ => answer.clear,
        };
        answer.number = match (self.0, kind, answer.number) {
            (RangeBeforeCount, REQ, 9) => 8,
            (XtndLength0Is5, XTND, 6) if frame.len == 0 => 5,
            (_, _, number) => number,
        };
        if self.has(GarbagePastReply) && answer.frames == 1 && answer.frame.len < 8 {
            answer.frame.bytes[7] = 1;
        }
        if self.has(CmdClearsLastByte) && call.left.working != call.before.working {
            call.left.working[call.place.end - 1] = 0;
        }
        answer
    }

    /// The model's answer, with the length of the flash judged as this side does.
    fn judged(&self, call: &mut Holding, directory: Directory, state: HolderState, frame: Frame) -> Served {
        let total = holder::total(&directory);
        let (Parts { kind, to, .. }, Memories { working, flash }) = (call.parts, &mut call.left);
        let taken = match self.0 {
            FlashUnjudged => working.len() == total,
            LongerFlashTaken => working.len() == total && flash.len() > total,
            ShorterFlashTaken => working.len() == total && flash.len() < total,
            FlashJudgedByBurnsAlone => working.len() == total && kind != BURN,
            FlashLengthAfter1 => working.len() == total && frame.id >= 1 << 29,
            FlashLengthAfter4 => working.len() == total && to != directory.own,
            MemoryJudgedByFlash => working.len() == flash.len(),
            _ => false,
        };
        if taken && (working.len(), flash.len()) != (total, total) {
            return Model.serve(directory, state, &mut vec![0; total], &mut vec![0; total], frame).served;
        }
        Model.serve(directory, state, working, flash, frame).served
    }

    /// The answer to a reply to slot `index` that brought other bytes than it sent; `answer` is the model's.
    fn at_difference(&self, b: Bridge, index: usize, first: &mut [u8], frame: &Frame, mut answer: Stepped) -> Stepped {
        let (given, slot) = (b.slots[index], answer.bridge.slots[index]);
        let (place, len) = (bridge::place(&given, index), frame.len as usize);
        if self.has(DifferingReplyStored) {
            first[place..place + len].copy_from_slice(&frame.bytes[..len]);
        }
        if self.has(DifferingReplyIs17) {
            return Stepped { bridge: b, answer: Yielded { number: 17, ..Yielded::default() } };
        }
        answer.bridge.slots[index] = match self.0 {
            DifferenceGoesOnWaiting => given,
            SendsKeptAtDifference => Slot { sends: given.sends, ..slot },
            TurnsLeftKeptAtDifference => Slot { left: given.left, ..slot },
            ProgressResetAtDifference => Slot { progress: 0, ..slot },
            _ => slot,
        };
        answer
    }

    /// The second buffer with which the model judges a reply as this side would with the one that was lent.
    fn compared(&self, slot: &Slot, place: usize, lent: Buffers, frame: &Frame) -> Vec<u8> {
        let len = bridge::chunk(slot);
        let (sent, rest) = (&lent.second[place..place + len], lent.second.iter().skip(place + len));
        match self.0 {
            ComparedWithFirst => lent.first.to_vec(),
            FirstByteCompared if frame.bytes[0] == sent[0] => with_second(lent.second, place, &frame.bytes[..len]),
            EightBytesCompared if frame.bytes[len..].iter().zip(rest).any(|(one, other)| one != other) => {
                with_second(lent.second, place, &[!frame.bytes[0]])
            }
            _ => lent.second.to_vec(),
        }
    }
}

/// The same frame, of another type.
fn of_type(frame: &Frame, kind: u8) -> Frame {
    Frame { id: frame.id & !(7 << 15) | (kind as u32) << 15, ..*frame }
}

/// The frame, and the rights, with which the model does as this side would.
fn frame_asked(fault: Fault, kind: u8, table: u8, directory: &mut Directory, frame: &mut Frame) {
    if fault == RightNotAsked && directory.rights.iter().all(|right| *right < 3) {
        directory.rights = [2; 32];
    }
    let right = &mut directory.rights[table as usize];
    match (fault, kind) {
        (RspServed, RSP) => *frame = of_type(frame, CMD),
        (QueryReadFromByte0, XTND) if frame.bytes[0] == 0x80 => {
            frame.bytes[1..4].rotate_right(1);
            frame.bytes[1] = 0x80;
        }
        (Type3IsBurn | Type3BurnsToo, 3) | (Type5IsBurn | Type5BurnsToo, 5) => *frame = of_type(frame, BURN),
        (Type3IsBurn | Type5IsBurn | BurnNotServed, BURN) => *frame = of_type(frame, 6),
        (BurnOfALengthServed, BURN) if frame.len <= 8 => frame.len = 0,
        (BurnOfOneByteServed, BURN) if frame.len == 1 => frame.len = 0,
        (Right1Burns, BURN) if *right == 1 => *right = 2,
        (AnyRightBurns, BURN) if *right < 2 => *right = 2,
        _ => {}
    }
}

/// A sound state with which the model reloads nothing.
const NOTHING_RELOADED: HolderState = HolderState { family: 3, has_current: 0, current: 0 };

/// A holder's call: what it is given, the parts of its frame, where its table lies, and both memories, before it acts and as they are left.
struct Holding {
    directory: Directory,
    state: HolderState,
    frame: Frame,
    parts: Parts,
    place: Range<usize>,
    before: Memories,
    left: Memories,
}

impl Holding {
    fn new(directory: Directory, state: HolderState, frame: Frame, lent: Memories) -> Holding {
        let parts = identifier::unpack(frame.id).unwrap_or(Parts { kind: 9, ..Parts::default() });
        let place = holder::place(&directory, parts.table);
        Holding { directory, state, frame, parts, place, before: lent.clone(), left: lent }
    }

    fn right(&self) -> u8 {
        self.directory.rights[self.parts.table as usize]
    }

    /// The model's number with another state.
    fn number(&self, state: HolderState) -> u8 {
        holder::serve(&self.directory, &state, &self.before, &self.frame).err().unwrap_or(0)
    }

    fn is_current(&self, state: HolderState) -> bool {
        state.has_current == 1 && state.current == self.parts.table
    }

    /// Whether a frame that is served with this state reloads its table.
    fn reloads(&self, state: HolderState) -> bool {
        state.family == 2 && !self.is_current(state) && [CMD, REQ, BURN].contains(&self.parts.kind)
    }

    /// Whether something else is judged, or a query answered, before this side judges the state.
    fn answers_first(&self, fault: Fault) -> bool {
        match (fault, self.number(NOTHING_RELOADED)) {
            (StateAfter10, 10) | (StateAfter1, 10 | 1) | (StateAfterAllElse, 1..) => true,
            (StateUnjudgedByQuery, 0) => self.parts.kind == XTND,
            _ => false,
        }
    }

    /// Where the table lies that was current, if one was.
    fn place_left(&self) -> Range<usize> {
        match self.state.has_current {
            1 if self.state.current < 32 => holder::place(&self.directory, self.state.current),
            _ => 0..0,
        }
    }

    /// Whether the flash had the table as the working memory did.
    fn burnt_before(&self) -> bool {
        self.before.working[self.place.clone()] == self.before.flash[self.place.clone()]
    }

    fn burn(&mut self) {
        copy_table(Extent::Table, self.place.clone(), &self.before.working, &mut self.left.flash);
    }
}

/// What a side copies from one memory to the other: a table, or with a fault something else.
#[derive(Clone, Copy)]
enum Extent {
    Table,
    Nothing,
    WholeMemory,
    UpToTheTable,
    EightBytes,
    FromByte(usize),
    WithoutTheLast,
    OneByteBefore,
    OneByteAfter,
    ToTheBeginning,
    FromTheBeginning,
}

fn copy_table(extent: Extent, place: Range<usize>, from: &[u8], to: &mut [u8]) {
    let (size, Range { start, end }) = (place.len(), place.clone());
    let part = match extent {
        Extent::Table => start..end,
        Extent::Nothing => start..start,
        Extent::WholeMemory => 0..to.len(),
        Extent::UpToTheTable => 0..end,
        Extent::EightBytes => start..end.min(start + 8),
        Extent::FromByte(byte) => start + size.min(byte)..end,
        Extent::WithoutTheLast => start..end - 1,
        Extent::OneByteBefore => start.saturating_sub(1)..end,
        Extent::OneByteAfter => start..to.len().min(end + 1),
        Extent::ToTheBeginning => return to[..size].copy_from_slice(&from[place]),
        Extent::FromTheBeginning => return to[place].copy_from_slice(&from[..size]),
    };
    to[part.clone()].copy_from_slice(&from[part]);
}

/// What this side burns, and what it reloads.
fn extents(fault: Fault, offset: u16) -> (Extent, Extent) {
    let burnt = match fault {
        BurnsNothing => Extent::Nothing,
        BurnsTheWholeMemory => Extent::WholeMemory,
        BurnsUpToTheTable => Extent::UpToTheTable,
        BurnsFromTheOffset => Extent::FromByte(offset as usize),
        BurnsEightBytes => Extent::EightBytes,
        FirstByteNotBurnt => Extent::FromByte(1),
        LastByteNotBurnt => Extent::WithoutTheLast,
        ByteBeforeBurntToo => Extent::OneByteBefore,
        ByteAfterBurntToo => Extent::OneByteAfter,
        BurnsToTheBeginning => Extent::ToTheBeginning,
        BurnsFromTheBeginning => Extent::FromTheBeginning,
        _ => Extent::Table,
    };
    let reloaded = match fault {
        NeverReloads | ReloadsTheTableLeft | ReloadBurns => Extent::Nothing,
        WholeMemoryReloaded => Extent::WholeMemory,
        ReloadsUpToTheTable => Extent::UpToTheTable,
        ReloadsFromTheOffset => Extent::FromByte(offset as usize),
        EightBytesReloaded => Extent::EightBytes,
        FirstByteNotReloaded => Extent::FromByte(1),
        LastByteNotReloaded => Extent::WithoutTheLast,
        ByteBeforeReloadedToo => Extent::OneByteBefore,
        ByteAfterReloadedToo => Extent::OneByteAfter,
        ReloadsToTheBeginning => Extent::ToTheBeginning,
        ReloadsFromTheBeginning => Extent::FromTheBeginning,
        _ => Extent::Table,
    };
    (burnt, reloaded)
}

/// What this side does to both memories where a reload is due.
fn reload(fault: Fault, call: &mut Holding) {
    let (place, place_left) = (call.place.clone(), call.place_left());
    let (_, extent) = extents(fault, call.parts.offset);
    let Memories { working, flash } = &mut call.before;
    let unburnt = working.clone();
    copy_table(extent, place.clone(), flash, working);
    match fault {
        ReloadsTheTableLeft | TableLeftReloadedToo => copy_table(Extent::Table, place_left, flash, working),
        TableLeftIsBurnt => copy_table(Extent::Table, place_left, &unburnt, flash),
        ReloadClearsTheTable => working[place].fill(0),
        ReloadBurns | ReloadExchangesTheTwo => copy_table(Extent::Table, place, &unburnt, flash),
        ReloadErasesTheFlash => flash[place].fill(0xFF),
        _ => {}
    }
}

/// Of the faults below, those that reload the table; the others make it current.
const UNDUE_RELOADS: [Fault; 6] =
    [RefusedReloads, WrongLengthReloads, WithoutRightReloads, PastTheEndReloads, NoCountReloads, QueryReloads];

/// Whether a fault takes a frame, answered with this number, for one that has touched its table.
fn touches(fault: Fault, kind: u8, number: u8) -> bool {
    let touching = [CMD, REQ, BURN].contains(&kind);
    match fault {
        RefusedReloads | RefusedIsCurrent => touching && (6..=9).contains(&number),
        WrongLengthReloads | WrongLengthIsCurrent => touching && number == 6,
        WithoutRightReloads | WithoutRightIsCurrent => number == 7,
        PastTheEndReloads | PastTheEndIsCurrent => number == 8,
        NoCountReloads | NoCountIsCurrent => kind == REQ && number == 9,
        QueryReloads | QueryIsCurrent => kind == XTND && number == 0,
        _ => false,
    }
}

/// Whether this side reloads the table after a frame, answered with this number, that reloads none.
fn undue_reload(fault: Fault, call: &Holding, number: u8) -> bool {
    UNDUE_RELOADS.contains(&fault)
        && touches(fault, call.parts.kind, number)
        && call.state.family == 2
        && !call.is_current(call.state)
}

/// The state by which the model judges a call, and finds whether a reload is due, as this side does by the one given.
fn taken_state(fault: Fault, call: &Holding) -> HolderState {
    let (state, directory) = (call.state, &call.directory);
    let of_family = |family| HolderState { family, ..state };
    let of_current = |has_current, current| HolderState { has_current, current, ..state };
    let refused = of_family(0);
    let reads_only = call.right() == 1;
    match (fault, state.family, state.has_current, state.current) {
        (Family0Taken, 0, _, _) | (Family1Taken, 1, _, _) | (ReloadsOnFamily3, 3, _, _) => of_family(2),
        (Family4Taken, 4, _, _) | (FamiliesOver3Taken, 4.., _, _) | (NoneDoesNotReload, 2, 0, _) => of_family(3),
        (CmdDoesNotReload, 2, _, _) if call.parts.kind == CMD => of_family(3),
        (ReqDoesNotReload, 2, _, _) if call.parts.kind == REQ => of_family(3),
        (BurnDoesNotReload, 2, _, _) if call.parts.kind == BURN => of_family(3),
        (TableThatMayBeReadIsKept, 2, _, _) if reads_only => of_family(3),
        (EmptyCurrentTaken, _, 1, 0..=31) if call.place_left().is_empty() => of_current(0, 0),
        (Current32Taken, _, 1, 32) | (UnusedCurrentTaken, _, 0, _) => of_current(0, 0),
        (CurrentReloaded, _, 1, _) if call.is_current(state) => of_current(0, 0),
        (CurrentTakenModulo32, _, 1, current) => of_current(1, current % 32),
        (HasCurrent2Taken, _, 2, current) | (UnusedCurrentIsCurrent, _, 0, current @ 1..) => of_current(1, current),
        (NoneIsTable0, _, 0, 0) if directory.sizes[0] > 0 => of_current(1, 0),
        (NoneRefused, _, 0, _) | (Current0Refused, _, 1, 0) | (Current31Refused, _, 1, 31) => refused,
        (StateAfter10 | StateAfter1 | StateAfterAllElse | StateUnjudgedByQuery, ..) if call.answers_first(fault) => {
            NOTHING_RELOADED
        }
        _ => state,
    }
}

/// The state that this side hands back with this number.
fn left_state(fault: Fault, call: &Holding, number: u8) -> HolderState {
    let (given, Parts { kind, table, .. }) = (call.state, call.parts);
    let of_current = |has_current, current| HolderState { has_current, current, ..given };
    if touches(fault, kind, number) && !UNDUE_RELOADS.contains(&fault) && !call.place.is_empty() {
        return of_current(1, table);
    }
    match (fault, number, kind) {
        (RefusalClearsState, 1.., _) | (UnsoundStateCleared, 11, _) => HolderState::default(),
        (RefusalLeavesNone, 1..=10, _) | (UnsoundCurrentCleared, 11, _) => of_current(0, 0),
        (QueryLeavesNone, 0, XTND) | (BurnLeavesNone, 0, BURN) => of_current(0, 0),
        (_, 1.., _) | (_, 0, XTND) => given,
        (CmdKeepsCurrent, 0, CMD) | (ReqKeepsCurrent, 0, REQ) | (BurnKeepsCurrent, 0, BURN) => given,
        (NoneStaysNone, ..) if given.has_current == 0 => given,
        (FirstStaysCurrent, ..) if given.has_current == 1 => given,
        (Family2RemembersNothing, ..) if given.family == 2 => given,
        (Family3RemembersNothing, ..) if given.family == 3 => given,
        (NextTableIsCurrent, ..) => of_current(1, table + 1),
        (CurrentWithoutTableBit4, ..) => of_current(1, table % 16),
        (ReplyTableIsCurrent, 0, REQ) => of_current(1, call.frame.bytes[0] % 32),
        (CurrentIsUnmarked, ..) => of_current(given.has_current, table),
        (ServedBecomesFamily2, ..) => HolderState { family: 2, ..of_current(1, table) },
        (ServedBecomesFamily3, ..) => HolderState { family: 3, ..of_current(1, table) },
        _ => of_current(1, table),
    }
}

/// What this side leaves in both memories after a served burn, in place of what the model left.
fn burnt(fault: Fault, call: &mut Holding) {
    let table = call.place.clone();
    let (extent, _) = extents(fault, call.parts.offset);
    let (flash, left) = (&call.before.flash, &mut call.left);
    left.flash.copy_from_slice(flash);
    copy_table(extent, table.clone(), &left.working, &mut left.flash);
    match fault {
        BurnsFromTheFlash => {
            left.flash.copy_from_slice(flash);
            left.working[table.clone()].copy_from_slice(&flash[table]);
        }
        BurnExchangesTheTwo => left.working[table.clone()].copy_from_slice(&flash[table]),
        BurnClearsTheTable => left.working[table].fill(0),
        BurnErasesAlone => left.flash[table].fill(0xFF),
        _ => {}
    }
}

/// This side's answer to a served burn of these parts; `answer` is the model's.
fn acknowledged(fault: Fault, parts: Parts, mut answer: Served) -> Served {
    let mut reply = identifier::unpack(answer.frame.id).unwrap();
    let frame = &mut answer.frame;
    match fault {
        BurnIsSilent => return Served::default(),
        BurnIsClear => answer.clear = 1,
        BurnFailed => frame.bytes[1] = 0,
        AcknowledgementExchanged => frame.bytes[..2].reverse(),
        AcknowledgementOfOneByte => (frame.len, frame.bytes[1]) = (1, 0),
        AcknowledgementOfEightBytes => frame.len = 8,
        AcknowledgedByRsp => reply.kind = RSP,
        AcknowledgedByBurn => reply.kind = BURN,
        AcknowledgedToItself => reply.to = parts.to,
        AcknowledgedFromTheSender => reply.from = parts.from,
        AcknowledgedWithItsOffset => reply.offset = parts.offset,
        AcknowledgedOfTable0 => reply.table = 0,
        AcknowledgedOfTable6 => reply.table = 6,
        AcknowledgedOfTheNextTable => reply.table = (parts.table + 1) % 32,
        AcknowledgedWithoutTableBit4 => reply.table %= 16,
        _ => {}
    }
    answer.frame.id = identifier::pack(reply).unwrap();
    answer
}

/// What this side does at a burn that the model answered so. Numbers 0, 6 and 7 say that both memories have the total length, save with
/// faults of the lengths, which touch no byte.
fn burn_with(fault: Fault, call: &mut Holding, answer: Served) -> Served {
    let refused = |number| Served { number, ..Served::default() };
    let (parts, empty) = (call.parts, call.place.is_empty());
    match (fault, answer.number) {
        (BurnPastTheEndIs8, 0) if parts.offset as usize >= call.place.len() => {
            call.left = call.before.clone();
            return refused(8);
        }
        (BurnOfABurntTableIsSilent, 0) if call.burnt_before() => return Served::default(),
        (BurnsRightBeforeLength, 6) if empty || call.right() != 2 => return refused(7),
        (EmptyTableBurns, 7) if empty && call.right() == 2 => {
            let id = Parts { offset: 0, kind: XTND, from: parts.to, to: parts.from, table: parts.table };
            return Served { number: 0, frames: 1, clear: 0, frame: holder::frame(id, &[0x0E, 0x01]) };
        }
        (RefusedBurnBurns, 7) | (BurnOfALengthBurns, 6) => call.burn(),
        _ => {}
    }
    if answer.number != 0 {
        return answer;
    }
    burnt(fault, call);
    acknowledged(fault, parts, answer)
}

/// What this side does at another frame than a burn, which the model answered so.
fn beside_flash(fault: Fault, call: &mut Holding, frame: &Frame, mut answer: Served) -> Served {
    let at = call.place.start + call.parts.offset as usize;
    let (len, given) = (frame.len as usize, &frame.bytes);
    match (fault, call.parts.kind, answer.number) {
        (CmdWritesFlashToo, CMD, 0) => call.left.flash[at..at + len].copy_from_slice(&given[..len]),
        (CmdWritesFlashAlone, CMD, 0) => {
            call.left.flash[at..at + len].copy_from_slice(&given[..len]);
            call.left.working.copy_from_slice(&call.before.working);
        }
        (CmdToABurntTableWritesFlash, CMD, 0) if call.burnt_before() => {
            call.left.flash[at..at + len].copy_from_slice(&given[..len]);
        }
        (RefusedCmdWritesFlash, CMD, 7) if !call.place.is_empty() => call.left.flash[call.place.start] = given[0],
        (ReqAnswersFromFlash, REQ, 0) => {
            let len = answer.frame.len as usize;
            answer.frame.bytes[..len].copy_from_slice(&call.before.flash[at..at + len]);
        }
        (ReqBurns, REQ, 0) | (QueryBurns, XTND, 0) => call.burn(),
        (ArrivingAcknowledgementTaken, XTND, 5) if len == 2 && given[..2] == [0x0E, 0x01] => return Served::default(),
        (ArrivingAcknowledgementIs6, XTND, 5) if len != 4 && given[0] == 0x0E => answer.number = 6,
        _ => {}
    }
    answer
}

/// Whether the reserved bits of request bytes are set: the top three of the first, bit 4 of the third.
fn reserved(bytes: &[u8]) -> (bool, bool) {
    (bytes[0] & 0xE0 != 0, bytes[2] & 0x10 != 0)
}

/// What this side reads in three bytes; `read` is the model's.
fn read_with(fault: Fault, bytes: [u8; 3], mut read: RequestRead) -> RequestRead {
    let (top, bit_4) = reserved(&bytes);
    let [first, _, third] = bytes;
    match fault {
        TableReadWithTopBits => read.request.table = first,
        CountReadWithBit4 => read.request.count = third % 32,
        NothingReadUnlessClear if read.clear == 0 => read.request = Request::default(),
        _ => {}
    }
    let clear = match fault {
        ReadAlwaysClear => true,
        ReadNeverClear => false,
        ReadClearExchanged => read.clear == 0,
        ReadClearByTopBitsAlone => !top,
        ReadClearByBit4Alone => !bit_4,
        ReadClearUnlessBothAreSet => !(top && bit_4),
        ReadClearByBits5And6Alone => first & 0x60 == 0 && !bit_4,
        ReadClearByBit7Alone => first < 128 && !bit_4,
        _ => read.clear == 1,
    };
    RequestRead { clear: clear as u8, ..read }
}

/// The request bytes of a frame that has them: a REQ, or a protocol query.
fn request_bytes_of(kind: u8, frame: &Frame) -> Option<&[u8]> {
    match (kind, frame.len, frame.bytes[0]) {
        (REQ, 3, _) => Some(&frame.bytes[..3]),
        (XTND, 4, 0x80) => Some(&frame.bytes[1..4]),
        _ => Option::None,
    }
}

/// The mark of this side beside an answer to request bytes; `clear` is the model's.
fn clear_beside(fault: Fault, kind: u8, frame: &Frame, bytes: &[u8], clear: bool) -> bool {
    let (top, bit_4) = reserved(bytes);
    match (fault, kind) {
        (AnswerNeverClear, _) | (ReqNeverClear, REQ) | (QueryNeverClear, XTND) => false,
        (AnswerAlwaysClear, _) | (ReqAlwaysClear, REQ) | (QueryAlwaysClear, XTND) => true,
        (AnswerClearExchanged, _) => !clear,
        (AnswerClearByTopBitsAlone, _) => !top,
        (AnswerClearByBit4Alone, _) => !bit_4,
        (AnswerClearUnlessBothAreSet, _) => !(top && bit_4),
        (AnswerClearByBits5And6Alone, _) => bytes[0] & 0x60 == 0 && !bit_4,
        (AnswerClearByBit7Alone, _) => bytes[0] < 128 && !bit_4,
        (QueryClearByByte2, XTND) => !top && frame.bytes[2] & 0x10 == 0,
        (ReqClearAsAQuery, REQ) => reserved(&frame.bytes[1..4]) == (false, false),
        _ => clear,
    }
}

/// What this side answers to a frame with request bytes; `answer` is the model's.
fn answer_with(fault: Fault, kind: u8, frame: &Frame, bytes: &[u8], mut answer: Served) -> Served {
    let (top, bit_4) = reserved(bytes);
    let refused = |number| Served { number, ..Served::default() };
    match (fault, answer.number) {
        (TopBitsAre7, 0) if top => return refused(7),
        (Bit4IsCounted, 0 | 8) if bit_4 => return refused(9),
        (ReqWithTopBitsIs6, 0) if top && kind == REQ => return refused(6),
        (ReqWithBit4Is6, 0) if bit_4 && kind == REQ => return refused(6),
        (QueryWithTopBitsIs6, 0) if top && kind == XTND => return refused(6),
        (QueryWithBit4Is6, 0) if bit_4 && kind == XTND => return refused(6),
        (ReservedBitsOfRefusedAre6, 7..=9) if top || bit_4 => return refused(6),
        (NotClearIsSilent, 0) if top || bit_4 => return Served::default(),
        // table bits 4 and up, from identifier bit 2 on
        (ReplyTableWithTopBits, 0) => answer.frame.id |= (bytes[0] as u32 >> 4) << 2,
        _ => {}
    }
    let clear = match (fault, answer.number, kind) {
        (_, 0, _) => clear_beside(fault, kind, frame, bytes, answer.clear == 1),
        (ReqWithoutRightIsClear, 7, _) | (ReqPastTheEndIsClear, 8, _) => !top && !bit_4,
        (ReqOfNoCountIsClear, 9, REQ) | (QueryOfNoCountIsClear, 9, XTND) => !top && !bit_4,
        _ => false,
    };
    Served { clear: clear as u8, ..answer }
}

/// The rests after a turn answered 0, of this side: `b` is the state before it, `after` the model's, `sent` whether it yielded a frame.
fn rests_after(fault: Fault, b: &Bridge, after: &Bridge, sent: bool) -> [u8; 4] {
    let last = after.last as usize;
    let slot = &after.slots[last];
    let asked = sent && slot.phase == WAITING; // after a CMD it is ready or done
    let mut rests = after.rests;
    rests[last] = match fault {
        RestsFor58Turns if asked => 58,
        RestsFor59Turns if asked => 59,
        CmdRests if sent => bridge::REST,
        FirstSendAloneRests if asked && slot.sends > 1 => b.rests[last].saturating_sub(1),
        ReadingBackDoesNotRest if asked && slot.kind == READ_BACK => b.rests[last].saturating_sub(1),
        _ => rests[last],
    };
    for index in (0..4).filter(|index| !asked || *index != last) {
        let free = b.slots[index].phase == FREE;
        let kept = match fault {
            OnlyFreeSlotsRestLess => !free,
            OnlyHeldSlotsRestLess => free,
            SilentTurnKeepsRests => !sent,
            _ => false,
        };
        if kept {
            rests[index] = b.rests[index];
        }
    }
    rests
}

/// The rests with which the model opens a read as this side would, where the model's own number is `number`.
fn rests_for_opening(fault: Fault, b: &Bridge, number: u8) -> [u8; 4] {
    match (fault, number) {
        (RestingSlotGivenToRead, 19) | (LowestFreeTakenThoughItRests, 0) => [0; 4],
        (HighestFreeTakenThoughItRests, 0) => {
            let mut rests = [1; 4];
            rests[b.slots.iter().rposition(|slot| slot.phase == FREE).unwrap()] = 0;
            rests
        }
        (GivenATurnEarly, 0 | 19) => b.rests.map(|rest| if rest == 1 { 0 } else { rest }),
        _ => b.rests,
    }
}

/// An opening that sees other rests than the state's, and leaves those.
fn opened_with(b: Bridge, rests: [u8; 4], open: impl FnOnce(Bridge) -> Opened) -> Opened {
    let mut answer = open(Bridge { rests, ..b });
    answer.bridge.rests = b.rests;
    answer
}

/// The number of this side's opening of a read; `number` is the model's.
fn opening_number(fault: Fault, b: &Bridge, number: u8) -> u8 {
    let free: Vec<usize> = (0..4).filter(|index| b.slots[*index].phase == FREE).collect();
    let resting = free.iter().filter(|index| b.rests[**index] > 0).count();
    match (fault, number) {
        (AllRestingIs12, 19) => 12,
        (AllHeldIs19, 12) => 19,
        (AllHeldIs19WhereOneRests, 12) if b.rests != [0; 4] => 19,
        (OneRestingIs19, 0) if resting > 0 => 19,
        (TicketsBeforeRest, 19) if b.issued == u32::MAX => 13,
        (RestBeforeRange, 7..=9) if !free.is_empty() && resting == free.len() => 19,
        _ => number,
    }
}

/// Rests that the model judges as this side judges the state's.
fn judged_rests(fault: Fault, b: &Bridge) -> [u8; 4] {
    let mut rests = b.rests;
    for (rest, slot) in rests.iter_mut().zip(&b.slots) {
        *rest = match fault {
            Rest61Taken if *rest == 61 => 60,
            Rest60Refused if *rest == 60 => 61,
            RestOfFreeSlotRefused if *rest > 0 && slot.phase == FREE => 61,
            RestOfHeldSlotRefused if *rest > 0 && slot.phase != FREE => 61,
            _ => *rest,
        };
    }
    if fault == LastRestUnjudged {
        rests[3] = 0;
    }
    rests
}

/// The slot that a ticket's transfer holds.
fn holder_of(b: &Bridge, ticket: u32) -> Option<usize> {
    b.slots.iter().position(|slot| slot.phase != FREE && slot.ticket == ticket)
}

/// The slot that a frame's offset points into.
fn awaited(b: &Bridge, frame: &Frame) -> Option<(usize, Parts)> {
    let parts = identifier::unpack(frame.id).ok()?;
    let slots = 0..4;
    let at = |index: &usize| {
        let slot = &b.slots[*index];
        slot.phase == WAITING && bridge::place(slot, *index) == parts.offset as usize
    };
    Some((slots.into_iter().find(at)?, parts))
}

/// The same buffers, lent once more.
fn again<'a>(lent: &'a mut BuffersMut) -> BuffersMut<'a> {
    BuffersMut { first: lent.first, second: lent.second }
}

/// The second buffer with other bytes at a place.
fn with_second(second: &[u8], place: usize, other: &[u8]) -> Vec<u8> {
    let mut second = second.to_vec();
    second[place..place + other.len()].copy_from_slice(other);
    second
}

/// A sound slot in place of one that a looser judgement of a state takes.
fn looser(fault: Fault, slot: &Slot) -> Slot {
    let Slot { kind, phase, progress, count, sends, left, .. } = *slot;
    let taken = match fault {
        SendingCheckDone => kind == CHECK && phase == DONE && progress == count,
        SendingCheckWaits => kind == CHECK && phase == WAITING,
        SendingCheckGaveUp => kind == CHECK && phase == GAVE_UP,
        SendingCheckDifferent => kind == CHECK && phase == DIFFERENT,
        SendingCheckWithSends => kind == CHECK && phase == READY && sends < 3,
        DifferenceOfRead => kind == READ && phase == DIFFERENT,
        DifferenceOfWrite => kind == WRITE && phase == DIFFERENT,
        DifferenceWithSends => kind == READ_BACK && phase == DIFFERENT && left == 0 && sends > 0,
        DifferenceWithTurnsLeft => kind == READ_BACK && phase == DIFFERENT && sends == 0 && left > 0,
        DifferenceAtTheCount => kind == READ_BACK && phase == DIFFERENT && progress == count,
        DifferenceWithOddProgress => kind == READ_BACK && phase == DIFFERENT && progress < count && progress % 8 != 0,
        Kind4Taken => kind == 4,
        Phase6Taken => phase == 6,
        _ => false,
    };
    if taken {
        Slot { kind: READ, phase: READY, progress: 0, sends: 0, left: 0, ..*slot }
    } else {
        *slot
    }
}

impl Side for Faulty {
    fn pack(&self, mut parts: Parts) -> Packed {
        if self.has(DropsTableBit4) && parts.table < 32 {
            parts.table %= 16;
        }
        Model.pack(parts)
    }

    fn unpack(&self, id: u32) -> Unpacked {
        if self.has(SpareBitsBefore2To29) && id % 4 != 0 {
            return Unpacked { number: 2, ..Unpacked::default() };
        }
        let mut answer = Model.unpack(id);
        if self.has(RefusedPartsShown) && answer.number != 0 {
            answer.parts.table = 1;
        }
        answer
    }

    fn read_request(&self, first: u8, second: u8, third: u8) -> RequestRead {
        read_with(self.0, [first, second, third], Model.read_request(first, second, third))
    }

    fn request_bytes(&self, request: Request) -> RequestBytes {
        if self.has(CountOver8InRequestBytes) && request.table < 32 && request.count > 8 {
            return RequestBytes { number: 9, bytes: [0; 3] };
        }
        let mut answer = Model.request_bytes(request);
        if self.has(TopBitPacked) && answer.number == 0 {
            answer.bytes[0] |= 0x80;
        }
        if self.has(Bit4Packed) && answer.number == 0 {
            answer.bytes[2] |= 0x10;
        }
        answer
    }

    fn first_state(&self, family: u8) -> FirstState {
        let FirstState { number, state } = Model.first_state(family);
        let first =
            |family, has_current| FirstState { number: 0, state: HolderState { family, has_current, current: 0 } };
        match (self.0, number, family) {
            (FirstStateHasTable0, 0, _) => first(family, 1),
            (FirstStateOfFamily1, _, 1) | (FirstStateOfFamily4, _, 4) => first(family, 0),
            (FirstStateAlwaysOfFamily2, 0, _) => first(2, 0),
            (FirstStateAlwaysOfFamily3, 0, _) => first(3, 0),
            (RefusedFirstStateHasFamily, 11, _) => FirstState { number, ..first(family, 0) },
            (RefusedFirstStateIs5, 11, _) => FirstState { number: 5, state },
            _ => FirstState { number, state },
        }
    }

    fn serve(
        &self, directory: Directory, state: HolderState, memory: &mut [u8], flash: &mut [u8], frame: Frame,
    ) -> HolderAnswer {
        let total = holder::total(&directory);
        let mut call =
            Holding::new(directory, state, frame, Memories { working: memory.to_vec(), flash: flash.to_vec() });
        let refused = |number| Served { number, ..Served::default() };
        let served = match self.0 {
            MemoryLengthBefore11 if memory.len() != total => refused(10),
            FlashLengthBefore11 if flash.len() != total => refused(10),
            TotalOf32769 if total == 32_769 => refused(1),
            _ => self.serve_frame(&mut call),
        };
        memory.copy_from_slice(&call.left.working);
        flash.copy_from_slice(&call.left.flash);
        HolderAnswer { served, state: left_state(self.0, &call, served.number) }
    }

    fn open_read(&self, b: Bridge, mut lent: Buffers, device: u8, table: u8, offset: u16, count: usize) -> Opened {
        if self.has(BufferBeforeState) && lent.first.len() != 512 {
            return Opened { bridge: b, ticket: 0, number: 10 };
        }
        if self.has(SecondUnjudgedByOpenRead) {
            lent.second = &[0; 512];
        }
        let mut answer = Model.open_read(b, lent, device, table, offset, count);
        if self.has(SecondBufferAfterRange) && answer.number == 10 && lent.first.len() == 512 {
            answer = Model.open_read(b, Buffers { second: lent.first, ..lent }, device, table, offset, count);
            if ![7, 9, 8].contains(&answer.number) {
                answer = Opened { bridge: b, ticket: 0, number: 10 };
            }
        }
        if self.has(OpensWithTicket0AtEnd) && answer.number == 13 {
            answer.number = 0;
        }
        if self.has(TakesHighestFreeSlot) && answer.number == 0 {
            let givable = |index: &usize| b.slots[*index].phase == FREE && b.rests[*index] == 0;
            answer.bridge.slots.swap((0..4).find(givable).unwrap(), (0..4).rfind(givable).unwrap());
        }
        let rests = rests_for_opening(self.0, &b, answer.number);
        if rests != b.rests {
            answer = opened_with(b, rests, |b| Model.open_read(b, lent, device, table, offset, count));
        }
        match opening_number(self.0, &b, answer.number) {
            number if number == answer.number => answer,
            number => Opened { bridge: b, ticket: 0, number },
        }
    }

    fn open_write(&self, b: Bridge, lent: BuffersMut, device: u8, table: u8, offset: u16, bytes: &[u8]) -> Opened {
        let mut spare = [0; 512];
        let mut lent = self.unjudged(SecondUnjudgedByOpenWrite, lent, &mut spare);
        let answer = Model.open_write(b, again(&mut lent), device, table, offset, bytes);
        if self.has(RestingSlotGivenToWrite) && answer.number == 19 {
            return opened_with(b, [0; 4], |b| Model.open_write(b, lent, device, table, offset, bytes));
        }
        if self.has(WriteCopiedIntoBoth) && answer.number == 0 {
            Model.open_check(b, lent, device, table, offset, bytes);
        }
        answer
    }

    fn open_check(&self, b: Bridge, lent: BuffersMut, device: u8, table: u8, offset: u16, bytes: &[u8]) -> Opened {
        let mut spare = [0; 512];
        let mut lent = self.unjudged(SecondUnjudgedByOpenCheck, lent, &mut spare);
        let second = lent.second.to_vec();
        let answer = Model.open_check(b, again(&mut lent), device, table, offset, bytes);
        if self.has(RestingSlotGivenToCheck) && answer.number == 19 {
            return opened_with(b, [0; 4], |b| Model.open_check(b, lent, device, table, offset, bytes));
        }
        if (self.has(CheckCopiedIntoFirst) || self.has(CheckCopiedIntoBoth)) && answer.number == 0 {
            Model.open_write(b, again(&mut lent), device, table, offset, bytes);
        }
        if self.has(CheckCopiedIntoFirst) {
            lent.second.copy_from_slice(&second);
        }
        answer
    }

    fn turn(&self, mut b: Bridge, mut lent: Buffers) -> Stepped {
        let given = b;
        if self.has(ServesSlot0First) && b.last < 4 {
            b.last = 3;
        }
        if self.has(SecondUnjudgedByTurn) && lent.second.len() != 512 {
            lent.second = &[0; 512];
        }
        if self.has(CmdFromFirstBuffer) && lent.second.len() == 512 {
            lent.second = lent.first;
        }
        let mut answer = Model.turn(b, lent);
        if answer.answer.number == 0 {
            answer.bridge.rests = rests_after(self.0, &b, &answer.bridge, answer.answer.frames == 1);
        } else if self.has(RefusedTurnLowersRests) {
            answer.bridge.rests = b.rests.map(|rest| rest.saturating_sub(1));
        }
        if answer.answer.frames == 1 {
            let last = answer.bridge.last as usize;
            let (before, slot) = (b.slots[last], answer.bridge.slots[last]);
            let all_sent = before.kind == CHECK && slot.kind == READ_BACK;
            answer.bridge.slots[last] = match self.0 {
                DoneOnceSent if all_sent => Slot { kind: CHECK, phase: DONE, progress: slot.count, ..slot },
                ReadsBackAfterFirstCmd if before.kind == CHECK => Slot { kind: READ_BACK, progress: 0, ..slot },
                ReadsBackFromTheEnd if all_sent => Slot { progress: before.progress, ..slot },
                LastCmdAndRequestInOneTurn if all_sent => Slot { phase: WAITING, sends: 1, left: 20, ..slot },
                _ => slot,
            };
        }
        if self.has(ServesSlot0First) && answer.answer.frames == 0 {
            answer.bridge.last = given.last;
        }
        if self.has(NineteenTurns) {
            for slot in answer.bridge.slots.iter_mut().filter(|slot| slot.left == 20) {
                slot.left = 19;
            }
        }
        if self.has(UnsoundSendsTaken) && answer.answer.number == 11 && b.slots.iter().any(|slot| slot.sends == 4) {
            answer.answer.number = 0;
        }
        answer
    }

    fn frame(&self, b: Bridge, lent: BuffersMut, mut frame: Frame) -> Stepped {
        let mut second = lent.second.to_vec();
        if let (true, Some((index, parts))) = (bridge::sound(&b), awaited(&b, &frame)) {
            let slot = &b.slots[index];
            if self.has(TakesReplyOfAnyDevice) {
                frame.id = identifier::pack(Parts { from: slot.device, ..parts }).unwrap();
            }
            if self.has(TakesReplyOfAnyLength) && frame.len <= 8 {
                frame.len = bridge::chunk(slot) as u8;
            }
            if second.len() == 512 {
                second = self.compared(slot, bridge::place(slot, index), lent.get(), &frame);
            }
        }
        if self.has(SecondUnjudgedByFrame) {
            second.resize(512, 0);
        }
        let before = lent.first.to_vec();
        let mut answer = Model.frame(b, BuffersMut { first: lent.first, second: &mut second }, frame);
        if answer.answer.number != 0 {
            return answer;
        }
        let (index, _) = awaited(&b, &frame).unwrap();
        let (given, slot) = (b.slots[index], answer.bridge.slots[index]);
        let (place, len) = (bridge::place(&given, index), frame.len as usize);
        if self.has(TakenReplyClearsRest) {
            answer.bridge.rests[index] = 0;
        }
        if self.has(SendsKeptAfterReply) && slot.phase == READY {
            answer.bridge.slots[index].sends = given.sends;
        }
        if self.has(FrameOverrunsPart) && len < 8 {
            lent.first[(place + len) % 512] = frame.bytes[7];
        }
        if self.has(EqualReplyNotStored) && slot.kind == READ_BACK {
            lent.first.copy_from_slice(&before);
        }
        if slot.phase == DIFFERENT {
            return self.at_difference(b, index, lent.first, &frame, answer);
        }
        answer
    }

    fn status(&self, b: Bridge, ticket: u32) -> u8 {
        let slots = b.slots.map(|slot| looser(self.0, &slot));
        let number = Model.status(Bridge { slots, rests: judged_rests(self.0, &b), ..b }, ticket);
        if self.has(DifferentIs16) && number == 18 {
            return 16;
        }
        let checked = b.slots.iter().any(|slot| slot.ticket == ticket && slot.kind == READ_BACK);
        if self.has(GivenUpCheckIsDone) && number == 16 && checked {
            return 0;
        }
        if self.has(Ticket0Known) && ticket == 0 && number == 14 {
            return 15;
        }
        if self.has(EqualTicketsTaken) && number == 11 && b.own < 16 && b.last < 4 {
            let held: Vec<&Slot> = b.slots.iter().filter(|slot| slot.phase != FREE).collect();
            let twice = |slot: &&&Slot| held.iter().filter(|other| other.ticket == slot.ticket).count() > 1;
            if held.iter().find(twice).is_some() {
                return 15;
            }
        }
        if self.has(ProgressOddTaken) && number == 11 && b.slots.iter().any(|slot| slot.progress == 1) {
            return 15;
        }
        number
    }

    fn span(&self, b: Bridge, first: &[u8], ticket: u32) -> Span {
        let mut span = Model.span(b, first, ticket);
        let held = holder_of(&b, ticket);
        let kind = held.map(|index| b.slots[index].kind);
        if self.has(BytesOfDoneWrite) && span.number == 0 && kind == Some(WRITE) {
            span.len = 8;
        }
        if self.has(BytesOfDoneCheck) && span.number == 0 && kind == Some(READ_BACK) {
            let index = held.unwrap();
            return Span { number: 0, start: index * bridge::PART, len: b.slots[index].count as usize };
        }
        span
    }

    fn close(&self, b: Bridge, ticket: u32) -> Changed {
        let mut changed = Model.close(b, ticket);
        let Some(index) = holder_of(&b, ticket).filter(|_| changed.number == 0) else {
            return changed;
        };
        if self.has(FreedSlotKeepsTicket) {
            changed.bridge.slots[index].ticket = ticket;
        }
        match self.0 {
            ClosingClearsRest => changed.bridge.rests[index] = 0,
            RestsFromItsClosing => changed.bridge.rests[index] = bridge::REST,
            _ => {}
        }
        changed
    }

    fn reset(&self, b: Bridge, own: u8) -> Changed {
        let mut changed = Model.reset(b, own);
        if self.has(ResetKeepsTickets) && changed.number == 0 {
            changed.bridge.issued = b.issued;
        }
        if self.has(ResetKeepsRests) && changed.number == 0 {
            changed.bridge.rests = b.rests;
        }
        changed
    }

    fn turn_in_place(&self, b: &mut Bridge, mut lent: Buffers) -> Yielded {
        let before = *b;
        if self.has(TurnInPlaceExchangesBuffers) {
            lent = Buffers { first: lent.second, second: lent.first };
        }
        let answer = Model.turn_in_place(b, lent);
        if self.has(TurnInPlaceForgets) && answer.frames == 0 {
            *b = before;
        }
        if self.has(TurnInPlaceKeepsRests) {
            b.rests = before.rests;
        }
        answer
    }

    fn frame_in_place(&self, b: &mut Bridge, lent: BuffersMut, frame: Frame) -> Yielded {
        if self.has(FrameInPlaceExchangesBuffers) {
            return Model.frame_in_place(b, BuffersMut { first: lent.second, second: lent.first }, frame);
        }
        Model.frame_in_place(b, lent, frame)
    }

    fn close_in_place(&self, b: &mut Bridge, ticket: u32) -> u8 {
        Model.close_in_place(b, ticket)
    }

    fn mlg_read_header(&self, file: &[u8]) -> MlgHeader {
        let mut answer = Model.mlg_read_header(file);
        let refused = |number| MlgHeader { number, ..MlgHeader::default() };
        let begin = if file.len() >= 24 { crate::model::be32(file, 16) as usize } else { 0 };
        if self.has(BeginAtEndRefused) && answer.number == 0 && begin == file.len() {
            return refused(23);
        }
        if self.has(InfoAtBeginTaken) && answer.number == 23 && crate::model::be32(file, 12) as usize == begin {
            answer.number = 0;
        }
        if self.has(BitsOverWidthTaken) && answer.number == 24 {
            let count = crate::model::be16(file, 22) as usize;
            let fields = &file[24..24 + 89 * count];
            if fields.chunks(89).all(|field| mlg::field_size(field[0]).is_some()) {
                answer.number = 0;
            }
        }
        if self.has(NamesEndAtInfo) && answer.number == 0 && answer.info != 0 {
            let fields_end = 24 + 89 * answer.count as usize;
            for field in file[24..fields_end].chunks(89) {
                if mlg::is_bit_field(field[0]) && field[51] > 0 && crate::model::be32(field, 47) >= answer.info {
                    return refused(23);
                }
            }
        }
        if self.has(SizeBeforeFields) && [24, 28].contains(&answer.number) && file.len() >= 24 {
            let end = (24 + 89 * crate::model::be16(file, 22) as usize).min(file.len());
            let sizes = file[24..end].chunks(89).map(|field| mlg::field_size(field[0]).unwrap_or(0));
            if sizes.sum::<usize>() != crate::model::be16(file, 20) as usize {
                return refused(23);
            }
        }
        answer
    }

    fn mlg_read_block(&self, file: &[u8], size: u16, earlier: u64, place: usize) -> MlgBlock {
        let mut block = Model.mlg_read_block(file, size, earlier, place);
        if block.number == 0 && block.kind != BLOCK_END {
            if self.has(CounterModulo255) {
                block.as_expected = (block.counter as u64 == earlier % 255) as u8;
            }
            if self.has(WrongCounterRefused) && block.as_expected == 0 {
                return MlgBlock { place, number: 23, kind: BLOCK_REFUSED, ..MlgBlock::default() };
            }
        }
        if self.has(SumsHeaderBytes) && block.kind == BLOCK_DATA && block.number == 0 && block.counter > 0 {
            return MlgBlock { place, number: 26, kind: BLOCK_REFUSED, ..MlgBlock::default() };
        }
        if self.has(EndIs23) && block.kind == BLOCK_END {
            return MlgBlock { place, number: 23, kind: BLOCK_REFUSED, ..MlgBlock::default() };
        }
        if self.has(MarkTextOf50) && block.number == 28 {
            return MlgBlock { start: place + 4, len: 50, kind: BLOCK_MARK, ..MlgBlock::default() };
        }
        if self.has(RefusalWithoutPlace) {
            block.place = 0;
        }
        block
    }

    fn mlg_count_blocks(&self, file: &[u8]) -> Tally {
        let mut tally = Model.mlg_count_blocks(file);
        let header = Model.mlg_read_header(file);
        let mut place = header.begin as usize;
        for earlier in 0..tally.blocks {
            let block = Model.mlg_read_block(file, header.size, earlier, place);
            if self.has(TallyWithoutMarks) && block.kind == BLOCK_MARK {
                tally.blocks -= 1;
            }
            if self.has(TallyEndsAtWrongCounter) && block.as_expected == 0 {
                return Tally { blocks: earlier, ending: 23, place };
            }
            place += if block.kind == BLOCK_DATA { 5 + header.size as usize } else { mlg::MARK };
        }
        if self.has(TallyWithoutPlaceAtEnd) && tally.ending == 0 {
            tally.place = 0;
        }
        tally
    }

    fn mlg_fields_span(&self, file: &[u8]) -> Span {
        let mut span = Model.mlg_fields_span(file);
        if self.has(FieldsWithoutTheLast) {
            span.len = span.len.saturating_sub(mlg::FIELD);
        }
        span
    }

    fn mlg_field_span(&self, file: &[u8], index: u16) -> Span {
        let header = Model.mlg_read_header(file);
        if self.has(FieldAlwaysTheFirst) && header.number == 0 && index < header.count {
            return Model.mlg_field_span(file, 0);
        }
        if self.has(FieldAfterTheLast) && header.number == 0 && index == header.count {
            return Span { number: 0, start: 24 + 89 * index as usize, len: 89 };
        }
        Model.mlg_field_span(file, index)
    }

    fn mlg_names_span(&self, file: &[u8]) -> Span {
        let mut span = Model.mlg_names_span(file);
        if self.has(NamesEmpty) {
            span.len = 0;
        }
        if self.has(NamesToBegin) && span.number == 0 {
            span.len = Model.mlg_read_header(file).begin as usize - span.start;
        }
        span
    }

    fn mlg_info_span(&self, file: &[u8]) -> Span {
        let mut span = Model.mlg_info_span(file);
        if self.has(InfoEmpty) {
            span.len = 0;
        }
        if self.has(InfoWithItsZero) && span.start != 0 {
            span.len += 1;
        }
        if self.has(EmptyInfoStartsAt0) && span.len == 0 {
            span.start = 0;
        }
        span
    }

    fn mlg_write_header(&self, out: &mut [u8], time: u32, fields: &[u8], names: &[u8], info: &[u8]) -> Written {
        let mut answer = Model.mlg_write_header(out, time, fields, names, info);
        if self.has(EmptyInfoHasZero) && info.is_empty() && answer.number == 0 && out.len() > answer.len {
            out[answer.len] = 0;
            answer.len += 1;
        }
        if self.has(OutputBeforeReader) && [24, 28].contains(&answer.number) && out.len() < 24 + fields.len() {
            answer.number = 27;
        }
        if self.has(WriterTouchesRest) && answer.number == 0 && out.len() > answer.len {
            out[answer.len..].fill(0);
        }
        if self.has(TooManyFieldsWritten) && answer.number == 23 && fields.len() == 89 * 65_536 {
            answer.number = 24;
        }
        answer
    }

    fn mlg_write_data(&self, out: &mut [u8], size: u16, earlier: u64, time: u16, record: &[u8]) -> Written {
        let answer = Model.mlg_write_data(out, size, earlier, time, record);
        if self.has(DataCounterModulo255) && answer.number == 0 {
            out[1] = (earlier % 255) as u8;
        }
        answer
    }

    fn mlg_write_mark(&self, out: &mut [u8], earlier: u64, time: u16, text: &[u8]) -> Written {
        let answer = Model.mlg_write_mark(out, earlier, time, text);
        if self.has(MarkPaddedWithSpaces) && answer.number == 0 {
            out[4 + text.len()..53].fill(b' ');
        }
        if self.has(MarkCounterModulo255) && answer.number == 0 {
            out[1] = (earlier % 255) as u8;
        }
        answer
    }

    fn raw_value(&self, field: &[u8], raw: &[u8]) -> Raw {
        let mut answer = Model.raw_value(field, raw);
        if answer.number == 0 {
            if self.has(U32AsSigned) && field[0] == 4 {
                answer.value = answer.value as i32 as i64;
            }
            if self.has(BitFieldMasked) && field[0] >= 10 && field[51] < 32 {
                answer.value &= (1 << field[51]) - 1;
            }
        }
        answer
    }

    fn shown_value(&self, field: &[u8], raw: &[u8]) -> Shown {
        let mut answer = Model.shown_value(field, raw);
        if self.has(NegativeZeroLost) {
            answer.value += 0.0;
        }
        if self.has(ScalesBeforeShifting) && answer.number == 0 {
            let value::Scaling { scale, transform } = value::scaling(field);
            answer.value = Model.raw_value(field, raw).value as f32 * scale + transform;
        }
        if self.has(NonFiniteProductShown) && answer.number == 30 && field[0] < 4 {
            let value::Scaling { scale, transform } = value::scaling(field);
            let sum = Model.raw_value(field, raw).value as f32 + transform;
            if sum.is_finite() && scale.is_finite() {
                answer = Shown { value: sum * scale, number: 0 };
            }
        }
        if self.has(ShownOfU32) && answer.number == 30 && field[0] == 4 {
            answer.number = 0;
        }
        answer
    }

    fn frd_read_header(&self, file: &[u8]) -> FrdHeader {
        let mut answer = Model.frd_read_header(file);
        if self.has(FrdBeginFree) && answer.number == 23 {
            answer.number = 0;
        }
        answer
    }

    fn frd_read_block(&self, file: &[u8], size: u16, earlier: u64, place: usize) -> FrdBlock {
        let mut block = Model.frd_read_block(file, size, earlier, place);
        if self.has(FrdCounterModulo255) && block.number == 0 && block.kind != BLOCK_END {
            block.as_expected = (block.counter as u64 == earlier % 255) as u8;
        }
        if self.has(FrdType0Taken) && block.number == 25 && file[place] == 0 {
            block.number = 20;
        }
        block
    }

    fn frd_count_blocks(&self, file: &[u8]) -> Tally {
        let tally = Model.frd_count_blocks(file);
        if self.has(FrdTallyPlace81OfRefused) && Model.frd_read_header(file).number != 0 {
            return Tally { place: 81, ..tally };
        }
        tally
    }

    fn frd_read_signature(&self, file: &[u8]) -> Span {
        let mut span = Model.frd_read_signature(file);
        if self.has(SignatureOf62) && span.number == 0 {
            span.len = 62;
        }
        span
    }

    fn frd_write_header(&self, out: &mut [u8], time: u32, signature: &[u8], size: u16) -> Written {
        Model.frd_write_header(out, time, signature, size)
    }

    fn frd_write_data(&self, out: &mut [u8], size: u16, earlier: u64, record: &[u8]) -> Written {
        let answer = Model.frd_write_data(out, size, earlier, record);
        if self.has(FrdDataCounterModulo255) && answer.number == 0 {
            out[1] = (earlier % 255) as u8;
        }
        answer
    }

    fn frd_write_time(&self, out: &mut [u8], earlier: u64, time: u32) -> Written {
        let mut answer = Model.frd_write_time(out, earlier, time);
        if self.has(FrdTimeWithoutCounter) && answer.number == 0 {
            out[1..5].copy_from_slice(&time.to_be_bytes());
            answer.len = 5;
        }
        if self.has(FrdTimeCounterModulo255) && answer.number == 0 {
            out[1] = (earlier % 255) as u8;
        }
        answer
    }

    fn listing(&self, file: &[u8]) -> Option<Vec<u8>> {
        if self.has(TooLongAt65536) && file.len() == 65_536 {
            return Some(b"too long\n".to_vec());
        }
        let listing = Model.listing(file)?;
        let text = String::from_utf8(listing).unwrap();
        Some(match self.0 {
            NoMarkOfWrongCounter => text.replace(" !\n", "\n").into_bytes(),
            ListedModulo255 => text.lines().map(|line| listed_modulo_255(line) + "\n").collect::<String>().into_bytes(),
            ControlBytesPrinted => text.replace('.', "\x7F").into_bytes(),
            _ => text.into_bytes(),
        })
    }
}

/// A line of a listing in which the block's counter is expected modulo 255.
fn listed_modulo_255(line: &str) -> String {
    let number = |index: usize| line.split(' ').nth(index).and_then(|word| word.parse::<u64>().ok());
    let (Some(earlier), Some(counter)) = (number(0), number(2)) else {
        return line.to_string();
    };
    match (counter == counter_after(earlier) as u64, counter == earlier % 255) {
        (true, false) => format!("{line} !"),
        (false, true) => line.strip_suffix(" !").unwrap().to_string(),
        _ => line.to_string(),
    }
}

/// Whether a fault is found in at most so many inputs of each kind.
fn found(fault: Fault, inputs: u64) -> bool {
    let side = Faulty(fault);
    let mut judge = Judge::new(&side);
    KINDS.iter().enumerate().any(|(index, kind)| {
        (0..inputs).any(|iteration| (kind.run)(&mut Rng::new(1, index as u64, iteration), &mut judge).is_err())
    })
}

#[test]
fn no_fault_no_difference() {
    assert!(!found(None, 300));
}

#[test]
fn every_fault_is_found() {
    let missed: Vec<Fault> = FAULTS.iter().copied().filter(|fault| !found(*fault, 2500)).collect();
    assert_eq!(missed, vec![]);
}
