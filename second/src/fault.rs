//! Seeded faults: named wrong rules, each switched on by one run-time value.

macro_rules! faults {
    ($($stage:ident { $($case:ident $name:literal $rule:literal;)* })*) => {
        /// `None` follows document 01; every other value is one wrong rule.
        #[derive(Clone, Copy, PartialEq, Eq, Debug)]
        pub enum Fault { None, $($($case),*),* }

        /// The faults that some text shows in the output of one of the programs.
        pub const ALL: &[Entry] = &[
            $($(Entry {
                fault: Fault::$case,
                name: $name,
                rule: $rule,
                stage: Stage::$stage,
            }),*),*
        ];
    };
}

/// Where a fault is consulted: reading the text, checking the job, or the run.
#[derive(Clone, Copy, PartialEq, Eq)]
pub enum Stage {
    Text,
    Job,
    Run,
}

/// A fault with the name it is switched on by.
#[derive(Clone, Copy)]
pub struct Entry {
    pub fault: Fault,
    pub name: &'static str,
    pub rule: &'static str,
    pub stage: Stage,
}

faults! {
    Text {
        MinusZero "minus-zero-accepted" "-0 is a number";
        LeadingZero "leading-zero-accepted" "01 is a number";
        Plus "plus-accepted" "+1 is a number";
        Blanks "blanks-accepted" "blanks around a field are dropped";
        Quotes "quotes-accepted" "a number may stand in quotes";
        LastEnd "last-crlf-missing-accepted" "the last line needs no CRLF";
        LineFeed "lf-only-accepted" "LF alone ends a line";
        EmptyLine "empty-line-accepted" "an empty line is skipped";
        AnyOrder "groups-in-any-order" "the four groups may mix";
        LastField "last-field-unread" "the last field of channel, record and step may be any number";
        StepAbove "step-above-65535-accepted" "a step may be any number that is not negative";
        WideNumber "wide-numbers-wrapped" "a number beyond 32 bits is wrapped";
        TextOneMore "text-limit-one-more" "65,537 bytes are read";
        TextOneLess "text-limit-one-less" "65,536 bytes are too long";
    }
    Job {
        SeventeenTasks "seventeen-tasks-accepted" "1 only above 17 tasks";
        ManyChannels "thirty-three-channels-accepted" "2 only above 33 channels";
        ScaleWide "scale-31-accepted" "Scale takes a up to 31";
        PassParameters "pass-parameters-unread" "Pass and Spread take any parameters";
        CylinderZero "cylinder-0-accepted" "a record's cylinder may be 0";
        PartToEnd "part-to-last-record-refused" "5 when a+b is the number of records";
        LongPart "part-of-4097-accepted" "b up to 4,097";
        PartsBeforeRecords "order-5-before-4" "5 is checked before 4";
        LoopsBeforeInputs "order-8-before-7" "8 is checked before 7";
        SelfLoop "self-loop-unseen" "a walk of one channel is no walk";
        SourceInput "source-input-accepted" "7 only for a task with no input";
        WorstByTasks "worst-by-tasks" "the worst count adds from-tasks, not channels";
        WorstAtLimit "worst-at-limit-refused" "9 at a worst count of 1,048,576";
    }
    Run {
        ReadOnMarked "read-on-marked" "a marked channel is not blocked";
        SourceAtBegin "source-stored-at-64" "a source's totals are stored as of step 64";
        CutHalf "cut-restores-half" "a cut restores half-taken totals";
        LeastFromZero "least-from-zero" "the 0 of an empty least value is compared with";
        GreatestFromZero "greatest-from-zero" "the 0 of an empty greatest value is compared with";
        ClearOneMark "clear-one-mark" "only the delivering channel's mark is cleared";
        EmptyBeforeBlocked "order-13-before-12" "13 is checked before 12";
        DroppedNotFull "no-14-for-dropped" "14 not given for a record that will be dropped";
        BarrierAlwaysFull "14-for-any-barrier" "14 also for a barrier that leaves marks open";
        BarrierNeverFull "no-14-for-barrier" "14 not given for a barrier that completes the marks";
        SpreadOwnFull "14-by-chosen-output" "Spread looks for 14 at the chosen output only";
        FullAtSeven "full-at-7" "a channel holds at most 7 items";
        FullBeforeReadOut "order-14-before-13" "a source's 14 is checked before 13";
        SpreadByNumber "spread-by-channel-number" "Spread goes by channel number, not by place";
        SpreadByCylinder "spread-cylinder-mod" "Spread's place is cylinder mod outputs";
        ScaleFloor "scale-floor" "Scale rounds toward minus infinity";
        RangeOpen "range-upper-open" "Range drops its upper bound";
        DroppedUncounted "dropped-uncounted" "a dropped record does not enter the totals";
        DoubledOnce "doubled-channel-once" "doubled channels carry one copy";
        CutChannels "cut-keeps-channels" "a cut keeps what channels hold";
        CutMarks "cut-keeps-marks" "a cut keeps marks";
        CutWaiting "cut-keeps-waiting" "a cut keeps waiting barriers";
        CutUnderWay "cut-keeps-under-way" "after a cut the snapshot is still under way";
        CutForgets "cut-forgets-complete" "a cut loses the last complete snapshot";
        CutToZero "cut-to-zero" "a cut always goes back to zero";
        StoreEarly "store-before-all-marks" "a task stores at its first barrier";
        FirstOutput "barrier-on-first-output" "a barrier goes on the first output only";
        BeginAgain "64-while-under-way" "step 64 is done while one is under way";
        WaitingPrevents "waiting-prevents-read" "a waiting barrier prevents a source's read";
        OneMissing "complete-one-missing" "a snapshot is complete with one task missing";
        CompleteUnsaid "complete-answers-0" "the completing step answers 0";
        SumOf32Bits "sum-of-32-bits" "the sum wraps at 32 bits";
        DrainLeaves "drain-leaves-snapshot" "nothing is left although a snapshot is under way";
        DrainHighest "drain-highest" "a drain does the highest-numbered possible step";
        FirstStepOnly "list-first-step-only" "a list does its first step and counts the rest";
        RefusedDone "refused-counted-done" "a refused step is counted as done";
        NoSourceEmpty "no-source-answers-13" "a task that is no source answers 13";
        EightBits "step-of-8-bits" "a step's number is taken modulo 256";
    }
}

/// The fault of a name.
pub fn named(name: &str) -> Option<Fault> {
    let named = ALL.iter().find(|entry| entry.name == name);
    named.map(|entry| entry.fault)
}
