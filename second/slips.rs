//! Slips: ways to misread document 01, each made on purpose. One at a time may be made; the rules
//! ask at the place concerned. A set of requests has teeth where every slip changes some line.

use std::sync::atomic::{AtomicUsize, Ordering};

macro_rules! slips {
    ($($variant:ident $name:literal $words:literal;)*) => {
        #[derive(Clone, Copy, PartialEq, Debug)]
        pub enum Slip { $($variant),* }

        /// Every slip, the name it is called by, and what it does.
        pub const ALL_SLIPS: &[(Slip, &str, &str)] = &[$((Slip::$variant, $name, $words)),*];
    };
}

slips! {
    // document 01, "Plausible slips"
    EarliestDeadline "earliest-deadline" "the earliest deadline runs whenever charge is there: nothing is ever saved";
    FullIfEqual "full-if-equal" "rule 3 asks whether the level equals capacity";
    EnergyWithoutOwnHarvest "slack-energy-without-own-harvest" "slot t's own harvest is left out of slack energy";
    EnergySumsReleased "slack-energy-sums-released" "slack energy subtracts jobs already released too";
    EnergyOverReleased "slack-energy-over-released" "slack energy is taken over jobs already released, and subtracts them";
    TimeSumsReady "slack-time-sums-ready" "slack time subtracts ready jobs only";
    TimeOverReady "slack-time-over-ready" "slack time is taken over ready jobs only";
    AtLeast "judge-at-least" "the judge is content with at least the slots wanted: no 14";

    // the order of refusals
    FourBeforeThree "four-before-three" "a sheet is asked for 4 before 3";
    TableFourBeforeThree "table-four-before-three" "a table is asked for 4 before 3";
    NoHarvestIsFour "no-harvest-is-four" "a sheet of twelve bytes with a good mark is 4, not 3";
    SlotsZeroRead "slots-zero-read" "slots 0 is no refusal";
    SixBeforeFive "six-before-five" "6 comes before 5 in one record";
    AllFivesFirst "all-fives-first" "5 of a later record comes before 6 of an earlier one";
    MarkBeforeLength "mark-before-length" "2 comes before 1";
    RecordsBeforeDistances "records-before-distances" "the records are looked at before the back distances";
    DayOverFirst "day-over-first" "a step answers day over before the table's checks";
    SevenNotOnOverload "seven-not-on-overload" "an overloaded day is answered before 7";
    SevenBeforeRecords "seven-before-records" "7 comes before the records";
    EightBeforeRecords "eight-before-records" "8 comes before the records";
    ElevenBeforeRecords "eleven-before-records" "11 comes before the records";
    ClaimBeforeSheet "claim-before-sheet" "17 comes before 1 to 6";
    TwelveFirst "twelve-first" "12 of a later slot comes before 13 to 15 of an earlier one";
    FourteenBeforeThirteen "fourteen-before-thirteen" "14 comes before 13 in one slot";
    FifteenBeforeFourteen "fifteen-before-fourteen" "15 comes before 14 in one slot";
    FifteenBeforeThirteen "fifteen-before-thirteen" "15 comes before 13 in one slot";

    // when a refusal is given
    LongerSheetRead "longer-sheet-read" "a sheet longer than its jobs and slots need is read from behind";
    BackToHarvestUnasked "back-to-harvest-unasked" "the way back to the harvest is not asked for";
    BackToJobsUnasked "back-to-jobs-unasked" "the way back to the first job is not asked for";
    FewerJobs "63-jobs" "64 jobs are refused";
    FewerSlots "1439-slots" "1,440 slots are refused";
    MoreSlots "1441-slots" "1,441 slots are read";
    DeadlineBelowSlots "deadline-below-slots" "a deadline equal to slots is refused";
    EmptyWindow "empty-window" "a release equal to the deadline is no refusal";
    WantedFitsWindow "wanted-fits-window" "more slots wanted than the window has is 6";
    WantedBelowMost "wanted-below-most" "1,440 slots wanted is refused";
    LastByteUnasked "last-byte-unasked" "a record's last byte may be anything";
    EnergyZero "energy-zero" "energy 0 is no refusal";
    ReleaseMissing "release-missing" "release 0 means missing, and is refused 5";
    NoJobsRefused "no-jobs-refused" "a day without jobs is refused 3";
    CapacityZeroRefused "capacity-zero-refused" "capacity 0 is refused 3";
    BeyondChecked "beyond-checked" "what stands beyond a table's last job is checked too";
    CountIn32Bits "count-in-32-bits" "a table's count is cut to 32 bits";
    CountIn16Bits "count-in-16-bits" "a table's count is cut to 16 bits";
    CountIn8Bits "count-in-8-bits" "a table's count is cut to 8 bits";
    HarvestAtLeastSlots "longer-harvest" "a table's harvest may be longer than slots";
    SevenAsksRoom "seven-asks-room" "7 asks for room only";
    EightAsksEquality "eight-asks-equality" "8 asks for the very length";
    LongerPlan "longer-plan" "11 lets a longer plan pass";
    DeadlineSlotJudged "deadline-slot-judged" "13 lets a job run in the slot of its deadline";
    ReleaseSlotJudged "release-slot-judged" "13 refuses a job in the slot of its release";
    NoJobIsIdle "no-job-is-idle" "a byte that is no job's number counts as idle";
    IdleIsNoJob "255-is-a-job" "255 is taken for a job's number, and is 12";
    BeyondIsJob "beyond-is-job" "a place filled beyond the count is a job of the plan";
    FifteenAtMost "fifteen-at-most" "15 refuses a slot that ends exactly empty";
    FifteenWithoutHarvest "fifteen-without-harvest" "15 leaves the slot's own harvest out";
    SixteenByDeadline "sixteen-by-deadline" "16 names the smallest deadline";
    ClaimByJobs "claim-by-jobs" "a claim must run from a release to a deadline, else 17";
    ClaimSearched "claim-searched" "only the interval that the search answers is accepted";
    ClaimEndBelow "claim-end-below" "a claim's end must be below slots";
    ClaimEmpty "claim-empty" "a claim's start may be its end";
    ClaimKindAny "claim-kind-any" "every kind but 0 is energy";
    ClaimIn32Bits "claim-in-32-bits" "a claim's numbers are cut to 32 bits";
    ClaimIn16Bits "claim-in-16-bits" "a claim's numbers are cut to 16 bits";
    ClaimKindIn8Bits "claim-kind-in-8-bits" "a claim's kind is cut to 8 bits";

    // demand and the search
    OverloadedIfEqual "overloaded-if-equal" "demand equal to supply is overloaded";
    PartlyInside "partly-inside" "jobs partly inside count into an interval";
    StrictlyInside "strictly-inside" "a job released at the interval's start does not count";
    DeadlineInside "deadline-inside" "a job with its deadline at the interval's end does not count";
    LateStartNoCapacity "late-start-no-capacity" "an interval that starts late counts no capacity";
    LateStartLevel "late-start-level" "an interval that starts late counts the level that the jobs due before it leave";
    SupplyHarvestLast "supply-harvest-last" "energy supply counts the harvest of slot t2 too";
    SupplyHarvestFirst "supply-harvest-first" "energy supply leaves the harvest of slot t1 out";
    TimeSupplyInclusive "time-supply-inclusive" "time supply counts slot t2 too";
    DemandCutToWindow "demand-cut-to-window" "a job demands no more slots than its window has";
    SumsIn16Bits "sums-in-16-bits" "demand and supply are cut to 16 bits";
    SearchEarliestStart "search-earliest-start" "the search takes the earliest start";
    SearchEnergyFirst "search-energy-first" "of one interval the search takes energy before time";
    SearchEnergyAnyStart "search-energy-any-start" "the search takes energy before time whatever the start";
    SearchTimeAnyStart "search-time-any-start" "the search takes time before energy whatever the start";
    SearchStartFirst "search-start-first" "the search takes the latest start before the smallest end";
    SearchLargestEnd "search-largest-end" "the search takes the largest end";
    SearchOneJob "search-one-job" "the search takes release and deadline of one job only";
    SearchTimeOnly "search-time-only" "the search looks for energy only where no time overload is";

    // the slot run
    TiesHighest "ties-highest" "of tied deadlines the highest number is chosen";
    LowestNumberChosen "lowest-number-chosen" "the lowest number that is ready is chosen";
    DeadlineSlotRun "deadline-slot-run" "a job still runs in the slot of its deadline";
    RunsLate "runs-late" "a job whose deadline has come is run again";
    ReleaseSlotNotReady "release-slot-not-ready" "a job is not ready in the slot of its release";
    AnotherRuns "another-runs" "where the chosen job cannot be paid another ready job runs";
    FullBeforeEmpty "full-before-empty" "full comes before empty";
    NoSlackBeforeEmpty "noslack-before-empty" "noslack comes before empty";
    SavingBeforeEmpty "saving-before-empty" "saving comes before empty";
    NoSlackBeforeFull "noslack-before-full" "noslack comes before full";
    SavingBeforeFull "saving-before-full" "saving comes before full";
    SavingBeforeNoSlack "saving-before-noslack" "saving comes before noslack";
    EmptyAtMost "empty-at-most" "charge equal to the energy is empty";
    EmptyWithoutHarvest "empty-without-harvest" "rule 2 leaves the slot's own harvest out";
    FullAtLeast "full-at-least" "charge equal to capacity is full";
    FullAfterSpending "full-after-spending" "rule 3 asks for what is left after spending";
    NoSlackBelowZero "noslack-below-zero" "slack time 0 is slack";
    SavingAtMost "saving-at-most" "slack energy equal to the job's energy is saved";
    TimeByWanted "slack-time-by-wanted" "slack time subtracts the slots wanted, not those still wanted";
    TimeCountsCome "slack-time-counts-come" "slack time subtracts jobs whose deadline has come";
    TimeBelowEnd "slack-time-below" "slack time subtracts jobs with deadlines below D only";
    TimeOfChosen "slack-time-of-chosen" "slack time is the chosen job's own";
    EnergyUpTo "slack-energy-up-to" "below the chosen deadline is read as up to it";
    EnergyAnyDeadline "slack-energy-any-deadline" "slack energy is taken whatever the deadline";
    EnergyReleasedNow "slack-energy-released-now" "a job released in slot t counts as released after t";
    EnergyStillWanted "slack-energy-still-wanted" "slack energy subtracts the slots still wanted, not the table's";
    EnergyUnfinished "slack-energy-unfinished" "slack energy leaves finished jobs out";
    EnergyBelowEnd "slack-energy-below-end" "slack energy subtracts jobs with deadlines below D only";
    EnergyOneJob "slack-energy-one-job" "slack energy subtracts the one job only";
    EnergyHarvestEnd "slack-energy-harvest-end" "slack energy counts the harvest of slot D too";
    EnergyCut "slack-energy-cut" "slack energy is cut at capacity before it is subtracted from";
    EnergyUnlimitedIsZero "slack-energy-unlimited-is-0" "where no such job is slack energy is 0, not unlimited";
    CutBeforeSpending "cut-before-spending" "the level is cut at capacity before the slot has spent";
    NeverCut "never-cut" "the level is never cut at capacity";
    IdleGainsNothing "idle-gains-nothing" "an idle slot's harvest is lost";
    StartsEmpty "starts-empty" "the level starts at 0";
    ChargeWraps "charge-wraps" "level + p wraps at 65,536";
    ChargeStops "charge-stops" "level + p stops at 65,535";
    JudgeNeverCuts "judge-never-cuts" "the judge never cuts the level";
    JudgeCutsBefore "judge-cuts-before" "the judge cuts the level before the slot has spent";
    JudgeStartsEmpty "judge-starts-empty" "the judge starts at level 0";
    StepRefusesOdd "step-refuses-odd" "a step refuses a level above capacity, with 3";
    StepRefusesLeft "step-refuses-left" "a step refuses more slots left than wanted, with 6";
    StepCutsLevel "step-cuts-level" "a step cuts a level above capacity first";
    StepCutsLeft "step-cuts-left" "a step cuts slots left above those wanted";
    StepDropsBeyond "step-drops-beyond" "a step hands on zeros beyond the last job";
    StepSearches "step-searches" "a step answers day over on an overloaded day";
    StepNotReleased "step-not-released" "what is left for jobs not yet released is taken as their slots wanted";
    RefusedStepZeros "refused-step-zeros" "a refused step hands back zeros";
    OverMoves "over-moves" "day over hands back the next slot";

    // answers and buffers
    UndecidedByNumber "undecided-by-number" "undecided names the lowest number";
    UndecidedHighest "undecided-highest" "of tied deadlines undecided names the highest number";
    UndecidedUnwritten "undecided-unwritten" "no plan is written on an undecided day";
    OverloadedWritten "overloaded-written" "the plan is written on an overloaded day too";
    RefusedPlanTouched "refused-plan-touched" "a refusal 7 leaves idle bytes in the buffer";
    RefusedWriteTouched "refused-write-touched" "a refusal 8 leaves what fits in the buffer";
    BadRecordTouched "bad-record-touched" "a writer refusing a record leaves the records before it in the buffer";
    WriteClearsBehind "write-clears-behind" "the writer clears the bytes behind the sheet";
    WriteAnswersRoom "write-answers-room" "the writer answers the buffer's length";
    RefusedReadKept "refused-read-kept" "a read refused for a record keeps its table";
    RefusedHarvestKept "refused-harvest-kept" "the harvest is handed back where a record is refused";
    StretchCut "stretch-cut" "a stretch that the sheet does not have in whole is cut short";
    ListingNames "listing-names" "the listing names a refused record";
    ListingLevelBefore "listing-level-before" "the listing shows the level before the slot";
    ListingRunsOverloaded "listing-runs-overloaded" "the listing shows the slots of an overloaded day";
}

/// 0 is none; else one more than the slip's place.
static MADE: AtomicUsize = AtomicUsize::new(0);

/// Is this slip made?
pub fn slip(which: Slip) -> bool {
    MADE.load(Ordering::Relaxed) == which as usize + 1
}

/// From now on this slip is made, or none.
pub fn make_slip(which: Option<Slip>) {
    MADE.store(which.map_or(0, |which| which as usize + 1), Ordering::Relaxed);
}

pub fn slip_named(name: &str) -> Option<Slip> {
    ALL_SLIPS.iter().find(|entry| entry.1 == name).map(|entry| entry.0)
}

/// A line for each: its name and what it does.
pub fn list_of_slips() -> String {
    ALL_SLIPS.iter().map(|(_, name, words)| format!("{name}: {words}\n")).collect()
}
