//! Mistakes that can be switched on in the second implementation, one at a time. The comparison must find each.

/// The mistake that is on, if any.
pub type Wrong = Option<Mistake>;

macro_rules! mistakes {
    ($($name:ident: $text:literal,)*) => {
        #[derive(Clone, Copy, PartialEq, Eq, Debug)]
        pub enum Mistake { $($name,)* }

        /// All mistakes; the first has number 1.
        pub const MISTAKES: &[(Mistake, &str)] = &[$((Mistake::$name, $text),)*];
    };
}

mistakes! {
    // The specification's plausible misreadings
    SavingsAdded: "a set saves the sum of its places' savings",
    UpToNextBreaker: "impact counts only customers up to the next breaker",
    FarEndClears: "a line's far-end breaker clears the line's own fault",
    FarPlacesDropped: "places at far ends are left out of the search",
    Greedy: "the search takes the largest saving each time",

    // Impact and total
    OpenEndCounted: "the station at an open far end counts as behind its line",
    NearIsEndOne: "the near end of a line is taken to be its end 1",
    OwnEndNotMet: "a line's path is taken to start behind its near end",
    FigureWithoutMinutes: "the figure is the total",

    // The walk
    CutAboveOnly: "a set is extended when its bound equals the best total",
    OneSavingMore: "the bound takes r + 1 savings",
    OneSavingFewer: "the bound takes r - 1 savings",
    AddsForR: "r is `adds` at every size",
    SavingsAfterQ: "the bound leaves out place q itself",
    SavingsOfAll: "the bound takes savings of earlier places too",
    SavingsOfAllowed: "the bound takes savings only of places that are allowed alone",
    BoundNotNegative: "the bound is nought where it should be negative",
    TiesReplaced: "the best set is replaced on an equal total",
    ShorterTies: "the best set is replaced on an equal total with fewer members",
    CountBeforeLimit: "a visit is counted before the limit is looked at",
    SpentAtLimit: "the search is spent when the count reaches the limit, though no visit is due",
    SpentUnallowed: "a place that is not allowed makes the search spent",
    EmptyNotCounted: "the visit of the empty set is not counted",
    EmptyWhenSpent: "a spent search answers the empty set",
    HoursIgnored: "hours have no bound",
    MoneyIgnored: "money has no bound",
    MoneyBelow: "costs must be below `money`",
    AddsBelow: "a set must have fewer than `adds` members",
    SeriesIgnored: "added breakers are not held to the series rule",

    // The bytes
    LongerAccepted: "32,769 bytes are read",
    LengthLast: "the length is looked at after the records",
    RangeBeforeForm: "a field's range is looked at before the form of later fields",
    LeadingZero: "a leading zero is accepted",
    NineDigits: "ten digits are refused with 1",
    ElevenDigits: "eleven digits are read",
    EmptyFieldZero: "an empty field is 0",
    MoreFields: "further fields are ignored",
    UnclosedAccepted: "a last record without newline is accepted",
    EmptyLastIgnored: "an empty record at the end is ignored",
    ReturnDropped: "a carriage return at a record's end is ignored",
    AbsentFirst: "an absent record is refused before faults of the records there are",
    AbsentLast: "an absent record is named by the last record that is due",
    ExtraIgnored: "records behind the lines that are no places are ignored",
    HvCustomers: "an HV station may have customers",
    SeriesNought: "`series` may be 0",

    // Places
    PlaceBeforeRange: "a place's order is looked at before its ranges",
    PlaceByEnd: "places are ordered by end, then line",
    PlaceByLine: "places are ordered by line alone",
    PlaceTwice: "a place may be listed twice",
    PlaceOnBreaker: "a place may be on a breaker",
    PlaceOnOpen: "a place may be on an open end",
    SixtyFifthAsExtra: "the 65th place is refused with 1",
    SixtyFifthAtOnce: "a 65th place is refused with 3 before its form and ranges",

    // Rules 4 to 9
    FiveBeforeFour: "5 is looked for before 4",
    FourFiveByLine: "4 and 5 are looked for line by line",
    SevenBeforeSix: "7 is looked for before 6",
    EightBeforeSeven: "8 is looked for before 7",
    EightBeforeSix: "8 is looked for before 6",
    NineFirst: "9 is looked for before 8",
    LastLineNamed: "4 and 5 name the last line",
    HangingPlain: "a line with an open end may be plain at an HV station",
    CycleSuppliedOnly: "6 is looked for only where there is supply",
    ParallelNoCycle: "two lines between the same stations are no closed path",
    SelfLineNoCycle: "a line with both ends at one station is no closed path",
    LastUnsupplied: "8 names the last unsupplied station",
    SeriesToStations: "the series rule counts only on paths to stations",
    SeriesWithoutHvEnd: "the series rule leaves out the end at the HV station",
    SeriesNearOnly: "the series rule leaves out far ends",
    SeriesAnyPath: "the series rule holds on every path, as in the source",

    // Report and program
    NoLastNewline: "the report's last line has no newline",
    FileTotalInC: "`C` has the file's own total",
    ImpactsAfter: "`F` lines are those with the additions",
    PlaceInB: "`B` has the place's number for its line",
    ReportEmptyC: "`C` and `B` leave out the members of a spent search",
    RefusedReport: "the program prints `A` with noughts before `X`",

    // The program's commands
    CheckSilent: "`check` prints nothing of an accepted file",
    LineBefore: "`impact` answers for the line before",
    ImpactWithoutLine: "the row of `impact` leaves out the line",
    NoLineNought: "`impact` answers 0 for a line that is not there",
    TotalWithoutFigure: "the row of `total` leaves out the figure",
    SearchWithLines: "`search` prints the report's `F` rows too",
    SearchWithoutMembers: "`search` prints the `C` row alone",
    SegmentsWithoutCount: "`segments` leaves out the `G` row",
    RowEndFirst: "a `T` row has its end before its line",
    RowWithoutProduct: "a `T` row leaves out the product",
    RefusedSegments: "`segments` prints `G,0` of a refused file",
    CeilingSwapped: "the row of `ceiling` has its two numbers swapped",
    CeilingAnyNumbers: "`ceiling` answers 0 for numbers out of range",
    PrintedRecordFirst: "a refusal is printed with its record before its number",

    // The words on standard error
    AnsweredWords: "an answer has words on standard error",
    WordsWithoutRecord: "the words of a refusal name no record",
    WordsUnclosed: "the words of a refusal end in a full stop without newline",
    WordsParallel: "two lines between the same stations are no ring in the words of 6",
    WordsNoCopy: "the words of 6 do not say that one of two parallel lines may be a copy",
    WordsLargerFirst: "the words of 7 name the larger HV station first",
    WordsAlone: "the words of 8 name no station that is joined with the one without supply",
    WordsFirstWay: "the words of 8 name the first open end alone",
    WordsNearOnly: "the words of 9 leave out breakers at far ends",

    // The segment table
    SegmentsByEnd: "the segment table is ordered by end, then line",
    SegmentsTrippingOnly: "breakers that trip for no weight are left out of the segment table",
    SegmentsIdleEmpty: "a breaker that trips for no weight has no customers behind it",
    SegmentsAllBehind: "a breaker's weights are those of all lines behind it, past the next breaker",
    SegmentsToNext: "a breaker's customers are counted up to the next breaker",
    SegmentsLastLost: "the segment table leaves out the last breaker end",
    SegmentsEndFirst: "an entry of the segment table has its end before its line",
    TableShorter: "Segments accepts 7,679 numbers",
    TableLonger: "Segments wants 7,681 numbers",
    TableCleared: "the number behind the segment table is cleared",
    EntriesAsNumbers: "Segments answers how many numbers the table has",

    // Calls
    MembersUnwritten: "members are not written by a spent search",
    MembersCleared: "the rest of the buffer lent to Search is cleared",
    TextCleared: "the byte behind the report is cleared",
    TenLast: "10 is looked for after the file's refusals",
    FifteenMembers: "Search accepts 15 numbers",
    SeventeenMembers: "Search wants 17 numbers",
    ShorterText: "Report accepts 32,767 bytes",
    LongerText: "Report wants 32,769 bytes",
    RefusalWrites: "a refused Search writes to its buffer",
    LineFirst: "Impact's line is looked at before the file",
    LineNought: "Impact answers 0 for line 0",
    LineAbove: "Impact answers 0 for line lines + 1",
    CeilingExact: "Ceiling counts the sets of just a places",
    CeilingShort: "Ceiling refuses 64 places",
    ValuesLater: "the values start at the answer's second number",
    AnswerCleared: "the rest of the answer is cleared",
    AnsweredOne: "an answered call returns 1",
    RefusalInAnswer: "a refusal's number and record are written to the answer",
    RecordBeforeNumber: "a refusal is returned with its record before its number",
    RecordLeftOut: "a refusal is returned without its record",
    RefusalAnswered: "a refused call returns 0",
}

impl Mistake {
    /// Whether it is a mistake in impact, the walk or the series rule, which the third demand may show.
    pub fn in_search(self) -> bool {
        let number = self as usize;
        number <= Mistake::SeriesIgnored as usize
            || (Mistake::SeriesToStations as usize..=Mistake::SeriesAnyPath as usize).contains(&number)
    }
}

/// The mistake of a number from 1.
pub fn numbered(number: usize) -> Wrong {
    MISTAKES.get(number.wrapping_sub(1)).map(|m| m.0)
}
