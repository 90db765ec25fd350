//! Faults that can be planted on purpose, so that the comparison can show that it finds them. Without the feature `faults`
//! none can be, and every question about one is answered no.

/// A wrong rule in place of a right one.
#[derive(Clone, Copy, PartialEq, Eq, Debug)]
pub enum Fault {
    /// Function inputs compared in the same direction as outputs.
    CovariantInputs,
    /// A function's argument substituted as it is, not cast to the input type.
    ArgumentUncast,
    /// No room already at size 4,095.
    RoomOneEarly,
    /// Room still at size 4,096.
    RoomOneLate,
    /// A merge called consistent with a value on its left half alone.
    MergeByLeftHalf,
    /// An intersection called disjoint from a type on its left half alone.
    DisjointByLeftHalf,
    /// Two functions called disjoint because their inputs are.
    DisjointByInputs,
    /// A top-like function type answered with a function.
    TopLikeFunctionKept,
    /// A function cast to a function type keeps its own output type.
    OutputKept,
    /// A function cast to a function type takes its input type too.
    InputTaken,
    /// A term annotated with a top-like type becomes the top value before its inside is a value.
    TopLikeUncast,
    /// The top value applied becomes the top value before the argument is a value.
    TopAppliedEarly,
    /// The right of an application, merge or sum stepped before the left is a value.
    RightPartFirst,
    /// A fixpoint unfolded to its body alone, not annotated.
    FixpointBare,
    /// Going into a part that was made by a step counted as a step.
    DescentCounted,
    /// Spent although the term is a value, when exactly the limit has been taken.
    SpentBeforeValue,
    /// Whether the limit has been taken asked only after a step.
    SpentAfterStep,
    /// No room although exactly the limit has been taken.
    RoomBeforeSpent,
    /// Room for the part that steps alone, without what is around it.
    RoomOfPart,
    /// Room without the values that are left of the part that steps.
    RoomWithoutLeft,
    /// Room without what comes right of the part that steps.
    RoomWithoutRight,
    /// Room without those values but the nearest.
    RoomWithNearestLeft,
    /// Room still at size 4,096 where there is something left of the part that steps and something right of it.
    RoomOneLateBetween,
    /// Room asked for an argument's cast also where the body does not use it.
    RoomForUnused,
    /// Refusal 1 zeroes the work buffer.
    WrongLengthZeroed,
    /// The kinds of all cells tested before anything else of a cell.
    KindsFirst,
    /// A cell's references tested before its unnamed fields.
    ReferencesFirst,
    /// The numbers 9 and 10 swapped.
    RootNumbersSwapped,
    /// The root's size tested before whether it is a type.
    RootSizeFirst,
    /// The right side of an application walked before 12 is tested.
    ArgumentFirst,
    /// The right half of a merge walked before the left.
    RightHalfFirst,
    /// 14 names the left half instead of the merge.
    HalfNamed,
    /// 15 names the annotation, function, fixpoint, application, sum or choice instead of the checked term.
    WholeNamed,
    /// The first record of that label read although the intersection has a second, neither top-like.
    FirstOfTwoFields,
    /// A field that no part has given Top only where a part is exactly Top.
    TopByTopAlone,
    /// A field that only top-like records have given its content's type instead of Top.
    TopLikeContentShown,
    /// A run that takes the content of a top-like record instead of the top value.
    TopLikeContentTaken,
    /// The halves of an intersection taken for its parts.
    TypePartsOneLevel,
    /// The halves of a merge taken for its parts.
    ValuePartsOneLevel,
    /// A run that takes the first record of that label although it is top-like and another is not.
    FirstFieldTaken,
    /// A sum of version 1 wraps round at the ends of the 32-bit range.
    SumWraps,
    /// A sum of version 1 held one short of the upper end.
    SumShortAbove,
    /// A sum of version 1 held one short of the lower end.
    SumShortBelow,
    /// A choice becomes c for zero and b for anything else.
    BranchesExchanged,
    /// A number called zero on its low 16 bits alone.
    ZeroByLowHalf,
    /// A number called zero on its bits 16 to 31 alone.
    ZeroByHighHalf,
    /// A choice that takes a negative number for zero.
    NegativeAsZero,
    /// A choice becomes b or c itself, not annotated.
    BranchBare,
    /// All parts of a choice run before it is taken.
    BranchesRun,
    /// The right of a sum stepped before the left is a value.
    RightOfSumFirst,
    /// The reading of a merge in a sum, or of one that a choice tests, counted as a step.
    ReadingCounted,
    /// A merge in a sum read from its right half alone.
    SumReadsRightHalf,
    /// A merge that a choice tests read from its left half alone.
    ChoiceReadsLeftHalf,
    /// A sum given the type of its left.
    SumTypeOfLeft,
    /// A choice given the type of its b.
    ChoiceTypeOfBranch,
    /// What is below Int and not Int itself refused as a part of a sum or choice.
    ExactlyInt,
    /// Both parts of a sum walked before the left is checked.
    SumCheckedLate,
    /// The a of a choice checked only after b is walked.
    TestCheckedLate,
    /// The b of a choice checked only after c is walked.
    BranchCheckedLate,
    /// 15 names the choice instead of its c.
    LastByWhole,
    /// 15 names the b of a choice instead of its c.
    LastBySecond,
    /// The c of a choice walked and not checked.
    LastUnchecked,
    /// Kinds 26 and 27 unknown.
    OlderKinds,
    /// A choice called closed on a and b alone.
    ClosedByTwoParts,
    /// Choices called equal on a and b alone.
    EqualByTwoParts,
    /// An argument or fixpoint not substituted in the c of a choice.
    SubstitutedInTwoParts,
    /// Room without the branches that wait around the part that steps.
    RoomWithoutBranches,
    /// Two bodies called the same only if they are one cell.
    BodiesByCell,
    /// Two bodies called the same only if their cells have the same bytes.
    BodiesByBytes,
    /// Two bodies called the same where the numbers of their cells have the same low byte.
    BodiesByLowByte,
    /// Two bodies called the same as soon as a part of both is one cell.
    SharedPartEnough,
    /// Two bodies called the same only if their cells correspond one to one.
    SharingCompared,
    /// The same, but that a cell of the first may stand for several of the second.
    OneForSeveral,
    /// The same, but that a cell of the second may stand for several of the first.
    SeveralForOne,
    /// Bodies compared to their eighth level.
    EightLevels,
    /// Labels in bodies not compared.
    LabelsIgnored,
    /// Types in bodies not compared.
    TypesIgnored,
    /// Variables in bodies called equal whatever they skip.
    VariablesAlike,
    /// Variables in bodies compared by the low byte of what they skip.
    VariablesByLowByte,
    /// The low 16 bits of numbers in bodies not compared.
    LowHalfIgnored,
    /// All but the low 16 bits of numbers in bodies not compared.
    HighHalfIgnored,
    /// The first of two parts or three not compared in bodies.
    FirstIgnored,
    /// The second of two parts not compared in bodies.
    SecondOfTwoIgnored,
    /// Functions in bodies called equal on body and input alone.
    FunctionsByTwoParts,
    /// Applications, merges and sums in bodies not told apart.
    PairsAlike,
    /// Records and field reads in bodies not told apart.
    RecordsAsReads,
    /// Annotations and fixpoints in bodies not told apart.
    AnnotationsAsFixpoints,
    /// Function types and intersections in bodies not told apart.
    FunctionTypesAsIntersections,
    /// Int and Top in bodies not told apart.
    IntAsTop,
    /// Functions called consistent on their bodies alone.
    InputsIgnored,
    /// Input types compared by kind and label alone.
    InputsByFirstCell,
    /// Two input types called the same only if their cells correspond one to one.
    InputSharingCompared,
    /// Functions with the same body and input called consistent only if their outputs are equal.
    OutputsCompared,
    /// Version 2 unknown.
    OlderVersions,
    /// Version 3 taken for version 2.
    ThirdVersion,
    /// Version 0 taken for version 1.
    VersionZero,
    /// A type of version 2 laid down with version 1 in its trailer.
    TypeOfVersion1,
    /// A term of version 2 laid down with version 1 in its trailer.
    TermOfVersion1,
    /// Field a of a number of version 1 not tested.
    NarrowFieldUntested,
    /// Field a of a number of version 2 refused if it is not zero.
    WideFieldRefused,
    /// The label of a number of version 2 not tested.
    WideLabelUntested,
    /// Field a not tested in version 2 where a kind refers to nothing.
    FirstFieldUntested,
    /// A number of version 1 extended by zeros.
    ZeroExtended,
    /// A number of version 1 read from bytes 2 to 7.
    NarrowFromAllBytes,
    /// A number of version 2 read without its sign.
    WideUnsigned,
    /// A number of version 2 read from bytes 4 to 7.
    WideFromLastBytes,
    /// A number of version 2 read from bytes 2 to 5.
    WideFromFirstBytes,
    /// A number of version 1 laid down in bytes 2 to 7.
    NarrowingLeftOut,
    /// A number of version 2 laid down in bytes 4 to 7.
    NarrowingInVersion2,
    /// A number of version 1 laid down by its bits 16 to 47.
    NarrowingKeepsHighFields,
    /// A sum of version 1 held to the ends of 48 bits.
    SumOf48Bits,
    /// A sum of version 2 held to the ends of 32 bits.
    WideSumOf32Bits,
    /// The low 32 bits added in version 2.
    WideSumOfLowBits,
    /// A sum of version 2 wraps round at the ends of the 48-bit range.
    WideSumWraps,
    /// A sum of version 2 held one short of the upper end.
    WideSumShortAbove,
    /// A sum of version 2 held one short of the lower end.
    WideSumShortBelow,
    /// After its first step a run goes on in version 1.
    LostToVersion1,
    /// After its first step a run goes on in version 2.
    LostToVersion2,
    /// Numbers of version 2 called consistent whatever is in field a.
    ConsistentWithoutA,
    /// Whatever is in field b.
    ConsistentWithoutB,
    /// Whatever is in field c.
    ConsistentWithoutC,
    /// Numbers of version 2 in bodies called equal whatever is in field a.
    BodiesWithoutA,
    /// Whatever is in field b.
    BodiesWithoutB,
    /// Whatever is in field c.
    BodiesWithoutC,
    /// A number of version 2 called zero whatever is in field a.
    ZeroWithoutA,
    /// Whatever is in field b.
    ZeroWithoutB,
    /// Whatever is in field c.
    ZeroWithoutC,
    /// Of two merges only the parts compared that stand next to each other.
    AdjacentParts,
    /// A merge known to be consistent with a value only where the merge is on the left.
    MergeKnownOnLeft,
    /// Only where it is on the right.
    MergeKnownOnRight,
    /// Records of one label called consistent only if their contents are the same tree.
    ContentsAsTrees,
    /// Functions with the same body and input called consistent only if the left's output is below the right's.
    LeftOutputBelow,
    /// Values of one type called consistent, and the left one read.
    OneTypeEnough,
    /// 14 given where the halves are consistent, not disjoint, and the larger is on the left.
    LargerFirstRefused,
    /// Top known to be disjoint from a type only where Top is on the left.
    TopKnownOnLeft,
    /// An intersection known to be disjoint from a type only where the intersection is on the left.
    DisjointOnLeft,
    /// Only where it is on the right.
    DisjointOnRight,
    /// An intersection called below what its left half is below.
    BelowByLeftHalf,
    /// What its right half is below.
    BelowByRightHalf,
    /// A merge read from its left half alone.
    ReadFromLeftHalf,
    /// From its right half alone.
    ReadFromRightHalf,
    /// Under an intersection the readings merged in the order in which the parts stand in the value.
    MergedInValueOrder,
    /// The first number, function or record of that label read, although another can be and this one cannot.
    FirstPartRead,
    /// A part within more than eight merges not read.
    MergesToEightLevels,
    /// Of a merge whose halves are not disjoint, the left alone compared with a value.
    OverlapByLeftHalf,
    /// A part within more than eight merges not compared with a value.
    ConsistentToEightLevels,
    /// A merge whose halves have one type given that type.
    EqualHalvesOnce,
    /// Room asked for a reading and for the left half of the merge that is read.
    RoomWithLeftHalf,
    /// A term laid down with the smaller half of each merge first.
    SmallerHalfFirst,
    /// The reading of a merge from its right half alone counted as two steps.
    RightHalfCounted,
    /// The mark is the size of the term reached.
    MarkOfLast,
    /// The larger of the first term's size and that of the term reached.
    MarkOfEnds,
    /// The first term's size.
    MarkOfFirst,
    /// The first term's size in version 2.
    WideMarkOfFirst,
    /// The first term not counted once a step is taken.
    FirstUnmarked,
    /// The term at which the limit is spent not counted once a step is taken.
    LastUnmarked,
    /// A value not counted once a step is taken.
    ValueUnmarked,
    /// The last two terms counted alone.
    LastTwoMarked,
    /// Every other term counted alone, the first included.
    EveryOtherMarked,
    /// Only the terms after at most a hundred steps counted.
    HundredMarked,
    /// Only the terms counted since the last that has less than half of the one before.
    MarkBegunAgain,
    /// The least size in place of the greatest.
    LeastMarked,
    /// The size that found no room counted.
    RoomlessMarked,
    /// 4,095 where there is no room.
    RoomlessFull,
    /// The successor of the term at which the limit is spent counted.
    OneBeyondMarked,
    /// All terms counted that the book reaches beyond the limit.
    ChainMarked,
    /// The cells of the book in place of the first term's size.
    MarkOfBook,
    /// The cells that the root reaches, sharing not opened, in place of the first term's size.
    MarkOfReached,
    /// The part that a step makes counted without what is around it.
    MarkOfPart,
    /// The part that steps counted beside the term that its step gives.
    MarkOfBothParts,
    /// What is left of the part that steps not counted.
    MarkWithoutLeft,
    /// What comes right of the part that steps not counted.
    MarkWithoutRight,
    /// Types not counted.
    MarkWithoutTypes,
    /// A term that the step of a fixpoint gives not counted.
    FixpointsUnmarked,
    /// A term that the step of an application gives not counted.
    ApplicationsUnmarked,
    /// A term that the step of an annotation gives not counted.
    ReadingsUnmarked,
    /// A term that steps by a choice not counted, but for the first.
    ChoicesUnmarked,
    /// A run that comes to a value reports 1.
    ValueMarkedOne,
    /// A run that is spent reports 1.
    SpentMarkedOne,
    /// A run without room reports 1.
    RoomMarkedOne,
    /// Each run reports 0.
    MarkNothing,
    /// One more than the greatest size.
    MarkOneMore,
    /// One less where the greatest size is that of the term reached, and not the first's.
    MarkOneLess,
    /// The mark held to 4,094.
    MarkHeldShort,
    /// The low byte of the mark.
    MarkLowByte,
    /// The bytes of the greatest term's book in place of its cells.
    MarkInBytes,
    /// Steps and mark exchanged.
    MarkAsSteps,
    /// A join raises what the part's variables skip.
    SkipsRaised,
    /// A join raises the part's labels.
    LabelsRaised,
    /// A join raises field b of the part's numbers.
    NumbersRaised,
    /// A join raises references by one more than the project's cells.
    RaisedByOneMore,
    /// A join raises the low byte of a reference, and carries nothing.
    RaisedLowByte,
    /// References of cells that the part's root does not reach not raised.
    UnreachedNotRaised,
    /// Field c not raised.
    ThirdNotRaised,
    /// References to types not raised.
    TypesNotRaised,
    /// Cells that the part's root does not reach dropped.
    UnreachedDropped,
    /// The part's root for the left half of the joint's merge.
    HalvesSwapped,
    /// The last cells of both books merged instead of their roots.
    MergeOfLastCells,
    /// The cell before the merge for the joint's root.
    RootBeforeMerge,
    /// The joint given the project's version.
    VersionOfProject,
    /// The joint given the part's version.
    VersionOfPart,
    /// The joint given version 2, its numbers extended.
    VersionAlways2,
    /// Numbers in a joint extended by zeros.
    ExtendedWithZeros,
    /// Numbers in a joint extended only where a root reaches them.
    ReachedExtended,
    /// The project's numbers not extended.
    ProjectNotExtended,
    /// The part's numbers not extended.
    PartNotExtended,
    /// Numbers moved as if extended although both books have one version.
    ExtendedThoughEqual,
    /// The part checked before the project.
    PartFirst,
    /// The project's typing left to the joint's check.
    ProjectUnchecked,
    /// The part's typing left to the joint's check.
    PartUnchecked,
    /// A refusal of the part names the cell that would be the joint's.
    PartCellRaised,
    /// 16 tested before the project is checked.
    FullFirst,
    /// 16 tested before the part is checked.
    FullBeforePart,
    /// 16 already at 4,095 cells.
    FullOneEarly,
    /// No 16 at 4,096 cells.
    FullOneLate,
    /// 16 under the part.
    FullUnderPart,
    /// 16 names a cell.
    FullNamesMerge,
    /// 16 leaves the work buffer as it was.
    FullLeavesWork,
    /// The joint accepted with the intersection of both types, not checked on its own.
    JointUnchecked,
    /// What the joint is refused by named under the part.
    JointUnderPart,
    /// An acceptance named under the project.
    AcceptanceUnderProject,
    /// The part's type left in the work buffer where the joint is refused.
    PartTypeLeft,
    /// Another lent length taken where the project fits.
    OtherLentLength,
    /// A project longer than the lent bytes taken for all of them.
    ToldCut,
    /// The project taken up to the first trailer, whatever is told.
    ToldIgnored,
    /// The lent length tested before the work buffer.
    LentBeforeWork,
    /// Another lent length answered under the joint.
    LentUnderJoint,
    /// Another lent length leaves the work buffer as it was.
    LentLeavesWork,
    /// Refusal 1 of a join under the project.
    WorkUnderProject,
    /// Refusal 1 of a join zeroes the work buffer.
    WrongWorkZeroed,
    /// Refusal 1 of a join zeroes the lent bytes.
    WrongWorkZeroesLent,
    /// A refused join zeroes the lent bytes.
    RefusalZeroesLent,
    /// A refused join zeroes the lent bytes past the project.
    RefusalZeroesRest,
    /// The joint left written over the project although it is refused.
    RefusedJointLeft,
    /// A refused join gives the project's bytes.
    CountOfProject,
    /// A refused join gives the bytes of the joint that is refused.
    CountOfRefused,
    /// The joint's bytes given without its trailer.
    CountWithoutTrailer,
    /// The lent bytes past the joint left as they were.
    RestNotZeroed,
    /// The joint laid down in the work buffer instead of its type.
    JointInWork,
    /// The joint's type laid down in the project's version.
    TypeOfProjectVersion,
    /// A joint of more than 4,095 cells accepted; of what is written of it, only so much as is lent.
    FullAccepted,
    /// 10, naming the merge, in place of 16.
    FullAsLarge,
    /// The joint not checked where the labels of both roots differ.
    RootLabelsEnough,
    /// The joint not checked where no label is in both books.
    OtherLabelsEnough,
    /// What the joint is refused by names cell 0.
    JointCellZero,
    /// An acceptance named under the part.
    AcceptanceUnderPart,
    /// The project's type left in the work buffer where the part or the joint is refused.
    ProjectTypeLeft,
    /// The project checked before the length of the work buffer.
    ProjectBeforeWork,
    /// A refused join leaves the work buffer as it was.
    RefusalLeavesWork,
    /// An accepted join gives 0 bytes.
    CountNothing,
    /// An accepted join gives the project's bytes.
    CountOfProjectKept,
    /// The size of the joint's root in place of its type's.
    SizeOfJoint,
    /// The size of the project's type in place of the joint's.
    SizeOfProjectType,
    /// An accepted join zeroes the work buffer.
    AcceptanceZeroesWork,
    /// An accepted join leaves the work buffer as it was.
    AcceptanceLeavesWork,
    /// The work buffer past the joint's type left as it was.
    PastTypeLeft,
    /// A preview writes the joint that it foresees.
    PreviewWrites,
    /// A preview leaves the joint's bytes behind the project.
    PreviewLeavesCells,
    /// An accepted preview zeroes the lent bytes past the project.
    PreviewZeroesRest,
    /// An accepted preview alters the last lent byte.
    PreviewAltersLast,
    /// Sharing not opened in the count of a sheet.
    SharedCountedOnce,
    /// Annotations not counted.
    AnnotationsUncounted,
    /// Applications not counted.
    ApplicationsUncounted,
    /// Field reads not counted.
    ReadsUncounted,
    /// Sums not counted.
    SumsUncounted,
    /// Records counted.
    RecordsCounted,
    /// Merges counted.
    MergesCounted,
    /// Numbers counted.
    NumbersCounted,
    /// Top values counted.
    TopValuesCounted,
    /// The cells of types counted.
    TypesCounted,
    /// An annotation counted once for each part of its type.
    PartsCounted,
    /// An annotation with a top-like type not counted.
    TopLikeUncounted,
    /// A number annotated with Int not counted.
    OwnTypeUncounted,
    /// An annotation of an annotation not counted.
    AnnotatedAgainUncounted,
    /// A field read of a merge counted twice.
    ReadsOfMergesTwice,
    /// A field read of the top value not counted.
    ReadsOfTopUncounted,
    /// A sum with a merge for a side counted twice.
    SumsOfMergesTwice,
    /// A sum with a sum for a side not counted.
    SumsOfSumsUncounted,
    /// Only what stands in field a counted.
    LeftCounted,
    /// Only the first eight levels counted.
    EightLevelsCounted,
    /// What stands in records not counted.
    ContentsUncounted,
    /// What is annotated with a top-like type, or applied to, not counted.
    HiddenUncounted,
    /// The root's size in place of the count.
    CountOfRoot,
    /// The type's size in place of the count.
    CountOfType,
    /// The book's cells in place of the count.
    CountOfBook,
    /// The book's cells counted, each once, whether the root reaches them or not.
    UnreachedCounted,
    /// Count and type's size exchanged.
    CountAsSize,
    /// One more than the count.
    CountOneMore,
    /// One less than the count.
    CountOneLess,
    /// Each count is 0.
    NothingCounted,
    /// The low byte of the count.
    CountLowByte,
    /// The count held to 1,000.
    CountHeld,
    /// The count of a version 2 book is 0.
    WideUncounted,
    /// A sheet may have variables.
    VariablesAllowed,
    /// A sheet may have functions.
    FunctionsAllowed,
    /// A sheet may have fixpoints.
    FixpointsAllowed,
    /// A sheet may have choices.
    ChoicesAllowed,
    /// A sheet may have no applications.
    ApplicationsForbidden,
    /// A sheet may have no sums.
    SumsForbidden,
    /// A function type taken for a function.
    FunctionTypesForbidden,
    /// 17 also where the root does not reach what no sheet has.
    ForbiddenUnreached,
    /// 17 only where the root itself is what no sheet has.
    ForbiddenAtRoot,
    /// 17 only where it stands in field a.
    ForbiddenOnLeft,
    /// 17 only where it stands in the first eight levels.
    ForbiddenToEightLevels,
    /// No 17 where it is annotated with a top-like type, or applied to.
    ForbiddenUnlessHidden,
    /// 17 where a book takes no step.
    ValuesNoSheet,
    /// 17 where a book has version 2.
    WideNoSheet,
    /// 17 tested after typing.
    NoSheetAfterTyping,
    /// 17 tested before 10.
    NoSheetBeforeSize,
    /// 17 where the root is a type.
    NoSheetOfType,
    /// 17 tested before the cells are.
    NoSheetBeforeCells,
    /// 17 tested before the work buffer's length.
    NoSheetBeforeWork,
    /// 17 names cell 0.
    NoSheetCellZero,
    /// 17 names the lowest cell of those that no sheet has.
    NoSheetNamesFirst,
    /// 17 names the last cell.
    NoSheetNamesLast,
    /// 11 in place of 17.
    NoSheetAsUnbound,
    /// 16 in place of 17.
    NoSheetAsFull,
    /// 17 leaves the work buffer as it was.
    NoSheetLeavesWork,
    /// 17 in place of 11 to 15.
    IllTypedNoSheet,
    /// An ill-typed sheet accepted with type Top.
    IllTypedAccepted,
    /// 11 to 15 of a sheet leave the work buffer as it was.
    IllTypedLeavesWork,
    /// Refusal 1 of a sheet zeroes the work buffer.
    WrongWorkOfSheetZeroed,
    /// The value laid down in place of a sheet's type.
    SheetLeavesValue,
    /// The root laid down in place of a sheet's type.
    SheetLeavesRoot,
    /// An accepted sheet zeroes the work buffer.
    SheetLeavesNothing,
    /// The work buffer past a sheet's type left as it was.
    SheetLeavesRest,
    /// A sheet's type laid down with version 1 in its trailer.
    SheetOfVersion1,
}

impl Fault {
    pub const ALL: [Fault; 327] = [
        Fault::CovariantInputs,
        Fault::ArgumentUncast,
        Fault::RoomOneEarly,
        Fault::RoomOneLate,
        Fault::MergeByLeftHalf,
        Fault::DisjointByLeftHalf,
        Fault::DisjointByInputs,
        Fault::TopLikeFunctionKept,
        Fault::OutputKept,
        Fault::InputTaken,
        Fault::TopLikeUncast,
        Fault::TopAppliedEarly,
        Fault::RightPartFirst,
        Fault::FixpointBare,
        Fault::DescentCounted,
        Fault::SpentBeforeValue,
        Fault::SpentAfterStep,
        Fault::RoomBeforeSpent,
        Fault::RoomOfPart,
        Fault::RoomWithoutLeft,
        Fault::RoomWithoutRight,
        Fault::RoomWithNearestLeft,
        Fault::RoomOneLateBetween,
        Fault::RoomForUnused,
        Fault::WrongLengthZeroed,
        Fault::KindsFirst,
        Fault::ReferencesFirst,
        Fault::RootNumbersSwapped,
        Fault::RootSizeFirst,
        Fault::ArgumentFirst,
        Fault::RightHalfFirst,
        Fault::HalfNamed,
        Fault::WholeNamed,
        Fault::FirstOfTwoFields,
        Fault::TopByTopAlone,
        Fault::TopLikeContentShown,
        Fault::TopLikeContentTaken,
        Fault::TypePartsOneLevel,
        Fault::ValuePartsOneLevel,
        Fault::FirstFieldTaken,
        Fault::SumWraps,
        Fault::SumShortAbove,
        Fault::SumShortBelow,
        Fault::BranchesExchanged,
        Fault::ZeroByLowHalf,
        Fault::ZeroByHighHalf,
        Fault::NegativeAsZero,
        Fault::BranchBare,
        Fault::BranchesRun,
        Fault::RightOfSumFirst,
        Fault::ReadingCounted,
        Fault::SumReadsRightHalf,
        Fault::ChoiceReadsLeftHalf,
        Fault::SumTypeOfLeft,
        Fault::ChoiceTypeOfBranch,
        Fault::ExactlyInt,
        Fault::SumCheckedLate,
        Fault::TestCheckedLate,
        Fault::BranchCheckedLate,
        Fault::LastByWhole,
        Fault::LastBySecond,
        Fault::LastUnchecked,
        Fault::OlderKinds,
        Fault::ClosedByTwoParts,
        Fault::EqualByTwoParts,
        Fault::SubstitutedInTwoParts,
        Fault::RoomWithoutBranches,
        Fault::BodiesByCell,
        Fault::BodiesByBytes,
        Fault::BodiesByLowByte,
        Fault::SharedPartEnough,
        Fault::SharingCompared,
        Fault::OneForSeveral,
        Fault::SeveralForOne,
        Fault::EightLevels,
        Fault::LabelsIgnored,
        Fault::TypesIgnored,
        Fault::VariablesAlike,
        Fault::VariablesByLowByte,
        Fault::LowHalfIgnored,
        Fault::HighHalfIgnored,
        Fault::FirstIgnored,
        Fault::SecondOfTwoIgnored,
        Fault::FunctionsByTwoParts,
        Fault::PairsAlike,
        Fault::RecordsAsReads,
        Fault::AnnotationsAsFixpoints,
        Fault::FunctionTypesAsIntersections,
        Fault::IntAsTop,
        Fault::InputsIgnored,
        Fault::InputsByFirstCell,
        Fault::InputSharingCompared,
        Fault::OutputsCompared,
        Fault::OlderVersions,
        Fault::ThirdVersion,
        Fault::VersionZero,
        Fault::TypeOfVersion1,
        Fault::TermOfVersion1,
        Fault::NarrowFieldUntested,
        Fault::WideFieldRefused,
        Fault::WideLabelUntested,
        Fault::FirstFieldUntested,
        Fault::ZeroExtended,
        Fault::NarrowFromAllBytes,
        Fault::WideUnsigned,
        Fault::WideFromLastBytes,
        Fault::WideFromFirstBytes,
        Fault::NarrowingLeftOut,
        Fault::NarrowingInVersion2,
        Fault::NarrowingKeepsHighFields,
        Fault::SumOf48Bits,
        Fault::WideSumOf32Bits,
        Fault::WideSumOfLowBits,
        Fault::WideSumWraps,
        Fault::WideSumShortAbove,
        Fault::WideSumShortBelow,
        Fault::LostToVersion1,
        Fault::LostToVersion2,
        Fault::ConsistentWithoutA,
        Fault::ConsistentWithoutB,
        Fault::ConsistentWithoutC,
        Fault::BodiesWithoutA,
        Fault::BodiesWithoutB,
        Fault::BodiesWithoutC,
        Fault::ZeroWithoutA,
        Fault::ZeroWithoutB,
        Fault::ZeroWithoutC,
        Fault::AdjacentParts,
        Fault::MergeKnownOnLeft,
        Fault::MergeKnownOnRight,
        Fault::ContentsAsTrees,
        Fault::LeftOutputBelow,
        Fault::OneTypeEnough,
        Fault::LargerFirstRefused,
        Fault::TopKnownOnLeft,
        Fault::DisjointOnLeft,
        Fault::DisjointOnRight,
        Fault::BelowByLeftHalf,
        Fault::BelowByRightHalf,
        Fault::ReadFromLeftHalf,
        Fault::ReadFromRightHalf,
        Fault::MergedInValueOrder,
        Fault::FirstPartRead,
        Fault::MergesToEightLevels,
        Fault::OverlapByLeftHalf,
        Fault::ConsistentToEightLevels,
        Fault::EqualHalvesOnce,
        Fault::RoomWithLeftHalf,
        Fault::SmallerHalfFirst,
        Fault::RightHalfCounted,
        Fault::MarkOfLast,
        Fault::MarkOfEnds,
        Fault::MarkOfFirst,
        Fault::WideMarkOfFirst,
        Fault::FirstUnmarked,
        Fault::LastUnmarked,
        Fault::ValueUnmarked,
        Fault::LastTwoMarked,
        Fault::EveryOtherMarked,
        Fault::HundredMarked,
        Fault::MarkBegunAgain,
        Fault::LeastMarked,
        Fault::RoomlessMarked,
        Fault::RoomlessFull,
        Fault::OneBeyondMarked,
        Fault::ChainMarked,
        Fault::MarkOfBook,
        Fault::MarkOfReached,
        Fault::MarkOfPart,
        Fault::MarkOfBothParts,
        Fault::MarkWithoutLeft,
        Fault::MarkWithoutRight,
        Fault::MarkWithoutTypes,
        Fault::FixpointsUnmarked,
        Fault::ApplicationsUnmarked,
        Fault::ReadingsUnmarked,
        Fault::ChoicesUnmarked,
        Fault::ValueMarkedOne,
        Fault::SpentMarkedOne,
        Fault::RoomMarkedOne,
        Fault::MarkNothing,
        Fault::MarkOneMore,
        Fault::MarkOneLess,
        Fault::MarkHeldShort,
        Fault::MarkLowByte,
        Fault::MarkInBytes,
        Fault::MarkAsSteps,
        Fault::SkipsRaised,
        Fault::LabelsRaised,
        Fault::NumbersRaised,
        Fault::RaisedByOneMore,
        Fault::RaisedLowByte,
        Fault::UnreachedNotRaised,
        Fault::ThirdNotRaised,
        Fault::TypesNotRaised,
        Fault::UnreachedDropped,
        Fault::HalvesSwapped,
        Fault::MergeOfLastCells,
        Fault::RootBeforeMerge,
        Fault::VersionOfProject,
        Fault::VersionOfPart,
        Fault::VersionAlways2,
        Fault::ExtendedWithZeros,
        Fault::ReachedExtended,
        Fault::ProjectNotExtended,
        Fault::PartNotExtended,
        Fault::ExtendedThoughEqual,
        Fault::PartFirst,
        Fault::ProjectUnchecked,
        Fault::PartUnchecked,
        Fault::PartCellRaised,
        Fault::FullFirst,
        Fault::FullBeforePart,
        Fault::FullOneEarly,
        Fault::FullOneLate,
        Fault::FullUnderPart,
        Fault::FullNamesMerge,
        Fault::FullLeavesWork,
        Fault::JointUnchecked,
        Fault::JointUnderPart,
        Fault::AcceptanceUnderProject,
        Fault::PartTypeLeft,
        Fault::OtherLentLength,
        Fault::ToldCut,
        Fault::ToldIgnored,
        Fault::LentBeforeWork,
        Fault::LentUnderJoint,
        Fault::LentLeavesWork,
        Fault::WorkUnderProject,
        Fault::WrongWorkZeroed,
        Fault::WrongWorkZeroesLent,
        Fault::RefusalZeroesLent,
        Fault::RefusalZeroesRest,
        Fault::RefusedJointLeft,
        Fault::CountOfProject,
        Fault::CountOfRefused,
        Fault::CountWithoutTrailer,
        Fault::RestNotZeroed,
        Fault::JointInWork,
        Fault::TypeOfProjectVersion,
        Fault::FullAccepted,
        Fault::FullAsLarge,
        Fault::RootLabelsEnough,
        Fault::OtherLabelsEnough,
        Fault::JointCellZero,
        Fault::AcceptanceUnderPart,
        Fault::ProjectTypeLeft,
        Fault::ProjectBeforeWork,
        Fault::RefusalLeavesWork,
        Fault::CountNothing,
        Fault::CountOfProjectKept,
        Fault::SizeOfJoint,
        Fault::SizeOfProjectType,
        Fault::AcceptanceZeroesWork,
        Fault::AcceptanceLeavesWork,
        Fault::PastTypeLeft,
        Fault::PreviewWrites,
        Fault::PreviewLeavesCells,
        Fault::PreviewZeroesRest,
        Fault::PreviewAltersLast,
        Fault::SharedCountedOnce,
        Fault::AnnotationsUncounted,
        Fault::ApplicationsUncounted,
        Fault::ReadsUncounted,
        Fault::SumsUncounted,
        Fault::RecordsCounted,
        Fault::MergesCounted,
        Fault::NumbersCounted,
        Fault::TopValuesCounted,
        Fault::TypesCounted,
        Fault::PartsCounted,
        Fault::TopLikeUncounted,
        Fault::OwnTypeUncounted,
        Fault::AnnotatedAgainUncounted,
        Fault::ReadsOfMergesTwice,
        Fault::ReadsOfTopUncounted,
        Fault::SumsOfMergesTwice,
        Fault::SumsOfSumsUncounted,
        Fault::LeftCounted,
        Fault::EightLevelsCounted,
        Fault::ContentsUncounted,
        Fault::HiddenUncounted,
        Fault::CountOfRoot,
        Fault::CountOfType,
        Fault::CountOfBook,
        Fault::UnreachedCounted,
        Fault::CountAsSize,
        Fault::CountOneMore,
        Fault::CountOneLess,
        Fault::NothingCounted,
        Fault::CountLowByte,
        Fault::CountHeld,
        Fault::WideUncounted,
        Fault::VariablesAllowed,
        Fault::FunctionsAllowed,
        Fault::FixpointsAllowed,
        Fault::ChoicesAllowed,
        Fault::ApplicationsForbidden,
        Fault::SumsForbidden,
        Fault::FunctionTypesForbidden,
        Fault::ForbiddenUnreached,
        Fault::ForbiddenAtRoot,
        Fault::ForbiddenOnLeft,
        Fault::ForbiddenToEightLevels,
        Fault::ForbiddenUnlessHidden,
        Fault::ValuesNoSheet,
        Fault::WideNoSheet,
        Fault::NoSheetAfterTyping,
        Fault::NoSheetBeforeSize,
        Fault::NoSheetOfType,
        Fault::NoSheetBeforeCells,
        Fault::NoSheetBeforeWork,
        Fault::NoSheetCellZero,
        Fault::NoSheetNamesFirst,
        Fault::NoSheetNamesLast,
        Fault::NoSheetAsUnbound,
        Fault::NoSheetAsFull,
        Fault::NoSheetLeavesWork,
        Fault::IllTypedNoSheet,
        Fault::IllTypedAccepted,
        Fault::IllTypedLeavesWork,
        Fault::WrongWorkOfSheetZeroed,
        Fault::SheetLeavesValue,
        Fault::SheetLeavesRoot,
        Fault::SheetLeavesNothing,
        Fault::SheetLeavesRest,
        Fault::SheetOfVersion1,
    ];

    /// From the first of these to the last.
    fn is_between(self, [first, last]: [Fault; 2]) -> bool {
        (first as usize..=last as usize).contains(&(self as usize))
    }

    /// A fault of marks: all else that a run says and leaves is right.
    pub fn is_of_marks(self) -> bool {
        self.is_between([Fault::MarkOfLast, Fault::MarkAsSteps])
    }

    /// A fault of joins, or of previews if it is planted in them: a check and a run are as ever.
    pub fn is_of_joins(self) -> bool {
        self.is_between([Fault::SkipsRaised, Fault::PastTypeLeft])
    }

    /// A fault that no join can have: it alters what only a preview leaves as it was.
    pub fn is_of_previews(self) -> bool {
        self.is_between([Fault::PreviewWrites, Fault::PreviewAltersLast])
    }

    /// A fault of the sheet call alone.
    pub fn is_of_sheets(self) -> bool {
        self.is_between([Fault::SharedCountedOnce, Fault::SheetOfVersion1])
    }

    /// Planted in previews, the fault can be seen: that of a join that is wrong in the bytes alone that it writes cannot.
    pub fn shows_in_previews(self) -> bool {
        let written = matches!(self, Fault::ReachedExtended | Fault::RestNotZeroed);
        self.is_of_previews() || self.is_of_joins() && !written
    }
}

#[cfg(feature = "faults")]
mod planted {
    use super::Fault;
    use crate::versions::Version;
    use std::cell::Cell;

    thread_local! {
        static PLANTED: Cell<Option<Fault>> = const { Cell::new(None) };
        static ASKED: Cell<Version> = const { Cell::new(Version::One) };
    }

    pub fn get() -> Option<Fault> {
        PLANTED.get()
    }

    /// Does `work` with this fault planted, or none, and restores what was planted before, also if `work` panics.
    pub fn with_fault<R>(fault: Option<Fault>, work: impl FnOnce() -> R) -> R {
        struct Restore(Option<Fault>);
        impl Drop for Restore {
            fn drop(&mut self) {
                PLANTED.set(self.0);
            }
        }
        let _restore = Restore(PLANTED.replace(fault));
        work()
    }

    /// The book that a call is asked about has this version: typing, which is the same in both, can then have a fault in one.
    pub fn asked(version: Version) {
        ASKED.set(version);
    }

    pub fn planted_in(version: Version, fault: Fault) -> bool {
        get() == Some(fault) && ASKED.get() == version
    }
}

#[cfg(not(feature = "faults"))]
mod planted {
    use super::Fault;
    use crate::versions::Version;

    pub fn get() -> Option<Fault> {
        None
    }

    /// Does `work`; no fault can be planted.
    pub fn with_fault<R>(_: Option<Fault>, work: impl FnOnce() -> R) -> R {
        work()
    }

    pub fn asked(_: Version) {}

    pub fn planted_in(_: Version, _: Fault) -> bool {
        false
    }
}

pub(crate) use planted::get as current;
pub use planted::with_fault;
pub(crate) use planted::{asked, planted_in};

pub(crate) fn planted(fault: Fault) -> bool {
    current() == Some(fault)
}
