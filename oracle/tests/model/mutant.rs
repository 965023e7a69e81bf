//! The deliberate errors: each is a mistake that a competent person could make.

macro_rules! mutants {
    ($mutant:ident { $($name:ident: $says:literal,)* }) => {
        #[derive(Clone, Copy, Debug, PartialEq, Eq)]
        pub enum $mutant {
            $($name,)*
        }

        impl $mutant {
            pub const ALL: [$mutant; [$($mutant::$name,)*].len()] = [$($mutant::$name,)*];

            /// Which error that looks right this is.
            pub fn says(self) -> &'static str {
                match self {
                    $($mutant::$name => $says,)*
                }
            }
        }
    };
}

mutants! { Mutant {
    // Refusals, forced blank, the entry row.
    AnyOtherReadingIsH: "A reading number above 1 is taken as H.",
    Line159Refused: "Line 159 is refused with 3.",
    FiveBeforeFour: "Refusal 5 is tested before refusal 4.",
    EvyRefusedUnderH: "BLDY above 16 is refused under H too.",
    BldyJudgedWhole: "Refusal 5 judges all of BLDY, not its low five bits.",
    ForcedBlankStoppedByMode: "Modes 6 and 7 are refused under forced blank too.",
    ForcedBlankResetsEntries: "Forced blank resets the entries.",
    ReferencesJudgedOnlyWhereUsed: "Refusal 6 is judged only in the modes that use a reference number.",
    LowestReferenceRefused: "The reference number -2^28 is refused.",
    MarkOfEmptyEntryRefused: "An entry of priority 4 with the window mark is refused.",
    HighMarksAccepted: "An entry's marks above 3 are accepted.",
    EntryColourNotJudged: "The colour of an entry of priority 0 to 3 isn't judged.",
    DrawResetsEntries: "A draw resets the entries before its sprites run.",
    SpritesRunWhenOff: "Sprites are run over the entries though sprites are off.",

    // The line-end step.
    StepExchangesPbAndPd: "The step adds pd to x and pb to y.",
    StepJudgesOnlyAfter: "The step judges only the stepped numbers.",
    StepJudgesOnlyBefore: "The step judges only the numbers that it was given.",
    StepStopsHalfway: "A refused step leaves the earlier numbers stepped.",

    // Backgrounds.
    SwitchIgnoredInBitmapModes: "Background 2 is composed in modes 3 to 5 though it isn't enabled.",
    BackgroundTieToHigherNumber: "Of backgrounds of equal priority the higher number is in front.",
    Mode1HasBackground3: "Mode 1 composes background 3 as an affine one.",
    BlocksOf512Transposed: "The four map blocks of a 512x512 background are ordered down first.",
    BlockBelowIsAlways2: "The lower map block of a 256x512 background is taken as block 2.",
    BackgroundFlipsExchanged: "The two flips of a map entry are exchanged.",
    BankUsedFor8bppBackground: "A 256-colour background's bank is added.",
    EvenPixelInHighHalf: "The even pixel of a 16-colour tile is taken from the high half.",
    IndexZeroOfBankOpaque: "Index 0 of a bank other than 0 is opaque.",
    AffineMapAlways32Wide: "An affine map is always 32 tiles wide.",
    AffinePointTowardZero: "An affine background's point is rounded toward zero.",
    BackgroundMatrixPbForPc: "A background's column moves y by pb.",
    ReferenceOf3From2: "Background 3 takes the reference numbers of background 2.",
    WrapByAbsoluteRemainder: "A negative point wraps by its remainder's absolute value.",
    WrapIgnoredInBitmapModes: "The wrap bit is ignored in modes 3 to 5.",
    AffineEdgeInclusive: "A point on the far edge counts as inside.",
    FrameHonouredInMode3: "The frame bit moves the start in mode 3 too.",
    FrameIgnoredInMode4: "The frame bit is ignored in mode 4.",
    FrameIgnoredInMode5: "The frame bit is ignored in mode 5.",
    Bit15MaskedFirstInMode3: "Bit 15 of a mode 3 word is masked before the transparency test.",
    Bit15MaskedFirstInMode5: "Bit 15 of a mode 5 word is masked before the transparency test.",
    Bit15MeansTransparent: "Any word of modes 3 and 5 with bit 15 set is transparent.",

    // Sprites.
    TieToLaterSprite: "A tie of equal priority goes to the later sprite.",
    Y160Positive: "Y of 160 is taken as positive.",
    XNeverNegative: "X of 240 or more is taken as positive.",
    Shape3Square: "Shape 3 is sized as a square by its size.",
    WideAndTallExchanged: "The sizes of wide and tall sprites are exchanged.",
    WideAndTallOfSize1Exchanged: "The sizes of wide and tall sprites of size 1 are exchanged.",
    SizeAndShapeExchanged: "Sizes are read by (shape, size).",
    BoxNotDoubled: "The box of a double-size sprite isn't doubled.",
    HiddenSpritesDrawn: "A hidden sprite is drawn as a normal one.",
    ProhibitedModeDrawn: "A sprite of mode 3 is drawn as an ordinary one.",
    LowTilesShownInBitmapModes: "Sprite tiles start at 0x10000 in modes 3 to 5 too, so tiles below 512 are shown.",
    TilesCountedFrom14000: "A sprite's tile number counts from 0x14000 in modes 3 to 5.",
    WindowSpriteTestsPriority: "A window sprite is passed over by priority.",
    WindowSpriteWritesColour: "A window sprite writes its colour and priority too.",
    SemiTransparentMarkKept: "The semi-transparent mark stays when an ordinary sprite replaces the pixel.",
    SpriteClearsWindowMark: "A sprite that puts its pixel clears the entry's window mark.",
    TransparentPixelTakesPriority: "A transparent pixel lends its better priority to the entry's pixel.",
    BankUsedFor8bppSprite: "A 256-colour sprite's bank is added.",
    SpritesUseBackgroundPalette: "Sprites use the first half of the palette.",
    LowestTileBitKeptUnderH: "Under H the lowest bit of a 256-colour sprite's tile number counts.",
    LowestTileBitIgnoredUnderR: "The lowest bit of a 256-colour sprite's tile number is ignored under R too.",
    LowestTileBitIgnoredOneDimensional: "Under H it is ignored in one-dimensional mapping too.",
    LowestTileBitIgnored16Colours: "Under H it is ignored for 16 colours too.",
    TwoDimensionalAlways: "Two-dimensional mapping is used always.",
    OneDimensionalAlways: "One-dimensional mapping is used always.",
    TileRowsOfTheBox: "In one-dimensional mapping the tile rows are as wide as the doubled box.",
    TwoDimensional32WideFor8bpp: "Two-dimensional mapping is 32 tiles wide for 256-colour sprites too.",
    SpriteFlipsExchanged: "The two flips of a sprite are exchanged.",
    AffineSpritesFlip: "The flips are applied to affine sprites too.",
    SpriteMatrixPbPcExchanged: "A sprite matrix's pb and pc are exchanged.",
    SpriteOffsetTowardZero: "An affine sprite's offset is rounded toward zero.",
    HalfTheBoxAdded: "Half the box's size is added to an affine offset, not half the sprite's own.",

    // Windows.
    ObjectWindowAloneIsNoWindow: "With the object window alone on, no window counts as on.",
    MarksIgnoredWithSpritesOff: "Window marks aren't honoured when sprites are off.",
    ObjectWindowSwitchIgnored: "Window marks are honoured though the object window is off.",
    ObjectWindowTakesOutside: "The object window takes the low half of WINOUT.",
    ObjectWindowBeforeWindow1: "The object window goes before window 1.",
    Window1OwnColumnsUnderR: "Under R window 1 has its own columns.",
    Window0ColumnsUnderH: "Under H window 1 has window 0's columns.",
    Window1NeedsWindow0UnderR: "Under R window 1 has no columns when window 0 is off.",
    EqualEdgesWholeLine: "Equal left and right edges are taken as the whole line.",
    LeftAboveRightWraps: "A left edge above the right one wraps around instead of running to 240.",
    RightAbove240Nothing: "A right edge above 240 makes nothing.",
    RightInclusive: "The right edge is inclusive.",
    BottomAbove160Nothing: "A bottom edge above 160 makes nothing.",
    BottomBelowTopNothing: "A bottom edge below the top makes nothing.",
    BottomInclusive: "The bottom edge is inclusive.",

    // Composing.
    ForbiddenBackgroundAsBottom: "A background that the region forbids may still be the bottom.",
    ObjectsShownWithSpritesOff: "Objects of the entries are shown though sprites are off.",
    ObjectBehindEqualPriority: "An object goes behind a background of equal priority.",
    ObjectNeverSecond: "An object that isn't on top is never the bottom.",
    BackdropBit15Transparent: "A backdrop with bit 15 set is transparent and shows black.",
    BackdropNeverFirstTarget: "The backdrop is never a first target.",
    BackdropNotUnderItself: "A backdrop on top has no bottom, so it doesn't blend with itself.",
    SemiTransparentBelowBlends: "A semi-transparent object blends the column though another layer is on top.",
    SemiTransparentStoppedByWindow: "The window's effect switch stops a semi-transparent blend.",
    SemiTransparentNeedsFirstTarget: "A semi-transparent blend needs objects as a first target.",
    SemiTransparentTakesNoOtherEffect: "A semi-transparent object over no second target takes no other effect.",
    EffectIgnoresWindow: "The control's effect applies where the window turns effects off.",
    BlendWithoutSecondTarget: "The control's blend doesn't need a second target.",
    FadeNeedsSecondTarget: "White and black need the bottom as a second target.",
    WhiteAndBlackExchanged: "White and black are exchanged.",
    AlphaCappedUnderR: "EVA and EVB are capped at 16 under R.",
    AlphaNotCappedUnderH: "EVA and EVB aren't capped under H.",
    EvyNotCappedUnderH: "EVY isn't capped under H.",
    WeightsExchanged: "EVA and EVB are exchanged.",
    BlendRoundedUp: "A blended channel is rounded up.",
    BlendNotCapped: "A blended channel above 31 wraps to five bits.",
    RedAndBlueExchanged: "Red and blue are exchanged in the output.",
}}

mutants! { BusMutant {
    // Refusals.
    PageByLowFourBits: "The page is the low four of the address's top eight bits.",
    PageBeforeLength: "Refusal 9 is tested before refusal 2.",
    OddBeforeLength: "Refusal 11 is tested before refusal 2.",
    OddBeforePage: "A halfword store at an odd address of any other page is refused with 11.",
    OnlyUsedMemoryJudged: "Of the memories, only the page's own is judged.",
    RegistersJudgedOnlyWhereUsed: "The registers are judged only where a byte goes to page 6.",
    OddPaletteRefused: "A halfword store at an odd address of page 5 is refused with 11.",
    OddOamRefused: "A halfword store at an odd address of page 7 is refused with 11.",
    OddVideoMadeEven: "A halfword store at an odd address of page 6 clears bit 0.",
    OddByteRefused: "A byte store at an odd address of page 6 is refused with 11.",

    // Places.
    RepeatsEvery2048: "Palette and OAM repeat every 2,048 bytes, and have nothing in the upper half.",
    VideoRepeatsEvery18000: "Video memory repeats every 0x18000 bytes.",
    UpperVideoStays: "Video offsets from 0x18000 on stay.",
    ReadOfEvenByte: "A read gives the first byte of its halfword.",
    OddKept: "On pages 5 and 7 bit 0 of a halfword store's address isn't cleared.",

    // What a store writes.
    OneHalfFilled: "A byte store changes its own byte alone.",
    HalvesExchanged: "The high half of a halfword comes first.",
    OamTakesBytes: "A byte stored to OAM is written.",
    SpriteTilesTakeBytes: "A byte stored to sprite tiles is written.",
    OamTakesNoHalfwords: "A halfword stored to OAM changes nothing.",
    SpriteTilesTakeNoHalfwords: "A halfword stored to sprite tiles changes nothing.",
    TilesTestedBeforeFolding: "The offset is tested against the start of sprite tiles before it loses 0x8000.",
    BitmapIsMode3Alone: "Sprite tiles start at 0x14000 in mode 3 alone.",
    BitmapFromMode4: "Sprite tiles start at 0x10000 in mode 3.",
    Modes6And7AreText: "Sprite tiles start at 0x10000 in modes 6 and 7.",
    TilesStartByNoMode: "Sprite tiles start at 0x10000 in every mode.",
    ModeWithBitsAbove: "The mode is all of the first register's low byte.",
}}
