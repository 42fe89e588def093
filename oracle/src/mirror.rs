//! The Rust behind the port's entries: `compare --self` puts it in the port's place, so that the boundary, the cases and the
//! counting can be tried without the port. With a slip set it answers wrongly in one known way, which `compare` must find.
use crate::model;
use crate::port::{Entries, BAD_ARGUMENT, FLOATS, INTS, OPS, PACKETS, READS, SHORT_REPORT};
use lines::{
    Answer, Case, Date, Each, FieldKind, Fields, Geometry, Item, Lent, Packet, Picture, Refusal, Scheme, Sweep, EACH,
};
use std::slice::{from_raw_parts, from_raw_parts_mut};
use std::sync::atomic::{AtomicUsize, Ordering};

mod charges;
mod clear;
mod exports;
mod merges;
mod plans;
mod products;
mod strict;

macro_rules! slips {
    ($($name:ident,)*) => {
        /// Wrong readings, each of which a run must tell from the right one.
        #[derive(Debug, Clone, Copy, PartialEq, Eq)]
        pub enum Slip {
            $($name,)*
        }
        use Slip::*;
        pub const SLIPS: &[Slip] = &[$($name,)*];
    };
}

slips! {
    ZeroRunEndsRow,
    SurplusRunsRefused,
    ListCapBeforePointer,
    CentreNotWrapped,
    RemainderMadePositive,
    FirstRowRepeated,
    NothingWritten,
    BlankPicture,
    AllRefused,
    ShortBufferBeforeWalk,
    PrefixSumMadeUp,
    BytesLeftMadeUp,
    NextRadialNamed,
    RefusalWrites,
    OnePlaceMore,
    PositionAfterFailedRead,
    ProductRoundedApart,
    LaterToken,
    ClockBeforeTime,
    LevelCountOff,
    CeilingForgotten,
    LastRowOfMany,
    FirstValueRepeated,
    OneValueMore,
    MovesOnAfterRefusal,
    ReadShortAtEnd,
    GapMarkedWhole,
    GapValuedAsCode0,
    EndsAtFirstGap,
    GapKeepsFirstCells,
    GapBeforeLaterRefusal,
    MarksBeforePhysical,
    OneMarkMore,
    CenturyLeapDay,
    FirstOfMonthInMonthBefore,
    Day0Accepted,
    CutLevelsPassed,
    LevelFieldNamed,
    BlockStartWraps,
    RepeatedBeforeMalformed,
    FirstFaultOfRecords,
    OutsideBeforeRepeated,
    PlanBeforeLent,
    TotalsLentBeforePlan,
    MismatchBeforeBody,
    MismatchAfterStep,
    MismatchAfterLent,
    FittingSchemePasses,
    PlanLittleEndian,
    CutRecordEndsPlan,
    UnknownTagsSkipped,
    LongerRecordsPass,
    StripBeforeFieldPasses,
    NoGatesPass,
    StripsCountedByField,
    OneStripFewer,
    EmptyPlanRefused,
    ContentNamed,
    RecordNumberNamed,
    FirstNamingNamed,
    NextFieldsAloneCompared,
    GateSumWraps,
    LastGateOutside,
    RadialsFrom1,
    GatesFrom1,
    CeilingExcluded,
    CeilingIgnored,
    LowCeilingIgnored,
    FloorNotTakenOff,
    BelowFloorCounted,
    CellCountedOnce,
    LastGateLeftOut,
    StripsOfFirstField,
    FieldsWithoutStripsSkipped,
    TotalsByNumber,
    TotalsIn32Bits,
    WeightSigned,
    OneTotalMore,
    RefusalWritesTotals,
    PlanWritesNoPicture,
    TotalsOfFewerCodes,
    TotalsOfCellsIn64Bits,
    TotalsOfMoreCodesRefused,
    TotalsCodesBeforeScale,
    TotalsCodesAfterPlan,
    TotalsAloneOneMore,
    TotalsAloneInFields,
    TotalsAloneWithStep,
    TotalsAloneRefusalWrites,
    LowCeilingHasALevel,
    LastCodeMissed,
    LevelCountIn16Bits,
    EachBandRounded,
    RoundedToNearest,
    RemainderDropped,
    ChargeIn32Bits,
    WholeTotalByItsBand,
    EndInNextBand,
    EqualEndsPass,
    FirstEndsAloneCompared,
    FirstEnd0Refused,
    LastEndAbove2To40,
    LowLastEndPasses,
    NoBandsPass,
    NineBandsPass,
    ShorterListTaken,
    RatesUnbounded,
    RatesIn16Bits,
    TotalAt2To40Refused,
    TooLargeBeforeMalformed,
    ClearScanRefused,
    LongClearScanRefused,
    NoBinsPass,
    ClearFirstBinPasses,
    ClearAf1fFirstBinRefused,
    ClearMismatchPasses,
    ClearStepPasses,
    ClearNeedsRoom,
    ClearRangeScaleLost,
    ClearCellWritten,
    ClearMarkWritten,
    ClearStripsPass,
    ClearPlanRefused,
    ExportCodeLate,
    ExportCode16Passes,
    ExportFirstBinPasses,
    ExportFirstBinBeforeGrid,
    ExportLongRowPasses,
    ExportClearLongRowPasses,
    ExportLongRowBeforeFirstBin,
    ExportLongRowAfterRadials,
    ExportClearRefused,
    ExportRoomBeforeRadials,
    ExportStartReduced,
    ExportLastCellTwice,
    ExportOddRowBare,
    ExportEvenRowLonger,
    ExportCountOfBins,
    ExportHeaderKept,
    ExportLengthLess18,
    ExportNoLayer,
    ExportBytes22Lost,
    ExportRangeScaleLost,
    ExportOneByteMore,
    ExportRefusalWrites,
    LatitudeTwice,
    HalfwordsUnsigned,
    WholeOfTheFloat,
    HeightInMetres,
    NoWholesInBlock,
    NoWholesWithGaps,
    NextPlaceTaken,
    SecondBodyFirst,
    SecondRefusalPasses,
    ShortBeforeDifferent,
    ShortBeforeDisagreement,
    DisagreementBeforeDifferent,
    FloatsAsNumbers,
    ZerosAlike,
    RangeScaleIgnored,
    FirstGateIgnored,
    FirstCentreAlone,
    PacketIgnored,
    HighestDisagreement,
    GapDisagrees,
    LastCodeIgnored,
    FirstGapStays,
    SecondGapTaken,
    GapValuesStay,
    MarkStays,
    BothGapsUnmarked,
    StrictCountPasses,
    StrictEvenMorePasses,
    StrictOddMoreRefused,
    StrictOddMoreIsZero,
    StrictZeroRunCounts,
    StrictRunsAfterRowPass,
    StrictLastRadialNamed,
    StrictEndFirst,
    StrictTailPasses,
    StrictTailBytePasses,
    StrictClearTailPasses,
    StrictPayloadTailPasses,
    StrictAfter10,
    StrictAfterRoom,
    StrictBeforeLaterRadial,
    StrictRefusalWrites,
    RateInHundredths,
    GateOfCodeBefore,
    LaterCodesKnown,
    NamesExchanged,
    NameWithoutZeros,
    NameInFewerPlaces,
    ShortNameRefusalWrites,
}

/// 1 + the slip's place in `SLIPS`, or 0.
static SLIP: AtomicUsize = AtomicUsize::new(0);

pub fn set_slip(slip: Option<Slip>) {
    let number = slip.map_or(0, |s| 1 + SLIPS.iter().position(|x| *x == s).unwrap());
    SLIP.store(number, Ordering::SeqCst);
}

fn slips(slip: Slip) -> bool {
    let number = SLIP.load(Ordering::SeqCst);
    number > 0 && SLIPS[number - 1] == slip
}

pub fn entries() -> Entries {
    Entries {
        sweep,
        strict,
        gaps,
        merge,
        totals,
        plan_totals,
        symbology,
        export16,
        token,
        message_header,
        scan_time,
        date,
        field,
        pdb,
        linear,
        float,
        precip,
        threshold,
        legacy16,
        physical,
        trailing,
        known,
        product: products::product,
        refusal_name: products::refusal_name,
        version: products::version,
        codes,
        xdr,
        items,
        charge,
        read,
    }
}

/// Where an answer's numbers go.
struct Report<'a> {
    ints: &'a mut [i64],
    floats: &'a mut [f64],
}

impl Report<'_> {
    fn refuse(&mut self, r: &Refusal) -> u32 {
        let (ints, floats) = Refusal::shape(r.number);
        for (to, from) in self.ints.iter_mut().zip(&r.ints[..ints]) {
            *to = *from as i64;
        }
        if floats == 1 {
            self.floats[0] = r.float as f64;
        }
        match r.number {
            22 if slips(PrefixSumMadeUp) => self.ints[1] += 1,
            22 | 34 if slips(NextRadialNamed) => self.ints[0] += 1,
            23 if slips(BytesLeftMadeUp) => self.ints[1] += 4,
            _ => {}
        }
        r.number
    }

    /// An item that was read at a position of the payload. Of a list nothing is given.
    fn item(&mut self, item: &Item, payload: &[u8], at: usize) {
        match item {
            Item::Int(v) => self.ints[0] = (*v).into(),
            Item::Uint(v) => self.ints[0] = (*v).into(),
            Item::Float(v) => self.floats[0] = (*v).into(),
            Item::Text(_) => {
                let rest = &payload[at..];
                let body = &rest[4..4 + u32::from_be_bytes(rest[..4].try_into().unwrap()) as usize];
                let len = body.iter().rposition(|b| *b != 0).map_or(0, |i| i + 1);
                self.ints[..2].copy_from_slice(&[at as i64 + 4, len as i64]);
            }
            Item::Array(v) => self.ints[..2].copy_from_slice(&[at as i64 + 4, v.len() as i64]),
            Item::List(_) => {}
        }
    }

    fn fields(&mut self, f: &Fields, raw: [i64; 4]) {
        self.ints[..6].copy_from_slice(&[0, f.product_code.into(), f.vcp.into(), f.days.into(), f.seconds.into(), 0]);
        self.floats[..4].copy_from_slice(&[f.latitude, f.longitude, f.height, f.elevation]);
        self.ints[16..INTS].fill(0);
        let [latitude, longitude, feet, tenths] = raw;
        self.ints[16..20].copy_from_slice(&raw);
        if slips(LatitudeTwice) {
            self.ints[17] = latitude;
        }
        if slips(HalfwordsUnsigned) {
            self.ints[18..20].copy_from_slice(&[feet & 0xffff, tenths & 0xffff]);
        }
        if slips(WholeOfTheFloat) {
            self.ints[16..18].copy_from_slice(&[f.latitude, f.longitude].map(|x| (x * 1000.0) as i64));
        }
        if slips(HeightInMetres) {
            self.ints[18] = f.height.round() as i64;
        }
        if slips(NextPlaceTaken) {
            self.ints[16..21].copy_from_slice(&[0, latitude, longitude, feet, tenths]);
        }
    }

    fn picture(&mut self, p: &Picture) {
        self.ints[6..10].copy_from_slice(&[PACKETS[p.packet as usize], p.radials as i64, p.bins as i64, 0]);
        self.floats[4..6].copy_from_slice(&[0.0, 0.0]);
        match p.geometry {
            Geometry::RangeScale(r) => self.ints[9] = r.into(),
            Geometry::Gates { width, first } => self.floats[4..6].copy_from_slice(&[width.into(), first.into()]),
        }
    }
}

unsafe fn report<'a>(ints: *mut i64, ints_len: usize, floats: *mut f64, floats_len: usize) -> Option<Report<'a>> {
    if ints_len < INTS || floats_len < FLOATS {
        return None;
    }
    Some(Report { ints: from_raw_parts_mut(ints, ints_len), floats: from_raw_parts_mut(floats, floats_len) })
}

unsafe fn bytes(pointer: *const u8, len: usize) -> Vec<u8> {
    from_raw_parts(pointer, len).to_vec()
}

/// The Rust's answer with what document 02 alters, and 3 where the Rust would overflow.
fn answer(case: &Case) -> Answer {
    let given = match case {
        Case::Sweep { body, .. } | Case::Sym { body } if model::has_no_radials(body) => clear::read(case),
        Case::Sweep { .. } | Case::Sym { .. } if slips(CentreNotWrapped) => radish::answer(case),
        _ => crate::wanted::answer(case),
    };
    match given {
        Answer::Panic => Answer::Refused(Refusal::new(3, &[first_field(case)])),
        answer => answer,
    }
}

fn first_field(case: &Case) -> i128 {
    match case {
        Case::Field { index, .. } => *index as i128,
        Case::Pdb { .. } => 2,
        _ => 22,
    }
}

/// A call that gives its answer in the report alone.
unsafe fn reported(
    case: Case,
    (ints, ints_len): (*mut i64, usize),
    (floats, floats_len): (*mut f64, usize),
    accepted: impl FnOnce(&mut Report, Answer),
) -> u32 {
    let Some(mut report) = report(ints, ints_len, floats, floats_len) else { return SHORT_REPORT };
    match answer(&case) {
        Answer::Refused(r) => report.refuse(&r),
        given => {
            accepted(&mut report, given);
            0
        }
    }
}

/// File, clock, scheme and its parameter, body, and a plan or a second body: what a sweep is read from.
type Input = (Vec<u8>, u64, (u32, f32), Vec<u8>, Option<Vec<u8>>);

/// Where a picture goes, its marks with gaps, and the totals of a plan; and whether it is read by the archive profile.
struct Places<'a> {
    strict: bool,
    azimuths: &'a mut [f64],
    codes: &'a mut [u16],
    physical: &'a mut [f32],
    marks: Option<&'a mut [u8]>,
    totals: Option<&'a mut [u64]>,
}

/// An entry that reads a sweep, with or without a plan or a second body and one more buffer.
macro_rules! sweep_entry {
    ($name:ident($($plan:ident, $plan_len:ident)?; $($lent:ident: $type:ty, $lent_len:ident)?)) => {
        unsafe extern "C" fn $name(
            file: *const u8,
            file_len: usize,
            clock: u64,
            scheme: u32,
            parameter: f32,
            body: *const u8,
            body_len: usize,
            $($plan: *const u8, $plan_len: usize,)?
            azimuths: *mut f64,
            azimuths_len: usize,
            codes: *mut u16,
            codes_len: usize,
            physical: *mut f32,
            physical_len: usize,
            $($lent: *mut $type, $lent_len: usize,)?
            ints: *mut i64,
            ints_len: usize,
            floats: *mut f64,
            floats_len: usize,
        ) -> u32 {
            #[allow(unused_mut)]
            let mut places = Places {
                strict: stringify!($name) == "strict",
                azimuths: from_raw_parts_mut(azimuths, azimuths_len),
                codes: from_raw_parts_mut(codes, codes_len),
                physical: from_raw_parts_mut(physical, physical_len),
                marks: None,
                totals: None,
            };
            $(places.$lent = Some(from_raw_parts_mut($lent, $lent_len));)?
            let plan = [$(bytes($plan, $plan_len))?].into_iter().next();
            let input = (bytes(file, file_len), clock, (scheme, parameter), bytes(body, body_len), plan);
            reading(input, places, report(ints, ints_len, floats, floats_len))
        }
    };
}

sweep_entry!(sweep(;));
sweep_entry!(strict(;));
sweep_entry!(gaps(; marks: u8, marks_len));
sweep_entry!(merge(second, second_len; marks: u8, marks_len));
sweep_entry!(totals(plan, plan_len; totals: u64, totals_len));

fn reading((file, clock, (scheme, parameter), body, plan): Input, mut places: Places, report: Option<Report>) -> u32 {
    let Some(mut report) = report else { return SHORT_REPORT };
    let Some(scheme) = Scheme::of(scheme as usize, parameter) else { return BAD_ARGUMENT };
    let lent = Lent { azimuths: places.azimuths.len(), codes: places.codes.len(), physical: places.physical.len() };
    let header = model::header_place(&file).unwrap_or(0);
    let found = (model::token_place(&file), model::raw_fields(&file, header + 18).unwrap_or_default());
    let case = Case::Sweep { clock: clock.into(), scheme, lent, file, body };
    let given = match (plan, &places.marks, &places.totals) {
        (Some(plan), _, Some(totals)) => plans::read(&case.with_plan(totals.len(), plan)),
        (Some(second), Some(marks), _) => merges::read(&case.with_marks(marks.len()).with_second(second)),
        (_, Some(marks), _) => {
            let case = case.with_marks(marks.len());
            slipped(&case, answer(&case))
        }
        _ if places.strict => strict::read(&case),
        _ => slipped(&case, answer(&case)),
    };
    match given {
        Answer::Refused(r) => {
            if let (true, 45, Some(first)) = (slips(StrictRefusalWrites), r.number, places.codes.first_mut()) {
                *first = 1;
            }
            if let (true, Some([first, ..])) = (slips(RefusalWritesTotals), &mut places.totals) {
                *first = 0;
            }
            if slips(RefusalWrites) && matches!(r.number, 22 | 34) && !places.codes.is_empty() {
                places.codes[0] = 1;
            }
            report.refuse(&r)
        }
        Answer::Sweep(s) => {
            accept(&s, found, &mut places, &mut report);
            0
        }
        Answer::Gaps(s, marks) => {
            accept(&s, found, &mut places, &mut report);
            if slips(NoWholesWithGaps) {
                report.ints[16..20].fill(0);
            }
            let lent = places.marks.unwrap();
            lent[..marks.len()].copy_from_slice(&marks);
            let one_more = slips(OneMarkMore) || slips(ClearMarkWritten) && marks.is_empty();
            if one_more && lent.len() > marks.len() {
                lent[marks.len()] = 0;
            }
            0
        }
        Answer::Totals(s, totals) => {
            accept(&s, found, &mut places, &mut report);
            report.ints[14] = totals.len() as i64;
            let lent = places.totals.unwrap();
            lent[..totals.len()].copy_from_slice(&totals);
            if slips(OneTotalMore) && lent.len() > totals.len() {
                lent[totals.len()] = 0;
            }
            0
        }
        _ => unreachable!(),
    }
}

/// With the place of the token and the whole numbers of the description record.
fn accept(s: &Sweep, (place, raw): (Option<usize>, [i64; 4]), places: &mut Places, report: &mut Report) {
    report.fields(&s.fields, raw);
    report.picture(&s.picture);
    report.ints[0] = place.map_or(-1, |p| p as i64);
    report.ints[5] = s.time;
    report.ints[10] = s.scale.is_some() as i64;
    if let Some(scale) = s.scale {
        report.ints[11..13].copy_from_slice(&[scale.levels.into(), scale.floor.into()]);
        report.floats[6..8].copy_from_slice(&[scale.minimum.into(), scale.step.into()]);
    }
    if places.totals.is_some() && slips(PlanWritesNoPicture) {
        return;
    }
    write(&s.picture, places.azimuths, places.codes);
    if !slips(NothingWritten) {
        places.physical[..s.physical.len()].copy_from_slice(&s.physical);
    }
}

fn write(picture: &Picture, azimuths: &mut [f64], codes: &mut [u16]) {
    if slips(NothingWritten) {
        return;
    }
    azimuths[..picture.radials].copy_from_slice(&picture.azimuths);
    codes[..picture.codes.len()].copy_from_slice(&picture.codes);
    if let (true, 0, Some(first)) = (slips(ClearCellWritten), picture.radials, codes.first_mut()) {
        *first = 0;
    }
    if slips(OnePlaceMore) && codes.len() > picture.codes.len() {
        codes[picture.codes.len()] = 0;
    }
}

unsafe extern "C" fn symbology(
    body: *const u8,
    body_len: usize,
    azimuths: *mut f64,
    azimuths_len: usize,
    codes: *mut u16,
    codes_len: usize,
    ints: *mut i64,
    ints_len: usize,
    floats: *mut f64,
    floats_len: usize,
) -> u32 {
    let Some(mut report) = report(ints, ints_len, floats, floats_len) else { return SHORT_REPORT };
    let case = Case::Sym { body: bytes(body, body_len) };
    match slipped(&case, answer(&case)) {
        Answer::Refused(r) => report.refuse(&r),
        Answer::Picture(p) if azimuths_len < p.radials => report.refuse(&Refusal::new(36, &[0])),
        Answer::Picture(p) if codes_len < p.codes.len() => report.refuse(&Refusal::new(36, &[1])),
        Answer::Picture(p) => {
            report.picture(&p);
            write(&p, from_raw_parts_mut(azimuths, azimuths_len), from_raw_parts_mut(codes, codes_len));
            0
        }
        _ => unreachable!(),
    }
}

unsafe extern "C" fn plan_totals(
    file: *const u8,
    file_len: usize,
    block: usize,
    codes: *const u16,
    codes_len: usize,
    radials: usize,
    bins: usize,
    plan: *const u8,
    plan_len: usize,
    totals: *mut u64,
    totals_len: usize,
    ints: *mut i64,
    ints_len: usize,
    floats: *mut f64,
    floats_len: usize,
) -> u32 {
    let Some(mut report) = report(ints, ints_len, floats, floats_len) else { return SHORT_REPORT };
    let (file, totals) = (bytes(file, file_len), from_raw_parts_mut(totals, totals_len));
    let (codes, plan) = (from_raw_parts(codes, codes_len), from_raw_parts(plan, plan_len));
    // the factor makes values alone, of which there are none
    let scale = answer(&Case::Prc { file: file.clone(), block, factor: 1.0 });
    let short = plans::codes_for(codes, radials, bins).err().filter(|_| slips(TotalsCodesBeforeScale));
    let made = match (short, &scale) {
        (Some(r), _) => Err(r),
        (None, Answer::Refused(r)) => Err(*r),
        _ => plans::alone(codes, (radials, bins), model::valid_codes(&file, block), plan, totals_len),
    };
    match made {
        Err(r) => {
            if let (true, Some(first)) = (slips(TotalsAloneRefusalWrites), totals.first_mut()) {
                *first = 0;
            }
            report.refuse(&r)
        }
        Ok(made) => {
            report.ints[..INTS].fill(0);
            report.floats[..FLOATS].fill(0.0);
            if slips(TotalsAloneInFields) {
                report.ints[14] = made.len() as i64;
            }
            if let (true, Answer::Precip { step, .. }) = (slips(TotalsAloneWithStep), scale) {
                report.floats[7] = step.into();
            }
            totals[..made.len()].copy_from_slice(&made);
            if let (true, Some(next)) = (slips(TotalsAloneOneMore), totals.get_mut(made.len())) {
                *next = 0;
            }
            report.ints[0] = made.len() as i64;
            0
        }
    }
}

unsafe extern "C" fn export16(
    body: *const u8,
    body_len: usize,
    output: *mut u8,
    output_len: usize,
    ints: *mut i64,
    ints_len: usize,
    floats: *mut f64,
    floats_len: usize,
) -> u32 {
    let Some(mut report) = report(ints, ints_len, floats, floats_len) else { return SHORT_REPORT };
    let output = from_raw_parts_mut(output, output_len);
    match exports::read(from_raw_parts(body, body_len), output_len) {
        Err(r) => {
            if let (true, 22, Some(first)) = (slips(ExportRefusalWrites), r.number, output.first_mut()) {
                *first = 0xff;
            }
            report.refuse(&r)
        }
        Ok(written) => {
            output[..written.len()].copy_from_slice(&written);
            if let (true, Some(next)) = (slips(ExportOneByteMore), output.get_mut(written.len())) {
                *next = 0;
            }
            report.ints[0] = written.len() as i64;
            0
        }
    }
}

unsafe extern "C" fn token(
    f: *const u8,
    n: usize,
    ints: *mut i64,
    ints_len: usize,
    floats: *mut f64,
    floats_len: usize,
) -> u32 {
    let file = bytes(f, n);
    let place = model::token_place(&file);
    let later = |p: usize| (p + 1..file.len() - 5).find(|q| file[*q..q + 6] == file[p..p + 6]);
    let place = if slips(LaterToken) { place.map(|p| later(p).unwrap_or(p)) } else { place };
    reported(Case::Token { file: file.clone() }, (ints, ints_len), (floats, floats_len), |r, _| {
        r.ints[0] = place.map_or(-1, |p| p as i64)
    })
}

fn number(report: &mut Report, answer: Answer) {
    if let Answer::Number(n) = answer {
        report.ints[0] = n as i64;
    }
}

unsafe extern "C" fn message_header(
    f: *const u8,
    n: usize,
    ints: *mut i64,
    ints_len: usize,
    floats: *mut f64,
    floats_len: usize,
) -> u32 {
    reported(Case::Mhb { file: bytes(f, n) }, (ints, ints_len), (floats, floats_len), number)
}

unsafe extern "C" fn scan_time(
    days: u16,
    seconds: i32,
    clock: u64,
    ints: *mut i64,
    ints_len: usize,
    floats: *mut f64,
    floats_len: usize,
) -> u32 {
    let case = Case::Time { clock: clock.into(), days, seconds };
    if slips(ClockBeforeTime) && clock > 1 << 40 {
        return report(ints, ints_len, floats, floats_len).map_or(SHORT_REPORT, |mut r| r.refuse(&Refusal::new(6, &[])));
    }
    reported(case, (ints, ints_len), (floats, floats_len), number)
}

unsafe extern "C" fn date(days: u16, ints: *mut i64, ints_len: usize, floats: *mut f64, floats_len: usize) -> u32 {
    // 2100 has no 29 February: its 1 March is day 47,542
    let leap = slips(CenturyLeapDay) && days >= 47_542;
    let counted = if slips(Day0Accepted) && days == 0 { 1 } else { days - leap as u16 };
    reported(Case::Date { days: counted }, (ints, ints_len), (floats, floats_len), |r, given| {
        let Answer::Date(Date { mut year, mut month, mut day }) = given else { unreachable!() };
        day += (leap && days == 47_542) as u8;
        if slips(FirstOfMonthInMonthBefore) && day == 1 {
            (year, month) = if month == 1 { (year - 1, 12) } else { (year, month - 1) };
            day = model::month_length(year, month) as u8 + 1;
        }
        r.ints[..3].copy_from_slice(&[year.into(), month.into(), day.into()]);
    })
}

unsafe extern "C" fn field(
    f: *const u8,
    n: usize,
    block: usize,
    index: usize,
    kind: u32,
    ints: *mut i64,
    ints_len: usize,
    floats: *mut f64,
    floats_len: usize,
) -> u32 {
    let kind = [FieldKind::I16, FieldKind::U16, FieldKind::I32, FieldKind::Pair][kind as usize];
    let case = Case::Field { file: bytes(f, n), block, index, kind };
    reported(case, (ints, ints_len), (floats, floats_len), |r, given| match given {
        Answer::Pair(a, b) => r.floats[..2].copy_from_slice(&[a.into(), b.into()]),
        given => number(r, given),
    })
}

unsafe extern "C" fn pdb(
    f: *const u8,
    n: usize,
    block: usize,
    ints: *mut i64,
    ints_len: usize,
    floats: *mut f64,
    floats_len: usize,
) -> u32 {
    let file = bytes(f, n);
    let raw = model::raw_fields(&file, block).unwrap_or_default();
    reported(Case::Pdb { file, block }, (ints, ints_len), (floats, floats_len), |r, given| {
        if let Answer::Fields(fields) = given {
            r.fields(&fields, if slips(NoWholesInBlock) { [0; 4] } else { raw });
        }
    })
}

fn scaling(report: &mut Report, answer: Answer) {
    if let Answer::Scaling { minimum, step, levels } = answer {
        report.floats[6..8].copy_from_slice(&[minimum.into(), step.into()]);
        report.ints[11] = levels.into();
    }
}

unsafe extern "C" fn linear(
    f: *const u8,
    n: usize,
    block: usize,
    ints: *mut i64,
    ints_len: usize,
    floats: *mut f64,
    floats_len: usize,
) -> u32 {
    reported(Case::Lin { file: bytes(f, n), block }, (ints, ints_len), (floats, floats_len), scaling)
}

unsafe extern "C" fn float(
    f: *const u8,
    n: usize,
    block: usize,
    ints: *mut i64,
    ints_len: usize,
    floats: *mut f64,
    floats_len: usize,
) -> u32 {
    reported(Case::Flt { file: bytes(f, n), block }, (ints, ints_len), (floats, floats_len), scaling)
}

unsafe extern "C" fn precip(
    f: *const u8,
    n: usize,
    block: usize,
    factor: f32,
    ints: *mut i64,
    ints_len: usize,
    floats: *mut f64,
    floats_len: usize,
) -> u32 {
    let case = Case::Prc { file: bytes(f, n), block, factor };
    reported(case, (ints, ints_len), (floats, floats_len), |r, given| {
        if let Answer::Precip { minimum, step, floor, ceiling } = given {
            r.floats[6..8].copy_from_slice(&[minimum.into(), step.into()]);
            r.ints[12..14].copy_from_slice(&[floor.into(), ceiling.map_or(-1, i64::from)]);
        }
    })
}

unsafe extern "C" fn threshold(
    f: *const u8,
    n: usize,
    block: usize,
    data: *mut u8,
    data_len: usize,
    ints: *mut i64,
    ints_len: usize,
    floats: *mut f64,
    floats_len: usize,
) -> u32 {
    let data = from_raw_parts_mut(data, data_len);
    reported(Case::Thr { file: bytes(f, n), block }, (ints, ints_len), (floats, floats_len), |_, given| {
        if let Answer::Thresholds(bytes) = given {
            data[..32].copy_from_slice(&bytes);
        }
    })
}

unsafe extern "C" fn legacy16(t: *const u8, n: usize, post_scale: f32, levels: *mut f32, levels_len: usize) -> u32 {
    let (Ok(thresholds), 16) = (bytes(t, n).try_into(), levels_len) else { return BAD_ARGUMENT };
    if let Answer::Levels(given) = answer(&Case::Leg { thresholds, post_scale }) {
        from_raw_parts_mut(levels, 16).copy_from_slice(&given);
    }
    0
}

/// The refusals are the Rust's. It has no function for the values alone: these are the model's.
unsafe extern "C" fn physical(
    f: *const u8,
    n: usize,
    block: usize,
    scheme: u32,
    parameter: f32,
    codes: *const u16,
    codes_len: usize,
    physical: *mut f32,
    physical_len: usize,
    ints: *mut i64,
    ints_len: usize,
    floats: *mut f64,
    floats_len: usize,
) -> u32 {
    let Some(mut report) = report(ints, ints_len, floats, floats_len) else { return SHORT_REPORT };
    let Some(scheme) = Scheme::of(scheme as usize, parameter) else { return BAD_ARGUMENT };
    let (mut file, mut block, codes) = (bytes(f, n), block, from_raw_parts(codes, codes_len));
    let physical = from_raw_parts_mut(physical, physical_len);
    if slips(BlockStartWraps) && block.checked_add(42).is_none() {
        let from = block.wrapping_add(42).min(n);
        (file, block) = ([&[0; 42], &file[from..]].concat(), 0);
    }
    let level_there = |level: u16| model::field_place(n, block, 22 + level as usize, 2).is_some();
    if slips(CutLevelsPassed) && matches!(scheme, Scheme::Legacy(_)) && codes.iter().all(|code| level_there(*code)) {
        file.resize(n.max(block.saturating_add(74)), 0);
    }
    if let Some(Answer::Refused(mut r)) = scale_fields(&file, block, scheme).map(|case| answer(&case)) {
        if slips(LevelFieldNamed) && matches!(scheme, Scheme::Legacy(_)) {
            r.ints[0] = 22 + (0..15).take_while(|level| level_there(*level)).count() as i128;
        }
        return report.refuse(&r);
    }
    if physical.len() < codes.len() {
        return report.refuse(&Refusal::new(36, &[2]));
    }
    let value = model::physical_values(&file, block, scheme);
    for (to, code) in physical.iter_mut().zip(codes) {
        *to = value(if slips(FirstValueRepeated) { codes[0] } else { *code });
    }
    if slips(OneValueMore) && physical.len() > codes.len() {
        physical[codes.len()] = 0.0;
    }
    0
}

/// The reading of a scheme's scale fields; class has none.
fn scale_fields(file: &[u8], block: usize, scheme: Scheme) -> Option<Case> {
    let file = file.to_vec();
    match scheme {
        Scheme::Halfword => Some(Case::Lin { file, block }),
        Scheme::Float => Some(Case::Flt { file, block }),
        Scheme::Precip(factor) => Some(Case::Prc { file, block, factor }),
        Scheme::Legacy(_) => Some(Case::Thr { file, block }),
        Scheme::Class => None,
    }
}

unsafe extern "C" fn trailing(
    b: *const u8,
    n: usize,
    ints: *mut i64,
    ints_len: usize,
    floats: *mut f64,
    floats_len: usize,
) -> u32 {
    reported(Case::Trail { bytes: bytes(b, n) }, (ints, ints_len), (floats, floats_len), |_, _| ())
}

unsafe extern "C" fn known(code: i16) -> u32 {
    matches!(answer(&Case::Known { code }), Answer::Number(1)) as u32
}

unsafe extern "C" fn codes(codes: *mut u16, codes_len: usize) -> u32 {
    let Answer::Codes(given) = answer(&Case::Codes) else { unreachable!() };
    if codes_len < given.len() {
        return BAD_ARGUMENT;
    }
    from_raw_parts_mut(codes, given.len()).copy_from_slice(&given);
    0
}

unsafe extern "C" fn xdr(
    op: u32,
    payload: *const u8,
    n: usize,
    at: usize,
    ints: *mut i64,
    ints_len: usize,
    floats: *mut f64,
    floats_len: usize,
) -> u32 {
    let Some(mut report) = report(ints, ints_len, floats, floats_len) else { return SHORT_REPORT };
    let payload = from_raw_parts(payload, n);
    let op = OPS[op as usize..].chars().next().unwrap();
    // the Rust reads what is left from the position on
    let rest = payload.get(at..).unwrap_or(&[]);
    let Answer::Xdr { items, refusal, position } = answer(&Case::Xdr { ops: op.into(), payload: rest.to_vec() }) else {
        unreachable!()
    };
    report.ints[15] = (at + position) as i64;
    if let Some(r) = refusal {
        if slips(PositionAfterFailedRead) {
            report.ints[15] = at as i64;
        }
        if slips(ListCapBeforePointer) && op == 'l' && r.number == 23 && rest.len() >= 4 {
            let count = i32::from_be_bytes(rest[..4].try_into().unwrap());
            if count > 10_000 {
                return report.refuse(&Refusal::new(26, &[count.into(), 10_000]));
            }
        }
        return report.refuse(&r);
    }
    report.item(&items[0], payload, at);
    0
}

/// The item with a number, where it was read, and the bytes left at the end. With `MovesOnAfterRefusal` four bytes are passed over
/// after the first refusal.
fn each(payload: &[u8], number: usize) -> (Option<Each>, usize, usize) {
    let Answer::Each { mut reads, mut left } = answer(&Case::Each { payload: payload.to_vec() }) else { unreachable!() };
    let first = reads.iter().position(|r| r.item.is_err());
    if let (Some(k), true) = (first, slips(MovesOnAfterRefusal)) {
        let from = reads[k].position;
        if number > k && from + 4 <= payload.len() {
            let shorter = [&payload[..from], &payload[from + 4..]].concat();
            let Answer::Each { reads: again, left: less } = answer(&Case::Each { payload: shorter }) else { unreachable!() };
            (reads, left) = (again, less);
            reads.iter_mut().for_each(|r| r.position += 4);
        }
    }
    let at = if number == 0 { 0 } else { reads[number - 1].position };
    (reads.into_iter().nth(number), at, left)
}

unsafe extern "C" fn items(
    number: u32,
    payload: *const u8,
    n: usize,
    ints: *mut i64,
    ints_len: usize,
    floats: *mut f64,
    floats_len: usize,
) -> u32 {
    let Some(mut report) = report(ints, ints_len, floats, floats_len) else { return SHORT_REPORT };
    if number as usize > EACH.len() {
        return BAD_ARGUMENT;
    }
    let payload = from_raw_parts(payload, n);
    report.ints[..INTS].fill(0);
    let (read, at, left) = each(payload, number as usize);
    let Some(Each { item, position }) = read else {
        report.ints[0] = left as i64;
        return 0;
    };
    report.ints[15] = position as i64;
    match item {
        Ok(item) => {
            report.item(&item, payload, at);
            if EACH.as_bytes()[number as usize] == b'h' {
                let Item::List(count) = item else { unreachable!() };
                report.ints[0] = count as i64;
            }
            0
        }
        Err(r) => report.refuse(&r),
    }
}

unsafe extern "C" fn charge(
    total: u64,
    ends: *const u64,
    ends_len: usize,
    rates: *const u32,
    rates_len: usize,
    ints: *mut i64,
    ints_len: usize,
    floats: *mut f64,
    floats_len: usize,
) -> u32 {
    let Some(mut report) = report(ints, ints_len, floats, floats_len) else { return SHORT_REPORT };
    match charges::read(total, from_raw_parts(ends, ends_len), from_raw_parts(rates, rates_len)) {
        Answer::Refused(r) => report.refuse(&r),
        Answer::Charge { charge, remainder } => {
            report.ints[..2].copy_from_slice(&[charge as i64, remainder as i64]);
            0
        }
        _ => unreachable!(),
    }
}

unsafe extern "C" fn read(
    kind: u32,
    b: *const u8,
    n: usize,
    offset: usize,
    ints: *mut i64,
    ints_len: usize,
    floats: *mut f64,
    floats_len: usize,
) -> u32 {
    let Some(report) = report(ints, ints_len, floats, floats_len) else { return SHORT_REPORT };
    let Some(kind) = READS.get(kind as usize) else { return BAD_ARGUMENT };
    let mut bytes = bytes(b, n);
    if slips(ReadShortAtEnd) {
        bytes.pop();
    }
    report.ints[..2].fill(0);
    // where the Rust would overflow nothing is there
    if let Answer::Number(n) = radish::answer(&Case::Read { bytes, offset, kind: *kind }) {
        report.ints[..2].copy_from_slice(&[1, n as i64]);
    }
    0
}

/// The answer with the slip that is set, if it is one of the sweep or of symbology.
fn slipped(case: &Case, answer: Answer) -> Answer {
    if SLIP.load(Ordering::SeqCst) == 0 {
        return answer;
    }
    let (body, lent, scaled) = match case {
        Case::Gaps { .. } => return slipped_gaps(case, answer),
        Case::Sweep { body, lent, scheme, file, .. } => (body, Some(*lent), Some((*scheme, file))),
        Case::Sym { body } => (body, None, None),
        _ => return answer,
    };
    if let Some(refusal) = slipped_refusal(body, lent, &answer) {
        return Answer::Refused(refusal);
    }
    match answer {
        Answer::Picture(mut p) => {
            slip_picture(&mut p);
            Answer::Picture(p)
        }
        Answer::Sweep(mut s) => {
            slip_picture(&mut s.picture);
            let (scheme, file) = scaled.unwrap();
            slip_values(&mut s, scheme);
            slip_count(&mut s, scheme, file);
            Answer::Sweep(s)
        }
        refused => refused,
    }
}

fn slipped_gaps(case: &Case, answer: Answer) -> Answer {
    let Case::Gaps { scheme, marks, file, body, .. } = case else { return answer };
    let (mut s, mut marks) = match answer {
        Answer::Gaps(s, marks) => (s, marks),
        Answer::Refused(r) if slips(MarksBeforePhysical) && r.number == 36 && *marks < model::layout(body).data.len() => {
            return Answer::Refused(Refusal::new(36, &[3]));
        }
        Answer::Refused(r) if slips(GapBeforeLaterRefusal) && matches!(r.number, 19..=21 | 31 | 32 | 35) => {
            return match crate::wanted::answer(&case.clone().ordinary()) {
                Answer::Refused(first) if matches!(first.number, 22 | 34) => Answer::Refused(first),
                _ => Answer::Refused(r),
            };
        }
        other => return other,
    };
    let value = model::physical_values(file, model::header_place(file).unwrap() + 18, *scheme);
    let (layout, bins) = (model::layout(body), s.picture.bins);
    if let (true, Some(first)) = (slips(EndsAtFirstGap), marks.iter().position(|m| *m == 1)) {
        marks[first..].fill(1);
        (first..marks.len()).for_each(|radial| model::make_gap(&mut s, radial));
    }
    for radial in (0..marks.len()).filter(|r| marks[*r] == 1) {
        let cells = radial * bins..(radial + 1) * bins;
        if slips(GapValuedAsCode0) {
            s.physical[cells.clone()].fill(value(0));
        }
        if slips(GapKeepsFirstCells) {
            let data = &body[layout.data[radial].clone()];
            for (to, code) in s.picture.codes[cells].iter_mut().zip(first_cells(layout.packet, data)) {
                *to = code;
            }
        }
    }
    if slips(GapMarkedWhole) {
        marks.fill(0);
    }
    Answer::Gaps(s, marks)
}

/// What data that make no row begin with.
fn first_cells(packet: Packet, data: &[u8]) -> Vec<u16> {
    match packet {
        Packet::P28 => data.chunks(4).map_while(|w| u16::try_from(i32::from_be_bytes(w.try_into().unwrap())).ok()).collect(),
        _ => data.iter().flat_map(|b| std::iter::repeat_n((b & 15) as u16, (b >> 4) as usize)).collect(),
    }
}

fn slipped_refusal(body: &[u8], lent: Option<Lent>, answer: &Answer) -> Option<Refusal> {
    let accepted = !matches!(answer, Answer::Refused(_));
    if slips(AllRefused) && accepted {
        return Some(Refusal::new(12, &[body.len() as i128]));
    }
    if slips(ShortBufferBeforeWalk) && body.len() >= 30 && body[16] != 0 && body[..4] == [255, 255, 0, 1] {
        let radials = u16::from_be_bytes([body[28], body[29]]) as usize;
        if lent.is_some_and(|l| l.azimuths < radials) && matches!(answer, Answer::Refused(r) if r.number == 22) {
            return Some(Refusal::new(36, &[0]));
        }
    }
    if accepted && (slips(ZeroRunEndsRow) || slips(SurplusRunsRefused)) {
        let layout = model::layout(body);
        if layout.packet == Packet::Af1f {
            for (radial, data) in layout.data.iter().enumerate() {
                let mut sum = 0;
                for b in &body[data.clone()] {
                    let stop = if slips(ZeroRunEndsRow) { b >> 4 == 0 && sum < layout.bins } else { sum == layout.bins };
                    if stop {
                        return Some(Refusal::new(22, &[radial as i128, sum as i128, layout.bins as i128]));
                    }
                    sum += (b >> 4) as usize;
                }
            }
        }
    }
    None
}

fn slip_picture(p: &mut Picture) {
    if slips(RemainderMadePositive) && p.packet == Packet::P28 {
        p.azimuths.iter_mut().filter(|a| **a < 0.0).for_each(|a| *a += 360.0);
    }
    if slips(FirstRowRepeated) {
        for cell in p.bins..p.codes.len() {
            p.codes[cell] = p.codes[cell - p.bins];
        }
    }
    if slips(BlankPicture) {
        p.codes.fill(0);
    }
    if slips(LastRowOfMany) && p.radials > 20 {
        p.codes[(p.radials - 1) * p.bins] ^= 1;
    }
}

/// The level count of the precipitation family.
fn slip_count(s: &mut Sweep, scheme: Scheme, file: &[u8]) {
    let (Scheme::Precip(_), Some(scale)) = (scheme, &mut s.scale) else { return };
    let (_, ceiling) = model::valid_codes(file, model::header_place(file).unwrap() + 18);
    scale.levels = match scale.levels {
        levels if slips(LevelCountOff) => levels + 1,
        levels if slips(LowCeilingHasALevel) => levels.max(1),
        levels if slips(LastCodeMissed) => levels - ceiling.is_none() as u32,
        levels if slips(LevelCountIn16Bits) => levels.min(65_535),
        levels => levels,
    };
}

fn slip_values(s: &mut Sweep, scheme: Scheme) {
    if let (Some(scale), true) = (s.scale, slips(ProductRoundedApart)) {
        for (x, code) in s.physical.iter_mut().zip(&s.picture.codes) {
            if !x.is_nan() {
                *x = (scale.minimum - scale.floor as f32 * scale.step) + *code as f32 * scale.step;
            }
        }
    }
    if slips(CeilingForgotten) && matches!(scheme, Scheme::Precip(_)) {
        let scale = s.scale.unwrap();
        for (x, code) in s.physical.iter_mut().zip(&s.picture.codes) {
            if *code >= scale.floor as u16 {
                *x = scale.minimum + (*code as f32 - scale.floor as f32) * scale.step;
            }
        }
    }
}
