//! What is interpreted.

use std::fs;
use std::io;
use std::path::{Path, PathBuf};

use peer::generate::Rng;
use peer::model::WIDTHS;
use peer::{sheet, Descriptor};

use crate::case::{Case, SHEET};
use crate::write::{self, Part};

/// The workload of all real parts as they were meant.
const REAL: &str = "real parts, their own widths";

/// What a time is divided by.
#[derive(Clone, Copy, Debug, PartialEq, Eq)]
pub enum Unit {
    /// Bytes of the parts.
    Byte,
    /// Characters presented.
    Character,
    /// Calls, where bytes say nothing.
    Part,
}

/// Parts that are timed together.
pub struct Workload {
    pub name: &'static str,
    pub cases: Vec<Case>,
    pub unit: Unit,
}

impl Workload {
    fn new(name: &'static str, cases: Vec<Case>) -> Self {
        Self { name, cases, unit: Unit::Byte }
    }

    fn per(self, unit: Unit) -> Self {
        Self { unit, ..self }
    }

    /// Bytes of all parts.
    pub fn bytes(&self) -> usize {
        self.cases.iter().map(|case| case.part.len()).sum()
    }

    /// How many units all parts have.
    pub fn units(&self) -> usize {
        match self.unit {
            Unit::Byte => self.bytes(),
            Unit::Character => write::RPS_COUNT * self.cases.len(),
            Unit::Part => self.cases.len(),
        }
    }
}

/// All workloads.
pub fn all(root: &Path) -> io::Result<Vec<Workload>> {
    let sheet_real = real(root, false)?;
    let own_real = real(root, true)?;
    let accepted: Vec<Case> =
        own_real.iter().filter(|case| case.expected().0.is_done()).cloned().collect();
    let mut all = vec![
        Workload::new("real parts, widths 144", sheet_real),
        Workload::new(REAL, own_real),
        Workload::new("real parts accepted, their own widths", accepted),
    ];
    all.extend(text());
    all.extend(sequences());
    all.extend(refused());
    Ok(all)
}

/// Leaves parts in files: each real one, the first of every other workload, and those of four sizes.
pub fn write(workloads: &[Workload], folder: &Path) -> io::Result<()> {
    fs::create_dir_all(folder)?;
    let mut at = 0;
    let mut leave = |name: String, case: &Case| {
        at += 1;
        fs::write(folder.join(format!("{at:02} {name}.case")), case.bytes())
    };
    for workload in workloads {
        match workload.name {
            REAL => {
                for (case, number) in workload.cases.iter().zip(1..) {
                    leave(format!("real part {number}"), case)?;
                }
            }
            name if name.starts_with("real parts") => {}
            name => leave(name.to_string(), &workload.cases[0])?,
        }
    }
    for (name, row) in growing() {
        for (workload, size) in row.iter().zip(SIZES) {
            leave(format!("size {size}: {name}"), &workload.cases[0])?;
        }
    }
    Ok(())
}

/// The real parts of one job each; a second part starts where the first ends.
fn real(root: &Path, own_widths: bool) -> io::Result<Vec<Case>> {
    let mut paths: Vec<PathBuf> = fs::read_dir(root.join("tests/real"))?
        .filter_map(|file| Some(file.ok()?.path()))
        .filter(|path| path.extension().is_some_and(|end| end == "part"))
        .collect();
    paths.sort();
    let mut cases: Vec<Case> = Vec::new();
    for path in paths {
        let name = path.file_name().map(|name| name.to_string_lossy().into_owned());
        let name = name.unwrap_or_default();
        let page = name.split_once("o0").map_or("", |(page, _)| page);
        let widths = match own(&path.with_file_name(format!("{page}.widths"))) {
            Some(widths) if own_widths => widths,
            _ => sheet::WIDTHS_144.to_vec(),
        };
        let mut case = Case::with(fs::read(&path)?, widths, SHEET);
        if let (true, Some(before)) = (name.contains("x02"), cases.last()) {
            case.state = before.expected().1;
        }
        cases.push(case);
    }
    Ok(cases)
}

fn own(path: &Path) -> Option<Vec<u16>> {
    let text = fs::read_to_string(path).ok()?;
    let widths: Option<Vec<u16>> = text.split_whitespace().map(|word| word.parse().ok()).collect();
    widths.filter(|widths| widths.len() == WIDTHS)
}

/// Several parts of a kind, so that a branch predictor can't learn one by heart.
fn some(times: u64, make: impl Fn(&mut Rng) -> Part) -> Vec<Case> {
    (0..times).map(|seed| Case::on_sheet(make(&mut Rng::new(seed)).bytes())).collect()
}

/// The same in a font of many widths, as most are.
fn proportional(cases: Vec<Case>) -> Vec<Case> {
    let widths: Vec<u16> = (0..WIDTHS).map(|at| 60 + (at as u16 * 37) % 83).collect();
    cases.into_iter().map(|case| Case::with(case.part, widths.clone(), case.descriptor)).collect()
}

/// Dense text.
fn text() -> Vec<Workload> {
    vec![
        Workload::new(
            "text: 40 lines of 85, free runs, many widths",
            proportional(some(40, |rng| write::lines(rng, 40, 85))),
        ),
        Workload::new(
            "text: 40 TRN of 85, many widths",
            proportional(some(40, |rng| write::trn(rng, 40, 85, None, None))),
        ),
        Workload::new("text: 40 lines of 85, free runs", some(40, |rng| write::lines(rng, 40, 85))),
        Workload::new("text: 40 TRN of 85", some(40, |rng| write::trn(rng, 40, 85, None, None))),
        Workload::new(
            "text: 40 TRN of 85, variable space",
            some(40, |rng| write::trn(rng, 40, 85, Some(100), None)),
        ),
        Workload::new(
            "text: 10 free runs of 390, direction 1",
            some(40, |rng| write::runs(rng, 10, 390, 113)),
        ),
        Workload::new(
            "text: 16 TRN of 240, direction 1",
            some(40, |rng| write::trn(rng, 16, 240, None, Some(94))),
        ),
        Workload::new("words: AMI, AMB, TRN of 2 to 11", some(40, |rng| write::words(rng, 150))),
    ]
}

/// Sequences, and the smallest elements.
fn sequences() -> Vec<Workload> {
    let low = Descriptor { increment: 60, ..SHEET };
    let narrow = vec![3; WIDTHS];
    let one_byte = Case::with(write::one_byte(240).bytes(), sheet::WIDTHS_144.to_vec(), low);
    let rps = |length: usize| vec![Case::with(write::rps(length).bytes(), narrow.clone(), SHEET)];
    vec![
        Workload::new("one-byte runs between BLNs", vec![one_byte]),
        Workload::new(
            "moves: 1,365 AMI, unchained",
            some(4, |rng| write::moves(rng, 1_365, false)),
        ),
        Workload::new("moves: 2,047 AMI, chained", some(4, |rng| write::moves(rng, 2_047, true))),
        Workload::new("8 types mixed, chained", some(20, |rng| write::mixed(rng, 7_800))),
        Workload::new("NOP of 0 to 17 bytes", some(20, |rng| write::nops(rng, 7_900, 18))),
        Workload::new("NOP of 253 bytes", some(1, |rng| write::nops(rng, 7_900, 0))),
        Workload::new("AMI, AMB and a rule, 256 times", some(20, |rng| write::rules(rng, 256))),
        Workload::new("RPS 4,000 of 10", rps(10)).per(Unit::Character),
        Workload::new("RPS 4,000 of 200", rps(200)).per(Unit::Character),
    ]
}

fn refused() -> Vec<Workload> {
    let first = Case::on_sheet([vec![0x2B, 0x00], vec![0xC1; 3_000]].concat());
    let last = some(40, |rng| write::lines(rng, 40, 85).and(&[0x2B, 0xD3, 0x02, 0x72]));
    vec![
        Workload::new("refused at byte 0", vec![first]).per(Unit::Part),
        Workload::new("refused at the last element", last),
        Workload::new("empty part", vec![Case::on_sheet(Vec::new())]).per(Unit::Part),
    ]
}

/// The sizes at which cost per byte is compared.
pub const SIZES: [usize; 4] = [1_024, 2_048, 4_096, 8_192];

/// Parts of the four sizes, for each kind: a row of four workloads.
pub fn growing() -> Vec<(&'static str, Vec<Workload>)> {
    let hiding = Descriptor { hidden: 1, ..SHEET };
    let hidden = |size: usize| {
        let part = write::hidden_text(&mut Rng::new(1), size).bytes();
        Case::with(part, vec![0; WIDTHS], hiding)
    };
    let shown = |size: usize| {
        let part = write::one_run(&mut Rng::new(1), size / 2 - 16).bytes();
        Case::with(part, vec![0; WIDTHS], SHEET)
    };
    let row = |name, make: &dyn Fn(usize) -> Case| {
        let cells = SIZES.iter().map(|&size| Workload::new(name, vec![make(size)])).collect();
        (name, cells)
    };
    vec![
        row("text hidden, one run", &hidden),
        row("text shown, one run of half the size", &shown),
        row("AMI, unchained", &|size| {
            Case::on_sheet(write::moves(&mut Rng::new(1), size / 6, false).bytes())
        }),
        row("8 types mixed, chained", &|size| {
            Case::on_sheet(write::mixed(&mut Rng::new(1), size).bytes())
        }),
        row("NOP of 0 to 17 bytes", &|size| {
            Case::on_sheet(write::nops(&mut Rng::new(1), size - 24, 18).bytes())
        }),
    ]
}
