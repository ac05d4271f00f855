//! The proved listing program and the floating-point one over the same sheets.

use crate::report::{row, titles};
use comparison::cpu;
use comparison::plain::SHEET_LENGTH;
use comparison::sheets::Batch;
use std::env;
use std::fs::{self, File};
use std::path::{Path, PathBuf};
use std::process::{self, Command, ExitCode};

/// Names the proved program by its full path.
const VARIABLE: &str = "KENNELDAY_LISTING";
const SHEETS: usize = 1_000_000;
const ROUNDS: usize = 5;

/// A new folder for the files of this run, removed in the end.
struct Folder(PathBuf);

impl Folder {
    fn new() -> Folder {
        let name = format!("kennelday-benchmark-{}", process::id());
        let path = env::temp_dir().join(name);
        fs::create_dir(&path).expect("a new folder can be made");
        Folder(path)
    }

    fn file(&self, name: &str) -> PathBuf {
        self.0.join(name)
    }
}

impl Drop for Folder {
    fn drop(&mut self) {
        if let Err(error) = fs::remove_dir_all(&self.0) {
            eprintln!("{} is left behind: {error}", self.0.display());
        }
    }
}

/// The proved program: the one that the variable names, or else
/// crates/listing/out/listing beside the workspace.
fn proved_program() -> PathBuf {
    if let Some(chosen) = env::var_os(VARIABLE) {
        return chosen.into();
    }
    let root = Path::new(env!("CARGO_MANIFEST_DIR")).ancestors().nth(2);
    root.expect("two folders up").join("crates/listing/out/listing")
}

/// The floating-point program, which cargo puts beside this one.
fn float_program() -> PathBuf {
    let own = env::current_exe().expect("this program has a path");
    own.with_file_name(format!("float_listing{}", env::consts::EXE_SUFFIX))
}

/// Both programs. If one is missing, a sentence says what builds it.
fn programs() -> Option<[PathBuf; 2]> {
    let programs = [
        (proved_program(), "`rt run` in crates/listing"),
        (float_program(), "`cargo build --release --offline`"),
    ];
    let mut complete = true;
    for (program, builder) in &programs {
        if !program.is_file() {
            eprintln!("{} is missing: {builder} builds it.", program.display());
            complete = false;
        }
    }
    complete.then(|| programs.map(|(program, _)| program))
}

/// The set's whole sheets, over and over, as one file, and how many there are.
fn write_sheets(path: &Path, set: &Batch) -> usize {
    let whole = set.iter().filter(|sheet| sheet.len() == SHEET_LENGTH);
    let count = whole.clone().count();
    let repeated: Vec<u8> = whole.cycle().take(SHEETS).flatten().copied().collect();
    assert_eq!(repeated.len(), SHEETS * SHEET_LENGTH, "too few sheets");
    fs::write(path, repeated).expect("the sheets can be written");
    count
}

/// The CPU time of one run, in user mode and in all. A program that fails or
/// complains is a panic.
fn seconds(program: &Path, input: &Path, output: &Path) -> [f64; 2] {
    let name = program.display();
    let before = cpu::children_seconds();
    let run = Command::new(program)
        .stdin(File::open(input).expect("the sheets are there"))
        .stdout(File::create(output).expect("a new file can be made"))
        .output()
        .unwrap_or_else(|error| panic!("{name} does not start: {error}"));
    let after = cpu::children_seconds();
    let complaint = String::from_utf8_lossy(&run.stderr);
    let sound = run.status.success() && complaint.is_empty();
    assert!(sound, "{name} failed, {}: {complaint}", run.status);
    [after[0] - before[0], after[1] - before[1]]
}

/// How many of the sheets have different lines; both programs print a header,
/// and a line for each of the million.
fn differing(outputs: &[PathBuf; 2], sheets: usize) -> usize {
    let [proved, float] = outputs.each_ref().map(|output| {
        let text = fs::read_to_string(output).expect("the listing is text");
        let count = text.lines().count();
        assert_eq!(count, SHEETS + 1, "lines of {}", output.display());
        text
    });
    let pairs = proved.lines().zip(float.lines()).take(sheets + 1);
    pairs.filter(|(proved, float)| proved != float).count()
}

/// What the two programs took for a set, each at its best, taking turns.
struct Comparison {
    proved: [f64; 2],
    float: [f64; 2],
    sheets: usize,
    differing: usize,
}

fn compare([proved, float]: &[PathBuf; 2], set: &Batch) -> Comparison {
    let folder = Folder::new();
    let input = folder.file("sheets");
    let sheets = write_sheets(&input, set);
    let outputs = [folder.file("proved"), folder.file("float")];
    let mut best = [[f64::MAX; 2]; 2];
    for _ in 0..ROUNDS {
        let runs = [
            seconds(proved, &input, &outputs[0]),
            seconds(float, &input, &outputs[1]),
        ];
        best =
            [0, 1].map(|program| [0, 1].map(|kind| best[program][kind].min(runs[program][kind])));
    }
    Comparison {
        proved: best[0],
        float: best[1],
        sheets,
        differing: differing(&outputs, sheets),
    }
}

/// A row for each set: seconds in user mode and in all, and the sheets whose
/// lines differ.
pub fn print(sets: &[(&str, &Batch)]) -> ExitCode {
    let Some(programs) = programs() else {
        return ExitCode::FAILURE;
    };
    let columns = [
        "proved, user",
        "floating-point, user",
        "proved / floating-point",
        "proved",
        "floating-point",
        "proved / floating-point",
        "sheets that differ",
    ];
    titles(&columns);
    for (label, set) in sets {
        let found = compare(&programs, set);
        let mut figures = Vec::new();
        for (proved, float) in found.proved.iter().zip(found.float) {
            figures.extend([
                format!("{proved:.3}"),
                format!("{float:.3}"),
                format!("{:.2}", proved / float),
            ]);
        }
        figures.push(format!("{} of {}", found.differing, found.sheets));
        row(&columns, label, &figures);
    }
    ExitCode::SUCCESS
}
