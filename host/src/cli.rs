//! The command line.

use std::path::PathBuf;

use anyhow::Result;
use ashlarkin_oracle::cases::fresh_seed;
use clap::{ArgGroup, Args, Parser, Subcommand, value_parser};

use crate::compare::{self, Flip, Plan, Planted, Readings, WrongRule};
use crate::exit::Exit;
use crate::explain::{self, Asked, Place};
use crate::frame::{self, Reading, Style};
use crate::{batch, bench, build};

const EXAMPLES: &str = "\
Examples:
  ashlarkin frame samples/scene/capture.ss0 -o frame.png
  ashlarkin frame samples/scene/capture.state.png -o frame.png --reading H --scale 4
  ashlarkin batch caps -o frames
  ashlarkin explain samples/scene/capture.ss0 --at 120,80
  ashlarkin build samples/stores/caption.stores --registers samples/stores/caption.registers -o caption
  ashlarkin compare --cases 100000
  ashlarkin bench

Exit status: 0 all done, 1 something refused, unreadable or different, 2 bad usage.";

const FRAME_EXAMPLES: &str = "\
Examples:
  ashlarkin frame caps/07 -o frame.png            a folder of four files
  ashlarkin frame game.ss0 -o frame.png           an mGBA save state
  ashlarkin frame game.png -o frame.png --scale 4 the same in mGBA's PNG form, 960x640

Exit status: 0 drawn, 1 refused or unreadable (no file is written), 2 bad usage.";

const BATCH_EXAMPLES: &str = "\
Examples:
  ashlarkin batch caps -o frames                  caps/a/07 goes to frames/a/07.png, caps/b.ss0 to frames/b.ss0.png
  ashlarkin batch caps -o frames --json > all.txt a JSON object a capture, and one with the counts
  ashlarkin batch caps -o frames --jobs 4 --reading H --scale 2

Exit status: 0 all drawn, 1 a capture refused or unreadable (the others are drawn) or none found, 2 bad usage.";

const EXPLAIN_EXAMPLES: &str = "\
Examples:
  ashlarkin explain game.ss0 --at 120,80          a paragraph, and a table of the facts
  ashlarkin explain game.ss0 --at 120,80 --json   the same facts for a program
  ashlarkin explain game.ss0 --line 80 > line.txt a JSON object for each of its 240 columns
  ashlarkin explain game.ss0 --line 80 --reading H | grep '\"sprite blend\"'

Exit status: 0 explained, 1 refused or unreadable, 2 bad usage.";

const BUILD_EXAMPLES: &str = "\
Examples:
  ashlarkin build title.stores --registers caps/07/registers.bin -o caps/08
  ashlarkin build - --registers registers.bin -o caps/08 < title.stores
  ashlarkin frame caps/08 -o frame.png            what was built, drawn

A text of stores:
  # width, address, value
  16 0x05000000  0x7c00    # the backdrop is blue
  8  0x0600_0020 0x11      # fills both halves of its halfword: four pixels of tile 1
  16 0x07000002  40        # sprite 0 stands at column 40

Exit status: 0 built, 1 refused or unreadable (nothing is written), 2 bad usage.";

const COMPARE_EXAMPLES: &str = "\
Examples:
  ashlarkin compare                               10000 cases with a fresh seed
  ashlarkin compare --cases 1000000 --seed 7      the same cases each time
  ashlarkin compare --replay difference.json      a kept difference again

Exit status: 0 no difference, 1 a difference (kept in a file), 2 bad usage.";

const BENCH_EXAMPLES: &str = "\
Examples:
  ashlarkin bench                                 a few seconds
  ashlarkin bench --seconds 60 --json
  ashlarkin bench --only \"mode 3\"                 one mode

Exit status: 0 measured, 1 the two draw different lines, 2 bad usage.";

/// Draws captured video memory of the Game Boy Advance to PNG
#[derive(Parser)]
#[command(name = "ashlarkin", version, after_help = EXAMPLES)]
pub struct Cli {
    #[command(subcommand)]
    command: Command,
}

#[derive(Subcommand)]
enum Command {
    /// Draw the frame of one capture
    #[command(after_help = FRAME_EXAMPLES)]
    Frame(FrameArgs),
    /// Draw every capture below a folder, on all cores
    #[command(after_help = BATCH_EXAMPLES)]
    Batch(BatchArgs),
    /// Say why a pixel of a capture's frame has its colour
    #[command(after_help = EXPLAIN_EXAMPLES)]
    Explain(ExplainArgs),
    /// Build a capture from a text of stores
    #[command(after_help = BUILD_EXAMPLES)]
    Build(BuildArgs),
    /// Compare the proved library with the emulator's Rust on generated cases
    #[command(after_help = COMPARE_EXAMPLES)]
    Compare(CompareArgs),
    /// Measure lines a second of the proved library and of the emulator's Rust
    #[command(after_help = BENCH_EXAMPLES)]
    Bench(BenchArgs),
}

#[derive(Args)]
struct FrameArgs {
    /// A folder of vram.bin, palette.bin, oam.bin and registers.bin, or an mGBA save state
    ///
    /// The files hold 131072 (or 98304), 1024, 1024 and 86 bytes. A save state is taken raw or as PNG. Example:
    /// caps/07, or game.ss0
    #[arg(value_name = "CAPTURE")]
    capture: PathBuf,

    /// The PNG to write
    ///
    /// A file of that name is replaced, but only by a whole frame. Example: -o frame.png
    #[arg(short, long, value_name = "FILE")]
    output: PathBuf,

    #[command(flatten)]
    style: StyleArgs,
}

#[derive(Args)]
struct StyleArgs {
    /// Whose rules to draw by
    ///
    /// Example: --reading H
    #[arg(long, value_enum, ignore_case = true, default_value = "R")]
    reading: Reading,

    /// How many times as wide and high, 1 to 16
    ///
    /// Example: --scale 4 makes 960x640
    #[arg(long, value_name = "N", default_value = "1", value_parser = value_parser!(u32).range(1..=16))]
    scale: u32,
}

impl StyleArgs {
    fn style(&self) -> Style {
        Style { reading: self.reading, scale: self.scale }
    }
}

#[derive(Args)]
struct BatchArgs {
    /// The folder to look for captures in, at any depth
    ///
    /// A folder with one of the four files is a capture, and so is a file that is a save state by its content, or named
    /// as one (*.ss0, *.state.png). A PNG that is cut short or damaged may have been one, and is reported. Other files
    /// are passed over, and so is what lies in the folder of frames. Example: caps
    #[arg(value_name = "FOLDER")]
    folder: PathBuf,

    /// The folder to write frames to, made where it is missing
    ///
    /// Each frame has the path of its capture and .png after it. A file of that name is replaced, but only by a whole
    /// frame. Example: -o frames
    #[arg(short, long, value_name = "OUT")]
    output: PathBuf,

    /// How many captures to draw at a time, 1 to 1024 [default: one a core]
    ///
    /// Example: --jobs 4
    #[arg(long, value_name = "N", value_parser = value_parser!(u16).range(1..=1024))]
    jobs: Option<u16>,

    #[command(flatten)]
    style: StyleArgs,

    /// Print a JSON object for each capture and one with the counts
    ///
    /// One a line, on standard output, in the order of the captures' paths. Example: --json
    #[arg(long)]
    json: bool,
}

#[derive(Args)]
#[command(group = ArgGroup::new("place").required(true).args(["at", "line"]))]
struct ExplainArgs {
    /// A folder of vram.bin, palette.bin, oam.bin and registers.bin, or an mGBA save state
    ///
    /// What is explained is the picture that `ashlarkin frame` draws of it. Example: caps/07, or game.ss0
    #[arg(value_name = "CAPTURE")]
    capture: PathBuf,

    /// The column, 0 to 239, and the line, 0 to 159, of the pixel
    ///
    /// Counted from the top left, at scale 1. Example: --at 120,80
    #[arg(long, value_name = "X,Y", allow_hyphen_values = true, value_parser = Place::parse)]
    at: Option<Place>,

    /// Every pixel of a line, 0 to 159, as JSON
    ///
    /// One object a line of output, column 0 first, each as --at and --json give it. Example: --line 80
    #[arg(long, value_name = "Y", allow_hyphen_values = true, value_parser = explain::parse_line)]
    line: Option<u32>,

    /// Whose rules to draw by
    ///
    /// Example: --reading H
    #[arg(long, value_enum, ignore_case = true, default_value = "R")]
    reading: Reading,

    /// Print the facts as one JSON object
    ///
    /// With --line that is so anyway. Example: --json
    #[arg(long)]
    json: bool,
}

#[derive(Args)]
struct BuildArgs {
    /// A text of stores, one a line: width, address and value; - reads standard input
    ///
    /// The width is 8 or 16. Address and value are in hex after 0x or in decimal, and _ may stand between digits. A #
    /// begins a comment. Memory starts as zeros. Example: title.stores, with lines such as 16 0x0600_0000 0x1234
    #[arg(value_name = "STORES")]
    stores: PathBuf,

    /// The registers, 86 bytes, such as registers.bin of a capture
    ///
    /// They are copied as they are. Their mode says where sprite tiles start, to which bytes aren't stored. Example:
    /// --registers caps/07/registers.bin
    #[arg(long, value_name = "FILE")]
    registers: PathBuf,

    /// The folder to write the capture to, made where it is missing
    ///
    /// Its vram.bin, palette.bin, oam.bin and registers.bin are replaced, but only if every store was done. Example:
    /// -o caps/08
    #[arg(short, long, value_name = "FOLDER")]
    output: PathBuf,
}

#[derive(Args)]
struct CompareArgs {
    /// How many cases to compare
    ///
    /// Each is one to six draws, a line-end step and a reset of a row; draws and step are done over records, too. In
    /// every 9th the library says why each column has its colour, and every 47th has 32 reads and stores on the bus, too.
    /// Example: --cases 1000000
    #[arg(long, value_name = "N", default_value = "10000", value_parser = value_parser!(u64).range(1..))]
    cases: u64,

    /// The seed that the cases are made from [default: a fresh one]
    ///
    /// It is printed, and the same seed makes the same cases. Example: --seed 7
    #[arg(long, value_name = "S")]
    seed: Option<u64>,

    /// Which draws of the cases to compare
    ///
    /// Example: --reading H
    #[arg(long, value_enum, ignore_case = true, default_value = "both")]
    reading: Readings,

    /// The file to keep the first difference in
    ///
    /// It is JSON and holds all of the draws' memory. A file of that name is replaced. Example: --keep difference.json
    #[arg(long, value_name = "FILE", default_value = "ashlarkin-difference.json")]
    keep: PathBuf,

    /// Compare a kept difference again, and show where the two part
    ///
    /// Example: --replay difference.json
    #[arg(long, value_name = "FILE", conflicts_with_all = ["cases", "seed", "reading", "keep"])]
    replay: Option<PathBuf>,

    /// Change the library's answer in one case, so that a test sees a difference found
    #[arg(long, value_name = "WHAT@CASE", hide = true, value_parser = Flip::parse)]
    flip_for_test: Option<Flip>,

    /// Make the library wrong about the lowest bit of tile numbers or about the bus, so that a test sees that told
    #[arg(long, value_name = "RULE", hide = true, value_enum)]
    wrong_for_test: Option<WrongRule>,
}

#[derive(Args)]
struct BenchArgs {
    /// About how long to measure, 1 to 3600
    ///
    /// Example: --seconds 60
    #[arg(long, value_name = "S", default_value = "7", value_parser = value_parser!(u32).range(1..=3600))]
    seconds: u32,

    /// Measure only what has this in its name
    ///
    /// The names are those that are printed: mode 0 to mode 5, sample scene, and what lines a second are counted by
    /// after a comma. Example: --only "mode 3"
    #[arg(long, value_name = "NAME")]
    only: Option<String>,

    /// Print one JSON object
    ///
    /// Example: --json
    #[arg(long)]
    json: bool,

    /// A file to write the JSON object to, too
    ///
    /// A file of that name is replaced. Example: --save bench.json
    #[arg(long, value_name = "FILE")]
    save: Option<PathBuf>,
}

impl Cli {
    pub fn run(self) -> Result<Exit> {
        match self.command {
            Command::Frame(args) => frame::run(&args.capture, &args.output, args.style.style()),
            Command::Batch(args) => args.run(),
            Command::Explain(args) => args.run(),
            Command::Build(args) => build::run(&args.stores, &args.registers, &args.output),
            Command::Compare(args) => args.run(),
            Command::Bench(args) => args.run(),
        }
    }
}

impl BatchArgs {
    fn run(&self) -> Result<Exit> {
        let options = batch::Options { style: self.style.style(), jobs: self.jobs.map(usize::from), json: self.json };
        batch::run(&self.folder, &self.output, &options)
    }
}

impl ExplainArgs {
    fn run(&self) -> Result<Exit> {
        let asked = match (self.at, self.line) {
            (Some(place), _) if self.json => Asked::Json(place),
            (Some(place), _) => Asked::Text(place),
            (None, line) => Asked::Line(line.expect("clap asks for one of the two")),
        };
        explain::run(&self.capture, &asked, self.reading)
    }
}

impl CompareArgs {
    fn run(&self) -> Result<Exit> {
        let planted = Planted { flip: self.flip_for_test, rule: self.wrong_for_test };
        if let Some(path) = &self.replay {
            return compare::replay(path, planted);
        }
        let seed = self.seed.unwrap_or_else(fresh_seed);
        let plan = Plan { cases: self.cases, seed, readings: self.reading, planted };
        compare::run(&plan, &self.keep)
    }
}

impl BenchArgs {
    fn run(self) -> Result<Exit> {
        let BenchArgs { seconds, only, json, save } = self;
        bench::run(&bench::Options { seconds: seconds.into(), only, json, save })
    }
}
