//! Times the program that SIMULATE names against the reference: one script of the telegrams that a line mostly carries, through both in
//! turn, for few and many heads and for long and short `send` lines. Their answers have to be equal.

use std::fs::File;
use std::io::{Error, ErrorKind, Read};
use std::path::{Path, PathBuf};
use std::process::{Command, ExitCode, Stdio};
use std::time::Instant;

/// Callgrind counts a string instruction of x86-64 once for each byte that it moves: while it counts, the C library copies without them.
const NO_STRING_COPIES: &str = "GLIBC_TUNABLES=glibc.cpu.x86_rep_movsb_threshold=0x7fffffff";

const TELEGRAMS: usize = 20_000;
const ROUNDS: usize = 5;

/// Heads on the line, and telegrams in a `send` line.
const SHAPES: [(u32, usize); 8] = [(1, 100), (4, 100), (8, 100), (32, 100), (1, 1), (4, 1), (8, 1), (32, 1)];

/// The node number of the first head.
const FIRST: u32 = 31;

/// The serial of the first head.
const FIRST_SERIAL: u32 = 4_711;

fn main() -> ExitCode {
    match compare() {
        Ok(()) => ExitCode::SUCCESS,
        Err(error) => {
            eprintln!("timing: {error}");
            ExitCode::FAILURE
        }
    }
}

fn compare() -> Result<(), Error> {
    let named = std::env::var("SIMULATE").unwrap_or_else(|_| "./run --built simulate".to_string());
    let simulate: Vec<String> = named.split_whitespace().map(String::from).collect();
    let reference = vec![beside("reference")?.display().to_string()];
    let folder = std::env::temp_dir().join(format!("timing-{}", std::process::id()));
    std::fs::create_dir(&folder)?;
    let result = rows(&folder, &simulate, &reference);
    std::fs::remove_dir_all(&folder)?;
    result
}

/// A program that cargo put into the same folder as this one.
fn beside(name: &str) -> Result<PathBuf, Error> {
    Ok(std::env::current_exe()?.with_file_name(name))
}

fn rows(folder: &Path, simulate: &[String], reference: &[String]) -> Result<(), Error> {
    if std::env::var("EMULATED").is_ok() {
        return emulated(folder, simulate, reference);
    }
    let counted = has_callgrind();
    let counts = if counted { "  instructions a byte: simulate, reference, ratio" } else { "" };
    println!("heads  telegrams a line   simulate  reference  ratio{counts}");
    for (heads, together) in SHAPES {
        let script = written(folder, heads, together, TELEGRAMS)?;
        let bytes = (TELEGRAMS * 10) as f64;
        let (first, second) = alternately(&script, simulate, reference, ROUNDS)?;
        print!(
            "{heads:5}  {together:16}  {:6.0} ns  {:6.0} ns  {:5.1}",
            first / bytes,
            second / bytes,
            first / second
        );
        if counted {
            let first = instructions(&script, folder, simulate)? / bytes;
            let second = instructions(&script, folder, reference)? / bytes;
            print!("{first:29.0}{second:11.0}{:7.1}", first / second);
        }
        println!();
    }
    Ok(())
}

/// An emulator's time is no program's time: all that is learnt is that the answers are equal.
fn emulated(folder: &Path, simulate: &[String], reference: &[String]) -> Result<(), Error> {
    for (heads, together) in SHAPES {
        let script = written(folder, heads, together, TELEGRAMS / 100)?;
        alternately(&script, simulate, reference, 1)?;
    }
    println!("not timed: simulate runs under an emulator on this machine, whose time says nothing of it; the answers are equal");
    Ok(())
}

fn written(folder: &Path, heads: u32, together: usize, telegrams: usize) -> Result<PathBuf, Error> {
    let script = folder.join("script");
    std::fs::write(&script, script_of(heads, together, telegrams))?;
    Ok(script)
}

// The script: half polls of FEh, then set points, stored writes and stored reads, one telegram of 16 damaged on the way.

fn script_of(heads: u32, together: usize, telegrams: usize) -> String {
    let mut random = Random(1);
    let grown = |head| format!("head {} {}\n", FIRST + head, FIRST_SERIAL + head);
    let mut text: String = (0..heads).map(grown).collect();
    for sent in 0..telegrams {
        if sent % together == 0 {
            text += &format!("\nsend {} ", sent * 20);
        }
        for byte in telegram(&mut random, heads) {
            text += &format!("{byte:02X}");
        }
    }
    text + "\n"
}

fn telegram(random: &mut Random, heads: u32) -> [u8; 10] {
    let (command, parameter, value) = match random.below(8) {
        0..=3 => (0, 0xFE, 0),
        4 => (1, 0xFF, random.below(10_000)),
        5 => (1, 0x20, random.below(100)),
        6 => (1, 0x0F, random.below(100_000)),
        _ => (0, 0x1F, 0),
    };
    let node = (FIRST + random.below(heads)) as u8;
    let [a, b, c, d] = value.to_be_bytes();
    let mut ten = [command, node, parameter, 0, 0, a, b, c, d, 0];
    ten[9] = ten.iter().fold(0, |sum, byte| sum ^ byte);
    if random.below(16) == 0 {
        ten[5] ^= 0x40;
    }
    ten
}

/// Marsaglia's xorshift.
struct Random(u32);

impl Random {
    fn below(&mut self, bound: u32) -> u32 {
        self.0 ^= self.0 << 13;
        self.0 ^= self.0 >> 17;
        self.0 ^= self.0 << 5;
        self.0 % bound
    }
}

// Running.

/// The least nanoseconds of several rounds, in which each program runs once.
fn alternately(
    script: &Path,
    simulate: &[String],
    reference: &[String],
    rounds: usize,
) -> Result<(f64, f64), Error> {
    let mut least = (f64::MAX, f64::MAX);
    for _ in 0..rounds {
        let (first, said) = timed(script, simulate)?;
        let (second, told) = timed(script, reference)?;
        if said != told {
            return Err(Error::new(ErrorKind::InvalidData, "the two programs answer differently"));
        }
        least = (least.0.min(first), least.1.min(second));
    }
    Ok(least)
}

fn timed(script: &Path, program: &[String]) -> Result<(f64, Vec<u8>), Error> {
    let start = Instant::now();
    let answers = run(script, program)?;
    Ok((start.elapsed().as_nanos() as f64, answers))
}

fn run(script: &Path, program: &[String]) -> Result<Vec<u8>, Error> {
    let mut child = Command::new(&program[0])
        .args(&program[1..])
        .stdin(File::open(script)?)
        .stdout(Stdio::piped())
        .stderr(Stdio::null())
        .spawn()?;
    let mut answers = Vec::new();
    if let Some(mut output) = child.stdout.take() {
        output.read_to_end(&mut answers)?;
    }
    if !child.wait()?.success() {
        return Err(Error::other(format!("'{}' failed", program.join(" "))));
    }
    Ok(answers)
}

// Counting instructions, which are the same in every run.

fn has_callgrind() -> bool {
    let found =
        Command::new("valgrind").arg("--version").stdout(Stdio::null()).stderr(Stdio::null()).status();
    found.is_ok_and(|status| status.success())
}

fn instructions(script: &Path, folder: &Path, program: &[String]) -> Result<f64, Error> {
    let out = folder.join("count");
    let mut counted: Vec<String> =
        ["env", NO_STRING_COPIES, "valgrind", "--tool=callgrind"].map(String::from).into();
    counted.push(format!("--callgrind-out-file={}", out.display()));
    counted.extend(program.iter().cloned());
    run(script, &counted)?;
    let text = std::fs::read_to_string(&out)?;
    let total = text.lines().find_map(|line| line.strip_prefix("totals: ")?.trim().parse::<f64>().ok());
    total.ok_or_else(|| Error::new(ErrorKind::InvalidData, "callgrind gave no total"))
}
