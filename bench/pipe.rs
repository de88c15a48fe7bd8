// How fast the programs are on streams of frames, against the library on words in memory.

use crate::boxes::Which;
use crate::frames::{answers, push_frame, words};
use crate::switch::LONGEST_ANSWER;
use crate::table::{line, thousands};
use crate::traffic::{self, Kind};
use std::fs::File;
use std::io::{Read, Result, Write};
use std::path::Path;
use std::process::{Command, Stdio};
use std::time::{Duration, Instant};

const ROUNDS: usize = 5;

/// A program and the box of the library that it runs.
const PROGRAMS: [(&str, Which); 2] = [("box_cli", Which::ProvedReal), ("best_cli", Which::ProvedIdeal)];

fn stream(kind: Kind, slots: usize) -> Vec<u8> {
    let mut stream = Vec::new();
    traffic::stream(kind, 32, 0.95, slots, 7).iter().for_each(|word| push_frame(&mut stream, word));
    stream
}

/// The best of some rounds.
fn best(mut round: impl FnMut() -> Result<Duration>) -> Result<Duration> {
    let mut best = Duration::MAX;
    for _ in 0..ROUNDS {
        best = best.min(round()?);
    }
    Ok(best)
}

/// From a file to nowhere: the program alone.
fn from_file(program: &Path, file: &Path) -> Result<Duration> {
    let input = File::open(file)?;
    let start = Instant::now();
    let status = Command::new(program).stdin(input).stdout(Stdio::null()).status()?;
    assert!(status.success());
    Ok(start.elapsed())
}

/// Through two pipes; what comes back is compared.
fn through_pipes(program: &Path, stream: &[u8], want: &[u8]) -> Result<Duration> {
    let start = Instant::now();
    let mut child = Command::new(program).stdin(Stdio::piped()).stdout(Stdio::piped()).spawn()?;
    let (mut input, mut output) = (child.stdin.take().expect("a pipe"), child.stdout.take().expect("a pipe"));
    let mut got = Vec::with_capacity(want.len());
    std::thread::scope(|scope| {
        scope.spawn(move || input.write_all(stream).expect("the program reads to the end"));
        output.read_to_end(&mut got)
    })?;
    assert!(child.wait()?.success());
    let elapsed = start.elapsed();
    if got != want {
        eprintln!("{}: answers differ from the plain ideal box's", program.display());
        std::process::exit(1);
    }
    Ok(elapsed)
}

/// The library's box on the same words in memory.
fn in_memory(which: Which, stream: &[u8]) -> Option<Duration> {
    let mut switch = which.new()?;
    let mut out = [0; LONGEST_ANSWER];
    let round = || {
        let start = Instant::now();
        for word in words(stream) {
            std::hint::black_box(switch.answer(word, &mut out));
        }
        Ok(start.elapsed())
    };
    best(round).ok()
}

pub fn run(folder: &Path, slots: usize) -> Result<()> {
    println!("slots a second on streams of frames, 32 lines, {} slots; the best of {ROUNDS}", thousands(slots as u64));
    println!("file: from a file to nowhere. pipes: fed by a pipe and read by a pipe, by a second process. library: in memory.");
    line("", ["file", "pipes", "library", "file/lib."].map(String::from));
    let file = folder.join("bench").join("words.frames");
    for (kind_name, kind) in [("uniform", Kind::Uniform), ("deep", Kind::Deep)] {
        let stream = stream(kind, slots);
        std::fs::write(&file, &stream)?;
        let want = answers(&mut *Which::PlainIdeal.new().expect("a plain box"), &stream);
        for (name, which) in PROGRAMS {
            let program = Path::new("crates").join(name).join("out").join(name);
            let rate = |time: Duration| slots as f64 / time.as_secs_f64();
            let file = rate(best(|| from_file(&program, &file))?);
            let pipes = rate(best(|| through_pipes(&program, &stream, &want))?);
            let library = in_memory(which, &stream).map(rate);
            let spelled = |rate: f64| thousands(rate as u64);
            let ratio = library.map_or("-".into(), |library| format!("{:.2}", file / library));
            let columns = [spelled(file), spelled(pipes), library.map_or("-".into(), spelled), ratio];
            line(&format!("{name}, {kind_name}"), columns);
        }
    }
    std::fs::remove_file(file)
}
