// The benchmark: the proved boxes against plain ones. `bench/run` builds and starts it.

mod boxes;
mod clock;
mod damage;
mod endurance;
mod frames;
mod limit;
mod longest;
mod pipe;
mod plain;
#[cfg(proved)]
mod proved;
mod random;
mod speed;
mod switch;
mod table;
mod traffic;

use boxes::Which;
use speed::Table;
use std::io::{self, Read, Write};
use std::path::Path;
use std::process::ExitCode;

const USAGE: &str = "usage: bench/run [--plain] [COMMAND]
  (nothing)                 speed, growth and loads
  speed                     every kind of traffic on 32 lines
  growth                    by the number of lines
  loads                     by the load
  pipe [SLOTS]              the programs on pipes and files
  endurance [SLOTS [SEED]]  all boxes side by side on all kinds of traffic, with damaged words
  limit [SLOTS]             the 2^32 slots that a box takes, and the refusal of the next
  answer BOX                frames from standard input through proved | proved-ideal | scanning | tables | ideal
--plain builds without the library of the proved boxes.";

const ENDURANCE_SLOTS: u64 = 5_000_000;
const PIPE_SLOTS: usize = 40_000;

/// The k-th argument as a number, or what is taken where there is none.
fn number(args: &[String], k: usize, otherwise: u64) -> u64 {
    match args.get(k) {
        None => otherwise,
        Some(text) => text.parse().unwrap_or_else(|_| {
            eprintln!("'{text}' is no number\n{USAGE}");
            std::process::exit(1);
        }),
    }
}

fn box_named(name: &str) -> Option<Which> {
    Some(match name {
        "proved" => Which::ProvedReal,
        "proved-ideal" => Which::ProvedIdeal,
        "scanning" => Which::Scanning,
        "tables" => Which::Keeping,
        "ideal" => Which::PlainIdeal,
        _ => return None,
    })
}

fn answer(name: &str) -> io::Result<()> {
    let Some(mut switch) = box_named(name).and_then(Which::new) else {
        eprintln!("there is no box '{name}'");
        std::process::exit(1);
    };
    let mut stream = Vec::new();
    io::stdin().read_to_end(&mut stream)?;
    io::stdout().write_all(&frames::answers(&mut *switch, &stream))
}

#[cfg(proved)]
fn limit(slots: u64) -> Result<(), String> {
    limit::run("proved real", &mut proved::Real::new(), slots)?;
    limit::run("proved ideal", &mut proved::Ideal::new(), slots)
}

#[cfg(not(proved))]
fn limit(slots: u64) -> Result<(), String> {
    limit::run("plain real, same tables", &mut plain::keeping(), slots)?;
    limit::run("plain ideal", &mut plain::ideal(), slots)
}

fn run(args: &[String]) -> Result<(), String> {
    let said = |error: io::Error| error.to_string();
    match args.first().map(String::as_str) {
        None => speed::report_all(vec![Table::kinds(), Table::growth(), Table::loads()]),
        Some("speed") => speed::report_all(vec![Table::kinds()]),
        Some("growth") => speed::report_all(vec![Table::growth()]),
        Some("loads") => speed::report_all(vec![Table::loads()]),
        Some("pipe") => pipe::run(Path::new("target"), number(args, 1, PIPE_SLOTS as u64) as usize).map_err(said)?,
        Some("endurance") => {
            if !endurance::run(number(args, 1, ENDURANCE_SLOTS), number(args, 2, 1)) {
                return Err("the boxes differ".into());
            }
        }
        Some("limit") => limit(number(args, 1, limit::MOST_SLOTS))?,
        Some("answer") if args.len() == 2 => answer(&args[1]).map_err(said)?,
        Some("--help") => println!("{USAGE}"),
        _ => return Err(USAGE.into()),
    }
    Ok(())
}

fn main() -> ExitCode {
    let args: Vec<String> = std::env::args().skip(1).collect();
    match run(&args) {
        Ok(()) => ExitCode::SUCCESS,
        Err(message) => {
            eprintln!("{message}");
            ExitCode::FAILURE
        }
    }
}
