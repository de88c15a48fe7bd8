// How fast the boxes are on words in memory, one processor. Every answer is compared first.

use crate::boxes::{self, Named, RATIOS, SideBySide, Which};
use crate::clock::{Counter, ticks};
use crate::longest;
use crate::plain;
use crate::switch::{Answer, LONGEST_ANSWER, Switch};
use crate::table::{line, ns, thousands};
use crate::traffic::{self, Kind, Words};
use std::hint::black_box;
use std::ops::Range;
use std::time::{Duration, Instant};

const LINES: usize = 32;
const LOAD: f64 = 0.95;
const SEED: u64 = 2024;

/// How many slots of a case are timed, how many are run ahead of them, and how many rounds there are.
const SLOTS: usize = 4_000;
const AHEAD: usize = 1_000;
const ROUNDS: usize = 15;

/// Words are timed so many at a time: about 64 KiB, as a program reads them.
const CHUNK: usize = 32;

/// How often outputs ask in the slots that are timed.
struct Asks {
    mean: f64,
    most: u64,
    /// The word of the slot with the most.
    at: usize,
}

/// What was measured of a box on the words of a case.
#[derive(Clone)]
struct Times {
    /// The time of all timed slots together, in nanoseconds, for each run.
    wholes: Vec<f64>,
    /// The best time of each timed slot, in ticks.
    slots: Vec<u64>,
    /// The longest time of any slot, with all that came between.
    seen: u64,
}

/// Words, of which those from `timed` on are timed, and what was measured.
struct Case {
    name: String,
    words: Words,
    timed: usize,
    /// How often it is run in a round.
    runs: usize,
    asks: Asks,
    /// By box.
    times: Vec<Times>,
}

impl Times {
    fn best(&self) -> f64 {
        self.wholes.iter().copied().fold(f64::MAX, f64::min)
    }

    fn median(&self) -> f64 {
        let mut sorted = self.wholes.clone();
        sorted.sort_unstable_by(f64::total_cmp);
        sorted[sorted.len() / 2]
    }
}

impl Case {
    /// Compares all boxes on the words.
    fn new(name: &str, words: Words, timed: usize, runs: usize) -> Case {
        let asks = compare(&words, timed);
        let slots = words.len() - timed;
        let none = Times { wholes: Vec::new(), slots: vec![u64::MAX; slots], seen: 0 };
        Case { name: name.to_string(), words, timed, runs, asks, times: vec![none; boxes::count()] }
    }

    fn of_kind(name: &str, kind: Kind, lines: usize, load: f64) -> Case {
        let words = traffic::stream(kind, lines, load, AHEAD + SLOTS, SEED);
        Case::new(name, words, 1 + AHEAD, 1)
    }

    fn slots(&self) -> usize {
        self.words.len() - self.timed
    }

    /// The words that are timed, in chunks.
    fn chunks(&self) -> impl Iterator<Item = Range<usize>> {
        let end = self.words.len();
        (self.timed..end).step_by(CHUNK).map(move |first| first..end.min(first + CHUNK))
    }

    /// The mean time of a slot, by box.
    fn means(&self) -> Vec<f64> {
        self.times.iter().map(|times| times.best() / self.slots() as f64).collect()
    }
}

/// All boxes side by side on the same words. Ends the program at the first difference.
fn compare(words: &Words, timed: usize) -> Asks {
    let mut boxes = SideBySide::new();
    let mut asks = Asks { mean: 0.0, most: 0, at: timed };
    for (k, word) in words.iter().enumerate() {
        let before = boxes.asks();
        if let Err(difference) = boxes.answer(word) {
            eprintln!("word {k}: {difference}");
            std::process::exit(1);
        }
        if k >= timed {
            let now = boxes.asks() - before;
            asks.mean += now as f64 / (words.len() - timed) as f64;
            if now > asks.most {
                (asks.most, asks.at) = (now, k);
            }
        }
    }
    asks
}

fn run_ahead(switch: &mut dyn Switch, case: &Case, out: &mut Answer) {
    for word in case.words.range(0..case.timed) {
        switch.answer(word, out);
    }
}

/// Reads through words, so that they are as near as if they had just come.
fn bring_near(words: &Words, range: Range<usize>) {
    for word in words.range(range) {
        black_box(word.iter().step_by(64).fold(0, |sum, byte| sum ^ byte));
    }
}

/// The time of all timed slots together, in nanoseconds; the clock is read once for each chunk.
fn whole_run(switch: &mut dyn Switch, case: &Case) -> f64 {
    let mut out = [0; LONGEST_ANSWER];
    run_ahead(switch, case, &mut out);
    let mut elapsed = Duration::ZERO;
    for chunk in case.chunks() {
        bring_near(&case.words, chunk.clone());
        let start = Instant::now();
        for word in case.words.range(chunk) {
            black_box(switch.answer(black_box(word), &mut out));
            black_box(&out);
        }
        elapsed += start.elapsed();
    }
    elapsed.as_nanos() as f64
}

/// The time of each timed slot, in ticks.
fn single_slots(switch: &mut dyn Switch, case: &Case) -> Vec<u64> {
    let mut out = [0; LONGEST_ANSWER];
    run_ahead(switch, case, &mut out);
    let mut slots = Vec::with_capacity(case.slots());
    for chunk in case.chunks() {
        bring_near(&case.words, chunk.clone());
        for word in case.words.range(chunk) {
            let start = ticks();
            black_box(switch.answer(black_box(word), &mut out));
            slots.push(ticks() - start);
        }
    }
    slots
}

/// One run of a box over the words of a case.
fn run(switch: &mut dyn Switch, case: &mut Case, k: usize, single: bool) {
    let whole = whole_run(switch, case);
    case.times[k].wholes.push(whole);
    if single {
        let slots = single_slots(switch, case);
        let times = &mut case.times[k];
        for (best, now) in times.slots.iter_mut().zip(slots) {
            *best = now.min(*best);
            times.seen = now.max(times.seen);
        }
    }
}

/// Measures all cases of all tables. Boxes take turns, cases too, and of each the best counts: so what else the machine
/// does hits all alike.
fn measure(boxes: &mut [Named], tables: &mut [Table]) {
    for round in 0..ROUNDS {
        for table in &mut *tables {
            for case in &mut table.cases {
                for turn in 0..boxes.len() * case.runs {
                    let k = (round + turn) % boxes.len();
                    run(&mut *boxes[k].switch, case, k, table.single);
                }
            }
        }
    }
}

/// The one below which this share of the sorted times lies.
fn quantile(sorted: &[u64], share: f64) -> u64 {
    sorted[((sorted.len() - 1) as f64 * share).round() as usize]
}

/// Median, 99th, 99.9th, worst, longest seen, and the slot with the most asks.
fn columns(times: &Times, most_asks: usize) -> [u64; 6] {
    let mut sorted = times.slots.clone();
    sorted.sort_unstable();
    let [median, most, nearly, worst] = [0.5, 0.99, 0.999, 1.0].map(|share| quantile(&sorted, share));
    [median, most, nearly, worst, times.seen, times.slots[most_asks]]
}

/// The quotients of the boxes' figures, for each pair of which both are there.
fn ratios(boxes: &[Named], figures: &[f64]) -> Vec<((Which, Which), f64)> {
    let figure = |which| Some(figures[boxes.iter().position(|named| named.which == which)?]);
    RATIOS.iter().filter_map(|&(a, b)| Some(((a, b), figure(a)? / figure(b)?))).collect()
}

/// All figures of a case.
fn report(boxes: &[Named], case: &Case, counter: &Counter) {
    let Asks { mean, most, at } = case.asks;
    println!("\n{}: {} slots, {mean:.1} asks a slot, at most {most}", case.name, case.slots());
    let titles = ["slots/s", "mean", "median", "99th", "99.9th", "worst", "seen", "most asks"];
    line("", titles.map(String::from));
    let means = case.means();
    for (k, named) in boxes.iter().enumerate() {
        let whole = [thousands((1e9 / means[k]) as u64), ns(means[k])];
        let single = columns(&case.times[k], at - case.timed).map(|ticks| ns(counter.ns(ticks)));
        line(named.which.name(), whole.into_iter().chain(single));
    }
    for ((a, b), ratio) in ratios(boxes, &means) {
        println!("  {} / {}: {ratio:.2}", a.name(), b.name());
    }
}

/// Means and ratios, a line for each case.
fn summary(boxes: &[Named], cases: &[Case]) {
    let short = |which: Which| match which {
        Which::ProvedReal => "proved",
        Which::Scanning => "scanning",
        Which::Keeping => "tables",
        Which::ProvedIdeal => "pr. ideal",
        Which::PlainIdeal => "pl. ideal",
    };
    let names = boxes.iter().map(|named| short(named.which).to_string());
    let pairs = ratios(boxes, &vec![1.0; boxes.len()]);
    line("", names.chain(pairs.iter().map(|((_, b), _)| format!("/{}", short(*b)))));
    for case in cases {
        let means = case.means();
        let quotients = ratios(boxes, &means).into_iter().map(|(_, ratio)| format!("{ratio:.2}"));
        line(&case.name, means.iter().map(|&mean| ns(mean)).chain(quotients));
    }
}

/// How much longer the median run took than the best, over all boxes and cases: how restless the machine was.
fn unrest(tables: &[Table]) -> f64 {
    let times = tables.iter().flat_map(|table| &table.cases).flat_map(|case| &case.times);
    let mut quotients: Vec<f64> = times.map(|times| times.median() / times.best()).collect();
    quotients.sort_unstable_by(f64::total_cmp);
    quotients[quotients.len() / 2] - 1.0
}

/// The finding alone, on a table with as many asks as there can be. No arrivals that lead to it are known.
fn hardest_finding() {
    let hardest = plain::HardestFinding::new();
    let best = (0..1_000).map(|_| {
        let start = Instant::now();
        black_box(black_box(&hardest).find());
        start.elapsed().as_nanos()
    });
    let best = best.min().unwrap_or(0);
    println!("\nthe plain finding alone, on a table made for it, {} asks: {best} ns; a slot has two findings", hardest.find());
}

/// Cases that are printed together.
pub struct Table {
    title: String,
    cases: Vec<Case>,
    /// Whether single slots are timed too.
    single: bool,
}

impl Table {
    /// Every kind of traffic on 32 lines.
    pub fn kinds() -> Table {
        let of_kind = |name, kind| Case::of_kind(name, kind, LINES, LOAD);
        let cases = vec![
            of_kind("uniform, load 0.95", Kind::Uniform),
            of_kind("chorus", Kind::Chorus),
            of_kind("deep", Kind::Deep),
            of_kind("adversarial", Kind::Adversarial),
            of_kind("overload", Kind::Overload),
            Case::new("longest finding", longest::words(), 1, 10),
        ];
        Table { title: format!("by the kind of traffic, {LINES} lines"), cases, single: true }
    }

    /// How the time grows with the number of lines.
    pub fn growth() -> Table {
        let of_lines = |lines| Case::of_kind(&format!("n = {lines}"), Kind::Uniform, lines, LOAD);
        let cases = [1, 2, 4, 8, 16, 32].map(of_lines).into();
        Table { title: format!("by the number of lines, uniform, load {LOAD}"), cases, single: false }
    }

    /// How the time grows with the load.
    pub fn loads() -> Table {
        let of_load = |load| Case::of_kind(&format!("load {load}"), Kind::Uniform, LINES, load);
        let cases = [0.0, 0.2, 0.4, 0.6, 0.8, 0.9, 0.95, 0.99, 1.0].map(of_load).into();
        Table { title: format!("by the load, uniform, {LINES} lines"), cases, single: false }
    }
}

fn explain(counter: &Counter) {
    println!("Words are made beforehand; all answers of all boxes are compared, then times are taken, in nanoseconds a slot.");
    println!("slots/s, mean: the best of {ROUNDS} whole runs, the clock being read every {CHUNK} slots. median to worst: times of");
    println!("single slots, of each the best of {ROUNDS} runs, with the counter's own {} in them. seen: the longest", ns(counter.own_ns()));
    println!("of all single slots, with whatever the machine did then. most asks: the slot with the most asks.");
}

/// Measures and prints tables.
pub fn report_all(mut tables: Vec<Table>) {
    let counter = Counter::calibrated();
    let mut boxes = boxes::all();
    measure(&mut boxes, &mut tables);
    explain(&counter);
    for case in tables.iter().filter(|table| table.single).flat_map(|table| &table.cases) {
        report(&boxes, case, &counter);
    }
    hardest_finding();
    for table in &tables {
        println!("\nmean and ratios {}", table.title);
        summary(&boxes, &table.cases);
    }
    println!("\nThe median run took {:.0}% longer than the best; much above 10% means that the machine was busy.", 100.0 * unrest(&tables));
}
