//! Measures whole reads, and walks with all fills, of the proved reader and of
//! the plain one (with the feature `esri` of Esri's library too), and of the
//! proved one a whole read in two calls, each of them and both: least times
//! of interleaved rounds, and exact counts of instructions by callgrind or by
//! an emulator, under which times are not taken.
//!
//!     whole [--folder FOLDER] [--floats] [--only NAME] [--rounds N] [--plot FILE] [--no-counts]
//!           [--no-times [--counted-by 'EMULATOR AND ITS WORDS']]
//!     whole mask                             what valid pixels cost, by callgrind alone
//!     whole join FILE FILE                   the tables of two runs in one
//!     whole one FILE WAY READER [CALLS]      for the counter; one call is usual
//!
//! What is not measured is named at the end, with the reason. Ends with status
//! 2 where the words are wrong or nothing could be measured.

mod clock;
mod holes;
mod images;
mod join;
mod left;
mod make;
mod mask;
mod plot;
mod task;
mod words;

use images::Image;
use left::LeftOut;
use std::error::Error;
use std::fs;
use std::path::{Path, PathBuf};
use std::process::{Command, ExitCode};
use std::time::Instant;
use task::{Reader, Task, Way};
use words::Words;

/// What is asked of the proved reader, against the plain one.
const INTEGERS: f64 = 3.0;
const FLOATS: f64 = 6.0;
const LINEAR: f64 = 1.3;
/// How much more a cell of the largest image may cost than one of the
/// smallest.
const GROWTH: f64 = 1.1;
/// What a whole read of one image cost, in instructions a cell, when it was one
/// operation, and how much of that each of the two may.
const ONE_IMAGE: &str = "u16 256x256";
const ONE_READ: f64 = 27.99;
const OF_TWO: [(Way, f64); 2] = [(Way::Stage, 0.45), (Way::Publish, 1.15)];
/// Rounds of one line go on for so long.
const SECONDS: f64 = 2.0;
/// A reader's turn lasts so long at least: the clock is not exact for less.
const TURN: f64 = 0.002;
/// Larger images are not run under a counter, which takes fifty times as long.
const COUNTED: usize = 1 << 20;
/// An emulator counts a run of so many calls and one of twice as many; the
/// difference has neither start nor end of the program.
const CALLS: u64 = 2;

pub struct Line {
    name: String,
    way: Way,
    cells: usize,
    /// Against the plain reader, where it has such a way and the body a bar.
    bar: Option<f64>,
    sized: bool,
    /// Nanoseconds a cell and instructions a cell, by reader.
    times: Vec<Option<f64>>,
    counts: Vec<Option<f64>>,
}

impl Line {
    /// How many times another reader's the proved one's is. None where the
    /// clock saw nothing of the other.
    fn ratio(numbers: &[Option<f64>], other: usize) -> Option<f64> {
        Some(numbers[0]? / numbers[other]?).filter(|ratio| ratio.is_finite())
    }

    fn to_plain(numbers: &[Option<f64>]) -> Option<f64> {
        Line::ratio(numbers, 1)
    }
}

fn main() -> ExitCode {
    let words: Vec<String> = std::env::args().skip(1).collect();
    let words: Vec<&str> = words.iter().map(String::as_str).collect();
    let done = match words.as_slice() {
        ["mask"] => mask::measure(),
        ["mask", word, ..] => Err(format!("unknown word {word}").into()),
        ["join", before, after] => join::files(before, after),
        ["join", ..] => Err("join: two files".into()),
        ["one", file, way, reader] => one(file, way, reader, "1"),
        ["one", file, way, reader, calls] => one(file, way, reader, calls),
        _ => measure(&words),
    };
    if let Err(error) = done {
        eprintln!("whole: {error}");
        return ExitCode::from(2);
    }
    ExitCode::SUCCESS
}

/// Begins the stack of a call at a page. Words and environment shift the stack,
/// and what a copy costs depends on where its bytes lie.
#[repr(align(4096))]
struct Page(u8);

fn one(file: &str, way: &str, reader: &str, calls: &str) -> Result<(), Box<dyn Error>> {
    let way = Way::ALL.into_iter().find(|w| w.name() == way);
    let reader = Reader::ALL.iter().find(|r| r.name() == reader);
    let (Some(way), Some(&reader)) = (way, reader) else {
        return Err("no such way or reader".into());
    };
    if !reader.has(way) {
        return Err(format!("{} does not {}", reader.name(), way.name()).into());
    }
    let blob = fs::read(file).map_err(|error| format!("{file}: {error}"))?;
    let mut task =
        Task::prepared(&blob, way).map_err(|number| format!("{file}: refused {number}"))?;
    let page = Page(0);
    std::hint::black_box(&page.0);
    for _ in 0..calls.parse::<u64>()? {
        task.go(way, reader)
            .map_err(|number| format!("{file}: refused {number}"))?;
    }
    Ok(())
}

/// A folder of this run alone.
fn scratch() -> PathBuf {
    std::env::temp_dir().join(format!("whole-{}", std::process::id()))
}

/// How to measure: rounds of time, and what counts instructions.
struct How<'a> {
    /// None where times say nothing.
    rounds: Option<usize>,
    counts: bool,
    /// The words in front of this program, callgrind where there are none.
    emulator: Option<&'a str>,
    scratch: PathBuf,
}

fn measure(words: &[&str]) -> Result<(), Box<dyn Error>> {
    let words = Words::of(words)?;
    let how = How {
        rounds: words.times.then_some(words.rounds),
        counts: words.counts,
        emulator: words.counted_by,
        scratch: scratch(),
    };
    let images = images::of(&words)?;
    fs::create_dir_all(&how.scratch)?;
    let measured = lines(&images, words.floats, &how);
    fs::remove_dir_all(&how.scratch)?;
    let (lines, left) = measured?;
    if lines.is_empty() {
        print!("{}", left.text());
        return Err("nothing was measured".into());
    }
    let to_esri = words.floats && Reader::ALL.len() > 2;
    print!("{}", table(&lines, to_esri));
    print!("{}", verdicts(&lines));
    print!("{}", left.text());
    if let Some(file) = words.plot {
        fs::write(file, plot::svg(&lines)).map_err(|error| format!("{file}: {error}"))?;
    }
    Ok(())
}

/// A line for each image and way, and what was left out.
fn lines(
    images: &[Image],
    floats: bool,
    how: &How,
) -> Result<(Vec<Line>, LeftOut), Box<dyn Error>> {
    let ways = if floats {
        &[Way::Read][..]
    } else {
        &Way::TABLE
    };
    let (mut lines, mut left) = (Vec::new(), LeftOut::default());
    for image in images {
        for &way in ways {
            match line(image, way, how)? {
                Ok(line) => {
                    eprintln!("{} {}", line.name, line.way.name());
                    lines.push(line);
                }
                Err(why) => left.add(&image.name, way, why),
            }
        }
    }
    Ok((lines, left))
}

/// A task that both readers do alike, or why it is not measured. What the plain
/// one does not have is held to its whole read.
fn agreed(image: &Image, way: Way) -> Result<Result<Task, String>, Box<dyn Error>> {
    let done = Task::prepared(&image.blob, way).and_then(|mut task| {
        task.go(way, Reader::Proved)?;
        if way == Way::Stage {
            task.go(Way::Publish, Reader::Proved)?;
        }
        Ok(task)
    });
    let plain_way = if Reader::Plain.has(way) {
        way
    } else {
        Way::Read
    };
    let mut task = match done {
        Ok(task) => task,
        Err(number) => return Ok(Err(format!("refused {number}"))),
    };
    let cells = task.image.clone();
    task.image.fill(0);
    if task.go(plain_way, Reader::Plain).is_err() || task.image != cells {
        return Err(format!("{}: the readers differ", image.name).into());
    }
    if task.header.valid == 0 {
        return Ok(Err("no cell is valid".into()));
    }
    Ok(Ok(task))
}

/// One line of the table, or why there is none.
fn line(image: &Image, way: Way, how: &How) -> Result<Result<Line, String>, Box<dyn Error>> {
    let mut task = match agreed(image, way)? {
        Ok(task) => task,
        Err(why) => return Ok(Err(why)),
    };
    let count = task.image.len();
    let counted = how.counts && count <= COUNTED;
    if how.rounds.is_none() && !counted {
        return Ok(Err(format!("more than {COUNTED} cells are not counted")));
    }
    // Esri's library may refuse what the rules accept.
    let taking: Vec<Option<Reader>> = Reader::ALL
        .iter()
        .map(|&reader| (reader.has(way) && task.go(way, reader).is_ok()).then_some(reader))
        .collect();
    let times = match how.rounds {
        Some(rounds) => least_times(&mut task, way, &taking, rounds),
        None => vec![None; taking.len()],
    };
    let counts = if counted {
        instructions_by(&taking, &image.blob, way, how)?
    } else {
        vec![None; taking.len()]
    };
    let a_cell = |numbers: Vec<Option<f64>>, unit: f64| -> Vec<Option<f64>> {
        let shared = |number: f64| number * unit / count as f64;
        numbers.into_iter().map(|n| n.map(shared)).collect()
    };
    Ok(Ok(Line {
        name: image.name.clone(),
        way,
        cells: count,
        bar: Reader::Plain
            .has(way)
            .then(|| bar(&task, &image.blob))
            .flatten(),
        sized: image.sized,
        times: a_cell(times, 1e9),
        counts: a_cell(counts, 1.0),
    }))
}

/// Instructions of one call, by reader.
fn instructions_by(
    taking: &[Option<Reader>],
    blob: &[u8],
    way: Way,
    how: &How,
) -> Result<Vec<Option<f64>>, Box<dyn Error>> {
    let file = how.scratch.join("image.lerc2");
    fs::write(&file, blob)?;
    let mut counts = Vec::new();
    for &reader in taking {
        counts.push(match (reader, how.emulator) {
            (None, _) => None,
            (Some(reader), None) => Some(instructions(&file, way, reader)? as f64),
            (Some(reader), Some(words)) => Some(emulated(words, &file, way, reader)? as f64),
        });
    }
    Ok(counts)
}

/// By the kind of a body in blocks; raw and constant bodies have their own.
/// Huffman images have none here: theirs is against Esri's library
/// (bench/huffman.sh).
fn bar(task: &Task, blob: &[u8]) -> Option<f64> {
    let ranges = second::read_ranges(blob, &task.header).ok();
    let constant = ranges.as_ref().is_some_and(|ranges| ranges.constant);
    let sweep = ranges.and_then(|ranges| blob.get(ranges.place).copied());
    let mut probe = Task::new(blob).expect("it was accepted");
    let blocks = !constant && probe.go(Way::Steps, Reader::Plain).is_ok();
    match (blocks, task.header.kind) {
        (true, 0..=5) => Some(INTEGERS),
        (true, _) => Some(FLOATS),
        (false, _) if !constant && sweep == Some(0) => None,
        (false, _) => Some(LINEAR),
    }
}

/// Seconds that this thread runs in one call; the readers take turns, of many
/// calls where one is short. There are at least so many rounds, and more while
/// there is time: on a shared machine many rounds are disturbed.
fn least_times(
    task: &mut Task,
    way: Way,
    taking: &[Option<Reader>],
    rounds: usize,
) -> Vec<Option<f64>> {
    let mut least = vec![None::<f64>; taking.len()];
    let mut calls = vec![1; taking.len()];
    let begun = Instant::now();
    let mut round = 0;
    while round < rounds || begun.elapsed().as_secs_f64() < SECONDS {
        for (n, &reader) in taking.iter().enumerate() {
            let Some(reader) = reader else {
                continue;
            };
            let time = turn(task, way, reader, &mut calls[n]);
            least[n] = Some(least[n].map_or(time, |before| before.min(time)));
        }
        round += 1;
    }
    least
}

/// Seconds of one call, out of a turn that is long enough.
fn turn(task: &mut Task, way: Way, reader: Reader, calls: &mut u32) -> f64 {
    loop {
        let begun = clock::now();
        for _ in 0..*calls {
            let _ = task.go(way, reader);
        }
        let time = clock::now() - begun;
        if time >= TURN {
            return time / f64::from(*calls);
        }
        *calls *= 2;
    }
}

/// Instructions of one call, exact and repeatable.
fn instructions(file: &Path, way: Way, reader: Reader) -> Result<u64, Box<dyn Error>> {
    let output = Command::new("valgrind")
        .args(["--tool=callgrind", "--callgrind-out-file=/dev/null"])
        .arg("--toggle-collect=measured_*")
        .arg(own_path()?)
        .args(["one".as_ref(), file.as_os_str()])
        .args([way.name(), reader.name()])
        .output()
        .map_err(|e| format!("valgrind: {e}; --no-counts measures time alone"))?;
    let text = String::from_utf8_lossy(&output.stderr);
    let said = text
        .lines()
        .find_map(|line| line.split_once("Collected : "));
    match said {
        Some((_, count)) if output.status.success() => Ok(count.trim().parse()?),
        _ => Err(format!("callgrind counted nothing: {text}").into()),
    }
}

/// The same by an emulator that ends with a line `insns N`.
fn emulated(words: &str, file: &Path, way: Way, reader: Reader) -> Result<u64, Box<dyn Error>> {
    let run = |calls: u64| -> Result<u64, Box<dyn Error>> {
        let mut words = words.split_whitespace();
        let output = Command::new(words.next().ok_or("no emulator")?)
            .args(words)
            .arg(own_path()?)
            .args(["one".as_ref(), file.as_os_str()])
            .args([way.name(), reader.name(), &calls.to_string()])
            .output()?;
        let text = String::from_utf8_lossy(&output.stderr);
        let said = text.lines().find_map(|line| line.strip_prefix("insns "));
        match said {
            Some(count) if output.status.success() => Ok(count.parse()?),
            _ => Err(format!("the emulator said: {text}").into()),
        }
    };
    Ok((run(2 * CALLS)? - run(CALLS)?) / CALLS)
}

fn own_path() -> Result<PathBuf, Box<dyn Error>> {
    Ok(std::env::current_exe()?)
}

fn shown(number: Option<f64>) -> String {
    number.map_or("-".into(), |number| format!("{number:.2}"))
}

fn timed(lines: &[Line]) -> bool {
    lines.iter().any(|line| line.times[0].is_some())
}

/// A column of the table: its name, and what it says of a line.
type Column = (String, Box<dyn Fn(&Line) -> String>);

fn columns(timed: bool, to_esri: bool) -> Vec<Column> {
    let column = |name: &str, said: Box<dyn Fn(&Line) -> String>| (name.to_string(), said);
    let mut columns = vec![
        column("image", Box::new(|line| line.name.clone())),
        column("way", Box::new(|line| line.way.name().into())),
    ];
    for (n, reader) in Reader::ALL.iter().enumerate() {
        let name = reader.name();
        let time = column(&format!("{name} ns"), Box::new(move |l| shown(l.times[n])));
        columns.extend(timed.then_some(time));
        let count = move |line: &Line| shown(line.counts[n]);
        columns.push(column(&format!("{name} instr"), Box::new(count)));
    }
    // Against the plain reader, and Esri's library after it.
    for (name, other) in [("ratio", 1), ("to esri", 2)]
        .into_iter()
        .take(1 + usize::from(to_esri))
    {
        let time = move |line: &Line| shown(Line::ratio(&line.times, other));
        let time = column(&format!("{name}, time"), Box::new(time));
        columns.extend(timed.then_some(time));
        let count = move |line: &Line| shown(Line::ratio(&line.counts, other));
        columns.push(column(&format!("{name}, instr"), Box::new(count)));
    }
    let bar = |line: &Line| line.bar.map_or("-".into(), |bar| bar.to_string());
    columns.push(column("bar", Box::new(bar)));
    columns
}

fn table(lines: &[Line], to_esri: bool) -> String {
    let columns = columns(timed(lines), to_esri);
    let names: Vec<&str> = columns.iter().map(|(name, _)| name.as_str()).collect();
    let mut text = format!("| {} |\n|", names.join(" | "));
    text += &"---|".repeat(columns.len());
    text += "\n";
    for line in lines {
        let cells: Vec<String> = columns.iter().map(|(_, said)| said(line)).collect();
        text += &format!("| {} |\n", cells.join(" | "));
    }
    text
}

/// Whether each bar holds.
fn verdicts(lines: &[Line]) -> String {
    let mut text = if timed(lines) {
        "\n| bar | worst by time | worst by instructions | holds |\n|---|---|---|---|\n"
    } else {
        "\n| bar | worst by instructions | holds |\n|---|---|---|\n"
    }
    .to_string();
    text += &bars(lines);
    text += &growths(lines);
    text += &parts(lines);
    text
}

/// A number with the words for it, and whether it holds.
struct Verdict {
    words: String,
    holds: &'static str,
}

impl Verdict {
    fn of(number: Option<f64>, bar: f64, name: &str) -> Verdict {
        let holds = match number {
            Some(number) if number <= bar => "yes",
            Some(_) => "no",
            None => "-",
        };
        Verdict {
            words: shown(number) + name,
            holds,
        }
    }
}

fn verdict(name: &str, time: Option<Verdict>, count: Verdict) -> String {
    match time {
        Some(time) => format!(
            "| {name} | {} | {} | time {}, instructions {} |\n",
            time.words, count.words, time.holds, count.holds
        ),
        None => format!("| {name} | {} | {} |\n", count.words, count.holds),
    }
}

/// By the worst image of each sort.
fn bars(lines: &[Line]) -> String {
    let mut text = String::new();
    let classes = [
        ("integer kinds in blocks, at most 3", INTEGERS),
        ("float kinds in blocks, at most 6", FLOATS),
        ("raw and constant, at most 1.3", LINEAR),
    ];
    for way in Way::WHOLE {
        for (name, bar) in classes {
            let of_class = |line: &&Line| line.way == way && line.bar == Some(bar);
            if !lines.iter().any(|line| of_class(&line)) {
                continue;
            }
            let worst = |numbers: fn(&Line) -> &Vec<Option<f64>>| {
                let worst = lines
                    .iter()
                    .filter(of_class)
                    .filter_map(|line| Some((Line::to_plain(numbers(line))?, &line.name)))
                    .max_by(|a, b| a.0.total_cmp(&b.0));
                let name = worst.map_or(String::new(), |(_, name)| format!(" ({name})"));
                Verdict::of(worst.map(|(ratio, _)| ratio), bar, &name)
            };
            let time = timed(lines).then(|| worst(|line| &line.times));
            let name = format!("{name}: {}", way.name());
            text += &verdict(&name, time, worst(|line| &line.counts));
        }
    }
    text
}

/// What each of the two calls costs of a whole read, by instructions alone.
fn parts(lines: &[Line]) -> String {
    let mut text = String::new();
    for (way, bar) in OF_TWO {
        let is_it = |line: &&Line| line.way == way && line.name == ONE_IMAGE;
        let Some(line) = lines.iter().find(is_it) else {
            continue;
        };
        let time = timed(lines).then(|| Verdict::of(None, bar, ""));
        let count = line.counts[0];
        let words = format!(" ({} a cell)", shown(count));
        let count = Verdict::of(count.map(|count| count / ONE_READ), bar, &words);
        let name = format!(
            "{ONE_IMAGE}: {}, at most {bar} of {ONE_READ} instructions a cell",
            way.name()
        );
        text += &verdict(&name, time, count);
    }
    text
}

/// Whether a cell of the largest image costs what one of the smallest does.
fn growths(lines: &[Line]) -> String {
    let mut text = String::new();
    for way in Way::WHOLE {
        for kind in ["u16", "f32"] {
            let rows: Vec<&Line> = lines
                .iter()
                .filter(|line| line.sized && line.way == way && line.name.starts_with(kind))
                .collect();
            // One size says nothing of growth.
            let [first, others @ ..] = rows.as_slice() else {
                continue;
            };
            let Some(last) = others.last() else {
                continue;
            };
            // The largest that was counted is not the largest that was timed.
            let growth = |numbers: &dyn Fn(&Line) -> Option<f64>| {
                let last = others.iter().rev().find_map(|line| numbers(line));
                Some(last? / numbers(first)?)
            };
            let time = timed(lines).then(|| {
                let plain = shown(growth(&|line| line.times[1]));
                let own = growth(&|line| line.times[0]);
                Verdict::of(own, GROWTH, &format!(" (plain {plain})"))
            });
            let count = Verdict::of(growth(&|line| line.counts[0]), GROWTH, "");
            let name = format!(
                "linear: a cell of {} costs at most {GROWTH} times one of {}: {}",
                last.name,
                first.name,
                way.name()
            );
            text += &verdict(&name, time, count);
        }
    }
    text
}
