use compare::arithmetic::{self, PROVED};
use compare::folder;
use compare::paths::Paths;
use compare::places::Places;
use compare::publishes::Publishes;
use compare::run::{Failure, Run};
use compare::sides::{plain, proved};
use compare::store;
use compare::sums::Sums;
use compare::table::grouped;
use std::error::Error;
use std::fs;
use std::path::{Path, PathBuf};
use std::process::ExitCode;
use std::time::{Instant, SystemTime, UNIX_EPOCH};

const HELP: &str = "\
compare run [--calls N] [--seed S] [--from BLOB] [--out FOLDER]
    calls on blobs made at random (a million of them, any seed, from blob 0);
    calls that differ are made smaller and saved to FOLDER (failed)
compare arithmetic [--pairs N] [--seed S]
    sums, products, steps and conversions of operands made at random (a
    million of each, finite and not; any seed) against whole numbers
compare packs [--calls N] [--seed S] [--from PACK] [--out FOLDER]
    packs made at random, opened, read and written (a million calls, any seed,
    from pack 0); calls that differ are shown, long ones
    saved to FOLDER (failed)
compare packs --largest
    the largest pack that there is, of 4 GB; it takes 9 GB of memory
compare replay FILE
    one saved call
compare folder FOLDER..
    every NAME.lerc2 of the folders, as it is and damaged; calls that differ are
    saved to failed
compare checksums FOLDER..
    every NAME.lerc2 of the folders: its own checksum is taken, and each copy
    with one byte of it changed is refused 13
compare esri [--overflow] [--blobs N] [--seed S]
    accepted images of blobs made at random (100,000 of them, seed 1) against
    Esri's library (cargo feature esri), and copies of them with wrong
    checksums; --overflow: of blobs in which products are infinite
compare esri FOLDER..
    the same with every NAME.lerc2 of the folders

run, folder and esri count accepted blocks, tiles and bodies by path; run and
folder count calls by the place at which they are refused, and publishes by what
was done since staging.

Exit status: 0 no disagreement, 1 some, 2 wrong words, or it could not be run,
or a run of 500,000 calls or more left a path, a place, a sort of publish or of
pack out.
";

/// Calls with packs are shown up to so many letters, and saved above.
const SHOWN: usize = 8_192;

fn main() -> ExitCode {
    let arguments: Vec<String> = std::env::args().skip(1).collect();
    let words: Vec<&str> = arguments.iter().map(String::as_str).collect();
    let answer = match words.as_slice() {
        ["-h" | "--help"] => {
            print!("{HELP}");
            Ok(true)
        }
        ["run", rest @ ..] => run(rest),
        ["arithmetic", rest @ ..] => arithmetic_compared(rest),
        ["packs", rest @ ..] => packs(rest),
        ["replay", file] => replay(file),
        ["folder", folders @ ..] if !folders.is_empty() => folders_compared(folders),
        ["checksums", folders @ ..] if !folders.is_empty() => checksums_compared(folders),
        ["esri", rest @ ..] => esri(rest),
        ["replay", ..] => Err("replay takes one file".into()),
        [word @ ("folder" | "checksums")] => {
            Err(format!("{word} takes one folder or more").into())
        }
        [] => Err(
            "run, arithmetic, packs, replay, folder, checksums or esri? `compare --help` says what they do"
                .into(),
        ),
        [word, ..] => Err(format!("unknown word {word}; `compare --help` has all").into()),
    };
    match answer {
        Ok(true) => ExitCode::SUCCESS,
        Ok(false) => ExitCode::FAILURE,
        Err(error) => {
            eprintln!("compare: {error}");
            ExitCode::from(2)
        }
    }
}

/// Names with the value behind each, and marks without one; no other word is
/// taken.
struct Options<'a>(Vec<(&'a str, &'a str)>);

impl<'a> Options<'a> {
    fn of(rest: &[&'a str], names: &[&str], marks: &[&str]) -> Result<Options<'a>, Box<dyn Error>> {
        let mut options = Vec::new();
        let mut words = rest.iter();
        while let Some(&name) = words.next() {
            let value = if marks.contains(&name) {
                ""
            } else if names.contains(&name) {
                words
                    .next()
                    .ok_or_else(|| format!("{name} needs a value"))?
            } else {
                let known = [names, marks].concat().join(", ");
                return Err(format!("unknown word {name}; known are {known}").into());
            };
            options.push((name, value));
        }
        Ok(Options(options))
    }

    fn word(&self, name: &str) -> Option<&'a str> {
        self.0
            .iter()
            .find(|option| option.0 == name)
            .map(|option| option.1)
    }

    fn number(&self, name: &str, otherwise: u64) -> Result<u64, Box<dyn Error>> {
        Ok(match self.word(name) {
            Some(word) => word
                .parse()
                .map_err(|_| format!("{name} {word}: not a number"))?,
            None => otherwise,
        })
    }
}

/// What the file has, or an error that names it.
fn bytes(file: &Path) -> Result<Vec<u8>, Box<dyn Error>> {
    Ok(fs::read(file).map_err(|error| format!("{}: {error}", file.display()))?)
}

/// The blobs of a folder, of which there must be one.
fn blobs(folder: &str) -> Result<Vec<PathBuf>, Box<dyn Error>> {
    let files = folder::files(Path::new(folder)).map_err(|error| format!("{folder}: {error}"))?;
    if files.is_empty() {
        return Err(format!("{folder}: there is no NAME.lerc2").into());
    }
    Ok(files)
}

/// Nothing is compared on a thread where float operations differ.
fn ready() -> Result<(), Box<dyn Error>> {
    if lerc2::float_ready() {
        return Ok(());
    }
    Err("this thread's float unit does not round to nearest or flushes small numbers; nothing is compared".into())
}

fn any_seed() -> Result<u64, Box<dyn Error>> {
    Ok(SystemTime::now().duration_since(UNIX_EPOCH)?.as_nanos() as u64)
}

fn run(rest: &[&str]) -> Result<bool, Box<dyn Error>> {
    ready()?;
    let options = Options::of(rest, &["--calls", "--seed", "--from", "--out"], &[])?;
    let run = Run {
        seed: options.number("--seed", any_seed()?)?,
        from: options.number("--from", 0)?,
        calls: options.number("--calls", 1_000_000)?,
        failures: 10,
    };
    let out = PathBuf::from(options.word("--out").unwrap_or("failed"));
    println!("seed {}, blobs from {}", run.seed, run.from);
    let begun = Instant::now();
    let report = run.go(proved, plain);
    println!("\n{}", report.table.text());
    println!("Accepted whole reads:\n\n{}", report.bodies.text());
    paths_shown(&report.paths);
    places_shown(&report.places);
    publishes_shown(&report.publishes);
    let share = 100 * report.publishes.disturbed() / report.table.total().max(1);
    println!("Something was done before a publish in {share} of 100 calls\n");
    println!(
        "{} calls on {} blobs in {:.0} s, {} disagreements",
        grouped(report.table.total()),
        grouped(report.blobs),
        begun.elapsed().as_secs_f64(),
        report.failures.len()
    );
    for failure in &report.failures {
        let name = format!("{}-{}", run.seed, failure.blob);
        save(&out, &name, failure)?;
    }
    Ok(report.verdict()?)
}

fn paths_shown(paths: &Paths) {
    println!("Blocks, tiles and bodies by path:\n\n{}", paths.text());
}

fn places_shown(places: &Places) {
    println!("Calls by place:\n\n{}", places.text());
}

fn publishes_shown(publishes: &Publishes) {
    println!("Publishes by sort:\n\n{}", publishes.text());
}

fn arithmetic_compared(rest: &[&str]) -> Result<bool, Box<dyn Error>> {
    ready()?;
    let options = Options::of(rest, &["--pairs", "--seed"], &[])?;
    let seed = options.number("--seed", any_seed()?)?;
    let pairs = options.number("--pairs", 1_000_000)?;
    println!("seed {seed}");
    let begun = Instant::now();
    let report = arithmetic::compared(&PROVED, seed, pairs);
    let seconds = begun.elapsed().as_secs_f64();
    println!("\n{}, in {seconds:.0} s", report.text());
    Ok(report.disagreements() == 0)
}

fn packs(rest: &[&str]) -> Result<bool, Box<dyn Error>> {
    use compare::packs::run::{Run, Side};
    use compare::packs::sides;
    ready()?;
    if rest == ["--largest"] {
        return Ok(largest_compared());
    }
    let options = Options::of(rest, &["--calls", "--seed", "--from", "--out"], &[])?;
    let run = Run {
        seed: options.number("--seed", any_seed()?)?,
        from: options.number("--from", 0)?,
        calls: options.number("--calls", 1_000_000)?,
        failures: 10,
    };
    let out = PathBuf::from(options.word("--out").unwrap_or("failed"));
    println!("seed {}, packs from {}", run.seed, run.from);
    let begun = Instant::now();
    let (one, other) = (
        Side {
            packs: &sides::proved,
            stage: proved,
        },
        Side {
            packs: &sides::plain,
            stage: plain,
        },
    );
    let report = run.go(one, other);
    println!("\n{}", report.text());
    for failure in &report.failures {
        println!("{}", failure.text());
        let text = failure.call.text();
        if text.len() <= SHOWN {
            println!("{text}");
        } else {
            fs::create_dir_all(&out)?;
            let file = out.join(format!("{}-{}.pack", run.seed, failure.pack));
            fs::write(&file, format!("# {}\n{text}", failure.text()))?;
            println!("saved to {}", file.display());
        }
        println!(
            "again: cargo run --release -- packs --seed {} --from {} --calls 1\n",
            run.seed, failure.pack
        );
    }
    println!(
        "{} calls on {} packs in {:.0} s, {} disagreements",
        grouped(report.table.total()),
        grouped(report.packs),
        begun.elapsed().as_secs_f64(),
        report.failures.len()
    );
    Ok(report.verdict()?)
}

/// Each side must write, open and read the one pack.
fn largest_compared() -> bool {
    use compare::packs::largest::{compared, LARGEST};
    use compare::packs::sides::{Packs, Plain, Proved};
    let sides: [(&str, &dyn Packs); 2] = [("proved", &Proved), ("plain", &Plain)];
    let mut disagreements = 0;
    for (name, side) in sides {
        let begun = Instant::now();
        let said = compared(side, LARGEST);
        let seconds = begun.elapsed().as_secs_f64();
        disagreements += usize::from(said.is_err());
        let said = said.err().unwrap_or("written, opened and read".into());
        println!("{name}: {said}, in {seconds:.0} s");
    }
    println!("the largest pack, {disagreements} disagreements");
    disagreements == 0
}

/// Saves a call that was made smaller, and says how to replay it.
fn save(out: &Path, name: &str, failure: &Failure) -> Result<(), Box<dyn Error>> {
    fs::create_dir_all(out)?;
    let file = out.join(format!("{name}.case"));
    let op = failure.small.op.name();
    let said = format!("{op}, proved and plain: {}", failure.difference);
    fs::write(&file, format!("# {said}\n{}", store::text(&failure.small)))?;
    println!("\n{said}");
    println!("replay: cargo run --release -- replay {}", file.display());
    Ok(())
}

fn replay(file: &str) -> Result<bool, Box<dyn Error>> {
    ready()?;
    let text =
        String::from_utf8(bytes(Path::new(file))?).map_err(|_| format!("{file}: no saved call"))?;
    let case = store::case(&text).map_err(|error| format!("{file}: {error}"))?;
    let (one, other) = (proved(&case), plain(&case));
    println!("operation {}", case.op.name());
    println!("proved: {}", one.outcome());
    println!("plain:  {}", other.outcome());
    match one.difference(&other) {
        Some(difference) => println!("differ: {difference}"),
        None => println!("no difference"),
    }
    Ok(one == other)
}

fn folders_compared(folders: &[&str]) -> Result<bool, Box<dyn Error>> {
    ready()?;
    let mut counts = folder::Counts::default();
    let (mut count, mut disagreements) = (0, 0);
    let mut both = folder::Both {
        proved,
        plain,
        counts: &mut counts,
    };
    for folder in folders {
        for file in blobs(folder)? {
            count += 1;
            if let Err(case) = both.compare(&bytes(&file)?) {
                println!("{}:", file.display());
                let name = file.file_stem().unwrap_or_default().to_string_lossy();
                let failure = Failure::new(0, *case, proved, plain);
                save(Path::new("failed"), &name, &failure)?;
                disagreements += 1;
            }
        }
    }
    println!("\n{}", counts.table.text());
    paths_shown(&counts.paths);
    places_shown(&counts.places);
    publishes_shown(&counts.publishes);
    println!(
        "{} calls on {count} blobs, {disagreements} disagreements",
        grouped(counts.table.total())
    );
    Ok(disagreements == 0)
}

fn checksums_compared(folders: &[&str]) -> Result<bool, Box<dyn Error>> {
    ready()?;
    let mut sums = Sums::default();
    for folder in folders {
        for file in blobs(folder)? {
            sums.count(&file.display().to_string(), &bytes(&file)?, proved, plain);
        }
    }
    println!("{}", sums.text());
    Ok(sums.differ.is_empty())
}

#[cfg(not(feature = "esri"))]
fn esri(_: &[&str]) -> Result<bool, Box<dyn Error>> {
    Err("built without Esri's library: cargo run --release --features esri -- esri".into())
}

#[cfg(feature = "esri")]
fn esri(rest: &[&str]) -> Result<bool, Box<dyn Error>> {
    use compare::esri;
    ready()?;
    let mut tally = esri::Tally::default();
    if rest.is_empty() || rest[0].starts_with("--") {
        let options = Options::of(rest, &["--blobs", "--seed"], &["--overflow"])?;
        let made = match options.word("--overflow") {
            Some(_) => esri::made_to_overflow,
            None => esri::made,
        };
        let seed = options.number("--seed", 1)?;
        let blobs = options.number("--blobs", 100_000)?;
        println!("seed {seed}");
        for blob in 0..blobs {
            tally.count(&format!("blob {blob}"), &made(seed, blob));
        }
    } else {
        for folder in rest {
            for file in blobs(folder)? {
                tally.count(&file.display().to_string(), &bytes(&file)?);
            }
        }
    }
    paths_shown(&tally.paths);
    println!("{}", tally.text());
    Ok(tally.differ.is_empty())
}
