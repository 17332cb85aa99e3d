//! The comparison: runs the worked cases, the captures and the generated calls through every
//! implementation there is, and fails at the first difference.

use second::classic;
use second::comparison::{Compared, Comparison};
use second::driver::{captures, judged, listing, reports, run_part, Part, Plan, PARTS};
use second::face::Model;
use second::implementation::Implementation;
use second::judge;
use std::io::{Read, Write};
use std::path::PathBuf;
use std::process::ExitCode;
use std::sync::atomic::{AtomicUsize, Ordering};
use std::time::Instant;

/// Takes some three minutes of processor time for the model and the library.
const SCALE: f64 = 5.0;

/// How many parts are run at a time.
const AT_A_TIME: usize = 2;

const USAGE: &str = "\
usage: second [--seed N] [--scale K] [--captures FOLDER] [--frames PROGRAM] [--lawful PROGRAM]
              [--report PROGRAM] [--only WORD] [--tally]
       second frames < BYTES
       second lawful < ROOM, LIMIT, CAPTURE

  --seed N           the generators' seed (default 1)
  --scale K          how many cases they make; 1 is a million streams, a million packets and a
                     million control messages; K may be a fraction (default 5)
  --captures FOLDER  where the captures stand (default: the folder beside the program's sources)
  --frames PROGRAM   also holds what this program lists of streams to `second frames`
  --lawful PROGRAM   also holds what this program says of captures to `second lawful`
  --report PROGRAM   also holds what this program prints of captures to the model's report
  --only WORD        only the parts whose name has this word
  --tally            how often each call returned each number
";

/// What the command line asks for.
struct Wanted {
    plan: Plan,
    captures: PathBuf,
    frames: Option<PathBuf>,
    lawful: Option<PathBuf>,
    report: Option<PathBuf>,
    only: String,
    tally: bool,
}

fn wanted(mut words: impl Iterator<Item = String>) -> Result<Wanted, String> {
    let mut wanted = Wanted {
        plan: Plan {
            seed: 1,
            scale: SCALE,
        },
        captures: [env!("CARGO_MANIFEST_DIR"), "captures"].iter().collect(),
        frames: None,
        lawful: None,
        report: None,
        only: String::new(),
        tally: false,
    };
    while let Some(word) = words.next() {
        let mut next = || words.next().ok_or(format!("{word} needs a value"));
        match word.as_str() {
            "--seed" => {
                wanted.plan.seed = next()?.parse().map_err(|_| "--seed needs a number")?;
            }
            "--scale" => {
                let scale: f64 = next()?.parse().map_err(|_| "--scale needs a number")?;
                if !(scale > 0.0 && scale <= 1e6) {
                    return Err("--scale needs a number above 0".to_string());
                }
                wanted.plan.scale = scale;
            }
            "--captures" => wanted.captures = next()?.into(),
            "--frames" => wanted.frames = Some(next()?.into()),
            "--lawful" => wanted.lawful = Some(next()?.into()),
            "--report" => wanted.report = Some(next()?.into()),
            "--only" => wanted.only = next()?,
            "--tally" => wanted.tally = true,
            other => return Err(format!("unknown word {other}")),
        }
    }
    Ok(wanted)
}

fn main() -> ExitCode {
    let mut words = std::env::args().skip(1).peekable();
    match words.peek().map(String::as_str) {
        Some("frames") => return filter(classic::listing),
        Some("lawful") => return filter(judge::line),
        _ => {}
    }
    let wanted = match wanted(words) {
        Ok(wanted) => wanted,
        Err(problem) => {
            eprint!("{problem}\n\n{USAGE}");
            return ExitCode::from(2);
        }
    };
    let captures = match captures::load(&wanted.captures) {
        Ok(captures) => captures,
        Err(problem) => {
            eprintln!("{problem}");
            return ExitCode::from(2);
        }
    };
    if let Err(problem) = programs(&wanted, &captures) {
        eprintln!("{problem}\nFAILED, with --seed {}", wanted.plan.seed);
        return ExitCode::FAILURE;
    }
    let implementations: Vec<&dyn Implementation> = vec![
        &Model,
        #[cfg(feature = "library")]
        &second::library::Library,
    ];
    match run(&implementations, &wanted, &captures) {
        Ok(comparison) => finish(&comparison, &wanted),
        Err(difference) => {
            let Plan { seed, scale } = wanted.plan;
            eprint!("{}", difference.0);
            eprintln!("FAILED, with --seed {seed} --scale {scale}");
            ExitCode::FAILURE
        }
    }
}

/// Holds the programs that were named to what the model prints.
fn programs(wanted: &Wanted, captures: &[captures::Capture]) -> Result<(), String> {
    if let Some(program) = &wanted.frames {
        let count = listing::run(program, captures, wanted.plan)?;
        println!("frames: {count} streams listed, no difference");
    }
    if let Some(program) = &wanted.lawful {
        let count = judged::run_program(program, captures, wanted.plan)?;
        println!("lawful: {count} inputs judged, no difference");
    }
    if let Some(program) = &wanted.report {
        let count = reports::run_program(program, captures, wanted.plan)?;
        println!("report: {count} files reported, no difference");
    }
    Ok(())
}

/// The captures, then the parts, some at a time, each thread on a comparison of its own.
fn run<'i>(
    implementations: &[&'i dyn Implementation],
    wanted: &Wanted,
    captures: &[captures::Capture],
) -> Compared<Comparison<'i>> {
    let mut comparison = Comparison::new(implementations);
    let Plan { seed, scale } = wanted.plan;
    println!(
        "implementations: {}; seed {seed}, scale {scale}",
        comparison.names().join(", ")
    );
    if "captures".contains(&wanted.only) {
        timed("captures", &mut comparison, |comparison| {
            captures
                .iter()
                .try_for_each(|capture| captures::run(comparison, capture))
        })?;
    }
    let named = |part: &&Part| part.name.contains(&wanted.only);
    let parts: Vec<&Part> = PARTS.iter().filter(named).collect();
    let next = AtomicUsize::new(0);
    let work = || -> Compared<Comparison<'i>> {
        let mut comparison = Comparison::new(implementations);
        while let Some(part) = parts.get(next.fetch_add(1, Ordering::Relaxed)) {
            timed(part.name, &mut comparison, |comparison| {
                run_part(part, comparison, wanted.plan)
            })
            // After a difference no part is begun.
            .inspect_err(|_| next.store(parts.len(), Ordering::Relaxed))?;
        }
        Ok(comparison)
    };
    std::thread::scope(|scope| {
        let threads: Vec<_> = (0..AT_A_TIME).map(|_| scope.spawn(work)).collect();
        for thread in threads {
            comparison.absorb(&thread.join().expect("no thread panics")?);
        }
        Ok(comparison)
    })
}

/// Runs a part and says how long it took.
fn timed<'i>(
    name: &str,
    comparison: &mut Comparison<'i>,
    work: impl FnOnce(&mut Comparison<'i>) -> Compared<()>,
) -> Compared<()> {
    let (start, before) = (Instant::now(), comparison.calls());
    work(comparison)?;
    let calls = comparison.calls() - before;
    let seconds = start.elapsed().as_secs_f64();
    println!("  {name}: {calls} calls, {seconds:.1} s");
    Ok(())
}

/// What a run without a difference ends with.
fn finish(comparison: &Comparison<'_>, wanted: &Wanted) -> ExitCode {
    if wanted.tally {
        print!("{}", comparison.tally());
    }
    let missing = comparison.never_met();
    if wanted.only.is_empty() && !missing.is_empty() {
        println!("never met: {}", missing.join("; "));
        // A short run may miss some; a run of full size may not.
        if wanted.plan.scale >= 0.1 {
            return ExitCode::FAILURE;
        }
    }
    let names = comparison.names();
    let calls = comparison.calls();
    match names.as_slice() {
        [one] => println!("{calls} calls on {one} alone: nothing was compared"),
        names => println!(
            "{calls} calls compared, no difference: {}",
            names.join(", ")
        ),
    }
    ExitCode::SUCCESS
}

/// What is said of standard input.
fn filter(say: impl Fn(&[u8]) -> String) -> ExitCode {
    let mut input = Vec::new();
    let done = std::io::stdin()
        .read_to_end(&mut input)
        .and_then(|_| std::io::stdout().write_all(say(&input).as_bytes()));
    match done {
        Ok(()) => ExitCode::SUCCESS,
        Err(error) => {
            eprintln!("{error}");
            ExitCode::FAILURE
        }
    }
}
