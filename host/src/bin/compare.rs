//! Compares the proved archive with the model on many random calls, or the model with its planted faults.

use std::process::ExitCode;
use std::time::Instant;

use stled325_host::driver::Driver;
use stled325_host::model::fault::Fault;
use stled325_host::model::Model;
use stled325_host::panel::Panel;

const HELP: &str = "\
compare: the STLED325 archive against an independent model of its rules

usage: compare [--seed N] [--calls N] [--faults] [--help]

  --seed N    start of the random sequence (default 1)
  --calls N   random calls to make, after the sweeps (default 5000000);
              with --faults, the most calls that a fault may take to be found (default 2000000)
  --faults    leave the archive out: the model stands in for it, and each of the
              planted faults must be found by the same random calls
  --help      this text

Status 0: no difference (with --faults: every fault found) and every counter reached.
Status 1: a difference, a fault not found, or a counter that stayed at 0
          (fewer than half a million random calls may well miss one).
Status 2: wrong options, or no archive to compare with.
";

struct Options {
    seed: u64,
    calls: Option<u64>,
    faults: bool,
}

fn options() -> Result<Option<Options>, String> {
    let mut options = Options { seed: 1, calls: None, faults: false };
    let mut words = std::env::args().skip(1);
    while let Some(word) = words.next() {
        let mut number = || -> Result<u64, String> {
            let text = words.next().ok_or(format!("{word} needs a number"))?;
            text.replace('_', "").parse().map_err(|_| format!("{word}: {text} is no number"))
        };
        match word.as_str() {
            "--seed" => options.seed = number()?,
            "--calls" => options.calls = Some(number()?),
            "--faults" => options.faults = true,
            "--help" => return Ok(None),
            _ => return Err(format!("unknown option {word}")),
        }
    }
    Ok(Some(options))
}

fn main() -> ExitCode {
    match options() {
        Err(fault) => {
            eprintln!("compare: {fault}\n\n{HELP}");
            ExitCode::from(2)
        }
        Ok(None) => {
            print!("{HELP}");
            ExitCode::SUCCESS
        }
        Ok(Some(options)) if options.faults => find_faults(&options),
        Ok(Some(options)) => compare_archive(&options),
    }
}

#[cfg(archive)]
fn compare_archive(options: &Options) -> ExitCode {
    println!("first: the archive {}; second: the model", env!("STLED325_ARCHIVE"));
    compare(stled325_host::calls::Archive, Model::correct(), options)
}

#[cfg(not(archive))]
fn compare_archive(_: &Options) -> ExitCode {
    eprintln!(
        "compare: there was no archive {} when this program was built.\n\
         Make it with `bash tools/archive`, or name its folder in STLED325_LIB_DIR, and build again.\n\
         (`compare --faults` needs no archive.)",
        env!("STLED325_ARCHIVE")
    );
    ExitCode::from(2)
}

/// Sweeps and random calls over both panels; any difference and any counter left at 0 is a failure.
#[cfg_attr(not(archive), allow(dead_code))]
fn compare(first: impl Panel, second: impl Panel, options: &Options) -> ExitCode {
    let begin = Instant::now();
    let mut driver = Driver::new(first, second, options.seed);
    let calls = options.calls.unwrap_or(5_000_000);
    let played = driver.sweep().and_then(|()| {
        let swept = driver.coverage.calls;
        driver.play(swept + calls)
    });
    if let Err(finding) = played {
        println!("difference at call {} with seed {}\n{finding}", driver.coverage.calls + 1, options.seed);
        return ExitCode::FAILURE;
    }
    let missing = driver.coverage.report();
    let seconds = begin.elapsed().as_secs_f64();
    let calls = driver.coverage.calls;
    println!("{calls} calls, seed {}, {seconds:.1} s, {:.0} calls/s", options.seed, calls as f64 / seconds);
    for name in &missing {
        println!("never reached: {name}");
    }
    if missing.is_empty() {
        println!("no difference");
        ExitCode::SUCCESS
    } else {
        ExitCode::FAILURE
    }
}

/// The right model stands in for the archive against each faulty one.
fn find_faults(options: &Options) -> ExitCode {
    let bound = options.calls.unwrap_or(2_000_000);
    let mut lost = 0;
    for &fault in Fault::ALL {
        let mut driver = Driver::new(Model::correct(), Model::with(fault), options.seed);
        match driver.play(bound) {
            Err(finding) => println!(
                "fault {:2}: {}: found at call {} by {}",
                fault.number(),
                fault.words(),
                driver.coverage.calls + 1,
                finding.by()
            ),
            Ok(()) => {
                println!("fault {:2}: {}: NOT FOUND in {bound} calls", fault.number(), fault.words());
                lost += 1;
            }
        }
    }
    let count = Fault::ALL.len();
    println!("{} of {count} planted faults found, seed {}", count - lost, options.seed);
    if lost == 0 {
        ExitCode::SUCCESS
    } else {
        ExitCode::FAILURE
    }
}
