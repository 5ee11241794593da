//! Compares the linked engine, or a mock, with the model. See README.md.

use rozhinal_tests::engine::{DayProgram, Engine};
use rozhinal_tests::harness::days::DayBinary;
use rozhinal_tests::mock::{Mock, Wrong};
use rozhinal_tests::run::{run, Plan};
use std::path::PathBuf;
use std::process::ExitCode;
use std::time::{Instant, SystemTime, UNIX_EPOCH};

const USAGE: &str =
    "differential [--self] [--trace] [--alone] [--seed N] [--calls N] [--offices N] \
     [--pairs N] [--older N] [--closes N] [--before N] [--choices N] [--orders N] [--swaps N] \
     [--editions N] [--spreads N] [--forgotten N] [--large N] [--days N] [--part N]";

/// What a run compares unless it is told otherwise; its seed is then the clock's.
const PLAN: Plan = Plan {
    seed: 0,
    fixed: true,
    calls: 600_000,
    offices: 5_000,
    pairs: 50_000,
    older: 5_000,
    closes: 5_000,
    before: 5_000,
    choices: 5_000,
    orders: 216,
    swaps: 5_000,
    editions: 2_000,
    spreads: 2_000,
    forgotten: 5_000,
    large: 200,
    days: 1_000,
    alone: false,
    only: None,
    trace: false,
};

struct Options {
    mock: bool,
    plan: Plan,
}

fn main() -> ExitCode {
    match options().and_then(compare) {
        Ok(()) => ExitCode::SUCCESS,
        Err(trouble) => {
            println!("{trouble}\nFAILED");
            ExitCode::FAILURE
        }
    }
}

fn options() -> Result<Options, String> {
    let clock = SystemTime::now().duration_since(UNIX_EPOCH).map_or(1, |d| d.as_nanos() as u64);
    let mut options = Options { mock: false, plan: Plan { seed: clock, ..PLAN } };
    let mut words = std::env::args().skip(1);
    while let Some(word) = words.next() {
        match word.as_str() {
            "--self" => {
                options.mock = true;
                continue;
            }
            "--trace" => {
                options.plan.trace = true;
                continue;
            }
            "--alone" => {
                options.plan.alone = true;
                continue;
            }
            _ => {}
        }
        let number = words.next().and_then(|n| n.parse().ok()).ok_or(USAGE)?;
        match word.as_str() {
            "--seed" => options.plan.seed = number,
            "--calls" => options.plan.calls = number,
            "--offices" => options.plan.offices = number,
            "--pairs" => options.plan.pairs = number,
            "--older" => options.plan.older = number,
            "--closes" => options.plan.closes = number,
            "--before" => options.plan.before = number,
            "--choices" => options.plan.choices = number,
            "--orders" => options.plan.orders = number,
            "--swaps" => options.plan.swaps = number,
            "--editions" => options.plan.editions = number,
            "--spreads" => options.plan.spreads = number,
            "--forgotten" => options.plan.forgotten = number,
            "--large" => options.plan.large = number,
            "--days" => options.plan.days = number,
            "--part" => options.plan.only = Some(number),
            _ => return Err(USAGE.to_string()),
        }
    }
    Ok(options)
}

fn compare(options: Options) -> Result<(), String> {
    println!("seed {}", options.plan.seed);
    let mut engine = engine(options.mock)?;
    let mut day = day_program(options.mock)?;
    let start = Instant::now();
    let program = day.as_mut().map(|d| d as &mut dyn DayProgram);
    let tally = run(&options.plan, engine.as_mut(), program)?;
    println!("{tally}");
    println!("no difference; {:.1} seconds", start.elapsed().as_secs_f64());
    Ok(())
}

fn engine(mock: bool) -> Result<Box<dyn Engine>, String> {
    if mock {
        println!("engine: a mock in this program");
        return Ok(Box::new(Mock(Wrong::Nothing)));
    }
    linked()
}

#[cfg(engine)]
fn linked() -> Result<Box<dyn Engine>, String> {
    println!("engine: the linked library");
    Ok(Box::new(rozhinal_tests::ffi::Linked))
}

#[cfg(not(engine))]
fn linked() -> Result<Box<dyn Engine>, String> {
    Err("no engine is linked: build with ROZHINAL_LIB_DIR set, or give --self".to_string())
}

/// The binary that ROZHINAL_DAY_BIN names; else, for a mock, the model's own beside this one.
fn day_program(mock: bool) -> Result<Option<DayBinary>, String> {
    let named = std::env::var_os("ROZHINAL_DAY_BIN").filter(|b| !b.is_empty()).map(PathBuf::from);
    let beside = std::env::current_exe().ok().map(|e| e.with_file_name("model_day"));
    let binary = named.or(beside.filter(|b| mock && b.is_file()));
    match binary {
        Some(binary) => {
            println!("day program: {}", binary.display());
            Ok(Some(DayBinary::new(&binary)?))
        }
        None => {
            println!("day program: none given (ROZHINAL_DAY_BIN); days are SKIPPED");
            Ok(None)
        }
    }
}
