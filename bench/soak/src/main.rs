//! Plays outstations and control centres round `gateway run`, and judges what it makes of them (README.md).
mod against;
mod apdu;
mod board;
mod calendar;
mod centre;
mod clock;
mod connection;
mod gateway;
mod heap;
mod histogram;
mod ledger;
mod link;
mod outstation;
mod preload;
mod random;
mod rhythm;
mod round;
mod scene;
mod selection;
mod session;
mod soak;
mod system;
mod timers;
mod verdict;
mod watch;

use std::process::{Command, ExitCode};

/// The program that is taken where none is named.
const PROGRAM: &str = concat!(env!("CARGO_MANIFEST_DIR"), "/../../crates/gw_program/out/gw_program");

const HELP: &str = "soak WHAT [OPTIONS]
WHAT is `soak`, `day`, `outstation` or `client`: peers that make trouble, the same for a day by a clock that is many
times as fast, an outstation at line rate beside 31 others, a control centre at line rate beside 7 others.
  --gateway WORDS       the program and further options of `gateway run` (the one that is built in this repository)
  --seconds S           how long, or how long each part (60; of a day as long as it takes)
  --seed N              of what is done by chance (1)
  --queue Q             observations that may wait for a client (200; of a day 2000)
  --speed N             of a day, how many times as fast the gateway's clock is, 24 to 60 (48)
  --outstations N       of the soak, 1 to 32 (8)       --clients N     1 to 8 (6)
  --slow N              of them read slowly (2)        --rate EVENTS   a second of each outstation (150; of a day 4)
  --goal MS             of one against all, the most that 99 of 100 events of quiet outstations may take to a control
                        centre that doesn't flood, which none of them may miss (nothing is wanted)
The status is 0, 1 where something isn't as it has to be, or 2.";

const DAY_SECONDS: u64 = 86_400;

pub struct Options {
    pub gateway: Vec<String>,
    pub seconds: u64,
    pub seed: u64,
    pub queue: u32,
    pub outstations: usize,
    pub clients: usize,
    pub slow: usize,
    pub rate: f64,
    pub speed: u64,
    /// Whether the gateway counts what it has of the heap.
    pub counts: bool,
    /// In milliseconds, what one against all may make of others.
    pub goal: Option<f64>,
}

fn defaults(is_day: bool, counts: bool) -> Options {
    Options {
        gateway: vec![PROGRAM.to_string()],
        seconds: if is_day { 0 } else { 60 },
        seed: 1,
        queue: if is_day { 2000 } else { 200 },
        outstations: 8,
        clients: 6,
        slow: 2,
        rate: if is_day { 4.0 } else { 150.0 },
        speed: 48,
        counts,
        goal: None,
    }
}

/// Whether the program that is taken where none is named is proved, and of the sources as they are.
fn is_fresh() -> bool {
    let root = concat!(env!("CARGO_MANIFEST_DIR"), "/../..");
    let asked = "root=$1; . \"$1/tools/freshness.sh\"; is_fresh \"$2\"";
    let status = Command::new("bash").args(["-c", asked, "bash", root, PROGRAM]).status();
    status.is_ok_and(|it| it.success())
}

fn options(what: &str, words: &mut dyn Iterator<Item = String>) -> Option<Options> {
    let mut options = defaults(what == "day", matches!(what, "soak" | "day"));
    while let Some(name) = words.next() {
        let value = words.next()?;
        match name.as_str() {
            "--gateway" => options.gateway = value.split_whitespace().map(str::to_string).collect(),
            "--seconds" => options.seconds = value.parse().ok()?,
            "--seed" => options.seed = value.parse().ok()?,
            "--queue" => options.queue = value.parse().ok()?,
            "--outstations" => options.outstations = value.parse().ok().filter(|it| (1..=32).contains(it))?,
            "--clients" => options.clients = value.parse().ok().filter(|it| (1..=8).contains(it))?,
            "--slow" => options.slow = value.parse().ok()?,
            "--rate" => options.rate = value.parse().ok().filter(|it| *it > 0.0)?,
            "--speed" => options.speed = value.parse().ok().filter(|it| (24..=60).contains(it))?,
            "--goal" => options.goal = Some(value.parse().ok().filter(|it| *it > 0.0)?),
            _ => return None,
        }
    }
    if options.seconds == 0 {
        options.seconds = DAY_SECONDS / options.speed;
    }
    Some(options)
}

fn main() -> ExitCode {
    let mut words = std::env::args().skip(1);
    let what = words.next().unwrap_or_default();
    let options = options(&what, &mut words);
    if options.as_ref().is_some_and(|it| it.gateway == [PROGRAM]) && !is_fresh() {
        eprintln!("soak: no proved program of these sources stands: ./gateway --prove proves and builds it");
        return ExitCode::FAILURE;
    }
    let result = match (what.as_str(), options) {
        ("soak", Some(options)) => soak::run(&options),
        ("day", Some(options)) => soak::day(&options),
        ("outstation", Some(options)) => against::outstation(&options),
        ("client", Some(options)) => against::client(&options),
        _ => {
            eprintln!("{HELP}");
            return ExitCode::from(2);
        }
    };
    match result {
        Ok(()) => ExitCode::SUCCESS,
        Err(fault) => {
            println!("fault: {fault}");
            ExitCode::FAILURE
        }
    }
}
