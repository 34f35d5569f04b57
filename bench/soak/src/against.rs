//! One against all: an outstation, or a control centre, that sends as fast as it can, beside others that are quiet.
use crate::board::Phase;
use crate::centre::Habit;
use crate::gateway::{Gateway, Station};
use crate::histogram::Histogram;
use crate::outstation::{Flood, Manner};
use crate::rhythm::Rhythm;
use crate::scene::Scene;
use crate::system::{now_us, processor_seconds, sleep_us};
use crate::verdict::{Totals, REST_US};
use crate::Options;
use std::ops::Range;
use std::sync::atomic::Ordering::Relaxed;

const SECOND_US: u64 = 1_000_000;
const PATIENCE_US: u64 = 60 * SECOND_US;
const OUTSTATIONS: usize = 32;
/// The outstations that never flood.
const QUIET: Range<usize> = 1..OUTSTATIONS;
const CLIENTS: usize = 8;
const POINTS: u16 = 40;
/// How many events a quiet outstation has a second.
const QUIET_RATE: f64 = 5.0;

/// A part of what is measured: its title, what outstation 0 does, and whether control centre 0 floods.
type Part = (&'static str, Flood, bool);

/// One outstation at line rate beside 31: first without it, then with one that obeys confirmations, with one that
/// doesn't, and, to compare, with one that waits for all control centres of itself.
pub fn outstation(options: &Options) -> Result<(), String> {
    measure_all(
        options,
        &[
            ("all quiet", Flood::Never, false),
            ("one outstation obeys confirmations", Flood::Confirmed, false),
            ("one outstation obeys none", Flood::Blind, false),
            ("one outstation waits for all clients", Flood::Paced, false),
        ],
    )
}

/// One control centre at line rate beside 7: first without it.
pub fn client(options: &Options) -> Result<(), String> {
    measure_all(options, &[("all quiet", Flood::Never, false), ("one client floods", Flood::Never, true)])
}

/// Measures one part after the other, and tells at the end in which the goal was missed.
fn measure_all(options: &Options, parts: &[Part]) -> Result<(), String> {
    let mut missed = Vec::new();
    for part in parts {
        missed.extend(measure(options, *part)?);
    }
    match missed.is_empty() {
        true => Ok(()),
        false => Err(format!("the goal was missed: {}", missed.join("; "))),
    }
}

/// Measures a part; how it misses the goal, if it does.
fn measure(options: &Options, (title, flood, client_floods): Part) -> Result<Option<String>, String> {
    let manner = |number: usize| Manner {
        is_unsolicited: true,
        analogs: POINTS,
        counters: 0,
        events_a_second: QUIET_RATE,
        together: 1,
        is_wild: false,
        flood: if number == 0 { flood } else { Flood::Never },
    };
    let habit = |number: usize| Habit { is_slow: false, is_wild: false, floods: client_floods && number == 0 };
    let manners: Vec<Manner> = (0..OUTSTATIONS).map(manner).collect();
    let habits: Vec<Habit> = (0..CLIENTS).map(habit).collect();
    let station = Station { queue: options.queue, k: 12, w: 8, controls: 0 };
    let scene = Scene::new(options.seed, Rhythm::of_system(), station, &manners, &habits);
    println!("{title}");
    let mut totals = Totals::default();
    scene.run(options, |gateway, come| {
        come(gateway);
        play(&scene, gateway, options.seconds * SECOND_US, &mut totals)
    })?;
    Ok(options.goal.and_then(|it| shortfall(&scene, &totals, it)).map(|it| format!("{title}: {it}")))
}

fn play(scene: &Scene, gateway: &mut Gateway, length_us: u64, totals: &mut Totals) -> Result<(), String> {
    let are_ready = || scene.desks.iter().all(|it| it.is_ready.load(Relaxed));
    scene.wait(PATIENCE_US, "all clients are answered their first interrogation", are_ready)?;
    for desk in &scene.desks {
        desk.latency.lock().unwrap().iter_mut().for_each(|it| *it = Histogram::new());
    }
    let before = [gateway.process(), std::process::id()].map(processor_seconds);
    let (began, events) = (now_us(), scene.sites[0].counts.events.load(Relaxed));
    let end = began + length_us;
    scene.wait(length_us + SECOND_US, "the time is over", || now_us() >= end)?;
    let seconds = (now_us() - began) as f64 / SECOND_US as f64;
    let after = [gateway.process(), std::process::id()].map(processor_seconds);
    let flood_rate = (scene.sites[0].counts.events.load(Relaxed) - events) as f64 / seconds;
    scene.board.enter(Phase::Quiet);
    scene.wait(PATIENCE_US, "all clients have taken what waits for them", || scene.have_all_left())?;
    sleep_us(REST_US + SECOND_US / 10);
    totals.judge(scene, gateway)?;
    report(scene, totals, seconds, flood_rate);
    let [own, load] = [0, 1].map(|it| (after[it] - before[it]) / seconds * 100.0);
    println!("  processor             gateway {own:.0} %, this program {load:.0} %");
    Ok(())
}

/// The time of news from outstations on to the clients that don't flood.
fn latency(scene: &Scene, sites: Range<usize>) -> Histogram {
    let mut all = Histogram::new();
    for desk in scene.desks.iter().filter(|it| !it.habit.floods) {
        desk.latency.lock().unwrap()[sites.clone()].iter().for_each(|it| all.merge(it));
    }
    all
}

/// What is missing of the news of these outstations at these control centres.
fn missing(scene: &Scene, totals: &Totals, sites: Range<usize>, is_of: impl Fn(&Habit) -> bool) -> u64 {
    let of_clients = scene.desks.iter().zip(&totals.missing).filter(|it| is_of(&it.0.habit));
    of_clients.map(|it| it.1[sites.clone()].iter().sum::<u64>()).sum()
}

/// What keeps quiet outstations' news from coming as they should to the clients that don't flood.
fn shortfall(scene: &Scene, totals: &Totals, goal_ms: f64) -> Option<String> {
    let (most, lost) = (latency(scene, QUIET).at(0.99), missing(scene, totals, QUIET, |it| !it.floods));
    (most > goal_ms || lost > 0).then(|| format!("p99 {most:.2} ms, {lost} missing"))
}

fn report(scene: &Scene, totals: &Totals, seconds: f64, flood_rate: f64) {
    println!("  quiet outstations     {}", latency(scene, QUIET));
    println!("  outstation 0          {}, {flood_rate:.0} events a second", latency(scene, 0..1));
    for desk in scene.desks.iter().filter(|it| it.habit.floods) {
        let each = |it: &std::sync::atomic::AtomicU64| it.load(Relaxed) as f64 / seconds;
        let (tests, s_formats) = (each(&desk.counts.tests), each(&desk.counts.s_formats));
        println!("  the flooding client   {tests:.0} tests and {s_formats:.0} S formats a second");
    }
    let [quiet, of_first] = [QUIET, 0..1].map(|it| missing(scene, totals, it, |_| true));
    println!("  missing               {quiet} of quiet outstations, {of_first} of outstation 0");
    println!("  dropped of each       {:?}", totals.dropped_of);
    println!("  data transfers        {}, balanced exactly {}", totals.sessions, totals.exact);
}
