//! The soak: peers that make trouble for a long time, in cycles that end in quiet; and a day that takes less.
use crate::board::Phase;
use crate::calendar::date;
use crate::centre::Habit;
use crate::gateway::{Gateway, Station};
use crate::histogram::Histogram;
use crate::outstation::{Flood, Manner};
use crate::rhythm::Rhythm;
use crate::scene::Scene;
use crate::system::{now_us, processor_seconds, sleep_us, Holds};
use crate::verdict::{Totals, REST_US};
use crate::Options;
use std::ops::Range;
use std::sync::atomic::Ordering::Relaxed;

const SECOND_US: u64 = 1_000_000;
/// How long the peers of a cycle make trouble, are calm, and in a day do nothing; and how long it may take until all
/// was taken then.
const WILD_US: u64 = 60 * SECOND_US;
const CALM_US: u64 = 8 * SECOND_US;
const STILL_US: u64 = 15 * SECOND_US;
const QUIET_US: u64 = 60 * SECOND_US;
const LOOK_US: u64 = 100_000;
/// After how long all has come that a day has.
const LONG_US: u64 = 120 * SECOND_US;
/// How much the process's own memory, and what it has of the heap, may grow from the first third of the time to the
/// last, the first minute left out, where there are so many samples.
const GROWTH_KB: u64 = 256;
const HEAP_GROWTH_KB: u64 = 128;
const WARM: usize = 60;
const SAMPLES: usize = 240;
const ANALOGS: u16 = 60;
const COUNTERS: u16 = 30;

/// The process's memory that isn't of files, and what it has of the heap.
const OWN: fn(&Holds) -> u64 = |it| it.own_kb;
const HEAP: fn(&Holds) -> u64 = |it| it.heap_kb;

/// A name and what is told of it.
type Row = (&'static str, String);

struct Soak<'a> {
    scene: &'a Scene,
    gateway: &'a mut Gateway,
    is_day: bool,
    totals: Totals,
    /// What the gateway held each second.
    samples: Vec<Holds>,
}

/// Peers make as much trouble as they can.
pub fn run(options: &Options) -> Result<(), String> {
    play(options, Rhythm::of_system(), false)
}

/// A day by a clock that is many times as fast.
pub fn day(options: &Options) -> Result<(), String> {
    play(options, Rhythm::of_day(options.speed, options.seed), true)
}

/// Plays for so many seconds; prints what was seen.
fn play(options: &Options, rhythm: Rhythm, is_day: bool) -> Result<(), String> {
    let manner = |number: usize| Manner {
        is_unsolicited: number.is_multiple_of(2),
        analogs: ANALOGS,
        counters: COUNTERS,
        events_a_second: options.rate,
        together: if is_day { 3 } else { 10 },
        is_wild: true,
        flood: Flood::Never,
    };
    let habit = |number: usize| Habit { is_slow: number < options.slow, is_wild: true, floods: false };
    let manners: Vec<Manner> = (0..options.outstations).map(manner).collect();
    let habits: Vec<Habit> = (0..options.clients).map(habit).collect();
    let station = Station { queue: options.queue, k: 12, w: 8, controls: if is_day { options.clients } else { 0 } };
    let scene = Scene::new(options.seed, rhythm, station, &manners, &habits);
    let steps = scene.run(options, |gateway, come| {
        let before = gateway.holds();
        come(gateway);
        let (totals, samples) = (Totals::default(), Vec::new());
        let mut soak = Soak { scene: &scene, gateway, is_day, totals, samples };
        let played = soak.play(options.seconds * SECOND_US);
        let after = soak.gateway.holds();
        print!("{}", soak.report(before, after));
        played.and_then(|()| soak.judge_holds(before, after)).and_then(|()| soak.judge_counts())
    })?;
    println!("the gateway ended by itself: {steps}");
    Ok(())
}

fn median(samples: &[Holds], range: Range<usize>, of: fn(&Holds) -> u64) -> u64 {
    let mut memory: Vec<u64> = samples[range].iter().map(of).collect();
    memory.sort();
    memory.get(memory.len() / 2).copied().unwrap_or(0)
}

impl Soak<'_> {
    fn play(&mut self, length_us: u64) -> Result<(), String> {
        let end = now_us() + length_us;
        while now_us() < end {
            self.scene.board.enter(Phase::Wild);
            let wild = WILD_US.min(end.saturating_sub(now_us()));
            self.watch(wild, |_| false)?;
            self.scene.board.enter(Phase::Calm);
            self.watch(CALM_US, |_| false)?;
            if self.is_day {
                self.scene.board.enter(Phase::Still);
                self.watch(STILL_US, |_| false)?;
            }
            self.scene.board.enter(Phase::Quiet);
            self.watch(QUIET_US, Scene::have_all_left)?;
            if !self.scene.have_all_left() {
                return Err("a client doesn't come to an end of what waits for it".to_string());
            }
            // What ended in quiet is judged before outstations are lost again.
            self.watch(REST_US + LOOK_US, |_| false)?;
        }
        Ok(())
    }

    /// Judges what has ended, and looks what the gateway holds, for so long or until something is so.
    fn watch(&mut self, length_us: u64, is_over: impl Fn(&Scene) -> bool) -> Result<(), String> {
        let (end, mut sample_us) = (now_us() + length_us, 0);
        while now_us() < end && !is_over(self.scene) {
            if let Some(fault) = self.scene.board.first_fault() {
                return Err(fault);
            }
            if let Some(line) = self.gateway.wrong_line() {
                return Err(line);
            }
            if self.gateway.has_ended() {
                return Err("the gateway has ended".to_string());
            }
            self.totals.judge(self.scene, self.gateway)?;
            if self.scene.board.is_wild() && now_us() >= sample_us {
                sample_us = now_us() + SECOND_US;
                self.samples.push(self.gateway.holds());
            }
            sleep_us(LOOK_US);
        }
        Ok(())
    }

    /// Of memory, what it was in the first and in the last third of the time.
    fn thirds(&self, of: fn(&Holds) -> u64) -> (u64, u64) {
        let count = self.samples.len();
        let begin = if count >= SAMPLES { WARM } else { 0 };
        let third = (count - begin) / 3;
        (median(&self.samples, begin..begin + third, of), median(&self.samples, count - third..count, of))
    }

    fn tenths(&self, of: fn(&Holds) -> u64) -> [u64; 10] {
        let count = self.samples.len();
        std::array::from_fn(|it| median(&self.samples, count * it / 10..count * (it + 1) / 10, of))
    }

    fn judge_holds(&self, before: Holds, after: Holds) -> Result<(), String> {
        if (after.threads, after.descriptors) != (before.threads, before.descriptors) {
            return Err(format!("threads or descriptors are left over: {before:?} before, {after:?} after"));
        }
        for (what, (first, last), most) in
            [("memory", self.thirds(OWN), GROWTH_KB), ("the heap", self.thirds(HEAP), HEAP_GROWTH_KB)]
        {
            if self.samples.len() >= SAMPLES && last > first + most {
                return Err(format!("{what} grows: {first} kB in the first third, {last} kB in the last"));
            }
        }
        Ok(())
    }

    fn report(&self, before: Holds, after: Holds) -> String {
        let mut rows = vec![
            ("seed, queue", format!("{}, {}", self.scene.board.seed, self.scene.station.queue)),
            ("seconds", format!("{}", now_us() / SECOND_US)),
        ];
        rows.extend(self.report_outstations());
        rows.extend(self.report_clients());
        rows.extend(self.report_times());
        if self.is_day {
            rows.extend(self.report_day());
        }
        rows.extend(self.report_gateway(before, after));
        rows.iter().map(|(name, text)| format!("{name:26}{text}\n")).collect()
    }

    fn report_outstations(&self) -> [Row; 3] {
        let scene = self.scene;
        let confirmed: u64 = self.scene.sites.iter().map(|it| it.ledger().confirmed_count).sum();
        let connections =
            format!("{}, ended by them {}", scene.of_sites(|it| &it.connections), scene.of_sites(|it| &it.ended_here));
        let fragments = format!(
            "{}, unsolicited repeated {}, answers given up {}, confirmations taken as lost {}",
            scene.of_sites(|it| &it.fragments),
            scene.of_sites(|it| &it.repeated),
            scene.of_sites(|it| &it.given_up),
            scene.of_sites(|it| &it.withheld)
        );
        let objects = format!(
            "{} events, {} static values; confirmed {confirmed}; buffers overflowed {} times",
            scene.of_sites(|it| &it.events),
            scene.of_sites(|it| &it.statics),
            scene.of_sites(|it| &it.overflowed)
        );
        [("outstations' connections", connections), ("fragments", fragments), ("objects sent", objects)]
    }

    fn report_clients(&self) -> [Row; 7] {
        let totals = &self.totals;
        let mut latency = Histogram::new();
        for desk in self.scene.desks.iter().filter(|it| !it.habit.is_slow) {
            desk.latency.lock().unwrap().iter().for_each(|it| latency.merge(it));
        }
        let connections = self.scene.of_desks(|it| &it.connections);
        let ends: Vec<String> = self.gateway.ends().iter().map(|it| format!("{} {}", it.1, it.0)).collect();
        let Totals { sessions, whole, exact, dropped, left_waiting, .. } = totals;
        let missing: u64 = totals.missing.iter().flatten().sum();
        [
            ("clients' connections", format!("{connections}, judged {}", totals.connections)),
            ("why they ended", ends.join("; ")),
            ("data transfers", format!("{sessions}, that took all {whole}, balanced exactly {exact}")),
            ("observations", format!("{}, losses of points {}", totals.observations, totals.losses)),
            ("interrogations", format!("{} with {} rows", totals.answers, totals.rows)),
            ("missing", format!("{missing}, told as dropped {dropped}; waiting at an end {left_waiting}")),
            ("latency", format!("{latency}")),
        ]
    }

    /// What came by the gateway's clock.
    fn report_times(&self) -> [Row; 3] {
        let scene = self.scene;
        let [events, all] = [0, 1].map(|kind| scene.of_sites(|it| &it.polls[kind]));
        let timers = format!(
            "{} ends by t1, {} S formats, {} tests",
            scene.of_desks(|it| &it.ended_by_t1),
            scene.of_desks(|it| &it.s_formats_came),
            scene.of_desks(|it| &it.tests_came)
        );
        let days: Vec<String> = self.totals.days.iter().map(|it| format!("{} of {}", it.1, date(*it.0))).collect();
        [
            ("polls", format!("{events} for events, {all} for all")),
            ("by the gateway's timers", timers),
            ("time tags", days.join(", ")),
        ]
    }

    /// What a day has besides.
    fn report_day(&self) -> [Row; 4] {
        let (scene, clock) = (self.scene, &self.scene.board.rhythm.clock);
        let behind = scene.sites.iter().map(|it| it.counts.most_behind_ms.load(Relaxed)).max().unwrap_or(0);
        let [events, all] = [0, 1].map(|kind| scene.of_sites(|it| &it.polls_by_period[kind]));
        let tests = scene.of_desks(|it| &it.tests_by_period);
        let commands = format!(
            "{} executed, {} refused behind their selection, {} refused by outstations",
            scene.of_desks(|it| &it.executed),
            scene.of_desks(|it| &it.expired),
            scene.of_desks(|it| &it.refused)
        );
        [
            ("the gateway's clock", format!("from {} to {}", clock.civil(0), clock.civil(now_us()))),
            ("a period behind the last", format!("{events} polls for events, {all} for all, {tests} tests")),
            ("clocks set", format!("{}, {behind} ms behind at most", scene.of_sites(|it| &it.times_set))),
            ("commands", commands),
        ]
    }

    /// All that a day has by the clock has to have come, where it was long enough.
    fn judge_counts(&self) -> Result<(), String> {
        let scene = self.scene;
        let counts = [
            ("poll for events", scene.of_sites(|it| &it.polls_by_period[0])),
            ("integrity poll", scene.of_sites(|it| &it.polls_by_period[1])),
            ("setting of a clock", scene.of_sites(|it| &it.times_set)),
            ("test by t3", scene.of_desks(|it| &it.tests_by_period)),
            ("executed command", scene.of_desks(|it| &it.executed)),
            ("command behind its selection", scene.of_desks(|it| &it.expired)),
            ("second date", (self.totals.days.len() as u64).saturating_sub(1)),
        ];
        let is_judged = self.is_day && now_us() >= LONG_US;
        match counts.iter().find(|it| is_judged && it.1 == 0) {
            Some((what, _)) => Err(format!("no {what} came in a day")),
            None => Ok(()),
        }
    }

    fn report_gateway(&self, before: Holds, after: Holds) -> [Row; 7] {
        let most = |of: fn(&Holds) -> u64| self.samples.iter().map(of).max().unwrap_or(0);
        let [gateway, own] = [self.gateway.process(), std::process::id()].map(processor_seconds);
        let memory = |of: fn(&Holds) -> u64| {
            let (first, last) = self.thirds(of);
            format!("{first} kB in the first third, {last} kB in the last, at most {} kB", most(of))
        };
        let holds = |it: Holds| format!("{}, {}", it.threads, it.descriptors);
        let highest_holds = format!("{}, {}", most(|it| it.threads), most(|it| it.descriptors));
        [
            ("processor", format!("gateway {gateway:.1} s, this program {own:.1} s")),
            ("memory", memory(|it| it.memory_kb)),
            ("without files", memory(OWN)),
            ("in each tenth", format!("{:?} kB", self.tenths(OWN))),
            ("of the heap", memory(HEAP)),
            ("in each tenth", format!("{:?} kB", self.tenths(HEAP))),
            (
                "threads, descriptors",
                format!("{} before; {} after; at most {highest_holds}", holds(before), holds(after)),
            ),
        ]
    }
}
