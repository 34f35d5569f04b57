//! A gateway between outstations and control centres, each with a thread of its own.
use crate::board::Board;
use crate::centre::{self, Desk, Habit, House};
use crate::gateway::{settings, Gateway, Station};
use crate::outstation::{self, Manner, Site};
use crate::rhythm::Rhythm;
use crate::system::{now_us, sleep_us};
use crate::verdict::Graves;
use crate::Options;
use std::net::TcpListener;
use std::sync::atomic::{AtomicU64, Ordering::Relaxed};
use std::thread;

/// How long outstations may take until all were polled.
const PATIENCE_US: u64 = 30_000_000;
/// How long the last answers take from their outstation into the gateway.
const SETTLE_US: u64 = 300_000;

pub struct Scene {
    pub board: Board,
    pub sites: Vec<Site>,
    pub desks: Vec<Desk>,
    pub graves: Graves,
    pub station: Station,
}

impl Scene {
    pub fn new(seed: u64, rhythm: Rhythm, station: Station, manners: &[Manner], habits: &[Habit]) -> Scene {
        let count = manners.len();
        Scene {
            board: Board::new(seed, rhythm, habits.len()),
            sites: manners.iter().enumerate().map(|(number, it)| Site::new(number, *it)).collect(),
            desks: habits.iter().enumerate().map(|(number, it)| Desk::new(number, *it, count)).collect(),
            graves: Graves::default(),
            station,
        }
    }

    /// The sum of a count of all outstations.
    pub fn of_sites(&self, count: impl Fn(&outstation::Counts) -> &AtomicU64) -> u64 {
        self.sites.iter().map(|it| count(&it.counts).load(Relaxed)).sum()
    }

    /// The sum of a count of all control centres.
    pub fn of_desks(&self, count: impl Fn(&centre::Counts) -> &AtomicU64) -> u64 {
        self.desks.iter().map(|it| count(&it.counts).load(Relaxed)).sum()
    }

    pub fn have_all_left(&self) -> bool {
        self.desks.iter().all(|it| it.has_left.load(Relaxed))
    }

    fn are_all_polled(&self) -> bool {
        self.sites.iter().all(|it| it.ledger().topical_since().is_some())
    }

    /// Waits until something is so, for so long at most; what is so in words is told where it doesn't come.
    pub fn wait(&self, patience_us: u64, what: &str, mut is_so: impl FnMut() -> bool) -> Result<(), String> {
        let end = now_us() + patience_us;
        while !is_so() {
            if let Some(fault) = self.board.first_fault() {
                return Err(fault);
            }
            if now_us() > end {
                return Err(format!("in {} s it didn't come that {what}", patience_us / 1_000_000));
            }
            sleep_us(10_000);
        }
        Ok(())
    }

    /// Starts a gateway and its outstations, waits until all were polled, and plays; `play` is given what lets the
    /// control centres come. Gives what the gateway printed.
    pub fn run(
        &self,
        options: &Options,
        play: impl FnOnce(&mut Gateway, &dyn Fn(&Gateway)) -> Result<(), String>,
    ) -> Result<String, String> {
        let fault = |it: std::io::Error| format!("{it}");
        let bound: Result<Vec<_>, _> = self.sites.iter().map(|_| TcpListener::bind("127.0.0.1:0")).collect();
        let listeners = bound.map_err(fault)?;
        let ports: Result<Vec<_>, _> = listeners.iter().map(|it| it.local_addr().map(|it| it.port())).collect();
        let file = std::env::temp_dir().join(format!("soak-{}.toml", std::process::id()));
        let text = settings(&self.station, &self.board.rhythm, &self.sites, &ports.map_err(fault)?);
        std::fs::write(&file, text).map_err(fault)?;
        let mut gateway = Gateway::start(&options.gateway, &file, self.board.rhythm.clock, options.counts)?;
        let played = thread::scope(|scope| {
            for (site, listener) in self.sites.iter().zip(&listeners) {
                scope.spawn(move || outstation::run(&self.board, site, listener));
            }
            let come = |gateway: &Gateway| {
                for desk in &self.desks {
                    let house = House { scene: self, gateway: gateway.address };
                    scope.spawn(move || centre::run(&house, desk));
                }
            };
            let polled = self.wait(PATIENCE_US, "all outstations are polled", || self.are_all_polled());
            sleep_us(SETTLE_US);
            let played = polled.and_then(|()| play(&mut gateway, &come));
            self.board.end();
            played
        });
        played.and(self.board.first_fault().map_or(Ok(()), Err)).map_err(|it| gateway.tell(&it))?;
        let printed = gateway.finish()?;
        let _ = std::fs::remove_file(&file);
        Ok(printed)
    }
}
