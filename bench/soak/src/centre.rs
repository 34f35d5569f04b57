//! A control centre (IEC 60870-5-104), with a thread of its own.
use crate::board::Phase;
use crate::connection::Connection;
use crate::histogram::Histogram;
use crate::random::Random;
use crate::scene::Scene;
use crate::system::sleep_us;
use std::net::SocketAddr;
use std::sync::atomic::{AtomicBool, AtomicU64, Ordering::Relaxed};
use std::sync::Mutex;

const LOOK_US: u64 = 20_000;
/// How long outstations get to come back before a control centre begins anew in calm.
const SETTLE_US: u64 = 3_500_000;

/// How a control centre behaves.
#[derive(Clone, Copy)]
pub struct Habit {
    /// It acknowledges late, and its receive buffer is small.
    pub is_slow: bool,
    /// It makes trouble.
    pub is_wild: bool,
    /// It sends tests, S formats and interrogations without a pause.
    pub floods: bool,
}

/// What is counted of a control centre.
#[derive(Default)]
pub struct Counts {
    pub connections: AtomicU64,
    pub sessions: AtomicU64,
    pub tests: AtomicU64,
    pub s_formats: AtomicU64,
    pub apdus: AtomicU64,
    /// What came by the gateway's clock: ends by t1, S formats, tests, and those tests whose period was over.
    pub ended_by_t1: AtomicU64,
    pub s_formats_came: AtomicU64,
    pub tests_came: AtomicU64,
    pub tests_by_period: AtomicU64,
    /// Commands that were executed, those that were refused since their selection was over, and other refused ones.
    pub executed: AtomicU64,
    pub expired: AtomicU64,
    pub refused: AtomicU64,
}

/// What others see of a control centre.
pub struct Desk {
    pub number: usize,
    pub habit: Habit,
    pub counts: Counts,
    /// Of each outstation, how long its news took from its write to this control centre's read.
    pub latency: Mutex<Vec<Histogram>>,
    /// It has no connection, since it has taken all.
    pub has_left: AtomicBool,
    /// It was answered its first interrogation.
    pub is_ready: AtomicBool,
}

/// What all control centres work with.
pub struct House<'a> {
    pub scene: &'a Scene,
    pub gateway: SocketAddr,
}

impl Desk {
    pub fn new(number: usize, habit: Habit, sites: usize) -> Desk {
        Desk {
            number,
            habit,
            counts: Counts::default(),
            latency: Mutex::new((0..sites).map(|_| Histogram::new()).collect()),
            has_left: AtomicBool::new(false),
            is_ready: AtomicBool::new(false),
        }
    }
}

/// Connects again and again, until the run is over.
pub fn run(house: &House, desk: &Desk) {
    let mut random = Random::new(house.scene.board.seed, 1000 + desk.number as u64);
    while !house.scene.board.is_over() {
        if house.scene.board.is_quiet() {
            desk.has_left.store(true, Relaxed);
            sleep_us(LOOK_US);
            continue;
        }
        desk.has_left.store(false, Relaxed);
        if house.scene.board.phase() == Phase::Calm && desk.habit.is_wild {
            sleep_us(SETTLE_US);
        }
        match Connection::open(house, desk, &mut random) {
            Ok(connection) => connection.serve(),
            Err(fault) => house.scene.board.fault(format!("client {}: {fault}", desk.number)),
        }
        if house.scene.board.is_wild() {
            sleep_us(random.within(0, 600_000));
        }
    }
    desk.has_left.store(true, Relaxed);
}
