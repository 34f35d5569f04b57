//! One connection of a control centre.
use crate::apdu::{
    i_format, interrogation, read, s_format, Apdu, ALL_STATIONS, COMMAND, COUNTERS, GENERAL, START, START_CON_FUNCTION,
    STOP, STOP_CON_FUNCTION, TEST, TEST_CON, TEST_CON_FUNCTION, TEST_FUNCTION,
};
use crate::board::Phase;
use crate::centre::{Desk, House};
use crate::gateway::Station;
use crate::random::Random;
use crate::rhythm::Rhythm;
use crate::selection::Selection;
use crate::session::{before, Session};
use crate::system::{end_by_reset, is_readable, narrow, now_us, sleep_us};
use crate::timers::Timers;
use crate::verdict::{Ended, Grave};
use std::collections::VecDeque;
use std::io::{Read, Write};
use std::net::{Shutdown, SocketAddr, TcpStream};
use std::sync::atomic::Ordering::Relaxed;
use std::time::Duration;

/// How long what was asked for may take to come, and to one that reads slowly.
const PATIENCE_US: u64 = 8_000_000;
const SLOW_PATIENCE_US: u64 = 40_000_000;
/// How long the loop sleeps at most, and after how long without an I format all are acknowledged.
const LOOK_US: u64 = 20_000;
const IDLE_US: u64 = 200_000;
/// The receive buffer of one that reads slowly.
const NARROW: i32 = 4096;
/// For how long behind a pause of its own a control centre doesn't measure how late news come.
const UNMEASURED_US: u64 = 1_000_000;
/// How many things that were done are kept.
const DONE: usize = 12;
/// What a flooding control centre writes at once: tests, fewer than may wait for their confirmation, and S formats.
const TESTS: usize = 24;
const S_FORMATS: usize = 600;

/// Why a connection ends.
enum End {
    /// The control centre wants it, and may have taken all before.
    Wanted {
        is_whole: bool,
    },
    /// The gateway ended it, for it was given cause to.
    Expected,
    /// The gateway ended it while data transfer was stopped, which it may do for a newer connection.
    GaveWay,
    Fault(String),
}

/// How a control centre goes.
#[derive(Clone, Copy, PartialEq)]
enum Leaving {
    Orderly,
    Reset,
    WithinApdu,
    /// It acknowledges nothing until it is closed.
    Mute,
    /// It acknowledges what it never got.
    WrongNumber,
}

impl Leaving {
    fn by_chance(random: &mut Random) -> Leaving {
        match random.within(0, 100) {
            0..=39 => Leaving::Orderly,
            40..=79 => Leaving::Reset,
            80..=89 => Leaving::WithinApdu,
            90..=94 => Leaving::Mute,
            _ => Leaving::WrongNumber,
        }
    }
}

/// What is to be done on a connection, and when.
struct Plan {
    act_us: u64,
    leave_us: u64,
    leaving: Leaving,
    /// It began in calm: nothing is done by chance.
    is_calm: bool,
}

impl Plan {
    fn new(is_calm: bool, rhythm: &Rhythm, now: u64, random: &mut Random) -> Plan {
        let leaving = Leaving::by_chance(random);
        if is_calm {
            return Plan { act_us: u64::MAX, leave_us: u64::MAX, leaving, is_calm };
        }
        let act_us = now + random.pause(rhythm.act_us);
        let leave_us = now + 200_000 + random.pause(rhythm.stay_us);
        Plan { act_us, leave_us, leaving, is_calm }
    }
}

/// How many I formats were sent, and how many of them acknowledged; how many came, and how many of them were
/// acknowledged.
#[derive(Default)]
struct Numbers {
    sent: u16,
    sent_acknowledged: u16,
    received: u16,
    acknowledged: u16,
}

pub struct Connection<'a> {
    house: &'a House<'a>,
    desk: &'a Desk,
    rhythm: &'a Rhythm,
    random: &'a mut Random,
    socket: TcpStream,
    address: SocketAddr,
    input: Vec<u8>,
    numbers: Numbers,
    plan: Plan,
    session: Option<Session>,
    ended: Vec<Ended>,
    /// What was confirmed to outstations before a STARTDT act, and when that was sent.
    starting: Option<(Vec<u32>, u64)>,
    stopping_us: Option<u64>,
    /// Tests that weren't confirmed, and when the first of them was sent.
    tests: usize,
    tested_us: u64,
    asked_us: u64,
    selection: Selection,
    last_i_us: u64,
    acknowledge_us: Option<u64>,
    timers: Timers,
    /// Nothing is acknowledged, or nothing read, before.
    hold_us: u64,
    deaf_us: u64,
    /// It sent its last interrogation; it sends nothing more.
    asked_last: bool,
    has_gone: bool,
    /// When it began, and the last that was done.
    began_us: u64,
    done: VecDeque<(u64, &'static str)>,
}

/// A socket of a new connection, and its own address.
fn connect(house: &House, desk: &Desk) -> std::io::Result<(TcpStream, SocketAddr)> {
    let socket = TcpStream::connect_timeout(&house.gateway, Duration::from_secs(5))?;
    let _ = socket.set_nodelay(true);
    let _ = socket.set_write_timeout(Some(Duration::from_secs(10)));
    if desk.habit.is_slow {
        narrow(&socket, NARROW);
    }
    desk.counts.connections.fetch_add(1, Relaxed);
    let address = socket.local_addr()?;
    Ok((socket, address))
}

impl<'a> Connection<'a> {
    pub fn open(house: &'a House, desk: &'a Desk, random: &'a mut Random) -> Result<Connection<'a>, String> {
        let (socket, address) = connect(house, desk).map_err(|it| format!("can't connect: {it}"))?;
        let board = &house.scene.board;
        let is_calm = !desk.habit.is_wild || !board.is_wild();
        let (rhythm, now) = (&board.rhythm, now_us());
        let plan = Plan::new(is_calm, rhythm, now, random);
        Ok(Connection {
            house,
            desk,
            rhythm,
            random,
            socket,
            address,
            input: Vec::new(),
            numbers: Numbers::default(),
            plan,
            session: None,
            ended: Vec::new(),
            starting: None,
            stopping_us: None,
            tests: 0,
            tested_us: 0,
            asked_us: 0,
            selection: Selection::new(desk.number, rhythm.us(rhythm.select_ms), now),
            last_i_us: now,
            acknowledge_us: None,
            timers: Timers::new(rhythm, now),
            hold_us: 0,
            deaf_us: 0,
            asked_last: false,
            has_gone: false,
            began_us: now,
            done: VecDeque::new(),
        })
    }

    /// Serves the connection until it ends, and leaves what it was to the judge.
    pub fn serve(mut self) {
        let end = loop {
            if let Err(end) = self.turn() {
                break end;
            }
        };
        let (is_whole, gave_way) = (matches!(end, End::Wanted { is_whole: true }), matches!(end, End::GaveWay));
        if let End::Fault(fault) = end {
            let board = &self.house.scene.board;
            if !board.is_over() {
                let (number, address) = (self.desk.number, self.address);
                board.fault(format!("client {number} {address}: {fault}\n{}", self.story()));
            }
            return;
        }
        self.end_session(is_whole);
        let (client, address) = (self.desk.number, self.address);
        self.house.scene.graves.dig(Grave { client, address, ended: self.ended, gave_way, at_us: now_us() });
    }

    /// Keeps what is done.
    fn note(&mut self, what: &'static str) {
        if self.done.len() == DONE {
            self.done.pop_front();
        }
        self.done.push_back((now_us(), what));
    }

    /// What was done last, with the seconds since the connection began.
    fn story(&self) -> String {
        let at = |us: u64| us.saturating_sub(self.began_us) as f64 / 1e6;
        let done: Vec<String> = self.done.iter().map(|it| format!("{} at {:.3}", it.1, at(it.0))).collect();
        format!(
            "It did: {}; now it is {:.3}, and {} I formats came",
            done.join(", "),
            at(now_us()),
            self.numbers.received
        )
    }

    fn end_session(&mut self, is_whole: bool) {
        if let Some(session) = self.session.take() {
            let rest = session.rest(&self.house.scene.sites);
            self.ended.push(Ended { session, rest, is_whole });
        }
    }

    fn put(&mut self, octets: &[u8]) -> Result<(), End> {
        self.timers.send(now_us());
        self.socket.write_all(octets).map_err(|it| self.cut_off(&format!("{it}")))
    }

    /// An I format, which acknowledges what came, where nothing keeps that back.
    fn put_i(&mut self, asdu: &[u8], now: u64) -> Result<(), End> {
        if now >= self.hold_us {
            self.note_acknowledged();
        }
        let apdu = i_format(asdu, self.numbers.sent, self.numbers.acknowledged);
        self.numbers.sent = (self.numbers.sent + 1) & 0x7FFF;
        self.timers.send_i(now);
        self.put(&apdu)
    }

    fn note_acknowledged(&mut self) {
        self.numbers.acknowledged = self.numbers.received;
        self.acknowledge_us = None;
        self.timers.acknowledge();
    }

    /// The gateway ended the connection: as it has to where nothing was acknowledged for t1, or a number was wrong.
    fn cut_off(&self, how: &str) -> End {
        let (now, counts) = (now_us(), &self.desk.counts);
        match self.plan.leaving {
            Leaving::WrongNumber if now >= self.plan.leave_us => return End::Expected,
            Leaving::Mute if now >= self.plan.leave_us && self.timers.may_have_expired(now) => {
                counts.ended_by_t1.fetch_add(1, Relaxed);
                return End::Expected;
            }
            _ => {}
        }
        if self.session.is_none() || self.stopping_us.is_some() {
            return End::GaveWay;
        }
        End::Fault(format!("the gateway ended the connection: {how}"))
    }

    /// What is due, and what comes from the gateway meanwhile.
    fn turn(&mut self) -> Result<(), End> {
        let now = now_us();
        if self.house.scene.board.is_over() {
            return Err(End::Wanted { is_whole: false });
        }
        self.look(now);
        self.timers.judge(now).map_err(End::Fault)?;
        self.be_patient(now)?;
        if self.desk.habit.floods && self.session.is_some() && !self.house.scene.board.is_quiet() {
            self.flood(now)?;
        } else {
            self.act(now)?;
        }
        self.command(now)?;
        self.leave_if_due(now)?;
        self.acknowledge_if_due(now)?;
        if now < self.deaf_us {
            sleep_us((self.deaf_us - now).min(LOOK_US));
            return Ok(());
        }
        if is_readable(&self.socket, self.wait(now)) {
            self.hear()?;
        }
        Ok(())
    }

    fn look(&mut self, now: u64) {
        let awaits_u_format = self.starting.is_some() || self.stopping_us.is_some() || self.tests > 0;
        self.timers.look(now, awaits_u_format || now < self.deaf_us);
    }

    fn wait(&self, now: u64) -> u64 {
        if self.desk.habit.floods && self.tests < TESTS {
            return 0;
        }
        let next = self.acknowledge_us.unwrap_or(u64::MAX).min(self.plan.act_us).min(self.plan.leave_us);
        next.saturating_sub(now).clamp(200, LOOK_US)
    }

    /// What was asked for has to come in time.
    fn be_patient(&self, now: u64) -> Result<(), End> {
        let patience_us = if self.desk.habit.is_slow { SLOW_PATIENCE_US } else { PATIENCE_US };
        let late = |since: u64| now > since.max(self.hold_us) + patience_us;
        let asked = self.session.as_ref().filter(|it| it.is_asking()).map(|_| self.asked_us);
        let tested = (self.tests > 0).then_some(self.tested_us);
        let waits = [
            (self.starting.as_ref().map(|it| it.1), "STARTDT isn't confirmed"),
            (self.stopping_us, "STOPDT isn't confirmed"),
            (tested, "TESTFR isn't confirmed"),
            (self.selection.asked_us(), "a command isn't answered"),
            (asked, "an interrogation isn't answered"),
        ];
        match waits.into_iter().find(|it| it.0.is_some_and(late)) {
            Some((_, what)) if now < self.plan.leave_us => {
                Err(End::Fault(format!("{what} in {} s", patience_us / 1_000_000)))
            }
            _ => Ok(()),
        }
    }

    /// Starts data transfer at the beginning, and then does this and that by chance.
    fn act(&mut self, now: u64) -> Result<(), End> {
        let is_free = self.starting.is_none() && self.stopping_us.is_none();
        if self.session.is_none() {
            let is_due = self.ended.is_empty() || self.random.percent(5);
            let may_start = is_free && is_due && now < self.plan.leave_us && !self.house.scene.board.is_quiet();
            return if may_start { self.start(now) } else { Ok(()) };
        }
        // Who is about to leave does nothing else, since an I format acknowledges.
        if now < self.plan.act_us || now >= self.plan.leave_us || !is_free {
            return Ok(());
        }
        self.plan.act_us = now + self.random.pause(self.rhythm.act_us);
        let t1_us = self.rhythm.us(self.rhythm.t1_ms);
        let has_rested = now > self.hold_us.max(self.deaf_us) + t1_us / 4;
        match self.random.within(0, 100) {
            0..=19 => self.interrogate(GENERAL, ALL_STATIONS, now),
            20..=29 => self.interrogate_one(GENERAL, now),
            30..=39 => self.interrogate(COUNTERS, ALL_STATIONS, now),
            40..=49 => self.interrogate_one(COUNTERS, now),
            50..=64 => self.test(now, 1),
            65..=88 if !has_rested => Ok(()),
            65..=76 => {
                self.hold_us = now + self.random.within(100_000, t1_us * 2 / 5);
                self.note("acknowledges nothing for a while");
                Ok(())
            }
            77..=88 => {
                self.deaf_us = now + self.random.within(50_000, t1_us * 3 / 10);
                self.note("reads nothing for a while");
                Ok(())
            }
            _ => {
                self.acknowledge()?;
                self.stopping_us = Some(now);
                if let Some(session) = &mut self.session {
                    session.stop(&self.house.scene.sites);
                }
                self.note("STOPDT");
                self.put(&STOP)
            }
        }
    }

    fn start(&mut self, now: u64) -> Result<(), End> {
        self.note("STARTDT");
        self.starting = Some((before(&self.house.scene.sites), now));
        self.put(&START)
    }

    /// Interrogates the station of an outstation, by chance.
    fn interrogate_one(&mut self, kind: u8, now: u64) -> Result<(), End> {
        let sites = &self.house.scene.sites;
        let site = self.random.within(0, sites.len() as u64) as usize;
        self.interrogate(kind, sites[site].common_address(), now)
    }

    fn interrogate(&mut self, kind: u8, common: u16, now: u64) -> Result<(), End> {
        let Some(session) = self.session.as_mut().filter(|it| !it.is_asking()) else { return Ok(()) };
        session.ask(&self.house.scene.sites, kind, common, now);
        self.note(if kind == GENERAL { "station interrogation" } else { "counter interrogation" });
        self.asked_us = now;
        self.put_i(&interrogation(kind, common), now)
    }

    /// Selects and executes, where no trouble is made.
    fn command(&mut self, now: u64) -> Result<(), End> {
        let scene = self.house.scene;
        let may_begin = scene.station.controls > 0 && self.plan.is_calm && scene.board.phase() == Phase::Calm;
        if self.session.is_none() {
            return Ok(());
        }
        match self.selection.next(&scene.sites, may_begin, now, self.random) {
            Some(asdu) => {
                self.note("command");
                self.put_i(&asdu, now)
            }
            None => Ok(()),
        }
    }

    fn test(&mut self, now: u64, count: usize) -> Result<(), End> {
        if self.tests == 0 {
            self.tested_us = now;
        }
        self.tests += count;
        self.desk.counts.tests.fetch_add(count as u64, Relaxed);
        self.note("TESTFR");
        self.put(&TEST.repeat(count))
    }

    /// As many tests as may wait for their confirmation, S formats, and an interrogation where none is under way.
    fn flood(&mut self, now: u64) -> Result<(), End> {
        if self.tests > 0 {
            return Ok(());
        }
        self.interrogate(GENERAL, ALL_STATIONS, now)?;
        self.test(now, TESTS)?;
        self.note_acknowledged();
        self.desk.counts.s_formats.fetch_add(S_FORMATS as u64, Relaxed);
        self.put(&s_format(self.numbers.received).repeat(S_FORMATS))
    }

    fn acknowledge(&mut self) -> Result<(), End> {
        let is_due = self.numbers.acknowledged != self.numbers.received;
        self.note_acknowledged();
        if is_due {
            self.put(&s_format(self.numbers.received))
        } else {
            Ok(())
        }
    }

    fn acknowledge_if_due(&mut self, now: u64) -> Result<(), End> {
        let is_mute = self.plan.leaving == Leaving::Mute && now >= self.plan.leave_us;
        if now < self.hold_us || is_mute {
            return Ok(());
        }
        let waits = self.numbers.received.wrapping_sub(self.numbers.acknowledged) & 0x7FFF;
        if waits >= self.house.scene.station.w && self.acknowledge_us.is_none() {
            let pause = if self.desk.habit.is_slow { self.random.within(50_000, 500_000) } else { 0 };
            self.acknowledge_us = Some(now + pause);
        }
        let is_idle = waits > 0 && now > self.last_i_us + IDLE_US && self.acknowledge_us.is_none();
        if is_idle || self.acknowledge_us.is_some_and(|it| now >= it) {
            self.acknowledge()
        } else {
            Ok(())
        }
    }

    /// Leaves where the time has come; in a quiet run, once all was taken.
    fn leave_if_due(&mut self, now: u64) -> Result<(), End> {
        let phase = self.house.scene.board.phase();
        if phase == Phase::Quiet {
            return self.leave_quietly(now);
        }
        if phase != Phase::Wild && !self.plan.is_calm {
            return self.go(false);
        }
        if now < self.plan.leave_us {
            return Ok(());
        }
        match self.plan.leaving {
            Leaving::Orderly => self.go(false),
            Leaving::Reset => {
                end_by_reset(&self.socket);
                Err(End::Wanted { is_whole: false })
            }
            Leaving::WithinApdu => {
                let apdu = i_format(&interrogation(GENERAL, ALL_STATIONS), self.numbers.sent, self.numbers.received);
                let front = self.random.within(1, apdu.len() as u64) as usize;
                self.put(&apdu[..front])?;
                Err(End::Wanted { is_whole: false })
            }
            Leaving::Mute if self.session.is_none() => self.go(false),
            Leaving::Mute if !self.timers.has_to_have_expired(now) && now < self.plan.leave_us + 2 * PATIENCE_US => {
                Ok(())
            }
            Leaving::WrongNumber if now < self.plan.leave_us + PATIENCE_US => {
                self.put(&s_format(self.numbers.received.wrapping_add(2 * self.house.scene.station.k) & 0x7FFF))
            }
            _ => Err(End::Fault("the gateway doesn't end a connection that gave it cause to".to_string())),
        }
    }

    /// Interrogates once nothing more comes, and leaves once that is answered: all that waited goes before the answer.
    fn leave_quietly(&mut self, now: u64) -> Result<(), End> {
        let is_silent = now > self.last_i_us.max(self.hold_us).max(self.deaf_us) + self.rhythm.silent_us;
        let Some(session) = &self.session else { return if is_silent { self.go(false) } else { Ok(()) } };
        if session.is_asking() || self.selection.is_under_way() {
            return Ok(());
        }
        match self.asked_last {
            true => self.go(true),
            false if is_silent => {
                self.asked_last = true;
                self.interrogate(GENERAL, ALL_STATIONS, now)
            }
            false => Ok(()),
        }
    }

    /// Sends nothing more, and takes what still comes.
    fn go(&mut self, is_whole: bool) -> Result<(), End> {
        self.has_gone = true;
        let _ = self.socket.shutdown(Shutdown::Write);
        let _ = self.socket.set_read_timeout(Some(Duration::from_millis(500)));
        let mut octets = vec![0; 65536];
        while let Ok(length @ 1..) = self.socket.read(&mut octets) {
            self.input.extend_from_slice(&octets[..length]);
        }
        // What was already written is judged too; nothing is answered.
        while let Some((length, apdu)) = read(&self.input).map_err(End::Fault)? {
            self.input.drain(..length);
            if let Apdu::I { sent, received, asdu } = apdu {
                self.take_i(sent, received, &asdu, now_us())?;
            }
        }
        Err(End::Wanted { is_whole })
    }

    fn hear(&mut self) -> Result<(), End> {
        let mut octets = [0; 65536];
        match self.socket.read(&mut octets) {
            Ok(0) => return Err(self.cut_off("end of input")),
            Ok(length) => self.input.extend_from_slice(&octets[..length]),
            Err(fault) => return Err(self.cut_off(&format!("{fault}"))),
        }
        let (now, mut at) = (now_us(), 0);
        self.look(now);
        while let Some((length, apdu)) = read(&self.input[at..]).map_err(End::Fault)? {
            at += length;
            self.desk.counts.apdus.fetch_add(1, Relaxed);
            match apdu {
                Apdu::I { sent, received, asdu } => self.take_i(sent, received, &asdu, now)?,
                Apdu::S { received } => {
                    self.desk.counts.s_formats_came.fetch_add(1, Relaxed);
                    self.take_number(received)?;
                }
                Apdu::U { function } => self.take_u(function, now)?,
            }
        }
        self.input.drain(..at);
        Ok(())
    }

    fn take_number(&mut self, number: u16) -> Result<(), End> {
        let (new, open) = (
            number.wrapping_sub(self.numbers.sent_acknowledged),
            self.numbers.sent.wrapping_sub(self.numbers.sent_acknowledged),
        );
        if new & 0x7FFF > open & 0x7FFF {
            return Err(End::Fault(format!("N(R) {number}, though {} I formats were sent", self.numbers.sent)));
        }
        self.numbers.sent_acknowledged = number;
        self.timers.take_number(new & 0x7FFF);
        Ok(())
    }

    fn take_i(&mut self, sent: u16, received: u16, asdu: &[u8], now: u64) -> Result<(), End> {
        self.take_number(received)?;
        if sent != self.numbers.received {
            return Err(End::Fault(format!("N(S) {sent} instead of {}", self.numbers.received)));
        }
        self.numbers.received = (self.numbers.received + 1) & 0x7FFF;
        self.last_i_us = now;
        self.timers.take_i(now);
        let Station { k, w, .. } = self.house.scene.station;
        if self.numbers.received.wrapping_sub(self.numbers.acknowledged) & 0x7FFF > k {
            return Err(End::Fault("more than k I formats that weren't acknowledged".to_string()));
        }
        let Some(session) = &mut self.session else {
            return Err(End::Fault(format!("an I format while data transfer is stopped: {asdu:02X?}")));
        };
        if asdu[0] == COMMAND {
            let site = &self.house.scene.sites[self.selection.site()];
            let counts = &self.desk.counts;
            return self.selection.take(asdu, site, now, self.random, counts).map_err(End::Fault);
        }
        // What came late by the control centre's own doing isn't measured.
        let is_measured = now > self.hold_us.max(self.deaf_us) + UNMEASURED_US;
        let mut latency = self.desk.latency.lock().unwrap();
        let mut measured = is_measured.then_some(&mut *latency);
        session.take(&self.house.scene.sites, asdu, now, &mut measured).map_err(End::Fault)?;
        drop(latency);
        self.house.scene.board.see(self.desk.number, session.last_of(0));
        if session.answers > 0 {
            self.desk.is_ready.store(true, Relaxed);
        }
        // One that isn't slow acknowledges between I formats that come together.
        let is_mute = self.has_gone || self.plan.leaving == Leaving::Mute && now >= self.plan.leave_us;
        let waits = self.numbers.received.wrapping_sub(self.numbers.acknowledged) & 0x7FFF;
        if waits >= w && !self.desk.habit.is_slow && now >= self.hold_us && !is_mute {
            return self.acknowledge();
        }
        Ok(())
    }

    fn take_u(&mut self, function: u8, now: u64) -> Result<(), End> {
        if matches!(function, START_CON_FUNCTION | STOP_CON_FUNCTION | TEST_CON_FUNCTION) {
            self.timers.take_confirmation(now);
        }
        match function {
            START_CON_FUNCTION => {
                let Some((before, _)) = self.starting.take() else {
                    return Err(End::Fault("STARTDT con without an act".to_string()));
                };
                self.session = Some(Session::new(&self.house.scene.sites, &before));
                self.desk.counts.sessions.fetch_add(1, Relaxed);
                self.note("STARTDT con");
                if self.plan.is_calm || self.random.percent(70) {
                    return self.interrogate(GENERAL, ALL_STATIONS, now);
                }
            }
            STOP_CON_FUNCTION if self.stopping_us.take().is_some() => {
                self.note("STOPDT con");
                self.end_session(false);
                return self.acknowledge();
            }
            TEST_FUNCTION => {
                let is_over = self.timers.take_test(now).map_err(End::Fault)?;
                self.desk.counts.tests_came.fetch_add(1, Relaxed);
                self.desk.counts.tests_by_period.fetch_add(u64::from(is_over), Relaxed);
                self.note("TESTFR con");
                return self.put(&TEST_CON);
            }
            TEST_CON_FUNCTION if self.tests > 0 => self.tests -= 1,
            _ => return Err(End::Fault(format!("a U format {function:02X} that isn't to be expected"))),
        }
        Ok(())
    }
}
