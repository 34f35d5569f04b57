//! An outstation (IEEE Std 1815), with a thread of its own.
use crate::board::Board;
use crate::ledger::Ledger;
use crate::link::{Link, FRAGMENT};
use crate::random::Random;
use crate::system::{end_by_reset, is_readable, now_us, sleep_us};
use crate::watch::Watch;
use std::collections::VecDeque;
use std::io::{Read, Write};
use std::net::{TcpListener, TcpStream};
use std::sync::atomic::{AtomicU64, Ordering::Relaxed};
use std::sync::{Mutex, MutexGuard};
use std::time::Duration;

/// The function codes of requests and responses.
const CONFIRM: u8 = 0;
const READ: u8 = 1;
const WRITE: u8 = 2;
const SELECT: u8 = 3;
const OPERATE: u8 = 4;
const DIRECT_OPERATE: u8 = 5;
const ENABLE: u8 = 20;
const DISABLE: u8 = 21;
const RECORD_TIME: u8 = 24;
const RESPONSE: u8 = 129;
const UNSOLICITED: u8 = 130;
/// Bits of a fragment's control octet.
const FIR: u8 = 0x80;
const FIN: u8 = 0x40;
const CON: u8 = 0x20;
const UNS: u8 = 0x10;
/// Internal indications: events of class 1 wait; the outstation wants the time; it has restarted; its event buffer
/// overflowed.
pub const CLASS_1: u8 = 0x02;
pub const NEED_TIME: u8 = 0x10;
pub const RESTARTED: u8 = 0x80;
pub const OVERFLOWED: u8 = 0x08;
const CLASS_0: [u8; 3] = [60, 1, 6];
const RESTART_CLEARED: [u8; 6] = [80, 1, 0, 7, 7, 0];
/// What stands in front of the last recorded time, and of a control relay output block: group, variation and qualifier,
/// and a count of one.
const RECORDED: [u8; 4] = [50, 3, 7, 1];
const CONTROL: [u8; 5] = [12, 1, INDICES, 1, 0];
/// Qualifiers: a count and indices in 16 bits, a range in 16 bits.
const INDICES: u8 = 0x28;
const RANGE: u8 = 0x01;
const ON_LINE: u8 = 0x01;
/// How many events the outstation keeps.
const BUFFER: usize = 400;
/// After how long without a confirmation an unsolicited response is repeated, and an answer is given up; and how long
/// it may take until the confirmation has come.
const REPEAT_US: u64 = 400_000;
const GIVEN_UP_US: u64 = 1_500_000;
const CONFIRMED_US: u64 = 8_000_000;
/// How long the loop sleeps at most.
const LOOK_US: u64 = 10_000;
/// How long it sleeps where it looks for control centres to be told all.
const PACE_US: u64 = 50;
/// How far the clock of an outstation may be wrong at first.
const WRONG_MS: u64 = 600_000;

/// How an outstation goes about sending events without a pause.
#[derive(Clone, Copy, PartialEq)]
pub enum Flood {
    Never,
    /// The next fragment once the last was confirmed.
    Confirmed,
    /// The next fragment once all control centres were told all of the last: what no outstation can know, to compare.
    Paced,
    /// Fragment after fragment, whatever is confirmed.
    Blind,
}

/// How an outstation behaves.
#[derive(Clone, Copy)]
pub struct Manner {
    pub is_unsolicited: bool,
    pub analogs: u16,
    pub counters: u16,
    pub events_a_second: f64,
    /// How many events come together at most.
    pub together: u64,
    /// It makes trouble.
    pub is_wild: bool,
    pub flood: Flood,
}

/// What is counted of an outstation.
#[derive(Default)]
pub struct Counts {
    pub connections: AtomicU64,
    pub ended_here: AtomicU64,
    pub fragments: AtomicU64,
    pub events: AtomicU64,
    pub statics: AtomicU64,
    pub repeated: AtomicU64,
    pub withheld: AtomicU64,
    pub given_up: AtomicU64,
    pub overflowed: AtomicU64,
    /// Polls for events, and integrity polls, and those of each whose period was over.
    pub polls: [AtomicU64; 2],
    pub polls_by_period: [AtomicU64; 2],
    /// How often the clock was set, how many of its milliseconds it was behind then at most, and commands.
    pub times_set: AtomicU64,
    pub most_behind_ms: AtomicU64,
    pub commands: AtomicU64,
}

fn count(counter: &AtomicU64) {
    counter.fetch_add(1, Relaxed);
}

/// What others see of an outstation. Its points are analog inputs, then counters.
pub struct Site {
    pub number: usize,
    pub manner: Manner,
    pub counts: Counts,
    ledger: Mutex<Ledger>,
}

impl Site {
    pub fn new(number: usize, manner: Manner) -> Site {
        let ledger = Mutex::new(Ledger::new(manner.analogs + manner.counters));
        Site { number, manner, counts: Counts::default(), ledger }
    }

    pub fn points(&self) -> u16 {
        self.manner.analogs + self.manner.counters
    }

    pub fn link_address(&self) -> u16 {
        self.number as u16 + 1
    }

    /// The common address, which two outstations share.
    pub fn common_address(&self) -> u16 {
        self.number as u16 / 2 + 1
    }

    /// The information object address of a point, which each second outstation has as well.
    pub fn address_of(&self, point: u16) -> u32 {
        (self.number as u32 % 2 + 1) << 16 | u32::from(point)
    }

    /// The information object address of a control.
    pub fn control_address(&self, control: usize) -> u32 {
        self.address_of(0xFF00 + control as u16)
    }

    pub fn ledger(&self) -> MutexGuard<'_, Ledger> {
        self.ledger.lock().unwrap()
    }
}

/// A fragment that awaits its confirmation.
struct Flight {
    is_unsolicited: bool,
    number: u8,
    /// Its place in the ledger.
    place: u32,
    /// How many events it has: the first of those that are kept.
    events: usize,
    /// It ends an answer that has all static values.
    tells_all: bool,
    octets: Vec<u8>,
    began_us: u64,
    repeat_us: u64,
}

/// What is left of an answer to a READ.
struct Answer {
    number: u8,
    is_first: bool,
    events: usize,
    has_statics: bool,
    next_point: u16,
}

/// Why a connection ended.
enum End {
    /// The run is over, or the outstation wanted it.
    Wanted,
    /// By the master.
    Lost,
    Fault(String),
}

impl From<std::io::Error> for End {
    fn from(_: std::io::Error) -> End {
        End::Lost
    }
}

/// A connection of an outstation.
struct Connection {
    socket: TcpStream,
    link: Link,
    is_enabled: bool,
    unsolicited_number: u8,
    flight: Option<Flight>,
    answer: Option<Answer>,
    /// A READ that waits until an unsolicited response is confirmed: its number, and whether it asks for class 0.
    deferred: Option<(u8, bool)>,
    /// The next fragment is cut off.
    is_to_be_cut: bool,
    /// More was sent than the master may have read.
    has_flooded: bool,
    watch: Watch,
}

/// An event that wasn't confirmed.
struct Event {
    point: u16,
    /// When it happened by the outstation's clock, in milliseconds since 1970.
    stamp_ms: u64,
}

pub struct Outstation<'a> {
    board: &'a Board,
    site: &'a Site,
    random: Random,
    /// The oldest first.
    events: VecDeque<Event>,
    next_event_us: u64,
    next_trouble_us: u64,
    /// How far the outstation's clock is ahead of the true one, and when it wants to be set again.
    ahead_ms: i64,
    need_time_us: u64,
    has_restarted: bool,
    has_overflowed: bool,
}

/// Serves one connection of the master after the other, until the run is over.
pub fn run(board: &Board, site: &Site, listener: &TcpListener) {
    let mut random = Random::new(board.seed, site.number as u64);
    let mut outstation = Outstation {
        board,
        site,
        ahead_ms: random.within(0, 2 * WRONG_MS) as i64 - WRONG_MS as i64,
        random,
        events: VecDeque::new(),
        next_event_us: now_us(),
        next_trouble_us: 0,
        need_time_us: if board.rhythm.need_time_ms > 0 { 0 } else { u64::MAX },
        has_restarted: true,
        has_overflowed: false,
    };
    while !board.is_over() {
        if !is_readable(listener, 50_000) {
            continue;
        }
        if outstation.is_troubling() {
            sleep_us(outstation.random.within(0, 500_000));
        }
        if let Ok((socket, _)) = listener.accept() {
            outstation.serve(socket);
        }
    }
}

impl Outstation<'_> {
    fn is_troubling(&self) -> bool {
        self.site.manner.is_wild && self.board.is_wild()
    }

    fn serve(&mut self, socket: TcpStream) {
        count(&self.site.counts.connections);
        let _ = socket.set_nodelay(true);
        let _ = socket.set_write_timeout(Some(Duration::from_secs(10)));
        let mut connection = Connection {
            socket,
            link: Link::new(self.site.link_address()),
            is_enabled: false,
            unsolicited_number: 0,
            flight: None,
            answer: None,
            deferred: None,
            is_to_be_cut: false,
            has_flooded: false,
            watch: Watch::new(&self.board.rhythm, now_us()),
        };
        self.next_trouble_us = now_us() + self.random.pause(self.board.rhythm.trouble_us);
        let end = loop {
            if let Err(end) = self.turn(&mut connection) {
                break end;
            }
        };
        self.site.ledger().connection_ended(now_us());
        match end {
            End::Fault(fault) => self.board.fault(format!("outstation {}: {fault}", self.site.number)),
            End::Wanted => count(&self.site.counts.ended_here),
            End::Lost => {}
        }
    }

    /// What is due, and what comes from the master meanwhile.
    fn turn(&mut self, connection: &mut Connection) -> Result<(), End> {
        if self.board.is_over() {
            return Err(End::Wanted);
        }
        if connection.has_flooded && self.board.is_quiet() {
            // What wasn't read is taken back.
            end_by_reset(&connection.socket);
            return Err(End::Wanted);
        }
        let now = now_us();
        self.grow(now);
        connection.watch.judge(now).map_err(End::Fault)?;
        if self.is_troubling() && now >= self.next_trouble_us {
            self.next_trouble_us = now + self.random.pause(self.board.rhythm.trouble_us);
            self.make_trouble(connection)?;
            connection.watch.disturb(now_us());
        }
        self.repeat(connection, now)?;
        self.report(connection)?;
        if !is_readable(&connection.socket, self.wait(connection, now)) {
            return Ok(());
        }
        let mut octets = [0; 4096];
        match connection.socket.read(&mut octets)? {
            0 => return Err(End::Lost),
            length => connection.link.feed(&octets[..length]),
        }
        while let Some(fragment) = connection.link.next().map_err(End::Fault)? {
            self.take(connection, &fragment)?;
        }
        Ok(())
    }

    /// How long it may take until something is due.
    fn wait(&self, connection: &Connection, now: u64) -> u64 {
        match self.site.manner.flood {
            Flood::Blind if connection.is_enabled && !self.board.is_quiet() => 0,
            Flood::Paced => PACE_US,
            _ => self.next_event_us.saturating_sub(now).clamp(500, LOOK_US),
        }
    }

    /// Events happen.
    fn grow(&mut self, now: u64) {
        if self.board.is_uneventful() {
            self.next_event_us = now + LOOK_US;
            return;
        }
        let (manner, points) = (self.site.manner, u64::from(self.site.points()));
        if manner.flood != Flood::Never {
            let stamp_ms = self.stamp_ms(now);
            let missing = self.events.len() as u64..BUFFER as u64;
            self.events.extend(missing.map(|it| Event { point: (it % points) as u16, stamp_ms }));
            return;
        }
        while self.next_event_us <= now {
            let together = self.random.within(1, manner.together + 1);
            let (first, stamp_ms) = (self.random.within(0, points), self.stamp_ms(self.next_event_us));
            let all = first..first + together;
            self.events.extend(all.map(|it| Event { point: (it % points) as u16, stamp_ms }));
            self.next_event_us += self.random.pause((1e6 * together as f64 / manner.events_a_second) as u64);
        }
        if self.events.len() > BUFFER {
            self.has_overflowed = true;
            count(&self.site.counts.overflowed);
            self.events.truncate(BUFFER);
        }
    }

    /// What the outstation's clock shows at a time.
    fn stamp_ms(&self, at_us: u64) -> u64 {
        self.board.rhythm.clock.wall_ms(at_us).saturating_add_signed(self.ahead_ms)
    }

    /// Ends the connection, is silent for a while, sends noise, or seems to have restarted.
    fn make_trouble(&mut self, connection: &mut Connection) -> Result<(), End> {
        match self.random.within(0, 100) {
            0..=24 => return Err(End::Wanted),
            25..=44 => {
                end_by_reset(&connection.socket);
                return Err(End::Wanted);
            }
            45..=64 => connection.is_to_be_cut = true,
            65..=79 => sleep_us(self.random.within(50_000, 1_500_000)),
            80..=89 => {
                let noise: Vec<u8> = (0..self.random.within(1, 40)).map(|_| self.random.within(6, 256) as u8).collect();
                connection.socket.write_all(&noise)?;
            }
            _ => self.has_restarted = true,
        }
        Ok(())
    }

    /// An unsolicited response that isn't confirmed goes again; an answer is given up.
    fn repeat(&mut self, connection: &mut Connection, now: u64) -> Result<(), End> {
        let Some(flight) = &mut connection.flight else { return Ok(()) };
        if !flight.is_unsolicited && now >= flight.began_us + GIVEN_UP_US {
            self.give_up(connection);
        } else if flight.is_unsolicited && now >= flight.repeat_us {
            if now >= flight.began_us + CONFIRMED_US {
                return Err(End::Fault("an unsolicited response wasn't confirmed in 8 s".to_string()));
            }
            flight.repeat_us = now + REPEAT_US;
            count(&self.site.counts.repeated);
            let octets = flight.octets.clone();
            self.send(connection, &octets)?;
        }
        Ok(())
    }

    /// Lets an answer go that isn't confirmed, or is asked for anew.
    fn give_up(&self, connection: &mut Connection) {
        (connection.flight, connection.answer) = (None, None);
        connection.watch.disturb(now_us());
        count(&self.site.counts.given_up);
    }

    /// Whether events wait: until control centres were told all that was sent, or for good.
    fn is_held(&self) -> bool {
        match self.site.manner.flood {
            Flood::Paced => !self.board.have_all_seen(self.site.ledger().next() - 1),
            Flood::Blind => self.board.is_quiet(),
            _ => false,
        }
    }

    /// Events go unsolicited, where that is enabled and nothing else is under way.
    fn report(&mut self, connection: &mut Connection) -> Result<(), End> {
        let is_free = connection.flight.is_none() && connection.answer.is_none();
        if !connection.is_enabled || !is_free || self.events.is_empty() || self.is_held() {
            return Ok(());
        }
        let number = connection.unsolicited_number;
        let mut fragment = vec![FIR | FIN | CON | UNS | number, UNSOLICITED, 0, 0];
        let (place, events) = self.put_events(&mut fragment, self.events.len());
        self.indicate(connection, &mut fragment, events);
        if self.site.manner.flood == Flood::Blind {
            connection.unsolicited_number = (number + 1) & 0x0F;
            connection.has_flooded = true;
        } else {
            connection.flight = Some(Flight::new(true, number, place, events, &fragment));
        }
        self.send(connection, &fragment)
    }

    /// What the master asks for.
    fn take(&mut self, connection: &mut Connection, fragment: &[u8]) -> Result<(), End> {
        let [control, function, objects @ ..] = fragment else {
            return Err(End::Fault(format!("a fragment of the master is too short: {fragment:02X?}")));
        };
        let number = control & 0x0F;
        if *function == CONFIRM {
            return self.take_confirmation(connection, number, control & UNS != 0);
        }
        if connection.flight.as_ref().is_some_and(|it| !it.is_unsolicited) {
            self.give_up(connection);
        }
        let mut echo = &[][..];
        match *function {
            READ => return self.take_read(connection, number, objects),
            WRITE if objects == RESTART_CLEARED => self.has_restarted = false,
            WRITE if objects.starts_with(&RECORDED) => self.take_time(connection, &objects[RECORDED.len()..])?,
            RECORD_TIME if objects.is_empty() => connection.watch.record(now_us()),
            SELECT | OPERATE | DIRECT_OPERATE if objects.starts_with(&CONTROL) => {
                count(&self.site.counts.commands);
                echo = objects;
            }
            ENABLE | DISABLE => connection.is_enabled = *function == ENABLE,
            _ => return Err(End::Fault(format!("a request that nobody makes: {fragment:02X?}"))),
        }
        let mut answer = vec![FIR | FIN | number, RESPONSE, 0, 0];
        self.indicate(connection, &mut answer, 0);
        answer.extend_from_slice(echo);
        self.send(connection, &answer)
    }

    /// A poll, which is answered at once, or once an unsolicited response is confirmed.
    fn take_read(&mut self, connection: &mut Connection, number: u8, objects: &[u8]) -> Result<(), End> {
        let has_statics = objects.chunks(3).any(|it| it == CLASS_0);
        let is_over = connection.watch.polled(has_statics, now_us()).map_err(End::Fault)?;
        count(&self.site.counts.polls[usize::from(has_statics)]);
        if is_over {
            count(&self.site.counts.polls_by_period[usize::from(has_statics)]);
        }
        if connection.flight.is_some() {
            connection.deferred = Some((number, has_statics));
            return Ok(());
        }
        self.begin_answer(connection, number, has_statics)
    }

    /// The clock is set, which was recorded before.
    fn take_time(&mut self, connection: &mut Connection, time: &[u8]) -> Result<(), End> {
        let [first, second, third, fourth, fifth, sixth] = *time else {
            return Err(End::Fault(format!("a time of {} octets", time.len())));
        };
        let written_ms = u64::from_le_bytes([first, second, third, fourth, fifth, sixth, 0, 0]);
        let behind = connection.watch.take_time(written_ms).map_err(End::Fault)?;
        self.ahead_ms = -(behind as i64);
        self.need_time_us = now_us() + self.board.rhythm.us(self.board.rhythm.need_time_ms);
        count(&self.site.counts.times_set);
        self.site.counts.most_behind_ms.fetch_max(behind, Relaxed);
        Ok(())
    }

    /// A fragment was confirmed. Now and then the confirmation is taken as one that didn't come.
    fn take_confirmation(&mut self, connection: &mut Connection, number: u8, is_uns: bool) -> Result<(), End> {
        let is_of = |it: &mut Flight| it.is_unsolicited == is_uns && it.number == number;
        let Some(flight) = connection.flight.take_if(is_of) else { return Ok(()) };
        self.site.ledger().confirm(flight.place);
        if self.is_troubling() && self.random.percent(3) {
            connection.watch.disturb(now_us());
            count(&self.site.counts.withheld);
            if is_uns {
                connection.flight = Some(Flight { began_us: now_us(), ..flight });
            } else {
                connection.answer = None;
            }
            return Ok(());
        }
        self.events.drain(..flight.events);
        self.has_overflowed &= self.events.len() >= BUFFER;
        if flight.tells_all {
            self.site.ledger().told_all(now_us());
        }
        if !is_uns {
            return self.go_on(connection);
        }
        connection.unsolicited_number = (number + 1) & 0x0F;
        match connection.deferred.take() {
            Some((number, has_statics)) => self.begin_answer(connection, number, has_statics),
            None => Ok(()),
        }
    }

    fn begin_answer(&mut self, connection: &mut Connection, number: u8, has_statics: bool) -> Result<(), End> {
        let events = if self.is_held() { 0 } else { self.events.len() };
        connection.answer = Some(Answer { number, is_first: true, events, has_statics, next_point: 0 });
        self.go_on(connection)
    }

    /// The next fragment of an answer: events first, then static values. All with objects ask for a confirmation.
    fn go_on(&mut self, connection: &mut Connection) -> Result<(), End> {
        let Some(answer) = &mut connection.answer else { return Ok(()) };
        let mut fragment = vec![answer.number | if answer.is_first { FIR } else { 0 }, RESPONSE, 0, 0];
        let (place, events) = self.put_events(&mut fragment, answer.events);
        answer.events -= events;
        if answer.events == 0 && answer.has_statics {
            self.put_statics(&mut fragment, &mut answer.next_point);
        }
        let is_last = answer.events == 0 && (!answer.has_statics || answer.next_point == self.site.points());
        fragment[0] |= if is_last { FIN } else { 0 } | if fragment.len() > 4 { CON } else { 0 };
        if fragment[0] & CON != 0 {
            let mut flight = Flight::new(false, answer.number, place, events, &fragment);
            flight.tells_all = is_last && answer.has_statics;
            connection.flight = Some(flight);
        }
        (answer.number, answer.is_first) = ((answer.number + 1) & 0x0F, false);
        if is_last {
            connection.answer = None;
        }
        self.indicate(connection, &mut fragment, events);
        self.send(connection, &fragment)
    }

    /// Puts events into a fragment, the oldest first, at most so many; gives the fragment's place and their number.
    fn put_events(&mut self, fragment: &mut Vec<u8>, most: usize) -> (u32, usize) {
        let is_timed = self.random.percent(50) && self.site.manner.flood == Flood::Never;
        let most = if self.is_troubling() { most.min(self.random.within(1, 120) as usize) } else { most };
        let mut ledger = self.site.ledger();
        let place = ledger.begin(now_us());
        let (mut events, mut header) = (0, None);
        while events < most && fragment.len() + 18 <= FRAGMENT {
            let Event { point, stamp_ms } = self.events[events];
            let is_analog = point < self.site.manner.analogs;
            let count_at = match header {
                Some((at, kind)) if kind == is_analog => at,
                _ => {
                    fragment.extend_from_slice(&[if is_analog { 32 } else { 22 }, 1, INDICES, 0, 0]);
                    let end = fragment.len();
                    fragment[end - 4] = [1, if is_analog { 3 } else { 5 }][usize::from(is_timed)];
                    end - 2
                }
            };
            header = Some((count_at, is_analog));
            let count = u16::from_le_bytes([fragment[count_at], fragment[count_at + 1]]) + 1;
            fragment[count_at..count_at + 2].copy_from_slice(&count.to_le_bytes());
            let index = if is_analog { point } else { point - self.site.manner.analogs };
            fragment.extend_from_slice(&index.to_le_bytes());
            fragment.push(ON_LINE);
            fragment.extend_from_slice(&ledger.add(point, is_timed.then_some(stamp_ms)).to_le_bytes());
            fragment.extend(stamp_ms.to_le_bytes().iter().take(if is_timed { 6 } else { 0 }));
            events += 1;
        }
        self.site.counts.events.fetch_add(events as u64, Relaxed);
        (place, events)
    }

    /// Puts static values into a fragment, from a point on, which is moved on.
    fn put_statics(&mut self, fragment: &mut Vec<u8>, next: &mut u16) {
        let mut room = (FRAGMENT - fragment.len()) / 5;
        if self.is_troubling() {
            room = room.min(self.random.within(8, 60) as usize);
        }
        let mut ledger = self.site.ledger();
        for (group, end) in [(30, self.site.manner.analogs), (20, self.site.points())] {
            let last = end.min(*next + (room.saturating_sub(2)) as u16);
            if last <= *next {
                continue;
            }
            let base = if group == 30 { 0 } else { self.site.manner.analogs };
            let ([first_low, first_high], [last_low, last_high]) =
                ((*next - base).to_le_bytes(), (last - 1 - base).to_le_bytes());
            fragment.extend_from_slice(&[group, 1, RANGE, first_low, first_high, last_low, last_high]);
            for point in *next..last {
                fragment.push(ON_LINE);
                fragment.extend_from_slice(&ledger.add(point, None).to_le_bytes());
            }
            room -= usize::from(last - *next) + 2;
            self.site.counts.statics.fetch_add(u64::from(last - *next), Relaxed);
            *next = last;
        }
    }

    /// Sets the internal indications of a fragment that has so many events and is about to be sent.
    fn indicate(&self, connection: &mut Connection, fragment: &mut [u8], events: usize) {
        let now = now_us();
        fragment[2] |= if self.has_restarted { RESTARTED } else { 0 };
        fragment[2] |= if now >= self.need_time_us { NEED_TIME } else { 0 };
        // One that floods isn't asked for events.
        let has_more = self.events.len() > events && self.site.manner.flood == Flood::Never;
        fragment[2] |= if has_more { CLASS_1 } else { 0 };
        fragment[3] |= if self.has_overflowed { OVERFLOWED } else { 0 };
        connection.watch.indicate(fragment[2], fragment[3], now);
    }

    /// Sends a fragment: at once, in pieces, or the front of it, and then the connection ends.
    fn send(&mut self, connection: &mut Connection, fragment: &[u8]) -> Result<(), End> {
        count(&self.site.counts.fragments);
        let mut octets = Vec::with_capacity(fragment.len() * 5 / 4 + 32);
        connection.link.write(fragment, &mut octets);
        if connection.is_to_be_cut && self.is_troubling() {
            let front = self.random.within(1, octets.len() as u64) as usize;
            connection.socket.write_all(&octets[..front])?;
            if self.random.percent(50) {
                end_by_reset(&connection.socket);
            }
            return Err(End::Wanted);
        }
        if self.is_troubling() && self.random.percent(10) {
            let length = self.random.within(1, octets.len() as u64 + 1) as usize;
            for piece in octets.chunks(length.max(octets.len() / 8 + 1)) {
                connection.socket.write_all(piece)?;
                sleep_us(self.random.within(100, 10_000));
            }
            return Ok(());
        }
        Ok(connection.socket.write_all(&octets)?)
    }
}

impl Flight {
    fn new(is_unsolicited: bool, number: u8, place: u32, events: usize, fragment: &[u8]) -> Flight {
        let now = now_us();
        Flight {
            is_unsolicited,
            number,
            place,
            events,
            tells_all: false,
            octets: fragment.to_vec(),
            began_us: now,
            repeat_us: now + REPEAT_US,
        }
    }
}
