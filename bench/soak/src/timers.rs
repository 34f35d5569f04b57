//! What the gateway does on a connection of a control centre by t1, t2 and t3, and whether it does so in time.
use crate::rhythm::{Rhythm, HELD_US};
use crate::round::Round;
use std::collections::VecDeque;

pub struct Timers {
    rhythm: Rhythm,
    /// Its tests, by t3.
    tests: Round,
    /// When the first I format came that isn't acknowledged to it, and when that was sent at the earliest.
    came_us: Option<(u64, u64)>,
    /// When each I format was sent that it hasn't acknowledged.
    sent_us: VecDeque<u64>,
    /// Until when what is late is excused, and when it was last looked whether anything is.
    excused_us: u64,
    looked_us: u64,
}

impl Timers {
    /// A connection begins.
    pub fn new(rhythm: &Rhythm, now: u64) -> Timers {
        let tests = Round::new("TESTFR act", rhythm.us(rhythm.t3_ms), rhythm.slack_us, now);
        Timers { rhythm: *rhythm, tests, came_us: None, sent_us: VecDeque::new(), excused_us: 0, looked_us: now }
    }

    /// It is looked for what comes. What is late is excused, and what is early, where that wasn't done all the time, or
    /// where the gateway may not have read yet what was sent.
    pub fn look(&mut self, now: u64, is_excused: bool) {
        if is_excused || now > self.looked_us + HELD_US {
            self.excused_us = now;
            self.tests.excuse(now);
            self.tests.hasten(now);
        }
        self.looked_us = now;
    }

    /// Whether nothing is late.
    pub fn judge(&self, now: u64) -> Result<(), String> {
        self.tests.judge(now)?;
        let t2_us = self.rhythm.us(self.rhythm.t2_ms);
        let is_late = |sent: &u64| now > (sent + t2_us).max(self.excused_us) + self.rhythm.slack_us;
        match self.sent_us.front().filter(|it| is_late(it)) {
            Some(sent) => Err(format!("an I format isn't acknowledged in {:.3} s", (now - sent) as f64 / 1e6)),
            None => Ok(()),
        }
    }

    /// Something is about to be sent.
    pub fn send(&mut self, now: u64) {
        self.tests.begin_anew(now);
    }

    pub fn send_i(&mut self, now: u64) {
        self.sent_us.push_back(now);
    }

    /// So many further I formats are acknowledged by the gateway.
    pub fn take_number(&mut self, new: u16) {
        self.sent_us.drain(..usize::from(new));
    }

    pub fn take_i(&mut self, now: u64) {
        let earliest = if now > self.excused_us + HELD_US { now } else { 0 };
        self.came_us.get_or_insert((earliest, now));
    }

    /// All I formats that came are acknowledged.
    pub fn acknowledge(&mut self) {
        self.came_us = None;
    }

    /// TESTFR act came. Gives whether t3 was over.
    pub fn take_test(&mut self, now: u64) -> Result<bool, String> {
        self.tests.came(now)
    }

    /// An act is confirmed; the gateway may have read it late, and counts t3 from there.
    pub fn take_confirmation(&mut self, now: u64) {
        self.tests.excuse(now + self.rhythm.us(self.rhythm.t3_ms));
    }

    /// Whether t1 may be over, or has to be, since an I format came.
    pub fn may_have_expired(&self, now: u64) -> bool {
        let t1_us = self.rhythm.us(self.rhythm.t1_ms);
        self.came_us.is_some_and(|(earliest, _)| now + self.rhythm.slack_us >= earliest + t1_us)
    }

    pub fn has_to_have_expired(&self, now: u64) -> bool {
        let most_us = self.rhythm.us(self.rhythm.t1_ms) + self.rhythm.slack_us;
        self.came_us.is_some_and(|(_, latest)| now > latest.max(self.excused_us) + most_us)
    }
}

#[cfg(test)]
mod tests {
    use super::*;

    /// A connection that began at 0 under a clock by which t1 is 5 s, t2 and t3 0.416 s; all may be 0.2 s late.
    fn timers() -> Timers {
        Timers::new(&Rhythm::of_day(48, 0), 0)
    }

    /// It is looked every 10 ms up to a time.
    fn look(timers: &mut Timers, until_us: u64) {
        for now in (timers.looked_us..=until_us).step_by(10_000) {
            timers.look(now, false);
        }
    }

    #[test]
    fn tests_come_by_t3() {
        let mut timers = timers();
        look(&mut timers, 610_000);
        assert!(timers.judge(610_000).is_ok() && timers.judge(620_000).is_err());
        timers.send(1_000_000);
        assert!(timers.take_test(1_150_000).is_ok(), "it was on its way");
        timers.send(1_150_000);
        assert!(timers.take_test(1_360_000).is_err());
        assert_eq!(timers.take_test(1_570_000), Ok(true));
        timers.send(1_570_000);
        timers.look(1_900_000, false);
        assert!(timers.take_test(1_900_000).is_ok(), "it may have come before");
    }

    #[test]
    fn i_formats_are_acknowledged_by_t2() {
        let mut timers = timers();
        timers.send(0);
        timers.send_i(0);
        timers.send_i(10);
        timers.take_number(1);
        timers.tests.excuse(9_000_000);
        look(&mut timers, 616_000);
        assert!(timers.judge(616_676).is_ok() && timers.judge(616_677).is_err());
        timers.take_number(1);
        assert!(timers.judge(616_677).is_ok());
    }

    #[test]
    fn a_connection_ends_by_t1() {
        let mut timers = timers();
        look(&mut timers, 100_000);
        assert!(!timers.may_have_expired(9_000_000) && !timers.has_to_have_expired(9_000_000));
        timers.take_i(100_000);
        timers.take_i(500_000);
        assert!(!timers.may_have_expired(4_899_999) && timers.may_have_expired(4_900_000));
        assert!(!timers.has_to_have_expired(5_300_000) && timers.has_to_have_expired(5_300_001));
        timers.acknowledge();
        assert!(!timers.may_have_expired(9_000_000));
    }
}
