//! What an outstation waits for on a connection of the master: polls in their periods, and the time.
use crate::outstation::{CLASS_1, NEED_TIME, OVERFLOWED, RESTARTED};
use crate::rhythm::{Rhythm, HELD_US};
use crate::round::Round;

pub struct Watch {
    rhythm: Rhythm,
    polls: Round,
    integrity: Round,
    /// Since when the time is due: since it was asked for, or since the master recorded it.
    time_due_us: Option<u64>,
    recorded_us: Option<u64>,
    /// Until when something keeps the master back, and when it was last looked whether anything is late.
    excused_us: u64,
    looked_us: u64,
}

impl Watch {
    /// A connection is accepted, which may have stood for a while.
    pub fn new(rhythm: &Rhythm, now: u64) -> Watch {
        let round = |what, period_ms| Round::new(what, rhythm.us(period_ms), rhythm.slack_us, now);
        let mut watch = Watch {
            rhythm: *rhythm,
            polls: round("a poll for events", rhythm.poll_ms),
            integrity: round("an integrity poll", rhythm.integrity_ms),
            time_due_us: None,
            recorded_us: None,
            excused_us: 0,
            looked_us: now,
        };
        watch.excuse(now, now);
        watch
    }

    /// Whether nothing is late.
    pub fn judge(&mut self, now: u64) -> Result<(), String> {
        if now > self.looked_us + HELD_US {
            self.excuse(now, now);
        }
        self.looked_us = now;
        self.polls.judge(now)?;
        self.integrity.judge(now)?;
        match self.time_due_us {
            Some(due) if now > due.max(self.excused_us) + self.rhythm.slack_us => Err(format!(
                "the time isn't there, {:.3} s after it was asked for or recorded",
                (now - due) as f64 / 1e6
            )),
            _ => Ok(()),
        }
    }

    /// What comes may be late until then; what comes next may be early, since the last came late or wasn't answered.
    fn excuse(&mut self, now: u64, until_us: u64) {
        self.excused_us = self.excused_us.max(until_us);
        for round in [&mut self.polls, &mut self.integrity] {
            round.excuse(until_us);
            round.hasten(now);
        }
    }

    /// Something is done by which a request may stay without an answer.
    pub fn disturb(&mut self, now: u64) {
        self.excuse(now, now + self.rhythm.us(self.rhythm.response_ms));
    }

    /// The master asks for events, and static values where it does. Gives whether the period was over.
    pub fn polled(&mut self, has_statics: bool, now: u64) -> Result<bool, String> {
        if has_statics { &mut self.integrity } else { &mut self.polls }.came(now)
    }

    /// The master is about to read these indications.
    pub fn indicate(&mut self, first: u8, second: u8, now: u64) {
        if first & CLASS_1 != 0 {
            self.polls.hasten(now);
        }
        if first & RESTARTED != 0 || second & OVERFLOWED != 0 {
            self.integrity.hasten(now);
        }
        if first & NEED_TIME != 0 {
            self.time_due_us.get_or_insert(now);
        }
    }

    pub fn record(&mut self, now: u64) {
        self.recorded_us = Some(now);
        self.time_due_us = Some(now);
    }

    /// The master writes the time at which it let the outstation record it, in milliseconds since 1970. Gives how many
    /// of these it is behind.
    pub fn take_time(&mut self, written_ms: u64) -> Result<u64, String> {
        let recorded = self.recorded_us.take().ok_or("a time is written that wasn't recorded")?;
        self.time_due_us = None;
        let clock = self.rhythm.clock;
        let (shown, most) = (clock.wall_ms(recorded), clock.own_ms(self.rhythm.slack_us));
        // A clock that shows whole milliseconds may be one ahead of another.
        match (shown + 1).checked_sub(written_ms) {
            Some(behind) if behind <= most => Ok(behind.saturating_sub(1)),
            _ => Err(format!("the time {written_ms} is written of a moment that was {shown}, give or take {most}")),
        }
    }
}

#[cfg(test)]
mod tests {
    use super::*;

    /// A connection that began at 0 by a clock under which polls come each 0.625 s, integrity polls each 12.5 s, and a
    /// request runs out in 1.25 s; all may be 0.2 s late.
    fn watch() -> Watch {
        Watch::new(&Rhythm::of_day(48, 0), 0)
    }

    /// It is looked every 10 ms from a time up to another, at the latest until something is late; gives when.
    fn late(watch: &mut Watch, from_us: u64, until_us: u64) -> Option<u64> {
        watch.looked_us = from_us;
        (from_us..=until_us).step_by(10_000).find(|it| watch.judge(*it).is_err())
    }

    #[test]
    fn polls_come_in_their_periods() {
        let mut watch = watch();
        assert_eq!(late(&mut watch, 0, 2_000_000), Some(830_000));
        assert_eq!(watch.polled(false, 400_000), Ok(false));
        assert_eq!(watch.polled(false, 1_100_000), Ok(true));
        assert!(watch.polled(false, 1_400_000).is_err());
        watch.indicate(CLASS_1, 0, 1_400_000);
        assert!(watch.polled(false, 1_401_000).is_ok() && watch.polled(false, 1_402_000).is_ok());
        assert!(watch.polled(true, 2_000_000).is_ok() && watch.polled(true, 3_000_000).is_err());
        watch.indicate(RESTARTED, 0, 3_000_000);
        assert!(watch.polled(true, 3_000_000).is_ok());
    }

    #[test]
    fn what_is_disturbed_may_be_late() {
        let mut watch = watch();
        watch.polled(false, 0).unwrap();
        watch.disturb(100_000);
        assert_eq!(late(&mut watch, 0, 2_000_000), Some(1_550_000));
        watch.judge(3_000_000).unwrap();
        assert_eq!(late(&mut watch, 3_000_000, 4_000_000), Some(3_200_000));
    }

    #[test]
    fn the_time_comes_when_it_is_asked_for() {
        let mut watch = watch();
        let shown = watch.rhythm.clock.wall_ms(10_000);
        assert!(watch.take_time(shown).is_err());
        watch.indicate(NEED_TIME, 0, 10_000);
        assert_eq!(late(&mut watch, 0, 500_000), Some(220_000));
        watch.record(10_000);
        assert_eq!(watch.take_time(shown), Ok(0));
        assert_eq!(late(&mut watch, 0, 500_000), None);
        for (written, is_right) in [(shown + 1, true), (shown + 2, false), (shown - 9599, true), (shown - 9600, false)]
        {
            watch.record(10_000);
            assert_eq!(watch.take_time(written).is_ok(), is_right, "{written}");
        }
    }
}
