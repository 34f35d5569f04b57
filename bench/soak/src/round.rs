//! What the gateway does again and again by its clock, and whether it does so in time.
use std::ops::Range;

pub struct Round {
    what: &'static str,
    period_us: u64,
    slack_us: u64,
    /// When it came last, or was put off.
    since_us: u64,
    /// When it may not come.
    never: Range<u64>,
    /// Until when something keeps it back, and when it was last given cause to come early.
    excused_us: u64,
    hastened_us: u64,
}

impl Round {
    /// It is due a period behind now at the latest.
    pub fn new(what: &'static str, period_us: u64, slack_us: u64, now: u64) -> Round {
        Round { what, period_us, slack_us, since_us: now, never: 0..0, excused_us: 0, hastened_us: 0 }
    }

    /// It came, so it comes again a period later. Gives whether its period was over.
    pub fn came(&mut self, now: u64) -> Result<bool, String> {
        if self.never.contains(&now) {
            let early = (self.never.end - now) as f64 / 1e6;
            return Err(format!("{} came {early:.3} s before its time", self.what));
        }
        let is_over = now + self.slack_us >= self.since_us + self.period_us;
        let may_hasten = now < self.hastened_us + self.slack_us;
        let earliest = (now + self.period_us).saturating_sub(self.slack_us);
        self.never = if may_hasten { 0..0 } else { now..earliest };
        self.since_us = now;
        Ok(is_over)
    }

    /// The gateway is about to read what puts it off by a period. What it did before may still be on its way.
    pub fn begin_anew(&mut self, now: u64) {
        self.never = now + self.slack_us..now + self.period_us;
        self.since_us = now;
    }

    /// It may come before its time.
    pub fn hasten(&mut self, now: u64) {
        self.never = 0..0;
        self.hastened_us = now;
    }

    /// Until then something keeps it back.
    pub fn excuse(&mut self, until_us: u64) {
        self.excused_us = self.excused_us.max(until_us);
    }

    /// Whether it has come in time.
    pub fn judge(&self, now: u64) -> Result<(), String> {
        let latest = (self.since_us + self.period_us).max(self.excused_us) + self.slack_us;
        match now.checked_sub(latest) {
            None => Ok(()),
            Some(late) => Err(format!("{} isn't there, {:.3} s behind its time", self.what, late as f64 / 1e6)),
        }
    }
}

#[cfg(test)]
mod tests {
    use super::*;

    fn poll() -> Round {
        Round::new("a poll", 1000, 100, 5000)
    }

    #[test]
    fn a_poll_comes_in_its_period() {
        let mut round = poll();
        assert!(round.judge(6099).is_ok() && round.judge(6100).is_err());
        assert_eq!(round.came(5003), Ok(false));
        assert!(round.came(5902).is_err());
        assert_eq!(round.came(5903), Ok(true));
        assert!(round.judge(7002).is_ok() && round.judge(7003).is_err());
    }

    #[test]
    fn causes_hasten_a_poll_and_troubles_excuse_it() {
        let mut round = poll();
        round.hasten(5500);
        assert!(round.came(5510).is_ok() && round.came(5520).is_ok(), "the cause may have come behind the first");
        assert!(round.came(5700).is_ok() && round.came(5710).is_err());
        round.excuse(7000);
        assert!(round.judge(7099).is_ok() && round.judge(7100).is_err());
    }

    #[test]
    fn what_is_put_off_may_be_on_its_way() {
        let mut round = poll();
        round.begin_anew(5000);
        assert!(round.came(5099).is_ok());
        round.begin_anew(5100);
        assert!(round.came(5200).is_err() && round.came(6099).is_err() && round.came(6100).is_ok());
    }
}
