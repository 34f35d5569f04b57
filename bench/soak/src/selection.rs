//! Commands of a control centre with a selection, which stands for `select_ms` and no longer.
use crate::apdu::{command, CONFIRMATION, NEGATIVE, TERMINATION};
use crate::centre::Counts;
use crate::outstation::Site;
use crate::random::Random;
use std::sync::atomic::{AtomicU64, Ordering::Relaxed};

/// From one command to the next, on average; and how near to its end a selection isn't judged, since clocks show whole
/// milliseconds.
const PAUSE_US: u64 = 500_000;
const EXACT_US: u64 = 1000;
/// The cause of a confirmation that refuses.
const REFUSED: u8 = CONFIRMATION | NEGATIVE;

#[derive(Clone, Copy, Debug, PartialEq)]
enum Stage {
    Idle,
    Selecting,
    Selected,
    Executing,
    Confirmed,
}

/// One command after the other, each for a control that no other control centre selects.
pub struct Selection {
    client: usize,
    select_us: u64,
    stage: Stage,
    site: usize,
    /// When the select was sent, when its confirmation came, and when the next is due, or was sent.
    asked_us: u64,
    selected_us: u64,
    next_us: u64,
    sent: [u8; 10],
}

impl Selection {
    pub fn new(client: usize, select_us: u64, now: u64) -> Selection {
        let (asked_us, selected_us, next_us) = (0, 0, now);
        Selection { client, select_us, stage: Stage::Idle, site: 0, asked_us, selected_us, next_us, sent: [0; 10] }
    }

    /// The outstation that is asked.
    pub fn site(&self) -> usize {
        self.site
    }

    pub fn is_under_way(&self) -> bool {
        self.stage != Stage::Idle
    }

    /// Since when an answer is awaited.
    pub fn asked_us(&self) -> Option<u64> {
        (!matches!(self.stage, Stage::Idle | Stage::Selected)).then_some(self.next_us)
    }

    /// What is to be sent, if anything is due: a select, where a command may begin, or an execute.
    pub fn next(&mut self, sites: &[Site], may_begin: bool, now: u64, random: &mut Random) -> Option<[u8; 10]> {
        if now < self.next_us {
            return None;
        }
        match self.stage {
            Stage::Idle if may_begin => {
                self.site = random.within(0, sites.len() as u64) as usize;
                (self.stage, self.asked_us) = (Stage::Selecting, now);
            }
            Stage::Selected => self.stage = Stage::Executing,
            _ => return None,
        }
        self.next_us = now;
        let site = &sites[self.site];
        let address = site.control_address(self.client);
        self.sent = command(site.common_address(), address, self.stage == Stage::Selecting);
        Some(self.sent)
    }

    /// What is answered.
    pub fn take(
        &mut self,
        asdu: &[u8],
        site: &Site,
        now: u64,
        random: &mut Random,
        counts: &Counts,
    ) -> Result<(), String> {
        let is_answer = asdu.len() == 10 && asdu[..2] == self.sent[..2] && asdu[3..] == self.sent[3..];
        let wrong = |what: &str| Err(format!("a command in the stage {:?} is {what}: {asdu:02X?}", self.stage));
        match (self.stage, asdu.get(2).filter(|_| is_answer).copied().unwrap_or(0)) {
            (Stage::Selecting, CONFIRMATION) => {
                (self.stage, self.selected_us) = (Stage::Selected, now);
                self.next_us = now + random.within(0, 2 * self.select_us);
                Ok(())
            }
            (Stage::Executing, CONFIRMATION) if self.next_us > self.selected_us + self.select_us + EXACT_US => {
                wrong("executed, though its selection was over")
            }
            (Stage::Executing, CONFIRMATION) => {
                self.stage = Stage::Confirmed;
                Ok(())
            }
            (Stage::Confirmed, TERMINATION) => self.end(&counts.executed, now, random),
            (Stage::Executing, REFUSED) if self.next_us > self.selected_us + self.select_us => {
                self.end(&counts.expired, now, random)
            }
            (Stage::Executing, REFUSED) if now + EXACT_US < self.asked_us + self.select_us && self.stood(site) => {
                wrong("refused, though its selection stands")
            }
            (Stage::Executing, REFUSED) => self.end(&counts.refused, now, random),
            _ => wrong("answered otherwise than is to be expected"),
        }
    }

    /// Whether the outstation has stood since the select, so that it can have been asked.
    fn stood(&self, site: &Site) -> bool {
        site.ledger().topical_since().is_some_and(|it| it < self.asked_us)
    }

    fn end(&mut self, counter: &AtomicU64, now: u64, random: &mut Random) -> Result<(), String> {
        counter.fetch_add(1, Relaxed);
        (self.stage, self.next_us) = (Stage::Idle, now + random.pause(PAUSE_US));
        Ok(())
    }
}

#[cfg(test)]
mod tests {
    use super::*;
    use crate::outstation::{Flood, Manner};

    /// A command that is selected at 10 and confirmed at 20, executed at a time, and answered so behind 5 more.
    fn executed(at_us: u64, cause: u8) -> Result<[u64; 2], String> {
        let (events_a_second, together, flood) = (1.0, 1, Flood::Never);
        let manner =
            Manner { is_unsolicited: true, analogs: 1, counters: 0, events_a_second, together, is_wild: false, flood };
        let (sites, counts, mut random) = ([Site::new(0, manner)], Counts::default(), Random::new(1, 1));
        sites[0].ledger().told_all(1);
        let mut selection = Selection::new(3, 100_000, 10);
        let mut answer = selection.next(&sites, true, 10, &mut random).unwrap();
        answer[2] = CONFIRMATION;
        selection.take(&answer, &sites[0], 20, &mut random, &counts)?;
        selection.next_us = at_us;
        let mut answer = selection.next(&sites, true, at_us, &mut random).unwrap();
        answer[2] = cause;
        selection.take(&answer, &sites[0], at_us + 5, &mut random, &counts)?;
        Ok([&counts.expired, &counts.refused].map(|it| it.load(Relaxed)))
    }

    #[test]
    fn a_selection_stands_for_its_time() {
        assert_eq!(executed(50_000, CONFIRMATION), Ok([0, 0]));
        assert!(executed(50_000, REFUSED).is_err());
        assert_eq!(executed(99_990, REFUSED), Ok([0, 1]));
        assert_eq!(executed(100_021, REFUSED), Ok([1, 0]));
        assert!(executed(101_021, CONFIRMATION).is_err());
        assert!(executed(50_000, TERMINATION).is_err());
    }
}
