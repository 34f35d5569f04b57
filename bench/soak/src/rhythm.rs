//! How fast all goes: the times of the settings, how exactly they are judged, and how often peers make trouble.
use crate::calendar::{DAY_MS, OFFSET_MINUTES};
use crate::clock::Clock;

const SECOND_MS: u64 = 1000;
const SECOND_US: u64 = 1_000_000;
const MINUTE_MS: u64 = 60 * SECOND_MS;
/// From one tick of the gateway to the next, by the system's clock whatever its own shows.
const TICK_US: u64 = 100_000;
/// How long this program's own look at something may take until it excuses what is late.
pub const HELD_US: u64 = 50_000;
/// The days on whose evening a fast day begins, counted from 1970: 2028-02-29, 2027-12-31, 2027-02-28.
const EVES: [u64; 3] = [21_243, 21_183, 20_877];
/// When it begins there, by the station's clocks.
const EVENING_MS: u64 = (23 * 60 + 20) * MINUTE_MS;

#[derive(Clone, Copy)]
pub struct Rhythm {
    pub clock: Clock,
    /// Of the settings, in milliseconds of the clock.
    pub t1_ms: u64,
    pub t2_ms: u64,
    pub t3_ms: u64,
    pub poll_ms: u64,
    pub integrity_ms: u64,
    pub response_ms: u64,
    pub select_ms: u64,
    /// From one time that an outstation asks for the time to the next, likewise; never, where it is 0.
    pub need_time_ms: u64,
    /// How much earlier or later than it is due something may come, by the system's clock.
    pub slack_us: u64,
    /// By the system's clock, on average: from one trouble of an outstation to the next, how long a connection of a
    /// control centre lasts, and from one of its acts to the next.
    pub trouble_us: u64,
    pub stay_us: u64,
    pub act_us: u64,
    /// How long nothing comes when all was taken, with integrity polls as often as they are.
    pub silent_us: u64,
}

impl Rhythm {
    /// By the system's clock, with as much trouble as can be, and so without much heed to when things come.
    pub fn of_system() -> Rhythm {
        Rhythm {
            clock: Clock::of_system(),
            t1_ms: 6 * SECOND_MS,
            t2_ms: 2 * SECOND_MS,
            t3_ms: 3 * SECOND_MS,
            poll_ms: 400,
            integrity_ms: 60 * MINUTE_MS,
            response_ms: SECOND_MS,
            select_ms: 10 * SECOND_MS,
            need_time_ms: 0,
            slack_us: 8 * SECOND_US,
            trouble_us: 6 * SECOND_US,
            stay_us: 4 * SECOND_US,
            act_us: 900_000,
            silent_us: 1_500_000,
        }
    }

    /// A day that takes less, from an evening on that the seed chooses.
    pub fn of_day(times: u64, seed: u64) -> Rhythm {
        let eve = EVES[(seed % EVES.len() as u64) as usize];
        Rhythm {
            clock: Clock::fast(times, eve * DAY_MS + EVENING_MS - OFFSET_MINUTES * MINUTE_MS),
            t1_ms: 4 * MINUTE_MS,
            t2_ms: 20 * SECOND_MS,
            t3_ms: 20 * SECOND_MS,
            poll_ms: 30 * SECOND_MS,
            integrity_ms: 10 * MINUTE_MS,
            response_ms: MINUTE_MS,
            select_ms: 30 * SECOND_MS,
            need_time_ms: 15 * MINUTE_MS,
            slack_us: 2 * TICK_US,
            trouble_us: 20 * SECOND_US,
            stay_us: 20 * SECOND_US,
            act_us: 2 * SECOND_US,
            silent_us: 700_000,
        }
    }

    /// How long a time of the settings is by the system's clock.
    pub fn us(&self, ms: u64) -> u64 {
        self.clock.system_us(ms)
    }
}

#[cfg(test)]
mod tests {
    use super::*;
    use crate::calendar::Civil;

    #[test]
    fn days_go_over_the_end_of_a_month() {
        for (seed, eve, next) in
            [(0, "2028-02-29", "2028-03-01"), (1, "2027-12-31", "2028-01-01"), (2, "2027-02-28", "2027-03-01")]
        {
            let clock = Rhythm::of_day(48, seed).clock;
            let date = |at_us| Civil::at_station(clock.wall_ms(at_us)).to_string();
            assert_eq!(date(0), format!("{eve}T23:20:00.000Z"));
            assert_eq!(date(50 * SECOND_US), format!("{next}T00:00:00.000Z"));
        }
    }
}
