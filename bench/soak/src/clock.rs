//! The clocks of a run, which the gateway is shown by a library: that by which it waits is the system's, or many times as
//! fast, and the time of day is always, so that it tells the end of each connection, and not of several together.
use crate::calendar::Civil;
use crate::preload::Libraries;
use crate::system::{began_ns, now_us};
use std::process::Command;
use std::time::{SystemTime, UNIX_EPOCH};

/// How many times as fast as the system's the gateway's time of day is: a minute of it takes 60 ms.
const WALL_TIMES: u64 = 1000;

#[derive(Clone, Copy)]
pub struct Clock {
    /// How many times as fast as the system's it is, and how many times the gateway's time of day.
    times: u64,
    wall_times: u64,
    /// The milliseconds since 1970 that it showed when this program began.
    began_ms: u64,
}

impl Clock {
    pub fn of_system() -> Clock {
        let since_1970 = SystemTime::now().duration_since(UNIX_EPOCH).map_or(0, |it| it.as_millis() as u64);
        Clock { times: 1, wall_times: WALL_TIMES, began_ms: since_1970 - now_us() / 1000 }
    }

    pub fn fast(times: u64, began_ms: u64) -> Clock {
        Clock { times, wall_times: times, began_ms }
    }

    /// The milliseconds since 1970 that it shows at a time of this program.
    pub fn wall_ms(&self, at_us: u64) -> u64 {
        self.began_ms + at_us * self.times / 1000
    }

    /// The gateway's time of day.
    pub fn civil(&self, at_us: u64) -> Civil {
        Civil::at(self.began_ms + at_us * self.wall_times / 1000)
    }

    /// How many microseconds of the system's clock so many of its milliseconds take.
    pub fn system_us(&self, ms: u64) -> u64 {
        ms * 1000 / self.times
    }

    /// How many of its milliseconds so many microseconds of the system's clock take.
    pub fn own_ms(&self, us: u64) -> u64 {
        us * self.times / 1000
    }

    /// Shows it to a program that is about to start, by a library.
    pub fn show(&self, libraries: &mut Libraries, command: &mut Command) -> Result<(), String> {
        libraries.add("fast_clock")?;
        let (began, wall) = (began_ns(), self.began_ms * 1_000_000);
        for (name, number) in
            [("TIMES", self.times), ("WALL_TIMES", self.wall_times), ("BEGAN", began), ("WALL", wall)]
        {
            command.env(format!("FAST_CLOCK_{name}"), number.to_string());
        }
        Ok(())
    }
}
