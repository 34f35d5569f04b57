//! Civil dates and times (the Gregorian calendar), and the time tags of IEC 60870-5-101 (7.2.6.18).

const MINUTE_MS: u64 = 60_000;
const HOUR_MS: u64 = 60 * MINUTE_MS;
pub const DAY_MS: u64 = 24 * HOUR_MS;
/// How far the station's clocks are ahead of UTC.
pub const OFFSET_MINUTES: u64 = 330;

/// A date and a time of the day.
#[derive(Debug, PartialEq)]
pub struct Civil {
    year: u64,
    month: u64,
    day: u64,
    /// The milliseconds since midnight.
    ms: u64,
}

fn is_leap(year: u64) -> bool {
    year.is_multiple_of(4) && !year.is_multiple_of(100) || year.is_multiple_of(400)
}

fn days_of(year: u64, month: u64) -> u64 {
    match month {
        2 => 28 + u64::from(is_leap(year)),
        4 | 6 | 9 | 11 => 30,
        _ => 31,
    }
}

impl Civil {
    /// What a clock of UTC shows so many milliseconds after 1970 began.
    pub fn at(ms_since_1970: u64) -> Civil {
        let mut days = ms_since_1970 / DAY_MS;
        let (mut year, mut month) = (1970, 1);
        while days >= 365 + u64::from(is_leap(year)) {
            days -= 365 + u64::from(is_leap(year));
            year += 1;
        }
        while days >= days_of(year, month) {
            days -= days_of(year, month);
            month += 1;
        }
        Civil { year, month, day: days + 1, ms: ms_since_1970 % DAY_MS }
    }

    /// What a clock of the station shows then.
    pub fn at_station(ms_since_1970: u64) -> Civil {
        Civil::at(ms_since_1970 + OFFSET_MINUTES * MINUTE_MS)
    }

    /// The octets of a time tag that shows it.
    pub fn tag(&self) -> [u8; 7] {
        let [low, high] = ((self.ms % MINUTE_MS) as u16).to_le_bytes();
        let (minute, hour) = (self.ms % HOUR_MS / MINUTE_MS, self.ms / HOUR_MS);
        [low, high, minute as u8, hour as u8, self.day as u8, self.month as u8, (self.year % 100) as u8]
    }
}

/// The date that a time tag shows by its year, month and day.
pub fn date([year, month, day]: [u8; 3]) -> String {
    format!("20{year:02}-{month:02}-{day:02}")
}

impl std::fmt::Display for Civil {
    fn fmt(&self, f: &mut std::fmt::Formatter) -> std::fmt::Result {
        let Civil { year, month, day, ms } = self;
        let (hour, minute, second) = (ms / HOUR_MS, ms % HOUR_MS / MINUTE_MS, ms % MINUTE_MS / 1000);
        write!(f, "{year:04}-{month:02}-{day:02}T{hour:02}:{minute:02}:{second:02}.{:03}Z", ms % 1000)
    }
}

#[cfg(test)]
mod tests {
    use super::*;

    #[test]
    fn known_moments() {
        for (seconds, shown) in [
            (0, "1970-01-01T00:00:00.007Z"),
            (951_782_399, "2000-02-28T23:59:59.007Z"),
            (951_782_400, "2000-02-29T00:00:00.007Z"),
            (1_234_567_890, "2009-02-13T23:31:30.007Z"),
            (1_709_251_199, "2024-02-29T23:59:59.007Z"),
            (4_102_444_799, "2099-12-31T23:59:59.007Z"),
        ] {
            assert_eq!(Civil::at(seconds * 1000 + 7).to_string(), shown);
        }
    }

    #[test]
    fn a_tag_shows_the_station_s_time() {
        // 2024-02-29T18:29:59.999Z, a millisecond before midnight at the station.
        let evening = 1_709_231_399_999;
        assert_eq!(Civil::at_station(evening).tag(), [0x5F, 0xEA, 59, 23, 29, 2, 24]);
        assert_eq!(Civil::at_station(evening + 1).tag(), [0, 0, 0, 0, 1, 3, 24]);
        assert_eq!(date([24, 3, 1]), "2024-03-01");
    }
}
