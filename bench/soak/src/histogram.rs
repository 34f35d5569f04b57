//! Counts of times.

/// Slots for each power of two; a slot's times differ by less than a hundredth and a half.
const SLOTS: usize = 64;
const POWERS: usize = 34;

pub struct Histogram {
    counts: Vec<u64>,
    pub total: u64,
    pub most_us: u64,
}

impl Histogram {
    pub fn new() -> Histogram {
        Histogram { counts: vec![0; SLOTS * POWERS], total: 0, most_us: 0 }
    }

    pub fn add(&mut self, time_us: u64) {
        let power = (time_us / SLOTS as u64 + 1).ilog2() as usize;
        let slot = power * SLOTS + ((time_us + SLOTS as u64) >> power) as usize - SLOTS;
        let last = self.counts.len() - 1;
        self.counts[slot.min(last)] += 1;
        self.total += 1;
        self.most_us = self.most_us.max(time_us);
    }

    pub fn merge(&mut self, other: &Histogram) {
        for (own, more) in self.counts.iter_mut().zip(&other.counts) {
            *own += more;
        }
        self.total += other.total;
        self.most_us = self.most_us.max(other.most_us);
    }

    /// The milliseconds that so large a share of the times doesn't pass.
    pub fn at(&self, share: f64) -> f64 {
        let wanted = (self.total as f64 * share).ceil().max(1.0) as u64;
        let mut seen = 0;
        for (slot, count) in self.counts.iter().enumerate() {
            seen += count;
            if seen >= wanted {
                let (power, place) = (slot / SLOTS, slot % SLOTS);
                let end = ((place + SLOTS + 1) as u64) << power;
                return (end - SLOTS as u64 - 1).min(self.most_us) as f64 / 1000.0;
            }
        }
        0.0
    }
}

impl std::fmt::Display for Histogram {
    fn fmt(&self, f: &mut std::fmt::Formatter) -> std::fmt::Result {
        let (half, most) = (self.at(0.5), self.most_us as f64 / 1000.0);
        write!(f, "p50 {half:.2} ms, p99 {:.2} ms, most {most:.2} ms ({} times)", self.at(0.99), self.total)
    }
}
