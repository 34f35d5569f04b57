//! What an outstation sent. Each object that it sends, event or static value, carries a serial number of its own as its
//! value, counted from 1 over the whole run; so a control centre's observation tells which object it is of. An event
//! that is sent anew, since its confirmation was lost with a connection, has another number than before.
use std::ops::Range;

/// A fragment with objects, which have the serial numbers from `first` on.
struct Sent {
    first: u32,
    at_us: u64,
    is_confirmed: bool,
}

pub struct Ledger {
    /// Of each serial number, the point, and the place of its fragment. Number 0 is of nothing.
    objects: Vec<(u16, u32)>,
    /// Of each object that was sent with a time, its serial number and the time in milliseconds since 1970.
    stamps: Vec<(u32, u64)>,
    fragments: Vec<Sent>,
    /// Of each point, the last object of a fragment that was confirmed.
    confirmed: Vec<u32>,
    /// The last object of a fragment that was confirmed.
    last_confirmed: u32,
    pub confirmed_count: u64,
    /// When the connection's integrity poll was answered and the answer confirmed, while the connection stands.
    topical_since: Option<u64>,
    /// When connections ended.
    ends: Vec<u64>,
}

impl Ledger {
    pub fn new(points: u16) -> Ledger {
        Ledger {
            objects: vec![(u16::MAX, 0)],
            stamps: Vec::new(),
            fragments: Vec::new(),
            confirmed: vec![0; usize::from(points)],
            last_confirmed: 0,
            confirmed_count: 0,
            topical_since: None,
            ends: Vec::new(),
        }
    }

    /// The serial number that comes next.
    pub fn next(&self) -> u32 {
        self.objects.len() as u32
    }

    /// A fragment begins; gives its place.
    pub fn begin(&mut self, at_us: u64) -> u32 {
        self.fragments.push(Sent { first: self.next(), at_us, is_confirmed: false });
        self.fragments.len() as u32 - 1
    }

    /// One more object in the fragment that was begun last, with a time where it has one; gives its serial number.
    pub fn add(&mut self, point: u16, stamp_ms: Option<u64>) -> u32 {
        let serial = self.next();
        self.objects.push((point, self.fragments.len() as u32 - 1));
        self.stamps.extend(stamp_ms.map(|it| (serial, it)));
        serial
    }

    /// The time that an object was sent with.
    pub fn stamp_ms(&self, serial: u32) -> Option<u64> {
        self.stamps.binary_search_by_key(&serial, |it| it.0).ok().map(|it| self.stamps[it].1)
    }

    fn objects_of(&self, fragment: u32) -> Range<u32> {
        let next = self.fragments.get(fragment as usize + 1);
        self.fragments[fragment as usize].first..next.map_or(self.next(), |it| it.first)
    }

    /// A fragment is confirmed.
    pub fn confirm(&mut self, fragment: u32) {
        if std::mem::replace(&mut self.fragments[fragment as usize].is_confirmed, true) {
            return;
        }
        for serial in self.objects_of(fragment) {
            let point = usize::from(self.objects[serial as usize].0);
            self.confirmed[point] = self.confirmed[point].max(serial);
            self.last_confirmed = self.last_confirmed.max(serial);
            self.confirmed_count += 1;
        }
    }

    pub fn last_confirmed(&self) -> u32 {
        self.last_confirmed
    }

    pub fn confirmed_values(&self) -> Vec<u32> {
        self.confirmed.clone()
    }

    /// Whether the object of this number was sent, and is of that point.
    pub fn is_of(&self, serial: u32, point: u16) -> bool {
        self.objects.get(serial as usize).is_some_and(|it| it.0 == point)
    }

    /// When the fragment with an object was sent.
    pub fn sent_us(&self, serial: u32) -> u64 {
        self.fragments[self.objects[serial as usize].1 as usize].at_us
    }

    fn is_confirmed(&self, serial: u32) -> bool {
        self.fragments[self.objects[serial as usize].1 as usize].is_confirmed
    }

    /// How many of these objects were confirmed, and the first of them.
    pub fn confirmed_within(&self, serials: Range<u32>) -> (u64, Option<u32>) {
        let mut confirmed = serials.filter(|it| self.is_confirmed(*it));
        let first = confirmed.next();
        (first.map_or(0, |_| 1 + confirmed.count() as u64), first)
    }

    pub fn told_all(&mut self, at_us: u64) {
        self.topical_since.get_or_insert(at_us);
    }

    pub fn topical_since(&self) -> Option<u64> {
        self.topical_since
    }

    pub fn connection_ended(&mut self, at_us: u64) {
        self.topical_since = None;
        self.ends.push(at_us);
    }

    /// Whether no connection ended in a time.
    pub fn stood(&self, times: Range<u64>) -> bool {
        let place = self.ends.partition_point(|it| *it < times.start);
        self.ends.get(place).is_none_or(|it| *it >= times.end)
    }
}
