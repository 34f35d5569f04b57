//! The verdict on connections that have ended: what is missing in them was dropped, and told as dropped.
use crate::gateway::{Gateway, Station};
use crate::outstation::Site;
use crate::scene::Scene;
use crate::session::{Days, Session};
use crate::system::now_us;
use std::collections::VecDeque;
use std::net::SocketAddr;
use std::ops::Range;
use std::sync::Mutex;

/// How long after its end a connection is judged: by then outstations have read the confirmations of what was told.
pub const REST_US: u64 = 3_000_000;
/// How long it may take besides until the gateway has told its end, and in front of that what it dropped.
const LATE_US: u64 = 10_000_000;
/// The one cause for which the gateway may end a connection whose data transfer is stopped.
const GAVE_WAY: &str = "closed: gave way to a newer connection of its address";
/// How many objects an APDU has at most.
const OBJECTS: u64 = 127;

/// A data transfer that has ended.
pub struct Ended {
    pub session: Session,
    /// Of each outstation, the objects behind the last that came, and sent by then.
    pub rest: Vec<Range<u32>>,
    /// It ended in quiet, behind the answer to an interrogation.
    pub is_whole: bool,
}

/// A connection of a control centre that has ended.
pub struct Grave {
    pub client: usize,
    pub address: SocketAddr,
    pub ended: Vec<Ended>,
    /// The gateway ended it while data transfer was stopped.
    pub gave_way: bool,
    pub at_us: u64,
}

#[derive(Default)]
pub struct Graves(Mutex<VecDeque<Grave>>);

impl Graves {
    pub fn dig(&self, grave: Grave) {
        self.0.lock().unwrap().push_back(grave);
    }

    /// The first that may be judged: its end was told, or that is late.
    fn next(&self, now: u64, is_told: impl Fn(SocketAddr) -> bool) -> Option<Grave> {
        let rested = |it: &Grave| it.at_us + REST_US <= now;
        let told = |it: &Grave| it.at_us + REST_US + LATE_US <= now || is_told(it.address);
        self.0.lock().unwrap().pop_front_if(|it| rested(it) && told(it))
    }
}

/// What was found in all connections.
#[derive(Default)]
pub struct Totals {
    pub connections: u64,
    pub sessions: u64,
    pub whole: u64,
    pub exact: u64,
    pub observations: u64,
    pub losses: u64,
    pub days: Days,
    pub answers: u64,
    pub rows: u64,
    /// Of each client and outstation, the confirmed objects that didn't come though they had to, if they weren't
    /// dropped.
    pub missing: Vec<Vec<u64>>,
    pub dropped: u64,
    /// What was told as dropped for each client.
    pub dropped_of: Vec<u64>,
    pub left_waiting: u64,
}

/// What is missing in a connection, though it was confirmed to outstations.
struct Missing {
    /// Of each outstation, what didn't come though later news did, or an answer in front of which it had to come.
    lost: Vec<u64>,
    first: Option<(usize, u32)>,
    /// What was behind the last that came, and may have waited when data transfer ended.
    behind: u64,
}

impl Missing {
    fn of(sites: &[Site], ended: &[Ended]) -> Missing {
        let mut missing = Missing { lost: vec![0; sites.len()], first: None, behind: 0 };
        for Ended { session, rest, .. } in ended {
            for gap in &session.gaps {
                missing.lose(sites, gap.site, gap.serials.clone());
            }
            for (site, serials) in sites.iter().zip(rest) {
                missing.behind += site.ledger().confirmed_within(serials.clone()).0;
            }
        }
        missing
    }

    /// Counts those of these objects that were confirmed; keeps the first.
    fn lose(&mut self, sites: &[Site], site: usize, serials: Range<u32>) {
        let (count, first) = sites[site].ledger().confirmed_within(serials);
        self.first = self.first.or(first.map(|it| (site, it)));
        self.lost[site] += count;
    }

    /// The first missing object in words.
    fn first_of(&self, sites: &[Site]) -> String {
        let Some((site, serial)) = self.first else { return "none".to_string() };
        let sent_us = sites[site].ledger().sent_us(serial);
        format!("value {serial} of outstation {site}, sent {:.3} s before", (now_us() - sent_us) as f64 / 1e6)
    }
}

impl Totals {
    /// Judges the connections that ended long enough ago.
    pub fn judge(&mut self, scene: &Scene, gateway: &Gateway) -> Result<(), String> {
        while let Some(grave) = scene.graves.next(now_us(), |it| gateway.has_told_end(it)) {
            let (dropped, cause) = (gateway.dropped(grave.address), gateway.cause(grave.address));
            if cause.is_empty() {
                let late = (REST_US + LATE_US) / 1_000_000;
                return Err(format!("client {} {}: its end isn't told in {late} s", grave.client, grave.address));
            }
            if grave.gave_way && cause != GAVE_WAY {
                return Err(format!("client {} {}: ended while stopped: {cause}", grave.client, grave.address));
            }
            self.judge_one(&grave, &scene.sites, &scene.station, dropped)
                .map_err(|it| format!("client {} {}: {it}", grave.client, grave.address))?;
        }
        Ok(())
    }

    fn judge_one(&mut self, grave: &Grave, sites: &[Site], station: &Station, dropped: u64) -> Result<(), String> {
        let missing = Missing::of(sites, &grave.ended);
        let lost: u64 = missing.lost.iter().sum();
        if lost > dropped {
            return Err(format!(
                "{lost} confirmed observations are missing, and {dropped} were told as dropped; the first: {}",
                missing.first_of(sites)
            ));
        }
        let waiting = (u64::from(station.queue) + u64::from(station.k) * OBJECTS) * grave.ended.len() as u64;
        if missing.behind > waiting + dropped - lost {
            let (behind, ends) = (missing.behind, grave.ended.len());
            return Err(format!(
                "{behind} confirmed observations are missing at the ends of {ends} data transfers, where {waiting} may \
                 wait; {dropped} were told as dropped, {lost} of them in front"
            ));
        }
        if let Some(unsure) = unsure_of_whole(grave, sites) {
            self.exact += 1;
            if dropped > lost + unsure + missing.behind {
                return Err(format!("{dropped} observations were told as dropped, though only {lost} are missing"));
            }
        }
        for doubt in grave.ended.iter().flat_map(|it| &it.session.doubts) {
            if sites[doubt.site].ledger().stood(doubt.times.start..doubt.times.end + REST_US) {
                return Err(format!("not topical, though no connection ended: address {}", doubt.address));
            }
        }
        self.add(grave, &missing, dropped);
        Ok(())
    }

    fn add(&mut self, grave: &Grave, missing: &Missing, dropped: u64) {
        self.connections += 1;
        let clients = self.missing.len().max(grave.client + 1);
        self.missing.resize(clients, vec![0; missing.lost.len()]);
        self.missing[grave.client].iter_mut().zip(&missing.lost).for_each(|(all, more)| *all += more);
        self.left_waiting += missing.behind;
        self.dropped += dropped;
        self.dropped_of.resize(clients, 0);
        self.dropped_of[grave.client] += dropped;
        for Ended { session, is_whole, .. } in &grave.ended {
            self.sessions += 1;
            self.whole += u64::from(*is_whole);
            self.observations += session.observations;
            self.losses += session.losses;
            session.days.iter().for_each(|it| *self.days.entry(*it.0).or_default() += it.1);
            self.answers += session.answers;
            self.rows += session.rows;
        }
    }
}

/// Where all that was for a connection is known, how many objects may or may not have been for it: it had one data
/// transfer, which ended in quiet, and no outstation was lost.
fn unsure_of_whole(grave: &Grave, sites: &[Site]) -> Option<u64> {
    let [Ended { session, is_whole: true, .. }] = &grave.ended[..] else { return None };
    let have_stood = sites.iter().all(|it| it.ledger().topical_since().is_some_and(|since| since < session.began_us));
    have_stood.then_some(session.unsure)
}

#[cfg(test)]
mod tests {
    use super::*;
    use crate::apdu::{ALL_STATIONS, CONFIRMATION, GENERAL};
    use crate::outstation::{Flood, Manner};
    use crate::session::before;

    /// An outstation that sent three objects in a fragment, which was confirmed while a session stood that got none of
    /// them, and may have got the answer to an interrogation.
    fn unheard(is_answered: bool) -> ([Site; 1], Ended) {
        let (events_a_second, together, flood) = (1.0, 1, Flood::Never);
        let manner =
            Manner { is_unsolicited: true, analogs: 1, counters: 0, events_a_second, together, is_wild: false, flood };
        let sites = [Site::new(0, manner)];
        sites[0].ledger().told_all(0);
        let mut session = Session::new(&sites, &before(&sites));
        session.began_us = 1;
        let mut ledger = sites[0].ledger();
        let place = ledger.begin(2);
        for _ in 0..3 {
            ledger.add(0, None);
        }
        ledger.confirm(place);
        drop(ledger);
        if is_answered {
            session.ask(&sites, GENERAL, ALL_STATIONS, 3);
            let confirmation = [GENERAL, 1, CONFIRMATION, 0, 1, 0, 0, 0, 0, 20];
            session.take(&sites, &confirmation, 4, &mut None).unwrap();
        }
        let rest = session.rest(&sites);
        (sites, Ended { session, rest, is_whole: is_answered })
    }

    fn judged(queue: u32, is_answered: bool, dropped: u64) -> Result<(), String> {
        let (sites, ended) = unheard(is_answered);
        let grave =
            Grave { client: 0, address: ([127, 0, 0, 1], 1).into(), ended: vec![ended], gave_way: false, at_us: 3 };
        Totals::default().judge_one(&grave, &sites, &Station { queue, k: 0, w: 0, controls: 0 }, dropped)
    }

    #[test]
    fn what_is_missing_was_dropped_or_may_wait() {
        assert!(judged(1000, true, 3).is_ok());
        assert!(judged(1000, true, 2).is_err());
        assert!(judged(1000, true, 4).is_err());
        assert!(judged(3, false, 0).is_ok());
        assert!(judged(2, false, 1).is_ok());
        assert!(judged(2, false, 0).is_err());
    }
}
