//! What one data transfer of a control centre has to be: its news and its interrogations, judged against the ledgers.
use crate::apdu::{
    common_of, objects, Object, ALL_STATIONS, CONFIRMATION, COUNTERS, COUNTERS_REQUESTED, GENERAL, INTERROGATED, IV,
    NT, SPONTANEOUS, TERMINATION,
};
use crate::calendar::Civil;
use crate::histogram::Histogram;
use crate::outstation::Site;
use crate::system::now_us;
use std::collections::BTreeMap;
use std::ops::Range;

/// How long it takes at most until a loss is noticed.
const NOTICED_US: u64 = 6_000_000;

/// News that didn't come, though later ones of the same outstation did.
pub struct Gap {
    pub site: usize,
    pub serials: Range<u32>,
}

/// How far the news of an outstation are.
struct Front {
    /// The last object that was told, or that a row showed.
    last: u32,
    /// The objects from here on were sent while data transfer was started.
    first_due: u32,
    /// Of each point, the last object that was told or shown.
    points: Vec<u32>,
}

impl Front {
    /// What is due behind the last, and in front of an object.
    fn advance(&self, site: usize, end: u32) -> Option<Gap> {
        let serials = (self.last + 1).max(self.first_due)..end;
        (!serials.is_empty()).then_some(Gap { site, serials })
    }
}

/// A value was told or shown as not topical, which the end of a connection within a time has to explain.
pub struct Doubt {
    pub site: usize,
    pub times: Range<u64>,
    pub address: u32,
}

/// An interrogation under way.
struct Asked {
    kind: u8,
    at_us: u64,
    /// The stations that have not answered, by their common addresses; the first one is to, or does.
    stations: Range<u16>,
    /// A station has confirmed it; and the first of these has.
    has_begun: bool,
    is_confirmed: bool,
    /// Of each outstation, the last object that was confirmed before the interrogation, and that of each point.
    confirmed: Vec<u32>,
    floor: Vec<Vec<u32>>,
    /// Since when all points of each outstation were told as topical.
    topical_since: Vec<Option<u64>>,
    shown: Vec<Vec<bool>>,
    not_topical: Vec<Option<u32>>,
}

pub struct Session {
    pub began_us: u64,
    /// The objects that were sent before the confirmation of STARTDT had come, and may or may not be news.
    pub unsure: u64,
    fronts: Vec<Front>,
    asked: Option<Asked>,
    pub gaps: Vec<Gap>,
    pub doubts: Vec<Doubt>,
    pub observations: u64,
    pub losses: u64,
    /// How many time tags came of each day.
    pub days: Days,
    pub rows: u64,
    pub answers: u64,
    /// Of each outstation, the object that was to come next as STOPDT was sent: it and later ones needn't come.
    stopped_at: Option<Vec<u32>>,
}

/// How many time tags came, by their years, months and days.
pub type Days = BTreeMap<[u8; 3], u64>;

/// Of each outstation, the last object that was confirmed.
pub fn before(sites: &[Site]) -> Vec<u32> {
    sites.iter().map(|it| it.ledger().last_confirmed()).collect()
}

impl Session {
    /// Data transfer is started, since its confirmation has come.
    pub fn new(sites: &[Site], before: &[u32]) -> Session {
        let front = |(site, last): (&Site, &u32)| Front {
            last: *last,
            first_due: site.ledger().next(),
            points: vec![0; usize::from(site.points())],
        };
        let fronts: Vec<Front> = sites.iter().zip(before).map(front).collect();
        Session {
            began_us: now_us(),
            unsure: fronts.iter().map(|it| u64::from(it.first_due - 1 - it.last)).sum(),
            fronts,
            asked: None,
            gaps: Vec::new(),
            doubts: Vec::new(),
            observations: 0,
            losses: 0,
            days: Days::new(),
            rows: 0,
            answers: 0,
            stopped_at: None,
        }
    }

    /// STOPDT is sent: the gateway stops as it reads that, and its confirmation may be read much later.
    pub fn stop(&mut self, sites: &[Site]) {
        self.stopped_at = Some(sites.iter().map(|it| it.ledger().next()).collect());
    }

    /// The last object of an outstation that was told or shown.
    pub fn last_of(&self, site: usize) -> u32 {
        self.fronts[site].last
    }

    pub fn is_asking(&self) -> bool {
        self.asked.is_some()
    }

    /// An interrogation of the station with a common address is about to be sent, or of all.
    pub fn ask(&mut self, sites: &[Site], kind: u8, common: u16, now: u64) {
        self.asked = Some(Asked {
            kind,
            at_us: now,
            stations: if common == ALL_STATIONS { stations(sites) } else { common..common + 1 },
            has_begun: false,
            is_confirmed: false,
            confirmed: before(sites),
            floor: sites.iter().map(|it| it.ledger().confirmed_values()).collect(),
            topical_since: sites.iter().map(|it| it.ledger().topical_since()).collect(),
            shown: sites.iter().map(|it| vec![false; usize::from(it.points())]).collect(),
            not_topical: vec![None; sites.len()],
        });
    }

    /// An ASDU came.
    pub fn take(
        &mut self,
        sites: &[Site],
        asdu: &[u8],
        now: u64,
        latency: &mut Option<&mut Vec<Histogram>>,
    ) -> Result<(), String> {
        if asdu.len() < 10 {
            return Err(format!("an ASDU that is too short: {asdu:02X?}"));
        }
        match (asdu[0], asdu[2]) {
            (kind @ (GENERAL | COUNTERS), cause) => self.take_answer(sites, kind, cause, common_of(asdu), now),
            (_, SPONTANEOUS) => {
                if self.asked.as_ref().is_some_and(|it| it.has_begun) {
                    return Err(format!("news within the answer to an interrogation: {asdu:02X?}"));
                }
                for object in objects(asdu)? {
                    let measured = self.take_news(sites, &object, now)?;
                    if let (Some((site, sent_us)), Some(latency)) = (measured, latency.as_mut()) {
                        latency[site].add(now.saturating_sub(sent_us));
                    }
                }
                Ok(())
            }
            (_, cause @ (INTERROGATED | COUNTERS_REQUESTED)) => {
                objects(asdu)?.iter().try_for_each(|it| self.take_row(sites, it, cause))
            }
            _ => Err(format!("an ASDU that isn't to be expected: {asdu:02X?}")),
        }
    }

    /// The confirmation or the termination of an interrogation, of one station.
    fn take_answer(&mut self, sites: &[Site], kind: u8, cause: u8, common: u16, now: u64) -> Result<(), String> {
        let asked = self.asked.as_mut().filter(|it| it.kind == kind && it.stations.start == common);
        match (asked, cause) {
            (Some(asked), CONFIRMATION) if !asked.is_confirmed => {
                asked.is_confirmed = true;
                if std::mem::replace(&mut asked.has_begun, true) {
                    return Ok(());
                }
                // All news that were confirmed before the act went before its answer.
                for (site, last) in asked.confirmed.iter().enumerate() {
                    self.gaps.extend(self.fronts[site].advance(site, *last + 1));
                    self.fronts[site].last = self.fronts[site].last.max(*last);
                }
            }
            (Some(asked), TERMINATION) if asked.is_confirmed => {
                for (site, shown) in sites.iter().zip(&asked.shown).filter(|it| it.0.common_address() == common) {
                    let points =
                        if kind == GENERAL { 0..site.manner.analogs } else { site.manner.analogs..site.points() };
                    if let Some(point) = points.clone().find(|it| !shown[usize::from(*it)]) {
                        return Err(format!("an answer without a row at address {}", site.address_of(point)));
                    }
                }
                (asked.stations.start, asked.is_confirmed) = (common + 1, false);
                if asked.stations.is_empty() {
                    self.doubt(now);
                    self.asked = None;
                    self.answers += 1;
                }
            }
            _ => return Err(format!("type {kind} with cause {cause} of station {common}, which isn't to be expected")),
        }
        Ok(())
    }

    /// Keeps which rows were not topical, though their outstation's points were told before.
    fn doubt(&mut self, now: u64) {
        let Some(asked) = &self.asked else { return };
        for (site, (address, since)) in asked.not_topical.iter().zip(&asked.topical_since).enumerate() {
            if let (Some(address), Some(_)) = (address, since) {
                self.doubts.push(Doubt { site, times: asked.at_us..now, address: *address });
            }
        }
    }

    /// News of a point: a new object, or the loss of the outstation. Gives the outstation and when the object was sent,
    /// where that was since STARTDT.
    fn take_news(&mut self, sites: &[Site], object: &Object, now: u64) -> Result<Option<(usize, u64)>, String> {
        let (site, point) = point_at(sites, object)?;
        let (front, ledger, serial) = (&mut self.fronts[site], sites[site].ledger(), object.value);
        let known = &mut front.points[usize::from(point)];
        if object.quality & (IV | NT) != 0 {
            self.losses += 1;
            if serial < *known || serial != 0 && !ledger.is_of(serial, point) {
                return Err(wrong(object, "the loss of another value", *known));
            }
            if object.time.is_some() {
                return Err(wrong(object, "a loss with a time", *known));
            }
            if self.doubts.last().is_none_or(|it| it.site != site) {
                let times = self.began_us.saturating_sub(NOTICED_US)..now;
                self.doubts.push(Doubt { site, times, address: object.address });
            }
            return Ok(None);
        }
        if !ledger.is_of(serial, point) {
            return Err(wrong(object, "news of a value that the point never had", *known));
        }
        if serial <= front.last {
            return Err(wrong(object, "news that are told again, late, or from before STARTDT", front.last));
        }
        count_day(&mut self.days, object, ledger.stamp_ms(serial))?;
        self.observations += 1;
        self.unsure -= u64::from(serial < front.first_due);
        *known = serial;
        self.gaps.extend(front.advance(site, serial));
        front.last = serial;
        Ok((serial >= front.first_due).then(|| (site, ledger.sent_us(serial))))
    }

    /// A row of the answer to an interrogation: the last value at its act, and all news up to it went before.
    fn take_row(&mut self, sites: &[Site], object: &Object, cause: u8) -> Result<(), String> {
        let (site, point) = point_at(sites, object)?;
        let wanted = if point < sites[site].manner.analogs { INTERROGATED } else { COUNTERS_REQUESTED };
        let is_asked = |it: &&mut Asked| it.is_confirmed && it.stations.start == object.common && cause == wanted;
        let Some(asked) = self.asked.as_mut().filter(is_asked) else {
            return Err(wrong(object, "a row that wasn't asked for", 0));
        };
        if object.time.is_some() {
            return Err(wrong(object, "a row with a time", 0));
        }
        let (front, serial) = (&mut self.fronts[site], object.value);
        let (known, floor) = (front.points[usize::from(point)], asked.floor[site][usize::from(point)]);
        if serial != 0 && !sites[site].ledger().is_of(serial, point) {
            return Err(wrong(object, "a row with a value that the point never had", floor));
        }
        if serial < floor.max(known) {
            return Err(wrong(
                object,
                "a row with a value from before one that was confirmed or told",
                floor.max(known),
            ));
        }
        if std::mem::replace(&mut asked.shown[site][usize::from(point)], true) {
            return Err(wrong(object, "a row that stands twice", 0));
        }
        if object.quality & (IV | NT) != 0 {
            asked.not_topical[site] = Some(object.address);
        }
        self.rows += 1;
        front.points[usize::from(point)] = serial;
        self.gaps.extend(front.advance(site, serial + 1));
        front.last = front.last.max(serial);
        Ok(())
    }

    /// The objects behind the last that came, up to those sent by now, or by STOPDT.
    pub fn rest(&self, sites: &[Site]) -> Vec<Range<u32>> {
        let end =
            |number: usize| self.stopped_at.as_ref().map_or_else(|| sites[number].ledger().next(), |it| it[number]);
        let rest = |(number, front): (usize, &Front)| (front.last + 1).max(front.first_due)..end(number);
        self.fronts.iter().enumerate().map(rest).collect()
    }
}

/// News have the time with which their object was sent, as the station's clocks show it, or none.
fn count_day(days: &mut Days, object: &Object, stamp_ms: Option<u64>) -> Result<(), String> {
    let wanted = stamp_ms.map(|it| Civil::at_station(it).tag());
    if object.time != wanted {
        let sent = stamp_ms.map_or("without a time".to_string(), |it| format!("with {}", Civil::at(it)));
        return Err(wrong(object, &format!("news with the time tag {:02X?} that were sent {sent}", object.time), 0));
    }
    if let Some([.., day, month, year]) = object.time {
        *days.entry([year, month, day]).or_default() += 1;
    }
    Ok(())
}

/// The common addresses of outstations.
fn stations(sites: &[Site]) -> Range<u16> {
    1..1 + sites.iter().map(Site::common_address).max().unwrap_or(0)
}

/// The place of the outstation and the point that an object is of.
fn point_at(sites: &[Site], object: &Object) -> Result<(usize, u16), String> {
    let point = object.address as u16;
    let is_of = |it: &Site| it.common_address() == object.common && it.address_of(point) == object.address;
    match sites.iter().position(is_of) {
        Some(place) if point < sites[place].points() => Ok((place, point)),
        _ => Err(wrong(object, "an object of no point", 0)),
    }
}

fn wrong(object: &Object, what: &str, than: u32) -> String {
    let Object { common, address, value, quality, .. } = object;
    format!("{what}: station {common}, address {address}, value {value}, quality {quality:02X}; {than} was known")
}

#[cfg(test)]
mod tests {
    use super::*;
    use crate::outstation::{Flood, Manner};

    /// An outstation with two analog inputs, which sent three fragments: 1 and 2; 3 and 4; 5.
    fn site() -> [Site; 1] {
        let (events_a_second, together, flood) = (1.0, 1, Flood::Never);
        let manner =
            Manner { is_unsolicited: true, analogs: 2, counters: 0, events_a_second, together, is_wild: false, flood };
        let site = Site::new(0, manner);
        send(&site, &[0, 1]);
        site.ledger().confirm(0);
        [site]
    }

    fn send(site: &Site, points: &[u16]) {
        let mut ledger = site.ledger();
        ledger.begin(now_us());
        for point in points {
            ledger.add(*point, None);
        }
    }

    /// A session that begins behind the first fragment, and two fragments more.
    fn session(sites: &[Site; 1]) -> Session {
        let session = Session::new(sites, &before(sites));
        send(&sites[0], &[0, 1]);
        send(&sites[0], &[0]);
        session
    }

    fn asdu(kind: u8, cause: u8, point: u8, value: u8, quality: u8) -> Vec<u8> {
        let mut octets = vec![kind, 1, cause, 0, 1, 0, point, 0, 1, value, 0, 0, 0, quality];
        octets.truncate(if kind == GENERAL { 10 } else { 14 });
        octets
    }

    fn takes(session: &mut Session, sites: &[Site; 1], asdus: &[Vec<u8>]) -> Result<(), String> {
        asdus.iter().try_for_each(|it| session.take(sites, it, now_us(), &mut None))
    }

    fn news(point: u8, value: u8) -> Vec<u8> {
        asdu(7, SPONTANEOUS, point, value, 0)
    }

    fn row(point: u8, value: u8) -> Vec<u8> {
        asdu(7, INTERROGATED, point, value, 0)
    }

    #[test]
    fn news_in_order_are_right() {
        let sites = site();
        let mut session = session(&sites);
        assert!(takes(&mut session, &sites, &[news(0, 3), news(1, 4), news(0, 5)]).is_ok());
        assert!(session.gaps.is_empty() && session.rest(&sites)[0].is_empty());
    }

    #[test]
    fn wrong_news_are_refused() {
        for wrong in [
            [news(0, 3), news(0, 3)],
            [news(1, 4), news(0, 3)],
            [news(0, 3), news(0, 4)],
            [news(0, 3), news(0, 9)],
            [news(0, 3), news(1, 2)],
            [news(0, 3), news(2, 4)],
        ] {
            let sites = site();
            assert!(takes(&mut session(&sites), &sites, &wrong).is_err(), "{wrong:02X?}");
        }
    }

    #[test]
    fn what_is_skipped_is_a_gap() {
        let sites = site();
        let mut session = session(&sites);
        assert!(takes(&mut session, &sites, &[news(1, 4)]).is_ok());
        assert_eq!(session.gaps[0].serials, 3..4);
        assert_eq!(session.rest(&sites)[0], 5..6);
        session.stop(&sites);
        sites[0].ledger().add(0, None);
        assert_eq!(session.rest(&sites)[0], 5..6);
        assert_eq!(sites[0].ledger().confirmed_within(3..6), (0, None));
        sites[0].ledger().confirm(1);
        assert_eq!(sites[0].ledger().confirmed_within(3..6), (2, Some(3)));
    }

    /// An interrogation behind news 3, answered so.
    fn interrogation(answer: &[Vec<u8>]) -> Result<Session, String> {
        let sites = site();
        let mut session = session(&sites);
        takes(&mut session, &sites, &[news(0, 3)])?;
        session.ask(&sites, GENERAL, ALL_STATIONS, now_us());
        takes(&mut session, &sites, answer).map(|()| session)
    }

    #[test]
    fn answers_are_judged() {
        let (con, term) = (asdu(GENERAL, CONFIRMATION, 0, 0, 0), asdu(GENERAL, TERMINATION, 0, 0, 0));
        let right = interrogation(&[con.clone(), row(0, 3), row(1, 2), term.clone()]);
        assert!(right.is_ok_and(|it| it.gaps.is_empty() && it.answers == 1));
        let ahead = interrogation(&[con.clone(), row(0, 3), row(1, 4), term.clone()]);
        assert!(ahead.is_ok_and(|it| it.gaps[0].serials == (4..5)));
        for wrong in [
            vec![row(0, 3)],
            vec![con.clone(), con.clone()],
            vec![con.clone(), row(0, 3), term.clone()],
            vec![con.clone(), row(0, 1)],
            vec![con.clone(), row(1, 0)],
            vec![con.clone(), row(0, 3), row(0, 3)],
            vec![con.clone(), row(0, 3), news(1, 4)],
            vec![con.clone(), row(0, 3), row(1, 4), term.clone(), news(1, 4)],
            vec![con.clone(), asdu(7, COUNTERS_REQUESTED, 0, 3, 0)],
            vec![term.clone()],
        ] {
            assert!(interrogation(&wrong).is_err(), "{wrong:02X?}");
        }
    }

    /// The answer of a station with so many outstations, each with a point of which nothing was told.
    fn answer_of(common: u8, outstations: u8) -> Vec<Vec<u8>> {
        let of_station = |kind, cause, place| {
            let mut octets = asdu(kind, cause, 0, 0, NT);
            (octets[4], octets[8]) = (common, place);
            octets
        };
        let mut answer = vec![of_station(GENERAL, CONFIRMATION, 0)];
        answer.extend((1..=outstations).map(|place| of_station(7, INTERROGATED, place)));
        answer.push(of_station(GENERAL, TERMINATION, 0));
        answer
    }

    #[test]
    fn stations_answer_one_after_the_other() {
        let judged = |common, answers: &[Vec<u8>]| {
            let sites = [0, 1, 2].map(|number| Site::new(number, Manner { analogs: 1, ..site()[0].manner }));
            let mut session = Session::new(&sites, &before(&sites));
            session.ask(&sites, GENERAL, common, now_us());
            let mut taken = answers.iter().map(|it| session.take(&sites, it, now_us(), &mut None));
            taken.all(|it| it.is_ok()).then_some(session.answers)
        };
        let (first, last) = (answer_of(1, 2), answer_of(2, 1));
        assert_eq!(judged(ALL_STATIONS, &[&first[..], &last].concat()), Some(1));
        assert_eq!(judged(ALL_STATIONS, &first), Some(0));
        assert_eq!(judged(2, &last), Some(1));
        for wrong in [[&last[..], &first].concat(), [&first[..3], &last].concat(), [&first[..], &last[1..]].concat()] {
            assert_eq!(judged(ALL_STATIONS, &wrong), None, "{wrong:02X?}");
        }
        assert!(judged(1, &last).is_none() && judged(2, &first).is_none());
    }

    #[test]
    fn times_are_those_that_were_given() {
        let evening = 1_709_231_399_999;
        let news = |time: &[u8]| {
            let kind = if time.is_empty() { 7 } else { 33 };
            let mut octets = asdu(kind, SPONTANEOUS, 0, 3, 0);
            octets.extend_from_slice(time);
            octets
        };
        let (right, wrong) = ([0x5F, 0xEA, 59, 23, 29, 2, 24], [0x5F, 0xEA, 59, 23, 1, 3, 24]);
        for (stamp_ms, time, is_right) in [
            (Some(evening), &right[..], true),
            (Some(evening), &wrong[..], false),
            (Some(evening), &[][..], false),
            (None, &right[..], false),
        ] {
            let sites = site();
            let mut session = Session::new(&sites, &before(&sites));
            sites[0].ledger().begin(now_us());
            sites[0].ledger().add(0, stamp_ms);
            let taken = takes(&mut session, &sites, &[news(time)]);
            assert_eq!(taken.is_ok() && session.days == Days::from([([24, 2, 29], 1)]), is_right, "{time:02X?}");
        }
    }

    #[test]
    fn losses_show_the_last_value_and_are_doubted() {
        let sites = site();
        let mut session = session(&sites);
        let loss = |point, value| asdu(7, SPONTANEOUS, point, value, NT);
        assert!(takes(&mut session, &sites, &[news(0, 3), loss(0, 3)]).is_ok());
        assert!(sites[0].ledger().stood(session.doubts[0].times.clone()));
        assert!(takes(&mut session, &sites, &[loss(0, 1)]).is_err());
        assert!(takes(&mut session, &sites, &[loss(0, 4)]).is_err());
    }
}
