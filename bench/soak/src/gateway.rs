//! The gateway's process, and what it tells on standard error.
use crate::calendar::OFFSET_MINUTES;
use crate::clock::Clock;
use crate::heap::HeapCount;
use crate::outstation::Site;
use crate::preload::Libraries;
use crate::rhythm::Rhythm;
use crate::system::{now_us, sleep_us, Holds};
use std::collections::{HashMap, VecDeque};
use std::fmt::Write as _;
use std::io::{BufRead, BufReader, Read};
use std::net::SocketAddr;
use std::path::Path;
use std::process::{Child, ChildStderr, Command, Stdio};
use std::sync::{Arc, Mutex};
use std::thread::JoinHandle;

/// What is in the settings beside the outstations and the times.
pub struct Station {
    pub queue: u32,
    pub k: u16,
    pub w: u16,
    /// Of each outstation, the controls: one for each control centre, or none.
    pub controls: usize,
}

/// What `examples/gateway.service` gives the C library: no blocks kept for each thread.
const TUNABLES: (&str, &str) = ("GLIBC_TUNABLES", "glibc.malloc.tcache_count=0");
/// How many of the last lines are kept, and how long it may take to start and to end.
const LINES: usize = 12;
const PATIENCE_US: u64 = 60_000_000;
/// How far the time of a line may be from that at which it is read, by the system's clock.
const LINE_US: u64 = 2_000_000;

/// The settings of a gateway between these outstations, which are reached at these ports.
pub fn settings(station: &Station, rhythm: &Rhythm, sites: &[Site], ports: &[u16]) -> String {
    let Station { queue, k, w, .. } = station;
    let Rhythm { t1_ms, t2_ms, t3_ms, select_ms, poll_ms, integrity_ms, response_ms, .. } = rhythm;
    let mut text = format!(
        "[station]\ncommon_address = 1\nlisten = \"127.0.0.1:0\"\nqueue = {queue}\nk = {k}\nw = {w}\n\
         t1_ms = {t1_ms}\nt2_ms = {t2_ms}\nt3_ms = {t3_ms}\nselect_ms = {select_ms}\n\
         offset_minutes = {OFFSET_MINUTES}\n"
    );
    for (site, port) in sites.iter().zip(ports) {
        let _ = write!(
            text,
            "[[outstation]]\naddress = {}\ncommon_address = {}\nconnect = \"127.0.0.1:{port}\"\npoll_ms = {poll_ms}\n\
             integrity_ms = {integrity_ms}\nresponse_ms = {response_ms}\nunsolicited = {}\nlan_time = {}\n",
            site.link_address(),
            site.common_address(),
            site.manner.is_unsolicited,
            rhythm.need_time_ms > 0
        );
    }
    for site in sites {
        add_points(site, &mut text);
        for control in 0..station.controls {
            let (number, address) = (site.number, site.control_address(control));
            let mode = ["direct", "sbo"][site.number % 2];
            let _ = write!(
                text,
                "[[control]]\noutstation = {number}\nshow = \"single\"\nindex = {control}\naddress = {address}\n\
                 select = true\nmode = \"{mode}\"\n"
            );
        }
    }
    text
}

fn add_points(site: &Site, text: &mut String) {
    for point in 0..site.points() {
        let (kind, show, index) = if point < site.manner.analogs {
            ("analog", "word", point)
        } else {
            ("counter", "total", point - site.manner.analogs)
        };
        let (number, address) = (site.number, site.address_of(point));
        let _ = write!(
            text,
            "[[point]]\noutstation = {number}\nkind = \"{kind}\"\nindex = {index}\naddress = {address}\n\
                 show = \"{show}\"\n"
        );
    }
}

/// What the gateway told.
#[derive(Default)]
struct Told {
    /// Of each client's address, how many observations were dropped.
    dropped: HashMap<String, u64>,
    /// How often each cause ended a connection of a client, and the cause that ended the last one of each address.
    ends: HashMap<String, u64>,
    causes: HashMap<String, String>,
    port: Option<u16>,
    last: VecDeque<String>,
    /// The first line with a time that it can't have.
    wrong: Option<String>,
}

impl Told {
    fn take(&mut self, line: String, clock: &Clock) {
        let now = now_us();
        let [first, last] = [now.saturating_sub(LINE_US), now + LINE_US].map(|it| clock.civil(it).to_string());
        let words: Vec<&str> = line.split(' ').collect();
        if !(first..=last).contains(&words[0].to_string()) && self.wrong.is_none() {
            self.wrong = Some(format!("a line came at {} whose time is wrong: {line}", clock.civil(now)));
        }
        match words[..] {
            [_, "listening", "on", place] => self.port = place.rsplit(':').next().and_then(|it| it.parse().ok()),
            [_, "client", _, address, count, "observation" | "observations", "dropped,", ..] => {
                *self.dropped.entry(address.to_string()).or_default() += count.parse().unwrap_or(0)
            }
            [_, "client", _, address, "closed:" | "lost:", ..] => {
                let cause = words[4..].join(" ");
                self.causes.insert(address.to_string(), cause.clone());
                *self.ends.entry(cause).or_default() += 1;
            }
            _ => {}
        }
        if self.last.len() == LINES {
            self.last.pop_front();
        }
        self.last.push_back(line);
    }
}

pub struct Gateway {
    child: Child,
    told: Arc<Mutex<Told>>,
    hearing: Option<JoinHandle<()>>,
    /// What it has of the heap, where that is counted.
    heap: Option<HeapCount>,
    pub address: SocketAddr,
}

fn hear(errors: ChildStderr, clock: Clock, told: &Mutex<Told>) {
    for line in BufReader::new(errors).lines().map_while(Result::ok) {
        told.lock().unwrap().take(line, &clock);
    }
}

impl Gateway {
    /// Starts a gateway by these words, shows it a clock, and waits until it listens. Where it is asked for, it counts
    /// what it has of the heap.
    pub fn start(words: &[String], file: &Path, clock: Clock, counts: bool) -> Result<Gateway, String> {
        let (program, options) = words.split_first().ok_or("no program")?;
        let mut command = Command::new(program);
        command.arg("run").arg(file).arg("--until-eof").args(options).env_remove("JOURNAL_STREAM");
        command.env(TUNABLES.0, TUNABLES.1);
        command.stdin(Stdio::piped()).stdout(Stdio::piped()).stderr(Stdio::piped());
        let mut libraries = Libraries::default();
        clock.show(&mut libraries, &mut command)?;
        let heap = if counts { Some(HeapCount::show(&mut libraries, &mut command)?) } else { None };
        libraries.show(&mut command);
        let mut child = command.spawn().map_err(|it| format!("{program}: {it}"))?;
        let told = Arc::new(Mutex::new(Told::default()));
        let (errors, told_here) = (child.stderr.take().ok_or("no standard error")?, told.clone());
        let hearing = Some(std::thread::spawn(move || hear(errors, clock, &told_here)));
        let mut gateway = Gateway { child, told, hearing, heap, address: SocketAddr::from(([127, 0, 0, 1], 0)) };
        let end = now_us() + PATIENCE_US;
        while now_us() < end && !gateway.has_ended() {
            if let Some(port) = gateway.told.lock().unwrap().port {
                gateway.address.set_port(port);
                break;
            }
            sleep_us(5000);
        }
        match gateway.address.port() {
            0 => Err(format!("the gateway doesn't listen\n{}", gateway.last_lines())),
            _ => Ok(gateway),
        }
    }

    pub fn process(&self) -> u32 {
        self.child.id()
    }

    /// What its process holds now.
    pub fn holds(&self) -> Holds {
        let heap_kb = self.heap.as_ref().map_or(0, HeapCount::kb);
        Holds { heap_kb, ..Holds::of(self.process()) }
    }

    pub fn has_ended(&mut self) -> bool {
        !matches!(self.child.try_wait(), Ok(None))
    }

    /// How many observations it told as dropped for the client at an address, which isn't asked for again.
    pub fn dropped(&self, address: SocketAddr) -> u64 {
        self.told.lock().unwrap().dropped.remove(&address.to_string()).unwrap_or(0)
    }

    /// What it told as the end of the connection of the client at an address, which isn't asked for again.
    pub fn cause(&self, address: SocketAddr) -> String {
        self.told.lock().unwrap().causes.remove(&address.to_string()).unwrap_or_default()
    }

    /// Whether it told the end of the connection of the client at an address.
    pub fn has_told_end(&self, address: SocketAddr) -> bool {
        self.told.lock().unwrap().causes.contains_key(&address.to_string())
    }

    /// Why clients' connections ended, and how often.
    pub fn ends(&self) -> Vec<(String, u64)> {
        let mut ends: Vec<_> = self.told.lock().unwrap().ends.clone().into_iter().collect();
        ends.sort();
        ends
    }

    /// The first line with a wrong time.
    pub fn wrong_line(&self) -> Option<String> {
        self.told.lock().unwrap().wrong.clone()
    }

    /// A fault with how the gateway is, and its last lines.
    pub fn tell(&mut self, fault: &str) -> String {
        let state = match self.child.try_wait() {
            Ok(Some(status)) => format!("has ended ({status})"),
            _ => "runs".to_string(),
        };
        format!("{fault}\nThe gateway {state}. Its last lines:\n{}", self.last_lines())
    }

    fn last_lines(&self) -> String {
        let told = self.told.lock().unwrap();
        told.last.iter().map(|it| format!("  {it}\n")).collect()
    }

    /// Ends standard input, so that it ends by itself; what it prints.
    pub fn finish(&mut self) -> Result<String, String> {
        drop(self.child.stdin.take());
        let end = now_us() + PATIENCE_US;
        while !self.has_ended() {
            if now_us() > end {
                return Err("the gateway doesn't end".to_string());
            }
            sleep_us(5000);
        }
        let mut printed = String::new();
        if let Some(mut output) = self.child.stdout.take() {
            let _ = output.read_to_string(&mut printed);
        }
        match self.child.wait() {
            Ok(status) if status.success() => Ok(printed.trim().to_string()),
            status => Err(format!("the gateway ended with {status:?}\n{}", self.last_lines())),
        }
    }
}

impl Drop for Gateway {
    fn drop(&mut self) {
        if !self.has_ended() {
            let _ = self.child.kill();
            let _ = self.child.wait();
        }
        if let Some(hearing) = self.hearing.take() {
            let _ = hearing.join();
        }
    }
}
