//! What the standard library lacks of the system: waiting for a socket, its options, figures of a process.
use std::os::fd::AsRawFd;
use std::sync::OnceLock;

const CLOCK_MONOTONIC: i32 = 1;
const POLLIN: i16 = 1;
const SOL_SOCKET: i32 = 1;
const SO_RCVBUF: i32 = 8;
const SO_LINGER: i32 = 13;

#[repr(C)]
struct Poll {
    descriptor: i32,
    events: i16,
    returned: i16,
}

#[repr(C)]
struct Time {
    seconds: i64,
    nanoseconds: i64,
}

extern "C" {
    fn clock_gettime(clock: i32, time: *mut Time) -> i32;
    fn ppoll(polls: *mut Poll, count: u64, wait: *const Time, signals: *const u8) -> i32;
    fn setsockopt(descriptor: i32, level: i32, name: i32, value: *const i32, length: u32) -> i32;
}

/// What the system's monotonic clock shows, in nanoseconds.
fn monotonic_ns() -> u64 {
    let mut time = Time { seconds: 0, nanoseconds: 0 };
    // SAFETY: one time, alive during the call.
    unsafe { clock_gettime(CLOCK_MONOTONIC, &mut time) };
    time.seconds as u64 * 1_000_000_000 + time.nanoseconds as u64
}

/// What it showed when this program first looked.
pub fn began_ns() -> u64 {
    static BEGAN: OnceLock<u64> = OnceLock::new();
    *BEGAN.get_or_init(monotonic_ns)
}

/// Microseconds since then.
pub fn now_us() -> u64 {
    let began = began_ns();
    (monotonic_ns() - began) / 1000
}

pub fn sleep_us(duration: u64) {
    std::thread::sleep(std::time::Duration::from_micros(duration));
}

/// Whether something can be read, or the connection has ended, within so many microseconds.
pub fn is_readable(socket: &impl AsRawFd, wait_us: u64) -> bool {
    let mut poll = Poll { descriptor: socket.as_raw_fd(), events: POLLIN, returned: 0 };
    let wait = Time { seconds: (wait_us / 1_000_000) as i64, nanoseconds: (wait_us % 1_000_000 * 1000) as i64 };
    // SAFETY: one poll and one time, both alive during the call; no signals.
    unsafe { ppoll(&mut poll, 1, &wait, std::ptr::null()) > 0 }
}

/// The socket's end resets the connection.
pub fn end_by_reset(socket: &impl AsRawFd) {
    let linger = [1, 0];
    // SAFETY: the two numbers of a `struct linger`, alive during the call.
    unsafe { setsockopt(socket.as_raw_fd(), SOL_SOCKET, SO_LINGER, linger.as_ptr(), 8) };
}

/// Gives a socket a receive buffer of so many octets.
pub fn narrow(socket: &impl AsRawFd, octets: i32) {
    // SAFETY: one number, alive during the call.
    unsafe { setsockopt(socket.as_raw_fd(), SOL_SOCKET, SO_RCVBUF, &octets, 4) };
}

/// What a process holds of the system.
#[derive(Clone, Copy, Debug, Default, PartialEq)]
pub struct Holds {
    /// Its memory: all, and what isn't of files, which the system may take from it and give back at any time.
    pub memory_kb: u64,
    pub own_kb: u64,
    /// What it has taken of the heap and not given back, where that is counted.
    pub heap_kb: u64,
    pub threads: u64,
    pub descriptors: u64,
}

impl Holds {
    pub fn of(process: u32) -> Holds {
        let text = std::fs::read_to_string(format!("/proc/{process}/status")).unwrap_or_default();
        let field = |name: &str| {
            let line = text.lines().find_map(|it| it.strip_prefix(name)).unwrap_or_default();
            line.split_whitespace().next().and_then(|it| it.parse().ok()).unwrap_or(0)
        };
        let descriptors = std::fs::read_dir(format!("/proc/{process}/fd")).map_or(0, |it| it.count() as u64);
        let [memory_kb, own_kb] = ["VmRSS:", "RssAnon:"].map(field);
        Holds { memory_kb, own_kb, heap_kb: 0, threads: field("Threads:"), descriptors }
    }
}

/// The seconds that a process has taken of processors, as the kernel's hundredths tell.
pub fn processor_seconds(process: u32) -> f64 {
    let text = std::fs::read_to_string(format!("/proc/{process}/stat")).unwrap_or_default();
    let fields = text.rsplit(')').next().unwrap_or_default().split_whitespace();
    fields.skip(11).take(2).filter_map(|it| it.parse::<f64>().ok()).sum::<f64>() / 100.0
}
