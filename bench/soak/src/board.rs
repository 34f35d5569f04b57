//! What all threads look at: how far the run is, and the first fault.
use crate::rhythm::Rhythm;
use std::sync::atomic::{AtomicBool, AtomicU32, AtomicU8, Ordering::SeqCst};
use std::sync::Mutex;

/// How far a run is.
#[derive(Clone, Copy, PartialEq)]
pub enum Phase {
    /// Peers make trouble.
    Wild,
    /// They don't. Each control centre begins anew.
    Calm,
    /// Nothing happens in outstations, and control centres do nothing: what comes, comes by the gateway's clock.
    Still,
    /// Nothing happens any more in outstations, and control centres take what waits for them and leave.
    Quiet,
}

pub struct Board {
    pub seed: u64,
    pub rhythm: Rhythm,
    /// Of each control centre, the last object of outstation 0 that it was told.
    seen: Vec<AtomicU32>,
    phase: AtomicU8,
    over: AtomicBool,
    fault: Mutex<Option<String>>,
}

impl Board {
    pub fn new(seed: u64, rhythm: Rhythm, clients: usize) -> Board {
        Board {
            seed,
            rhythm,
            seen: (0..clients).map(|_| AtomicU32::new(0)).collect(),
            phase: AtomicU8::new(Phase::Calm as u8),
            over: AtomicBool::new(false),
            fault: Mutex::new(None),
        }
    }

    pub fn see(&self, client: usize, serial: u32) {
        self.seen[client].store(serial, SeqCst);
    }

    /// Whether each control centre was told an object of outstation 0, or a later one.
    pub fn have_all_seen(&self, serial: u32) -> bool {
        self.seen.iter().all(|it| it.load(SeqCst) >= serial)
    }

    pub fn phase(&self) -> Phase {
        [Phase::Wild, Phase::Calm, Phase::Still, Phase::Quiet][usize::from(self.phase.load(SeqCst))]
    }

    pub fn enter(&self, phase: Phase) {
        self.phase.store(phase as u8, SeqCst);
    }

    pub fn is_wild(&self) -> bool {
        self.phase() == Phase::Wild
    }

    pub fn is_quiet(&self) -> bool {
        self.phase() == Phase::Quiet
    }

    /// Whether nothing happens in outstations.
    pub fn is_uneventful(&self) -> bool {
        matches!(self.phase(), Phase::Still | Phase::Quiet)
    }

    pub fn is_over(&self) -> bool {
        self.over.load(SeqCst)
    }

    pub fn end(&self) {
        self.over.store(true, SeqCst);
    }

    /// Something isn't as it has to be: the first fault is kept, and ends the run.
    pub fn fault(&self, fault: String) {
        self.fault.lock().unwrap().get_or_insert(fault);
        self.end();
    }

    pub fn first_fault(&self) -> Option<String> {
        self.fault.lock().unwrap().clone()
    }
}
