//! What the gateway has taken of the heap and not given back, which a library counts.
use crate::preload::Libraries;
use std::path::PathBuf;
use std::process::Command;

/// The file with the count, which is removed with this value.
pub struct HeapCount(PathBuf);

impl HeapCount {
    /// Has a program that is about to start count.
    pub fn show(libraries: &mut Libraries, command: &mut Command) -> Result<HeapCount, String> {
        libraries.add("heap_count")?;
        let count = HeapCount(std::env::temp_dir().join(format!("soak-{}.count", std::process::id())));
        std::fs::write(&count.0, [0; 8]).map_err(|it| format!("{}: {it}", count.0.display()))?;
        command.env("HEAP_COUNT_FILE", &count.0);
        Ok(count)
    }

    pub fn kb(&self) -> u64 {
        let octets = std::fs::read(&self.0).ok().and_then(|it| it.get(..8)?.try_into().ok());
        octets.map_or(0, i64::from_le_bytes).max(0) as u64 / 1024
    }
}

impl Drop for HeapCount {
    fn drop(&mut self) {
        let _ = std::fs::remove_file(&self.0);
    }
}
