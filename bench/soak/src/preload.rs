//! Libraries that a program is started with, which are compiled for it.
use std::path::{Path, PathBuf};
use std::process::Command;

/// The compiled libraries of one program, whose files are removed with this value.
#[derive(Default)]
pub struct Libraries(Vec<PathBuf>);

impl Libraries {
    /// One more, of this name, whose source stands beside the manifest.
    pub fn add(&mut self, name: &str) -> Result<(), String> {
        let source = Path::new(env!("CARGO_MANIFEST_DIR")).join(name).with_extension("c");
        let file = std::env::temp_dir().join(format!("soak-{}-{name}.so", std::process::id()));
        let status = Command::new("cc").args(["-shared", "-fPIC", "-O2", "-o"]).arg(&file).arg(&source).status();
        self.0.push(file);
        match status {
            Ok(status) if status.success() => Ok(()),
            status => Err(format!("cc {}: {status:?}", source.display())),
        }
    }

    /// Has a program that is about to start preload them.
    pub fn show(&self, command: &mut Command) {
        if !self.0.is_empty() {
            let files: Vec<String> = self.0.iter().map(|it| it.display().to_string()).collect();
            command.env("LD_PRELOAD", files.join(":"));
        }
    }
}

impl Drop for Libraries {
    fn drop(&mut self) {
        for file in &self.0 {
            let _ = std::fs::remove_file(file);
        }
    }
}
