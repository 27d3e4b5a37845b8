//! A browser's folder: its profile, its temporary files, and what it says on standard error.

use std::fs::{self, DirBuilder, File};
use std::io::ErrorKind;
use std::os::unix::fs::DirBuilderExt;
use std::path::{Path, PathBuf};
use std::sync::atomic::{AtomicUsize, Ordering};

/// So many bytes are the end of what a browser says.
const END: usize = 2_000;

/// A folder that is removed when it is dropped.
pub struct Folder {
    path: PathBuf,
}

impl Folder {
    /// Makes a new folder in the temporary one, for this user alone.
    pub fn make() -> Result<Folder, String> {
        static FOLDERS: AtomicUsize = AtomicUsize::new(0);
        loop {
            let number = FOLDERS.fetch_add(1, Ordering::Relaxed);
            let name = format!("speltmallet-browser-{}-{number}", std::process::id());
            let path = std::env::temp_dir().join(name);
            match DirBuilder::new().mode(0o700).create(&path) {
                Ok(()) => return Ok(Folder { path }),
                // a process of the same number left it behind
                Err(error) if error.kind() == ErrorKind::AlreadyExists => continue,
                Err(error) => return Err(format!("{} cannot be made: {error}", path.display())),
            }
        }
    }

    pub fn path(&self) -> &Path {
        &self.path
    }

    fn said_path(&self) -> PathBuf {
        self.path.join("stderr")
    }

    /// The file for what the browser says on standard error.
    pub fn stderr(&self) -> Result<File, String> {
        let path = self.said_path();
        File::create(&path).map_err(|error| format!("{}: {error}", path.display()))
    }

    /// The end of what the browser said on standard error.
    pub fn said(&self) -> String {
        let said = fs::read(self.said_path()).unwrap_or_default();
        let end = &said[said.len().saturating_sub(END)..];
        match String::from_utf8_lossy(end).trim() {
            "" => "nothing".to_string(),
            words => words.to_string(),
        }
    }
}

impl Drop for Folder {
    fn drop(&mut self) {
        let _ = fs::remove_dir_all(&self.path);
    }
}
