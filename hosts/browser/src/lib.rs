//! A page, opened in a headless Chromium that the tests start and end: what stands on it, how it looks on a screen and on paper, and all that
//! it complains of or asks for. The browser is spoken to by the DevTools protocol over two pipes, without a network and without other crates.

mod base64;
mod complaints;
mod folder;
mod group;
pub mod json;
mod page;
mod paper;
mod pipe;
mod program;

pub use page::{Media, Page, Size};

use std::path::Path;

use folder::Folder;
use group::Group;
use pipe::Pipe;

/// A browser that runs until it is dropped. Then its processes are killed, and its folder is removed.
pub struct Browser {
    pipe: Pipe,
    // fields are dropped in this order: no process writes into the folder any more when it is removed
    _group: Group,
    folder: Folder,
}

impl Browser {
    /// Starts the `chromium` of the PATH, or the program that SPELTMALLET_CHROMIUM names.
    pub fn start() -> Result<Browser, String> {
        let program = program::found()?;
        let folder = Folder::make()?;
        let (group, input, output) = program::started(&program, &folder)?;
        let browser = Browser {
            pipe: Pipe::open(input, output),
            _group: group,
            folder,
        };
        match browser.pipe.ask("", "Browser.getVersion", "{}") {
            Ok(_) => Ok(browser),
            Err(fault) => {
                let (shown, said) = (program.display(), browser.folder.said());
                Err(format!(
                    "{shown} does not start: {fault}; the end of what it says: {said}"
                ))
            }
        }
    }

    /// Opens a file as a page of this size, and waits until it is loaded.
    pub fn open(&self, path: &Path, size: Size) -> Result<Page<'_>, String> {
        Page::open(self, path, size)
    }

    /// The folder that is the browser's while it runs; each of its processes has it as TMPDIR.
    pub fn folder(&self) -> &Path {
        self.folder.path()
    }
}
