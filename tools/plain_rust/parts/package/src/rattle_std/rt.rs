//! What `main` is given: arguments and standard streams.

use super::alloc::Global;
use std::cell::RefCell;
use std::io::ErrorKind;
#[cfg(unix)]
use std::io::{Read, Result, Write};

pub(super) type Words = std::result::Result<std::vec::Vec<String>, ErrorKind>;

fn gathered<'a>(words: impl Iterator<Item = &'a [u8]>) -> Words {
    let mut all = std::vec::Vec::new();
    for bytes in words {
        all.try_reserve(1).map_err(|_| ErrorKind::OutOfMemory)?;
        all.push(super::env::word(bytes)?);
    }
    Ok(all)
}

/// What `main` is given.
pub struct HostRuntime {
    pub(super) words: RefCell<Words>,
    #[cfg(unix)]
    files: [std::cell::Cell<Option<std::fs::File>>; 3],
}

impl HostRuntime {
    /// What `main` is given with these words, the program's name first, and these standard
    /// streams.
    #[cfg(unix)]
    pub fn new<'a>(
        words: impl Iterator<Item = &'a [u8]>,
        files: [std::fs::File; 3],
    ) -> HostRuntime {
        HostRuntime {
            words: RefCell::new(gathered(words)),
            files: files.map(|file| std::cell::Cell::new(Some(file))),
        }
    }

    /// What `main` is given with these words, the program's name first.
    #[cfg(not(unix))]
    pub fn new<'a>(words: impl Iterator<Item = &'a [u8]>) -> HostRuntime {
        HostRuntime { words: RefCell::new(gathered(words)) }
    }

    /// A runtime without words and streams.
    #[cfg(test)]
    pub fn of_tests() -> HostRuntime {
        HostRuntime {
            words: RefCell::new(Ok(std::vec::Vec::new())),
            #[cfg(unix)]
            files: Default::default(),
        }
    }

    pub fn alloc(&self) -> Global {
        Global
    }
}

#[cfg(unix)]
impl HostRuntime {
    // Each stream is handed out once, and stays open.
    fn file(&self, number: usize) -> Raw {
        match self.files[number].take() {
            Some(file) => Raw(std::mem::ManuallyDrop::new(file)),
            None => unreachable!(),
        }
    }

    pub fn stdin(&self) -> Raw {
        self.file(0)
    }

    pub fn stdout(&self) -> Raw {
        self.file(1)
    }

    pub fn stderr(&self) -> Raw {
        self.file(2)
    }
}

/// A standard stream, of which each call is one call of the system: without a buffer, which
/// would ask for memory, and with each fault told.
#[cfg(unix)]
pub struct Raw(std::mem::ManuallyDrop<std::fs::File>);

#[cfg(unix)]
impl Read for Raw {
    fn read(&mut self, buf: &mut [u8]) -> Result<usize> {
        (*self.0).read(buf)
    }
}

#[cfg(unix)]
impl Write for Raw {
    fn write(&mut self, buf: &[u8]) -> Result<usize> {
        (*self.0).write(buf)
    }

    fn flush(&mut self) -> Result<()> {
        Ok(())
    }
}

#[cfg(not(unix))]
impl HostRuntime {
    pub fn stdin(&self) -> std::io::Stdin {
        std::io::stdin()
    }

    pub fn stdout(&self) -> std::io::Stdout {
        std::io::stdout()
    }

    pub fn stderr(&self) -> std::io::Stderr {
        std::io::stderr()
    }
}
