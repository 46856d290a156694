//! The program `PROGRAM`.
//!
//! std opens /dev/null in place of a standard stream that is closed, before it calls `main`: a read
//! of it would end and a write would succeed, where the program has to say that they fail. And std
//! copies the arguments, and makes buffers for the streams, in a way that ends the process where
//! memory is wanting. So the program's start is that of C, which does neither.
#![cfg_attr(unix, no_main)]

use vdpm::rattle_std::rt::HostRuntime;

#[cfg(unix)]
mod start {
    use super::HostRuntime;
    use std::ffi::CStr;
    use std::fs::File;
    use std::os::raw::{c_char, c_int};
    use std::os::unix::io::FromRawFd;

    extern "C" {
        fn signal(number: c_int, what: usize) -> usize;
    }

    #[no_mangle]
    pub extern "C" fn main(count: c_int, words: *const *const c_char) -> c_int {
        // SIGPIPE is 13 and SIG_IGN 1 on each Unix: a write that nobody reads fails, and ends
        // nothing.
        unsafe { signal(13, 1) };
        let words =
            (0..count as usize).map(|n| unsafe { CStr::from_ptr(*words.add(n)) }.to_bytes());
        let files = [0, 1, 2].map(|number| unsafe { File::from_raw_fd(number) });
        c_int::from(vdpm::PROGRAM::main(HostRuntime::new(words, files)).0)
    }
}

#[cfg(not(unix))]
fn main() -> std::process::ExitCode {
    let words: Vec<String> = std::env::args().collect();
    let rt = HostRuntime::new(words.iter().map(|word| word.as_bytes()));
    std::process::ExitCode::from(vdpm::PROGRAM::main(rt).0)
}
