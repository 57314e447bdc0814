//! The system: its streams, and the words of the call.

use core::fmt;

use super::io::{Error, ErrorKind, Result, Stdin, Stdout, Write};
use super::{Global, String};

/// The system.
#[derive(Clone, Copy)]
pub struct HostRuntime;

impl HostRuntime {
    pub fn alloc(&self) -> Global {
        Global
    }

    pub fn stdin(&self) -> Stdin {
        Stdin::get()
    }

    pub fn stdout(&self) -> Stdout {
        Stdout::get()
    }

    pub fn print(&self, text: fmt::Arguments<'_>) -> Result<()> {
        let text = std::fmt::format(text);
        let mut rest = text.as_bytes();
        while !rest.is_empty() {
            let done = self.stdout().write(rest)?;
            if done == 0 {
                return Err(ErrorKind::Other.into());
            }
            rest = &rest[done..];
        }
        Ok(())
    }

    pub fn eprint(&self, text: fmt::Arguments<'_>) -> Result<()> {
        Ok(std::io::Write::write_fmt(
            &mut std::io::stderr().lock(),
            text,
        )?)
    }
}

/// The words of the call; an error if one of them is not UTF-8.
pub fn args(_: &HostRuntime) -> Result<std::vec::IntoIter<String>> {
    let word = |it: std::ffi::OsString| {
        it.into_string()
            .map(String)
            .map_err(|_| Error::from(ErrorKind::Other))
    };
    let words: Result<std::vec::Vec<String>> = std::env::args_os().map(word).collect();
    Ok(words?.into_iter())
}

pub trait Env {
    /// Writes the bytes of a word to the buffer, as many as it holds, and returns how many they are.
    fn arg(&self, place: usize, buf: &mut [u8]) -> Result<usize>;
}

impl Env for HostRuntime {
    fn arg(&self, place: usize, buf: &mut [u8]) -> Result<usize> {
        let word = std::env::args_os()
            .nth(place)
            .ok_or(Error::from(ErrorKind::NotFound))?;
        #[cfg(unix)]
        let bytes = std::os::unix::ffi::OsStrExt::as_bytes(&*word);
        #[cfg(not(unix))]
        let text = word.to_string_lossy();
        #[cfg(not(unix))]
        let bytes = text.as_bytes();
        let most = bytes.len().min(buf.len());
        buf[..most].copy_from_slice(&bytes[..most]);
        Ok(most)
    }
}
