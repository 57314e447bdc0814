//! Standard input and output without a buffer of their own, and errors by their kinds. One call is one read or write.

use core::fmt;
use std::fs;
#[cfg(unix)]
use std::os::fd::AsFd as AsOwned;
#[cfg(windows)]
use std::os::windows::io::AsHandle as AsOwned;

use super::files::File;
use super::AllocError;

/// The kinds of errors that the program tells apart.
#[derive(Clone, Copy, Debug, PartialEq, Eq)]
pub enum ErrorKind {
    NotFound,
    BrokenPipe,
    OutOfMemory,
    Other,
    Uncategorized,
    Named(std::io::ErrorKind),
}

impl From<std::io::ErrorKind> for ErrorKind {
    fn from(kind: std::io::ErrorKind) -> Self {
        match kind {
            std::io::ErrorKind::NotFound => ErrorKind::NotFound,
            std::io::ErrorKind::BrokenPipe => ErrorKind::BrokenPipe,
            std::io::ErrorKind::OutOfMemory => ErrorKind::OutOfMemory,
            std::io::ErrorKind::Other => ErrorKind::Other,
            // (std has this kind, and nobody may name it)
            kind if std::format!("{kind:?}") == "Uncategorized" => ErrorKind::Uncategorized,
            kind => ErrorKind::Named(kind),
        }
    }
}

impl fmt::Display for ErrorKind {
    fn fmt(&self, f: &mut fmt::Formatter<'_>) -> fmt::Result {
        match self {
            ErrorKind::NotFound => std::io::ErrorKind::NotFound.fmt(f),
            ErrorKind::BrokenPipe => std::io::ErrorKind::BrokenPipe.fmt(f),
            ErrorKind::OutOfMemory => std::io::ErrorKind::OutOfMemory.fmt(f),
            ErrorKind::Other | ErrorKind::Uncategorized => std::io::ErrorKind::Other.fmt(f),
            ErrorKind::Named(kind) => kind.fmt(f),
        }
    }
}

/// An error, by its kind.
#[derive(Clone, Copy, Debug)]
pub struct Error(ErrorKind);

impl Error {
    pub fn kind(&self) -> ErrorKind {
        self.0
    }
}

impl From<ErrorKind> for Error {
    fn from(kind: ErrorKind) -> Self {
        Error(kind)
    }
}

impl From<std::io::Error> for Error {
    fn from(error: std::io::Error) -> Self {
        Error(error.kind().into())
    }
}

impl From<AllocError> for Error {
    fn from(_: AllocError) -> Self {
        Error(ErrorKind::OutOfMemory)
    }
}

pub type Result<T> = core::result::Result<T, Error>;

pub trait Read {
    fn read(&mut self, buf: &mut [u8]) -> Result<usize>;
}

pub trait Write {
    fn write(&mut self, buf: &[u8]) -> Result<usize>;

    fn flush(&mut self) -> Result<()>;
}

pub trait IsTerminal {
    fn is_terminal(&self) -> bool;
}

/// A stream as a file, so that nothing is held back.
#[cfg(any(unix, windows))]
fn file_of(stream: &impl AsOwned) -> Option<fs::File> {
    #[cfg(unix)]
    let owned = stream.as_fd().try_clone_to_owned();
    #[cfg(windows)]
    let owned = stream.as_handle().try_clone_to_owned();
    owned.ok().map(fs::File::from)
}

/// The standard stream that a name of unix means.
#[cfg(any(unix, windows))]
pub(super) fn standard(name: &str) -> Option<fs::File> {
    match name {
        "/dev/stdin" => file_of(&std::io::stdin()),
        "/dev/stdout" => file_of(&std::io::stdout()),
        _ => None,
    }
}

/// There are no such names elsewhere.
#[cfg(not(any(unix, windows)))]
pub(super) fn standard(_: &str) -> Option<fs::File> {
    None
}

/// Whether std must read or write a stream: on Windows a terminal, which has no bytes.
fn is_for_std(stream: &impl std::io::IsTerminal) -> bool {
    cfg!(not(unix)) && stream.is_terminal()
}

/// Standard input.
pub struct Stdin(Option<File>);

impl Stdin {
    pub(super) fn get() -> Stdin {
        let by_std = is_for_std(&std::io::stdin());
        let file = if by_std { None } else { standard("/dev/stdin") };
        Stdin(file.map(File::from))
    }
}

impl Read for Stdin {
    fn read(&mut self, buf: &mut [u8]) -> Result<usize> {
        Ok(match &mut self.0 {
            Some(file) => file.read(buf)?,
            None => std::io::Read::read(&mut std::io::stdin().lock(), buf)?,
        })
    }
}

impl IsTerminal for Stdin {
    fn is_terminal(&self) -> bool {
        std::io::IsTerminal::is_terminal(&std::io::stdin())
    }
}

/// Standard output.
pub struct Stdout(Option<fs::File>);

impl Stdout {
    pub(super) fn get() -> Stdout {
        let by_std = is_for_std(&std::io::stdout());
        Stdout(if by_std {
            None
        } else {
            standard("/dev/stdout")
        })
    }
}

impl Write for Stdout {
    fn write(&mut self, buf: &[u8]) -> Result<usize> {
        if let Some(file) = &mut self.0 {
            return Ok(std::io::Write::write(file, buf)?);
        }
        let mut out = std::io::stdout().lock();
        std::io::Write::write_all(&mut out, buf)?;
        std::io::Write::flush(&mut out)?;
        Ok(buf.len())
    }

    fn flush(&mut self) -> Result<()> {
        Ok(())
    }
}
