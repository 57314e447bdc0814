//! Files that are read, and what the system says of them.

use std::io::Seek;

use super::io::{standard, Read, Result};
use super::HostRuntime;

/// A file that is open to be read. Where the numbers of files are not known, so that a text may also be the output and
/// nothing tells, a regular file is read up to the length that it had.
pub struct File(std::fs::File, u64);

impl From<std::fs::File> for File {
    fn from(mut file: std::fs::File) -> File {
        let rest = match file.metadata() {
            Ok(it) if it.is_file() && cfg!(not(unix)) => {
                it.len() - file.stream_position().unwrap_or(0).min(it.len())
            }
            _ => u64::MAX,
        };
        File(file, rest)
    }
}

impl File {
    pub fn open(_: &HostRuntime, name: &str) -> Result<File> {
        Ok(std::fs::File::open(name)?.into())
    }

    pub fn metadata(&self) -> Result<Metadata> {
        Ok(Metadata(self.0.metadata()?))
    }
}

impl Read for File {
    fn read(&mut self, buf: &mut [u8]) -> Result<usize> {
        let most = self.1.min(buf.len() as u64) as usize;
        let count = std::io::Read::read(&mut self.0, &mut buf[..most])?;
        self.1 -= count as u64;
        Ok(count)
    }
}

pub struct Metadata(std::fs::Metadata);

impl Metadata {
    pub fn is_file(&self) -> bool {
        self.0.is_file()
    }

    pub fn len(&self) -> u64 {
        self.0.len()
    }
}

pub fn metadata(_: &HostRuntime, name: &str) -> Result<Metadata> {
    Ok(Metadata(match standard(name) {
        Some(file) => file.metadata()?,
        None => std::fs::metadata(name)?,
    }))
}

/// The numbers of a file. Windows tells std when a file was made, to a tenth of a microsecond, which serves as well.
/// Elsewhere there are none, and no file is known to be another one.
pub trait MetadataExt {
    fn dev(&self) -> u64;

    fn ino(&self) -> u64;
}

#[cfg(unix)]
impl MetadataExt for Metadata {
    fn dev(&self) -> u64 {
        std::os::unix::fs::MetadataExt::dev(&self.0)
    }

    fn ino(&self) -> u64 {
        std::os::unix::fs::MetadataExt::ino(&self.0)
    }
}

#[cfg(windows)]
impl MetadataExt for Metadata {
    fn dev(&self) -> u64 {
        0
    }

    fn ino(&self) -> u64 {
        std::os::windows::fs::MetadataExt::creation_time(&self.0)
    }
}

#[cfg(not(any(unix, windows)))]
impl MetadataExt for Metadata {
    fn dev(&self) -> u64 {
        0
    }

    fn ino(&self) -> u64 {
        use core::sync::atomic::{AtomicUsize, Ordering::Relaxed};
        static ASKED: AtomicUsize = AtomicUsize::new(0);
        ASKED.fetch_add(1, Relaxed) as u64
    }
}
