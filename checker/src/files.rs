//! Files, standard input and standard output. Each error names where it
//! occurred.

use std::fmt::Display;
use std::fs::{self, File};
use std::io::{self, BufWriter, Read, Write};
use std::os::fd::AsFd;
use std::path::Path;

const STANDARD_INPUT: &str = "standard input";
const STANDARD_OUTPUT: &str = "standard output";

/// The error with where it occurred.
fn at(place: impl Display, error: &io::Error) -> io::Error {
    io::Error::new(error.kind(), format!("{place}: {error}"))
}

/// Standard input or standard output.
pub struct Stream {
    name: &'static str,
    file: File,
}

impl Read for Stream {
    fn read(&mut self, buffer: &mut [u8]) -> io::Result<usize> {
        self.file
            .read(buffer)
            .map_err(|error| at(self.name, &error))
    }
}

impl Write for Stream {
    fn write(&mut self, bytes: &[u8]) -> io::Result<usize> {
        self.file
            .write(bytes)
            .map_err(|error| at(self.name, &error))
    }

    fn flush(&mut self) -> io::Result<()> {
        self.file.flush().map_err(|error| at(self.name, &error))
    }
}

/// Standard input. Where it cannot be read this is an error, and not an empty
/// input as with the standard library's own handle.
pub fn standard_input() -> io::Result<Stream> {
    let name = STANDARD_INPUT;
    let descriptor = io::stdin().as_fd().try_clone_to_owned();
    let file = File::from(descriptor.map_err(|error| at(name, &error))?);
    Ok(Stream { name, file })
}

/// Standard output, likewise.
pub fn standard_output() -> io::Result<BufWriter<Stream>> {
    let name = STANDARD_OUTPUT;
    let descriptor = io::stdout().as_fd().try_clone_to_owned();
    let file = File::from(descriptor.map_err(|error| at(name, &error))?);
    Ok(BufWriter::new(Stream { name, file }))
}

/// The bytes of a file; `-` is standard input.
pub fn read(path: &Path) -> io::Result<Vec<u8>> {
    if path == Path::new("-") {
        let mut bytes = Vec::new();
        standard_input()?.read_to_end(&mut bytes)?;
        return Ok(bytes);
    }
    fs::read(path).map_err(|error| at(path.display(), &error))
}

pub fn create_directory(path: &Path) -> io::Result<()> {
    fs::create_dir_all(path).map_err(|error| at(path.display(), &error))
}

/// Writes a file. Where not all of it can be written, it is removed.
pub fn store(path: &Path, bytes: &[u8]) -> io::Result<()> {
    let mut file = File::create(path).map_err(|error| at(path.display(), &error))?;
    file.write_all(bytes).map_err(|error| {
        if file.metadata().is_ok_and(|file| file.is_file()) {
            let _ = fs::remove_file(path);
        }
        at(path.display(), &error)
    })
}
