//! A program to compare with: what its text names, and where its file is.

use std::env;
use std::ffi::{OsStr, OsString};
use std::fmt;
use std::fs;
use std::os::unix::fs::PermissionsExt;
use std::path::{Path, PathBuf};

use super::quoting::{self, QuotingError};

/// A file that can be run, with its arguments.
#[derive(Clone, Debug, PartialEq, Eq)]
pub struct Program {
    pub path: PathBuf,
    pub arguments: Vec<OsString>,
}

/// Why a text names no program.
#[derive(Clone, Debug, PartialEq, Eq)]
pub enum ProgramError {
    Empty,
    Quoting(QuotingError),
    NotText,
    Missing(PathBuf),
    NotExecutable(PathBuf),
}

impl fmt::Display for ProgramError {
    fn fmt(&self, f: &mut fmt::Formatter<'_>) -> fmt::Result {
        match self {
            ProgramError::Empty => write!(f, "no program is named"),
            ProgramError::Quoting(error) => write!(f, "{error}"),
            ProgramError::NotText => write!(f, "there is no such file, and the name is not UTF-8"),
            ProgramError::Missing(path) => write!(f, "no program '{}'", path.display()),
            ProgramError::NotExecutable(path) => {
                write!(f, "'{}' is not executable", path.display())
            }
        }
    }
}

impl Program {
    /// The file of this name, without arguments; where there is none, the
    /// text is split into a program and its arguments.
    pub fn find(text: &OsStr) -> Result<Program, ProgramError> {
        let path = Path::new(text);
        if path.is_file() {
            return Ok(Program {
                path: executable(path)?,
                arguments: Vec::new(),
            });
        }
        let text = text.to_str().ok_or(ProgramError::NotText)?;
        let mut words = quoting::split(text)
            .map_err(ProgramError::Quoting)?
            .into_iter();
        let name = words.next().ok_or(ProgramError::Empty)?;
        Ok(Program {
            path: look_up(Path::new(&name))?,
            arguments: words.map(OsString::from).collect(),
        })
    }

    /// With these arguments after its own.
    pub fn with_arguments(&self, more: impl IntoIterator<Item = String>) -> Program {
        let mut program = self.clone();
        program
            .arguments
            .extend(more.into_iter().map(OsString::from));
        program
    }
}

/// The path with at least one slash, so that it is not looked up in PATH.
fn executable(path: &Path) -> Result<PathBuf, ProgramError> {
    let here = Path::new(".").join(path);
    let file = fs::metadata(&here).map_err(|_| ProgramError::Missing(path.to_path_buf()))?;
    if !file.is_file() || file.permissions().mode() & 0o111 == 0 {
        return Err(ProgramError::NotExecutable(path.to_path_buf()));
    }
    Ok(here)
}

/// A name with a slash is a path; another one is looked up in PATH.
fn look_up(name: &Path) -> Result<PathBuf, ProgramError> {
    if name.components().count() != 1 || name.is_absolute() {
        return executable(name);
    }
    let directories = env::var_os("PATH").unwrap_or_default();
    env::split_paths(&directories)
        .find_map(|directory| executable(&directory.join(name)).ok())
        .ok_or(ProgramError::Missing(name.to_path_buf()))
}
