use crate::raw;
use std::fmt;

/// Why a call failed, and where it came from.
#[derive(Debug, Clone, PartialEq, Eq)]
pub struct Error {
    /// The number of the error, as `include/wachuspi.h` has it.
    pub code: i32,
    /// Its name, as `Corrupt`.
    pub name: String,
    /// The file that it came from, or nothing.
    pub file: String,
    /// What was wrong, in one line. It may be empty.
    pub words: String,
    /// The system's `errno`, if a call of the system failed.
    pub errno: Option<i32>,
}

/// What a call of this crate returns.
pub type Result<T> = std::result::Result<T, Error>;

fn text(bytes: &[u8], length: u64) -> String {
    let length = usize::try_from(length).unwrap_or(bytes.len()).min(bytes.len());
    String::from_utf8_lossy(&bytes[..length]).into_owned()
}

impl Error {
    pub(crate) fn of(code: i32, trouble: &raw::Trouble) -> Error {
        let mut room = [0u8; 32];
        let length = unsafe { raw::wch_explain(code, room.as_mut_ptr(), room.len()) };
        Error {
            code,
            name: text(&room, length as u64),
            file: text(&trouble.name, trouble.name_length),
            words: text(&trouble.words, trouble.words_length),
            errno: (trouble.has & 8 != 0).then_some(trouble.code),
        }
    }

    /// Whether the open database is broken: drop it, and open it again.
    pub fn is_broken(&self) -> bool {
        self.code == 7
    }

    /// Whether another handle has the folder.
    pub fn is_locked(&self) -> bool {
        self.code == 18
    }

    /// Whether the write succeeded, and only the work after it failed.
    pub fn was_written(&self) -> bool {
        self.code > 256
    }
}

impl fmt::Display for Error {
    fn fmt(&self, f: &mut fmt::Formatter<'_>) -> fmt::Result {
        f.write_str(&self.name)?;
        if !self.file.is_empty() {
            write!(f, ": {}", self.file)?;
        }
        if !self.words.is_empty() {
            write!(f, ": {}", self.words)?;
        }
        Ok(())
    }
}

impl std::error::Error for Error {}
