//! A folder that no handle has: whether it is consistent, and mending it.
use crate::error::{Error, Result};
use crate::raw;
use std::path::Path;

pub(crate) fn bytes_of(path: &Path) -> &[u8] {
    path.as_os_str().as_encoded_bytes()
}

/// Checks the files of a folder that no process has open: whether there is a database, and an error
/// if it isn't consistent.
pub fn check(folder: impl AsRef<Path>) -> Result<bool> {
    let path = bytes_of(folder.as_ref());
    let mut trouble = raw::Trouble::NONE;
    match unsafe { raw::wch_check(path.as_ptr(), path.len(), &mut trouble) } {
        0 => Ok(true),
        -1 => Ok(false),
        code => Err(Error::of(code, &trouble)),
    }
}

/// How `mend` mends.
#[derive(Debug, Clone, Copy, Default, PartialEq, Eq)]
pub struct MendOptions {
    /// Only says what would be cut.
    pub dry_run: bool,
    /// Cuts a broken fragment also if other bytes than zeros follow it, and what follows with it.
    pub holes: bool,
}

/// A file that was cut, or would be.
#[derive(Debug, Clone, PartialEq, Eq)]
pub struct Cut {
    /// Its name.
    pub file: String,
    /// How many of its bytes stay.
    pub at: u64,
    /// How many bytes it had.
    pub length: u64,
    /// How many zeros it ended with.
    pub zeros: u64,
}

impl Cut {
    fn of(cut: &raw::Cut) -> Cut {
        let number = cut.number;
        let file = match cut.kind {
            2 => format!("MANIFEST-{number:06}"),
            _ => format!("{number:06}.log"),
        };
        Cut {
            file,
            at: cut.at,
            length: cut.length,
            zeros: cut.zeros,
        }
    }
}

// More files than this are cut, but not told.
const FILES: usize = 1024;

/// Cuts off the zeros that a power loss can leave at the end of the MANIFEST and of logs, for which
/// `Db::open` answers an error named `Corrupt`. Returns what it cut; nothing that was synced is
/// lost.
pub fn mend(folder: impl AsRef<Path>, how: MendOptions) -> Result<Vec<Cut>> {
    let path = bytes_of(folder.as_ref());
    let flags = u32::from(how.dry_run) | u32::from(how.holes) << 1;
    let mut cuts = vec![raw::Cut::default(); FILES];
    let (mut count, mut trouble) = (0, raw::Trouble::NONE);
    let code = unsafe {
        let (at, length) = (path.as_ptr(), path.len());
        let room = cuts.as_mut_ptr();
        raw::wch_mend(at, length, flags, room, FILES, &mut count, &mut trouble)
    };
    match code {
        0 | -1 => Ok(cuts.iter().take(count).map(Cut::of).collect()),
        code => Err(Error::of(code, &trouble)),
    }
}
