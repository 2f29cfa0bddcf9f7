use crate::error::{Error, Result};
use crate::raw;
use std::cell::UnsafeCell;

/// Operations that are written together, or not at all.
///
/// ```
/// # fn main() -> wachuspi::Result<()> {
/// let mut batch = wachuspi::Batch::new();
/// batch.put(b"apple", b"red")?;
/// batch.delete(b"lemon")?;
/// # Ok(())
/// # }
/// ```
pub struct Batch {
    pub(crate) raw: UnsafeCell<raw::Handle>,
}

fn done(code: i32) -> Result<()> {
    match code {
        0 => Ok(()),
        code => Err(Error::of(code, &raw::Trouble::NONE)),
    }
}

impl Batch {
    /// Makes a batch without operations. It takes no memory yet.
    pub fn new() -> Batch {
        Batch {
            raw: UnsafeCell::new(raw::Handle::NONE),
        }
    }

    /// Adds a put. After an error the batch is as it was.
    pub fn put(&mut self, key: &[u8], value: &[u8]) -> Result<()> {
        let (k, v) = (key.as_ptr(), value.as_ptr());
        done(unsafe { raw::wch_batch_put(self.raw.get(), k, key.len(), v, value.len()) })
    }

    /// Adds a delete. After an error the batch is as it was.
    pub fn delete(&mut self, key: &[u8]) -> Result<()> {
        done(unsafe { raw::wch_batch_delete(self.raw.get(), key.as_ptr(), key.len()) })
    }

    /// Removes all operations, and frees their memory.
    pub fn clear(&mut self) {
        unsafe { raw::wch_batch_free(self.raw.get()) }
    }
}

impl Default for Batch {
    fn default() -> Batch {
        Batch::new()
    }
}

impl Drop for Batch {
    fn drop(&mut self) {
        self.clear();
    }
}
