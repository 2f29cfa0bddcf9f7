use crate::batch::Batch;
use crate::cursor::Cursor;
use crate::error::{Error, Result};
use crate::folder::bytes_of;
use crate::iter::Iter;
use crate::raw;
use std::cell::UnsafeCell;
use std::ops::RangeBounds;
use std::path::Path;

/// How `Db::open` opens.
#[derive(Debug, Clone, Copy, PartialEq, Eq)]
pub enum Mode {
    /// The database must exist.
    Existing = 0,
    /// There must be none yet.
    New = 1,
    /// It is made if there is none.
    Any = 2,
}

/// The sizes that a database keeps to. `Default` has LevelDB's, and a cache of 1,024 blocks.
#[derive(Debug, Clone, Copy, PartialEq, Eq)]
pub struct Options {
    /// Bytes of a memory table, 1 to 2^30.
    pub write_buffer: u64,
    /// Bytes of a block, 1 to 2^20.
    pub block_bytes: u64,
    /// Bytes of a table file, 1 to 2^30.
    pub file_bytes: u64,
    /// Files that make level 0 be compacted, 1 to 1,024.
    pub level0_files: u64,
    /// Bytes of level 1, 1 to 2^40.
    pub base_bytes: u64,
    /// Blocks in the cache, 1 to 65,536.
    pub cache_blocks: u64,
}

impl Default for Options {
    fn default() -> Options {
        let mut usual = raw::Options {
            write_buffer: 0,
            block_bytes: 0,
            file_bytes: 0,
            level0_files: 0,
            base_bytes: 0,
            cache_blocks: 0,
        };
        unsafe { raw::wch_default_options(&mut usual) };
        Options {
            write_buffer: usual.write_buffer,
            block_bytes: usual.block_bytes,
            file_bytes: usual.file_bytes,
            level0_files: usual.level0_files,
            base_bytes: usual.base_bytes,
            cache_blocks: usual.cache_blocks,
        }
    }
}

/// How a write is done. `Default` doesn't sync, and does its share of the work.
#[derive(Debug, Clone, Copy, PartialEq, Eq)]
pub struct WriteOptions {
    /// Whether the log is on disk before the write returns.
    pub sync: bool,
    /// Whether the write does its share of the merging. If not, call `work` or `settle`.
    pub work: bool,
}

impl Default for WriteOptions {
    fn default() -> WriteOptions {
        WriteOptions {
            sync: false,
            work: true,
        }
    }
}

impl WriteOptions {
    fn flags(self) -> u32 {
        u32::from(self.sync) | u32::from(self.work) << 1
    }
}

/// An open database.
pub struct Db {
    raw: UnsafeCell<raw::Handle>,
}

impl Db {
    /// Opens the database of a folder that exists. The path must be UTF-8.
    pub fn open(folder: impl AsRef<Path>, mode: Mode) -> Result<Db> {
        Db::open_with(folder, mode, &Options::default())
    }

    /// Opens it with other sizes.
    pub fn open_with(folder: impl AsRef<Path>, mode: Mode, options: &Options) -> Result<Db> {
        let path = bytes_of(folder.as_ref());
        let options = raw::Options {
            write_buffer: options.write_buffer,
            block_bytes: options.block_bytes,
            file_bytes: options.file_bytes,
            level0_files: options.level0_files,
            base_bytes: options.base_bytes,
            cache_blocks: options.cache_blocks,
        };
        let mut handle = raw::Handle::NONE;
        let mut trouble = raw::Trouble::NONE;
        let code = unsafe {
            let (at, length) = (path.as_ptr(), path.len());
            raw::wch_open(at, length, &options, mode as u32, &mut handle, &mut trouble)
        };
        match code {
            0 => Ok(Db {
                raw: UnsafeCell::new(handle),
            }),
            code => Err(Error::of(code, &trouble)),
        }
    }

    pub(crate) fn raw(&self) -> *mut raw::Handle {
        self.raw.get()
    }

    pub(crate) fn error(&self, code: i32) -> Error {
        let mut trouble = raw::Trouble::NONE;
        unsafe { raw::wch_last_trouble(self.raw(), &mut trouble) };
        Error::of(code, &trouble)
    }

    pub(crate) fn done(&self, code: i32) -> Result<()> {
        match code {
            0 => Ok(()),
            code => Err(self.error(code)),
        }
    }

    /// Writes a key and its value.
    pub fn put(&self, key: &[u8], value: &[u8]) -> Result<()> {
        self.put_with(key, value, WriteOptions::default())
    }

    /// Writes a key and its value, as the options say.
    pub fn put_with(&self, key: &[u8], value: &[u8], how: WriteOptions) -> Result<()> {
        let (k, v) = (key.as_ptr(), value.as_ptr());
        self.done(unsafe { raw::wch_put(self.raw(), k, key.len(), v, value.len(), how.flags()) })
    }

    /// Deletes a key, whether or not it is there.
    pub fn delete(&self, key: &[u8]) -> Result<()> {
        self.delete_with(key, WriteOptions::default())
    }

    /// Deletes a key, as the options say.
    pub fn delete_with(&self, key: &[u8], how: WriteOptions) -> Result<()> {
        self.done(unsafe { raw::wch_delete(self.raw(), key.as_ptr(), key.len(), how.flags()) })
    }

    /// Writes all operations of a batch, or none.
    pub fn write(&self, batch: &Batch) -> Result<()> {
        self.write_with(batch, WriteOptions::default())
    }

    /// Writes all operations of a batch or none, as the options say.
    pub fn write_with(&self, batch: &Batch, how: WriteOptions) -> Result<()> {
        self.done(unsafe { raw::wch_write(self.raw(), batch.raw.get(), how.flags()) })
    }

    /// Returns the value of a key.
    pub fn get(&self, key: &[u8]) -> Result<Option<Vec<u8>>> {
        self.get_at(key, 0)
    }

    fn get_at(&self, key: &[u8], snapshot: u64) -> Result<Option<Vec<u8>>> {
        let mut value = vec![0; 256];
        loop {
            let mut length = 0;
            let (k, room) = (key.as_ptr(), value.as_mut_ptr());
            let n = value.len();
            match unsafe {
                raw::wch_get(self.raw(), k, key.len(), snapshot, room, n, &mut length)
            } {
                0 if length <= n => {
                    value.truncate(length);
                    return Ok(Some(value));
                }
                0 => value.resize(length, 0),
                -1 => return Ok(None),
                code => return Err(self.error(code)),
            }
        }
    }

    /// Keeps what is read now. A snapshot keeps memory and files until it is dropped.
    pub fn snapshot(&self) -> Result<Snapshot<'_>> {
        let mut id = 0;
        self.done(unsafe { raw::wch_snapshot(self.raw(), &mut id) })?;
        Ok(Snapshot { db: self, id })
    }

    /// Makes a cursor over what is read now.
    pub fn cursor(&self) -> Result<Cursor<'_>> {
        Cursor::over(self, 0)
    }

    /// Iterates over all pairs, in the order of their keys. Both ends can be taken from.
    pub fn iter(&self) -> Result<Iter<'_>> {
        self.range(..)
    }

    /// Iterates over the pairs whose keys are in a range.
    pub fn range<'k>(&self, keys: impl RangeBounds<&'k [u8]>) -> Result<Iter<'_>> {
        Iter::new(self.snapshot()?, keys)
    }

    /// Iterates over the pairs whose keys begin with these bytes.
    pub fn prefix(&self, prefix: &[u8]) -> Result<Iter<'_>> {
        Iter::of_prefix(self.snapshot()?, prefix)
    }

    /// Does one piece of work of so many entries, and tells whether there was any.
    pub fn work(&self, budget: u32) -> Result<bool> {
        let mut idle = 0;
        self.done(unsafe { raw::wch_work(self.raw(), budget, &mut idle) })?;
        Ok(idle == 0)
    }

    /// Works until there is nothing to do, by pieces of so many entries.
    pub fn settle(&self, budget: u32) -> Result<()> {
        self.done(unsafe { raw::wch_settle(self.raw(), budget) })
    }

    /// Compacts everything into the last level that has tables.
    pub fn compact(&self) -> Result<()> {
        self.compact_level(7)
    }

    /// Compacts a level, 0 to 5, into the next one.
    pub fn compact_level(&self, level: u32) -> Result<()> {
        self.done(unsafe { raw::wch_compact(self.raw(), level) })
    }

    /// Returns how many tables a level has, if there is such a level.
    pub fn tables(&self, level: u32) -> Option<u64> {
        u64::try_from(unsafe { raw::wch_tables(self.raw(), level) }).ok()
    }
}

impl Drop for Db {
    fn drop(&mut self) {
        unsafe { raw::wch_close(self.raw()) };
    }
}

/// What was read when it was made, for as long as it lives.
pub struct Snapshot<'a> {
    pub(crate) db: &'a Db,
    id: u64,
}

impl<'a> Snapshot<'a> {
    /// Returns the value of a key.
    pub fn get(&self, key: &[u8]) -> Result<Option<Vec<u8>>> {
        self.db.get_at(key, self.id)
    }

    /// Makes a cursor over the snapshot, which goes on without it.
    pub fn cursor(&self) -> Result<Cursor<'a>> {
        Cursor::over(self.db, self.id)
    }

    /// Iterates over all pairs. The iterator takes the snapshot with it.
    pub fn into_iter(self) -> Result<Iter<'a>> {
        Iter::new(self, ..)
    }

    /// Iterates over the pairs whose keys are in a range.
    pub fn into_range<'k>(self, keys: impl RangeBounds<&'k [u8]>) -> Result<Iter<'a>> {
        Iter::new(self, keys)
    }
}

impl Drop for Snapshot<'_> {
    fn drop(&mut self) {
        unsafe { raw::wch_release(self.db.raw(), self.id) };
    }
}
