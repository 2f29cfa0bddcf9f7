//! A key-value database in LevelDB's format. It reads and writes the folders that LevelDB has, and
//! its core is proved: `docs/LIBRARY.md` in the repository says what that covers.
//!
//! ```
//! use wachuspi::{Batch, Db, Mode};
//!
//! # fn main() -> Result<(), Box<dyn std::error::Error>> {
//! # let folder = std::env::temp_dir().join(format!("wachuspi-doc-{}", std::process::id()));
//! # std::fs::create_dir(&folder)?;
//! let db = Db::open(&folder, Mode::Any)?;
//! db.put(b"apple", b"red")?;
//! let before = db.snapshot()?;
//!
//! let mut batch = Batch::new();
//! batch.put(b"apple", b"green")?;
//! batch.put(b"lemon", b"yellow")?;
//! db.write(&batch)?;
//!
//! assert_eq!(db.get(b"apple")?.as_deref(), Some(&b"green"[..]));
//! assert_eq!(before.get(b"apple")?.as_deref(), Some(&b"red"[..]));
//! let keys: Vec<_> = db.iter()?.map(|pair| pair.unwrap().0).collect();
//! assert_eq!(keys, [b"apple", b"lemon"]);
//! # drop(before);
//! # drop(db);
//! # std::fs::remove_dir_all(&folder)?;
//! # Ok(())
//! # }
//! ```
//!
//! A `Db` stays on its thread: it is neither `Send` nor `Sync`. Snapshots and iterators borrow it,
//! so that it can't be closed before them, and writes go on beside them.
//!
//! ```compile_fail
//! let db = wachuspi::Db::open("folder", wachuspi::Mode::Any).unwrap();
//! std::thread::spawn(move || db.get(b"apple"));
//! ```
//!
//! ```compile_fail
//! let db = wachuspi::Db::open("folder", wachuspi::Mode::Any).unwrap();
//! let snapshot = db.snapshot().unwrap();
//! drop(db);
//! snapshot.get(b"apple").unwrap();
//! ```

mod batch;
mod cursor;
mod db;
mod error;
mod folder;
mod iter;
mod raw;

pub use batch::Batch;
pub use cursor::Cursor;
pub use db::{Db, Mode, Options, Snapshot, WriteOptions};
pub use error::{Error, Result};
pub use folder::{check, mend, Cut, MendOptions};
pub use iter::Iter;

/// A key and its value.
pub type Pair = (Vec<u8>, Vec<u8>);

/// The version of the C interface.
pub fn version() -> u32 {
    unsafe { raw::wch_version() }
}
