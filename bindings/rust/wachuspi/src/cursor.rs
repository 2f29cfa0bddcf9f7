use crate::db::Db;
use crate::error::Result;
use crate::{raw, Pair};
use std::collections::VecDeque;

const ROOM: usize = 256;

/// A place among the pairs, which moves both ways.
///
/// It sees what was there when it was made, whatever is written since. It stands nowhere at first,
/// and after a move that found no pair. After an error it stands where it stood.
pub struct Cursor<'a> {
    db: &'a Db,
    id: u64,
}

impl<'a> Cursor<'a> {
    pub(crate) fn over(db: &'a Db, snapshot: u64) -> Result<Cursor<'a>> {
        let mut id = 0;
        db.done(unsafe { raw::wch_iter_new(db.raw(), snapshot, &mut id) })?;
        Ok(Cursor { db, id })
    }

    /// Moves to the first pair.
    pub fn first(&mut self) -> Result<Option<Pair>> {
        self.copied(|db, id, room, n, pair| unsafe { raw::wch_iter_first(db, id, room, n, pair) })
    }

    /// Moves to the last pair.
    pub fn last(&mut self) -> Result<Option<Pair>> {
        self.copied(|db, id, room, n, pair| unsafe { raw::wch_iter_last(db, id, room, n, pair) })
    }

    /// Moves to the first pair whose key isn't below this one.
    pub fn seek(&mut self, key: &[u8]) -> Result<Option<Pair>> {
        let (k, kn) = (key.as_ptr(), key.len());
        self.copied(|db, id, room, n, pair| unsafe {
            raw::wch_iter_seek(db, id, k, kn, room, n, pair)
        })
    }

    /// Moves to the next pair. `NoPlace` if it stands nowhere.
    #[allow(clippy::should_implement_trait)]
    pub fn next(&mut self) -> Result<Option<Pair>> {
        self.copied(|db, id, room, n, pair| unsafe { raw::wch_iter_next(db, id, room, n, pair) })
    }

    /// Moves to the pair before. `NoPlace` if it stands nowhere.
    pub fn prev(&mut self) -> Result<Option<Pair>> {
        self.copied(|db, id, room, n, pair| unsafe { raw::wch_iter_prev(db, id, room, n, pair) })
    }

    /// Returns the pair on which it stands.
    pub fn pair(&self) -> Result<Option<Pair>> {
        self.copied(|db, id, room, n, pair| unsafe {
            raw::wch_iter_pair(db, id, room, n, pair)
        })
    }

    // The pair that a call copies; once more into a larger room if it has none.
    fn copied<F>(&self, call: F) -> Result<Option<Pair>>
    where
        F: Fn(*mut raw::Handle, u64, *mut u8, usize, *mut raw::Pair) -> i32,
    {
        let mut room = vec![0; ROOM];
        let mut pair = raw::Pair::default();
        let mut code = call(self.db.raw(), self.id, room.as_mut_ptr(), room.len(), &mut pair);
        if code == 0 && pair.key_length + pair.value_length > room.len() {
            room.resize(pair.key_length + pair.value_length, 0);
            let (at, n) = (room.as_mut_ptr(), room.len());
            code = unsafe { raw::wch_iter_pair(self.db.raw(), self.id, at, n, &mut pair) };
        }
        match code {
            0 => {
                room.truncate(pair.key_length + pair.value_length);
                let value = room.split_off(pair.key_length);
                Ok(Some((room, value)))
            }
            -1 => Ok(None),
            code => Err(self.db.error(code)),
        }
    }

    /// Adds the pair on which it stands and those after it, or before it, to a queue, as many as
    /// fit the room, which grows until one does. Tells whether there may be more.
    pub(crate) fn fill(
        &mut self,
        backwards: bool,
        room: &mut Vec<u8>,
        pairs: &mut VecDeque<Pair>,
    ) -> Result<bool> {
        let mut filled = raw::Filled::default();
        loop {
            let (at, n) = (room.as_mut_ptr(), room.len());
            let backwards = u32::from(backwards);
            let (db, id) = (self.db.raw(), self.id);
            match unsafe { raw::wch_iter_fill(db, id, backwards, at, n, &mut filled) } {
                0 if filled.pairs == 0 => room.resize(room.len() * 2, 0),
                0 => break,
                -1 => {
                    split(room, &filled, pairs);
                    return Ok(false);
                }
                code => return Err(self.db.error(code)),
            }
        }
        split(room, &filled, pairs);
        Ok(true)
    }
}

fn length_at(room: &[u8], at: usize) -> usize {
    u32::from_le_bytes([room[at], room[at + 1], room[at + 2], room[at + 3]]) as usize
}

fn split(room: &[u8], filled: &raw::Filled, pairs: &mut VecDeque<Pair>) {
    let mut at = 0;
    for _ in 0..filled.pairs {
        let key = at + 8;
        let value = key + length_at(room, at);
        let end = value + length_at(room, at + 4);
        pairs.push_back((room[key..value].to_vec(), room[value..end].to_vec()));
        at = end;
    }
}

impl Drop for Cursor<'_> {
    fn drop(&mut self) {
        unsafe { raw::wch_iter_free(self.db.raw(), self.id) };
    }
}
