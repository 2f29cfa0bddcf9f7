use crate::cursor::Cursor;
use crate::db::Snapshot;
use crate::error::Result;
use crate::Pair;
use std::collections::VecDeque;
use std::ops::{Bound, RangeBounds};

const ROOM: usize = 1 << 16;

/// The pairs of a range, in the order of their keys, from both ends.
///
/// It goes over what was there when it was made. After an error it ends.
pub struct Iter<'a> {
    // (the ends are dropped before their snapshot)
    front: End<'a>,
    back: End<'a>,
    lower: Bound<Vec<u8>>,
    upper: Bound<Vec<u8>>,
    room: Vec<u8>,
    ended: bool,
    snapshot: Snapshot<'a>,
}

// One end: its cursor once it was asked for, the pairs that were read ahead, the key it came to.
#[derive(Default)]
struct End<'a> {
    cursor: Option<Cursor<'a>>,
    pairs: VecDeque<Pair>,
    more: bool,
    last: Option<Vec<u8>>,
}

fn owned(bound: Bound<&&[u8]>) -> Bound<Vec<u8>> {
    match bound {
        Bound::Included(key) => Bound::Included(key.to_vec()),
        Bound::Excluded(key) => Bound::Excluded(key.to_vec()),
        Bound::Unbounded => Bound::Unbounded,
    }
}

// The first bytes behind everything that begins with a prefix.
fn behind(prefix: &[u8]) -> Bound<Vec<u8>> {
    let mut end = prefix.to_vec();
    while let Some(last) = end.pop() {
        if last < 255 {
            end.push(last + 1);
            return Bound::Excluded(end);
        }
    }
    Bound::Unbounded
}

impl<'a> Iter<'a> {
    pub(crate) fn new<'k>(
        snapshot: Snapshot<'a>,
        keys: impl RangeBounds<&'k [u8]>,
    ) -> Result<Iter<'a>> {
        Iter::within(snapshot, owned(keys.start_bound()), owned(keys.end_bound()))
    }

    pub(crate) fn of_prefix(snapshot: Snapshot<'a>, prefix: &[u8]) -> Result<Iter<'a>> {
        Iter::within(snapshot, Bound::Included(prefix.to_vec()), behind(prefix))
    }

    fn within(
        snapshot: Snapshot<'a>,
        lower: Bound<Vec<u8>>,
        upper: Bound<Vec<u8>>,
    ) -> Result<Iter<'a>> {
        Ok(Iter {
            front: End::default(),
            back: End::default(),
            lower,
            upper,
            room: Vec::new(),
            ended: false,
            snapshot,
        })
    }

    fn begin_front(&mut self) -> Result<()> {
        let mut cursor = self.snapshot.cursor()?;
        let mut found = match &self.lower {
            Bound::Unbounded => cursor.first()?,
            Bound::Included(key) | Bound::Excluded(key) => cursor.seek(key)?,
        };
        if let (Bound::Excluded(key), Some(pair)) = (&self.lower, &found) {
            if pair.0 == *key {
                found = cursor.next()?;
            }
        }
        self.front.more = found.is_some();
        self.front.cursor = Some(cursor);
        Ok(())
    }

    fn begin_back(&mut self) -> Result<()> {
        let mut cursor = self.snapshot.cursor()?;
        let found = match &self.upper {
            Bound::Unbounded => cursor.last()?,
            Bound::Included(key) | Bound::Excluded(key) => match cursor.seek(key)? {
                None => cursor.last()?,
                Some(pair) if matches!(self.upper, Bound::Included(_)) && pair.0 == *key => {
                    Some(pair)
                }
                Some(_) => cursor.prev()?,
            },
        };
        self.back.more = found.is_some();
        self.back.cursor = Some(cursor);
        Ok(())
    }

    fn front_pair(&mut self) -> Result<Option<Pair>> {
        if self.front.cursor.is_none() {
            self.begin_front()?;
        }
        self.front.pull(false, &mut self.room)
    }

    fn back_pair(&mut self) -> Result<Option<Pair>> {
        if self.back.cursor.is_none() {
            self.begin_back()?;
        }
        self.back.pull(true, &mut self.room)
    }

    fn is_within(&self, key: &[u8]) -> bool {
        let above = match &self.lower {
            Bound::Unbounded => true,
            Bound::Included(lower) => lower.as_slice() <= key,
            Bound::Excluded(lower) => lower.as_slice() < key,
        };
        let below = match &self.upper {
            Bound::Unbounded => true,
            Bound::Included(upper) => key <= upper.as_slice(),
            Bound::Excluded(upper) => key < upper.as_slice(),
        };
        let after = self.front.last.as_deref().map_or(true, |last| last < key);
        let before = self.back.last.as_deref().map_or(true, |last| key < last);
        above && below && after && before
    }

    fn given(&mut self, found: Result<Option<Pair>>) -> Option<Result<Pair>> {
        match found {
            Ok(Some(pair)) if self.is_within(&pair.0) => Some(Ok(pair)),
            Ok(_) => {
                self.ended = true;
                None
            }
            Err(error) => {
                self.ended = true;
                Some(Err(error))
            }
        }
    }
}

impl<'a> End<'a> {
    fn pull(&mut self, backwards: bool, room: &mut Vec<u8>) -> Result<Option<Pair>> {
        if self.pairs.is_empty() && self.more {
            if let Some(cursor) = &mut self.cursor {
                if room.is_empty() {
                    room.resize(ROOM, 0);
                }
                self.more = cursor.fill(backwards, room, &mut self.pairs)?;
            }
        }
        Ok(self.pairs.pop_front())
    }
}

impl Iterator for Iter<'_> {
    type Item = Result<Pair>;

    fn next(&mut self) -> Option<Result<Pair>> {
        if self.ended {
            return None;
        }
        let found = self.front_pair();
        let given = self.given(found);
        if let Some(Ok(pair)) = &given {
            self.front.last = Some(pair.0.clone());
        }
        given
    }
}

impl DoubleEndedIterator for Iter<'_> {
    fn next_back(&mut self) -> Option<Result<Pair>> {
        if self.ended {
            return None;
        }
        let found = self.back_pair();
        let given = self.given(found);
        if let Some(Ok(pair)) = &given {
            self.back.last = Some(pair.0.clone());
        }
        given
    }
}

impl std::iter::FusedIterator for Iter<'_> {}
