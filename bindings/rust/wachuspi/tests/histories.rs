//! 20,000 drawn operations beside a map of the standard library, with reopens.
use std::collections::BTreeMap;
use std::ffi::OsStr;
use std::fs;
use std::os::unix::ffi::OsStrExt;
use std::path::PathBuf;
use wachuspi::{Batch, Cut, Db, MendOptions, Mode, Options, Snapshot, WriteOptions};

type Map = BTreeMap<Vec<u8>, Vec<u8>>;

struct Draw(u64);

impl Draw {
    fn next(&mut self, below: u64) -> u64 {
        self.0 ^= self.0 << 13;
        self.0 ^= self.0 >> 7;
        self.0 ^= self.0 << 17;
        self.0 % below
    }

    fn key(&mut self) -> Vec<u8> {
        format!("{:05}", self.next(3000)).into_bytes()
    }

    fn value(&mut self) -> Vec<u8> {
        let length = self.next(300) as usize;
        vec![self.next(256) as u8; length]
    }
}

fn folder(name: &str) -> PathBuf {
    let folder = std::env::temp_dir().join(format!("wachuspi-{name}-{}", std::process::id()));
    let _ = fs::remove_dir_all(&folder);
    fs::create_dir_all(&folder).unwrap();
    folder
}

fn pairs_of(map: &Map) -> Vec<(Vec<u8>, Vec<u8>)> {
    map.iter().map(|(k, v)| (k.clone(), v.clone())).collect()
}

fn write_one(db: &Db, map: &mut Map, draw: &mut Draw) {
    let key = draw.key();
    if draw.next(4) == 0 {
        db.delete(&key).unwrap();
        map.remove(&key);
    } else {
        let value = draw.value();
        db.put(&key, &value).unwrap();
        map.insert(key, value);
    }
}

fn write_batch(db: &Db, map: &mut Map, draw: &mut Draw) {
    let mut batch = Batch::new();
    for _ in 0..draw.next(10) {
        let (key, value) = (draw.key(), draw.value());
        if draw.next(4) == 0 {
            batch.delete(&key).unwrap();
            map.remove(&key);
        } else {
            batch.put(&key, &value).unwrap();
            map.insert(key, value);
        }
    }
    let sync = draw.next(50) == 0;
    let work = draw.next(2) == 0;
    db.write_with(&batch, WriteOptions { sync, work }).unwrap();
}

fn seek(db: &Db, map: &Map, draw: &mut Draw) {
    let key = draw.key();
    let mut cursor = db.cursor().unwrap();
    let wanted = map.range(key.clone()..).next();
    let found = cursor.seek(&key).unwrap();
    assert_eq!(found.as_ref().map(|(k, v)| (k, v)), wanted);
    if found.is_some() {
        assert_eq!(cursor.pair().unwrap(), found);
        let before = cursor.prev().unwrap();
        let wanted = map.range(..found.unwrap().0).next_back();
        assert_eq!(before.as_ref().map(|(k, v)| (k, v)), wanted);
    }
}

fn ranges(db: &Db, map: &Map, draw: &mut Draw) {
    let (a, b) = (draw.key(), draw.key());
    let (lower, upper) = if a < b { (a, b) } else { (b, a) };
    let wanted: Vec<_> = pairs_of(&map.range(lower.clone()..upper.clone()).map(owned).collect());
    let found: Vec<_> = db.range(&lower[..]..&upper[..]).unwrap().map(Result::unwrap).collect();
    assert_eq!(found, wanted);
    let iter = db.range(&lower[..]..=&upper[..]).unwrap();
    let mut back: Vec<_> = iter.rev().map(Result::unwrap).collect();
    back.reverse();
    let wanted = pairs_of(&map.range(lower..=upper).map(owned).collect());
    assert_eq!(back, wanted);
}

fn owned((key, value): (&Vec<u8>, &Vec<u8>)) -> (Vec<u8>, Vec<u8>) {
    (key.clone(), value.clone())
}

fn from_both_ends(db: &Db, map: &Map, draw: &mut Draw) {
    let mut iter = db.prefix(b"01").unwrap();
    let mut wanted = map.range(b"01".to_vec()..b"02".to_vec());
    loop {
        let (found, is) = if draw.next(2) == 0 {
            (iter.next(), wanted.next())
        } else {
            (iter.next_back(), wanted.next_back())
        };
        assert_eq!(found.map(Result::unwrap), is.map(owned));
        if is.is_none() {
            return;
        }
    }
}

fn history(db: &Db, map: &mut Map, draw: &mut Draw, count: usize) {
    let mut kept: Vec<(Snapshot, Map)> = Vec::new();
    for _ in 0..count {
        match draw.next(100) {
            0..=39 => write_one(db, map, draw),
            40..=54 => write_batch(db, map, draw),
            55..=84 => {
                let key = draw.key();
                assert_eq!(db.get(&key).unwrap().as_ref(), map.get(&key));
            }
            85..=92 => seek(db, map, draw),
            93 => ranges(db, map, draw),
            94 => from_both_ends(db, map, draw),
            95..=96 => kept.push((db.snapshot().unwrap(), map.clone())),
            97 if kept.len() > 3 => drop(kept.remove(0)),
            _ => {
                if let Some((snapshot, then)) = kept.last() {
                    let key = draw.key();
                    assert_eq!(snapshot.get(&key).unwrap().as_ref(), then.get(&key));
                }
            }
        }
    }
    for (snapshot, then) in kept {
        let found: Vec<_> = snapshot.into_iter().unwrap().map(Result::unwrap).collect();
        assert_eq!(found, pairs_of(&then));
    }
}

#[test]
fn drawn_operations_beside_a_map() {
    let folder = folder("histories");
    let options = Options {
        write_buffer: 65_536,
        ..Options::default()
    };
    let mut draw = Draw(88_172_645_463_325_252);
    let mut map = Map::new();
    for turn in 0..8 {
        let db = Db::open_with(&folder, Mode::Any, &options).unwrap();
        let found: Vec<_> = db.iter().unwrap().map(Result::unwrap).collect();
        assert_eq!(found, pairs_of(&map));
        history(&db, &mut map, &mut draw, 2_500);
        if turn % 3 == 2 {
            db.compact().unwrap();
            db.settle(100_000).unwrap();
            assert_eq!((0..7).filter_map(|level| db.tables(level)).sum::<u64>(), 1);
        }
        drop(db);
        assert!(wachuspi::check(&folder).unwrap());
    }
    fs::remove_dir_all(&folder).unwrap();
}

#[test]
fn a_power_loss_is_mended() {
    let folder = folder("mended");
    assert_eq!(wachuspi::mend(&folder, MendOptions::default()).unwrap(), []);
    let db = Db::open(&folder, Mode::New).unwrap();
    db.put(b"apple", b"red").unwrap();
    let error = wachuspi::mend(&folder, MendOptions::default()).unwrap_err();
    assert!(error.is_locked());
    drop(db);
    let name = fs::read_to_string(folder.join("CURRENT")).unwrap();
    let manifest = folder.join(name.trim_end());
    let mut bytes = fs::read(&manifest).unwrap();
    let whole = bytes.len() as u64;
    bytes.resize(bytes.len() + 9, 0);
    fs::write(&manifest, bytes).unwrap();
    assert_eq!(Db::open(&folder, Mode::Any).err().unwrap().name, "Corrupt");
    let dry = MendOptions {
        dry_run: true,
        ..MendOptions::default()
    };
    let wanted = Cut {
        file: name.trim_end().to_string(),
        at: whole,
        length: whole + 9,
        zeros: 9,
    };
    assert_eq!(wachuspi::mend(&folder, dry).unwrap(), [wanted.clone()]);
    assert_eq!(wachuspi::mend(&folder, MendOptions::default()).unwrap(), [wanted]);
    let db = Db::open(&folder, Mode::Existing).unwrap();
    assert_eq!(db.get(b"apple").unwrap().unwrap(), b"red");
    drop(db);
    fs::remove_dir_all(&folder).unwrap();
}

#[test]
fn errors_say_what_is_wrong() {
    let folder = folder("errors");
    assert_eq!(wachuspi::version(), 1);
    assert!(!wachuspi::check(&folder).unwrap());
    let other = OsStr::from_bytes(b"not utf-8: \xff");
    assert!(Db::open(other, Mode::Any).err().unwrap().words.contains("UTF-8"));
    assert_eq!(Db::open(&folder, Mode::Existing).err().unwrap().name, "NoDatabase");
    let db = Db::open(&folder, Mode::New).unwrap();
    assert!(Db::open(&folder, Mode::Any).err().unwrap().is_locked());
    assert_eq!(db.put(&[0; 70_000], b"").unwrap_err().name, "KeyTooLong");
    assert_eq!(db.compact_level(6).unwrap_err().name, "BadLevel");
    assert_eq!(db.cursor().unwrap().next().unwrap_err().name, "NoPlace");
    assert_eq!(db.tables(7), None);
    let long = vec![7; 300_000];
    db.put(b"long", &long).unwrap();
    assert_eq!(db.get(b"long").unwrap().unwrap(), long);
    assert_eq!(db.iter().unwrap().next().unwrap().unwrap().1, long);
    assert_eq!(db.cursor().unwrap().last().unwrap().unwrap().1, long);
    drop(db);
    let wrong = Options {
        block_bytes: 0,
        ..Options::default()
    };
    assert_eq!(Db::open_with(&folder, Mode::Any, &wrong).err().unwrap().name, "Misused");
    fs::write(folder.join("CURRENT"), "nonsense\n").unwrap();
    let error = Db::open(&folder, Mode::Any).err().unwrap();
    assert_eq!((error.name.as_str(), error.file.as_str()), ("Corrupt", "CURRENT"));
    fs::remove_dir_all(&folder).unwrap();
}
