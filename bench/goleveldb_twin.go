// The workloads of crates/bench over goleveldb, LevelDB written anew in Go, for bench/run others
// (twin.h says how it is called, and has the same keys, values and sums). It verifies its
// checksums, as by default, and compresses nothing.
package main

import (
	"encoding/binary"
	"fmt"
	"os"
	"strconv"

	"github.com/syndtr/goleveldb/leveldb"
	"github.com/syndtr/goleveldb/leveldb/filter"
	"github.com/syndtr/goleveldb/leveldb/iterator"
	"github.com/syndtr/goleveldb/leveldb/opt"
	"github.com/syndtr/goleveldb/leveldb/util"
)

const (
	keyBytes   = 16
	valueBytes = 100
	noiseBytes = 1 << 20
	noiseSeed  = 301

	written   = 1
	rewritten = 2
	read      = 3

	syncedWrites = 1000
	batched      = 1000
	stepsASeek   = 10
)

// ---- keys and values (crates/bench/src/entries.rt)

func stepped(state uint64) uint64 { return state*6364136223846793005 + 1442695040888963407 }

// A key is valid until the next one is asked for.
type keys struct {
	drawn bool
	state uint64
	below uint64
	text  [keyBytes]byte
}

func rising() *keys                  { return &keys{} }
func drawn(seed, below uint64) *keys { return &keys{drawn: true, state: seed, below: below} }

func (k *keys) nextNumber() uint64 {
	if !k.drawn {
		k.state++
		return k.state - 1
	}
	k.state = stepped(k.state)
	if k.below == 0 {
		return 0
	}
	return (k.state >> 33) % k.below
}

func (k *keys) nextKey() []byte {
	rest := k.nextNumber()
	for i := keyBytes - 1; i >= 0; i-- {
		k.text[i] = '0' + byte(rest%10)
		rest /= 10
	}
	return k.text[:]
}

func (k *keys) nextMissing() []byte { return k.nextKey()[:keyBytes-1] }

func (k *keys) nextNear() []byte {
	key := k.nextKey()
	key[keyBytes-1] = '.'
	return key
}

type values struct {
	noise []byte
	place int
}

func newValues() *values {
	noise := make([]byte, noiseBytes)
	state := uint64(noiseSeed)
	for i := range noise {
		state = stepped(state)
		noise[i] = byte(state >> 56)
	}
	return &values{noise: noise}
}

func (v *values) nextValue() []byte {
	if len(v.noise)-v.place < valueBytes {
		v.place = 0
	}
	v.place += valueBytes
	return v.noise[v.place-valueBytes : v.place]
}

// ---- what was written or found (crates/bench/src/tally.rt)

type tally struct{ entries, sum uint64 }

func (t *tally) count(key, value []byte) {
	t.entries++
	t.sum += sumOf(key) + sumOf(value)
}

func sumOf(bytes []byte) (sum uint64) {
	for ; len(bytes) >= 8; bytes = bytes[8:] {
		sum += binary.LittleEndian.Uint64(bytes)
	}
	for _, it := range bytes {
		sum += uint64(it)
	}
	return sum
}

// ---- the workloads

func putEach(db *leveldb.DB, k *keys, count uint64, sync bool, t *tally) error {
	values, writing := newValues(), &opt.WriteOptions{Sync: sync}
	for i := uint64(0); i < count; i++ {
		key, value := k.nextKey(), values.nextValue()
		t.count(key, value)
		if err := db.Put(key, value, writing); err != nil {
			return err
		}
	}
	return nil
}

func putBatches(db *leveldb.DB, k *keys, count uint64, t *tally) error {
	values := newValues()
	for i := uint64(0); i < count/batched; i++ {
		batch := new(leveldb.Batch)
		for j := 0; j < batched; j++ {
			key, value := k.nextKey(), values.nextValue()
			batch.Put(key, value)
			t.count(key, value)
		}
		if err := db.Write(batch, nil); err != nil {
			return err
		}
	}
	return nil
}

func deleteEach(db *leveldb.DB, k *keys, count uint64, t *tally) error {
	for i := uint64(0); i < count; i++ {
		key := k.nextKey()
		t.count(key, nil)
		if err := db.Delete(key, nil); err != nil {
			return err
		}
	}
	return nil
}

func getEach(db *leveldb.DB, next func() []byte, count uint64, t *tally) error {
	for i := uint64(0); i < count; i++ {
		key := next()
		value, err := db.Get(key, nil)
		if err == nil {
			t.count(key, value)
		} else if err != leveldb.ErrNotFound {
			return err
		}
	}
	return nil
}

// Iterates over all pairs, by where that begins and what its next step is.
func walk(db *leveldb.DB, first, next func(iterator.Iterator) bool, t *tally) error {
	pairs := db.NewIterator(nil, nil)
	defer pairs.Release()
	for there := first(pairs); there; there = next(pairs) {
		t.count(pairs.Key(), pairs.Value())
	}
	return pairs.Error()
}

func seek(db *leveldb.DB, key []byte, t *tally) error {
	pairs := db.NewIterator(nil, nil)
	defer pairs.Release()
	there := pairs.Seek(key)
	for step := 0; there; step++ {
		t.count(pairs.Key(), pairs.Value())
		if step == stepsASeek {
			break
		}
		there = pairs.Next()
	}
	return pairs.Error()
}

func seekEach(db *leveldb.DB, k *keys, count uint64, t *tally) error {
	for i := uint64(0); i < count; i++ {
		if err := seek(db, k.nextKey(), t); err != nil {
			return err
		}
	}
	return nil
}

// ---- by their names (crates/bench/src/workload.rt)

type workload func(db *leveldb.DB, n uint64, t *tally) error

var workloads = map[string]workload{
	"fillseq":    func(db *leveldb.DB, n uint64, t *tally) error { return putEach(db, rising(), n, false, t) },
	"fillbatch":  func(db *leveldb.DB, n uint64, t *tally) error { return putBatches(db, rising(), n, t) },
	"fillrandom": func(db *leveldb.DB, n uint64, t *tally) error { return putEach(db, drawn(written, n), n, false, t) },
	"fillsync": func(db *leveldb.DB, n uint64, t *tally) error {
		return putEach(db, drawn(written, n), syncedWrites, true, t)
	},
	"overwrite":    func(db *leveldb.DB, n uint64, t *tally) error { return putEach(db, drawn(rewritten, n), n, false, t) },
	"deleterandom": func(db *leveldb.DB, n uint64, t *tally) error { return deleteEach(db, drawn(rewritten, n), n, t) },
	"readrandom":   func(db *leveldb.DB, n uint64, t *tally) error { return getEach(db, drawn(read, n).nextKey, n, t) },
	"readmissing":  func(db *leveldb.DB, n uint64, t *tally) error { return getEach(db, drawn(read, n).nextMissing, n, t) },
	"readnear":     func(db *leveldb.DB, n uint64, t *tally) error { return getEach(db, drawn(read, n).nextNear, n, t) },
	"readhot":      func(db *leveldb.DB, n uint64, t *tally) error { return getEach(db, drawn(read, n/100).nextKey, n, t) },
	"seekrandom":   func(db *leveldb.DB, n uint64, t *tally) error { return seekEach(db, drawn(read, n), n/10, t) },
	"readseq": func(db *leveldb.DB, _ uint64, t *tally) error {
		return walk(db, iterator.Iterator.First, iterator.Iterator.Next, t)
	},
	"readreverse": func(db *leveldb.DB, _ uint64, t *tally) error {
		return walk(db, iterator.Iterator.Last, iterator.Iterator.Prev, t)
	},
	"settle": func(db *leveldb.DB, _ uint64, _ *tally) error { return db.CompactRange(util.Range{}) },
	"open":   func(*leveldb.DB, uint64, *tally) error { return nil },
}

// ---- one run

func run(todo workload, number uint64, folder string, t *tally) error {
	db, err := leveldb.OpenFile(folder, &opt.Options{
		WriteBuffer:         4 << 20,
		BlockSize:           4096,
		CompactionTableSize: 2097152,
		CompactionTotalSize: 10485760,
		CompactionL0Trigger: 4,
		BlockCacheCapacity:  8 << 20,
		Filter:              filter.NewBloomFilter(10),
		Compression:         opt.NoCompression,
		Strict:              opt.DefaultStrict,
	})
	if err != nil {
		return err
	}
	err = todo(db, number, t)
	if closed := db.Close(); err == nil {
		err = closed
	}
	return err
}

func main() {
	if len(os.Args) != 4 {
		misuse()
	}
	name, folder := os.Args[1], os.Args[3]
	todo, known := workloads[name]
	number, err := strconv.ParseUint(os.Args[2], 10, 64)
	if !known || err != nil || number == 0 {
		misuse()
	}
	if file, err := os.Stat(folder); err != nil || !file.IsDir() {
		fmt.Fprintf(os.Stderr, "goleveldb_twin: %s: there is no such folder\n", folder)
		os.Exit(1)
	}
	var t tally
	if err := run(todo, number, folder, &t); err != nil {
		fmt.Fprintf(os.Stderr, "goleveldb_twin: %s: %v\n", name, err)
		os.Exit(1)
	}
	fmt.Printf("%s %d entries=%d sum=%d\n", name, number, t.entries, t.sum)
}

func misuse() {
	fmt.Fprintln(os.Stderr, "usage: goleveldb_twin WORKLOAD N DIR, N from 1 on")
	os.Exit(2)
}
