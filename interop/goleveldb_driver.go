// goleveldb behind a small command line, for interop/other_tools, with goleveldb's own options.
//
//	goleveldb_driver look DIR        opens a database, or makes one, and prints its pairs in hexadecimal, one line each
//	goleveldb_driver readonly DIR    the same with ReadOnly
//	goleveldb_driver compact DIR     opens it and compacts all of it (CompactRange)
//	goleveldb_driver repair DIR      makes a database of the files that lie there (RecoverFile)
//	goleveldb_driver hold DIR        opens it, prints "held", and keeps it open until its input ends
//
// The status is 1 if goleveldb refuses, with its words on standard error, and 2 if the command line
// is wrong.
package main

import (
	"bufio"
	"fmt"
	"io"
	"os"

	"github.com/syndtr/goleveldb/leveldb"
	"github.com/syndtr/goleveldb/leveldb/opt"
	"github.com/syndtr/goleveldb/leveldb/util"
)

func look(db *leveldb.DB) error {
	out := bufio.NewWriter(os.Stdout)
	defer out.Flush()
	pairs := db.NewIterator(nil, nil)
	defer pairs.Release()
	for pairs.Next() {
		fmt.Fprintf(out, "%x %x\n", pairs.Key(), pairs.Value())
	}
	return pairs.Error()
}

func compact(db *leveldb.DB) error { return db.CompactRange(util.Range{}) }

func hold(_ *leveldb.DB) error {
	fmt.Println("held")
	_, err := io.Copy(io.Discard, os.Stdin)
	return err
}

func nothing(_ *leveldb.DB) error { return nil }

func run(verb, folder string) error {
	todo, known := map[string]func(*leveldb.DB) error{
		"look": look, "readonly": look, "compact": compact, "repair": nothing, "hold": hold,
	}[verb]
	if !known {
		os.Exit(2)
	}
	open := leveldb.OpenFile
	if verb == "repair" {
		open = leveldb.RecoverFile
	}
	db, err := open(folder, &opt.Options{ReadOnly: verb == "readonly"})
	if err != nil {
		return err
	}
	err = todo(db)
	if closed := db.Close(); err == nil {
		err = closed
	}
	return err
}

func main() {
	if len(os.Args) != 3 {
		os.Exit(2)
	}
	if err := run(os.Args[1], os.Args[2]); err != nil {
		fmt.Fprintln(os.Stderr, err)
		os.Exit(1)
	}
}
