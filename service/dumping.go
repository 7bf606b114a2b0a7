package main

import (
	"bufio"
	"context"
	"encoding/hex"
	"encoding/json"
	"fmt"
	"io"
	"os"
	"time"

	"fdbrec/service/client"
	"fdbrec/service/internal/wire"
)

// dump has each shard's rows written down on the machine of its storage server.
func dump(w *words) error {
	if w.options["within"] == "" {
		w.options["within"] = "10m"
	}
	its, err := w.config()
	if err != nil {
		return err
	}
	c, ctx, done, err := w.clientOf(0, 0)
	if err != nil {
		return err
	}
	defer done()
	for shard := range its.Shards {
		found, err := c.Dump(ctx, shard)
		if err != nil {
			return err
		}
		fmt.Printf("shard %d epoch %d version %d rows %d: %s on %s\n", shard, found.At.Epoch, found.At.Version, found.Rows,
			found.Path, found.Machine)
	}
	return nil
}

// mostRows is how many rows a commit of load has at most.
const mostRows = 500

// load puts the rows of dumps.
func load(w *words) error {
	if len(w.rest) == 0 {
		return bad("load wants files that dump wrote")
	}
	// (all are looked at before any row is put)
	for _, path := range w.rest {
		if _, err := readDump(path, func(key, value []byte) error { return nil }); err != nil {
			return err
		}
	}
	paths := w.rest
	w.rest = nil
	config, err := w.config()
	if err != nil {
		return err
	}
	c, _, done, err := w.clientOf(0, 0)
	if err != nil {
		return err
	}
	defer done()
	for _, path := range paths {
		its := &loading{client: c, most: config.BatchBytes() / 2}
		count, err := readDump(path, its.take)
		if err == nil {
			err = its.commit()
		}
		if err != nil {
			return fmt.Errorf("%s: %v", path, err)
		}
		fmt.Printf("%s: %d rows are put\n", path, count)
	}
	return nil
}

// loading has the rows that wait for the next commit.
type loading struct {
	client *client.Client
	its    []client.Mutation
	size   int
	most   int // how many bytes a commit is to have
}

func (l *loading) take(key, value []byte) error {
	one := client.Set(key, value)
	if len(l.its) == mostRows || len(l.its) > 0 && l.size+len(one) > l.most {
		if err := l.commit(); err != nil {
			return err
		}
	}
	l.its, l.size = append(l.its, one), l.size+len(one)
	return nil
}

func (l *loading) commit() error {
	if len(l.its) == 0 {
		return nil
	}
	ctx, done := context.WithTimeout(context.Background(), time.Minute)
	defer done()
	_, err := l.client.Commit(ctx, l.its...)
	l.its, l.size = nil, 0
	return err
}

// readDump hands out the rows of a dump, and says how many they are: as many as its first line says.
func readDump(path string, take func(key, value []byte) error) (uint64, error) {
	file, err := os.Open(path)
	if err != nil {
		return 0, err
	}
	defer func() { _ = file.Close() }()
	lines := bufio.NewReaderSize(file, 1<<20)
	var head *wire.DumpHead
	count := uint64(0)
	for {
		line, err := lines.ReadBytes('\n')
		if err == io.EOF && len(line) == 0 {
			break
		}
		if err != nil {
			return 0, fmt.Errorf("%s: the last line is cut off", path)
		}
		if head == nil {
			if err := json.Unmarshal(line, &head); err != nil || head == nil || head.Epoch == 0 {
				return 0, fmt.Errorf("%s:1: no first line of a dump", path)
			}
			continue
		}
		key, value, err := rowOf(line)
		if err != nil {
			return 0, fmt.Errorf("%s:%d: no row of a dump: %v", path, count+2, err)
		}
		if err := take(key, value); err != nil {
			return 0, err
		}
		count++
	}
	if head == nil || head.Rows != count {
		return 0, fmt.Errorf("%s: %d rows, and its first line says another number", path, count)
	}
	return count, nil
}

func rowOf(line []byte) (key, value []byte, err error) {
	var pair []string
	if err = json.Unmarshal(line, &pair); err == nil && len(pair) != 2 {
		err = fmt.Errorf("it has %d members", len(pair))
	}
	if err == nil {
		key, err = hex.DecodeString(pair[0])
	}
	if err == nil {
		value, err = hex.DecodeString(pair[1])
	}
	return key, value, err
}
