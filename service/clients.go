package main

import (
	"bufio"
	"context"
	"encoding/binary"
	"encoding/hex"
	"fmt"
	"os"
	"strconv"
	"strings"
	"time"

	"fdbrec/service/client"
)

// within makes a context that ends when the command has to.
func (w *words) within(usual time.Duration) (context.Context, func(), error) {
	its := usual
	if text := w.options["within"]; text != "" {
		var err error
		if its, err = time.ParseDuration(text); err != nil || its <= 0 {
			return nil, nil, bad("--within: found %q, wanted a time as 300ms or 5s", text)
		}
	}
	ctx, done := context.WithTimeout(context.Background(), its)
	return ctx, done, nil
}

// clientOf connects, for a command that takes so many words.
func (w *words) clientOf(least, most int) (*client.Client, context.Context, func(), error) {
	if len(w.rest) < least || len(w.rest) > most {
		return nil, nil, nil, bad("found %d words, wanted %d to %d: %s --help", len(w.rest), least, most, os.Args[0])
	}
	its, err := w.config()
	if err != nil {
		return nil, nil, nil, err
	}
	ctx, done, err := w.within(5 * time.Second)
	if err != nil {
		return nil, nil, nil, err
	}
	c, err := client.Open(ctx, its)
	if err != nil {
		done()
		return nil, nil, nil, err
	}
	end := func() {
		if why := c.Refused(); why != nil {
			fmt.Fprintln(os.Stderr, "the broker refused something:", why)
		}
		c.Close()
		done()
	}
	return c, ctx, end, nil
}

func (w *words) bytes(at int) ([]byte, error) {
	if w.options["hex"] == "" {
		return []byte(w.rest[at]), nil
	}
	its, err := hex.DecodeString(w.rest[at])
	if err != nil {
		return nil, bad("%q is no hex", w.rest[at])
	}
	return its, nil
}

// commit makes mutations of the words, commits them, and prints where.
func (w *words) commit(least, most int, make func() (client.Mutation, error)) error {
	if len(w.rest) < least || len(w.rest) > most {
		return bad("found %d words, wanted %d to %d: %s --help", len(w.rest), least, most, os.Args[0])
	}
	its, err := make()
	if err != nil {
		return err
	}
	c, ctx, done, err := w.clientOf(least, most)
	if err != nil {
		return err
	}
	defer done()
	at, err := c.Commit(ctx, its)
	if err == nil {
		fmt.Printf("committed: epoch %d version %d\n", at.Epoch, at.Version)
	}
	return err
}

func put(w *words) error {
	return w.commit(2, 2, func() (client.Mutation, error) {
		key, err := w.bytes(0)
		if err != nil {
			return nil, err
		}
		value, err := w.bytes(1)
		return client.Set(key, value), err
	})
}

func clearKeys(w *words) error {
	return w.commit(1, 2, func() (client.Mutation, error) {
		begin, err := w.bytes(0)
		if err != nil {
			return nil, err
		}
		end := append(append([]byte(nil), begin...), 0)
		if len(w.rest) == 2 {
			end, err = w.bytes(1)
		}
		return client.Clear(begin, end), err
	})
}

func add(w *words) error {
	return w.commit(2, 2, func() (client.Mutation, error) {
		key, err := w.bytes(0)
		if err != nil {
			return nil, err
		}
		number, err := strconv.ParseInt(w.rest[1], 10, 64)
		if err != nil {
			return nil, bad("%q is no number", w.rest[1])
		}
		param := make([]byte, 8)
		binary.LittleEndian.PutUint64(param, uint64(number))
		return client.Add(key, param), nil
	})
}

func (w *words) read(c *client.Client, ctx context.Context, key []byte) (client.Value, error) {
	switch {
	case w.options["settled"] != "":
		return c.GetSettled(ctx, key)
	case w.options["stale"] != "":
		return c.GetStale(ctx, key)
	}
	return c.Get(ctx, key)
}

func (w *words) show(its client.Value) {
	text := "none"
	if its.IsThere {
		text = string(its.Bytes)
		if w.options["hex"] != "" {
			text = hex.EncodeToString(its.Bytes)
		}
	}
	fmt.Println(text)
	fmt.Fprintf(os.Stderr, "epoch %d version %d settled %v\n", its.At.Epoch, its.At.Version, its.Settled)
}

func get(w *words) error {
	c, ctx, done, err := w.clientOf(1, 1)
	if err != nil {
		return err
	}
	defer done()
	key, err := w.bytes(0)
	if err != nil {
		return err
	}
	its, err := w.read(c, ctx, key)
	if err != nil {
		return err
	}
	w.show(its)
	if !its.IsThere {
		return &ending{1, "the key has no value"}
	}
	return nil
}

func watch(w *words) error {
	w.options["settled"] = "yes"
	if w.options["within"] == "" {
		w.options["within"] = "24000h"
	}
	c, ctx, done, err := w.clientOf(1, 1)
	if err != nil {
		return err
	}
	defer done()
	key, err := w.bytes(0)
	if err != nil {
		return err
	}
	stop, was := stopped(), "\x00"
	for ctx.Err() == nil {
		its, err := c.GetSettled(ctx, key)
		if now := fmt.Sprint(its.IsThere, string(its.Bytes)); err == nil && now != was {
			w.show(its)
			was = now
		}
		select {
		case <-stop:
			return nil
		case <-ctx.Done():
		case <-time.After(100 * time.Millisecond):
		}
	}
	return nil
}

// check reads each key that was acknowledged.
func check(w *words) error {
	file, err := os.Open(w.options["acks"])
	if err != nil {
		return bad("--acks: %v", err)
	}
	defer func() { _ = file.Close() }()
	w.options["within"] = "60s"
	c, ctx, done, err := w.clientOf(0, 0)
	if err != nil {
		return err
	}
	defer done()
	at, err := c.Commit(ctx)
	if err != nil {
		return err
	}
	found, missing := 0, []string{}
	for lines := bufio.NewScanner(file); lines.Scan(); {
		its, err := c.GetAfter(ctx, lines.Bytes(), at)
		if err != nil {
			return err
		}
		if found++; !its.IsThere {
			missing = append(missing, lines.Text())
		}
	}
	fmt.Printf("%d acknowledged, %d missing\n", found, len(missing))
	if len(missing) > 0 {
		return &ending{1, "missing: " + strings.Join(missing, " ")}
	}
	return nil
}
