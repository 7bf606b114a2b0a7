package main

import (
	"context"
	"errors"
	"fmt"
	"math"
	"os"
	"sort"
	"strconv"
	"strings"
	"sync"
	"sync/atomic"
	"time"

	"fdbrec/service/client"
)

// run is a bench: what its clients are to do, and what they did.
type run struct {
	keys  int // that each commit sets
	bytes int // that each value has
	left  int64
	end   time.Time
	began time.Time

	mutex  sync.Mutex
	times  []float64
	ends   []time.Time
	failed map[string]int
	acks   *os.File
	trace  *os.File
}

// number reads an option that is a number, or takes the usual one if it is not given.
func (w *words) number(name string, usual, least, most int64) (int64, error) {
	text, is := w.options[name]
	if !is {
		return usual, nil
	}
	found, err := strconv.ParseInt(text, 10, 64)
	if err != nil || found < least || found > most {
		return 0, bad("--%s: found %q, wanted a number from %d to %d", name, text, least, most)
	}
	return found, nil
}

// asked is what the words ask a bench for.
func (w *words) asked() (its *run, clients, proxies int64, err error) {
	its = &run{failed: map[string]int{}, left: math.MaxInt64, began: time.Now()}
	seconds := math.Inf(1)
	if text, is := w.options["seconds"]; is {
		if seconds, err = strconv.ParseFloat(text, 64); err != nil || !(seconds > 0 && seconds <= 1e9) {
			return nil, 0, 0, bad("--seconds: found %q, wanted a number above 0", text)
		}
	} else if w.options["commits"] == "" {
		return nil, 0, 0, bad("bench wants --seconds or --commits")
	} else {
		seconds = 1e9
	}
	its.end = its.began.Add(time.Duration(seconds * float64(time.Second)))
	if its.left, err = w.number("commits", its.left, 1, math.MaxInt64); err != nil {
		return nil, 0, 0, err
	}
	if clients, err = w.number("clients", 0, 1, 1000); err != nil {
		return nil, 0, 0, err
	}
	if clients == 0 {
		return nil, 0, 0, bad("bench wants --clients, a number from 1 to 1000")
	}
	// (a batch has at most 1000 mutations, and one of them is the client's own)
	keys, err := w.number("keys", 1, 1, 999)
	if err != nil {
		return nil, 0, 0, err
	}
	its.keys = int(keys)
	bytes, err := w.number("bytes", 100, 1, 100000)
	if err != nil {
		return nil, 0, 0, err
	}
	its.bytes = int(bytes)
	proxies, err = w.number("proxies", 0, 1, 16)
	return its, clients, proxies, err
}

func bench(w *words) error {
	its, clients, proxies, err := w.asked()
	if err != nil {
		return err
	}
	if path := w.options["acks"]; path != "" {
		if its.acks, err = os.OpenFile(path, os.O_WRONLY|os.O_CREATE|os.O_APPEND, 0o644); err != nil {
			return err
		}
	}
	if path := w.options["trace"]; path != "" {
		if its.trace, err = os.OpenFile(path, os.O_WRONLY|os.O_CREATE|os.O_APPEND, 0o644); err != nil {
			return err
		}
	}
	c, _, done, err := w.clientOf(0, 0)
	if err != nil {
		return err
	}
	defer done()
	c.Spread(uint64(proxies))
	var all sync.WaitGroup
	for at := 0; at < int(clients); at++ {
		all.Add(1)
		go func(at int) { defer all.Done(); its.puts(c, at) }(at)
	}
	all.Wait()
	its.print(int(clients), time.Since(its.began))
	return nil
}

// puts commits keys of a client's own, one commit after another. A key is 16 bytes, half of them in each half of the keys.
func (r *run) puts(c *client.Client, at int) {
	value := []byte(strings.Repeat("v", r.bytes))
	first := r.began.UnixNano() / 1000
	for count := 0; time.Now().Before(r.end) && atomic.AddInt64(&r.left, -1) >= 0; {
		var keys []string
		var its []client.Mutation
		for len(keys) < r.keys {
			key := fmt.Sprintf("%c%03x%012x", "am"[count%2], at, uint64(first+int64(count))&0xffffffffffff)
			keys, its = append(keys, key), append(its, client.Set([]byte(key), value))
			count++
		}
		ctx, done := context.WithTimeout(context.Background(), 30*time.Second)
		start := time.Now()
		_, err := c.Commit(ctx, its...)
		done()
		r.enter(keys, start, err)
	}
}

// enter notes what became of a commit.
func (r *run) enter(keys []string, start time.Time, err error) {
	r.mutex.Lock()
	defer r.mutex.Unlock()
	if err != nil {
		r.failed[reason(err)]++
		return
	}
	ended := time.Now()
	r.times = append(r.times, ended.Sub(start).Seconds()*1000)
	r.ends = append(r.ends, ended)
	if r.acks != nil {
		fmt.Fprintln(r.acks, strings.Join(keys, "\n"))
	}
	if r.trace != nil {
		fmt.Fprintln(r.trace, start.UnixNano(), ended.UnixNano())
	}
}

func reason(err error) string {
	switch {
	case errors.Is(err, client.ErrUnknown):
		return "unknown"
	case errors.Is(err, client.ErrNoCluster):
		return "no cluster"
	}
	return err.Error()
}

func (r *run) print(clients int, took time.Duration) {
	sort.Float64s(r.times)
	sort.Slice(r.ends, func(a, b int) bool { return r.ends[a].Before(r.ends[b]) })
	gap := 0.0
	for at := 1; at < len(r.ends); at++ {
		if its := r.ends[at].Sub(r.ends[at-1]).Seconds(); its > gap {
			gap = its
		}
	}
	of := func(share float64) float64 {
		if len(r.times) == 0 {
			return 0
		}
		return r.times[int(share*float64(len(r.times)-1))]
	}
	fmt.Printf("clients %d commits %d failed %v per_s %.0f p50_ms %.2f p99_ms %.2f max_gap_s %.2f\n", clients, len(r.times),
		r.failed, float64(len(r.times))/took.Seconds(), of(0.5), of(0.99), gap)
}
