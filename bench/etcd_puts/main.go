// Command etcd_puts puts keys of 16 bytes and values of 100 into etcd: so many clients, each of which puts the next key
// once the last one is acknowledged. It prints what `fdbrec-service bench` prints. bench/etcd runs both.
package main

import (
	"context"
	"flag"
	"fmt"
	"math/rand"
	"os"
	"sort"
	"strings"
	"sync"
	"time"

	"go.etcd.io/etcd/clientv3"
	"google.golang.org/grpc/grpclog"
)

type run struct {
	mutex  sync.Mutex
	times  []float64
	failed map[string]int
	trace  *os.File
}

func main() {
	endpoints := flag.String("endpoints", "", "")
	clients := flag.Int("clients", 1, "")
	conns := flag.Int("conns", 1, "connections, which the clients share")
	seconds := flag.Float64("seconds", 3, "")
	within := flag.Duration("within", time.Second, "how long a put is waited for")
	trace := flag.String("trace", "", "a file for when each acknowledged put began and ended, in nanoseconds")
	flag.Parse()
	clientv3.SetLogger(grpclog.NewLoggerV2(nowhere{}, nowhere{}, nowhere{}))
	its := &run{failed: map[string]int{}}
	if *trace != "" {
		var err error
		if its.trace, err = os.OpenFile(*trace, os.O_WRONLY|os.O_CREATE|os.O_APPEND, 0o644); err != nil {
			end(err)
		}
	}
	var all []*clientv3.Client
	for at := 0; at < *conns; at++ {
		c, err := clientv3.New(clientv3.Config{Endpoints: strings.Split(*endpoints, ","), DialTimeout: 5 * time.Second})
		if err != nil {
			end(err)
		}
		all = append(all, c)
	}
	began := time.Now()
	until := began.Add(time.Duration(*seconds * float64(time.Second)))
	var wait sync.WaitGroup
	for at := 0; at < *clients; at++ {
		wait.Add(1)
		go func(at int) {
			defer wait.Done()
			its.puts(all[at%len(all)], rand.New(rand.NewSource(began.UnixNano()+int64(at))), until, *within)
		}(at)
	}
	wait.Wait()
	its.print(*clients, time.Since(began))
}

func (r *run) puts(c *clientv3.Client, dice *rand.Rand, until time.Time, within time.Duration) {
	key, value := make([]byte, 16), make([]byte, 100)
	for time.Now().Before(until) {
		dice.Read(key)
		dice.Read(value)
		ctx, done := context.WithTimeout(context.Background(), within)
		start := time.Now()
		_, err := c.Put(ctx, string(key), string(value))
		ended := time.Now()
		done()
		r.mutex.Lock()
		if err != nil {
			r.failed[fmt.Sprintf("%.40s", err.Error())]++
		} else {
			r.times = append(r.times, ended.Sub(start).Seconds()*1000)
			if r.trace != nil {
				fmt.Fprintln(r.trace, start.UnixNano(), ended.UnixNano())
			}
		}
		r.mutex.Unlock()
		if err != nil {
			time.Sleep(time.Millisecond)
		}
	}
}

func (r *run) print(clients int, took time.Duration) {
	sort.Float64s(r.times)
	of := func(share float64) float64 {
		if len(r.times) == 0 {
			return 0
		}
		return r.times[int(share*float64(len(r.times)-1))]
	}
	count := 0
	for _, each := range r.failed {
		count += each
	}
	fmt.Printf("clients %d commits %d failed %d per_s %.0f p50_ms %.2f p99_ms %.2f\n", clients, len(r.times), count,
		float64(len(r.times))/took.Seconds(), of(0.5), of(0.99))
}

type nowhere struct{}

func (nowhere) Write(text []byte) (int, error) { return len(text), nil }

func end(err error) {
	fmt.Fprintln(os.Stderr, "etcd_puts:", err)
	os.Exit(1)
}
