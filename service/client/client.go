// Package client puts to a cluster and reads from it.
//
// A put is one list of mutations that commits whole. Beside them the client writes a key of its own session with the
// number of the put, so that it can tell what became of a put whose answer was lost: it reads that key once the epoch of
// the put has ended. A put that was not committed is then made again, under the same number.
package client

import (
	"context"
	"crypto/rand"
	"encoding/hex"
	"encoding/json"
	"errors"
	"fmt"
	"sort"
	"strconv"
	"sync"
	"sync/atomic"
	"time"

	"fdbrec/service/internal/bus"
	"fdbrec/service/internal/config"
	"fdbrec/service/internal/wire"
)

// Sessions are the prefixes of the keys that clients keep, \x00/session/ and \xff/session/: the first is in the first
// shard, the other one mostly in the last. A put writes the one that is in its own shard, if either is: then no more logs
// and storage servers have to do with it than without.
var Sessions = wire.Sessions

// ErrNoCluster says that no machine of the cluster answered in time: nothing was done.
var ErrNoCluster = errors.New("the cluster does not answer")

// ErrUnknown says that the time was over before it was known whether a put was committed.
var ErrUnknown = errors.New("whether it was committed is not known")

// Version is where a commit stands: versions of one epoch rise, and those of a later epoch come later.
type Version struct {
	Epoch   uint64
	Version uint64
}

// Mutation is a change: a Set, a Clear, an Add.
type Mutation = json.RawMessage

// Set has a key hold a value.
func Set(key, value []byte) Mutation {
	return wire.Mutation("set", hex.EncodeToString(key), hex.EncodeToString(value))
}

// Clear removes the keys from begin up to end.
func Clear(begin, end []byte) Mutation {
	return wire.Mutation("clear", hex.EncodeToString(begin), hex.EncodeToString(end))
}

// Add adds to a number, little-endian, of as many bytes as the parameter has.
func Add(key, param []byte) Mutation {
	return wire.Mutation("add", hex.EncodeToString(key), hex.EncodeToString(param))
}

// Client is a connection to a cluster. It may be used by several at once.
type Client struct {
	config *config.Config
	bus    *bus.Bus
	mutex  sync.Mutex
	newest *wire.Epoch
	later  chan struct{} // closed when a newer epoch is known
	slots  []*slot
	end    func()
	id     string
	made   int
	next   uint64
	width  uint64 // of how many proxies it uses
	least  uint64 // and at least

	isAsking int32 // 1 while it asks who knows the newest epoch
}

// few is of how many proxies a client uses at first. A log syncs once for each batch, so that few proxies with large
// batches commit more than many with small ones; two, so that one batch is numbered while the other one is synced.
const few = 2

// slot numbers puts that follow one another: each put that is under way has one. Its key is without a prefix.
type slot struct {
	key    string
	number uint64
}

// Connect connects to the cluster that a file describes. It waits for a broker until the context's deadline.
func Connect(ctx context.Context, path string) (*Client, error) {
	its, err := config.Read(path)
	if err != nil {
		return nil, err
	}
	return Open(ctx, its)
}

// Open connects to a cluster whose file was read.
func Open(ctx context.Context, its *config.Config) (*Client, error) {
	random := make([]byte, 8)
	if _, err := rand.Read(random); err != nil {
		return nil, err
	}
	c := &Client{config: its, id: hex.EncodeToString(random), next: uint64(random[0]), width: few, least: few,
		later: make(chan struct{})}
	var err error
	for {
		c.bus, err = bus.Connect(its, "client-"+c.id, its.Nkey, nil, time.Second)
		if err == nil || ctx.Err() != nil {
			break
		}
		select {
		case <-ctx.Done():
		case <-time.After(100 * time.Millisecond):
		}
		if ctx.Err() != nil {
			break
		}
	}
	if err != nil {
		return nil, fmt.Errorf("%w: %v", ErrNoCluster, err)
	}
	c.end, err = c.bus.Hear("", func(m *bus.Received) {
		var told wire.Epoch
		if json.Unmarshal(m.Data, &told) == nil {
			c.learn(&told)
		}
	}, "epoch")
	return c, err
}

// Refused is what the broker refused last, as messages that the key may not publish; or nil.
func (c *Client) Refused() error { return c.bus.Why() }

// Close ends the connection. The keys of the session are cleared, if that can be done at once.
func (c *Client) Close() {
	c.mutex.Lock()
	made := c.made
	c.mutex.Unlock()
	if made > 0 {
		ctx, done := context.WithTimeout(context.Background(), 500*time.Millisecond)
		epoch, err := c.epoch(ctx, 0)
		if err == nil {
			var told wire.Submitted
			var its []Mutation
			for _, prefix := range Sessions {
				its = append(its, wire.Mutation("clear", prefix+c.id, prefix+c.id+"ff"))
			}
			_ = c.submit(ctx, epoch, 0, c.id, its, &told)
		}
		done()
	}
	if c.end != nil {
		c.end()
	}
	c.bus.Close()
}

func (c *Client) learn(its *wire.Epoch) {
	c.bus.Clock.See(its.At)
	c.mutex.Lock()
	defer c.mutex.Unlock()
	if len(its.State.Gens) > 0 && (c.newest == nil || its.Epoch > c.newest.Epoch) {
		c.newest, c.width = its, c.least
		close(c.later)
		c.later = make(chan struct{})
	}
}

// whileIn makes a context for a request to a proxy of an epoch: it ends after a time, or soon after a newer epoch is
// known, since its proxy may then be gone.
func (c *Client) whileIn(ctx context.Context, epoch uint64, most time.Duration) (context.Context, func()) {
	one, done := context.WithTimeout(ctx, most)
	c.mutex.Lock()
	later, isOver := c.later, c.newest != nil && c.newest.Epoch > epoch
	c.mutex.Unlock()
	go func() {
		if !isOver {
			select {
			case <-one.Done():
				return
			case <-later:
			}
		}
		_ = pause(one, nil) // (its agent may be about to say what became of it)
		done()
	}()
	return one, done
}

// epoch is the newest epoch that is known, once that is above another one.
func (c *Client) epoch(ctx context.Context, above uint64) (uint64, error) {
	for {
		c.mutex.Lock()
		later := c.later
		c.mutex.Unlock()
		if newest, _ := c.known(); newest > above {
			return newest, nil
		}
		go c.askWho()
		select {
		case <-later:
		case <-ctx.Done():
			return 0, fmt.Errorf("%w: %v", ErrNoCluster, ctx.Err())
		case <-time.After(100 * time.Millisecond):
		}
	}
}

// askWho asks for the newest epoch, once for all that wait. A new one is told unasked, too, but a message can be lost.
func (c *Client) askWho() {
	if !atomic.CompareAndSwapInt32(&c.isAsking, 0, 1) {
		return
	}
	defer atomic.StoreInt32(&c.isAsking, 0)
	_ = c.bus.Collect(100*time.Millisecond, struct{}{}, func(data []byte) {
		var told wire.Epoch
		if json.Unmarshal(data, &told) == nil {
			c.learn(&told)
		}
	}, "who")
}

func (c *Client) submit(ctx context.Context, epoch, proxy uint64, id string, its []Mutation, told *wire.Submitted) error {
	ask := wire.Submit{ID: id, Mutations: its, At: c.bus.Clock.Now()}
	err := c.bus.Ask(ctx, ask, told, "submit", strconv.FormatUint(epoch, 10), strconv.FormatUint(proxy, 10))
	if err == nil {
		c.bus.Clock.See(told.At)
		if told.IsCrowded {
			c.widen()
		}
	}
	return err
}

func (c *Client) slot() *slot {
	c.mutex.Lock()
	defer c.mutex.Unlock()
	if count := len(c.slots); count > 0 {
		its := c.slots[count-1]
		c.slots = c.slots[:count-1]
		return its
	}
	c.made++
	return &slot{key: c.id + fmt.Sprintf("%04x", c.made)}
}

func (c *Client) free(its *slot) {
	c.mutex.Lock()
	defer c.mutex.Unlock()
	c.slots = append(c.slots, its)
}

// Commit commits mutations, all or none, and says at which version. If the context ends first the error says whether
// nothing was done (ErrNoCluster) or nobody knows (ErrUnknown).
func (c *Client) Commit(ctx context.Context, its ...Mutation) (Version, error) {
	slot := c.slot()
	slot.number++
	number := fmt.Sprintf("%016x", slot.number)
	// (an empty list is committed as well if it is committed twice)
	key, whole := "", append([]Mutation(nil), its...)
	if len(its) > 0 {
		key = c.session(its[0]) + slot.key
		whole = append(whole, wire.Mutation("set", key, number))
	}
	above := uint64(0)
	for {
		epoch, err := c.epoch(ctx, above)
		if err != nil {
			c.free(slot)
			return Version{}, err
		}
		found, again, err := c.try(ctx, epoch, attempt{slot.key + number, key, number, whole})
		if !again {
			if !errors.Is(err, ErrUnknown) {
				c.free(slot) // (else a later put must not be taken for this one)
			}
			return found, err
		}
		if err != nil {
			above = epoch
		}
	}
}

// session is the prefix that is in the shard of a mutation's first key, or else the first one.
func (c *Client) session(its Mutation) string {
	for _, each := range Sessions {
		if c.tag(each) == c.tag(wire.FirstKey(its)) {
			return each
		}
	}
	return Sessions[0]
}

// tag is the shard of a key.
func (c *Client) tag(key string) int { return sort.SearchStrings(c.config.Shards, key+"\x00") - 1 }

// proxy is one of the proxies of an epoch.
func (c *Client) proxy() uint64 {
	c.mutex.Lock()
	defer c.mutex.Unlock()
	c.next++
	if c.width < c.config.Proxies {
		return c.next % c.width
	}
	return c.next % c.config.Proxies
}

// Spread has the client use at least so many proxies, of those that there are.
func (c *Client) Spread(least uint64) {
	c.mutex.Lock()
	defer c.mutex.Unlock()
	if least > c.least {
		c.least = least
	}
	if c.width < c.least {
		c.width = c.least
	}
}

// widen uses one more proxy: those that it uses have more than one batch takes.
func (c *Client) widen() {
	c.mutex.Lock()
	defer c.mutex.Unlock()
	if c.width < c.config.Proxies {
		c.width++
	}
}

// known is the newest epoch that is known, and the version through which it took over.
func (c *Client) known() (uint64, uint64) {
	c.mutex.Lock()
	defer c.mutex.Unlock()
	if c.newest == nil {
		return 0, 0
	}
	return c.newest.Epoch, c.newest.Rv
}

// Put has a key hold a value.
func (c *Client) Put(ctx context.Context, key, value []byte) (Version, error) {
	return c.Commit(ctx, Set(key, value))
}

// Value is what a read found.
type Value struct {
	Bytes   []byte
	IsThere bool
	At      Version
	Settled bool // no recovery takes it back
}

// Get reads a key as of all that was acknowledged before: it commits an empty list first, and reads at that version.
func (c *Client) Get(ctx context.Context, key []byte) (Value, error) {
	at, err := c.Commit(ctx)
	if err != nil {
		return Value{}, fmt.Errorf("%w in time: no version to read at", ErrNoCluster)
	}
	return c.GetAfter(ctx, key, at)
}

// GetAfter reads a key at a version, or a later one.
func (c *Client) GetAfter(ctx context.Context, key []byte, at Version) (Value, error) {
	return c.got(c.ask(ctx, wire.Read{Key: hex.EncodeToString(key), Mode: "after", Epoch: at.Epoch, Version: at.Version}))
}

// GetStale reads a key where its storage server is. A recovery may take back what it finds.
func (c *Client) GetStale(ctx context.Context, key []byte) (Value, error) {
	return c.got(c.ask(ctx, wire.Read{Key: hex.EncodeToString(key), Mode: "stale"}))
}

// GetSettled reads a key at the last version that no recovery takes back.
func (c *Client) GetSettled(ctx context.Context, key []byte) (Value, error) {
	return c.got(c.ask(ctx, wire.Read{Key: hex.EncodeToString(key), Mode: "settled"}))
}

func (c *Client) got(its wire.Got, err error) (Value, error) {
	if err != nil {
		return Value{}, err
	}
	found := Value{IsThere: its.Value != nil, At: Version{its.Epoch, its.Version}, Settled: its.Version <= its.Floor}
	if its.Value != nil {
		found.Bytes, err = hex.DecodeString(*its.Value)
	}
	return found, err
}

// ask asks the storage server of a key, again and again until the context ends.
func (c *Client) ask(ctx context.Context, its wire.Read) (wire.Got, error) {
	tag := c.tag(its.Key)
	its.Within = 500
	last := ErrNoCluster
	for {
		var told wire.Got
		one, done := context.WithTimeout(ctx, time.Second)
		its.At = c.bus.Clock.Now()
		err := c.bus.Ask(one, its, &told, "read", strconv.Itoa(tag))
		done()
		if err == nil && told.Refused == "" {
			c.bus.Clock.See(told.At)
			return told, nil
		}
		if err == nil {
			last = errors.New(told.Refused)
		}
		_ = pause(ctx, nil)
		if ctx.Err() != nil {
			return wire.Got{}, fmt.Errorf("%w: %v", last, ctx.Err())
		}
	}
}
