package report

import (
	"sort"
	"sync"
	"time"
)

// Counts are numbers by name that only grow.
type Counts struct {
	mutex sync.Mutex
	its   map[string]uint64
}

// Add adds to a count.
func (c *Counts) Add(name string, more uint64) {
	c.mutex.Lock()
	defer c.mutex.Unlock()
	if c.its == nil {
		c.its = map[string]uint64{}
	}
	c.its[name] += more
}

// All are all counts, as they are now.
func (c *Counts) All() map[string]uint64 {
	c.mutex.Lock()
	defer c.mutex.Unlock()
	found := map[string]uint64{}
	for name, count := range c.its {
		found[name] = count
	}
	return found
}

const kept = 512

// Times keeps the last times of something, and says their percentiles.
type Times struct {
	mutex sync.Mutex
	its   [kept]time.Duration
	count int
}

// Add adds a time.
func (t *Times) Add(its time.Duration) {
	t.mutex.Lock()
	defer t.mutex.Unlock()
	t.its[t.count%kept] = its
	t.count++
}

// Percentile is the time, in milliseconds, that this share of the last times did not exceed.
func (t *Times) Percentile(share float64) float64 {
	t.mutex.Lock()
	count := t.count
	if count > kept {
		count = kept
	}
	sorted := append([]time.Duration(nil), t.its[:count]...)
	t.mutex.Unlock()
	if count == 0 {
		return 0
	}
	sort.Slice(sorted, func(a, b int) bool { return sorted[a] < sorted[b] })
	return float64(sorted[int(share*float64(count-1))]) / float64(time.Millisecond)
}
