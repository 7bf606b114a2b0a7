package agent

import (
	"encoding/json"
	"sync"
	"time"

	"fdbrec/service/internal/names"
	"fdbrec/service/internal/raw"
)

// asks are what a proxy or a recoverer wants to be told. Each leaves at once, and again after a while that doubles.
//
// That an ask leaves once for each time that it is due, and not for each answer that still names it, is what keeps a
// cluster alive: a chosen recoverer names its marks for ever, one to each log, and hears an answer to each. If each
// answer sent them all again, one message would become m, and soon nothing else would come through.
type asks struct {
	pause time.Duration
	send  func(*wanted)
	mutex sync.Mutex
	its   map[uint64]*wanted
	held  map[uint64]bool // marks of a chosen recoverer that their logs hold
}

type wanted struct {
	to    names.Node
	ask   json.RawMessage
	due   time.Time
	pause time.Duration
}

// longestPause is short beside the time in which a node comes back: who waits for it must not wait as long again.
const longestPause = 200 * time.Millisecond

// want takes all that the node wants now. What is new leaves; what is no longer wanted is forgotten.
func (a *asks) want(list [][2]json.RawMessage) {
	its := map[uint64]*wanted{}
	var fresh []*wanted
	a.mutex.Lock()
	for _, each := range list {
		key := hashed(each[0], each[1])
		if a.held[key] {
			continue
		}
		old := a.its[key]
		if old == nil {
			old = &wanted{ask: each[1], pause: a.pause}
			if err := json.Unmarshal(each[0], &old.to); err != nil {
				continue
			}
			old.due = time.Now().Add(old.pause)
			fresh = append(fresh, old)
		}
		its[key] = old
	}
	a.its = its
	a.mutex.Unlock()
	for _, each := range fresh {
		a.send(each)
	}
}

// again sends what is due.
func (a *asks) again(now time.Time) {
	var due []*wanted
	a.mutex.Lock()
	for _, each := range a.its {
		if now.After(each.due) {
			if each.pause *= 2; each.pause > longestPause {
				each.pause = longestPause
			}
			each.due = now.Add(each.pause)
			due = append(due, each)
		}
	}
	a.mutex.Unlock()
	for _, each := range due {
		a.send(each)
	}
}

// isHeld forgets the mark for a log that holds it: a chosen recoverer goes on naming it.
func (a *asks) isHeld(from names.Node, tell json.RawMessage) {
	if raw.Member(tell, "held") == nil {
		return
	}
	a.mutex.Lock()
	defer a.mutex.Unlock()
	for key, each := range a.its {
		if each.to == from {
			if a.held == nil {
				a.held = map[uint64]bool{}
			}
			a.held[key] = true
			delete(a.its, key)
		}
	}
}

func (a *asks) isEmpty() bool {
	a.mutex.Lock()
	defer a.mutex.Unlock()
	return len(a.its) == 0
}
