package agent

import (
	"bytes"
	"encoding/json"
	"sync"
	"time"

	"fdbrec/service/internal/raw"
	"fdbrec/service/internal/wire"
)

// proxy is what an agent does for a proxy: clients' mutations that wait go into one batch, each client's list whole.
type proxy struct {
	node    *node
	mutex   sync.Mutex
	waiting []*submission
	open    []*submission
	number  uint64 // of the open batch; 0 if none is
	count   uint64
	since   time.Time
	request uint64 // the node's own number of the batch that it took last
	version uint64 // that the open batch was given; 0 before
	crowded bool   // more waited than the open batch took
	ended   bool
	moved   time.Time // when a batch was last committed
	settled bool      // whether an empty batch was since, so that the logs know of it
	known   map[string]*submission
	order   []string // the ids that are known, the oldest first
}

type submission struct {
	mutations []json.RawMessage
	size      int
	replies   []func(wire.Submitted)
	told      *wire.Submitted
}

// remembered is of how many submissions the outcome is remembered, for clients that ask again.
const remembered = 20000

func (s *submission) reply(its wire.Submitted) {
	for _, each := range s.replies {
		each(its)
	}
	s.replies, s.told, s.mutations = nil, &its, nil
}

const (
	mostWaiting = 10000
	settling    = 250 * time.Millisecond // after the last commit an empty batch tells the logs of it
)

// submit takes a client's mutations, or refuses them.
func (p *proxy) submit(its *wire.Submit, reply func(wire.Submitted)) {
	epoch := p.node.name.First
	if err := wire.JudgeMutations(its.Mutations); err != nil {
		reply(wire.Submitted{Refused: err.Error(), IsBad: true, Epoch: epoch})
		return
	}
	one := &submission{mutations: its.Mutations, replies: []func(wire.Submitted){reply}}
	for _, each := range its.Mutations {
		one.size += len(each) + 1
	}
	if most := p.node.agent.config.BatchBytes(); one.size > most {
		reply(wire.Submitted{Refused: "it has more bytes than a batch may have by max_payload and room", IsBad: true, Epoch: epoch})
		return
	}
	p.mutex.Lock()
	if p.isKnown(its.ID, reply) {
		p.mutex.Unlock()
		return
	}
	if p.ended || len(p.waiting) >= mostWaiting {
		p.mutex.Unlock()
		reply(wire.Submitted{Refused: "this proxy takes no more", Epoch: epoch})
		return
	}
	p.waiting = append(p.waiting, one)
	p.remember(its.ID, one)
	p.mutex.Unlock()
	p.begin()
}

// isKnown answers what came before under its id, or lets it be answered with that. The mutex is held.
func (p *proxy) isKnown(id string, reply func(wire.Submitted)) bool {
	was := p.known[id]
	if id == "" || was == nil {
		return false
	}
	if was.told != nil {
		reply(*was.told)
	} else {
		was.replies = []func(wire.Submitted){reply}
	}
	return true
}

func (p *proxy) remember(id string, one *submission) {
	if id == "" {
		return
	}
	if p.known == nil {
		p.known = map[string]*submission{}
	}
	p.known[id] = one
	if p.order = append(p.order, id); len(p.order) > remembered {
		delete(p.known, p.order[0])
		p.order = p.order[1:]
	}
}

// begin hands out the next batch, if none is under way.
func (p *proxy) begin() {
	if !p.node.isUp() || p.node.agent.newestEpoch() != p.node.name.First {
		return
	}
	p.mutex.Lock()
	defer p.mutex.Unlock()
	idle := p.count > 0 && !p.settled && time.Since(p.moved) > settling
	if p.ended || p.number != 0 || len(p.waiting) == 0 && !idle {
		return
	}
	size, count := 0, 0
	var its [][]byte
	for len(p.waiting) > 0 {
		one := p.waiting[0]
		if len(p.open) > 0 && (size+one.size > p.node.agent.config.BatchBytes() || count+len(one.mutations) > 1000) {
			break
		}
		for _, each := range one.mutations {
			its = append(its, each)
		}
		size, count = size+one.size, count+len(one.mutations)
		p.open, p.waiting = append(p.open, one), p.waiting[1:]
	}
	p.crowded = len(p.waiting) > 0
	p.settled = len(p.open) == 0
	p.count++
	p.number, p.since = p.count, time.Now()
	batch := json.RawMessage("[" + string(bytes.Join(its, []byte(","))) + "]")
	number := p.number
	line := &item{body: body{Type: "submit", Batch: batch, Step: 1}, done: func(its *answer) { p.submitted(number, its) }}
	if !p.node.put(line) {
		p.close(func(one *submission) wire.Submitted {
			return wire.Submitted{Refused: "this proxy takes no more"}
		})
	}
}

// submitted hears what the node said to a batch: if it refused it, nothing was done.
func (p *proxy) submitted(number uint64, its *answer) {
	if its == nil {
		return
	}
	p.mutex.Lock()
	defer p.mutex.Unlock()
	if its.Type != "error" {
		p.request++
		return
	}
	if p.number != number {
		return
	}
	p.ended = p.ended || its.Text == "Over"
	p.close(func(*submission) wire.Submitted {
		return wire.Submitted{Refused: "the proxy refused it: " + its.Text, IsBad: its.Code == 12}
	})
}

// close answers the open submissions. The mutex is held.
func (p *proxy) close(say func(*submission) wire.Submitted) {
	for _, one := range p.open {
		its := say(one)
		its.Epoch, its.At, its.IsCrowded = p.node.name.First, p.node.agent.bus.Clock.Now(), p.crowded
		one.reply(its)
	}
	p.open, p.number, p.version = nil, 0, 0
}

// numbered hears that the open batch was given a version.
func (p *proxy) numbered(tell json.RawMessage) {
	numbered := raw.Member(tell, "numbered")
	request, is := raw.Number(raw.Member(numbered, "request"))
	version, has := raw.Number(raw.Member(numbered, "version"))
	p.mutex.Lock()
	defer p.mutex.Unlock()
	if is && has && p.number != 0 && request == p.request {
		p.version = version
	}
}

// outcome hears what the node says of its batch.
func (p *proxy) outcome(name string, version uint64) {
	if name != "committed" && name != "ended" {
		return
	}
	epoch := p.node.name.First
	p.mutex.Lock()
	if name == "ended" {
		version = p.version
	}
	p.close(func(*submission) wire.Submitted {
		return wire.Submitted{Committed: name == "committed", Ended: name == "ended", Version: version}
	})
	if name == "committed" {
		p.moved = time.Now()
	} else {
		p.ended = true
		p.refuse()
	}
	p.mutex.Unlock()
	if name == "committed" {
		p.node.agent.bus.Counts.Add("batches committed", 1)
		p.node.agent.move(&wire.Moved{Epoch: epoch, Version: version})
		p.begin()
		return
	}
	p.node.agent.bus.Counts.Add("proxies ended", 1)
	p.node.set("ended", "a recovery ended its epoch")
}

// refuse answers those that wait: nothing was done of them. The mutex is held.
func (p *proxy) refuse() {
	for _, one := range p.waiting {
		one.reply(wire.Submitted{Refused: "this proxy takes no more", Epoch: p.node.name.First})
	}
	p.waiting = nil
}

// gone answers all: a recovery decides of what is open.
func (p *proxy) gone() {
	p.mutex.Lock()
	defer p.mutex.Unlock()
	p.ended = true
	version := p.version
	p.close(func(*submission) wire.Submitted { return wire.Submitted{Ended: true, Version: version} })
	p.refuse()
}

func (n *node) isUp() bool {
	n.mutex.Lock()
	defer n.mutex.Unlock()
	return n.state == "up"
}
