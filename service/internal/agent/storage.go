package agent

import (
	"encoding/json"
	"sync"
	"time"

	"fdbrec/service/internal/names"
	"fdbrec/service/internal/raw"
	"fdbrec/service/internal/wire"
)

// storage is what an agent does for a storage server: when it asks for records, and which reads wait.
type storage struct {
	node    *node
	turn    uint64
	asked   time.Time // when it was last asked what it wants
	asking  bool      // and whether it has not answered that
	eager   bool      // it wants more at once: there is more, or a read waits
	floor   uint64    // as it was when it was last asked
	raised  time.Time // and when that last changed
	popped  map[names.Node]uint64
	popping map[names.Node]time.Time
	pops    popStamps
	reads   []*read
	dumping sync.Mutex // held while a dump is made
}

type read struct {
	its   wire.Read
	reply string
	until time.Time
	tries int
}

const (
	idle     = 500 * time.Millisecond // between two pulls if nothing was committed
	trailing = 100 * time.Millisecond // if something was: what came meanwhile is one answer, and one sync
	popsOn   = 4 * popPause           // so long it goes on after its floor rose: each of its logs is to be popped
	behind   = 25 * time.Millisecond  // if the epoch is a newer one
	awaited  = 5 * time.Millisecond   // if a read waits for more, and nothing came of the last pull
	popPause = 400 * time.Millisecond // between two pops at one log
	whole    = 100                    // records in an answer: there may be more
)

// pull has the storage server say what it asks, if that is due.
func (s *storage) pull(now time.Time) {
	n := s.node
	newest, moved := n.agent.newestAndMoved()
	n.mutex.Lock()
	its := n.where.Storage
	if its == nil || n.state != "up" || s.asking && now.Sub(s.asked) < time.Second {
		n.mutex.Unlock()
		return
	}
	if its.Floor != s.floor {
		s.floor, s.raised = its.Floor, now
	}
	pause := idle
	switch isBehind := its.Epoch < newest.Epoch; {
	case !isBehind && its.Version >= moved && len(s.reads) == 0 && now.Sub(s.raised) > popsOn:
	case s.eager:
		pause = 0
	case len(s.reads) > 0:
		pause = awaited
	case isBehind:
		pause = behind
	default:
		pause = trailing
	}
	if now.Sub(s.asked) < pause {
		n.mutex.Unlock()
		return
	}
	line := body{Type: "wants", Turn: s.turn + 1, Newest: json.RawMessage("null")}
	if its.Epoch < newest.Epoch {
		line.Newest, _ = json.Marshal(map[string]uint64{"epoch": newest.Epoch, "logs": newest.Last().M})
	}
	s.turn, s.asked, s.asking, s.eager = s.turn+1, now, true, false
	n.mutex.Unlock()
	n.put(&item{body: line, done: s.wants})
}

// wants sends what it asks. A pop that brings nothing new, or comes soon after another one, is left out.
func (s *storage) wants(its *answer) {
	s.node.mutex.Lock()
	s.asking = false
	s.node.mutex.Unlock()
	if its == nil || its.Type == "error" {
		return
	}
	for _, each := range its.Wants {
		var to names.Node
		if json.Unmarshal(each[0], &to) != nil {
			continue
		}
		its := &wire.Message{Type: "ask", From: s.node.name, Ask: each[1]}
		if sort, _, _ := pushed(each[1]); sort == "pop" {
			if !s.mayPop(to) {
				continue
			}
			var err error
			if its.Until, err = s.pops.next(s.node.agent.bus.Clock.Now()); err != nil {
				s.node.agent.log.Warn("a pop is not sent", "node", s.node.name.Spoken(), "why", err)
				continue
			}
		}
		s.node.agent.send(to, its)
	}
}

func (s *storage) mayPop(to names.Node) bool {
	s.node.mutex.Lock()
	defer s.node.mutex.Unlock()
	if s.popped == nil || len(s.popped) > 64 {
		s.popped, s.popping = map[names.Node]uint64{}, map[names.Node]time.Time{}
	}
	its := s.node.where.Storage
	if its == nil || its.Floor <= s.popped[to] || time.Since(s.popping[to]) < popPause {
		return false
	}
	s.popping[to] = time.Now()
	return true
}

// heard looks at what it heard: more may be there, and reads that waited may be served.
func (s *storage) heard(from names.Node, tell json.RawMessage) {
	kind, its := raw.Only(tell)
	came := 0
	raw.Elements(raw.Member(its, "records"), func([]byte) bool { came++; return true })
	through, _ := raw.Number(raw.Member(its, "through"))
	s.node.mutex.Lock()
	switch {
	case kind == "popped" && s.popped != nil:
		s.popped[from] = through
	case kind == "peeked":
		s.eager = came >= whole || came > 0 && len(s.reads) > 0
	case kind == "marked":
		s.eager = true
	}
	s.node.mutex.Unlock()
	s.serve(time.Now())
	s.pull(time.Now())
}

// ask takes a read, which waits until the server is where it is wanted.
func (s *storage) ask(its wire.Read, reply string) {
	within := time.Duration(its.Within) * time.Millisecond
	if within <= 0 || within > time.Minute {
		within = 2 * time.Second
	}
	s.node.mutex.Lock()
	s.reads = append(s.reads, &read{its: its, reply: reply, until: time.Now().Add(within)})
	s.node.mutex.Unlock()
	s.serve(time.Now())
	s.pull(time.Now())
}

// serve gives to the node the reads that can be served, and refuses those that waited too long.
func (s *storage) serve(now time.Time) {
	n := s.node
	n.mutex.Lock()
	its, isUp := n.where.Storage, n.state == "up"
	var ready, late, rest []*read
	for _, each := range s.reads {
		switch {
		case now.After(each.until):
			late = append(late, each)
		case its == nil || !isUp || each.its.Mode == "after" && (its.Epoch < each.its.Epoch || its.Version < each.its.Version):
			rest = append(rest, each)
		default:
			ready = append(ready, each)
		}
	}
	s.reads = rest
	n.mutex.Unlock()
	for _, each := range late {
		n.agent.bus.Reply(each.reply, wire.Got{Refused: "the storage server did not come there in time", At: n.agent.bus.Clock.Now()})
	}
	for _, each := range ready {
		s.give(each, *its)
	}
}

type stand = struct {
	Epoch   uint64 `json:"epoch"`
	Floor   uint64 `json:"floor"`
	Version uint64 `json:"version"`
}

func (s *storage) give(each *read, its stand) {
	version := its.Version
	switch each.its.Mode {
	case "settled":
		version = its.Floor
	case "after":
		if version = each.its.Version; version < its.Floor {
			version = its.Floor
		}
	}
	key := each.its.Key
	done := func(got *answer) { s.done(each, got, version, its) }
	if !s.node.put(&item{body: body{Type: "read", Key: &key, Version: &version}, done: done}) {
		s.done(each, nil, version, its)
	}
}

// done answers a read. If the server moved on meanwhile it is read again where it is now.
func (s *storage) done(each *read, got *answer, version uint64, its stand) {
	reply := wire.Got{Version: version, Floor: its.Floor, Epoch: its.Epoch, At: s.node.agent.bus.Clock.Now()}
	switch {
	case got == nil:
		reply.Refused = "the storage server is not there"
	case got.Type != "error":
		reply.Value = got.Value
	case (got.Text == "TooOld" || got.Text == "FutureVersion") && each.tries < 10:
		each.tries++
		s.node.mutex.Lock()
		s.reads = append(s.reads, each)
		s.node.mutex.Unlock()
		return
	default:
		reply.Refused = got.Text
	}
	s.node.agent.bus.Reply(each.reply, reply)
}
