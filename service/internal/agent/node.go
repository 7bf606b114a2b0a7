package agent

import (
	"encoding/json"
	"errors"
	"os"
	"path/filepath"
	"sync"
	"time"

	"fdbrec/service/internal/journal"
	"fdbrec/service/internal/names"
	"fdbrec/service/internal/process"
	"fdbrec/service/internal/raw"
	"fdbrec/service/internal/report"
	"fdbrec/service/internal/wire"
)

const (
	longest     = 2000                  // lines that wait for one node; what comes then is lost
	shortRest   = 10 * time.Millisecond // before a node that failed is started again, the first time
	longestRest = 5 * time.Second       // and after many times
)

// node is a node of this machine: its process, its journal, and the lines that wait for it.
type node struct {
	agent  *Agent
	name   names.Node
	order  wire.Order
	noted  bool // that it is about to be started is on disk
	made   bool // its process ran before, so that its files must be there
	slow   report.Times
	wake   chan struct{}
	stop   chan struct{}
	ending chan struct{}

	// what its own goroutine alone uses
	process *process.Process
	journal *journal.Journal
	number  uint64
	left    []*item // what it was given and did not answer before it ended

	mutex   sync.Mutex
	queue   []*item
	queued  map[string]bool
	asking  time.Time // since when the oldest line is with it; zero while none is
	state   string
	why     string
	since   time.Time
	last    json.RawMessage // without rows
	where   where
	errors  uint64
	starts  uint64
	full    bool
	stopped bool

	asks     asks
	storage  storage
	proxy    proxy
	recovery *wire.Recovery
}

func (a *Agent) newNode(order wire.Order, state string) *node {
	n := &node{agent: a, name: order.Node, order: order, noted: state != "new", made: state == "started",
		wake: make(chan struct{}, 1), stop: make(chan struct{}), ending: make(chan struct{}), queued: map[string]bool{},
		state: "starting", since: time.Now()}
	n.proxy.node, n.storage.node = n, n
	n.storage.pops.path = filepath.Join(a.room, "pops", n.name.Token()+".json")
	n.asks.pause = a.config.Again
	n.asks.send = func(each *wanted) { a.send(each.to, &wire.Message{Type: "ask", From: n.name, Ask: each.ask}) }
	return n
}

// put adds a line to those that wait. It answers false if the line is dropped: a repeat of one that waits, or one too many.
func (n *node) put(it *item) bool {
	n.mutex.Lock()
	defer n.mutex.Unlock()
	if it.key != "" && n.queued[it.key] {
		return false
	}
	if n.stopped || n.state == "gone" || n.state == "ended" || len(n.queue) >= longest {
		return false
	}
	if it.key != "" {
		n.queued[it.key] = true
	}
	it.since = time.Now()
	n.queue = append(n.queue, it)
	n.stir()
	return true
}

func (n *node) stir() {
	select {
	case n.wake <- struct{}{}:
	default:
	}
}

// set changes the node's state, and has it told at once.
func (n *node) set(state, why string) {
	n.mutex.Lock()
	is := n.state != state
	n.state, n.why = state, why
	if is {
		n.since = time.Now()
	}
	n.mutex.Unlock()
	if is {
		n.agent.log.Info("node", "node", n.name.Spoken(), "state", state, "why", why)
		n.agent.sayNow()
	}
}

// serve runs the node until it is ended. One without files whose process ends is gone.
func (n *node) serve() {
	defer close(n.ending)
	defer n.dropAll()
	var err error
	n.journal, err = journal.Open(filepath.Join(n.agent.room, "journals", n.name.Token()), n.agent.journals)
	if err != nil {
		n.set("failed", err.Error())
		<-n.stop
		return
	}
	defer n.journal.Close()
	n.agent.bus.Clock.See(n.journal.Tail.Stamp)
	if n.name.Kind == "storage" {
		if err := n.storage.pops.open(); err != nil {
			n.set("failed", err.Error())
			<-n.stop
			return
		}
	}
	refusal := ""
	for pause := shortRest; ; {
		began := time.Now()
		if refusal == "" {
			n.set("starting", "")
		}
		err = n.begin()
		if err == nil {
			refusal = ""
			n.set("up", "")
			err = n.run()
		}
		if n.isStopped() {
			n.end()
			return
		}
		if !n.name.HasFiles() {
			n.die(err)
			return
		}
		n.set("failed", err.Error())
		if time.Since(began) > longestRest {
			pause = shortRest
		}
		if refusal = n.refused(err, refusal); refusal != "" {
			pause = longestRest
		}
		select {
		case <-n.stop:
			return
		case <-time.After(pause):
		}
		if pause *= 2; pause > longestRest {
			pause = longestRest
		}
	}
}

func (n *node) isStopped() bool {
	n.mutex.Lock()
	defer n.mutex.Unlock()
	return n.stopped
}

// halt has the node end once it answered what it has.
func (n *node) halt() {
	n.mutex.Lock()
	defer n.mutex.Unlock()
	if !n.stopped {
		n.stopped = true
		close(n.stop)
	}
}

// begin starts the process. One that ran before hears what was under way, and is given again what it did not answer.
func (n *node) begin() error {
	if !n.noted {
		if err := n.agent.noteStart(n.order); err != nil {
			return err
		}
		n.noted = true
	}
	if err := n.start(); err != nil {
		return err
	}
	if !n.made && n.name.HasFiles() {
		if err := n.agent.note(n.order, "started"); err != nil {
			n.process.Kill()
			n.process.End(time.Second)
			return err
		}
	}
	n.made = true
	return nil
}

// launch starts the process, and greets it.
func (n *node) launch(makes bool) error {
	words, err := n.agent.words(n.order, makes)
	if err != nil {
		return err
	}
	n.process, err = process.Start(words, filepath.Join(n.agent.room, "locks", n.name.Token()), n.agent.said(n.name), 5*time.Second)
	if err != nil {
		return err
	}
	n.mutex.Lock()
	n.starts++
	n.mutex.Unlock()
	n.number = 0
	if err := n.greet(); err != nil {
		n.process.Kill()
		n.process.End(time.Second)
		return err
	}
	return nil
}

func (n *node) greet() error {
	first, err := n.talk(&body{Type: "init"})
	if err != nil {
		return err
	}
	if first.Node == nil || *first.Node != n.name {
		return errors.New("it says at its start that it is another node")
	}
	if err := n.beforeLast(first.stands()); n.name.HasFiles() && err != nil {
		return err
	}
	n.took(&item{}, first)
	switch {
	case n.name.Kind == "recoverer":
		at := n.agent.bus.Clock.Now()
		begun, err := n.talk(&body{Type: "begin", At: &at})
		if err != nil {
			return err
		}
		return n.keep(&item{}, begun, nil)
	case n.name.HasFiles() && n.made && !n.isUntouched():
		return n.back()
	}
	if !n.journal.Tail.IsThere {
		return n.write(journal.Record{Last: n.last})
	}
	return nil
}

// isUntouched says whether the node was never given a line that enters something. It then starts as at first: a log that
// was started before its recoverer seeds it is nobody's yet, and has no crash to enter.
func (n *node) isUntouched() bool {
	return n.agent.journals.Keep && n.journal.Tail.Stamp == 0 && len(n.journal.Tail.Open) == 0
}

// back settles what a kill left open.
func (n *node) back() error {
	if err := n.findLeft(); err != nil {
		return err
	}
	// (the crash is entered where the journal ends, and what is given again under its first stamp: so a pop that the node
	// took is not entered after its storage server left the log's generation)
	at := n.journal.Tail.Stamp
	if len(n.left) > 0 && n.left[0].body.At != nil && *n.left[0].body.At > at {
		at = *n.left[0].body.At
	}
	line := &body{Type: "back", At: &at}
	isHear := len(n.left) > 0 && n.left[0].body.Type == "hear"
	if isHear {
		line.Hearing = &hearing{n.left[0].body.From, n.left[0].body.Tell, n.journal.Tail.Version}
	}
	its, err := n.talk(line)
	if err != nil {
		return err
	}
	var settles *item
	if isHear && len(its.Entries) > 1 {
		settles, n.left = n.left[0], n.left[1:]
	}
	if err := n.keep(&item{}, its, settles); err != nil {
		return err
	}
	for len(n.left) > 0 {
		if left, err := n.exchange(n.left[:1:1]); err != nil {
			n.left = append(left, n.left[1:]...)
			return err
		}
		n.left = n.left[1:]
	}
	n.left = nil
	return nil
}

// findLeft finds what was given and not answered before this agent was started.
func (n *node) findLeft() error {
	if n.left != nil {
		return nil
	}
	for _, text := range n.journal.Tail.Open {
		it := &item{regive: true}
		if err := json.Unmarshal(text, &it.body); err != nil {
			return err
		}
		n.left = append(n.left, it)
	}
	return nil
}

// keep enters an answer to a line that is not one of those given: `settles` is the one that it answers too.
func (n *node) keep(it *item, its *answer, settles *item) error {
	record := journal.Record{Entries: its.Entries, Last: its.stands()}
	if settles != nil {
		record = journal.Record{Answer: &journal.Said{Entries: its.Entries, Last: its.stands()}}
	}
	if err := n.write(record); err != nil {
		return err
	}
	n.took(it, its)
	return nil
}

// write writes to the journal, and waits while there is no room: nothing may be done that is not written. Until then the
// node is failed, and afterwards again what it was.
func (n *node) write(records ...journal.Record) error {
	err := n.journal.Write(records...)
	if err == nil {
		return nil
	}
	n.mutex.Lock()
	state, why := n.state, n.why
	n.mutex.Unlock()
	for err != nil {
		n.set("failed", "its journal cannot be written: "+err.Error())
		select {
		case <-n.stop:
			return err
		case <-time.After(200 * time.Millisecond):
		}
		if n.process == nil {
			return err
		}
		err = n.journal.Write(records...)
	}
	n.set(state, why)
	return nil
}

// die enters that a node without files is gone.
func (n *node) die(why error) {
	text := "it ended"
	if why != nil {
		text = why.Error()
	}
	n.set("gone", text)
	n.agent.closeJournal(n.name, n.journal)
	_ = n.agent.note(n.order, "gone")
}

// end has the node say where it stands, and ends it.
func (n *node) end() {
	if n.process == nil {
		return
	}
	// (a line whose answer found no room in the journal is given again at the next start; what came of it is in no entry,
	// so where the node stands now is not where its journal ends)
	if its, err := n.talk(&body{Type: "last"}); err == nil && its.Last != nil && len(n.journal.Tail.Open) == 0 {
		_ = n.journal.Write(journal.Record{Last: its.Last})
	}
	n.process.End(5 * time.Second)
}

func (n *node) dropAll() {
	n.mutex.Lock()
	queue := append(n.left, n.queue...)
	n.queue, n.queued = nil, map[string]bool{}
	n.mutex.Unlock()
	for _, it := range queue {
		if it.done != nil {
			it.done(nil)
		}
	}
	n.proxy.gone()
}

// bare is a last state without a storage server's rows.
func bare(last json.RawMessage) json.RawMessage {
	kind, its := raw.Only(last)
	if kind != "storage" || raw.Member(its, "rows") == nil {
		return last
	}
	text := []byte(`{"storage":`)
	for at, name := range []string{"epoch", "floor", "version"} {
		text = append(append(append(append(text, "{,,"[at], '"'), name...), '"', ':'), raw.Member(its, name)...)
	}
	return append(text, "}}"...)
}

func (a *Agent) said(name names.Node) string { return filepath.Join(a.room, "said", name.Token()) }

// files are the files of a node: those of its name, whatever stands behind it.
func (a *Agent) files(name names.Node) []string {
	var found []string
	entries, _ := os.ReadDir(filepath.Join(a.room, "files"))
	for _, entry := range entries {
		its, token := entry.Name(), name.Token()
		if len(its) >= len(token) && its[:len(token)] == token && (len(its) == len(token) || its[len(token)] < '0' || its[len(token)] > '9') {
			found = append(found, filepath.Join(a.room, "files", its))
		}
	}
	return found
}
