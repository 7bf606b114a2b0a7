// Package agent runs the nodes of one machine: it is the only parent of their processes. What they tell goes to whom it
// is for, what they want to be told is asked, and asked again. It decides nothing: it starts and ends nodes as it is
// ordered to, and keeps no rule of theirs.
package agent

import (
	"encoding/json"
	"fmt"
	"os"
	"path/filepath"
	"strconv"
	"sync"
	"syscall"
	"time"

	"fdbrec/service/internal/bus"
	"fdbrec/service/internal/config"
	"fdbrec/service/internal/journal"
	"fdbrec/service/internal/names"
	"fdbrec/service/internal/report"
	"fdbrec/service/internal/wire"
)

// Agent is the agent of a machine.
type Agent struct {
	config   *config.Config
	machine  *config.Machine
	room     string
	start    Start
	bus      *bus.Bus
	log      *report.Log
	journals journal.Options
	fsyncs   report.Times
	born     int64
	lock     *os.File
	say      chan struct{}

	orders  sync.Map   // of a lock for each node that was ordered something
	keeping sync.Mutex // of newest.json
	mutex   sync.Mutex
	nodes   map[string]*node
	unhear  map[string][]func()
	newest  wire.Epoch
	kept    uint64 // the newest epoch that is on disk: no node of an earlier one is started here any more
	moved   uint64 // the greatest version that was committed in the newest epoch
	told    uint64 // and the greatest that this agent told others, or heard of
	hosts   map[string]string
	halted  bool
}

// New makes the agent of a machine, in its room, which must have been made.
func New(c *config.Config, machine *config.Machine, log *report.Log) (*Agent, error) {
	a := &Agent{config: c, machine: machine, room: machine.Room, log: log, born: time.Now().UnixNano(),
		say: make(chan struct{}, 1), nodes: map[string]*node{}, unhear: map[string][]func(){}, hosts: map[string]string{}}
	a.journals = journal.Options{Keep: c.JournalKeep, Fsync: c.JournalFsync, Rotate: c.JournalRotate, Times: &a.fsyncs}
	if err := a.enter(); err != nil {
		return nil, err
	}
	a.newest = wire.Epoch{Epoch: First, State: wire.State{Gens: []wire.Generation{{Epoch: First, First: 1, K: a.start.Degree, M: a.start.Logs}}}}
	if text, err := os.ReadFile(filepath.Join(a.room, "newest.json")); err == nil {
		if err := json.Unmarshal(text, &a.newest); err != nil {
			return nil, fmt.Errorf("%s/newest.json: %v", a.room, err)
		}
		a.kept = a.newest.Epoch
	}
	var err error
	a.bus, err = bus.Connect(c, machine.Name, machine.Nkey, log, 2*time.Second)
	if err == nil {
		a.bus.Clock.See(a.newest.At)
	}
	return a, err
}

// Run runs the agent until it is stopped.
func (a *Agent) Run(stop <-chan struct{}) error {
	if err := a.listen(); err != nil {
		return err
	}
	its, err := a.records()
	if err != nil {
		return err
	}
	go a.resumeAll(its)
	tick, alive := time.NewTicker(10*time.Millisecond), time.NewTicker(a.config.Alive)
	defer tick.Stop()
	defer alive.Stop()
	for {
		select {
		case <-stop:
			a.stop()
			return nil
		case <-tick.C:
			if most := a.bus.TooSmall(a.config.MaxPayload); most > 0 {
				a.stop()
				return fmt.Errorf("the broker takes messages of %d bytes; max_payload in %s is %d", most, a.config.Path, a.config.MaxPayload)
			}
			a.tick()
		case <-alive.C:
			a.tell()
		case <-a.say:
			a.tell()
		}
	}
}

// resumeAll starts what was here before: beside the agent's turns, since a slow disk must not keep it silent. Nodes with
// files come first; the journals of those that are gone can wait.
func (a *Agent) resumeAll(its []record) {
	for _, hasFiles := range []bool{true, false} {
		for _, each := range its {
			if each.Order.Node.HasFiles() == hasFiles {
				a.resume(each)
			}
		}
	}
	a.purge()
}

// resume starts a node that was here before, if it has files, or was never started.
func (a *Agent) resume(its record) {
	name := its.Order.Node
	switch {
	case its.State == "new", name.HasFiles() && (its.State == "starting" || its.State == "started"):
		a.add(its.Order, its.State)
	case its.State == "starting" || its.State == "started":
		old, err := journal.Open(filepath.Join(a.room, "journals", name.Token()), a.journals)
		if err == nil {
			a.bus.Clock.See(old.Tail.Stamp)
			a.closeJournal(name, old)
			old.Close()
			err = a.note(its.Order, "gone")
		}
		if err != nil {
			a.log.Error("a node that is gone", "node", name.Spoken(), "why", err)
		}
	}
}

// add runs a node, and hears what is sent to it.
func (a *Agent) add(order wire.Order, state string) {
	n := a.newNode(order, state)
	token := n.name.Token()
	a.mutex.Lock()
	if a.halted {
		a.mutex.Unlock()
		return
	}
	a.nodes[token] = n
	a.mutex.Unlock()
	a.hear(token, "", func(m *bus.Received) { a.receive(n, m) }, "node", token)
	switch n.name.Kind {
	case "proxy":
		a.hear(token, "", func(m *bus.Received) { a.submit(n, m) }, "submit", strconv.FormatUint(n.name.First, 10),
			strconv.FormatUint(n.name.Second, 10))
	case "storage":
		a.hear(token, "", func(m *bus.Received) { a.read(n, m) }, "read", strconv.FormatUint(n.name.First, 10))
		a.hear(token, "", func(m *bus.Received) { a.dump(n, m) }, "dump", strconv.FormatUint(n.name.First, 10))
	}
	go n.serve()
}

func (a *Agent) hear(token, group string, take func(*bus.Received), parts ...string) {
	end, err := a.bus.Hear(group, take, parts...)
	if err != nil {
		a.log.Error("a subject is not heard", "node", token, "why", err)
		return
	}
	a.mutex.Lock()
	a.unhear[token] = append(a.unhear[token], end)
	a.mutex.Unlock()
}

// remove ends a node for good, and answers once it is ended.
func (a *Agent) remove(n *node) {
	token := n.name.Token()
	a.mutex.Lock()
	ends := a.unhear[token]
	delete(a.unhear, token)
	a.mutex.Unlock()
	for _, end := range ends {
		end()
	}
	n.halt()
	<-n.ending
}

// stop ends all nodes; each says first where it stands.
func (a *Agent) stop() {
	a.mutex.Lock()
	a.halted = true
	its := []*node{}
	for _, n := range a.nodes {
		its = append(its, n)
	}
	a.mutex.Unlock()
	var all sync.WaitGroup
	for _, n := range its {
		all.Add(1)
		go func(n *node) { defer all.Done(); a.remove(n) }(n)
	}
	all.Wait()
	a.tell()
	a.bus.Close()
	a.log.Info("stopped", "machine", a.machine.Name)
}

func (a *Agent) all() []*node {
	a.mutex.Lock()
	defer a.mutex.Unlock()
	var found []*node
	for _, n := range a.nodes {
		found = append(found, n)
	}
	return found
}

func (a *Agent) find(token string) *node {
	a.mutex.Lock()
	defer a.mutex.Unlock()
	return a.nodes[token]
}

// tick does what is due by the clock.
func (a *Agent) tick() {
	now := time.Now()
	a.tellMoved()
	for _, n := range a.all() {
		switch n.name.Kind {
		case "proxy":
			n.asks.again(now)
			n.proxy.begin()
		case "recoverer":
			n.asks.again(now)
		case "storage":
			n.storage.serve(now)
			n.storage.pull(now)
		}
	}
}

func (a *Agent) newestEpoch() uint64 {
	a.mutex.Lock()
	defer a.mutex.Unlock()
	return a.newest.Epoch
}

func (a *Agent) newestAndMoved() (wire.Epoch, uint64) {
	a.mutex.Lock()
	defer a.mutex.Unlock()
	return a.newest, a.moved
}

// learn takes in an epoch that is chosen. It is kept on disk beside that: nothing rests on it but what may be forgotten.
// Clients hear at once that the batches of earlier epochs are decided: the epoch's state says how.
func (a *Agent) learn(its *wire.Epoch) {
	a.mutex.Lock()
	is := its.Epoch > a.newest.Epoch && len(its.State.Gens) > 0
	if is {
		a.newest, a.moved, a.told = *its, its.Rv+1, its.Rv+1
	}
	a.mutex.Unlock()
	a.bus.Clock.See(its.At)
	if !is {
		return
	}
	a.log.Info("epoch", "epoch", its.Epoch, "pev", its.Pev, "rv", its.Rv)
	for _, n := range a.all() {
		if n.name.Kind == "proxy" && n.name.Epoch() < its.Epoch {
			n.proxy.gone()
		}
	}
	go a.keepNewest()
}

// keepNewest writes the newest epoch down, and forgets what goes with it.
func (a *Agent) keepNewest() {
	a.keeping.Lock()
	defer a.keeping.Unlock()
	its, _ := a.newestAndMoved()
	a.mutex.Lock()
	isKept := its.Epoch <= a.kept
	a.mutex.Unlock()
	if isKept {
		return
	}
	if err := writeJSON(filepath.Join(a.room, "newest.json"), &its); err != nil {
		a.log.Warn("the newest epoch is not on disk", "why", err)
		return
	}
	a.mutex.Lock()
	a.kept = its.Epoch
	for token := range a.hosts {
		name, err := names.Parse(token)
		isNamed := name.Kind == "log" && its.State.Names(name.Epoch())
		if err == nil && name.Epoch() != 0 && name.Epoch() < its.Epoch && !isNamed {
			delete(a.hosts, token)
		}
	}
	a.mutex.Unlock()
	a.purge()
}

// move takes in that a version was committed. Others hear of those that were committed here each time that the agent
// looks at its clock: storage servers do not ask for each one by itself.
func (a *Agent) move(its *wire.Moved) {
	a.mutex.Lock()
	defer a.mutex.Unlock()
	if its.Epoch == a.newest.Epoch && its.Version > a.moved {
		a.moved = its.Version
	}
}

// moves takes in what another agent says of that.
func (a *Agent) moves(its *wire.Moved) {
	a.move(its)
	a.mutex.Lock()
	defer a.mutex.Unlock()
	if its.Epoch == a.newest.Epoch && its.Version > a.told {
		a.told = its.Version
	}
}

func (a *Agent) tellMoved() {
	a.mutex.Lock()
	its := &wire.Moved{Epoch: a.newest.Epoch, Version: a.moved, At: a.bus.Clock.Now()}
	is := a.moved > a.told
	a.told = a.moved
	a.mutex.Unlock()
	if is {
		a.bus.Send(its, "moved")
	}
}

// sayNow has the agent say soon how its nodes are.
func (a *Agent) sayNow() {
	select {
	case a.say <- struct{}{}:
	default:
	}
}

// tell says how the nodes are.
func (a *Agent) tell() { a.bus.Send(a.alive(), "alive") }

// standing is what alive says, and how long things take, which is for who asks.
func (a *Agent) standing() *wire.Alive {
	its := a.alive()
	its.Fsync = a.fsyncs.Percentile(0.99)
	for token, each := range its.Nodes {
		if n := a.find(token); n != nil {
			each.Slow, each.Bytes = n.slow.Percentile(0.99), a.bytesOf(n)
		}
	}
	return its
}

func (a *Agent) alive() *wire.Alive {
	its := &wire.Alive{Machine: a.machine.Name, Born: a.born, At: a.bus.Clock.Now(), Nodes: map[string]*wire.NodeView{},
		Counts: a.bus.Counts.All()}
	its.Newest, _ = a.newestAndMoved()
	for _, n := range a.all() {
		its.Nodes[n.name.Token()] = n.view()
	}
	var disk syscall.Statfs_t
	if syscall.Statfs(a.room, &disk) == nil {
		its.Free = disk.Bavail * uint64(disk.Bsize)
	}
	return its
}

// view is what is said of a node.
func (n *node) view() *wire.NodeView {
	now := time.Now()
	n.mutex.Lock()
	its := &wire.NodeView{State: n.state, Why: n.why, Last: n.last, Lines: len(n.queue), Full: n.full, Errors: n.errors,
		Starts: n.starts, Recovery: n.recovery}
	if !n.asking.IsZero() {
		its.Waiting = now.Sub(n.asking).Milliseconds()
	}
	n.mutex.Unlock()
	n.proxy.mutex.Lock()
	if n.proxy.number != 0 {
		its.Open, its.OpenFor = n.proxy.number, now.Sub(n.proxy.since).Milliseconds()
	}
	n.proxy.mutex.Unlock()
	return its
}

// forget drops a node that was ended.
func (a *Agent) forget(name names.Node) {
	a.mutex.Lock()
	defer a.mutex.Unlock()
	delete(a.nodes, name.Token())
}
