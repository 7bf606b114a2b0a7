package agent

import (
	"encoding/json"
	"fmt"
	"os"
	"path/filepath"
	"strings"
	"syscall"

	"fdbrec/service/internal/config"
	"fdbrec/service/internal/journal"
	"fdbrec/service/internal/names"
	"fdbrec/service/internal/wire"
)

// A room is the folder of an agent:
//
//	room.json    whose it is: cluster, machine, and the config that the cluster began with
//	nodes/       for each node that was ever started here its order, and how far it came
//	files/       of the nodes
//	journals/    of the nodes, a folder each
//	pops/        of each storage server the stamp until which its pops may be entered, at most
//	locks/, said/, configs/, newest.json, agent.pid

// Start is the config of the world's start, in the form of a script.
type Start struct {
	Coordinators uint64   `json:"coordinators"`
	Degree       uint64   `json:"degree"`
	Logs         uint64   `json:"logs"`
	Proxies      uint64   `json:"proxies"`
	Shards       []string `json:"shards"`
}

// Room is what room.json has.
type Room struct {
	Cluster string `json:"cluster"`
	Machine string `json:"machine"`
	Start   Start  `json:"start"`
	Joined  bool   `json:"joined,omitempty"` // its start is what the configuration said when it was added
}

// First is the epoch with which each cluster begins.
const First = 257

type record struct {
	Order wire.Order `json:"order"`
	State string     `json:"state"` // "new", "starting", "started", "gone", "ended" or "dropped"
}

// StartOf is the start that a configuration describes.
func StartOf(c *config.Config) Start {
	return Start{c.Coordinators, c.Degree, c.Logs, c.Proxies, c.Shards}
}

// SequencerAt is the machine of the sequencer, where the first machines have the logs.
func SequencerAt(logs uint64) uint64 { return logs }

// ProxyAt is the machine of a proxy. The first two, which clients use first, are beside the sequencer: each batch asks it for
// a number, and without the sequencer the epoch is over anyway.
func ProxyAt(logs, number uint64) uint64 {
	if number < 2 {
		return logs
	}
	return logs + number - 1
}

// FirstNodes are the nodes with which a machine begins.
func FirstNodes(c *config.Config, machine *config.Machine) []wire.Order {
	var found []wire.Order
	add := func(kind string, first, second uint64) {
		found = append(found, wire.Order{Do: "start", Node: names.Node{Kind: kind, First: first, Second: second},
			Logs: c.Logs, Degree: c.Degree, Last: 1, First: true})
	}
	var all []string
	for _, each := range c.Machines {
		all = append(all, each.Name)
	}
	count := uint64(len(all))
	c.SetApart(all, SequencerAt(c.Logs)%count)
	mine := func(at uint64) bool { return all[at%count] == machine.Name }
	for _, index := range machine.Cells {
		add("cell", index, 0)
	}
	for _, tag := range machine.Storages {
		add("storage", tag, 0)
	}
	for at := uint64(0); at < c.Logs; at++ {
		if mine(at) {
			add("log", First, at)
		}
	}
	if mine(SequencerAt(c.Logs)) {
		add("sequencer", First, 0)
	}
	for at := uint64(0); at < c.Proxies; at++ {
		if mine(ProxyAt(c.Logs, at)) {
			add("proxy", First, at)
		}
	}
	return found
}

// Init makes the folder of a machine. One that is there is refused: its promises must not be forgotten. A machine that
// joins a cluster which runs already gets no node of the start: those are, or were, elsewhere.
func Init(c *config.Config, machine *config.Machine, joins bool) error {
	if joins && len(machine.Cells)+len(machine.Storages) > 0 {
		return fmt.Errorf("%s: a machine that joins can have no cells and no storage servers", machine.Name)
	}
	path := filepath.Join(machine.Room, "room.json")
	if _, err := os.Stat(path); err == nil {
		return fmt.Errorf("%s is there already: this machine was made before", path)
	}
	for _, each := range []string{"nodes", "files", "journals", "locks", "said", "configs"} {
		if err := os.MkdirAll(filepath.Join(machine.Room, each), 0o755); err != nil {
			return err
		}
	}
	for _, order := range FirstNodes(c, machine) {
		if joins {
			break
		}
		if err := writeJSON(filepath.Join(machine.Room, "nodes", order.Node.Token()+".json"), record{order, "new"}); err != nil {
			return err
		}
	}
	return writeJSON(path, Room{c.Cluster, machine.Name, StartOf(c), joins})
}

// enter reads and locks the room, and sees that it is this machine's.
func (a *Agent) enter() error {
	text, err := os.ReadFile(filepath.Join(a.room, "room.json"))
	if os.IsNotExist(err) {
		return fmt.Errorf("%s has no room.json: is its disk there? `fdbrec-service init` makes it, once: a machine that was made "+
			"before and is made again has forgotten what it promised", a.room)
	}
	if err != nil {
		return err
	}
	var its Room
	if err := json.Unmarshal(text, &its); err != nil {
		return fmt.Errorf("%s/room.json: %v", a.room, err)
	}
	if its.Cluster != a.config.Cluster || its.Machine != a.machine.Name {
		return fmt.Errorf("%s is of machine %s of cluster %s", a.room, its.Machine, its.Cluster)
	}
	now := StartOf(a.config)
	if its.Start.Coordinators != now.Coordinators || strings.Join(its.Start.Shards, " ") != strings.Join(now.Shards, " ") {
		return fmt.Errorf("coordinators and shards cannot change: %s began with %d and %q", a.room, its.Start.Coordinators, its.Start.Shards)
	}
	if its.Start.Proxies < now.Proxies {
		return fmt.Errorf("proxies cannot be more than at the start: %s began with %d", a.room, its.Start.Proxies)
	}
	a.start = its.Start
	a.lock, err = os.OpenFile(filepath.Join(a.room, "lock"), os.O_RDWR|os.O_CREATE, 0o644)
	if err != nil {
		return err
	}
	if syscall.Flock(int(a.lock.Fd()), syscall.LOCK_EX|syscall.LOCK_NB) != nil {
		return fmt.Errorf("%s is in use by another agent", a.room)
	}
	return os.WriteFile(filepath.Join(a.room, "agent.pid"), []byte(fmt.Sprintln(os.Getpid())), 0o644)
}

// records are the nodes of the room.
func (a *Agent) records() ([]record, error) {
	paths, err := filepath.Glob(filepath.Join(a.room, "nodes", "*.json"))
	var found []record
	for _, path := range paths {
		text, err := os.ReadFile(path)
		if os.IsNotExist(err) {
			continue
		}
		if err != nil {
			return nil, err
		}
		var its record
		if err := json.Unmarshal(text, &its); err != nil {
			return nil, fmt.Errorf("%s: %v", path, err)
		}
		found = append(found, its)
	}
	return found, err
}

// recordOf is what is noted of a node, or nothing.
func (a *Agent) recordOf(name names.Node) (*record, error) {
	text, err := os.ReadFile(filepath.Join(a.room, "nodes", name.Token()+".json"))
	if os.IsNotExist(err) {
		return nil, nil
	}
	var its record
	if err == nil {
		err = json.Unmarshal(text, &its)
	}
	return &its, err
}

// note writes down how far a node came.
func (a *Agent) note(order wire.Order, state string) error {
	return writeJSON(filepath.Join(a.room, "nodes", order.Node.Token()+".json"), record{order, state})
}

// closeJournal enters that a node without files is gone. One that did nothing has no journal: a sequencer that was
// started before its epoch was chosen may be nobody's.
func (a *Agent) closeJournal(name names.Node, its *journal.Journal) {
	if !its.Tail.IsThere || its.Tail.Ended || its.Tail.Stamp == 0 {
		return
	}
	stamp := a.bus.Clock.Now()
	if its.Tail.Stamp > stamp {
		stamp = its.Tail.Stamp
	}
	stamp++
	a.bus.Clock.See(stamp)
	entry := json.RawMessage(fmt.Sprintf(`{"act":{"crashed":{}},"stamp":%d}`, stamp))
	if err := its.Write(journal.Record{Entries: []json.RawMessage{entry}}); err != nil {
		a.log.Warn("a journal was not closed", "node", name.Spoken(), "why", err)
	}
}

// mostAhead is how far ahead of a node the numbers of a line may be: beyond any stamp. The bus judges the stamps of messages
// by this agent's clock, which hears of each of them. A node knows its own last entry alone, and a cell that nobody asked
// for days is rightly behind by more than the 2^32 that a node takes if it is told nothing.
const mostAhead = uint64(1) << 40

// words are the program of a node and its words. With `makes` it makes its files.
func (a *Agent) words(order wire.Order, makes bool) ([]string, error) {
	its := append([]string(nil), a.config.Program(order.Node.Kind)...)
	its = append(its, order.Node.Kind)
	for at, name := range names.Kinds[order.Node.Kind] {
		number := order.Node.First
		if at == 1 {
			number = order.Node.Second
		}
		its = append(its, "--"+name, fmt.Sprint(number))
	}
	its = append(its, order.Words()...)
	its = append(its, "--most-ahead", fmt.Sprint(mostAhead))
	if order.Node.HasFiles() {
		its = append(its, "--dir", filepath.Join(a.room, "files"), "--cluster", a.config.FileCluster())
	}
	if makes {
		its = append(its, "--make")
	}
	if kind := order.Node.Kind; kind == "cell" || kind == "log" {
		its = append(its, "--room", fmt.Sprint(a.config.FileRoom))
	}
	if kind := order.Node.Kind; kind == "log" || kind == "sequencer" {
		return its, nil
	}
	start := a.start
	if order.Node.Kind == "proxy" {
		start.Logs, start.Degree = order.Logs, order.Degree
	}
	path := filepath.Join(a.room, "configs", fmt.Sprintf("%d-%d.json", start.Logs, start.Degree))
	if _, err := os.Stat(path); err != nil {
		if err := writeJSON(path, start); err != nil {
			return nil, err
		}
	}
	return append(its, "--config", path), nil
}

// writeJSON writes a file so that a crash leaves the old one or the new one.
func writeJSON(path string, its interface{}) error {
	text, err := json.Marshal(its)
	if err != nil {
		return err
	}
	return WriteFile(path, append(text, '\n'))
}

// WriteFile writes a file, synced, so that a crash leaves the old one or the new one.
func WriteFile(path string, text []byte) error {
	file, err := os.CreateTemp(filepath.Dir(path), ".new-*")
	if err != nil {
		return err
	}
	_, err = file.Write(text)
	if err == nil {
		err = file.Sync()
	}
	if closed := file.Close(); err == nil {
		err = closed
	}
	if err == nil {
		err = os.Rename(file.Name(), path)
	}
	if err != nil {
		_ = os.Remove(file.Name())
		return err
	}
	folder, err := os.Open(filepath.Dir(path))
	if err != nil {
		return err
	}
	defer func() { _ = folder.Close() }()
	return folder.Sync()
}
