// Package keeper watches a cluster and begins recoveries. It is trusted with nothing but that the cluster goes on: a
// ballot has the keeper's number and a round that is on disk before it is used, so no two recoverers share one, and
// recoverers that contend do no harm. A log, a sequencer or a proxy is started on one machine, once: if it does not come
// up, or is lost, a further recovery takes another ballot, and never the same name again.
package keeper

import (
	"encoding/json"
	"fmt"
	"os"
	"path/filepath"
	"sync"
	"syscall"
	"time"

	"fdbrec/service/internal/agent"
	"fdbrec/service/internal/bus"
	"fdbrec/service/internal/config"
	"fdbrec/service/internal/report"
	"fdbrec/service/internal/wire"
)

// Keeper is one keeper.
type Keeper struct {
	config *config.Config
	its    *config.Keeper
	bus    *bus.Bus
	log    *report.Log
	lock   *os.File
	born   time.Time
	calm   time.Time // no silence that began before it counts: when the broker or this process was away

	mutex    sync.Mutex
	round    uint64
	seen     uint64 // the greatest round that anybody used
	machines map[string]*machine
	keepers  map[uint64]time.Time
	newest   *wire.Epoch
	opened   time.Time // when this keeper heard of the newest epoch
	since    map[string]time.Time
	open     map[string]openBatch
	trying   *recovery
	failed   int
	refused  int                  // so many, one after another, were given up because a node was refused or the recoverer gone
	refusing map[string]time.Time // when a machine last did so
	letting  int                  // orders under way by which nodes are ended that no state names
	wasWell  bool                 // whether all nodes of an epoch were once well
	rest     time.Time            // no recovery begins before it
	why      string
	dropped  map[string]time.Time
}

type machine struct {
	alive *wire.Alive
	heard time.Time
}

type openBatch struct {
	number uint64
	since  time.Time
}

// state is what a keeper keeps on disk.
type state struct {
	Cluster string `json:"cluster"`
	Number  uint64 `json:"number"`
	Round   uint64 `json:"round"`
}

// Init makes the folder of a keeper. One that is there is refused: the rounds that were used must not be forgotten.
func Init(c *config.Config, its *config.Keeper) error {
	path := filepath.Join(its.Room, "keeper.json")
	if _, err := os.Stat(path); err == nil {
		return fmt.Errorf("%s is there already: this keeper was made before", path)
	}
	if err := os.MkdirAll(its.Room, 0o755); err != nil {
		return err
	}
	return (&Keeper{config: c, its: its}).keep(1) // (round 1 opened the epoch with which all begins)
}

// New makes a keeper, in its folder, which must have been made.
func New(c *config.Config, its *config.Keeper, log *report.Log) (*Keeper, error) {
	now := time.Now()
	k := &Keeper{config: c, its: its, log: log, born: now, calm: now, machines: map[string]*machine{},
		keepers: map[uint64]time.Time{}, since: map[string]time.Time{}, open: map[string]openBatch{}, dropped: map[string]time.Time{},
		refusing: map[string]time.Time{}}
	if err := k.enter(); err != nil {
		return nil, err
	}
	var err error
	k.bus, err = bus.Connect(c, fmt.Sprintf("keeper-%d", its.Number), its.Nkey, log, 2*time.Second)
	return k, err
}

func (k *Keeper) enter() error {
	text, err := os.ReadFile(filepath.Join(k.its.Room, "keeper.json"))
	if os.IsNotExist(err) {
		return fmt.Errorf("%s has no keeper.json: `fdbrec-service init --number %d` makes it, once; a keeper whose folder "+
			"is lost comes back under another number", k.its.Room, k.its.Number)
	}
	if err != nil {
		return err
	}
	if k.lock, err = os.OpenFile(filepath.Join(k.its.Room, "lock"), os.O_RDWR|os.O_CREATE, 0o644); err != nil {
		return err
	}
	if syscall.Flock(int(k.lock.Fd()), syscall.LOCK_EX|syscall.LOCK_NB) != nil {
		return fmt.Errorf("%s is in use by another keeper", k.its.Room)
	}
	var was state
	if err := json.Unmarshal(text, &was); err != nil {
		return fmt.Errorf("%s/keeper.json: %v", k.its.Room, err)
	}
	if was.Cluster != k.config.Cluster || was.Number != k.its.Number {
		return fmt.Errorf("%s is of keeper %d of cluster %s", k.its.Room, was.Number, was.Cluster)
	}
	k.round = was.Round
	return nil
}

// keep writes a round down, synced: only then it is used.
func (k *Keeper) keep(round uint64) error {
	text, err := json.Marshal(state{k.config.Cluster, k.its.Number, round})
	if err == nil {
		err = agent.WriteFile(filepath.Join(k.its.Room, "keeper.json"), append(text, '\n'))
	}
	if err == nil {
		k.round = round
	}
	return err
}

// Run runs the keeper until it is stopped.
func (k *Keeper) Run(stop <-chan struct{}) error {
	for _, each := range []struct {
		take func(*bus.Received)
		part string
	}{
		{k.hearAlive, "alive"}, {k.hearKeeper, "keeper"}, {k.hearEpoch, "epoch"},
		{func(m *bus.Received) { k.bus.Reply(m.Reply, k.view()) }, "status"},
		{k.hearWho, "who"}, {k.hearRecover, "recover"},
	} {
		if _, err := k.bus.Hear("", each.take, each.part); err != nil {
			return err
		}
	}
	tick, alive := time.NewTicker(20*time.Millisecond), time.NewTicker(k.config.Alive)
	defer tick.Stop()
	defer alive.Stop()
	last := time.Now()
	for {
		select {
		case <-stop:
			k.bus.Close()
			return nil
		case <-tick.C:
			if now := time.Now(); now.Sub(last) > k.config.Suspect/2 {
				k.reset(now)
			}
			last = time.Now()
			k.turn(last)
		case <-alive.C:
			k.tell()
		}
	}
}

// reset forgets for how long others were silent: this process stood still, or had no broker.
func (k *Keeper) reset(now time.Time) {
	k.mutex.Lock()
	defer k.mutex.Unlock()
	k.calm, k.since, k.open = now, map[string]time.Time{}, map[string]openBatch{}
}

func (k *Keeper) tell() {
	k.bus.Send(k.view(), "keeper")
	k.mutex.Lock()
	newest := k.newest
	k.mutex.Unlock()
	if newest != nil {
		k.bus.Send(newest, "epoch")
	}
}

func (k *Keeper) view() *wire.KeeperView {
	k.mutex.Lock()
	defer k.mutex.Unlock()
	its := &wire.KeeperView{Number: k.its.Number, Born: k.born.UnixNano(), At: k.bus.Clock.Now(), Round: k.round, Why: k.why,
		Counts: k.bus.Counts.All()}
	if k.trying != nil {
		its.Trying = k.trying.ballot
	}
	return its
}

func (k *Keeper) parse(m *bus.Received, to interface{}, at *uint64) bool {
	if err := json.Unmarshal(m.Data, to); err != nil || !k.bus.Clock.Takes(*at) {
		k.bus.Counts.Add("messages that are none of ours", 1)
		return false
	}
	k.bus.Clock.See(*at)
	return true
}

func (k *Keeper) hearAlive(m *bus.Received) {
	its := &wire.Alive{}
	if !k.parse(m, its, &its.At) || its.Machine != m.Sender || k.config.Machine(its.Machine) == nil {
		return
	}
	k.mutex.Lock()
	k.machines[its.Machine] = &machine{its, time.Now()}
	k.learn(&its.Newest)
	for _, each := range its.Nodes {
		if each.Recovery == nil {
			continue
		}
		if round := each.Recovery.Ballot >> 8; round > k.seen {
			k.seen = round
		}
		k.learn(each.Recovery.Epoch)
	}
	k.mutex.Unlock()
	k.turn(time.Now())
}

func (k *Keeper) hearKeeper(m *bus.Received) {
	its := &wire.KeeperView{}
	if !k.parse(m, its, &its.At) {
		return
	}
	k.mutex.Lock()
	defer k.mutex.Unlock()
	if its.Number == k.its.Number && its.Born != k.born.UnixNano() {
		k.log.Error("another keeper has this one's number: this one begins no recovery", "number", its.Number)
		k.rest = time.Now().Add(3 * k.config.Suspect)
	}
	if its.Number != k.its.Number {
		k.keepers[its.Number] = time.Now()
	}
	if its.Round > k.seen {
		k.seen = its.Round
	}
}

func (k *Keeper) hearEpoch(m *bus.Received) {
	its := &wire.Epoch{}
	if k.parse(m, its, &its.At) {
		k.mutex.Lock()
		defer k.mutex.Unlock()
		k.learn(its)
	}
}

func (k *Keeper) hearWho(m *bus.Received) {
	k.mutex.Lock()
	newest := k.newest
	k.mutex.Unlock()
	if newest != nil {
		k.bus.Reply(m.Reply, newest)
	}
}

// hearRecover begins a recovery because an operator wants one: to use machines that came back, or another shape.
func (k *Keeper) hearRecover(m *bus.Received) {
	now := time.Now()
	k.mutex.Lock()
	is := k.trying == nil && k.isFirst(now)
	k.mutex.Unlock()
	if is {
		why := k.begin(now, "an operator asked for it")
		k.bus.Reply(m.Reply, wire.Answer{Done: why == "", Why: why, At: k.bus.Clock.Now()})
	}
}

// learn takes in an epoch that is chosen. The mutex is held.
func (k *Keeper) learn(its *wire.Epoch) {
	if its == nil || len(its.State.Gens) == 0 || k.newest != nil && its.Epoch <= k.newest.Epoch {
		return
	}
	if k.newest != nil {
		k.log.Info("epoch", "epoch", its.Epoch, "pev", its.Pev, "rv", its.Rv)
	}
	now := time.Now()
	k.newest, k.opened, k.since, k.open, k.why = its, now, map[string]time.Time{}, map[string]openBatch{}, ""
	if round := its.Epoch >> 8; round > k.seen {
		k.seen = round
	}
	if k.trying != nil && k.trying.ballot <= its.Epoch {
		k.log.Info("recovery", "ballot", k.trying.ballot, "chosen", k.trying.ballot == its.Epoch, "after_ms", now.Sub(k.trying.begun).Milliseconds())
		k.giveUp(now, 0)
	}
	k.failed, k.refused = 0, 0
}
