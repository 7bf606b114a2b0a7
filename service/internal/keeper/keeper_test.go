package keeper

import (
	"encoding/json"
	"fmt"
	"os"
	"path/filepath"
	"strings"
	"testing"
	"time"

	"fdbrec/service/internal/config"
	"fdbrec/service/internal/names"
	"fdbrec/service/internal/report"
	"fdbrec/service/internal/wire"
)

func of(room string) *Keeper {
	its := &config.Keeper{Number: 3, Room: room}
	c := &config.Config{Cluster: "c", Logs: 2, Degree: 2, Proxies: 1, Alive: 100 * time.Millisecond, Suspect: time.Second,
		Progress: 2 * time.Second, Start: 10 * time.Second, Recovery: 10 * time.Second, Keepers: []*config.Keeper{its},
		Machines: []*config.Machine{{Name: "m0"}, {Name: "m1"}}}
	return &Keeper{config: c, its: its, log: report.New("test", 9), machines: map[string]*machine{},
		keepers: map[uint64]time.Time{}, since: map[string]time.Time{}, open: map[string]openBatch{}, dropped: map[string]time.Time{},
		refusing: map[string]time.Time{}}
}

// A round that was kept is known to the keeper's next run; without its file there is no keeper.
func TestRounds(t *testing.T) {
	room := filepath.Join(t.TempDir(), "k")
	if err := of(room).enter(); err == nil || !strings.Contains(err.Error(), "has no keeper.json") {
		t.Error(err)
	}
	if err := Init(of(room).config, of(room).its); err != nil {
		t.Fatal(err)
	}
	if err := Init(of(room).config, of(room).its); err == nil {
		t.Error("a folder is made twice")
	}
	first := of(room)
	if err := first.enter(); err != nil || first.round != 1 {
		t.Fatal(err, first.round)
	}
	if err := of(room).enter(); err == nil || !strings.Contains(err.Error(), "in use") {
		t.Error("two keepers over one folder:", err)
	}
	for round := uint64(2); round < 9; round++ {
		if err := first.keep(round); err != nil {
			t.Fatal(err)
		}
		text, _ := os.ReadFile(filepath.Join(room, "keeper.json"))
		if its := (state{}); json.Unmarshal(text, &its) != nil || its.Round != round {
			t.Errorf("round %d is not on disk: %s", round, text)
		}
	}
	_ = first.lock.Close()
	second := of(room)
	if err := second.enter(); err != nil || second.round != 8 {
		t.Error(err, second.round)
	}
	_ = second.lock.Close()
	other := of(room)
	other.its.Number = 4
	if err := other.enter(); err == nil || !strings.Contains(err.Error(), "is of keeper 3 of cluster c") {
		t.Error(err)
	}
}

func mustParse(token string) names.Node {
	name, err := names.Parse(token)
	if err != nil {
		panic(err)
	}
	return name
}

// world has all nodes of epoch 257 well, on two machines that were heard just now.
func world(now time.Time) *Keeper {
	k := of("")
	k.born, k.calm, k.wasWell = now.Add(-time.Hour), now.Add(-time.Hour), true
	gens := []wire.Generation{{Epoch: 257, First: 1, K: 2, M: 2}}
	k.newest, k.opened = &wire.Epoch{Epoch: 257, State: wire.State{Gens: gens}}, now.Add(-time.Hour)
	for at, tokens := range [][]string{{"log-257-0", "sequencer-257"}, {"log-257-1", "proxy-257-0"}} {
		alive := &wire.Alive{Machine: fmt.Sprintf("m%d", at), Nodes: map[string]*wire.NodeView{}}
		for _, token := range tokens {
			alive.Nodes[token] = &wire.NodeView{State: "up"}
		}
		k.machines[alive.Machine] = &machine{alive, now}
	}
	return k
}

// Each row spoils the world, and says for how long it is borne: just before nothing is suspected, just after it is.
func TestSuspicion(t *testing.T) {
	now := time.Now()
	node := func(k *Keeper, token string) *wire.NodeView {
		found, _ := k.viewOf(mustParse(token))
		return found
	}
	rows := []struct {
		name  string
		spoil func(*Keeper)
		borne time.Duration
		why   string
	}{
		{"gone", func(k *Keeper) { node(k, "sequencer-257").State = "gone" }, 0, "sequencer 257 is gone"},
		{"ended", func(k *Keeper) { node(k, "proxy-257-0").State = "ended" }, 0, "proxy 257 0 is ended"},
		{"full", func(k *Keeper) { node(k, "log-257-1").Full = true }, time.Second, "log 257 1 has files that are full"},
		{"failed", func(k *Keeper) { node(k, "log-257-1").State = "failed" }, time.Second, "log 257 1 is failed"},
		{"starting", func(k *Keeper) { node(k, "log-257-0").State = "starting" }, 10 * time.Second, "log 257 0 is starting"},
		{"missing", func(k *Keeper) { delete(k.machines["m1"].alive.Nodes, "log-257-1") }, time.Second, "log 257 1 is on no machine"},
		{"still", func(k *Keeper) { node(k, "log-257-0").Waiting = 1001 }, 500 * time.Millisecond, "log 257 0 does not answer"},
		{"open", func(k *Keeper) { node(k, "proxy-257-0").Open = 7 }, 2 * time.Second, "proxy 257 0 has had a batch open"},
	}
	for _, row := range rows {
		k := world(now)
		if why := k.suspect(now); why != "" {
			t.Fatalf("all is well: %s", why)
		}
		row.spoil(k)
		hear := func(at time.Time) {
			for _, each := range k.machines {
				each.heard = at
			}
		}
		if why := k.suspect(now); (why != "") != (row.borne == 0) || why != "" && !strings.HasPrefix(why, row.why) {
			t.Errorf("%s, at once: %q", row.name, why)
		}
		if row.borne == 0 {
			continue
		}
		hear(now.Add(row.borne - time.Millisecond))
		if why := k.suspect(now.Add(row.borne - time.Millisecond)); why != "" {
			t.Errorf("%s, before %v: %q", row.name, row.borne, why)
		}
		hear(now.Add(row.borne + time.Millisecond))
		if why := k.suspect(now.Add(row.borne + time.Millisecond)); !strings.HasPrefix(why, row.why) {
			t.Errorf("%s, after %v: %q", row.name, row.borne, why)
		}
	}
}

// A log that takes a push in time was not full, and how many bytes its files have does not matter.
func TestFullForAWhile(t *testing.T) {
	now := time.Now()
	k := world(now)
	found, _ := k.viewOf(mustParse("log-257-1"))
	found.Bytes = 1 << 50
	for at := 0; at < 9; at++ {
		found.Full = at%2 == 0
		for _, each := range k.machines {
			each.heard = now
		}
		if why := k.suspect(now); why != "" {
			t.Errorf("after %d times: %q", at, why)
		}
		now = now.Add(900 * time.Millisecond)
	}
}

// A machine that is silent is suspected after a second; but not for a silence in which this keeper was away itself.
func TestSilence(t *testing.T) {
	now := time.Now()
	k := world(now)
	k.machines["m0"].heard = now.Add(-999 * time.Millisecond)
	if why := k.suspect(now); why != "" {
		t.Error(why)
	}
	k.machines["m0"].heard = now.Add(-1001 * time.Millisecond)
	if why := k.suspect(now); !strings.Contains(why, "silent") {
		t.Errorf("%q", why)
	}
	k.reset(now)
	if why := k.suspect(now); why != "" {
		t.Error(why)
	}
	if why := k.suspect(now.Add(1001 * time.Millisecond)); !strings.Contains(why, "silent") {
		t.Errorf("%q", why)
	}
}

// Only the keeper with the lowest number that is heard begins; what no state names may go.
func TestFirstAndLast(t *testing.T) {
	now := time.Now()
	k := world(now)
	k.keepers[9] = now
	if !k.isFirst(now) {
		t.Error("keeper 3 waits for keeper 9")
	}
	k.keepers[2] = now.Add(-time.Second)
	if k.isFirst(now) || !k.isFirst(now.Add(2*time.Second)) {
		t.Error("keeper 3 does not wait for keeper 2, or for ever")
	}
	gens := []wire.Generation{{Epoch: 513}, {Epoch: 1025}}
	k.newest = &wire.Epoch{Epoch: 1025, State: wire.State{Gens: gens, Dropped: 1}}
	rows := map[string]string{"log-257-0": "drop", "log-513-0": "", "log-769-0": "drop", "log-1025-0": "", "log-1281-0": "",
		"sequencer-513": "end", "sequencer-1025": "", "proxy-769-1": "end", "recoverer-769": "end", "recoverer-1025": "",
		"recoverer-1281": "", "cell-0": "", "storage-0": ""}
	for token, wanted := range rows {
		name, _ := names.Parse(token)
		if found := k.mayGo(name, &wire.NodeView{Recovery: &wire.Recovery{}}); found != wanted {
			t.Errorf("%s: %q, wanted %q", token, found, wanted)
		}
	}
	if k.mayGo(names.Node{Kind: "recoverer", First: 1025}, &wire.NodeView{Recovery: &wire.Recovery{IsMarked: true}}) != "end" {
		t.Error("a recoverer whose marks are held stays")
	}
}

// A machine without room is left out of a recovery where the others are enough for a shard's logs, and taken last where
// they are not.
func TestPoorMachines(t *testing.T) {
	now := time.Now()
	live := func(k *Keeper, degree uint64) ([]string, int) {
		k.config.Degree = degree
		return k.choose([]string{"m1", "m0", "m2"}, now)
	}
	k := world(now)
	k.machines["m2"] = &machine{&wire.Alive{Machine: "m2", Nodes: map[string]*wire.NodeView{}}, now}
	for _, each := range k.machines {
		each.alive.Free = 1 << 30
	}
	if its, sound := live(k, 2); len(its) != 3 || sound != 3 {
		t.Error("all are sound:", its, sound)
	}
	k.machines["m1"].alive.Free = 1 << 20
	if its, sound := live(k, 2); fmt.Sprint(its) != "[m0 m2]" || sound != 2 {
		t.Error("m1 has no room:", its, sound)
	}
	if its, sound := live(k, 3); fmt.Sprint(its) != "[m0 m2 m1]" || sound != 2 {
		t.Error("m1 has no room, and is needed:", its, sound)
	}
	k.machines["m1"].alive.Free = 1 << 30
	k.refusing["m0"] = now.Add(-9 * time.Second)
	if its, _ := live(k, 2); fmt.Sprint(its) != "[m1 m2]" {
		t.Error("m0 refused a node:", its)
	}
	k.refusing["m0"] = now.Add(-11 * time.Second)
	if its, _ := live(k, 2); len(its) != 3 {
		t.Error("m0 refused a node long ago:", its)
	}
}

// A recovery that an agent refuses is given up, and the next one waits longer each time, until an epoch is chosen.
func TestRefusals(t *testing.T) {
	now := time.Now()
	k := world(now)
	var pauses []time.Duration
	for at := 0; at < 9; at++ {
		k.trying = &recovery{ballot: 515, on: "m0", begun: now, until: now.Add(time.Minute), refused: "m0 refused it"}
		k.follow(now)
		if k.trying != nil {
			t.Fatal("it goes on")
		}
		pauses = append(pauses, k.rest.Sub(now)/k.config.Alive)
	}
	if fmt.Sprint(pauses) != "[1ns 2ns 4ns 8ns 16ns 32ns 64ns 64ns 64ns]" {
		t.Error("the pauses are", pauses)
	}
	k.learn(&wire.Epoch{Epoch: 1027, State: wire.State{Gens: []wire.Generation{{Epoch: 1027}}}})
	if k.refused != 0 {
		t.Error("an epoch that was chosen does not end the waiting")
	}
}

// A recoverer that was started, and of which its machine says nothing afterwards, went with its agent; one whose machine
// is silent is not waited for either.
func TestForgottenRecoverer(t *testing.T) {
	now := time.Now()
	begin := func(k *Keeper) *recovery {
		k.trying = &recovery{ballot: 515, on: "m1", machines: []string{"m0", "m1"}, logs: 2, begun: now, until: now.Add(time.Minute)}
		return k.trying
	}
	rows := []struct {
		name          string
		placed, heard time.Duration // after it began; nothing if it was not placed
		at            time.Duration
		goes          bool
	}{
		{"not placed yet", 0, 900 * time.Millisecond, 950 * time.Millisecond, true},
		{"placed, and its machine not heard since", 300 * time.Millisecond, 200 * time.Millisecond, 900 * time.Millisecond, true},
		{"placed, and its machine heard at once", 300 * time.Millisecond, 450 * time.Millisecond, 900 * time.Millisecond, true},
		{"placed, and its machine heard later", 300 * time.Millisecond, 510 * time.Millisecond, 900 * time.Millisecond, false},
		{"its machine is silent", 0, 0, 1001 * time.Millisecond, false},
	}
	for _, row := range rows {
		k := world(now)
		its := begin(k)
		if row.placed != 0 {
			its.placed = now.Add(row.placed)
		}
		k.machines["m0"].heard, k.machines["m1"].heard = now.Add(row.at), now.Add(row.heard)
		k.follow(now.Add(row.at))
		if (k.trying != nil) != row.goes {
			t.Errorf("%s: goes on is %v", row.name, !row.goes)
		}
	}
}

// A recoverer that is gone at once is followed by another one, the later the more of them were gone: where no node can be
// started their names would grow without end.
func TestGoneRecoverers(t *testing.T) {
	now := time.Now()
	k := world(now)
	for at := 0; at < 9; at++ {
		k.trying = &recovery{ballot: 515, on: "m0", machines: []string{"m0", "m1"}, logs: 2, begun: now, until: now.Add(time.Minute)}
		k.machines["m0"].alive.Nodes["recoverer-515"] = &wire.NodeView{State: "gone"}
		k.refused = at
		longest := time.Duration(0)
		for range [100]int{} {
			its := *k.trying
			k.follow(now)
			if k.trying != nil || k.refused != at+1 {
				t.Fatal("it goes on, or is not counted")
			}
			if pause := k.rest.Sub(now); pause > longest {
				longest = pause
			}
			k.trying, k.refused = &its, at
		}
		most := k.config.Alive << uint(least(uint64(at), 6))
		if longest >= most || longest < most/4 {
			t.Errorf("after %d that were gone: the longest of 100 pauses is %v, at most %v is wanted", at, longest, most)
		}
	}
}

// The sequencer and the first proxies are put on a machine without storage servers, if there is a sound one.
func TestApart(t *testing.T) {
	k := of("")
	k.config.Machines = nil
	for at, storages := range [][]uint64{nil, {0}, {1}, nil, nil} {
		k.config.Machines = append(k.config.Machines, &config.Machine{Name: fmt.Sprintf("m%d", at), Storages: storages})
	}
	for _, row := range []struct {
		machines string
		at       uint64
		wanted   string
	}{
		{"m0 m1 m2 m3 m4", 4, "m4 m1 m2 m3 m0"}, {"m1 m2 m3 m4 m0", 1, "m1 m3 m2 m4 m0"}, {"m4 m1 m2", 0, "m4 m1 m2"},
		{"m2 m1", 1, "m2 m1"}, {"m1 m0", 1, "m1 m0"}, {"m1", 0, "m1"},
	} {
		its := strings.Fields(row.machines)
		if k.config.SetApart(its, row.at); strings.Join(its, " ") != row.wanted {
			t.Errorf("%s at %d: %v, wanted %s", row.machines, row.at, its, row.wanted)
		}
	}
}
