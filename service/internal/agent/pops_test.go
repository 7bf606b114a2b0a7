package agent

import (
	"bufio"
	"encoding/json"
	"fmt"
	"os"
	"path/filepath"
	"strings"
	"testing"
	"time"

	"fdbrec/service/internal/bus"
	"fdbrec/service/internal/config"
	"fdbrec/service/internal/journal"
	"fdbrec/service/internal/names"
	"fdbrec/service/internal/report"
	"fdbrec/service/internal/wire"
)

// TestMain is a log, too, if the environment says so: one that takes each pop, under the next stamp.
func TestMain(m *testing.M) {
	if os.Getenv("IS_A_LOG") == "" {
		os.Exit(m.Run())
	}
	openFile()
	for lines := bufio.NewScanner(os.Stdin); lines.Scan(); {
		var line struct {
			Body struct {
				body
				Number uint64 `json:"msg_id"`
			}
		}
		if err := json.Unmarshal(lines.Bytes(), &line); err != nil {
			os.Exit(9)
		}
		its := `"node":{"log":{"epoch":257,"index":0}}`
		if line.Body.Type == "ask" {
			its = fmt.Sprintf(`"entry":{"act":{"asked":{"ask":%s,"from":{"storage":{"tag":0}},"tell":{"log":{"popped":{"through":0}}}}},"stamp":%d}`,
				line.Body.Ask, *line.Body.At+1)
		}
		fmt.Printf(`{"src":"log 257 0","dest":"agent","body":{"type":"%s_ok","in_reply_to":%d,%s,"last":{"log":{"durable":1}}}}`+"\n",
			line.Body.Type, line.Body.Number, its)
	}
	os.Exit(0)
}

// agentIn is an agent without a broker, over a room of its own.
func agentIn(t *testing.T) *Agent {
	room := t.TempDir()
	for _, each := range []string{"nodes", "files", "journals", "locks", "said", "configs"} {
		if err := os.Mkdir(filepath.Join(room, each), 0o755); err != nil {
			t.Fatal(err)
		}
	}
	c := &config.Config{MaxPayload: 64 << 20, Node: []string{os.Args[0]}, Patience: 10 * time.Second, JournalKeep: true, JournalRotate: 1 << 26}
	a := &Agent{config: c, machine: &config.Machine{Name: "m0"}, room: room, log: report.New("test", 9), say: make(chan struct{}, 1),
		bus: &bus.Bus{Clock: &bus.Clock{}, Counts: &report.Counts{}}, nodes: map[string]*node{}, unhear: map[string][]func(){},
		hosts: map[string]string{}, journals: journal.Options{Keep: true, Rotate: 1 << 26}}
	a.newest = wire.Epoch{Epoch: First, State: wire.State{Gens: []wire.Generation{{Epoch: First, First: 1, K: 1, M: 1}}}}
	return a
}

// given is how many lines of a journal have a text.
func given(a *Agent, token, text string) int {
	data, _ := os.ReadFile(filepath.Join(a.room, "journals", token, "000001.jsonl"))
	return strings.Count(string(data), text)
}

func comes(t *testing.T, what string, is func() bool) {
	for end := time.Now().Add(10 * time.Second); !is(); time.Sleep(5 * time.Millisecond) {
		if time.Now().After(end) {
			t.Fatal("it does not come:", what)
		}
	}
}

// A pop that arrives under a later stamp than it may be entered under is dropped, and counted: its storage server may have
// dropped the log's generation. The same pop, sent anew, is taken.
func TestLatePopIsDropped(t *testing.T) {
	t.Setenv("IS_A_LOG", "yes")
	a := agentIn(t)
	n := a.newNode(wire.Order{Node: names.Node{Kind: "log", First: 257}}, "new")
	go n.serve()
	defer func() { n.halt(); <-n.ending }()
	storage := popStamps{path: filepath.Join(a.room, "pops.json")}
	send := func(through int) *wire.Message {
		until, err := storage.next(a.bus.Clock.Now())
		if err != nil {
			t.Fatal(err)
		}
		return &wire.Message{Type: "ask", From: names.Node{Kind: "storage"}, Until: until,
			Ask: json.RawMessage(fmt.Sprintf(`{"log":{"pop":{"epoch":257,"tag":0,"through":%d}}}`, through))}
	}
	first, late := send(3), send(4)
	a.deliver(n, first)
	comes(t, "a pop", func() bool { return given(a, "log-257-0", `"answer"`) == 1 })

	// (the storage server is given a state now: its entry has a later stamp than any pop that it sent)
	a.bus.Clock.See(storage.latest)
	a.deliver(n, late)
	comes(t, "a late pop", func() bool { return a.bus.Counts.All()["late pops dropped"] == 1 })
	a.deliver(n, send(5))
	comes(t, "a pop that is sent anew", func() bool { return given(a, "log-257-0", `"answer"`) == 2 })
	if given(a, "log-257-0", `"through":4`) != 0 || given(a, "log-257-0", `"through":5`) == 0 {
		t.Error("the late pop was given to the log")
	}
}

// A storage server is given a state under a stamp that no pop of its may be entered under, after a restart too. What
// brings records alone needs none.
func TestStateAfterPops(t *testing.T) {
	a := agentIn(t)
	order := wire.Order{Node: names.Node{Kind: "storage"}}
	hear := func(tell string) []*item {
		return []*item{{body: body{Type: "hear", Tell: json.RawMessage(`{"log":` + tell + `}`)}}}
	}
	n := a.newNode(order, "new")
	if err := n.storage.pops.open(); err != nil {
		t.Fatal(err)
	}
	until, err := n.storage.pops.next(7)
	if err != nil || until <= 7 {
		t.Fatal(until, err)
	}
	for _, tell := range []string{`{"peeked":{"records":[]}}`, `{"popped":{"through":1}}`} {
		if at := n.stampFor(hear(tell)); at >= until {
			t.Errorf("%s moves the clock to %d", tell, at)
		}
	}
	a.bus.Clock = &bus.Clock{}
	again := a.newNode(order, "started")
	if err := again.storage.pops.open(); err != nil {
		t.Fatal(err)
	}
	if at := again.stampFor(hear(`{"marked":{"state":[]}}`)); at < until {
		t.Errorf("after a restart a state is given at %d, and a pop may be entered until %d", at, until)
	}
	a.bus.Clock = &bus.Clock{}
	if at := n.stampFor(hear(`{"marked":{"state":[]}}`)); at < until {
		t.Errorf("a state is given at %d, and a pop may be entered until %d", at, until)
	}
}

// A pop may be entered as long as crashes between its line and its entry leave it time; given again after a kill it is
// not judged a second time.
func TestLatePop(t *testing.T) {
	for at, wanted := range map[uint64]bool{5000 - popSpare: false, 5000 - popSpare + 1: true, 5000: true} {
		if is := isLatePop([]*item{{sort: "pop", until: 5000}}, at); is != wanted {
			t.Errorf("at %d: %v", at, is)
		}
	}
	if isLatePop([]*item{{sort: "pop", until: 5, regive: true}}, 9000) || isLatePop([]*item{{sort: "peek"}}, 9000) {
		t.Error("what is no new pop is judged late")
	}
}

// A storage server whose floor rose is asked on for a while, though nothing is committed: each log of its shard is to be
// popped, and one that is full waits for that.
func TestPopsOn(t *testing.T) {
	a := agentIn(t)
	a.moved = 9
	n := a.newNode(wire.Order{Node: names.Node{Kind: "storage"}}, "started")
	n.state = "up"
	now := time.Now()
	stands := func(floor int) {
		if err := json.Unmarshal([]byte(fmt.Sprintf(`{"storage":{"epoch":257,"floor":%d,"version":9}}`, floor)), &n.where); err != nil {
			t.Fatal(err)
		}
	}
	isAsked := func(later time.Duration) bool {
		now = now.Add(later)
		was := n.storage.turn
		n.storage.pull(now)
		n.storage.wants(nil)
		return n.storage.turn > was
	}
	stands(3)
	if !isAsked(0) || isAsked(trailing/2) || !isAsked(trailing/2) {
		t.Error("after its floor rose it is not asked as often as one that follows")
	}
	if !isAsked(popsOn) || isAsked(trailing) || !isAsked(idle) || isAsked(trailing) {
		t.Error("a while later it is not asked as seldom as one for which there is nothing")
	}
	stands(5)
	if !isAsked(trailing) || !isAsked(trailing) {
		t.Error("once its floor rises again it is not asked more often")
	}
}
