package agent

import (
	"encoding/json"
	"fmt"
	"testing"

	"fdbrec/service/internal/bus"
	"fdbrec/service/internal/config"
	"fdbrec/service/internal/names"
	"fdbrec/service/internal/wire"
)

// proxyAlone is a proxy of epoch 513 whose node takes no line, so that what waits stays as it is.
func proxyAlone() *proxy {
	a := &Agent{config: &config.Config{MaxPayload: 64 << 20}, bus: &bus.Bus{Clock: &bus.Clock{}}}
	return &a.newNode(wire.Order{Node: names.Node{Kind: "proxy", First: 513}}, "new").proxy
}

// open has what waits be under way, as the node's batch number 1.
func (p *proxy) openAll() { p.open, p.waiting, p.number, p.request = p.waiting, nil, 1, 1 }

func put(p *proxy, id string, told *[]wire.Submitted) {
	its := []json.RawMessage{wire.Mutation("set", "61", "62")}
	p.submit(&wire.Submit{ID: id, Mutations: its}, func(each wire.Submitted) { *told = append(*told, each) })
}

// What a client asks again under one id is taken once, before its batch, while it is under way, and after it.
func TestTakenOnce(t *testing.T) {
	p := proxyAlone()
	var told []wire.Submitted
	put(p, "a1", &told)
	put(p, "a1", &told)
	put(p, "b1", &told)
	if len(p.waiting) != 2 || len(told) != 0 {
		t.Fatalf("%d wait, %d were answered", len(p.waiting), len(told))
	}
	p.openAll()
	put(p, "a1", &told)
	if len(p.waiting) != 0 {
		t.Fatal("what is under way is taken again")
	}
	p.close(func(*submission) wire.Submitted { return wire.Submitted{Committed: true, Version: 9} })
	if fmt.Sprint(told) != "[{true false  false false 513 9 0} {true false  false false 513 9 0}]" {
		t.Fatalf("%v", told)
	}
	put(p, "a1", &told)
	put(p, "a2", &told)
	if len(told) != 3 || told[2].Version != 9 || len(p.waiting) != 1 {
		t.Errorf("%v, %d wait", told, len(p.waiting))
	}
}

// A batch that ended says the version that it was given, by its own request alone; before that it says 0.
func TestEndedByVersion(t *testing.T) {
	numbered := func(request int) json.RawMessage {
		return json.RawMessage(fmt.Sprintf(`{"numbered":{"prev":7,"request":%d,"version":8}}`, request))
	}
	for request, version := range map[int]uint64{0: 0, 1: 8, 2: 0} {
		p := proxyAlone()
		var told []wire.Submitted
		put(p, "a1", &told)
		p.openAll()
		p.numbered(json.RawMessage(`{"refused":{"why":{"out_of_turn":{}}}}`))
		p.numbered(numbered(request))
		put(p, "b1", &told)
		p.gone()
		if len(told) != 2 || !told[0].Ended || told[0].Version != version || told[1].Ended || told[1].Refused == "" {
			t.Errorf("request %d: %v", request, told)
		}
	}
}

// Mutations that a node would refuse, and more than a batch may have, are refused before they meet those of others.
func TestRefusedAlone(t *testing.T) {
	p := proxyAlone()
	p.node.agent.config.MaxPayload = 200 * 100
	for _, its := range [][]json.RawMessage{{json.RawMessage(`{"set":{"key":"6","value":""}}`)}, {wire.Mutation("set", "61", fmt.Sprintf("%0200d", 0))}} {
		var told []wire.Submitted
		p.submit(&wire.Submit{Mutations: its}, func(each wire.Submitted) { told = append(told, each) })
		if len(told) != 1 || !told[0].IsBad || len(p.waiting) != 0 {
			t.Errorf("%s: %v", its, told)
		}
	}
}
