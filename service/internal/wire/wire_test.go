package wire

import (
	"encoding/json"
	"fmt"
	"testing"

	"fdbrec/service/internal/names"
)

func TestWhoMaySend(t *testing.T) {
	some := json.RawMessage(`{}`)
	rows := []struct {
		to, from string
		word     string
		is       bool
	}{
		{"cell", "recoverer", "ask", true}, {"cell", "proxy", "ask", false}, {"cell", "log", "hear", false},
		{"log", "proxy", "ask", true}, {"log", "storage", "ask", true}, {"log", "sequencer", "ask", false},
		{"log", "log", "hear", false}, {"proxy", "log", "hear", true}, {"proxy", "cell", "hear", false},
		{"proxy", "client", "hear", false}, {"recoverer", "cell", "hear", true}, {"recoverer", "log", "hear", true},
		{"storage", "log", "hear", true}, {"storage", "sequencer", "hear", false}, {"sequencer", "proxy", "ask", true},
	}
	for _, row := range rows {
		m := Message{Type: row.word, From: names.Node{Kind: row.from}}
		if row.word == "ask" {
			m.Ask = some
		} else {
			m.Tell = some
		}
		if err := m.Judge(names.Node{Kind: row.to}); (err == nil) != row.is {
			t.Errorf("%+v: %v", row, err)
		}
	}
	for _, m := range []Message{{Type: "ask"}, {Type: "hear", Ask: some}, {Type: "submit", Ask: some}, {}} {
		m.From = names.Node{Kind: "recoverer"}
		if m.Judge(names.Node{Kind: "cell"}) == nil {
			t.Errorf("%+v is taken", m)
		}
	}
}

func TestMutations(t *testing.T) {
	good := []string{`{"set":{"key":"61","value":""}}`, `{"clear":{"begin":"","end":"ff"}}`, `{"add":{"key":"","param":"01"}}`}
	for _, text := range good {
		if err := JudgeMutations([]json.RawMessage{json.RawMessage(text)}); err != nil {
			t.Errorf("%s: %v", text, err)
		}
	}
	bad := []string{``, `null`, `[]`, `{}`, `{"set":{}}`, `{"set":{"key":"6","value":""}}`, `{"set":{"key":"6A","value":""}}`,
		`{"set":{"key":"61","value":"","more":""}}`, `{"clear":{"begin":"62","end":"61"}}`, `{"add":{"key":"61","value":"01"}}`,
		`{"set":{"key":"61","value":""},"clear":{"begin":"","end":""}}`, `{"drop":{"key":"61","value":""}}`,
		`{"set":{"key":1,"value":""}}`, `{"set":{"key":"61","key":"61"}}`, `{"set":{"value":"61","value":"61"}}`,
		`{"set":{"key":"\u0061","value":""}}`, `{"set":{"key":"61","value":""}} ` + "x"}
	for _, text := range bad {
		if err := JudgeMutations([]json.RawMessage{json.RawMessage(text)}); err == nil {
			t.Errorf("%s is taken", text)
		}
	}
	if text := Mutation("clear", "61", "62"); string(text) != `{"clear":{"begin":"61","end":"62"}}` {
		t.Errorf("%s", text)
	}
	many := make([]json.RawMessage, 1001)
	for at := range many {
		many[at] = Mutation("set", "61", "62")
	}
	if JudgeMutations(many) == nil || JudgeMutations(many[:1000]) != nil {
		t.Error("a batch has at most 1,000 mutations")
	}
}

// A message is spelled as encoding/json would spell it, and read as it would read it; of strangers it takes no text that
// would break a line.
func TestMessages(t *testing.T) {
	log := names.Node{Kind: "log", First: 257, Second: 1}
	for _, its := range []Message{
		{Type: "ask", At: 7, From: names.Node{Kind: "proxy", First: 257}, Ask: json.RawMessage(`{"log":{"push":{"bodies":[[0,[]]]}}}`)},
		{Type: "ask", At: 1 << 40, Until: 9, From: names.Node{Kind: "storage"}, Ask: json.RawMessage(`{"log":{"pop":{}}}`)},
		{Type: "hear", From: log, Tell: json.RawMessage(`{"log":{"held":{"durable":3}}}`)},
	} {
		text, err := its.Text()
		wanted, _ := json.Marshal(&its)
		if err != nil || string(text) != string(wanted) {
			t.Errorf("%s, wanted %s", text, wanted)
		}
		var back Message
		if err := back.Read(text); err != nil || fmt.Sprint(back) != fmt.Sprint(its) {
			t.Errorf("%s is read as %v, %v", text, back, err)
		}
	}
	var broken Message
	spaced := "{\"type\":\"ask\",\"at\":1,\n\"from\":{\"cell\":{\"index\":1}},\"ask\":{\n\"x\" :1}}"
	if err := broken.Read([]byte(spaced)); err != nil || string(broken.Ask) != `{"x":1}` {
		t.Errorf("%s %v", broken.Ask, err)
	}
	for _, text := range []string{``, `{`, `[]`, `"x"`, `{"type":7}`, `{"at":-1}`, `{"from":{"tree":{}}}`, `{"ask":{"x":[}]}}`, `{"ask":tru}`} {
		if err := (&Message{}).Read([]byte(text)); err == nil {
			t.Errorf("%s is read", text)
		}
	}
}

func TestStates(t *testing.T) {
	for _, text := range []string{`[{"epoch":257,"first":1,"k":2,"m":4,"seeded_to":0}]`,
		`{"dropped":1,"gens":[{"epoch":513,"first":10,"k":2,"m":4,"seeded_to":10}]}`} {
		var state State
		if err := json.Unmarshal([]byte(text), &state); err != nil {
			t.Fatal(err)
		}
		if back, _ := json.Marshal(state); string(back) != text {
			t.Errorf("%s is written as %s", text, back)
		}
	}
}

// The generation after an epoch says through which version that epoch was taken over.
func TestAfter(t *testing.T) {
	e := Epoch{Epoch: 1025, State: State{Dropped: 1, Gens: []Generation{{Epoch: 513}, {Epoch: 769, SeededTo: 10}, {Epoch: 1025, SeededTo: 12}}}}
	for epoch, wanted := range map[uint64]uint64{257: 0, 513: 10, 769: 12, 1025: 0} {
		next, is := e.After(epoch)
		if is != (wanted != 0) || next.SeededTo != wanted {
			t.Errorf("after %d: %v %v", epoch, next, is)
		}
	}
	if !e.State.Names(513) || e.State.Names(257) || e.Last().Epoch != 1025 {
		t.Error("the generations of a state")
	}
}
