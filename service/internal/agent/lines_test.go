package agent

import (
	"encoding/json"
	"testing"

	"fdbrec/service/internal/names"
)

// TestStands reads where a storage server stands, of answers with its rows and without them, and where another node does.
func TestStands(t *testing.T) {
	const storage = `{"storage":{"epoch":257,"floor":2,"version":5}}`
	for given, wanted := range map[string]string{
		`{"type":"hear_ok","stands":` + storage + `}`: storage,
		`{"type":"hear_ok","last":{"storage":{"epoch":257,"floor":2,"rows":[["61",` +
			`"00000000000000000000000000000000000000000000000000000000000000000000000000000000000000000000000000000000000` +
			`000000000000000000000000000000000000000000000000000000000000000000000000000"]],"version":5}}}`: storage,
		`{"type":"ask_ok","last":{"cell":{"promised":257}}}`: `{"cell":{"promised":257}}`,
		`{"type":"wants_ok"}`:                                ``,
	} {
		var its answer
		if !its.read([]byte(given)) {
			t.Fatal(given)
		}
		if found := string(its.stands()); found != wanted {
			t.Errorf("%.60s stands at %s, and not %s", given, found, wanted)
		}
	}
}

// TestBodies spells lines as encoding/json does.
func TestBodies(t *testing.T) {
	at, version, key := uint64(0), uint64(9), "61"
	from := &names.Node{Kind: "proxy", First: 257, Second: 3}
	for _, its := range []body{
		{Type: "init"}, {Type: "begin", At: &at}, {Type: "ask", At: &version, From: from, Ask: json.RawMessage(`{"log":{"peek":{}}}`)},
		{Type: "hear", At: &at, From: from, Tell: json.RawMessage(`{"log":{}}`)}, {Type: "hear", From: from},
		{Type: "submit", At: &at, Batch: json.RawMessage(`[]`), Step: 1}, {Type: "wants", Turn: 4, Newest: json.RawMessage("null")},
		{Type: "read", Key: &key, Version: &version}, {Type: "back", At: &at, Hearing: &hearing{from, json.RawMessage(`{}`), 7}},
	} {
		wanted, _ := json.Marshal(&its)
		if text, err := its.text(0); err != nil || string(text) != string(wanted) {
			t.Errorf("%s %v, wanted %s", text, err, wanted)
		}
		text, _ := its.text(12)
		var back struct {
			body
			Number uint64 `json:"msg_id"`
		}
		if err := json.Unmarshal(text, &back); err != nil || back.Number != 12 || back.Type != its.Type {
			t.Errorf("%s: %v", text, err)
		}
	}
}

// TestAnswers reads of answers and their entries what an agent looks at.
func TestAnswers(t *testing.T) {
	var its answer
	text := `{"type":"hear_ok","in_reply_to":7,"entry":{"act":{"heard":{"from":{"sequencer":{"epoch":257}},"outcome":{"committed":` +
		`{"version":8}},"taken":null,"tell":{"seq":{"numbered":{}}}}},"stamp":31},"last":{"proxy":{"known":1}},` +
		`"wants":[[{"log":{"epoch":257,"index":0}},{"log":{"push":{"prev":7,"version":8,"bodies":[[0,[{}]]]}}}]]}`
	if !its.read([]byte(text)) || *its.InReplyTo != 7 || len(its.Entries) != 1 || len(its.Wants) != 1 || its.Value != nil {
		t.Fatalf("%+v", its)
	}
	var entry act
	if !entry.read(its.Entries[0]) || entry.stamp != 31 || entry.kind != "heard" || entry.from.Spoken() != "sequencer 257" ||
		string(entry.tell) != `{"seq":{"numbered":{}}}` || string(entry.outcome) != `{"committed":{"version":8}}` {
		t.Errorf("%+v", entry)
	}
	if sort, from, to := pushed(its.Wants[0][1]); sort != "push" || from != 7 || to != 8 {
		t.Error(sort, from, to)
	}
	its = answer{}
	if !its.read([]byte(`{"type":"error","in_reply_to":3,"code":14,"text":"Too \"old\"","value":null}`)) || its.Code != 14 || its.Text != `Too "old"` {
		t.Errorf("%+v", its)
	}
	its = answer{}
	if !its.read([]byte(`{"type":"back_ok","entries":[{"act":{"crashed":{}},"stamp":4},{}],"value":"61"}`)) || len(its.Entries) != 2 || *its.Value != "61" {
		t.Errorf("%+v", its)
	}
	for _, text := range []string{``, `[]`, `{"in_reply_to":-1}`, `{"wants":[[1]]}`, `{"wants":7}`, `{"node":{"tree":{}}}`, `{"type":7}`,
		`{"entries":{}}`, `{"code":"x"}`} {
		if (&answer{}).read([]byte(text)) {
			t.Errorf("%s is an answer", text)
		}
	}
	for _, text := range []string{`{}`, `{"stamp":1,"act":{"asked":{"from":7}}}`, `{"act":{"crashed":{}}}`} {
		if (&act{}).read([]byte(text)) {
			t.Errorf("%s is an entry", text)
		}
	}
	if sort, _, _ := pushed(json.RawMessage(`{"cell":{"read":{"ballot":1}}}`)); sort != "" {
		t.Error("a cell is sent a", sort)
	}
}
