package names

import (
	"encoding/json"
	"testing"
)

func TestSpellings(t *testing.T) {
	rows := []struct {
		node                 Node
		spoken, token, entry string
	}{
		{Node{"cell", 2, 0}, "cell 2", "cell-2", `{"cell":{"index":2}}`},
		{Node{"log", 257, 3}, "log 257 3", "log-257-3", `{"log":{"epoch":257,"index":3}}`},
		{Node{"sequencer", 513, 0}, "sequencer 513", "sequencer-513", `{"sequencer":{"epoch":513}}`},
		{Node{"proxy", 513, 1}, "proxy 513 1", "proxy-513-1", `{"proxy":{"epoch":513,"number":1}}`},
		{Node{"recoverer", 769, 0}, "recoverer 769", "recoverer-769", `{"recoverer":{"ballot":769}}`},
		{Node{"storage", 0, 0}, "storage 0", "storage-0", `{"storage":{"tag":0}}`},
	}
	for _, row := range rows {
		text, err := json.Marshal(row.node)
		if err != nil || string(text) != row.entry || row.node.Spoken() != row.spoken || row.node.Token() != row.token {
			t.Errorf("%v: %s %v", row.node, text, err)
		}
		var back Node
		if err := json.Unmarshal([]byte(row.entry), &back); err != nil || back != row.node {
			t.Errorf("%s is read as %v, %v", row.entry, back, err)
		}
		for _, spelling := range []string{row.spoken, row.token} {
			if found, err := Parse(spelling); err != nil || found != row.node {
				t.Errorf("%s is parsed as %v, %v", spelling, found, err)
			}
		}
	}
}

func TestNoNames(t *testing.T) {
	for _, text := range []string{"", "cell", "cell 1 2", "log 257", "log 257 x", "cell 01", "cell -1", "tree 1",
		"storage 99999999999999999999"} {
		if found, err := Parse(text); err == nil {
			t.Errorf("%q is taken as %v", text, found)
		}
	}
	for _, text := range []string{`{}`, `[]`, `{"cell":{}}`, `{"cell":{"index":-1}}`, `{"log":{"epoch":257}}`,
		`{"log":{"epoch":257,"tag":1}}`, `{"cell":{"index":1},"storage":{"tag":1}}`, `{"cell":{"index":1,"tag":2}}`,
		`{"log":{"epoch":1,"epoch":1}}`, `{"log":{"index":1,"index":1}}`, `{"cell":{"index":4611686018427387904}}`, `{"cell":{"index":1.5}}`, `null`} {
		var found Node
		if err := json.Unmarshal([]byte(text), &found); err == nil && text != "null" {
			t.Errorf("%s is taken as %v", text, found)
		}
	}
}
