package agent

import (
	"encoding/json"
	"fmt"
	"os"
	"strings"
	"testing"
	"time"

	"fdbrec/service/internal/names"
	"fdbrec/service/internal/wire"
)

func storageIn(t *testing.T) *node {
	a := agentIn(t)
	a.config.Cluster = "c"
	return a.newNode(wire.Order{Node: names.Node{Kind: "storage", First: 1}}, "started")
}

func (n *node) standsAt(its stand) {
	n.mutex.Lock()
	defer n.mutex.Unlock()
	n.where.Storage = &its
}

// says is an answer of the node to the line that waits first: where it is, with its rows.
func (n *node) says(t *testing.T, at stand) {
	comes(t, "a line of type last", func() bool { n.mutex.Lock(); defer n.mutex.Unlock(); return len(n.queue) == 1 })
	n.mutex.Lock()
	it := n.queue[0]
	n.queue = nil
	n.mutex.Unlock()
	if it.body.Type != "last" {
		t.Error("it is given", it.body.Type)
	}
	last := fmt.Sprintf(`{"storage":{"epoch":%d,"floor":%d,"version":%d,"rows":[["61","%02x"]]}}`, at.Epoch, at.Floor, at.Version, at.Version)
	it.done(&answer{Type: "last_ok", Last: json.RawMessage(last)})
}

// A dump has the rows of a version at or after the one that is wanted, once the floor is there in the same epoch; after a
// recovery it has those of the later epoch.
func TestDump(t *testing.T) {
	for _, row := range []struct {
		name   string
		before stand   // where it is when the dump is asked for
		says   []stand // where it is when it says its rows, each time that it is asked
		then   []stand // and where it is some time after each
		wanted uint64  // the version of the dump; 0 for none
	}{
		{"settled at once", stand{Epoch: 513, Floor: 9, Version: 9}, []stand{{Epoch: 513, Floor: 9, Version: 9}}, []stand{{Epoch: 513, Floor: 9, Version: 9}}, 9},
		{"settled later", stand{Epoch: 513, Floor: 4, Version: 9}, []stand{{Epoch: 513, Floor: 8, Version: 12}}, []stand{{Epoch: 513, Floor: 12, Version: 15}}, 12},
		{"behind", stand{Epoch: 513, Floor: 8, Version: 8}, nil, nil, 0},
		{"in an earlier epoch", stand{Epoch: 257, Floor: 20, Version: 20}, nil, nil, 0},
		{"never settled", stand{Epoch: 513, Floor: 4, Version: 9}, []stand{{Epoch: 513, Floor: 8, Version: 12}}, []stand{{Epoch: 513, Floor: 11, Version: 15}}, 0},
		{"a recovery between", stand{Epoch: 513, Floor: 4, Version: 12}, []stand{{Epoch: 513, Floor: 8, Version: 12}, {Epoch: 769, Floor: 8, Version: 11}},
			[]stand{{Epoch: 769, Floor: 20, Version: 20}, {Epoch: 769, Floor: 11, Version: 13}}, 11},
		{"a recovery whose floor is low for a while", stand{Epoch: 513, Floor: 4, Version: 12},
			[]stand{{Epoch: 513, Floor: 8, Version: 12}, {Epoch: 769, Floor: 8, Version: 10}},
			[]stand{{Epoch: 769, Floor: 8, Version: 10}, {Epoch: 769, Floor: 10, Version: 11}}, 10},
	} {
		n := storageIn(t)
		n.state = "up"
		n.standsAt(row.before)
		told := make(chan wire.Dumped)
		go func() { told <- n.dumpAfter(wire.Dump{Epoch: 513, Version: 9, Within: 500}) }()
		for at, its := range row.says {
			n.says(t, its)
			time.Sleep(30 * time.Millisecond)
			n.standsAt(row.then[at])
		}
		found := <-told
		if len(n.queue) > 0 {
			t.Errorf("%s: it is asked for its rows once more", row.name)
		}
		if found.Version != row.wanted || (found.Refused == "") != (row.wanted > 0) {
			t.Errorf("%s: %+v", row.name, found)
		}
		text, _ := os.ReadFile(found.Path)
		if row.wanted > 0 && !strings.HasSuffix(string(text), fmt.Sprintf("\n[\"61\",\"%02x\"]\n", row.wanted)) {
			t.Errorf("%s: %s", row.name, text)
		}
	}
}

// A dump has all rows but those of clients' sessions, and says how many they are.
func TestKeepDump(t *testing.T) {
	n := storageIn(t)
	rows := `[["","00"],["002f73657373696f6e2f61","01"],["002f73657373696f6e","02"],["6161",""],["ff2f73657373696f6e2f","03"],["ff","04"]]`
	found := n.keepDump(stand{Epoch: 513, Floor: 7, Version: 9}, json.RawMessage(rows))
	text, err := os.ReadFile(found.Path)
	wanted := `{"cluster":"c","tag":1,"epoch":513,"version":9,"rows":4}` + "\n" + `["","00"]` + "\n" + `["002f73657373696f6e","02"]` +
		"\n" + `["6161",""]` + "\n" + `["ff","04"]` + "\n"
	if err != nil || string(text) != wanted || found.Rows != 4 || found.Version != 9 || found.Epoch != 513 || found.Refused != "" {
		t.Errorf("%+v %v\n%s", found, err, text)
	}
	n.standsAt(stand{Epoch: 513, Floor: 9, Version: 9})
	if its := n.dumpAfter(wire.Dump{Epoch: 513, Version: 9, Within: 100}); its.Refused == "" {
		t.Error("a dump of a server that does not answer:", its)
	}
}
