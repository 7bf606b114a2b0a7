package agent

import (
	"bytes"
	"encoding/json"
	"fmt"
	"os"
	"path/filepath"
	"strings"
	"time"

	"fdbrec/service/internal/bus"
	"fdbrec/service/internal/raw"
	"fdbrec/service/internal/wire"
)

// A dump has the rows of a storage server at a version that no recovery takes back. Once the server is where the dump is to
// begin at least, it says its rows. When its floor is as high as they are, in the same epoch, that version is settled; if
// it is in a later epoch first, its rows there may be others, and the dump is made anew. Clients commit meanwhile, so that
// the floor rises.

// dump takes the request of a dump.
func (a *Agent) dump(n *node, m *bus.Received) {
	var its wire.Dump
	if !a.parse(m, &its, &its.At) || m.Reply == "" {
		return
	}
	go func() {
		told := n.dumpAfter(its)
		told.At = a.bus.Clock.Now()
		a.bus.Reply(m.Reply, told)
	}()
}

// dumpAfter makes a dump, if that can be done in time: one at a time.
func (n *node) dumpAfter(after wire.Dump) wire.Dumped {
	within := time.Duration(after.Within) * time.Millisecond
	if within <= 0 || within > time.Hour {
		within = time.Minute
	}
	if !n.storage.dumping.TryLock() {
		return wire.Dumped{Refused: "another dump of it is made"}
	}
	defer n.storage.dumping.Unlock()
	for late := time.After(within); ; {
		if !n.comes(late, func(its stand) bool { return its.Epoch >= after.Epoch && its.Version >= after.Version }) {
			return wire.Dumped{Refused: fmt.Sprintf("the storage server did not come to version %d in time", after.Version)}
		}
		its, rows, why := n.rows(late)
		if why != "" {
			return wire.Dumped{Refused: why}
		}
		if !n.comes(late, func(now stand) bool { return now.Epoch != its.Epoch || now.Floor >= its.Version }) {
			return wire.Dumped{Refused: fmt.Sprintf("version %d was not settled in time", its.Version)}
		}
		if n.standing().Epoch == its.Epoch {
			return n.keepDump(its, rows)
		}
	}
}

// rows has the node say its rows, and where it is.
func (n *node) rows(late <-chan time.Time) (stand, json.RawMessage, string) {
	said := make(chan *answer, 1)
	away := "the storage server does not answer"
	if !n.put(&item{body: body{Type: "last"}, done: func(its *answer) { said <- its }}) {
		return stand{}, nil, away
	}
	var its *answer
	select {
	case its = <-said:
	case <-late:
	case <-n.stop:
	}
	if its == nil || its.Type == "error" {
		return stand{}, nil, away
	}
	var found stand
	last := raw.Member(its.Last, "storage")
	rows := raw.Member(last, "rows")
	if rows == nil || json.Unmarshal(last, &found) != nil {
		return stand{}, nil, "the storage server does not say its rows"
	}
	return found, rows, ""
}

// standing is where the server is, as far as it said.
func (n *node) standing() stand {
	n.mutex.Lock()
	defer n.mutex.Unlock()
	if n.where.Storage == nil {
		return stand{}
	}
	return *n.where.Storage
}

// comes waits until the server is somewhere. It answers false if it is too late.
func (n *node) comes(late <-chan time.Time, is func(stand) bool) bool {
	for {
		if its := n.standing(); its.Epoch != 0 && is(its) {
			return true
		}
		select {
		case <-n.stop:
			return false
		case <-late:
			return false
		case <-time.After(10 * time.Millisecond):
		}
	}
}

// keepDump writes a dump down. The keys of clients' sessions are of no use to another cluster, and left out.
func (n *node) keepDump(its stand, rows json.RawMessage) wire.Dumped {
	var text bytes.Buffer
	count := uint64(0)
	raw.Elements(rows, func(row []byte) bool {
		var pair [2]string
		if json.Unmarshal(row, &pair) != nil {
			return false
		}
		for _, each := range wire.Sessions {
			if strings.HasPrefix(pair[0], each) {
				return true
			}
		}
		count++
		text.Write(row)
		text.WriteByte('\n')
		return true
	})
	found := wire.Dumped{Machine: n.agent.machine.Name, Epoch: its.Epoch, Version: its.Version, Rows: count}
	head, err := json.Marshal(wire.DumpHead{Cluster: n.agent.config.Cluster, Tag: n.name.First, Epoch: its.Epoch,
		Version: its.Version, Rows: count})
	folder := filepath.Join(n.agent.room, "dumps")
	found.Path = filepath.Join(folder, fmt.Sprintf("%s-%d-%d.jsonl", n.name.Token(), its.Epoch, its.Version))
	if err == nil {
		err = os.MkdirAll(folder, 0o755)
	}
	if err == nil {
		err = WriteFile(found.Path, append(append(head, '\n'), text.Bytes()...))
	}
	if err != nil {
		return wire.Dumped{Refused: err.Error()}
	}
	return found
}
