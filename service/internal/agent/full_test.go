package agent

import (
	"bytes"
	"encoding/json"
	"fmt"
	"os"
	"os/signal"
	"path/filepath"
	"strings"
	"syscall"
	"testing"

	"fdbrec/service/internal/names"
	"fdbrec/service/internal/wire"
)

// fillable is a log that took a pop, with its journal. Room lets no file of this process grow beyond its bytes, until the
// function that it returns is called.
func fillable(t *testing.T) (n *node, pop func(through int), text func() string, room func(bytes int) (end func())) {
	t.Setenv("IS_A_LOG", "yes")
	a := agentIn(t)
	n = a.newNode(wire.Order{Node: names.Node{Kind: "log", First: 257}}, "new")
	go n.serve()
	pop = func(through int) {
		a.deliver(n, &wire.Message{Type: "ask", From: names.Node{Kind: "storage"}, Until: a.bus.Clock.Now() + popLives,
			Ask: json.RawMessage(fmt.Sprintf(`{"log":{"pop":{"epoch":257,"tag":0,"through":%d}}}`, through))})
	}
	text = func() string {
		data, _ := os.ReadFile(filepath.Join(a.room, "journals", "log-257-0", "000001.jsonl"))
		return string(data)
	}
	room = func(bytes int) (end func()) {
		signal.Ignore(syscall.SIGXFSZ)
		var was syscall.Rlimit
		err := syscall.Getrlimit(syscall.RLIMIT_FSIZE, &was)
		if err == nil {
			err = syscall.Setrlimit(syscall.RLIMIT_FSIZE, &syscall.Rlimit{Cur: uint64(bytes), Max: was.Max})
		}
		if err != nil {
			t.Fatal(err)
		}
		return func() { _ = syscall.Setrlimit(syscall.RLIMIT_FSIZE, &was) }
	}
	pop(3)
	comes(t, "a pop", func() bool { return strings.Contains(text(), `{"answer"`) })
	return n, pop, text, room
}

func isFailed(n *node) bool {
	n.mutex.Lock()
	defer n.mutex.Unlock()
	return n.state == "failed" && strings.Contains(n.why, "its journal cannot be written")
}

// A log is full from a push without room until it takes one; other lines without room say nothing of that.
func TestFullLog(t *testing.T) {
	a := agentIn(t)
	n := a.newNode(itsLog, "started")
	full, refused := &answer{Type: "error", Code: 14, Text: "Full"}, &answer{Type: "error", Code: 14, Text: "TooFar"}
	at := func(durable int) *answer {
		return &answer{Type: "ask_ok", Last: json.RawMessage(fmt.Sprintf(`{"log":{"durable":%d}}`, durable))}
	}
	locked := &answer{Type: "ask_ok", Last: json.RawMessage(`{"log":{"durable":8,"stopped":true}}`)}
	for number, row := range []struct {
		sort   string
		its    *answer
		wanted bool
	}{
		{"", at(7), false}, {"pop", full, false}, {"seed", full, false}, {"push", refused, false}, {"push", full, true},
		{"pop", at(7), true}, {"push", at(7), true}, {"push", full, true}, {"push", at(8), false}, {"push", full, true},
		{"lock", locked, false},
	} {
		if n.heed(&item{sort: row.sort}, row.its); n.view().Full != row.wanted {
			t.Errorf("after answer %d, to %s: %v", number, row.sort, !row.wanted)
		}
	}
}

// A node whose journal has no room is given nothing, and is failed. Once there is room it goes on, and is up again.
func TestJournalWithoutRoom(t *testing.T) {
	n, pop, text, room := fillable(t)
	defer func() { n.halt(); <-n.ending }()
	// (a part of the line finds room)
	end := room(len(text()) + 20)
	defer end()
	pop(4)
	comes(t, "that it fails", func() bool { return isFailed(n) })
	end()
	comes(t, "a pop once there is room", func() bool { return strings.Count(text(), `{"answer"`) == 2 })
	comes(t, "that it is up", n.isUp)
	if strings.Count(text(), `{"given"`) != 2 {
		t.Errorf("what was given is not there once: %s", text())
	}
}

// A node that is ended while an answer finds no room does not say in its journal where it stands. It stands behind a line
// whose answer is in no entry, and which is given again at the next start.
func TestEndedWithoutRoom(t *testing.T) {
	n, pop, text, room := fillable(t)
	was := text()
	line := bytes.IndexByte([]byte(was[strings.Index(was, `{"given"`):]), '\n')
	// (the line finds room, and so would where it stands; its answer does not)
	end := room(len(was) + line + 60)
	defer end()
	pop(4)
	comes(t, "that it fails", func() bool { return isFailed(n) })
	n.halt()
	<-n.ending
	if its := text()[len(was):]; !strings.HasPrefix(its, `{"given"`) || strings.Count(its, "\n") != 1 {
		t.Errorf("behind a line without an answer its journal says more: %s", its)
	}
}
