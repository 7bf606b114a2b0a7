package agent

import (
	"fmt"
	"os"
	"path/filepath"
	"strings"
	"testing"
	"time"

	"fdbrec/service/internal/journal"
	"fdbrec/service/internal/names"
	"fdbrec/service/internal/wire"
)

// openFile makes or opens the file of the log that this process is, as its words say, or ends as a node does whose files
// are not as they have to be. What it was told it writes down beside the file. Once, if the environment says so, it ends
// behind that.
func openFile() {
	dir, makes := "", "open"
	for at, word := range os.Args {
		switch word {
		case "--dir":
			dir = os.Args[at+1]
		case "--make":
			makes = "make"
		}
	}
	told, err := os.OpenFile(filepath.Join(dir, "..", "told"), os.O_WRONLY|os.O_CREATE|os.O_APPEND, 0o644)
	if err == nil {
		_, err = fmt.Fprintln(told, makes)
	}
	if err != nil {
		os.Exit(9)
	}
	path := filepath.Join(dir, "log-257-0.0")
	text, err := os.ReadFile(path)
	why := ""
	switch {
	case makes == "make" && len(text) > 0:
		why = "this node has files: none is made in their place"
	case makes == "make":
		err = os.WriteFile(path, []byte("good"), 0o644)
	case os.IsNotExist(err) || len(text) == 0:
		why = "no files of this node: --make makes them"
	case string(text) == "damaged":
		why = "a file is damaged, or none of such a node"
	}
	if why != "" {
		fmt.Fprintln(os.Stderr, why)
		os.Exit(3)
	}
	if its := os.Getenv("DIES_ONCE"); its != "" && os.Remove(its) == nil {
		os.Exit(9)
	}
}

var itsLog = wire.Order{Do: "start", Node: names.Node{Kind: "log", First: 257}}

// told is what the log's processes were told of its file, one after another.
func told(a *Agent) string {
	text, _ := os.ReadFile(filepath.Join(a.room, "told"))
	return strings.Join(strings.Fields(string(text)), " ")
}

func noted(t *testing.T, a *Agent) string {
	its, err := a.recordOf(itsLog.Node)
	if err != nil {
		t.Fatal(err)
	}
	if its == nil {
		return ""
	}
	return its.State
}

func write(t *testing.T, a *Agent, text string) {
	if err := os.WriteFile(filepath.Join(a.room, "files", "log-257-0.0"), []byte(text), 0o644); err != nil {
		t.Fatal(err)
	}
}

// runs runs the log as an agent does that finds this state of it, until it is up or failed, and says which.
func runs(t *testing.T, a *Agent, state string) (string, string) {
	n := a.newNode(itsLog, state)
	go n.serve()
	defer func() { n.halt(); <-n.ending }()
	comes(t, "that it is up or failed", func() bool { its := n.view(); return its.State == "up" || its.State == "failed" })
	its := n.view()
	return its.State, its.Why
}

// A node is told to make its file when it is new, and never again; where the file is gone then it is not started at all.
func TestMadeOnce(t *testing.T) {
	t.Setenv("IS_A_LOG", "yes")
	a := agentIn(t)
	for _, state := range []string{"new", "started", "started"} {
		if its, why := runs(t, a, state); its != "up" || noted(t, a) != "started" {
			t.Fatal(state, its, why, noted(t, a))
		}
	}
	if err := os.Remove(filepath.Join(a.room, "files", "log-257-0.0")); err != nil {
		t.Fatal(err)
	}
	if its, why := runs(t, a, "started"); its != "failed" || why != "its files are missing in "+filepath.Join(a.room, "files") {
		t.Error(its, why)
	}
	if its := told(a); its != "make open open" {
		t.Error("it was told to:", its)
	}
}

// An agent may be killed anywhere between its two notes: before the file is there, when it is empty, when it is made, and
// when the journal says so.
func TestKilledWhileItIsMade(t *testing.T) {
	t.Setenv("IS_A_LOG", "yes")
	for _, row := range []struct {
		name   string
		before func(a *Agent)
		told   string
	}{
		{"no file", func(*Agent) {}, "make"},
		{"an empty file", func(a *Agent) { write(t, a, "") }, "make"},
		{"a file", func(a *Agent) { write(t, a, "good") }, "make open"},
		{"a file and a journal", func(a *Agent) {
			write(t, a, "good")
			its, err := journal.Open(filepath.Join(a.room, "journals", "log-257-0"), a.journals)
			if err == nil {
				err = its.Write(journal.Record{Last: []byte(`{"log":{"durable":0}}`)})
				its.Close()
			}
			if err != nil {
				t.Fatal(err)
			}
		}, "open"},
	} {
		a := agentIn(t)
		if err := a.noteStart(itsLog); err != nil || noted(t, a) != "starting" {
			t.Fatal(err, noted(t, a))
		}
		row.before(a)
		if its, why := runs(t, a, "starting"); its != "up" || noted(t, a) != "started" || told(a) != row.told {
			t.Errorf("%s: %s %s, noted %s, told to %s", row.name, its, why, noted(t, a), told(a))
		}
	}
}

// The node itself may die between: it is started over what it made.
func TestDiesWhileItIsMade(t *testing.T) {
	t.Setenv("IS_A_LOG", "yes")
	a := agentIn(t)
	once := filepath.Join(a.room, "once")
	if err := os.WriteFile(once, nil, 0o644); err != nil {
		t.Fatal(err)
	}
	t.Setenv("DIES_ONCE", once)
	n := a.newNode(itsLog, "new")
	go n.serve()
	defer func() { n.halt(); <-n.ending }()
	comes(t, "that it is up", n.isUp)
	if its := told(a); its != "make make open" {
		t.Error("it was told to:", its)
	}
}

// Files that are there before a node is new are not taken for its own, by no way.
func TestFilesBeforeItIsNew(t *testing.T) {
	t.Setenv("IS_A_LOG", "yes")
	a := agentIn(t)
	write(t, a, "good")
	wanted := "it is new, and has files in " + filepath.Join(a.room, "files") + " already"
	if its, why := runs(t, a, "new"); its != "failed" || why != wanted {
		t.Error(its, why)
	}
	if err := a.obey(itsLog); err == nil || err.Error() != wanted {
		t.Error(err)
	}
	if noted(t, a) != "" || told(a) != "" {
		t.Error("noted", noted(t, a), "told to", told(a))
	}
}

// A node whose files are refused is failed, by what it says, and is not started again at once.
func TestRefusedFiles(t *testing.T) {
	t.Setenv("IS_A_LOG", "yes")
	a := agentIn(t)
	write(t, a, "damaged")
	n := a.newNode(itsLog, "started")
	go n.serve()
	defer func() { n.halt(); <-n.ending }()
	comes(t, "that it is failed", func() bool { return n.view().State == "failed" })
	time.Sleep(500 * time.Millisecond)
	its := n.view()
	if its.State != "failed" || its.Why != "exit status 3: a file is damaged, or none of such a node" || its.Starts != 1 {
		t.Errorf("%+v", its)
	}
}
