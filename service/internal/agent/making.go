package agent

import (
	"errors"
	"os"
	"path/filepath"
	"strings"

	"fdbrec/service/internal/names"
	"fdbrec/service/internal/wire"
)

// A node with files is told to make them exactly if it is new: this agent did not note that they were made, and its
// journal says nothing. Whether files are there does not count: a node whose files are gone has to be told of, and never
// made anew, since it would have forgotten what it promised.
//
// An agent may be killed at any moment. It notes that it is about to make a node ("starting"), has it made, and notes that
// it was ("started"), each on disk before the next step. No file of the node is there at the first note. So where the node
// refuses to be made because it has files, this agent had them made before it was killed, and they are taken as they are.

// What a node says on standard error, with status 3, if its files are not as they have to be.
const isThere = "this node has files"

var refusals = []string{isThere, "no files of this node", "one of this node's two files is missing", "a file is another node's",
	"a file is damaged", "too little room"}

// says says whether a node's process ended with status 3, and with such a text.
func says(err error, texts ...string) bool {
	var its *ended
	if !errors.As(err, &its) || its.code != 3 {
		return false
	}
	for _, text := range texts {
		// (other programs of nodes may say their name before)
		if strings.Contains(its.said, text) {
			return true
		}
	}
	return false
}

// astray is what this agent itself finds wrong with a node's files.
type astray struct{ why string }

func (a *astray) Error() string { return a.why }

// refused is why a node cannot be started over its files, which is said once, or nothing. No time mends that: such a node
// is tried again now and then, for whoever reads of it and puts the files back.
func (n *node) refused(err error, before string) string {
	var its *astray
	if !errors.As(err, &its) && !says(err, refusals...) {
		return ""
	}
	if err.Error() != before {
		n.agent.log.Error("a node cannot be started over its files", "node", n.name.Spoken(), "why", err)
	}
	return err.Error()
}

// noteStart notes that a node is about to be started here for the first time. Files of its name that are there by then are
// not of this agent's making.
func (a *Agent) noteStart(order wire.Order) error {
	if order.Node.HasFiles() {
		folder := filepath.Join(a.room, "files")
		if _, err := os.ReadDir(folder); err != nil {
			return err
		}
		if a.hasFiles(order.Node) {
			return &astray{"it is new, and has files in " + folder + " already"}
		}
	}
	return a.note(order, "starting")
}

// start starts the node's process and greets it. Its files are made if it is new.
func (n *node) start() error {
	switch {
	case !n.name.HasFiles():
		return n.launch(false)
	case n.made || n.journal.Tail.IsThere:
		if !n.agent.hasFiles(n.name) {
			return &astray{"its files are missing in " + filepath.Join(n.agent.room, "files")}
		}
		return n.launch(false)
	}
	err := n.launch(true)
	if says(err, isThere) {
		n.agent.log.Info("files that were made before a kill are taken", "node", n.name.Spoken())
		err = n.launch(false)
	}
	return err
}

// hasFiles says whether a node has a file.
func (a *Agent) hasFiles(name names.Node) bool { return len(a.files(name)) > 0 }
