package main

import (
	"fmt"
	"os"
	"strconv"

	"fdbrec/service/internal/script"
)

// journals prints the journals of rooms as one script, or drops those that only an audit would want.
func journals(w *words) error {
	if len(w.rest) == 0 {
		return bad("journals wants the rooms of machines")
	}
	if text, is := w.options["drop-before"]; is {
		return dropJournals(text, w.rest)
	}
	nodes, entries, err := script.Write(os.Stdout, w.rest)
	if err != nil {
		return err
	}
	fmt.Fprintf(os.Stderr, "%d entries of %d nodes\n", entries, nodes)
	return nil
}

func dropJournals(text string, rooms []string) error {
	before, err := strconv.ParseUint(text, 10, 62)
	if err != nil {
		return bad("--drop-before: found %q, wanted an epoch", text)
	}
	found, err := script.Drop(rooms, before)
	if err != nil && found == (script.Gone{}) {
		return fmt.Errorf("nothing is dropped: %v", err)
	}
	fmt.Printf("dropped: the journals of %d nodes, and %d older files of others\n", found.Nodes, found.Files)
	return err
}
