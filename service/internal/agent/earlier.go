package agent

import (
	"encoding/json"
	"fmt"
)

// isEarlier says whether a node stands before where it once said that it stood: its files are of an earlier moment. They do
// not tell that themselves if they were put back whole, or if the log of a database was cut or removed. What a node said
// was on its disk, and each of these numbers only rises, but for a storage server's version: a hear that no answer came to
// may have taken that back, and a later epoch too.
func isEarlier(before, now where, isOpen bool) bool {
	switch {
	case before.Cell != nil && now.Cell != nil:
		was, is := before.Cell, now.Cell
		return is.Promised < was.Promised || is.Written < was.Written
	case before.Log != nil && now.Log != nil:
		was, is := before.Log, now.Log
		return is.Durable < was.Durable || is.Known < was.Known || was.Seeded && !is.Seeded || was.Stopped && !is.Stopped
	case before.Storage != nil && now.Storage != nil:
		was, is := before.Storage, now.Storage
		isBack := !isOpen && is.Epoch == was.Epoch && is.Version < was.Version
		return is.Epoch < was.Epoch || is.Floor < was.Floor || isBack
	}
	return false
}

// beforeLast is what is wrong with a node's files if it stands before where its journal last had it; else nothing.
func (n *node) beforeLast(stands json.RawMessage) error {
	var before, now where
	tail := n.journal.Tail
	if !tail.IsThere || json.Unmarshal(tail.Last, &before) != nil || json.Unmarshal(stands, &now) != nil {
		return nil
	}
	if isEarlier(before, now, len(tail.Open) > 0) {
		return &astray{fmt.Sprintf("its files are of an earlier moment: by its journal it was at %s, and by them it is at %s", tail.Last, stands)}
	}
	return nil
}
