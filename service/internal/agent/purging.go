package agent

import (
	"os"
	"path/filepath"

	"fdbrec/service/internal/names"
)

// What is written down of a node sees to it that its name is never started again. Once a newer epoch is on disk no node
// of an earlier one is started here at all, so that what says that it was may go: its record, its lock, and what it wrote
// on standard error. Its journal stays, for audits.

// isOver says whether a node is of an epoch before the newest one that is on disk.
func (a *Agent) isOver(name names.Node) bool {
	a.mutex.Lock()
	defer a.mutex.Unlock()
	return name.Epoch() != 0 && name.Epoch() < a.kept
}

// purge erases what is over and was ended: ordered to, or gone.
func (a *Agent) purge() {
	its, err := a.records()
	if err != nil {
		a.log.Warn("records of ended epochs stay", "why", err)
		return
	}
	for _, each := range its {
		name := each.Order.Node
		if !a.isOver(name) || each.State != "gone" && each.State != "ended" && each.State != "dropped" {
			continue
		}
		lock := a.lockOf(name)
		lock.Lock()
		if n := a.find(name.Token()); n != nil {
			a.remove(n)
			a.forget(name)
		}
		err := a.erase(name)
		lock.Unlock()
		if err != nil {
			a.log.Warn("a record of an ended epoch stays", "node", name.Spoken(), "why", err)
		}
	}
}

// erase removes what is written down of a node that is over and ended. The record goes last, so that what a crash leaves
// is erased later.
func (a *Agent) erase(name names.Node) error {
	token := name.Token()
	err := removeAll(append(a.files(name), filepath.Join(a.room, "locks", token), a.said(name),
		filepath.Join(a.room, "nodes", token+".json")))
	if err == nil {
		a.orders.Delete(name)
		a.bus.Counts.Add("nodes erased", 1)
	}
	return err
}

func removeAll(paths []string) error {
	for _, path := range paths {
		if err := os.Remove(path); err != nil && !os.IsNotExist(err) {
			return err
		}
	}
	return nil
}
