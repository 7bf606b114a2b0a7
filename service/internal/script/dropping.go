package script

import (
	"encoding/json"
	"fmt"
	"os"
	"path/filepath"

	"fdbrec/service/internal/agent"
	"fdbrec/service/internal/journal"
	"fdbrec/service/internal/names"
	"fdbrec/service/internal/wire"
)

// An audit wants the journals of all nodes, from the first line on. What only it wants may be dropped, and then there is
// none of this cluster any more: a message whose sender has no journal is one that nobody sent. So each room from which
// anything was dropped says so, and no script is made of it.

// droppedName is the file of a room that says that journals were dropped.
const droppedName = "dropped.json"

type dropped struct {
	Before uint64 `json:"before"`
}

// Gone is what was dropped.
type Gone struct {
	Nodes int // whose journals are gone
	Files int // older files of nodes that go on
}

// one of the rooms, and what goes there.
type leaving struct {
	room    string
	over    []string // folders of journals
	goingOn []string
}

// Drop drops the journals of nodes of epochs before one, and of the other nodes all files but the one in use. Nothing is
// dropped, in no room, if one of them cannot say that this epoch's predecessors are over: if a state may name their logs,
// or one of their nodes was not ended there. Agents may run meanwhile.
func Drop(rooms []string, before uint64) (Gone, error) {
	var all []leaving
	for _, room := range rooms {
		its, err := judge(room, before)
		if err != nil {
			return Gone{}, err
		}
		all = append(all, its)
	}
	var found Gone
	for _, each := range all {
		if err := each.drop(before, &found); err != nil {
			return found, err
		}
	}
	return found, nil
}

// judge says what goes in a room, or why nothing may.
func judge(room string, before uint64) (leaving, error) {
	its := leaving{room: room}
	if _, err := roomOf(room); err != nil {
		return its, err
	}
	text, err := os.ReadFile(filepath.Join(room, "newest.json"))
	if os.IsNotExist(err) {
		return its, fmt.Errorf("%s knows of no recovery: no epoch is over there", room)
	}
	if err != nil {
		return its, err
	}
	var newest wire.Epoch
	if err := json.Unmarshal(text, &newest); err != nil || len(newest.State.Gens) == 0 {
		return its, fmt.Errorf("%s/newest.json has no epoch: %v", room, err)
	}
	if oldest := newest.State.Gens[0].Epoch; before > oldest {
		return its, fmt.Errorf("%s: the state of epoch %d names the logs of epoch %d: at most --drop-before %d",
			room, newest.Epoch, oldest, oldest)
	}
	folders, err := filepath.Glob(filepath.Join(room, "journals", "*"))
	if err != nil {
		return its, err
	}
	for _, folder := range folders {
		name, err := names.Parse(filepath.Base(folder))
		if err != nil {
			return its, fmt.Errorf("%s: %v", folder, err)
		}
		if name.Epoch() == 0 || name.Epoch() >= before {
			its.goingOn = append(its.goingOn, folder)
			continue
		}
		// (a node that has a record may be started again, or its end may have to be entered yet)
		if _, err := os.Stat(filepath.Join(room, "nodes", name.Token()+".json")); err == nil {
			return its, fmt.Errorf("%s: %s is not ended yet; its agent ends it while a keeper is up", room, name.Spoken())
		} else if !os.IsNotExist(err) {
			return its, err
		}
		its.over = append(its.over, folder)
	}
	return its, nil
}

func (l *leaving) drop(before uint64, found *Gone) error {
	if was := droppedOf(l.room); was > before {
		before = was
	}
	text, err := json.Marshal(dropped{before})
	if err == nil {
		err = agent.WriteFile(filepath.Join(l.room, droppedName), append(text, '\n'))
	}
	for _, folder := range l.over {
		if err == nil {
			err = os.RemoveAll(folder)
		}
		if err == nil {
			found.Nodes++
		}
	}
	for _, folder := range l.goingOn {
		if err == nil {
			var count int
			count, err = journal.Drop(folder)
			found.Files += count
		}
	}
	return err
}

// droppedOf is the epoch before which journals of a room were dropped, or 0.
func droppedOf(room string) uint64 {
	var its dropped
	text, err := os.ReadFile(filepath.Join(room, droppedName))
	if err != nil || json.Unmarshal(text, &its) != nil {
		return 0
	}
	return its.Before
}
