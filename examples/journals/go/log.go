package main

import (
	"reflect"
	"sort"
)

type batch []object

type record struct {
	Batch   batch  `json:"batch"`
	Version uint64 `json:"version"`
}

type push struct {
	Bodies  [][2]any `json:"bodies"` // a tag and its batch
	Epoch   uint64   `json:"epoch"`
	Known   uint64   `json:"known"`
	Mark    any      `json:"mark"`
	Prev    uint64   `json:"prev"`
	Version uint64   `json:"version"`
}

type peeked struct {
	After   uint64   `json:"after"`
	Known   uint64   `json:"known"`
	Records []record `json:"records"`
	Tag     uint64   `json:"tag"`
	Upto    uint64   `json:"upto"`
}

// It is seeded and holds the mark at version 1, as every log does at the start.
type logNode struct {
	node
	durable, known, popped uint64
	isStopped, hasPopped   bool
	pushes                 map[uint64]push
	records                []record // those that are not popped
}

func (log *logNode) push(from object, ask push, seen uint64) (object, uint64) {
	return log.asked(from, "log", "push", ask, seen, func() object {
		held, isThere := log.pushes[ask.Version]
		switch {
		case isThere && held.Prev == ask.Prev && reflect.DeepEqual(held.Bodies, ask.Bodies):
			return object{"held": object{"version": ask.Version}}
		case log.isStopped:
			return refused("stopped", object{})
		case ask.Prev < log.durable:
			return refused("stale", object{})
		case ask.Prev > log.durable:
			return refused("gap", object{"durable": log.durable})
		}
		log.pushes[ask.Version] = ask
		log.durable = ask.Version
		if log.known < ask.Known {
			log.known = ask.Known
		}
		if bug != "forgets" || ask.Version != 5 {
			log.records = append(log.records, record{ask.Bodies[0][1].(batch), ask.Version})
		}
		return object{"held": object{"version": ask.Version}}
	})
}

func (log *logNode) lock(from object, seen uint64) (object, uint64) {
	return log.asked(from, "log", "lock", object{"epoch": 257}, seen, func() object {
		log.isStopped = true
		return object{"locked": log.shown(object{"durable": log.durable, "known": log.known})}
	})
}

func (log *logNode) peek(from object, after, most, seen uint64) (object, uint64) {
	ask := object{"after": after, "epoch": 257, "most": most, "tag": 0}
	return log.asked(from, "log", "peek", ask, seen, func() object {
		if after < log.popped {
			return refused("removed", object{"through": log.popped})
		}
		at := sort.Search(len(log.records), func(at int) bool { return log.records[at].Version > after })
		given, upto := append([]record{}, log.records[at:]...), log.durable
		if uint64(len(given)) > most {
			given, upto = given[:most], given[most-1].Version
		}
		return object{"peeked": peeked{after, log.known, given, 0, upto}}
	})
}

func (log *logNode) pop(from object, through, seen uint64) (object, uint64) {
	ask := object{"epoch": 257, "tag": 0, "through": through}
	return log.asked(from, "log", "pop", ask, seen, func() object {
		if log.known < through {
			through = log.known
		}
		if log.popped < through {
			log.popped = through
		}
		log.hasPopped = true
		at := sort.Search(len(log.records), func(at int) bool { return log.records[at].Version > log.popped })
		log.records = log.records[at:]
		return object{"popped": object{"through": log.popped}}
	})
}

// kill is a kill in the middle of a line of the journal, and a restart: what the log kept is on its disk.
func (log *logNode) kill() error {
	log.mutex.Lock()
	defer log.mutex.Unlock()
	log.journal.file.WriteString(`{"stamp":9`)
	log.journal.file.Close()
	journal, err := OpenJournal(log.path, log.name, 0)
	if err == nil {
		log.journal = journal
		log.journal.Crashed()
	}
	return err
}

// shown adds the version through which the tag is popped, if it is.
func (log *logNode) shown(its object) object {
	if log.hasPopped {
		its["popped"] = [][2]uint64{{0, log.popped}}
	}
	return its
}

func (log *logNode) last() any {
	its := object{"durable": log.durable, "known": log.known, "seeded": true, "stopped": log.isStopped}
	return object{"log": log.shown(its)}
}
