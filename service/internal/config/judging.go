package config

import (
	"fmt"
	"path/filepath"
)

// judge looks at what several values make together.
func (c *Config) judge(top *Table) error {
	fault := func(key, why string, words ...interface{}) error {
		return &Fault{c.Path, top.Values[key].Line, key + ": " + fmt.Sprintf(why, words...)}
	}
	if len(c.URLs) == 0 {
		return &Fault{c.Path, top.Line, "the table [nats] with urls is missing"}
	}
	if len(c.Machines) == 0 || len(c.Keepers) == 0 {
		return &Fault{c.Path, top.Line, "at least one [[machine]] and one [[keeper]] are wanted"}
	}
	if c.Degree > c.Logs {
		return fault("degree", "found %d, wanted at most logs, %d", c.Degree, c.Logs)
	}
	if int(c.Logs) > len(c.Machines) {
		return fault("logs", "found %d, wanted at most one a machine, and there are %d", c.Logs, len(c.Machines))
	}
	for at, key := range c.Shards {
		if len(key) > 20000 {
			return fault("shards", "key %d has %d bytes, wanted at most 10000", at, len(key)/2)
		}
		if at == 0 && key != "" || at > 0 && key <= c.Shards[at-1] {
			return fault("shards", "key %d is %q, wanted rising keys of which the first is empty", at, key)
		}
	}
	if c.Suspect < 2*c.Alive {
		return &Fault{c.Path, top.Line, fmt.Sprintf("[time] suspect is %v, wanted at least twice alive, %v", c.Suspect, c.Alive)}
	}
	if (c.Certificate == "") != (c.Key == "") {
		return &Fault{c.Path, top.Line, "[nats] certificate and key are wanted together"}
	}
	if err := c.judgeNames(); err != nil {
		return err
	}
	if err := c.judgePlaces("cells", c.Coordinators, func(m *Machine) []uint64 { return m.Cells }); err != nil {
		return err
	}
	return c.judgePlaces("storages", uint64(len(c.Shards)), func(m *Machine) []uint64 { return m.Storages })
}

// judgeNames sees that no two machines or keepers have one name, number or folder.
func (c *Config) judgeNames() error {
	rooms, names := map[string]bool{}, map[string]bool{}
	for _, each := range c.Machines {
		if names[each.Name] {
			return &Fault{c.Path, each.Line, fmt.Sprintf("name: %q is another machine's too", each.Name)}
		}
		if rooms[filepath.Clean(each.Room)] {
			return &Fault{c.Path, each.Line, fmt.Sprintf("room: %q is another one's too", each.Room)}
		}
		names[each.Name], rooms[filepath.Clean(each.Room)] = true, true
	}
	numbers := map[uint64]bool{}
	for _, each := range c.Keepers {
		if numbers[each.Number] {
			return &Fault{c.Path, each.Line, fmt.Sprintf("number: %d is another keeper's too", each.Number)}
		}
		if rooms[filepath.Clean(each.Room)] {
			return &Fault{c.Path, each.Line, fmt.Sprintf("room: %q is another one's too", each.Room)}
		}
		numbers[each.Number], rooms[filepath.Clean(each.Room)] = true, true
	}
	return nil
}

// judgePlaces sees that each cell, or storage server, is on exactly one machine.
func (c *Config) judgePlaces(key string, count uint64, of func(*Machine) []uint64) error {
	on := map[uint64]string{}
	for _, machine := range c.Machines {
		for _, number := range of(machine) {
			if number >= count {
				return &Fault{c.Path, machine.Line, fmt.Sprintf("%s: found %d, wanted numbers below %d", key, number, count)}
			}
			if other, has := on[number]; has {
				return &Fault{c.Path, machine.Line, fmt.Sprintf("%s: %d is on machine %q already", key, number, other)}
			}
			on[number] = machine.Name
		}
	}
	for number := uint64(0); number < count; number++ {
		if _, has := on[number]; !has {
			return &Fault{c.Path, c.Machines[0].Line, fmt.Sprintf("%s: %d is on no machine", key, number)}
		}
	}
	return nil
}
