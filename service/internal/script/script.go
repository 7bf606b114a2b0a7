// Package script makes one script of an audit of the journals of several machines.
package script

import (
	"bufio"
	"encoding/json"
	"fmt"
	"io"
	"os"
	"path/filepath"
	"sort"

	"fdbrec/service/internal/agent"
	"fdbrec/service/internal/journal"
	"fdbrec/service/internal/names"
)

// one is the journal of a node.
type one struct {
	Entries []json.RawMessage `json:"entries"`
	Last    json.RawMessage   `json:"last"`
	Node    names.Node        `json:"node"`
}

// Write writes the script of all journals in these rooms. It says of how many nodes and entries.
func Write(to io.Writer, rooms []string) (nodes, entries int, err error) {
	var start *agent.Start
	found := map[names.Node]string{}
	for _, room := range rooms {
		its, err := roomOf(room)
		if err != nil {
			return 0, 0, err
		}
		if before := droppedOf(room); before > 0 {
			return 0, 0, fmt.Errorf("%s: its journals of epochs before %d were dropped, and an audit wants all of them", room, before)
		}
		switch {
		case its.Joined: // (logs, degree and proxies may have been changed by then)
		case start == nil:
			start = &its.Start
		case fmt.Sprint(*start) != fmt.Sprint(its.Start):
			return 0, 0, fmt.Errorf("%s began with another config than a room before it", room)
		}
		folders, err := filepath.Glob(filepath.Join(room, "journals", "*"))
		if err != nil {
			return 0, 0, err
		}
		for _, folder := range folders {
			name, err := names.Parse(filepath.Base(folder))
			if err != nil {
				return 0, 0, fmt.Errorf("%s: %v", folder, err)
			}
			if other, is := found[name]; is {
				return 0, 0, fmt.Errorf("%s has two journals, %s and %s", name.Spoken(), other, folder)
			}
			found[name] = folder
		}
	}
	if start == nil {
		return 0, 0, fmt.Errorf("no room is named of a machine with which the cluster began")
	}
	return write(to, start, found)
}

func roomOf(room string) (*agent.Room, error) {
	text, err := os.ReadFile(filepath.Join(room, "room.json"))
	if err != nil {
		return nil, err
	}
	its := &agent.Room{}
	if err := json.Unmarshal(text, its); err != nil {
		return nil, fmt.Errorf("%s/room.json: %v", room, err)
	}
	return its, nil
}

func write(to io.Writer, start *agent.Start, found map[names.Node]string) (nodes, entries int, err error) {
	config, err := json.Marshal(start)
	if err != nil {
		return 0, 0, err
	}
	out := bufio.NewWriter(to)
	fmt.Fprintf(out, `{"config":%s,"journals":[`, config)
	order := []names.Node{}
	for name := range found {
		order = append(order, name)
	}
	sort.Slice(order, func(a, b int) bool { return order[a].Token() < order[b].Token() })
	for _, name := range order {
		its, err := Read(found[name])
		if err != nil {
			return 0, 0, err
		}
		if len(its.Entries) == 0 {
			continue // (a node that did nothing needs no journal)
		}
		its.Node = name
		text, err := json.Marshal(its)
		if err != nil {
			return 0, 0, err
		}
		if nodes > 0 {
			fmt.Fprint(out, ",")
		}
		_, _ = out.Write(text)
		nodes, entries = nodes+1, entries+len(its.Entries)
	}
	fmt.Fprintln(out, "]}")
	return nodes, entries, out.Flush()
}

// Read reads the journal in a folder: its entries, and where the node stood at last.
func Read(folder string) (*one, error) {
	files, err := journal.Files(folder)
	if err != nil {
		return nil, err
	}
	its := &one{Entries: []json.RawMessage{}}
	if len(files) > 0 && filepath.Base(files[0]) != "000001.jsonl" {
		return nil, fmt.Errorf("%s: files before %s are gone, and an audit wants all of them", folder, filepath.Base(files[0]))
	}
	for _, path := range files {
		if err := its.take(path); err != nil {
			return nil, err
		}
	}
	if its.Last == nil {
		its.Last = json.RawMessage("null")
	}
	return its, nil
}

func (o *one) take(path string) error {
	file, err := os.Open(path)
	if err != nil {
		return err
	}
	defer func() { _ = file.Close() }()
	for lines := bufio.NewReaderSize(file, 1<<20); ; {
		line, err := lines.ReadBytes('\n')
		if err == io.EOF {
			return nil // (a last line that was cut off is none)
		}
		if err != nil {
			return err
		}
		var record journal.Record
		if err := json.Unmarshal(line, &record); err != nil {
			return fmt.Errorf("%s: no line of a journal: %v", path, err)
		}
		entries, last := record.Entries, record.Last
		if record.Answer != nil {
			entries, last = record.Answer.Entries, record.Answer.Last
		}
		o.Entries = append(o.Entries, entries...)
		if last != nil {
			o.Last = last
		}
	}
}
