// A journal for an audit: each node appends its acts to a file of its own, and Script joins the files.
//
// Copy this file. Enter an act inside the lock under which the node acts, and before its reply leaves the node.
package main

import (
	"bytes"
	"encoding/json"
	"fmt"
	"io"
	"os"
	"strings"
	"sync"
)

// Journal is the journal of one node. A call writes one line and returns its stamp, which the node's next messages
// carry. What is entered is anything that encoding/json takes. After an error of the file, Close returns it.
type Journal struct {
	mutex sync.Mutex
	file  *os.File
	clock uint64
	err   error
}

type object = map[string]any

// OpenJournal goes on in a file that is there, after a restart. clock: the stamp of the act from which the node exists.
func OpenJournal(path string, node any, clock uint64) (*Journal, error) {
	file, err := os.OpenFile(path, os.O_RDWR|os.O_CREATE|os.O_APPEND, 0o644)
	if err != nil {
		return nil, err
	}
	text, err := io.ReadAll(file)
	if err != nil {
		return nil, err
	}
	whole := text[:bytes.LastIndexByte(text, '\n')+1] // a kill may have cut off the last line
	for _, line := range strings.Split(string(whole), "\n") {
		fmt.Sscanf(line, `{"stamp":%d`, &clock)
	}
	journal := &Journal{file: file, clock: clock, err: file.Truncate(int64(len(whole)))}
	if len(whole) == 0 {
		journal.write(`{"node":%s}`, node)
	}
	return journal, journal.err
}

func (journal *Journal) write(form string, value any) {
	text, err := json.Marshal(value)
	if err == nil && journal.err == nil {
		_, err = fmt.Fprintf(journal.file, form+"\n", text)
	}
	if journal.err == nil {
		journal.err = err
	}
}

// Enter enters an act that took in a message with the stamp seen.
func (journal *Journal) Enter(act any, seen uint64) uint64 {
	journal.mutex.Lock()
	defer journal.mutex.Unlock()
	if journal.clock < seen {
		journal.clock = seen
	}
	journal.clock++
	journal.write(fmt.Sprintf(`{"stamp":%d,"act":%%s}`, journal.clock), act)
	return journal.clock
}

func (journal *Journal) Asked(from, ask, tell any, seen uint64) uint64 {
	return journal.Enter(object{"asked": object{"from": from, "ask": ask, "tell": tell}}, seen)
}

// Heard has the outcome of a proxy's batch, which is nil at other nodes. Taken is nil, but for an answer that a storage
// server applied in part.
func (journal *Journal) Heard(from, tell, outcome, taken any, seen uint64) uint64 {
	return journal.Enter(object{"heard": object{"from": from, "tell": tell, "outcome": outcome, "taken": taken}}, seen)
}

func (journal *Journal) Submitted(batch any, step uint64) uint64 {
	return journal.Enter(object{"submitted": object{"batch": batch, "step": step}}, 0)
}

func (journal *Journal) Crashed() uint64 {
	return journal.Enter(object{"crashed": object{}}, 0)
}

// Close enters the node's last state: without it the audit says "state differs".
func (journal *Journal) Close(last any) error {
	journal.mutex.Lock()
	defer journal.mutex.Unlock()
	journal.write(`{"last":%s}`, last)
	if err := journal.file.Close(); journal.err == nil {
		journal.err = err
	}
	return journal.err
}

// Script is the script that bench/judge takes, of the journals in these files.
func Script(config any, paths ...string) (string, error) {
	var journals []string
	for _, path := range paths {
		text, err := os.ReadFile(path)
		if err != nil {
			return "", err
		}
		node, last, entries := "", "null", []string{}
		lines := strings.Split(string(text), "\n")
		for _, line := range lines[:len(lines)-1] {
			if strings.HasPrefix(line, `{"node":`) {
				node = line[8 : len(line)-1]
			} else if strings.HasPrefix(line, `{"last":`) {
				last = line[8 : len(line)-1]
			} else {
				entries, last = append(entries, line), "null"
			}
		}
		its := fmt.Sprintf(`{"node":%s,"entries":[%s],"last":%s}`, node, strings.Join(entries, ","), last)
		journals = append(journals, its)
	}
	text, err := json.Marshal(config)
	return fmt.Sprintf(`{"config":%s,"journals":[%s]}`, text, strings.Join(journals, ",")), err
}
