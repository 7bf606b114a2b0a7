package script

import (
	"bytes"
	"os"
	"path/filepath"
	"sort"
	"strings"
	"testing"
)

const (
	ofRoom  = `{"cluster":"c","machine":"m0","start":{"coordinators":1,"degree":1,"logs":1,"proxies":1,"shards":[""]}}`
	ofEpoch = `{"epoch":1031,"at":40,"pev":8,"rv":9,"state":[{"epoch":769,"first":1,"k":1,"m":1,"seeded_to":0},` +
		`{"epoch":1031,"first":9,"k":1,"m":1,"seeded_to":9}]}`
	begun = `{"begins":{"stamp":1,"version":0}}` + "\n"
	line  = `{"entries":[{"act":{"crashed":{}},"stamp":7}],"last":null}` + "\n"
)

// at is a room whose newest epoch is 1031, and has logs of 769 beside its own: with journals of ended nodes, and of nodes
// that go on, some of which have older files.
func at(t *testing.T) string {
	room := t.TempDir()
	for path, text := range map[string]string{
		"room.json": ofRoom, "newest.json": ofEpoch, "nodes/log-769-0.json": "{}", "nodes/cell-0.json": "{}",
		"journals/sequencer-257/000001.jsonl": line, "journals/log-257-0/000001.jsonl": line, "journals/log-257-0/000002.jsonl": begun,
		"journals/proxy-513-0/000001.jsonl": line, "journals/recoverer-600/000001.jsonl": line,
		"journals/log-769-0/000001.jsonl": line, "journals/log-769-0/000002.jsonl": begun,
		"journals/log-1031-0/000001.jsonl": line,
		"journals/cell-0/000001.jsonl":     line, "journals/cell-0/000002.jsonl": begun, "journals/cell-0/000003.jsonl": begun,
		// (an agent was killed as it turned: the file before the last one says where the node stands)
		"journals/storage-0/000001.jsonl": line, "journals/storage-0/000002.jsonl": begun + line, "journals/storage-0/000003.jsonl": `{"beg`,
	} {
		put(t, room, path, text)
	}
	return room
}

func put(t *testing.T, room, path, text string) {
	path = filepath.Join(room, path)
	if err := os.MkdirAll(filepath.Dir(path), 0o755); err != nil {
		t.Fatal(err)
	}
	if err := os.WriteFile(path, []byte(text), 0o644); err != nil {
		t.Fatal(err)
	}
}

// left are the files of journals that are left, without their ends.
func left(t *testing.T, room string) string {
	its, err := filepath.Glob(filepath.Join(room, "journals", "*", "*"))
	if err != nil {
		t.Fatal(err)
	}
	for at, path := range its {
		its[at] = filepath.Base(filepath.Dir(path)) + "/" + strings.TrimSuffix(filepath.Base(path), ".jsonl")
	}
	sort.Strings(its)
	return strings.Join(its, " ")
}

// What only an audit wants goes, and all that a restart wants stays; afterwards no script is made.
func TestDrop(t *testing.T) {
	rooms := []string{at(t), at(t)}
	found, err := Drop(rooms, 769)
	if err != nil || found.Nodes != 8 || found.Files != 8 {
		t.Errorf("%+v %v", found, err)
	}
	wanted := "cell-0/000003 log-1031-0/000001 log-769-0/000002 storage-0/000002 storage-0/000003"
	for _, room := range rooms {
		if its := left(t, room); its != wanted {
			t.Error("left:", its)
		}
	}
	if _, _, err := Write(&bytes.Buffer{}, rooms[1:]); err == nil || !strings.Contains(err.Error(), "of epochs before 769 were dropped") {
		t.Error("a script is made:", err)
	}
	// once more, and with an earlier epoch: nothing is left to drop, and the later one stands
	if found, err := Drop(rooms, 257); err != nil || found != (Gone{}) || droppedOf(rooms[0]) != 769 {
		t.Errorf("%+v %v %d", found, err, droppedOf(rooms[0]))
	}
}

// An epoch before which a journal may still be wanted is refused by its reason, and nothing goes in any room.
func TestDropRefused(t *testing.T) {
	for _, each := range []struct {
		name   string
		before uint64
		spoil  func(room string)
		why    string
	}{
		{"a state names them", 770, func(string) {}, "the state of epoch 1031 names the logs of epoch 769: at most --drop-before 769"},
		{"the newest epoch", 1031, func(string) {}, "at most --drop-before 769"},
		{"an epoch to come", 1 << 40, func(string) {}, "at most --drop-before 769"},
		{"a node that was not ended", 769, func(room string) { put(t, room, "nodes/proxy-513-0.json", "{}") }, "proxy 513 0 is not ended yet"},
		{"a log that was not dropped", 513, func(room string) { put(t, room, "nodes/log-257-0.json", "{}") }, "log 257 0 is not ended yet"},
		{"no epoch after the first", 257, func(room string) { _ = os.Remove(filepath.Join(room, "newest.json")) }, "no epoch is over there"},
		{"no newest epoch", 257, func(room string) { put(t, room, "newest.json", `{"epoch":1031}`) }, "newest.json has no epoch"},
		{"no room", 769, func(room string) { _ = os.Remove(filepath.Join(room, "room.json")) }, "room.json"},
		{"another folder", 769, func(room string) { put(t, room, "journals/old/000001.jsonl", line) }, `"old" is no node`},
	} {
		rooms := []string{at(t), at(t)}
		was := left(t, rooms[0])
		each.spoil(rooms[1])
		found, err := Drop(rooms, each.before)
		if err == nil || !strings.Contains(err.Error(), each.why) || found != (Gone{}) {
			t.Errorf("%s: %+v %v", each.name, found, err)
		}
		if left(t, rooms[0]) != was || droppedOf(rooms[0]) != 0 || droppedOf(rooms[1]) != 0 {
			t.Errorf("%s: %s", each.name, left(t, rooms[0]))
		}
	}
}

// A journal whose first file is gone, whoever removed it, makes no script.
func TestLacks(t *testing.T) {
	room := at(t)
	if _, _, err := Write(&bytes.Buffer{}, []string{room}); err != nil {
		t.Error(err)
	}
	if err := os.Remove(filepath.Join(room, "journals/cell-0/000001.jsonl")); err != nil {
		t.Fatal(err)
	}
	if _, _, err := Write(&bytes.Buffer{}, []string{room}); err == nil || !strings.Contains(err.Error(), "cell-0: files before 000002.jsonl are gone") {
		t.Error("a script is made:", err)
	}
}

// A machine that was added once logs or degree had been changed is in the script; one that began otherwise is not.
func TestRooms(t *testing.T) {
	other := strings.Replace(strings.Replace(ofRoom, `"degree":1`, `"degree":2`, 1), `"m0"`, `"m1"`, 1)
	for text, why := range map[string]string{
		strings.Replace(other, "]}}", `]},"joined":true}`, 1): "", other: "began with another config",
	} {
		first, added := at(t), t.TempDir()
		put(t, added, "room.json", text)
		put(t, added, "journals/log-1031-1/000001.jsonl", line)
		for _, rooms := range [][]string{{first, added}, {added, first}} {
			var made bytes.Buffer
			nodes, _, err := Write(&made, rooms)
			is := err == nil && nodes == 9 && strings.Contains(made.String(), `"degree":1`) && !strings.Contains(made.String(), `"degree":2`)
			if why == "" && !is || why != "" && (err == nil || !strings.Contains(err.Error(), why)) {
				t.Errorf("%q: %d nodes, %v", why, nodes, err)
			}
		}
		if _, _, err := Write(&bytes.Buffer{}, []string{added}); why == "" && (err == nil || !strings.Contains(err.Error(), "no room is named")) {
			t.Error("a script of what joined alone:", err)
		}
	}
}
