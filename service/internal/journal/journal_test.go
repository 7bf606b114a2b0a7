package journal

import (
	"encoding/json"
	"fmt"
	"os"
	"path/filepath"
	"testing"
)

func entry(stamp int, act string) json.RawMessage {
	return json.RawMessage(fmt.Sprintf(`{"act":{%q:{}},"stamp":%d}`, act, stamp))
}

func given(number int) Record { return Record{Given: json.RawMessage(fmt.Sprintf(`{"n":%d}`, number))} }

func answer(stamp int) Record {
	last := json.RawMessage(fmt.Sprintf(`{"storage":{"version":%d}}`, stamp*10))
	return Record{Answer: &Said{[]json.RawMessage{entry(stamp, "asked")}, last}}
}

func open(t *testing.T, folder string, rotate int64) *Journal {
	j, err := Open(folder, Options{Keep: true, Rotate: rotate, Fsync: true})
	if err != nil {
		t.Fatal(err)
	}
	return j
}

// Lines that were given and not answered are found again, in their order; a refusal answers one too.
func TestOpenLines(t *testing.T) {
	folder := t.TempDir()
	j := open(t, folder, 1<<30)
	for _, each := range []Record{given(1), given(2), given(3), answer(7), {Refused: 14}, given(4)} {
		if err := j.Write(each); err != nil {
			t.Fatal(err)
		}
	}
	j.Close()
	tail := open(t, folder, 1<<30).Tail
	if fmt.Sprintf("%s", tail.Open) != `[{"n":3} {"n":4}]` || tail.Stamp != 7 || tail.Version != 70 || !tail.IsThere || tail.Ended {
		t.Errorf("%+v %s", tail, tail.Open)
	}
}

// Wherever the file is cut off, what is found is what its whole lines say, and it goes on from there.
func TestCutAnywhere(t *testing.T) {
	folder := t.TempDir()
	j := open(t, folder, 1<<30)
	records := []Record{given(1), answer(3), given(2), answer(5), {Entries: []json.RawMessage{entry(6, "crashed")}}}
	var ends []int64
	for _, each := range records {
		if err := j.Write(each); err != nil {
			t.Fatal(err)
		}
		ends = append(ends, j.size)
	}
	whole, _ := os.ReadFile(filepath.Join(folder, "000001.jsonl"))
	stamps, opens := []uint64{0, 0, 3, 3, 5, 6}, []int{0, 1, 0, 1, 0, 0}
	for cut := 0; cut <= len(whole); cut++ {
		place := t.TempDir()
		_ = os.WriteFile(filepath.Join(place, "000001.jsonl"), whole[:cut], 0o644)
		count := 0
		for count < len(ends) && ends[count] <= int64(cut) {
			count++
		}
		its, err := Open(place, Options{Keep: true, Rotate: 1 << 30})
		if err != nil {
			t.Fatal(err)
		}
		if its.Tail.Stamp != stamps[count] || len(its.Tail.Open) != opens[count] || its.Tail.Ended != (count == 5) {
			t.Fatalf("cut at %d, after %d records: %+v", cut, count, its.Tail)
		}
		if err := its.Write(given(9)); err != nil {
			t.Fatal(err)
		}
		its.Close()
		if again := open(t, place, 1<<30); len(again.Tail.Open) != opens[count]+1 {
			t.Fatalf("cut at %d: what is written then is lost: %+v", cut, again.Tail)
		}
	}
}

// A file turns only while no line is open; older files can be removed, and the tail is the same.
func TestTurns(t *testing.T) {
	folder := t.TempDir()
	j := open(t, folder, 100)
	for round := 1; round <= 30; round++ {
		if err := j.Write(given(round)); err != nil {
			t.Fatal(err)
		}
		if err := j.Write(answer(round)); err != nil {
			t.Fatal(err)
		}
	}
	if err := j.Write(given(31), given(32), given(33), given(34), given(35), given(36), given(37)); err != nil {
		t.Fatal(err)
	}
	files, _ := Files(folder)
	if len(files) < 10 {
		t.Errorf("%d files", len(files))
	}
	for _, path := range files[:len(files)-1] {
		_ = os.Remove(path)
	}
	tail := open(t, folder, 100).Tail
	if tail.Stamp != 30 || tail.Version != 300 || len(tail.Open) != 7 || !tail.IsThere {
		t.Errorf("%+v", tail)
	}
}

// Wherever a new file is cut off within its first line, the one before says where the node stands, and goes on.
func TestTurnCutOff(t *testing.T) {
	for _, first := range []string{"", `{"begins":{"stamp":7,"ver`} {
		folder := t.TempDir()
		j := open(t, folder, 1<<30)
		if err := j.Write(given(1), answer(7), given(2)); err != nil {
			t.Fatal(err)
		}
		j.Close()
		if err := os.WriteFile(filepath.Join(folder, "000002.jsonl"), []byte(first), 0o644); err != nil {
			t.Fatal(err)
		}
		j = open(t, folder, 1)
		if its := j.Tail; its.Stamp != 7 || its.Version != 70 || len(its.Open) != 1 || !its.IsThere {
			t.Errorf("%q: %+v", first, its)
		}
		if err := j.Write(answer(9)); err != nil {
			t.Fatal(err)
		}
		j.Close()
		files, _ := Files(folder)
		if its := open(t, folder, 1).Tail; its.Stamp != 9 || len(its.Open) != 0 || len(files) != 2 {
			t.Errorf("%q: %+v in %v", first, its, files)
		}
	}
}

func TestNoJournal(t *testing.T) {
	folder := t.TempDir()
	_ = os.WriteFile(filepath.Join(folder, "000001.jsonl"), []byte("{\"given\":1}\nno line\n"), 0o644)
	if _, err := Open(folder, Options{Keep: true}); err == nil {
		t.Error("a line that is none is taken")
	}
	j, err := Open(filepath.Join(folder, "other"), Options{})
	if err != nil || j.Write(given(1)) != nil {
		t.Error("a journal that is not kept fails")
	}
	if _, err := os.Stat(filepath.Join(folder, "other")); err == nil {
		t.Error("a journal that is not kept makes a folder")
	}
}
