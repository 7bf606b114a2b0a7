package agent

import (
	"fmt"
	"testing"
	"time"
)

// lines makes a queue of words: "push 3 4" (from, to), "old 3 4" (one that waits since long), "peek", "lock", "hear", "read".
func lines(now time.Time, words ...string) []*item {
	var made []*item
	for _, word := range words {
		it := &item{since: now, key: word}
		it.body.Type = "ask"
		var sort string
		_, _ = fmt.Sscanf(word, "%s %d %d", &sort, &it.from, &it.to)
		it.sort = sort
		switch sort {
		case "old":
			it.sort, it.since = "push", now.Add(-time.Hour)
		case "hear", "read":
			it.body.Type, it.sort = sort, ""
		}
		made = append(made, it)
	}
	return made
}

func shown(its []*item) string {
	text := ""
	for _, it := range its {
		text += "[" + it.key + "]"
	}
	return text
}

func TestGroups(t *testing.T) {
	now := time.Now()
	rows := []struct {
		kind        string
		durable     uint64
		open        bool
		queue       []string
		group, rest string
	}{
		{"log", 3, true, []string{"push 4 5", "peek", "push 3 4"}, "[push 3 4][push 4 5][peek]", ""},
		{"log", 3, true, []string{"push 5 6", "push 3 4", "mark_asked"}, "[push 3 4][mark_asked]", "[push 5 6]"},
		{"log", 3, true, []string{"push 5 6"}, "", "[push 5 6]"},
		{"log", 3, true, []string{"old 5 6"}, "[old 5 6]", ""},
		{"log", 3, false, []string{"push 5 6", "push 3 4"}, "[push 3 4][push 5 6]", ""},
		{"log", 5, true, []string{"push 3 4", "push 2 3"}, "[push 2 3][push 3 4]", ""},
		{"log", 3, true, []string{"lock", "push 3 4"}, "[lock]", "[push 3 4]"},
		{"log", 3, true, []string{"push 3 4", "lock", "peek"}, "[push 3 4][peek]", "[lock]"},
		{"log", 3, true, []string{"pop", "peek"}, "[pop]", "[peek]"},
		{"log", 3, true, []string{"seed", "peek"}, "[seed]", "[peek]"},
		{"cell", 0, false, []string{"read", "write"}, "[read]", "[write]"},
		{"storage", 0, false, []string{"read 1", "hear 1", "hear 2", "read 2"}, "[hear 1][read 1][read 2]", "[hear 2]"},
		{"proxy", 0, false, []string{"hear 1", "hear 2", "submit"}, "[hear 1][hear 2][submit]", ""},
	}
	for _, row := range rows {
		group, rest := next(row.kind, lines(now, row.queue...), row.durable, row.open, now)
		if shown(group) != row.group || shown(rest) != row.rest {
			t.Errorf("%v: %s and %s, wanted %s and %s", row.queue, shown(group), shown(rest), row.group, row.rest)
		}
	}
}

// Nothing is lost or made by grouping, however long the queue is.
func TestGroupsKeepAll(t *testing.T) {
	now := time.Now()
	var words []string
	for at := 0; at < 500; at++ {
		words = append(words, []string{"peek %d", "old %d 9", "lock %d", "hear %d"}[at%4])
		words[at] = fmt.Sprintf(words[at], at)
	}
	for _, kind := range []string{"log", "cell", "storage", "proxy"} {
		queue, seen := lines(now, words...), map[string]bool{}
		for len(queue) > 0 {
			group, rest := next(kind, queue, 0, false, now)
			if len(group) == 0 || len(group) > together+1 || len(group)+len(rest) != len(queue) {
				t.Fatalf("%s: %d of %d, %d are left", kind, len(group), len(queue), len(rest))
			}
			for _, it := range group {
				seen[it.key] = true
			}
			queue = rest
		}
		if len(seen) != 500 {
			t.Errorf("%s: %d lines", kind, len(seen))
		}
	}
}
