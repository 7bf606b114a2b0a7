package agent

import (
	"encoding/json"
	"path/filepath"
	"strings"
	"testing"

	"fdbrec/service/internal/journal"
)

// What only rises has not fallen; a storage server's version may, with its epoch, or by a hear that was not answered.
func TestIsEarlier(t *testing.T) {
	for _, row := range []struct {
		before, now string
		open, is    bool
	}{
		{`{"cell":{"promised":513,"value":"","written":257}}`, `{"cell":{"promised":513,"value":"","written":257}}`, false, false},
		{`{"cell":{"promised":513,"value":"","written":257}}`, `{"cell":{"promised":769,"value":"","written":769}}`, false, false},
		{`{"cell":{"promised":513,"value":"","written":257}}`, `{"cell":{"promised":257,"value":"","written":257}}`, true, true},
		{`{"cell":{"promised":513,"value":"","written":513}}`, `{"cell":{"promised":513,"value":"","written":257}}`, false, true},
		{`{"log":{"durable":9,"known":7,"seeded":true,"stopped":false}}`, `{"log":{"durable":9,"known":7,"seeded":true,"stopped":true}}`, false, false},
		{`{"log":{"durable":9,"known":7,"seeded":true,"stopped":false}}`, `{"log":{"durable":8,"known":7,"seeded":true,"stopped":false}}`, true, true},
		{`{"log":{"durable":9,"known":7,"seeded":true,"stopped":false}}`, `{"log":{"durable":9,"known":6,"seeded":true,"stopped":false}}`, true, true},
		{`{"log":{"durable":9,"known":7,"seeded":true,"stopped":true}}`, `{"log":{"durable":9,"known":7,"seeded":true,"stopped":false}}`, true, true},
		{`{"log":{"durable":0,"known":0,"seeded":true,"stopped":false}}`, `{"log":{"durable":0,"known":0,"seeded":false,"stopped":false}}`, true, true},
		{`{"storage":{"epoch":513,"floor":4,"version":9}}`, `{"storage":{"epoch":513,"floor":5,"version":9}}`, false, false},
		{`{"storage":{"epoch":513,"floor":4,"version":9}}`, `{"storage":{"epoch":769,"floor":4,"version":6}}`, false, false},
		{`{"storage":{"epoch":513,"floor":4,"version":9}}`, `{"storage":{"epoch":513,"floor":4,"version":8}}`, true, false},
		{`{"storage":{"epoch":513,"floor":4,"version":9}}`, `{"storage":{"epoch":513,"floor":4,"version":8}}`, false, true},
		{`{"storage":{"epoch":513,"floor":4,"version":9}}`, `{"storage":{"epoch":257,"floor":4,"version":9}}`, true, true},
		{`{"storage":{"epoch":513,"floor":4,"version":9}}`, `{"storage":{"epoch":513,"floor":3,"version":9}}`, true, true},
		{`{"storage":{"epoch":513,"floor":4,"version":9}}`, `{"storage":{"epoch":257,"floor":0,"version":0}}`, true, true},
	} {
		var before, now where
		if json.Unmarshal([]byte(row.before), &before) != nil || json.Unmarshal([]byte(row.now), &now) != nil {
			t.Fatal(row)
		}
		if its := isEarlier(before, now, row.open); its != row.is {
			t.Errorf("%s after %s: %v", row.now, row.before, its)
		}
	}
}

// A log that is behind its journal is not started over what it has; one that is not goes on. (The log of these tests is at
// version 1.)
func TestEarlierFiles(t *testing.T) {
	t.Setenv("IS_A_LOG", "yes")
	for durable, wanted := range map[string]string{"1": "up", "2": "failed"} {
		a := agentIn(t)
		write(t, a, "good")
		its, err := journal.Open(filepath.Join(a.room, "journals", "log-257-0"), a.journals)
		if err == nil {
			err = its.Write(journal.Record{Last: []byte(`{"log":{"durable":` + durable + `}}`)})
			its.Close()
		}
		if err != nil {
			t.Fatal(err)
		}
		is, why := runs(t, a, "started")
		if is != wanted || (is == "failed") != strings.HasPrefix(why, "its files are of an earlier moment: ") {
			t.Error(durable, is, why)
		}
	}
}
