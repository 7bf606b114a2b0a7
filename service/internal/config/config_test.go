package config

import (
	"fmt"
	"strings"
	"testing"
	"time"
)

const good = `# a cluster
cluster = "five"
node = ["fdbrec", 'node']
coordinators = 3
logs = 3
degree = 2
proxies = 2
shards = ["",
  "6d"]   # two shards

[nats]
urls = ["nats://127.0.0.1:4222"]
max_payload = 8_388_608

[time]
alive = "50ms"
suspect = "300ms"

[journal]
fsync = true

[[machine]]
name = "m0"
room = "/var/m0"
http = "127.0.0.1:9470"
cells = [0]
storages = [0, 1]

[[machine]]
name = "m1"
room = "/var/m1"
cells = [1]

[[machine]]
name = "m2"
room = "/var/m2"
cells = [2]

[[keeper]]
number = 1
room = "/var/k1"
`

func TestGood(t *testing.T) {
	it, err := Parse("c.toml", good)
	if err != nil {
		t.Fatal(err)
	}
	if it.Cluster != "five" || fmt.Sprint(it.Node) != "[fdbrec node]" || fmt.Sprintf("%q", it.Shards) != `["" "6d"]` ||
		it.MaxPayload != 8388608 || it.Suspect != 300*time.Millisecond || !it.JournalFsync || len(it.Machines) != 3 ||
		fmt.Sprint(it.Machines[0].Storages) != "[0 1]" || it.Keepers[0].Number != 1 {
		t.Errorf("%+v", it)
	}
}

// The example of service/units is one that is read.
func TestExample(t *testing.T) {
	its, err := Read("../../units/service.toml")
	if err != nil || len(its.Machines) != 5 || len(its.Keepers) != 2 || its.Suspect != time.Second {
		t.Errorf("%+v %v", its, err)
	}
}

// Each row changes one text of the good file; its refusal begins with a line of the file, and has a word.
func TestRefusals(t *testing.T) {
	rows := []struct{ old, new, wanted string }{
		{`logs = 3`, `logs = 17`, `c.toml:5: logs: found 17, wanted a number from 1 to 16`},
		{`logs = 3`, `logs = "3"`, `c.toml:5: logs: found "3", wanted a number`},
		{`logs = 3`, `logs = 4`, `c.toml:5: logs: found 4, wanted at most one a machine, and there are 3`},
		{`logs = 3`, `logs = 3.5`, `c.toml:5: found "3.5", wanted a text in quotes, a whole number`},
		{`logs = 3`, `logs == 3`, `c.toml:5: found "=", wanted`},
		{`logs = 3`, `logs = 3 4`, `c.toml:5: found "4", wanted the end of the line`},
		{`logs = 3`, ``, `c.toml:1: logs is missing: wanted a number from 1 to 16`},
		{`logs = 3`, `lugs = 3`, `c.toml:5: there is no key lugs here; cluster, node,`},
		{`degree = 2`, `degree = 4`, `c.toml:6: degree: found 4, wanted at most logs, 3`},
		{`degree = 2`, `logs = 2`, `c.toml:6: logs stands in line 5 already`},
		{`coordinators = 3`, `coordinators = 4`, `c.toml:4: coordinators: found 4, wanted 1, 3, 5, 7 or 9`},
		{`coordinators = 3`, `coordinators = 5`, `c.toml:22: cells: 3 is on no machine`},
		{`cluster = "five"`, `cluster = "a.b"`, `c.toml:2: cluster: found "a.b", wanted a name`},
		{`cluster = "five"`, `cluster = "five`, `c.toml:2: a text does not end on its line`},
		{`cluster = "five"`, `cluster = "\q"`, `c.toml:2: \q is no escape`},
		{`  "6d"]`, `  "6D"]`, `c.toml:8: shards: found a list of 2, wanted 1 to 32 keys in hex`},
		{`["",`, `["61",`, `c.toml:8: shards: key 0 is "61", wanted rising keys`},
		{`  "6d"]   #`, `  "6d"  #`, `c.toml:11: found`},
		{`[nats]`, `[nuts]`, `c.toml:11: there is no table [nuts]`},
		{`[time]`, `[nats]`, `c.toml:15: the table [nats] stands in line 11 already`},
		{`[time]`, `[time`, `c.toml:15: found`},
		{`"nats://127.0.0.1:4222"`, `"http://x"`, `c.toml:12: urls: found a list of 1, wanted addresses`},
		{`8_388_608`, `1000`, `c.toml:13: max_payload: found 1000, wanted a number of bytes`},
		{`"50ms"`, `"50"`, `c.toml:16: alive: found "50", wanted a time as "300ms"`},
		{`"300ms"`, `"60ms"`, `c.toml:1: [time] suspect is 60ms, wanted at least twice alive`},
		{`fsync = true`, `fsync = yes`, `c.toml:20: found "yes", wanted`},
		{`name = "m1"`, `name = "m0"`, `c.toml:29: name: "m0" is another machine's too`},
		{`room = "/var/m1"`, `room = "/var/m0/"`, `c.toml:29: room: "/var/m0/" is another one's too`},
		{`cells = [1]`, `cells = [0]`, `c.toml:29: cells: 0 is on machine "m0" already`},
		{`cells = [1]`, `cells = [3]`, `c.toml:29: cells: found 3, wanted numbers below 3`},
		{`cells = [1]`, `cells = [`, `c.toml:34: found "machine", wanted`},
		{`number = 1`, `number = 0`, `c.toml:40: number: found 0, wanted a number from 1 to 255`},
		{`http = "127.0.0.1:9470"`, `http = "no"`, `c.toml:25: http: found "no", wanted an address`},
	}
	for _, row := range rows {
		if !strings.Contains(good, row.old) {
			t.Errorf("the row of %q changes nothing", row.old)
		}
		_, err := Parse("c.toml", strings.Replace(good, row.old, row.new, 1))
		if err == nil || !strings.HasPrefix(err.Error(), row.wanted) {
			t.Errorf("%q in place of %q: %v, wanted %s", row.new, row.old, err, row.wanted)
		}
	}
}

// A name of 16 bytes is in files as it is; of a longer one they have a hash, which another one does not have.
func TestFileCluster(t *testing.T) {
	for name, wanted := range map[string]string{"five": "five", "a-name-of-sixtee": "a-name-of-sixtee",
		"a-name-of-sixteen": "62b70e1bc6929cad", "a-name-of-sixteem": "47ab7ff1a196dfe0"} {
		if its := (&Config{Cluster: name}).FileCluster(); its != wanted || len(its) > 16 {
			t.Errorf("%s: %s and not %s", name, its, wanted)
		}
	}
}

// Two batches of each proxy, at half of their bytes, take a quarter of a log's room at most.
func TestBatchBytes(t *testing.T) {
	for _, row := range []struct{ payload, room, proxies, wanted int }{
		{64 << 20, 256 << 20, 2, 335544}, {64 << 20, 256 << 20, 16, 335544}, {8 << 20, 256 << 20, 16, 41943},
		{64 << 20, 1 << 20, 2, 116508}, {64 << 20, 1 << 20, 16, 16131},
	} {
		c := &Config{MaxPayload: int64(row.payload), FileRoom: int64(row.room), Proxies: uint64(row.proxies)}
		if its := c.BatchBytes(); its != row.wanted {
			t.Errorf("%+v: %d", row, its)
		}
	}
}

// However a file is cut off it is read or refused, and nothing panics.
func TestCut(t *testing.T) {
	for at := range good {
		_, _ = Parse("c.toml", good[:at])
		_, _ = Parse("c.toml", good[at:])
	}
	if _, err := Parse("c.toml", "cluster = \"\xff\""); err == nil {
		t.Error("bytes that are no UTF-8 are taken")
	}
}
