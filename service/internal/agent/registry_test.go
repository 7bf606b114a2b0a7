package agent

import (
	"fmt"
	"os"
	"path/filepath"
	"strings"
	"testing"

	"fdbrec/service/internal/bus"
	"fdbrec/service/internal/config"
	"fdbrec/service/internal/names"
	"fdbrec/service/internal/wire"
)

// Each node of the start is on one machine, each log on another one, and the first two proxies beside the sequencer.
func TestFirstNodes(t *testing.T) {
	for machines := 3; machines <= 7; machines++ {
		for proxies := uint64(1); proxies <= 16; proxies += 5 {
			c := &config.Config{Coordinators: 3, Logs: 3, Degree: 2, Proxies: proxies, Shards: []string{"", "6d"}}
			for at := 0; at < machines; at++ {
				c.Machines = append(c.Machines, &config.Machine{Name: fmt.Sprint("m", at)})
			}
			for at := uint64(0); at < 3; at++ {
				c.Machines[at].Cells = []uint64{at}
			}
			c.Machines[machines-1].Storages = []uint64{0, 1}
			on := map[string]string{}
			for _, machine := range c.Machines {
				logs := 0
				for _, order := range FirstNodes(c, machine) {
					token := order.Node.Token()
					if on[token] != "" {
						t.Errorf("%s is on %s and %s", token, on[token], machine.Name)
					}
					on[token] = machine.Name
					if order.Node.Kind == "log" {
						logs++
					}
				}
				if logs > 1 {
					t.Errorf("%d logs are on %s", logs, machine.Name)
				}
			}
			if len(on) != 3+2+3+1+int(proxies) {
				t.Errorf("%d machines, %d proxies: %v", machines, proxies, on)
			}
			if apart := c.Machine(on["sequencer-257"]); len(apart.Storages) > 0 {
				t.Errorf("the sequencer is on %s, which has storage servers", apart.Name)
			}
			for at := uint64(0); at < proxies && at < 2; at++ {
				if its := fmt.Sprint("proxy-257-", at); on[its] != on["sequencer-257"] {
					t.Errorf("%s is on %s, the sequencer on %s", its, on[its], on["sequencer-257"])
				}
			}
		}
	}
}

// Nodes with files are told whose they are, and to make them where they are to; cells and logs how long they may be.
func TestWordsOfFiles(t *testing.T) {
	a := &Agent{config: &config.Config{Node: []string{"node"}, FileRoom: 65536, Cluster: "a-cluster-of-seve"}, room: t.TempDir()}
	if err := os.Mkdir(filepath.Join(a.room, "configs"), 0o755); err != nil {
		t.Fatal(err)
	}
	ours := fmt.Sprintf("--dir %s/files --cluster 86da2ca5dba15bd2", a.room)
	for _, row := range []struct {
		kind       string
		makes      bool
		its, lacks string
	}{
		{"cell", true, ours + " --make --room 65536", "nothing"},
		{"log", false, ours + " --room 65536", "--make"},
		{"storage", true, ours + " --make", "--room"},
		{"storage", false, ours, "--make"},
		{"sequencer", false, "--last 0", "--dir"},
	} {
		its, err := a.words(wire.Order{Node: names.Node{Kind: row.kind, First: 1}}, row.makes)
		found := strings.Join(its, " ")
		if err != nil || !strings.Contains(found, row.its) || strings.Contains(found, row.lacks) {
			t.Errorf("%s: %s, wanted %s, without %s: %v", row.kind, found, row.its, row.lacks, err)
		}
	}
}

// A node judges no stamp: whatever the bus takes is not too far ahead of it.
func TestMostAhead(t *testing.T) {
	a := &Agent{config: &config.Config{Node: []string{"fdbrec", "node"}}}
	order := wire.Order{Node: names.Node{Kind: "sequencer", First: 257}, Last: 1}
	its, err := a.words(order, false)
	wanted := "fdbrec node sequencer --epoch 257 --last 1 --most-ahead 1099511627776"
	if found := strings.Join(its, " "); err != nil || found != wanted {
		t.Errorf("%s and not %s: %v", found, wanted, err)
	}
	clock := &bus.Clock{}
	clock.See(mostAhead - 1)
	if clock.Takes(mostAhead) {
		t.Errorf("the bus takes the stamp %d", mostAhead)
	}
}
