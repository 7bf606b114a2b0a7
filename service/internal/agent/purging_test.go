package agent

import (
	"os"
	"path/filepath"
	"sort"
	"strings"
	"testing"

	"fdbrec/service/internal/names"
	"fdbrec/service/internal/wire"
)

// Once a newer epoch is on disk, what is written down of the nodes of earlier ones goes as they end, but for journals; and
// none of those names is started again.
func TestPurge(t *testing.T) {
	a := agentIn(t)
	order := func(token string) wire.Order {
		name, err := names.Parse(token)
		if err != nil {
			t.Fatal(err)
		}
		return wire.Order{Do: "start", Node: name}
	}
	states := map[string]string{"cell-0": "started", "storage-0": "started", "log-257-0": "dropped", "log-257-1": "started",
		"sequencer-257": "gone", "proxy-257-0": "starting", "proxy-257-1": "ended", "recoverer-513": "ended", "log-513-0": "started",
		"proxy-513-0": "gone"}
	for token, state := range states {
		if err := a.note(order(token), state); err != nil {
			t.Fatal(err)
		}
		for _, folder := range []string{"said", "locks", "journals"} {
			if err := os.WriteFile(filepath.Join(a.room, folder, token), nil, 0o644); err != nil {
				t.Fatal(err)
			}
		}
	}
	a.hosts = map[string]string{"log-257-0": "m1", "proxy-257-0": "m2", "cell-1": "m1", "log-513-1": "m1"}
	left := func(folder string) string {
		its, err := filepath.Glob(filepath.Join(a.room, folder, "*"))
		if err != nil {
			t.Fatal(err)
		}
		for at, path := range its {
			its[at] = strings.TrimSuffix(filepath.Base(path), ".json")
		}
		sort.Strings(its)
		return strings.Join(its, " ")
	}
	gens := []wire.Generation{{Epoch: 257, First: 1, K: 1, M: 2}, {Epoch: 513, First: 9, K: 1, M: 2, SeededTo: 9}}
	a.learn(&wire.Epoch{Epoch: 513, At: 40, Pev: 8, Rv: 9, State: wire.State{Gens: gens}})
	wanted := "cell-0 log-257-1 log-513-0 proxy-257-0 proxy-513-0 recoverer-513 storage-0"
	for _, folder := range []string{"nodes", "said", "locks"} {
		comes(t, folder, func() bool { return left(folder) == wanted })
	}
	if its := left("journals"); strings.Count(its, " ") != len(states)-1 {
		t.Error("journals went:", its)
	}
	if len(a.hosts) != 3 || a.hosts["proxy-257-0"] != "" {
		t.Error("hosts:", a.hosts)
	}
	for _, token := range []string{"sequencer-257", "log-257-0", "log-257-9"} {
		if err := a.obey(order(token)); err == nil || err.Error() != "its epoch is over" {
			t.Errorf("%s is started again: %v", token, err)
		}
	}
	for _, each := range []struct{ do, token string }{{"end", "proxy-257-0"}, {"drop", "log-257-1"}, {"drop", "log-257-1"}} {
		its := order(each.token)
		its.Do = each.do
		if err := a.obey(its); err != nil {
			t.Error(each, err)
		}
	}
	if its := left("nodes"); its != "cell-0 log-513-0 proxy-513-0 recoverer-513 storage-0" {
		t.Error("records that are left:", its)
	}
}
