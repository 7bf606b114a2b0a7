package main

import (
	"context"
	"encoding/json"
	"fmt"
	"os"
	"sort"
	"time"

	"fdbrec/service/internal/bus"
	"fdbrec/service/internal/config"
	"fdbrec/service/internal/wire"
)

func (w *words) bus() (*config.Config, *bus.Bus, error) {
	its, err := w.config()
	if err != nil {
		return nil, nil, err
	}
	found, err := bus.Connect(its, fmt.Sprintf("client-%d", os.Getpid()), its.Nkey, nil, 2*time.Second)
	return its, found, err
}

// recoverNow asks the keepers for a recovery.
func recoverNow(w *words) error {
	_, its, err := w.bus()
	if err != nil {
		return err
	}
	defer its.Close()
	ctx, done := context.WithTimeout(context.Background(), 3*time.Second)
	defer done()
	var told wire.Answer
	if err := its.Ask(ctx, struct{}{}, &told, "recover"); err != nil {
		return fmt.Errorf("no keeper answers: %v", err)
	}
	if !told.Done {
		return fmt.Errorf("no recovery begins: %s", told.Why)
	}
	fmt.Println("a recovery begins")
	return nil
}

// standing is what is known of a cluster.
type standing struct {
	Machines map[string]*wire.Alive      `json:"machines"`
	Keepers  map[uint64]*wire.KeeperView `json:"keepers"`
	Newest   wire.Epoch                  `json:"newest"`
}

func status(w *words) error {
	its, broker, err := w.bus()
	if err != nil {
		return err
	}
	defer broker.Close()
	found := &standing{map[string]*wire.Alive{}, map[uint64]*wire.KeeperView{}, wire.Epoch{}}
	err = broker.Collect(500*time.Millisecond, struct{}{}, found.take, "status")
	if err != nil {
		return err
	}
	if w.options["json"] != "" {
		text, err := json.MarshalIndent(found, "", " ")
		fmt.Println(string(text))
		return err
	}
	found.print(its)
	if len(found.Machines) == 0 {
		return &ending{1, "no machine answers"}
	}
	return nil
}

func (s *standing) take(data []byte) {
	alive, keeper := &wire.Alive{}, &wire.KeeperView{}
	if json.Unmarshal(data, alive) == nil && alive.Machine != "" {
		s.Machines[alive.Machine] = alive
		if alive.Newest.Epoch > s.Newest.Epoch {
			s.Newest = alive.Newest
		}
	} else if json.Unmarshal(data, keeper) == nil && keeper.Number != 0 {
		s.Keepers[keeper.Number] = keeper
	}
}

// stands is as much of a last state as is printed.
type stands struct {
	Log       *struct{ Durable, Known uint64 }
	Storage   *struct{ Epoch, Floor, Version uint64 }
	Sequencer *struct{ Last uint64 }
	Recoverer *struct{ Phase string }
}

func (s *standing) print(its *config.Config) {
	gen := s.Newest.Last()
	oldest := uint64(0)
	if len(s.Newest.State.Gens) > 0 {
		oldest = s.Newest.State.Gens[0].Epoch
	}
	fmt.Printf("cluster %s epoch %d pev %d rv %d logs %d degree %d generations %d oldest %d dropped %d\n", its.Cluster,
		s.Newest.Epoch, s.Newest.Pev, s.Newest.Rv, gen.M, gen.K, len(s.Newest.State.Gens), oldest, s.Newest.State.Dropped)
	durable := uint64(0)
	for _, each := range s.Machines {
		for _, node := range each.Nodes {
			var where stands
			if json.Unmarshal(node.Last, &where) == nil && where.Log != nil && where.Log.Durable > durable {
				durable = where.Log.Durable
			}
		}
	}
	for _, machine := range its.Machines {
		each := s.Machines[machine.Name]
		if each == nil {
			fmt.Printf("machine %s does not answer\n", machine.Name)
			continue
		}
		fmt.Printf("machine %s free_mb %d fsync_p99_ms %.2f\n", machine.Name, each.Free>>20, each.Fsync)
		tokens := []string{}
		for token := range each.Nodes {
			tokens = append(tokens, token)
		}
		sort.Strings(tokens)
		for _, token := range tokens {
			fmt.Printf("  %-20s %s\n", token, shownNode(each.Nodes[token], durable))
		}
	}
	for _, keeper := range its.Keepers {
		if each := s.Keepers[keeper.Number]; each != nil {
			fmt.Printf("keeper %d round %d trying %d %s\n", each.Number, each.Round, each.Trying, each.Why)
		} else {
			fmt.Printf("keeper %d does not answer\n", keeper.Number)
		}
	}
}

func shownNode(node *wire.NodeView, durable uint64) string {
	text := fmt.Sprintf("%-8s unanswered %d for_ms %d p99_ms %.1f refused %d", node.State, node.Lines, node.Waiting, node.Slow, node.Errors)
	var where stands
	if json.Unmarshal(node.Last, &where) == nil {
		switch {
		case where.Log != nil:
			text += fmt.Sprintf(" durable %d known %d file_kb %d", where.Log.Durable, where.Log.Known, node.Bytes>>10)
			if node.Full {
				text += " full"
			}
		case where.Storage != nil:
			lag := uint64(0)
			if durable > where.Storage.Version {
				lag = durable - where.Storage.Version
			}
			text += fmt.Sprintf(" epoch %d version %d floor %d lag %d", where.Storage.Epoch, where.Storage.Version, where.Storage.Floor, lag)
		case where.Sequencer != nil:
			text += fmt.Sprintf(" last %d", where.Sequencer.Last)
		case where.Recoverer != nil:
			text += " " + where.Recoverer.Phase
		}
	}
	if node.Why != "" {
		text += " (" + node.Why + ")"
	}
	return text
}
