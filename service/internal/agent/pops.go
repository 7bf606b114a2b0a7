package agent

import (
	"encoding/json"
	"os"
	"path/filepath"

	"fdbrec/service/internal/raw"
)

// A pop must not be entered by a log after its storage server entered a newer state. The server may have dropped the
// log's generation with that state, and a run in which the log lets go of it then is none of those that the theorem
// speaks of. Nobody can tell how long a pop is under way, but which of two entries is the earlier one goes by their stamps.
// So each pop says until which stamp it may be entered, and a log's agent drops it when that is over. A storage server is
// given a state under a later stamp than any of its pops says. So that this holds after a restart of its agent too, a
// bound of what they say is on disk before they leave.
type popStamps struct {
	path   string
	latest uint64 // what the pops sent until now say at most
	kept   uint64 // what is on disk: latest is never above it
}

const (
	popLives  = 1 << 20 // stamps: at 100,000 entries a second this is ten seconds
	popsAhead = 1 << 22 // stamps by which the bound on disk runs ahead, so that it is seldom written
	popSpare  = 1 << 10 // stamps that crashes may take between a pop's line and its entry
)

// open reads the bound of an earlier run.
func (p *popStamps) open() error {
	text, err := os.ReadFile(p.path)
	if os.IsNotExist(err) {
		return nil
	}
	if err == nil {
		err = json.Unmarshal(text, &p.kept)
	}
	p.latest = p.kept
	return err
}

// next is until when a pop that leaves now may be entered.
func (p *popStamps) next(now uint64) (uint64, error) {
	its := now + popLives
	if its > p.kept {
		if err := os.MkdirAll(filepath.Dir(p.path), 0o755); err != nil {
			return 0, err
		}
		if err := writeJSON(p.path, its+popsAhead); err != nil {
			return 0, err
		}
		p.kept = its + popsAhead
	}
	if its > p.latest {
		p.latest = its
	}
	return its, nil
}

// stampFor is the stamp under which lines are given now: of a storage server that is given a state, one that is later
// than its pops may be entered under.
func (n *node) stampFor(group []*item) uint64 {
	clock := n.agent.bus.Clock
	for _, it := range group {
		if n.name.Kind == "storage" && it.body.Type == "hear" && !isOfRecords(it.body.Tell) {
			clock.See(n.storage.pops.latest)
		}
	}
	return clock.Now()
}

// isOfRecords says whether a log's tell brings records, or answers a pop. Any other one may bring a state.
func isOfRecords(tell json.RawMessage) bool {
	kind, _ := raw.Only(raw.Member(tell, "log"))
	return kind == "peeked" || kind == "popped"
}

// isLatePop says whether the stamp of a pop's entry might come after the last one that is allowed. One that the node was
// given before a kill keeps its stamp, and is given again whenever that is.
func isLatePop(group []*item, at uint64) bool {
	return len(group) == 1 && group[0].sort == "pop" && !group[0].regive && at+popSpare > group[0].until
}
