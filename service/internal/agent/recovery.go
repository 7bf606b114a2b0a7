package agent

import (
	"encoding/json"
	"fmt"

	"fdbrec/service/internal/wire"
)

// phase is where a recoverer stands.
func (n *node) phase() string {
	n.mutex.Lock()
	defer n.mutex.Unlock()
	if n.where.Recoverer == nil {
		return ""
	}
	return n.where.Recoverer.Phase
}

// chosen reads the phase `chosen pev P rv R`.
func chosen(phase string) (ends [2]uint64, is bool) {
	count, err := fmt.Sscanf(phase, "chosen pev %d rv %d", &ends[0], &ends[1])
	return ends, err == nil && count == 2
}

// recovers looks at what a recoverer's answer changed, and tells the keepers at once: when it wants to seed, so that
// sequencer and proxies can be started while it writes, and when its state is chosen.
func (n *node) recovers(its *answer) {
	phase := n.phase()
	if phase == "" {
		return
	}
	was := n.view().Recovery
	now := &wire.Recovery{Ballot: n.name.First, Phase: phase}
	if was != nil {
		*now = *was
		now.Phase = phase
	}
	for _, each := range its.Wants {
		now.Look(each[1])
	}
	ends, is := chosen(phase)
	if is && now.Epoch == nil {
		if state := markOf(its.Wants); state != nil {
			now.Epoch = &wire.Epoch{Epoch: n.name.First, At: n.agent.bus.Clock.Now(), Pev: ends[0], Rv: ends[1], State: *state}
		}
	}
	now.IsMarked = now.Epoch != nil && n.asks.isEmpty()
	n.mutex.Lock()
	n.recovery = now
	n.mutex.Unlock()
	if was == nil || was.Phase != now.Phase || was.Seeding != now.Seeding || was.IsMarked != now.IsMarked {
		n.agent.log.Info("recoverer", "ballot", n.name.First, "phase", phase, "seeding", now.Seeding, "marked", now.IsMarked)
		if now.Epoch != nil && (was == nil || was.Epoch == nil) {
			n.agent.bus.Send(now.Epoch, "epoch")
			n.agent.learn(now.Epoch)
		}
		n.agent.sayNow()
	}
}

// markOf is the state in the mark that a chosen recoverer wants its logs to hold.
func markOf(wants [][2]json.RawMessage) *wire.State {
	for _, each := range wants {
		var ask struct {
			Log struct {
				Push *struct {
					Mark *wire.State `json:"mark"`
				} `json:"push"`
			} `json:"log"`
		}
		if json.Unmarshal(each[1], &ask) == nil && ask.Log.Push != nil && ask.Log.Push.Mark != nil {
			return ask.Log.Push.Mark
		}
	}
	return nil
}
