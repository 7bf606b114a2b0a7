package keeper

import (
	"fmt"
	"time"

	"fdbrec/service/internal/agent"
	"fdbrec/service/internal/names"
	"fdbrec/service/internal/wire"
)

// mostLetting is how many nodes are ended at once: each costs its agent some syncs, and orders that matter wait behind.
const mostLetting = 16

// turn looks at all that is known, and does what is due.
func (k *Keeper) turn(now time.Time) {
	if k.bus.Linked() == 0 {
		k.reset(now)
		return
	}
	k.mutex.Lock()
	defer k.mutex.Unlock()
	if k.newest == nil {
		return
	}
	if k.trying != nil {
		k.follow(now)
	}
	k.letGo(now)
	if k.trying != nil || now.Before(k.rest) {
		return
	}
	k.why = k.suspect(now)
	if k.why == "" || !k.isFirst(now) {
		return
	}
	why := k.why
	k.mutex.Unlock()
	k.begin(now, why)
	k.mutex.Lock()
}

// isFirst says whether no keeper with a lower number is there. Two that begin together would only hinder one another.
func (k *Keeper) isFirst(now time.Time) bool {
	for number, heard := range k.keepers {
		if number < k.its.Number && now.Sub(heard) < 2*k.config.Suspect {
			return false
		}
	}
	return now.Sub(k.born) > k.config.Suspect
}

// suspect says why the newest epoch cannot go on, or nothing.
func (k *Keeper) suspect(now time.Time) string {
	gen := k.newest.Last()
	for at := uint64(0); at < gen.M; at++ {
		if why := k.suspectNode(names.Node{Kind: "log", First: k.newest.Epoch, Second: at}, now); why != "" {
			return why
		}
	}
	if why := k.suspectNode(names.Node{Kind: "sequencer", First: k.newest.Epoch}, now); why != "" {
		return why
	}
	for at := uint64(0); at < k.config.Proxies; at++ {
		if why := k.suspectNode(names.Node{Kind: "proxy", First: k.newest.Epoch, Second: at}, now); why != "" {
			return why
		}
	}
	k.wasWell = k.wasWell || len(k.since) == 0
	return ""
}

// suspectNode says why a node cannot be relied on: it is gone, or was not well for as long as is borne.
func (k *Keeper) suspectNode(name names.Node, now time.Time) string {
	token := name.Token()
	why, borne := k.fault(name, now)
	if why == "" {
		delete(k.since, token)
		return ""
	}
	since, is := k.since[token]
	if !is {
		since = now
		k.since[token] = now
	}
	if k.newest.Epoch == agent.First && !k.wasWell {
		borne *= 10 // (the cluster is being started)
	}
	if now.Sub(since) < borne {
		return ""
	}
	return name.Spoken() + " " + why
}

// fault says what is wrong with a node by what its machine says, and for how long that is borne.
func (k *Keeper) fault(name names.Node, now time.Time) (why string, borne time.Duration) {
	its, heard := k.viewOf(name)
	if its == nil {
		return "is on no machine that is heard of", k.config.Suspect
	}
	if heard.Before(k.calm) {
		heard = k.calm
	}
	if now.Sub(heard) > k.config.Suspect {
		return "is on a machine that is silent", 0
	}
	switch its.State {
	case "gone", "ended":
		return "is " + its.State, 0
	case "starting":
		return "is starting", k.config.Start
	case "up":
	default:
		return "is " + its.State + ": " + its.Why, k.config.Suspect
	}
	if its.Full {
		// (a storage server that is there pops soon, and then the log has room again. One that is away has the next epoch
		// begin: what is known to be committed stays in these logs, which can be locked, and are let go later)
		return "has files that are full", k.config.Suspect
	}
	if time.Duration(its.Waiting)*time.Millisecond > k.config.Suspect {
		return "does not answer", k.config.Suspect / 2
	}
	return k.faultOfBatch(name, its, now), 0
}

// faultOfBatch sees whether a proxy's batch is open for longer than is borne, by this keeper's own clock.
func (k *Keeper) faultOfBatch(name names.Node, its *wire.NodeView, now time.Time) string {
	token := name.Token()
	was := k.open[token]
	switch {
	case its.Open == 0:
		delete(k.open, token)
	case was.number != its.Open:
		k.open[token] = openBatch{its.Open, now}
	case now.Sub(was.since) > k.config.Progress:
		return fmt.Sprintf("has had a batch open for %v", k.config.Progress)
	}
	return ""
}

// viewOf is what was said last of a node, and when.
func (k *Keeper) viewOf(name names.Node) (*wire.NodeView, time.Time) {
	var found *wire.NodeView
	var heard time.Time
	for _, each := range k.machines {
		if its := each.alive.Nodes[name.Token()]; its != nil && each.heard.After(heard) {
			found, heard = its, each.heard
		}
	}
	return found, heard
}

// live are the machines that are heard of.
func (k *Keeper) live(now time.Time) []string {
	var found []string
	for _, each := range k.config.Machines {
		if its := k.machines[each.Name]; its != nil && now.Sub(its.heard) < k.config.Suspect/2+k.config.Alive {
			found = append(found, each.Name)
		}
	}
	return found
}

// letGo ends what no state names any more, a while after a newer epoch was opened.
func (k *Keeper) letGo(now time.Time) {
	if now.Sub(k.opened) < 2*k.config.Suspect || k.trying != nil || k.why != "" || !k.isFirst(now) {
		return
	}
	for each, when := range k.dropped {
		if now.Sub(when) > time.Minute {
			delete(k.dropped, each)
		}
	}
	for on, each := range k.machines {
		if now.Sub(each.heard) > k.config.Suspect {
			continue
		}
		for token, its := range each.alive.Nodes {
			name, err := names.Parse(token)
			do := k.mayGo(name, its)
			if err != nil || do == "" || k.letting >= mostLetting || now.Sub(k.dropped[on+token]) < 2*time.Second {
				continue
			}
			k.dropped[on+token] = now
			k.letting++
			go k.end(on, wire.Order{Do: do, Node: name}, now.Add(time.Second))
		}
	}
}

func (k *Keeper) end(on string, order wire.Order, until time.Time) {
	k.order(on, order, until)
	k.mutex.Lock()
	defer k.mutex.Unlock()
	k.letting--
}

// mayGo says what becomes of a node: logs that no later state can name, and what an ended epoch left of the others.
func (k *Keeper) mayGo(name names.Node, its *wire.NodeView) string {
	switch name.Kind {
	case "log":
		if name.First < k.newest.Epoch && !k.newest.State.Names(name.First) {
			return "drop"
		}
	case "sequencer", "proxy":
		if name.First < k.newest.Epoch {
			return "end"
		}
	case "recoverer":
		if name.First < k.newest.Epoch || name.First == k.newest.Epoch && its.Recovery != nil && its.Recovery.IsMarked {
			return "end"
		}
	}
	return ""
}
