package keeper

import (
	"context"
	"fmt"
	"math/rand"
	"sort"
	"time"

	"fdbrec/service/internal/agent"
	"fdbrec/service/internal/names"
	"fdbrec/service/internal/wire"
)

// recovery is one that this keeper began.
type recovery struct {
	ballot   uint64
	logs     uint64
	degree   uint64
	machines []string // the first ones have the logs; those that are poor come last
	sound    int      // so many of them are not poor
	on       string   // the recoverer's machine
	begun    time.Time
	placed   time.Time // when that machine said that the recoverer is there
	until    time.Time
	isOpened bool   // sequencer and proxies were ordered
	refused  string // why an agent refused to start one of its nodes
}

// begin begins a recovery under a ballot that nobody used. It says why it could not.
func (k *Keeper) begin(now time.Time, why string) string {
	k.mutex.Lock()
	defer k.mutex.Unlock()
	live := k.live(now)
	if k.trying != nil {
		return "a recovery is under way"
	}
	if why := k.tooFew(live); why != "" {
		k.why += "; " + why
		return why
	}
	round := k.round
	if k.seen > round {
		round = k.seen
	}
	if err := k.keep(round + 1); err != nil {
		k.log.Error("a round cannot be kept", "why", err)
		k.rest = now.Add(time.Second)
		return err.Error()
	}
	rand.Shuffle(len(live), func(a, b int) { live[a], live[b] = live[b], live[a] })
	its := &recovery{ballot: k.round<<8 + k.its.Number, begun: now}
	its.machines, its.sound = k.choose(live, now)
	live = its.machines
	its.logs, its.degree = least(k.config.Logs, uint64(len(live))), k.config.Degree
	k.config.SetApart(live[:its.sound], agent.SequencerAt(its.logs)%uint64(its.sound))
	its.until = now.Add(k.config.Recovery << uint(least(uint64(k.failed), 3)))
	k.trying = its
	k.log.Warn("recovery", "ballot", its.ballot, "why", why, "machines", len(live), "logs", its.logs, "degree", its.degree)
	k.bus.Counts.Add("recoveries begun", 1)
	its.on = live[rand.Intn(int(its.logs))]
	k.start(its, its.on, names.Node{Kind: "recoverer", First: its.ballot}, wire.Order{})
	// (they are asked nothing before the recoverer seeds them; that they are there by then saves time)
	for at := uint64(0); at < its.logs; at++ {
		k.start(its, live[at], names.Node{Kind: "log", First: its.ballot, Second: at}, wire.Order{})
	}
	return ""
}

func least(a, b uint64) uint64 {
	if a < b {
		return a
	}
	return b
}

// tooFew says why a recovery that these machines alone take part in cannot be chosen, or should not: a state needs most of
// the cells, and a shard is on no fewer logs than the configuration says, each on another machine.
func (k *Keeper) tooFew(live []string) string {
	cells := 0
	for _, name := range live {
		cells += len(k.config.Machine(name).Cells)
	}
	switch {
	case uint64(2*cells) <= k.config.Coordinators:
		return fmt.Sprintf("the machines that are heard have %d of %d cells", cells, k.config.Coordinators)
	case uint64(len(live)) < k.config.Degree:
		return fmt.Sprintf("%d machines are heard, fewer than degree", len(live))
	}
	return ""
}

// choose puts the machines that are not poor first, and says how many those are. If they are enough for a shard's logs the
// others are left out: a log on fewer machines is better than a recovery that waits for a disk that is full.
func (k *Keeper) choose(live []string, now time.Time) ([]string, int) {
	sort.SliceStable(live, func(a, b int) bool { return !k.isPoor(live[a], now) && k.isPoor(live[b], now) })
	sound := len(live)
	for sound > 1 && k.isPoor(live[sound-1], now) {
		sound--
	}
	if uint64(sound) >= k.config.Degree {
		live = live[:sound]
	}
	return live, sound
}

// isPoor says whether a machine has little room, or a node there fails, or it refused to start one: others are taken first.
func (k *Keeper) isPoor(name string, now time.Time) bool {
	if when, is := k.refusing[name]; is && now.Sub(when) < 10*k.config.Suspect {
		return true
	}
	alive := k.machines[name].alive
	for _, each := range alive.Nodes {
		if each.State == "failed" {
			return true
		}
	}
	return alive.Free < 8<<20
}

func (k *Keeper) start(its *recovery, on string, name names.Node, order wire.Order) {
	order.Do, order.Node, order.Logs, order.Degree = "start", name, its.logs, its.degree
	go func() {
		why, is := k.order(on, order, its.until)
		k.mutex.Lock()
		defer k.mutex.Unlock()
		switch {
		case why != "":
			its.refused = on + " refused " + name.Spoken() + ": " + why
			k.refusing[on] = time.Now()
		case is && name.Kind == "recoverer":
			its.placed = time.Now()
		}
	}()
}

// order orders something of an agent until it is done, or refused, or it is too late. It says why it was refused, and
// whether it was done.
func (k *Keeper) order(on string, order wire.Order, until time.Time) (why string, is bool) {
	for time.Now().Before(until) {
		order.At = k.bus.Clock.Now()
		ctx, done := context.WithTimeout(context.Background(), 500*time.Millisecond)
		var told wire.Answer
		err := k.bus.Ask(ctx, order, &told, "agent", on)
		done()
		if err == nil {
			k.bus.Clock.See(told.At)
			if !told.Done {
				k.log.Warn("an order is refused", "machine", on, "do", order.Do, "node", order.Node.Spoken(), "why", told.Why)
			}
			return told.Why, told.Done
		}
		time.Sleep(50 * time.Millisecond)
	}
	k.log.Warn("an order is not answered", "machine", on, "do", order.Do, "node", order.Node.Spoken())
	return "", false
}

// follow looks where the recoverer is. The mutex is held.
func (k *Keeper) follow(now time.Time) {
	its := k.trying
	view, heard := k.viewOf(names.Node{Kind: "recoverer", First: its.ballot})
	switch {
	case now.After(its.until):
		k.log.Warn("recovery", "ballot", its.ballot, "given_up", "it took too long", "phase", phaseOf(view))
		k.giveUp(now, 0)
		k.failed++
	case its.refused != "":
		k.log.Warn("recovery", "ballot", its.ballot, "given_up", its.refused)
		k.giveUp(now, k.config.Alive<<uint(least(uint64(k.refused), 6)))
		k.refused++
	case view == nil && k.hasLost(its, now) != "":
		k.log.Warn("recovery", "ballot", its.ballot, "given_up", k.hasLost(its, now))
		k.giveUp(now, k.config.Alive)
	case view == nil && k.isForgotten(its):
		k.log.Warn("recovery", "ballot", its.ballot, "given_up", "its recoverer is gone with its agent", "machine", its.on)
		k.giveUp(now, 0)
	case view == nil:
	case view.State == "gone" || view.State == "ended":
		k.log.Warn("recovery", "ballot", its.ballot, "given_up", "its recoverer is "+view.State, "why", view.Why)
		// (where no program of a node can be started each one is gone at once: names and folders would grow without end)
		k.giveUp(now, time.Duration(rand.Int63n(int64(k.config.Alive)))<<uint(least(uint64(k.refused), 6)))
		k.refused++
	case k.hasLost(its, now) != "":
		k.log.Warn("recovery", "ballot", its.ballot, "given_up", k.hasLost(its, now))
		k.giveUp(now, k.config.Alive)
	case now.Sub(heard) > 2*k.config.Suspect:
		k.log.Warn("recovery", "ballot", its.ballot, "given_up", "its recoverer's machine is silent")
		k.giveUp(now, 0)
	case view.Recovery == nil:
	case len(view.Recovery.Phase) > 4 && view.Recovery.Phase[:4] == "lost":
		k.log.Warn("recovery", "ballot", its.ballot, "given_up", view.Recovery.Phase)
		k.giveUp(now, k.config.Alive+time.Duration(rand.Int63n(int64(3*k.config.Alive))))
		k.failed++
	case view.Recovery.Seeding && !its.isOpened:
		its.isOpened = true
		k.openEpoch(its, view.Recovery)
	}
}

// isForgotten says whether the recoverer's machine started it and then does not speak of it: its agent was killed in
// between, and a recoverer is started once.
func (k *Keeper) isForgotten(its *recovery) bool {
	each := k.machines[its.on]
	return each != nil && !its.placed.IsZero() && each.heard.Sub(its.placed) > 2*k.config.Alive
}

// hasLost says which log of a recovery cannot be seeded: the recoverer would wait for it in vain.
func (k *Keeper) hasLost(its *recovery, now time.Time) string {
	for at, on := range its.machines[:its.logs] {
		heard := k.calm
		each := k.machines[on]
		if each != nil && each.heard.After(heard) {
			heard = each.heard
		}
		if now.Sub(heard) > k.config.Suspect {
			return on + ", where one of its logs is, is silent"
		}
		name := names.Node{Kind: "log", First: its.ballot, Second: uint64(at)}
		if each == nil || now.Sub(its.begun) < k.config.Suspect {
			continue
		}
		if view := each.alive.Nodes[name.Token()]; view != nil && view.State == "failed" {
			return name.Spoken() + " is failed: " + view.Why
		}
	}
	return ""
}

func phaseOf(view *wire.NodeView) string {
	if view == nil || view.Recovery == nil {
		return "unknown"
	}
	return view.Recovery.Phase
}

// openEpoch has sequencer and proxies started. They do nothing before the epoch is chosen: proxies take no batch.
func (k *Keeper) openEpoch(its *recovery, where *wire.Recovery) {
	on := func(at uint64) string { return its.machines[at%uint64(its.sound)] }
	last, known := where.SeededTo+1, where.First-1
	k.start(its, on(agent.SequencerAt(its.logs)), names.Node{Kind: "sequencer", First: its.ballot}, wire.Order{Last: last})
	for at := uint64(0); at < k.config.Proxies; at++ {
		k.start(its, on(agent.ProxyAt(its.logs, at)), names.Node{Kind: "proxy", First: its.ballot, Second: at}, wire.Order{Known: known})
	}
}

// giveUp ends a recovery: it is chosen, or another one is to be begun. The mutex is held.
func (k *Keeper) giveUp(now time.Time, pause time.Duration) {
	k.trying, k.rest = nil, now.Add(pause)
	k.since = map[string]time.Time{}
}
