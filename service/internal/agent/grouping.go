package agent

import (
	"sort"
	"time"
)

const (
	together = 64                     // so many lines are given together at most
	holding  = 100 * time.Millisecond // so long a push waits for the one before it
)

// next takes the lines off a queue that may be given together, and returns what is left of the queue.
//
// Why not simply all: an agent that is killed loses the answers that lie in the pipe. Its successor gives the lines
// again, in the same order, to a node that may have taken any number of them; and the journal must be that of a node
// which took each where its entry stands. So what goes together has to be told the same again after all of it was taken.
// Pushes in the order of their versions are ("held"), and so are reads behind them. A seed, a lock and a pop change what
// others are told, and go alone. A hear of a storage server goes alone too: `back` settles one. Nodes without files are
// gone with their agent, and take whatever waits.
func next(kind string, queue []*item, durable uint64, isOpen bool, now time.Time) (group, rest []*item) {
	switch kind {
	case "log":
		return nextOfLog(queue, durable, isOpen, now)
	case "cell":
		return queue[:1:1], queue[1:]
	case "storage":
		return nextOfStorage(queue)
	}
	if len(queue) > together {
		return queue[:together:together], queue[together:]
	}
	return queue, nil
}

func isRead(it *item) bool {
	return it.body.Type != "ask" || it.sort == "peek" || it.sort == "mark_asked"
}

func nextOfLog(queue []*item, durable uint64, isOpen bool, now time.Time) (group, rest []*item) {
	if head := queue[0]; head.sort != "push" && !isRead(head) {
		return queue[:1:1], queue[1:]
	}
	var pushes, reads []*item
	for _, it := range queue {
		switch {
		case len(pushes)+len(reads) >= together:
			rest = append(rest, it)
		case it.sort == "push":
			pushes = append(pushes, it)
		case isRead(it):
			reads = append(reads, it)
		default:
			rest = append(rest, it)
		}
	}
	sort.SliceStable(pushes, func(a, b int) bool { return pushes[a].to < pushes[b].to })
	// a log that takes pushes would refuse one behind a gap, which then is asked again: it waits a little instead
	for _, it := range pushes {
		if isOpen && it.from > durable && now.Sub(it.since) < holding {
			rest = append(rest, it)
			continue
		}
		group = append(group, it)
		if it.to > durable && it.from == durable {
			durable = it.to
		}
	}
	return append(group, reads...), rest
}

func nextOfStorage(queue []*item) (group, rest []*item) {
	var others []*item
	for _, it := range queue {
		switch {
		case it.body.Type != "hear" && len(others) < together:
			others = append(others, it)
		case it.body.Type == "hear" && len(group) == 0:
			group = append(group, it)
		default:
			rest = append(rest, it)
		}
	}
	return append(group, others...), rest
}
