package keeper

import (
	"time"

	"fdbrec/service/internal/report"
)

// Health says what is wrong with the cluster, as far as this keeper sees, or nothing.
func (k *Keeper) Health() string {
	if k.bus.Linked() == 0 {
		return "no broker"
	}
	k.mutex.Lock()
	defer k.mutex.Unlock()
	switch {
	case k.newest == nil:
		return "no machine is heard of"
	case k.trying != nil:
		return "a recovery is under way"
	}
	return k.why
}

// Metrics are the figures of this keeper.
func (k *Keeper) Metrics() string {
	its, made := k.view(), &report.Metrics{}
	made.Counts(its.Counts)
	k.mutex.Lock()
	defer k.mutex.Unlock()
	made.Add("gauge", "keeper_round", its.Round)
	made.Add("gauge", "keeper_machines_live", len(k.live(time.Now())))
	if k.newest != nil {
		made.Add("gauge", "epoch", k.newest.Epoch)
		made.Add("gauge", "pev", k.newest.Pev)
		made.Add("gauge", "rv", k.newest.Rv)
	}
	return made.String()
}
