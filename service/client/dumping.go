package client

import (
	"context"
	"errors"
	"fmt"
	"strconv"
	"time"

	"fdbrec/service/internal/wire"
)

// Dumped is where a dump is: in a file of a machine, with so many rows as they are at a version that no recovery takes back.
type Dumped struct {
	Machine, Path string
	At            Version
	Rows          uint64
}

// Dump has the agent of a shard's storage server write the shard's rows into a file of its room, with all that was
// acknowledged before. Empty commits are made meanwhile: a version is settled once the logs know of a later commit.
func (c *Client) Dump(ctx context.Context, shard int) (Dumped, error) {
	after, err := c.Commit(ctx)
	if err != nil {
		return Dumped{}, fmt.Errorf("%w in time: no version to dump at", ErrNoCluster)
	}
	one, done := context.WithCancel(ctx)
	defer done()
	go func() {
		for one.Err() == nil {
			_, _ = c.Commit(one)
			_ = pause(one, nil)
		}
	}()
	for last := ErrNoCluster; ; {
		its := wire.Dump{Epoch: after.Epoch, Version: after.Version, Within: time.Minute.Milliseconds(), At: c.bus.Clock.Now()}
		if ends, is := ctx.Deadline(); is {
			// (so that the agent says before the deadline why there is none)
			its.Within = (time.Until(ends) - 300*time.Millisecond).Milliseconds()
		}
		if its.Within <= 0 {
			return Dumped{}, fmt.Errorf("shard %d: %w", shard, last)
		}
		var told wire.Dumped
		err := c.bus.Ask(ctx, its, &told, "dump", strconv.Itoa(shard))
		if err == nil && told.Path != "" {
			return Dumped{told.Machine, told.Path, Version{told.Epoch, told.Version}, told.Rows}, nil
		}
		if told.Refused != "" {
			last = errors.New(told.Refused)
		}
		_ = pause(ctx, nil)
	}
}
