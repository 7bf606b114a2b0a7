package client

import (
	"context"
	"errors"
	"fmt"
	"strings"
	"time"

	"fdbrec/service/internal/wire"
)

// attempt is a put: its id, the key of its session that gets its number, and all of its mutations. One without
// mutations has no key.
type attempt struct {
	id, key, number string
	its             []Mutation
}

// try makes a put in an epoch. If it is to be made again, an error says that first another epoch has to be there. The
// proxy's agent knows a put by its id, so that it can be asked again as long as the epoch lasts.
func (c *Client) try(ctx context.Context, epoch uint64, put attempt) (Version, bool, error) {
	proxy := c.proxy()
	for isSent := false; ; {
		var told wire.Submitted
		one, done := c.whileIn(ctx, epoch, 400*time.Millisecond)
		err := c.submit(one, epoch, proxy, put.id, put.its, &told)
		done()
		switch {
		case err == nil && told.Committed:
			return Version{told.Epoch, told.Version}, false, nil
		case err == nil && told.IsBad && !isSent:
			return Version{}, false, errors.New(told.Refused)
		case err == nil && told.Refused != "" && !isSent:
			c.widen()
			return Version{}, true, pause(ctx, nil)
		case err == nil && told.Ended:
			return c.ended(ctx, epoch, &told, put)
		case err == nil:
			return c.settle(ctx, epoch, put)
		case isNobody(err) && !isSent:
			return Version{}, true, pause(ctx, nil)
		case !isNobody(err):
			isSent = true
		}
		if later, _ := c.known(); later > epoch {
			return c.settle(ctx, epoch, put)
		}
		if ctx.Err() != nil {
			return Version{}, false, fmt.Errorf("%w: %v", ErrUnknown, ctx.Err())
		}
		_ = pause(ctx, nil)
	}
}

func isNobody(err error) bool { return err != nil && strings.Contains(err.Error(), "no responders") }

func pause(ctx context.Context, err error) error {
	select {
	case <-ctx.Done():
	case <-time.After(20 * time.Millisecond):
	}
	return err
}

var errAgain = errors.New("it was not committed in this epoch")

// ended finds out what became of a put whose epoch ended, by its version: the next epoch took over all versions through
// one, and no others.
func (c *Client) ended(ctx context.Context, epoch uint64, told *wire.Submitted, put attempt) (Version, bool, error) {
	if _, err := c.epoch(ctx, epoch); err != nil {
		return Version{}, false, fmt.Errorf("%w: the epoch did not end in time", ErrUnknown)
	}
	c.mutex.Lock()
	next, is := c.newest.After(epoch)
	c.mutex.Unlock()
	switch {
	case !is:
		return c.settle(ctx, epoch, put)
	case told.Version != 0 && told.Version <= next.SeededTo:
		return Version{epoch, told.Version}, false, nil
	}
	return Version{}, true, errAgain
}

// settle finds out what became of a put whose answer was lost. Once a storage server is in a later epoch, what it does
// not show there was not committed, and never will be.
func (c *Client) settle(ctx context.Context, epoch uint64, put attempt) (Version, bool, error) {
	for {
		later, err := c.epoch(ctx, epoch)
		if err != nil {
			return Version{}, false, fmt.Errorf("%w: the epoch did not end in time", ErrUnknown)
		}
		if put.key == "" {
			return Version{}, true, errAgain
		}
		_, least := c.known()
		one, done := context.WithTimeout(ctx, 600*time.Millisecond)
		its := wire.Read{Key: put.key, Mode: "after", Epoch: later, Version: least}
		got, err := c.ask(one, its)
		done()
		if err == nil && got.Value != nil && *got.Value == put.number {
			return Version{later, got.Version}, false, nil
		}
		if err == nil {
			return Version{}, true, errAgain
		}
		if ctx.Err() != nil {
			return Version{}, false, fmt.Errorf("%w: %v", ErrUnknown, ctx.Err())
		}
	}
}
