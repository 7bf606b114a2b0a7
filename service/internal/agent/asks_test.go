package agent

import (
	"encoding/json"
	"fmt"
	"testing"
	"time"

	"fdbrec/service/internal/names"
)

func marks(count int) [][2]json.RawMessage {
	var its [][2]json.RawMessage
	for at := 0; at < count; at++ {
		its = append(its, [2]json.RawMessage{
			json.RawMessage(fmt.Sprintf(`{"log":{"epoch":513,"index":%d}}`, at)), json.RawMessage(`{"log":{"push":{"version":8}}}`)})
	}
	return its
}

// A chosen recoverer names its marks in each of its answers. However many answers there are, each mark leaves once until
// it is due again, and not at all once its log holds it.
func TestAnAnswerDoesNotMultiply(t *testing.T) {
	sent := 0
	a := &asks{pause: time.Hour, send: func(*wanted) { sent++ }}
	for answers := 0; answers < 1000; answers++ {
		a.want(marks(4))
	}
	if sent != 4 {
		t.Errorf("1,000 answers that name 4 asks sent %d", sent)
	}
	for at := uint64(0); at < 3; at++ {
		a.isHeld(names.Node{Kind: "log", First: 513, Second: at}, json.RawMessage(`{"held":{"version":8}}`))
	}
	a.isHeld(names.Node{Kind: "log", First: 513, Second: 3}, json.RawMessage(`{"refused":{"why":{"unseeded":{}}}}`))
	a.want(marks(4))
	a.again(time.Now().Add(2 * time.Hour))
	if sent != 5 || a.isEmpty() {
		t.Errorf("%d asks left, wanted the one of the log that refused it again", sent)
	}
	a.isHeld(names.Node{Kind: "log", First: 513, Second: 3}, json.RawMessage(`{"held":{"version":8}}`))
	a.want(marks(4))
	a.again(time.Now().Add(9 * time.Hour))
	if sent != 5 || !a.isEmpty() {
		t.Errorf("%d asks left though all logs hold the mark", sent)
	}
}

// What is asked again waits twice as long each time, up to a limit; what is no longer wanted is not asked.
func TestAgain(t *testing.T) {
	sent := 0
	a := &asks{pause: 20 * time.Millisecond, send: func(*wanted) { sent++ }}
	now := time.Now()
	a.want(marks(1))
	for step := 1; step <= 100; step++ {
		a.again(now.Add(time.Duration(step) * 20 * time.Millisecond))
	}
	// at once, at 0.04, 0.10, 0.20, 0.38 seconds, and then each 0.22 (each time at the next step behind a pause)
	if sent < 11 || sent > 13 {
		t.Errorf("%d in 2 s", sent)
	}
	a.want(nil)
	was := sent
	a.again(now.Add(time.Hour))
	if sent != was || !a.isEmpty() {
		t.Errorf("what is not wanted is asked")
	}
}
