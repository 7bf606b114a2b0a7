// Package wire has what goes over the broker: messages between nodes, orders to agents, what agents and keepers say.
package wire

import (
	"bytes"
	"encoding/json"
	"fmt"
	"strconv"

	"fdbrec/service/internal/names"
	"fdbrec/service/internal/raw"
)

// Message is an ask or a tell on its way. At is the greatest stamp that its sender saw. Until is of a pop: under no later
// stamp the log may enter it.
type Message struct {
	Type  string          `json:"type"` // "ask" or "hear"
	At    uint64          `json:"at"`
	Until uint64          `json:"until,omitempty"`
	From  names.Node      `json:"from"`
	Ask   json.RawMessage `json:"ask,omitempty"`
	Tell  json.RawMessage `json:"tell,omitempty"`
}

// Text is the message as it goes over the broker.
func (m *Message) Text() ([]byte, error) {
	from, err := m.From.MarshalJSON()
	if err != nil {
		return nil, err
	}
	text := make([]byte, 0, len(m.Ask)+len(m.Tell)+len(from)+120)
	text = append(append(text, `{"type":"`...), m.Type...)
	text = strconv.AppendUint(append(text, `","at":`...), m.At, 10)
	if m.Until != 0 {
		text = strconv.AppendUint(append(text, `,"until":`...), m.Until, 10)
	}
	text = append(append(text, `,"from":`...), from...)
	if m.Ask != nil {
		text = append(append(text, `,"ask":`...), m.Ask...)
	}
	if m.Tell != nil {
		text = append(append(text, `,"tell":`...), m.Tell...)
	}
	return append(text, '}'), nil
}

// Read reads a message. What it has for a node becomes a part of a line: so it is whole JSON, without line breaks.
func (m *Message) Read(text []byte) error {
	if !json.Valid(text) {
		return fmt.Errorf("it is no JSON")
	}
	if bytes.IndexByte(text, '\n') >= 0 {
		var one bytes.Buffer
		if err := json.Compact(&one, text); err != nil {
			return err
		}
		text = one.Bytes()
	}
	var err error
	is := raw.Members(text, func(name string, value []byte) (is bool) {
		switch is = true; name {
		case "type":
			m.Type, is = raw.Text(value)
		case "at":
			m.At, is = raw.Number(value)
		case "until":
			m.Until, is = raw.Number(value)
		case "from":
			err = m.From.UnmarshalJSON(value)
		case "ask":
			m.Ask = value
		case "tell":
			m.Tell = value
		}
		return is && err == nil
	})
	if err == nil && !is {
		err = fmt.Errorf("it is no message")
	}
	return err
}

// who may ask, or tell, a node of each kind.
var askers = map[string]string{"cell": "recoverer", "log": "proxy recoverer storage", "sequencer": "proxy"}
var tellers = map[string]string{"proxy": "sequencer log", "recoverer": "cell log", "storage": "log"}

// Judge says whether a message may be for a node of this kind, by its form and its sender's kind.
func (m *Message) Judge(to names.Node) error {
	var from string
	switch {
	case m.Type == "ask" && m.Ask != nil && m.Tell == nil:
		from = askers[to.Kind]
	case m.Type == "hear" && m.Tell != nil && m.Ask == nil:
		from = tellers[to.Kind]
	default:
		return fmt.Errorf("it is no ask and no tell")
	}
	if !hasWord(from, m.From.Kind) {
		return fmt.Errorf("a %s is sent no %s by a %s", to.Kind, m.Type, m.From.Kind)
	}
	return nil
}

func hasWord(words, word string) bool {
	for len(words) > 0 {
		end := 0
		for end < len(words) && words[end] != ' ' {
			end++
		}
		if words[:end] == word {
			return true
		}
		words = words[min(end+1, len(words)):]
	}
	return false
}

func min(a, b int) int {
	if a < b {
		return a
	}
	return b
}

// Generation is a generation of logs, as coordinated states have it.
type Generation struct {
	Epoch    uint64 `json:"epoch"`
	First    uint64 `json:"first"`
	K        uint64 `json:"k"`
	M        uint64 `json:"m"`
	SeededTo uint64 `json:"seeded_to"`
}

// State is a coordinated state: its generations, the oldest first.
type State struct {
	Dropped uint64
	Gens    []Generation
}

// UnmarshalJSON reads a state as journals have it: a list, or an object if generations were dropped.
func (s *State) UnmarshalJSON(text []byte) error {
	if len(text) > 0 && text[0] == '[' {
		return json.Unmarshal(text, &s.Gens)
	}
	var its struct {
		Dropped uint64       `json:"dropped"`
		Gens    []Generation `json:"gens"`
	}
	err := json.Unmarshal(text, &its)
	s.Dropped, s.Gens = its.Dropped, its.Gens
	return err
}

// MarshalJSON writes a state as journals have it.
func (s State) MarshalJSON() ([]byte, error) {
	if s.Dropped == 0 {
		return json.Marshal(s.Gens)
	}
	return json.Marshal(map[string]interface{}{"dropped": s.Dropped, "gens": s.Gens})
}

// Epoch is what is said of an epoch once its state is chosen. At is the stamp of the act by which it was.
type Epoch struct {
	Epoch uint64 `json:"epoch"`
	At    uint64 `json:"at"`
	Pev   uint64 `json:"pev"`
	Rv    uint64 `json:"rv"`
	State State  `json:"state"`
}

// Last is the epoch's own generation.
func (e *Epoch) Last() Generation {
	if len(e.State.Gens) == 0 {
		return Generation{}
	}
	return e.State.Gens[len(e.State.Gens)-1]
}

// After is the generation that followed another one, as far as the state has both.
func (e *Epoch) After(epoch uint64) (Generation, bool) {
	for at, gen := range e.State.Gens {
		if gen.Epoch == epoch && at+1 < len(e.State.Gens) {
			return e.State.Gens[at+1], true
		}
	}
	return Generation{}, false
}

// Names says whether the state has a generation of this epoch.
func (s *State) Names(epoch uint64) bool {
	for _, gen := range s.Gens {
		if gen.Epoch == epoch {
			return true
		}
	}
	return false
}

// Order is what an agent is told to do. Which members count goes by the node's kind.
type Order struct {
	Do     string     `json:"do"` // "start", "end" or "drop"
	Node   names.Node `json:"node"`
	Logs   uint64     `json:"logs,omitempty"`
	Degree uint64     `json:"degree,omitempty"`
	Last   uint64     `json:"last,omitempty"`
	Known  uint64     `json:"known,omitempty"`
	First  bool       `json:"first,omitempty"` // of what the world starts with
	At     uint64     `json:"at"`
}

// Answer is what an agent says to an order, or whoever is asked to a client.
type Answer struct {
	Done bool   `json:"done"`
	Why  string `json:"why,omitempty"`
	At   uint64 `json:"at"`
}

// Recovery is where a recoverer stands.
type Recovery struct {
	Ballot   uint64 `json:"ballot"`
	Phase    string `json:"phase"`
	Seeding  bool   `json:"seeding"` // it wants to seed; First and SeededTo are then those of its generation
	First    uint64 `json:"first,omitempty"`
	SeededTo uint64 `json:"seeded_to,omitempty"`
	IsMarked bool   `json:"marked"` // each of its logs holds the mark
	Epoch    *Epoch `json:"epoch,omitempty"`
}

// NodeView is what an agent says of one of its nodes.
type NodeView struct {
	State    string          `json:"state"` // "up", "starting", "failed", "ended" or "gone"
	Why      string          `json:"why,omitempty"`
	Last     json.RawMessage `json:"last,omitempty"`
	Waiting  int64           `json:"waiting_ms"`     // how long its oldest unanswered line waits
	Lines    int             `json:"lines"`          // lines that wait
	Open     uint64          `json:"open,omitempty"` // a proxy's open batch, by its number
	OpenFor  int64           `json:"open_ms,omitempty"`
	Full     bool            `json:"full,omitempty"`   // a log's files have no room for a push
	Slow     float64         `json:"p99_ms"`           // the 99th percentile of its answers
	Bytes    int64           `json:"bytes,omitempty"`  // of its files, which never shrink
	Errors   uint64          `json:"errors,omitempty"` // how many lines it refused
	Starts   uint64          `json:"starts"`
	Recovery *Recovery       `json:"recovery,omitempty"`
}

// Alive is what an agent says of itself each time that it is due, and as soon as a node's state changes.
type Alive struct {
	Machine string               `json:"machine"`
	Born    int64                `json:"born"`
	At      uint64               `json:"at"`
	Newest  Epoch                `json:"newest"`
	Nodes   map[string]*NodeView `json:"nodes"`
	Counts  map[string]uint64    `json:"counts"`
	Fsync   float64              `json:"fsync_p99_ms"`
	Free    uint64               `json:"free_bytes"`
}

// KeeperView is what a keeper says of itself.
type KeeperView struct {
	Number uint64            `json:"number"`
	Born   int64             `json:"born"`
	At     uint64            `json:"at"`
	Round  uint64            `json:"round"`
	Trying uint64            `json:"trying"`
	Why    string            `json:"why,omitempty"`
	Counts map[string]uint64 `json:"counts"`
}

// Submit is what a client asks a proxy's agent: mutations that commit together, or not. What comes again under one ID is
// taken once.
type Submit struct {
	ID        string            `json:"id"`
	Mutations []json.RawMessage `json:"mutations"`
	At        uint64            `json:"at"`
}

// Submitted is the answer: Committed, Ended (a recovery decides, by Version) or Refused (nothing was done). The version
// of a batch that ended is the one that it was given, or 0: then it was pushed to no log.
type Submitted struct {
	Committed bool   `json:"committed,omitempty"`
	Ended     bool   `json:"ended,omitempty"`
	Refused   string `json:"refused,omitempty"`
	IsBad     bool   `json:"bad,omitempty"`     // it is refused anywhere
	IsCrowded bool   `json:"crowded,omitempty"` // its batch had no room for all that waited with it
	Epoch     uint64 `json:"epoch"`
	Version   uint64 `json:"version"`
	At        uint64 `json:"at"`
}

// Read asks a storage server's agent for a value. Mode is "stale" (what is applied), "settled" (what no recovery takes
// back) or "after": not before the server is at this epoch and version.
type Read struct {
	Key     string `json:"key"`
	Mode    string `json:"mode"`
	Epoch   uint64 `json:"epoch"`
	Version uint64 `json:"version"`
	Within  int64  `json:"within_ms"`
	At      uint64 `json:"at"`
}

// Got is the answer to a read. Value is null if the key has none at Version.
type Got struct {
	Value   *string `json:"value"`
	Version uint64  `json:"version"`
	Floor   uint64  `json:"floor"`
	Epoch   uint64  `json:"epoch"`
	Refused string  `json:"refused,omitempty"`
	At      uint64  `json:"at"`
}

// Dump asks a storage server's agent for a dump of its rows: not before the server is at this epoch and version.
type Dump struct {
	Epoch   uint64 `json:"epoch"`
	Version uint64 `json:"version"`
	Within  int64  `json:"within_ms"`
	At      uint64 `json:"at"`
}

// Dumped says where a dump is, and of what.
type Dumped struct {
	Machine string `json:"machine"`
	Path    string `json:"path"`
	Epoch   uint64 `json:"epoch"`
	Version uint64 `json:"version"`
	Rows    uint64 `json:"rows"`
	Refused string `json:"refused,omitempty"`
	At      uint64 `json:"at"`
}

// DumpHead is the first line of a dump. A line for each row follows, ["KEY","VALUE"] in hex.
type DumpHead struct {
	Cluster string `json:"cluster"`
	Tag     uint64 `json:"tag"`
	Epoch   uint64 `json:"epoch"`
	Version uint64 `json:"version"`
	Rows    uint64 `json:"rows"`
}

// Sessions are the prefixes of the keys that clients keep, in hex: \x00/session/ and \xff/session/.
var Sessions = []string{"002f73657373696f6e2f", "ff2f73657373696f6e2f"}

// Moved says that a version was committed.
type Moved struct {
	Epoch   uint64 `json:"epoch"`
	Version uint64 `json:"version"`
	At      uint64 `json:"at"`
}

// Look sees whether an ask of a recoverer is a seed, and notes its ends.
func (r *Recovery) Look(ask json.RawMessage) {
	var its struct {
		Log struct {
			Seed *struct {
				First    uint64 `json:"first"`
				SeededTo uint64 `json:"seeded_to"`
			} `json:"seed"`
		} `json:"log"`
	}
	if !r.Seeding && json.Unmarshal(ask, &its) == nil && its.Log.Seed != nil {
		r.Seeding, r.First, r.SeededTo = true, its.Log.Seed.First, its.Log.Seed.SeededTo
	}
}

// Words are the words of a node's program that an order fixes, but for its numbers, its folder and its config.
func (o *Order) Words() []string {
	var its []string
	add := func(name string, number uint64) { its = append(its, "--"+name, fmt.Sprint(number)) }
	switch o.Node.Kind {
	case "log", "recoverer":
		add("logs", o.Logs)
		add("degree", o.Degree)
	case "sequencer":
		add("last", o.Last)
	case "proxy":
		add("known", o.Known)
	}
	if o.First && (o.Node.Kind == "cell" || o.Node.Kind == "log") {
		its = append(its, "--start")
	}
	return its
}
