package agent

import (
	"encoding/json"
	"strconv"
	"time"

	"fdbrec/service/internal/names"
	"fdbrec/service/internal/raw"
)

// body is the body of a line to a node.
type body struct {
	Type    string          `json:"type"`
	Number  uint64          `json:"-"`
	At      *uint64         `json:"at,omitempty"`
	From    *names.Node     `json:"from,omitempty"`
	Ask     json.RawMessage `json:"ask,omitempty"`
	Tell    json.RawMessage `json:"tell,omitempty"`
	Batch   json.RawMessage `json:"batch,omitempty"`
	Step    uint64          `json:"step,omitempty"`
	Turn    uint64          `json:"turn,omitempty"`
	Newest  json.RawMessage `json:"newest,omitempty"`
	Hearing *hearing        `json:"hearing,omitempty"`
	Key     *string         `json:"key,omitempty"`
	Version *uint64         `json:"version,omitempty"`
}

// hearing is the hear that was under way when a storage server was killed.
type hearing struct {
	From    *names.Node     `json:"from"`
	Tell    json.RawMessage `json:"tell"`
	Version uint64          `json:"version"`
}

// enters says whether such a line enters something in the node's journal, and so is given again after a kill.
func (b *body) enters() bool { return b.Type == "ask" || b.Type == "hear" || b.Type == "submit" }

// text spells the body: its number last, if it is to have one. A batch can have many bytes, so nothing is spelled twice.
func (b *body) text(number uint64) ([]byte, error) {
	var text []byte
	if b.enters() {
		text = make([]byte, 0, len(b.Ask)+len(b.Tell)+len(b.Batch)+160)
		text = append(append(append(text, `{"type":"`...), b.Type...), '"')
		if b.At != nil {
			text = strconv.AppendUint(append(text, `,"at":`...), *b.At, 10)
		}
		if b.From != nil {
			from, err := b.From.MarshalJSON()
			if err != nil {
				return nil, err
			}
			text = append(append(text, `,"from":`...), from...)
		}
		for _, each := range []struct {
			name  string
			value json.RawMessage
		}{{`,"ask":`, b.Ask}, {`,"tell":`, b.Tell}, {`,"batch":`, b.Batch}} {
			if each.value != nil {
				text = append(append(text, each.name...), each.value...)
			}
		}
		if b.Step != 0 {
			text = strconv.AppendUint(append(text, `,"step":`...), b.Step, 10)
		}
	} else {
		its, err := json.Marshal(b)
		if err != nil {
			return nil, err
		}
		text = its[:len(its)-1]
	}
	if number != 0 {
		text = strconv.AppendUint(append(text, `,"msg_id":`...), number, 10)
	}
	return append(text, '}'), nil
}

// answer is the body of a line from a node.
type answer struct {
	Type      string
	InReplyTo *uint64
	Node      *names.Node
	Entries   []json.RawMessage
	Last      json.RawMessage
	Stands    json.RawMessage // of a storage server, in place of last: that without its rows
	Wants     [][2]json.RawMessage
	Value     *string
	Code      int
	Text      string
}

// read takes the members of an answer out of its text, of which they stay parts.
func (a *answer) read(text []byte) bool {
	return raw.Members(text, func(name string, value []byte) (is bool) {
		switch is = true; name {
		case "type":
			a.Type, is = raw.Text(value)
		case "in_reply_to":
			number, isNumber := raw.Number(value)
			a.InReplyTo, is = &number, isNumber
		case "node":
			a.Node = &names.Node{}
			is = a.Node.UnmarshalJSON(value) == nil
		case "entry":
			a.Entries = []json.RawMessage{value}
		case "entries":
			is = raw.Elements(value, func(each []byte) bool { a.Entries = append(a.Entries, each); return true })
		case "last":
			a.Last = value
		case "stands":
			a.Stands = value
		case "wants":
			a.Wants = [][2]json.RawMessage{}
			is = raw.Elements(value, a.want)
		case "value", "code", "text":
			to := map[string]interface{}{"value": &a.Value, "code": &a.Code, "text": &a.Text}[name]
			is = json.Unmarshal(value, to) == nil
		}
		return is
	})
}

func (a *answer) want(pair []byte) bool {
	var its []json.RawMessage
	is := raw.Elements(pair, func(each []byte) bool { its = append(its, each); return true })
	if !is || len(its) != 2 {
		return false
	}
	a.Wants = append(a.Wants, [2]json.RawMessage{its[0], its[1]})
	return true
}

// stands is where the node stands, without a storage server's rows; nothing if the answer does not say it.
func (a *answer) stands() json.RawMessage {
	if a.Stands != nil {
		return a.Stands
	}
	return bare(a.Last)
}

// act is as much of an entry as an agent looks at: of an ask who asked and what it was told, of a hear who told what, and
// what came of it.
type act struct {
	stamp   uint64
	kind    string
	from    names.Node
	tell    json.RawMessage
	outcome json.RawMessage
}

func (e *act) read(text []byte) (is bool) {
	e.stamp, is = raw.Number(raw.Member(text, "stamp"))
	var its []byte
	if e.kind, its = raw.Only(raw.Member(text, "act")); e.kind == "asked" || e.kind == "heard" {
		is = is && raw.Members(its, func(name string, value []byte) bool {
			switch name {
			case "from":
				return e.from.UnmarshalJSON(value) == nil
			case "tell":
				e.tell = value
			case "outcome":
				e.outcome = value
			}
			return true
		})
	}
	return is
}

// where is as much of a last state as an agent looks at. A storage server's rows stay where they are.
type where struct {
	Cell *struct {
		Promised uint64 `json:"promised"`
		Written  uint64 `json:"written"`
	} `json:"cell,omitempty"`
	Log *struct {
		Durable uint64 `json:"durable"`
		Known   uint64 `json:"known"`
		Seeded  bool   `json:"seeded"`
		Stopped bool   `json:"stopped"`
	} `json:"log,omitempty"`
	Storage *struct {
		Epoch   uint64 `json:"epoch"`
		Floor   uint64 `json:"floor"`
		Version uint64 `json:"version"`
	} `json:"storage,omitempty"`
	Recoverer *struct {
		Phase string `json:"phase"`
	} `json:"recoverer,omitempty"`
}

// item is a line that waits for its node, or is with it.
type item struct {
	body   body
	sort   string // of an ask of a log: "push", "peek", ..
	from   uint64 // of a push: the version before it
	to     uint64 // of a push: its version
	until  uint64 // of a pop: under no later stamp it may be entered
	key    string // of an ask or a tell: what it is, so that a repeat that waits too is dropped
	since  time.Time
	done   func(*answer) // called with the answer, or with nothing if there will be none
	regive bool          // it is in the journal already
}

// pushed reads of an ask of a log what it is, and of a push where it stands.
func pushed(ask json.RawMessage) (sort string, from, to uint64) {
	kind, its := raw.Only(ask)
	if kind != "log" {
		return "", 0, 0
	}
	sort, its = raw.Only(its)
	if sort == "push" {
		from, _ = raw.Number(raw.Member(its, "prev"))
		to, _ = raw.Number(raw.Member(its, "version"))
	}
	return sort, from, to
}
