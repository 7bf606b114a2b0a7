package wire

import (
	"encoding/json"
	"fmt"

	"fdbrec/service/internal/raw"
)

// The limits of a batch, as docs/FORMATS.md has them.
const (
	mostMutations = 1000
	mostKey       = 10000
	mostValue     = 100000
)

var members = map[string][2]string{
	"set": {"key", "value"}, "clear": {"begin", "end"}, "compare_and_clear": {"key", "value"}, "add": {"key", "param"},
	"and": {"key", "param"}, "or": {"key", "param"}, "xor": {"key", "param"}, "max": {"key", "param"},
	"min": {"key", "param"},
}

// Mutation makes the text of a mutation from bytes in hex.
func Mutation(name, first, second string) json.RawMessage {
	its := members[name]
	return json.RawMessage(fmt.Sprintf(`{%q:{%q:%q,%q:%q}}`, name, its[0], first, its[1], second))
}

// FirstKey is the key that a mutation begins with, in hex; nothing if it has none.
func FirstKey(its json.RawMessage) string {
	name, values := raw.Only(its)
	key, _ := raw.Text(raw.Member(values, members[name][0]))
	return key
}

// JudgeMutations says what is wrong with a list of mutations, or nothing: a node would refuse the whole batch, and with
// it the mutations of others.
func JudgeMutations(list []json.RawMessage) error {
	if len(list) > mostMutations {
		return fmt.Errorf("%d mutations; at most %d are taken", len(list), mostMutations)
	}
	for at, text := range list {
		if err := judgeMutation(text); err != nil {
			return fmt.Errorf("mutation %d: %v", at, err)
		}
	}
	return nil
}

func judgeMutation(text []byte) error {
	name, values := raw.Only(text)
	wanted, has := members[name]
	its, seen := [2]string{}, [2]bool{}
	is := has && raw.Members(values, func(each string, value []byte) (is bool) {
		at := 0
		if each != wanted[0] {
			at = 1
		}
		if each != wanted[at] || seen[at] {
			return false
		}
		its[at], is = raw.Text(value)
		seen[at] = true
		return is
	})
	if !is || !seen[0] || !seen[1] {
		return fmt.Errorf("it is no mutation")
	}
	return judgeValues(name, its[0], its[1])
}

func judgeValues(name, first, second string) error {
	most := mostValue
	if name == "clear" {
		most = mostKey
	}
	switch {
	case !isHex(first) || !isHex(second):
		return fmt.Errorf("its bytes are not in hex, lower case")
	case len(first) > 2*mostKey || len(second) > 2*most:
		return fmt.Errorf("a key has more than %d bytes, or a value more than %d", mostKey, mostValue)
	case name == "clear" && first > second:
		return fmt.Errorf("it clears from a key to one before it")
	}
	return nil
}

func isHex(text string) bool {
	for at := 0; at < len(text); at++ {
		if c := text[at]; (c < '0' || c > '9') && (c < 'a' || c > 'f') {
			return false
		}
	}
	return len(text)%2 == 0
}
