// Package names has the names of nodes in their three spellings: as journals have them, {"log":{"epoch":257,"index":0}},
// as lines and audits print them, "log 257 0", and as a part of a subject or a file, "log-257-0".
package names

import (
	"fmt"
	"strconv"
	"strings"

	"fdbrec/service/internal/raw"
)

// Node is the name of a node: its kind, and one or two numbers.
type Node struct {
	Kind   string
	First  uint64
	Second uint64
}

// Kinds are the members of each kind's name, in the order of lines.
var Kinds = map[string][]string{
	"cell":      {"index"},
	"log":       {"epoch", "index"},
	"sequencer": {"epoch"},
	"proxy":     {"epoch", "number"},
	"recoverer": {"ballot"},
	"storage":   {"tag"},
}

// HasFiles says whether a node of this kind keeps files, and so comes back after a kill.
func (n Node) HasFiles() bool { return n.Kind == "cell" || n.Kind == "log" || n.Kind == "storage" }

// Epoch is the epoch of a log, a sequencer or a proxy, and the ballot of a recoverer. Others have none.
func (n Node) Epoch() uint64 {
	if n.Kind == "cell" || n.Kind == "storage" {
		return 0
	}
	return n.First
}

// Spoken is the name in a line: "log 257 0".
func (n Node) Spoken() string { return n.joined(" ") }

// Token is the name in a subject and of a file: "log-257-0".
func (n Node) Token() string { return n.joined("-") }

func (n Node) joined(sign string) string {
	text := n.Kind + sign + strconv.FormatUint(n.First, 10)
	if len(Kinds[n.Kind]) == 2 {
		text += sign + strconv.FormatUint(n.Second, 10)
	}
	return text
}

// Parse reads a name of lines or of subjects.
func Parse(text string) (Node, error) {
	sign := "-"
	if strings.Contains(text, " ") {
		sign = " "
	}
	parts := strings.Split(text, sign)
	if len(parts) < 2 || len(Kinds[parts[0]]) != len(parts)-1 {
		return Node{}, fmt.Errorf("%q is no node", text)
	}
	numbers := [2]uint64{}
	for at, part := range parts[1:] {
		number, err := strconv.ParseUint(part, 10, 62)
		if err != nil || strconv.FormatUint(number, 10) != part {
			return Node{}, fmt.Errorf("%q is no node", text)
		}
		numbers[at] = number
	}
	return Node{parts[0], numbers[0], numbers[1]}, nil
}

// MarshalJSON writes the name as journals have it.
func (n Node) MarshalJSON() ([]byte, error) {
	members := Kinds[n.Kind]
	if members == nil {
		return nil, fmt.Errorf("%q is no kind of node", n.Kind)
	}
	text := append([]byte(`{"`+n.Kind+`":{"`+members[0]+`":`), strconv.FormatUint(n.First, 10)...)
	if len(members) == 2 {
		text = append(append(text, `,"`+members[1]+`":`...), strconv.FormatUint(n.Second, 10)...)
	}
	return append(text, "}}"...), nil
}

// UnmarshalJSON reads the name as journals have it: one member, with exactly the numbers of its kind.
func (n *Node) UnmarshalJSON(text []byte) error {
	kind, its := raw.Only(text)
	members := Kinds[kind]
	numbers, seen := [2]uint64{}, [2]bool{}
	is := members != nil && raw.Members(its, func(name string, value []byte) bool {
		for at, member := range members {
			number, isNumber := raw.Number(value)
			if name == member && isNumber && number < 1<<62 && !seen[at] {
				numbers[at], seen[at] = number, true
				return true
			}
		}
		return false
	})
	if !is || !seen[len(members)-1] || !seen[0] {
		return fmt.Errorf("%s is no node", text)
	}
	*n = Node{kind, numbers[0], numbers[1]}
	return nil
}
