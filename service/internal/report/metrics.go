package report

import (
	"fmt"
	"sort"
	"strings"
)

// Metrics makes a text for Prometheus.
type Metrics struct {
	kinds map[string]string
	rows  map[string][]string
}

// Add adds a value. Labels are names and values in turn.
func (m *Metrics) Add(kind, name string, value interface{}, labels ...string) {
	if m.kinds == nil {
		m.kinds, m.rows = map[string]string{}, map[string][]string{}
	}
	its := []string{}
	for at := 0; at+1 < len(labels); at += 2 {
		its = append(its, fmt.Sprintf("%s=%q", labels[at], labels[at+1]))
	}
	row := "fdbrec_" + name
	if len(its) > 0 {
		row += "{" + strings.Join(its, ",") + "}"
	}
	m.kinds["fdbrec_"+name] = kind
	m.rows["fdbrec_"+name] = append(m.rows["fdbrec_"+name], fmt.Sprintf("%s %v", row, value))
}

// Counts adds all counts of a process.
func (m *Metrics) Counts(its map[string]uint64) {
	for name, count := range its {
		m.Add("counter", strings.ReplaceAll(name, " ", "_")+"_total", count)
	}
}

// String is the text.
func (m *Metrics) String() string {
	names := []string{}
	for name := range m.rows {
		names = append(names, name)
	}
	sort.Strings(names)
	var made strings.Builder
	for _, name := range names {
		fmt.Fprintf(&made, "# TYPE %s %s\n", name, m.kinds[name])
		sort.Strings(m.rows[name])
		for _, row := range m.rows[name] {
			made.WriteString(row + "\n")
		}
	}
	return made.String()
}
