package config

import (
	"fmt"
	"regexp"
	"strings"
	"time"
)

// field is a key of a table: what it is, what is allowed, and where it goes. put answers false for what is not allowed.
type field struct {
	name    string
	allowed string
	needed  bool
	put     func(Value) bool
}

// fill gives each key of a table to its field. A key that is none, one that is missing and a value that is not allowed
// are faults.
func fill(path string, table *Table, fields []field) error {
	known := map[string]field{}
	names := []string{}
	for _, each := range fields {
		known[each.name] = each
		names = append(names, each.name)
	}
	for _, name := range table.Keys {
		value := table.Values[name]
		its, has := known[name]
		if !has {
			return &Fault{path, value.Line, fmt.Sprintf("there is no key %s here; %s are", name, strings.Join(names, ", "))}
		}
		if !its.put(value) {
			return &Fault{path, value.Line, fmt.Sprintf("%s: found %s, wanted %s", name, value.shown(), its.allowed)}
		}
	}
	for _, each := range fields {
		if _, has := table.Values[each.name]; each.needed && !has {
			return &Fault{path, table.Line, fmt.Sprintf("%s is missing: wanted %s", each.name, each.allowed)}
		}
	}
	return nil
}

func (v Value) shown() string {
	switch v.Kind {
	case "text":
		if len(v.Text) > 40 {
			return fmt.Sprintf("%q..", v.Text[:40])
		}
		return fmt.Sprintf("%q", v.Text)
	case "number":
		return fmt.Sprint(v.Number)
	case "truth":
		return fmt.Sprint(v.Truth)
	}
	return fmt.Sprintf("a list of %d", len(v.List))
}

func number(to *uint64, least, most int64) func(Value) bool {
	return func(v Value) bool {
		*to = uint64(v.Number)
		return v.Kind == "number" && v.Number >= least && v.Number <= most
	}
}

func size(to *int64, least, most int64) func(Value) bool {
	return func(v Value) bool {
		*to = v.Number
		return v.Kind == "number" && v.Number >= least && v.Number <= most
	}
}

func text(to *string, form string) func(Value) bool {
	its := regexp.MustCompile("^" + form + "$")
	return func(v Value) bool {
		*to = v.Text
		return v.Kind == "text" && its.MatchString(v.Text)
	}
}

func truth(to *bool) func(Value) bool {
	return func(v Value) bool {
		*to = v.Truth
		return v.Kind == "truth"
	}
}

func texts(to *[]string, form string, least int) func(Value) bool {
	its := regexp.MustCompile("^" + form + "$")
	return func(v Value) bool {
		*to = nil
		for _, each := range v.List {
			if each.Kind != "text" || !its.MatchString(each.Text) {
				return false
			}
			*to = append(*to, each.Text)
		}
		return v.Kind == "list" && len(v.List) >= least
	}
}

func numbers(to *[]uint64, most int64) func(Value) bool {
	return func(v Value) bool {
		*to = nil
		for _, each := range v.List {
			if each.Kind != "number" || each.Number < 0 || each.Number > most {
				return false
			}
			*to = append(*to, uint64(each.Number))
		}
		return v.Kind == "list"
	}
}

const length = `a time as "300ms" or "2s", from 10ms to 10m`

func duration(to *time.Duration) func(Value) bool {
	return func(v Value) bool {
		its, err := time.ParseDuration(v.Text)
		*to = its
		return v.Kind == "text" && err == nil && its >= 10*time.Millisecond && its <= 10*time.Minute
	}
}

func (c *Config) topFields() []field {
	hex := `([0-9a-f][0-9a-f])*`
	return []field{
		{"cluster", "a name of 1 to 32 letters a to z, digits and -", true, text(&c.Cluster, `[a-z0-9-]{1,32}`)},
		{"node", "the program of nodes and its first words, as a list of texts", true, texts(&c.Node, `[^\x00]+`, 1)},
		{"coordinators", "1, 3, 5, 7 or 9", true, func(v Value) bool {
			return number(&c.Coordinators, 1, 9)(v) && c.Coordinators%2 == 1
		}},
		{"logs", "a number from 1 to 16", true, number(&c.Logs, 1, 16)},
		{"degree", "a number from 1 to 16", true, number(&c.Degree, 1, 16)},
		{"proxies", "a number from 1 to 16", true, number(&c.Proxies, 1, 16)},
		{"shards", "1 to 32 keys in hex, lower case", true, func(v Value) bool {
			return texts(&c.Shards, hex, 1)(v) && len(v.List) <= 32
		}},
	}
}

func (c *Config) natsFields() []field {
	path := `[^\x00]+`
	return []field{
		{"urls", "addresses of brokers as nats://HOST:PORT or tls://HOST:PORT, as a list", true,
			texts(&c.URLs, `(nats|tls)://[^/\s]+`, 1)},
		{"max_payload", "a number of bytes from 1048576 to 67108864", false, size(&c.MaxPayload, 1<<20, 64<<20)},
		{"ca", "the path of a PEM file", false, text(&c.CA, path)},
		{"certificate", "the path of a PEM file", false, text(&c.Certificate, path)},
		{"key", "the path of a PEM file", false, text(&c.Key, path)},
		{"nkey", "the path of a file with an nkey seed", false, text(&c.Nkey, path)},
	}
}

func (c *Config) timeFields() []field {
	return []field{
		{"alive", length, false, duration(&c.Alive)},
		{"suspect", length, false, duration(&c.Suspect)},
		{"progress", length, false, duration(&c.Progress)},
		{"again", length, false, duration(&c.Again)},
		{"recovery", length, false, duration(&c.Recovery)},
		{"start", length, false, duration(&c.Start)},
		{"patience", length, false, duration(&c.Patience)},
	}
}

func (c *Config) journalFields() []field {
	return []field{
		{"keep", "true or false", false, truth(&c.JournalKeep)},
		{"fsync", "true or false", false, truth(&c.JournalFsync)},
		{"rotate", "a number of bytes from 65536 to 1073741824", false, size(&c.JournalRotate, 1<<16, 1<<30)},
	}
}

func (c *Config) fileFields() []field {
	return []field{{"room", "a number of bytes from 65536 to 1099511627776", false, size(&c.FileRoom, 1<<16, 1<<40)}}
}

func (c *Config) programFields() []field {
	var found []field
	for _, kind := range []string{"cell", "log", "sequencer", "proxy", "recoverer", "storage"} {
		kind := kind
		found = append(found, field{kind, "a program and its first words, as a list of texts", false, func(v Value) bool {
			var words []string
			is := texts(&words, `[^\x00]+`, 1)(v)
			c.Programs[kind] = words
			return is
		}})
	}
	return found
}

const address = `([a-z0-9.:-]*|\[[0-9a-f:]+\]):[0-9]{1,5}`

func (m *Machine) fields() []field {
	return []field{
		{"name", "a name of 1 to 32 letters a to z, digits and -", true, text(&m.Name, `[a-z0-9-]{1,32}`)},
		{"room", "the path of a folder", true, text(&m.Room, `[^\x00]+`)},
		{"http", "an address as 127.0.0.1:9470", false, text(&m.HTTP, address)},
		{"nkey", "the path of a file with an nkey seed", false, text(&m.Nkey, `[^\x00]+`)},
		{"cells", "numbers of cells from 0 to 8, as a list", false, numbers(&m.Cells, 8)},
		{"storages", "tags of storage servers from 0 to 31, as a list", false, numbers(&m.Storages, 31)},
	}
}

func (k *Keeper) fields() []field {
	return []field{
		{"number", "a number from 1 to 255", true, number(&k.Number, 1, 255)},
		{"room", "the path of a folder", true, text(&k.Room, `[^\x00]+`)},
		{"http", "an address as 127.0.0.1:9480", false, text(&k.HTTP, address)},
		{"nkey", "the path of a file with an nkey seed", false, text(&k.Nkey, `[^\x00]+`)},
	}
}
