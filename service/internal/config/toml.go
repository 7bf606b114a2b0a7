package config

import (
	"fmt"
	"strconv"
	"strings"
	"unicode/utf8"
)

// The part of TOML that a configuration needs: tables, arrays of tables, texts, whole numbers, true and false, and
// arrays of texts or of numbers. Each value keeps its line, so that whoever judges it can say where it stands.

// Value is a value with its line: Text, Number, Truth or List holds what it is.
type Value struct {
	Line   int
	Kind   string // "text", "number", "truth", "list"
	Text   string
	Number int64
	Truth  bool
	List   []Value
}

// Table is a table: its header's line, and its keys in their order.
type Table struct {
	Name   string
	Line   int
	Keys   []string
	Values map[string]Value
}

// Fault is what is wrong with a file, and where.
type Fault struct {
	Path string
	Line int
	Why  string
}

func (f *Fault) Error() string { return fmt.Sprintf("%s:%d: %s", f.Path, f.Line, f.Why) }

type reader struct {
	path string
	text string
	at   int
	line int
}

func (r *reader) fault(why string, words ...interface{}) *Fault {
	return &Fault{r.path, r.line, fmt.Sprintf(why, words...)}
}

// readTables reads a file: the keys before the first header are those of a table without a name.
func readTables(path, text string) ([]*Table, error) {
	if !utf8.ValidString(text) {
		return nil, &Fault{path, 1, "the file is not in UTF-8"}
	}
	r := &reader{path: path, text: text, line: 1}
	top := &Table{Line: 1, Values: map[string]Value{}}
	tables := []*Table{top}
	for r.skip(true); r.at < len(r.text); r.skip(true) {
		if r.text[r.at] == '[' {
			table, err := r.header(tables)
			if err != nil {
				return nil, err
			}
			tables = append(tables, table)
		} else if err := r.pair(tables[len(tables)-1]); err != nil {
			return nil, err
		}
		r.skip(false)
		if r.at < len(r.text) && r.text[r.at] != '\n' {
			return nil, r.fault("found %q, wanted the end of the line", r.rest())
		}
	}
	return tables, nil
}

// skip passes over spaces and comments, and over ends of lines if these are wanted.
func (r *reader) skip(lines bool) {
	for r.at < len(r.text) {
		switch c := r.text[r.at]; {
		case c == ' ' || c == '\t' || c == '\r':
			r.at++
		case c == '\n' && lines:
			r.at++
			r.line++
		case c == '#':
			for r.at < len(r.text) && r.text[r.at] != '\n' {
				r.at++
			}
		default:
			return
		}
	}
}

func (r *reader) rest() string {
	line := strings.SplitN(r.text[r.at:], "\n", 2)[0]
	if len(line) > 40 {
		line = line[:40]
	}
	return line
}

func (r *reader) name() string {
	begin := r.at
	for r.at < len(r.text) && strings.IndexByte("abcdefghijklmnopqrstuvwxyzABCDEFGHIJKLMNOPQRSTUVWXYZ0123456789_-", r.text[r.at]) >= 0 {
		r.at++
	}
	return r.text[begin:r.at]
}

func (r *reader) header(before []*Table) (*Table, error) {
	open, end := "[", "]"
	if strings.HasPrefix(r.text[r.at:], "[[") {
		open, end = "[[", "]]"
	}
	r.at += len(open)
	name := r.name()
	if name == "" || !strings.HasPrefix(r.text[r.at:], end) {
		return nil, r.fault("found %q, wanted a table's name and %s", r.rest(), end)
	}
	r.at += len(end)
	if open == "[[" {
		name += "[]"
	}
	for _, table := range before {
		if table.Name == name && open == "[" {
			return nil, r.fault("the table [%s] stands in line %d already", name, table.Line)
		}
	}
	return &Table{Name: name, Line: r.line, Values: map[string]Value{}}, nil
}

func (r *reader) pair(table *Table) error {
	name := r.name()
	if name == "" {
		return r.fault("found %q, wanted a key", r.rest())
	}
	if old, has := table.Values[name]; has {
		return r.fault("%s stands in line %d already", name, old.Line)
	}
	r.skip(false)
	if r.at >= len(r.text) || r.text[r.at] != '=' {
		return r.fault("found %q, wanted = behind %s", r.rest(), name)
	}
	r.at++
	r.skip(false)
	value, err := r.value()
	if err != nil {
		return err
	}
	table.Keys = append(table.Keys, name)
	table.Values[name] = value
	return nil
}

func (r *reader) value() (Value, error) {
	if r.at >= len(r.text) {
		return Value{}, r.fault("the file ends where a value is wanted")
	}
	switch c := r.text[r.at]; {
	case c == '"' || c == '\'':
		return r.string(c)
	case c == '[':
		return r.list()
	default:
		return r.word()
	}
}

func (r *reader) string(quote byte) (Value, error) {
	r.at++
	var made strings.Builder
	for r.at < len(r.text) && r.text[r.at] != '\n' {
		c := r.text[r.at]
		r.at++
		if c == quote {
			return Value{Line: r.line, Kind: "text", Text: made.String()}, nil
		}
		if c != '\\' || quote == '\'' {
			made.WriteByte(c)
			continue
		}
		if r.at == len(r.text) {
			break
		}
		plain, has := map[byte]byte{'"': '"', '\\': '\\', 'n': '\n', 't': '\t', 'r': '\r'}[r.text[r.at]]
		if !has {
			return Value{}, r.fault("\\%c is no escape; \\\" \\\\ \\n \\t \\r are", r.text[r.at])
		}
		made.WriteByte(plain)
		r.at++
	}
	return Value{}, r.fault("a text does not end on its line")
}

func (r *reader) list() (Value, error) {
	found := Value{Line: r.line, Kind: "list", List: []Value{}}
	r.at++
	for {
		r.skip(true)
		if r.at >= len(r.text) {
			return Value{}, &Fault{r.path, found.Line, "a list does not end"}
		}
		if r.text[r.at] == ']' {
			r.at++
			return found, nil
		}
		each, err := r.value()
		if err != nil {
			return Value{}, err
		}
		found.List = append(found.List, each)
		r.skip(true)
		if r.at < len(r.text) && r.text[r.at] == ',' {
			r.at++
		} else if r.at < len(r.text) && r.text[r.at] != ']' {
			return Value{}, r.fault("found %q, wanted , or ]", r.rest())
		}
	}
}

func (r *reader) word() (Value, error) {
	begin := r.at
	for r.at < len(r.text) && strings.IndexByte(" \t\r\n#,]", r.text[r.at]) < 0 {
		r.at++
	}
	word := r.text[begin:r.at]
	if word == "true" || word == "false" {
		return Value{Line: r.line, Kind: "truth", Truth: word == "true"}, nil
	}
	number, err := strconv.ParseInt(strings.ReplaceAll(word, "_", ""), 10, 64)
	if err != nil {
		return Value{}, r.fault("found %q, wanted a text in quotes, a whole number, true, false or a list", word)
	}
	return Value{Line: r.line, Kind: "number", Number: number}, nil
}
