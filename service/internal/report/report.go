// Package report writes the log of a process: one line of JSON each, on standard error.
package report

import (
	"encoding/json"
	"fmt"
	"io"
	"os"
	"sync"
	"time"
)

// Levels, by their names.
var Levels = map[string]int{"debug": 0, "info": 1, "warn": 2, "error": 3}

// Log writes lines of at least its level.
type Log struct {
	mutex sync.Mutex
	to    io.Writer
	level int
	who   string
}

// New makes a log of a process: who says which one it is.
func New(who string, level int) *Log { return &Log{to: os.Stderr, level: level, who: who} }

// Debug, Info, Warn and Error write a line: a text, and then names with their values.
func (l *Log) Debug(text string, pairs ...interface{}) { l.write("debug", text, pairs) }
func (l *Log) Info(text string, pairs ...interface{})  { l.write("info", text, pairs) }
func (l *Log) Warn(text string, pairs ...interface{})  { l.write("warn", text, pairs) }
func (l *Log) Error(text string, pairs ...interface{}) { l.write("error", text, pairs) }

func (l *Log) write(level, text string, pairs []interface{}) {
	if Levels[level] < l.level {
		return
	}
	line := []byte(`{"time":` + quoted(time.Now().UTC().Format("2006-01-02T15:04:05.000Z")) + `,"level":"` + level +
		`","who":` + quoted(l.who) + `,"text":` + quoted(text))
	for at := 0; at+1 < len(pairs); at += 2 {
		value := pairs[at+1]
		if err, is := value.(error); is {
			value = err.Error()
		}
		its, err := json.Marshal(value)
		if err != nil {
			its = []byte(quoted(fmt.Sprint(value)))
		}
		line = append(line, ","+quoted(fmt.Sprint(pairs[at]))+":"...)
		line = append(line, its...)
	}
	l.mutex.Lock()
	defer l.mutex.Unlock()
	_, _ = l.to.Write(append(line, '}', '\n'))
}

func quoted(text string) string {
	its, _ := json.Marshal(text)
	return string(its)
}
