package main

import (
	"fmt"
	"os"
	"path/filepath"
	"strings"
	"testing"
)

// A dump is read whole, or refused by its line.
func TestReadDump(t *testing.T) {
	head := func(rows int) string {
		return fmt.Sprintf(`{"cluster":"c","tag":0,"epoch":513,"version":9,"rows":%d}`+"\n", rows)
	}
	path := filepath.Join(t.TempDir(), "dump")
	for _, row := range []struct{ text, rows, why string }{
		{head(2) + `["6161","00ff"]` + "\n" + `["","" ]` + "\n", "aa=\x00\xff;=;", ""},
		{head(0), "", ""},
		{"", "", "0 rows, and its first line says another number"},
		{head(2) + `["61","00"]` + "\n", "", "1 rows, and its first line says another number"},
		{head(1) + `["61","00"]`, "", "the last line is cut off"},
		{head(1) + `["61","0"]` + "\n", "", ":2: no row of a dump"},
		{head(2) + `["61","00"]` + "\n" + `["61","00","00"]` + "\n", "", ":3: no row of a dump: it has 3 members"},
		{`["61","00"]` + "\n", "", ":1: no first line of a dump"},
		{`{"rows":0}` + "\n", "", ":1: no first line of a dump"},
		{"null\n", "", ":1: no first line of a dump"},
	} {
		if err := os.WriteFile(path, []byte(row.text), 0o644); err != nil {
			t.Fatal(err)
		}
		rows := ""
		_, err := readDump(path, func(key, value []byte) error { rows += string(key) + "=" + string(value) + ";"; return nil })
		if row.why == "" && (err != nil || rows != row.rows) || row.why != "" && (err == nil || !strings.Contains(err.Error(), row.why)) {
			t.Errorf("%q: %q, %v", row.text, rows, err)
		}
	}
}
