package main

import (
	"go/ast"
	"go/parser"
	"go/token"
	"os"
	"path/filepath"
	"sort"
	"strings"
	"testing"
)

// What a time.Time says by the clock on the wall: these leave the reading of the clock that does not stop, by which the
// differences, the timers and the deadlines of Go go.
const wall = " UnixNano UnixMicro UnixMilli Unix UTC In Local Round Truncate AddDate Date Format AppendFormat Year YearDay " +
	"Month Day Weekday Hour Minute Second Nanosecond ISOWeek Zone Parse " +
	"ParseInLocation ModTime Chtimes Atim Mtim Ctim ClockGettime Gettimeofday "

// Where a source may ask for the time of day, how often, and why a jump of it does no harm there.
var asked = map[string]int{
	"benching.go UnixNano":                 3, // keys of a bench, and when its commits began and ended, for other programs
	"internal/agent/agent.go UnixNano":     1, // tells a process from the one before it
	"internal/journal/journal.go Truncate": 2, // of a file
	"internal/keeper/keeper.go UnixNano":   2, // the same, of a keeper: it is compared with itself alone
	"internal/report/report.go Format":     1, // the time in a line of the log
	"internal/report/report.go UTC":        1,
}

// No source asks for the time of day but where it is listed: what a process decides is by the clock that does not stop,
// which the time of day does not move.
func TestClocks(t *testing.T) {
	found := map[string]int{}
	files := 0
	err := filepath.Walk(".", func(path string, info os.FileInfo, err error) error {
		if err != nil || info.IsDir() || !strings.HasSuffix(path, ".go") || strings.HasSuffix(path, "_test.go") {
			return err
		}
		files++
		its, err := parser.ParseFile(token.NewFileSet(), path, nil, 0)
		if err != nil {
			return err
		}
		ast.Inspect(its, func(n ast.Node) bool {
			if call, is := n.(*ast.CallExpr); is {
				each, is := call.Fun.(*ast.SelectorExpr)
				if is && strings.Contains(wall, " "+each.Sel.Name+" ") && !isOther(each) {
					found[path+" "+each.Sel.Name]++
				}
			}
			return true
		})
		return nil
	})
	if err != nil || files < 30 {
		t.Fatal(files, err)
	}
	var names []string
	for name := range found {
		names = append(names, name)
	}
	for name := range asked {
		if found[name] == 0 {
			names = append(names, name)
		}
	}
	sort.Strings(names)
	for _, name := range names {
		if found[name] != asked[name] {
			t.Errorf("%s: %d times, and %d are listed", name, found[name], asked[name])
		}
	}
}

// isOther says whether a function of this name has nothing to do with a moment.
func isOther(its *ast.SelectorExpr) bool {
	from, is := its.X.(*ast.Ident)
	return is && (from.Name == "names" || from.Name == "config") && its.Sel.Name == "Parse"
}
