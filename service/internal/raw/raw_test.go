package raw

import (
	"encoding/json"
	"fmt"
	"math/rand"
	"reflect"
	"strings"
	"testing"
)

// build makes of a text by this package what json makes of it.
func build(text []byte) interface{} {
	switch text[0] {
	case '{':
		its := map[string]interface{}{}
		if !Members(text, func(name string, value []byte) bool { its[name] = build(value); return true }) {
			return "no object"
		}
		return its
	case '[':
		its := []interface{}{}
		if !Elements(text, func(value []byte) bool { its = append(its, build(value)); return true }) {
			return "no list"
		}
		return its
	}
	var its interface{}
	if err := json.Unmarshal(text, &its); err != nil {
		return err.Error()
	}
	return its
}

func drawn(dice *rand.Rand, depth int) interface{} {
	switch kind := dice.Intn(7); {
	case kind < 2 && depth > 0:
		its := map[string]interface{}{}
		for count := dice.Intn(4); count > 0; count-- {
			its[fmt.Sprint("m", dice.Intn(9))] = drawn(dice, depth-1)
		}
		return its
	case kind < 4 && depth > 0:
		its := []interface{}{}
		for count := dice.Intn(4); count > 0; count-- {
			its = append(its, drawn(dice, depth-1))
		}
		return its
	case kind == 4:
		return []string{"", `"`, `\`, `\"`, `a\\`, "}", "]{", ",", "é", "\n"}[dice.Intn(10)]
	case kind == 5:
		return float64(dice.Intn(1000)) / 8
	}
	return []interface{}{nil, true, false}[dice.Intn(3)]
}

// What is taken apart is what encoding/json reads, spaced or not.
func TestAgainstJSON(t *testing.T) {
	dice := rand.New(rand.NewSource(1))
	for turn := 0; turn < 3000; turn++ {
		its := drawn(dice, 5)
		text, _ := json.Marshal(its)
		if turn%2 == 1 {
			text, _ = json.MarshalIndent(its, " ", "\t")
		}
		if found := build(text); !reflect.DeepEqual(found, its) {
			t.Fatalf("%s: %v", text, found)
		}
	}
}

// A text that is cut off, or has more behind its end, is none.
func TestCutOff(t *testing.T) {
	const whole = `{"a":[1,{"b":"c\"}"},null],"d":{}}`
	all := func(text string) bool { return Members([]byte(text), func(string, []byte) bool { return true }) }
	if !all(whole) || !all(" "+whole+" ") {
		t.Error("a whole text is none")
	}
	for end := 0; end < len(whole); end++ {
		if all(whole[:end]) {
			t.Errorf("%s is whole", whole[:end])
		}
	}
	for _, text := range []string{whole + "x", whole + "{}", `{"a":1,}`, `{"a"}`, `{a:1}`, `{"a":}`, `{"a":[}]}`, `[]`, `{"a":1 "b":2}`, strings.Repeat("[", 1000)} {
		if all(text) {
			t.Errorf("%s is an object", text)
		}
	}
}

func TestMember(t *testing.T) {
	text := []byte(`{"log":{"push":{"prev":3,"version":4,"epoch":257}}}`)
	name, its := Only(text)
	kind, push := Only(its)
	version, is := Number(Member(push, "version"))
	if name != "log" || kind != "push" || version != 4 || !is || Member(push, "none") != nil {
		t.Error(name, kind, version, is)
	}
	for _, each := range []string{`{"a":1,"b":2}`, `{}`, `[1]`, `7`} {
		if name, _ := Only([]byte(each)); name != "" {
			t.Errorf("%s has one member", each)
		}
	}
	if its, is := Text([]byte(`"ab"`)); its != "ab" || !is {
		t.Error(its, is)
	}
	for _, each := range []string{`7`, `"a\n"`, `null`, ``} {
		if _, is := Text([]byte(each)); is {
			t.Errorf("%s is a plain text", each)
		}
	}
	for _, each := range []string{`-1`, `1.5`, `"1"`, ``, `99999999999999999999`} {
		if _, is := Number([]byte(each)); is {
			t.Errorf("%s is a number that is not negative", each)
		}
	}
}
