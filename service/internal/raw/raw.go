// Package raw takes a text of JSON apart without building what it says: members and elements are parts of the text. A line
// of a node can have a hundred thousand bytes, of which an agent looks at a few numbers and hands the rest on.
//
// It sees that strings end and that brackets match, and no more: what comes from a stranger is to be judged by json.Valid.
package raw

import (
	"bytes"
	"strconv"
)

// Members calls a function for each member of an object, until it answers false. It answers whether the text is an object
// of which all was seen. Names with escapes are handed out as they are spelled.
func Members(text []byte, take func(name string, value []byte) bool) bool {
	at := space(text, 0)
	if at >= len(text) || text[at] != '{' {
		return false
	}
	if at = space(text, at+1); at < len(text) && text[at] == '}' {
		return space(text, at+1) == len(text)
	}
	for {
		end := skip(text, at)
		if end < 0 || text[at] != '"' {
			return false
		}
		name := text[at+1 : end-1]
		if at = space(text, end); at >= len(text) || text[at] != ':' {
			return false
		}
		at = space(text, at+1)
		if end = skip(text, at); end < 0 || !take(string(name), text[at:end:end]) {
			return false
		}
		if at = space(text, end); at >= len(text) || text[at] != ',' {
			return at < len(text) && text[at] == '}' && space(text, at+1) == len(text)
		}
		at = space(text, at+1)
	}
}

// Elements does the same for the elements of a list.
func Elements(text []byte, take func(value []byte) bool) bool {
	at := space(text, 0)
	if at >= len(text) || text[at] != '[' {
		return false
	}
	if at = space(text, at+1); at < len(text) && text[at] == ']' {
		return space(text, at+1) == len(text)
	}
	for {
		end := skip(text, at)
		if end < 0 || !take(text[at:end:end]) {
			return false
		}
		if at = space(text, end); at >= len(text) || text[at] != ',' {
			return at < len(text) && text[at] == ']' && space(text, at+1) == len(text)
		}
		at = space(text, at+1)
	}
}

// Member is the value of a member; nothing if there is none of this name.
func Member(text []byte, name string) []byte {
	var found []byte
	Members(text, func(each string, value []byte) bool {
		if each == name {
			found = value
		}
		return found == nil
	})
	return found
}

// Only is the one member of an object, such as a variant is spelled by.
func Only(text []byte) (name string, value []byte) {
	count := 0
	is := Members(text, func(each string, its []byte) bool {
		name, value = each, its
		count++
		return true
	})
	if !is || count != 1 {
		return "", nil
	}
	return name, value
}

// Number reads a number that is not negative.
func Number(text []byte) (uint64, bool) {
	its, err := strconv.ParseUint(string(text), 10, 64)
	return its, err == nil
}

// Text reads a string without escapes.
func Text(text []byte) (string, bool) {
	if len(text) < 2 || text[0] != '"' || bytes.IndexByte(text, '\\') >= 0 {
		return "", false
	}
	return string(text[1 : len(text)-1]), true
}

// space is where the next byte stands that is no space.
func space(text []byte, at int) int {
	for at < len(text) && (text[at] == ' ' || text[at] == '\n' || text[at] == '\t' || text[at] == '\r') {
		at++
	}
	return at
}

// skip is the end of the value that begins at a place; below 0 if there is none.
func skip(text []byte, at int) int {
	if at >= len(text) {
		return -1
	}
	switch text[at] {
	case '"':
		return skipString(text, at)
	case '{', '[':
		return skipNested(text, at)
	}
	from := at
	for at < len(text) && isOfWord(text[at]) {
		at++
	}
	if at == from {
		return -1
	}
	return at
}

func isOfWord(c byte) bool {
	return c >= '0' && c <= '9' || c >= 'a' && c <= 'z' || c == '-' || c == '+' || c == '.' || c == 'E'
}

func skipString(text []byte, at int) int {
	for at++; ; at++ {
		end := bytes.IndexByte(text[at:], '"')
		if end < 0 {
			return -1
		}
		at += end
		escapes := 0
		for text[at-1-escapes] == '\\' {
			escapes++
		}
		if escapes%2 == 0 {
			return at + 1
		}
	}
}

func skipNested(text []byte, at int) int {
	var room [64]byte // (so that nothing is allocated for what is no deeper)
	open := room[:0]
	for at < len(text) {
		switch c := text[at]; c {
		case '"':
			if at = skipString(text, at); at < 0 {
				return -1
			}
			continue
		case '{', '[':
			open = append(open, c+2) // (in ASCII the closing one comes two later)
		case '}', ']':
			if len(open) == 0 || open[len(open)-1] != c {
				return -1
			}
			if open = open[:len(open)-1]; len(open) == 0 {
				return at + 1
			}
		}
		at++
	}
	return -1
}
