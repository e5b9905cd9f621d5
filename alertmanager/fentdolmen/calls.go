// The calls of am-dispatch, their lines and their answers. No other file knows a name of a call or of a field.
package main

import (
	"bytes"
	"encoding/json"
	"fmt"
	"sort"
	"strconv"

	"github.com/prometheus/common/model"
)

// call is one line for the board. Its arguments are JSON without the braces; submit puts `now` before them if it is timed.
type call struct {
	name    string
	timed   bool
	args    []byte
	items   [][]byte // of `inserts` alone, in place of args: the arguments of each insert
	answers []string // the fields with which an answer can begin, besides `error`; nil if the answer doesn't matter
}

var (
	errorField = []byte(`{"error":`)
	flushField = []byte(`{"flush":`)
	quietField = []byte(`{"quiet":`)
)

// Calls without arguments but the time.

func nextDueCall() call { return call{name: "next_due", answers: []string{"next_due"}} }
func beginCall() call {
	return call{name: "begin", timed: true, answers: []string{"flush", "quiet", "nothing_due"}}
}
func maintainCall() call { return call{name: "maintain", timed: true, answers: []string{"maintained"}} }

// removeGroupsCall removes the groups without alerts and nothing else. Not every board has it.
func removeGroupsCall() call { return call{name: "remove_empty_groups", timed: true} }
func forgetCall() call       { return call{name: "forget", timed: true, answers: []string{"forgotten"}} }
func groupsCall() call       { return call{name: "groups", answers: []string{"groups"}} }
func summaryCall() call      { return call{name: "summary", answers: []string{"summary"}} }
func takeCall() call         { return call{name: "take_history", answers: []string{"taken"}} }

// configCall opens the board. Its value is the whole object of an alertmanager.yml.
func configCall(value map[string]interface{}) (call, error) {
	args, err := json.Marshal(value)
	if err != nil {
		return call{}, err
	}
	return call{name: "alertmanager", args: args[1 : len(args)-1], answers: []string{"opened"}}, nil
}

// openCall opens a board whose routes are muted by time. Its value is that of an alertmanager.yml, and what times mean.
func openCall(value map[string]interface{}) (call, error) {
	c, err := configCall(value)
	c.name = "open"
	return c, err
}

// matcher is a name, an operator and a value.
type matcher [3]string

// silenceCall sets a silence, with times of the board. One of the same number is replaced.
func silenceCall(id int64, matchers []matcher, starts, ends int64) call {
	list, _ := json.Marshal(matchers) // (texts alone: that can't fail)
	args := fmt.Sprintf(`"id":%d,"matchers":%s,"starts":%d,"ends":%d`, id, list, starts, ends)
	return call{name: "silence", timed: true, args: []byte(args), answers: []string{"silenced"}}
}

// statusCall asks what mutes a label set.
func statusCall(labels model.LabelSet) call {
	return call{name: "status", timed: true, args: []byte(subjectOfLabels(labels)), answers: []string{"status"}}
}

// shownPrefix parts a label set whose status is asked from an alert that is inserted: a board that ends at the one says nothing of the other.
const shownPrefix = "status "

// reportCall reports how a notice ended: delivered, refused or expired.
func reportCall(ticket int64, integration int, outcome string) call {
	args := fmt.Sprintf(`"ticket":%d,"integration":%d,"outcome":%q`, ticket, integration, outcome)
	return call{name: "report", args: []byte(args), answers: []string{"reported"}}
}

// noteCall logs the success of a notice that is reported delivered. The answer has its row.
func noteCall(ticket int64, integration int) call {
	args := fmt.Sprintf(`"ticket":%d,"integration":%d`, ticket, integration)
	return call{name: "note", timed: true, args: []byte(args), answers: []string{"noted"}}
}

// finishCall ends a flush, and logs the successes that weren't noted. The answer has their rows.
func finishCall(ticket int64) call {
	return call{name: "finish", timed: true, args: strconv.AppendInt([]byte(`"ticket":`), ticket, 10), answers: []string{"finished"}}
}

// loadCall puts a row of an earlier log into the board.
func loadCall(r row) (call, error) {
	value, err := json.Marshal(r)
	return call{name: "load", timed: true, args: append([]byte(`"row":`), value...), answers: []string{"loaded"}}, err
}

// subjects is what a silence, a status or inserts are about, without numbers and times. Other calls have none.
func (c call) subjects() []string {
	switch c.name {
	case "silence":
		return []string{between(c.args, `"matchers":`, `,"starts":`)}
	case "status":
		return []string{shownPrefix + string(c.args)}
	}
	out := make([]string, 0, len(c.items))
	for _, it := range c.items {
		out = append(out, subjectOf(it))
	}
	return out
}

// between is the part from the first `begin` to the last `end`. No text of JSON has these in it: its quotes are escaped.
func between(text []byte, begin, end string) string {
	from, to := bytes.Index(text, []byte(begin)), bytes.LastIndex(text, []byte(end))
	if from < 0 || to < from {
		return ""
	}
	return string(text[from:to])
}

// appendLine appends the line of a call.
func (c call) appendLine(out []byte, now int64) []byte {
	out = append(append(append(out, `{"`...), c.name...), `":`...)
	if c.items != nil {
		return append(append(appendItems(out, c.items), '}'), '\n')
	}
	out = append(out, '{')
	if c.timed {
		out = strconv.AppendInt(append(out, `"now":`...), now, 10)
		if len(c.args) > 0 {
			out = append(out, ',')
		}
	}
	return append(append(out, c.args...), "}}\n"...)
}

// field returns where the value of an answer's first field begins: 0 if that isn't one of the call's.
func (c call) field(line []byte) int {
	for _, it := range c.answers {
		if n := len(it); len(line) > n+4 && line[0] == '{' && line[1] == '"' && string(line[2:2+n]) == it && line[2+n] == '"' && line[3+n] == ':' {
			return n + 4
		}
	}
	return 0
}

// fits reports whether a line can be an answer to the call.
func (c call) fits(line []byte) bool {
	return bytes.HasPrefix(line, errorField) || c.answers == nil || c.field(line) > 0
}

var endOfAnswer = []byte("}\n")

// decode reads the value of an answer, whose first field is one of the call's. A refusal is an error.
func (c call) decode(line []byte, into interface{}) error {
	if bytes.HasPrefix(line, errorField) {
		var got struct{ Error refusal }
		if err := json.Unmarshal(line, &got); err != nil {
			return fmt.Errorf("answer to %s: %w", c.name, err)
		}
		got.Error.Call = c.name
		return &got.Error
	}
	if into == nil {
		return nil
	}
	// Nearly all answers have one field. Else what is between is no value, and is read below.
	if from := c.field(line); from > 0 && bytes.HasSuffix(line[from:], endOfAnswer) && json.Unmarshal(line[from:len(line)-len(endOfAnswer)], into) == nil {
		return nil
	}
	var got map[string]json.RawMessage
	err := json.Unmarshal(line, &got)
	for _, it := range c.answers {
		if value, ok := got[it]; ok && err == nil {
			err = json.Unmarshal(value, into)
		}
	}
	if err != nil {
		return fmt.Errorf("answer to %s: %w", c.name, err)
	}
	return nil
}

// labelList is the labels of a set in the order of their names. It can be used again for another set.
type labelList []struct{ name, value string }

func (l *labelList) Len() int           { return len(*l) }
func (l *labelList) Less(i, j int) bool { return (*l)[i].name < (*l)[j].name }
func (l *labelList) Swap(i, j int)      { (*l)[i], (*l)[j] = (*l)[j], (*l)[i] }

// take replaces what is in the list by these labels.
func (l *labelList) take(labels model.LabelSet) {
	*l = (*l)[:0]
	for name, value := range labels {
		*l = append(*l, struct{ name, value string }{string(name), string(value)})
	}
	sort.Sort(l)
}

// fingerprint is Alertmanager's of the set. That of its package would put the labels in order once more.
func (l *labelList) fingerprint() model.Fingerprint {
	sum := uint64(hashStart)
	for _, it := range *l {
		sum = hashed(hashed(sum, it.name), it.value)
	}
	return model.Fingerprint(sum)
}

// hashStart and hashPrime are those of FNV-1a with 64 bits.
const hashStart, hashPrime = 14695981039346656037, 1099511628211

// hashed is a hash after a text, and the byte that ends it.
func hashed(sum uint64, text string) uint64 {
	for i := 0; i < len(text); i++ {
		sum = (sum ^ uint64(text[i])) * hashPrime
	}
	return (sum ^ uint64(model.SeparatorByte)) * hashPrime
}

// appendTo appends the list as an object.
func (l *labelList) appendTo(out []byte) []byte {
	out = append(out, '{')
	for i, it := range *l {
		if i > 0 {
			out = append(out, ',')
		}
		out = appendText(append(appendText(out, it.name), ':'), it.value)
	}
	return append(out, '}')
}

// appendLabels appends a label set as an object, its names in order.
func appendLabels(out []byte, labels model.LabelSet) []byte {
	var list labelList
	list.take(labels)
	return list.appendTo(out)
}

// appendText appends a text of JSON. Most texts need nothing escaped.
func appendText(out []byte, text string) []byte {
	for i := 0; i < len(text); i++ {
		if c := text[i]; c < ' ' || c > '~' || c == '"' || c == '\\' {
			quoted, _ := json.Marshal(text) // (a text: that can't fail)
			return append(out, quoted...)
		}
	}
	return append(append(append(out, '"'), text...), '"')
}
