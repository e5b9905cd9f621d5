// Inserts: the alerts of a request go to the board in a few lines.
package main

import (
	"bytes"
	"encoding/json"
	"errors"
	"fmt"
	"reflect"
	"strconv"

	"github.com/prometheus/common/model"

	"github.com/prometheus/alertmanager/types"
)

// mostLabels and mostBytes bound what is sent of an alert: the board rejects more, but it would read all of it first.
const mostLabels, mostBytes = 64, 1 << 20

// tooLarge is the refusal of an alert that isn't sent, nil of another one.
func tooLarge(labels model.LabelSet) error {
	_, err := sizeOf(labels)
	return err
}

// sizeOf is the length of all names and values, and the refusal of an alert that isn't sent for them.
func sizeOf(labels model.LabelSet) (bytes int, err error) {
	for name, value := range labels {
		bytes += len(name) + len(value)
	}
	if len(labels) > mostLabels || bytes > mostBytes {
		err = &refusal{"insert", "/insert/labels", badValue, fmt.Sprintf("%d labels of %d bytes, and there can be %d of %d", len(labels), bytes, mostLabels, mostBytes)}
	}
	return bytes, err
}

// subject is what an insert is about. It takes most of the work on an insert, and needs no lock.
type subject struct {
	labels model.LabelSet
	name   model.Fingerprint
	text   []byte // the labels as a field of a line
	err    error  // the refusal of labels that are too large: then there is no text
}

// subjectsOf is the subjects of alerts, by position. Their texts share memory: a request has many, and they go together.
func subjectsOf(alerts []*types.Alert) []subject {
	out, total := make([]subject, len(alerts)), 0
	for i, a := range alerts {
		size, err := sizeOf(a.Labels)
		if out[i] = (subject{labels: a.Labels, err: err}); err == nil {
			total += len(labelsField) + len("{}") + size + len(`"":"",`)*len(a.Labels)
		}
	}
	texts, list := make([]byte, 0, total), labelList{}
	for i := range out {
		it := &out[i]
		list.take(it.labels)
		if it.name = list.fingerprint(); it.err == nil {
			from := len(texts)
			texts = list.appendTo(append(texts, labelsField...))
			it.text = texts[from:]
		}
	}
	return out
}

// isOf returns whether a subject was made of this very map.
func (s subject) isOf(labels model.LabelSet) bool {
	return reflect.ValueOf(s.labels).Pointer() == reflect.ValueOf(labels).Pointer()
}

// appendInsert appends the arguments of an insert, with times of the board.
func appendInsert(out, subject []byte, now, starts int64, ends *int64) []byte {
	out = append(strconv.AppendInt(append(out, `{"now":`...), now, 10), ',')
	out = strconv.AppendInt(append(append(out, subject...), `,"starts":`...), starts, 10)
	if ends != nil {
		out = strconv.AppendInt(append(out, `,"ends":`...), *ends, 10)
	}
	return append(out, '}')
}

// sizeFor is how many bytes the inserts of these subjects take at most, with times of today.
func sizeFor(subjects []subject) (bytes int) {
	const times = len(`{"now":1000000000000,,"starts":1000000000000,"ends":1000000000000}`)
	for _, it := range subjects {
		bytes += len(it.text) + times
	}
	return bytes
}

const labelsField = `"labels":`

// subjectOf is the labels of an insert.
func subjectOf(item []byte) string { return between(item, labelsField, `,"starts":`) }

// subjectOfLabels is the same of a label set.
func subjectOfLabels(labels model.LabelSet) string {
	return string(appendLabels([]byte(labelsField), labels))
}

// appendItems appends an array.
func appendItems(out []byte, items [][]byte) []byte {
	out = append(out, '[')
	for i, it := range items {
		if i > 0 {
			out = append(out, ',')
		}
		out = append(out, it...)
	}
	return append(out, ']')
}

// insertsCall is a line with these inserts.
func insertsCall(items ...[]byte) call {
	return call{name: "inserts", items: items, answers: []string{"inserts"}}
}

// mostItems and mostLine bound a line, so a flush that is due doesn't wait for many alerts.
const mostItems, mostLine = 500, 1 << 20

// insertLines gathers inserts into calls.
type insertLines struct {
	calls []call
	size  int // of the last one, in bytes
	full  bool
}

// add adds an insert, in a line of its own if it has to be alone.
func (l *insertLines) add(item []byte, isAlone bool) {
	if len(l.calls) == 0 || l.full || isAlone || l.size+len(item) > mostLine {
		l.calls, l.size = append(l.calls, insertsCall()), 0
	}
	last := &l.calls[len(l.calls)-1]
	last.items, l.size = append(last.items, item), l.size+len(item)
	l.full = isAlone || len(last.items) == mostItems
}

var insertedField = []byte(`{"inserted":`)

// refusals returns why the board rejects inserts, by position: nil if it accepts all. If the answer can't be read the board ends, and
// the next one gets the alerts.
func (b *board) refusals(c call, line []byte) []error {
	if bytes.Count(line, insertedField) == len(c.items) {
		return nil
	}
	var answers []json.RawMessage
	whole := b.decode(c, line, &answers)
	if whole == nil && len(answers) != len(c.items) {
		b.fail(fmt.Errorf("%d answers to %d inserts", len(answers), len(c.items)))
		return nil
	}
	one, out := call{name: "insert", answers: []string{"inserted"}}, make([]error, len(c.items))
	for i := range out {
		err := whole
		if err == nil {
			err = b.decode(one, answers[i], nil)
		}
		var r *refusal
		if errors.As(err, &r) && r.Kind != untold {
			out[i] = &refusal{one.name, r.Pointer, r.Kind, r.Message}
		}
	}
	return out
}
