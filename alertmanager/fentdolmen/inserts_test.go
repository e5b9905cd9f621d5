package main

import (
	"bytes"
	"encoding/json"
	"reflect"
	"strings"
	"testing"

	"github.com/prometheus/common/model"

	"github.com/prometheus/alertmanager/types"
)

// insertItem is the arguments of an insert.
func insertItem(labels model.LabelSet, now, starts int64, ends *int64) []byte {
	return appendInsert(nil, []byte(subjectOfLabels(labels)), now, starts, ends)
}

// TestLinesOfInserts: a suspect is alone, and lines have bounds.
func TestLinesOfInserts(t *testing.T) {
	var lines insertLines
	for _, isAlone := range []bool{false, false, true, false, true, true} {
		lines.add([]byte("{}"), isAlone)
	}
	for i := 0; i < mostItems; i++ {
		lines.add([]byte("{}"), false)
	}
	large := bytes.Repeat([]byte("x"), mostLine-1)
	lines.add(large, false)
	lines.add(large, false)
	var got []int
	for _, it := range lines.calls {
		got = append(got, len(it.items))
	}
	wanted := []int{2, 1, 1, 1, 1, mostItems, 1, 1}
	if len(got) != len(wanted) {
		t.Fatalf("%v, not %v", got, wanted)
	}
	for i := range wanted {
		if got[i] != wanted[i] {
			t.Errorf("%v, not %v", got, wanted)
		}
	}
}

// TestWhatALineIsAbout: texts in labels that look like other fields change nothing.
func TestWhatALineIsAbout(t *testing.T) {
	odd := map[string]string{`,"starts":1`: "x", "y": `"labels":`}
	for name, value := range odd {
		item := insertItem(alert("alertname="+value+name).Labels, 5, 6, nil)
		c := insertsCall(item, item)
		if got := c.subjects(); len(got) != 2 || got[0] != `"labels":`+string(appendLabels(nil, alert("alertname="+value+name).Labels)) {
			t.Errorf("%q", got)
		}
		if line := c.appendLine(nil, 7); !bytes.Equal(line, []byte(`{"inserts":[`+string(item)+","+string(item)+"]}\n")) {
			t.Errorf("%s", line)
		}
	}
	silence := silenceCall(3, []matcher{{"a", "=", `,"starts":`}}, 1, 2)
	if got := silence.subjects(); len(got) != 1 || got[0] != `"matchers":[["a","=",",\"starts\":"]]` {
		t.Errorf("%q", got)
	}
	if got := beginCall().subjects(); len(got) != 0 {
		t.Errorf("%q", got)
	}
}

// TestSubjectsOfARequest: each is as encoding/json has the labels, also next to one that is too large.
func TestSubjectsOfARequest(t *testing.T) {
	var alerts []*types.Alert
	for _, text := range []string{"b=1,a=2", "x=" + strings.Repeat("x", mostBytes), "a=", "é=\"\\", "c=<&>,b=\u2028,a=\x00,d=\xff", "a=1"} {
		alerts = append(alerts, alert(text))
	}
	for i, it := range subjectsOf(alerts) {
		if i == 1 {
			if it.err == nil || it.text != nil {
				t.Errorf("too large: %v, %d bytes", it.err, len(it.text))
			}
			continue
		}
		plain, _ := json.Marshal(alerts[i].Labels)
		var got, wanted map[string]map[string]string
		if err := json.Unmarshal([]byte("{"+string(it.text)+"}"), &got); err != nil {
			t.Errorf("%s: %v", it.text, err)
		}
		if json.Unmarshal([]byte(`{"labels":`+string(plain)+"}"), &wanted); !reflect.DeepEqual(got, wanted) || it.name != alerts[i].Fingerprint() {
			t.Errorf("%s and not %s", it.text, plain)
		}
		if string(it.text) != subjectOfLabels(alerts[i].Labels) {
			t.Errorf("%s is another text of the same labels", it.text)
		}
	}
}

// TestSubjectsOfMergedAlerts: what was stored counts.
func TestSubjectsOfMergedAlerts(t *testing.T) {
	first, second, other := alert("a=1"), alert("a=2"), alert("a=3")
	merged := *second
	for _, stored := range [][]*types.Alert{{first, &merged}, {first, other}, {other, second}, {first}, {}} {
		got := stillOf(subjectsOf([]*types.Alert{first, second}), stored)
		if len(got) != len(stored) {
			t.Fatalf("%d subjects of %d alerts", len(got), len(stored))
		}
		for i, a := range stored {
			if string(got[i].text) != subjectOfLabels(a.Labels) || got[i].name != a.Fingerprint() {
				t.Errorf("%s for %v", got[i].text, a.Labels)
			}
		}
	}
}
