package main

import (
	"bufio"
	"bytes"
	"encoding/json"
	"fmt"
	"os"
	"strings"
	"time"
)

// fakeBoard answers lines as am-dispatch does, except for one thing:
//   - `names`, `groups`: after three alerts no other is accepted until forget or maintain was called
//   - `removes`: as `groups`, and it knows a call that removes empty groups alone
//   - `silences`: before forget no silence is accepted
//   - `poison`, `silent`: it ends at an alert of this name, at a silence
//   - `full`: it begins no flush until its history was taken
//   - `ends`, `hangs`, `form`, `untold`: summary is answered by a fault of the protocol
//   - `unnamed`: it doesn't name the routes
//   - `unopened`: it ends at its configuration
//   - `mute`: it answers nothing after its configuration
//   - `due`, `slow`: fakeDue groups are due, and its summary counts flushes that were finished; `slow` takes its time to begin each
//   - `always`: as `due`, without an end
//   - `mutes`: a silence and two rules mute each alert
//   - `unshown`: it ends at the status of an alert `poison`
//   - `counts`, `old`: its summary counts calls, and `old` doesn't know the one that removes empty groups alone
type fakeBoard struct {
	how string
	had map[string]bool
	// calls counts them by name.
	calls map[string]int
}

var fakeAnswers = map[string]string{"silence": "silenced", "report": "reported", "note": "noted", "finish": "finished", "maintain": "maintained",
	"forget": "forgotten", "load": "loaded", "take_history": "taken", "next_due": "next_due", "summary": "summary", "begin": "nothing_due", "status": "status"}

func (f *fakeBoard) run() {
	in := bufio.NewScanner(os.Stdin)
	in.Buffer(nil, 1<<24)
	for in.Scan() {
		var line map[string]json.RawMessage
		json.Unmarshal(in.Bytes(), &line)
		for name, args := range line {
			answer, goesOn := f.answer(name, args)
			if !goesOn {
				return
			}
			fmt.Println(answer)
		}
	}
}

// answer returns the answer to a call, and false if the board ends instead.
func (f *fakeBoard) answer(name string, args json.RawMessage) (string, bool) {
	usual := fmt.Sprintf(`{%q:{}}`, fakeAnswers[name])
	f.calls[name]++
	if f.how == "mute" && name != "alertmanager" && name != "remove_empty_groups" {
		time.Sleep(time.Minute)
	}
	if f.how == "due" || f.how == "slow" || f.how == "always" {
		if answer, ok := f.due(name); ok {
			return answer, true
		}
	}
	switch name {
	case "alertmanager":
		return f.open(args), f.how != "unopened"
	case "inserts":
		return f.inserts(args)
	case "groups":
		return `{"groups":[]}`, true
	case "summary":
		return f.summary(usual)
	case "silence":
		if f.how == "silences" && f.calls["forget"] == 0 {
			return fault("TooManySilences"), true
		}
		return `{"silenced":{"replaced":false}}`, f.how != "silent"
	case "status":
		if f.how == "mutes" {
			return `{"status":{"now":0,"muted":[{"cause":"silenced","id":1,"until":9},{"cause":"inhibited","rule":0,"by":{"alertname":"B"}},` +
				`{"cause":"inhibited","rule":1,"by":{"alertname":"C"}}],"routes":[]}}`, true
		}
		return usual, f.how != "unshown" || !bytes.Contains(args, []byte("poison"))
	case "begin":
		if f.how == "full" && f.calls["take_history"] == 0 {
			return fault("HistoryFull"), true
		}
	case "remove_empty_groups":
		if f.how != "removes" && f.how != "counts" {
			return fault("unknown"), true
		}
		f.had = map[string]bool{}
		return `{"groups_removed":{"groups":0}}`, true
	case "forget", "maintain":
		if name == map[string]string{"names": "forget", "groups": "maintain"}[f.how] {
			f.had = map[string]bool{}
		}
	}
	return usual, true
}

// fakeDue groups are due, and another one some time later.
const fakeDue, fakeNext = 100, 300 * time.Millisecond

// due is a board with groups that are due, each without a notice.
func (f *fakeBoard) due(name string) (string, bool) {
	left := fakeDue - f.calls["begin"]
	if f.how == "always" {
		left = fakeDue
	}
	switch {
	case name == "next_due" && left > 0:
		return `{"next_due":{"at":0}}`, true
	case name == "next_due":
		return fmt.Sprintf(`{"next_due":{"at":%d}}`, time.Now().Add(fakeNext).UnixMilli()), true
	case name == "begin" && left >= 0: // (this one counts)
		if f.how == "slow" {
			time.Sleep(2 * beginsWithin)
		}
		return fmt.Sprintf(`{"flush":{"ticket":%d,"group":{"route":"route 0","labels":{}},"receiver":"team","deadline":0,"notices":[]}}`, left), true
	case name == "summary":
		return fmt.Sprintf(`{"summary":{"groups":%d,"entries":%d}}`, f.calls["finish"], f.calls["begin"]), true
	}
	return "", false
}

// fault is a refusal of this kind.
func fault(kind string) string {
	return fmt.Sprintf(`{"error":{"pointer":"","kind":%q,"message":"no"}}`, kind)
}

// open names the routes: `route 0` is the root.
func (f *fakeBoard) open(args json.RawMessage) string {
	if f.how == "unnamed" {
		return `{"opened":{"ignored":[]}}`
	}
	var names []string
	for i := 0; i < bytes.Count(args, []byte(`"repeat_interval"`)); i++ {
		names = append(names, fmt.Sprintf(`"route %d"`, i))
	}
	return fmt.Sprintf(`{"opened":{"ignored":[],"routes":[%s]}}`, strings.Join(names, ","))
}

func (f *fakeBoard) summary(usual string) (string, bool) {
	switch f.how {
	case "hangs":
		time.Sleep(time.Minute)
	case "form":
		return `{"groups":[]}`, true
	case "untold":
		return fault("untold"), true
	case "counts", "old":
		// (the program makes the call for groups once to learn whether it is known)
		return fmt.Sprintf(`{"summary":{"groups":%d,"entries":%d,"alerts":%d}}`, f.calls["remove_empty_groups"]-1, f.calls["maintain"], f.calls["forget"]), true
	}
	return usual, f.how != "ends"
}

// inserts answers each insert of a line.
func (f *fakeBoard) inserts(args json.RawMessage) (string, bool) {
	var items []struct{ Labels json.RawMessage }
	json.Unmarshal(args, &items)
	var answers []string
	for _, it := range items {
		labels := string(it.Labels)
		switch {
		case f.how == "poison" && bytes.Contains(it.Labels, []byte("poison")):
			return "", false
		case !f.had[labels] && len(f.had) >= 3 && f.how == "names":
			answers = append(answers, fault("TooManyNames"))
		case !f.had[labels] && len(f.had) >= 3 && (f.how == "groups" || f.how == "removes"):
			answers = append(answers, fault("TooManyGroups"))
		default:
			f.had[labels] = true
			answers = append(answers, `{"inserted":{"stamp":1,"groups":1,"made":1}}`)
		}
	}
	return `{"inserts":[` + strings.Join(answers, ",") + `]}`, true
}
