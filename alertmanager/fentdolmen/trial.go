// New silences are tried first on a board of their own: one that the dispatcher's board would reject is answered 400, and mutes nothing.
package main

import (
	"bytes"
	"encoding/json"
	"errors"
	"io"
	"net/http"
	"path"
	"strings"
	"sync"
	"time"

	"github.com/prometheus/common/model"

	"github.com/prometheus/alertmanager/pkg/labels"
)

// trial is a board without alerts, which is started for the first silence. mostTries bounds its history.
type trial struct {
	program string
	now     func() int64
	count   func(error) string // counts a refusal

	mtx   sync.Mutex
	board *board
	tries int
}

const (
	trialWithin = 5 * time.Second
	mostTries   = 10000
)

// postedSilence is what both versions of the API read of a silence's matchers.
type postedSilence struct {
	Matchers []struct {
		Name    string `json:"name"`
		Value   string `json:"value"`
		IsRegex bool   `json:"isRegex"`
		IsEqual *bool  `json:"isEqual"`
	} `json:"matchers"`
}

// matchers is the matchers for the board.
func (p postedSilence) matchers() []matcher {
	out := make([]matcher, 0, len(p.Matchers))
	for _, m := range p.Matchers {
		isEqual := m.IsEqual == nil || *m.IsEqual
		out = append(out, matcher{m.Name, map[[2]bool]string{{false, true}: "=", {false, false}: "!=", {true, true}: "=~", {true, false}: "!~"}[[2]bool{m.IsRegex, isEqual}], m.Value})
	}
	return out
}

// matchTypes are Alertmanager's for the board's operators.
var matchTypes = map[string]labels.MatchType{"=": labels.MatchEqual, "!=": labels.MatchNotEqual, "=~": labels.MatchRegexp, "!~": labels.MatchNotRegexp}

// mostPattern is up to how many bytes Alertmanager's code reads a pattern first. A longer one is tried on the board before.
const mostPattern = 1024

// isForAPI returns whether Alertmanager rejects one of these matchers itself: then its own message is the answer.
func isForAPI(matchers []matcher) bool {
	for _, m := range matchers {
		if len(m[2]) > mostPattern {
			return false
		}
	}
	for _, m := range matchers {
		if _, err := labels.NewMatcher(matchTypes[m[1]], m[0], m[2]); err != nil || !model.LabelName(m[0]).IsValid() {
			return true
		}
	}
	return false
}

// try returns why the board rejects a silence, and nil if it doesn't, or if there is no board to try it on.
func (t *trial) try(matchers []matcher) error {
	t.mtx.Lock()
	defer t.mtx.Unlock()
	if t.tries++; t.tries%mostTries == 0 && t.board != nil {
		t.board.close()
		t.board = nil
	}
	if t.board == nil && t.open() != nil {
		return nil
	}
	err := t.board.ask(silenceCall(0, matchers, 0, 1), nil)
	var r *refusal
	if err == nil || errors.As(err, &r) && r.Kind != untold {
		return err
	}
	t.board = nil // (it has ended)
	return errors.New("the board doesn't answer to these matchers in time")
}

// open starts the board with a configuration that sends nothing.
func (t *trial) open() (err error) {
	t.board, err = openBoard(t.program, t.program+" (trial of silences)", trialWithin, t.now, func(*board, error) {}, func() {})
	if err != nil {
		t.board = nil
		return err
	}
	c, err := configCall(object{"route": object{"receiver": "none"}, "receivers": []object{{"name": "none"}}})
	if err == nil {
		err = t.board.ask(c, nil)
	}
	if err != nil {
		t.board.close()
		t.board = nil
	}
	return err
}

// close ends the board, if there is one.
func (t *trial) close() {
	t.mtx.Lock()
	defer t.mtx.Unlock()
	if t.board != nil {
		t.board.close()
	}
}

// trying tries each posted silence before the API gets it. What it can't read, or the API rejects anyway, is left to the API.
func (t *trial) trying(pages http.Handler) http.Handler {
	return http.HandlerFunc(func(w http.ResponseWriter, r *http.Request) {
		cleaned := path.Clean(r.URL.Path) // (as the API's router does)
		isV1, isV2 := strings.HasSuffix(cleaned, "/api/v1/silences"), strings.HasSuffix(cleaned, "/api/v2/silences")
		if r.Method != http.MethodPost || !isV1 && !isV2 {
			pages.ServeHTTP(w, r)
			return
		}
		body, err := io.ReadAll(r.Body)
		if err != nil {
			http.Error(w, err.Error(), http.StatusBadRequest)
			return
		}
		var posted postedSilence
		if json.Unmarshal(body, &posted) == nil && len(posted.Matchers) > 0 && !isForAPI(posted.matchers()) {
			if err := t.try(posted.matchers()); err != nil {
				t.count(err)
				rejectSilence(w, isV1, err)
				return
			}
		}
		r.Body = io.NopCloser(bytes.NewReader(body))
		pages.ServeHTTP(w, r)
	})
}

// rejectSilence answers as the API of this version does.
func rejectSilence(w http.ResponseWriter, isV1 bool, err error) {
	var answer interface{} = err.Error()
	if isV1 {
		answer = object{"status": "error", "errorType": "bad_data", "error": err.Error()}
	}
	w.Header().Set("Content-Type", "application/json")
	w.WriteHeader(http.StatusBadRequest)
	json.NewEncoder(w).Encode(answer)
}
