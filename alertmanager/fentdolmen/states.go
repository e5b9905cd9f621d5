// The states that the API shows: the board says what mutes an alert.
package main

import (
	"errors"
	"sort"
	"sync"
	"time"

	"github.com/prometheus/common/model"

	"github.com/prometheus/alertmanager/provider"
	"github.com/prometheus/alertmanager/types"
)

// GetPending returns the alerts, once their states are the board's.
func (p dispatched) GetPending() provider.AlertIterator {
	pending := p.Alerts.GetPending()
	defer pending.Close()
	var alerts []*types.Alert
	for a := range pending.Next() {
		alerts = append(alerts, a)
	}
	p.d.mark(alerts)
	out := make(chan *types.Alert, len(alerts))
	for _, a := range alerts {
		out <- a
	}
	close(out)
	return provider.NewAlertIterator(out, make(chan struct{}), pending.Err())
}

// firstStatuses, mostStatuses and statusTime bound how many statuses a flush that is due can wait for, and how long. Each looks at all
// silences, and some patterns take their time.
const firstStatuses, mostStatuses, statusTime = 10, 100, 50 * time.Millisecond

// marking is the last run of statuses: when it began, and which alerts it showed.
type marking struct {
	mtx   sync.Mutex // one run at a time: requests that come together ask the board no more than one does
	began time.Time
	shown map[model.Fingerprint]struct{}
}

// stale returns the alerts that no run has shown which began after the request for them came.
func (m *marking) stale(alerts []*types.Alert, came time.Time) (left []*types.Alert) {
	if m.began.Before(came) {
		return alerts
	}
	for _, a := range alerts {
		if _, shown := m.shown[a.Fingerprint()]; !shown {
			left = append(left, a)
		}
	}
	return left
}

// resized is half of how many are asked at a time if that took too long, and else twice as many.
func resized(size int, took time.Duration) int {
	if took > statusTime {
		return (size + 1) / 2
	} else if size > mostStatuses/2 {
		return mostStatuses
	}
	return 2 * size
}

// mark has the API show what mutes these alerts. Other calls come between those for many. Without a board the last states stay.
func (d *dispatcher) mark(alerts []*types.Alert) {
	came := time.Now()
	d.marking.mtx.Lock()
	defer d.marking.mtx.Unlock()
	alerts = d.marking.stale(alerts, came)
	began, size, shown := time.Now(), firstStatuses, make(map[model.Fingerprint]struct{}, len(alerts))
	for s := d.session(); s != nil && len(alerts) > 0; {
		before := time.Now()
		calls, asked, left := d.statusCalls(alerts, size)
		answers, err := s.board.submit(calls...).wait()
		if err != nil {
			return
		}
		size = resized(size, time.Since(before))
		for i, line := range answers {
			var got status
			var r *refusal
			// (nothing mutes what the board rejects for its labels)
			if err := s.board.decode(calls[i], line, &got); err == nil || errors.As(err, &r) && r.Kind == badValue {
				d.show(asked[i].Fingerprint(), got)
			}
		}
		for _, a := range alerts[:len(alerts)-len(left)] {
			shown[a.Fingerprint()] = struct{}{}
		}
		alerts = left
	}
	if len(shown) > 0 {
		d.marking.began, d.marking.shown = began, shown
	}
}

// statusCalls asks for the first of these alerts, at most so many and as much as fits, and returns which these are and what is left. The
// board doesn't have what isn't asked of them: nothing mutes that.
func (d *dispatcher) statusCalls(alerts []*types.Alert, most int) (calls []call, asked, left []*types.Alert) {
	size := 0
	for i, a := range alerts {
		if len(calls) == most || size > mostLine {
			return calls, asked, alerts[i:]
		}
		if !d.hasStatus(a) {
			d.show(a.Fingerprint(), status{})
			continue
		}
		c := statusCall(a.Labels)
		calls, asked, size = append(calls, c), append(asked, a), size+len(c.args)
	}
	return calls, asked, nil
}

// hasStatus returns whether the board is asked for the status of an alert: not if that is too large, or if boards ended at it.
func (d *dispatcher) hasStatus(a *types.Alert) bool {
	if tooLarge(a.Labels) != nil {
		return false
	}
	subject := func() string { return subjectOfLabels(a.Labels) }
	_, inserted := d.culprits.check("insert", subject)
	_, shown := d.culprits.check("status", func() string { return shownPrefix + subject() })
	return inserted == nil && shown == nil
}

// show has the API show an alert as muted by this. As in Alertmanager it names one alert that inhibits it.
func (d *dispatcher) show(name model.Fingerprint, s status) {
	var numbers []int64
	var inhibitors []string
	for _, it := range s.Muted {
		if it.Cause == "silenced" {
			numbers = append(numbers, it.ID)
		} else if inhibitors == nil {
			inhibitors = []string{it.By.Fingerprint().String()}
		}
	}
	silences := d.mirror.named(numbers)
	sort.Strings(silences)
	d.marker.SetActiveOrSilenced(name, 0, silences, nil)
	d.marker.SetInhibited(name, inhibitors...)
}
