// What the API shows of the groups, from the board's own view.
package main

import (
	"sort"
	"time"

	"github.com/go-kit/log/level"
	"github.com/prometheus/common/model"

	"github.com/prometheus/alertmanager/dispatch"
	"github.com/prometheus/alertmanager/types"
)

// Groups returns the groups that pass the filters, in Alertmanager's order, and the receivers of each alert.
func (d *dispatcher) Groups(hasRoute func(*dispatch.Route) bool, hasAlert func(*types.Alert, time.Time) bool) (dispatch.AlertGroups, map[model.Fingerprint][]string) {
	groups, receivers := dispatch.AlertGroups{}, map[model.Fingerprint][]string{}
	s := d.session()
	if s == nil {
		return groups, receivers
	}
	var found []boardGroup
	if err := s.board.ask(groupsCall(), &found); err != nil {
		level.Error(d.logger).Log("msg", "groups not read", "err", err)
	}
	alerts := d.markedOf(found)
	now := time.Now()
	for i, g := range found {
		route := s.routes[g.Group.Route]
		if route == nil || !hasRoute(route) {
			continue
		}
		shown := &dispatch.AlertGroup{Labels: g.Group.Labels, Receiver: route.RouteOpts.Receiver}
		for _, a := range alerts[i] {
			if hasAlert(a, now) {
				shown.Alerts = append(shown.Alerts, a)
				receivers[a.Fingerprint()] = append(receivers[a.Fingerprint()], shown.Receiver)
			}
		}
		if len(shown.Alerts) > 0 {
			sort.Sort(shown.Alerts)
			groups = append(groups, shown)
		}
	}
	sort.Sort(groups)
	for _, names := range receivers {
		sort.Strings(names)
	}
	return groups, receivers
}

// markedOf is the alerts of each group, once their states are the board's.
func (d *dispatcher) markedOf(groups []boardGroup) (out [][]*types.Alert) {
	var all []*types.Alert
	for _, g := range groups {
		alerts := d.knownOf(g.Alerts)
		out, all = append(out, alerts), append(all, alerts...)
	}
	d.mark(all)
	return out
}

// knownOf is the alerts as they were inserted last.
func (d *dispatcher) knownOf(alerts []boardAlert) (out []*types.Alert) {
	names := make([]model.Fingerprint, len(alerts)) // (computed before the lock)
	for i, b := range alerts {
		names[i] = b.Labels.Fingerprint()
	}
	d.mtx.RLock()
	defer d.mtx.RUnlock()
	for _, name := range names {
		if a, ok := d.known[name]; ok {
			out = append(out, a)
		}
	}
	return out
}

// summaryWithin is how long the metrics wait for the board.
const summaryWithin = time.Second

// summary is what the board counts, or what it counted last if it doesn't answer in time: the metrics that say what is wrong mustn't wait
// for it. Without a board all is 0.
func (d *dispatcher) summary() (out summary) {
	s := d.session()
	if s == nil {
		return out
	}
	c := summaryCall()
	t, timer := s.board.submit(c), time.NewTimer(summaryWithin)
	defer timer.Stop()
	select {
	case <-t.done:
	case <-timer.C:
		d.mtx.RLock()
		defer d.mtx.RUnlock()
		return d.counted
	}
	if t.err != nil || s.board.decode(c, t.answers[0], &out) != nil {
		return summary{}
	}
	d.mtx.Lock()
	defer d.mtx.Unlock()
	d.counted = out
	return out
}
