// Rows of the notification log, in the board's terms and in Alertmanager's.
package main

import (
	"fmt"

	"github.com/prometheus/common/model"

	"github.com/prometheus/alertmanager/dispatch"
)

// keptRow is a row of the notification log in Alertmanager's terms and times of the wall clock: it depends neither on the names of a
// configuration nor on this run.
type keptRow struct {
	RouteKey    string           `json:"routeKey"`
	Labels      model.LabelSet   `json:"groupLabels"`
	Receiver    string           `json:"receiver"`
	Integration string           `json:"integration"`
	Index       int              `json:"index"`
	Moment      int64            `json:"moment"`
	Expiry      int64            `json:"expiry"`
	Firing      []model.LabelSet `json:"firing"`
	Resolved    []model.LabelSet `json:"resolved"`
}

// id is by what Alertmanager's log finds an entry.
func (k keptRow) id() string {
	out := appendText(nil, k.RouteKey)
	out = appendText(append(out, ' '), k.Receiver)
	out = append(out, fmt.Sprintf(" %s/%d ", k.Integration, k.Index)...)
	return string(appendLabels(out, k.Labels))
}

// keep is a row of the board in Alertmanager's terms, if its route and integration are those of the session.
func (s *session) keep(r row, offset int64) (keptRow, bool) {
	route, ok := s.routes[r.Group.Route]
	if !ok || r.Integration >= len(s.integrations[route.RouteOpts.Receiver]) {
		return keptRow{}, false
	}
	id := s.ids[route]
	i := s.integrations[id.receiver][r.Integration]
	return keptRow{id.key, r.Group.Labels, id.receiver, i.Name(), i.Index(), r.Moment - offset, r.Expiry - offset, r.Firing, r.Resolved}, true
}

// place is the rows of the board for a kept one: one for each route of its key and receiver, which share it in Alertmanager's log. A
// time after `now`, from before the wall clock was set back, becomes `now`.
func (s *session) place(k keptRow, now, offset int64) []row {
	moment, expiry := k.Moment+offset, k.Expiry+offset
	if late := moment - now; late > 0 {
		moment, expiry = now, expiry-late
	}
	if moment < 0 {
		moment = 0
	}
	var out []row
	for position, i := range s.integrations[k.Receiver] {
		if i.Name() != k.Integration || i.Index() != k.Index {
			continue
		}
		for _, name := range s.names[routeID{k.RouteKey, k.Receiver}] {
			out = append(out, row{groupID{name, k.Labels}, s.receivers[k.Receiver], position, k.Integration, moment, expiry,
				append([]model.LabelSet{}, k.Firing...), append([]model.LabelSet{}, k.Resolved...)})
		}
	}
	return out
}

// expiry is when a row of this time can be forgotten, as in Alertmanager: after two repeats, but within the retention.
func expiry(r *dispatch.Route, moment int64) int64 {
	const retention = 120 * 3600 * 1000
	if twice := 2 * r.RouteOpts.RepeatInterval.Milliseconds(); twice < retention {
		return moment + twice
	}
	return moment + retention
}
