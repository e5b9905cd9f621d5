// Alerts: Alertmanager's provider stores and merges them, and each goes on to the board before its request is answered.
package main

import (
	"fmt"
	"time"

	"github.com/go-kit/log/level"
	"github.com/prometheus/common/model"

	"github.com/prometheus/alertmanager/provider"
	"github.com/prometheus/alertmanager/types"
)

// inserts are alerts that were queued for the board together, and those that it isn't given.
type inserts struct {
	alerts, kept []*types.Alert
	errs         []error
	*batch
}

// dispatched is the provider for the API: a request with an alert that the board rejects fails, and the others of it are accepted.
type dispatched struct {
	provider.Alerts
	d *dispatcher
}

// Put stores alerts, and waits until the board has them. Without a board they wait for the next one in the provider.
func (p dispatched) Put(alerts ...*types.Alert) error {
	began := time.Now()
	defer func() { p.d.metrics.processing.Observe(time.Since(began).Seconds()) }()
	s, queued, err := p.store(alerts)
	if err != nil || s == nil {
		return err
	}
	return p.d.settle(s, queued)
}

// store stores alerts, and queues them for the board in the same order. Without a board there is no session.
func (p dispatched) store(alerts []*types.Alert) (*session, inserts, error) {
	subjects := subjectsOf(alerts) // (before the lock, for which other requests wait)
	p.d.putting.Lock()
	defer p.d.putting.Unlock()
	p.d.stored = make([]*types.Alert, 0, len(alerts))
	if err := p.Alerts.Put(alerts...); err != nil {
		return nil, inserts{}, err
	}
	s := p.d.session()
	if s == nil {
		return nil, inserts{}, nil
	}
	return s, p.d.insert(s, p.d.stored, stillOf(subjects, p.d.stored)), nil
}

// stillOf is the subjects of alerts as they were stored: those from before, and a new one where the labels are those of another request.
func stillOf(before []subject, stored []*types.Alert) []subject {
	if len(before) != len(stored) {
		return subjectsOf(stored)
	}
	for i, a := range stored {
		if !before[i].isOf(a.Labels) {
			before[i] = subjectsOf(stored[i : i+1])[0]
		}
	}
	return before
}

// The callbacks of the provider. PostStore has an alert as it was merged.

func (d *dispatcher) PreStore(*types.Alert, bool) error { return nil }
func (d *dispatcher) PostStore(a *types.Alert, _ bool)  { d.stored = append(d.stored, a) }
func (d *dispatcher) PostDelete(*types.Alert)           {}

// insert queues alerts, with `putting` held. The subjects are theirs, by position.
func (d *dispatcher) insert(s *session, alerts []*types.Alert, subjects []subject) inserts {
	out, names := inserts{alerts: make([]*types.Alert, 0, len(alerts))}, make([]model.Fingerprint, 0, len(alerts))
	var lines insertLines
	texts, now, offset := make([]byte, 0, sizeFor(subjects)), d.clock.now(), d.clock.offset()
	for i, a := range alerts {
		isSuspect, err := d.canInsert(subjects[i])
		if err != nil {
			out.kept, out.errs = append(out.kept, a), append(out.errs, err)
			continue
		}
		out.alerts, names = append(out.alerts, a), append(names, subjects[i].name)
		from := len(texts)
		texts = d.appendInsertOf(texts, a, subjects[i].text, now, offset)
		lines.add(texts[from:], isSuspect)
	}
	d.mtx.Lock()
	for i, a := range out.alerts {
		d.known[names[i]] = a
	}
	d.mtx.Unlock()
	out.batch = s.board.submit(lines.calls...)
	return out
}

// appendInsertOf appends the insert of an alert, whose times are moved by the offset.
func (d *dispatcher) appendInsertOf(out []byte, a *types.Alert, subject []byte, now, offset int64) []byte {
	var ends *int64
	if !a.EndsAt.IsZero() {
		end := d.clock.board(a.EndsAt, offset)
		ends = &end
	}
	return appendInsert(out, subject, now, d.clock.board(a.StartsAt, offset), ends)
}

// canInsert returns whether an insert has to be in a line of its own: an error if the board can't have it.
func (d *dispatcher) canInsert(it subject) (isSuspect bool, err error) {
	if it.err != nil {
		return false, it.err
	}
	return d.culprits.check("insert", func() string { return string(it.text) })
}

// settle waits for the answers to inserts. What was rejected at a limit is tried once more, after what is over was removed.
func (d *dispatcher) settle(s *session, queued inserts) error {
	left, kinds, err := d.rejected(s, queued)
	if len(left) > 0 && d.removeOver(s, kinds, queued.queued) {
		left, _, err = d.rejected(s, d.again(s, left))
	}
	d.poke()
	if len(left) > 0 {
		d.remember(left)
		level.Error(d.logger).Log("msg", "alerts not dispatched", "alerts", len(left), "err", err)
	}
	return err
}

// mostErrors is how many refusals of a request are in its answer and in the log. One request can have a million.
const mostErrors = 10

// rejected waits for inserts. It returns the alerts that the board rejected, the kinds of refusals, and the first of these as an error.
func (d *dispatcher) rejected(s *session, queued inserts) (left []*types.Alert, kinds map[string]bool, err error) {
	var all types.MultiError
	kinds = map[string]bool{}
	add := func(a *types.Alert, err error) {
		kinds[d.count(err)] = true
		if left = append(left, a); len(left) <= mostErrors {
			all.Add(err)
		}
	}
	for i, a := range queued.kept {
		add(a, queued.errs[i])
	}
	answers, _ := queued.wait() // (if the board is gone, the next one gets these alerts from the provider)
	first := 0
	for i, line := range answers {
		for j, err := range s.board.refusals(queued.calls[i], line) {
			if err != nil {
				add(queued.alerts[first+j], err)
			}
		}
		first += len(queued.calls[i].items)
	}
	if more := len(left) - all.Len(); more > 0 {
		all.Add(fmt.Errorf("and %d others", more))
	}
	if all.Len() > 0 {
		err = &all
	}
	return left, kinds, err
}

// again queues the alerts as they are by now.
func (d *dispatcher) again(s *session, alerts []*types.Alert) inserts {
	d.putting.Lock()
	defer d.putting.Unlock()
	latest := make([]*types.Alert, 0, len(alerts))
	for _, a := range alerts {
		if it, err := d.alerts.Get(a.Fingerprint()); err == nil {
			a = it
		}
		latest = append(latest, a)
	}
	return d.insert(s, latest, subjectsOf(latest))
}

// remember keeps which alerts were rejected, to try them again later.
func (d *dispatcher) remember(alerts []*types.Alert) {
	d.mtx.Lock()
	defer d.mtx.Unlock()
	for _, a := range alerts {
		d.refused[a.Fingerprint()] = struct{}{}
	}
}

// retryRefused tries the rejected alerts again that still fire. It stops where none of many is accepted.
func (d *dispatcher) retryRefused(s *session) {
	d.mtx.Lock()
	refused := d.refused
	d.refused = map[model.Fingerprint]struct{}{}
	d.mtx.Unlock()
	var alerts []*types.Alert
	for fp := range refused {
		if a, err := d.alerts.Get(fp); err == nil && !a.Resolved() {
			alerts = append(alerts, a)
		}
	}
	for len(alerts) > 0 {
		some := alerts[:atMost(len(alerts), mostCalls)]
		alerts = alerts[len(some):]
		left, _, _ := d.rejected(s, d.again(s, some))
		d.remember(left)
		if len(left) == len(some) {
			d.remember(alerts)
			return
		}
	}
}

// forgetKnown lets the annotations go of resolved alerts that are in no group.
func (d *dispatcher) forgetKnown(s *session) {
	var groups []boardGroup
	if s.board.ask(groupsCall(), &groups) != nil {
		return
	}
	held := map[model.Fingerprint]bool{}
	for _, g := range groups {
		for _, a := range g.Alerts {
			held[a.Labels.Fingerprint()] = true
		}
	}
	now := time.Now()
	d.mtx.Lock()
	defer d.mtx.Unlock()
	for fp, a := range d.known {
		if a.ResolvedAt(now) && !held[fp] {
			delete(d.known, fp)
		}
	}
}
