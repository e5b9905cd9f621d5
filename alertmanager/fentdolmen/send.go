// One flush: each of its notices is sent by Alertmanager's own retries and senders, and reported.
package main

import (
	"context"
	"fmt"
	"sort"
	"sync"
	"time"

	"github.com/go-kit/log/level"
	"github.com/prometheus/common/model"

	"github.com/prometheus/alertmanager/dispatch"
	"github.com/prometheus/alertmanager/notify"
	"github.com/prometheus/alertmanager/types"
)

// sending is a flush in flight.
type sending struct {
	*session
	flush
	route *dispatch.Route
	began time.Time     // by the wall clock
	begun int64         // in the board's time
	turn  time.Duration // how long peers go first
}

// send sends all notices of a flush, and finishes it.
func (d *dispatcher) send(s *session, c call, line []byte) {
	defer s.sending.Done()
	f := &sending{session: s, began: time.UnixMilli(d.clock.wall()), begun: d.clock.now(), turn: d.cluster.turn()}
	if s.board.decode(c, line, &f.flush) != nil {
		return
	}
	f.route = s.routes[f.Group.Route]
	if f.route == nil {
		s.board.fail(fmt.Errorf("a flush of %q, which isn't a route", f.Group.Route))
		return
	}
	ctx, cancel := context.WithTimeout(f.context(), d.clock.until(f.Deadline)+f.turn)
	defer cancel()
	var filled []notice
	for _, n := range f.Notices {
		if !n.empty() {
			filled = append(filled, n)
		}
	}
	d.sendAll(ctx, f, filled)
	d.finish(f)
}

// sendAll sends notices side by side: none waits for another.
func (d *dispatcher) sendAll(ctx context.Context, f *sending, notices []notice) {
	var all sync.WaitGroup
	for _, n := range notices {
		all.Add(1)
		go func(n notice) {
			defer all.Done()
			d.sendNotice(ctx, f, n)
		}(n)
	}
	all.Wait()
}

// context has what Alertmanager's stages and senders read from it.
func (f *sending) context() context.Context {
	opts := f.route.RouteOpts
	ctx := notify.WithNow(f.ctx, f.began)
	ctx = notify.WithGroupKey(ctx, fmt.Sprintf("%s:%s", f.route.Key(), f.Group.Labels))
	ctx = notify.WithGroupLabels(ctx, f.Group.Labels)
	ctx = notify.WithReceiverName(ctx, opts.Receiver)
	return notify.WithRepeatInterval(ctx, opts.RepeatInterval)
}

// sendNotice sends a notice unless a peer has, and reports it.
func (d *dispatcher) sendNotice(ctx context.Context, f *sending, n notice) {
	integrations := f.integrations[f.route.RouteOpts.Receiver]
	if n.Integration >= len(integrations) {
		f.board.fail(fmt.Errorf("a notice for integration %d of %d", n.Integration, len(integrations)))
		return
	}
	alerts := d.alertsOf(n)
	for _, a := range alerts {
		d.show(a.Fingerprint(), status{}) // (nothing mutes it: it is notified of)
	}
	ctx = notify.WithFiringAlerts(ctx, make([]uint64, len(n.Firing)))
	ctx = notify.WithResolvedAlerts(ctx, make([]uint64, len(n.Resolved)))
	err := d.cluster.waitForPeers(ctx, f.turn, d.logger)
	isSentByPeer := err == nil && d.cluster.peer != nil && d.isSentByPeer(f, n)
	if err == nil && !isSentByPeer {
		_, _, err = notify.NewRetryStage(integrations[n.Integration], f.route.RouteOpts.Receiver, d.sends).Exec(ctx, d.logger, alerts...)
	}
	if err != nil {
		d.reportFailure(ctx, f, n, err)
		return
	}
	d.reportSuccess(f, n, !isSentByPeer)
}

// reportFailure reports a notice that wasn't delivered: the group's next flush tries it again.
func (d *dispatcher) reportFailure(ctx context.Context, f *sending, n notice, err error) {
	outcome, lvl := "refused", level.Error(d.logger)
	if ctx.Err() != nil {
		outcome = "expired"
	}
	if ctx.Err() == context.Canceled {
		lvl = level.Debug(d.logger)
	}
	lvl.Log("msg", "Notify for alerts failed", "num_alerts", len(n.Firing)+len(n.Resolved), "err", err)
	d.try(f.session, reportCall(f.Ticket, n.Integration, outcome))
}

// reportSuccess reports and notes, and keeps the row that the board logs. If the board is gone by then, what happened is kept all the
// same: the next one gets it. Where it isn't noted, the finish logs it.
func (d *dispatcher) reportSuccess(f *sending, n notice, isOurs bool) {
	report, note := reportCall(f.Ticket, n.Integration, "delivered"), noteCall(f.Ticket, n.Integration)
	t := f.board.submit(report, note)
	answers, err := t.wait()
	if err != nil {
		d.keep(f, f.rowOf(n, t.now), isOurs)
		return
	}
	var got noted
	for i, into := range []interface{}{nil, &got} {
		if err := f.board.decode(t.calls[i], answers[i], into); err != nil {
			d.count(err)
			level.Error(d.logger).Log("msg", "success not noted", "err", err)
		}
	}
	if got.Row != nil {
		d.keep(f, *got.Row, isOurs)
	}
}

// finish ends a flush, and keeps the rows that it logs: of what wasn't noted, and of the notices that had nothing to send.
func (d *dispatcher) finish(f *sending) {
	c := finishCall(f.Ticket)
	answers, err := f.board.submit(c).wait()
	var got finished
	if err == nil {
		err = f.board.decode(c, answers[0], &got)
		d.count(err)
	}
	for _, r := range got.Rows {
		d.keep(f, r, true)
	}
	d.poke()
}

// rowOf is the row of a success that no board answered.
func (f *sending) rowOf(n notice, moment int64) row {
	return row{f.Group, "", n.Integration, n.Kind, moment, expiry(f.route, moment), labelsOf(n.Firing), labelsOf(n.Resolved)}
}

// keep puts a row that was logged into the logbook, and sends it to the peers.
func (d *dispatcher) keep(f *sending, r row, isOurs bool) {
	offset := d.clock.offset()
	k, ok := f.session.keep(r, offset)
	if !ok {
		return
	}
	line := d.book.put(k, offset)
	if isOurs {
		d.cluster.broadcast(line)
	}
	if s := d.session(); s != nil && s != f.session {
		d.place(s, k)
	}
}

// place gives a row to a board that doesn't have it.
func (d *dispatcher) place(s *session, k keptRow) {
	for _, r := range s.place(k, d.clock.now(), d.clock.offset()) {
		if c, err := loadCall(r); err == nil {
			d.try(s, c)
		}
	}
}

// labelsOf is the label sets of alerts, in their order.
func labelsOf(alerts []boardAlert) []model.LabelSet {
	out := make([]model.LabelSet, 0, len(alerts))
	for _, a := range alerts {
		out = append(out, a.Labels)
	}
	return out
}

// alertsOf is the alerts of a notice in the order and form of Alertmanager's own flush: one that fires has no end.
func (d *dispatcher) alertsOf(n notice) types.AlertSlice {
	offset := d.clock.offset()
	out := make(types.AlertSlice, 0, len(n.Firing)+len(n.Resolved))
	for _, b := range n.Firing {
		a := d.alertOf(b, offset)
		a.EndsAt = time.Time{}
		out = append(out, a)
	}
	for _, b := range n.Resolved {
		a := d.alertOf(b, offset)
		if b.Ends != nil {
			if end := time.UnixMilli(*b.Ends - offset); !a.ResolvedAt(end.Add(time.Millisecond)) {
				a.EndsAt = end // (it has been inserted again since)
			}
		}
		out = append(out, a)
	}
	sort.Stable(out)
	return out
}

// alertOf is a copy of the alert that was inserted last for these labels.
func (d *dispatcher) alertOf(b boardAlert, offset int64) *types.Alert {
	d.mtx.RLock()
	defer d.mtx.RUnlock()
	if known, ok := d.known[b.Labels.Fingerprint()]; ok {
		a := *known
		return &a
	}
	return &types.Alert{Alert: model.Alert{Labels: b.Labels, StartsAt: time.UnixMilli(b.Starts - offset)}}
}
