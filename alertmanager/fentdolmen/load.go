// New boards: for the first configuration, a reload, and after a board that ended.
package main

import (
	"context"
	"errors"
	"time"

	"github.com/go-kit/log/level"
	"github.com/prometheus/common/model"

	"github.com/prometheus/alertmanager/types"
)

// mostCalls is how many calls a batch has where there are many.
const mostCalls = 500

// load begins a session with a configuration. With an error nothing has changed, and the old session goes on.
func (d *dispatcher) load(p *plan) error {
	d.loading.Lock()
	defer d.loading.Unlock()
	return d.replace(d.session(), p)
}

// replace begins a session in place of the old one, if there is one. What can be refused comes first.
func (d *dispatcher) replace(old *session, p *plan) error {
	b, err := openBoard(d.program, d.program, d.timeout, d.clock.now, d.broken, d.isHistoryLong)
	if err != nil {
		return err
	}
	next, err := d.configured(b, p)
	if err != nil {
		d.count(err)
		b.close()
		return err
	}
	d.flushing.Lock()
	defer d.flushing.Unlock()
	if old != nil {
		d.endSession(old)
	}
	d.history.begin(next.opens)
	d.mirror.reset()
	// Most rows come before alerts have to wait. Those that peers send meanwhile are in the logbook, and come after.
	later := d.loadRows(next, 0)
	go d.cleanUp(next, tick)
	inserts, err := d.fill(next)
	d.loadRows(next, later)
	d.syncSilences(next)
	for _, it := range inserts {
		d.settle(next, it)
	}
	d.poke()
	return err
}

// configured gives a new board its configuration, and makes a session of it.
func (d *dispatcher) configured(b *board, p *plan) (*session, error) {
	c, hours, err := opening(p, d.clock)
	if err != nil {
		return nil, err
	}
	var answer opened
	if err := b.ask(c, &answer); err != nil {
		return nil, err
	}
	names, err := nameRoutes(p.root, answer.Routes)
	if err != nil {
		return nil, err
	}
	s := &session{plan: p, routeNames: names, board: b, opens: c, hours: hours}
	if s.removesGroups, err = hasCall(b, removeGroupsCall()); err != nil {
		return nil, err
	}
	s.ctx, s.cancel = context.WithCancel(context.Background())
	return s, nil
}

// hasCall returns whether the board knows a call, by making it: one that it doesn't know is rejected, and changes nothing.
func hasCall(b *board, c call) (bool, error) {
	err := b.ask(c, nil)
	var r *refusal
	if errors.As(err, &r) && r.Kind == unknown {
		return false, nil
	}
	return err == nil, err
}

// fill gives the new board the alerts, and makes its session the present one.
func (d *dispatcher) fill(s *session) ([]inserts, error) {
	d.putting.Lock()
	defer d.putting.Unlock()
	all := d.alerts.GetPending()
	defer all.Close()
	d.mtx.Lock()
	d.current, d.down = s, nil
	d.known, d.refused = map[model.Fingerprint]*types.Alert{}, map[model.Fingerprint]struct{}{}
	d.mtx.Unlock()
	var some []*types.Alert
	var out []inserts
	for a := range all.Next() {
		if some = append(some, a); len(some) == mostCalls {
			out = append(out, d.insert(s, some, subjectsOf(some)))
			some = nil
		}
	}
	return append(out, d.insert(s, some, subjectsOf(some))), all.Err()
}

// loadRows gives the new board the rows since this number that have a place in its configuration. The others stay in the logbook. It
// returns the number for the next time.
func (d *dispatcher) loadRows(s *session, since int64) int64 {
	lines, next := d.book.lines(since)
	loaded := 0
	for _, t := range d.submitRows(s, lines) {
		loaded += d.checkAll(s, t, "row of the log not taken over")
	}
	if len(lines) > 0 {
		level.Info(d.logger).Log("msg", "notification log taken over", "rows", len(lines), "loaded", loaded)
	}
	return next
}

// submitRows queues the calls that load these lines of the logbook, mostCalls at a time.
func (d *dispatcher) submitRows(s *session, lines [][]byte) (out []*batch) {
	for calls := d.loadCalls(s, lines); len(calls) > 0; {
		some := calls[:atMost(len(calls), mostCalls)]
		calls = calls[len(some):]
		out = append(out, s.board.submit(some...))
	}
	return out
}

// loadCalls is the calls that load these lines of the logbook.
func (d *dispatcher) loadCalls(s *session, lines [][]byte) (calls []call) {
	kept, _ := decodeRows(lines)
	now, offset := d.clock.now(), d.clock.offset()
	for _, k := range kept {
		for _, r := range s.place(k, now, offset) {
			if c, err := loadCall(r); err == nil && r.Expiry > now {
				calls = append(calls, c)
			}
		}
	}
	return calls
}

// checkAll waits for a batch, logs what the board rejected, and returns how much it didn't.
func (d *dispatcher) checkAll(s *session, t *batch, what string) (good int) {
	answers, err := t.wait()
	if err != nil {
		return 0
	}
	for i, line := range answers {
		if err := s.board.decode(t.calls[i], line, nil); err != nil {
			d.count(err)
			level.Warn(d.logger).Log("msg", what, "err", err)
			continue
		}
		good++
	}
	return good
}

// isHistoryLong is called by the board every 10,000 calls.
func (d *dispatcher) isHistoryLong() {
	select {
	case d.isLong <- struct{}{}:
	default:
	}
}

// broken begins a new session with the same configuration in place of the one whose board ended. A board that ended before it had a
// session is only counted: who opened it sees to that.
func (d *dispatcher) broken(b *board, fault error) {
	d.culprits.add(b.culprits, time.Now())
	d.loading.Lock()
	defer d.loading.Unlock()
	s := d.session()
	if s == nil || s.board != b {
		d.metrics.restarts.Inc()
		return
	}
	level.Error(d.logger).Log("msg", "the board is gone: a new one goes on from the notification log", "err", fault)
	d.mtx.Lock()
	d.down = fault
	d.mtx.Unlock()
	d.metrics.restarts.Inc() // (after it is said that there is none: who saw it counted, and then a board, saw the new one)
	for wait := 100 * time.Millisecond; ; wait *= 2 {
		if d.isStopped() {
			return
		}
		err := d.replace(s, s.plan)
		if err == nil {
			return
		}
		level.Error(d.logger).Log("msg", "no new board", "err", err)
		if wait > 10*time.Second {
			wait = 10 * time.Second
		}
		if !d.sleep(wait) {
			return
		}
	}
}

// sleep returns whether the dispatcher goes on.
func (d *dispatcher) sleep(wait time.Duration) bool {
	select {
	case <-time.After(wait):
		return true
	case <-d.stop:
		return false
	}
}
