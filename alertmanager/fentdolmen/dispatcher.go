// The dispatcher: the board decides, and this sends what it says and reports how that ended.
package main

import (
	"bytes"
	"context"
	"errors"
	"sync"
	"time"

	"github.com/go-kit/log"
	"github.com/go-kit/log/level"
	"github.com/prometheus/common/model"

	"github.com/prometheus/alertmanager/notify"
	"github.com/prometheus/alertmanager/provider"
	"github.com/prometheus/alertmanager/silence"
	"github.com/prometheus/alertmanager/types"
)

// session is a board with its configuration, and what is being sent for it. A reload, and a board that ended, begin another one.
type session struct {
	*plan
	routeNames
	board *board
	opens call   // by which the board was opened
	hours *hours // the time intervals that it has, if any; of upkeep alone
	// removesGroups: the board has a call that removes empty groups and nothing else.
	removesGroups bool
	ctx           context.Context
	cancel        context.CancelFunc
	sending       sync.WaitGroup
}

// dispatcher has the session and all that outlives it. Its locks are held for work in memory alone, with two exceptions, `loading` and
// `flushing`: nothing that answers a request or reports a notification waits for these.
type dispatcher struct {
	program string
	timeout time.Duration
	clock   *clock
	logger  log.Logger
	metrics *metrics
	sends   *notify.Metrics

	silences *silence.Silences
	alerts   provider.Alerts
	marker   types.Marker // the states that the API shows
	marking  marking
	book     *logbook
	history  *historyFile
	cluster  peers

	loading  sync.Mutex // one reload or new board at a time
	flushing sync.Mutex // flushes begin in one session at a time
	putting  sync.Mutex // alerts reach the board in the order in which they are stored
	stored   []*types.Alert

	mtx     sync.RWMutex
	current *session
	down    error // why there is no board, if one ended
	counted summary
	// known has the last of each label set, with its annotations. refused are the alerts that the board rejected.
	known   map[model.Fingerprint]*types.Alert
	refused map[model.Fingerprint]struct{}

	mirror   mirror
	removals removals
	culprits culprits

	followed int64 // of upkeep alone: the clock's offset that the silences and the saved log have
	isHeldUp bool  // of run alone: the board rejected the last begin
	wake     chan struct{}
	isLong   chan struct{}
	stop     chan struct{}
	running  sync.WaitGroup
}

// newDispatcher makes a dispatcher without a board: load gives it one.
func newDispatcher(o *options, m *metrics, sends *notify.Metrics, silences *silence.Silences, book *logbook, history *historyFile, c *clock, logger log.Logger) *dispatcher {
	return &dispatcher{
		program: o.board, timeout: o.boardTimeout, clock: c, logger: log.With(logger, "component", "dispatcher"), metrics: m, sends: sends,
		silences: silences, book: book, history: history,
		known: map[model.Fingerprint]*types.Alert{}, refused: map[model.Fingerprint]struct{}{}, mirror: mirror{has: map[string]mirrored{}, names: map[int64]string{}},
		wake: make(chan struct{}, 1), isLong: make(chan struct{}, 1), stop: make(chan struct{}),
	}
}

// session returns the present one: nil before the first configuration, and while there is no board.
func (d *dispatcher) session() *session {
	d.mtx.RLock()
	defer d.mtx.RUnlock()
	return d.current
}

// isDown is why there is no board.
func (d *dispatcher) isDown() error {
	d.mtx.RLock()
	defer d.mtx.RUnlock()
	return d.down
}

// poke has the loop look at what is due.
func (d *dispatcher) poke() {
	select {
	case d.wake <- struct{}{}:
	default:
	}
}

// count counts a refusal, and returns its kind. Any other error is of a board that ended, which is seen to elsewhere.
func (d *dispatcher) count(err error) string {
	var r *refusal
	if !errors.As(err, &r) {
		return ""
	}
	d.metrics.refused.WithLabelValues(r.Call, r.Kind).Inc()
	return r.Kind
}

// try makes a call whose answer matters only if it is a refusal, and returns the kind of that.
func (d *dispatcher) try(s *session, c call) string {
	err := s.board.ask(c, nil)
	kind := d.count(err)
	if kind != "" {
		level.Error(d.logger).Log("msg", "the board rejects a call", "err", err)
	}
	return kind
}

// start runs the flushes and the upkeep until close.
func (d *dispatcher) start(maintainEvery, forgetEvery time.Duration) {
	d.running.Add(3)
	go d.run()
	go d.upkeep(maintainEvery, forgetEvery)
	go d.takeHistories()
}

// longest is how long the dispatcher sleeps at most: then it looks at the clock again, which may have gone on while the machine slept.
const longest = time.Second

// run begins flushes as they become due.
func (d *dispatcher) run() {
	defer d.running.Done()
	for {
		timer := time.NewTimer(d.flushDue())
		select {
		case <-timer.C:
		case <-d.wake:
		case <-d.stop:
			timer.Stop()
			return
		}
		timer.Stop()
	}
}

// flushDue begins all that is due, and returns how long nothing else will be.
func (d *dispatcher) flushDue() time.Duration {
	for count := 1; !d.isStopped(); {
		began := time.Now()
		if wait, goesOn := d.flushSome(count); !goesOn {
			return wait
		}
		if time.Since(began) > beginsWithin {
			count = 1
		} else {
			count = atMost(2*count, mostBegins)
		}
	}
	return longest
}

// flushSome begins so many flushes at most if one is due, and returns whether others can follow at once. It holds `flushing` for these
// alone: where something is always due, a reload that waits for it comes next all the same.
func (d *dispatcher) flushSome(count int) (wait time.Duration, goesOn bool) {
	d.flushing.Lock()
	defer d.flushing.Unlock()
	s := d.session()
	if s == nil {
		return longest, false
	}
	var next nextDue
	if s.board.ask(nextDueCall(), &next) != nil || next.At == nil {
		return longest, false
	}
	if wait := d.clock.until(*next.At); wait > longest {
		return longest, false
	} else if wait > 0 {
		return wait, false
	}
	return longest, d.begin(s, count)
}

// atMost is a number, or the bound if that is less.
func atMost(number, bound int) int {
	if number > bound {
		return bound
	}
	return number
}

// isStopped returns whether close was called.
func (d *dispatcher) isStopped() bool {
	select {
	case <-d.stop:
		return true
	default:
		return false
	}
}

// mostBegins is how many flushes are begun at a time where many are due: two processes that wake each other for each one take longer for
// that than for the flush. Where nothing else is due, a call for another flush changes nothing. The success of a notification waits behind
// them to be logged: a board that takes longer than beginsWithin gets one at a time.
const mostBegins, beginsWithin = 32, 2 * time.Millisecond

// begin begins so many flushes at most. It returns whether it did anything: then others can be due at once, or soon.
func (d *dispatcher) begin(s *session, count int) bool {
	calls := make([]call, count)
	for i := range calls {
		calls[i] = beginCall()
	}
	answers, err := s.board.submit(calls...).wait()
	if err != nil {
		return false
	}
	hasBegun := false
	var rejected error
	for i, line := range answers {
		switch {
		case bytes.HasPrefix(line, flushField):
			d.isHeldUp, hasBegun = false, true
			s.sending.Add(1)
			go d.send(s, calls[i], line)
		case bytes.HasPrefix(line, quietField):
			hasBegun = true
		case bytes.HasPrefix(line, errorField):
			rejected = s.board.decode(calls[i], line, nil)
		}
	}
	if rejected != nil {
		return d.beginRejected(s, rejected)
	}
	return hasBegun
}

// beginRejected takes the history out if that was full, and says whether another try is worth while. Without memory the group stays due.
func (d *dispatcher) beginRejected(s *session, err error) bool {
	kind, wasHeldUp := d.count(err), d.isHeldUp
	d.isHeldUp = true
	if !wasHeldUp {
		level.Error(d.logger).Log("msg", "flushes wait", "err", err)
	}
	if kind != historyFull || wasHeldUp {
		return false
	}
	d.takeHistory(s)
	return true
}

// close ends what is being sent, and the board.
func (d *dispatcher) close() {
	close(d.stop)
	d.running.Wait()
	d.loading.Lock()
	defer d.loading.Unlock()
	d.mtx.Lock()
	s := d.current
	d.current = nil
	d.mtx.Unlock()
	if s != nil {
		d.endSession(s)
	}
}

// endSession cuts off what is being sent, as a reload of Alertmanager does, and closes the board. A sender that ignores that is left.
func (d *dispatcher) endSession(s *session) {
	s.cancel()
	ended := make(chan struct{})
	go func() {
		s.sending.Wait()
		close(ended)
	}()
	select {
	case <-ended:
	case <-time.After(10 * time.Second):
		level.Error(d.logger).Log("msg", "notifications in flight don't end: left behind")
	}
	d.takeHistory(s)
	s.board.close()
}
