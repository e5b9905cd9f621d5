package main

import (
	"testing"
	"time"

	"github.com/prometheus/client_golang/prometheus/testutil"

	"github.com/prometheus/alertmanager/types"
)

// TestUpkeepMakesItsCalls: the fake board's summary counts them.
func TestUpkeepMakesItsCalls(t *testing.T) {
	d := testDispatcher(t, fake(t, "counts"), oneReceiver)
	d.start(20*time.Millisecond, 20*time.Millisecond)
	waitFor(t, func() bool { s := d.summary(); return s.Entries > 1 && s.Alerts > 1 })
	if d.summary().Groups != 0 {
		t.Error("empty groups are removed more often than every 30 seconds")
	}
}

// TestEmptyGroupsGoWhileASessionLasts: after its end no longer.
func TestEmptyGroupsGoWhileASessionLasts(t *testing.T) {
	d := testDispatcher(t, fake(t, "counts"), oneReceiver)
	s, ended := d.session(), make(chan struct{})
	go func() {
		d.cleanUp(s, 20*time.Millisecond)
		close(ended)
	}()
	waitFor(t, func() bool { return d.summary().Groups > 1 })
	s.cancel()
	<-ended
}

// TestABoardWithoutACallForGroupsIsMaintained: each 30 seconds, as its empty groups go with expired rows.
func TestABoardWithoutACallForGroupsIsMaintained(t *testing.T) {
	d := testDispatcher(t, fake(t, "old"), oneReceiver)
	if d.removeGroups(d.session()); d.summary().Entries != 1 {
		t.Error("empty groups aren't removed")
	}
}

// TestNothingWaitsForABoard: while a board doesn't answer, no lock is held that a page, a report or a request needs.
func TestNothingWaitsForABoard(t *testing.T) {
	d := testDispatcher(t, fake(t, "mute"), oneReceiver)
	s, put := d.session(), dispatched{d.alerts, d}
	ended := make(chan error)
	go func() { ended <- put.Put(alert("alertname=1")) }()
	go s.board.ask(summaryCall(), nil)
	go d.Groups(nil, nil)
	waitFor(t, func() bool { s.board.mtx.Lock(); defer s.board.mtx.Unlock(); return len(s.board.waiting) == 3 })
	for name, lock := range map[string]interface {
		TryLock() bool
		Unlock()
	}{"putting": &d.putting, "mtx": &d.mtx, "mirror": &d.mirror.mtx, "book": &d.book.mtx, "culprits": &d.culprits.mtx, "removals": &d.removals.mtx} {
		if !lock.TryLock() {
			t.Errorf("%s is held", name)
			continue
		}
		lock.Unlock()
	}
	k, _ := s.keep(row{Group: groupID{Route: "route 0"}, Moment: 1, Expiry: 1 << 60}, 0)
	if began, err := time.Now(), (gossiped{d}).Merge(lineOf(k)); err != nil || time.Since(began) > 5*time.Second {
		t.Errorf("a peer's row waits: %v, %v", time.Since(began), err)
	}
	d.counted.Groups = 7
	if began, got := time.Now(), testutil.CollectAndCount(counts{d.summary}); got != 3 || d.summary().Groups != 7 || time.Since(began) > 5*summaryWithin {
		t.Errorf("%d metrics after %v", got, time.Since(began))
	}
	if _, err := d.silences.Set(silenceOf("a")); err != nil {
		t.Error(err)
	}
	if s, queued, err := put.store([]*types.Alert{alert("alertname=2")}); s == nil || len(queued.alerts) != 1 || err != nil {
		t.Errorf("%v %v %v", s, queued, err)
	}
	s.board.cmd.Process.Kill()
	if err := <-ended; err != nil {
		t.Error("the next board gets the alert: ", err)
	}
}
