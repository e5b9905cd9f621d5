package main

import (
	"fmt"
	"strings"
	"testing"
	"time"

	"github.com/prometheus/client_golang/prometheus/testutil"
	"github.com/prometheus/common/model"

	"github.com/prometheus/alertmanager/types"
)

func TestAtALimitWhatIsOverIsRemoved(t *testing.T) {
	for how, kind := range map[string]string{"names": tooManyNames, "groups": tooManyGroups, "removes": tooManyGroups} {
		t.Run(how, func(t *testing.T) {
			d := testDispatcher(t, fake(t, how), oneReceiver)
			put := dispatched{d.alerts, d}
			var all []*types.Alert
			for i := 0; i < 5; i++ {
				all = append(all, alert(fmt.Sprint("alertname=", i)))
			}
			if err := put.Put(all...); err != nil {
				t.Error("two alerts above the limit aren't accepted after a removal: ", err)
			}
			if got := testutil.ToFloat64(d.metrics.refused.WithLabelValues("insert", kind)); got != 2 {
				t.Errorf("%v refusals are counted", got)
			}
			// The board has 2 by now. At the next limit it is too early for another removal.
			if err := put.Put(alert("alertname=a"), alert("alertname=b"), alert("alertname=c")); err == nil {
				t.Error("no error for what the board rejects")
			}
			if err := put.Put(alert("alertname=3"), alert("alertname=4"), alert("alertname=a")); err != nil {
				t.Error("a known alert is rejected: ", err)
			}
			if len(d.refused) != 2 {
				t.Errorf("%d alerts wait", len(d.refused))
			}
			if how == "names" {
				d.forget(d.session())
			} else {
				d.removeGroups(d.session())
			}
			d.lookAgain(d.session())
			if len(d.refused) != 0 {
				t.Error("they aren't tried again")
			}
		})
	}
}

// TestManyRejectedAlertsHaveAShortError: in the answer and in the log.
func TestManyRejectedAlertsHaveAShortError(t *testing.T) {
	d := testDispatcher(t, fake(t, "names"), oneReceiver)
	d.removals.isTime(tooManyNames) // (the last removal was just now)
	var all []*types.Alert
	for i := 0; i < 2000; i++ {
		all = append(all, alert(fmt.Sprint("alertname=", i)))
	}
	err := dispatched{d.alerts, d}.Put(all...)
	if err == nil || len(err.Error()) > 2000 || !strings.Contains(err.Error(), "and 1987 others") {
		t.Errorf("%.3000v", err)
	}
	if len(d.refused) != 1997 {
		t.Errorf("%d alerts wait", len(d.refused))
	}
}

// TestARequestIsTriedAgainAfterTheRemovalForAnother: it was queued before that, and rejected.
func TestARequestIsTriedAgainAfterTheRemovalForAnother(t *testing.T) {
	d := testDispatcher(t, fake(t, "names"), oneReceiver)
	s, put := d.session(), dispatched{d.alerts, d}
	if err := put.Put(alert("alertname=1"), alert("alertname=2"), alert("alertname=3")); err != nil {
		t.Fatal(err)
	}
	_, queued, err := put.store([]*types.Alert{alert("alertname=4")})
	if err != nil {
		t.Fatal(err)
	}
	if err := put.Put(alert("alertname=5")); err != nil {
		t.Error("the first request at the limit: ", err)
	}
	if err := d.settle(s, queued); err != nil {
		t.Error("the second one: ", err)
	}
	if _, queued, _ = put.store([]*types.Alert{alert("alertname=6"), alert("alertname=7")}); d.settle(s, queued) == nil {
		t.Error("it isn't too early for another removal")
	}
}

func TestOneRejectedAlertRejectsNoOther(t *testing.T) {
	large := "alertname=2,x=" + strings.Repeat("x", mostBytes)
	for how, rejected := range map[string]string{"the board": "alertname=2,y=" + strings.Repeat("y", 20000), "the program": large} {
		t.Run(how, func(t *testing.T) {
			d := testDispatcher(t, realBoard(t), oneReceiver)
			if err := (dispatched{d.alerts, d}).Put(alert("alertname=1"), alert(rejected), alert("alertname=3")); err == nil {
				t.Error("no error")
			}
			if got := d.summary().Alerts; got != 2 {
				t.Errorf("the board has %d alerts", got)
			}
			if got := testutil.ToFloat64(d.metrics.refused.WithLabelValues("insert", "value")); got != 1 {
				t.Errorf("%v refusals are counted", got)
			}
			if len(d.refused) != 1 {
				t.Errorf("%d alerts wait", len(d.refused))
			}
		})
	}
}

func TestABoardThatEndsIsStartedAgainWithAllAlerts(t *testing.T) {
	d := testDispatcher(t, realBoard(t), oneReceiver)
	put := dispatched{d.alerts, d}
	if err := put.Put(alert("alertname=1"), alert("alertname=2")); err != nil {
		t.Fatal(err)
	}
	first := d.session()
	first.board.cmd.Process.Kill()
	<-first.board.ended
	if err := put.Put(alert("alertname=3")); err != nil { // (before or after the new board is there)
		t.Error(err)
	}
	waitFor(t, func() bool { return d.session() != first && d.summary().Alerts == 3 })
	if d.isDown() != nil {
		t.Error(d.isDown())
	}
	if got := testutil.ToFloat64(d.metrics.restarts); got != 1 {
		t.Errorf("%v restarts are counted", got)
	}
}

// TestABoardThatEndsBeforeItsSession is counted, and the configuration is rejected.
func TestABoardThatEndsBeforeItsSession(t *testing.T) {
	d := testDispatcher(t, fake(t, "usual"), oneReceiver)
	first := d.session()
	t.Setenv("FAKE_BOARD", "unopened")
	if d.load(first.plan) == nil || d.session() != first || d.isDown() != nil {
		t.Error("a board that doesn't open takes over")
	}
	waitFor(t, func() bool { return testutil.ToFloat64(d.metrics.restarts) == 1 })
}

func TestAnAlertThatEndsBoardsEndsTwo(t *testing.T) {
	d := testDispatcher(t, fake(t, "poison"), oneReceiver)
	put := dispatched{d.alerts, d}
	if err := put.Put(alert("alertname=1")); err != nil {
		t.Fatal(err)
	}
	put.Put(alert("alertname=poison"))
	waitFor(t, func() bool { return testutil.ToFloat64(d.metrics.restarts) == 2 && d.isDown() == nil })
	again := alert("alertname=poison")
	again.EndsAt = again.EndsAt.Add(time.Minute)
	if err := put.Put(again, alert("alertname=2")); err == nil {
		t.Error("no error for an alert that boards ended at")
	}
	if err := put.Put(alert("alertname=3")); err != nil || testutil.ToFloat64(d.metrics.restarts) != 2 {
		t.Error("the third board isn't there: ", err)
	}
}

// TestALineThatEndsBoards: each alert of a line at which a board ended is tried alone, and the one at fault is found.
func TestALineThatEndsBoards(t *testing.T) {
	d := testDispatcher(t, fake(t, "poison"), oneReceiver)
	put := dispatched{d.alerts, d}
	var all []*types.Alert
	for i := 0; i < 20; i++ {
		all = append(all, alert(fmt.Sprint("alertname=", i)))
	}
	put.Put(append(all, alert("alertname=poison"))...)
	waitFor(t, func() bool { return testutil.ToFloat64(d.metrics.restarts) == 3 && d.isDown() == nil })
	if err := put.Put(all...); err != nil {
		t.Error("an alert of the same line is rejected: ", err)
	}
	if put.Put(alert("alertname=poison")) == nil || testutil.ToFloat64(d.metrics.restarts) != 3 {
		t.Error("the alert at fault isn't kept from the fourth board")
	}
}

func TestSuspicionsEnd(t *testing.T) {
	var c culprits
	about := func(subject string) func() string { return func() string { return subject } }
	for i := 0; i < 3; i++ {
		c.add([]string{"a", "b"}, time.Now())
	}
	c.add([]string{"a"}, time.Now())
	if isSuspect, err := c.check("insert", about("a")); !isSuspect || err != nil {
		t.Error("one board ended at it alone: ", err)
	}
	c.add([]string{"a"}, time.Now())
	if _, err := c.check("insert", about("a")); err == nil {
		t.Error("two boards ended at it alone")
	}
	if isSuspect, err := c.check("insert", about("c")); isSuspect || err != nil {
		t.Error("it is suspected of nothing: ", err)
	}
	c.known["a"] = suspicion{2, time.Now().Add(-suspectedFor - time.Minute)}
	if isSuspect, err := c.check("insert", about("a")); isSuspect || err != nil {
		t.Error("it isn't tried again: ", err)
	}
	if c.add(nil, time.Now()); len(c.known) != 1 {
		t.Errorf("%d suspicions are left", len(c.known))
	}
}

// TestAFullHistoryIsTaken: a flush that the board can't begin for its history is begun after that was taken.
func TestAFullHistoryIsTaken(t *testing.T) {
	d := testDispatcher(t, fake(t, "full"), oneReceiver)
	if !d.begin(d.session(), 3) {
		t.Error("the flush isn't tried again at once")
	}
	if d.begin(d.session(), 3) { // (nothing is due)
		t.Error("it goes on without an end")
	}
	if got := testutil.ToFloat64(d.metrics.refused.WithLabelValues("begin", historyFull)); got != 1 {
		t.Errorf("%v refusals are counted", got)
	}
}

func TestTooLargeAlertsArentSent(t *testing.T) {
	large := model.LabelSet{}
	for i := 0; i <= mostLabels; i++ {
		large[model.LabelName(fmt.Sprint("l", i))] = "x"
	}
	if tooLarge(large) == nil || tooLarge(model.LabelSet{"a": model.LabelValue(make([]byte, mostBytes))}) == nil {
		t.Error("no error")
	}
	delete(large, "l0")
	if err := tooLarge(large); err != nil {
		t.Error(err)
	}
}

func TestKnownAlertsAreForgotten(t *testing.T) {
	d := testDispatcher(t, realBoard(t), oneReceiver)
	over := alert("alertname=1")
	over.EndsAt = over.StartsAt
	if err := (dispatched{d.alerts, d}).Put(over, alert("alertname=2")); err != nil {
		t.Fatal(err)
	}
	d.known[model.LabelSet{"alertname": "gone"}.Fingerprint()] = over
	d.forgetKnown(d.session())
	if len(d.known) != 2 {
		t.Errorf("%d are left, and two are in groups", len(d.known))
	}
}
