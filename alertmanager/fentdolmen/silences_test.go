package main

import (
	"testing"
	"time"

	"github.com/prometheus/alertmanager/silence/silencepb"
)

func silenceOf(value string) *silencepb.Silence {
	now := time.Now()
	return &silencepb.Silence{Matchers: []*silencepb.Matcher{{Name: "alertname", Pattern: value}}, StartsAt: now, EndsAt: now.Add(time.Hour),
		Comment: "x", CreatedBy: "x"}
}

// TestSilencesAtTheLimit: after a forget a silence is accepted, and if it is too early for one, with a later upkeep.
func TestSilencesAtTheLimit(t *testing.T) {
	d := testDispatcher(t, fake(t, "silences"), oneReceiver)
	d.silences.SetBroadcast(d.silencesChanged)
	d.removals.isTime(tooManySilences) // (the last removal was just now)
	id, err := d.silences.Set(silenceOf("a"))
	if err != nil {
		t.Fatal(err)
	}
	waitFor(t, func() bool { return !d.mirror.knows(id) && d.mirror.catchUp() })
	d.removals.last = nil
	d.syncSilences(d.session())
	time.Sleep(200 * time.Millisecond)
	if !d.mirror.knows(id) || d.mirror.catchUp() {
		t.Error("it isn't accepted after a forget")
	}
}

func TestSilencesReachTheBoard(t *testing.T) {
	d := testDispatcher(t, realBoard(t), oneReceiver)
	d.silences.SetBroadcast(d.silencesChanged)
	id, err := d.silences.Set(silenceOf("a"))
	if err != nil {
		t.Fatal(err)
	}
	for _, name := range []string{"a", "b"} {
		a := alert("alertname=" + name)
		a.StartsAt = time.Now().Add(-time.Hour)
		if err := (dispatched{d.alerts, d}).Put(a); err != nil {
			t.Fatal(err)
		}
	}
	time.Sleep(2 * time.Millisecond) // (the silence can begin at the next millisecond of the board's clock, and end so)
	if got := begun(t, d); got != 1 {
		t.Errorf("%d groups are flushed with a notice", got)
	}
	if err := d.silences.Expire(id); err != nil {
		t.Fatal(err)
	}
	time.Sleep(2 * time.Millisecond)
	if err := d.load(d.session().plan); err != nil { // (a new board hasn't what is over)
		t.Fatal(err)
	}
	if got := begun(t, d); got != 2 {
		t.Errorf("%d groups are flushed with a notice after the end of the silence", got)
	}
}

// begun begins all that is due, and returns in how many flushes something is sent.
func begun(t *testing.T, d *dispatcher) (count int) {
	for {
		c := beginCall()
		answers, err := d.session().board.submit(c).wait()
		if err != nil {
			t.Fatal(err)
		}
		if string(answers[0][:8]) == `{"nothin` {
			return count
		}
		var f flush
		if c.decode(answers[0], &f) == nil && f.Ticket > 0 {
			count++
		}
	}
}
