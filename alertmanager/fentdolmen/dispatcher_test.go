package main

import (
	"testing"
	"time"
)

// TestAllThatIsDueIsFlushed: each once, many at a time, and one at a time if the board takes its time.
func TestAllThatIsDueIsFlushed(t *testing.T) {
	for how, most := range map[string]int64{"due": fakeDue + mostBegins, "slow": fakeDue + 1} {
		t.Run(how, func(t *testing.T) {
			d := testDispatcher(t, fake(t, how), oneReceiver)
			if wait := d.flushDue(); wait <= 0 || wait > 2*fakeNext {
				t.Errorf("the next is due in %v, and it sleeps for %v", fakeNext, wait)
			}
			d.session().sending.Wait()
			if got := d.summary(); got.Groups != fakeDue || got.Entries > most {
				t.Errorf("%d of %d flushes are finished, after %d calls that begin one", got.Groups, fakeDue, got.Entries)
			}
		})
	}
}

// TestAReloadWhileSomethingIsAlwaysDue: on a machine that can't keep up, a new configuration is taken over all the same.
func TestAReloadWhileSomethingIsAlwaysDue(t *testing.T) {
	d := testDispatcher(t, fake(t, "always"), oneReceiver)
	d.start(time.Hour, time.Hour)
	first := d.session()
	waitFor(t, func() bool { return d.summary().Groups > 0 })
	ended := make(chan error)
	go func() { ended <- d.load(first.plan) }()
	select {
	case err := <-ended:
		if err != nil || d.session() == first {
			t.Error("the session is the same: ", err)
		}
	case <-time.After(20 * time.Second):
		t.Fatal("it waits for an end of what is due")
	}
}
