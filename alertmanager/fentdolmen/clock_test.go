package main

import (
	"testing"
	"time"
)

// fakeClock has hands that a test moves.
type fakeClock struct{ wallAt, steadyAt int64 }

func (f *fakeClock) clock() *clock {
	return newClock(func() int64 { return f.wallAt }, func() int64 { return f.steadyAt })
}

func TestClockNeverJumps(t *testing.T) {
	f := &fakeClock{1_000_000, 500}
	c := f.clock()
	for _, it := range []struct{ wall, steady, now int64 }{
		{1_000_000, 500, 1_000_000}, {1_060_000, 60_500, 1_060_000},
		{4_660_000, 60_600, 1_060_100},   // an hour ahead
		{1_000_000, 61_500, 1_061_000},   // back
		{-90_000_000, 62_500, 1_062_000}, // before 1970
	} {
		f.wallAt, f.steadyAt = it.wall, it.steady
		if got := c.now(); got != it.now {
			t.Errorf("at %d, %d it is %d, not %d", it.wall, it.steady, got, it.now)
		}
	}
}

func TestTimesFromOutsideFollowTheWallClock(t *testing.T) {
	f := &fakeClock{100_000_000, 0}
	c := f.clock()
	ends := func() int64 { return c.board(time.UnixMilli(f.wallAt+60_000), c.offset()) - c.now() }
	for _, jump := range []int64{0, 3_600_000, -7_200_000, 3_600_000} {
		f.wallAt += jump
		if got := ends(); got != 60_000 {
			t.Errorf("after a jump by %d an end in a minute is in %d", jump, got)
		}
	}
	if got := c.board(time.Time{}, c.offset()); got != 0 {
		t.Errorf("the year 1 is %d", got)
	}
}

func TestDriftMovesNoTimes(t *testing.T) {
	f := &fakeClock{100_000_000, 0}
	c := f.clock()
	before := c.offset()
	f.wallAt += drift
	if c.offset() != before {
		t.Error("a small difference moves times")
	}
	f.wallAt++
	if c.offset() != before-drift-1 {
		t.Error("a jump doesn't")
	}
}
