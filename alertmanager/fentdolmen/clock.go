// The board's time. It runs at the speed of the monotonic clock, whatever happens to the wall clock.
package main

import (
	"sync/atomic"
	"time"

	"golang.org/x/sys/unix"
)

// clock counts milliseconds from the wall clock at the start. It never jumps. A time of the wall clock, such as the end of an alert, is
// moved by `offset` on its way to the board: a wall clock that was set moves no timer, and new times from outside still fit.
type clock struct {
	// wall and steady are the clocks of the machine, in milliseconds. steady counts from anywhere, and also while the machine sleeps.
	wall, steady func() int64
	origin       int64        // the board's time when steady was 0
	held         atomic.Int64 // the offset that is in use
}

// newClock starts at the present time of the wall clock.
func newClock(wall, steady func() int64) *clock {
	return &clock{wall: wall, steady: steady, origin: wall() - steady()}
}

// now is the board's time.
func (c *clock) now() int64 { return c.origin + c.steady() }

// drift is by how much the wall clock may differ from the offset in use, in milliseconds. Within it times go to the board and back
// without a change.
const drift = 250

// offset is what a time of the wall clock lacks to be one of the board.
func (c *clock) offset() int64 {
	held, present := c.held.Load(), c.now()-c.wall()
	if present-held > drift || held-present > drift {
		c.held.Store(present)
		return present
	}
	return held
}

// board is the board's time for one of the wall clock. The board has none before 1970.
func (c *clock) board(t time.Time, offset int64) int64 {
	if ms := t.UnixMilli() + offset; ms > 0 {
		return ms
	}
	return 0
}

// until is how long it is until a time of the board.
func (c *clock) until(ms int64) time.Duration { return time.Duration(ms-c.now()) * time.Millisecond }

// steadyClock counts the milliseconds since the machine started. wallClock is in a file of its own, since tests have another one.
func steadyClock() int64 {
	var t unix.Timespec
	if unix.ClockGettime(unix.CLOCK_BOOTTIME, &t) != nil {
		return int64(time.Since(began) / time.Millisecond)
	}
	return t.Nano() / int64(time.Millisecond)
}

var began = time.Now()
