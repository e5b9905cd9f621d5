// What is done from time to time: what is over goes, what was rejected is tried again, and the board's history is taken.
package main

import (
	"bytes"
	"time"

	"github.com/go-kit/log/level"
)

// tick is how often empty groups are removed, and what was rejected is tried again.
const tick = 30 * time.Second

// cleanUp removes the empty groups of a session, so often from its start on. Alertmanager's dispatcher, a new one at each reload, does it
// every 30 seconds.
func (d *dispatcher) cleanUp(s *session, every time.Duration) {
	groups := time.NewTicker(every)
	defer groups.Stop()
	for {
		select {
		case <-groups.C:
			d.removeGroups(s)
		case <-s.ctx.Done():
			return
		}
	}
}

// upkeep removes what else is over from the board, as often as Alertmanager does, and tries again what was rejected.
func (d *dispatcher) upkeep(maintainEvery, forgetEvery time.Duration) {
	defer d.running.Done()
	second, again, maintain, forget := time.NewTicker(time.Second), time.NewTicker(tick), time.NewTicker(maintainEvery), time.NewTicker(forgetEvery)
	defer second.Stop()
	defer again.Stop()
	defer maintain.Stop()
	defer forget.Stop()
	for {
		var work func(*session)
		select {
		case <-second.C:
			work = d.followClock
		case <-again.C:
			work = d.lookAgain
		case <-maintain.C:
			work = func(s *session) { d.try(s, maintainCall()) }
		case <-forget.C:
			work = d.forget
		case <-d.stop:
			return
		}
		if s := d.session(); s != nil {
			work(s)
		}
	}
}

// lookAgain tries again what was rejected.
func (d *dispatcher) lookAgain(s *session) {
	d.retryRefused(s)
	if d.mirror.catchUp() {
		d.syncSilences(s)
	}
}

// removeGroups removes empty groups. A board that can't do that alone removes expired rows of the log too.
func (d *dispatcher) removeGroups(s *session) {
	if s.removesGroups {
		d.try(s, removeGroupsCall())
	} else {
		d.try(s, maintainCall())
	}
}

// forget lets go of alerts and silences that are over.
func (d *dispatcher) forget(s *session) {
	d.try(s, forgetCall())
	d.forgetKnown(s)
	d.mirror.forget(time.Now())
}

// takeHistories takes the history of the board whenever it has grown by so many calls.
func (d *dispatcher) takeHistories() {
	defer d.running.Done()
	for {
		select {
		case <-d.isLong:
			if s := d.session(); s != nil {
				d.takeHistory(s)
			}
		case <-d.stop:
			return
		}
	}
}

// takeHistory moves the history of a board to the file, as the board prints it, or drops it.
func (d *dispatcher) takeHistory(s *session) {
	c := takeCall()
	answers, err := s.board.submit(c).wait()
	if err != nil {
		return
	}
	if bytes.HasPrefix(answers[0], errorField) {
		err := s.board.decode(c, answers[0], nil)
		d.count(err)
		level.Error(d.logger).Log("msg", "history not taken", "err", err)
		return
	}
	d.history.add(answers[0])
}
