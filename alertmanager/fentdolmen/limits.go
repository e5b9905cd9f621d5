// What is done at a limit of the board, and against what ends boards.
package main

import (
	"sync"
	"time"
)

// removals says when the board was last asked to remove what is over.
type removals struct {
	mtx  sync.Mutex
	last map[string]time.Time
}

// removeOver does what can help against these refusals of calls that were queued then, at most every ten seconds. It returns whether
// anything was done since, also for another request: then they are worth another try.
func (d *dispatcher) removeOver(s *session, kinds map[string]bool, queued time.Time) bool {
	done := false
	for kind, remedy := range map[string]func(){
		tooManyNames:    func() { d.try(s, forgetCall()) },
		tooManySilences: func() { d.try(s, forgetCall()) },
		tooManyGroups:   func() { d.removeGroups(s) },
		historyFull:     func() { d.takeHistory(s) },
	} {
		if kinds[kind] && d.removals.isTime(kind) {
			remedy()
			done = true
		}
		done = done || kinds[kind] && d.removals.wasSince(kind, queued)
	}
	return done
}

// isTime returns whether the last removal for this kind of refusal was long enough ago, and counts the present one.
func (r *removals) isTime(kind string) bool {
	r.mtx.Lock()
	defer r.mtx.Unlock()
	if time.Since(r.last[kind]) < 10*time.Second {
		return false
	}
	if r.last == nil {
		r.last = map[string]time.Time{}
	}
	r.last[kind] = time.Now()
	return true
}

// wasSince returns whether there was a removal for this kind of refusal since then.
func (r *removals) wasSince(kind string, then time.Time) bool {
	r.mtx.Lock()
	defer r.mtx.Unlock()
	return r.last[kind].After(then)
}

// culprits knows the inserts and silences at which boards ended. Those of a line with several are suspects: each is tried alone from then
// on. After two boards that ended at one alone it is kept from the next ones, so no request can end all of them. After an hour it is
// tried again: a machine that stops for a while can end boards too.
type culprits struct {
	mtx   sync.Mutex
	known map[string]suspicion
}

type suspicion struct {
	boards int // that ended at it alone
	last   time.Time
}

const suspectedFor = time.Hour

// add counts a board that ended at a line with these subjects.
func (c *culprits) add(subjects []string, now time.Time) {
	c.mtx.Lock()
	defer c.mtx.Unlock()
	if c.known == nil {
		c.known = map[string]suspicion{}
	}
	for it, s := range c.known {
		if now.Sub(s.last) > suspectedFor {
			delete(c.known, it)
		}
	}
	for _, it := range subjects {
		boards := c.known[it].boards
		if len(subjects) == 1 {
			boards++
		}
		c.known[it] = suspicion{boards, now}
	}
}

// check returns whether a subject is suspected, and the refusal of one at which two boards ended.
func (c *culprits) check(name string, subject func() string) (bool, error) {
	c.mtx.Lock()
	defer c.mtx.Unlock()
	if len(c.known) == 0 {
		return false, nil
	}
	it, ok := c.known[subject()]
	if !ok || time.Since(it.last) > suspectedFor {
		return false, nil
	}
	if it.boards < 2 {
		return true, nil
	}
	return true, &refusal{name, "/" + name, "culprit", "two boards ended at it"}
}
