// The notification log outside of the board: in memory, for a new board and for peers, and in a file.
package main

import (
	"encoding/json"
	"sync"
)

// entry is a row as a line of the file. heard is when it came from a peer, in the board's time. offset is the clock's, by which a row of
// our own got its times. number counts the rows that came.
type entry struct {
	line           []byte
	moment, expiry int64
	heard, offset  int64
	number         int64
}

// logbook has the last row of each group and integration.
type logbook struct {
	mtx  sync.Mutex
	rows map[string]entry
	last int64 // the number of the last row
	// added are the lines since the file was last written to; wake holds one word that there are some. moved: older lines changed.
	added   [][]byte
	isMoved bool
	wake    chan struct{}
}

// newLogbook is empty.
func newLogbook() *logbook {
	return &logbook{rows: map[string]entry{}, wake: make(chan struct{}, 1)}
}

// put adds a row of our own: it replaces what was there, also if the wall clock was set back meanwhile.
func (l *logbook) put(k keptRow, offset int64) []byte {
	line := lineOf(k)
	l.mtx.Lock()
	l.set(k, entry{line: line, moment: k.Moment, expiry: k.Expiry, offset: offset})
	l.mtx.Unlock()
	l.poke()
	return line
}

// merge adds a row of a peer, unless the one that is there is as late.
func (l *logbook) merge(k keptRow, now int64) bool {
	line := lineOf(k)
	l.mtx.Lock()
	old, ok := l.rows[k.id()]
	isNew := !ok || old.moment < k.Moment
	if isNew {
		l.set(k, entry{line: line, moment: k.Moment, expiry: k.Expiry, heard: now})
	}
	l.mtx.Unlock()
	l.poke()
	return isNew
}

// lineOf is a row as a line.
func lineOf(k keptRow) []byte {
	line, err := json.Marshal(k)
	if err != nil {
		panic(err) // (texts and numbers: there is no such error)
	}
	return append(line, '\n')
}

// set puts an entry, with the lock held.
func (l *logbook) set(k keptRow, it entry) {
	l.last++
	it.number = l.last
	l.rows[k.id()] = it
	l.added = append(l.added, it.line)
}

// poke wakes who writes the file.
func (l *logbook) poke() {
	select {
	case l.wake <- struct{}{}:
	default:
	}
}

// take returns the lines that were added since the last call, and whether older ones changed.
func (l *logbook) take() ([][]byte, bool) {
	l.mtx.Lock()
	defer l.mtx.Unlock()
	lines := l.added
	l.added = nil
	return lines, l.isMoved
}

// move gives our own rows the times of another offset, after the wall clock was set: a later start finds them as long ago as they were.
func (l *logbook) move(offset int64) {
	l.mtx.Lock()
	old := make(map[string]entry, len(l.rows))
	for id, it := range l.rows {
		if it.heard == 0 && it.offset != offset {
			old[id] = it
		}
	}
	l.mtx.Unlock()
	moved := make(map[string]entry, len(old))
	for id, it := range old {
		var k keptRow
		if by := it.offset - offset; json.Unmarshal(it.line, &k) == nil {
			k.Moment, k.Expiry = k.Moment+by, k.Expiry+by
			moved[id] = entry{line: lineOf(k), moment: k.Moment, expiry: k.Expiry, offset: offset, number: it.number}
		}
	}
	l.mtx.Lock()
	for id, it := range moved {
		if now := l.rows[id]; len(now.line) > 0 && &now.line[0] == &old[id].line[0] { // (nothing was put there meanwhile)
			l.rows[id] = it
		}
	}
	l.isMoved = true
	l.mtx.Unlock()
	l.poke()
}

// whole forgets what is over, and returns the lines of all rows. The next take has what is added from then on.
func (l *logbook) whole(now int64) [][]byte {
	l.mtx.Lock()
	defer l.mtx.Unlock()
	l.added, l.isMoved = nil, false
	lines := make([][]byte, 0, len(l.rows))
	for id, it := range l.rows {
		if it.expiry <= now {
			delete(l.rows, id)
		} else {
			lines = append(lines, it.line)
		}
	}
	return lines
}

// lines returns the lines of all rows from this number on, and the number for the next time.
func (l *logbook) lines(since int64) ([][]byte, int64) {
	l.mtx.Lock()
	defer l.mtx.Unlock()
	var lines [][]byte
	for _, it := range l.rows {
		if it.number >= since {
			lines = append(lines, it.line)
		}
	}
	return lines, l.last + 1
}

// heardSince returns the row of an id if a peer sent it since then.
func (l *logbook) heardSince(id string, since int64) (keptRow, bool) {
	l.mtx.Lock()
	it, ok := l.rows[id]
	l.mtx.Unlock()
	var k keptRow
	return k, ok && it.heard >= since && json.Unmarshal(it.line, &k) == nil
}

// decodeRows reads lines. It skips, and counts, those that aren't rows.
func decodeRows(lines [][]byte) (rows []keptRow, bad int) {
	for _, line := range lines {
		var k keptRow
		if err := json.Unmarshal(line, &k); err != nil || k.Receiver == "" {
			bad++
			continue
		}
		rows = append(rows, k)
	}
	return rows, bad
}
