// Silences: Alertmanager's store has them, and each change goes on to the board at once.
package main

import (
	"bytes"
	"io"
	"sync"
	"time"

	"github.com/go-kit/log/level"
	"github.com/matttproud/golang_protobuf_extensions/pbutil"

	"github.com/prometheus/alertmanager/silence"
	"github.com/prometheus/alertmanager/silence/silencepb"
)

// mirror is what the board has of the silences. Its lock is taken under that of the silences: never ask for them with it held.
type mirror struct {
	mtx   sync.Mutex
	has   map[string]mirrored
	names map[int64]string // the silences by these numbers
	last  int64            // the greatest number that was given
	// isBehind: a silence was rejected that can be accepted later.
	isBehind bool
}

// mirrored is a silence that the board has: its number there, its last change and its end.
type mirrored struct {
	id            int64
	updated, ends time.Time
}

// reset is for a new board. Numbers aren't used again.
func (m *mirror) reset() {
	m.mtx.Lock()
	defer m.mtx.Unlock()
	m.has, m.names = map[string]mirrored{}, map[int64]string{}
}

// lacks has a silence passed on again later.
func (m *mirror) lacks(id string) {
	m.mtx.Lock()
	defer m.mtx.Unlock()
	m.drop(id)
	m.isBehind = true
}

// catchUp returns whether silences have to be passed on again.
func (m *mirror) catchUp() bool {
	m.mtx.Lock()
	defer m.mtx.Unlock()
	was := m.isBehind
	m.isBehind = false
	return was
}

// forget lets go of what is over.
func (m *mirror) forget(now time.Time) {
	m.mtx.Lock()
	defer m.mtx.Unlock()
	for id, it := range m.has {
		if it.ends.Before(now.Add(-time.Hour)) {
			m.drop(id)
		}
	}
}

// drop lets go of a silence, with the lock held.
func (m *mirror) drop(id string) {
	delete(m.names, m.has[id].id)
	delete(m.has, id)
}

// named returns the silences of these numbers.
func (m *mirror) named(numbers []int64) (ids []string) {
	m.mtx.Lock()
	defer m.mtx.Unlock()
	for _, it := range numbers {
		if id, ok := m.names[it]; ok {
			ids = append(ids, id)
		}
	}
	return ids
}

// knows returns whether the board has a silence.
func (m *mirror) knows(id string) bool {
	m.mtx.Lock()
	defer m.mtx.Unlock()
	_, ok := m.has[id]
	return ok
}

// number is that of a silence, unless the board has a later change of it.
func (m *mirror) number(s *silencepb.Silence) (int64, bool) {
	old, ok := m.has[s.Id]
	if ok && s.UpdatedAt.Before(old.updated) {
		return 0, false
	}
	if !ok {
		m.last++
		old.id = m.last
		m.names[old.id] = s.Id
	}
	m.has[s.Id] = mirrored{old.id, s.UpdatedAt, s.EndsAt}
	return old.id, true
}

var operators = map[silencepb.Matcher_Type]string{
	silencepb.Matcher_EQUAL: "=", silencepb.Matcher_NOT_EQUAL: "!=", silencepb.Matcher_REGEXP: "=~", silencepb.Matcher_NOT_REGEXP: "!~",
}

// silencesChanged passes on what Alertmanager's store would gossip. It is called under the lock of the store.
func (d *dispatcher) silencesChanged(message []byte) {
	if s := d.session(); s != nil {
		for _, it := range d.silencesOf(message) {
			d.silence(s, it)
		}
	}
}

// silencesOf reads a message of the gossip: one silence, or all that a peer has.
func (d *dispatcher) silencesOf(message []byte) (out []*silencepb.Silence) {
	for in := bytes.NewReader(message); ; {
		var it silencepb.MeshSilence
		_, err := pbutil.ReadDelimited(in, &it)
		if err != nil {
			if err != io.EOF {
				level.Error(d.logger).Log("msg", "silence not read", "err", err)
			}
			return out
		}
		if it.Silence != nil {
			out = append(out, it.Silence)
		}
	}
}

// silence passes a silence on without waiting: a flush that begins later already has it.
func (d *dispatcher) silence(s *session, it *silencepb.Silence) {
	d.mirror.mtx.Lock()
	id, isNew := d.mirror.number(it)
	if !isNew {
		d.mirror.mtx.Unlock()
		return
	}
	offset := d.clock.offset()
	matchers := make([]matcher, 0, len(it.Matchers))
	for _, m := range it.Matchers {
		matchers = append(matchers, matcher{m.Name, operators[m.Type], m.Pattern})
	}
	c := silenceCall(id, matchers, d.clock.board(it.StartsAt, offset), d.clock.board(it.EndsAt, offset))
	_, err := d.culprits.check(c.name, func() string { return c.subjects()[0] })
	var t *batch
	if err == nil {
		t = s.board.submit(c)
	}
	d.mirror.mtx.Unlock()
	if err != nil {
		d.count(err)
		level.Error(d.logger).Log("msg", "silence without effect", "silence", it.Id, "err", err)
		return
	}
	go d.settleSilence(s, it.Id, t)
}

// settleSilence tries a silence again that was rejected at a limit, after what is over was removed. If that doesn't help, it is passed on
// again with the next upkeep.
func (d *dispatcher) settleSilence(s *session, id string, t *batch) {
	answers, err := t.wait()
	if err != nil {
		return
	}
	err = s.board.decode(t.calls[0], answers[0], nil)
	kind := d.count(err)
	if kind != "" && d.removeOver(s, map[string]bool{kind: true}, t.queued) {
		err = s.board.ask(t.calls[0], nil)
		kind = d.count(err)
	}
	if kind == tooManySilences || kind == historyFull || kind == noMemory {
		d.mirror.lacks(id)
	}
	if err != nil {
		level.Error(d.logger).Log("msg", "silence without effect", "silence", id, "err", err)
	}
}

// syncSilences passes all silences on that aren't over, and those that the board has.
func (d *dispatcher) syncSilences(s *session) {
	all, _, err := d.silences.Query()
	if err != nil {
		level.Error(d.logger).Log("msg", "silences not read", "err", err)
	}
	now := time.UnixMilli(d.clock.wall())
	for _, it := range all {
		if it.EndsAt.After(now) || d.mirror.knows(it.Id) {
			d.silence(s, it)
		}
	}
}

// followClock passes all silences on again after the wall clock was set: they end when their ends are there by the new one. And the saved
// log gets the times of the new one.
func (d *dispatcher) followClock(s *session) {
	d.renew(s)
	offset := d.clock.offset()
	jump := offset - d.followed
	if jump == 0 {
		return
	}
	d.followed = offset
	level.Warn(d.logger).Log("msg", "the wall clock was set", "ahead", time.Duration(-jump)*time.Millisecond)
	d.book.move(offset)
	d.syncSilences(s)
}

// peerSilences is the state that peers gossip. The store doesn't pass all on that it merges.
type peerSilences struct {
	*silence.Silences
	d     *dispatcher
	saver *silenceSaver
}

// Merge merges what a peer sent, and passes on what the store has then.
func (p peerSilences) Merge(message []byte) error {
	if err := p.Silences.Merge(message); err != nil {
		return err
	}
	p.saver.poke()
	s := p.d.session()
	if s == nil {
		return nil
	}
	for _, theirs := range p.d.silencesOf(message) {
		ours, _, err := p.Silences.Query(silence.QIDs(theirs.Id))
		for _, it := range ours {
			p.d.silence(s, it)
		}
		if err != nil {
			return err
		}
	}
	return nil
}
