// The file of the silences, in Alertmanager's format and place.
package main

import (
	"bytes"
	"sync/atomic"
	"time"

	"github.com/go-kit/log"
	"github.com/go-kit/log/level"

	"github.com/prometheus/alertmanager/silence"
)

// silenceSaver writes the silences after each change. Those that come while it writes are written together. Nothing else writes the file:
// what was read before a change could replace what was written after it.
type silenceSaver struct {
	silences *silence.Silences
	path     string
	logger   log.Logger
	faults   func()
	wake     chan struct{}
	stop     chan struct{}
	ended    chan struct{}
	size     atomic.Int64 // of the file, in bytes
	saved
}

// newSilenceSaver saves to this path. faults counts failures.
func newSilenceSaver(silences *silence.Silences, path string, logger log.Logger, faults func()) *silenceSaver {
	return &silenceSaver{silences: silences, path: path, logger: log.With(logger, "file", path), faults: faults,
		wake: make(chan struct{}, 1), stop: make(chan struct{}), ended: make(chan struct{})}
}

// poke has the silences saved.
func (s *silenceSaver) poke() {
	select {
	case s.wake <- struct{}{}:
	default:
	}
}

// run saves after each poke, and again after a failure, until close.
func (s *silenceSaver) run() {
	defer close(s.ended)
	for wait := retryFirst; ; {
		select {
		case <-s.stop:
			return
		case <-s.wake:
		}
		if err := s.save(); err != nil {
			s.fail(err)
			s.faults()
			level.Error(s.logger).Log("msg", "silences not saved", "err", err)
			time.AfterFunc(wait, s.poke)
			if wait *= 2; wait > retryMost {
				wait = retryMost
			}
			continue
		}
		if wait = retryFirst; s.mend() {
			level.Info(s.logger).Log("msg", "silences saved")
		}
	}
}

// save writes all silences, in Alertmanager's format.
func (s *silenceSaver) save() error {
	var out bytes.Buffer
	if _, err := s.silences.Snapshot(&out); err != nil {
		return err
	}
	file, err := replaceFile(s.path, out.Bytes())
	if err != nil {
		return err
	}
	s.size.Store(int64(out.Len()))
	return file.Close()
}

// maintain removes the silences that were over for long enough, and has the others saved. It returns the size of the file, for
// Alertmanager's metric.
func (s *silenceSaver) maintain() (int64, error) {
	_, err := s.silences.GC()
	s.poke()
	return s.size.Load(), err
}

// close saves a last time.
func (s *silenceSaver) close() {
	close(s.stop)
	<-s.ended
	if err := s.save(); err != nil {
		level.Error(s.logger).Log("msg", "silences not saved", "err", err)
	}
}
