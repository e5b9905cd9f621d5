// Whether files are on the disk.
package main

import (
	"sync"
	"time"
)

// saved is whether a file has what it should have.
type saved struct {
	mtx   sync.Mutex
	fault error
	since time.Time
}

// state is what is wrong with the file, and since when. Without a fault it is nil.
func (s *saved) state() (since time.Time, fault error) {
	s.mtx.Lock()
	defer s.mtx.Unlock()
	return s.since, s.fault
}

// isFailed returns whether the last attempt to write or sync failed.
func (s *saved) isFailed() bool {
	_, fault := s.state()
	return fault != nil
}

// fail notes a fault. Its time is that of the first one in a row.
func (s *saved) fail(err error) {
	s.mtx.Lock()
	defer s.mtx.Unlock()
	if s.fault == nil {
		s.since = time.Now()
	}
	s.fault = err
}

// mend ends a fault, and returns whether there was one.
func (s *saved) mend() bool {
	s.mtx.Lock()
	defer s.mtx.Unlock()
	wasFailed := s.fault != nil
	s.fault = nil
	return wasFailed
}
