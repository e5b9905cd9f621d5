// The board's history: it is taken in time, and kept in a file if one is named, to audit it with examples/live/replay.
package main

import (
	"bytes"
	"io"
	"os"
	"sync"
	"time"

	"github.com/go-kit/log"
	"github.com/go-kit/log/level"
)

// mostUnwritten is how many bytes of a history wait in memory while the disk is full.
const mostUnwritten = 64 << 20

// historyFile appends lines to a file, or drops them if it has no name. One goroutine writes, so a disk that is stuck holds up
// nobody who adds.
type historyFile struct {
	path   string
	logger log.Logger
	faults func()

	file *os.File // of run alone, as is good: its length up to its last whole line
	good int64

	mtx       sync.Mutex
	unwritten [][]byte
	size      int // of what waits, in bytes, also of what run has taken
	// lost: lines of this board's history were dropped, so no further ones are of use.
	lost              bool
	wake, stop, ended chan struct{}
}

// openHistory opens the file to append to it. Without a path all is dropped.
func openHistory(path string, logger log.Logger, faults func()) (*historyFile, error) {
	h := &historyFile{path: path, logger: log.With(logger, "file", path), faults: faults,
		wake: make(chan struct{}, 1), stop: make(chan struct{}), ended: make(chan struct{})}
	if path == "" {
		return h, nil
	}
	var err error
	if h.file, err = os.OpenFile(path, os.O_CREATE|os.O_RDWR, 0o666); err != nil {
		return nil, err
	}
	h.good, err = wholeLines(h.file)
	return h, err
}

// wholeLines is the length of a file up to its last line feed: a killed process can have torn the last line.
func wholeLines(file *os.File) (int64, error) {
	end, err := file.Seek(0, io.SeekEnd)
	block := make([]byte, 1<<16)
	for err == nil && end > 0 {
		from := end - int64(len(block))
		if from < 0 {
			from = 0
		}
		var n int
		if n, err = file.ReadAt(block[:end-from], from); err == io.EOF {
			err = nil
		}
		if at := bytes.LastIndexByte(block[:n], '\n'); at >= 0 {
			return from + int64(at) + 1, err
		}
		end = from
	}
	return 0, err
}

// begin adds the call that opened a new board.
func (h *historyFile) begin(c call) {
	h.mtx.Lock()
	h.lost = false
	h.mtx.Unlock()
	h.add(c.appendLine(nil, 0))
}

// add adds a line as the board printed it. It never waits for the disk.
func (h *historyFile) add(line []byte) {
	if h.path == "" {
		return
	}
	h.mtx.Lock()
	defer h.mtx.Unlock()
	if h.lost {
		return
	}
	if h.size+len(line) > mostUnwritten {
		h.lost = true
		level.Error(h.logger).Log("msg", "history not written: the rest of this board's is dropped", "bytes", h.size)
		return
	}
	h.unwritten, h.size = append(h.unwritten, line), h.size+len(line)
	select {
	case h.wake <- struct{}{}:
	default:
	}
}

// take returns what was added since the last time.
func (h *historyFile) take() [][]byte {
	h.mtx.Lock()
	defer h.mtx.Unlock()
	lines := h.unwritten
	h.unwritten = nil
	return lines
}

// run writes until close, and again some time after a fault.
func (h *historyFile) run() {
	defer close(h.ended)
	var lines [][]byte
	var again <-chan time.Time
	for isLast := false; !isLast; {
		select {
		case <-h.wake:
		case <-again:
		case <-h.stop:
			isLast = true
		}
		lines, again = append(lines, h.take()...), nil
		var err error
		if lines, err = h.write(lines); err != nil {
			h.faults()
			level.Error(h.logger).Log("msg", "history not written", "err", err)
			again = time.After(retryMost)
		}
	}
}

// close writes what is left. A disk that is stuck isn't waited for.
func (h *historyFile) close() {
	close(h.stop)
	select {
	case <-h.ended:
	case <-time.After(retryMost):
	}
}

// write writes lines, and returns those that are left after a fault: a part of a line is cut off the next time.
func (h *historyFile) write(lines [][]byte) ([][]byte, error) {
	if len(lines) == 0 {
		return nil, nil
	}
	if err := h.file.Truncate(h.good); err != nil {
		return lines, err
	}
	if _, err := h.file.Seek(h.good, io.SeekStart); err != nil {
		return lines, err
	}
	for i, line := range lines {
		if _, err := h.file.Write(line); err != nil {
			return lines[i:], err
		}
		h.good += int64(len(line))
		h.mtx.Lock()
		h.size -= len(line)
		h.mtx.Unlock()
	}
	return nil, nil
}
