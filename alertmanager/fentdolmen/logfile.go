// The file of the notification log: rows are appended at once and synced soon after. A disk that is full or stuck holds up no page.
package main

import (
	"bytes"
	"errors"
	"fmt"
	"io"
	"os"
	"path/filepath"
	"time"

	"github.com/go-kit/log"
	"github.com/go-kit/log/level"
)

const (
	syncWithin   = 100 * time.Millisecond
	shortenEvery = 15 * time.Minute
	// After a fault the whole file is written anew, the first time after retryFirst, then after twice as long, and so on.
	retryFirst, retryMost = time.Second, 30 * time.Second
)

// logFile keeps a logbook in a file. One goroutine writes, and another one syncs.
type logFile struct {
	path   string
	book   *logbook
	now    func() int64 // the wall clock
	logger log.Logger
	faults func() // counts them

	file  *os.File
	good  int64 // the length of the file up to its last whole line
	retry time.Duration
	dirty chan *os.File
	stop  chan struct{}
	ended chan struct{}
	saved
}

// openLogFile reads the file into the logbook, and drops a last line that is torn.
func openLogFile(path string, book *logbook, now func() int64, logger log.Logger, faults func()) (*logFile, error) {
	f := &logFile{path: path, book: book, now: now, logger: log.With(logger, "file", path), faults: faults, retry: retryFirst,
		dirty: make(chan *os.File, 1), stop: make(chan struct{}), ended: make(chan struct{})}
	text, err := os.ReadFile(path)
	if err != nil && !errors.Is(err, os.ErrNotExist) {
		return nil, err
	}
	f.good = int64(bytes.LastIndexByte(text, '\n') + 1)
	if torn := len(text) - int(f.good); torn > 0 {
		level.Warn(f.logger).Log("msg", "the last line of the notification log is torn: dropped", "bytes", torn)
	}
	rows, bad := decodeRows(bytes.SplitAfter(text[:f.good], []byte("\n")))
	if bad > 1 { // (behind the last line feed there is an empty line)
		level.Error(f.logger).Log("msg", "lines of the notification log aren't rows: dropped", "lines", bad-1)
	}
	for _, k := range rows {
		book.rows[k.id()] = entry{line: lineOf(k), moment: k.Moment, expiry: k.Expiry}
	}
	if f.file, err = os.OpenFile(path, os.O_CREATE|os.O_RDWR, 0o666); err == nil {
		err = f.cut()
	}
	if err != nil {
		f.failed(err)
	}
	return f, nil
}

// cut drops what is behind the last whole line.
func (f *logFile) cut() error {
	if err := f.file.Truncate(f.good); err != nil {
		return err
	}
	_, err := f.file.Seek(f.good, io.SeekStart)
	return err
}

// failed notes, counts and logs a fault.
func (f *logFile) failed(err error) {
	f.fail(err)
	f.faults()
	level.Error(f.logger).Log("msg", "notification log not saved: after a restart, notifications can come again", "err", err)
}

// mended ends a fault, if there was one.
func (f *logFile) mended() {
	f.retry = retryFirst
	if f.mend() {
		level.Info(f.logger).Log("msg", "notification log saved")
	}
}

// run writes until close. It shortens the file at its start, from time to time, and after a fault.
func (f *logFile) run() {
	defer close(f.ended)
	go f.sync()
	defer close(f.dirty)
	timer, isRetrying := time.NewTimer(0), false
	defer timer.Stop()
	for {
		select {
		case <-f.stop:
			f.shorten()
			return
		case <-timer.C:
			timer.Reset(f.shorten())
			isRetrying = f.isFailed()
		case <-f.book.wake:
			if !f.isFailed() {
				f.append()
			}
			if f.isFailed() && !isRetrying {
				timer.Reset(f.retry)
				isRetrying = true
			}
		}
	}
}

// close writes the file a last time.
func (f *logFile) close() {
	close(f.stop)
	<-f.ended
}

// append writes what was added. After a fault nothing of it is in the file, but all of it in the logbook.
func (f *logFile) append() {
	lines, isMoved := f.book.take()
	if isMoved {
		f.shorten()
		return
	}
	text := bytes.Join(lines, nil)
	if len(text) == 0 {
		return
	}
	if _, err := f.file.Write(text); err != nil {
		f.failed(err)
		f.cut()
		return
	}
	f.good += int64(len(text))
	select {
	case f.dirty <- f.file:
	default:
	}
}

// sync has what was written reach the disk. A fault shows at the next shortening, which replaces the file.
func (f *logFile) sync() {
	for file := range f.dirty {
		time.Sleep(syncWithin / 2)
		if err := file.Sync(); err != nil && !errors.Is(err, os.ErrClosed) {
			f.failed(fmt.Errorf("sync: %w", err))
			f.book.poke()
		}
	}
}

// shorten writes the rows that aren't over to a new file in place of the old one. It returns how long to wait for the next time.
func (f *logFile) shorten() time.Duration {
	text := bytes.Join(f.book.whole(f.now()), nil)
	file, err := replaceFile(f.path, text)
	if err != nil {
		f.failed(err)
		wait := f.retry
		if f.retry *= 2; f.retry > retryMost {
			f.retry = retryMost
		}
		return wait
	}
	if f.file != nil {
		f.file.Close()
	}
	f.file, f.good = file, int64(len(text))
	f.mended()
	return shortenEvery
}

// replaceFile puts a file with this text in place of the one of this name, so at any time one of both is there whole. A path has one
// writer at a time: the new file always has the same name, so one that a killed process left behind is overwritten.
func replaceFile(path string, text []byte) (*os.File, error) {
	file, err := os.OpenFile(path+".part", os.O_CREATE|os.O_TRUNC|os.O_RDWR, 0o666)
	if err != nil {
		return nil, err
	}
	_, err = file.Write(text)
	if err == nil {
		err = file.Sync()
	}
	if err == nil {
		err = os.Rename(file.Name(), path)
	}
	if err != nil {
		file.Close()
		os.Remove(file.Name())
		return nil, err
	}
	if err := syncFolder(filepath.Dir(path)); err != nil {
		file.Close()
		return nil, err
	}
	return file, nil
}

// syncFolder has a rename in the folder reach the disk.
func syncFolder(path string) error {
	folder, err := os.Open(path)
	if err != nil {
		return err
	}
	defer folder.Close()
	return folder.Sync()
}
