// The child process am-dispatch. Callers queue lines and read the answers later: no caller holds a lock while it waits.
package main

import (
	"bufio"
	"bytes"
	"errors"
	"fmt"
	"io"
	"os"
	"os/exec"
	"sync"
	"syscall"
	"time"

	"golang.org/x/sys/unix"
)

var errClosed = errors.New("the board was closed")

// batch is calls that were queued together, and their answers once `done` is closed. All have the time `now`.
type batch struct {
	calls   []call
	now     int64
	queued  time.Time
	answers [][]byte
	err     error
	done    chan struct{}
}

// board is a running am-dispatch. All methods are safe for several goroutines.
type board struct {
	cmd   *exec.Cmd
	pipe  io.WriteCloser
	now   func() int64
	ended chan struct{}

	mtx     sync.Mutex
	queued  *sync.Cond // something is to be written, or the board ends
	out     []byte
	waiting []*batch
	quiet   time.Time // the last answer, or the first line after all were answered
	calls   int
	closing bool
	err     error
	// culprits are the subjects of the call that waited for its answer when the board ended.
	culprits []string

	// broken is called once, if the process ends by itself or doesn't keep to the protocol.
	broken func(*board, error)
	// full is called when a multiple of so many calls was made, under the lock: it mustn't call the board.
	full func()
}

const fullEvery = 10000

// openBoard starts the program, for which `ps` shows this name. A call that isn't answered in time ends it.
func openBoard(program, name string, timeout time.Duration, now func() int64, broken func(*board, error), full func()) (*board, error) {
	cmd := exec.Command(program)
	cmd.Args[0] = name
	cmd.Stderr = os.Stderr
	// Ctrl-C on a terminal is for this program, which ends its boards itself.
	cmd.SysProcAttr = &syscall.SysProcAttr{Setpgid: true}
	pipe, err := cmd.StdinPipe()
	if err != nil {
		return nil, err
	}
	out, err := cmd.StdoutPipe()
	if err != nil {
		return nil, err
	}
	if err := cmd.Start(); err != nil {
		return nil, fmt.Errorf("the board: %w (--board or AM_DISPATCH names the program am_dispatch)", err)
	}
	widen(pipe)
	widen(out)
	b := &board{cmd: cmd, pipe: pipe, now: now, ended: make(chan struct{}), broken: broken, full: full}
	b.queued = sync.NewCond(&b.mtx)
	go b.write()
	go b.read(bufio.NewReaderSize(out, 1<<16))
	go b.watch(timeout)
	return b, nil
}

// pipeSize is how much a pipe to or from a board holds: the alerts of several requests. With the usual 64 KB both processes would wait for
// each other several times in a line.
const pipeSize = 1 << 20

// widen has a pipe hold more. Where the system doesn't allow it the pipe stays as it is.
func widen(pipe interface{}) {
	file, ok := pipe.(syscall.Conn)
	if !ok {
		return
	}
	if conn, err := file.SyscallConn(); err == nil {
		conn.Control(func(fd uintptr) { unix.FcntlInt(fd, unix.F_SETPIPE_SZ, pipeSize) })
	}
}

// submit queues calls in their order. It never waits for the board.
func (b *board) submit(calls ...call) *batch {
	t := &batch{calls: calls, answers: make([][]byte, 0, len(calls)), done: make(chan struct{})}
	b.mtx.Lock()
	defer b.mtx.Unlock()
	t.now, t.queued = b.now(), time.Now()
	if b.err != nil || b.closing || len(calls) == 0 {
		if t.err = b.err; b.closing {
			t.err = errClosed
		}
		close(t.done)
		return t
	}
	if len(b.waiting) == 0 {
		b.quiet = time.Now()
	}
	for _, c := range calls {
		b.out = c.appendLine(b.out, t.now)
	}
	before := b.calls / fullEvery
	b.calls += len(calls)
	if b.calls/fullEvery > before {
		b.full()
	}
	b.waiting = append(b.waiting, t)
	b.queued.Signal()
	return t
}

// wait returns the answers of a batch, without looking at them.
func (t *batch) wait() ([][]byte, error) {
	<-t.done
	return t.answers, t.err
}

// ask makes one call, and decodes its answer.
func (b *board) ask(c call, into interface{}) error {
	answers, err := b.submit(c).wait()
	if err != nil {
		return err
	}
	return b.decode(c, answers[0], into)
}

// decode reads an answer. What can't be read ends the board, and so does a lost answer.
func (b *board) decode(c call, line []byte, into interface{}) error {
	err := c.decode(line, into)
	var r *refusal
	if err != nil && (!errors.As(err, &r) || r.Kind == untold) {
		b.fail(err)
	}
	return err
}

// mostSpare is up to how many bytes the memory of lines is used again once they are written.
const mostSpare = 4 << 20

// write passes on what is queued, all that has come meanwhile at a time, until the board ends or is closed.
func (b *board) write() {
	var lines []byte
	for {
		if cap(lines) > mostSpare {
			lines = nil
		}
		b.mtx.Lock()
		for len(b.out) == 0 && b.err == nil && !b.closing {
			b.queued.Wait()
		}
		lines, b.out = b.out, lines[:0]
		isLast := b.err != nil || b.closing
		b.mtx.Unlock()
		if len(lines) > 0 {
			if _, err := b.pipe.Write(lines); err != nil {
				b.fail(err)
				return
			}
		}
		if isLast {
			b.pipe.Close()
			return
		}
	}
}

// read hands each line to the call that it answers, until the output ends.
func (b *board) read(out *bufio.Reader) {
	defer close(b.ended)
	for {
		line, err := out.ReadBytes('\n')
		if err != nil {
			b.fail(fmt.Errorf("the board ended: %w", err))
			b.cmd.Wait()
			return
		}
		if err := b.answered(line); err != nil {
			b.fail(err)
		}
	}
}

// answered takes a line for the first call that waits.
func (b *board) answered(line []byte) error {
	b.mtx.Lock()
	defer b.mtx.Unlock()
	if b.err != nil {
		return nil
	}
	if len(b.waiting) == 0 {
		return fmt.Errorf("a line without a call: %.200q", line)
	}
	t := b.waiting[0]
	if c := t.calls[len(t.answers)]; !c.fits(line) || !bytes.HasSuffix(line, []byte("}\n")) {
		return fmt.Errorf("the answer to %s: %.200q", c.name, line)
	}
	b.quiet = time.Now()
	if t.answers = append(t.answers, line); len(t.answers) == len(t.calls) {
		b.waiting = b.waiting[1:]
		close(t.done)
	}
	return nil
}

// watch ends a board that doesn't answer in time.
func (b *board) watch(timeout time.Duration) {
	ticker := time.NewTicker(timeout / 10)
	defer ticker.Stop()
	for {
		select {
		case <-b.ended:
			return
		case <-ticker.C:
		}
		b.mtx.Lock()
		late := len(b.waiting) > 0 && time.Since(b.quiet) > timeout
		b.mtx.Unlock()
		if late {
			b.fail(fmt.Errorf("the board doesn't answer for %v", timeout))
		}
	}
}

// fail ends the process. All that waits gets the error. Once the board is closed, its end is no failure.
func (b *board) fail(err error) {
	b.mtx.Lock()
	isFirst, waiting := b.err == nil, b.waiting
	if isFirst {
		b.err = err
		b.waiting = nil
		if len(waiting) > 0 {
			b.culprits = waiting[0].calls[len(waiting[0].answers)].subjects()
		}
		for _, t := range waiting {
			t.err = err
			close(t.done)
		}
		b.queued.Broadcast()
	}
	isClosing := b.closing
	b.mtx.Unlock()
	if isFirst {
		b.cmd.Process.Kill()
		if !isClosing {
			go b.broken(b, err)
		}
	}
}

// close ends the process by the end of its input, after all answers to what was queued.
func (b *board) close() {
	b.mtx.Lock()
	b.closing = true
	b.queued.Broadcast()
	b.mtx.Unlock()
	select {
	case <-b.ended:
	case <-time.After(10 * time.Second):
		b.fail(errClosed)
		<-b.ended
	}
}
