// Play answers lines as am-dispatch does, in process:
// CGO_CFLAGS=-ILIBRARY CGO_LDFLAGS=LIBRARY/libfentdolmen.a go build
package main

/*
#include "fentdolmen.h"
*/
import "C"

import (
	"bufio"
	"crypto/rand"
	"encoding/binary"
	"errors"
	"io"
	"os"
	"runtime"
	"unsafe"
)

// A Board answers lines, for the goroutine that opened it, which has its thread to itself.
type Board struct {
	handle *C.fentdolmen
	answer []byte
}

// Open makes a board, and keeps the goroutine on its thread until Close.
func Open() (*Board, error) {
	var seed [8]byte
	if _, err := rand.Read(seed[:]); err != nil {
		return nil, err
	}
	runtime.LockOSThread()
	b := &Board{handle: new(C.fentdolmen), answer: make([]byte, 65536)}
	if C.fentdolmen_open(b.handle, C.uint64_t(binary.LittleEndian.Uint64(seed[:]))) != C.FENTDOLMEN_DONE {
		runtime.UnlockOSThread()
		return nil, errors.New("no memory")
	}
	return b, nil
}

// at is where a slice is, or NULL for an empty one.
func at(bytes []byte) *C.uint8_t {
	if len(bytes) == 0 {
		return nil
	}
	return (*C.uint8_t)(unsafe.Pointer(&bytes[0]))
}

// Ask returns the answer to a line, with its line feed. It is there until the next call.
func (b *Board) Ask(line []byte) []byte {
	length := int(C.fentdolmen_call(b.handle, at(line), C.size_t(len(line)), at(b.answer), C.size_t(len(b.answer))))
	if length > len(b.answer) {
		b.answer = make([]byte, length)
		C.fentdolmen_read(b.handle, 0, at(b.answer), C.size_t(length))
	}
	return b.answer[:length]
}

// Close frees the board, and its goroutine from the thread. A second time does nothing.
func (b *Board) Close() {
	if C.fentdolmen_close(b.handle) == C.FENTDOLMEN_DONE {
		runtime.UnlockOSThread()
	}
}

func play() error {
	board, err := Open()
	if err != nil {
		return err
	}
	defer board.Close()
	in, out := bufio.NewReaderSize(os.Stdin, 1<<20), bufio.NewWriterSize(os.Stdout, 1<<20)
	for {
		line, err := in.ReadBytes('\n')
		if len(line) > 0 {
			if line[len(line)-1] == '\n' {
				line = line[:len(line)-1]
			}
			if _, failed := out.Write(board.Ask(line)); failed != nil {
				return failed
			}
		}
		if errors.Is(err, io.EOF) {
			return out.Flush()
		} else if err != nil {
			return err
		}
	}
}

func main() {
	if err := play(); err != nil {
		os.Stderr.WriteString(err.Error() + "\n")
		os.Exit(1)
	}
}
