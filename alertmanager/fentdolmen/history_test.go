package main

import (
	"bytes"
	"os"
	"path/filepath"
	"strings"
	"testing"

	"github.com/go-kit/log"
)

func TestTheHistoryEndsWithAWholeLine(t *testing.T) {
	path := filepath.Join(t.TempDir(), "history")
	long := strings.Repeat("x", 200_000)
	for _, torn := range []string{"", "torn", long} {
		os.WriteFile(path, []byte("{}\n"+long+"\n"+torn), 0o666)
		h, err := openHistory(path, log.NewNopLogger(), func() {})
		if err != nil {
			t.Fatal(err)
		}
		go h.run()
		h.add([]byte("next\n"))
		h.close()
		if text := textOf(path); text != "{}\n"+long+"\nnext\n" {
			t.Errorf("%d bytes", len(text))
		}
	}
}

// TestAHistoryThatCantBeWritten: nobody waits for its file, and what is written after that is a beginning of each board's history.
func TestAHistoryThatCantBeWritten(t *testing.T) {
	path := filepath.Join(t.TempDir(), "history")
	h, err := openHistory(path, log.NewNopLogger(), func() {})
	if err != nil {
		t.Fatal(err)
	}
	large := append(bytes.Repeat([]byte("x"), mostUnwritten/3), '\n')
	for _, it := range [][]byte{large, large, large, []byte("dropped\n")} {
		h.add(it)
	}
	h.begin(call{name: "alertmanager"})
	h.add([]byte("next\n"))
	go h.run()
	h.close()
	if text := textOf(path); text != strings.Repeat(string(large), 2)+"{\"alertmanager\":{}}\nnext\n" {
		t.Errorf("%d bytes, which end with %q", len(text), text[len(text)-40:])
	}
}

func TestAHistoryIsWrittenOnAfterAFault(t *testing.T) {
	path, faults := filepath.Join(t.TempDir(), "history"), 0
	h, err := openHistory(path, log.NewNopLogger(), func() { faults++ })
	if err != nil {
		t.Fatal(err)
	}
	file := h.file
	if h.file, err = os.Open(path); err != nil { // (each write fails)
		t.Fatal(err)
	}
	left, err := h.write([][]byte{[]byte("a\n")})
	if err == nil || len(left) != 1 {
		t.Errorf("%v, %q", err, left)
	}
	file.WriteString("torn")
	h.file = file
	if left, err = h.write(append(left, []byte("b\n"))); err != nil || left != nil || textOf(path) != "a\nb\n" {
		t.Errorf("%v, %q, %q", err, left, textOf(path))
	}
}
