package main

import (
	"os"
	"path/filepath"
	"strings"
	"testing"
	"time"

	"github.com/go-kit/log"
	"github.com/prometheus/common/model"
)

func kept(name string, moment, expiry int64) keptRow {
	return keptRow{RouteKey: "{}", Labels: model.LabelSet{"alertname": model.LabelValue(name)}, Receiver: "team", Integration: "webhook",
		Moment: moment, Expiry: expiry, Firing: []model.LabelSet{{"alertname": model.LabelValue(name)}}, Resolved: []model.LabelSet{}}
}

// openedFile is a logbook of this file, whose writer doesn't run yet.
func openedFile(t *testing.T, path string) (*logFile, *int) {
	faults := new(int)
	f, err := openLogFile(path, newLogbook(), func() int64 { return 1000 }, log.NewNopLogger(), func() { *faults++ })
	if err != nil {
		t.Fatal(err)
	}
	return f, faults
}

func waitFor(t *testing.T, is func() bool) {
	t.Helper()
	for i := 0; i < 400; i++ {
		if is() {
			return
		}
		time.Sleep(25 * time.Millisecond)
	}
	t.Fatal("it doesn't come")
}

func textOf(path string) string {
	text, _ := os.ReadFile(path)
	return string(text)
}

func TestTornLinesAreDropped(t *testing.T) {
	path := filepath.Join(t.TempDir(), "log")
	whole := string(lineOf(kept("A", 1, 5000))) + string(lineOf(kept("B", 2, 5000)))
	for cut := 0; cut <= len(whole); cut += 7 {
		os.WriteFile(path, []byte(whole[:cut]), 0o666)
		f, faults := openedFile(t, path)
		if rows, lines := len(f.book.rows), strings.Count(whole[:cut], "\n"); rows != lines || *faults != 0 {
			t.Fatalf("%d rows of %d bytes with %d lines", rows, cut, lines)
		}
		f.book.put(kept("C", 3, 5000), 0)
		f.append()
		f.file.Close()
		if again, _ := openedFile(t, path); len(again.book.rows) != strings.Count(whole[:cut], "\n")+1 {
			t.Fatalf("a row behind a torn line is lost: %q", textOf(path))
		}
	}
}

func TestLinesThatArentRowsAreDropped(t *testing.T) {
	path := filepath.Join(t.TempDir(), "log")
	os.WriteFile(path, []byte("\x00\x00\n[]\n{}\n"+string(lineOf(kept("A", 1, 5000)))+"null\n"), 0o666)
	if f, _ := openedFile(t, path); len(f.book.rows) != 1 {
		t.Errorf("%d rows", len(f.book.rows))
	}
}

func TestTheLastLineCounts(t *testing.T) {
	path := filepath.Join(t.TempDir(), "log")
	// (the wall clock was set back between them)
	os.WriteFile(path, append(lineOf(kept("A", 9, 5000)), lineOf(kept("A", 3, 4000))...), 0o666)
	f, _ := openedFile(t, path)
	if it := f.book.rows[kept("A", 0, 0).id()]; len(f.book.rows) != 1 || it.moment != 3 {
		t.Errorf("%v", f.book.rows)
	}
}

func TestRowsAreWrittenAndTheFileIsShortened(t *testing.T) {
	path := filepath.Join(t.TempDir(), "log")
	os.WriteFile(path+".part", []byte("of a killed process, and longer than the rows"), 0o666)
	os.WriteFile(path+".old", nil, 0o666)
	f, _ := openedFile(t, path)
	go f.run()
	f.book.put(kept("over", 1, 900), 0)
	f.book.put(kept("A", 1, 5000), 0)
	waitFor(t, func() bool { return strings.Contains(textOf(path), `"A"`) })
	f.book.put(kept("A", 2, 5000), 0)
	waitFor(t, func() bool { return strings.Contains(textOf(path), `"moment":2`) })
	f.close()
	if text := textOf(path); text != string(lineOf(kept("A", 2, 5000))) {
		t.Errorf("%q", text)
	}
	if others, _ := filepath.Glob(path + ".*"); len(others) != 1 || others[0] != path+".old" {
		t.Error("beside it there are ", others)
	}
}

func TestAFaultOfTheDiskIsSeenAndMended(t *testing.T) {
	folder := filepath.Join(t.TempDir(), "data")
	path := filepath.Join(folder, "log")
	os.Mkdir(folder, 0o777)
	f, faults := openedFile(t, path)
	f.file.Close() // (each write fails from now on)
	os.RemoveAll(folder)
	go f.run()
	f.book.put(kept("A", 1, 5000), 0)
	waitFor(t, f.isFailed)
	f.book.put(kept("B", 2, 5000), 0)
	os.Mkdir(folder, 0o777)
	waitFor(t, func() bool { return !f.isFailed() })
	f.close()
	if text := textOf(path); *faults == 0 || !strings.Contains(text, `"A"`) || !strings.Contains(text, `"B"`) {
		t.Errorf("%d faults, %q", *faults, text)
	}
}

// TestTheClockMovesRows: a row from before the jump, one from after it, and one of a peer.
func TestTheClockMovesRows(t *testing.T) {
	l := newLogbook()
	l.put(kept("A", 10_000, 50_000), 0)
	l.put(kept("B", 4_000, 44_000), 7_000)
	l.merge(kept("C", 3_000, 43_000), 1)
	l.move(7_000)
	for name, moment := range map[string]int64{"A": 3_000, "B": 4_000, "C": 3_000} {
		rows, _ := decodeRows([][]byte{l.rows[kept(name, 0, 0).id()].line})
		if len(rows) != 1 || rows[0].Moment != moment || rows[0].Expiry != moment+40_000 {
			t.Errorf("%s: %v", name, rows)
		}
	}
	if _, isMoved := l.take(); !isMoved {
		t.Error("the file isn't written anew")
	}
}

func TestRowsOfPeers(t *testing.T) {
	l := newLogbook()
	l.put(kept("A", 5, 5000), 0)
	if l.merge(kept("A", 5, 5000), 77) || l.merge(kept("A", 4, 5000), 77) || !l.merge(kept("A", 6, 5000), 77) {
		t.Error("not the later row is kept")
	}
	id := kept("A", 0, 0).id()
	if _, ok := l.heardSince(id, 78); ok {
		t.Error("it came before")
	}
	if k, ok := l.heardSince(id, 77); !ok || k.Moment != 6 {
		t.Error("it came in time")
	}
	l.put(kept("A", 3, 5000), 0)
	if _, ok := l.heardSince(id, 1); ok {
		t.Error("a row of our own came from no peer")
	}
}
