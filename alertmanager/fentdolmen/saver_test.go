package main

import (
	"os"
	"path/filepath"
	"strings"
	"testing"
	"time"

	"github.com/go-kit/log"
	"github.com/prometheus/client_golang/prometheus"

	"github.com/prometheus/alertmanager/silence"
)

// TestSilencesAreSaved: after each change, after a fault of the disk, and a last time at the end. A new store reads them.
func TestSilencesAreSaved(t *testing.T) {
	folder := filepath.Join(t.TempDir(), "data")
	path := filepath.Join(folder, "silences")
	store := func() *silence.Silences {
		out, err := silence.New(silence.Options{SnapshotFile: path, Retention: time.Hour, Metrics: prometheus.NewRegistry()})
		if err != nil {
			t.Fatal(err)
		}
		return out
	}
	silences := store()
	faults := make(chan struct{}, 100)
	s := newSilenceSaver(silences, path, log.NewNopLogger(), func() { faults <- struct{}{} })
	silences.SetBroadcast(func([]byte) { s.poke() })
	go s.run()
	set := func(name string) {
		if _, err := silences.Set(silenceOf(name)); err != nil {
			t.Fatal(err)
		}
	}
	set("without a folder")
	<-faults
	if !s.isFailed() {
		t.Error("the fault isn't known")
	}
	os.Mkdir(folder, 0o777)
	waitFor(t, func() bool { return !s.isFailed() && strings.Contains(textOf(path), "without a folder") })
	set("second")
	waitFor(t, func() bool { return strings.Contains(textOf(path), "second") })
	if size, err := s.maintain(); err != nil || size == 0 {
		t.Errorf("%d bytes, %v", size, err)
	}
	silences.SetBroadcast(func([]byte) {})
	set("last")
	s.close()
	if all, _, err := store().Query(); err != nil || len(all) != 3 {
		t.Errorf("%d silences are read again, %v", len(all), err)
	}
}
