package main

import (
	"os"
	"path/filepath"
	"testing"
	"time"
)

func TestOptions(t *testing.T) {
	o, err := readOptions([]string{"--board=/b", "--cluster.peer=a", "--cluster.peer=b", "--board.timeout=3s", "--web.listen-address=:1"})
	if err != nil || o.board != "/b" || len(o.peers) != 2 || o.boardTimeout != 3*time.Second || (*o.web.WebListenAddresses)[0] != ":1" || o.alertGC != 30*time.Minute {
		t.Errorf("%+v, %v", o, err)
	}
	for _, word := range []string{"--board.timeout=0s", "--alerts.gc-interval=0s", "--alerts.gc-interval=-1m", "--no-such", "word"} {
		if _, err := readOptions([]string{word}); err == nil {
			t.Errorf("%s is accepted", word)
		}
	}
}

func TestTheUsualBoard(t *testing.T) {
	t.Setenv("AM_DISPATCH", "/x")
	if usualBoard() != "/x" {
		t.Error(usualBoard())
	}
	folder := filepath.Join(t.TempDir(), "bin")
	if boardNear(folder) != "" {
		t.Error(boardNear(folder))
	}
	// (the first of these that is there counts)
	for _, it := range []string{"../lib/fentdolmen/am-dispatch", "am_dispatch", boardName} {
		path := filepath.Join(folder, it)
		os.MkdirAll(filepath.Dir(path), 0o777)
		os.WriteFile(path, nil, 0o777)
		if boardNear(folder) != path {
			t.Error(boardNear(folder), " and not ", path)
		}
	}
}
