package main

import (
	"testing"
	"time"

	"github.com/prometheus/common/model"
)

// TestAPeersRowsReachTheBoard: what a peer sent isn't sent again.
func TestAPeersRowsReachTheBoard(t *testing.T) {
	theirs, ours := testDispatcher(t, realBoard(t), oneReceiver), testDispatcher(t, realBoard(t), oneReceiver)
	a := alert("alertname=A")
	a.StartsAt = time.Now().Add(-time.Hour)
	now := theirs.clock.now()
	k, _ := theirs.session().keep(row{groupID{"root", a.Labels}, "", 0, "webhook", now - 60000, now + 60000, []model.LabelSet{a.Labels}, nil}, 0)
	theirs.book.put(k, 0)
	message, err := gossiped{theirs}.MarshalBinary()
	if err != nil {
		t.Fatal(err)
	}
	if err := (gossiped{ours}).Merge(append(message, "not a row\n"...)); err != nil {
		t.Fatal(err)
	}
	if ours.summary().Entries != 1 || len(ours.book.rows) != 1 {
		t.Errorf("%d rows in the board, %d in the logbook", ours.summary().Entries, len(ours.book.rows))
	}
	if err := (dispatched{ours.alerts, ours}).Put(a); err != nil {
		t.Fatal(err)
	}
	if answers, err := ours.session().board.submit(beginCall()).wait(); err != nil || string(answers[0][:8]) != `{"quiet"` {
		t.Errorf("%s, %v", answers, err)
	}
}

// TestAPeerThatSentDuringTheWait: what it sent isn't sent again, if that is all.
func TestAPeerThatSentDuringTheWait(t *testing.T) {
	d := testDispatcher(t, fake(t, "usual"), oneReceiver)
	a, b := alert("alertname=A").Labels, alert("alertname=A,host=b").Labels
	f := &sending{session: d.session(), begun: d.clock.now(), flush: flush{Group: groupID{"route 0", a}}}
	n := notice{Kind: "webhook", Firing: []boardAlert{{Labels: a}}}
	if d.isSentByPeer(f, n) {
		t.Error("nobody sent it")
	}
	k, _ := f.session.keep(row{Group: f.Group, Moment: f.begun, Expiry: f.begun + 60000, Firing: []model.LabelSet{a}}, 0)
	if d.book.put(k, 0); d.isSentByPeer(f, n) {
		t.Error("a row of our own came from no peer")
	}
	k.Moment++
	if err := (gossiped{d}).Merge(lineOf(k)); err != nil || !d.isSentByPeer(f, n) {
		t.Error("a peer sent it: ", err)
	}
	if n.Firing = append(n.Firing, boardAlert{Labels: b}); d.isSentByPeer(f, n) {
		t.Error("the peer hadn't this alert")
	}
	f.begun = d.clock.now() + 1
	if n.Firing = n.Firing[:1]; d.isSentByPeer(f, n) {
		t.Error("the peer sent it before the flush")
	}
}

func TestCovers(t *testing.T) {
	a, b := model.LabelSet{"alertname": "A"}, model.LabelSet{"alertname": "B"}
	for _, it := range []struct {
		has    []model.LabelSet
		wanted []boardAlert
		is     bool
	}{
		{nil, nil, true}, {[]model.LabelSet{a}, nil, true}, {[]model.LabelSet{a, b}, []boardAlert{{Labels: b}}, true},
		{[]model.LabelSet{a}, []boardAlert{{Labels: a}, {Labels: b}}, false}, {nil, []boardAlert{{Labels: a}}, false},
	} {
		if covers(it.has, it.wanted) != it.is {
			t.Errorf("%v covers %v: %v", it.has, it.wanted, !it.is)
		}
	}
}
