package main

import (
	"fmt"
	"reflect"
	"strings"
	"testing"
	"time"

	"github.com/prometheus/client_golang/prometheus/testutil"
	"github.com/prometheus/common/model"

	"github.com/prometheus/alertmanager/types"
)

// TestStatesAreTheBoards: an alert has the silences that the board names, by their ids, and the first of the alerts that inhibit it.
func TestStatesAreTheBoards(t *testing.T) {
	d := testDispatcher(t, fake(t, "mutes"), oneReceiver)
	d.silences.SetBroadcast(d.silencesChanged)
	id, err := d.silences.Set(silenceOf("x")) // (of another name: the board decides)
	if err != nil {
		t.Fatal(err)
	}
	a := alert("alertname=A")
	if err := (dispatched{d.alerts, d}).Put(a); err != nil {
		t.Fatal(err)
	}
	pending := dispatched{d.alerts, d}.GetPending()
	defer pending.Close()
	count := 0
	for range pending.Next() {
		count++
	}
	got, want := d.marker.Status(a.Fingerprint()), types.AlertStatus{State: types.AlertStateSuppressed, SilencedBy: []string{id},
		InhibitedBy: []string{model.LabelSet{"alertname": "B"}.Fingerprint().String()}}
	if got.State != want.State || !reflect.DeepEqual(got.SilencedBy, want.SilencedBy) || !reflect.DeepEqual(got.InhibitedBy, want.InhibitedBy) {
		t.Errorf("%+v instead of %+v", got, want)
	}
	if count != 1 || pending.Err() != nil {
		t.Errorf("%d alerts, %v", count, pending.Err())
	}
	d.show(a.Fingerprint(), status{})
	if got := d.marker.Status(a.Fingerprint()); got.State != types.AlertStateActive {
		t.Errorf("%+v of an alert that nothing mutes", got)
	}
}

// TestTheStatusThatEndsBoards: after two no board is asked for it, and the alert still goes to them.
func TestTheStatusThatEndsBoards(t *testing.T) {
	d := testDispatcher(t, fake(t, "unshown"), oneReceiver)
	put, all := dispatched{d.alerts, d}, []*types.Alert{alert("alertname=1"), alert("alertname=poison"), alert("alertname=2")}
	if err := put.Put(all...); err != nil {
		t.Fatal(err)
	}
	for i := 1; i <= 2; i++ {
		d.mark(all)
		waitFor(t, func() bool { return testutil.ToFloat64(d.metrics.restarts) == float64(i) && d.isDown() == nil })
	}
	if d.mark(all); testutil.ToFloat64(d.metrics.restarts) != 2 {
		t.Error("a third board is asked")
	}
	for _, a := range all {
		if got := d.marker.Status(a.Fingerprint()).State; got != types.AlertStateActive {
			t.Errorf("%v is %v", a.Labels, got)
		}
	}
	if err := put.Put(all...); err != nil {
		t.Error("it isn't inserted any more: ", err)
	}
}

// TestStatusCallsAreFew: at most so many, and so much, are asked at a time, and of a large alert nothing.
func TestStatusCallsAreFew(t *testing.T) {
	d := testDispatcher(t, fake(t, "usual"), oneReceiver)
	all := []*types.Alert{alert("alertname=0,x=" + strings.Repeat("x", mostBytes))}
	for i := 0; i < 2*mostStatuses; i++ {
		all = append(all, alert(fmt.Sprint("alertname=", i)))
	}
	calls, asked, left := d.statusCalls(all, mostStatuses)
	if len(calls) != mostStatuses || len(asked) != mostStatuses || asked[0] != all[1] || len(left) != mostStatuses {
		t.Errorf("%d are asked, of %d, and %d are left", len(calls), len(asked), len(left))
	}
	long := strings.Repeat("x", mostBytes/2)
	if calls, _, left := d.statusCalls([]*types.Alert{alert("a=" + long), alert("b=" + long), alert("c=" + long), alert("d=1")}, mostStatuses); len(calls) != 2 || len(left) != 2 {
		t.Errorf("%d long ones are asked, and %d are left", len(calls), len(left))
	}
}

// TestMarkingsAreShared: a request takes what a run shows that began after it came, and asks for nothing else.
func TestMarkingsAreShared(t *testing.T) {
	d := testDispatcher(t, fake(t, "mutes"), oneReceiver)
	all := []*types.Alert{alert("alertname=1"), alert("alertname=2")}
	before := time.Now()
	d.mark(all[:1])
	first := d.marking.began
	if left := d.marking.stale(all, before); len(left) != 1 || left[0] != all[1] {
		t.Errorf("%v are left of a run that began later", left)
	}
	if left := d.marking.stale(all, time.Now()); len(left) != 2 {
		t.Errorf("%v are left of a run that began before", left)
	}
	if d.mark(all); !d.marking.began.After(first) || len(d.marking.shown) != 2 {
		t.Errorf("%v isn't a run of both", d.marking.shown)
	}
}

// TestStatusesGetFewer: slow ones are asked one by one in the end, and quick ones by the hundred.
func TestStatusesGetFewer(t *testing.T) {
	size := mostStatuses
	for _, want := range []int{50, 25, 13, 7, 4, 2, 1, 1} {
		if size = resized(size, 2*statusTime); size != want {
			t.Errorf("%d are asked at a time instead of %d", size, want)
		}
	}
	for _, want := range []int{2, 4, 8, 16, 32, 64, 100, 100} {
		if size = resized(size, statusTime); size != want {
			t.Errorf("%d are asked at a time instead of %d", size, want)
		}
	}
}

// TestStatesOfTheRealBoard: a silence and a rule mute there, and no more than they do.
func TestStatesOfTheRealBoard(t *testing.T) {
	d := testDispatcher(t, realBoard(t), oneReceiver+"\ninhibit_rules: [{source_matchers: ['alertname=B'], target_matchers: ['alertname=A'], equal: [x]}]")
	d.silences.SetBroadcast(d.silencesChanged)
	id, err := d.silences.Set(silenceOf("C"))
	if err != nil {
		t.Fatal(err)
	}
	all := []*types.Alert{alert("alertname=A,x=1"), alert("alertname=A,x=2"), alert("alertname=B,x=1"), alert("alertname=C")}
	if err := (dispatched{d.alerts, d}).Put(all...); err != nil {
		t.Fatal(err)
	}
	time.Sleep(2 * time.Millisecond) // (the silence can begin at the next millisecond of the board's clock)
	d.mark(all)
	var got [][]string
	for _, a := range all {
		status := d.marker.Status(a.Fingerprint())
		got = append(got, append(append([]string{string(status.State)}, status.SilencedBy...), status.InhibitedBy...))
	}
	want := [][]string{{"suppressed", all[2].Fingerprint().String()}, {"active"}, {"active"}, {"suppressed", id}}
	if !reflect.DeepEqual(got, want) {
		t.Errorf("%v instead of %v", got, want)
	}
}
