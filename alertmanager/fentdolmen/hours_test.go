package main

import (
	"context"
	"fmt"
	"math/rand"
	"testing"
	"time"

	"github.com/go-kit/log"
	"github.com/prometheus/common/model"

	"github.com/prometheus/alertmanager/notify"
	"github.com/prometheus/alertmanager/timeinterval"
	"github.com/prometheus/alertmanager/types"
)

const mutedRoutes = `
route:
  receiver: team
  routes:
  - {matchers: [a="1"], mute_time_intervals: [nights]}
  - {matchers: [a="2"], active_time_intervals: [office]}
  - {matchers: [a="3"], mute_time_intervals: [ends, nights], active_time_intervals: [office, "odd days"]}
  - {matchers: [a="4"], mute_time_intervals: [here]}
  - {matchers: [a="5"]}
receivers: [{name: team, webhook_configs: [{url: 'http://127.0.0.1:9/'}]}]
mute_time_intervals:
- name: nights
  time_intervals: [{times: [{start_time: '00:00', end_time: '07:30'}, {start_time: '22:00', end_time: '24:00'}], location: America/New_York}]
time_intervals:
- name: office
  time_intervals:
  - {times: [{start_time: '09:00', end_time: '17:00'}], weekdays: ['monday:thursday', friday], location: Europe/Berlin}
  - {months: ['may:6', december], days_of_month: ['-3:-1', '1']}
- name: ends
  time_intervals: [{days_of_month: ['-1'], years: ['2020:2090'], location: Africa/Casablanca}]
- {name: odd days, time_intervals: [{days_of_month: ['1', '3', '5', '7:9']}]}
- {name: here, time_intervals: [{weekdays: [saturday], times: [{start_time: '10:00', end_time: '20:01'}], location: Local}]}
- {name: unused, time_intervals: [{location: Asia/Tokyo}]}
`

// TestTheBoardHasAlertmanagersTimeIntervals compares, at many times of the next year, whether the board mutes a route and whether
// Alertmanager's own stages do.
func TestTheBoardHasAlertmanagersTimeIntervals(t *testing.T) {
	d := testDispatcher(t, realBoard(t), mutedRoutes)
	conf, s := confOf(t, mutedRoutes), d.session()
	intervals := map[string][]timeinterval.TimeInterval{}
	for _, it := range conf.MuteTimeIntervals {
		intervals[it.Name] = it.TimeIntervals
	}
	for _, it := range conf.TimeIntervals {
		intervals[it.Name] = it.TimeIntervals
	}
	stages := notify.MultiStage{notify.NewTimeActiveStage(intervals), notify.NewTimeMuteStage(intervals)}
	random := rand.New(rand.NewSource(1))
	for i := 0; i < 4000; i++ {
		at := d.clock.now() + random.Int63n(horizon.Milliseconds()-60_000)
		if i%2 == 0 {
			at -= at % 60_000 // (where a minute begins)
		}
		route := s.root.Routes[i%len(s.root.Routes)]
		ctx := notify.WithNow(context.Background(), time.UnixMilli(at-d.clock.offset()))
		ctx = notify.WithMuteTimeIntervals(ctx, route.RouteOpts.MuteTimeIntervals)
		ctx = notify.WithActiveTimeIntervals(ctx, route.RouteOpts.ActiveTimeIntervals)
		_, left, err := stages.Exec(ctx, log.NewNopLogger(), &types.Alert{})
		if err != nil {
			t.Fatal(err)
		}
		var got struct {
			Routes []struct {
				Until *int64 `json:"muted_until"`
			} `json:"routes"`
		}
		labels := subjectOfLabels(model.LabelSet{"a": model.LabelValue(fmt.Sprint(i%len(s.root.Routes) + 1))})
		if err := s.board.ask(call{name: "status", args: []byte(fmt.Sprintf(`"now":%d,%s`, at, labels)), answers: []string{"status"}}, &got); err != nil {
			t.Fatal(err)
		}
		if len(got.Routes) != 1 || (got.Routes[0].Until != nil) != (len(left) == 0) {
			t.Errorf("%s, route %d: the board says %+v, and Alertmanager leaves %d alerts", time.UnixMilli(at).UTC(), i%5+1, got.Routes, len(left))
		}
	}
}

// TestTimeIntervalsGoOn: half a year later, and once the wall clock was set, another board is opened, and has the alerts.
func TestTimeIntervalsGoOn(t *testing.T) {
	d := testDispatcher(t, realBoard(t), mutedRoutes)
	first := d.session()
	if (dispatched{d.alerts, d}).Put(alert("alertname=A,a=5")) != nil || first.hours.areOver(d.clock) {
		t.Fatal("it needs others at once")
	}
	d.renew(first)
	if d.session() != first {
		t.Error("a board was opened too early")
	}
	for _, over := range []hours{{first.hours.offset, d.clock.now()}, {first.hours.offset - mostAway - 1, first.hours.until}} {
		s := d.session()
		s.hours = &hours{over.offset, over.until}
		d.renew(s)
		next := d.session()
		var groups []boardGroup
		if err := next.board.ask(groupsCall(), &groups); err != nil || next == s || next.hours.areOver(d.clock) || len(groups) != 1 {
			t.Errorf("%v: %v, %d groups", over, err, len(groups))
		}
	}
}

// TestBoardsWithoutTimeIntervals: these are opened as ever, and are never over.
func TestBoardsWithoutTimeIntervals(t *testing.T) {
	d := testDispatcher(t, fake(t, "usual"), oneReceiver)
	if s := d.session(); s.opens.name != "alertmanager" || s.hours.areOver(d.clock) {
		t.Errorf("%s, %v", s.opens.name, s.hours)
	}
}

func TestAZoneWithoutAFile(t *testing.T) {
	if _, err := zoneFiles(map[string]bool{"No/Where": true}); err == nil {
		t.Error("it has one")
	}
	if files, err := zoneFiles(map[string]bool{"": true, "UTC": true, "Europe/Berlin": true}); err != nil || len(files) != 1 {
		t.Errorf("%v, %d files", err, len(files))
	}
}
