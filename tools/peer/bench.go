// Does a step of am_bench with the packages of Alertmanager 0.25 itself, after those that it needs alone, and prints how
// many nanoseconds of a processor it took for each alert:
//
//	bench new|again ALERTS GROUPS            inserts into the dispatcher
//	bench new-put|again-put ALERTS GROUPS    the same through the provider
//	bench first|quiet ALERTS GROUPS [SILENCES]
//	bench silenced ALERTS GROUPS SILENCES    silences are set
//	bench inhibited SOURCES TARGETS
//
// One thread runs it, its garbage collection too. Alerts are built before a step, and garbage is collected.
package main

import (
	"context"
	"fmt"
	"os"
	"runtime"
	"strconv"
	"syscall"
	"time"

	"github.com/go-kit/log"
	"github.com/prometheus/alertmanager/config"
	"github.com/prometheus/alertmanager/dispatch"
	"github.com/prometheus/alertmanager/inhibit"
	"github.com/prometheus/alertmanager/nflog"
	"github.com/prometheus/alertmanager/nflog/nflogpb"
	"github.com/prometheus/alertmanager/notify"
	"github.com/prometheus/alertmanager/provider/mem"
	"github.com/prometheus/alertmanager/silence"
	"github.com/prometheus/alertmanager/silence/silencepb"
	"github.com/prometheus/alertmanager/types"
	"github.com/prometheus/client_golang/prometheus"
	"github.com/prometheus/common/model"
)

const inGroup = 16

// A receiver that does nothing, counts the alerts that it is sent, and wants resolved ones.
type receiver struct{ told *int }

func (r receiver) Notify(_ context.Context, alerts ...*types.Alert) (bool, error) {
	*r.told += len(alerts)
	return false, nil
}

func (receiver) SendResolved() bool { return true }

// What a step works on: a dispatcher with its provider, silences and rules.
type peer struct {
	alerts    *mem.Alerts
	dispatch  *dispatch.Dispatcher
	silences  *silence.Silences
	inhibitor *inhibit.Inhibitor
	told      int
}

func must[T any](value T, err error) T {
	if err != nil {
		panic(err)
	}
	return value
}

func newPeer(rules []*config.InhibitRule) *peer {
	p := &peer{}
	logger, registry := log.NewNopLogger(), prometheus.NewRegistry()
	marker := types.NewMarker(registry)
	p.alerts = must(mem.NewAlerts(context.Background(), marker, time.Hour, nil, logger, nil))
	p.silences = must(silence.New(silence.Options{Retention: time.Hour}))
	p.inhibitor = inhibit.NewInhibitor(p.alerts, rules, marker, logger)
	notified := must(nflog.New(nflog.WithRetention(120 * time.Hour)))
	to := &nflogpb.Receiver{GroupName: "team", Integration: "hook"}
	integration := notify.NewIntegration(receiver{&p.told}, receiver{&p.told}, "hook", 0)
	stage := notify.MultiStage{
		notify.NewMuteStage(p.inhibitor),
		notify.NewMuteStage(silence.NewSilencer(p.silences, marker, logger)),
		notify.NewDedupStage(&integration, notified, to),
		notify.NewRetryStage(integration, "team", notify.NewMetrics(registry)),
		notify.NewSetNotifiesStage(notified, to),
	}
	wait, interval, repeat := model.Duration(time.Hour), model.Duration(time.Hour), model.Duration(4*time.Hour)
	route := dispatch.NewRoute(&config.Route{
		Receiver:       "team",
		GroupBy:        []model.LabelName{"alertname", "cluster"},
		GroupWait:      &wait,
		GroupInterval:  &interval,
		RepeatInterval: &repeat,
	}, nil)
	p.dispatch = dispatch.NewDispatcher(p.alerts, route, stage, marker, nil, nil, logger,
		dispatch.NewDispatcherMetrics(false, registry))
	p.dispatch.Start()
	return p
}

// The labels that am_bench's alert of these numbers has.
func build(group, number, instance int, severity string) *types.Alert {
	now := time.Now()
	return &types.Alert{UpdatedAt: now, Alert: model.Alert{StartsAt: now, EndsAt: now.Add(time.Hour), Labels: model.LabelSet{
		"alertname": model.LabelValue(fmt.Sprintf("A%04d", group)),
		"cluster":   "eu-west-1",
		"instance":  model.LabelValue(fmt.Sprintf("host-%05d:9100", instance)),
		"job":       model.LabelValue(fmt.Sprintf("exporter-%05d", number)),
		"severity":  model.LabelValue(severity),
		"team":      "platform",
	}}}
}

func spread(count, groups int) []*types.Alert {
	alerts := make([]*types.Alert, count)
	for number := range alerts {
		alerts[number] = build(number%groups, number, number, "warning")
	}
	return alerts
}

// The processor time of the process.
func used() time.Duration {
	var usage syscall.Rusage
	if err := syscall.Getrusage(syscall.RUSAGE_SELF, &usage); err != nil {
		panic(err)
	}
	return time.Duration(usage.Utime.Nano() + usage.Stime.Nano())
}

// Times what is done with so many alerts.
func timed(count int, run func()) {
	runtime.GC()
	start := used()
	run()
	fmt.Println((used() - start).Nanoseconds() / int64(count))
}

func (p *peer) insert(alerts []*types.Alert) {
	for _, alert := range alerts {
		p.dispatch.Insert(alert)
	}
}

// Inserts alerts as a post to the API does: into the provider, whose alerts go to the dispatcher.
func (p *peer) put(alerts []*types.Alert) {
	for _, alert := range alerts {
		if err := p.alerts.Put(alert); err != nil {
			panic(err)
		}
		p.dispatch.Insert(alert)
	}
}

// Flushes all groups, which sends so many alerts.
func (p *peer) flush(wanted int) {
	p.told = 0
	p.dispatch.Flush(time.Now())
	if p.told != wanted {
		panic(fmt.Sprintf("%d alerts told, %d wanted", p.told, wanted))
	}
}

// Inserts alerts by these calls; once more, if it is the same again that counts.
func inserts(count, groups int, isAgain bool, insert func([]*types.Alert)) {
	if isAgain {
		insert(spread(count, groups))
	}
	alerts := spread(count, groups)
	timed(count, func() { insert(alerts) })
}

func flushes(step string, count, groups, silences int) {
	p := newPeer(nil)
	muted := (count + 10) / 11
	if silences < muted {
		muted = silences
	}
	set := buildSilences(silences)
	if step == "silenced" {
		timed(silences, func() { p.silence(set) })
		return
	}
	p.silence(set)
	p.put(spread(count, groups))
	if step == "first" {
		timed(count, func() { p.flush(count - muted) })
		return
	}
	p.flush(count - muted)
	timed(count, func() { p.flush(0) })
}

// Silences of every eleventh alert.
func buildSilences(count int) []*silencepb.Silence {
	set := make([]*silencepb.Silence, count)
	for number := range set {
		host := fmt.Sprintf("host-%05d:9100", number*11)
		set[number] = &silencepb.Silence{
			StartsAt: time.Now(), EndsAt: time.Now().Add(time.Hour),
			Matchers: []*silencepb.Matcher{{Name: "instance", Pattern: host}},
		}
	}
	return set
}

func (p *peer) silence(set []*silencepb.Silence) {
	for _, it := range set {
		must(p.silences.Set(it))
	}
}

func inhibition(sources, targets int) {
	names := func(value string) map[string]string { return map[string]string{"severity": value} }
	p := newPeer([]*config.InhibitRule{{
		SourceMatch: names("critical"), TargetMatch: names("warning"), Equal: model.LabelNames{"cluster", "instance"},
	}})
	for number := 0; number < sources; number++ {
		if err := p.alerts.Put(build(number/inGroup, number, number, "critical")); err != nil {
			panic(err)
		}
	}
	go p.inhibitor.Run()
	alerts := make([]*types.Alert, targets)
	for number := range alerts {
		alerts[number] = build(number/inGroup, number, sources-1-number%sources, "warning")
	}
	for _, alert := range alerts {
		for !p.inhibitor.Mutes(alert.Labels) {
			time.Sleep(time.Millisecond)
		}
	}
	p.insert(alerts)
	timed(targets, func() { p.flush(0) })
}

func main() {
	runtime.GOMAXPROCS(1)
	sizes := make([]int, 3)
	for i, word := range os.Args[2:] {
		sizes[i] = must(strconv.Atoi(word))
	}
	step, count, groups := os.Args[1], sizes[0], sizes[1]
	switch step {
	case "new", "again":
		inserts(count, groups, step == "again", newPeer(nil).insert)
	case "new-put", "again-put":
		inserts(count, groups, step == "again-put", newPeer(nil).put)
	case "first", "quiet", "silenced":
		flushes(step, count, groups, sizes[2])
	case "inhibited":
		inhibition(count, groups)
	default:
		panic("no such step")
	}
}
