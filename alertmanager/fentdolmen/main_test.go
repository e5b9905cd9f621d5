package main

import (
	"context"
	"os"
	"strings"
	"testing"
	"time"

	"github.com/go-kit/log"
	"github.com/prometheus/client_golang/prometheus"
	"github.com/prometheus/common/model"

	"github.com/prometheus/alertmanager/config"
	"github.com/prometheus/alertmanager/dispatch"
	"github.com/prometheus/alertmanager/notify"
	"github.com/prometheus/alertmanager/provider/mem"
	"github.com/prometheus/alertmanager/silence"
	"github.com/prometheus/alertmanager/template"
	"github.com/prometheus/alertmanager/types"
)

// TestMain makes this program the board of some tests: FAKE_BOARD names what it does.
func TestMain(m *testing.M) {
	if how := os.Getenv("FAKE_BOARD"); how != "" {
		(&fakeBoard{how, map[string]bool{}, map[string]int{}}).run()
		os.Exit(0)
	}
	os.Exit(m.Run())
}

// fake has the next boards be this program.
func fake(t *testing.T, how string) string {
	t.Setenv("FAKE_BOARD", how)
	return os.Args[0]
}

// realBoard is the program that AM_DISPATCH names.
func realBoard(t *testing.T) string {
	program := os.Getenv("AM_DISPATCH")
	if program == "" {
		t.Skip("AM_DISPATCH names no board")
	}
	return program
}

func testClock() *clock { return newClock(wallClock, steadyClock) }

const oneReceiver = "route: {receiver: team, group_by: [alertname]}\nreceivers: [{name: team, webhook_configs: [{url: 'http://127.0.0.1:9/'}]}]"

// confOf is a configuration.
func confOf(t *testing.T, text string) *config.Config {
	conf, err := config.Load(text)
	if err != nil {
		t.Fatal(err)
	}
	return conf
}

// planOf is the plan of a configuration.
func planOf(t *testing.T, text string) *plan {
	conf := confOf(t, text)
	integrations, err := buildReceivers(conf, usedReceivers(dispatch.NewRoute(conf.Route, nil)), &template.Template{}, log.NewNopLogger())
	if err != nil {
		t.Fatal(err)
	}
	p, err := newPlan(conf, integrations)
	if err != nil {
		t.Fatal(err)
	}
	return p
}

// testDispatcher is one with a board, whose flushes don't run.
func testDispatcher(t *testing.T, program, text string) *dispatcher {
	reg, logger := prometheus.NewRegistry(), log.NewNopLogger()
	silences, err := silence.New(silence.Options{Retention: time.Hour, Metrics: reg})
	if err != nil {
		t.Fatal(err)
	}
	history, err := openHistory("", logger, func() {})
	if err != nil {
		t.Fatal(err)
	}
	o := &options{board: program, boardTimeout: 10 * time.Second}
	d := newDispatcher(o, newMetrics(reg), notify.NewMetrics(reg), silences, newLogbook(), history, testClock(), logger)
	d.marker = types.NewMarker(reg)
	alerts, err := mem.NewAlerts(context.Background(), d.marker, time.Hour, d, logger, reg)
	if err != nil {
		t.Fatal(err)
	}
	d.alerts = alerts
	if err := d.load(planOf(t, text)); err != nil {
		t.Fatal(err)
	}
	t.Cleanup(func() {
		d.close()
		alerts.Close()
	})
	return d
}

// alert is one that fires, of labels such as `alertname=A,x=1`.
func alert(text string) *types.Alert {
	labels := model.LabelSet{}
	for _, it := range strings.Split(text, ",") {
		name, value, _ := strings.Cut(it, "=")
		labels[model.LabelName(name)] = model.LabelValue(value)
	}
	now := time.Now()
	return &types.Alert{Alert: model.Alert{Labels: labels, StartsAt: now, EndsAt: now.Add(time.Hour)}, UpdatedAt: now}
}
