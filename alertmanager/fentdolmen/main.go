// Fentdolmen: Alertmanager's own packages round a proved board. am-dispatch decides in place of Alertmanager's dispatcher, mute stages,
// deduplication and notification log. Alertmanager has the configuration, the API, silences, templates, senders and the user interface.
package main

import (
	"context"
	"errors"
	"fmt"
	"net/http"
	"os"
	"os/signal"
	"path/filepath"
	"runtime/debug"
	"strings"
	"syscall"
	"time"

	"github.com/go-kit/log"
	"github.com/go-kit/log/level"
	"github.com/prometheus/client_golang/prometheus"
	"github.com/prometheus/common/model"
	"github.com/prometheus/common/promlog"
	"github.com/prometheus/common/version"
	"github.com/prometheus/exporter-toolkit/web"

	"github.com/prometheus/alertmanager/api"
	"github.com/prometheus/alertmanager/cluster"
	"github.com/prometheus/alertmanager/config"
	"github.com/prometheus/alertmanager/dispatch"
	"github.com/prometheus/alertmanager/notify"
	"github.com/prometheus/alertmanager/provider/mem"
	"github.com/prometheus/alertmanager/silence"
	"github.com/prometheus/alertmanager/template"
	"github.com/prometheus/alertmanager/types"
)

// mostGarbage is by how many percent the memory in use grows until what nothing needs is collected, where GOGC doesn't say it. Requests
// leave several times what is kept of them: at Go's own 100 more than a fifth of the processor's time goes there.
const mostGarbage = 200

func main() {
	if os.Getenv("GOGC") == "" {
		debug.SetGCPercent(mostGarbage)
	}
	os.Exit(run(os.Args[1:]))
}

// run runs the program until a signal ends it, and returns its status.
func run(args []string) int {
	o, err := readOptions(args)
	if err != nil {
		fmt.Fprintf(os.Stderr, "fentdolmen: %v; --help lists the options\n", err)
		return 1
	}
	p := &program{options: o, logger: promlog.New(&o.log), reg: prometheus.DefaultRegisterer, hup: make(chan os.Signal, 1)}
	signal.Notify(p.hup, syscall.SIGHUP) // (from here on: a reload that comes during the start mustn't end the program)
	level.Info(p.logger).Log("msg", "starting", "version", version.Info())
	defer p.close()
	if err := p.build(); err != nil {
		level.Error(p.logger).Log("msg", "not started", "err", err)
		return 1
	}
	if p.coordinator.Reload() != nil { // (it logs why)
		return 1
	}
	p.dispatcher.start(p.maintenance, p.alertGC)
	return p.serve()
}

// program is all parts. What was built is closed in the reverse order.
type program struct {
	*options
	logger log.Logger
	reg    prometheus.Registerer

	metrics     *metrics
	marker      types.Marker
	silences    *silence.Silences
	saver       *silenceSaver
	file        *logFile
	dispatcher  *dispatcher
	alerts      *mem.Alerts
	api         *api.API
	coordinator *config.Coordinator
	hup         chan os.Signal
	closers     []func()
}

// close closes all parts, the last one first.
func (p *program) close() {
	for i := len(p.closers) - 1; i >= 0; i-- {
		p.closers[i]()
	}
}

// closing adds what close calls.
func (p *program) closing(f func()) { p.closers = append(p.closers, f) }

// build makes all parts but the server.
func (p *program) build() error {
	if err := os.MkdirAll(p.storage, 0o777); err != nil {
		return err
	}
	p.metrics, p.marker = newMetrics(p.reg), types.NewMarker(p.reg)
	for _, step := range []func() error{p.buildSilences, p.buildDispatcher, p.buildCluster, p.buildAPI} {
		if err := step(); err != nil {
			return err
		}
	}
	p.coordinator = config.NewCoordinator(p.config, p.reg, log.With(p.logger, "component", "configuration"))
	p.coordinator.Subscribe(p.apply)
	return nil
}

// buildSilences makes the store of silences, and what saves it.
func (p *program) buildSilences() (err error) {
	path, stop, stopped := filepath.Join(p.storage, "silences"), make(chan struct{}), make(chan struct{})
	p.silences, err = silence.New(silence.Options{SnapshotFile: path, Retention: p.retention, Logger: log.With(p.logger, "component", "silences"), Metrics: p.reg})
	if err != nil {
		return err
	}
	p.saver = newSilenceSaver(p.silences, path, p.logger, p.metrics.failure("silences"))
	go p.saver.run()
	p.closing(p.saver.close)
	go func() {
		p.silences.Maintenance(p.maintenance, "", stop, p.saver.maintain)
		close(stopped)
	}()
	p.closing(func() {
		close(stop)
		<-stopped
	})
	return nil
}

// buildDispatcher makes the log with its file, the dispatcher, and the provider of alerts that feeds it.
func (p *program) buildDispatcher() error {
	book, clock := newLogbook(), newClock(wallClock, steadyClock)
	file, err := openLogFile(filepath.Join(p.storage, "fentdolmen-log.jsonl"), book, clock.wall, p.logger, p.metrics.failure("log"))
	if err != nil {
		return err
	}
	p.file = file
	go file.run()
	p.closing(file.close)
	history, err := openHistory(p.history, p.logger, p.metrics.failure("history"))
	if err != nil {
		return err
	}
	go history.run()
	p.closing(history.close)
	p.dispatcher = newDispatcher(p.options, p.metrics, notify.NewMetrics(p.reg), p.silences, book, history, clock, p.logger)
	p.closing(p.dispatcher.close)
	p.metrics.watch(p.reg, p.dispatcher, file, p.saver)
	p.alerts, err = mem.NewAlerts(context.Background(), p.marker, p.alertGC, p.dispatcher, p.logger, p.reg)
	if err != nil {
		return err
	}
	p.closing(p.alerts.Close)
	p.dispatcher.alerts, p.dispatcher.marker = p.alerts, p.marker
	p.silences.SetBroadcast(func(message []byte) {
		p.dispatcher.silencesChanged(message)
		p.saver.poke()
	})
	return nil
}

// buildCluster joins the peers, if there is a cluster.
func (p *program) buildCluster() error {
	if p.listen == "" {
		return nil
	}
	tls, err := cluster.GetTLSTransportConfig(p.tls)
	if err != nil {
		return fmt.Errorf("cluster.tls-config: %w", err)
	}
	peer, err := cluster.Create(log.With(p.logger, "component", "cluster"), p.reg, p.listen, p.advertise, p.peers, true, p.pushPull, p.gossip,
		p.tcp, p.probeTimeout, p.probeInterval, tls, p.isInsecure)
	if err != nil {
		return fmt.Errorf("cluster: %w", err)
	}
	p.metrics.clustered.Set(1)
	d := p.dispatcher
	d.cluster = peers{peer: peer, timeout: p.peerTimeout, channel: peer.AddState("fentdolmen", gossiped{d}, p.reg)}
	channel := peer.AddState("sil", peerSilences{p.silences, d, p.saver}, p.reg)
	p.silences.SetBroadcast(func(message []byte) {
		channel.Broadcast(message)
		d.silencesChanged(message)
		p.saver.poke()
	})
	if err := peer.Join(p.reconnectInterval, p.reconnectTimeout); err != nil {
		level.Warn(p.logger).Log("msg", "no peer joined", "err", err)
	}
	ctx, cancel := context.WithTimeout(context.Background(), p.settle)
	p.closing(func() {
		cancel()
		if err := peer.Leave(10 * time.Second); err != nil {
			level.Warn(p.logger).Log("msg", "the cluster wasn't left", "err", err)
		}
	})
	go peer.Settle(ctx, p.gossip*10)
	return nil
}

// buildAPI makes the API, whose alerts go through the dispatcher.
func (p *program) buildAPI() (err error) {
	options := api.Options{
		Alerts: dispatched{p.alerts, p.dispatcher}, Silences: p.silences, StatusFunc: p.marker.Status, Timeout: p.timeout,
		Concurrency: p.concurrency, Logger: log.With(p.logger, "component", "api"), Registry: p.reg, GroupFunc: p.dispatcher.Groups,
	}
	if peer := p.dispatcher.cluster.peer; peer != nil { // (a nil of this type would be an interface that isn't nil)
		options.Peer = peer
	}
	p.api, err = api.New(options)
	return err
}

// apply takes a configuration over. With an error the one before stays.
func (p *program) apply(conf *config.Config) error {
	external, err := findURL((*p.web.WebListenAddresses)[0], p.externalURL)
	if err != nil {
		return err
	}
	templates, err := template.FromGlobs(filepath.Dir(p.templates), conf.Templates...)
	if err != nil {
		return fmt.Errorf("templates: %w", err)
	}
	templates.ExternalURL = external
	integrations, err := buildReceivers(conf, usedReceivers(dispatch.NewRoute(conf.Route, nil)), templates, p.logger)
	if err != nil {
		return err
	}
	plan, err := newPlan(conf, integrations)
	if err != nil {
		return err
	}
	if err := p.dispatcher.load(plan); err != nil {
		return err
	}
	p.api.Update(conf, func(model.LabelSet) {}) // (the states are marked before it asks for them)
	p.metrics.receivers.Set(float64(len(integrations)))
	count := 0
	for _, list := range integrations {
		count += len(list)
	}
	p.metrics.integrations.Set(float64(count))
	return nil
}

// serve answers requests and signals until one of these ends the program.
func (p *program) serve() int {
	external, err := findURL((*p.web.WebListenAddresses)[0], p.externalURL)
	if err != nil {
		return 1
	}
	if p.prefix == "" {
		p.prefix = external.Path
	}
	p.prefix = "/" + strings.Trim(p.prefix, "/")
	reload, served := make(chan chan error), make(chan error, 1)
	silences := &trial{program: p.board, now: p.dispatcher.clock.now, count: p.dispatcher.count}
	defer silences.close()
	server := newServer(p.api, p.options, p.metrics, reload, readiness(p.dispatcher, p.file, p.saver), silences, p.logger)
	go func() { served <- web.ListenAndServe(server, p.options.web, p.logger) }()
	defer server.Close()
	term := make(chan os.Signal, 1)
	signal.Notify(term, os.Interrupt, syscall.SIGTERM)
	go p.reloads(reload)
	select {
	case err := <-served:
		if !errors.Is(err, http.ErrServerClosed) {
			level.Error(p.logger).Log("msg", "not listening", "err", err)
		}
		return 1
	case <-term:
		level.Info(p.logger).Log("msg", "stopping")
		return 0
	}
}

// reloads reads the configuration again for each signal and request. Errors are logged, and go to who requested it.
func (p *program) reloads(requests chan chan error) {
	for {
		select {
		case <-p.hup:
			p.coordinator.Reload()
		case answer := <-requests:
			answer <- p.coordinator.Reload()
		}
	}
}
