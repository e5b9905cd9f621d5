// Metrics: those of Alertmanager's main that its packages don't have, and our own.
package main

import (
	"github.com/prometheus/client_golang/prometheus"
	"github.com/prometheus/common/version"
)

type metrics struct {
	receivers, integrations, clustered prometheus.Gauge
	requests                           *prometheus.HistogramVec
	sizes                              *prometheus.HistogramVec
	processing                         prometheus.Summary
	refused                            *prometheus.CounterVec
	unsaved                            *prometheus.CounterVec
	restarts                           prometheus.Counter
}

// newMetrics makes and registers them.
func newMetrics(reg prometheus.Registerer) *metrics {
	gauge := func(name, help string) prometheus.Gauge {
		return prometheus.NewGauge(prometheus.GaugeOpts{Name: name, Help: help})
	}
	m := &metrics{
		receivers:    gauge("alertmanager_receivers", "Number of configured receivers."),
		integrations: gauge("alertmanager_integrations", "Number of configured integrations."),
		clustered:    gauge("alertmanager_cluster_enabled", "Whether there is a cluster."),
		requests: prometheus.NewHistogramVec(prometheus.HistogramOpts{Name: "alertmanager_http_request_duration_seconds",
			Help: "Duration of HTTP requests.", Buckets: []float64{.05, 0.1, .25, .5, .75, 1, 2, 5, 20, 60}}, []string{"handler", "method"}),
		sizes: prometheus.NewHistogramVec(prometheus.HistogramOpts{Name: "alertmanager_http_response_size_bytes",
			Help: "Size of HTTP responses.", Buckets: prometheus.ExponentialBuckets(100, 10, 7)}, []string{"handler", "method"}),
		processing: prometheus.NewSummary(prometheus.SummaryOpts{Name: "alertmanager_dispatcher_alert_processing_duration_seconds",
			Help: "Duration of a request's alerts on their way to the board."}),
		refused: prometheus.NewCounterVec(prometheus.CounterOpts{Name: "fentdolmen_refused_total",
			Help: "Calls that the board rejected."}, []string{"call", "kind"}),
		unsaved: prometheus.NewCounterVec(prometheus.CounterOpts{Name: "fentdolmen_save_failures_total",
			Help: "Attempts to write a file that failed."}, []string{"file"}),
		restarts: prometheus.NewCounter(prometheus.CounterOpts{Name: "fentdolmen_board_restarts_total",
			Help: "Boards that ended by themselves, or had to be ended."}),
	}
	reg.MustRegister(m.receivers, m.integrations, m.clustered, m.requests, m.sizes, m.processing, m.refused, m.unsaved, m.restarts,
		version.NewCollector("alertmanager"))
	m.showZeros()
	return m
}

// showZeros shows the counts of what is to be alerted on before there is any: Prometheus sees no growth in a series that begins at 1.
func (m *metrics) showZeros() {
	for call, kinds := range map[string][]string{
		"insert":  {badValue, tooManyNames, tooManyGroups, historyFull, noMemory},
		"silence": {badValue, tooManySilences, historyFull, noMemory},
		"begin":   {historyFull, noMemory},
	} {
		for _, kind := range kinds {
			m.refused.WithLabelValues(call, kind)
		}
	}
}

// failure returns what counts a failed attempt to write a file.
func (m *metrics) failure(file string) func() {
	return m.unsaved.WithLabelValues(file).Inc
}

// watch adds the gauges that ask the board and the files.
func (m *metrics) watch(reg prometheus.Registerer, d *dispatcher, file *logFile, silences *silenceSaver) {
	gauge := func(name, help string, value func() float64) {
		reg.MustRegister(prometheus.NewGaugeFunc(prometheus.GaugeOpts{Name: name, Help: help}, value))
	}
	reg.MustRegister(counts{d.summary})
	gauge("fentdolmen_log_saved", "Whether the notification log is on the disk.", func() float64 { return oneIf(!file.isFailed()) })
	gauge("fentdolmen_silences_saved", "Whether the silences are on the disk.", func() float64 { return oneIf(!silences.isFailed()) })
	gauge("fentdolmen_board_up", "Whether there is a board.", func() float64 { return oneIf(d.isDown() == nil) })
}

// counts collects what the board counts: one question to it answers all of a scrape.
type counts struct{ summary func() summary }

var (
	groupsDesc  = prometheus.NewDesc("alertmanager_dispatcher_aggregation_groups", "Number of active aggregation groups", nil, nil)
	entriesDesc = prometheus.NewDesc("fentdolmen_log_entries", "Rows of the board's notification log.", nil, nil)
	flushesDesc = prometheus.NewDesc("fentdolmen_open_flushes", "Flushes that are being sent.", nil, nil)
)

// Describe implements prometheus.Collector.
func (c counts) Describe(out chan<- *prometheus.Desc) { prometheus.DescribeByCollect(c, out) }

// Collect implements prometheus.Collector.
func (c counts) Collect(out chan<- prometheus.Metric) {
	s := c.summary()
	for desc, value := range map[*prometheus.Desc]int64{groupsDesc: s.Groups, entriesDesc: s.Entries, flushesDesc: s.Flushes} {
		out <- prometheus.MustNewConstMetric(desc, prometheus.GaugeValue, float64(value))
	}
}

// oneIf is a flag as a metric.
func oneIf(is bool) float64 {
	if is {
		return 1
	}
	return 0
}
