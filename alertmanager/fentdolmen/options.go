// The options. They are named as Alertmanager's, and have its defaults in Debian.
package main

import (
	"fmt"
	"os"
	"path/filepath"
	"time"

	"github.com/prometheus/common/promlog"
	promlogflag "github.com/prometheus/common/promlog/flag"
	"github.com/prometheus/common/version"
	"github.com/prometheus/exporter-toolkit/web"
	webflag "github.com/prometheus/exporter-toolkit/web/kingpinflag"
	"gopkg.in/alecthomas/kingpin.v2"

	"github.com/prometheus/alertmanager/cluster"
)

type options struct {
	config, storage, templates          string
	retention, maintenance, alertGC     time.Duration
	board, history                      string
	boardTimeout                        time.Duration
	externalURL, prefix, ui             string
	concurrency                         int
	timeout                             time.Duration
	listen, advertise, tls              string
	peers                               []string
	isInsecure                          bool
	peerTimeout, gossip, pushPull, tcp  time.Duration
	probeTimeout, probeInterval, settle time.Duration
	reconnectInterval, reconnectTimeout time.Duration
	web                                 *web.FlagConfig
	log                                 promlog.Config
}

// textOption and timeOption are rows of the tables of options.
type textOption struct {
	name, usual, help string
	into              *string
}

type timeOption struct {
	name  string
	usual string
	help  string
	into  *time.Duration
}

// readOptions reads the words of the command line.
func readOptions(args []string) (*options, error) {
	o := &options{}
	app := kingpin.New("fentdolmen", "Alertmanager, with the decisions made by am-dispatch.")
	for _, it := range o.texts() {
		app.Flag(it.name, it.help).Default(it.usual).StringVar(it.into)
	}
	for _, it := range o.times() {
		app.Flag(it.name, it.help).Default(it.usual).DurationVar(it.into)
	}
	app.Flag("web.get-concurrency", "GET requests that are answered at once. 0: GOMAXPROCS, and at least 8.").Default("0").IntVar(&o.concurrency)
	app.Flag("cluster.peer", "A peer to join. It can be given again.").StringsVar(&o.peers)
	app.Flag("cluster.allow-insecure-public-advertise-address-discovery", "The cluster may listen on a public address.").BoolVar(&o.isInsecure)
	o.web = webflag.AddFlags(app, ":9093")
	promlogflag.AddFlags(app, &o.log)
	app.Version(version.Print("fentdolmen"))
	app.UsageWriter(os.Stdout)
	app.HelpFlag.Short('h')
	if _, err := app.Parse(args); err != nil {
		return nil, err
	}
	return o, o.check()
}

// check rejects spans of time that can't be those of a timer.
func (o *options) check() error {
	for _, it := range o.times() {
		if least := map[string]time.Duration{"data.maintenance-interval": time.Second, "alerts.gc-interval": time.Second, "board.timeout": time.Second / 10}[it.name]; *it.into < least {
			return fmt.Errorf("--%s is %v, and has to be %v at least", it.name, *it.into, least)
		}
	}
	return nil
}

// texts is the table of options that are texts.
func (o *options) texts() []textOption {
	return []textOption{
		{"config.file", "/etc/prometheus/alertmanager.yml", "The configuration.", &o.config},
		{"storage.path", "/var/lib/prometheus/alertmanager/", "The folder for silences and the notification log.", &o.storage},
		{"template.default", "/usr/share/prometheus/alertmanager/default.tmpl", "The default template. email.tmpl is beside it.", &o.templates},
		{"web.external-url", "", "The URL under which others reach this program. Its path is the prefix of all pages.", &o.externalURL},
		{"web.route-prefix", "", "The prefix of all pages, if it isn't the path of web.external-url.", &o.prefix},
		{"web.ui-path", "/usr/share/prometheus/alertmanager/ui/", "The folder of the user interface.", &o.ui},
		{"cluster.listen-address", "0.0.0.0:9094", "The address for peers. Empty: no cluster.", &o.listen},
		{"cluster.advertise-address", "", "The address that peers are given.", &o.advertise},
		{"cluster.tls-config", "", "A file with the settings of TLS between peers.", &o.tls},
		{"board", usualBoard(), "The program am_dispatch.", &o.board},
		{"board.history", "", "A file for the history of the board, for examples/live/replay. Empty: none.", &o.history},
	}
}

// times is the table of options that are spans of time.
func (o *options) times() []timeOption {
	return []timeOption{
		{"data.retention", "120h", "How long silences are kept after their end.", &o.retention},
		{"data.maintenance-interval", "15m", "The time between removals of old silences.", &o.maintenance},
		{"alerts.gc-interval", "30m", "The time between removals of resolved alerts.", &o.alertGC},
		{"web.timeout", "0s", "How long a request may take. 0: any time.", &o.timeout},
		{"cluster.peer-timeout", "15s", "How long to wait for each peer that sends first.", &o.peerTimeout},
		{"cluster.gossip-interval", cluster.DefaultGossipInterval.String(), "The time between messages to peers.", &o.gossip},
		{"cluster.pushpull-interval", cluster.DefaultPushPullInterval.String(), "The time between exchanges of the whole state.", &o.pushPull},
		{"cluster.tcp-timeout", cluster.DefaultTCPTimeout.String(), "How long an exchange may take.", &o.tcp},
		{"cluster.probe-timeout", cluster.DefaultProbeTimeout.String(), "How long a peer may take to answer a probe.", &o.probeTimeout},
		{"cluster.probe-interval", cluster.DefaultProbeInterval.String(), "The time between probes.", &o.probeInterval},
		{"cluster.settle-timeout", cluster.DefaultPushPullInterval.String(), "How long the first notifications wait for the cluster.", &o.settle},
		{"cluster.reconnect-interval", cluster.DefaultReconnectInterval.String(), "The time between attempts to reach a lost peer.", &o.reconnectInterval},
		{"cluster.reconnect-timeout", cluster.DefaultReconnectTimeout.String(), "How long to try to reach a lost peer.", &o.reconnectTimeout},
		{"board.timeout", "10s", "How long the board may take to answer. Then a new one is started.", &o.boardTimeout},
	}
}

// usualBoard is AM_DISPATCH, or the first that is there in this program's folder or where packages have it, or what the shell would find.
func usualBoard() string {
	if named := os.Getenv("AM_DISPATCH"); named != "" {
		return named
	}
	if self, err := os.Executable(); err == nil {
		if path := boardNear(filepath.Dir(self)); path != "" {
			return path
		}
	}
	return boardName
}

const boardName = "fentdolmen-board"

// boardNear is the first board that is there for a program in this folder, or nothing.
func boardNear(folder string) string {
	for _, it := range []string{boardName, "am_dispatch", "../lib/fentdolmen/am-dispatch"} {
		path := filepath.Join(folder, it)
		if _, err := os.Stat(path); err == nil {
			return path
		}
	}
	return ""
}
