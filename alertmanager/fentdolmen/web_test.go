package main

import (
	"bytes"
	"fmt"
	"io"
	"net"
	"net/http"
	"net/http/httptest"
	"strings"
	"testing"

	"github.com/go-kit/log"
	"github.com/go-kit/log/level"
	"github.com/prometheus/client_golang/prometheus"
	"github.com/prometheus/common/model"

	"github.com/prometheus/alertmanager/api"
	"github.com/prometheus/alertmanager/types"
)

// served is the whole web of a dispatcher.
func served(t *testing.T, d *dispatcher) *http.Server {
	o, err := readOptions([]string{"--web.route-prefix=/", "--web.ui-path=" + t.TempDir()})
	if err != nil {
		t.Fatal(err)
	}
	o.prefix = "/"
	a, err := api.New(api.Options{Alerts: dispatched{d.alerts, d}, Silences: d.silences, Registry: prometheus.NewRegistry(), GroupFunc: d.Groups,
		StatusFunc: func(model.Fingerprint) types.AlertStatus { return types.AlertStatus{} }})
	if err != nil {
		t.Fatal(err)
	}
	file, _ := openedFile(t, t.TempDir()+"/log")
	try := &trial{program: d.program, now: d.clock.now, count: d.count}
	t.Cleanup(try.close)
	return newServer(a, o, d.metrics, make(chan chan error), readiness(d, file, newSilenceSaver(d.silences, t.TempDir()+"/silences", log.NewNopLogger(), func() {})), try, log.NewNopLogger())
}

// answer is the status and the text that a request gets.
func answer(t *testing.T, web *http.Server, method, path string, body io.Reader) (int, string) {
	request := httptest.NewRequest(method, path, body)
	request.Header.Set("Content-Type", "application/json")
	got := httptest.NewRecorder()
	web.Handler.ServeHTTP(got, request)
	return got.Code, got.Body.String()
}

func TestARequestThatTheAPIPanicsAtIsAnswered(t *testing.T) {
	web := served(t, testDispatcher(t, fake(t, "usual"), oneReceiver))
	if status, text := answer(t, web, "POST", "/api/v2/alerts", strings.NewReader("[null]")); status != http.StatusInternalServerError {
		t.Errorf("%d %s", status, text)
	}
	if status, text := answer(t, web, "GET", "/-/ready", nil); status != http.StatusOK || text != "OK" {
		t.Errorf("%d %s", status, text)
	}
}

// TestAClientThatIsGoneIsNoFault: its connection is given up, and nothing is logged.
func TestAClientThatIsGoneIsNoFault(t *testing.T) {
	var logged bytes.Buffer
	web := recovering(http.HandlerFunc(func(http.ResponseWriter, *http.Request) {
		panic(fmt.Errorf("sent: %w", &net.OpError{Op: "write", Err: io.EOF}))
	}),
		level.NewFilter(log.NewLogfmtLogger(&logged), level.AllowInfo()))
	defer func() {
		if fault := recover(); fault != http.ErrAbortHandler || logged.Len() > 0 {
			t.Errorf("%v, and logged is %q", fault, logged.String())
		}
	}()
	web.ServeHTTP(httptest.NewRecorder(), httptest.NewRequest("GET", "/", nil))
}

// spaces is a body of twice the greatest length.
type spaces struct{ read int }

func (s *spaces) Read(p []byte) (int, error) {
	if s.read > 2*mostBody {
		return 0, io.EOF
	}
	for i := range p {
		p[i] = ' '
	}
	s.read += len(p)
	return len(p), nil
}

func TestRequestsHaveBounds(t *testing.T) {
	web := served(t, testDispatcher(t, fake(t, "usual"), oneReceiver))
	for _, path := range []string{"/api/v1/alerts", "/api/v2/alerts", "/api/v1/silences", "/api/v2/silences"} {
		body := &spaces{}
		if status, text := answer(t, web, "POST", path, body); status < 400 || body.read > 2*mostBody {
			t.Errorf("%s: %d %.100s, after %d bytes", path, status, text, body.read)
		}
	}
	if web.ReadHeaderTimeout <= 0 || web.ReadTimeout <= 0 || web.WriteTimeout <= web.ReadTimeout {
		t.Error("a request can take any time")
	}
}

func TestReadiness(t *testing.T) {
	d := testDispatcher(t, fake(t, "usual"), oneReceiver)
	file, _ := openedFile(t, t.TempDir()+"/log")
	silences := newSilenceSaver(d.silences, t.TempDir()+"/silences", log.NewNopLogger(), func() {})
	ready := readiness(d, file, silences)
	file.failed(io.ErrShortWrite)
	if status, text := ready(); status != http.StatusOK || !strings.Contains(text, "notification log not saved") || strings.Contains(text, "silences") {
		t.Errorf("%d %s", status, text)
	}
	silences.fail(io.ErrShortWrite)
	if status, text := ready(); status != http.StatusOK || !strings.Contains(text, "\nsilences not saved") {
		t.Errorf("%d %s", status, text)
	}
	if file.mend(); !silences.mend() {
		t.Error("a fault isn't known")
	}
	if status, text := ready(); status != http.StatusOK || text != "OK" {
		t.Errorf("%d %s", status, text)
	}
	d.down = errClosed
	if status, text := ready(); status != http.StatusServiceUnavailable || !strings.Contains(text, "no board") {
		t.Errorf("%d %s", status, text)
	}
	d.down = nil
}
