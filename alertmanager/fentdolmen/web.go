// The web: Alertmanager's API and user interface, with a readiness that says what is wrong.
package main

import (
	"errors"
	"fmt"
	"net"
	"net/http"
	"net/url"
	"os"
	"runtime/debug"
	"strings"
	"time"

	"github.com/go-kit/log"
	"github.com/go-kit/log/level"
	"github.com/prometheus/client_golang/prometheus"
	"github.com/prometheus/client_golang/prometheus/promhttp"
	"github.com/prometheus/common/route"

	"github.com/prometheus/alertmanager/api"
	"github.com/prometheus/alertmanager/ui"
)

const (
	// The header and the whole of a request have to be here in time, and a body has an end. Its answer has to be read in time: Alertmanager
	// answers some GET requests at once, and no others while clients don't read.
	headerWithin, requestWithin, answerWithin = time.Minute, 5 * time.Minute, 6 * time.Minute
	mostBody                                  = 64 << 20
)

// newServer serves the API and the user interface below a prefix.
func newServer(a *api.API, o *options, m *metrics, reload chan chan error, ready func() (int, string), t *trial, logger log.Logger) *http.Server {
	router := route.New().WithInstrumentation(func(name string, h http.HandlerFunc) http.HandlerFunc {
		labels := prometheus.Labels{"handler": name}
		return promhttp.InstrumentHandlerDuration(m.requests.MustCurryWith(labels),
			promhttp.InstrumentHandlerResponseSize(m.sizes.MustCurryWith(labels), h))
	})
	if o.prefix != "/" {
		router.Get("/", func(w http.ResponseWriter, r *http.Request) { http.Redirect(w, r, o.prefix, http.StatusFound) })
		router = router.WithPrefix(o.prefix)
	}
	ui.Register(router, reload, o.ui)
	pages, prefix := a.Register(router, o.prefix), strings.TrimSuffix(o.prefix, "/")
	// The API answers a few GET requests at once. What watches this program mustn't count as one of them.
	pages.Handle(prefix+"/metrics", router)
	pages.Handle(prefix+"/-/healthy", router)
	pages.HandleFunc(prefix+"/-/ready", func(w http.ResponseWriter, _ *http.Request) {
		status, text := ready()
		w.WriteHeader(status)
		fmt.Fprint(w, text)
	})
	return &http.Server{Handler: recovering(http.MaxBytesHandler(t.trying(pages), mostBody), logger), ReadHeaderTimeout: headerWithin,
		ReadTimeout: requestWithin, WriteTimeout: answerWithin}
}

// recovering answers a request that the API panics at, such as a list of alerts with a null in it.
func recovering(pages http.Handler, logger log.Logger) http.Handler {
	return http.HandlerFunc(func(w http.ResponseWriter, r *http.Request) {
		defer func() {
			fault := recover()
			if fault == http.ErrAbortHandler {
				panic(fault)
			}
			var gone *net.OpError
			if err, ok := fault.(error); ok && errors.As(err, &gone) {
				level.Debug(logger).Log("msg", "an answer can't be sent", "path", r.URL.Path, "err", err)
				panic(http.ErrAbortHandler)
			}
			if fault != nil {
				level.Error(logger).Log("msg", "a request can't be handled", "path", r.URL.Path, "fault", fault, "stack", string(debug.Stack()))
				http.Error(w, "this request can't be handled", http.StatusInternalServerError)
			}
		}()
		pages.ServeHTTP(w, r)
	})
}

// readiness is 503 without a board. A file that can't be saved is said, but pages go out: nobody may stop sending alerts for it.
func readiness(d *dispatcher, file *logFile, silences *silenceSaver) func() (int, string) {
	return func() (int, string) {
		if err := d.isDown(); err != nil {
			return http.StatusServiceUnavailable, fmt.Sprintf("no board: %v\n", err)
		}
		text := "OK"
		for _, it := range []struct {
			what string
			file *saved
		}{{"notification log", &file.saved}, {"silences", &silences.saved}} {
			if since, err := it.file.state(); err != nil {
				text += fmt.Sprintf("\n%s not saved since %s: %v", it.what, since.UTC().Format(time.RFC3339), err)
			}
		}
		return http.StatusOK, text
	}
}

// findURL is the URL under which others reach this program, without a slash at its end.
func findURL(listen, external string) (*url.URL, error) {
	if external == "" {
		host, err := os.Hostname()
		if err != nil {
			return nil, err
		}
		_, port, err := net.SplitHostPort(listen)
		if err != nil {
			return nil, err
		}
		external = "http://" + net.JoinHostPort(host, port)
	}
	found, err := url.Parse(external)
	if err != nil {
		return nil, err
	}
	if found.Scheme != "http" && found.Scheme != "https" {
		return nil, fmt.Errorf("web.external-url: %q begins with neither http:// nor https://", external)
	}
	if found.Path = strings.Trim(found.Path, "/"); found.Path != "" {
		found.Path = "/" + found.Path
	}
	return found, nil
}
