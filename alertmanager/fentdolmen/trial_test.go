package main

import (
	"io"
	"net/http"
	"net/http/httptest"
	"strings"
	"testing"
)

func TestSilencesAreTriedFirst(t *testing.T) {
	refused := 0
	count := func(error) string {
		refused++
		return ""
	}
	try := &trial{program: realBoard(t), now: testClock().now, count: count}
	t.Cleanup(try.close)
	got := ""
	server := httptest.NewServer(try.trying(http.HandlerFunc(func(_ http.ResponseWriter, r *http.Request) {
		body, _ := io.ReadAll(r.Body)
		got = string(body)
	})))
	t.Cleanup(server.Close)
	for _, it := range []struct {
		path, body string
		isAccepted bool
	}{
		{"/api/v2/silences", `{"matchers":[{"name":"a","value":"b"}]}`, true},
		{"/p/api/v1/silences", `{"matchers":[{"name":"a","value":"b.*","isRegex":true,"isEqual":false}]}`, true},
		{"/api/v2/silences", `{"matchers":[{"name":"a","value":"\\pL{1000}","isRegex":true}]}`, false},
		{"/api/v1/silences", `{"matchers":[{"name":"a","value":"` + strings.Repeat("x", 20000) + `"}]}`, false},
		{"/api/v2/silences/", `{"matchers":[{"name":"a","value":"\\pL{1000}","isRegex":true}]}`, false},
		{"/api/v2/silences/./", `{"matchers":[{"name":"a","value":"\\pL{1000}","isRegex":true}]}`, false},
		{"/api/v2/silences", `{"matchers":[{"name":"a","value":"(","isRegex":true}]}`, true},
		{"/api/v1/silences", `{"matchers":[{"name":"a-b","value":"x"}]}`, true},
		{"/api/v2/silences", `not JSON`, true}, {"/api/v2/silences", `{"matchers":[]}`, true},
	} {
		got = ""
		answer, err := http.Post(server.URL+it.path, "application/json", strings.NewReader(it.body))
		if err != nil {
			t.Fatal(err)
		}
		answer.Body.Close()
		if (got == it.body) != it.isAccepted || (answer.StatusCode == http.StatusBadRequest) == it.isAccepted {
			t.Errorf("%.60s is answered %d", it.body, answer.StatusCode)
		}
	}
	if refused != 4 {
		t.Errorf("%d refusals are counted", refused)
	}
}

func TestATrialThatEndsRejects(t *testing.T) {
	try := &trial{program: fake(t, "silent"), now: testClock().now}
	for i := 0; i < 2; i++ {
		if err := try.try([]matcher{{"a", "=", "b"}}); err == nil {
			t.Error("no error")
		}
	}
}
