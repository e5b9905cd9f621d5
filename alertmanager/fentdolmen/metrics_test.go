package main

import (
	"testing"

	"github.com/prometheus/client_golang/prometheus"
	"github.com/prometheus/client_golang/prometheus/testutil"
)

// What is to be alerted on is there before the first refusal, with the names that a refusal has.
func TestRefusalsAreShownBeforeTheFirst(t *testing.T) {
	reg := prometheus.NewRegistry()
	m := newMetrics(reg)
	before, err := testutil.GatherAndCount(reg, "fentdolmen_refused_total")
	if err != nil || before == 0 {
		t.Fatalf("%d series, %v", before, err)
	}
	for _, it := range []refusal{{Call: "insert", Kind: tooManyNames}, {Call: silenceCall(0, nil, 0, 1).name, Kind: badValue}, {Call: beginCall().name, Kind: historyFull}} {
		m.refused.WithLabelValues(it.Call, it.Kind).Inc()
	}
	if after, _ := testutil.GatherAndCount(reg, "fentdolmen_refused_total"); after != before {
		t.Errorf("%d series, and then %d", before, after)
	}
}
