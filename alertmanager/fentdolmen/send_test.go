package main

import (
	"testing"
	"time"

	"github.com/prometheus/common/model"
)

// TestAlertsOfANotice: one that fires has no end, and one that was inserted again since has the end that the board decided by.
func TestAlertsOfANotice(t *testing.T) {
	d := testDispatcher(t, realBoard(t), oneReceiver)
	fires, over, again := alert("alertname=fires"), alert("alertname=over"), alert("alertname=again")
	over.EndsAt = over.StartsAt.Add(time.Minute + 345*time.Microsecond)
	fires.Annotations = model.LabelSet{"summary": "x"}
	d.known[fires.Fingerprint()], d.known[over.Fingerprint()], d.known[again.Fingerprint()] = fires, over, again
	end, earlier := over.EndsAt.UnixMilli(), again.StartsAt.Add(time.Second).UnixMilli()
	got := d.alertsOf(notice{Firing: []boardAlert{{Labels: fires.Labels}, {Labels: model.LabelSet{"alertname": "unknown"}, Starts: 5000}},
		Resolved: []boardAlert{{Labels: over.Labels, Ends: &end}, {Labels: again.Labels, Ends: &earlier}}})
	ends := map[model.LabelValue]time.Time{}
	for _, a := range got {
		ends[a.Labels["alertname"]] = a.EndsAt
	}
	wanted := map[model.LabelValue]time.Time{"fires": {}, "unknown": {}, "over": over.EndsAt, "again": time.UnixMilli(earlier)}
	for name, end := range wanted {
		if !ends[name].Equal(end) {
			t.Errorf("%s ends at %v, not %v", name, ends[name], end)
		}
	}
	if fires.EndsAt.IsZero() || got[0].Labels["alertname"] == "" {
		t.Error("the alert itself was changed")
	}
}
