// Is put next to the sources of Alertmanager's package dispatch while `tools/peer-bench` is built: the calls
// that its loops make, for a caller that times them.
package dispatch

import (
	"context"
	"time"

	"github.com/prometheus/alertmanager/notify"
	"github.com/prometheus/alertmanager/types"
	"github.com/prometheus/common/model"
)

// Start makes the dispatcher ready, without its loop.
func (d *Dispatcher) Start() {
	d.aggrGroupsPerRoute = map[*Route]map[model.Fingerprint]*aggrGroup{}
	d.ctx, d.cancel = context.WithCancel(context.Background())
}

// Insert does what the dispatcher's loop does with an alert.
func (d *Dispatcher) Insert(alert *types.Alert) {
	for _, route := range d.route.Match(alert.Labels) {
		d.processAlert(alert, route)
	}
}

// Flush does with each group what its loop does when its timer fires.
func (d *Dispatcher) Flush(now time.Time) {
	for _, groups := range d.aggrGroupsPerRoute {
		for _, ag := range groups {
			d.flushGroup(ag, now)
		}
	}
}

func (d *Dispatcher) flushGroup(ag *aggrGroup, now time.Time) {
	ctx, cancel := context.WithTimeout(ag.ctx, ag.timeout(ag.opts.GroupInterval))
	defer cancel()
	ctx = notify.WithNow(ctx, now)
	ctx = notify.WithGroupKey(ctx, ag.GroupKey())
	ctx = notify.WithGroupLabels(ctx, ag.labels)
	ctx = notify.WithReceiverName(ctx, ag.opts.Receiver)
	ctx = notify.WithRepeatInterval(ctx, ag.opts.RepeatInterval)
	ctx = notify.WithMuteTimeIntervals(ctx, ag.opts.MuteTimeIntervals)
	ctx = notify.WithActiveTimeIntervals(ctx, ag.opts.ActiveTimeIntervals)
	ag.mtx.Lock()
	ag.next.Reset(ag.opts.GroupInterval)
	ag.hasFlushed = true
	ag.mtx.Unlock()
	ag.flush(func(alerts ...*types.Alert) bool {
		_, _, err := d.stage.Exec(ctx, d.logger, alerts...)
		return err == nil
	})
}
