// The notification log in a cluster: peers gossip rows in Alertmanager's terms. Only peers of this program understand them.
package main

import (
	"bytes"
	"context"
	"time"

	"github.com/go-kit/log"
	"github.com/go-kit/log/level"
	"github.com/prometheus/common/model"

	"github.com/prometheus/alertmanager/cluster"
	"github.com/prometheus/alertmanager/notify"
	"github.com/prometheus/alertmanager/types"
)

// peers has what a cluster is asked. The zero value is an instance alone.
type peers struct {
	peer    *cluster.Peer
	timeout time.Duration
	channel cluster.ClusterChannel
}

// turn is how long the peers before this one may take to send the same.
func (p *peers) turn() time.Duration {
	if p.peer == nil {
		return 0
	}
	return time.Duration(p.peer.Position()) * p.timeout
}

// waitForPeers waits until the cluster has settled, and for this one's turn.
func (p *peers) waitForPeers(ctx context.Context, turn time.Duration, logger log.Logger) error {
	if p.peer == nil {
		return nil
	}
	stages := notify.MultiStage{notify.NewGossipSettleStage(p.peer), notify.NewWaitStage(func() time.Duration { return turn })}
	_, _, err := stages.Exec(ctx, logger, &types.Alert{}) // (without an alert no stage is run)
	return err
}

// broadcast sends a row to the peers, if there are any.
func (p *peers) broadcast(line []byte) {
	if p.channel != nil {
		p.channel.Broadcast(line)
	}
}

// gossiped is the notification log as the cluster's state.
type gossiped struct{ d *dispatcher }

// MarshalBinary is the whole log, for a peer that joins.
func (g gossiped) MarshalBinary() ([]byte, error) {
	lines, _ := g.d.book.lines(0)
	return bytes.Join(lines, nil), nil
}

// Merge takes rows of a peer over: the later one of each is kept. The board gets them without a wait: what it hears later comes after them.
func (g gossiped) Merge(message []byte) error {
	rows, bad := decodeRows(bytes.Split(bytes.TrimSuffix(message, []byte("\n")), []byte("\n")))
	if bad > 0 && len(message) > 0 {
		level.Error(g.d.logger).Log("msg", "a peer sent rows that can't be read", "rows", bad)
	}
	var lines [][]byte
	for _, k := range rows {
		if g.d.book.merge(k, g.d.clock.now()) {
			lines = append(lines, lineOf(k))
		}
	}
	if !cluster.OversizedMessage(message) { // (a larger one is sent to all peers at once)
		for _, line := range lines {
			g.d.cluster.broadcast(line)
		}
	}
	if s := g.d.session(); s != nil {
		for _, t := range g.d.submitRows(s, lines) {
			go g.d.checkAll(s, t, "row of a peer not taken over")
		}
	}
	return nil
}

// isSentByPeer reports whether a peer has sent this since the flush began. The board decided at `begin`, and Alertmanager decides after
// the wait for the peers.
func (d *dispatcher) isSentByPeer(f *sending, n notice) bool {
	k, ok := f.session.keep(row{Group: f.Group, Integration: n.Integration}, 0)
	if !ok {
		return false
	}
	last, ok := d.book.heardSince(k.id(), f.begun)
	return ok && covers(last.Firing, n.Firing) && covers(last.Resolved, n.Resolved)
}

// covers reports whether all of these alerts are among the label sets.
func covers(has []model.LabelSet, wanted []boardAlert) bool {
	set := map[model.Fingerprint]bool{}
	for _, labels := range has {
		set[labels.Fingerprint()] = true
	}
	for _, a := range wanted {
		if !set[a.Labels.Fingerprint()] {
			return false
		}
	}
	return true
}
