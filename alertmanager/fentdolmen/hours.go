// Time intervals: the board is given them with the files of their zones, for a year from now on. What it knows of a configuration never
// changes, so more is a board in place of this one, as after a reload.
package main

import (
	"encoding/base64"
	"encoding/json"
	"fmt"
	"os"
	"path/filepath"
	"strings"
	"time"

	"github.com/go-kit/log/level"

	"github.com/prometheus/alertmanager/config"
	"github.com/prometheus/alertmanager/dispatch"
	"github.com/prometheus/alertmanager/timeinterval"
)

// horizon is for how long a board is given time intervals. After half of it, or once the wall clock is a second away from what the board
// was given, another is opened.
const horizon, mostAway = 366 * 24 * time.Hour, 1000

// localZone is the board's name for the zone of the machine, which Alertmanager's is Local.
const localZone = "localtime"

// hours are time intervals that a board was given: by which offset of the clock, and when it needs others.
type hours struct{ offset, until int64 }

// areOver returns whether a board needs others. Without time intervals it never does.
func (h *hours) areOver(c *clock) bool {
	if h == nil {
		return false
	}
	away := c.offset() - h.offset
	return away > mostAway || -away > mostAway || c.now() >= h.until
}

// opening is the call that opens the board of a plan, with its time intervals if it has some.
func opening(p *plan, c *clock) (call, *hours, error) {
	if p.locations == nil {
		opens, err := configCall(p.value)
		return opens, nil, err
	}
	now, offset := c.now(), c.offset()
	zones, err := zoneFiles(p.locations)
	if err != nil {
		return call{}, nil, err
	}
	opens, err := openCall(object{
		"now": now, "start": time.UnixMilli(-offset).UTC().Format("2006-01-02T15:04:05.000Z"), "horizon": horizon.Milliseconds(),
		"zones": zones, "alertmanager": p.value,
	})
	return opens, &hours{offset, now + horizon.Milliseconds()/2}, err
}

// renew opens another board for a session that needs other time intervals.
func (d *dispatcher) renew(s *session) {
	if !s.hours.areOver(d.clock) {
		return
	}
	d.loading.Lock()
	defer d.loading.Unlock()
	if d.session() != s {
		return
	}
	level.Info(d.logger).Log("msg", "a new board is given the time intervals from now on")
	if err := d.replace(s, s.plan); err != nil {
		d.count(err)
		level.Error(d.logger).Log("msg", "the board keeps its time intervals, and is given others in a minute", "err", err)
		s.hours = &hours{d.clock.offset(), d.clock.now() + time.Minute.Milliseconds()}
	}
}

// usedIntervals are the names of time intervals that routes list.
func usedIntervals(root *dispatch.Route) map[string]bool {
	used := map[string]bool{}
	root.Walk(func(r *dispatch.Route) {
		for _, name := range append(append([]string{}, r.RouteOpts.MuteTimeIntervals...), r.RouteOpts.ActiveTimeIntervals...) {
			used[name] = true
		}
	})
	return used
}

// setIntervals gives the plan the time intervals that its routes list: their values, and the zones that these name.
func (p *plan) setIntervals(conf *config.Config) error {
	used, values := usedIntervals(p.root), []object{}
	if len(used) == 0 {
		return nil
	}
	p.locations = map[string]bool{}
	all := append([]config.TimeInterval{}, conf.TimeIntervals...)
	for _, it := range conf.MuteTimeIntervals {
		all = append(all, config.TimeInterval(it))
	}
	for _, it := range all {
		if !used[it.Name] {
			continue
		}
		list := []object{}
		for _, interval := range it.TimeIntervals {
			value, err := boardInterval(interval)
			if err != nil {
				return err
			}
			if name, ok := value["location"].(string); ok {
				p.locations[name] = true
			}
			list = append(list, value)
		}
		values = append(values, object{"name": it.Name, "time_intervals": list})
	}
	p.value["time_intervals"] = values
	return nil
}

// boardInterval is the value of an interval, in Alertmanager's own form of JSON.
func boardInterval(interval timeinterval.TimeInterval) (value object, err error) {
	text, err := json.Marshal(interval)
	if err != nil {
		return nil, err
	}
	err = json.Unmarshal(text, &value)
	if value["location"] == "Local" {
		value["location"] = localZone
	}
	return value, err
}

// zoneFiles are the files of zones, in base64. UTC needs none.
func zoneFiles(names map[string]bool) (map[string]string, error) {
	files := map[string]string{}
	for name := range names {
		if name == "" || name == "UTC" {
			continue
		}
		file, err := zoneFile(name)
		if err != nil {
			return nil, fmt.Errorf("the time zone %q: %w", name, err)
		}
		files[name] = base64.StdEncoding.EncodeToString(file)
	}
	return files, nil
}

// zoneFile is the file of a zone, from where Go looks for it.
func zoneFile(name string) (file []byte, err error) {
	if name == localZone {
		if name = strings.TrimPrefix(os.Getenv("TZ"), ":"); name == "" {
			return os.ReadFile("/etc/localtime")
		}
		if filepath.IsAbs(name) {
			return os.ReadFile(name)
		}
	}
	for _, folder := range []string{os.Getenv("ZONEINFO"), "/usr/share/zoneinfo", "/usr/share/lib/zoneinfo", "/usr/lib/locale/TZ"} {
		if file, err = os.ReadFile(filepath.Join(folder, name)); err == nil && folder != "" {
			return file, nil
		}
	}
	return nil, err
}
