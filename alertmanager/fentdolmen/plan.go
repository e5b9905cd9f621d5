// A configuration for the board: its value, and the board's names of receivers and routes.
package main

import (
	"fmt"
	"sort"
	"strings"

	"github.com/prometheus/common/model"

	"github.com/prometheus/alertmanager/config"
	"github.com/prometheus/alertmanager/dispatch"
	"github.com/prometheus/alertmanager/inhibit"
	"github.com/prometheus/alertmanager/notify"
	"github.com/prometheus/alertmanager/pkg/labels"
)

type object = map[string]interface{}

// plan is a configuration with all that the dispatcher needs of it. It never changes.
type plan struct {
	root *dispatch.Route
	// integrations are by receiver, in the order of positions. receivers are the board's names for Alertmanager's.
	integrations map[string][]notify.Integration
	receivers    map[string]string
	// value is what the board is given, and locations are the zones that its time intervals name: nil if no route is muted by time.
	value     object
	locations map[string]bool
}

// routeNames are the board's names of routes, there and back. Several routes can share Alertmanager's key and receiver.
type routeNames struct {
	routes map[string]*dispatch.Route
	names  map[routeID][]string
	ids    map[*dispatch.Route]routeID // (a key is put together from all matchers above a route: each is computed once)
}

type routeID struct{ key, receiver string }

// nameRoutes takes the names that a board answered when it was opened: the root first, and each route before those below it.
func nameRoutes(root *dispatch.Route, answered []string) (routeNames, error) {
	out := routeNames{map[string]*dispatch.Route{}, map[routeID][]string{}, map[*dispatch.Route]routeID{}}
	count := 0
	root.Walk(func(r *dispatch.Route) {
		if count < len(answered) {
			name, id := answered[count], routeID{r.Key(), r.RouteOpts.Receiver}
			out.routes[name] = r
			out.names[id] = append(out.names[id], name)
			out.ids[r] = id
		}
		count++
	})
	if count != len(answered) || count != len(out.routes) {
		return out, fmt.Errorf("the board answers %d names for %d routes: %q", len(answered), count, answered)
	}
	return out, nil
}

// usedReceivers are the receivers that a route names: no other is built.
func usedReceivers(root *dispatch.Route) map[string]bool {
	used := map[string]bool{}
	root.Walk(func(r *dispatch.Route) { used[r.RouteOpts.Receiver] = true })
	return used
}

// newPlan makes the plan of a configuration, whose receivers have these integrations.
func newPlan(conf *config.Config, integrations map[string][]notify.Integration) (*plan, error) {
	p := &plan{root: dispatch.NewRoute(conf.Route, nil), integrations: integrations, receivers: map[string]string{}}
	receivers := p.boardReceivers(conf)
	p.value = object{"receivers": receivers, "route": p.boardRoute(p.root), "inhibit_rules": boardRules(conf)}
	return p, p.setIntervals(conf)
}

// boardReceivers names the receivers for the board: it rejects longer names, and makes those of routes from them.
func (p *plan) boardReceivers(conf *config.Config) []object {
	var out []object
	for _, r := range conf.Receivers {
		list, isUsed := p.integrations[r.Name]
		if !isUsed {
			continue
		}
		name := fmt.Sprintf("r%d_%.40s", len(out), plain(r.Name))
		p.receivers[r.Name] = name
		value := object{"name": name}
		for i := range list {
			kind := list[i].Name() + "_configs"
			items, _ := value[kind].([]object)
			value[kind] = append(items, object{"send_resolved": list[i].SendResolved()})
		}
		out = append(out, value)
	}
	return out
}

// plain replaces all but letters and digits of ASCII by `_`.
func plain(s string) string {
	return strings.Map(func(r rune) rune {
		if r >= '0' && r <= '9' || r >= 'a' && r <= 'z' || r >= 'A' && r <= 'Z' {
			return r
		}
		return '_'
	}, s)
}

// boardRoute is the value of a route.
func (p *plan) boardRoute(r *dispatch.Route) object {
	opts := r.RouteOpts
	value := object{
		"receiver": p.receivers[opts.Receiver], "group_by": groupBy(opts),
		"group_wait":      model.Duration(opts.GroupWait).String(),
		"group_interval":  model.Duration(opts.GroupInterval).String(),
		"repeat_interval": model.Duration(opts.RepeatInterval).String(),
	}
	if r != p.root {
		value["matchers"], value["continue"] = texts(r.Matchers), r.Continue
	}
	if opts.MuteTimeIntervals != nil {
		value["mute_time_intervals"] = opts.MuteTimeIntervals
	}
	if opts.ActiveTimeIntervals != nil {
		value["active_time_intervals"] = opts.ActiveTimeIntervals
	}
	var below []object
	for _, child := range r.Routes {
		below = append(below, p.boardRoute(child))
	}
	if below != nil {
		value["routes"] = below
	}
	return value
}

// groupBy is the names by which a route groups, or `...` for all.
func groupBy(opts dispatch.RouteOpts) []string {
	if opts.GroupByAll {
		return []string{"..."}
	}
	return sorted(opts.GroupBy)
}

// sorted is the names of a set, in order.
func sorted(names map[model.LabelName]struct{}) []string {
	out := make([]string, 0, len(names))
	for name := range names {
		out = append(out, string(name))
	}
	sort.Strings(out)
	return out
}

// texts is matchers as texts, as the board reads them.
func texts(matchers labels.Matchers) []string {
	out := make([]string, 0, len(matchers))
	for _, m := range matchers {
		out = append(out, m.String())
	}
	return out
}

// boardRules is the inhibition rules as Alertmanager parsed them, also those in the old form.
func boardRules(conf *config.Config) []object {
	out := make([]object, 0, len(conf.InhibitRules))
	for _, it := range conf.InhibitRules {
		r := inhibit.NewInhibitRule(it)
		out = append(out, object{"source_matchers": texts(r.SourceMatchers), "target_matchers": texts(r.TargetMatchers), "equal": sorted(r.Equal)})
	}
	return out
}
