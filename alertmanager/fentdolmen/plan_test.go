package main

import (
	"fmt"
	"math/rand"
	"reflect"
	"sort"
	"strings"
	"testing"
	"time"

	"github.com/prometheus/common/model"

	"github.com/prometheus/alertmanager/config"
)

const manyRoutes = `
route:
  receiver: team
  group_by: [alertname]
  routes:
  - {receiver: team, matchers: [a="1"], continue: true, routes: [{matchers: [b="1"]}, {receiver: "päger 2", matchers: [b="2"]}]}
  - {receiver: team, matchers: [a="1"], group_by: [a, b], continue: true}
  - {receiver: only, matchers: ['b=~"1|2"'], continue: true}
  - {receiver: "päger 2", matchers: [c!="1", a="2"], group_by: ['...']}
  - {receiver: "pager_2", matchers: [c="1"]}
receivers:
- {name: unused}
- {name: team, webhook_configs: [{url: 'http://127.0.0.1:9/'}, {url: 'http://127.0.0.1:9/'}], email_configs: [{to: a@b, from: c@d, smarthost: 'e:25', hello: f}]}
- {name: "päger 2", webhook_configs: [{url: 'http://127.0.0.1:9/'}]}
- {name: only, webhook_configs: [{url: 'http://127.0.0.1:9/', send_resolved: false}]}
- {name: pager_2}
`

// TestNamesAreTheBoards compares, for many alerts, the groups of the board with those of Alertmanager's own routes.
func TestNamesAreTheBoards(t *testing.T) {
	d := testDispatcher(t, realBoard(t), manyRoutes)
	wanted, random := map[string]bool{}, rand.New(rand.NewSource(1))
	for i := 0; i < 300; i++ {
		text := fmt.Sprintf("alertname=%d", i%3)
		for _, name := range []string{"a", "b", "c"} {
			if value := random.Intn(4); value > 0 {
				text += fmt.Sprintf(",%s=%d", name, value)
			}
		}
		a := alert(text)
		if err := (dispatched{d.alerts, d}).Put(a); err != nil {
			t.Fatal(err)
		}
		for _, route := range d.current.root.Match(a.Labels) {
			labels := model.LabelSet{}
			for name, value := range a.Labels {
				if _, ok := route.RouteOpts.GroupBy[name]; ok || route.RouteOpts.GroupByAll {
					labels[name] = value
				}
			}
			wanted[fmt.Sprintf("%p %s %s", route, route.RouteOpts.Receiver, labels)] = true
		}
	}
	var found []boardGroup
	if err := d.current.board.ask(groupsCall(), &found); err != nil {
		t.Fatal(err)
	}
	got := map[string]bool{}
	for _, g := range found {
		route := d.current.routes[g.Group.Route]
		if route == nil {
			t.Fatalf("no route is named %q", g.Group.Route)
		}
		got[fmt.Sprintf("%p %s %s", route, route.RouteOpts.Receiver, g.Group.Labels)] = true
	}
	if !reflect.DeepEqual(got, wanted) {
		t.Errorf("the board has %v\nAlertmanager's routes give %v", names(got), names(wanted))
	}
}

func names(set map[string]bool) (out []string) {
	for it := range set {
		out = append(out, it)
	}
	sort.Strings(out)
	return out
}

func TestRowsThereAndBack(t *testing.T) {
	p := testDispatcher(t, fake(t, "usual"), manyRoutes).session()
	labels := model.LabelSet{"alertname": "A"}
	for name, route := range p.routes {
		receiver := route.RouteOpts.Receiver
		for position, i := range p.integrations[receiver] {
			r := row{groupID{name, labels}, p.receivers[receiver], position, i.Name(), 1000, 9000, []model.LabelSet{labels}, []model.LabelSet{}}
			kept, ok := p.keep(r, 400)
			if !ok {
				t.Fatalf("%v isn't kept", r)
			}
			rows, bad := decodeRows([][]byte{lineOf(kept)})
			if bad > 0 {
				t.Fatalf("%v can't be read", kept)
			}
			isThere := false
			for _, it := range p.place(rows[0], 5000, 400) {
				isThere = isThere || reflect.DeepEqual(it, r)
			}
			if !isThere {
				t.Errorf("%v is placed at %v", r, p.place(rows[0], 5000, 400))
			}
		}
	}
}

// TestRoutesOfOneKeyShareRows: so it is in Alertmanager, where two routes of one receiver with equal matchers have one entry.
func TestRoutesOfOneKeyShareRows(t *testing.T) {
	p := testDispatcher(t, fake(t, "usual"), "route: {receiver: team, routes: [{matchers: [a=b], continue: true}, {matchers: [a=b]}]}\n"+
		"receivers: [{name: team, webhook_configs: [{url: 'http://127.0.0.1:9/'}]}]").session()
	k, _ := p.keep(row{Group: groupID{Route: "route 1"}, Moment: 10, Expiry: 20}, 0)
	if rows := p.place(k, 15, 0); len(rows) != 2 || rows[0].Group.Route == rows[1].Group.Route {
		t.Errorf("%v", rows)
	}
	k.Receiver = "other"
	if rows := p.place(k, 15, 0); len(rows) != 0 {
		t.Errorf("%v", rows)
	}
}

// TestRowsOfTheFuture: after the wall clock was set back, a row counts from now, with as long until its expiry.
func TestRowsOfTheFuture(t *testing.T) {
	p := testDispatcher(t, fake(t, "usual"), oneReceiver).session()
	k, _ := p.keep(row{Group: groupID{Route: "route 0"}, Moment: 5000, Expiry: 9000}, 0)
	if rows := p.place(k, 2000, 0); len(rows) != 1 || rows[0].Moment != 2000 || rows[0].Expiry != 6000 {
		t.Errorf("%v", rows)
	}
}

// TestRowsReachTheBoard has a row loaded by a new board, and its alert not sent again.
func TestRowsReachTheBoard(t *testing.T) {
	d := testDispatcher(t, realBoard(t), oneReceiver)
	a := alert("alertname=A")
	a.StartsAt = time.Now().Add(-time.Hour)
	now := d.clock.now()
	k, _ := d.session().keep(row{groupID{"root", a.Labels}, "", 0, "webhook", now - 60000, now + 60000, []model.LabelSet{a.Labels}, nil}, 0)
	d.book.put(k, 0)
	if err := (dispatched{d.alerts, d}).Put(a); err != nil {
		t.Fatal(err)
	}
	p := d.session().plan
	if err := d.load(p); err != nil {
		t.Fatal(err)
	}
	line, err := d.session().board.submit(beginCall()).wait()
	if err != nil || !strings.HasPrefix(string(line[0]), `{"quiet"`) {
		t.Errorf("%s, %v", line, err)
	}
}

// TestEachKindOfIntegrationHasARow counts the lists of a receiver's configuration.
func TestEachKindOfIntegrationHasARow(t *testing.T) {
	receiver, lists := reflect.TypeOf(config.Receiver{}), 0
	for i := 0; i < receiver.NumField(); i++ {
		if strings.HasSuffix(receiver.Field(i).Name, "Configs") {
			lists++
		}
	}
	if lists != len(kinds) {
		t.Errorf("%d kinds, and the table has %d", lists, len(kinds))
	}
}

// TestABoardThatDoesntNameRoutes isn't taken.
func TestABoardThatDoesntNameRoutes(t *testing.T) {
	d := testDispatcher(t, fake(t, "usual"), manyRoutes)
	first := d.session()
	t.Setenv("FAKE_BOARD", "unnamed")
	if err := d.load(first.plan); err == nil || d.session() != first {
		t.Error("it is taken: ", err)
	}
}
