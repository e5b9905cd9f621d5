// What the board answers: its views of groups, flushes and the log.
package main

import "github.com/prometheus/common/model"

// opened has the names of the routes: the root first, and each before those below it.
type opened struct {
	Routes []string `json:"routes"`
}

type groupID struct {
	Route  string         `json:"route"`
	Labels model.LabelSet `json:"labels"`
}

type boardAlert struct {
	Labels model.LabelSet `json:"labels"`
	Starts int64          `json:"starts"`
	Ends   *int64         `json:"ends"`
}

// notice is what an integration is to be sent. With nothing in it the success is that there is nothing to send.
type notice struct {
	Integration int          `json:"integration"`
	Kind        string       `json:"kind"`
	Firing      []boardAlert `json:"firing"`
	Resolved    []boardAlert `json:"resolved"`
}

// empty returns whether there is nothing to send.
func (n notice) empty() bool { return len(n.Firing)+len(n.Resolved) == 0 }

type flush struct {
	Ticket   int64    `json:"ticket"`
	Group    groupID  `json:"group"`
	Receiver string   `json:"receiver"`
	Deadline int64    `json:"deadline"`
	Notices  []notice `json:"notices"`
}

// row is one of the notification log in the board's terms and times.
type row struct {
	Group       groupID          `json:"group"`
	Receiver    string           `json:"receiver"`
	Integration int              `json:"integration"`
	Kind        string           `json:"kind"`
	Moment      int64            `json:"moment"`
	Expiry      int64            `json:"expiry"`
	Firing      []model.LabelSet `json:"firing"`
	Resolved    []model.LabelSet `json:"resolved"`
}

// noted has the row that a note logged.
type noted struct {
	Row *row `json:"row"`
}

// finished has the rows that a finish logged.
type finished struct {
	Rows []row `json:"rows"`
}

type boardGroup struct {
	Group   groupID      `json:"group"`
	Due     int64        `json:"due"`
	Flushed bool         `json:"flushed"`
	Alerts  []boardAlert `json:"alerts"`
}

// status is what mutes a label set: each silence by its number, and each rule by the alert because of which it does.
type status struct {
	Muted []muteCause `json:"muted"`
}

type muteCause struct {
	Cause string         `json:"cause"`
	ID    int64          `json:"id"`
	By    model.LabelSet `json:"by"`
}

type nextDue struct {
	At *int64 `json:"at"`
}

type summary struct {
	Calls   int64 `json:"calls"`
	Groups  int64 `json:"groups"`
	Alerts  int64 `json:"alerts"`
	Flushes int64 `json:"flushes"`
	Entries int64 `json:"entries"`
}
