// Makes the rows of `.ci/checks/formats.py hours`, with the package `timeinterval` of Alertmanager 0.25 itself:
//
//	rows spans    intervals, and the spans of time in which they hold
//	rows texts    texts of ranges, and whether Alertmanager reads them
//
// README.md says what a row has.
package main

import (
	"bufio"
	"encoding/json"
	"fmt"
	"math/rand"
	"os"
	"strconv"
	"strings"
	"time"

	"github.com/prometheus/alertmanager/timeinterval"
	"gopkg.in/yaml.v2"
)

const (
	minute = int64(60_000)
	day    = 24 * 60 * minute
	// How far behind `until` a rehearsal looks for the end of a span.
	behind = 366 * day
	// How many rows there are for each start, and how many spans a row has at most.
	perStart = 20
	mostOf   = 40
)

// A start, and until when a rehearsal goes from there, in days.
type scene struct {
	start string
	until int64
}

// The starts: before changes of clocks in spring and autumn, the end of February with and without a leap day, and a
// start that is no whole minute.
var scenes = []scene{
	{"2026-03-01T00:00:00Z", 60},
	{"2027-10-01T05:17:23.456Z", 45},
	{"2027-12-20T13:30:00Z", 75},
	{"2030-01-25T23:59:59.999Z", 40},
	{"2038-01-05T08:00:30Z", 100},
}

// The zones, as POSIX rules: of half hours, far from UTC, with changes at midnight, in the evening, by the number of
// the day, and with clocks that are set back in summer.
var rules = []string{
	"UTC0", "CET-1CEST,M3.5.0,M10.5.0/3", "EST5EDT,M3.2.0,M11.1.0", "<-04>4<-03>,M10.1.0/0,M3.4.0/0",
	"<+1030>-10:30<+11>-11,M10.1.0,M4.1.0", "IST-5:30", "NST3:30NDT,M3.2.0,M11.1.0",
	"<+00>0<+02>-2,M3.5.0/1,M10.5.0/3", "EET-2EEST,M3.5.0/0,M10.5.0/0", "CST5CDT,M3.2.0/0,M11.1.0/1",
	"EET-2EEST,M4.5.5/0,M10.5.4/24", "XXX3YYY2,91/0,274/0", "XXX3YYY2,J60/0,J305/0", "<+14>-14", "<-12>12",
	"XXX-12YYY-14,M10.1.0/1,M4.1.0", "XXX4YYY,M12.1.0/0,M1.1.0/0",
}

var weekdays = []string{"sunday", "monday", "tuesday", "wednesday", "thursday", "friday", "saturday"}

var months = []string{
	"january", "february", "march", "april", "may", "june", "july", "august", "september", "october", "november",
	"december",
}

// The zone of a rule: Go reads it from the last line of a zone's file.
func zoneOf(rule string) (*time.Location, error) {
	body := func(version byte) []byte {
		bytes := append([]byte("TZif"), version)
		bytes = append(bytes, make([]byte, 15)...)
		bytes = append(bytes, 0, 0, 0, 0, 0, 0, 0, 0, 0, 0, 0, 0, 0, 0, 0, 0, 0, 0, 0, 1, 0, 0, 0, 4)
		return append(bytes, 0, 0, 0, 0, 0, 0, 'L', 'M', 'T', 0)
	}
	return time.LoadLocationFromTZData(rule, append(append(body('2'), body('2')...), []byte("\n"+rule+"\n")...))
}

// The fields of an interval in a configuration.
type fields map[string][]interface{}

// The interval of such fields, as Alertmanager reads them, and their JSON.
func read(given fields) (timeinterval.TimeInterval, string, error) {
	var interval timeinterval.TimeInterval
	text, err := json.Marshal(given)
	if err == nil {
		err = yaml.Unmarshal(text, &interval)
	}
	return interval, string(text), err
}

// A text in lower case, in upper case or as a title.
func cased(chance *rand.Rand, text string) string {
	switch chance.Intn(3) {
	case 0:
		return strings.ToUpper(text)
	case 1:
		return strings.ToUpper(text[:1]) + text[1:]
	}
	return text
}

// One item of a list of a kind, not always one that Alertmanager takes.
func item(chance *rand.Rand, kind string, year int) interface{} {
	first, last := "", ""
	switch kind {
	case "times":
		from, to := chance.Intn(1440), chance.Intn(1441)
		if chance.Intn(2) == 0 {
			from, to = from/60*60, (to+59)/60*60
		}
		if chance.Intn(6) == 0 {
			to = 1440
		}
		at := func(minutes int) string { return fmt.Sprintf("%02d:%02d", minutes/60, minutes%60) }
		return map[string]string{"start_time": at(from), "end_time": at(to)}
	case "weekdays":
		first, last = cased(chance, weekdays[chance.Intn(7)]), cased(chance, weekdays[chance.Intn(7)])
	case "months":
		first, last = cased(chance, months[chance.Intn(12)]), strconv.Itoa(1+chance.Intn(13))
		if chance.Intn(2) == 0 {
			first, last = strconv.Itoa(1+chance.Intn(12)), cased(chance, months[chance.Intn(12)])
		}
	case "years":
		first, last = strconv.Itoa(year-1+chance.Intn(3)), strconv.Itoa(year+chance.Intn(3))
	case "days_of_month":
		from, to := chance.Intn(63)-31, chance.Intn(63)-31
		switch chance.Intn(3) {
		case 0:
			from, to = -1-chance.Intn(4), -1-chance.Intn(3)
		case 1:
			from = 28 + chance.Intn(4)
		}
		first, last = strconv.Itoa(from), strconv.Itoa(to)
	}
	if chance.Intn(3) == 0 {
		return first
	}
	return first + ":" + last
}

// A list of a kind, most often none, and seldom one without an item.
func list(chance *rand.Rand, kind string, year int) []interface{} {
	often := map[string]int{"times": 60, "days_of_month": 45, "months": 25, "weekdays": 40, "years": 10}
	if chance.Intn(100) >= often[kind] {
		return nil
	}
	items := []interface{}{}
	if chance.Intn(60) == 0 {
		return items
	}
	for most := 1 + chance.Intn(3); len(items) < most; {
		one := item(chance, kind, year)
		if _, _, err := read(fields{kind: {one}}); err == nil {
			items = append(items, one)
		}
	}
	return items
}

// The spans in which an interval holds, up to the first that begins at `until` or later: by the clock of a zone, at the
// start and at each whole minute behind it.
func spansOf(interval timeinterval.TimeInterval, zone *time.Location, start, until int64) []string {
	interval.Location = &timeinterval.Location{Location: zone}
	found := []string{}
	from := int64(-1)
	for at := int64(0); ; at += minute - (start+at)%minute {
		ended := at >= until+behind
		holds := !ended && interval.ContainsTime(time.UnixMilli(start+at))
		if holds && from < 0 {
			from = at
		}
		if !holds && from >= 0 {
			to := at
			if ended {
				to = until + behind
			}
			found = append(found, fmt.Sprintf("%d-%d", from, to))
			if from >= until {
				return found
			}
			from = -1
		}
		if ended {
			return found
		}
	}
}

// Whether a row is worth its place: the interval begins or ends while the rehearsal goes on, and not too often.
func isTelling(spans []string, until int64) bool {
	for _, span := range spans {
		for _, end := range strings.Split(span, "-") {
			at, _ := strconv.ParseInt(end, 10, 64)
			if at > 0 && at < until {
				return len(spans) <= mostOf
			}
		}
	}
	return false
}

func printSpans(out *bufio.Writer, chance *rand.Rand) {
	for place, scene := range scenes {
		start, err := time.Parse(time.RFC3339Nano, scene.start)
		if err != nil {
			panic(err)
		}
		dull := 0
		for made := 0; made < perStart; {
			rule := rules[(place*perStart+made)%len(rules)]
			zone, err := zoneOf(rule)
			if err != nil {
				panic(err)
			}
			given := fields{}
			for _, kind := range []string{"times", "days_of_month", "months", "weekdays", "years"} {
				if items := list(chance, kind, start.Year()); items != nil {
					given[kind] = items
				}
			}
			interval, text, err := read(given)
			if err != nil {
				panic(err)
			}
			spans := spansOf(interval, zone, start.UnixMilli(), scene.until*day)
			if !isTelling(spans, scene.until*day) {
				// (two of a start's rows hold always, never, or not before its end)
				if len(spans) > 1 || dull == 2 {
					continue
				}
				dull++
			}
			made++
			fmt.Fprintf(out, "%s\t%dd\t%s\t%s\t%s\n", scene.start, scene.until, rule, text, strings.Join(spans, " "))
		}
	}
}

// The texts of a kind: ends and pairs of them that are good, that are no numbers or names, and that are just outside.
func textsOf(kind string) []interface{} {
	ends := []string{"", "0", "1", "-1", "31", "32", "-31", "-32", "28", "+5", "007", "-0", "13", "2026", "-2026", "1.0", "0x10", "1_0",
		"9223372036854775807", "9223372036854775808", "monday", "Monday", "SATURDAY", "sunday", "sun", " monday", "may", "December", "a"}
	texts := []interface{}{}
	if kind == "times" {
		ends = []string{"", "00:00", "0:00", "24:00", "24:01", "23:59", "23:60", "12:30", "12:3", "1230", "aa:bb", "08:30", "25:00",
			" 08:30", "08:30 ", "-1:00"}
		for _, from := range ends {
			for _, to := range ends {
				texts = append(texts, map[string]string{"start_time": from, "end_time": to})
			}
		}
		return texts
	}
	for _, first := range ends {
		texts = append(texts, first, first+":"+first+":"+first)
		for _, last := range ends {
			texts = append(texts, first+":"+last)
		}
	}
	return texts
}

// Prints texts of each kind, half of them good.
func printTexts(out *bufio.Writer, chance *rand.Rand) {
	for _, kind := range []string{"times", "days_of_month", "months", "weekdays", "years"} {
		texts := textsOf(kind)
		chance.Shuffle(len(texts), func(i, j int) { texts[i], texts[j] = texts[j], texts[i] })
		left := map[bool]int{true: 30, false: 30}
		for _, text := range texts {
			_, written, err := read(fields{kind: {text}})
			if left[err == nil] > 0 {
				left[err == nil]--
				fmt.Fprintf(out, "%s\t%s\n", map[bool]string{true: "read", false: "refused"}[err == nil], written)
			}
		}
	}
}

func main() {
	out := bufio.NewWriter(os.Stdout)
	defer out.Flush()
	chance := rand.New(rand.NewSource(25))
	switch {
	case len(os.Args) == 2 && os.Args[1] == "spans":
		printSpans(out, chance)
	case len(os.Args) == 2 && os.Args[1] == "texts":
		printTexts(out, chance)
	default:
		fmt.Fprintln(os.Stderr, "rows spans, or rows texts")
		os.Exit(2)
	}
}
