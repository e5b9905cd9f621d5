// A stub in place of am_dispatch, to measure what is around the board: it decides nothing and knows no time. Each alert with the label
// `due` is a group of its own that is due at once, for its route's only integration. `alertmanager/tests/speed` builds and runs it.
package main

import (
	"bufio"
	"bytes"
	"fmt"
	"os"
)

// answers are those of calls that always get the same one.
var answers = map[string]string{
	"summary": `{"summary":{}}`, "silence": `{"silenced":{"replaced":false}}`, "report": `{"reported":{}}`, "note": `{"noted":{}}`,
	"finish": `{"finished":{}}`, "load": `{"loaded":{}}`, "maintain": `{"maintained":{}}`, "forget": `{"forgotten":{}}`,
	"take_history": `{"taken":{}}`, "groups": `{"groups":[]}`, "remove_empty_groups": `{"groups_removed":{"groups":0}}`,
}

// stub has the labels of the groups that are due, and the name of their route.
type stub struct {
	due     [][]byte
	route   string
	tickets int
}

func main() {
	in, out := bufio.NewReaderSize(os.Stdin, 1<<20), bufio.NewWriterSize(os.Stdout, 1<<20)
	var s stub
	for {
		line, err := in.ReadBytes('\n')
		if err != nil {
			out.Flush()
			return
		}
		s.answer(out, line)
		if in.Buffered() == 0 {
			out.Flush()
		}
	}
}

// answer prints the answer to a line.
func (s *stub) answer(out *bufio.Writer, line []byte) {
	name, _, _ := bytes.Cut(line[2:], []byte(`"`))
	switch string(name) {
	case "alertmanager":
		routes := bytes.Count(line, []byte(`"repeat_interval"`))
		s.route = fmt.Sprintf("route %d", routes-1)
		out.WriteString(`{"opened":{"routes":["root"`)
		for i := 1; i < routes; i++ {
			fmt.Fprintf(out, `,"route %d"`, i)
		}
		out.WriteString("]}}\n")
	case "inserts":
		s.inserts(out, line)
	case "next_due":
		at := "null"
		if len(s.due) > 0 {
			at = "0"
		}
		fmt.Fprintf(out, "{\"next_due\":{\"at\":%s}}\n", at)
	case "begin":
		s.begin(out)
	default:
		out.WriteString(answers[string(name)] + "\n")
	}
}

// inserts accepts all.
func (s *stub) inserts(out *bufio.Writer, line []byte) {
	out.WriteString(`{"inserts":[`)
	for i, it := range bytes.Split(line, []byte(`"labels":`))[1:] {
		if i > 0 {
			out.WriteByte(',')
		}
		out.WriteString(`{"inserted":{"stamp":1,"groups":1,"made":1}}`)
		if labels, _, _ := bytes.Cut(it, []byte(`,"starts":`)); bytes.Contains(labels, []byte(`"due":`)) {
			s.due = append(s.due, append([]byte{}, labels...))
		}
	}
	out.WriteString("]}\n")
}

// begin takes the first group that is due.
func (s *stub) begin(out *bufio.Writer) {
	if len(s.due) == 0 {
		out.WriteString("{\"nothing_due\":{}}\n")
		return
	}
	labels := s.due[0]
	s.due, s.tickets = s.due[1:], s.tickets+1
	const forever = 4_000_000_000_000
	fmt.Fprintf(out, `{"flush":{"ticket":%d,"group":{"route":%q,"labels":%s},"receiver":"hook","deadline":%d,"notices":[`, s.tickets, s.route, labels, int64(forever))
	fmt.Fprintf(out, `{"integration":0,"kind":"webhook","reason":"first","firing":[{"labels":%s,"starts":0,"ends":null}],"resolved":[]}]}}`+"\n", labels)
}
