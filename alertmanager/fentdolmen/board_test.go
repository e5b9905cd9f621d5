package main

import (
	"encoding/json"
	"errors"
	"fmt"
	"syscall"
	"testing"
	"time"

	"github.com/prometheus/common/model"
)

// open opens a board that says why it ended on a channel.
func open(t *testing.T, program string, timeout time.Duration) (*board, chan error) {
	ended := make(chan error, 1)
	b, err := openBoard(program, program, timeout, testClock().now, func(_ *board, err error) { ended <- err }, func() {})
	if err != nil {
		t.Fatal(err)
	}
	t.Cleanup(b.close)
	return b, ended
}

func TestBoardsThatDontKeepToTheProtocol(t *testing.T) {
	for _, how := range []string{"ends", "hangs", "form", "untold"} {
		t.Run(how, func(t *testing.T) {
			b, ended := open(t, fake(t, how), 300*time.Millisecond)
			var got summary
			if err := b.ask(summaryCall(), &got); err == nil {
				t.Error("no error")
			}
			select {
			case err := <-ended:
				t.Log(err)
			case <-time.After(5 * time.Second):
				t.Error("nobody hears of it")
			}
			if b.ask(maintainCall(), nil) == nil {
				t.Error("calls go on")
			}
		})
	}
}

// TestValuesOfAnswers: other fields of an answer, and spaces in it, change nothing. What isn't JSON is no answer.
func TestValuesOfAnswers(t *testing.T) {
	for line, wanted := range map[string]int64{
		"{\"summary\":{\"alerts\":7}}\n":                7,
		"{\"summary\":{\"alerts\":7}}":                  7,
		"{\"summary\":{\"alerts\":7},\"more\":{}}\n":    7,
		"{\"summary\": {\"alerts\": 7} }\n":             7,
		"{\"more\":{},\"summary\":{\"alerts\":7}}\n":    7,
		"{\"summary\":{\"alerts\":1},\"summary\":{}}\n": 0,
		"{\"summary\":{\"alerts\":7},}\n":               -1,
		"{\"summary\":{\"alerts\":7}}}\n":               -1,
		"{\"summary\":{\"alerts\":7}\n":                 -1,
		"{\"summary\":{\"alerts\":\"x\"}}\n":            -1,
		"{\"summary\":}\n":                              -1,
	} {
		var got summary
		if err := summaryCall().decode([]byte(line), &got); (err != nil) != (wanted < 0) || err == nil && got.Alerts != wanted {
			t.Errorf("%q: %v, %v", line, got, err)
		}
	}
}

func TestAnswersComeInOrder(t *testing.T) {
	b, _ := open(t, realBoard(t), 10*time.Second)
	c, _ := configCall(planOf(t, oneReceiver).value)
	if err := b.ask(c, nil); err != nil {
		t.Fatal(err)
	}
	var batches []*batch
	for i := 0; i < 20; i++ {
		labels := model.LabelSet{"alertname": model.LabelValue(fmt.Sprint(i))}
		batches = append(batches, b.submit(insertsCall(insertItem(labels, 0, 0, nil)), insertsCall(insertItem(nil, 0, 0, nil)), summaryCall()))
	}
	for i, t1 := range batches {
		answers, err := t1.wait()
		if err != nil {
			t.Fatal(err)
		}
		var r *refusal
		if b.refusals(t1.calls[0], answers[0]) != nil {
			t.Errorf("%s", answers[0])
		}
		if errs := b.refusals(t1.calls[1], answers[1]); len(errs) != 1 || !errors.As(errs[0], &r) || r.Call != "insert" {
			t.Errorf("without labels: %v", errs)
		}
		var got summary
		if err := t1.calls[2].decode(answers[2], &got); err != nil || got.Alerts != int64(i+1) {
			t.Errorf("%v, %v in batch %d", got, err, i)
		}
	}
}

// TestCtrlCIsForTheProgram: the terminal sends its signal to all processes of the program's group.
func TestCtrlCIsForTheProgram(t *testing.T) {
	b, _ := open(t, fake(t, "usual"), 10*time.Second)
	if group, err := syscall.Getpgid(b.cmd.Process.Pid); err != nil || group == syscall.Getpgrp() {
		t.Errorf("the board is in the group %d, %v", group, err)
	}
}

func TestClosedBoard(t *testing.T) {
	b, ended := open(t, realBoard(t), 10*time.Second)
	b.close()
	if err := b.ask(nextDueCall(), nil); !errors.Is(err, errClosed) {
		t.Error(err)
	}
	select {
	case err := <-ended:
		t.Error("the end of a closed board counts as a failure: ", err)
	case <-time.After(100 * time.Millisecond):
	}
}

func TestTextsOfJSON(t *testing.T) {
	for _, text := range []string{"", "plain", "a b", `"\`, "\x00\x1f\n", "é", "\u2028", "<&>", "\xff\xfe", "😀", "\x7f"} {
		var got string
		if err := json.Unmarshal(appendText(nil, text), &got); err != nil {
			t.Errorf("%q: %v", text, err)
		}
		wanted, _ := json.Marshal(text)
		var same string
		json.Unmarshal(wanted, &same)
		if got != same {
			t.Errorf("%q becomes %q", text, got)
		}
	}
}

func TestLinesFitTheirCalls(t *testing.T) {
	for line, fits := range map[string]bool{
		`{"noted":{}}`: true, `{"error":{"kind":"x"}}`: true, `{"note":{}}`: false, `{"noteds":{}}`: false, `{"noted"}`: false, ``: false, `{}`: false,
	} {
		if noteCall(1, 0).fits([]byte(line)) != fits {
			t.Errorf("%s: %v", line, !fits)
		}
	}
}
