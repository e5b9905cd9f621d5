//go:build faked

package main

import (
	"os"
	"strconv"
	"strings"
	"time"
)

// wallClock is the machine's, set by as many milliseconds as the file has that FAKED_WALL names: alertmanager/tests/clock sets it.
func wallClock() int64 {
	text, _ := os.ReadFile(os.Getenv("FAKED_WALL"))
	shift, _ := strconv.ParseInt(strings.TrimSpace(string(text)), 10, 64)
	return time.Now().UnixMilli() + shift
}
