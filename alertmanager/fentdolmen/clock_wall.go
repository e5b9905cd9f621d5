//go:build !faked

package main

import "time"

// wallClock is the machine's, in milliseconds since 1970.
func wallClock() int64 { return time.Now().UnixMilli() }
