// What the board rejects, and why.
package main

import "fmt"

// refusal is an answer `error`: the call changed nothing.
type refusal struct {
	Call    string `json:"-"`
	Pointer string `json:"pointer"`
	Kind    string `json:"kind"`
	Message string `json:"message"`
}

// Error says which call was rejected, where and why.
func (r *refusal) Error() string {
	return fmt.Sprintf("the board rejects %s: %s at %q: %s", r.Call, r.Kind, r.Pointer, r.Message)
}

// The kinds of refusals that the dispatcher acts on.
const (
	tooManyNames    = "TooManyNames"
	tooManyGroups   = "TooManyGroups"
	tooManySilences = "TooManySilences"
	historyFull     = "HistoryFull"
	noMemory        = "memory"
	badValue        = "value"   // such as labels above a limit
	unknown         = "unknown" // no call of this name
	// untold: the call was made, and its answer is lost. What the dispatcher knows of the board is no longer true.
	untold = "untold"
)
