// What Go's regexp makes of patterns: `oracle COUNT SEED` makes patterns and texts, `oracle -` reads lines of both from standard input.
//
// A line of the output is the pattern and its texts, in hexadecimal, then a tab and what Go says: `ok` and a digit for each text, 1 where
// the pattern has a match in it, or `fault`, the offending part in hexadecimal (`-` if it is the whole pattern) and Go's words.
package main

import (
	"bufio"
	"encoding/hex"
	"fmt"
	"math/rand"
	"os"
	"regexp"
	"regexp/syntax"
	"sort"
	"strconv"
	"strings"
	"unicode"
)

var (
	letters   = strings.Split("a b c k s z A K S Z 0 1 7 9 _ - / : , = & ~ # @ < > ! \" ' ] } é ß σ ς Σ ſ K µ İ ı 日 😀 \u0345", " ")
	controls  = []string{" ", "\n", "\t", "\x00", "\r", "\u00a0", "\u2028", "\x7f"}
	escapes   = strings.Split(`\. \\ \* \+ \? \( \) \| \[ \] \{ \} \^ \$ \- \_ \< \> \/ \# \& \~ \@ \" \! \a \f \t \n \r \v \0 \01 \012 \0123 \101 \377 \777 \1 \12 \18 \8 \9 \x41 \x4a \x7f \xe9 \x{41} \x{e9} \x{1F600} \x{0000041} \x{10FFFF} \x{D800} \x{DFFF}`, " ")
	bad       = strings.Split(`\x \x4 \xg1 \x{ \x{} \x{g} \x{110000} \x{41 \e \c \h \u0041 \é \Z \G \X \C \k \E \p \pé \p{ \p{} \p{Lu \p{greek} \p{Foo} \p{^} \p^ \p{^^Lu} \pq \p{LC} \p{Cn} \p{Letter} \p{Latn} \p{scx=Greek} (?=a) (?!a) (?<a>b) (?#a) (?x) (?u) (?R) (?i-) (?-) (?-i-s) (?i--s) (?^i) (?P (?P< (?P<> (?P<n (?P<n-m>a) (?P<é>a) (?P=n) (?P>n) (? (?i (?i: ( ) [ [^ [] [^] [] a [a [z-a] [a-\d] [\d-a-z] [[:foo:]] [[:alpha:] [[:^word:] [\x] [\ \`, " ")
	sets      = strings.Split(`\d \D \s \S \w \W`, " ")
	tests     = strings.Split(`^ $ \A \z \b \B`, " ")
	flags     = strings.Split(`(?i) (?s) (?m) (?U) (?-i) (?i-s) (?im) (?ims-U) (?ii) (?i-i) (?) (?-imsU) (?i-i:)`, " ")
	openings  = strings.Split(`( ( (?: (?: (?: (?i: (?s: (?-i: (?m-s: (?U: (?ii: (?P<n> (?P<n> (?P<1a_> (?P<x>`, " ")
	operators = strings.Split(`* + ? * + ? * + ? {2} {2} {0} {1} {0,1} {0,0} {1,} {0,} {2,} {2,3} {0,2} {3} {1,1}`, " ")
	counts    = strings.Split(`{,3} {3,2} {1000} {1001} {2,1001} {01} {2,03} {{2} {2}} {2 {2, {a} {a,b} { { 2} {99999999999} {9999999999999999999999,} {30} {40} {2,2000000000}`, " ")
	posix     = strings.Split(`[:alnum:] [:^alnum:] [:alpha:] [:^alpha:] [:ascii:] [:^ascii:] [:blank:] [:^blank:] [:cntrl:] [:digit:] [:^digit:] [:graph:] [:lower:] [:^lower:] [:print:] [:^print:] [:punct:] [:space:] [:^space:] [:upper:] [:^upper:] [:word:] [:^word:] [:xdigit:]`, " ")
	nasty     = strings.Split(`.*{.* [\w-.] [[]x [a&&b] [a--b] [a~~b] [--a] [a-] [-a] [^-a] []a] [^]a] [a-z&&[^b]] [[a]] [[:alpha] [[:] [a[:digit:]b] [^\W] [^\D\S] [\pN-z] \Qa.b\E \Q*\E* \Qab\E+ \Q \Q\E \E \Qa\ \Qa\Eb a** a*+ a?? a??? a{2}{3} a{2}* a*{2} (a*)* (a|)* (|a)+ (a{30}){30} (a{40}){40} ((a{10}){10}){10} ((a{10}){10}){11} (a{1000}){0} ((a{1000}){0}){1000} (?:a{0,}){1000} (?:(?:a{1000}|b)c)* (?:a{1000}|b){2} a||b () (|) |a a| (?i)ǅ (?i)[^k] (?i)\W (?i)[[:^lower:]] (?i)\p{Lu} (?i)\P{Lu} (?i)[\p{Ll}] (?i)[^\p{Lu}] (?i)\p{Greek} (?i)\p{Common} (?i)k (?i)ſ [[.a.]] [[=a=]] \b{start} \b* \B+ ^* $? \A{2} \z* (?i)* a(?i)* a(?s)? a(?i){2}b`, " ")
	classes   []string
	pool      []rune
)

// assigned reports whether Go's edition of Unicode has the character.
func assigned(r rune) bool {
	return unicode.In(r, unicode.L, unicode.M, unicode.N, unicode.P, unicode.S, unicode.Z, unicode.C)
}

func init() {
	for name := range unicode.Categories {
		classes = append(classes, name)
	}
	for name := range unicode.Scripts {
		classes = append(classes, name)
	}
	sort.Strings(classes)
	classes = append(classes, "Any")
	for _, text := range append(append([]string{}, letters...), controls...) {
		pool = append(pool, []rune(text)...)
	}
}

type maker struct{ *rand.Rand }

func (m maker) of(texts []string) string { return texts[m.Intn(len(texts))] }

func (m maker) class() string {
	name, letter := m.of(classes), m.of([]string{"p", "p", "P"})
	if len(name) == 1 && m.Intn(2) == 0 {
		return `\` + letter + name
	}
	return `\` + letter + "{" + m.of([]string{"", "", "", "^"}) + name + "}"
}

func (m maker) char() string {
	switch m.Intn(12) {
	case 0:
		return m.of(controls)
	case 1, 2:
		return m.of(escapes)
	case 3:
		return m.of([]string{".", "*", "+", "?", "(", ")", "|", "[", "{", "^", "$", "-", "&", "~", "]"})
	}
	return m.of(letters)
}

func (m maker) brackets() string {
	text := "["
	if m.Intn(4) == 0 {
		text += "^"
	}
	for n := m.Intn(4) + 1; n > 0; n-- {
		switch m.Intn(10) {
		case 0:
			text += m.of(posix)
		case 1:
			text += m.of(sets)
		case 2:
			text += m.class()
		case 3, 4:
			low, high := []rune(m.of(letters))[0], []rune(m.of(letters))[0]
			if low > high && m.Intn(20) > 0 {
				low, high = high, low
			}
			text += string(low) + "-" + string(high)
		case 5:
			if m.Intn(6) == 0 {
				text += m.char() + "-" + m.char()
			}
			text += m.of([]string{"-", "&&", "--", "~~", "^", "[", ":", "\\-"})
		default:
			text += m.char()
		}
	}
	return text + "]"
}

func (m maker) atom(depth int) string {
	switch m.Intn(24) {
	case 0:
		return m.of(escapes)
	case 1, 2:
		return m.of(sets)
	case 3:
		return m.of(tests)
	case 4, 5, 6:
		return m.brackets()
	case 7:
		return m.class()
	case 8:
		return "."
	case 9:
		if m.Intn(3) == 0 {
			return m.of(bad)
		}
		return m.of(flags)
	case 10:
		return m.of(nasty)
	case 11:
		if m.Intn(3) == 0 {
			return `\Q` + m.char() + m.char() + `\E`
		}
		return m.of(controls)
	case 12, 13, 14, 15:
		if depth > 0 {
			return m.of(openings) + m.alternatives(depth-1) + ")"
		}
	}
	return m.of(letters)
}

func (m maker) sequence(depth int) string {
	text := ""
	for n := m.Intn(4); n >= 0; n-- {
		text += m.atom(depth)
		if m.Intn(4) == 0 {
			if m.Intn(16) == 0 {
				text += m.of(counts)
			} else {
				text += m.of(operators)
			}
			if m.Intn(5) == 0 {
				text += "?"
			}
		}
	}
	return text
}

func (m maker) alternatives(depth int) string {
	text := m.sequence(depth)
	for m.Intn(4) == 0 {
		text += "|" + m.sequence(depth)
	}
	return text
}

// changed is the text with a character put in, left out or written twice.
func (m maker) changed(text string) string {
	runes := []rune(text)
	if len(runes) == 0 {
		return text
	}
	at := m.Intn(len(runes))
	head, tail := string(runes[:at]), string(runes[at:])
	switch m.Intn(3) {
	case 0:
		return head + string(runes[at+1:])
	case 1:
		return head + string(runes[at]) + tail
	}
	return head + m.of(strings.Split(`\ ( ) [ ] { } * + ? | ^ $ . - : & ~ , < > P p E Q 0 1 i`, " ")) + tail
}

func (m maker) pattern() string {
	text := m.alternatives(3)
	for m.Intn(5) == 0 {
		text = m.changed(text)
	}
	if m.Intn(10) < 7 {
		return "^(?:" + text + ")$"
	}
	return text
}

// matched is a text that a parsed pattern is likely to match.
func (m maker) matched(re *syntax.Regexp) string {
	switch re.Op {
	case syntax.OpLiteral:
		text := ""
		for _, r := range re.Rune {
			if re.Flags&syntax.FoldCase != 0 {
				for n := m.Intn(3); n > 0; n-- {
					r = unicode.SimpleFold(r)
				}
			}
			text += string(r)
		}
		return text
	case syntax.OpCharClass:
		if len(re.Rune) == 0 {
			return ""
		}
		at := m.Intn(len(re.Rune)/2) * 2
		for tries := 0; tries < 30; tries++ {
			r := re.Rune[at] + rune(m.Int63n(int64(re.Rune[at+1]-re.Rune[at])+1))
			if assigned(r) && (r < 0xD800 || r > 0xDFFF) {
				return string(r)
			}
		}
		return "a"
	case syntax.OpAnyChar, syntax.OpAnyCharNotNL:
		return string(pool[m.Intn(len(pool))])
	case syntax.OpCapture, syntax.OpConcat:
		text := ""
		for _, sub := range re.Sub {
			text += m.matched(sub)
		}
		return text
	case syntax.OpAlternate:
		return m.matched(re.Sub[m.Intn(len(re.Sub))])
	case syntax.OpStar, syntax.OpPlus, syntax.OpQuest, syntax.OpRepeat:
		low, high := 0, 2
		switch {
		case re.Op == syntax.OpPlus:
			low = 1
		case re.Op == syntax.OpQuest:
			high = 1
		case re.Op == syntax.OpRepeat:
			low, high = re.Min, re.Max
			if high < 0 || high > low+2 {
				high = low + 2
			}
		}
		text := ""
		for n := low + m.Intn(high-low+1); n > 0 && len(text) < 300; n-- {
			text += m.matched(re.Sub[0])
		}
		return text
	}
	return ""
}

func (m maker) text() string {
	text := ""
	for n := m.Intn(5); n > 0; n-- {
		text += string(pool[m.Intn(len(pool))])
	}
	return text
}

func (m maker) texts(pattern string) []string {
	re, err := syntax.Parse(pattern, syntax.Perl)
	if err != nil {
		return nil
	}
	texts := []string{"", m.text(), m.text()}
	for n := 0; n < 4; n++ {
		text := m.matched(re)
		texts = append(texts, text)
		if n%2 == 0 {
			texts = append(texts, m.changed(text))
		} else if n == 1 {
			texts = append(texts, strings.ToUpper(text))
		}
	}
	kept := texts[:0]
	for _, text := range texts {
		if strings.IndexFunc(text, func(r rune) bool { return !assigned(r) }) < 0 {
			kept = append(kept, text)
		}
	}
	return kept
}

func report(out *bufio.Writer, pattern string, texts []string) {
	fmt.Fprintf(out, "%x", pattern)
	for _, text := range texts {
		fmt.Fprintf(out, " %x", text)
	}
	re, err := regexp.Compile(pattern)
	if err != nil {
		wrong := err.(*syntax.Error)
		part := hex.EncodeToString([]byte(wrong.Expr))
		switch wrong.Code {
		case syntax.ErrMissingParen, syntax.ErrUnexpectedParen, syntax.ErrNestingDepth, syntax.ErrInternalError, syntax.ErrTrailingBackslash:
			part = "-"
		}
		fmt.Fprintf(out, "\tfault %s %s\n", part, wrong.Code)
		return
	}
	found := make([]byte, len(texts))
	for i, text := range texts {
		found[i] = '0'
		if re.MatchString(text) {
			found[i] = '1'
		}
	}
	fmt.Fprintf(out, "\tok %s\n", found)
}

func main() {
	out := bufio.NewWriter(os.Stdout)
	defer out.Flush()
	if os.Args[1] == "-" {
		lines := bufio.NewScanner(os.Stdin)
		lines.Buffer(nil, 1<<24)
		for lines.Scan() {
			words := strings.Split(lines.Text(), " ")
			for i := range words {
				text, _ := hex.DecodeString(words[i])
				words[i] = string(text)
			}
			report(out, words[0], words[1:])
		}
		return
	}
	count, _ := strconv.Atoi(os.Args[1])
	seed, _ := strconv.ParseInt(os.Args[2], 10, 64)
	m := maker{rand.New(rand.NewSource(seed))}
	for n := 0; n < count; n++ {
		pattern := m.pattern()
		report(out, pattern, m.texts(pattern))
	}
}
