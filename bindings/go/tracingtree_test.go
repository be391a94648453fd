package tracingtree_test

import (
	"bytes"
	"context"
	"errors"
	"fmt"
	"io"
	"regexp"
	"strings"
	"sync"
	"testing"

	"tracingtree"
)

func newTree(t *testing.T, writer io.Writer) *tracingtree.Tree {
	t.Helper()
	tree, err := tracingtree.New(writer, tracingtree.DefaultSettings())
	if err != nil {
		t.Fatal(err)
	}
	return tree
}

func equal(t *testing.T, found, wanted string) {
	t.Helper()
	if found != wanted {
		t.Errorf("found:\n%s\nwanted:\n%s", found, wanted)
	}
}

var errFull = errors.New("full")

// full is a writer that fails.
type full struct{}

func (full) Write([]byte) (int, error) { return 0, errFull }

// How strings and values are drawn, after the level of an event and a space.
func TestEvents(t *testing.T) {
	long := strings.Repeat("0123456789", 1000)
	var drawn bytes.Buffer
	tree := newTree(t, &drawn)
	for _, c := range []struct {
		message string
		fields  []tracingtree.Field
		drawn   string
	}{
		{"x", nil, "x"},
		{"", []tracingtree.Field{tracingtree.F("a", 1)}, "a=1"},
		{"x", []tracingtree.Field{tracingtree.F("a", "b c"), tracingtree.F("d", "")},
			"x, a=b c, d="},
		{"x", []tracingtree.Field{tracingtree.F("e", errFull)}, "x, e=full"},
		{"x", []tracingtree.Field{tracingtree.F("n", nil)}, "x, n=<nil>"},
		{"x", []tracingtree.Field{tracingtree.F("s", []int{1, 2})}, "x, s=[1 2]"},
		{"x", []tracingtree.Field{tracingtree.F("t", true)}, "x, t=true"},
		{"né\x00", nil, "né\x00"},
		{"a\xffb", []tracingtree.Field{tracingtree.F("\xff", "\xc3")}, "a\uFFFDb, \uFFFD=\uFFFD"},
		{long, []tracingtree.Field{tracingtree.F("a", long)}, long + ", a=" + long},
	} {
		drawn.Reset()
		err := tree.Event(context.Background(), tracingtree.LevelInfo, c.message, c.fields...)
		if err != nil {
			t.Error(err)
		}
		equal(t, drawn.String(), "INFO "+c.drawn+"\n")
	}
}

func TestRefusedEvents(t *testing.T) {
	closed := newTree(t, io.Discard)
	closed.Close()
	closed.Close()
	for _, c := range []struct {
		tree   *tracingtree.Tree
		level  tracingtree.Level
		wanted string
	}{
		{newTree(t, io.Discard), tracingtree.LevelError + 1, "tracingtree: a level is unknown"},
		{closed, tracingtree.LevelInfo, "tracingtree: the tree was closed"},
		{newTree(t, full{}), tracingtree.LevelInfo, "full"},
	} {
		equal(t, fmt.Sprint(c.tree.Event(context.Background(), c.level, "x")), c.wanted)
	}
}

func TestErrKeepsTheFirstError(t *testing.T) {
	tree := newTree(t, full{})
	_, span := tree.Start(context.Background(), "a")
	tree.Close()
	span.End()
	if err := tree.Err(); !errors.Is(err, errFull) {
		t.Errorf("found %v", err)
	}
}

func TestAClosedTreeOpensNoSpan(t *testing.T) {
	tree := newTree(t, io.Discard)
	outer, _ := tree.Start(context.Background(), "a")
	tree.Close()
	ctx, span := tree.Start(outer, "b")
	span.Record(tracingtree.F("a", 1))
	span.End()
	if ctx != outer || !errors.Is(tree.Err(), tracingtree.ErrClosed) {
		t.Errorf("found %v", tree.Err())
	}
}

func TestTimers(t *testing.T) {
	for timer, form := range map[tracingtree.Timer]string{
		tracingtree.TimerNone:   `^INFO x\n$`,
		tracingtree.TimerUptime: `^ +0\.\d{6}s INFO x\n$`,
		tracingtree.TimerUTC:    `^20\d\d-\d\d-\d\d \d+:\d\d:\d\d\.\d+ INFO x\n$`,
		tracingtree.TimerLocal:  `^20\d\d-.* [+-]\d\d:\d\d:\d\d INFO x\n$`,
	} {
		var drawn bytes.Buffer
		settings := tracingtree.DefaultSettings()
		settings.Timer = timer
		tree, err := tracingtree.New(&drawn, settings)
		if err != nil {
			t.Fatal(err)
		}
		tree.Event(context.Background(), tracingtree.LevelInfo, "x")
		if !regexp.MustCompile(form).MatchString(drawn.String()) {
			t.Errorf("timer %d: %q", timer, drawn.String())
		}
	}
}

// A context that is used after End. The current span is the nearest ancestor that is open.
func TestAContextOfASpanThatEnded(t *testing.T) {
	var drawn bytes.Buffer
	tree := newTree(t, &drawn)
	outer, a := tree.Start(context.Background(), "a")
	inner, b := tree.Start(outer, "b")
	b.End()
	b.End()
	b.Record(tracingtree.F("late", 1))
	tree.Event(inner, tracingtree.LevelInfo, "in a")
	_, c := tracingtree.Start(inner, "c")
	c.End()
	a.End()
	_, d := tree.Start(inner, "d")
	d.End()
	tree.Event(inner, tracingtree.LevelInfo, "in none")
	equal(t, drawn.String(), "┐a \n└─┐b \n┌─┘\n├─ INFO in a\n└─┐c \n┌─┘\n┘\n┐d \n┘\nINFO in none\n")
	if tree.Err() != nil {
		t.Error(tree.Err())
	}
}

func TestTwoTreesInOneContext(t *testing.T) {
	var first, second bytes.Buffer
	one, two := newTree(t, &first), newTree(t, &second)
	ctx, a := one.Start(context.Background(), "a")
	ctx, b := two.Start(ctx, "b")
	ctx, c := tracingtree.Start(ctx, "c")
	one.Event(ctx, tracingtree.LevelInfo, "one")
	two.Event(ctx, tracingtree.LevelInfo, "two")
	c.End()
	b.End()
	a.End()
	equal(t, first.String(), "┐a \n├─ INFO one\n┘\n")
	equal(t, second.String(), "┐b \n└─┐c \n  ├─ INFO two\n┌─┘\n┘\n")
}

func TestNoTree(t *testing.T) {
	ctx, span := tracingtree.Start(context.Background(), "a")
	span.Record(tracingtree.F("a", 1))
	span.End()
	if ctx != context.Background() {
		t.Error("the context changed")
	}
}

// A cancelled context still reaches the span, and the span's context is cancelled with it.
func TestOtherValuesOfAContext(t *testing.T) {
	type key struct{}
	var drawn bytes.Buffer
	tree := newTree(t, &drawn)
	outer, cancel := context.WithCancel(context.WithValue(context.Background(), key{}, 7))
	ctx, _ := tree.Start(outer, "a")
	inner, stop := context.WithCancel(ctx)
	defer stop()
	cancel()
	tree.Event(inner, tracingtree.LevelInfo, "x")
	if inner.Value(key{}) != 7 || inner.Err() != context.Canceled {
		t.Error("the value or the end is lost")
	}
	equal(t, drawn.String(), "┐a \n├─ INFO x\n")
}

// Each goroutine has its own spans. The last row that opens a root before an event is that of its
// span.
func TestGoroutines(t *testing.T) {
	var drawn bytes.Buffer
	settings := tracingtree.DefaultSettings()
	settings.SpanRetrace = true
	settings.CloseRetrace = true
	tree, err := tracingtree.New(&drawn, settings)
	if err != nil {
		t.Fatal(err)
	}
	var group sync.WaitGroup
	for _, name := range strings.Split("abcd", "") {
		group.Add(1)
		go func(name string) {
			defer group.Done()
			for number := 0; number < 50; number++ {
				called := fmt.Sprint(name, number)
				ctx, span := tree.Start(context.Background(), called, tracingtree.F("n", number))
				tree.Event(ctx, tracingtree.LevelInfo, called)
				span.End()
			}
		}(name)
	}
	group.Wait()
	opened, events := "", 0
	for _, row := range strings.Split(drawn.String(), "\n") {
		if strings.HasPrefix(row, "┐") {
			opened, _, _ = strings.Cut(strings.TrimPrefix(row, "┐"), " ")
		} else if strings.HasPrefix(row, "├─ INFO ") {
			equal(t, strings.TrimPrefix(row, "├─ INFO "), opened)
			events++
		}
	}
	equal(t, fmt.Sprint(events), "200")
}
