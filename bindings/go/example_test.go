package tracingtree_test

import (
	"context"
	"fmt"
	"io"
	"os"

	"tracingtree"
)

func Example() {
	tree, err := tracingtree.New(os.Stdout, tracingtree.DefaultSettings())
	if err != nil {
		panic(err)
	}
	defer tree.Close()
	ctx, request := tree.Start(context.Background(), "request",
		tracingtree.F("path", "/pay"), tracingtree.F("size", 3))
	tree.Event(ctx, tracingtree.LevelInfo, "begin")
	query(ctx, tree)
	tree.Event(ctx, tracingtree.LevelError, "failed\nin two lines")
	request.End()
	tree.Event(ctx, tracingtree.LevelDebug, "outside")
	// Output:
	// ┐request path=/pay, size=3
	// ├─ INFO begin
	// └─┐query table=orders
	//   ├─ WARN slow, rows=7
	// ┌─┘
	// ├─ ERROR failed
	// │  in two lines
	// ┘
	// DEBUG outside
}

func query(ctx context.Context, tree *tracingtree.Tree) {
	ctx, query := tracingtree.Start(ctx, "query", tracingtree.F("table", "orders"))
	defer query.End()
	tree.Event(ctx, tracingtree.LevelWarn, "slow", tracingtree.F("rows", 7))
}

// A span's later fields are drawn when the span is shown again.
func ExampleSpan_Record() {
	settings := tracingtree.DefaultSettings()
	settings.SpanRetrace = true
	settings.CloseRetrace = true
	tree, _ := tracingtree.New(os.Stdout, settings)
	ctx, first := tree.Start(context.Background(), "first", tracingtree.F("n", 1))
	_, second := tree.Start(context.Background(), "second", tracingtree.F("n", 2))
	first.Record(tracingtree.F("status", 200))
	second.End()
	tree.Event(ctx, tracingtree.LevelInfo, "x")
	first.End()
	// Output:
	// ┐first n=1
	// ┐second n=2
	// ┘
	// ┐first n=1, status=200
	// ├─ INFO x
	// ┘
}

// The packages of spans and events, and names without lines.
func ExampleSettings() {
	settings := tracingtree.DefaultSettings()
	settings.IndentLines = false
	settings.Targets = true
	settings.BracketedFields = true
	tree, _ := tracingtree.New(os.Stdout, settings)
	ctx, span := tree.Start(context.Background(), "a", tracingtree.F("n", 1))
	// A space comes before an event in a span: the time since the span opened would be there.
	tree.Event(ctx, tracingtree.LevelTrace, "x")
	span.End()
	// Output:
	// tracingtree_test::a{n=1}
	//   TRACE tracingtree_test x
}

func ExampleNew() {
	settings := tracingtree.DefaultSettings()
	settings.Wraparound = 0
	_, err := tracingtree.New(io.Discard, settings)
	fmt.Println(err)
	// Output: tracingtree: the settings are invalid
}
