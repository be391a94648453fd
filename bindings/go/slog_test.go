//go:build go1.21

package tracingtree_test

import (
	"bytes"
	"context"
	"errors"
	"log/slog"
	"os"
	"strings"
	"testing"
	"testing/slogtest"
	"time"

	"tracingtree"
)

func ExampleNewHandler() {
	tree, _ := tracingtree.New(os.Stdout, tracingtree.DefaultSettings())
	logger := slog.New(tracingtree.NewHandler(tree, slog.LevelDebug))
	ctx, request := tree.Start(context.Background(), "request", tracingtree.F("path", "/pay"))
	logger.InfoContext(ctx, "begin", "user", 7, slog.Group("body", "size", 3, "type", "json"))
	logger.WithGroup("db").With("table", "orders").WarnContext(ctx, "slow", "took", 2*time.Second)
	request.End()
	logger.Debug("outside")
	// Output:
	// ┐request path=/pay
	// ├─ INFO begin, user=7, body.size=3, body.type=json
	// ├─ WARN slow, db.table=orders, db.took=2s
	// ┘
	// DEBUG outside
}

func TestLevels(t *testing.T) {
	for _, c := range []struct {
		level, least slog.Level
		drawn        string
	}{
		{slog.LevelDebug - 1, slog.LevelDebug - 1, "TRACE x\n"},
		{slog.LevelDebug, slog.LevelDebug, "DEBUG x\n"},
		{slog.LevelInfo - 1, slog.LevelDebug, "DEBUG x\n"},
		{slog.LevelInfo, slog.LevelInfo, "INFO x\n"},
		{slog.LevelInfo + 3, slog.LevelInfo, "INFO x\n"},
		{slog.LevelWarn, slog.LevelInfo, "WARN x\n"},
		{slog.LevelError, slog.LevelInfo, "ERROR x\n"},
		{slog.LevelError + 8, slog.LevelInfo, "ERROR x\n"},
		{slog.LevelInfo - 1, slog.LevelInfo, ""},
		{slog.LevelWarn, slog.LevelError, ""},
	} {
		var drawn bytes.Buffer
		logger := slog.New(tracingtree.NewHandler(newTree(t, &drawn), c.least))
		logger.Log(context.Background(), c.level, "x")
		equal(t, drawn.String(), c.drawn)
	}
}

// Go's own test of handlers. A tree has no key for a record's time, so its checks of the time are
// met by what the handler is passed.
func TestHandlerIsConformant(t *testing.T) {
	var drawn bytes.Buffer
	var records []map[string]any
	handler := timed{tracingtree.NewHandler(newTree(t, &drawn), nil), &drawn, &records}
	if err := slogtest.TestHandler(handler, func() []map[string]any { return records }); err != nil {
		t.Error(err)
	}
}

// timed parses each row, and adds the time that the record has.
type timed struct {
	slog.Handler
	drawn   *bytes.Buffer
	records *[]map[string]any
}

func (h timed) Handle(ctx context.Context, record slog.Record) error {
	h.drawn.Reset()
	err := h.Handler.Handle(ctx, record)
	row := parse(h.drawn.String())
	if !record.Time.IsZero() {
		row[slog.TimeKey] = record.Time
	}
	*h.records = append(*h.records, row)
	return err
}

func (h timed) WithAttrs(attrs []slog.Attr) slog.Handler {
	return timed{h.Handler.WithAttrs(attrs), h.drawn, h.records}
}

func (h timed) WithGroup(name string) slog.Handler {
	return timed{h.Handler.WithGroup(name), h.drawn, h.records}
}

// parse reads a row such as `INFO message, a=1, G.b=2`.
func parse(row string) map[string]any {
	level, rest, _ := strings.Cut(strings.TrimSuffix(row, "\n"), " ")
	message, fields, _ := strings.Cut(rest, ", ")
	found := map[string]any{slog.LevelKey: level, slog.MessageKey: message}
	for _, field := range strings.Split(fields, ", ") {
		name, value, isField := strings.Cut(field, "=")
		in := found
		path := strings.Split(name, ".")
		for _, group := range path[:len(path)-1] {
			if in[group] == nil {
				in[group] = map[string]any{}
			}
			in = in[group].(map[string]any)
		}
		if isField {
			in[path[len(path)-1]] = value
		}
	}
	return found
}

func TestTargetOfARecord(t *testing.T) {
	var drawn bytes.Buffer
	settings := tracingtree.DefaultSettings()
	settings.Targets = true
	tree, err := tracingtree.New(&drawn, settings)
	if err != nil {
		t.Fatal(err)
	}
	slog.New(tracingtree.NewHandler(tree, nil)).Info("x")
	equal(t, drawn.String(), "INFO tracingtree_test x\n")
}

// A record without a time gets that of the call.
func TestTimeOfARecord(t *testing.T) {
	moment := time.Date(2001, 2, 3, 14, 5, 6, 0, time.UTC)
	for _, c := range []struct{ at, least, greatest time.Time }{
		{moment, moment, moment},
		{least: time.Now().Add(-time.Second), greatest: time.Now().Add(time.Hour)},
	} {
		var drawn bytes.Buffer
		settings := tracingtree.DefaultSettings()
		settings.Timer = tracingtree.TimerUTC
		tree, err := tracingtree.New(&drawn, settings)
		if err != nil {
			t.Fatal(err)
		}
		record := slog.NewRecord(c.at, slog.LevelInfo, "x", 0)
		handler := tracingtree.NewHandler(tree, nil)
		if err := handler.Handle(context.Background(), record); err != nil {
			t.Fatal(err)
		}
		found, err := time.Parse("2006-01-02 15:04:05.999999999 INFO x\n", drawn.String())
		if err != nil || found.Before(c.least) || found.After(c.greatest) {
			t.Errorf("%v: drawn %q (%v)", c.at, drawn.String(), err)
		}
	}
}

func TestHandleReturnsTheError(t *testing.T) {
	tree := newTree(t, full{})
	handler := tracingtree.NewHandler(tree, nil)
	record := slog.Record{Message: "x"}
	if err := handler.Handle(context.Background(), record); !errors.Is(err, errFull) {
		t.Errorf("found %v", err)
	}
	tree.Close()
	err := handler.Handle(context.Background(), record)
	if !errors.Is(err, tracingtree.ErrClosed) {
		t.Errorf("found %v", err)
	}
}
