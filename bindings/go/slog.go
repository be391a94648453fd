//go:build cgo && go1.21

package tracingtree

import (
	"context"
	"log/slog"
	"time"
)

// Handler records what log/slog logs as events of a tree, in the current span of each record's
// context. So log with slog.InfoContext and the like: slog.Info has no context, and its events are
// in no span.
//
// Attributes become fields. Those of a group have its name and a dot in front, as `request.size`.
// Values are drawn as slog.Value.String prints them. With Settings.Targets the package that logs is
// drawn. Fields whose names begin with `log.` aren't drawn, and of a field `message` only the
// value.
type Handler struct {
	tree   *Tree
	level  slog.Leveler
	prefix string
	fields []Field
}

// NewHandler returns a handler that leaves out records below level. A nil level is slog.LevelInfo.
func NewHandler(tree *Tree, level slog.Leveler) *Handler {
	if level == nil {
		level = slog.LevelInfo
	}
	return &Handler{tree: tree, level: level}
}

// Enabled returns whether records of this level are drawn.
func (h *Handler) Enabled(_ context.Context, level slog.Level) bool {
	return level >= h.level.Level()
}

// Handle records an event at the record's time. Returns the tree's or the writer's error.
func (h *Handler) Handle(ctx context.Context, record slog.Record) error {
	fields := h.fields[:len(h.fields):len(h.fields)]
	record.Attrs(func(attr slog.Attr) bool {
		fields = appendAttr(fields, h.prefix, attr)
		return true
	})
	at := record.Time
	if at.IsZero() {
		at = time.Now()
	}
	target := ""
	if h.tree.targets && record.PC != 0 {
		target = packageAt(record.PC)
	}
	return h.tree.event(ctx, at, levelOf(record.Level), target, record.Message, fields)
}

// WithAttrs returns a handler that adds these attributes to each event.
func (h *Handler) WithAttrs(attrs []slog.Attr) slog.Handler {
	made := *h
	made.fields = h.fields[:len(h.fields):len(h.fields)]
	for _, attr := range attrs {
		made.fields = appendAttr(made.fields, h.prefix, attr)
	}
	return &made
}

// WithGroup returns a handler that puts later attributes into this group.
func (h *Handler) WithGroup(name string) slog.Handler {
	made := *h
	if name != "" {
		made.prefix += name + "."
	}
	return &made
}

// appendAttr appends the fields of an attribute. A group without a name is part of the group that
// it is in.
func appendAttr(fields []Field, prefix string, attr slog.Attr) []Field {
	value := attr.Value.Resolve()
	if value.Kind() == slog.KindGroup {
		if attr.Key != "" {
			prefix += attr.Key + "."
		}
		for _, inner := range value.Group() {
			fields = appendAttr(fields, prefix, inner)
		}
		return fields
	}
	if attr.Equal(slog.Attr{}) {
		return fields
	}
	return append(fields, Field{Name: prefix + attr.Key, Value: value.String()})
}

// levelOf returns the greatest of the tree's levels that isn't above this one.
func levelOf(level slog.Level) Level {
	switch {
	case level >= slog.LevelError:
		return LevelError
	case level >= slog.LevelWarn:
		return LevelWarn
	case level >= slog.LevelInfo:
		return LevelInfo
	case level >= slog.LevelDebug:
		return LevelDebug
	}
	return LevelTrace
}
