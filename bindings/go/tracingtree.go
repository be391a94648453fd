// Package tracingtree draws spans and events as a tree.
//
//	tree, err := tracingtree.New(os.Stderr, tracingtree.DefaultSettings())
//	slog.SetDefault(slog.New(tracingtree.NewHandler(tree, nil)))
//	ctx, span := tree.Start(ctx, "request", tracingtree.F("path", "/pay"))
//	slog.WarnContext(ctx, "slow", "ms", 271)
//	span.End()
//
// prints
//
//	┐request path=/pay
//	├─ WARN slow, ms=271
//	┘
//
// It links the C library statically: `libtracing_tree.a` in `lib/` next to this file, in the `bin/`
// of a checkout, or in a folder of the linker. CGO_LDFLAGS=-L.. and CGO_CFLAGS=-I.. name other
// folders. The handler for log/slog needs Go 1.21, the rest Go 1.19.
package tracingtree

/*
#cgo CFLAGS: -I${SRCDIR}/lib -I${SRCDIR}/../c
#cgo LDFLAGS: -L${SRCDIR}/lib -L${SRCDIR}/../../bin -l:libtracing_tree.a
#include <stdlib.h>
#include <tracing_tree.h>
*/
import "C"

import (
	"context"
	"errors"
	"fmt"
	"io"
	"math"
	"runtime"
	"strings"
	"sync"
	"time"
	"unsafe"
)

// ErrClosed is the error of a call on a tree that was closed.
var ErrClosed = errors.New("tracingtree: the tree was closed")

// The errors for what the library's functions return.
var refusals = map[C.uint32_t]error{
	C.TT_TOO_WIDE:  errors.New("tracingtree: a row is too wide"),
	C.TT_TOO_MANY:  errors.New("tracingtree: no span or handle is left"),
	C.TT_NO_MEMORY: errors.New("tracingtree: out of memory"),
	C.TT_MISSING:   ErrClosed,
	C.TT_UNKNOWN:   errors.New("tracingtree: a level is unknown"),
	C.TT_SETTINGS:  errors.New("tracingtree: the settings are invalid"),
}

func errorOf(status C.uint32_t) error {
	if status == C.TT_OK {
		return nil
	}
	if err, ok := refusals[status]; ok {
		return err
	}
	return fmt.Errorf("tracingtree: status %d", status)
}

// Level is an event's level.
type Level uint32

// The levels, from the lowest to the highest.
const (
	LevelTrace Level = C.TT_TRACE
	LevelDebug Level = C.TT_DEBUG
	LevelInfo  Level = C.TT_INFO
	LevelWarn  Level = C.TT_WARN
	LevelError Level = C.TT_ERROR
)

// Field is a field's name and its drawn value.
type Field struct{ Name, Value string }

// F returns a field. A string is drawn unchanged, anything else as fmt.Sprint returns it.
func F(name string, value any) Field {
	if text, ok := value.(string); ok {
		return Field{Name: name, Value: text}
	}
	return Field{Name: name, Value: fmt.Sprint(value)}
}

// Timer says which time is drawn before each event.
type Timer uint32

// The timers.
const (
	TimerNone   Timer = C.TT_TIMER_NONE   // no time
	TimerUptime Timer = C.TT_TIMER_UPTIME // the time since New
	TimerUTC    Timer = C.TT_TIMER_UTC    // the date and time in UTC
	TimerLocal  Timer = C.TT_TIMER_LOCAL  // the date and time at the local offset of New
)

// Settings says what a tree draws and how. Start from DefaultSettings. A goroutine has no number
// and no name, so the library's settings for threads are left out.
type Settings struct {
	IndentAmount    uint64 // columns of a level
	Wraparound      uint64 // rows start at the left again after this number of levels; not 0
	Timer           Timer
	HigherPrecision bool // two decimals for the time since a span opened
	ANSI            bool // colours
	IndentLines     bool // lines and corners
	Targets         bool // the package that opens a span or records an event
	VerboseEntry    bool // shows the parent again when a span opens
	VerboseExit     bool // shows the name at a close, and the parent again
	SpanRetrace     bool // draws a span's path again when the drawing changes to another branch
	DeferredSpans   bool // draws a span when the first event occurs in it or in a descendant
	CloseRetrace    bool // draws a span again before its close, with one of the last two
	SpanModes       bool // labels rows, as `open: `
	BracketedFields bool // writes a span's fields in braces
}

// DefaultSettings returns settings with lines, two columns for each level and no time.
func DefaultSettings() Settings {
	return Settings{IndentAmount: 2, Wraparound: math.MaxUint64, IndentLines: true}
}

// Tree draws spans and events to a writer. Goroutines may share it: the current span is that of
// each call's context.
type Tree struct {
	mutex   sync.Mutex
	tree    C.tt_tree
	writer  io.Writer
	targets bool
	start   time.Time
	text    []byte
	lent    unsafe.Pointer // C memory for the strings and fields of one call
	size    uintptr
	failure error
}

// New returns a tree that writes to writer. Each call that draws writes once. The writer must not
// use the tree.
func New(writer io.Writer, settings Settings) (*Tree, error) {
	if found := C.tt_version(); found != C.TT_VERSION {
		return nil, fmt.Errorf("tracingtree: version %d of libtracing_tree.a is linked, and %d is needed",
			found, C.TT_VERSION)
	}
	t := &Tree{writer: writer, targets: settings.Targets, start: time.Now()}
	raw := settings.raw(t.start)
	if err := errorOf(C.tt_new(&t.tree, &raw)); err != nil {
		return nil, err
	}
	runtime.SetFinalizer(t, (*Tree).Close)
	return t, nil
}

func (s Settings) raw(start time.Time) C.tt_settings {
	_, offset := start.Zone()
	raw := C.tt_default_settings()
	raw.indent_amount = C.uint64_t(s.IndentAmount)
	raw.wraparound = C.uint64_t(s.Wraparound)
	raw.timer = C.uint32_t(s.Timer)
	raw.offset = C.int32_t(offset)
	raw.higher_precision = C.bool(s.HigherPrecision)
	raw.ansi = C.bool(s.ANSI)
	raw.indent_lines = C.bool(s.IndentLines)
	raw.targets = C.bool(s.Targets)
	raw.verbose_entry = C.bool(s.VerboseEntry)
	raw.verbose_exit = C.bool(s.VerboseExit)
	raw.span_retrace = C.bool(s.SpanRetrace)
	raw.deferred_spans = C.bool(s.DeferredSpans)
	raw.close_retrace = C.bool(s.CloseRetrace)
	raw.span_modes = C.bool(s.SpanModes)
	raw.bracketed_fields = C.bool(s.BracketedFields)
	return raw
}

// Close frees the tree. Later calls are refused with ErrClosed. Spans that are open aren't drawn as
// closed. It returns nil.
func (t *Tree) Close() error {
	t.mutex.Lock()
	defer t.mutex.Unlock()
	C.tt_free(&t.tree)
	C.free(t.lent)
	t.lent, t.size = nil, 0
	runtime.SetFinalizer(t, nil)
	return nil
}

// Err returns the first error of a Start, Record or End. Those methods return no error.
func (t *Tree) Err() error {
	t.mutex.Lock()
	defer t.mutex.Unlock()
	return t.failure
}

// Start opens a span in the current span of ctx. Returns a context whose current span is the new
// one. If the span can't be opened, Err says why, and the current span stays.
func (t *Tree) Start(ctx context.Context, name string, fields ...Field) (context.Context, *Span) {
	return t.open(ctx, t.callerPackage(), name, fields)
}

// Start opens a span in the tree of ctx's current span. Without a current span it draws nothing.
func Start(ctx context.Context, name string, fields ...Field) (context.Context, *Span) {
	if span := last(ctx, nil); span != nil {
		return span.tree.open(ctx, span.tree.callerPackage(), name, fields)
	}
	return ctx, &Span{}
}

// Event records an event in the current span of ctx.
func (t *Tree) Event(ctx context.Context, level Level, message string, fields ...Field) error {
	return t.event(ctx, time.Now(), level, t.callerPackage(), message, fields)
}

// Span is a span of a tree, from Start to End.
type Span struct {
	tree   *Tree
	parent *Span // the tree's current span at Start
	id     C.uint64_t
	ended  bool // under the tree's lock
}

// Record adds fields to the span. They are drawn when the span is shown again. It does nothing
// after End.
func (s *Span) Record(fields ...Field) {
	if s.tree == nil {
		return
	}
	s.tree.mutex.Lock()
	defer s.tree.mutex.Unlock()
	if !s.ended {
		list, count, _ := s.tree.lend(fields, "", "")
		s.tree.keep(errorOf(C.tt_record(&s.tree.tree, s.id, list, count)))
	}
}

// End closes the span. It is drawn as closed once the spans in it have ended too. A second call
// does nothing.
func (s *Span) End() {
	if s.tree == nil {
		return
	}
	s.tree.mutex.Lock()
	defer s.tree.mutex.Unlock()
	if !s.ended {
		s.ended = true
		var removed C.bool
		here := s.tree.here(nil, time.Now())
		s.tree.keep(s.tree.draw(C.tt_close(&s.tree.tree, s.id, &here, &removed)))
	}
}

// A context with a current span. The key is the tree, or nil for the last span of any tree.
type spanContext struct {
	context.Context
	span *Span
}

type spanKey struct{ tree *Tree }

func (c spanContext) Value(key any) any {
	if key, ok := key.(spanKey); ok && (key.tree == nil || key.tree == c.span.tree) {
		return c.span
	}
	return c.Context.Value(key)
}

// last returns the last span of a tree in ctx, or of any tree if it is nil.
func last(ctx context.Context, tree *Tree) *Span {
	if ctx == nil {
		return nil
	}
	span, _ := ctx.Value(spanKey{tree}).(*Span)
	return span
}

func (t *Tree) open(
	ctx context.Context, target, name string, fields []Field,
) (context.Context, *Span) {
	t.mutex.Lock()
	defer t.mutex.Unlock()
	parent := t.current(ctx)
	list, count, texts := t.lend(fields, name, target)
	attributes := C.tt_attributes{name: texts[0], target: texts[1], parent_kind: C.TT_CURRENT}
	here := t.here(parent, time.Now())
	var id C.uint64_t
	status := C.tt_new_span(&t.tree, &attributes, list, count, &here, &id)
	t.keep(t.draw(status))
	if ctx == nil {
		ctx = context.Background()
	}
	if status != C.TT_OK {
		return ctx, &Span{}
	}
	span := &Span{tree: t, parent: parent, id: id}
	return spanContext{ctx, span}, span
}

func (t *Tree) event(
	ctx context.Context, at time.Time, level Level, target, message string, fields []Field,
) error {
	if message != "" {
		fields = append([]Field{{"message", message}}, fields...)
	}
	t.mutex.Lock()
	defer t.mutex.Unlock()
	list, count, texts := t.lend(fields, target, "")
	event := C.tt_event_ref{target: texts[0], parent_kind: C.TT_CURRENT, level: C.uint32_t(level)}
	here := t.here(t.current(ctx), at)
	return t.draw(C.tt_event(&t.tree, &event, list, count, &here))
}

// current returns the innermost span of ctx that hasn't ended.
func (t *Tree) current(ctx context.Context) *Span {
	span := last(ctx, t)
	for span != nil && span.ended {
		span = span.parent
	}
	return span
}

// here returns the context of a call at this time.
func (t *Tree) here(current *Span, at time.Time) C.tt_context {
	here := C.tt_context{thread_id: 1, thread_name: C.tt_bytes(nil, 0)}
	here.wall = C.int64_t(at.UnixNano())
	if current != nil {
		here.current = current.id
	}
	if passed := at.Sub(t.start); passed > 0 {
		here.mono = C.uint64_t(passed)
	}
	return here
}

// draw writes what the last call drew.
func (t *Tree) draw(status C.uint32_t) error {
	if err := errorOf(status); err != nil {
		return err
	}
	length := C.tt_text(&t.tree, nil, 0)
	if length == 0 {
		return nil
	}
	if C.size_t(cap(t.text)) < length {
		t.text = make([]byte, 2*length)
	}
	t.text = t.text[:length]
	C.tt_text(&t.tree, (*C.uint8_t)(&t.text[0]), length)
	_, err := t.writer.Write(t.text)
	return err
}

// keep stores the first error.
func (t *Tree) keep(err error) {
	if t.failure == nil {
		t.failure = err
	}
}

// lend copies fields and two strings to C memory, which the next lend uses again.
func (t *Tree) lend(
	fields []Field, first, second string,
) (*C.tt_field, C.size_t, [2]C.tt_text_ref) {
	valid := make([]string, 0, 2*len(fields)+2)
	for _, field := range fields {
		valid = append(valid, validUTF8(field.Name), validUTF8(field.Value))
	}
	valid = append(valid, validUTF8(first), validUTF8(second))
	head := uintptr(len(fields)) * unsafe.Sizeof(C.tt_field{})
	size := head
	for _, text := range valid {
		size += uintptr(len(text))
	}
	if t.size <= size { // the last string may be empty, and has an address too
		C.free(t.lent)
		t.size = 2*size + 256
		t.lent = C.malloc(C.size_t(t.size))
	}
	free := unsafe.Slice((*byte)(t.lent), t.size)[head:]
	next := func() C.tt_text_ref {
		text := valid[0]
		valid = valid[1:]
		lent := C.tt_text_ref{at: (*C.uint8_t)(&free[0]), len: C.size_t(len(text))}
		free = free[copy(free, text):]
		return lent
	}
	list := unsafe.Slice((*C.tt_field)(t.lent), len(fields))
	for i := range list {
		list[i].name = next()
		list[i].value = next()
	}
	return (*C.tt_field)(t.lent), C.size_t(len(fields)), [2]C.tt_text_ref{next(), next()}
}

// validUTF8 returns the string with what isn't UTF-8 replaced by a replacement character.
func validUTF8(text string) string { return strings.ToValidUTF8(text, "\uFFFD") }

// callerPackage returns the package that called the method of this package that calls it. It is
// empty if targets aren't drawn.
func (t *Tree) callerPackage() string {
	var callers [1]uintptr
	if !t.targets || runtime.Callers(3, callers[:]) == 0 {
		return ""
	}
	return packageAt(callers[0])
}

// packageAt returns the path of the package that has this program counter.
func packageAt(pc uintptr) string {
	frame, _ := runtime.CallersFrames([]uintptr{pc}).Next()
	name := frame.Function
	slash := strings.LastIndexByte(name, '/') + 1
	if dot := strings.IndexByte(name[slash:], '.'); dot >= 0 {
		name = name[:slash+dot]
	}
	return strings.ReplaceAll(name, "%2e", ".")
}
