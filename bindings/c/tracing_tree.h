/* tracing_tree: draws spans and events as a tree. For C99 and C++17.
 *
 *     tt_tree tree = TT_NO_TREE;
 *     tt_settings settings = tt_default_settings();
 *     tt_new(&tree, &settings);
 *     .. a call, and after each call that may draw: tt_write(&tree, stdout) ..
 *     tt_free(&tree);
 *
 * Current span. `tt_enter` makes a span the current span of the calls whose context is NULL, and
 * `tt_exit` ends that. So a service passes no ids and no contexts. If it shows threads or times, it
 * passes contexts.
 *
 * Output. What a call draws is its output. `tt_write` writes the output of the last call to a
 * stream, and `tt_text` copies it.
 *
 * Proof. `tt_version` and the functions `tt_raw_..` and `tt_utf8_..` are proved: each meets its
 * contract in crates/tracing_tree_c/src/calls.rt. The proof ends at these functions. The other
 * functions are defined in this header. They check for NULL and call the proved function of that
 * name.
 *
 * Obligations. A call checks only for NULL and for what its statuses name. The caller must ensure:
 * - A pointer that isn't NULL points to a whole value of its type. A string's address points to
 *   `len` bytes, and `fields` points to `field_count` fields.
 * - A `bool` is 0 or 1.
 * - A `tt_tree` is initialized with `TT_NO_TREE`, or by setting all its bytes to 0. In C,
 *   `static tt_tree tree;` at file scope does that.
 * - A `tt_tree` is never copied. The library can't detect a copy that is used after the other was
 *   freed. A `tt_tree` may be anywhere in memory that is aligned for it. It may be moved between
 *   calls if the old place is no longer used.
 * - What `tree`, `id`, `went` and `room` point to overlaps nothing else that is passed. No thread
 *   changes what is passed before the call returns.
 * - `malloc`, `realloc` and `free` belong to one allocator.
 * - No function is called from a signal handler, or in the forked child of a process with threads.
 *
 * NULL. A call that is passed NULL returns `TT_NULL`, also if a string's address is NULL and its
 * length is 0. `tt_bytes` and `tt_str` return the empty string for NULL. `context` may be NULL: it
 * means `tt_here`. `fields` may be NULL if `field_count` is 0. `room` may be NULL to get only the
 * length. The address of `thread_name` may be NULL if `has_thread_name` is false. `data` of a
 * `tt_timer` may be NULL.
 *
 * Threads. A call may come from any thread. But a tree serves one call at a time, including
 * `tt_write`, `tt_text` and `tt_free`. Callers on several threads hold a lock around each call
 * together with its `tt_write` or `tt_text`. They pass contexts, since the entered spans belong to
 * the tree, not to a thread. Different trees share nothing. It is proved that a tree may move from
 * one thread to another.
 *
 * Ownership. The tree owns its memory, and `tt_free` returns it. No function keeps a pointer that
 * it was passed: strings, fields and settings are copied, or no longer needed when the call
 * returns. A value of a field (`tt_string` and the like) is in memory of the caller, so nothing has
 * to be freed.
 *
 * Memory. A call that returns `TT_NO_MEMORY` changes nothing, except as described at the statuses.
 * If the same call is made again with enough memory, it does what it would have done the first
 * time.
 */
#ifndef TRACING_TREE_H
#define TRACING_TREE_H

#include <stdbool.h>
#include <stddef.h>
#include <stdint.h>
#include <stdio.h>
#include <stdlib.h>
#include <string.h>

#ifdef __cplusplus
extern "C" {
#endif

/* The version of this header. It must not be used with a library whose `tt_version` differs. */
#define TT_VERSION 1u

/* What a call returns. After any status except `TT_OK`:
 * - No span has been made, changed or closed, and nothing has been drawn.
 * - `tt_text` returns 0 until the next call. After a refused `tt_new` the output is unchanged.
 * - The timer is unchanged, except that `tt_event_timed` may have set its strings.
 * If several statuses apply, `TT_NULL` is returned before all others, then `TT_MISSING`, then any
 * of the rest. `tt_event_timed` has its own order.
 *
 * A row's indent is its level times `indent_amount` columns. The level is taken modulo
 * `wraparound`. With `indent_lines`, the row of a parent that is shown again counts as one level
 * more.
 *
 * `TT_TIMER` and `TT_FAILED` don't occur in this version: each timer can show every moment. */
enum {
  TT_OK = 0,
  TT_NOT_HELD = 1,  /* a span that the call names isn't live, has no handle left to close, or has no
                       entry left to exit */
  TT_TOO_WIDE = 2,  /* a row's indent is above 2^64 - 1 columns */
  TT_TOO_MANY = 3,  /* no id, or no further handle of this span, is left */
  TT_NO_MEMORY = 4, /* out of memory; the call may be made again */
  TT_TIMER = 5,     /* the timer can't show this moment */
  TT_FAILED = 6,    /* the tree has failed earlier */
  TT_MISSING = 7,   /* the tree hasn't been made yet, or it was freed */
  TT_NOT_UTF8 = 8,  /* a string isn't UTF-8 */
  TT_UNKNOWN = 9,   /* a kind of parent or a level is unknown */
  TT_THERE = 10,    /* `tt_new`: there is a tree already */
  TT_SIZE = 11,     /* `tt_new`: `size` isn't the library's, as in another version of the header */
  TT_SETTINGS = 12, /* `tt_new`: the settings are invalid */
  TT_NULL = 13,     /* a pointer or a string's address is NULL */
  TT_STREAM = 14    /* `tt_write`: the stream failed */
};

/* A tree. If `there` is false, as in zeroed memory, the tree is missing. Only the library uses the
 * fields. Padding isn't read, here and in the other structs. */
typedef struct tt_tree {
  void *inside;
  bool there;
} tt_tree;

#ifdef __cplusplus
#define TT_NO_TREE tt_tree{nullptr, false}
#else
#define TT_NO_TREE ((tt_tree){NULL, false})
#endif

/* A UTF-8 string without a terminating NUL: its address, never NULL, and its length in bytes. */
typedef struct tt_text_ref {
  const uint8_t *at;
  size_t len;
} tt_text_ref;

/* A field. The value is drawn unchanged: include quotes if they should be drawn. A field named
 * `message` is drawn as its value only. In a span this holds only for the first field, in an event
 * for every field. An event omits fields whose names start with `log.`. */
typedef struct tt_field {
  tt_text_ref name;
  tt_text_ref value;
} tt_field;

/* Timers (`timer` of `tt_settings`). */
enum {
  TT_TIMER_NONE = 0,   /* shows no time */
  TT_TIMER_UPTIME = 1, /* the time of `mono` since `epoch` */
  TT_TIMER_UTC = 2,    /* the date and time of `wall` */
  TT_TIMER_LOCAL = 3   /* the date and time of `wall` at `offset` */
};

/* What a tree draws and how. `tt_default_settings` sets all fields. `tt_new` refuses any other
 * `size` than sizeof(tt_settings). Whether this header fits the library is shown by `tt_version`,
 * not by `size`. */
typedef struct tt_settings {
  uint64_t size;          /* sizeof(tt_settings) */
  uint64_t indent_amount; /* columns for each level */
  uint64_t wraparound;    /* after this many levels the indent starts again at the left; not 0 */
  uint64_t epoch;         /* for TT_TIMER_UPTIME: the start of the uptime, in nanoseconds of `mono`;
                             before it the uptime is 0 */
  uint32_t timer;         /* one of TT_TIMER_.. */
  int32_t offset;         /* for TT_TIMER_LOCAL: seconds east of UTC, -93599 to 93599 */
  bool higher_precision;  /* elapsed times have two decimals */
  bool ansi;              /* colours, by escape sequences */
  bool indent_lines;      /* lines between a span and what is in it */
  bool targets;           /* the targets of spans and events */
  bool thread_ids;        /* `thread_id` in front of each line */
  bool thread_names;      /* `thread_name` in front of each line */
  bool verbose_entry;     /* a span's parent is shown again before the span opens */
  bool verbose_exit;      /* a closing span is shown whole, and its parent again after it */
  bool span_retrace;      /* the path to an event or a new span is shown again if another branch was
                             shown last */
  bool deferred_spans;    /* a span is shown when it, or one of its descendants, is first the
                             current span of an event; the path to an event is shown again as
                             with `span_retrace` */
  bool close_retrace;     /* with one of the last two: a span that closes is shown again if its
                             parent isn't on the path of the last span */
  bool span_modes;        /* rows of spans are labelled, for example `open: ` */
  bool bracketed_fields;  /* a span's fields are in braces */
} tt_settings;

/* The context of a call. */
typedef struct tt_context {
  uint64_t current;         /* the id of the current span, or 0 if there is no such span */
  uint64_t thread_id;       /* the number of the thread */
  tt_text_ref thread_name;  /* the thread's name, read only if `has_thread_name` is true */
  uint64_t mono;            /* nanoseconds on a clock that only moves forward; if it is below its
                               value when a span opened, the time in that span counts as 0 */
  int64_t wall;             /* nanoseconds since 1970-01-01T00:00:00Z, negative before it */
  bool has_thread_name;
} tt_context;

/* Kinds of parents (`parent_kind`). */
enum {
  TT_ROOT = 0,    /* no parent */
  TT_CURRENT = 1, /* the current span of the context, if it has one */
  TT_OF = 2       /* the span with the id `parent` */
};

/* A new span, except its fields. */
typedef struct tt_attributes {
  tt_text_ref name;
  tt_text_ref target;
  uint64_t parent;      /* an id, read only if parent_kind is TT_OF */
  uint32_t parent_kind; /* TT_ROOT, TT_CURRENT or TT_OF */
} tt_attributes;

/* Levels (`level` of `tt_event_ref`). */
enum { TT_TRACE = 0, TT_DEBUG = 1, TT_INFO = 2, TT_WARN = 3, TT_ERROR = 4 };

/* An event, except its fields. */
typedef struct tt_event_ref {
  tt_text_ref target;
  uint64_t parent;      /* an id, read only if parent_kind is TT_OF */
  uint32_t parent_kind; /* TT_ROOT, TT_CURRENT or TT_OF */
  uint32_t level;       /* TT_TRACE to TT_ERROR */
} tt_event_ref;

/* The strings that are shown as the time (`tt_set_time`). */
typedef struct tt_time {
  tt_text_ref moment;
  tt_text_ref elapsed;
} tt_time;

/* Returns the version of the library: `TT_VERSION` of the header that fits it. Any thread may call
 * it at any time. */
uint32_t tt_version(void);

/* ---- The proved functions. No pointer may be NULL, and no string's address, even if the string is
 * empty. This includes `thread_name` if the thread has no name. The functions below call these and
 * say what each does. Bindings to other languages call these. */

void tt_raw_free(tt_tree *tree);
uint32_t tt_raw_new(tt_tree *tree, const tt_settings *settings);
uint32_t tt_raw_new_span(tt_tree *tree, const tt_attributes *attributes, const tt_field *fields, size_t field_count,
                         const tt_context *context, uint64_t *id);
uint32_t tt_raw_clone_span(tt_tree *tree, uint64_t id);
uint32_t tt_raw_record(tt_tree *tree, uint64_t id, const tt_field *fields, size_t field_count);
uint32_t tt_raw_event(tt_tree *tree, const tt_event_ref *event, const tt_field *fields, size_t field_count,
                      const tt_context *context);
uint32_t tt_raw_close(tt_tree *tree, uint64_t id, const tt_context *context, bool *went);
uint32_t tt_raw_set_time(tt_tree *tree, const tt_time *time);
size_t tt_raw_text(tt_tree *tree, uint8_t *room, size_t size);
uint32_t tt_raw_enter(tt_tree *tree, uint64_t id);
uint32_t tt_raw_exit(tt_tree *tree, uint64_t id);
uint64_t tt_raw_current(tt_tree *tree);
size_t tt_raw_string(const uint8_t *text, size_t len, uint8_t *room, size_t size);
size_t tt_raw_int(int64_t value, uint8_t *room, size_t size);
size_t tt_raw_uint(uint64_t value, uint8_t *room, size_t size);
size_t tt_raw_bool(bool value, uint8_t *room, size_t size);

/* For a caller whose strings are always UTF-8, as in a language with a UTF-8 string type. These
 * functions don't check the strings and never return TT_NOT_UTF8. If a string isn't UTF-8, nothing
 * is promised any more, for this call and all later ones. For strings from elsewhere, call
 * `tt_raw_new_span` and `tt_raw_event`. `thread_name` counts only if `has_thread_name` is true. */

uint32_t tt_utf8_new_span(tt_tree *tree, const tt_attributes *attributes, const tt_field *fields, size_t field_count,
                          const tt_context *context, uint64_t *id);
uint32_t tt_utf8_event(tt_tree *tree, const tt_event_ref *event, const tt_field *fields, size_t field_count,
                       const tt_context *context);

/* ---- Strings, fields and settings. */

/* Returns a string of `len` bytes, or the empty string if `at` is NULL. */
static inline tt_text_ref tt_bytes(const void *at, size_t len) {
  tt_text_ref text;
  text.at = at ? (const uint8_t *)at : (const uint8_t *)"";
  text.len = at ? len : 0;
  return text;
}

/* Returns a NUL-terminated string, without the NUL, or the empty string if `text` is NULL. */
static inline tt_text_ref tt_str(const char *text) { return tt_bytes(text, text ? strlen(text) : 0); }

/* No fields, for a `field_count` of 0. */
static const tt_field TT_NO_FIELDS[1] = {{{(const uint8_t *)"", 0}, {(const uint8_t *)"", 0}}};

/* Returns the settings of the Rust crate without a terminal: two columns for each level, no
 * wraparound, no timer, everything else off. */
static inline tt_settings tt_default_settings(void) {
  tt_settings settings;
  memset(&settings, 0, sizeof settings);
  settings.size = sizeof settings;
  settings.indent_amount = 2;
  settings.wraparound = UINT64_MAX;
  return settings;
}

/* ---- Checks for NULL. */

static inline bool tt_null_fields(const tt_field *fields, size_t field_count) {
  size_t i;
  if (!fields) return field_count > 0;
  for (i = 0; i < field_count; i++) {
    if (!fields[i].name.at || !fields[i].value.at) return true;
  }
  return false;
}

static inline bool tt_null_context(const tt_context *context) {
  return !context || (context->has_thread_name && !context->thread_name.at);
}

/* Returns the context with a thread name whose address isn't NULL. The name is empty if the thread
 * has no name. */
static inline tt_context tt_named(const tt_context *context) {
  tt_context named = *context;
  if (!named.has_thread_name) named.thread_name = tt_bytes(NULL, 0);
  return named;
}

/* Discards the output of the last call, and returns TT_NULL. No span has the id 0, so the clone
 * changes nothing else. */
static inline uint32_t tt_refuse_null(tt_tree *tree) {
  if (tree) (void)tt_raw_clone_span(tree, 0);
  return TT_NULL;
}

/* ---- The functions for C and C++. If a pointer or a string's address is NULL, each function that
 * returns a status makes no call and returns TT_NULL. (`tt_event_timed` checks some of them only
 * after it has set its strings.) `tt_free` does nothing if `tree` is NULL, and `tt_text` returns
 * 0. */

/* Returns the id of the current span: the innermost entered span that is live. Returns 0 if there
 * isn't one, and if the tree is missing. The output stays. */
static inline uint64_t tt_current(tt_tree *tree) { return tree ? tt_raw_current(tree) : 0; }

/* Returns the context of a call whose context is NULL: in the current span, by a thread without a
 * name and a number, at time 0. */
static inline tt_context tt_here(tt_tree *tree) {
  tt_context here;
  memset(&here, 0, sizeof here);
  here.current = tt_current(tree);
  here.thread_name = tt_bytes(NULL, 0);
  return here;
}

/* Makes a tree without spans, if `tree` is missing.
 *   TT_OK         the tree is made; `tt_free` must free it
 *   TT_THERE      there is a tree already, which is unchanged
 *   TT_SIZE       `size` isn't sizeof(tt_settings); no tree is made
 *   TT_SETTINGS   `wraparound` is 0, `timer` is unknown, or `offset` is outside its range and the
 *                 timer is TT_TIMER_LOCAL; no tree is made
 *   TT_NO_MEMORY  the settings are valid, but memory ran out; no tree is made */
static inline uint32_t tt_new(tt_tree *tree, const tt_settings *settings) {
  if (!tree || !settings) return TT_NULL;
  return tt_raw_new(tree, settings);
}

/* Frees a tree, which is missing afterwards. Does nothing if it is missing already. */
static inline void tt_free(tt_tree *tree) {
  if (tree) tt_raw_free(tree);
}

/* Opens a span with one handle, and draws it as the settings say. Writes its id to `id` only if the
 * status is TT_OK. A tree's ids start at 1 and are never used again.
 *   TT_OK         the span is live
 *   TT_MISSING    the tree is missing
 *   TT_UNKNOWN    `parent_kind` is unknown
 *   TT_NOT_UTF8   a string isn't UTF-8 (the thread's name counts if `has_thread_name` is true)
 *   TT_NO_MEMORY  memory ran out
 *   TT_NOT_HELD   the parent isn't live: `parent` for TT_OF, or `current` for TT_CURRENT if it
 *                 isn't 0
 *   TT_TOO_MANY   no id is left
 *   TT_TOO_WIDE   a row is too wide
 *   TT_FAILED     the tree has failed earlier */
static inline uint32_t tt_new_span(tt_tree *tree, const tt_attributes *attributes, const tt_field *fields, size_t field_count,
                                   const tt_context *context, uint64_t *id) {
  if (!tree || !attributes || !attributes->name.at || !attributes->target.at || tt_null_fields(fields, field_count) ||
      (context && tt_null_context(context)) || !id) {
    return tt_refuse_null(tree);
  }
  tt_context named = context ? tt_named(context) : tt_here(tree);
  return tt_raw_new_span(tree, attributes, fields ? fields : TT_NO_FIELDS, field_count, &named, id);
}

/* Adds a handle to a live span. Draws nothing and never allocates.
 *   TT_OK         the span has one handle more
 *   TT_MISSING    the tree is missing
 *   TT_NOT_HELD   the span isn't live
 *   TT_TOO_MANY   the span has 2^64 - 1 handles
 *   TT_FAILED     the tree has failed earlier */
static inline uint32_t tt_clone_span(tt_tree *tree, uint64_t id) {
  if (!tree) return TT_NULL;
  return tt_raw_clone_span(tree, id);
}

/* Appends fields to a span's fields. They are drawn when the span is shown again. Draws nothing.
 *   TT_OK         the fields were appended; or the span isn't live, and nothing happened
 *   TT_MISSING    the tree is missing
 *   TT_NOT_UTF8   a string isn't UTF-8
 *   TT_NO_MEMORY  memory ran out
 *   TT_FAILED     the tree has failed earlier */
static inline uint32_t tt_record(tt_tree *tree, uint64_t id, const tt_field *fields, size_t field_count) {
  if (!tree || tt_null_fields(fields, field_count)) return tt_refuse_null(tree);
  return tt_raw_record(tree, id, fields ? fields : TT_NO_FIELDS, field_count);
}

/* Draws an event. Nothing of it is kept. If its parent isn't live, it is drawn without a parent. If
 * its current span isn't live, it is drawn as if it had no current span.
 *   TT_OK         the event is drawn
 *   TT_MISSING    the tree is missing
 *   TT_UNKNOWN    `parent_kind` or `level` is unknown
 *   TT_NOT_UTF8   a string isn't UTF-8 (the thread's name counts if `has_thread_name` is true)
 *   TT_NO_MEMORY  memory ran out
 *   TT_TOO_WIDE   a row is too wide
 *   TT_TIMER      the timer can't show the moment; the tree has failed
 *   TT_FAILED     the tree has failed earlier */
static inline uint32_t tt_event(tt_tree *tree, const tt_event_ref *event, const tt_field *fields, size_t field_count,
                                const tt_context *context) {
  if (!tree || !event || !event->target.at || tt_null_fields(fields, field_count) || (context && tt_null_context(context))) {
    return tt_refuse_null(tree);
  }
  tt_context named = context ? tt_named(context) : tt_here(tree);
  return tt_raw_event(tree, event, fields ? fields : TT_NO_FIELDS, field_count, &named);
}

/* Drops a handle of a span. The span closes when it has no handles and no live children left, and
 * its close is drawn. Its parent then closes too if it has no handles and no other live children,
 * and so on upward. If the status is TT_OK, `went` is set to whether the span `id` closed.
 * Otherwise `went` is unchanged.
 *   TT_OK         the span has one handle less, or has closed
 *   TT_MISSING    the tree is missing
 *   TT_NOT_UTF8   the thread has a name that isn't UTF-8
 *   TT_NO_MEMORY  memory ran out; never if the span only loses a handle and the thread's name has
 *                 at most 16 bytes
 *   TT_NOT_HELD   the span isn't live, or has no handle left
 *   TT_TOO_WIDE   a row is too wide
 *   TT_FAILED     the tree has failed earlier */
static inline uint32_t tt_close(tt_tree *tree, uint64_t id, const tt_context *context, bool *went) {
  if (!tree || (context && tt_null_context(context)) || !went) return tt_refuse_null(tree);
  tt_context named = context ? tt_named(context) : tt_here(tree);
  return tt_raw_close(tree, id, &named, went);
}

/* Enters a span: it is the current span of later calls whose context is NULL. Spans may be entered
 * one in another. If a span is entered again, the current span stays, as in Rust's tracing. A span
 * that closes stays entered, but isn't the current span. Draws nothing.
 *   TT_OK         the span is entered
 *   TT_MISSING    the tree is missing
 *   TT_NOT_HELD   the span isn't live
 *   TT_NO_MEMORY  memory ran out */
static inline uint32_t tt_enter(tt_tree *tree, uint64_t id) {
  if (!tree) return TT_NULL;
  return tt_raw_enter(tree, id);
}

/* Removes the last entry into a span, wherever it is among the entries. The span may have closed.
 * Draws nothing and never allocates.
 *   TT_OK        there is one entry less
 *   TT_MISSING   the tree is missing
 *   TT_NOT_HELD  the span isn't entered */
static inline uint32_t tt_exit(tt_tree *tree, uint64_t id) {
  if (!tree) return TT_NULL;
  return tt_raw_exit(tree, id);
}

/* Shows these strings as the time of each event from now on. They replace the timer of the
 * settings, which doesn't come back. `moment` is drawn in front of the event, with a space after it
 * if it isn't empty. `elapsed` follows if the current span is live, always with a space after it.
 * Both are copied, and drawn unchanged, without colours.
 *   TT_OK         the strings are shown from now on
 *   TT_MISSING    the tree is missing
 *   TT_NOT_UTF8   a string isn't UTF-8
 *   TT_NO_MEMORY  memory ran out; never if each string has at most 16 bytes */
static inline uint32_t tt_set_time(tt_tree *tree, tt_text_ref moment, tt_text_ref elapsed) {
  tt_time time;
  if (!tree || !moment.at || !elapsed.at) return tt_refuse_null(tree);
  time.moment = moment;
  time.elapsed = elapsed;
  return tt_raw_set_time(tree, &time);
}

/* A custom timer: two functions that return the strings for the time of an event with this context.
 * A string must live until `tt_event_timed` returns. */
typedef struct tt_timer {
  tt_text_ref (*moment)(void *data, const tt_context *context);  /* the moment */
  tt_text_ref (*elapsed)(void *data, const tt_context *context); /* the time in the current span */
  void *data;                                                    /* passed to both; may be NULL */
} tt_timer;

/* Draws an event as `tt_event` does, with the time that this timer shows. Calls each function once,
 * in either order, before anything is drawn. `elapsed` is also called if the context has no current
 * span. The functions must not call the tree, and each string needs its own memory. Sets the
 * strings with `tt_set_time`, then draws the event with `tt_event`. Returns the first status that
 * isn't TT_OK, otherwise TT_OK. Once set, the strings stay set, even if the event is refused. NULL
 * for `event`, `fields` or a string in them or in `context` is only found by `tt_event`. */
static inline uint32_t tt_event_timed(tt_tree *tree, const tt_timer *timer, const tt_event_ref *event, const tt_field *fields,
                                      size_t field_count, const tt_context *context) {
  uint32_t status;
  tt_context here;
  if (!tree || !timer || !timer->moment || !timer->elapsed) return tt_refuse_null(tree);
  here = context ? *context : tt_here(tree);
  status = tt_set_time(tree, timer->moment(timer->data, &here), timer->elapsed(timer->data, &here));
  return status == TT_OK ? tt_event(tree, event, fields, field_count, &here) : status;
}

/* Returns the length in bytes of the output of the last call. Copies the output to `room` if all of
 * it fits in `size` bytes. Otherwise `room` is unchanged. The length is 0 if the last call drew
 * nothing or was refused (except `tt_new`), or if the tree is missing. The output stays until the
 * next call, so it can be copied again. It is UTF-8, ends with a line feed and has no terminating
 * NUL. */
static inline size_t tt_text(tt_tree *tree, uint8_t *room, size_t size) {
  uint8_t none[1];
  if (!tree) return 0;
  return room ? tt_raw_text(tree, room, size) : tt_raw_text(tree, none, 0);
}

/* Writes the output of the last call to a stream, as `fwrite` does: the stream may hold it back.
 * Writes nothing if the output is empty. Returns `TT_OK`, `TT_NULL`, `TT_STREAM` if the stream
 * failed, which may have written a prefix, or `TT_NO_MEMORY` if an output of more than 1024 bytes
 * can't be copied. Nothing is written then. The output stays until the next call. */
static inline uint32_t tt_write(tt_tree *tree, FILE *out) {
  uint8_t room[1024];
  uint8_t *text = room;
  size_t length = tt_text(tree, NULL, 0);
  uint32_t status = TT_OK;
  if (!tree || !out) return TT_NULL;
  if (length > sizeof room) text = (uint8_t *)malloc(length);
  if (!text) return TT_NO_MEMORY;
  tt_text(tree, text, length);
  if (fwrite(text, 1, length, out) != length) status = TT_STREAM;
  if (text != room) free(text);
  return status;
}

/* ---- Values of fields, as Rust's `Debug` prints them. They are written to memory of the caller:
 *
 *     char room[256];
 *     tt_values values = tt_values_in(room, sizeof room);
 *     tt_field fields[] = {{tt_str("path"), tt_string(&values, tt_str("/pay"))},
 *                          {tt_str("size"), tt_int(&values, 3)}};
 *
 * are the fields path="/pay" and size=3. The values stay until the memory is used otherwise. If a
 * value doesn't fit, its address is NULL, and the call that it is passed to returns TT_NULL. */

/* Memory of the caller, and how much of it values use. */
typedef struct tt_values {
  uint8_t *at;
  size_t size;
  size_t used;
} tt_values;

/* Returns `size` bytes of memory without values. If `at` is NULL, no value fits. */
static inline tt_values tt_values_in(void *at, size_t size) {
  tt_values values;
  values.at = (uint8_t *)at;
  values.size = at ? size : 0;
  values.used = 0;
  return values;
}

/* Returns the free memory of `values`, which isn't NULL. */
static inline uint8_t *tt_values_room(const tt_values *values, size_t *size) {
  static uint8_t none[1];
  *size = values && values->at ? values->size - values->used : 0;
  return *size ? values->at + values->used : none;
}

/* Returns the value that was written to the free memory, if it fit. */
static inline tt_text_ref tt_values_add(tt_values *values, size_t len) {
  tt_text_ref value = {NULL, 0};
  if (!values || !values->at || len == 0 || len > values->size - values->used) return value;
  value.at = values->at + values->used;
  value.len = len;
  values->used += len;
  return value;
}

/* Returns a string in quotes. Quotes, backslashes and ASCII's control characters are escaped, as in
 * Rust. Other characters stay. (Rust escapes a few that aren't ASCII too.) The value also doesn't
 * fit if memory runs out. */
static inline tt_text_ref tt_string(tt_values *values, tt_text_ref text) {
  size_t size;
  uint8_t *room = tt_values_room(values, &size);
  return tt_values_add(values, text.at ? tt_raw_string(text.at, text.len, room, size) : 0);
}

/* Returns a whole number in decimal digits. The value also doesn't fit if memory runs out. */
static inline tt_text_ref tt_int(tt_values *values, int64_t value) {
  size_t size;
  uint8_t *room = tt_values_room(values, &size);
  return tt_values_add(values, tt_raw_int(value, room, size));
}

static inline tt_text_ref tt_uint(tt_values *values, uint64_t value) {
  size_t size;
  uint8_t *room = tt_values_room(values, &size);
  return tt_values_add(values, tt_raw_uint(value, room, size));
}

/* Returns `true` or `false`. */
static inline tt_text_ref tt_bool(tt_values *values, bool value) {
  size_t size;
  uint8_t *room = tt_values_room(values, &size);
  return tt_values_add(values, tt_raw_bool(value, room, size));
}

/* Returns a value whose debug form the caller has made, a NUL-terminated string. It isn't copied,
 * and is drawn unchanged. */
static inline tt_text_ref tt_debug(const char *value) { return tt_str(value); }

#ifdef __cplusplus
}
#endif

#endif
