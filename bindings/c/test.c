/* Tests what no proof covers: calls from a C program, mistakes of callers, and each allocation
 * failing in turn. Prints each check that fails, and at the end how many checks passed and failed.
 * Linked with --wrap=malloc and --wrap=realloc. */
#include "tracing_tree.h"
#include <stdio.h>
#include <stdlib.h>

/* ---- allocations that fail */

static long asked, refused_at;
static bool counting;

void *__real_malloc(size_t size);
void *__real_realloc(void *old, size_t size);
void *__wrap_malloc(size_t size);
void *__wrap_realloc(void *old, size_t size);

static bool is_refused(void) { return counting && ++asked == refused_at; }

void *__wrap_malloc(size_t size) { return is_refused() ? NULL : __real_malloc(size); }

void *__wrap_realloc(void *old, size_t size) { return is_refused() ? NULL : __real_realloc(old, size); }

/* ---- checks */

static int passed, failed;

static void check(bool holds, const char *what, long at) {
  if (holds) {
    passed++;
    return;
  }
  failed++;
  printf("c: FAILED: %s (%ld)\n", what, at);
}

/* ---- a script of calls */

enum kind { OPEN, NEW, EVENT, TIMED, RECORD, CLONE, CLOSE };

typedef struct step {
  enum kind kind;
  const char *name;
  uint64_t id;      /* the current span for NEW, EVENT and TIMED, otherwise the span itself */
  uint32_t level;
  const char *value;
} step;

static const step script[] = {
    {OPEN, "", 0, 0, ""},
    {NEW, "a server with a name of its own", 0, 0, "0123456789 0123456789"},
    {EVENT, "first", 1, TT_INFO, "a message of more than sixteen bytes\nin two lines"},
    {NEW, "conn", 1, 0, "short"},
    {CLONE, "", 2, 0, ""},
    {RECORD, "later", 2, 0, "a value that has to be kept somewhere"},
    {RECORD, "later again", 2, 0, "x"},
    {NEW, "deep", 2, 0, "y"},
    {NEW, "deeper", 3, 0, "y"},
    {NEW, "deeper still", 4, 0, "y"},
    {NEW, "as deep as a short path", 5, 0, "y"},
    {NEW, "deeper than a short path", 6, 0, "y"},
    {EVENT, "second", 7, TT_WARN, "z"},
    {TIMED, "timed", 7, TT_DEBUG, "a moment and a time of more than sixteen bytes each"},
    {TIMED, "timed again", 2, TT_DEBUG, "other texts in place of these"},
    {CLOSE, "", 7, 0, ""},
    {CLOSE, "", 6, 0, ""},
    {CLOSE, "", 2, 0, ""},
    {CLOSE, "", 5, 0, ""},
    {EVENT, "third", 1, TT_ERROR, "w"},
    {CLOSE, "", 4, 0, ""},
    {CLOSE, "", 3, 0, ""},
    {CLOSE, "", 2, 0, ""},
    {CLOSE, "", 1, 0, ""},
};

enum { STEPS = sizeof script / sizeof script[0], ROOM = 4096 };

/* The result of a step. */
typedef struct given {
  uint32_t status;
  uint64_t id;
  bool went;
  size_t length;
  uint8_t text[ROOM];
} given;

static tt_context context(uint64_t current) {
  tt_context made = {current, 7, tt_str("a thread with a long name"), 0, 0, true};
  return made;
}

/* The settings of the script's run, and whether it calls the functions `tt_utf8_..`. */
static int variant;
static bool vouched;

static void set_variant(tt_settings *settings) {
  settings->targets = settings->thread_names = true;
  settings->indent_lines = variant != 2;
  settings->span_retrace = variant != 1;
  settings->close_retrace = settings->verbose_exit = variant == 0;
  settings->deferred_spans = settings->ansi = settings->verbose_entry = variant == 1;
  settings->bracketed_fields = settings->span_modes = settings->thread_ids = variant == 2;
  settings->timer = variant == 0 ? TT_TIMER_NONE : variant == 1 ? TT_TIMER_UPTIME : TT_TIMER_LOCAL;
  if (variant == 2) settings->wraparound = 2;
}

/* Returns the string that it is passed, for a custom timer. */
static tt_text_ref shown(void *data, const tt_context *here) {
  (void)here;
  return tt_str((const char *)data);
}

static uint32_t call(tt_tree *tree, const step *s, given *out) {
  tt_timer timer = {shown, shown, (void *)s->value};
  tt_field fields[2] = {{tt_str("message"), tt_str(s->value)}, {tt_str(s->name), tt_str("1")}};
  tt_context here = context(s->id);
  tt_settings settings = tt_default_settings();
  tt_attributes attributes = {tt_str(s->name), tt_str("a target of more than sixteen bytes"), 0, TT_CURRENT};
  tt_event_ref event = {tt_str("t"), 0, TT_CURRENT, s->level};
  set_variant(&settings);
  switch (s->kind) {
  case OPEN: return tt_new(tree, &settings);
  case NEW: return (vouched ? tt_utf8_new_span : tt_new_span)(tree, &attributes, fields, 2, &here, &out->id);
  case EVENT: return (vouched ? tt_utf8_event : tt_event)(tree, &event, fields, 2, &here);
  case TIMED: return tt_event_timed(tree, &timer, &event, fields, 2, &here);
  case RECORD: return tt_record(tree, s->id, fields, 2);
  case CLONE: return tt_clone_span(tree, s->id);
  case CLOSE: return tt_close(tree, s->id, &here, &out->went);
  }
  return 99;
}

static void take(tt_tree *tree, const step *s, given *out) {
  memset(out, 0, sizeof *out);
  counting = true;
  out->status = call(tree, s, out);
  counting = false;
  out->length = tt_text(tree, out->text, ROOM);
}

static bool same(const given *a, const given *b) {
  return a->status == b->status && a->id == b->id && a->went == b->went && a->length == b->length &&
         memcmp(a->text, b->text, ROOM) == 0;
}

/* Runs the script with one allocation failing. The call that fails draws nothing. Made again, it
 * has the same result as with ample memory. Returns whether an allocation failed. */
static bool run(given *ample, long at) {
  static given now;
  tt_tree tree = TT_NO_TREE;
  int refusals = 0;
  asked = 0;
  refused_at = at;
  for (int i = 0; i < STEPS; i++) {
    given *out = at == 0 ? &ample[i] : &now;
    take(&tree, &script[i], out);
    if (at == 0) {
      check(out->status == TT_OK, "a call with ample memory", i);
    } else if (out->status == TT_NO_MEMORY) {
      refusals++;
      check(out->length == 0 && out->id == 0 && !out->went, "a call that was refused memory gives nothing", at);
      take(&tree, &script[i], out);
    }
    check(same(out, &ample[i]), "a call gives what it gives with ample memory", at * 100 + i);
  }
  if (at != 0 && asked >= at) check(refusals == 1, "a refused allocation refuses its call", at);
  tt_free(&tree);
  return asked >= at;
}

static void refusals(void) {
  given *ample = __real_malloc(sizeof(given) * STEPS);
  for (variant = 0; variant < 3; variant++) {
    long at = 0, again = 1;
    while (run(ample, at)) at++;
    check(at > 20, "the script asks for memory", at);
    vouched = true;
    while (run(ample, again)) again++;
    check(again == at, "as much memory by the functions whose caller vouches for UTF-8", again);
    vouched = false;
  }
  free(ample);
}

/* ---- mistakes of callers */

static const tt_context NOWHERE = {0, 1, {(const uint8_t *)"", 0}, 0, 0, false};
static const uint8_t BAD[] = {'a', 0xff};

static void settings_that_are_none(void) {
  tt_tree tree = TT_NO_TREE, none = TT_NO_TREE;
  for (int i = 0; i < 8; i++) {
    tt_settings settings = tt_default_settings();
    settings.timer = i < 5 ? TT_TIMER_NONE : TT_TIMER_LOCAL;
    switch (i) {
    case 0: settings.size -= 8; break;
    case 1: settings.size += 8; break;
    case 2: settings.size = 0; break;
    case 3: settings.wraparound = 0; break;
    case 4: settings.timer = 4; break;
    case 5: settings.offset = 93600; break;
    case 6: settings.offset = -93600; break;
    default: settings.offset = INT32_MIN;
    }
    check(tt_new(&tree, &settings) == (i < 3 ? TT_SIZE : TT_SETTINGS), "settings that are none", i);
    check(!tree.there && tree.inside == none.inside, "no tree is made of settings that are none", i);
  }
  for (int i = 0; i < 2; i++) {
    tt_settings settings = tt_default_settings();
    settings.timer = TT_TIMER_LOCAL;
    settings.offset = i == 0 ? 93599 : -93599;
    check(tt_new(&tree, &settings) == TT_OK, "the farthest offset", i);
    check(tt_new(&tree, &settings) == TT_THERE, "a tree that is there", i);
    settings.size = 0;
    check(tt_new(&tree, &settings) == TT_THERE, "a tree that is there, and settings that are none", i);
    tt_free(&tree);
  }
}

/* Returns a tree with lines and one open span, whose id is 1. */
static tt_tree started(void) {
  tt_tree tree = TT_NO_TREE;
  tt_settings settings = tt_default_settings();
  tt_attributes a = {tt_str("a"), tt_str(""), 0, TT_ROOT};
  uint64_t id = 0;
  settings.indent_lines = true;
  check(tt_new(&tree, &settings) == TT_OK, "a tree", 0);
  check(tt_new_span(&tree, &a, TT_NO_FIELDS, 0, &NOWHERE, &id) == TT_OK && id == 1, "the first span", 0);
  return tree;
}

/* Returns whether this is the output of the last call. */
static bool drew(tt_tree *tree, const char *text) {
  uint8_t room[256];
  size_t length = tt_text(tree, room, sizeof room);
  return length == strlen(text) && memcmp(room, text, length) == 0;
}

static void nothing_drawn(tt_tree *tree, uint32_t status, uint32_t wanted, const char *what, long at) {
  check(status == wanted, what, at);
  check(drew(tree, ""), "a refused call draws nothing", at);
}

static void texts_that_are_none(void) {
  tt_text_ref bad = tt_bytes(BAD, 2);
  tt_tree tree = started();
  for (int i = 0; i < 12; i++) {
    tt_attributes attributes = {i == 0 ? bad : tt_str("b"), i == 1 ? bad : tt_str(""), 0, i == 2 ? 3 : TT_ROOT};
    tt_field fields[2] = {{tt_str("n"), tt_str("v")}, {i == 3 ? bad : tt_str("n"), i == 4 ? bad : tt_str("v")}};
    uint32_t level = i == 8 ? 5 : i == 9 ? UINT32_MAX : TT_INFO;
    tt_event_ref event = {i == 6 ? bad : tt_str(""), 0, i == 7 ? UINT32_MAX : TT_ROOT, level};
    tt_context here = {0, 1, bad, 0, 0, i == 5 || i == 10 || i == 11};
    uint64_t id = 77;
    bool went = true;
    if (i < 6) {
      nothing_drawn(&tree, tt_new_span(&tree, &attributes, fields, 2, &here, &id), i == 2 ? TT_UNKNOWN : TT_NOT_UTF8, "a new span that can't be read", i);
      check(id == 77, "no id is handed out", i);
    } else if (i < 11) {
      nothing_drawn(&tree, tt_event(&tree, &event, fields, 2, &here), i < 7 || i > 9 ? TT_NOT_UTF8 : TT_UNKNOWN, "an event that can't be read", i);
    } else {
      nothing_drawn(&tree, tt_close(&tree, 1, &here, &went), TT_NOT_UTF8, "a close that can't be read", i);
      check(went, "nothing is said of the span", i);
    }
    if (i == 3 || i == 4) {
      nothing_drawn(&tree, tt_event(&tree, &event, fields, 2, &NOWHERE), TT_NOT_UTF8, "an event's field that can't be read", i);
      nothing_drawn(&tree, tt_record(&tree, 1, fields, 2), TT_NOT_UTF8, "a later field that can't be read", i);
    }
  }
  {
    tt_context unnamed = {1, 1, bad, 0, 0, false};
    tt_event_ref event = {tt_str(""), 0, TT_CURRENT, TT_INFO};
    tt_field message = {tt_str("message"), tt_str("x")};
    check(tt_event(&tree, &event, &message, 1, &unnamed) == TT_OK && drew(&tree, "├─ INFO x\n"), "a name that isn't read", 0);
  }
  tt_free(&tree);
}

static void texts_of_nothing(void) {
  tt_tree tree = started();
  tt_attributes empty = {tt_bytes(NULL, 0), tt_bytes(NULL, 5), 0, TT_CURRENT};
  tt_field field = {tt_str(NULL), tt_str(NULL)};
  tt_context here = {1, 1, tt_str(NULL), 0, 0, true};
  uint64_t id = 0;
  check(tt_new_span(&tree, &empty, &field, 1, &here, &id) == TT_OK, "texts of nothing", 0);
  check(id == 2 && drew(&tree, "└─┐ =\n"), "texts of nothing are drawn", 0);
  tt_free(&tree);
}

static void spans_that_are_none(void) {
  static const uint64_t ids[] = {0, 2, 99, UINT64_MAX};
  tt_tree tree = started();
  for (int i = 0; i < 4; i++) {
    tt_attributes child = {tt_str("b"), tt_str(""), ids[i], TT_OF};
    tt_event_ref event = {tt_str(""), ids[i], TT_OF, TT_INFO};
    tt_context here = {ids[i], 1, tt_str(""), 0, 0, false};
    uint64_t id = 77;
    bool went = true;
    nothing_drawn(&tree, tt_new_span(&tree, &child, TT_NO_FIELDS, 0, &NOWHERE, &id), TT_NOT_HELD, "a parent that isn't", i);
    check(tt_event(&tree, &event, TT_NO_FIELDS, 0, &here) == TT_OK && drew(&tree, "INFO\n"), "an event in no span", i);
    nothing_drawn(&tree, tt_clone_span(&tree, ids[i]), TT_NOT_HELD, "a clone of no span", i);
    nothing_drawn(&tree, tt_close(&tree, ids[i], &here, &went), TT_NOT_HELD, "a close of no span", i);
    nothing_drawn(&tree, tt_record(&tree, ids[i], TT_NO_FIELDS, 0), TT_OK, "a record on no span", i);
    check(id == 77 && went, "nothing is handed out", i);
  }
  tt_free(&tree);
}

/* Makes each call with each pointer and each string's address NULL, one at a time. */
static void nulls(void) {
  static const tt_text_ref null = {NULL, 0}, long_null = {NULL, 7};
  tt_tree tree = started();
  tt_attributes no_name = {null, tt_str(""), 0, TT_ROOT}, no_target = {tt_str("b"), long_null, 0, TT_ROOT};
  tt_attributes whole = {tt_str("b"), tt_str(""), 0, TT_ROOT};
  tt_event_ref bare = {null, 0, TT_ROOT, TT_INFO}, event = {tt_str(""), 0, TT_CURRENT, TT_INFO};
  tt_field field = {tt_str("n"), tt_str("v")}, nameless = {null, tt_str("v")}, valueless = {tt_str("n"), long_null};
  tt_context named = {1, 1, null, 0, 0, true}, nameless_thread = {1, 1, null, 0, 0, false};
  tt_timer timer = {shown, shown, NULL}, no_moment = {NULL, shown, NULL}, no_elapsed = {shown, NULL, NULL};
  tt_settings settings = tt_default_settings();
  uint64_t id = 77;
  bool went = true;
  check(tt_new(NULL, &settings) == TT_NULL && tt_new(&tree, NULL) == TT_NULL && drew(&tree, "┐a \n"), "NULL to tt_new", 0);
  const tt_attributes *attributes[] = {&whole, NULL, &no_name, &no_target, &whole, &whole, &whole, &whole};
  const tt_field *fields[] = {&field, &field, &field, &field, NULL, &nameless, &valueless, &field};
  const tt_context *contexts[] = {&NOWHERE, &NOWHERE, &NOWHERE, &NOWHERE, &NOWHERE, &NOWHERE, &NOWHERE, &named};
  const tt_event_ref *events[] = {&event, NULL, &bare, &bare, &event, &event, &event, &event};
  for (int i = 0; i < 8; i++) {
    tt_tree *there = i == 0 ? NULL : &tree;
    check(tt_clone_span(&tree, 1) == TT_OK && tt_close(&tree, 1, &NOWHERE, &went) == TT_OK && !went, "the tree goes on", i);
    went = true;
    check(tt_new_span(there, attributes[i], fields[i], 1, contexts[i], &id) == TT_NULL && drew(&tree, ""), "NULL to a new span", i);
    check(tt_event(there, events[i], fields[i], 1, contexts[i]) == TT_NULL && drew(&tree, ""), "NULL to an event", i);
    if (i == 0 || (i > 3 && i < 7)) check(tt_record(there, 1, fields[i], 1) == TT_NULL, "NULL to a record", i);
    if (i == 0 || i > 6) check(tt_close(there, 1, contexts[i], &went) == TT_NULL, "NULL to a close", i);
  }
  check(tt_new_span(&tree, &whole, &field, 1, &NOWHERE, NULL) == TT_NULL, "a new span without a place for its id", 0);
  check(tt_close(&tree, 1, &NOWHERE, NULL) == TT_NULL && tt_clone_span(NULL, 1) == TT_NULL, "NULL to a close and a clone", 0);
  check(tt_set_time(NULL, tt_str(""), tt_str("")) == TT_NULL && tt_set_time(&tree, null, tt_str("")) == TT_NULL &&
        tt_set_time(&tree, tt_str(""), long_null) == TT_NULL, "NULL as a time", 0);
  check(tt_event_timed(&tree, NULL, &event, &field, 1, &NOWHERE) == TT_NULL &&
        tt_event_timed(&tree, &no_moment, &event, &field, 1, &NOWHERE) == TT_NULL &&
        tt_event_timed(&tree, &no_elapsed, &event, &field, 1, &NOWHERE) == TT_NULL &&
        tt_event_timed(NULL, &timer, &event, &field, 1, &NOWHERE) == TT_NULL && drew(&tree, ""), "NULL to a timed event", 0);
  check(tt_enter(NULL, 1) == TT_NULL && tt_exit(NULL, 1) == TT_NULL && tt_current(NULL) == 0, "NULL to an entry", 0);
  check(tt_here(NULL).current == 0 && tt_here(NULL).thread_name.at, "the context of no tree", 0);
  check(id == 77 && went, "NULL hands nothing out", 0);
  check(tt_event(&tree, &event, NULL, 0, &nameless_thread) == TT_OK && drew(&tree, "├─ INFO\n"), "no fields, and no name of a thread", 0);
  check(tt_text(&tree, NULL, 5) == 12 && tt_text(NULL, NULL, 0) == 0, "the length of a text", 0);
  check(tt_close(&tree, 1, &nameless_thread, &went) == TT_OK && went && drew(&tree, "┘\n"), "what was refused changed nothing", 0);
  tt_free(NULL);
  tt_free(&tree);
}

/* ---- entered spans */

/* Makes each call in the current span, without a context. */
static void calls_without_a_context(void) {
  tt_tree tree = started();
  tt_attributes child = {tt_str("b"), tt_str(""), 0, TT_CURRENT};
  tt_event_ref event = {tt_str(""), 0, TT_CURRENT, TT_INFO};
  tt_field message = {tt_str("message"), tt_str("x")};
  tt_timer timer = {shown, shown, (void *)"T"};
  uint64_t id = 0;
  bool went = false;
  check(tt_current(&tree) == 0 && tt_event(&tree, &event, &message, 1, NULL) == TT_OK && drew(&tree, "INFO x\n"), "in no span", 0);
  check(tt_enter(&tree, 1) == TT_OK && drew(&tree, "") && tt_current(&tree) == 1, "an entry", 0);
  check(tt_event(&tree, &event, &message, 1, NULL) == TT_OK && drew(&tree, "├─ INFO x\n"), "an event in the entered span", 0);
  check(tt_new_span(&tree, &child, NULL, 0, NULL, &id) == TT_OK && id == 2 && drew(&tree, "└─┐b \n"), "a span in the entered span", 0);
  check(tt_enter(&tree, id) == TT_OK && tt_current(&tree) == 2, "an entry in an entry", 0);
  check(tt_event(&tree, &event, &message, 1, NULL) == TT_OK && drew(&tree, "  ├─ INFO x\n"), "an event in the inner span", 0);
  check(tt_event(&tree, &event, &message, 1, &NOWHERE) == TT_OK && drew(&tree, "INFO x\n"), "a context comes before the entries", 0);
  check(tt_close(&tree, id, NULL, &went) == TT_OK && went && drew(&tree, "┌─┘\n"), "a close without a context", 0);
  check(tt_current(&tree) == 1 && drew(&tree, "┌─┘\n"), "a closed span is passed over", 0);
  check(tt_exit(&tree, id) == TT_OK && drew(&tree, ""), "an exit after the close", 0);
  nothing_drawn(&tree, tt_exit(&tree, id), TT_NOT_HELD, "an exit without an entry", 0);
  check(tt_event_timed(&tree, &timer, &event, &message, 1, NULL) == TT_OK && drew(&tree, "├─T T INFO x\n"), "a timed event", 0);
  tt_free(&tree);
  check(tt_enter(&tree, 1) == TT_MISSING && tt_exit(&tree, 1) == TT_MISSING && tt_current(&tree) == 0, "entries of no tree", 0);
  check(tt_event(&tree, &event, &message, 1, NULL) == TT_MISSING, "an event of no tree, without a context", 0);
  tree = started();
  check(tt_current(&tree) == 0 && tt_exit(&tree, 1) == TT_NOT_HELD, "a new tree has no entries", 0);
  tt_free(&tree);
}

static void entries_that_are_refused(void) {
  static const uint64_t ids[] = {0, 2, 99, UINT64_MAX};
  tt_tree tree = started();
  uint32_t status;
  for (int i = 0; i < 4; i++) {
    nothing_drawn(&tree, tt_enter(&tree, ids[i]), TT_NOT_HELD, "an entry into no span", i);
    nothing_drawn(&tree, tt_exit(&tree, ids[i]), TT_NOT_HELD, "an exit of no span", i);
    check(tt_current(&tree) == 0, "a refused entry changes nothing", i);
  }
  counting = true;
  asked = 0;
  refused_at = 1;
  status = tt_enter(&tree, 1);
  counting = false;
  nothing_drawn(&tree, status, TT_NO_MEMORY, "an entry without memory", 0);
  check(tt_current(&tree) == 0, "an entry without memory changes nothing", 0);
  check(tt_enter(&tree, 1) == TT_OK && tt_current(&tree) == 1, "the entry again", 0);
  tt_free(&tree);
}

/* Compares random entries and exits with the stack of the registry of Rust's tracing: an entry into
 * a span that is entered is marked, and doesn't count. */
static void random_entries(void) {
  enum { SPANS = 5, MOST = 40 };
  struct { uint64_t id; bool again; } stack[MOST];
  size_t depth = 0, entries = 0, exits = 0;
  uint32_t random = 1;
  tt_tree tree = started();
  tt_attributes child = {tt_str("b"), tt_str(""), 0, TT_ROOT};
  for (uint64_t id = 0; id < SPANS;) check(tt_new_span(&tree, &child, NULL, 0, NULL, &id) == TT_OK, "a span to enter", (long)id);
  for (long step = 0; step < 2000; step++) {
    size_t i, top = depth;
    uint64_t id, current = 0;
    random = random * 1664525 + 1013904223;
    id = 1 + (random >> 16) % SPANS;
    if (depth < MOST && (random >> 28) % 2) {
      bool again = false;
      for (i = 0; i < depth; i++) again |= stack[i].id == id;
      stack[depth].id = id;
      stack[depth++].again = again;
      entries++;
      if (tt_enter(&tree, id) != TT_OK) check(false, "a random entry", step);
    } else {
      while (top > 0 && stack[top - 1].id != id) top--;
      if (tt_exit(&tree, id) != (top > 0 ? TT_OK : TT_NOT_HELD)) check(false, "a random exit", step);
      for (i = top; top > 0 && i < depth; i++) stack[i - 1] = stack[i];
      if (top > 0) depth--, exits++;
    }
    for (i = 0; i < depth; i++) current = stack[i].again ? current : stack[i].id;
    check(tt_current(&tree) == current, "the current span", step);
  }
  check(entries > 500 && exits > 500, "random entries and exits", (long)exits);
  tt_free(&tree);
}

/* ---- values of fields */

static void values_of_fields(void) {
  static const struct {
    const char *text, *shown;
  } strings[] = {
      {"", "\"\""}, {"plain", "\"plain\""}, {"a \"b\" \\", "\"a \\\"b\\\" \\\\\""}, {"\t\n\r'", "\"\\t\\n\\r'\""},
      {"\x01\x1f\x7f ~", "\"\\u{1}\\u{1f}\\u{7f} ~\""}, {"é┐😀", "\"é┐😀\""},
  };
  static const int64_t ints[] = {0, 7, -1, INT64_MAX, INT64_MIN};
  static const char *const whole[] = {"0", "7", "-1", "9223372036854775807", "-9223372036854775808"};
  char room[64];
  for (int i = 0; i < 6; i++) {
    size_t length = strlen(strings[i].shown);
    for (size_t size = 0; size <= length + 1; size++) {
      tt_values values = tt_values_in(room, size);
      tt_text_ref value = tt_string(&values, tt_str(strings[i].text));
      if (size < length) check(!value.at && values.used == 0, "a string that doesn't fit", (long)size);
      else check(value.len == length && memcmp(value.at, strings[i].shown, length) == 0 && values.used == length, "a string in quotes", i);
    }
  }
  for (int i = 0; i < 5; i++) {
    tt_values values = tt_values_in(room, sizeof room);
    tt_text_ref value = tt_int(&values, ints[i]);
    check(value.len == strlen(whole[i]) && memcmp(value.at, whole[i], value.len) == 0, "a whole number", i);
  }
  {
    tt_values values = tt_values_in(room, 20 + 4 + 5), zero = tt_values_in(room + 40, 1);
    tt_text_ref a = tt_uint(&values, UINT64_MAX), b = tt_bool(&values, true), c = tt_bool(&values, false), d = tt_uint(&values, 0);
    tt_text_ref nul = tt_string(&values, tt_bytes("", 1)), one = tt_uint(&zero, 7);
    check(a.len == 20 && memcmp(room, "18446744073709551615truefalse", 29) == 0, "values one after another", 0);
    check((const char *)b.at == room + 20 && (const char *)c.at == room + 24 && c.len == 5 && !d.at && !nul.at, "a value in no memory", 0);
    check(one.len == 1 && room[40] == '7', "a digit in a byte", 0);
    check(tt_debug("Some(3)").len == 7 && tt_debug(NULL).len == 0, "a value in its debug form", 0);
  }
  {
    tt_values values = tt_values_in(room, sizeof room);
    tt_text_ref nul = tt_string(&values, tt_bytes("", 1));
    check(nul.len == 4 && memcmp(nul.at, "\"\\0\"", 4) == 0, "a NUL in quotes", 0);
  }
}

static void values_that_are_refused(void) {
  static const tt_text_ref null = {NULL, 0};
  tt_tree tree = started();
  char room[16];
  tt_values none = tt_values_in(NULL, 8), small = tt_values_in(room, 3), large = tt_values_in(room, sizeof room);
  tt_event_ref event = {tt_str(""), 0, TT_ROOT, TT_INFO};
  tt_field field = {tt_str("n"), tt_string(&small, tt_str("ab"))};
  nothing_drawn(&tree, tt_event(&tree, &event, &field, 1, NULL), TT_NULL, "a value that didn't fit", 0);
  check(!tt_bool(&none, true).at && !tt_int(NULL, 1).at && !tt_uint(NULL, 1).at && !tt_string(NULL, tt_str("")).at &&
        !tt_string(&large, null).at && large.used == 0, "values in no memory", 0);
  field.value = tt_string(&large, tt_bytes(BAD, 2));
  nothing_drawn(&tree, tt_event(&tree, &event, &field, 1, NULL), TT_NOT_UTF8, "a value that isn't UTF-8", 0);
  counting = true;
  asked = 0;
  refused_at = 1;
  field.value = tt_string(&large, tt_str("a"));
  counting = false;
  check(!field.value.at && large.used == 4, "a value without memory", 0);
  field.value = tt_string(&large, tt_str("a"));
  check(tt_event(&tree, &event, &field, 1, NULL) == TT_OK && drew(&tree, "INFO n=\"a\"\n"), "a value", 0);
  tt_free(&tree);
}

/* ---- timers */

static void timers(void) {
  static const struct {
    uint32_t timer;
    int32_t offset;
    bool higher;
    const char *alone, *within;
  } cases[] = {
      {TT_TIMER_NONE, 0, false, "INFO x\n", "├─ INFO x\n"},
      {TT_TIMER_UPTIME, 0, false, "   2.000042s INFO x\n", "├─   2.000042s   2s  INFO x\n"},
      {TT_TIMER_UPTIME, 0, true, "   2.000042s INFO x\n", "├─   2.000042s  2.00s  INFO x\n"},
      {TT_TIMER_UTC, 0, false, "2000-02-29 12:34:56.05 INFO x\n", "├─2000-02-29 12:34:56.05   2s  INFO x\n"},
      {TT_TIMER_LOCAL, 19800, true, "2000-02-29 18:04:56.05 +05:30:00 INFO x\n",
       "├─2000-02-29 18:04:56.05 +05:30:00  2.00s  INFO x\n"},
  };
  for (int i = 0; i < 5; i++) {
    tt_tree tree = TT_NO_TREE;
    tt_settings settings = tt_default_settings();
    tt_attributes a = {tt_str("a"), tt_str(""), 0, TT_ROOT};
    tt_event_ref event = {tt_str(""), 0, TT_CURRENT, TT_INFO};
    tt_field message = {tt_str("message"), tt_str("x")};
    tt_context here = {0, 1, tt_str(""), 1000000000, INT64_C(951827694050000000), false};
    tt_timer own = {shown, shown, (void *)"T"};
    uint64_t id = 0;
    settings.indent_lines = true;
    settings.epoch = 1000000000;
    settings.timer = cases[i].timer;
    settings.offset = cases[i].offset;
    settings.higher_precision = cases[i].higher;
    check(tt_new(&tree, &settings) == TT_OK && tt_new_span(&tree, &a, NULL, 0, &here, &id) == TT_OK, "a tree with a timer", i);
    here.mono = 3000042000;
    here.wall = INT64_C(951827696050000000);
    check(tt_event(&tree, &event, &message, 1, &here) == TT_OK && drew(&tree, cases[i].alone), "a timer outside a span", i);
    here.current = id;
    check(tt_event(&tree, &event, &message, 1, &here) == TT_OK && drew(&tree, cases[i].within), "a timer in a span", i);
    check(tt_event_timed(&tree, &own, &event, &message, 1, &here) == TT_OK && drew(&tree, "├─T T INFO x\n"), "a timer of one's own", i);
    check(tt_set_time(&tree, tt_str("now"), tt_str("")) == TT_OK && drew(&tree, "") &&
          tt_event(&tree, &event, &message, 1, &here) == TT_OK && drew(&tree, "├─now  INFO x\n"), "a time that is set", i);
    nothing_drawn(&tree, tt_set_time(&tree, tt_bytes(BAD, 2), tt_str("")), TT_NOT_UTF8, "a moment that isn't UTF-8", i);
    nothing_drawn(&tree, tt_set_time(&tree, tt_str(""), tt_bytes(BAD, 2)), TT_NOT_UTF8, "a time that isn't UTF-8", i);
    here.current = 0;
    check(tt_event(&tree, &event, &message, 1, &here) == TT_OK && drew(&tree, "now INFO x\n"), "the time that was set stays", i);
    tt_free(&tree);
    check(tt_set_time(&tree, tt_str(""), tt_str("")) == TT_MISSING, "a time of no tree", i);
  }
}

/* Makes each call on a missing tree. */
static void all_missing(tt_tree *tree, long at) {
  tt_attributes attributes = {tt_str("b"), tt_str(""), 0, TT_ROOT};
  tt_event_ref event = {tt_bytes(BAD, 2), 0, TT_ROOT, TT_INFO};
  uint8_t room[2] = {1, 2};
  uint64_t id = 77;
  bool went = true;
  check(tt_new_span(tree, &attributes, TT_NO_FIELDS, 0, &NOWHERE, &id) == TT_MISSING && id == 77, "a span of no tree", at);
  check(tt_event(tree, &event, TT_NO_FIELDS, 0, &NOWHERE) == TT_MISSING, "an event of no tree", at);
  check(tt_record(tree, 1, TT_NO_FIELDS, 0) == TT_MISSING, "a record of no tree", at);
  check(tt_clone_span(tree, 1) == TT_MISSING, "a clone of no tree", at);
  check(tt_close(tree, 1, &NOWHERE, &went) == TT_MISSING && went, "a close of no tree", at);
  check(tt_text(tree, room, 2) == 0 && room[0] == 1 && room[1] == 2, "the text of no tree", at);
  tt_free(tree);
}

static void trees_that_are_none(void) {
  tt_tree tree;
  memset(&tree, 0, sizeof tree);
  all_missing(&tree, 0);
  tree = started();
  tt_free(&tree);
  all_missing(&tree, 1);
  tree = started();
  check(drew(&tree, "┐a \n"), "a tree where one was freed", 0);
  tt_free(&tree);
}

/* ---- the output and its buffer */

static void rooms(void) {
  static const char text[] = "┐a \n";
  enum { LENGTH = sizeof text - 1 };
  tt_tree tree = started();
  uint8_t room[LENGTH + 2];
  for (size_t size = 0; size <= LENGTH + 1; size++) {
    memset(room, 0x5a, sizeof room);
    check(tt_text(&tree, room, size) == LENGTH, "the length of a text", (long)size);
    for (size_t i = 0; i < sizeof room; i++) {
      uint8_t wanted = size >= LENGTH && i < LENGTH ? (uint8_t)text[i] : 0x5a;
      if (room[i] != wanted) check(false, "a room holds the whole text, or nothing of it", (long)size);
    }
  }
  check(tt_clone_span(&tree, 1) == TT_OK && drew(&tree, ""), "a call that draws nothing has no text", 0);
  tt_free(&tree);
}

static void a_stream_without_memory(tt_tree *tree, FILE *file) {
  asked = 0;
  refused_at = 1;
  counting = true;
  uint32_t status = tt_write(tree, file);
  counting = false;
  check(status == TT_NO_MEMORY && ftell(file) == 0, "a stream gets nothing without memory", 0);
}

/* Outputs that fit in the buffer of `tt_write`, and longer ones. */
static void streams(void) {
  static char long_value[3000];
  static uint8_t text[4096], written[4096];
  memset(long_value, 'x', sizeof long_value - 1);
  for (int i = 0; i < 2; i++) {
    tt_tree tree = started();
    tt_field message = {tt_str("message"), tt_str(i ? long_value : "short")};
    tt_event_ref event = {tt_str(""), 0, TT_ROOT, TT_INFO};
    FILE *file = tmpfile();
    check(file && tt_event(&tree, &event, &message, 1, &NOWHERE) == TT_OK, "an event for a stream", i);
    if (i) a_stream_without_memory(&tree, file);
    size_t length = tt_text(&tree, text, sizeof text);
    check(tt_write(&tree, file) == TT_OK && (size_t)ftell(file) == length, "a stream gets the output", i);
    rewind(file);
    check(fread(written, 1, sizeof written, file) == length && memcmp(text, written, length) == 0, "the output in a stream", i);
    fclose(file);
    file = fopen("/dev/full", "w");
    setvbuf(file, NULL, _IONBF, 0);
    check(tt_write(&tree, file) == TT_STREAM, "a stream that fails", i);
    check(tt_clone_span(&tree, 1) == TT_OK && tt_write(&tree, file) == TT_OK, "nothing for a stream", i);
    fclose(file);
    check(tt_write(NULL, stdout) == TT_NULL && tt_write(&tree, NULL) == TT_NULL, "a stream that is NULL", i);
    tt_free(&tree);
  }
}

int main(void) {
  check(tt_version() == TT_VERSION, "the version", 0);
  refusals();
  settings_that_are_none();
  texts_that_are_none();
  texts_of_nothing();
  spans_that_are_none();
  nulls();
  calls_without_a_context();
  entries_that_are_refused();
  random_entries();
  values_of_fields();
  values_that_are_refused();
  timers();
  trees_that_are_none();
  rooms();
  streams();
  printf("%d %d\n", passed, failed);
  return 0;
}
