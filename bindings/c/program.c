/* Draws the calls of program.jsonl with the settings of each number: program NUMBER.. */
#include "tracing_tree.h"
#include <stdio.h>
#include <stdlib.h>

static tt_tree tree;

static void show(uint32_t status) {
  static uint8_t text[65536];
  size_t length = tt_text(&tree, text, sizeof text);
  if (status != TT_OK || length > sizeof text) {
    fprintf(stderr, "status %u\n", (unsigned)status);
    exit(1);
  }
  fwrite(text, 1, length, stdout);
}

/* Returns the settings with this number. Each bit is a switch, and the number determines the indent
 * amount and the wraparound. */
static tt_settings numbered(unsigned number) {
  tt_settings s = tt_default_settings();
  bool *switches[] = {&s.ansi,         &s.indent_lines,   &s.targets,       &s.thread_names, &s.verbose_entry,   &s.verbose_exit,
                      &s.span_retrace, &s.deferred_spans, &s.close_retrace, &s.span_modes,   &s.bracketed_fields};
  for (unsigned i = 0; i < sizeof switches / sizeof switches[0]; i++) *switches[i] = (number >> i & 1) != 0;
  s.indent_amount = 1 + number % 5;
  if (number % 3 == 0) s.wraparound = 1 + number % 4;
  return s;
}

static tt_context within(uint64_t current) {
  tt_context here = {current, 1, tt_str("main"), 0, 0, true};
  return here;
}

static uint64_t open(const char *name, const char *target, uint64_t parent, uint64_t current, const tt_field *fields, size_t count) {
  tt_attributes attributes = {tt_str(name), tt_str(target), parent, parent ? TT_OF : TT_CURRENT};
  tt_context here = within(current);
  uint64_t id = 0;
  show(tt_new_span(&tree, &attributes, fields, count, &here, &id));
  return id;
}

static void tell(uint32_t level, const char *target, uint32_t kind, uint64_t parent, uint64_t current, const tt_field *fields,
                 size_t count) {
  tt_event_ref event = {tt_str(target), parent, kind, level};
  tt_context here = within(current);
  show(tt_event(&tree, &event, fields, count, &here));
}

static void say(uint32_t level, const char *target, uint64_t current, const char *message) {
  tt_field field = {tt_str("message"), tt_str(message)};
  tell(level, target, TT_CURRENT, 0, current, &field, 1);
}

static void close(uint64_t id) {
  tt_context here = within(0);
  bool went = false;
  show(tt_close(&tree, id, &here, &went));
}

static void draw(void) {
  tt_field host[] = {{tt_str("host"), tt_str("\"localhost\"")}, {tt_str("port"), tt_str("8080")}};
  tt_field first = {tt_str("peer"), tt_str("\"82.9.9.9\"")}, second = {tt_str("peer"), tt_str("\"10.0.0.7\"")};
  tt_field slow[] = {{tt_str("message"), tt_str("slow answer:\nwaiting for the disk")}, {tt_str("ms"), tt_str("271")}};
  tt_field text = {tt_str("text"), tt_str("\"select 1\"")}, rows = {tt_str("rows"), tt_str("3")};
  tt_field lost[] = {{tt_str("message"), tt_str("lost")}, {tt_str("code"), tt_str("7")}, {tt_str("retried"), tt_str("false")}};
  tt_field elsewhere = {tt_str("message"), tt_str("not in the current span")}, nowhere = {tt_str("message"), tt_str("in no span")};
  uint64_t server = open("server", "web", 0, 0, host, 2);
  say(TT_INFO, "web", server, "starting");
  uint64_t conn = open("conn", "web", 0, server, &first, 1);
  tell(TT_WARN, "web", TT_CURRENT, 0, conn, slow, 2);
  uint64_t query = open("query", "sql", 0, conn, &text, 1);
  uint64_t other = open("conn", "web", server, query, &second, 1);
  say(TT_DEBUG, "sql", query, "asked");
  say(TT_INFO, "web", other, "connected");
  show(tt_record(&tree, query, &rows, 1));
  tell(TT_ERROR, "sql", TT_CURRENT, 0, query, lost, 3);
  tell(TT_TRACE, "web", TT_OF, other, query, &elsewhere, 1);
  tell(TT_INFO, "web", TT_ROOT, 0, query, &nowhere, 1);
  close(query);
  close(other);
  say(TT_INFO, "web", server, "done");
  close(conn);
  close(server);
}

int main(int argc, char **argv) {
  for (int i = 1; i < argc; i++) {
    tt_settings settings = numbered((unsigned)strtoul(argv[i], NULL, 10));
    printf("== %s\n", argv[i]);
    if (tt_new(&tree, &settings) != TT_OK) return 1;
    draw();
    tt_free(&tree);
  }
  return 0;
}
