/* Makes the calls whose instructions bench.sh counts: bench COUNT KIND. KIND 0 makes COUNT events
 * in two spans, with lines. KIND 1 opens two spans, draws an event and closes both, COUNT times.
 * KIND 2 and 3 are like 0 and 1, but with colours, targets and retracing. */
#include "tracing_tree.h"
#include <stdio.h>
#include <stdlib.h>

static tt_tree tree;
static tt_context here;
static size_t drawn;

static void made(uint32_t status) {
  static uint8_t text[4096];
  if (status != TT_OK) exit(1);
  drawn += tt_text(&tree, text, sizeof text);
}

static uint64_t open(const char *name, const tt_field *fields, size_t count) {
  tt_attributes attributes = {tt_str(name), tt_str("web"), 0, TT_CURRENT};
  uint64_t id = 0;
  made(tt_new_span(&tree, &attributes, fields, count, &here, &id));
  return here.current = id;
}

static void tell(void) {
  tt_event_ref event = {tt_str("web"), 0, TT_CURRENT, TT_INFO};
  tt_field message = {tt_str("message"), tt_str("starting")};
  made(tt_event(&tree, &event, &message, 1, &here));
}

static void run(long count, bool with_spans) {
  tt_field server[] = {{tt_str("host"), tt_str("\"localhost\"")}, {tt_str("port"), tt_str("8080")}};
  tt_field conn = {tt_str("peer"), tt_str("\"82.9.9.9\"")};
  for (long i = 0; i < (with_spans ? count : 1); i++) {
    bool went;
    here.current = 0;
    uint64_t outer = open("server", server, 2), inner = open("conn", &conn, 1);
    for (long j = 0; j < (with_spans ? 1 : count); j++) tell();
    made(tt_close(&tree, inner, &here, &went));
    made(tt_close(&tree, outer, &here, &went));
  }
}

int main(int argc, char **argv) {
  tt_settings settings = tt_default_settings();
  if (argc != 3) return 2;
  int kind = atoi(argv[2]);
  settings.indent_lines = true;
  settings.ansi = settings.targets = settings.span_retrace = kind >= 2;
  if (tt_new(&tree, &settings) != TT_OK) return 1;
  run(atol(argv[1]), kind % 2 == 1);
  tt_free(&tree);
  printf("%lu bytes\n", (unsigned long)drawn);
  return 0;
}
