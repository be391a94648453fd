/* A small server's log. */
#include "tracing_tree.h"
#include <stdio.h>

static tt_tree tree; /* all bytes 0: no tree yet */

static void show(uint32_t status) {
  if (status == TT_OK) status = tt_write(&tree, stdout);
  if (status != TT_OK) fprintf(stderr, "status %u\n", (unsigned)status);
}

/* Opens a span in the current span, and enters it. */
static uint64_t enter(const char *name, const tt_field *fields, size_t field_count) {
  tt_attributes span = {tt_str(name), tt_str("web"), 0, TT_CURRENT};
  uint64_t id = 0;
  show(tt_new_span(&tree, &span, fields, field_count, NULL, &id));
  show(tt_enter(&tree, id));
  return id;
}

static void leave(uint64_t id) {
  bool went = false;
  tt_exit(&tree, id);
  show(tt_close(&tree, id, NULL, &went));
}

static void event(uint32_t level, const tt_field *fields, size_t field_count) {
  tt_event_ref event = {tt_str("web"), 0, TT_CURRENT, level};
  show(tt_event(&tree, &event, fields, field_count, NULL));
}

int main(void) {
  tt_settings settings = tt_default_settings();
  settings.indent_lines = true;
  if (tt_version() != TT_VERSION || tt_new(&tree, &settings) != TT_OK) return 1;
  char room[64];
  tt_values values = tt_values_in(room, sizeof room);
  tt_field server_fields[] = {{tt_str("host"), tt_string(&values, tt_str("localhost"))}, {tt_str("port"), tt_int(&values, 8080)}};
  tt_field starting = {tt_str("message"), tt_str("starting")};
  tt_field peer = {tt_str("peer"), tt_string(&values, tt_str("82.9.9.9"))};
  tt_field slow[] = {{tt_str("message"), tt_str("slow answer:\nwaiting for the disk")}, {tt_str("ms"), tt_int(&values, 271)}};
  uint64_t server = enter("server", server_fields, 2);
  event(TT_INFO, &starting, 1);
  uint64_t conn = enter("conn", &peer, 1);
  event(TT_WARN, slow, 2);
  leave(conn);
  leave(server);
  tt_free(&tree);
  return tt_clone_span(&tree, server) == TT_MISSING ? 0 : 1;
}
