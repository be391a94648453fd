/* Tests tracing_tree.hpp. The trees were written by hand. Prints what fails, and at the end how
 * many
 * checks passed and failed. */
#include "tracing_tree.hpp"
#include <functional>
#include <iostream>
#include <memory>
#include <regex>
#include <thread>

using namespace tracing_tree;

static int passed, failed;

static void check(bool holds, const std::string &what) {
  holds ? passed++ : failed++;
  if (!holds) std::cout << "c++: FAILED: " << what << "\n";
}

static void equal(const std::string &what, const std::string &found, const std::string &wanted) {
  check(found == wanted, what + ": found\n" + found + "wanted\n" + wanted);
}

/* Returns the status of the Error that this throws, or TT_OK. */
static std::uint32_t refused(const std::function<void()> &call) {
  try {
    call();
  } catch (const Error &error) {
    return error.status();
  }
  return TT_OK;
}

struct Point {
  int x, y;
};

static std::ostream &operator<<(std::ostream &out, const Point &point) {
  return out << point.x << "/" << point.y;
}

/* Groups digits, as a country's locale may. */
struct Grouped : std::numpunct<char> {
  char do_thousands_sep() const override { return '.'; }
  std::string do_grouping() const override { return "\3"; }
};

/* Checks how a field's value is drawn. */
static void values() {
  std::locale before = std::locale::global(std::locale(std::locale(), new Grouped));
  const char *null = nullptr;
  const struct {
    Field field;
    std::string drawn;
  } table[] = {
      {{"s", "b c"}, "b c"},
      {{"s", std::string("né\0x", 5)}, std::string("né\0x", 5)},
      {{"s", std::string_view("part of it", 4)}, "part"},
      {{"s", ""}, ""},
      {{"s", null}, ""},
      {{"c", 'c'}, "c"},
      {{"b", true}, "true"},
      {{"b", false}, "false"},
      {{"i", 1234567}, "1234567"},
      {{"i", INT64_MIN}, "-9223372036854775808"},
      {{"u", UINT64_MAX}, "18446744073709551615"},
      {{"d", 0.5}, "0.5"},
      {{"p", Point{1, -2}}, "1/-2"},
  };
  for (const auto &row : table) {
    std::ostringstream out;
    Tree tree(out);
    tree.event(Level::info, "x", {row.field});
    equal(row.field.name(), out.str(), "INFO x, " + row.field.name() + "=" + row.drawn + "\n");
  }
  std::locale::global(before);
}

static void levels() {
  const char *names[] = {"TRACE", "DEBUG", "INFO", "WARN", "ERROR"};
  const Level all[] = {Level::trace, Level::debug, Level::info, Level::warn, Level::error};
  for (int i = 0; i < 5; i++) {
    std::ostringstream out;
    Tree tree(out);
    tree.event(all[i], "x");
    equal("a level", out.str(), std::string(names[i]) + " x\n");
  }
}

static void spans_and_events() {
  std::ostringstream out;
  Tree tree(out);
  event(Level::error, "in no span of this thread");
  {
    Span request(tree, "request", {{"path", "/pay"}, {"size", 3}});
    event(Level::info, "begin");
    {
      Span query(tree, "query");
      event(Level::warn, "slow", {{"rows", 7}});
    }
    tree.event(Level::error, "failed\nin two lines");
  }
  tree.event(Level::debug, "outside");
  equal("spans and events", out.str(), "┐request path=/pay, size=3\n"
                                       "├─ INFO begin\n"
                                       "└─┐query \n"
                                       "  ├─ WARN slow, rows=7\n"
                                       "┌─┘\n"
                                       "├─ ERROR failed\n"
                                       "│  in two lines\n"
                                       "┘\n"
                                       "DEBUG outside\n");
}

static void records() {
  std::ostringstream out;
  Settings settings;
  settings.verbose_exit = true;
  Tree tree(out, settings);
  {
    Span span(tree, "a", {{"n", 1}});
    span.record({{"status", 200}});
  }
  equal("a record", out.str(), "┐a n=1\n┘a n=1, status=200\n");
}

/* Destroys a span before the spans in it, which stay current. */
static void out_of_order() {
  std::ostringstream out;
  Tree tree(out);
  auto a = std::make_unique<Span>(tree, "a");
  auto b = std::make_unique<Span>(tree, "b");
  a.reset();
  event(Level::info, "in b");
  b.reset();
  tree.event(Level::info, "in none");
  equal("out of order", out.str(), "┐a \n└─┐b \n  ├─ INFO in b\n┌─┘\n┘\nINFO in none\n");
}

static void two_trees() {
  std::ostringstream first, second;
  Tree one(first), two(second);
  {
    Span a(one, "a");
    Span b(two, "b");
    event(Level::info, "two");
    one.event(Level::info, "one");
    Span c(one, "c");
    two.event(Level::info, "two again");
  }
  equal("the first tree", first.str(), "┐a \n├─ INFO one\n└─┐c \n┌─┘\n┘\n");
  equal("the second tree", second.str(), "┐b \n├─ INFO two\n├─ INFO two again\n┘\n");
}

static void settings_are_taken() {
  std::ostringstream out;
  Settings settings;
  settings.indent_lines = false;
  settings.targets = settings.thread_names = settings.bracketed_fields = true;
  Tree tree(out, settings);
  set_thread_name("main");
  {
    Span a(tree, "a", {{"n", 1}}, "service");
    event(Level::trace, "x", {}, "service::db");
  }
  set_thread_name("");
  /* A space comes before an event in a span: the time since the span opened would be there. */
  equal("settings", out.str(), "main service::a{n=1}\nmain  TRACE service::db x\n");
}

static void timers() {
  const struct {
    std::uint32_t timer;
    const char *form;
  } table[] = {
      {TT_TIMER_NONE, "INFO x\n"},
      {TT_TIMER_UPTIME, " +0\\.[0-9]{6}s INFO x\n"},
      {TT_TIMER_UTC, "20[0-9]{2}-[0-9]{2}-[0-9]{2} [0-9:]+\\.[0-9]+ INFO x\n"},
  };
  for (const auto &row : table) {
    std::ostringstream out;
    Settings settings;
    settings.timer = row.timer;
    Tree tree(out, settings);
    tree.event(Level::info, "x");
    check(std::regex_match(out.str(), std::regex(row.form)), "a timer: " + out.str());
  }
}

static void refusals() {
  std::ostringstream out;
  Settings settings;
  settings.wraparound = 0;
  check(refused([&] { Tree tree(out, settings); }) == TT_SETTINGS, "settings that are invalid");
  settings = Settings();
  settings.size--;
  check(refused([&] { Tree tree(out, settings); }) == TT_SIZE, "settings of another size");
  Tree tree(out);
  check(refused([&] { tree.event(static_cast<Level>(5), "x"); }) == TT_UNKNOWN, "a level");
  check(refused([&] { tree.event(Level::info, "\xff"); }) == TT_NOT_UTF8, "an event");
  check(refused([&] { Span span(tree, "\xff"); }) == TT_NOT_UTF8, "a span");
  check(refused([&] { tree.event(Level::info, "x"); }) == TT_OK, "an event afterwards");
  equal("after refusals", out.str(), "INFO x\n");
  {
    Span span(tree, "a");
    check(refused([&] { span.record({{"n", "\xff"}}); }) == TT_NOT_UTF8, "a record");
    check(tree.failure() == TT_OK, "no close was refused");
    set_thread_name("\xff");
  }
  check(tree.failure() == TT_NOT_UTF8, "a close that is refused");
  set_thread_name("");
  equal("a sentence", Error(TT_NO_MEMORY).what(), "tracing_tree: out of memory");
  equal("an unknown status", Error(99).what(), "tracing_tree: status 99");
}

/* A buffer that takes nothing once it is full. */
struct Full : std::stringbuf {
  bool is_full = false;
  std::streamsize xsputn(const char *text, std::streamsize size) override {
    return is_full ? 0 : std::stringbuf::xsputn(text, size);
  }
};

static void streams_that_fail() {
  Full buffer;
  std::ostream out(&buffer);
  Tree tree(out);
  buffer.is_full = true;
  tree.event(Level::info, "x");
  check(out.bad(), "the stream's state says that it failed");
  out.clear();
  out.exceptions(std::ios::badbit);
  buffer.is_full = false;
  {
    Span outer(tree, "outer");
    buffer.is_full = true;
    bool threw = false;
    try {
      Span lost(tree, "lost");
    } catch (const std::ios::failure &) {
      threw = true;
    }
    check(threw, "a stream that throws");
    out.clear();
    buffer.is_full = false;
  } /* the outer span's close is drawn only if no span is left in it */
  {
    Span kept(tree, "kept");
    buffer.is_full = true;
  }
  check(tree.failure() == TT_OK, "the close was made");
  out.clear();
  buffer.is_full = false;
  tree.event(Level::info, "afterwards");
  equal("a stream that fails", buffer.str(), "┐outer \n┘\n┐kept \nINFO afterwards\n");
}

/* Each thread has its own spans. The last row above an event that opens a root is the event's
 * span. */
static void threads() {
  std::ostringstream out;
  Settings settings;
  settings.span_retrace = settings.close_retrace = true;
  Tree tree(out, settings);
  std::vector<std::thread> all;
  for (char letter : {'a', 'b', 'c', 'd'}) {
    all.emplace_back([&tree, letter] {
      for (int i = 0; i < 50; i++) {
        std::string name = letter + std::to_string(i);
        Span span(tree, name);
        event(Level::info, name);
      }
    });
  }
  for (std::thread &thread : all) thread.join();
  std::istringstream rows(out.str());
  std::string opened, opens = "┐", tells = "├─ INFO ";
  int events = 0;
  for (std::string row; std::getline(rows, row);) {
    if (row.compare(0, opens.size(), opens) == 0) opened = row.substr(opens.size());
    if (row.compare(0, tells.size(), tells) != 0) continue;
    equal("a row of a thread", row.substr(tells.size()) + " ", opened);
    events++;
  }
  check(events == 200, "each event has a row");
}

static void thread_numbers() {
  std::ostringstream out;
  Settings settings;
  settings.thread_ids = true;
  Tree tree(out, settings);
  tree.event(Level::info, "x");
  std::thread([&tree] { tree.event(Level::info, "x"); }).join();
  std::smatch found;
  std::string drawn = out.str();
  check(std::regex_match(drawn, found, std::regex("([0-9]+)INFO x\n([0-9]+)INFO x\n")) &&
            found[1] != found[2],
        "each thread has a number: " + drawn);
}

static_assert(!std::is_copy_constructible_v<Tree> && !std::is_copy_constructible_v<Span>);
static_assert(!std::is_move_constructible_v<Tree> && !std::is_move_constructible_v<Span>);

int main() {
  values();
  levels();
  spans_and_events();
  records();
  out_of_order();
  two_trees();
  settings_are_taken();
  timers();
  refusals();
  streams_that_fail();
  threads();
  thread_numbers();
  std::cout << passed << " " << failed << "\n";
  return 0;
}
