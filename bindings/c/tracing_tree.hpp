/* tracing_tree: draws spans and events as a tree. For C++17, over tracing_tree.h.
 *
 *     tracing_tree::Tree tree(std::cerr);
 *     tracing_tree::Span request(tree, "request", {{"path", "/pay"}, {"size", 3}});
 *     tracing_tree::event(tracing_tree::Level::warn, "slow", {{"ms", 271}});
 *
 * prints, when the span's block ends,
 *
 *     ┐request path=/pay, size=3
 *     ├─ WARN slow, ms=271
 *     ┘
 *
 * A span is the current span of its thread from its constructor to its destructor. So the thread
 * that made it destroys it, before its tree. Threads may share a tree, and the stream is written to
 * under the tree's lock. The stream must not use the tree. */
#ifndef TRACING_TREE_HPP
#define TRACING_TREE_HPP

#include "tracing_tree.h"

#include <atomic>
#include <chrono>
#include <cstdint>
#include <initializer_list>
#include <locale>
#include <mutex>
#include <ostream>
#include <sstream>
#include <stdexcept>
#include <string>
#include <string_view>
#include <type_traits>
#include <utility>
#include <vector>

namespace tracing_tree {

/* A call that was refused. Nothing was drawn or changed. */
class Error : public std::runtime_error {
public:
  explicit Error(std::uint32_t status) : std::runtime_error(sentence(status)), status_(status) {}

  /* One of TT_NOT_HELD .. TT_NULL. It is TT_SIZE too if the library has another version. */
  std::uint32_t status() const noexcept { return status_; }

private:
  static std::string sentence(std::uint32_t status) {
    static const char *const sentences[] = {
        "", "the span isn't live", "a row is too wide", "no span or handle is left",
        "out of memory", "the timer has no text for this time", "the tree has failed earlier",
        "there is no tree", "a string isn't UTF-8", "a level is unknown", "there is a tree already",
        "the header and the library differ in version", "the settings are invalid",
        "a pointer is NULL"};
    std::string number = "status " + std::to_string(status);
    return "tracing_tree: " +
           (status < sizeof sentences / sizeof sentences[0] ? sentences[status] : number);
  }

  std::uint32_t status_;
};

enum class Level : std::uint32_t {
  trace = TT_TRACE,
  debug = TT_DEBUG,
  info = TT_INFO,
  warn = TT_WARN,
  error = TT_ERROR
};

/* A field. A string is drawn unchanged, anything else as `<<` writes it, with `true` and `false`.
 * */
class Field {
public:
  template <class T>
  Field(std::string_view name, const T &value) : name_(name), value_(drawn(value)) {}

  const std::string &name() const noexcept { return name_; }
  const std::string &value() const noexcept { return value_; }

private:
  template <class T> static std::string drawn(const T &value) {
    if constexpr (std::is_convertible_v<const T &, const char *>) {
      const char *string = value; /* NULL is drawn as the empty string */
      return string ? string : "";
    } else if constexpr (std::is_convertible_v<const T &, std::string_view>) {
      return std::string(static_cast<std::string_view>(value));
    } else {
      std::ostringstream out;
      out.imbue(std::locale::classic());
      out << std::boolalpha << value;
      return out.str();
    }
  }

  std::string name_, value_;
};

using Fields = std::initializer_list<Field>;

/* What a tree draws and how: the fields of `tt_settings`, with lines. If the timer is
 * TT_TIMER_UPTIME, the uptime begins at the tree's constructor. */
struct Settings : tt_settings {
  Settings() : tt_settings(tt_default_settings()) { indent_lines = true; }
};

class Span;

namespace detail {

inline tt_text_ref text(std::string_view string) { return tt_bytes(string.data(), string.size()); }

inline std::uint64_t mono() {
  auto now = std::chrono::steady_clock::now().time_since_epoch();
  return static_cast<std::uint64_t>(std::chrono::nanoseconds(now).count());
}

inline std::int64_t wall() {
  auto now = std::chrono::system_clock::now().time_since_epoch();
  return std::chrono::nanoseconds(now).count();
}

/* A thread's number, its name and its innermost span. */
struct Thread {
  static Thread &here() {
    static thread_local Thread thread;
    return thread;
  }

  std::uint64_t number = next_number();
  std::string name;
  Span *innermost = nullptr;

private:
  static std::uint64_t next_number() {
    static std::atomic<std::uint64_t> last{0};
    return ++last;
  }
};

inline std::vector<tt_field> fields_of(Fields fields) {
  std::vector<tt_field> list;
  list.reserve(fields.size());
  for (const Field &field : fields) list.push_back({text(field.name()), text(field.value())});
  return list;
}

} // namespace detail

/* Names this thread, for the setting `thread_names`. */
inline void set_thread_name(std::string name) { detail::Thread::here().name = std::move(name); }

/* A tree that is drawn to a stream. */
class Tree {
public:
  /* Throws Error if the settings are invalid, if memory runs out, or if the library has another
   * version. */
  explicit Tree(std::ostream &out, Settings settings = {}) : out_(out) {
    if (tt_version() != TT_VERSION) throw Error(TT_SIZE);
    if (settings.timer == TT_TIMER_UPTIME) settings.epoch = detail::mono();
    check(tt_new(&tree_, &settings));
  }

  Tree(const Tree &) = delete;
  Tree &operator=(const Tree &) = delete;
  ~Tree() { tt_free(&tree_); }

  /* Records an event in this thread's current span of this tree. Throws Error. */
  void event(Level level, std::string_view message, Fields fields = {},
             std::string_view target = {}) {
    std::vector<tt_field> list = detail::fields_of(fields);
    list.insert(list.begin(), {tt_str("message"), detail::text(message)});
    tt_event_ref event = {detail::text(target), 0, TT_CURRENT, static_cast<std::uint32_t>(level)};
    std::lock_guard<std::mutex> lock(mutex_);
    tt_context here = context();
    draw(tt_event(&tree_, &event, list.data(), list.size(), &here));
  }

  /* Returns the status of the first close that a span's destructor couldn't make, or TT_OK. */
  std::uint32_t failure() const {
    std::lock_guard<std::mutex> lock(mutex_);
    return failure_;
  }

private:
  friend class Span;

  static void check(std::uint32_t status) {
    if (status != TT_OK) throw Error(status);
  }

  tt_context context() const;

  void draw(std::uint32_t status) {
    check(status);
    write();
  }

  /* Writes what the last call drew. */
  void write() {
    std::size_t length = tt_text(&tree_, nullptr, 0);
    if (length == 0) return;
    text_.resize(length);
    tt_text(&tree_, reinterpret_cast<std::uint8_t *>(&text_[0]), length);
    out_.write(text_.data(), static_cast<std::streamsize>(length));
  }

  std::uint64_t open(std::string_view name, std::string_view target, Fields fields) {
    std::vector<tt_field> list = detail::fields_of(fields);
    tt_attributes attributes = {detail::text(name), detail::text(target), 0, TT_CURRENT};
    std::uint64_t id = 0;
    std::lock_guard<std::mutex> lock(mutex_);
    tt_context here = context();
    check(tt_new_span(&tree_, &attributes, list.data(), list.size(), &here, &id));
    try {
      write();
    } catch (...) { /* no Span is made, so none would close it */
      bool went = false;
      (void)tt_close(&tree_, id, &here, &went);
      throw;
    }
    return id;
  }

  void record(std::uint64_t id, Fields fields) {
    std::vector<tt_field> list = detail::fields_of(fields);
    std::lock_guard<std::mutex> lock(mutex_);
    check(tt_record(&tree_, id, list.data(), list.size()));
  }

  void close(std::uint64_t id) noexcept {
    std::lock_guard<std::mutex> lock(mutex_);
    try {
      bool went = false;
      tt_context here = context();
      draw(tt_close(&tree_, id, &here, &went));
    } catch (const Error &error) {
      if (failure_ == TT_OK) failure_ = error.status();
    } catch (...) { /* the stream throws, or has no memory: it says so by its state */
    }
  }

  std::ostream &out_;
  tt_tree tree_ = TT_NO_TREE;
  mutable std::mutex mutex_;
  std::string text_;
  std::uint32_t failure_ = TT_OK;
};

/* A span, and this thread's current span as long as it lives. */
class Span {
public:
  /* Opens the span in this thread's current span of the tree. Throws Error. */
  Span(Tree &tree, std::string_view name, Fields fields = {}, std::string_view target = {})
      : tree_(tree), id_(tree.open(name, target, fields)),
        outer_(detail::Thread::here().innermost) {
    detail::Thread::here().innermost = this;
  }

  Span(const Span &) = delete;
  Span &operator=(const Span &) = delete;

  /* Closes the span. It is drawn as closed once the spans in it have closed too. */
  ~Span() {
    Span **place = &detail::Thread::here().innermost;
    while (*place && *place != this) place = &(*place)->outer_;
    if (*place) *place = outer_;
    tree_.close(id_);
  }

  /* Adds fields. They are drawn when the span is shown again. Throws Error. */
  void record(Fields fields) { tree_.record(id_, fields); }

private:
  friend class Tree;
  friend void event(Level, std::string_view, Fields, std::string_view);

  Tree &tree_;
  std::uint64_t id_;
  Span *outer_;
};

inline tt_context Tree::context() const {
  const detail::Thread &thread = detail::Thread::here();
  const Span *span = thread.innermost;
  while (span && &span->tree_ != this) span = span->outer_;
  std::uint64_t id = span ? span->id_ : 0;
  return {id, thread.number, detail::text(thread.name), detail::mono(), detail::wall(),
          !thread.name.empty()};
}

/* Records an event in this thread's innermost span, of any tree. Does nothing if there is none.
 * Throws Error. */
inline void event(Level level, std::string_view message, Fields fields = {},
                  std::string_view target = {}) {
  Span *span = detail::Thread::here().innermost;
  if (span) span->tree_.event(level, message, fields, target);
}

} // namespace tracing_tree

#endif
