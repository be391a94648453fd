// A small server's log: the same calls as in server.c.
#include "tracing_tree.hpp"
#include <iostream>

using tracing_tree::Level;
using tracing_tree::Span;

int main() {
  try {
    tracing_tree::Tree tree(std::cout);
    Span server(tree, "server", {{"host", "\"localhost\""}, {"port", 8080}});
    tracing_tree::event(Level::info, "starting");
    Span conn(tree, "conn", {{"peer", "\"82.9.9.9\""}});
    tracing_tree::event(Level::warn, "slow answer:\nwaiting for the disk", {{"ms", 271}});
  } catch (const tracing_tree::Error &error) {
    std::cerr << error.what() << "\n";
    return 1;
  }
  return 0;
}
