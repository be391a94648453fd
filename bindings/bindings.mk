## Library for C, C++, Go, Python and Rust

# Needs `rt` and a C compiler; its tests use other compilers if they are there.
.PHONY: bindings bindings-test bindings-bench

# Proves the library, and leaves it in bin/: libtracing_tree.a and libtracing_tree.so.
bindings: ## proves and builds the library
	@CC='$(CC)' bindings/build.sh

# The last line is 'bindings: N passed, M failed'.
bindings-test: bindings ## tests the library
	@CC='$(CC)' CXX='$(CXX)' bindings/test.sh

# Counts instructions of calls from C and Rust, by valgrind. It asserts nothing.
bindings-bench: need-valgrind bindings ## counts instructions
	@CC='$(CC)' bindings/bench.sh
