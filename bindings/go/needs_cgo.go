//go:build !cgo

package tracingtree

// The compiler names this if cgo is off: install a C compiler, and set CGO_ENABLED=1.
var _ = needsACCompilerAndCGO_ENABLED
