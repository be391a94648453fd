module tracingtree

go 1.19
