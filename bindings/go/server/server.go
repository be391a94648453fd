// A small server's log: the same calls as in ../../c/server.c.
package main

import (
	"context"
	"fmt"
	"os"

	"tracingtree"
)

func serve(tree *tracingtree.Tree) error {
	ctx, server := tree.Start(context.Background(), "server",
		tracingtree.F("host", `"localhost"`), tracingtree.F("port", 8080))
	defer server.End()
	if err := tree.Event(ctx, tracingtree.LevelInfo, "starting"); err != nil {
		return err
	}
	inner, conn := tracingtree.Start(ctx, "conn", tracingtree.F("peer", `"82.9.9.9"`))
	defer conn.End()
	return tree.Event(inner, tracingtree.LevelWarn, "slow answer:\nwaiting for the disk",
		tracingtree.F("ms", 271))
}

func main() {
	tree, err := tracingtree.New(os.Stdout, tracingtree.DefaultSettings())
	if err == nil {
		err = serve(tree)
	}
	if err == nil {
		err = tree.Err()
	}
	if err != nil {
		fmt.Fprintln(os.Stderr, err)
		os.Exit(1)
	}
}
