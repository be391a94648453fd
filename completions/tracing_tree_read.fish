# The completion of tracing_tree_read for fish. Written by scripts/completions.py.
complete -c tracing_tree_read -f
complete -c tracing_tree_read -l amount -x -d 'The columns a level of the drawing'
complete -c tracing_tree_read -s h -l help -d 'Print help'
complete -c tracing_tree_read -s V -l version -d 'Print version'
