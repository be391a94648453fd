#!/bin/sh
# Says for each missing tool what to do, and ends with status 2 if one is missing: need.sh NAME..
# A NAME is a command, `rt` (with the Python that runs it), `python`, `cc` (the compiler that CC
# names), or `library` (the proved library for C in bin/). It needs no command itself.
missing=0

# need COMMAND WHAT TO-DO
need() {
    command -v "$1" > /dev/null && return
    echo "$2 is not on the PATH: $3" >&2
    missing=2
}

for name; do
    case $name in
        rt)
            need rt "the kit's command rt" "add the folder bin/ of the Rattle kit to it"
            need python3 python3 "install Python 3 (Debian: apt install python3)"
            ;;
        python) need python3 python3 "install Python 3 (Debian: apt install python3)" ;;
        cc)
            compiler=${CC:-cc}
            need "${compiler%% *}" "the C compiler $compiler" \
                "install one (Debian: apt install gcc), or name yours, as in CC=clang"
            ;;
        ar) need ar ar "install it (Debian: apt install binutils)" ;;
        library)
            [ -f "${0%need.sh}../bin/libtracing_tree.a" ] || {
                said="run 'make bindings' first (about 20 minutes)"
                echo "bin/libtracing_tree.a isn't there: $said" >&2
                missing=2
            }
            ;;
        *) need "$name" "$name" "install it (Debian: apt install $name)" ;;
    esac
done
exit $missing
