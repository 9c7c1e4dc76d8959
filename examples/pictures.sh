#!/bin/sh
# Draws each example, and compares the text with the stored one: NAME.dot beside NAME.reo. With a folder, also renders each there as
# NAME.svg, by Graphviz's dot.
# Usage: examples/pictures.sh [FOLDER]
here="$(dirname -- "$(readlink -f -- "$0")")"
folder="${1-}"
room="$(mktemp -d)" || exit 2
trap 'rm -rf "$room"' EXIT

# What the launcher has to say, once.
"$here/../reo" --draw </dev/null >/dev/null || exit 2
passed=0 failed=0
for document in "$here"/*.reo; do
    name="$(basename -- "$document" .reo)"
    if "$here/../reo" --draw <"$document" >"$room/text" 2>"$room/told" && cmp -s -- "$here/$name.dot" "$room/text" &&
        { [ -z "$folder" ] || dot -Tsvg -o "$folder/$name.svg" "$room/text"; }; then
        passed=$((passed + 1))
    else
        failed=$((failed + 1))
        echo "$name: not this picture:"
        diff -- "$here/$name.dot" "$room/text"
        cat "$room/told"
    fi
done
echo "$passed passed, $failed failed"
[ "$failed" = 0 ]
