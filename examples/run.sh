#!/bin/sh
# Runs each example for at most 100 steps, and compares its report with the stored one: NAME.report beside NAME.reo.
# Usage: examples/run.sh [PROGRAM]    (default: ./reo, at the top of the repository)
here="$(dirname -- "$(readlink -f -- "$0")")"
program="${1:-$here/../reo}"
room="$(mktemp -d)" || exit 2
trap 'rm -rf "$room"' EXIT

# The exit status that goes with a report's last line.
status_of() {
    case "$(tail -n 1 -- "$1")" in
    "end done") echo 0 ;;
    "end stuck") echo 1 ;;
    "end limit") echo 2 ;;
    *) echo none ;;
    esac
}

# What the launcher has to say, once.
"$program" show </dev/null || exit 2
passed=0 failed=0
for document in "$here"/*.reo; do
    name="$(basename -- "$document" .reo)"
    report="$here/$name.report"
    "$program" run --plain --limit 100 <"$document" >"$room/report" 2>"$room/told"
    status=$?
    if cmp -s -- "$report" "$room/report" && [ "$status" = "$(status_of "$report")" ]; then
        passed=$((passed + 1))
    else
        failed=$((failed + 1))
        echo "$name: status $status, and not this report:"
        diff -- "$report" "$room/report"
        cat "$room/told"
    fi
done
echo "$passed passed, $failed failed"
[ "$failed" = 0 ]
