# What the scripts of the tests and the gate share: steps and their counts, tests, and a folder that is removed at the
# end. To be read by bash.
room=$(mktemp -d)
trap 'for job in $(jobs -p); do pkill -P "$job"; kill "$job"; done 2>/dev/null
    chmod -R u+w "$room" 2>/dev/null; rm -rf "$room"' EXIT
trap 'exit 1' HUP INT TERM
TIMEFORMAT='%0R s, %0U + %0S s of processor time'
passed=0
failed=0

# step NAME COMMAND..: runs it, shows its output, and keeps that with its status and its times.
step() {
    {
        time "${@:2}" </dev/null 2>&1 | tee "$room/$1"
        echo "${PIPESTATUS[0]}" >"$room/$1.status"
    } 2>"$room/$1.times"
}

# count NAME: adds what the last line of the step counts, in the form of `total` or of pytest, and prints it in a line.
# A status that says otherwise is a failure, and so is a step that gave no count or ran nothing.
count() {
    local status last ran bad
    status=$(cat "$room/$1.status" 2>/dev/null)
    last=$(tail -n 1 "$room/$1" 2>/dev/null)
    ran=$(grep -oP '\d+(?= passed)' <<<"$last")
    bad=$(grep -oP '\d+(?= (failed|error))' <<<"$last" | awk '{ sum += $1 } END { print sum + 0 }')
    if [ "$bad" = 0 ] && { [ "$status" != 0 ] || [ "${ran:-0}" = 0 ]; }; then
        bad=1
        last="failed with status ${status:-unknown} after the line: $last"
    fi
    passed=$((passed + ran))
    failed=$((failed + bad))
    printf '%-12s %s: %s\n' "$1" "$(tail -n 1 "$room/$1.times" 2>/dev/null)" "$last"
    [ "$bad" = 0 ]
}

# holds NAME DIFFERENCE: a test, which an empty difference passes.
holds() {
    [ -n "$2" ] || { passed=$((passed + 1)) && return; }
    failed=$((failed + 1))
    printf 'failed: %s\n%s\n' "$1" "$2"
}

# total [TITLE]: the last line, and whether all has passed.
total() {
    echo "${1:+$1: }$passed passed, $failed failed"
    [ "$failed" -eq 0 ] && [ "$passed" -gt 0 ]
}
