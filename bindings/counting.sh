# For scripts of tests that read this file, with a folder in $work: how a test is run and counted.
passed=0
failed=0

# Runs a command, and counts it as a test of this name. What it writes is shown where it fails.
passes() {
    local name=$1 begun=$SECONDS
    shift
    if "$@" >"$work/said" 2>&1; then
        passed=$((passed + 1))
        echo "bindings: $name: passed, $((SECONDS - begun)) s: $(tail -n 1 "$work/said")"
    else
        failed=$((failed + 1))
        echo "bindings: $name: failed"
        tail -n 40 "$work/said" | sed 's/^/    /'
    fi
}

has() { command -v "$1" >/dev/null 2>&1; }

left_out() { echo "bindings: $1: left out, since $2"; }

# The last line of such a script, and its status.
ends_counted() {
    echo "$passed passed, $failed failed"
    [ "$failed" -eq 0 ] && [ "$passed" -gt 0 ]
}
