# shellcheck shell=bash
# Sourced by runs of tests: what passed and what failed, and the last line of a run, 'N passed, M failed'.
passed=0
failed=0

# One has passed, or so many.
pass() { passed=$((passed + ${1:-1})); }

# One has failed, and why.
fail() {
    failed=$((failed + 1))
    echo "error: $*"
}

# Adds up the last line of a run, $3, that was kept in the file $1; its exit status was $2.
add_up() {
    local last
    last=$(tail -n 1 "$1")
    if [[ $last =~ ^([0-9]+)\ passed,\ ([0-9]+)\ failed(\ .*)?$ ]]; then
        passed=$((passed + BASH_REMATCH[1]))
        failed=$((failed + BASH_REMATCH[2]))
        [ "$2" -eq 0 ] || [ "${BASH_REMATCH[2]}" -gt 0 ] || fail "$3 ended with status $2"
    else
        fail "$3 did not end in 'N passed, M failed' (status $2)"
    fi
}

# Passes on what a run says, with what it is before its last line, so that nobody takes that for the
# last line of all.
of() { sed -u "s|^[0-9]* passed, [0-9]* failed|$1: &|"; }

# What runs beside each other, in the order in which it was begun: its name, and behind a blank its process.
begun=()

# Begins a run of tests whose last line is 'N passed, M failed', the words behind its name, and goes on; what it says is kept in the folder $logs.
begin() {
    "${@:2}" <&0 >"$logs/$1" 2>&1 &
    begun+=("$1 $!")
}

# Waits for all that was begun, and adds it up. What a run said is shown where it failed, or wherever a word is given.
join() {
    local run name status
    for run in "${begun[@]}"; do
        name=${run% *} status=0
        wait "${run##* }" || status=$?
        [[ $status -eq 0 && -z ${1:-} ]] || of "$name" <"$logs/$name"
        add_up "$logs/$name" "$status" "$name"
    done
    begun=()
}

# Ends what was begun and still runs.
end_begun() { [ ${#begun[@]} -eq 0 ] || kill "${begun[@]##* }" 2>/dev/null || true; }

# The last line. Fails where anything has.
end() {
    echo "$passed passed, $failed failed"
    [ "$failed" -eq 0 ]
}
