# What the test scripts share, which source it: a folder of their own, `holds`, and the count.
work=$(mktemp -d)
trap 'rm -rf "$work"' EXIT
passed=0
failed=0

# says LINE..: these lines.
says() { printf '%s\n' "$@"; }

# holds NAME STATUS COMMAND..: the command prints the folder's file `expected` and ends with this status.
holds() {
    local name=$1 status=$2 ended=0
    shift 2
    "$@" >"$work/printed" || ended=$?
    if [ "$ended" -eq "$status" ] && cmp -s "$work/printed" "$work/expected"; then
        passed=$((passed + 1))
    else
        failed=$((failed + 1))
        echo "failed: $name"
    fi
}

# The last line of a script; the status is 1 where one failed.
tally() {
    echo "$passed passed, $failed failed"
    [ "$failed" -eq 0 ]
}
