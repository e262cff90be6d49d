# For tests/bindings/run and tests/masks/run, which read it from the project's root: counting checks, skips, and the last line.
passed=0
failed=0

# ok STATUS TEXT: counts one check
ok() {
    if [ "$1" -eq 0 ]; then
        passed=$((passed + 1))
    else
        failed=$((failed + 1))
        echo "not so: $2"
    fi
}

# has TOOL WHAT: where the tool is missing, says that WHAT is skipped
has() {
    command -v "$1" > /dev/null || { echo "skipped: $2, because $1 is not on this machine"; return 1; }
}

# ends with the line 'N passed, M failed'
finish() {
    echo "$passed passed, $failed failed"
    [ "$failed" -eq 0 ]
    exit
}
