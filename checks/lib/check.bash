# shellcheck shell=bash
# What the checks in Bash share: the folder of the repository, `top`, and the functions by which they count and print.
# The checks load this file by its full path.

top=${BASH_SOURCE[0]%/*/*/*}
passed=0 failed=0 skipped=0

pass() { passed=$((passed + 1)); }

# Counts a check that failed, and prints its name, $1.
fail() {
    echo "FAILED: $1"
    failed=$((failed + 1))
}

# Counts $3 checks that can't run here, and prints what they are, $1, and why they can't run, $2.
skip() {
    echo "skipped: $1, since $2"
    skipped=$((skipped + $3))
}

# Counts a check, which passes if a command ends with status 0. $1 is the name of the check, and the other arguments are
# the command.
check() {
    local name=$1
    shift
    if "$@"; then pass; else fail "$name"; fi
}

# Prints the last line, and ends with status 0 if nothing failed.
end() {
    echo "$passed passed, $failed failed, $skipped skipped"
    [[ $failed == 0 ]]
    exit
}
