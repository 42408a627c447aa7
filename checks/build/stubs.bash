# shellcheck shell=bash
# Functions for the checks of bin/census, bin/programs and bin/unproved. The checks call these scripts in a small tree,
# with stubs in place of the toolchain, which build at once and prove nothing.

# The caller may have ignored signals, as a shell does for a job in the background. A shell can't undo that, but some
# versions of `env` can.
if [[ ! ${SIGNALS_UNDONE-} ]] && env --default-signal true 2>/dev/null; then
    SIGNALS_UNDONE=1 exec env --default-signal bash -- "${BASH_SOURCE[-1]}" "$@"
fi

# shellcheck source=checks/lib/check.bash
. "${BASH_SOURCE[0]%/*/*}/lib/check.bash" || exit 1
room=$(mktemp -d) || exit 1
# The file `go` ends a stub that still waits.
trap 'touch -- "$room/go"; chmod -R u+w -- "$room"; rm -rf -- "$room"' EXIT
chmod 755 -- "$room"

# The name has a blank, which the scripts have to quote.
tree="$room/the tree"
source=$tree/crates/census/src/main.rt
out=$tree/crates/census/out
kit=$room/kit
tools=$room/tools

# Only the commands that these scripts and the stubs need, so that no other `rt` is found.
mkdir -- "$tools"
for tool in awk b2sum bash cat chmod cp diff env find flock grep head ln make mkdir mktemp mv nice nproc readlink rm sed seq sh sleep sort stat \
    tac tail tee touch tr truncate; do
    ln -s -- "$(type -P "$tool")" "$tools/$tool"
done

# Root can write into read-only folders. So if root runs a case that needs such a folder, the user `nobody` makes its
# calls.
as_user=()
[[ $(id -u) != 0 ]] || as_user=(setpriv --reuid=65534 --regid=65534 --clear-groups)

# Makes a tree that isn't built, and a toolchain of stubs. The program uses two libraries, which use no other crate of
# the tree. The file `note` is behind a link in the sources.
new_tree() {
    touch -- "$room/go"
    rm -rf -- "$tree" "$kit" "$room"/{begun.*,note,said,slow,go,breaks,links,proof,prover.pid,version,tries,programs,log}
    mkdir -p -- "$tree"/{bin,crates/{census/{src,specs,must-fail},timing/src,plane_core/src,ranges/src}} "$kit/bin"
    cp -- "$top"/bin/{census,rebuild,programs,unproved,built.bash,rebuild-due.bash} "$tree/bin/"
    cp -rp -- "$top/builder" "$tree/"
    printf '%s\n' '# a comment: with a colon' 'census: plane_core ranges' 'plane_core: core' 'ranges: clap' 'census_tests: census' \
        >"$tree/crates.txt"
    echo plane >"$tree/crates/plane_core/src/lib.rt"
    echo ranges >"$tree/crates/ranges/src/lib.rt"
    echo first >"$source"
    echo 'a definition' >"$tree/crates/census/specs/Words.antt"
    echo 'a mutant' >"$tree/crates/census/must-fail/wrong.edit"
    echo 'another program' >"$tree/crates/timing/src/main.rt"
    echo linked >"$room/note"
    ln -s -- "$room/note" "$tree/crates/census/src/linked.rt"
    echo 'kit 1' >"$kit/KIT-ID"
    : >"$room/said"
    write_stubs
}

# Writes the stubs. They make a program that prints the text that main.rt had when it was proved, then its arguments and
# its input, and ends with status 3. They note their arguments, and wait or fail if a case wants that.
write_stubs() {
    cat >"$kit/bin/rt" <<'END'
#!/bin/sh
room=${0%/kit/bin/rt}
if [ "$1" = version ]; then exec cat "$room/version"; fi
if [ "$1 $2" = 'try --' ]; then shift 2; . "$room/tries"; fi
[ "$*" = 'run -- run 0' ] || exit 99
if [ -e "$room/breaks" ]; then . "$room/breaks"; fi
{ echo '#!/bin/sh'; echo "echo 'by rt: $(cat src/main.rt)'"; cat "$room/program"; } >out/census
chmod +x out/census
END
    cat >"$kit/bin/rattle" <<'END'
#!/bin/sh
room=${0%/kit/bin/rattle}
echo "$*" >>"$room/said"
crate=$3
for to; do :; done
if [ -e "$room/proof" ]; then . "$room/proof"; fi
if [ "$crate" != census ]; then mkdir -p "$to" && echo "logic=proved $crate" && exit; fi
echo $$ >"$room/prover.pid"
if [ -e "$room/slow" ]; then while [ ! -e "$room/go" ]; do sleep 0.02; done; fi
{ echo '#!/bin/sh'; echo "echo '$(cat src/main.rt)'"; cat "$room/program"; } >"$to"
if [ -e "$room/breaks" ]; then . "$room/breaks"; fi
echo "logic=proved $crate"
END
    cat >"$kit/bin/rattle-link" <<'END'
#!/bin/sh
room=${0%/kit/bin/rattle-link}
while [ "$1" != -o ]; do shift; done
if [ -e "$room/links" ]; then . "$room/links"; fi
cp "$3" "$2"
chmod +x "$2"
END
    cat >"$room/program" <<'END'
[ -e /proc/self/fd/1 ] || echo 'standard output is closed' >&2
for word; do echo "<$word>"; done
cat
exit 3
END
    chmod +x -- "$kit"/bin/*
}

# Replaces this shell with a call of the launcher, which finds the stubs as its toolchain.
launch() { PATH=$kit/bin:$tools exec "$tree/bin/census" "$@"; }

# Calls the launcher, and keeps its output and errors in files, and its status.
call() {
    (launch) >"$room/output" 2>"$room/errors" </dev/null
    status=$?
}

call_without_rt() {
    PATH=$tools "$tree/bin/census" >"$room/output" 2>"$room/errors" </dev/null
    status=$?
}

call_read_only() {
    chmod -R a-w -- "$tree"
    PATH=$kit/bin:$PATH "${as_user[@]}" "$tree/bin/census" >"$room/output" 2>"$room/errors" </dev/null
    status=$?
    chmod -R u+w -- "$tree"
}

# Checks that the program ran that was built from a main.rt with the text $1.
ran() { [[ $status == 3 && $(head -n 1 -- "$room/output") == "$1" ]]; }

# Checks that no program ran, that the status is 70, and that the last line on standard error says why. The only other
# lines may be those that say what the launcher is doing.
refused() {
    [[ $status == 70 && ! -s $room/output ]] || return
    [[ $(grep -cv '^census: \(building\|waiting\|proving\) ' "$room/errors") == 1 ]] || return
    tail -n 1 -- "$room/errors" | grep -qv '^census: \(building\|waiting\|proving\) '
}

# Checks that the program, or the crate $2, was proved $1 times.
builds() { [[ $(grep -c "^build --crate-name ${2-census} " "$room/said") == "$1" ]]; }
silent() { [[ ! -s $room/errors ]]; }

# Waits up to ten seconds for something to become true.
until_true() {
    local tries
    for ((tries = 0; tries < 500; tries++)); do
        "$@" && return
        sleep 0.02
    done
    return 1
}

# Checks whether a process has ended.
has_ended() { ! kill -0 "$1" 2>/dev/null; }

# Runs a case, whose name is $1, on a new tree. If it fails, what the last call wrote to standard error is printed too.
try() {
    new_tree
    : >"$room/errors"
    if "${@:2}"; then
        pass
    else
        fail "$1"
        sed 's/^/    /' -- "$room/errors"
    fi
}

# Runs the cases without arguments, which are functions that begin with `case_`, or with `read_only_case_` if they need a
# user who can't write everywhere. Then ends the check.
try_cases() {
    local name
    for name in $(compgen -A function | grep '^\(read_only_\)\?case_'); do
        if [[ $name == read_only_* && ${#as_user[@]} != 0 ]] && ! "${as_user[@]}" test -x "$room" 2>/dev/null; then
            skip "${name//_/ }" "root can write everywhere, and setpriv doesn't work here" 1
        else
            try "${name//_/ }" "$name"
        fi
    done
    end
}
