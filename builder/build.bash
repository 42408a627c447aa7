# shellcheck shell=bash
# Functions that prove and build the program. bin/census and bin/programs load this file after bin/built.bash.

# shellcheck disable=SC2154  # bin/built.bash sets `top`, `program` and `stamp`
out=$top/${program%/*}
made=$out/made
log=$out/census.log

say() { echo "census: $1" >&2; }

# Says why nothing is run, and ends the script.
refuse() {
    say "$1"
    exit 70
}

cannot() { refuse "the program isn't built from the sources that are here, and can't be: $1"; }

# Ends the command that `run` has started, and this script. An interrupted build leaves nothing that counts as built.
interrupted() {
    trap '' INT TERM HUP
    local group=$! tries
    kill -TERM -- "-$group" 2> /dev/null
    wait "$group" 2> /dev/null
    # make doesn't wait for the prover, which its shell has started.
    for ((tries = 0; tries < 100; tries++)); do
        kill -0 -- "-$group" 2> /dev/null || break
        sleep 0.1
    done
    refuse "interrupted during the build, so nothing was run"
}

# Runs a command, and returns its status. The command gets a process group of its own (set -m), so that Ctrl-C reaches
# only this script, which then ends the whole group. If this script is killed, the proofs go on and are kept.
run() {
    local status
    trap interrupted INT TERM HUP
    set -m
    "$@" < /dev/null &
    set +m
    wait "$!"
    status=$?
    trap - INT TERM HUP
    return "$status"
}

# Waits until no other call builds in this checkout. The file descriptor 9 is the lock. Each prover inherits it, so the
# next build also waits for a prover that outlives this script.
take_lock() {
    mkdir -p -- "$out" 2> /dev/null || cannot "no folder $out can be made"
    { exec 9>> "$out/census.lock"; } 2> /dev/null || cannot "$out/census.lock can't be written"
    flock -n 9 && return
    say "waiting for another call, which is building the program"
    run flock 9 || cannot "$out/census.lock can't be locked"
}

# Prints how many copies of the prover may run: one for each processor, if there is memory for it. More than eight need
# more memory, and aren't faster.
count_copies() {
    local copies kilobytes
    copies=$(nproc)
    kilobytes=$(sed -n 's/^MemAvailable: *\([0-9]*\) kB$/\1/p' /proc/meminfo 2> /dev/null)
    ((copies <= 8)) || copies=8
    ((copies * 1500000 <= ${kilobytes:-copies * 1500000})) || copies=$((kilobytes / 1500000))
    echo $((copies > 0 ? copies : 1))
}

# Calls make with a target, the folder of what is kept, a level of processors, and further variables.
crates() {
    local target=$1 made=$2 level=$3
    make -s -j -f builder/Makefile -C "$top" "$target" kit="$kit" made="$made" level="$level" copies="$(count_copies)" "${@:4}"
}

# Finds the toolchain, and keeps in `before` what the build starts from.
begin_build() {
    type -P make > /dev/null || cannot "there is no command make on the PATH"
    kit=$(type -P rt) || cannot "there is no command rt on the PATH"
    kit=$(readlink -f -- "$kit")
    kit=${kit%/*/*}
    before=$(basis) || cannot "a source in $top, or rt's version, can't be read"
    mkdir -p -- "$made" 2> /dev/null || cannot "no folder $made can be made"
    { : > "$log"; } 2> /dev/null || cannot "$log can't be written"
}

logged() { "$@" 3>&2 >> "$log" 2>&1; }

# Proves and links the program for a level of processors, with what is kept in the folder $1.
build() {
    run logged crates all "$@" || refuse "the build failed, and what the prover said is in $log"
}

# Builds the program for this machine, and writes its stamp, unless another call has done so meanwhile.
build_for_this_machine() {
    take_lock
    ! is_fresh || return 0
    begin_build
    { : > "$stamp.next"; } 2> /dev/null || cannot "$stamp.next can't be written"
    get_cpu
    local level=v2
    [[ $cpu == default ]] || level=v3
    if [[ $(crates stale "$made" "$level" 2> /dev/null) ]]; then
        say "building the program, which is proved first: that takes 10 to 25 minutes the first time with four processors. \
Ctrl-C keeps the crates that are proved, and the next call goes on from there. Meanwhile, bin/unproved runs the program without a proof, \
and bin/haul rarity looks objects up"
        build "$made" "$level"
    fi
    # The file is replaced, since a running program can't be overwritten.
    { cp -- "$made/census-$level" "$top/$program.next" && mv -fT -- "$top/$program.next" "$top/$program"; } 2> /dev/null ||
        refuse "$top/$program can't be written"
    write_stamp "$before" "$cpu" 2> /dev/null ||
        refuse "a source or the toolchain changed during the build, or $stamp can't be written; the prover's log is $log"
    # The program that is run next doesn't keep the lock.
    exec 9>&-
}
