# shellcheck shell=bash
# Decides whether a rebuild is due. bin/built.bash loads this file.
#
# The stamp beside the program has the toolchain's version, then the processors that the program was built for, and then a
# line of `b2sum` for each source and for the program. So contents and names count. The time at which a file was
# changed, copied or touched doesn't.
#
# Each call of bin/census waits for `is_fresh`, so these functions start few processes.

# Prints the digests of the sources in some files and folders. Crates of tests and the crate of laws are
# left out, since they aren't built into the program. So are mutants and inputs of tests, which have other suffixes, and
# the folder `out` of each crate, which has built files. Below `src/` and `specs/`, a folder may have any name, and may
# be a link.
digests() (
    set -o pipefail
    cd -- "$top" && find -L "$@" -type d -regex 'crates/\([^/]*_tests\|laws\|[^/]*/out\)' -prune -o \
        -type f \( -name '*.rt' -o -name '*.antt' -o -path crates.txt -o -path "$program" \) \
        -exec b2sum -l 256 -- {} + 2>/dev/null | LC_ALL=C sort
)

# Prints what a build starts from: the toolchain's version and the digests of the sources.
basis() {
    local version
    get_version && echo "$version" && digests crates.txt crates
}

# Checks whether the program was built from these sources by this toolchain, for this machine's level of processors or
# the lowest. If there is no toolchain, its version isn't compared: nothing else could be built, and a program that was
# built from the sources is right.
is_fresh() {
    [[ -x $top/$program && -f $stamp && -r $stamp ]] || return
    local version cpu built_by='' built_for='' built_from=''
    { read -r built_by; read -r built_for; read -r -d '' built_from; } <"$stamp"
    [[ $built_from == "$(digests crates.txt crates "$program")" ]] || return
    get_cpu
    [[ $built_for == default || $built_for == "$cpu" ]] || return
    ! get_version || [[ $built_by == "$version" ]]
}
