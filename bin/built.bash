# shellcheck shell=bash
# Variables and functions for the scripts that load this file by its full path: the path of the program, the toolchain's
# version, the level of this machine's processor, and the stamp beside the program, which says what the program was
# built from. bin/rebuild-due.bash compares the stamp with the sources and the toolchain that are there now.

top=${BASH_SOURCE[0]%/*/*}
program=crates/census/out/census
stamp=$top/$program.built
# shellcheck source=bin/rebuild-due.bash
. "${BASH_SOURCE[0]%/*}/rebuild-due.bash"

# Sets `version` to the toolchain's version. Fails if there is no `rt`.
get_version() {
    hash rt 2>/dev/null || return
    local kit
    kit=$(readlink -f -- "${BASH_CMDS[rt]}")
    # `rt version` prints this file, but takes 0.3 seconds.
    version=${kit%/*/*}/KIT-ID
    if [[ -r $version ]]; then version=$(<"$version"); else version=$(rt version </dev/null 2>/dev/null); fi
}

# Sets `cpu` to the level of this machine's processor: `x86-64-v3`, for which the program is faster, or `default`. That
# stands for the lowest level for which the toolchain builds, x86-64-v2, which has SSE4.2.
get_cpu() {
    cpu=default
    local flags feature
    while IFS= read -r flags; do
        [[ $flags == flags* ]] || continue
        for feature in avx avx2 bmi1 bmi2 f16c fma abm movbe xsave; do
            [[ " ${flags#*:} " == *" $feature "* ]] || return 0
        done
        cpu=x86-64-v3
        return 0
    done 2>/dev/null </proc/cpuinfo
}

# Writes the stamp of the program. $1 is the basis from before the build, and $2 the level of processors that the
# program was built for. Fails if there is no program, or if the basis is no longer $1.
write_stamp() {
    [[ -x $top/$program && $(basis) == "$1" ]] || return
    # The stamp gets its name last, so that an incomplete stamp is never read.
    { echo "${1%%$'\n'*}" && echo "$2" && digests crates.txt crates "$program"; } >"$stamp.next" && mv -fT -- "$stamp.next" "$stamp"
}
