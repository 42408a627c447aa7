# shellcheck shell=sh
# Sets `program` to the census program that fits this processor, in the folder `libexec`. If there is none, prints one line and ends
# with status 70.
#
# A processor of the level x86-64-v3 gets a faster program of its own. If the system doesn't list the processor's features, the
# program for the level below is used, which checks the features itself.

flags=
{
    while IFS= read -r line; do
        case $line in flags*:*) flags="${line#*:} " && break ;; esac
    done </proc/cpuinfo
} 2>/dev/null

# Checks whether the processor has all of these features.
has() {
    for feature; do
        case $flags in *" $feature "*) ;; *) return 1 ;; esac
    done
}

if has avx avx2 bmi1 bmi2 f16c fma abm movbe xsave; then
    program=$libexec/census-v3
elif [ ! "$flags" ] || has cx16 lahf_lm pni popcnt sse4_1 sse4_2 ssse3; then
    program=$libexec/census-v2
else
    echo 'census: this processor is below the level x86-64-v2, for which the program is built' >&2
    exit 70
fi
if [ ! -x "$program" ]; then
    echo "census: there is no program $program: unpack or install the whole release" >&2
    exit 70
fi
