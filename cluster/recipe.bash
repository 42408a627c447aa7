# shellcheck shell=bash
# What the recipes share: how they read their arguments, and how they keep the file `job`. That file says which census
# the lines or hauls in its folder belong to.
#
# A recipe sets `here` to the folder that it is in, loads this file, and then calls `read_folder`. A recipe that runs
# parts then calls `read_words` and `keep_job`. A recipe for Slurm calls `read_array` between these two.

# The programs of this repository, or of the installation that the recipes belong to.
programs=$here/../bin
[[ -d $programs ]] || programs=$here/../../../bin
census=${CENSUS:-$programs/census}
# The further arguments of a recipe are tried in this call of `census`, which runs no soup. The recipes that take hauls
# set another call.
tried=(work --count 0 --worker 1)

# Prints one line that says why nothing is done, and ends the script.
refuse() {
    printf '%s: %s\n' "${0##*/}" "$1" >&2
    exit 2
}

# Prints the line of usage at the head of the recipe, and ends the script.
usage() {
    sed -n 's/^# usage: /usage: /p' "$0" >&2
    exit 2
}

# Sets `folder` to a path of the folder that no program can mistake for an option or for an assignment.
read_folder() {
    [[ $1 ]] || refuse "FOLDER is empty"
    folder=$1
    [[ $folder == /* ]] || folder=./$folder
}

# Checks whether a word is a whole number from 1 on, of at most thirteen digits.
is_count() {
    [[ $1 =~ ^[1-9][0-9]{0,12}$ ]]
}

# Sets `total`, `size` and `parts` from the arguments TOTAL and SIZE, and checks the further arguments, which the
# program gets. Nothing is written before the program has accepted them.
read_words() {
    total=$1 size=$2
    shift 2
    is_count "$total" || refuse "TOTAL is a number of soups, from 1 on, and not '$total'"
    is_count "$size" || refuse "SIZE is the number of soups in a part, from 1 on, and not '$size'"
    [[ $total -le 1099511627776 ]] || refuse "TOTAL is at most 1099511627776, since soups are numbered below 2^40"
    [[ $size -le 16777216 ]] || refuse "SIZE is at most 16777216, which is what one call of census takes"
    parts=$(((total + size - 1) / size))
    local word
    for word in "$@"; do
        case $word in
            --first | --first=* | --worker | --worker=* | --also | --also=* | --count | --count=*)
                refuse "${word%%=*} can't be given here: the parts say it themselves" ;;
            --report-from | --report-from=*)
                refuse "--report-from can't be given here: a part has lines or a haul, and not both" ;;
        esac
    done
    "$census" "${tried[@]}" "$@" > /dev/null || exit
}

# Ends the script if there are more parts than Slurm allows tasks in an array job. No file has been made by then.
read_array() {
    local most
    most=$(scontrol show config 2> /dev/null | sed -n 's/^MaxArraySize *= *//p')
    [[ ! $most || $parts -le $most ]] ||
        refuse "an array job has at most $most tasks here, and these are $parts parts; take a greater SIZE"
}

# Writes the file `job`, which says which census the lines or hauls in the folder belong to. If the file is there,
# refuses other arguments, another SIZE, or a smaller TOTAL than it says. With a greater TOTAL, the census grows.
#
# The file has a line `total N`, then `size N`, and then a line `word W` for each further argument, quoted for a shell.
# It is made under another name and then linked. So if many parts begin at once, only one makes it, and no part reads an
# incomplete file.
keep_job() {
    local lines now new known
    mkdir -p -- "$folder" || exit
    # Looks for lines before it looks for `job`, since a call makes `job` before its first line.
    lines=$(find "$folder" -maxdepth 1 \( -name '*.lines' -o -name '*.part' -o -name '*.haul' \) -print -quit)
    now=$(printf 'size %d\n' "$size" && if [[ $# != 0 ]]; then printf 'word %q\n' "$@"; fi)
    new=$folder/job.$(uname -n).$$
    if [[ ! -e $folder/job ]]; then
        [[ -z $lines ]] || refuse "the folder has lines or hauls and no file 'job', so nothing says what census they are of"
        printf 'total %d\n%s\n' "$total" "$now" > "$new"
        ln -- "$new" "$folder/job" 2> /dev/null || [[ -e $folder/job ]] || refuse "can't make the file 'job' in the folder"
        rm -f -- "$new"
    fi
    [[ $(tail -n +2 -- "$folder/job") == "$now" ]] ||
        refuse "the file 'job' in the folder says another SIZE or other words; take another folder for this census"
    read -r _ known < "$folder/job"
    is_count "$known" || refuse "the file 'job' in the folder has no total in its first line"
    [[ $known -le $total ]] || refuse "the file 'job' in the folder says $known soups, and TOTAL is less"
    if [[ $known -lt $total ]]; then
        printf 'total %d\n%s\n' "$total" "$now" > "$new"
        mv -- "$new" "$folder/job"
    fi
}
