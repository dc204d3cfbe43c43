# Proves and builds the programs of a clone. `mystery` and `install` read it.
# shellcheck shell=bash disable=SC2154

# Prints the crate's name and those of the crates that it stands on.
crates_below() {
    local -A needs=() seen=()
    local name others queue=("$1") at=0
    while IFS=: read -r name others; do
        case $name in
        '' | \#*) ;;
        *) needs[$name]=$others ;;
        esac
    done <"$top/crates.txt"
    while ((at < ${#queue[@]})); do
        name=${queue[at++]}
        [ -n "${needs[$name]+there}" ] && [ -z "${seen[$name]-}" ] || continue
        seen[$name]=1
        printf '%s\n' "$name"
        queue+=(${needs[$name]})
    done
}

# Prints the folders of the crate's sources and of the crates below it.
source_folders() {
    local name
    for name in $(crates_below "$1"); do
        printf '%s\n' "$top/crates/$name"
    done
}

# Prints a sum of the texts of all sources that the crate's program is made from.
sources_sum() {
    local folders
    mapfile -t folders < <(source_folders "$1")
    (
        cd "$top" || exit
        export LC_ALL=C
        find "${folders[@]#"$top/"}" \( -name out -o -name must-fail \) -prune -o -type f \
            \( -name '*.rt' -o -name '*.antt' \) -print0 | sort -z | xargs -0 sha256sum | sha256sum
    ) | while read -r sum _; do printf '%s\n' "${sum:0:12}"; done
}

# Tells whether a source of the crate's program is newer than its last build.
is_stale() {
    local folder=$top/crates/$1 folders
    [ -x "$folder/out/$1" ] && [ -e "$folder/out/built" ] || return 0
    mapfile -t folders < <(source_folders "$1")
    [ -n "$(find "$top/crates.txt" "${folders[@]}" -mindepth 1 \( -name out -o -name must-fail \) \
        -prune -o \( -type d -o -name '*.rt' -o -name '*.antt' \) -newer "$folder/out/built" \
        -print -quit)" ] || [ "$top/crates.txt" -nt "$folder/out/built" ]
}

# Prints how many crates are proved at a time: one a processor, and 3 GB of free memory for each.
jobs_at_once() {
    local jobs free
    jobs=$(nproc 2>/dev/null) || jobs=2
    while read -r name free _; do
        [ "$name" = MemAvailable: ] && ((jobs * 3000000 > free)) && jobs=$((free / 3000000))
    done </proc/meminfo
    printf '%s' $((jobs > 0 ? jobs : 1))
}

# Copies what `rt all check` says, and tells of each crate that has come to its end.
show_progress() {
    local total=$1 line done=0
    while IFS= read -r line; do
        printf '%s\n' "$line"
        case $line in
        '== summary') ;;
        '== '*) say "proved $((++done)) of $total crates, $((SECONDS / 60)) min (${line#== })" ;;
        esac
    done
}

# Writes what was built, with the time at which the build began: a later edit makes it stale.
note_build() {
    local folder=$top/crates/$1 kit
    kit=$(rt version 2>/dev/null) || kit=
    kit=${kit%%$'\n'*}
    printf 'sources %s\nkit %s\n' "$(sources_sum "$1")" "${kit%% *}" >"$folder/out/built.new" &&
        touch -r "$folder/out/begun" "$folder/out/built.new" &&
        mv "$folder/out/built.new" "$folder/out/built"
}

# Proves and builds the program of a crate, by all processors. What is done is kept, so a build
# that was interrupted goes on where it was.
build() {
    local folder=$top/crates/$1 log=$top/crates/$1/out/build.log jobs total
    if ! type -P rt >/dev/null; then
        say "the program is not built yet, and the toolchain's command rt is not on the PATH"
        say "install a release, which needs no toolchain, or see README.md for where it comes from"
        return 1
    fi
    mkdir -p "$folder/out" && : >"$folder/out/begun" || return 1
    jobs=$(jobs_at_once)
    total=$(crates_below "$1" | wc -l)
    SECONDS=0
    say "proving and building the program: $total crates, $jobs at a time; what is done is kept"
    (cd "$folder" && exec rt all check --jobs "$jobs") 2>&1 </dev/null |
        show_progress "$total" >"$log"
    if ((PIPESTATUS[0] == 0)); then
        # (rt run builds it, and runs it once without arguments)
        (cd "$folder" && exec rt run) >>"$log" 2>&1 </dev/null
        [[ $(<"$log") == *"rt: running out/$1;"* ]] && [ -x "$folder/out/$1" ] && note_build "$1" &&
            return 0
    fi
    tail -n 20 "$log" >&2
    say "the program was not built; the whole log is $log"
    return 1
}

# Sets `program` to the crate's program, built where it has to be.
find_program() {
    program=$(path_of "$1")
    if [ -n "$clone" ] && is_stale "$1" && ! build "$1"; then
        exit 125
    fi
    if [ ! -x "$program" ]; then
        say "$program is missing: install mystery again"
        exit 125
    fi
}
