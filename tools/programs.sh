# What a checkout has of its programs: which there are, which crates each is made from, and whether one is there that was made from
# the sources as they stand. To be sourced by bin/run and tools/build, with `top` set to the top of the checkout.
# shellcheck shell=bash
: "${top:?}"

# The programs: the crates of crates.txt that have a main.
programs() {
    local name
    while read -r name; do
        [ ! -f "$top/crates/$name/src/main.rt" ] || printf '%s\n' "$name"
    done < <(sed -n 's/^\([A-Za-z0-9_]\{1,\}\)[^#]*:.*/\1/p' "$top/crates.txt")
}

# The crates that a program is made from, itself too, in the order of crates.txt: the lowest first.
crates_of() {
    awk -v wanted="$1" '
        { sub(/#.*/, "") }
        !/:/ { next }
        { name = $1; sub(/:.*/, "", name); names[++count] = name; sub(/^[^:]*:/, ""); uses[name] = $0 }
        END {
            taken[wanted]
            for (grew = 1; grew; ) {
                grew = 0
                for (name in taken) {
                    parts = split(uses[name], part, /[ \t,]+/)
                    for (i = 1; i <= parts; i++)
                        if (part[i] in uses && !(part[i] in taken)) { taken[part[i]]; grew = 1 }
                }
            }
            for (i = 1; i <= count; i++) if (names[i] in taken) print names[i]
        }' "$top/crates.txt"
}

# The folders of a program's sources, from the top, each ended by a NUL.
folders_of() {
    local name part
    while read -r name; do
        for part in src specs proofs; do
            [ ! -d "$top/crates/$name/$part" ] || printf '%s\0' "crates/$name/$part"
        done
    done < <(crates_of "$1")
}

# One sum for all that a program is made from: each file of its crates, with its name, and their lines in crates.txt.
sum_of_sources() {
    (
        cd "$top" || exit
        {
            crates_of "$1" | sed 's/.*/^&[ :]/' | grep -f - crates.txt
            folders_of "$1" | xargs -0 -r sh -c 'find "$@" -type f -print0' find | LC_ALL=C sort -z | xargs -0 -r sha256sum --
        } | sha256sum | cut -c -64
    )
}

sum_of_file() { sha256sum <"$1" | cut -c -64; }

# The file of the proved program, and of the checked one; beside each its record, which says what it was made from.
proved_file() { printf '%s' "$top/crates/$1/out/$1"; }
checked_file() { printf '%s' "$top/out/checked/$1"; }
proved_record() { printf '%s' "$top/out/proved/$1.sources"; }
checked_record() { printf '%s' "$top/out/checked/$1.sources"; }

# is_recorded FILE RECORD SUM: whether FILE is there, and was made from sources with this sum, by its record.
is_recorded() {
    [ -f "$1" ] && [ -x "$1" ] && [ -f "$2" ] && [ "$(head -n 2 "$2")" = "sources $3
program $(sum_of_file "$1")" ]
}

# record FILE RECORD SUM: says so of a program that was made just now. The third line is for people.
record() {
    mkdir -p "$(dirname "$2")" && printf 'sources %s\nprogram %s\nkit %s\n' "$3" "$(sum_of_file "$1")" "$(rt version 2>/dev/null)" >"$2.$$" && mv -f "$2.$$" "$2"
}

# A proved program that was left by `rt ci` or by `rt run`, and of which no record speaks, is taken where it is newer than all that it
# is made from.
is_left() {
    local file record
    file=$(proved_file "$1")
    record=$(proved_record "$1")
    [ -f "$file" ] && [ -x "$file" ] || return 1
    [ ! -f "$record" ] || [ "$(sed -n 's/^program //p' "$record")" != "$(sum_of_file "$file")" ] || return 1
    # shellcheck disable=SC2016  # the inner shell expands these
    [ -z "$(cd "$top" && folders_of "$1" | xargs -0 -r sh -c 'file=$1; shift; find crates.txt "$@" -newer "$file" -print -quit' find "$file")" ]
}

# is_proved NAME [SUM]: whether the proved program is there for the sources as they are.
is_proved() {
    local sum=${2-}
    [ -f "$(proved_file "$1")" ] || return 1
    [ -n "$sum" ] || sum=$(sum_of_sources "$1")
    is_recorded "$(proved_file "$1")" "$(proved_record "$1")" "$sum" && return
    is_left "$1" && { record "$(proved_file "$1")" "$(proved_record "$1")" "$sum" 2>/dev/null || true; }
}

is_checked() { is_recorded "$(checked_file "$1")" "$(checked_record "$1")" "${2-$(sum_of_sources "$1")}"; }

# lock FILE WORDS: waits until nobody else holds the file, which is then held until descriptor 9 is closed; the words are said where it waits.
lock() {
    exec 9>"$1"
    command -v flock >/dev/null || return 0
    flock -n 9 || say "$2"
    until flock -n 9; do sleep 0.5; done
}

# What is to be said of a proved program that is not there.
proving() {
    if [ -s "$top/out/build.now" ] && ! flock -n "$top/out/build.lock" true 2>/dev/null; then
        printf 'tools/build is at work: %s' "$(cat "$top/out/build.now")"
    else
        printf 'tools/build %s proves it' "$1"
    fi
}
