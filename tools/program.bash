# shellcheck shell=bash disable=SC2034,SC2154
# Where a checkout's programs and libraries for C are kept, and what they were made from. bin/hrt and scripts of .ci/ source this; $top is the checkout.
# A program is kept in out/ under a name with a sum of its sources, so it is found exactly where these are the same. The libraries are kept in out/lib
# under the names that a linker wants, and the sum stands beside them.

kept=$top/out
libraries=$kept/lib

# Chooses the program that is looked for: its crate; its name where it is installed; the variable that names another program in its place; a file that it
# reads in no time, and what it then prints; the words of that call.
use_program() {
    main_crates=("$1") linked=$top/crates/$1/out/$1 installed=$top/programs/$2 chosen_by=$3 small_input=$top/$4 small_output=$top/$5
    small_words=("${@:6}")
}
use_hrt() {
    use_program hrt_app hrt HRT_PROGRAM examples/no_calls.hrt examples/no_calls.record run
}
use_hrt_check() {
    use_program trace_app hrt_check HRT_CHECK_PROGRAM crates/trace_app/stdin crates/trace_app/stdout
}
use_hrt

# Whether this is no checkout, but where the programs are installed.
is_installed() {
    [ ! -e "$top/crates.txt" ] && [ -x "$installed" ]
}

# Chooses the libraries for C in place of a program: that of timers, and that of the check of traces.
use_libraries() {
    main_crates=(hulayban_c hulayban_trace)
}

# The crates of the program or of the libraries, each behind those that it stands on.
needed_crates() {
    awk -v wanted="${main_crates[*]}" '
        function visit(name, count, at, below) {
            if (seen[name]++ || !(name in uses)) return
            count = split(uses[name], below, " ")
            for (at = 1; at <= count; at++) visit(below[at])
            print name
        }
        { sub(/#.*/, ""); at = index($0, ":"); if (at) { split($0, head, /[ :]/); uses[head[1]] = substr($0, at + 1) } }
        END { count = split(wanted, names, " "); for (at = 1; at <= count; at++) visit(names[at]) }' "$top/crates.txt"
}

# The kit's folder, if it is there.
kit_folder() {
    local rt
    rt=$(readlink -f "$(command -v rt)" 2>/dev/null) && dirname "$(dirname "$rt")"
}

# A sum of what it is made from: the kit, the lines of its crates in crates.txt, and their files in these folders.
sum_of() {
    local crates folders=() crate part
    mapfile -t crates < <(needed_crates)
    for crate in "${crates[@]}"; do
        for part in "$@"; do
            [ ! -d "$top/crates/$crate/$part" ] || folders+=("crates/$crate/$part")
        done
    done
    (
        cd "$top" || exit 1
        cat "$(kit_folder)/KIT-ID" 2>/dev/null
        for crate in "${crates[@]}"; do
            grep -E "^${crate}[ :]" crates.txt
        done
        find "${folders[@]}" -type f \( -name '*.rt' -o -name '*.antt' \) -print0 | LC_ALL=C sort -z | xargs -0 sha256sum
    ) | sha256sum | cut -c 1-16
}

# Where the proved program of these sources is kept, and the one that is built without its proofs.
proved_place() {
    echo "$kept/${main_crates[0]}.proved.$(sum_of src specs proofs)"
}
unproved_place() {
    echo "$kept/${main_crates[0]}.unproved.$(sum_of src)"
}

# Keeps a program in its place, with what rt said of its proof where that is given, and removes those of other sources.
keep() {
    local program=$1 place=$2 log=${3-} new other
    mkdir -p "$kept" && new=$(mktemp "$kept/new.XXXXXX") && cp "$program" "$new" && chmod 755 "$new" && mv -f "$new" "$place" || return 1
    for other in "${place%.*}".*; do
        [ "$other" = "$place" ] || rm -f "$other"
    done
    [ -z "$log" ] || cp "$log" "$place.log"
}

# Whether the libraries of these sources are kept.
are_libraries_kept() {
    [ -f "$libraries/libhulayban.a" ] && [ -f "$libraries/libhulayban_trace.a" ] && [ -f "$libraries/proof.log" ] &&
        [ "$(cat "$libraries/sum" 2> /dev/null)" = "$(sum_of src specs proofs)" ]
}

# Puts the kit's heap, by which Rattle calls malloc, realloc and free, into a copy of the archive that rt lib has left for a crate.
make_whole() {
    local crate=$1 archive=$2 folder
    folder=$(mktemp -d) || return 1
    cp "$top/crates/$crate/out/lib$crate.a" "$folder/whole.a" && chmod 644 "$folder/whole.a" &&
        (cd "$folder" && ar x "$(kit_folder)/c/liblibc_c.a" heap.pic.o && ar rsD whole.a heap.pic.o) &&
        mv -f "$folder/whole.a" "$archive"
    local status=$?
    rm -rf "$folder"
    return $status
}

# Keeps the libraries that rt lib has left, each whole, with the sum of their sources, and what rt has said.
keep_libraries() {
    local sum=$1 log=$2
    mkdir -p "$libraries" && rm -f "$libraries"/* && make_whole hulayban_c "$libraries/libhulayban.a" &&
        make_whole hulayban_trace "$libraries/libhulayban_trace.a" && cp "$log" "$libraries/proof.log" && echo "$sum" > "$libraries/sum"
}
