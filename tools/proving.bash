# shellcheck shell=bash disable=SC2154
# Proving what bin/hrt runs, and the libraries for C; bin/hrt sources this, and says what is said here.

lines_in() {
    find "$top/crates/$1"/{src,specs,proofs} -type f \( -name '*.rt' -o -name '*.antt' \) -exec cat {} + 2> /dev/null | wc -l
}

# Seconds that a crate's proof is likely to take from nothing, on four idle processors.
likely() {
    echo $((4 + $(lines_in "$1") * 20 / 1000))
}

minutes() {
    if [ "$1" -lt 90 ]; then echo "$1 s"; else echo "$((($1 + 30) / 60)) min"; fi
}

# Proves one crate, and links the program where it is that. Nothing is proved again that is kept.
prove_crate() {
    cd "$top/crates/$1" || return 1
    case $1 in
        hrt_app | trace_app) rt run -- "${small_words[@]}" < "$small_input" ;;
        *) rt lib ;;
    esac
}

# Proves the program, and keeps it with what rt has said.
prove() {
    local place log=$kept/prove.log
    if is_installed; then
        say "the proved program is installed as $installed"
        return 0
    fi
    place=$(proved_place)
    if [ -x "$place" ] && [ -f "$place.log" ]; then
        say "the proved program of these sources is kept as $place"
        return 0
    fi
    need_kit_for_program
    prove_crates || return 1
    if [ "$place" != "$(proved_place)" ]; then
        say "sources have changed meanwhile: call bin/hrt $how_to_prove again"
        return 1
    fi
    keep "$linked" "$place" "$log" || return 1
    say "proved in $proof_lasted; the program is kept as $place"
}

# Prints the folder of the libraries for C, and proves them where they aren't kept: no library is built without its proof.
make_libraries() {
    local sum log=$kept/prove.log
    if is_installed; then
        [ -f "$top/../libhulayban.a" ] && readlink -f "$top/.." && return 0
        say "the libraries aren't installed here"
        return 1
    fi
    use_libraries
    if ! are_libraries_kept; then
        need_kit 'no libraries are kept here, and none can be made'
        sum=$(sum_of src specs proofs)
        prove_crates || return 1
        if [ "$sum" != "$(sum_of src specs proofs)" ]; then
            say "sources have changed meanwhile: call bin/hrt lib again"
            return 1
        fi
        keep_libraries "$sum" "$log" || return 1
        say "proved in $proof_lasted; the libraries are kept in $libraries"
    fi
    echo "$libraries"
}

# Proves the crates, says how far that is, and sets proof_lasted. What rt says goes into the log. The time left is what is likely, by how long the crates
# so far have lasted; two minutes as they are likely stand before them, so that one small crate doesn't decide.
prove_crates() {
    local crates crate number=0 begun taken likely_left=0 lasted=120 likely_done=120
    mapfile -t crates < <(needed_crates)
    for crate in "${crates[@]}"; do
        likely_left=$((likely_left + $(likely "$crate")))
    done
    mkdir -p "$kept" || return 1
    say "proving ${#crates[@]} crates; what rt has kept of them is not proved again; $log has what it says"
    : > "$log"
    begun=$SECONDS
    for crate in "${crates[@]}"; do
        number=$((number + 1))
        say "$number of ${#crates[@]}: $crate; about $(minutes $((likely_left * lasted / likely_done))) left"
        taken=$SECONDS
        if ! (prove_crate "$crate") >> "$log" 2>&1; then
            tail -n 20 "$log" >&2
            say "$crate isn't proved: see $log"
            return 1
        fi
        taken=$((SECONDS - taken))
        likely_left=$((likely_left - $(likely "$crate")))
        # What was kept takes a few seconds, and tells nothing of the rest.
        if [ "$taken" -gt 5 ]; then
            lasted=$((lasted + taken)) likely_done=$((likely_done + $(likely "$crate")))
        fi
    done
    proof_lasted=$(minutes $((SECONDS - begun)))
}
