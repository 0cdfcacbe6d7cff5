# shellcheck shell=bash disable=SC2154
# What .ci/from_c and .ci/install share: building and running the callers of callers/, whose printed lines stand in callers/expected/. Who sources this has
# set check (its own name) and folder (a folder for a while), and is at the top. What runs, runs by the words of run_by, at a stack of 1 MiB.
faults=0
run_by=()

fault() {
    echo "$check: $*" >&2
    faults=$((faults + 1))
}

# has COMMAND: whether it is there; else one line says that its caller is skipped.
has() {
    command -v "$1" > "$folder/where" && return
    echo "$check: skipped: there is no $1"
    return 1
}

# same NAME EXPECTED WORD..: what these words print is as expected.
same() {
    local name=$1 expected=callers/expected/$2
    shift 2
    (ulimit -S -s 1024 && "${run_by[@]}" "$@") > "$folder/$name.printed" 2> "$folder/$name.said" || fault "$name: status $?"
    diff "$folder/$name.printed" "$expected" >&2 || fault "$name prints other lines"
    cat "$folder/$name.said" >&2
}

# Sets traces: a recorded one, the same with each expiry too early, and with one field missing, a function that begins where another runs, no bytes, and
# one line that names the last processor.
make_traces() {
    local name
    traces=()
    for name in recorded early unread second empty far; do traces+=("$folder/$name.trace"); done
    cp crates/trace_app/stdin "$folder/recorded.trace" || exit 1
    sed 's/ now=[0-9]*/ now=0/' "$folder/recorded.trace" > "$folder/early.trace"
    sed 's/ now=[0-9]*//' "$folder/recorded.trace" > "$folder/unread.trace"
    printf '[0] d.h. 1: hrtimer_expire_entry: hrtimer=%s now=9\n' 2a b > "$folder/second.trace"
    : > "$folder/empty.trace"
    printf 'x [4294967295] d.h. 1: hrtimer_expire_entry: hrtimer=1 now=1' > "$folder/far.trace"
}

# run_all_c WAY WORD..: each caller in C but memory.c, built by these words, its name and the words of libraries_by, prints what is expected.
run_all_c() {
    local way=$1 caller words
    shift
    for caller in simulation refusals seats pool idle threads check; do
        words=()
        [ "$caller" != check ] || words=("${traces[@]}")
        if "$@" "callers/c/$caller.c" "${libraries_by[@]}" -o "$folder/$caller.$way"; then
            same "$caller.$way" "$caller" "$folder/$caller.$way" "${words[@]}"
        else
            fault "$caller is not built: $way"
        fi
    done
}

# run_rust WAY: the package of callers/rust, over the archives that its build finds.
run_rust() {
    local way=$1 caller words built=$folder/cargo/release/examples
    if ! (cd callers/rust && RUSTFLAGS='-D warnings' CARGO_TARGET_DIR="$folder/cargo" cargo build --offline -q --release --examples --features trace); then
        fault "the package of callers/rust is not built: $way"
        return
    fi
    for caller in simulation claims check threads; do
        words=()
        [ "$caller" != check ] || words=("${traces[@]}")
        same "rust_$caller.$way" "$caller" "$built/$caller" "${words[@]}"
    done
}

# run_python WAY FOLDER: over the shared objects of this folder.
run_python() {
    local way=$1 folder_of=$2 caller
    for caller in simulation refusals seats threads; do
        same "python_$caller.$way" "$caller" python3 -B "callers/python/$caller.py" "$folder_of/libhulayban.so.0"
    done
    same "python_check.$way" check python3 -B callers/python/check.py "$folder_of/libhulayban_trace.so.0" "${traces[@]}"
}
