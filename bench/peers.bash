# Read by the scripts that time a proved program beside others: `proved CRATE` sets `program`, and builds it with `rt run`
# if none is current; `$built` is a folder for what is built, gone at the end.
set -eu
top=$(cd "$(dirname "${BASH_SOURCE[0]}")/.." && pwd)
built=$(mktemp -d)
trap 'rm -rf "$built"' EXIT
proved() {
    program=$top/crates/$1/out/$1
    if [ ! -x "$program" ] || [ -n "$(find "$top"/crates/*/src "$top"/crates/*/specs "$top"/crates/*/proofs -newer "$program" 2>/dev/null)" ]; then
        (cd "$top/crates/$1" && rt run --jobs 1 -- check) > "$built/log" 2>&1 || { tail -n 20 "$built/log" >&2; exit 1; }
    fi
}
# A table's head: the machine as it is.
machine() {
    echo "$(nproc) processors, load $(cut -d' ' -f1 /proc/loadavg)"
}
