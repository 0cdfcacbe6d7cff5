# Sets `kernel` to a folder with the kernel's own tree of timers (lib/timerqueue.c and lib/rbtree.c with their headers), unchanged.
# It comes by apt, is kept in ~/.cache, and is no part of the repository.
kernel=${XDG_CACHE_HOME:-$HOME/.cache}/hulayban/kernel_tree
fetch_kernel_tree() {
    local package folder name
    package=$(apt-cache pkgnames linux-source- | grep -E '^linux-source-[0-9.]+$' | sort -V | tail -n 1)
    folder=$(mktemp -d)
    (cd "$folder" && apt-get download "$package" > /dev/null 2>&1) || { echo "no package linux-source: apt-get update?" >&2; exit 1; }
    dpkg-deb --fsys-tarfile "$folder"/linux-source-*.deb | tar -xO "./usr/src/$package.tar.xz" \
        | tar -xJ -C "$folder" --strip-components=1 --wildcards '*/lib/timerqueue.c' '*/lib/rbtree.c' '*/include/linux/rbtree*.h' '*/include/linux/timerqueue*.h'
    mkdir -p "$folder/tree/linux"
    mv "$folder"/lib/*.c "$folder/tree"
    mv "$folder"/include/linux/*.h "$folder/tree/linux"
    cp "$top/bench/kernel_names.h" "$folder/tree"
    for name in bug compiler container_of export rcupdate stddef types; do
        echo '#include "../kernel_names.h"' > "$folder/tree/linux/$name.h"
    done
    mkdir -p "$kernel" && cp -r "$folder/tree/." "$kernel" && touch "$kernel/whole"
    rm -rf "$folder"
}
[ -f "$kernel/whole" ] || fetch_kernel_tree
# Compiles a program over the tree: with_kernel_tree SOURCE PROGRAM
with_kernel_tree() {
    gcc -O2 -pthread -I"$kernel" -o "$2" "$1" "$kernel/timerqueue.c" "$kernel/rbtree.c"
}
