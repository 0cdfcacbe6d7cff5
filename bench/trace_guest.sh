#!/usr/bin/env bash
# Boots a Debian kernel under qemu with a root that has one program (trace_guest.c), records all of its timers under a load of sleeps with slack, real-time and
# deadline tasks, descriptors and POSIX timers, while processors go off line and on line and the real clock is set, and checks the trace. Outside the gate: it
# needs qemu-system-x86_64, cc, python3, dpkg, and the package's file or apt-get.
#
# usage: bench/trace_guest.sh PACKAGE [PROCESSORS [SECONDS [HOTPLUG]]]
#   PACKAGE     a package of Debian's, as linux-image-6.12.117+deb12-cloud-amd64, or its .deb file; the kernel must have virtio-console or NVMe built in
#   PROCESSORS  2 to 4; 4 where it is left out         SECONDS  of load; 10
#   HOTPLUG     1: processors go off line and on line meanwhile; 0
set -eu
top=$(dirname "$(dirname "$(readlink -f "$0")")")
package=${1:?usage: bench/trace_guest.sh PACKAGE [PROCESSORS [SECONDS [HOTPLUG]]]}
processors=${2:-4} seconds=${3:-10} hotplug=${4:-0}
folder=$(mktemp -d)
trap 'rm -rf "$folder"' EXIT

if [ -f "$package" ]; then
    deb=$package
else
    (cd "$folder" && apt-get download "$package" > /dev/null 2>&1)
    deb=$(ls "$folder"/*.deb)
fi
dpkg -x "$deb" "$folder/kernel"
kernel=$(ls "$folder"/kernel/boot/vmlinuz-*)

# The root: a cpio archive of the one program.
cc -static -O2 -pthread -Wall -Wextra -o "$folder/init" "$top/bench/trace_guest.c"
python3 - "$folder/init" > "$folder/root" <<'PYTHON'
import os
import sys


def entry(name, mode, data=b""):
    fields = (1, mode, 0, 0, 1, 0, len(data), 0, 0, 0, 0, len(name) + 1, 0)
    head = b"070701" + b"".join(b"%08X" % it for it in fields) + name + b"\0"
    return b"".join(part + b"\0" * (-len(part) % 4) for part in (head, data))


with open(sys.argv[1], "rb") as file:
    sys.stdout.buffer.write(entry(b"init", 0o100755, file.read()) + entry(b"TRAILER!!!", 0))
PYTHON

trace=${TRACE:-$folder/trace}
truncate -s 1G "$folder/disk"
quick=(-accel "${ACCEL:-tcg,thread=multi}")
timeout $((seconds * 20 + 120)) qemu-system-x86_64 "${quick[@]}" -smp "$processors" -m 2048 -nographic -no-reboot -nodefaults \
    -kernel "$kernel" -initrd "$folder/root" -append "console=ttyS0 quiet no_hash_pointers seconds=$seconds hotplug=$hotplug" -serial stdio \
    -drive "file=$folder/disk,if=none,id=disk,format=raw" -device nvme,drive=disk,serial=1 \
    -device virtio-serial-pci -chardev "file,id=trace,path=$trace" -device virtserialport,chardev=trace,name=trace < /dev/null | grep -a '^guest:' || true
[ -s "$trace" ] || tr -d '\0' < "$folder/disk" > "$trace"
echo "$(basename "$kernel"), $processors processors, $seconds s: $(wc -l < "$trace") lines"
"$top/bin/hrt" check --summary "$trace"
