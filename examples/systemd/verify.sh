#!/bin/sh
# Has systemd judge the units as they stand, in a root of its own with stand-ins for the programs that they name.
#
#     verify.sh
set -eu

here=$(dirname "$(readlink -f "$0")")
root=$(mktemp -d)
trap 'rm -rf "$root"' EXIT

mkdir -p "$root/usr/lib/systemd" "$root/etc/systemd/system" "$root/bin" "$root/usr/local/lib/complete"
cp -r /usr/lib/systemd/system "$root/usr/lib/systemd/"
cp "$here"/*.service "$here"/*.timer "$root/etc/systemd/system/"
for program in bin/sh bin/systemctl bin/sleep bin/mv usr/local/lib/complete/complete usr/local/lib/complete/rebuild.sh; do
    printf '#!/bin/sh\n' > "$root/$program"
    chmod +x "$root/$program"
done

verify() {
    # It says nothing of a unit in which it finds nothing; of some faults it ends with 0.
    said=$(systemd-analyze verify --man=no --root="$root" "$1" 2>&1) || said="${said:-failed}"
    if [ -n "$said" ]; then
        echo "$said" >&2
        exit 1
    fi
    echo "$1: verified"
}

for unit in complete.service complete@8088.service complete-build.service complete-build.timer; do
    verify "$unit"
done
several=$root/etc/systemd/system/complete-build.service.d
mkdir "$several"
cp "$here/several.conf" "$several"
verify complete-build.service
