#!/usr/bin/env bash
# The Debian package that packaging/deb makes: its files, and its installation, a second one and its removal, in a folder that dpkg
# takes for the root. Nothing is installed on this machine.
set -u
. "$(dirname "${BASH_SOURCE[0]}")/room.bash"
PATH=$PATH:/usr/sbin:/sbin
for tool in dpkg dpkg-deb md5sum useradd getent; do
    command -v "$tool" >/dev/null || { echo "tests/deb.sh: skipped, the command $tool is not here"; exit 0; }
done

"$hkms" --version >/dev/null || exit 1
accounts=$(getent passwd)
package=$(packaging/deb "$folder") || exit 1
version=$("$hkms" --version)
same 'its name' "hkms_${version#hkms }_$(dpkg --print-architecture).deb" "${package##*/}"

# ---- what it has

fresh
dpkg-deb -R "$package" "$room"
same 'its files' 'usr/bin/hkcopy
usr/bin/hkfs
usr/bin/hkms
usr/lib/systemd/system/hkms.service
usr/lib/systemd/system/hkms.socket
usr/lib/systemd/system/hkms@.service
usr/lib/tmpfiles.d/hkms.conf
usr/libexec/hkms-connection
usr/share/bash-completion/completions/hkcopy
usr/share/bash-completion/completions/hkfs
usr/share/bash-completion/completions/hkms
usr/share/doc/hkms/changelog.gz
usr/share/doc/hkms/copyright
usr/share/doc/hkms/examples/inetd.conf
usr/share/doc/hkms/examples/kms-acls.properties
usr/share/doc/hkms/examples/nginx.conf
usr/share/man/man1/hkcopy.1.gz
usr/share/man/man1/hkfs.1.gz
usr/share/man/man1/hkms.1.gz' "$(cd "$room" && find usr -type f | LC_ALL=C sort)"
same 'owners of its files' 'root/root' "$(dpkg-deb -c "$package" | awk '{ print $2 }' | sort -u)"
same 'paths that are not its own' '' "$(grep -rlaI /usr/local "$room")"
for name in hkms hkfs hkcopy; do
    cmp "$room/usr/bin/$name" "crates/${name}_tool/out/${name}_tool"
    same "the proved $name" 0 $?
    same "the manual page of $name" "$(cat "docs/$name.1")" "$(gzip -dc "$room/usr/share/man/man1/$name.1.gz")"
done
same 'the checksums' '' "$(cd "$room" && md5sum --quiet -c DEBIAN/md5sums 2>&1)"
same 'the version' "${version#hkms }" "$(dpkg-deb -f "$package" Version)"
for file in usr/libexec/hkms-connection usr/lib/systemd/system/hkms.service; do
    same "the program in $file" 1 "$(grep -c '/usr/bin/hkms \(pipe\|serve\)' "$room/$file")"
done
mkdir "$folder/again"
cmp "$package" "$(packaging/deb "$folder/again")"
same 'the package, made again' 0 $?

# ---- installing and removing it

[ "$(id -u)" -eq 0 ] || { echo 'tests/deb.sh: left out, since only root can own files: installing it'; exit $((failures > 0)); }
fresh
mkdir -p "$room"/var/lib/dpkg/{info,updates,triggers} "$room/etc"
touch "$room/var/lib/dpkg/status"
echo 'root:x:0:0:root:/root:/bin/sh' >"$room/etc/passwd"
echo 'root:x:0:' >"$room/etc/group"
echo 'root:*:19000:0:99999:7:::' >"$room/etc/shadow"
echo 'root:*::' >"$room/etc/gshadow"
cp /etc/login.defs "$room/etc/" || exit 1

# run_dpkg OPTION..: dpkg on that root.
run_dpkg() {
    output=$(dpkg --root="$room" --force-script-chrootless --force-depends --no-triggers --log=/dev/null "$@" 2>&1)
    status=$?
    [ "$status" -eq 0 ] || echo "$output"
}

account() {
    grep -c '^hkms:x:[0-9]*:[0-9]*::/var/lib/hkms:/usr/sbin/nologin$' "$room/etc/passwd"
}

run_dpkg -i "$package"
same 'an installation' 0 "$status"
same 'the account' 1 "$(account)"
same 'its folder' "$(grep '^hkms:' "$room/etc/passwd" | cut -d: -f3,4) 700" "$(stat -c '%u:%g %a' "$room/var/lib/hkms")"
output=$(cd "$room/var/lib/hkms" && ../../../usr/bin/hkms replay <<<'kms a create k 128 2b7e151628aed2a6abf7158809cf4f3c')
same 'the installed program' '1 version k@0 2b7e151628aed2a6abf7158809cf4f3c' "$output"
output=$(cd "$room/var/lib/hkms" && printf body | ../../../usr/bin/hkfs put a /b)
same 'the installed hkfs' 'put 4' "$output"
output=$(cd "$room/var/lib/hkms" && ../../../usr/bin/hkcopy copy /.reserved/raw/z /w)
same 'the installed hkcopy' 'refused N2 NoSuchPath' "$output"

chmod 750 "$room/var/lib/hkms"
run_dpkg -i "$package"
same 'a second installation' 0 "$status"
same 'the account after it' 1 "$(account)"
same 'the folder after it' 750 "$(stat -c %a "$room/var/lib/hkms")"

run_dpkg -P hkms
same 'a removal' 0 "$status"
same 'what is left of its files' '' "$(find "$room/usr" -type f 2>/dev/null)"
same 'what is left of the folder' 'backup bodies copies keys.log names.log' "$(cd "$room/var/lib/hkms" && echo *)"
same 'the account after it' 1 "$(account)"
same 'the accounts of this machine' "$accounts" "$(getent passwd)"

exit $((failures > 0))
