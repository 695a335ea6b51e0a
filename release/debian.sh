# shellcheck shell=bash disable=SC2154
# Functions of ./package: the .deb, of what the folder of the .tar.gz has. The variables are those of ./package.

# lay_root: what the .deb puts under /, each thing where Debian wants it.
lay_root() {
    local share=$root/usr/share command
    mkdir -p "$root/usr/bin" "$share/doc/afdx" "$share/lintian/overrides"
    command install -m 755 "$program" "$root/usr/bin/afdx"
    cp -r "$unpacked"/share/* "$share"
    mv "$share/zsh/site-functions" "$share/zsh/vendor-completions"
    cp -r "$unpacked/python" "$share/afdx"
    rm "$share/afdx/pyproject.toml"
    for command in "$share"/afdx/bin/afdx-*; do
        ln -s "../share/afdx/bin/${command##*/}" "$root/usr/bin"
    done
    cp -r "$unpacked"/{README.md,SECURITY.md,CHANGELOG.md,docs,examples,bench,notices} "$share/doc/afdx"
    write_copyright >"$share/doc/afdx/copyright"
    write_changelog | gzip -9n >"$share/doc/afdx/changelog.gz"
    write_overrides >"$share/lintian/overrides/afdx"
    find "$share/man" -name '*.1' -exec gzip -9n '{}' +
}

# write_copyright: whose the files are, and whose code the kit linked into the program.
write_copyright() {
    local own
    own="$(date -u -d "@$SOURCE_DATE_EPOCH" +%Y) $maintainer"
    cat <<END
Format: https://www.debian.org/doc/packaging-manuals/copyright-format/1.0/
Upstream-Name: afdx

Files: *
Copyright: $own
License: Apache-2.0

Files: usr/bin/afdx
Copyright: $own
$(sed -n 's/^Copyright (c) */           /p' "$files"/release/notices/* | sort -u)
License: Apache-2.0 and Expat
Comment: The Rattle kit, which built the program, linked code of its own into
 it: ports of Rust crates, each under the terms of Expat, whose notices are in
 /usr/share/doc/afdx/notices; its standard library; and a little C for
 arguments, the environment and the heap. Of the last two the kit says no
 terms. The start-up code is that of the GNU C library and of GCC, which their
 exceptions let everybody link.

License: Apache-2.0
 The whole licence is in /usr/share/common-licenses/Apache-2.0.

License: Expat
$(sed -n '/^Permission is hereby granted/,$p' "$files/release/notices/clap" | sed 's/^$/./; s/^/ /')
END
}

write_changelog() {
    cat <<END
afdx ($version) unstable; urgency=medium

  * CHANGELOG.md says what is new.

 -- $maintainer  $(date -u -R -d "@$SOURCE_DATE_EPOCH")
END
}

write_overrides() {
    cat <<END
# The program is, byte for byte, the one that was built and tested.
afdx: unstripped-binary-or-object [usr/bin/afdx]
END
}

# recommended: Debian's packages of the modules that the Python commands import, in one line.
recommended() {
    python3 "$files/release/modules.py" "$unpacked/python" | sed 's/^/python3-/' | paste -s -d , | sed 's/,/, /g'
}

# kilobytes: what the installed files take, each in whole KiB.
kilobytes() {
    find "$root/usr" -type f -printf '%s\n' | awk '{ all += int(($1 + 1023) / 1024) } END { print all }'
}

write_control() {
    local modules
    modules=$(recommended)
    cat <<END
Package: afdx
Version: $version
Architecture: amd64
Maintainer: $maintainer
Installed-Size: $(kilobytes)
Depends: libc6 (>= $glibc), python3 (>= 3.11)
END
    [ -z "$modules" ] || echo "Recommends: $modules"
    cat <<END
Section: net
Priority: optional
Description: switch of an AFDX network, run over captured traffic
 Given a configuration table and one capture for each port, it says which
 frames leave an AFDX (ARINC 664 Part 7) switch, when, and whether one faulty
 sender can disturb another virtual link. It checks tables and networks of
 switches, and polices, measures and traces captures.
END
}

make_deb() {
    mkdir "$root/DEBIAN"
    (cd "$root" && find usr -type f -print0 | sort -z | xargs -0 md5sum >DEBIAN/md5sums)
    write_control >"$root/DEBIAN/control"
    find "$root" -exec touch -h -d "@$SOURCE_DATE_EPOCH" '{}' +
    dpkg-deb --root-owner-group --threads-max=1 --build "$root" "$dist/afdx_${version}_amd64.deb" >/dev/null
}
