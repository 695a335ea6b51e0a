#!/usr/bin/env bash
# ./package, in copies of the repository that have commits of their own: what it makes and refuses; the program where there is the C
# library alone; a program that is linked for older ones; man pages beside the help; completions in real shells. ./package --try,
# which takes long, is not run here.
. "$(dirname "$0")/common.sh"
install git=git python3=python3 objdump=binutils gcc=gcc dpkg-deb=dpkg lintian=lintian man=man-db mandoc=mandoc zsh=zsh fish=fish
export PYTHONDONTWRITEBYTECODE=1 LC_ALL=C.UTF-8
afdx=${AFDX:-$top/crates/afdx/out/afdx}
cd "$room" || exit 1

# committed FOLDER: a copy of what ./package reads, as a commit of a day that is past.
committed() {
    mkdir "$1" && tar -c -C "$top" --exclude=out --exclude=.git --exclude=crates . | tar -x -C "$1" && (cd "$1" && git init -q . &&
        git add . && GIT_COMMITTER_DATE='2024-02-29T12:00:00Z' git -c user.name=Packager -c user.email=packager@afdx.test commit -q -m Files)
}

# with_program FOLDER: the program where a build puts it, with its object, if the build has kept that.
with_program() {
    mkdir -p "$1/crates/afdx/out" && cp "$afdx" "$1/crates/afdx/out/afdx" || return 1
    [ ! -e "$afdx.o" ] || cp "$afdx.o" "$1/crates/afdx/out/afdx.o"
}

# makes_again: in another folder, by somebody with other habits, at another time.
makes_again() {
    git clone -q one two && with_program two && find two -path two/.git -prune -o -exec touch -d 2020-02-02 '{}' + &&
        (umask 077 && TZ=Asia/Tokyo LC_ALL=C two/package) && diff -r one/out/dist two/out/dist
}

# refuses LINE ARGUMENT..: nothing is made.
refuses() {
    local line=$1 status=0
    shift
    rm -rf two/out && two/package "$@" >answer.txt 2>said.txt || status=$?
    cat said.txt
    [ "$status" -eq 2 ] && [ "$(cat said.txt)" = "$line" ] && [ ! -s answer.txt ] && [ ! -e two/out ]
}

has_sums() {
    (cd one/out/dist && sha256sum -c SHA256SUMS && [ "$(ls | wc -l)" -eq 3 ] && [ "$(wc -l <SHA256SUMS)" -eq 2 ])
}

# glibc_of PROGRAM: the newest C library of which it asks for something.
glibc_of() {
    objdump -T "$1" | sed -n 's/.*GLIBC_\([0-9.]*\).*/\1/p' | sort -uV | tail -n 1
}

# is_older VERSION VERSION: the first is the second or older.
is_older() {
    [ "$(printf '%s\n' "$1" "$2" | sort -V | head -n 1)" = "$1" ]
}

# says_proved: a build with proofs says so of the commit, says if files differ from it, and if there is no commit; afterwards, however
# it has ended, the text says of no program that it is proved.
says_proved() {
    local source=built/crates/afdx/src commit
    mkdir -p built/release "$source" && cp "$top/release/proved.py" built/release && cp "$top/crates/afdx/src/version.rt" "$source" &&
        (cd built && git init -q . && git add . && git -c user.name=Packager -c user.email=packager@afdx.test commit -q -m Files) || return 1
    commit=$(git -C built rev-parse HEAD)
    built_as "proved $commit" 0 && built_as "proved $commit" 7 && killed_as "proved $commit" && echo >>built/release/proved.py &&
        built_as "proved $commit-dirty" 0 && rm -rf built/.git && built_as "proved of no commit" 0
}

# built_as LINE STATUS: while a command runs that ends so, this is the last line of the version, and then `not proved` is.
built_as() {
    local status=0
    python3 built/release/proved.py sh -c "cp built/crates/afdx/src/version.rt during.txt && exit $2" || status=$?
    says_meanwhile "$1" && [ "$status" -eq "$2" ]
}

# killed_as LINE: the same of one that is stopped by a signal.
killed_as() {
    local status=0 build
    rm during.txt
    python3 built/release/proved.py sh -c 'cp built/crates/afdx/src/version.rt during.txt && exec sleep 60' &
    build=$!
    until [ -s during.txt ]; do sleep 0.1; done
    kill "$build" && wait "$build" || status=$?
    says_meanwhile "$1" && [ "$status" -eq 143 ]
}

# says_meanwhile LINE: the last line was this one, after that of the kit if there is one, and is `not proved` again.
says_meanwhile() {
    cat during.txt && [ "$(tail -n 1 during.txt)" = "$1\";" ] &&
        { ! command -v rt >/dev/null || [ "$(tail -n 2 during.txt | head -n 1)" = "$(rt version)" ]; } && cmp built/crates/afdx/src/version.rt "$top/crates/afdx/src/version.rt" &&
        [ "$(tail -n 1 built/crates/afdx/src/version.rt)" = 'not proved";' ]
}

# says_what_it_is: ./package says so of a program that is not proved of the newest commit.
says_what_it_is() {
    local said
    said=$("$afdx" --version | sed -n 3p)
    [ -n "$said" ] && grep -qxF "The program does not say that it is proved of the newest commit, but: $said" made.txt
}

# has_the_program: the .deb has it byte for byte, and so has the .tar.gz, but where it is said to be linked anew: that one asks for
# glibc 2.28 at most and does the same.
has_the_program() {
    local network=$top/examples/network
    cmp "$afdx" installed/usr/bin/afdx || return 1
    if ! grep 'the program is linked anew' made.txt; then
        cmp "$afdx" "$unpacked/bin/afdx"
        return
    fi
    mkdir anew own && grep "^In the .tar.gz the program is linked anew .* glibc $(glibc_of "$unpacked/bin/afdx") or later" made.txt &&
        is_older "$(glibc_of "$unpacked/bin/afdx")" 2.28 && "$unpacked/bin/afdx" run "$network"/{table.toml,in} anew >anew.txt &&
        "$afdx" run "$network"/{table.toml,in} own >own.txt && diff anew.txt own.txt && diff -r anew own
}

# links_for_older_ones: a program that keeps its arguments before main and asks what the processor has, as the kit's do, is linked so
# that it asks for no newer C library than 2.28, sees them, once, and is told what gcc's own library finds.
links_for_older_ones() {
    cat >kept.c <<'END'
#include <stdio.h>
static int count, calls;
static char **words;
static void keep(int number, char **arguments) { count = number, words = arguments, calls++; }
__attribute__((section(".init_array"), used)) static void (*const first)(int, char **) = keep;
extern const struct { unsigned processor[4], active[4]; } *__x86_get_cpuid_feature_leaf(unsigned place);
int main(void) {
    int has = !(~__x86_get_cpuid_feature_leaf(0)->active[2] & 0x982201) && __x86_get_cpuid_feature_leaf(2)->active[2] & 1;
    return printf("%d %d %s %d\n", calls, count, words[1], !has == !__builtin_cpu_supports("x86-64-v2")) < 0;
}
END
    gcc -fPIC -c kept.c && (. "$top/release/linking.sh" && link_older kept kept.o) && ./kept word >said.txt && cat said.txt &&
        [ "$(cat said.txt)" = "1 2 word 1" ] && is_older "$(glibc_of kept)" 2.28
}

# leaves_other_objects: of an object that the program was not linked of none is made.
leaves_other_objects() {
    mkdir other && cp "$afdx" other/afdx && cp kept.o other/afdx.o &&
        (. "$top/release/linking.sh" && program=other/afdx && lay_program other/laid) && cmp "$afdx" other/laid
}

# says_what_it_needs: the .deb depends on the C library whose symbols the program has, and ./package and INSTALL say so.
says_what_it_needs() {
    local glibc
    glibc=$(glibc_of "$afdx")
    dpkg-deb -f "$deb" Depends && [ "$(dpkg-deb -f "$deb" Depends)" = "libc6 (>= $glibc), python3 (>= 3.11)" ] &&
        grep -q " needs glibc $glibc or later and no other library:$" made.txt && grep -q "glibc $glibc or later" "$top/docs/use/INSTALL.md"
}

# has_notices: both packages have the notice of each library of the kit that is linked in, with its words in the copyright file; a
# library without one is named; and where the kit is, the notices are the kit's.
has_notices() {
    local notice kit own
    diff -r "$top/release/notices" "$unpacked/notices" && diff -r "$top/release/notices" installed/usr/share/doc/afdx/notices || return 1
    echo 'clap::Command::new other::of_none std_io::write afdx_units::size' | xargs -n 1 | python3 "$top/release/notices.py" \
        "$top/release/notices" >said.txt && cat said.txt && [ "$(cat said.txt)" = other ] || return 1
    kit=$(command -v rt) || return 0
    for notice in "$top"/release/notices/*; do
        own=$(dirname "$(dirname "$(readlink -f "$kit")")")/rattle/${notice##*/}/LICENSE
        [ -e "$own" ] || own=$own-MIT
        grep -q '^Permission is hereby granted' "$notice" && cmp "$notice" "$own" || return 1
        sed -n 's/^Copyright (c) *//p' "$notice" | while read -r line; do
            grep -F "$line" installed/usr/share/doc/afdx/copyright || exit 1
        done || return 1
    done
}

# has_linked FOLDER..: each file to which a page links is there.
has_linked() {
    local page link lacking=0
    while read -r page; do
        while read -r link; do
            [ -e "$(dirname "$page")/$link" ] || { echo "$page: $link" && lacking=1; }
        done < <(grep -oP '\]\(\K[^)#:\s]+(?=[)#])' "$page")
    done < <(find "$@" -name '*.md')
    [ "$lacking" -eq 0 ]
}

# without_anything ARGUMENT..: the .deb's program in a folder that has the C library and its loader beside it, and no more.
without_anything() {
    local way=(chroot)
    [ "$(id -u)" -eq 0 ] || way=(unshare --map-root-user chroot)
    "${way[@]}" installed /usr/bin/afdx "$@"
}

# first_run: README's first run from a package, in such a folder, prints and puts what it does here.
first_run() {
    local network=examples/network
    grep -qxF "cp -r /usr/share/doc/afdx/examples . && afdx check $network/table.toml" "$top/README.md" &&
        grep -qxF "mkdir out && afdx run $network/table.toml $network/in out" "$top/README.md" || return 1
    cp -r installed/usr/share/doc/afdx/examples installed && mkdir installed/out out &&
        without_anything check "$network/table.toml" >there.txt && without_anything run "$network/table.toml" "$network/in" out >>there.txt &&
        "$afdx" check "$top/$network/table.toml" >here.txt && "$afdx" run "$top/$network/table.toml" "$top/$network/in" out >>here.txt &&
        diff there.txt here.txt && diff -r installed/out out
}

# commands_help BIN: each command of a folder prints its help, with no other on the path but Debian's.
commands_help() {
    local command
    for command in "$1"/*; do
        env -i PATH="$1:/usr/bin:/bin" "${command##*/}" --help || return 1
    done
}

# commands_ask_theirs BIN..: a command of each folder asks the program that lies beside it, though none is on the path.
commands_ask_theirs() {
    local bin
    for bin in "$@"; do
        silent env -i PATH=/usr/bin:/bin "$bin/afdx-diff" "$top"/examples/network/{table,table}.toml || return 1
    done
}

# silent COMMAND..: succeeds and says nothing.
silent() {
    local status=0
    "$@" >said.txt 2>&1 || status=$?
    cat said.txt
    [ "$status" -eq 0 ] && [ ! -s said.txt ]
}

shown_by_man() {
    find "$pages" -name '*.1' -exec man --warnings -E UTF-8 -l -Tutf8 -Z '{}' + >/dev/null
}

# stub NAME: a command that writes its words down, without a slash at their ends.
stub() {
    cat >"stubs/$1" <<'END'
#!/bin/sh
printf '%s ' "${0##*/}" "$@" | sed 's|/ | |g' >words.new && mv words.new words
END
    chmod +x "stubs/$1"
}

# completes SHELL
completes() {
    (cd typing && PATH=$room/stubs:$PATH python3 "$top/end_to_end/completing.py" "$1" "../$unpacked/share" cases.txt)
}

check "what a program says of its proofs" says_proved
check "a copy of the files" committed one
with_program one
(cd one && ./package) >made.txt 2>&1
cat made.txt
number=$("$afdx" --version | sed -n '1s/^afdx //p')
unpacked=afdx-$number-x86_64-linux
deb=one/out/dist/afdx_${number}_amd64.deb
check "checksums of both packages, and no other file" has_sums
check "the same bytes again" makes_again
check "a program that is not proved of this commit" says_what_it_is
check "a program for older C libraries" links_for_older_ones
check "an object that is another's" leaves_other_objects
check "another argument" refuses "usage: ./package [--try [SCRIPT..]]" --sign
check "a script that is none" refuses "usage: ./package [--try [SCRIPT..]]" --try ../package
echo >>two/LICENSE
check "files that are not the commit's" refuses "package: there are changes that are not committed"
rm two/crates/afdx/out/afdx*
check "no program" refuses "package: no crates/afdx/out/afdx: ./test proves, builds and tests it"

tar -x -z -f "one/out/dist/$unpacked.tar.gz" && dpkg-deb -x "$deb" installed || exit 1
pages=$unpacked/share/man/man1
mkdir -p installed/lib/x86_64-linux-gnu installed/lib64 stubs typing/{inner,older,outer}
cp -L /lib/x86_64-linux-gnu/libc.so.6 installed/lib/x86_64-linux-gnu && cp -L /lib64/ld-linux-x86-64.so.2 installed/lib64
check "both have the program" has_the_program
check "the notices of what is linked in" has_notices
check "each file to which a page of theirs links" has_linked "$unpacked" installed/usr/share/doc/afdx
check "lintian finds no error" lintian --fail-on error "$deb"
check "what the program needs" says_what_it_needs
check "README's first run, beside the C library alone" first_run
check "each command where it is unpacked" commands_help "$PWD/$unpacked/bin"
check "a command of each asks its own program" commands_ask_theirs "$unpacked/bin" installed/usr/bin

check "the man pages have no fault for mandoc" silent mandoc -T lint -W style "$pages"/*.1
check "nor for man" silent shown_by_man
check "and all words of the help" python3 "$top/end_to_end/manuals.py" "$unpacked/bin" "$pages"

for command in "$unpacked"/bin/*; do
    stub "${command##*/}"
done
touch typing/{table.toml,inns.txt,olds.txt}
cat >typing/cases.txt <<'END'
afdx mea<TAB> | afdx measure
afdx netw<TAB> jit<TAB> | afdx network jitter
afdx run --un<TAB> tab<TAB> inn<TAB> out<TAB> | afdx run --unchecked table.toml inner outer
afdx run --verd<TAB> --fail<TAB> lost tab<TAB> inn<TAB> out<TAB> | afdx run --verdict --fail-on lost table.toml inner outer
afdx alone --id 10 --jit<TAB> | afdx alone --id 10 --jitter
afdx --vers<TAB> | afdx --version
afdx --expl<TAB> chec<TAB> tab<TAB> | afdx --explain check table.toml
afdx-view --ans<TAB> old<TAB> tab<TAB> | afdx-view --answers older table.toml
END
for shell in bash zsh fish; do
    check "what $shell completes" completes "$shell"
done
finish
