#!/usr/bin/env bash
# ./demo in its three ways, each in a copy of the repository: by a program that says that it is proved, by one that does not say so, and
# by the one that `rt try` builds. They show the same, and say in their first line how the program was built.
. "$(dirname "$0")/common.sh"
install tcpdump=tcpdump
install_python matplotlib pandas
afdx=${AFDX:-$top/crates/afdx/out/afdx}
cd "$room" || exit 1

# copied FOLDER: a copy of what the demo reads, without what was built.
copied() {
    mkdir "$1" && tar -c -C "$top" --exclude=out crates crates.txt HANDLES demo end_to_end examples python release | tar -x -C "$1"
}

# stands_in FILE LINE: the program, but for the third line of its --version.
stands_in() {
    mkdir -p "$(dirname "$1")" && cat >"$1" <<END && chmod +x "$1"
#!/bin/sh
[ "\$*" != --version ] || exec printf 'afdx 1.0.0\nkit\n%s\n' "$2"
exec "$afdx" "\$@"
END
}

# shown NAME: the demo of this copy, as if all were made at one time, and what it prints in NAME.txt.
shown() {
    SOURCE_DATE_EPOCH=0 "$1/demo" >"$1.txt" 2>&1
}

# by_rt FOLDER ARGUMENT..: the demo with an rt in the place of the kit's, which notes how it was called and has the program built.
by_rt() {
    (cd "$1" && PATH=$room/bin:$PATH ./demo "${@:2}") >said.txt 2>&1
}

# shows_counters FILE: frames that came in and went out, as in README and as in the models.
shows_counters() {
    local row
    for row in '^1  flight control computer +246 +324$' '^3  cockpit displays +82 +516$' '^401  cabin camera, .* 198 +36$' \
        '^With the camera silenced, each of the 19 other links ' '^9 frames came in, the 4 that ' '^cockpit link 401 passed 15 policed 0$'; do
        grep -qE "$row" "$1" || { echo "no line like $row"; return 1; }
    done
}

# shows_the_same: but for its first two lines and the last one, the way of `rt try` shows what the proved one does but for its first
# line; so are the files.
shows_the_same() {
    diff <(sed 1d proved.txt) <(sed '1,2d; $d' unproved.txt) && diff -r proved/out/network unproved/out/network &&
        cmp proved/out/network.html unproved/out/network.html && cmp proved/out/link10.pcap unproved/out/link10.pcap
}

# says_so FILE WORDS: its first and its last line have these words of the program, and how to prove it.
says_so() {
    head -n 1 "$1" && diff <(head -n 1 "$1") <(tail -n 1 "$1") && head -n 1 "$1" | grep -q "^The program of this run.* $2: ./demo --proved .*./test"
}

# is_told LINE: of the proved program the first line has what it says of itself, and no line says that it is not proved.
is_told() {
    head -n 1 proved.txt && [ "$(head -n 1 proved.txt)" = "The program of this run, crates/afdx/out/afdx, says of itself: $1" ] &&
        ! grep -e 'not proved' -e 'does not say' proved.txt
}

# uses_it: a program that does not say that it is proved is used, and nothing is built; but for the first line and the last one it shows
# what the proved one does.
uses_it() {
    rm -f calls.txt && by_rt asked && mv said.txt built.txt && [ ! -e calls.txt ] && says_so built.txt 'does not say that it is proved' &&
        diff <(sed 1d proved.txt) <(sed '1d; $d' built.txt)
}

# proves_first: --proved has `rt run` prove and build the program, which is to say that it is proved, shows how far it is, and runs it;
# nothing speaks of an unproved one.
proves_first() {
    by_rt asked --proved && grep -qx 'run -- --help' calls.txt && grep -qE '^ +[0-9]+ of [0-9]+ libraries, 0 min so far$' said.txt &&
        shows_counters said.txt && ! grep -e 'not proved' -e 'does not say' said.txt && grep -x 'proved of no commit";' version.txt &&
        cmp asked/crates/afdx/src/version.rt "$top/crates/afdx/src/version.rt"
}

# refuses WORD: an argument that is none.
refuses() {
    ! proved/demo "$1" >answer.txt 2>said.txt && [ ! -s answer.txt ] && [ "$(cat said.txt)" = "usage: ./demo [--proved]" ]
}

# stops: if the build fails, what was said is shown, and nothing of a run.
stops() {
    ! by_rt "$@" && grep -q 'no kit here' said.txt && ! grep 'came in' said.txt
}

mkdir bin
cat >bin/rt <<END
#!/bin/sh
echo "\$*" >>"$room/calls.txt"
[ ! -e "$room/fails" ] || { echo "no kit here" >&2; exit 2; }
sleep 2
cp src/version.rt "$room/version.txt" && mkdir -p out && cp "$room/proved/crates/afdx/out/afdx" out/afdx
END
chmod +x bin/rt
copied proved && copied unproved && copied asked || exit 1
stands_in proved/crates/afdx/out/afdx 'proved of no commit' || exit 1

check "the proved program, if it is built" shown proved
check "shows what came in and what went out" shows_counters proved.txt
check "and what the program says of itself" is_told 'proved of no commit'
check "an unproved one otherwise" shown unproved
check "shows the same" shows_the_same
check "and says in its first and last line that it is not proved" says_so unproved.txt 'is not proved'
touch fails
check "a build that fails" stops asked
check "a proof that fails" stops asked --proved
rm fails
stands_in asked/crates/afdx/out/afdx 'not proved' || exit 1
check "a program that does not say that it is proved" uses_it
check "--proved proves it first" proves_first
check "another argument" refuses --prove
finish
