# shellcheck shell=bash disable=SC2154
# Functions of ./package: the program for older systems. The variables are those of ./package.

# link_older FILE OBJECT..: links objects into a program that asks for no newer glibc than 2.28, with Debian's own tools.
link_older() {
    gcc -O2 -Wall -Wextra -Werror -fPIC -c "$top/release/start.c" -o "$room/start.o" &&
        gcc -pie -Wl,-z,relro,-z,now -o "$1" "${@:2}" "$room/start.o"
}

# kit_of: the folder of the kit, if its command is on the path.
kit_of() {
    local command
    command=$(command -v rt) && dirname "$(dirname "$(readlink -f "$command")")"
}

# is_of_program OBJECT..: the kit's linker makes the program of these, byte for byte.
is_of_program() {
    "$kit/bin/rattle-link" --target x86_64-unknown-linux-gnu --toolchain "$kit/toolchain" -o "$room/again" "$@" 2>/dev/null &&
        cmp -s "$room/again" "$program"
}

# lay_program FILE: the program of the .tar.gz. Where the object is kept of which the program was linked, and the kit is there, it is
# linked anew of the same objects; else it is the program itself.
lay_program() {
    local kit objects
    if [ -e "$program.o" ] && kit=$(kit_of) && objects=("$program.o" "$kit"/c/lib{os,libc}_c.a) && is_of_program "${objects[@]}"; then
        install gcc=gcc
        [ -e /usr/include/stdlib.h ] || install no-such-command=libc6-dev
        link_older "$1" "${objects[@]}" || refuse "$program.o cannot be linked anew"
    else
        command install -m 755 "$program" "$1"
    fi
}
