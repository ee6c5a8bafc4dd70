# Sourced by bench/run, bench/stack and tests/c_interface: links C programs with the library of include/hazomekyu.h for x86-64 Linux, by the toolchain's own compiler,
# linker and C library, and runs them. CC=name takes another C compiler, with everything of its own.

kit=$(dirname "$(rt doc)")
tools=$kit/toolchain/bin libs=$kit/toolchain/lib archive=crates/exports/out/libexports.a made=target/linked
mkdir -p "$made"

library() { # proved and built
    (cd crates/exports && rt lib) > "$made/log" 2>&1 || { cat "$made/log" >&2; exit 2; }
}

linked() { # SOURCE: compiled, and linked with the library, under its own name
    program=$made/$(basename "$1" .c)
    if [ -n "${CC:-}" ]; then
        $CC -O2 -std=c11 -Wall -Wextra -Iinclude "$1" "$archive" -o "$program"
        return
    fi
    "$tools/clang" --target=x86_64-linux-gnu -O2 -std=c11 -Wall -Wextra -ffreestanding -fPIE -Iinclude -Itests/freestanding -c "$1" -o "$program.o"
    "$tools/ld.lld" -pie -dynamic-linker /lib64/ld-linux-x86-64.so.2 "$libs/Scrt1.o" "$libs/crti.o" "$libs/crtbeginS.o" "$program.o" "$archive" \
        "$libs/libc.so.6" "$libs/libc_nonshared.a" "$libs/crtendS.o" "$libs/crtn.o" -o "$program"
}

start() { # PROGRAM ARGUMENTS..: where `kibibytes` is set, with a stack of so many and nothing in the environment
    if [ -n "${kibibytes:-}" ]; then
        (ulimit -s "$kibibytes" && exec env -i "$@")
    else
        "$@"
    fi
}

run() { # NAME ARGUMENTS..
    program=$made/$1
    shift
    start "$program" "$@"
}
