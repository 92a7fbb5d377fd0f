#!/bin/sh
# Builds acrun and acrun-tools of this tree without any proof and without a sanitizer, side by side, in two or three minutes, for scripts
# that run them often.
#
#     tools/native.sh OUT        acrun becomes OUT, an absolute path, and acrun-tools lies beside it
#
# A program of `rt try` has a sanitizer, and is a hundred times slower. This one is made of the same module: a toolchain whose
# clang keeps the module stands in for the real one. Nothing is proved, so the programs are for trying things out alone. OPT is
# -O0, or -O1 or -O3 if the variable says so: one more minute of a processor for each. TMPDIR names the directory for its files. If
# CRATE is acrun or acrun_tools, that program alone is built, and the other stays as it is. If MODULES names a directory, the modules
# are left there, as acrun.bc and acrun_tools.bc.
set -u
[ $# = 1 ] || { echo "usage: tools/native.sh OUT" >&2; exit 2; }
out=$1 beside=$(dirname "$1")/acrun-tools
crates=$(dirname "$(realpath "$0")")/../crates
real=$(dirname "$(dirname "$(realpath "$(command -v rt)")")")
top=$(mktemp -d) || exit 2
trap 'rm -rf "$top"' EXIT

# build CRATE OUT: builds one program, in a directory of its own
build() {
    work=$top/$1 kit=$top/$1/kit
    mkdir -p "$kit/bin" "$kit/toolchain/bin" "$work/keep" "$work/tmp"
    cd "$crates/$1" || return 2

    # A toolchain of links, but for what is named here.
    for it in "$real"/bin/* "$real"/toolchain/bin/*; do
        name=$(basename "$it")
        case $it in
        */toolchain/bin/clang | */bin/rt | */bin/rtlib.py | */bin/rattle) ;;
        */toolchain/bin/*) ln -s "$it" "$kit/toolchain/bin/$name" ;;
        *) ln -s "$it" "$kit/bin/$name" ;;
        esac
    done
    for it in "$real"/* "$real/toolchain/lib"; do
        name=${it#"$real"/}
        [ -e "$kit/$name" ] || ln -s "$it" "$kit/$name"
    done
    cp "$real/bin/rt" "$real/bin/rtlib.py" "$kit/bin/"
    # The program isn't run on the interpreter first, and names aren't checked beside the build.
    sed -i 's/^STEPS = .*/STEPS = "1"/' "$kit/bin/rtlib.py"
    printf '#!/bin/sh\nexit 1\n' > "$kit/bin/rattle"
    # The first, small module is compiled. The program's is kept, and its build with the sanitizer fails.
    cat > "$kit/toolchain/bin/clang" <<END
#!/bin/bash
case " \$* " in *" -x ir "*)
    if [ "\$(stat -c %s module.bc)" -gt 100000 ]; then
        cp module.bc "$work/keep/module.bc"
        exit 1
    fi ;;
esac
exec -a "\$0" "$real/toolchain/bin/clang" "\$@"
END
    chmod +x "$kit/bin/rattle" "$kit/toolchain/bin/clang"

    TMPDIR=$work/tmp "$kit/bin/rt" try > "$work/said" 2>&1 < /dev/null
    if [ ! -s "$work/keep/module.bc" ]; then
        cat "$work/said" >&2
        echo "native.sh: no module of $1 was made" >&2
        return 1
    fi
    [ -z "${MODULES-}" ] || cp "$work/keep/module.bc" "$MODULES/$1.bc" || return 1
    "$real/toolchain/bin/clang" "${OPT:--O0}" -c -o "$work/module.o" "$work/keep/module.bc" || return 1
    gcc -o "$work/program" "$work/module.o" "$real/c/libos_c.a" "$real/c/liblibc_c.a" -lm -lpthread || return 1
    mv "$work/program" "$2"
}

case ${CRATE-} in
'')
    build acrun_tools "$beside" &
    (build acrun "$out")
    status=$?
    wait $! && exit $status
    exit 1
    ;;
acrun) build acrun "$out" ;;
acrun_tools) build acrun_tools "$beside" ;;
*) echo "native.sh: CRATE is acrun or acrun_tools" >&2; exit 2 ;;
esac
