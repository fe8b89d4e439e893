# tools/install into a scratch prefix; and a caller in C, C++ and Rust, each built from there with README's two lines.
installed() { # WHAT COMMAND..
    local what=$1
    shift
    tried=$((tried + 1))
    if ! "$@" >"$scratch/out" 2>&1; then
        failed=$((failed + 1))
        echo "install: $what: not so"
        cat "$scratch/out"
    fi
}
PREFIX=$scratch/prefix
for words in "" "a b" "--help"; do
    tools/install $words >/dev/null 2>&1
    installed "tools/install $words is wrong use" [ $? = 2 ]
done
installed "tools/install" tools/install "$PREFIX"
installed "the program" cmp "$program" "$PREFIX/bin/more1090"
installed "the same functions in both libraries" cmp \
    <(nm -D --defined-only "$PREFIX/lib/libmore1090.so" | awk '{ print $3 }') \
    <(nm --defined-only "$PREFIX/lib/libmore1090.a" 2>/dev/null | awk '$2 == "T" && $3 !~ /_(guarded|proved)_/ && $3 ~ /^more1090_/ { print $3 }' | sort -u)
for command in "" $("$program" --help | sed -n 's/^    \([a-z0-9]*\).*/-\1/p'); do
    page=$PREFIX/share/man/man1/more1090$command.1
    installed "a man page more1090$command" grep -q '^.SH DESCRIPTION' "$page"
    if command -v man >/dev/null; then
        installed "no warning in more1090$command.1" [ -z "$(man -l --warnings "$page" 2>&1 >/dev/null)" ]
    fi
done
installed "the binding of the crate" cmp hosts/rust/more1090_generator.rs "$PREFIX/share/more1090/rust/src/lib.rs"
installed "the crate's version" grep -qx "version = \"$(cat VERSION)\"" "$PREFIX/share/more1090/rust/Cargo.toml"
DESTDIR=$scratch/package tools/install /usr
installed "with DESTDIR the files are right for PREFIX" grep -qx prefix=/usr "$scratch/package/usr/lib/pkgconfig/more1090.pc"
installed "and the Python module's" grep -qx /usr/lib "$scratch/package/usr/share/more1090/python/more1090/library_folder"
# A package, twice, from other times and another umask: the same bytes, and those of the tree.
for words in "" usr "/usr a b"; do
    tools/dist $words >/dev/null 2>&1
    installed "tools/dist $words is wrong use" [ $? = 2 ]
done
installed "tools/dist" tools/dist /usr "$scratch/package.tar.gz"
(umask 077 && sleep 1 && tools/dist /usr "$scratch/again.tar.gz")
installed "the same files make the same package" cmp "$scratch/package.tar.gz" "$scratch/again.tar.gz"
mkdir "$scratch/unpacked"
installed "a package can be unpacked" tar -C "$scratch/unpacked" -xzf "$scratch/package.tar.gz"
installed "a package has the installed tree" diff -r "$scratch/unpacked" "$scratch/package"
mkdir "$scratch/callers"
cp examples/callers/* "$scratch/callers"
first="31.5 dB: amplitude 1.83514348e-05; parity 000000"
built() { # LANGUAGE TEXT [PROGRAM]: README's lines for it, between the marks; then the program, ./first, prints this text
    local lines
    lines=$(sed -n "/^    # $1\$/,/^\$/{/^    [^#]/s/^    //p}" README.md)
    tried=$((tried + 1))
    if [ "$(cd "$scratch/callers" && export PREFIX && bash -euc "{ $lines
} >&2
${3:-./first}" 2>"$scratch/err")" != "$2" ] || [ "$(wc -l <<<"$lines")" != 2 ]; then
        failed=$((failed + 1))
        echo "install: README's lines for $1 do not build and run: $lines"
        cat "$scratch/err"
    fi
}
if command -v pkg-config >/dev/null; then
    built C "$first"
    if command -v c++ >/dev/null; then built C++ "refused 3"; fi
fi
if command -v cargo >/dev/null; then
    mkdir "$scratch/callers/src"
    cp examples/callers/first.rs "$scratch/callers/src/main.rs"
    printf '[package]\nname = "first"\nedition = "2024"\n' >"$scratch/callers/Cargo.toml"
    built Cargo "31.5 dB: amplitude 0.000018351435; parity 000000" target/release/first
fi
built Rust "31.5 dB: amplitude 0.000018351435; parity 000000"
