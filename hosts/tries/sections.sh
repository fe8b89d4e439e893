# README's sections for decoder fitters and level setters: their lines, as they stand, in a folder where the program is built.
mkdir -p "$scratch/here/target/hosts"
ln -s "$program" "$scratch/here/target/hosts/more1090"
ln -s "$PWD/examples" "$scratch/here/examples"
# The small decoder need not be built twice.
if [ -d "$scratch/../scenario/decode" ]; then cp -rp "$scratch/../scenario/decode" "$scratch/here/target"; fi
section_of() { # TITLE: its lines of commands
    sed -n "/^## $1\$/,/^## /{/^    /s/^    //p}" README.md
}
section() { # TITLE TEXT: the section has at most ten lines that are not blank; its commands end well, and the last prints this text
    local lines printed
    lines=$(section_of "$1")
    printed=$(cd "$scratch/here" && bash -euc "$lines" 2>"$scratch/err" | tail -n "$(wc -l <<<"$2")")
    tried=$((tried + 2))
    if [ "$printed" != "$2" ]; then
        failed=$((failed + 1))
        echo "README, $1: it printed $printed"
        cat "$scratch/err"
    fi
    if [ "$(sed -n "/^## $1\$/,/^## /p" README.md | grep -c '^[^#]')" -gt 10 ]; then
        failed=$((failed + 1))
        echo "README, $1: more than ten lines"
    fi
}
section "Decoder fitters" "pairs 60
unheard 0
unsent 0"
if command -v python3 >/dev/null; then
    section "Level setters" "bits 3ba00000"
    tried=$((tried + 1))
    if [ "$(cd "$scratch/here" && stat -c %s reply.cf32 mode-a.cf32 | paste -sd' ')" != "9600 9600" ] || ! grep -q '^</svg>' "$scratch/here/reply.svg"; then
        failed=$((failed + 1))
        echo "README, Level setters: a file is not there"
    fi
fi
