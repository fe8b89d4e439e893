# README's lines for goods inward, as they are written, in two folders that stand for two machines and have the package alone.
goods() { # WHAT COMMAND..: the command ends well
    local what=$1
    shift
    tried=$((tried + 1))
    if ! "$@" >"$scratch/out" 2>&1; then
        failed=$((failed + 1))
        echo "goods: $what: not so"
        cat "$scratch/out"
    fi
}
lines=$(sed -n '/^## Goods inward/,/^The same tape/s/^    //p' README.md)
goods "a package" tools/dist /usr/local "$scratch/more1090-$(cat VERSION).tar.gz"
for machine in one other; do
    mkdir "$scratch/$machine"
    cp "$scratch"/more1090-*.tar.gz "$scratch/$machine"
    (cd "$scratch/$machine" && bash -euc "$lines" >../"$machine.printed" 2>"../$machine.said")
    goods "the lines run" [ $? = 0 ]
    grep '  lot\.' "$scratch/$machine.printed" >"$scratch/$machine.sums"
done
goods "two lines are printed" [ "$(wc -l <"$scratch/one.sums")" = 2 ]
goods "they are the same on both" cmp "$scratch/one.sums" "$scratch/other.sums"
goods "they are the files'" sh -c "cd '$scratch/one' && sha256sum -c ../other.sums"
goods "each record has a line on paper" [ "$(grep -c '[^ ]' "$scratch/one/lot.paper")" = $(($(stat -c %s "$scratch/one/lot.records") / 66)) ]
goods "the squawk is on it" grep -qE '^ +[0-9]+ 6 +[0-9]+ 02e6 *$' "$scratch/one/lot.paper"
printf '\1' | dd of="$scratch/one/lot.cf32" bs=1 seek=4000 conv=notrunc status=none
goods "one byte is noticed" sh -c "! (cd '$scratch/one' && sha256sum -c ../other.sums)"
