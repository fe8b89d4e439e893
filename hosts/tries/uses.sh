# Every command alike, by its name: its help and version, an option that there is not, words too many, and a standard output that is
# full or closed.
: >"$scratch/records"
echo "run seconds=0" >"$scratch/flight"
of() { # COMMAND: words that it ends well on, with its output on standard output
    case $1 in
    booking | tape) echo "crates/tape/stdin" ;;
    cf32) echo "crates/tape/stdin -" ;;
    heard) echo "$scratch/records $scratch/records 0" ;;
    level) echo 31.5 ;;
    message) echo 58000000e0ef0d ;;
    pages) echo "$scratch/page" ;;
    rack) echo "0.001 1000 0:1:-" ;;
    random) echo "0.001 1000 1 -" ;;
    scenario) echo "$scratch/flight" ;;
    sigmf) echo "$scratch/records $scratch/records -" ;;
    soak) echo "--look examples/soak/config" ;;
    single) echo "2 -" ;;
    *) echo "no words for $1" ;;
    esac
}
{ head -c 51 /dev/zero; printf '\16'; head -c 14 /dev/zero; } >"$scratch/page"
status_of() { # WANTED WHAT STATUS
    tried=$((tried + 1))
    if [ "$3" != "$1" ]; then
        failed=$((failed + 1))
        echo "more1090 $2: status $3 for $1"
    fi
}
commands=$("$program" --help | sed -n 's/^    \([a-z0-9]*\) .*/\1/p')
for command in $commands; do
    read -ra words <<<"$(of "$command")"
    "$program" "$command" "${words[@]}" >/dev/null 2>&1
    status_of 0 "$command ${words[*]}" $?
    "$program" "$command" "${words[@]}" 2>/dev/null >/dev/full
    status_of 3 "$command, a full standard output" $?
    "$program" "$command" "${words[@]}" 2>/dev/null >&-
    status_of 3 "$command, a closed standard output" $?
    "$program" "$command" --help 2>/dev/null >/dev/full
    status_of 3 "$command --help, a full standard output" $?
    expect 0 "more1090 $(cat VERSION)" "$command" --version
    expect 2 "there is no option --version" "$command" "${words[@]}" --version
    expect 2 "there is no option --such" "$command" --such
    [ "$command" = rack ] || expect 2 "one argument too many" "$command" "${words[@]}" 1 2 3
    # Help is asked for, and nothing is done.
    tried=$((tried + 1))
    if [ "$("$program" "$command" "${words[@]}" --help | head -1)" != "$("$program" "$command" --help | head -1)" ]; then
        failed=$((failed + 1))
        echo "more1090 $command: --help behind its words is not its help"
    fi
done
tried=$((tried + 1))
if [ "$(wc -w <<<"$commands")" -lt 10 ]; then
    failed=$((failed + 1))
    echo "more1090 --help names only $commands"
fi
