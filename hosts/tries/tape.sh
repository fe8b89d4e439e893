# `more1090 tape`: the worked tape, refusals in words, and wrong uses. tapes/run compares it with the stored runs.
worked="first type count message
100 2 536 20000000000000
151 6 189 0e00
samples 8000"
expect 0 "$worked" tape crates/tape/stdin
expect 0 "$worked" tape - <crates/tape/stdin
expect 0 "$worked" tape <crates/tape/stdin
expect 0 "more1090 $(cat VERSION)" tape --version
expect 2 "one argument too many" tape crates/tape/stdin again
expect 2 "there is no option --sum" tape --sum crates/tape/stdin
expect 3 "nowhere.tape: No such file" tape "$scratch/nowhere.tape"
expect 3 "$scratch: Is a directory" tape "$scratch"
refuses() { # WORDS CHANGE..: a small tape with these changes is refused: its number on standard output, words on standard error
    local words=$1 number=${1%%:*} ended
    shift
    tapes/tape small 21874 "$@" >"$scratch/refused.tape"
    "$program" tape "$scratch/refused.tape" >"$scratch/out" 2>"$scratch/err"
    ended=$?
    tried=$((tried + 1))
    if [ $ended != 1 ] || [ "$(cat "$scratch/out")" != "$number" ] ||
        [ "$(cat "$scratch/err")" != "more1090: $scratch/refused.tape: $words" ]; then
        failed=$((failed + 1))
        echo "more1090 tape, $words: status $ended for 1; it printed"
        cat "$scratch/out" "$scratch/err"
    fi
}
refuses "refused 1: the duration: nanoseconds above 999,999,999, or more than 2^52 samples" 12=00ca9a3b
refuses "refused 2: rate 6 is negative or not finite" 64=000000000000f0bf
refuses "refused 4: the phase: an unknown kind, or a parameter out of range" 89=02
refuses "refused 7: draw 0, field 1 (type) is out of range" 12148=07
refuses "refused 7: draw 1, field 8 (capability pick) is out of range" 12251=05
refuses "refused 8: noise value 2399 is not finite or above 64 in size" 21870=01008042
refuses "refused 11: the tape: short, a wrong count, more than 400 draws, bytes left over, or draws or noise that run out" 0=02
# A noise value is counted in the whole noise, of which this is the last: 18,750 values, in chunks of 16,384.
tapes/tape long 89744 89740=0000c07f >"$scratch/long.tape"
expect_noise=$(($(od -An -tu4 -j14740 -N4 "$scratch/long.tape") - 1))
"$program" tape "$scratch/long.tape" 2>&1 >/dev/null | grep -q "refused 8: noise value $expect_noise is" ||
    { failed=$((failed + 1)); echo "more1090 tape: another noise value than $expect_noise is named"; }
tried=$((tried + 1))
"$program" tape crates/tape/stdin 2>/dev/null >/dev/full
[ $? = 3 ] || { failed=$((failed + 1)); echo "more1090 tape: a full standard output is not status 3"; }
"$program" tape crates/tape/stdin 2>/dev/null >&-
[ $? = 3 ] || { failed=$((failed + 1)); echo "more1090 tape: a closed standard output is not status 3"; }
[ "$("$program" tape <crates/tape/stdin 2>&-)" = "$worked" ] ||
    { failed=$((failed + 1)); echo "more1090 tape: a closed standard error changes what it prints"; }
tried=$((tried + 3))
# It runs where there is no kit: every file that it names to be loaded is the system's, and of the C library no version is wanted
# that Debian 12 (2.36) does not have.
if command -v objdump >/dev/null; then
    tried=$((tried + 1))
    newest=$(objdump -T "$program" | grep -o 'GLIBC_[0-9.]*' | sort -uV | tail -1)
    needed=$(objdump -p "$program" | awk '$1 == "NEEDED" || $1 == "RPATH" || $1 == "RUNPATH" { print $2 }' | grep -vE '^(libc|libm|libgcc_s|libpthread|libdl|ld-linux-x86-64)\.so\.[0-9]*$')
    if [ -n "$needed" ] || [ "$(printf 'GLIBC_2.36\n%s\n' "$newest" | sort -V | tail -1)" != GLIBC_2.36 ]; then
        failed=$((failed + 1))
        echo "more1090 is not for any machine: it wants $newest $needed"
    fi
fi
