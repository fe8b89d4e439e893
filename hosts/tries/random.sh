# `more1090 random`
runs() { # STATUS TEXT WORD..: `more1090 random WORD..` ends with this status, and its standard error has this text
    local status=$1 text=$2 ended
    shift 2
    "$program" random "$@" >"$scratch/out" 2>"$scratch/err"
    ended=$?
    holds "random $*" [ $ended = "$status" ]
    holds "random $*: $text" grep -qF -- "$text" "$scratch/err"
}
holds() { # WHAT COMMAND..: the command ends well
    local what=$1
    shift
    tried=$((tried + 1))
    if ! "$@" >/dev/null; then
        failed=$((failed + 1))
        echo "$what: not so"
    fi
}
empty() { [ -z "$(ls -A "$1")" ]; }
mkdir "$scratch/files"
file=$scratch/files/a lines=$scratch/files/b

# Durations are exact: 2.3 s has 18,400,000 samples, where the part of 2.3 after the point as an f64 has 299,999,999 ns.
runs 0 "18400000 of 18400000 samples" 2.3 1 1 /dev/null
runs 0 "of 8 samples" 0.000001 1000 1 /dev/null
runs 0 "0 of 0 samples" 0 1000 1 /dev/null
for seconds in -1 NaN inf 1e-3 .5 5. 0.0000000001 "" 18446744073709551616; do runs 2 "is no number of seconds" "$seconds" 1 1 "$file"; done
runs 1 "refused 1: the duration" 18446744073709551615 1 1 "$file"
# Rates, seeds, levels.
runs 1 "1e12 is above 1000000" 1 1e12 1 "$file"
for rate in NaN -1 inf; do runs 1 "refused 2: rate 0 is negative or not finite" 1 $rate 1 "$file"; done
runs 1 "refused 3" 1 0 1 "$file"
runs 2 "REPLIES_A_SECOND: many is no number" 1 many 1 "$file"
for seed in 1.5 -1 1e3 18446744073709551616; do runs 2 "SEED: $seed is no number" 1 1 $seed "$file"; done
runs 1 "refused 13" --level 200.1 1 1 1 "$file"
runs 2 "--level: loud is not in dB" --level loud 1 1 1 "$file"
runs 1 "refused 14" --trigger-level 0.95 1 1 1 "$file"
runs 2 "--level: levels are those of 4 samples per pulse" --samples-per-pulse 8 --level 31.5 1 1 1 "$file"
# Samples per pulse: a number that fits their byte goes to the library, which refuses it before a trigger level, a duration and
# rates. What the command itself looks at comes before that.
for n in 0 5 255; do
    runs 1 "refused 15: samples per pulse other than 4 or 8" --samples-per-pulse $n --trigger-level 0.95 18446744073709551615 NaN 1 "$file"
    runs 1 "1e12 is above 1000000" --samples-per-pulse $n 1 1e12 1 "$file"
    runs 1 "refused 13" --samples-per-pulse $n --level 200.1 1 1 1 "$file"
done
for n in -4 4.0 264 eight ""; do runs 2 "--samples-per-pulse: $n is no number" --samples-per-pulse "$n" 1 1 1 "$file"; done
runs 2 "an argument is missing" 1 1 1
runs 2 "one argument too many" 1 1 1 "$file" "$lines" 5
runs 2 "there is no option --loud" --loud 1 1 1 "$file"
runs 2 "--sum is given twice" --sum --sum 1 1 1 "$file"
holds "wrong words leave no file" empty "$scratch/files"
(cd "$scratch/files" && "$program" random 1 1 1 --help >/dev/null)
holds "--help makes no file" empty "$scratch/files"

# Outputs.
runs 0 "8000 of 8000 samples" 0.001 4000 1 "$file" "$lines"
holds "8000 samples are 64000 bytes" [ "$(stat -c %s "$file")" = 64000 ]
holds "records are lines of six words, and seven for Mode A/C" awk 'NF != 6 + ($2 == 6) { bad = 1 } END { exit bad || NR == 0 }' "$lines"
runs 0 "" 0.01 40000 1 /dev/null "$lines"
holds "Mode A/C has four digits at most 1fff and its squawk" awk '$2 == 6 && $6 ~ /^[01][0-9a-f][0-9a-f][0-9a-f]$/ && $7 ~ /^[0-7][0-7][0-7][0-7]$/ { n++ }
    $2 == 6 { m++ } END { exit n != m || !n }' "$lines"
cp "$file" "$scratch/first"
runs 0 "" --trigger-level 0.5 0.001 4000 1 "$file"
holds "the same words give the same bytes" cmp "$file" "$scratch/first"
runs 0 "" --samples-per-pulse 4 0.001 4000 1 "$file"
holds "4 samples per pulse are what is made without the option" cmp "$file" "$scratch/first"
runs 0 "16000 of 16000 samples" --samples-per-pulse 8 0.001 4000 1 "$file" "$lines"
holds "16000 samples are 128000 bytes" [ "$(stat -c %s "$file")" = 128000 ]
holds "replies at 8 are up to 2187 samples long" awk '$3 > 2187 { bad = 1 } $3 > 1094 { long = 1 } END { exit bad || !long }' "$lines"
runs 0 "of 1 samples" --samples-per-pulse 8 0.000000063 1000 1 /dev/null
runs 0 "of 0 samples" --samples-per-pulse 8 0.000000062 1000 1 /dev/null
runs 0 "of 36800000 samples" --samples-per-pulse 8 2.3 1 1 /dev/null
runs 0 "" 0.001 4000 2 "$file"
holds "another seed gives others" [ -n "$(cmp "$file" "$scratch/first")" ]
rm -r "$scratch/files" && mkdir "$scratch/files"
runs 2 "are one file" 0.001 4000 1 "$file" "$file"
runs 2 "are one file" 0.001 4000 1 "$file" "$scratch/files/../files/a"
runs 2 "are one file" 0.001 4000 1 - -
touch "$file" && ln "$file" "$lines"
runs 2 "are one file" 0.001 4000 1 "$file" "$lines"
rm "$file" "$lines"
runs 3 "/dev/full: No space left" 0.001 4000 1 /dev/full "$lines"
runs 3 "/dev/full: No space left" 0.001 4000 1 "$file" /dev/full
runs 3 "none/a: No such file" 0.001 4000 1 "$scratch/none/a"
runs 3 "no name of a file" 0.001 4000 1 "$scratch/files/"
"$program" random 0.001 4000 1 - "$lines" 2>/dev/null >/dev/full
holds "a full standard output is status 3" [ $? = 3 ]
"$program" random 0.001 4000 1 - "$lines" 2>/dev/null >&-
holds "a closed standard output is status 3" [ $? = 3 ]
"$program" --version 2>/dev/null >&-
holds "a closed standard output is status 3 for text too" [ $? = 3 ]
"$program" random 1 4000 1 - "$lines" 2>/dev/null | head -c 8 >/dev/null
holds "a pipe that is closed early is status 3" [ "${PIPESTATUS[0]}" = 3 ]
holds "what failed left no file" empty "$scratch/files"
"$program" random 0.001 4000 1 - 2>/dev/null | cmp -s - "$scratch/first"
holds "a pipe gets the samples of a file" [ "${PIPESTATUS[*]}" = "0 0" ]
if command -v script >/dev/null; then
    script -qec "'$program' random 0.001 4000 1 -" /dev/null >"$scratch/out" 2>&1 </dev/null
    holds "a terminal is status 2" [ $? = 2 ]
    holds "a terminal gets no samples" grep -q "is a terminal" "$scratch/out"
fi

# Interrupted: files of that name stay as they were, and nothing else is left.
echo before | tee "$file" >"$lines"
left() { [ "$(cat "$file" "$lines")" = "before
before" ] && [ "$(ls -A "$scratch/files" | wc -l)" = 2 ]; }
for signal in TERM HUP; do
    # A gate under `nohup` has HUP ignored, and what it starts would too.
    env --default-signal=$signal "$program" random 100000 4000 1 "$file" "$lines" 2>/dev/null &
    running=$!
    for _ in $(seq 100); do
        if [ "$(ls -A "$scratch/files" | wc -l)" = 4 ]; then break; fi
        sleep 0.05
    done
    holds "a run writes under two other names" [ "$(ls -A "$scratch/files" | wc -l)" = 4 ]
    kill -$signal $running
    wait $running 2>/dev/null
    holds "$signal ends it" [ $? -gt 128 ]
    holds "$signal leaves the files before, and no others" left
done
# What a script runs beside itself has INT ignored; `timeout` does not.
timeout -s INT 0.5 "$program" random 100000 4000 1 "$file" "$lines" 2>/dev/null
holds "INT ends it" [ $? = 124 ]
holds "INT leaves the files before, and no others" left
# A link stays a link.
ln -s a "$scratch/files/link"
runs 0 "" 0.001 4000 1 "$scratch/files/link"
holds "a link stays, and what it leads to is written" [ -L "$scratch/files/link" -a "$(stat -c %s "$file")" = 64000 ]

# Sums.
(cd "$scratch/files" && "$program" random --sum 0.001 4000 1 a b 2>/dev/null >../sums && sha256sum a b | cmp -s - ../sums)
holds "--sum prints what sha256sum does" [ $? = 0 ]
# No byte, and 48, 56, 64, 112, 120 and 128 bytes: the ends of one block and of two.
for seconds in 0 0.00000075 0.000000875 0.000001 0.00000175 0.000001875 0.000002; do
    "$program" random --sum $seconds 4000 1 - 2>"$scratch/err" | sha256sum >"$scratch/sums"
    holds "--sum of $seconds s, on standard error beside samples" grep -qxF "$(cat "$scratch/sums")" "$scratch/err"
done
