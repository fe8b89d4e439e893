# `more1090 single`
expect 2 "an argument is missing" single 2
expect 2 "7 is no type" single 7 -
expect 2 "the type has 7 bytes, and not 2" single 2 - --message 1234
expect 2 "the type has no format 17" single 2 - --message 8d000000000000
expect 2 "--level and --amplitude are one or the other" single 2 - --level 80 --amplitude 1
expect 2 "--level: loud is not in dB" single 2 - --level loud
expect 2 "--samples: 80000001 is above 80000000" single 2 - --samples 80000001
expect 2 "--noise: 1.5 is no number" single 2 - --noise 1.5
expect 1 "refused 13" single 2 - --level 200.1
expect 1 "refused 14" single 2 - --trigger-level 0.95
expect 1 "refused 7: draw 0, field 0 (gap)" single 2 - --time -1
expect 1 "refused 7: draw 0, field 3 (amplitude)" single 2 - --amplitude -1
expect 1 "refused 7: draw 0, field 9 (overlay)" single 3 - --overlay 0
expect 1 "refused 4: the clock error" single 2 - --clock 0.2
expect 1 "refused 4: the carrier offset" single 2 - --offset 4000000.5
expect 1 "refused 4: the carrier offset" single 2 - --offset 8000000.5 --samples-per-pulse 8
expect 1 "refused 15: samples per pulse other than 4 or 8" single 2 - --samples-per-pulse 5 --trigger-level 0.95
expect 2 "--samples-per-pulse: 264 is no number" single 2 - --samples-per-pulse 264
expect 2 "--level: levels are those of 4 samples per pulse" single 2 - --samples-per-pulse 8 --level 80
expect 3 "no-folder/out" single 2 "$scratch/no-folder/out"
made() { # NAME WORD..: samples of `more1090 single WORD.. NAME`
    local name=$scratch/$1
    shift
    expect 0 "" single "$@" "$name"
}
alike() { # WHAT NAME OTHER: two files have the same bytes
    tried=$((tried + 1))
    if ! cmp -s "$scratch/$2" "$scratch/$3"; then
        failed=$((failed + 1))
        echo "single, $1: not so"
    fi
}
message=8d4840d6202cc371c32ce0576098
made dB --message $message --level 80.0 0
made amplitude --message $message --amplitude 0.0048828125 0
alike "80.0 dB is an amplitude" dB amplitude
# Trimmed at the end: a shorter stretch is a first part of a longer one.
made short --message $message --level 80.0 --samples 300 0
head -c 2400 "$scratch/dB" >"$scratch/first"
alike "300 samples" short first
# At 8 samples per pulse: a stretch that holds the reply, trimmed too; and lengths that are no whole nanoseconds.
made four --samples-per-pulse 4 --message $message --level 80.0 0
alike "4 samples per pulse are what is made without the option" four dB
made eight --samples-per-pulse 8 --message $message --offset 8000000 0
made short-8 --samples-per-pulse 8 --message $message --offset 8000000 --samples 301 0
head -c 2408 "$scratch/eight" >"$scratch/first-8"
alike "301 samples at 8" short-8 first-8
made one-8 --samples-per-pulse 8 --message $message --offset 8000000 --samples 1 0
tried=$((tried + 1))
if [ "$(stat -c %s "$scratch/eight")" != 19200 ] || [ "$(stat -c %s "$scratch/one-8")" != 8 ]; then
    failed=$((failed + 1))
    echo "single, 2400 samples and 1 at 8: not so"
fi
# A start past the end, and no samples.
made late --time 1e300 0
head -c 9600 /dev/zero >"$scratch/zeros"
alike "a start past the end" late zeros
made nothing --samples 0 0
: >"$scratch/empty"
alike "no samples" nothing empty
# Noise is that of a random run without replies.
made noise --amplitude 0 --noise 7 0
"$program" random 0.00015 1e-9 7 "$scratch/random" 2>/dev/null
alike "noise" noise random
made noise-8 --samples-per-pulse 8 --amplitude 0 --noise 7 0
"$program" random --samples-per-pulse 8 0.00015 1e-9 7 "$scratch/random-8" 2>/dev/null
alike "noise at 8" noise-8 random-8
# The sum is that of the file.
expect 0 "$(sha256sum "$scratch/dB")" single --sum --message $message --level 80.0 0 "$scratch/dB"
