# `more1090 rack`
expect 0 "" rack 0.001 20000 "0:1:$scratch/a" "3:1:$scratch/b" "4095:0.5:$scratch/c" "0:0:$scratch/d"
tried=$((tried + 1))
if ! { head -c 24 /dev/zero; head -c 63976 "$scratch/a"; } | cmp -s - "$scratch/b" || [ "$(stat -c %s "$scratch/c")" != 64000 ]; then
    failed=$((failed + 1))
    echo "more1090 rack: a feed is not the first one, three samples late, or not as long"
fi
expect 0 "" rack --seed 7 0 1 "0:1:-"
expect 0 "" rack --samples-per-pulse 8 0.001 20000 "0:1:$scratch/eight"
"$program" random --samples-per-pulse 8 0.001 20000 1 "$scratch/random-8" 2>/dev/null
tried=$((tried + 1))
if ! cmp -s "$scratch/eight" "$scratch/random-8" || [ "$(stat -c %s "$scratch/eight")" != 128000 ]; then
    failed=$((failed + 1))
    echo "more1090 rack: a feed at 8 samples per pulse is not the random run"
fi
expect 1 "refused 15" rack --samples-per-pulse 5 0.001 1000 "0:1:$scratch/e"
expect 1 "refused 17" rack 0.001 1000 "4096:1:$scratch/e"
expect 1 "refused 17" rack 0.001 1000 "0:1.5:$scratch/e"
expect 1 "refused 3" rack 0.001 0 "0:1:$scratch/e"
expect 2 "an argument is missing" rack 0.001 1000
expect 2 "is not DELAY:GAIN:FILE" rack 0.001 1000 5:1
expect 2 "the delay: x is no number that it takes" rack 0.001 1000 "x:1:$scratch/e"
expect 2 "are one file" rack 0.001 1000 "0:1:$scratch/e" "1:1:$scratch/e"
expect 2 "are one file" rack 0.001 1000 "0:1:$scratch/e" "1:1:$scratch/../rack/e"
expect 2 "--seed: 1.5 is no number" rack --seed 1.5 0.001 1000 "0:1:$scratch/e"
expect 2 "is no number of seconds" rack -1 1000 "0:1:$scratch/e"
expect 1 "1e12 is above 1000000" rack 0.001 1e12 "0:1:$scratch/e"
expect 1 "refused 2: rate 0" rack 0.001 nan "0:1:$scratch/e"
expect 3 "No space left" rack 0.001 1000 "0:1:$scratch/e" "0:1:/dev/full"
tried=$((tried + 1))
if [ -e "$scratch/e" ]; then
    failed=$((failed + 1))
    echo "more1090 rack: what failed left a file"
fi
expect 2 "nan" rack nan 1000 "0:1:$scratch/e"
expect 3 "$scratch/none/e" rack 0.001 1000 "0:1:$scratch/none/e"
# Sums, and a terminal.
expect 0 "$("$program" rack 0.001 20000 "0:1:$scratch/f" "3:1:$scratch/g"; sha256sum "$scratch/f" "$scratch/g")" \
    rack --sum 0.001 20000 "0:1:$scratch/f" "3:1:$scratch/g"
tried=$((tried + 1))
if [ "$("$program" rack --sum 0.001 20000 "0:1:-" 2>&1 >/dev/null)" != "$(sha256sum <"$scratch/a")" ]; then
    failed=$((failed + 1))
    echo "more1090 rack --sum: another sum beside samples on standard output"
fi
if command -v script >/dev/null; then
    tried=$((tried + 1))
    if script -qec "'$program' rack 0.001 1000 0:1:-" /dev/null >"$scratch/out" 2>&1 </dev/null || ! grep -q "is a terminal" "$scratch/out"; then
        failed=$((failed + 1))
        echo "more1090 rack: a terminal gets samples"
    fi
fi
# Interrupted, none of sixteen files is left.
mkdir "$scratch/files"
feeds=()
for k in $(seq 16); do feeds+=("0:1:$scratch/files/$k"); done
timeout -s INT 0.5 "$program" rack 100000 4000 "${feeds[@]}" 2>/dev/null
ended=$?
tried=$((tried + 1))
if [ $ended != 124 ] || [ -n "$(ls -A "$scratch/files")" ]; then
    failed=$((failed + 1))
    echo "more1090 rack: interrupted (status $ended for 124) it leaves files"
fi
expect 1 "refused 17" rack 0.001 1000 "${feeds[@]}" "0:1:$scratch/seventeen"
