# The C host, built beside the program. The sums of its samples are those of what the Rust (differential/) gives for a tape of the same
# settings, filters, draws and noise: where hosts/c/inputs.h or what the host lends changes, they are others.
host=$(dirname "$program")/c_host
c_runs() { # STATUS TEXT WORD..: `c_host WORD..` ends with this status, and its standard error has this text
    local status=$1 text=$2 ended
    shift 2
    "$host" "$@" >"$scratch/out" 2>"$scratch/err"
    ended=$?
    tried=$((tried + 1))
    if [ $ended = "$status" ] && grep -qF -- "$text" "$scratch/err"; then return; fi
    failed=$((failed + 1))
    echo "c_host $*: status $ended for $status; it printed"
    cat "$scratch/err"
}
if [ -x "$host" ]; then
    mkdir "$scratch/c"
    file=$scratch/c/a
    c_runs 2 "there is no such option" --loud
    c_runs 2 "there is no such option" ""
    c_runs 2 "wants a number" --trigger-level
    c_runs 2 "wants a number" --trigger-level half "$file"
    c_runs 1 "refused 14" --trigger-level 0.95 "$file"
    c_runs 1 "refused 14" --trigger-level nan "$file"
    c_runs 2 "--samples-per-pulse wants 4 or 8" --samples-per-pulse
    for n in -4 264 eight ""; do c_runs 2 "--samples-per-pulse wants 4 or 8" --samples-per-pulse "$n" "$file"; done
    c_runs 2 "an option is given twice: --samples-per-pulse" --samples-per-pulse 8 --samples-per-pulse 8 "$file"
    c_runs 2 "an option is given twice: --trigger-level" --trigger-level 0.5 --samples-per-pulse 4 --trigger-level 0.5 "$file"
    for n in 0 5 255; do c_runs 1 "refused 15" --samples-per-pulse $n --trigger-level 0.95 "$file"; done
    c_runs 2 "levels are those of 4 samples per pulse" --samples-per-pulse 8 "$file" 31.5
    for level in -1 nan 31.55 1e2 loud .5 5. "" 18446744073709551616; do c_runs 2 "no level in dB" "$file" "$level"; done
    c_runs 1 "refused 13" "$file" 200.1
    c_runs 2 "one argument too many" "$file" 31.5 2
    c_runs 3 "No space left" /dev/full
    c_runs 3 "No such file" "$scratch/none/a"
    "$host" - 2>/dev/null >/dev/full
    [ $? = 3 ] || { failed=$((failed + 1)); echo "c_host: a full standard output is not status 3"; }
    "$host" 2>/dev/null >&-
    [ $? = 3 ] || { failed=$((failed + 1)); echo "c_host: a closed standard output is not status 3"; }
    (cd "$scratch/c" && "$host" --help >/dev/null) || { failed=$((failed + 1)); echo "c_host --help: not status 0"; }
    [ -z "$(ls -A "$scratch/c")" ] || { failed=$((failed + 1)); echo "c_host: what failed left a file"; }
    c_runs 0 "message 0280 squawk 1200" "$file" 31.5
    "$host" - 31.5 2>/dev/null | cmp -s - "$file" || { failed=$((failed + 1)); echo "c_host: a pipe gets other samples"; }
    [ "$(ls -A "$scratch/c")" = a ] || { failed=$((failed + 1)); echo "c_host: another file beside its own"; }
    [ "$(cksum <"$file")" = "1852173547 640000" ] || { failed=$((failed + 1)); echo "c_host: other samples"; }
    [ "$("$host" --sum "$file" 31.5 2>/dev/null)" = "$(cksum "$file")" ] || { failed=$((failed + 1)); echo "c_host --sum: another sum"; }
    "$host" --sum - 31.5 2>&1 >/dev/null | tail -1 | cmp -s - <(cksum <"$file") || { failed=$((failed + 1)); echo "c_host --sum: another sum of a pipe"; }
    c_runs 2 "an option is given twice: --sum" --sum --sum "$file"
    c_runs 0 "first " --trigger-level 0.5 --samples-per-pulse 8 "$file"
    [ "$(cksum <"$file")" = "4071830262 1280000" ] || { failed=$((failed + 1)); echo "c_host: other samples at 8 samples per pulse"; }
    c_runs 0 "first " --samples-per-pulse 4 "$file" 31.5
    "$host" - 31.5 2>/dev/null | cmp -s - "$file" || { failed=$((failed + 1)); echo "c_host: 4 samples per pulse are not what is made without"; }
    tried=$((tried + 11))
fi
