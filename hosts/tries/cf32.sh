# `more1090 cf32`: samples and records of a tape. tapes/run compares it with the stored runs.
cf32() { # STATUS TEXT WORD..: `more1090 cf32 WORD..` ends with this status, and its standard error has this text
    local status=$1 text=$2 ended
    shift 2
    "$program" cf32 "$@" >"$scratch/out" 2>"$scratch/err"
    ended=$?
    tried=$((tried + 1))
    if [ $ended = "$status" ] && grep -qF -- "$text" "$scratch/err"; then return; fi
    failed=$((failed + 1))
    echo "more1090 cf32 $*: status $ended for $status; it printed"
    cat "$scratch/err"
}
so() { # WHAT COMMAND..: the command ends well
    local what=$1
    shift
    tried=$((tried + 1))
    if ! "$@" >/dev/null; then
        failed=$((failed + 1))
        echo "more1090 cf32: $what: not so"
    fi
}
mkdir "$scratch/files"
tape=crates/cf32/stdin samples=$scratch/files/a records=$scratch/files/b
cf32 0 "records 39, samples" "$tape" "$samples" "$records"
so "records are 66 bytes each" [ "$(stat -c %s "$records")" = $((39 * 66)) ]
cp "$samples" "$scratch/samples"
cp "$records" "$scratch/records"
cf32 0 "records 39" - - "$records" <"$tape"
so "a pipe gets the samples of a file" cmp "$scratch/out" "$scratch/samples"
cf32 0 "records 39" "$tape" /dev/null -
so "standard output gets the records of a file" cmp "$scratch/out" "$scratch/records"
(cd "$scratch/files" && "$program" cf32 --sum - a b <"$OLDPWD/$tape" 2>/dev/null >../sums && sha256sum a b | cmp -s - ../sums)
so "--sum prints what sha256sum does" [ $? = 0 ]
cf32 0 "$(sha256sum <"$scratch/samples")" --sum "$tape" -
rm "$samples" "$records"

# What is wrong or refused touches no file.
tapes/tape small 21874 12=00ca9a3b >"$scratch/refused.tape"
tapes/tape small 21875 >"$scratch/over.tape"
echo kept | tee "$samples" >"$records"
cf32 1 "refused.tape: refused 1: the duration" "$scratch/refused.tape" "$samples" "$records"
cf32 1 "over.tape: refused 11: the tape" "$scratch/over.tape" "$samples" "$records"
cf32 1 "refused 11, samples 1200" "$scratch/over.tape" - "$records"
cf32 1 "standard input: refused 11" - "$samples" "$records" </dev/null
cf32 2 "an argument is missing" "$tape"
cf32 2 "one argument too many" "$tape" "$samples" "$records" more
cf32 2 "there is no option --records" --records "$tape" "$samples"
cf32 2 "are one file" "$tape" "$samples" "$scratch/files/../files/a"
cf32 2 "are one file" "$tape" - -
cf32 2 "is the file that is read" "$samples" "$samples"
cf32 2 "is the file that is read" - "$samples" <"$samples"
cf32 3 "nowhere.tape: No such file" "$scratch/nowhere.tape" "$samples" "$records"
cf32 3 "none/a: No such file" "$tape" "$scratch/none/a" "$records"
cf32 3 "none/b: No such file" "$tape" "$samples" "$scratch/none/b"
cf32 3 "/dev/full: No space left" "$tape" /dev/full "$records"
cf32 3 "/dev/full: No space left" "$tape" "$samples" /dev/full
"$program" cf32 "$tape" - "$records" 2>/dev/null >/dev/full
so "a full standard output is status 3" [ $? = 3 ]
"$program" cf32 "$tape" - "$records" 2>/dev/null >&-
so "a closed standard output is status 3" [ $? = 3 ]
"$program" cf32 "$tape" - "$records" 2>/dev/null | head -c 8 >/dev/null
so "a pipe that is closed early is status 3" [ "${PIPESTATUS[0]}" = 3 ]
so "files of that name are as they were" [ "$(cat "$samples" "$records")" = "kept
kept" ]
so "no other file is left" [ "$(ls -A "$scratch/files" | wc -l)" = 2 ]
"$program" cf32 "$tape" "$samples" "$records" 2>&-
so "a closed standard error changes no sample" cmp "$samples" "$scratch/samples"
so "a closed standard error changes no record" cmp "$records" "$scratch/records"
# Interrupted while it waits for noise: nothing is left.
echo kept | tee "$samples" >"$records"
mkfifo "$scratch/pipe"
"$program" cf32 - "$samples" "$records" <"$scratch/pipe" 2>/dev/null &
running=$!
exec 9>"$scratch/pipe"
head -c 40000 "$tape" >&9
for _ in $(seq 100); do
    if [ "$(ls -A "$scratch/files" | wc -l)" = 4 ]; then break; fi
    sleep 0.05
done
so "it writes under two other names" [ "$(ls -A "$scratch/files" | wc -l)" = 4 ]
kill -TERM $running
wait $running 2>/dev/null
so "TERM ends it" [ $? -gt 128 ]
exec 9>&-
so "TERM leaves the files before" [ "$(cat "$samples" "$records")" = "kept
kept" ]
so "TERM leaves no other file" [ "$(ls -A "$scratch/files" | wc -l)" = 2 ]
if command -v script >/dev/null; then
    script -qec "'$program' cf32 '$tape' -" /dev/null >"$scratch/out" 2>&1 </dev/null
    so "a terminal is status 2" [ $? = 2 ]
    so "a terminal gets no samples" grep -q "is a terminal" "$scratch/out"
fi
