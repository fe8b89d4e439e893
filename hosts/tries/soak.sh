# `more1090 soak`
holds() { # WHAT COMMAND..: the command ends well
    local what=$1
    shift
    tried=$((tried + 1))
    if ! "$@" >/dev/null 2>&1; then
        failed=$((failed + 1))
        echo "soak: $what: not so"
        tail -n 3 "$scratch/err" | cut -c -300
    fi
}
soaks() { # STATUS TEXT WORD..: `more1090 soak WORD..` ends with this status, and its standard error has this text
    local status=$1 text=$2 ended
    shift 2
    "$program" soak "$@" >"$scratch/out" 2>"$scratch/err"
    ended=$?
    holds "soak $*: status $ended" [ $ended = "$status" ]
    holds "soak $*: $text" grep -qF -- "$text" "$scratch/err"
}
size() { stat -c %s "$1" 2>/dev/null || echo 0; }
# The lines of a soak in a folder of its own.
soak_in() { # FOLDER LINE..
    mkdir -p "$scratch/$1"
    printf '%s\n' "records records" "checkpoint check" "${@:2}" >"$scratch/$1/soak"
}
three=("duration 0.2" "replies  8000" "seed 7" "feed 0    1 file a" "feed 3 1 file b" "feed 4095 0.5 file c")
sums() { (cd "$scratch/$1" && sha256sum a b c records); }
# The reply of the last whole record has a sample in each file; once the run is done, in the first one.
records_follow() { # FOLDER
    local folder=$scratch/$1 first records
    records=$(($(size "$folder/records") / 66))
    [ $records != 0 ] || return 0
    first=$(od -An -t u8 -j $((66 * records - 26)) -N 8 "$folder/records")
    [ $((8 * (first + 1))) -le "$(size "$folder/a")" ] || return
    [ "$(size "$folder/c")" = 12800000 ] && return
    [ $((8 * (first + 4))) -le "$(size "$folder/b")" ] && [ $((8 * (first + 4096))) -le "$(size "$folder/c")" ]
}

# Words and lines.
expect 2 "an argument is missing" soak
expect 2 "one argument too many" soak a b
expect 2 "there is no option --loud" soak --loud a
expect 3 "$scratch/none: No such file" soak "$scratch/none"
soak_in words
wrong() { # STATUS TEXT LINE..: with these lines the soak is refused with this text, and nothing is made
    local status=$1 text=$2
    shift 2
    soak_in words "$@"
    soaks "$status" "$text" "$scratch/words/soak"
}
wrong 2 "soak: there is no line \`duration\`" "replies 1" "feed 0 1 file a"
wrong 2 "soak:4: duration: 1e3 is not seconds" "replies 1" "duration 1e3"
wrong 2 "soak:4: seed: it stands in line 3 already" "seed 1" "seed 2"
wrong 2 "soak:5: loud: there is no such key" "# loud" "" "loud 1"
wrong 1 "soak:4: duration: refused 1" "replies 1" "duration 18446744073709551615" "feed 0 1 file a"
wrong 1 "soak:4: replies: refused 3" "duration 1" "replies 0" "feed 0 1 file a"
wrong 2 "soak:4: rates: 1 2 is not seven numbers" "duration 1" "rates 1 2" "feed 0 1 file a"
wrong 2 "soak:5: rates: \`replies\` says the rates already" "duration 1" "replies 1" "rates 1 1 1 1 1 1 1" "feed 0 1 file a"
wrong 1 "soak:5: clock: refused 4" "duration 1" "replies 1" "clock uniform 0.2" "feed 0 1 file a"
wrong 1 "soak:5: trigger-level: refused 14" "duration 1" "replies 1" "trigger-level 0.95" "feed 0 1 file a"
wrong 1 "soak:5: samples-per-pulse: refused 15" "duration 1" "replies 1" "samples-per-pulse 5" "feed 0 1 file a"
wrong 2 "soak:6: level: levels are those of 4" "duration 1" "replies 1" "samples-per-pulse 8" "level 31.5" "feed 0 1 file a"
wrong 2 "soak: there is no line \`feed\`" "duration 1" "replies 1"
wrong 2 "soak:5: feed: the name is missing" "duration 1" "replies 1" "feed 0 1 file"
wrong 2 "soak:5: feed: disk is not file, pipe, command or listen" "duration 1" "replies 1" "feed 0 1 disk a"
wrong 1 "soak:6: feed: refused 17" "duration 1" "replies 1" "feed 0 1 file a" "feed 4096 1 file b"
wrong 2 "soak:6: feed: file a has a feed already" "duration 1" "replies 1" "feed 0 1 file a" "feed 1 1 file a"
wrong 2 "soak:5: feed: 8.8.8.8:80 is no loopback address" "duration 1" "replies 1" "feed 0 1 listen 8.8.8.8:80"
wrong 2 "is another file of this soak too" "duration 1" "replies 1" "feed 0 1 file records"
wrong 3 "pipe none: No such file" "duration 1" "replies 1" "feed 0 1 pipe none"
holds "what is refused makes no file" [ "$(ls "$scratch/words")" = "check.lock
soak" ]

# A run that is never ended: its files, and the same samples on every machine.
soak_in whole "${three[@]}"
expect 0 "soak: begins at sample 0: there is no checkpoint" soak --look "$scratch/whole/soak"
holds "--look makes no file" [ "$(ls "$scratch/whole")" = soak ]
soaks 0 "soak: done at sample 1600000, 0.200000 s" --progress 1 --status "$scratch/whole/status" "$scratch/whole/soak"
holds "a feed is as long as the run" [ "$(size "$scratch/whole/c")" = 12800000 ]
holds "a feed three samples late" cmp <(head -c 24 /dev/zero; head -c 12799976 "$scratch/whole/a") "$scratch/whole/b"
holds "records are records" "$program" pages "$scratch/whole/records"
holds "records come after their samples" records_follow whole
holds "the status is that of the end" grep -qx "samples 1600000" "$scratch/whole/status"
holds "the samples are those of every machine" grep -q "^599b7cd41ce026b87f53b43f87497dcc46bd3ff1dd33c9ac34d6a735c114bbd7" <(sums whole)
holds "the records are those of every machine" grep -q "^64710a6250d519eca365f1d571e25243041f0022d3c36d9d8290cb1999e56a90" <(sums whole)
holds "no mathematics of the system" [ -z "$(grep -nE '\.(ln|ln_1p|log|log2|log10|exp|exp2|powf|powi|cbrt|hypot|sin|cos|tan|sin_cos|a?tan2?|sinh|cosh|tanh|mul_add)\(' hosts/rust/exact.rs hosts/rust/commands/soak.rs hosts/rust/commands/soak/*.rs)" ]
sums whole >"$scratch/sums"
soaks 0 "soak: the run is done, at sample 1600000" "$scratch/whole/soak"
rm "$scratch/whole/check"
soaks 0 "soak: goes on at sample" "$scratch/whole/soak"
holds "a run from the checkpoint before" cmp <(sums whole) "$scratch/sums"
rm "$scratch/whole"/check*
soaks 1 "records is not empty: there is no checkpoint" "$scratch/whole/soak"
holds "nothing is touched without a checkpoint" cmp <(sums whole) "$scratch/sums"
as_whole() { # FOLDER: the soak ends, with the files of the run that was never ended
    soaks 0 "soak: done at sample 1600000" "$scratch/$1/soak"
    holds "$1: the files are those of a run that was never ended" cmp <(sums "$1") "$scratch/sums"
}

# kill -9 at random moments.
soak_in killed "${three[@]}" "interval 0.01"
for _ in 1 2 3 4 5 6; do
    "$program" soak --realtime "$scratch/killed/soak" 2>"$scratch/err" &
    running=$!
    sleep "0.0$((2 + RANDOM % 4))$((RANDOM % 10))"
    kill -9 $running 2>/dev/null
    wait $running 2>/dev/null
    holds "after kill -9 records come after their samples" records_follow killed
done
soaks 0 "" "$scratch/killed/soak"
holds "after kill -9 the files are those of a run that was never ended" cmp <(sums killed) "$scratch/sums"

# The end at every step of writing a checkpoint, the first one and later ones: one is always there to go on from.
soak_in steps "${three[@]}" "interval 0"
for step in $(seq 1 14); do
    soak_in first "${three[@]}"
    MORE1090_SOAK_END_AT=$step "$program" soak "$scratch/first/soak" 2>"$scratch/err"
    holds "step $step of a new soak leaves something to go on from" "$program" soak --look "$scratch/first/soak"
    rm -r "$scratch/first"
    MORE1090_SOAK_END_AT=$step "$program" soak --realtime "$scratch/steps/soak" 2>"$scratch/err"
    holds "step $step ends the program" [ $? = 137 ]
    holds "step $step leaves something to go on from" "$program" soak --look "$scratch/steps/soak"
done 2>/dev/null
as_whole steps

# At 8 samples per pulse; and a run of no samples.
eight=("samples-per-pulse 8" "duration 0.05" "${three[@]:1}" "interval 0")
soak_in eight "${eight[@]}"
soaks 0 "soak: done at sample 800000, 0.050000 s" "$scratch/eight/soak"
soak_in eight-killed "${eight[@]}"
{ MORE1090_SOAK_END_AT=30 "$program" soak "$scratch/eight-killed/soak"; } 2>/dev/null
soaks 0 "soak: goes on at sample" "$scratch/eight-killed/soak"
holds "a killed run at 8 samples per pulse" cmp <(sums eight) <(sums eight-killed)
soak_in nothing "duration 0" "${three[@]:1}"
soaks 0 "soak: done at sample 0, 0.000000 s" "$scratch/nothing/soak"

# Checkpoints that are damaged: the one before is taken; where both are, nothing is.
soak_in damaged "${three[@]}" "interval 0"
{ MORE1090_SOAK_END_AT=60 "$program" soak "$scratch/damaged/soak"; } 2>/dev/null
newest=$scratch/damaged/check
cp "$newest" "$scratch/sound"
cp "$newest.before" "$scratch/sound.before"
length=$(size "$newest")
falls_back() { # WHAT: the newest one is not taken, and it is said why
    expect_text=$("$program" soak --look "$scratch/damaged/soak" 2>"$scratch/err")
    holds "$1: the one before is taken" grep -q "check: .*; the checkpoint before it is taken" <<<"$expect_text"
}
for cut in 0 1 7 8 16 24 31 32 100 $((length / 2)) $((length - 33)) $((length - 32)) $((length - 1)); do
    head -c "$cut" "$scratch/sound" >"$newest"
    falls_back "cut to $cut bytes"
done
flipped() { # FILE FROM: writes FILE with a bit changed at random
    local place=$((RANDOM * 32768 + RANDOM)) byte
    place=$((place % $(size "$2")))
    byte=$(od -An -t u1 -j $place -N 1 "$2")
    { head -c $place "$2"; printf "\\x$(printf %x $((byte ^ 1 << RANDOM % 8)))"; tail -c +$((place + 2)) "$2"; } >"$1"
}
for _ in $(seq 30); do
    flipped "$newest" "$scratch/sound"
    falls_back "a bit changed"
done
cp "$scratch/sound" "$newest"
cp "$scratch/damaged/a" "$scratch/a"
mv "$newest" "$newest.aside"
at=$("$program" soak --look "$scratch/damaged/soak" | sed -n 's/.* at sample \([0-9]*\),.*/\1/p')
mv "$newest.aside" "$newest"
truncate -s $((8 * at)) "$scratch/damaged/a"
falls_back "a file shorter than the newest one says"
mv "$scratch/a" "$scratch/damaged/a"
flipped "$newest" "$scratch/sound"
flipped "$newest.before" "$scratch/sound.before"
sums damaged >"$scratch/before"
soaks 1 "no checkpoint can be gone on from, and nothing is touched" "$scratch/damaged/soak"
holds "two damaged ones touch nothing" cmp <(sums damaged) "$scratch/before"
cp "$scratch/sound.before" "$newest.before"
as_whole damaged
soak_in other "${three[@]}"
cp "$scratch/sound" "$scratch/other/check"
soaks 1 "check: $scratch/other/records is not there" "$scratch/other/soak"
sed -i 's/seed 7/seed 8/' "$scratch/other/soak"
soaks 1 "is of another run: it has \`seed 7\`, and this one has \`seed 8\`" "$scratch/other/soak"

# TERM and INT: a checkpoint, and status 0, also while a reader is waited for.
soak_in ended "${three[@]}" "feed 0 1 pipe p" "buffer 1" "patience 1000" "wait 20"
mkfifo "$scratch/ended/p"
sleep 100 <"$scratch/ended/p" &
sleeping=$!
for signal in TERM INT; do
    before=$(size "$scratch/ended/records")
    env --default-signal=$signal "$program" soak "$scratch/ended/soak" 2>"$scratch/err" &
    running=$!
    for _ in $(seq 1000); do
        if [ "$(size "$scratch/ended/records")" -gt "$before" ]; then break; fi
        sleep 0.01
    done
    kill -$signal $running
    wait $running
    holds "$signal ends it with status 0" [ $? = 0 ]
    holds "$signal: it says so" grep -q "soak: ended as asked at sample" "$scratch/err"
done
kill $sleeping
sed -i '/^wait/d' "$scratch/ended/soak"
as_whole ended

# A file that may not grow: the soak names it and ends, and goes on once it may.
soak_in full "${three[@]}" "interval 0.01"
(ulimit -f 4000 && "$program" soak "$scratch/full/soak") 2>"$scratch/err"
holds "a full disk is status 3" [ $? = 3 ]
holds "a full disk names the file" grep -q "full/[abc]: File too large" "$scratch/err"
holds "a full disk leaves a checkpoint" grep -q "soak: ends; checkpoint [0-9]*, at sample [0-9]*, stays" "$scratch/err"
as_whole full
soak_in half "${three[@]:0:4}" "feed 3 1 command sha256sum >sum" "full-disk feed"
(ulimit -f 4000 && "$program" soak "$scratch/half/soak") 2>"$scratch/err"
holds "where the feed ends, the run does not" [ $? = 0 ]
holds "where the feed ends, it says so" grep -q "soak: feed 1 ends, with" "$scratch/err"
holds "where the feed ends, the other gets all" cmp <(cut -c -64 "$scratch/half/sum") <(sed -n '2s/ .*//p' "$scratch/sums")

# Readers: a command and a connection get a run whole; one that stops reading is dropped, and the next one attaches.
port=$((20000 + RANDOM % 10000))
# Where the loopback is down, as in some containers, the system calls it unreachable, and what needs it is left out.
loopback=yes
if { : <>"/dev/tcp/127.0.0.1/$port"; } 2>&1 | grep -qi unreachable; then
    loopback=
    echo "soak: no loopback network on this machine: connections and README's lines are not tried"
fi
if [ -n "$loopback" ]; then
    soak_in read "${three[@]:0:4}" "feed 3 1 listen 127.0.0.1:$port" "wait 20"
    "$program" soak "$scratch/read/soak" 2>"$scratch/err" &
    running=$!
    for _ in $(seq 200); do
        if { exec 3<>"/dev/tcp/127.0.0.1/$port"; } 2>/dev/null; then break; fi
        sleep 0.01
    done
    cat <&3 >"$scratch/read/t"
    exec 3<&-
    wait $running
    holds "a connection gets the run whole" cmp "$scratch/read/t" "$scratch/whole/b"
fi
soak_in stops "duration 1000" "${three[@]:1:3}" "feed 0 1 pipe p" "buffer 1" "patience 0.2" "wait 20"
mkfifo "$scratch/stops/p"
cat "$scratch/stops/p" >"$scratch/stops/first" &
reading=$!
"$program" soak --realtime --progress 0.02 --status "$scratch/stops/status" "$scratch/stops/soak" 2>"$scratch/err" &
running=$!
until_status() { # PATTERN: waits until the status file has it
    for _ in $(seq 1000); do
        if grep -q "$1" "$scratch/stops/status" 2>/dev/null; then return; fi
        sleep 0.02
    done
}
until_status "^samples [1-9]"
kill -STOP $reading
until_status "^feed 2 waiting"
holds "another soak of this checkpoint is refused" [ "$("$program" soak "$scratch/stops/soak" 2>&1)" = "more1090: another soak has the checkpoint $scratch/stops/check" ]
kill -CONT $reading
wait $reading
holds "a reader that stops gets a first part of its feed" cmp -n "$(size "$scratch/stops/first")" "$scratch/stops/first" "$scratch/stops/a"
cat "$scratch/stops/p" >"$scratch/stops/next" &
until_status "^feed 2 attached"
sleep 0.1
kill -TERM $running
wait $running
holds "it ends with status 0" [ $? = 0 ]
wait
read -r _ _ _ since lost drops _ < <(grep "^feed 2" "$scratch/stops/status")
holds "it was dropped" [ "$drops" -ge 1 ]
next=$(size "$scratch/stops/next")
holds "the next reader attaches at a sample" cmp <(tail -c +$((8 * since + 1)) "$scratch/stops/a" | head -c "$next") "$scratch/stops/next"
got=$(($(size "$scratch/stops/first") + next))
if [ "$drops" = 1 ]; then
    holds "the samples that are lost are counted" [ $((got / 8 + lost)) = $(($(size "$scratch/stops/a") / 8)) ]
fi

# Whoever does not read standard error stops nobody.
soak_in unread "${three[@]}"
mkfifo "$scratch/unread/lines"
exec 4<>"$scratch/unread/lines"
head -c 65536 /dev/zero >&4 # a pipe is full with that
timeout 30 "$program" soak "$scratch/unread/soak" 2>&4
holds "a standard error that nobody reads stops nothing" [ $? = 0 ]
exec 4>&-
holds "its files are those of a run that was never ended" cmp <(sums unread) "$scratch/sums"

# README's lines, from the second one on: the last one runs until it is ended.
lines=$(sed -n "/^## Soak bench/,/^The last line/s/^    //p" README.md | tail -n +2)
holds "README has five lines to a running soak" [ "$(wc -l <<<"$lines")" = 4 ]
if [ -n "$loopback" ]; then
    (
        mkdir "$scratch/readme" && cd "$scratch/readme" && ln -s "$OLDPWD/examples" "$OLDPWD/target" .
        cp() { command cp "$@" && sed -i "s/:30010/:$((port + 1))/" bench/config; }
        program_of_readme() { timeout -s TERM 2 "$program" "${@:2}"; }
        eval "$(sed "s#^target/hosts/more1090#program_of_readme more1090#" <<<"$lines")"
    ) >"$scratch/out" 2>"$scratch/err"
    holds "README's lines begin a soak" grep -qx "soak: begins at sample 0: there is no checkpoint" "$scratch/out"
    holds "README's lines run it" grep -q "soak: ended as asked at sample [1-9]" "$scratch/err"
    holds "README's soak feeds a receiver" grep -q "soak: feed 1 (pipe near) has a reader, at sample" "$scratch/err"
    holds "README's soak writes its status" grep -qE "^feed 1 [a-z]* [0-9]+ [0-9]+ [0-9]+ pipe near" "$scratch/readme/bench/status"
fi
