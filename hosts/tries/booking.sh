# `more1090 booking`, on the worked tape
settings=124
draws=$((4 + settings + 4 + 4 * 3001)) # where the count of draws stands
behind=$((draws + 4 + 3 * 65))         # behind its three draws
worked=$(wc -c <crates/tape/stdin)
made() { # NAME [AT=HEX]..: the worked tape with bytes put at places
    local name=$1
    shift
    tapes/tape worked "$worked" "$@" >"$scratch/$name.tape"
}
expect 0 "samples 8000 noise 16000 records 2
ends at draw 2" booking crates/tape/stdin
expect 0 "samples 8000 noise 16000 records 2
ends at draw 2" booking - <crates/tape/stdin
head -c "$behind" crates/tape/stdin >"$scratch/no-noise.tape"
expect 0 "samples 8000 noise 16000 records 2
ends at draw 2" booking "$scratch/no-noise.tape"
made two $draws=02000000
expect 0 "samples 8000 noise 16000 records 2
draws ran out" booking "$scratch/two.tape"
tapes/tape eight 152335 >"$scratch/eight.tape"
expect 0 "samples 16000 noise 32000 records 2
ends at draw 2" booking "$scratch/eight.tape"
made none $draws=00000000 12=00000000
expect 0 "samples 0 noise 0 records 0
draws ran out" booking "$scratch/none.tape"
made fault $draws=04000000 $((behind + 8))=09
expect 1 "$scratch/fault.tape: refused 7: draw 3, field 1 (type) is out of range" booking "$scratch/fault.tape"
made nanoseconds 12=00ca9a3b
expect 1 "refused 1: the duration" booking "$scratch/nanoseconds.tape"
made settings 0=02000000
expect 1 "refused 11: the tape" booking "$scratch/settings.tape"
made many $draws=ffffffff
expect 1 "refused 11: the tape" booking "$scratch/many.tape"
head -c 12000 crates/tape/stdin >"$scratch/short.tape"
expect 1 "refused 11: the tape" booking "$scratch/short.tape"
# Settings come before what stands behind them, and samples per pulse first.
made other $settings=00000000 12=00ca9a3b 127=05
expect 1 "refused 15: samples per pulse other than 4 or 8" booking "$scratch/other.tape"
head -c 128 "$scratch/other.tape" >"$scratch/alone.tape"
expect 1 "refused 15" booking "$scratch/alone.tape"
head -c 127 "$scratch/other.tape" >"$scratch/less.tape"
expect 1 "refused 11" booking "$scratch/less.tape"
made level 123=00000000 128=00
expect 1 "refused 14" booking "$scratch/level.tape"
made eight-of-3001 127=08
expect 1 "refused 11" booking "$scratch/eight-of-3001.tape"
tapes/tape eight 152335 127=04 >"$scratch/four-of-6000.tape"
expect 1 "refused 11" booking "$scratch/four-of-6000.tape"
expect 3 "nowhere.tape" booking "$scratch/nowhere.tape"
expect 3 "$scratch: Is a directory" booking "$scratch"
# The noise is not read: a pipe that has none is not waited for.
mkfifo "$scratch/pipe"
{ cat "$scratch/no-noise.tape"; exec sleep 20; } >"$scratch/pipe" &
writer=$!
expect 0 "samples 8000 noise 16000 records 2
ends at draw 2" booking "$scratch/pipe"
tried=$((tried + 1))
if ! kill $writer 2>/dev/null; then
    failed=$((failed + 1))
    echo "more1090 booking waits for the noise"
fi
wait $writer 2>/dev/null
expect 2 "an argument is missing" booking
expect 2 "one argument too many" booking crates/tape/stdin again
