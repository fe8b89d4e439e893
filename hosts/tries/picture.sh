# examples/picture: wrong words end it before anything is built or drawn.
for words in "seed" "-1" "1 -" "1 /dev/stdout" "1 /dev/null" "1 .png" "1 --help" "--help" "1 a.png b" "1 a.pdf" "1 .svg" \
    "reply 1" "reply 0.95" "reply -" "reply 0.5 a.png" "reply 0.5 -" "reply 0.5 a.svg b"; do
    examples/picture $words >"$scratch/out" 2>"$scratch/err"
    ended=$?
    tried=$((tried + 1))
    if [ $ended != 2 ] || [ -s "$scratch/out" ] || ! grep -q "^usage: examples/picture" "$scratch/err"; then
        failed=$((failed + 1))
        echo "examples/picture $words: status $ended for 2"
    fi
done
# examples/figure: the crossing is at the reply's time, for Mode S but for the pulses that follow; and a run's replies are marked.
drawn() { # WHAT COMMAND..: the command ends well
    local what=$1
    shift
    tried=$((tried + 1))
    if ! "$@" >"$scratch/out" 2>"$scratch/err"; then
        failed=$((failed + 1))
        echo "examples/figure, $what: not so"
        cat "$scratch/err"
    fi
}
if command -v python3 >/dev/null; then
    for part in 0.1 0.5 0.9; do
        examples/figure reply "$program" $part "$scratch/reply.svg" 2>"$scratch/said"
        drawn "a reply at $part" [ $? = 0 ]
        drawn "it crosses $part at its time" grep -qE ': [+-]0\.[0-4][0-9] ns Mode S, [+-]0\.00 ns Mode A/C$' "$scratch/said"
        drawn "the figure is XML" python3 -c 'import sys, xml.dom.minidom; xml.dom.minidom.parse(sys.argv[1])' "$scratch/reply.svg"
    done
    "$program" random 0.0006 7000 1075 "$scratch/run.cf32" "$scratch/run.txt" 2>/dev/null
    drawn "a run" examples/figure run "$scratch/run.cf32" "$scratch/run.txt" "$scratch/run.svg"
    drawn "the figure is XML" python3 -c 'import sys, xml.dom.minidom; xml.dom.minidom.parse(sys.argv[1])' "$scratch/run.svg"
    drawn "each reply is marked" [ "$(grep -c 'stroke-width="3"' "$scratch/run.svg")" = "$(wc -l <"$scratch/run.txt")" ]
    tried=$((tried + 1))
    examples/figure reply "$program" 0.95 "$scratch/none.svg" >"$scratch/out" 2>&1
    if [ $? != 1 ] || [ -e "$scratch/none.svg" ] || ! grep -q "refused 14" "$scratch/out"; then
        failed=$((failed + 1))
        echo "examples/figure reply at 0.95: not so"
    fi
fi
