# `more1090 scenario`: messages against published ones, wrong lines, tapes and runs, and examples/decode
so() { # WHAT COMMAND..: the command ends well
    local what=$1
    shift
    tried=$((tried + 1))
    if ! "$@" >/dev/null 2>&1; then
        failed=$((failed + 1))
        echo "scenario, $what: not so"
    fi
}
file=$scratch/scenario.txt
listed() { # TEXT LINE..: a scenario of these lines lists these messages
    local text=$1
    shift
    printf '%s\n' "run seconds=0.1" "$@" >"$file"
    tried=$((tried + 1))
    if [ "$("$program" scenario --list "$file" 2>/dev/null | cut -d' ' -f3 | tr '\n' ' ')" != "$text " ]; then
        failed=$((failed + 1))
        echo "scenario, $*: not $text"
    fi
}
one() { # TEXT WORD..: one reply
    local text=$1
    shift
    listed "$text" "reply at=0.001 cn0=80.0 $*"
}
# Extended squitters and replies that are published with what they say (The 1090 Megahertz Riddle, and tests of decoders).
one 8d4840d6202cc371c32ce0576098 send=identification address=4840D6 callsign=KLM1023
one 8d40621d58c382d690c8ac2863a7 send=position address=40621D altitude=38000 latitude=52.2572021484375 longitude=3.91937255859375
one 8d40621d58c386435cc412692ad6 send=position odd=1 address=40621d altitude=38000 latitude=52.26578017412606 longitude=3.938912527901786
one 8d485020994409940838175b284f send=velocity address=485020 speed=159.2 track=182.88 climb=-832 gnss-above=550
one a0001839ca3800315800007448d9 send=df20 address=400940 altitude=38025 register=CA380031580000
one a000139381951536e024d4ccf6b5 send=df20 address=3c4dd2 altitude=30275 register=81951536E024D4
one a000029cffbaa11e2004727281f1 send=df20 address=4243d0 altitude=3300 register=FFBAA11E200472
one a000083e202cc371c31de0aa1ccf send=df20 address=484163 altitude=12550 callsign=KLM1017
one 2000171806a983 send=df4 address=4ca7e8 altitude=36000
# 5d484fdea248f5 is published, and answers SI 6: without the overlay of 22 its parity is a248e3.
one 5d484fdea248e3 send=df11 address=484fde
one 5d00000064e717 send=all-call ii=5
one 5d00000064e737 send=all-call si=21
tried=$((tried + 2))
for reading in "II 5:5d00000064e717" "SI 21:5d00000064e737"; do
    if ! "$program" message "${reading#*:}" | grep -qx "interrogator ${reading%:*}"; then failed=$((failed + 1)); fi
done
# The 13 bits of a squawk and of an altitude in published replies: a800292dffbba9383ffceb903d01 says 1346, and
# a02014b400000000000000f9d514 says 32300 feet; here with no requests and other addresses.
code() { # BITS WORD..: the last 13 bits of a reply's first four bytes
    local bits=$1 first
    shift
    printf '%s\n' "run seconds=0.1" "reply at=0.001 cn0=80.0 $*" >"$file"
    first=$("$program" scenario --list "$file" 2>/dev/null | cut -d' ' -f3 | head -c 8)
    so "$* has the code $bits" [ $((0x$first & 0x1fff)) = $((0x$bits)) ]
}
code 092d send=df5 address=000001 squawk=1346
code 14b4 send=df4 address=000001 altitude=32300
code 17b0 send=df0 address=000001 altitude=37000
# Mode C: feet, and Gillham's code as D2 D4 A1 A2 A4 B1 B2 B4 C1 C2 C4, from tests of decoders. Their places in 512 A + 64 B + 8 C
# + D, where a digit's first bit has the worth 1:
places=(1 2 9 10 11 6 7 8 3 4 5)
while read -r feet bits; do
    data=0
    for k in "${!places[@]}"; do data=$((data | ${bits:k:1} << places[k])); done
    one "$(printf %04x $data)" send=mode-c altitude="$feet"
done <<'END'
-1000 00000000010
-500 00000001010
-100 00000011011
0 00000011010
100 00000011110
600 00000010011
1000 00000110010
5800 00001001001
10300 00011100100
32000 01100011010
46300 01110000100
50200 01010101100
73200 11011110100
126600 10000000011
126700 10000000001
END
# Above 50175 feet Mode S has the same code, with D1 of 0 where 25 feet have 1, and a 0 in the middle.
code 1223 send=df4 address=000001 altitude=50200
one 1e80 send=mode-a squawk=7200 spi=1

# Positions all over the earth, altitudes and velocities, read back by rules of their own.
cat >"$scratch/read.py" <<'END'
import math, random, subprocess, sys

random.seed(5)

def listed(lines):
    said = subprocess.run([sys.argv[1], "scenario", "--list", "-"], input="\n".join(lines), capture_output=True, text=True, check=True)
    return [(float(words[0]), bytes.fromhex(words[2])) for words in map(str.split, said.stdout.splitlines())]

def zones(latitude):
    turn = 1 - (1 - math.cos(math.pi / 30)) / math.cos(math.radians(latitude)) ** 2
    return 1 if abs(latitude) > 87 else int(2 * math.pi / math.acos(turn))

def signed(degrees):
    return (degrees + 180) % 360 - 180

def positions(even, odd):
    """Where two frames are: 17 bits each of latitude and longitude."""
    rows = [(0, *even), (1, *odd)]
    j = math.floor((59 * even[0] - 60 * odd[0]) / 2**17 + 0.5)
    norths = [signed(360 / (60 - i) * (j % (60 - i) + y / 2**17)) for i, y, _ in rows]
    if zones(norths[0]) != zones(norths[1]):
        return [(north, None) for north in norths]
    n = zones(norths[0])
    m = math.floor((even[1] * (n - 1) - odd[1] * n) / 2**17 + 0.5)
    around = [max(n - i, 1) for i, _, _ in rows]
    return [(north, signed(360 / k * (m % k + x / 2**17))) for north, k, (_, _, x) in zip(norths, around, rows)]

def value(gray_bits):
    bits = 0
    for bit in gray_bits:
        bits = bits << 1 | (bits & 1) ^ bit
    return bits

def altitude(code):
    if code >> 4 & 1:
        return 25 * (code >> 5 << 4 | code & 15) - 1000
    c1, a1, c2, a2, c4, a4, b1, q, b2, d2, b4, d4 = (code >> n & 1 for n in range(11, -1, -1))
    fives, ones = value([d2, d4, a1, a2, a4, b1, b2, b4]), value([c1, c2, c4])
    ones = 5 if ones == 7 else ones
    return 500 * fives + 100 * (6 - ones if fives & 1 else ones) - 1300

def field(squitter, first, count):
    """Bits of a squitter's 56, counted from 1."""
    return int.from_bytes(squitter[4:11], "big") >> 57 - first - count & (1 << count) - 1

lines, sent = ["run seconds=1"], []
for k in range(200):
    feet = random.choice([random.randrange(-1000, 50176, 25), random.randrange(50200, 126701, 100)])
    north, east, speed, track = random.uniform(-89, 89), random.uniform(-180, 180), random.uniform(0, 1000), random.uniform(0, 360)
    climb, address = random.randrange(-20000, 20000), f"{random.getrandbits(24):06x}"
    for n, more in enumerate(("position odd=0", "position odd=1", "velocity")):
        lines.append(f"reply at={0.001 + 0.003 * k + 0.001 * n:.6f} cn0=80 address={address} altitude={feet} latitude={north!r} "
                     f"longitude={east!r} speed={speed!r} track={track!r} climb={climb} send={more}")
    sent.append((north, east, feet, speed, track, climb, address))
heard = [message for _, message in listed(lines)]
assert len(heard) == 600
for k, (north, east, feet, speed, track, climb, address) in enumerate(sent):
    even, odd, velocity = heard[3 * k:3 * k + 3]
    assert all(m[0] == 0x8D and m[1:4].hex() == address for m in (even, odd, velocity))
    assert [field(m, 22, 1) for m in (even, odd)] == [0, 1] and all(altitude(field(m, 9, 12)) == feet for m in (even, odd))
    for y, x in positions(*((field(m, 23, 17), field(m, 40, 17)) for m in (even, odd))):
        assert abs(y - north) < 6e-5, (y, north)
        assert x is None or abs(signed(x - east)) * math.cos(math.radians(north)) < 1e-4, (x, east, north)
    part = lambda sign, first, count: (field(velocity, first, count) - 1) * (-1 if field(velocity, sign, 1) else 1)
    assert abs(part(14, 15, 10) - speed * math.sin(math.radians(track))) < 0.501
    assert abs(part(25, 26, 10) - speed * math.cos(math.radians(track))) < 0.501
    assert abs(64 * part(37, 38, 9) - climb) <= 32

# An aircraft that flies east at 600 knots along the equator, and climbs at 6000 feet a minute.
for at, message in listed(["run seconds=100", "aircraft address=000001 altitude=0 latitude=0 longitude=0 speed=600 track=90 climb=6000 "
                           "cn0=80 position=1 jitter=0"]):
    zone = 360 / (59 - field(message, 22, 1))
    assert abs(zone * field(message, 40, 17) / 2**17 - at / 360) < 1e-4 and abs(altitude(field(message, 9, 12)) - 100 * at) <= 12.5
END
if command -v python3 >/dev/null; then so "positions, altitudes and velocities" python3 "$scratch/read.py" "$program"; fi

# Wrong lines, by their numbers.
refuses() { # TEXT LINE..: a scenario of these lines is refused with this text, and nothing is written
    local text=$1
    shift
    printf '%s\n' "$@" >"$file"
    expect 1 "$text" scenario "$file" "$scratch/none.tape"
    expect 1 "$text" scenario --run "$file" "$scratch/none.cf32" "$scratch/none.records"
}
run="run seconds=0.01"
refuses "its first line is not \`run seconds=..\`" ""
refuses "its first line is not" "aircraft address=000001 cn0=80 df11=1"
refuses "line 1: it wants seconds" "run seed=1"
refuses "line 1: seconds: 1e3 is no number of seconds" "run seconds=1e3"
refuses "line 1: refused 1: the duration" "run seconds=18446744073709551615"
refuses "line 1: refused 15: samples per pulse" "run seconds=1 samples-per-pulse=5"
refuses "line 1: refused 14: the trigger level" "run seconds=1 trigger-level=0.95"
refuses "line 1: seed: -1 is no number that it takes" "run seconds=1 seed=-1"
refuses "line 1: there is no rate in a line of run" "run seconds=1 rate=5"
refuses "line 3: a scenario has one line of run" "$run" "# again" "$run"
refuses "line 2: plane: a line begins with run, aircraft or reply" "$run" "plane"
refuses "line 2: address is not NAME=VALUE" "$run" "aircraft address"
refuses "line 2: cn0 is given twice" "$run" "reply at=0.001 cn0=80 cn0=81 send=df11 address=000001"
refuses "line 2: there is no at in a line of aircraft" "$run" "aircraft at=0.001 cn0=80 df11=1 address=000001"
refuses "line 2: it wants cn0 or amplitude" "$run" "aircraft address=000001 df11=1"
refuses "line 2: cn0 and amplitude are one or the other" "$run" "aircraft address=000001 df11=1 cn0=80 amplitude=1"
refuses "line 2: cn0: loud is not in dB" "$run" "aircraft address=000001 df11=1 cn0=loud"
refuses "line 2: cn0: 200.1 is above 200.0 dB" "$run" "aircraft address=000001 df11=1 cn0=200.1"
refuses "line 2: amplitude is out of range" "$run" "aircraft address=000001 df11=1 amplitude=-1"
refuses "line 3: clock is out of range" "$run" "" "aircraft address=000001 df11=1 cn0=80 clock=0.11"
refuses "line 2: clock is out of range" "$run" "aircraft mode-a=1 squawk=7000 cn0=80 clock=0.064"
refuses "line 2: phase is out of range" "$run" "aircraft address=000001 df11=1 cn0=80 phase=3.2"
refuses "line 2: carrier: 4000001 is above 4000000 Hz in size" "$run" "aircraft address=000001 df11=1 cn0=80 carrier=4000001"
refuses "line 2: carrier: NaN is not finite" "$run" "aircraft address=000001 df11=1 cn0=80 carrier=NaN"
refuses "line 2: jitter: 2 is not from 0 to 1" "$run" "aircraft address=000001 df11=1 cn0=80 jitter=2"
refuses "line 2: it sends nothing" "$run" "aircraft address=000001 cn0=80 df11=0"
refuses "line 2: df4: an aircraft sends from 0 to 2000 replies a second in all" "$run" "aircraft address=000001 altitude=0 cn0=80 df0=1500 df4=1500"
refuses "line 2: address: 12345 is not six hexadecimal digits" "$run" "aircraft address=12345 df11=1 cn0=80"
refuses "line 2: squawk: 7800 is not four digits from 0 to 7" "$run" "aircraft squawk=7800 mode-a=1 cn0=80"
refuses "line 2: callsign: klm is not up to eight" "$run" "aircraft address=000001 callsign=klm identification=1 cn0=80"
refuses "line 2: altitude: 126701 is not from -1000 to 126700 feet" "$run" "aircraft altitude=126701 mode-c=1 cn0=80"
refuses "line 2: latitude and longitude go together" "$run" "aircraft address=000001 altitude=0 latitude=1 position=1 cn0=80"
refuses "line 2: latitude: 91 is not from -90 to 90 degrees" "$run" "aircraft address=000001 altitude=0 latitude=91 longitude=0 position=1 cn0=80"
refuses "line 2: df5 wants squawk" "$run" "aircraft address=000001 df5=1 cn0=80"
refuses "line 2: df4 wants address" "$run" "aircraft altitude=0 df4=1 cn0=80"
refuses "line 2: position wants latitude and longitude" "$run" "aircraft address=000001 altitude=0 position=1 cn0=80"
refuses "line 2: all-call wants ii or si" "$run" "aircraft all-call=1 cn0=80"
refuses "line 2: ii: 16 is not from 1 to 15" "$run" "aircraft all-call=1 ii=16 cn0=80"
refuses "line 2: ii: the reply to interrogator code 0 is df11" "$run" "aircraft all-call=1 ii=0 cn0=80"
refuses "line 2: register: 12 is not 14 hexadecimal digits" "$run" "aircraft address=000001 altitude=0 register=12 df20=1 cn0=80"
refuses "line 2: it wants at" "$run" "reply send=df11 address=000001 cn0=80"
refuses "line 2: at: 0.009875 is not from 0.000004 to 0.009863125 seconds, where a reply is whole" "$run" "reply at=0.009875 send=df11 address=000001 cn0=80"
refuses "line 2: at: 0 is not from" "$run" "reply at=0 send=df11 address=000001 cn0=80"
refuses "line 2: it wants send or message" "$run" "reply at=0.001 cn0=80"
refuses "line 2: send: there is no format df7" "$run" "reply at=0.001 send=df7 cn0=80"
refuses "line 2: message: 5z is not in hexadecimal digits" "$run" "reply at=0.001 message=5z cn0=80"
refuses "line 2: message: its parity is not 0" "$run" "reply at=0.001 message=8d4840d6202cc371c32ce0576099 cn0=80"
refuses "line 2: message: it is an all-call reply, and the generator's have the address 0" "$run" "reply at=0.001 message=5d484fdea248f5 cn0=80"
refuses "line 2: message: it has no class" "$run" "reply at=0.001 message=08000000000000 cn0=80"
refuses "line 2: message: the type has no capability 1" "$run" "reply at=0.001 message=8900000000000000000000a2d349 cn0=80"
expect 1 "it is no text" scenario <(printf '\xff') "$scratch/none.tape"
expect 2 "an argument is missing" scenario
expect 2 "an argument is missing" scenario --run "$file"
expect 2 "one argument too many" scenario "$file" a b
expect 2 "one argument too many" scenario --list "$file" a
expect 2 "--run and --list are one or the other" scenario --run --list "$file"
expect 2 "there is no option --seed" scenario --seed "$file"
expect 3 "no such" scenario "$scratch/no such"
so "what is refused leaves no file" [ -z "$(ls "$scratch" | grep none)" ]

# A tape: settings, taps, draws and noise; at most 399 replies.
traffic=examples/decode/traffic.txt
expect 0 "" scenario "$traffic" "$scratch/tape"
expect 0 "samples 4000000 noise 8000000 records 60
ends at draw 60" booking "$scratch/tape"
"$program" scenario - <"$traffic" 2>/dev/null | cmp -s - "$scratch/tape"
so "- is standard input and output" [ "${PIPESTATUS[*]}" = "0 0" ]
rm "$scratch/tape"
aircraft="aircraft address=000001 cn0=80 jitter=0"
printf '%s\n' "run seconds=1" "$aircraft df11=399" >"$file"
so "399 replies are a tape" "$program" scenario "$file" "$scratch/tape"
expect 0 "samples 8000000 noise 16000000 records 399
ends at draw 399" booking "$scratch/tape"
rm "$scratch/tape"
refuses_tape() { # TEXT LINE..
    local text=$1
    shift
    printf '%s\n' "$@" >"$file"
    expect 1 "$text" scenario "$file" "$scratch/none.tape"
}
refuses_tape "it has 400 replies, and a tape holds 399" "run seconds=1" "$aircraft df11=400"
refuses_tape "a tape holds at most 2^32 - 1 noise values" "run seconds=300" "$aircraft df11=1"
# The same bytes on every machine: this is the sum of a tape with noise, a drawn phase and a reply of each length.
printf '%s\n' "run seconds=0.001 seed=7 noise=3" "reply at=0.0001 send=velocity address=485020 speed=159.2 track=182.88 cn0=80.0" \
    "reply at=0.0003 send=df4 address=4ca7e8 altitude=36000 cn0=75.5 carrier=1e5" "reply at=0.0005 send=mode-a squawk=7500 amplitude=0.01" >"$file"
expect 0 "d7f740b62f6eaf845d2c5b21839e1fc14dc51528d41b00eb80799b931e920233  $scratch/tape" scenario --sum "$file" "$scratch/tape"
expect 0 "samples 8000 noise 16000 records 3
ends at draw 3" booking "$scratch/tape"
expect 0 "0.000100000 0 8d485020994409940004005c7cb2
0.000300000 2 2000171806a983
0.000500000 6 0f40 7500" scenario --list "$file"
# At 8 samples per pulse; without noise; without replies and without samples.
printf '%s\n' "run seconds=0.001 samples-per-pulse=8 noise=off" "reply at=0.0001 send=df11 address=485020 cn0=80.0" >"$file"
expect 0 "" scenario "$file" "$scratch/eight"
expect 0 "samples 16000 noise 32000 records 1
ends at draw 1" booking "$scratch/eight"
so "noise is off" cmp <(tail -c 128000 "$scratch/eight") <(head -c 128000 /dev/zero)
expect 0 "" scenario <(echo "run seconds=0") "$scratch/none"
expect 0 "samples 0 noise 0 records 0
ends at draw 0" booking "$scratch/none"
rm "$scratch/none"

# A run: samples and records, the same as those of the tape; more replies than a tape holds.
"$program" scenario --run "$file" "$scratch/eight.cf32" "$scratch/eight.records" 2>/dev/null
so "16000 samples are 128000 bytes" [ "$(stat -c %s "$scratch/eight.cf32")" = 128000 ]
if "$program" --help | grep -q '^    cf32 '; then
    "$program" cf32 "$scratch/eight" "$scratch/tape.cf32" "$scratch/tape.records" 2>/dev/null
    so "a tape's samples are the run's" cmp "$scratch/tape.cf32" "$scratch/eight.cf32"
    so "a tape's records are the run's" cmp "$scratch/tape.records" "$scratch/eight.records"
fi
rm "$scratch"/eight* "$scratch"/tape*
printf '%s\n' "run seconds=0.2" "aircraft df11=2000 address=000001 cn0=80" >"$file"
so "400 replies are a run" "$program" scenario --run "$file" "$scratch/many.cf32" "$scratch/many.records"
so "each has its record" [ "$(($(stat -c %s "$scratch/many.records") / 66))" = "$("$program" scenario --list "$file" | wc -l)" ]
# An aircraft sends one reply at a time; another one does not wait.
printf '%s\n' "run seconds=0.2" "aircraft df11=1000 df4=1000 altitude=0 address=000001 cn0=80 jitter=1" >"$file"
so "250 microseconds apart" awk 'NR > 1 && $1 - last < 0.00025 - 1e-9 { bad = 1 } { last = $1 } END { exit bad || NR < 300 }' \
    <("$program" scenario --list "$file")
printf '%s\n' "aircraft df11=1000 address=000002 cn0=80" >>"$file"
so "two aircraft are not" awk 'NR > 1 && $1 - last < 0.0001 { near = 1 } { last = $1 } END { exit !near }' \
    <("$program" scenario --list "$file")
# Replies that add nothing leave the noise, wherever calls are cut.
echo "run seconds=0.1" >"$file"
for k in 1 2 3 4 5 6; do echo "aircraft df11=2000 address=00000$k amplitude=0"; done >>"$file"
"$program" scenario --run "$file" "$scratch/with.cf32" 2>/dev/null
"$program" scenario --run <(head -1 "$file") "$scratch/without.cf32" 2>/dev/null
so "replies of amplitude 0 leave the noise" cmp "$scratch/with.cf32" "$scratch/without.cf32"
# A line at the end changes no other reply.
printf '%s\n' "run seconds=1" "aircraft df11=5 address=000001 cn0=80" >"$file"
"$program" scenario --list "$file" >"$scratch/few"
printf '%s\n' "aircraft df11=5 address=000002 cn0=80" >>"$file"
so "a line at the end changes no other" cmp "$scratch/few" <("$program" scenario --list "$file" | grep 5d000001)
expect 2 "are one file" scenario --run "$file" "$scratch/a" "$scratch/a"
expect 2 "is the file that is read" scenario "$file" "$file"
expect 0 "" scenario --list <(echo "run seconds=1"; echo "aircraft df11=1e-300 address=000001 cn0=80")
expect 3 "none/a: No such file" scenario --run "$file" "$scratch/none/a"
"$program" scenario --run "$file" /dev/full 2>"$scratch/err"
so "a full output is status 3" [ $? = 3 ]
printf '%s\n' "run seconds=0.01" "reply at=0.001 send=all-call ii=5 cn0=80" >"$file"
"$program" scenario --run "$file" /dev/null 2>"$scratch/err"
so "all-call replies have the address 0" grep -q "line 2: all-call replies have the address 000000" "$scratch/err"

# examples/decode: every reply is decoded from the samples, and nothing else.
so "examples/decode/run" examples/decode/run "$program" "$scratch/decode"
so "60 of 60 replies are heard" [ "$(head -3 "$scratch/decode/check.heard" | tr '\n' ' ')" = "pairs 60 unheard 0 unsent 0 " ]
so "without a reply's samples it is unheard" bash -c '
    head -c 2000000 "$1/samples.cf32" | "$1/check" - >"$1/part.avr"
    "$2" heard "$1/part.avr" "$1/records" 16 --format avr | grep -qx "unsent 0" &&
    ! "$2" heard "$1/part.avr" "$1/records" 16 --format avr | grep -qx "unheard 0"' - "$scratch/decode" "$program"
