# `more1090 sigmf`, on the samples and records of a scenario and on those of a random run
holds_sigmf() { # WHAT COMMAND..: the command ends well
    local what=$1
    shift
    tried=$((tried + 1))
    if ! "$@" >"$scratch/out" 2>&1; then
        failed=$((failed + 1))
        echo "sigmf, $what: not so"
        cat "$scratch/out"
    fi
}
# The standard's own schema is not at hand. This holds a file against what it demands of the fields that are there: their types,
# which ones must be, the forms of the data type and of the sum, and the order of captures and annotations.
cat >"$scratch/check.py" <<'END'
import hashlib, json, pathlib, re, sys

meta_name, data_name, rate = sys.argv[1], sys.argv[2], int(sys.argv[3])
meta = json.loads(pathlib.Path(meta_name).read_text(encoding="utf-8"))
data = pathlib.Path(data_name).read_bytes()
whole = lambda x: isinstance(x, int) and not isinstance(x, bool) and 0 <= x < 2**63
number = lambda x: isinstance(x, (int, float)) and not isinstance(x, bool)
text = lambda x: isinstance(x, str)
CORE = {
    "global": {"datatype": text, "sample_rate": number, "version": text, "num_channels": whole, "sha512": text, "dataset": text,
               "description": text, "recorder": text, "extensions": lambda x: isinstance(x, list)},
    "captures": {"sample_start": whole, "frequency": number},
    "annotations": {"sample_start": whole, "sample_count": whole, "label": text, "comment": text},
}
OWN = {"type": whole, "message": text, "cn0": number, "time": number, "carrier_offset": number, "clock_error": number}
MUST = {"global": ["datatype", "version"], "captures": ["sample_start"], "annotations": ["sample_start"]}

def part(name, fields):
    assert isinstance(fields, dict), name
    for field, value in fields.items():
        space, _, short = field.partition(":")
        assert space in ("core", "more1090"), field
        assert ({"core": CORE[name], "more1090": OWN}[space])[short](value), (field, value)
    for short in MUST[name]:
        assert "core:" + short in fields, (name, short)

assert set(meta) == {"global", "captures", "annotations"}
top = meta["global"]
part("global", top)
for name in ("captures", "annotations"):
    assert isinstance(meta[name], list)
    for fields in meta[name]:
        part(name, fields)
    starts = [fields["core:sample_start"] for fields in meta[name]]
    assert starts == sorted(starts), name
assert re.fullmatch(r"(c|r)(f32|f64|i32|i16|u32|u16)_(le|be)|(c|r)(i8|u8)", top["core:datatype"])
assert top["core:datatype"] == "cf32_le" and top["core:sample_rate"] == rate
assert re.fullmatch(r"\d+\.\d+\.\d+", top["core:version"])
assert re.fullmatch(r"[0-9a-f]{128}", top["core:sha512"]) and top["core:sha512"] == hashlib.sha512(data).hexdigest()
for extension in top["core:extensions"]:
    assert set(extension) == {"name", "version", "optional"} and text(extension["name"]) and text(extension["version"])
assert top["core:extensions"] == [{"name": "more1090", "version": "1.0.0", "optional": True}]
assert len(meta["captures"]) == 1 and meta["captures"][0]["core:sample_start"] == 0
samples = len(data) // 8
for a in meta["annotations"]:
    assert a["core:sample_start"] + a["core:sample_count"] <= samples and len(a["core:label"]) <= 20
    assert re.fullmatch(r"([0-9a-f]{4}|[0-9a-f]{14}|[0-9a-f]{28})", a["more1090:message"]) and a["more1090:type"] <= 6
conforms = meta_name.removesuffix(".sigmf-meta") + ".sigmf-data" == data_name
assert top.get("core:dataset") == (None if conforms else pathlib.Path(data_name).name)
for a in meta["annotations"]:
    print(a["core:sample_start"], a["more1090:type"], a["core:sample_count"], a["more1090:message"], a["more1090:cn0"])
END
name=$scratch/name
printf '%s\n' "run seconds=0.001 noise=off" "reply at=0.0003 send=mode-a squawk=7500 cn0=80.5" \
    "reply at=0.0001 message=8d4840d6202cc371c32ce0576098 cn0=90.0 carrier=1e5 clock=1e-6" >"$scratch/scenario.txt"
"$program" scenario --run "$scratch/scenario.txt" "$name.sigmf-data" "$scratch/records" 2>/dev/null
expect 0 "" sigmf "$name.sigmf-data" <(tail -c 66 "$scratch/records"; head -c 66 "$scratch/records")
"$program" scenario --run <(sed 's/run/run samples-per-pulse=8/' "$scratch/scenario.txt") "$scratch/eight.cf32" "$scratch/eight.records" 2>/dev/null
expect 0 "" sigmf --samples-per-pulse 8 --description 'a "run" \ at 8' "$scratch/eight.cf32" "$scratch/eight.records" "$scratch/eight.sigmf-meta"
"$program" random 0.01 20000 1 "$scratch/random.sigmf-data" "$scratch/lines" 2>/dev/null
expect 0 "" sigmf --format lines "$scratch/random.sigmf-data" "$scratch/lines"
"$program" sigmf --delay 7000 "$name.sigmf-data" - "$scratch/late.sigmf-meta" <"$scratch/records"
"$program" sigmf "$name.sigmf-data" /dev/null - >"$scratch/empty.sigmf-meta"
if command -v python3 >/dev/null; then
    checked() { python3 "$scratch/check.py" "$@" >"$scratch/printed"; }
    holds_sigmf "a scenario's" checked "$name.sigmf-meta" "$name.sigmf-data" 8000000
    holds_sigmf "two annotations in order" cmp "$scratch/printed" \
        <(printf '%s\n' "789 0 984 8d4840d6202cc371c32ce0576098 90" "2389 6 189 0f40 80.5")
    holds_sigmf "at 8 samples per pulse, with a text that wants escapes" checked "$scratch/eight.sigmf-meta" "$scratch/eight.cf32" 16000000
    holds_sigmf "a random run's" checked "$scratch/random.sigmf-meta" "$scratch/random.sigmf-data" 8000000
    holds_sigmf "an annotation for each line, by first samples" cmp "$scratch/printed" \
        <(sort -sn "$scratch/lines" | awk '{ sub(/\.0$/, "", $5); print $1, $2, $3, $6, $5 }')
    holds_sigmf "a delayed feed's" checked "$scratch/late.sigmf-meta" "$name.sigmf-data" 8000000
    holds_sigmf "what is behind its end is cut off" cmp "$scratch/printed" \
        <(echo "7789 0 211 8d4840d6202cc371c32ce0576098 90")
    holds_sigmf "no records" checked "$scratch/empty.sigmf-meta" "$name.sigmf-data" 8000000
fi
# The sum at the ends of blocks of 128 bytes: one byte more than 111, 112, 119, 120, 127 and 128 does not fit as they do.
for length in 0 104 112 120 128 232 240 248 256; do
    head -c $length "$name.sigmf-data" >"$scratch/part"
    holds_sigmf "the sum of $length bytes" grep -q "\"$(sha512sum <"$scratch/part" | cut -d' ' -f1)\"" \
        <("$program" sigmf "$scratch/part" /dev/null -)
done
expect 2 "does not end in .sigmf-data: META must be given" sigmf "$scratch/part" "$scratch/records"
expect 2 "--format is records or lines, and not csv" sigmf --format csv "$name.sigmf-data" "$scratch/records"
expect 2 "an argument is missing" sigmf "$name.sigmf-data"
expect 2 "are one file" sigmf "$scratch/part" "$scratch/records" "$scratch/part"
expect 2 "are one file" sigmf "$scratch/part" "$scratch/records" "$scratch/records"
expect 1 "refused 15" sigmf --samples-per-pulse 5 "$name.sigmf-data" "$scratch/records"
expect 1 "refused 9" sigmf "$name.sigmf-data" <(head -c 67 "$scratch/records") "$scratch/none"
expect 1 "lines: refused 9" sigmf "$name.sigmf-data" "$scratch/lines" "$scratch/none"
expect 1 "line 1: it is no line of \`more1090 random\`" sigmf --format lines "$name.sigmf-data" <(echo 1 2 3) "$scratch/none"
head -c 16000 "$name.sigmf-data" >"$scratch/short.sigmf-data"
expect 1 "records: record 1 is not within the 2000 samples" sigmf "$scratch/short.sigmf-data" "$scratch/records"
head -c 16001 "$name.sigmf-data" >"$scratch/odd.sigmf-data"
expect 1 "its length is no multiple of 8 bytes" sigmf "$scratch/odd.sigmf-data" "$scratch/records"
expect 3 "No such file" sigmf "$scratch/nothing.sigmf-data" "$scratch/records"
holds_sigmf "what is refused leaves no file" [ -z "$(ls "$scratch" | grep -E 'none|short.sigmf-meta|odd.sigmf-meta')" ]
