# `more1090 pages`: a record of Mode A/C on paper, an empty file, records at fault and of a wrong length
{
    head -c 40 /dev/zero
    printf '\227\0\0\0\0\0\0\0\6\275\0\2\0\16'
    head -c 12 /dev/zero
} >"$scratch/record"
blank=$(printf '%72s' '')
page=$(printf '%-72s' '             151 6  189 0e00'; for _ in $(seq 59); do printf '\n%s' "$blank"; done)
expect 0 "$page" pages "$scratch/record"
expect 0 "" pages "$scratch/record" "$scratch/paper"
[ "$(cat "$scratch/paper")" = "$page" ] || { failed=$((failed + 1)); echo "more1090 pages RECORDS OUT: another page"; }
: >"$scratch/none"
expect 0 "" pages "$scratch/none"
head -c 65 /dev/zero >"$scratch/short"
expect 1 "$scratch/short: refused 9: no whole number of records, 66 bytes each" pages "$scratch/short"
{ cat "$scratch/record"; head -c 66 /dev/zero; } >"$scratch/fault"
expect 1 "refused 18: record 1" pages "$scratch/fault"
expect 3 "none/such" pages "$scratch/none/such"
expect 1 "$scratch/fault: refused 18: record 1" pages "$scratch/fault"
expect 2 "is the file that is read" pages "$scratch/record" "$scratch/record"
expect 2 "an argument is missing" pages
expect 2 "one argument too many" pages a b c
