# `more1090 heard`
zeros() { head -c "$1" /dev/zero; }
# a record of type 2 (7 bytes): first sample below 256, last byte of its message
record() { zeros 40; printf "\\x$1"; zeros 7; printf '\x02\x00\x00\x07'; zeros 6; printf "\\x$2"; zeros 7; }
# an entry: sample below 256, last byte of its message
entry() { printf "\\x$1"; zeros 7; printf '\x07'; zeros 6; printf "\\x$2"; zeros 7; }
(record 0a 01; record 05 01; record 20 02) >"$scratch/records"
(entry 05 01; entry 0a 01; entry 30 03) >"$scratch/log"
expect 0 "pairs 2
unheard 1
unsent 1

unheard: record, first sample, type, message
         2               32 2 00000000000002

unsent: entry, sample, message
         2               48   00000000000003" heard "$scratch/log" "$scratch/records" 5
expect 0 "pairs 0
unheard 0
unsent 0" heard /dev/null /dev/null 0
# Mode A/C: high byte first, and its squawk.
{ zeros 40; printf '\12'; zeros 7; printf '\6\0\0\2\0\16'; zeros 12; } >"$scratch/mode-a"
expect 0 "pairs 0
unheard 1
unsent 1

unheard: record, first sample, type, message
         0               10 6 0e00 7000

unsent: entry, sample, message
         0               10   1280 1200" heard <(printf '@00000000000F1280;\n') "$scratch/mode-a" any --format avr
# 15 ticks are 10 samples, 48 ticks are 32; the second line has the first one's sample
printf '@00000000000F00000000000001;\r\n*00000000000001;\n\n@00000000003000000000000002;\n' >"$scratch/avr"
expect 0 "pairs 3
unheard 0
unsent 0" heard "$scratch/avr" "$scratch/records" 5 --format avr
expect 0 "pairs 1
unheard 2
unsent 2

unheard: record, first sample, type, message
         1                5 2 00000000000001
         2               32 2 00000000000002

unsent: entry, sample, message
         1               30   00000000000001
         2               96   00000000000002" heard "$scratch/avr" "$scratch/records" 20 --format avr --rate 24000000
(entry 0a 01; entry 05 01) >"$scratch/falling"
expect 1 "$scratch/falling: refused 16: the log is out of order" heard "$scratch/falling" "$scratch/records" 5
expect 1 "refused 18: record 1" heard "$scratch/log" <(record 0a 01; record 05 01 | tr '\002' '\007'; record 20 02) 5
expect 1 "$scratch/log: refused 9: no whole number of records, 66 bytes each" heard "$scratch/log" "$scratch/log" 5
expect 1 "$scratch/records: refused 9: no whole number of entries, 23 bytes each" heard "$scratch/records" "$scratch/records" 5
expect 1 ": line 1: a message has 2, 7 or 14 bytes" heard <(echo '*8D4840;') "$scratch/records" 5 --format avr
expect 1 ": line 2: no \`;\`" heard <(printf '*0102;\n*0102\n') "$scratch/records" 5 --format avr
expect 1 "no timestamp of 12 hexadecimal digits" heard <(echo '@+0000000000F0102;') "$scratch/records" 5 --format avr
expect 1 "a timestamp before --start" heard "$scratch/avr" "$scratch/records" 5 --format avr --start 16
expect 2 "TOLERANCE: -1 is no number" heard "$scratch/log" "$scratch/records" -1
expect 2 "an argument is missing" heard "$scratch/log" "$scratch/records"
expect 2 "--format is entries or avr" heard "$scratch/log" "$scratch/records" 5 --format hex
expect 2 "cannot both be standard input" heard - - 5
expect 3 "no such" heard "$scratch/no such" "$scratch/records" 5
