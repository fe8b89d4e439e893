# `more1090 level`
expect 0 "level 31.5 dB
amplitude 0.000018351435
bits 3799f168" level 31.5
expect 0 "$("$program" level 31.5)" level 315
expect 0 "$("$program" level 0.7)" level 7
expect 0 "level 0.0 dB
amplitude 0.0000004882813
bits 3503126f" level 0
expect 0 "level 200.0 dB
amplitude 4882.8125
bits 45989680" level 200.0
expect 0 "$("$program" level 200.0)" level 2000
expect 1 "refused 13: a level above 200.0 dB" level 2001
expect 1 "refused 13" level 200.1
expect 1 "refused 13" level 65536
expect 1 "refused 13" level 4294967296
expect 1 "refused 13" level 18446744073709551616
expect 2 "31.55 is no level" level 31.55
expect 2 "no level" level 31.
expect 2 "no level" level .5
expect 2 "no level" level -1
expect 2 "no level" level 1e2
expect 2 "an argument is missing" level
expect 2 "one argument too many" level 1 2
