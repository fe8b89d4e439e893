# `more1090 message`
expect 0 "class 1, acquisition squitter
parity 000000
interrogator II 0" message 58000000e0ef0d
expect 0 "class 7, TIS-B
parity 4441c8" message 9200000000000000000000000000
expect 2 "7 or 14 bytes, or 2 of Mode A/C, and not 3" message 123456
expect 2 "hexadecimal" message 5z
expect 2 "an argument is missing" message
expect 2 "one argument too many" message 58000000e0ef0d 00
expect 2 "there is no option --all" message --all
# Mode A/C as records are printed: high byte first, with its squawk.
expect 0 "Mode A/C, squawk 7000" message 0e00
expect 0 "Mode A/C, squawk 1234, SPI" message 129c
expect 0 "Mode A/C, squawk 7777, SPI" message 1fff
expect 2 "2000: a Mode A/C reply is 1fff at most" message 2000
expect 0 "more1090 $(cat VERSION)" message --version
