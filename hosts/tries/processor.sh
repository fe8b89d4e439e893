# The library is compiled for x86-64-v2 and for x86-64-v3 (interface/calls.c): the commands linked with the first alone write the same
# bytes as the commands under test, which take the second where the processor has AVX2.
v2=$PWD/target/hosts/more1090-v2
alike() { # COMMAND WORD..: both write the same to standard output and to the files of their folder
    local which
    for which in "$program" "$v2"; do
        rm -rf "$scratch/files"
        mkdir "$scratch/files"
        (cd "$scratch/files" && "$which" "$@" >printed 2>/dev/null && sha256sum -- *) >"$scratch/$(basename "$which")" || return 1
    done
    cmp -s "$scratch/$(basename "$program")" "$scratch/$(basename "$v2")"
}
same() { # WORD..
    tried=$((tried + 1))
    if ! alike "$@"; then
        failed=$((failed + 1))
        echo "more1090 $*: not alike for x86-64-v2 and for the processor at hand, or refused"
    fi
}
for per_pulse in 4 8; do
    same random --samples-per-pulse $per_pulse 0.5 4000 $per_pulse samples records
    same random --samples-per-pulse $per_pulse --trigger-level 0.3 0.02 1000000 3 samples records
    same rack --samples-per-pulse $per_pulse 0.05 40000 0:1:a 3:0.7:b 4095:0.25:c
done
# The one that is chosen is the one for the processor at hand, by the features that the system lists.
wanted=x86-64-v3
for feature in avx avx2 bmi1 bmi2 f16c fma movbe abm; do
    if ! grep -m 1 '^flags' /proc/cpuinfo | grep -qw $feature; then wanted=x86-64-v2; fi
done
tried=$((tried + 1))
if [ "$(target/hosts/c_processor)" != $wanted ]; then
    failed=$((failed + 1))
    echo "the library's calls reach the code for $(target/hosts/c_processor), and the processor's is $wanted"
fi
