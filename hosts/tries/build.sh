# hosts/build: a missing compiler is found before anything is proved. Of the tools it looks for, only the name is there.
mkdir "$scratch/tools"
for tool in bash dirname; do ln -s "$(command -v $tool)" "$scratch/tools"; done
for tool in rt cc objcopy; do
    printf '#!/bin/sh\nexit 9\n' >"$scratch/tools/$tool"
    chmod +x "$scratch/tools/$tool"
done
PATH=$scratch/tools hosts/build >"$scratch/out" 2>"$scratch/err"
ended=$?
tried=$((tried + 1))
if [ $ended != 2 ] || ! grep -qx "hosts/build: rustc is not on this machine" "$scratch/err"; then
    failed=$((failed + 1))
    echo "hosts/build without rustc: status $ended for 2"
    cat "$scratch/err"
fi
