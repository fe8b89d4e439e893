# python/more1090: its tests, what is installed of it, and what its README shows, over an installed tree.
pythonic() { # WHAT COMMAND..: the command ends well
    local what=$1
    shift
    tried=$((tried + 1))
    if ! "$@" >"$scratch/out" 2>&1; then
        failed=$((failed + 1))
        echo "python: $what: not so"
        cat "$scratch/out"
    fi
}
blocks() { # KIND: the blocks of this kind of python/README.md
    sed -n "/^\`\`\`$1\$/,/^\`\`\`\$/{/^\`\`\`/d;p}" python/README.md
}
if ! python3 -c 'import sys; sys.exit(sys.version_info < (3, 8))' 2>/dev/null; then
    echo "python: no Python 3.8 or later on this machine: its module is not tried"
else
    tools/install "$scratch/prefix"
    installed_module=$scratch/prefix/share/more1090/python
    # No library but that of the tree, however this shell is set.
    alone() { env -u MORE1090_LIBRARY -u LD_LIBRARY_PATH PYTHONDONTWRITEBYTECODE=1 "$@"; }
    pythonic "its tests" alone env MORE1090_LIBRARY="$scratch/prefix/lib/libmore1090.so" \
        sh -c "cd python && python3 -W error -m unittest discover -v -t . -s tests"
    sed -n "s/.*skipped '\(.*\)'/python: \1/p" "$scratch/out" | sort -u
    pythonic "the installed module finds its library, and does what README shows" \
        alone env PYTHONPATH="$installed_module" python3 - < <(blocks python)
    cp "$scratch/out" "$scratch/shown"
    pythonic "README shows what is printed" diff <(blocks text) "$scratch/shown"
    mkdir "$scratch/packages"
    if python3 -m pip --version >/dev/null 2>&1; then
        pythonic "pip install" alone env PIP_DISABLE_PIP_VERSION_CHECK=1 \
            python3 -m pip install --quiet --no-index --target "$scratch/packages" "$installed_module"
        pythonic "what pip installed finds its library" alone env PYTHONPATH="$scratch/packages" \
            python3 -c "import more1090; assert more1090.__file__.startswith('$scratch/packages') and more1090.level(0) > 0"
    fi
    # A wheel, without pip: the same files make the same bytes.
    for folder in one other; do
        mkdir "$scratch/$folder"
        pythonic "a wheel" alone python3 -c "import sys; sys.path.insert(0, '$installed_module')
import backend; backend.build_wheel('$scratch/$folder'); backend.build_sdist('$scratch/$folder')"
    done
    pythonic "the same wheel and the same sources" diff -r "$scratch/one" "$scratch/other"
    # examples/gnuradio: a pipe that is read while it is written.
    mkfifo "$scratch/pipe"
    cat "$scratch/pipe" >"$scratch/read" &
    pythonic "random into a pipe" "$program" random 0.01 4000 1 "$scratch/pipe"
    wait $!
    pythonic "random into a file" "$program" random 0.01 4000 1 "$scratch/file"
    pythonic "a pipe has the samples of a file" cmp "$scratch/read" "$scratch/file"
fi
