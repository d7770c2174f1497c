# Sourced. unittests FOLDER runs its Python tests; the last line says 'N passed, M failed', and the status is 0 where none failed.
unittests() {
    python3 -B -m unittest discover -s "$1" -p 'test_*.py' 2>&1 | awk '
        /^\.*$/ || /^OK$/ { next }
        { print }
        /^Ran [0-9]+ test/ { ran = $2 }
        /^FAILED/ { n = split($0, words, /[^0-9]+/); for (k = 1; k <= n; k++) failed += words[k] }
        END { if (ran == 0) failed = 1; print (ran ? ran - failed : 0) " passed, " failed + 0 " failed"; exit failed > 0 }'
    [ "${PIPESTATUS[*]}" = '0 0' ]
}
