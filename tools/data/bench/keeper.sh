#!/bin/sh
# Keeps the program's module, and compiles only the small one that tries the compiler.
for word in "$@"; do
    case "$word" in *.bc) if [ "$(wc -c <"$word")" -gt 5000 ]; then cp "$word" %s; exit 1; fi ;; esac
done
exec %s "$@"
