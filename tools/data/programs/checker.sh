#!/bin/sh
printf '%s\n' "$PWD" "$@" > "$0.asked"
cat "$0.output"
cat "$0.error" >&2
exit "$(cat "$0.status")"
