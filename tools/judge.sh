#!/bin/sh
# Judges files that nobody has looked at, for a board and what it clips, within limits of time and memory:
#   judge.sh check ROM CERT FRAME     the certificate is one by make --board
#   judge.sh frames ROM FRAME..       the ROM lies at 800 to BFF
# docs/TOOLS.md is its page. It is unproved; it needs `dvgcheck` on the PATH, and timeout.
command=${1:-}
case $command in
  check | frames) shift ;;
  *) echo 'judge.sh: give check ROM CERT FRAME, or frames ROM FRAME..' >&2; exit 2 ;;
esac
for file in "$@"; do
  [ -f "$file" ] && [ "$file" != - ] || { echo "judge.sh: not a regular file: $file" >&2; exit 3; }
done
trap '' XFSZ
ulimit -v 65536
exec timeout 60 dvgcheck "$command" --board --clip -- "$@"
