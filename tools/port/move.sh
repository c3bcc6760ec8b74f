#!/bin/sh
# Run once at the top of a clean checkout of ee67f99: the repository in today's spelling. Commits nothing.
set -e
here=$(cd "$(dirname "$0")" && pwd)
[ -z "$(git status --porcelain)" ] || { echo "commit first"; exit 1; }
python3 "$(dirname "$(rt doc)")/port/port.py"
printf 'target/\n/crates/*/out/\n__pycache__/\n' > .gitignore
python3 "$here/settle.py"
for crate in crates/*/; do (cd "$crate" && rt fmt > /dev/null 2>&1 || true); done
python3 "$here/respell.py" . > respell.log 2>&1; tail -n 1 respell.log; rm respell.log
python3 "$here/edits.py" put .
git status --short | wc -l
