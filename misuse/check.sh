#!/usr/bin/env bash
# Misuses of the row writer must not compile, and the uses that resemble them must.
# Each NAME.edit names the error that the compiler has to give ('none': it compiles) and, behind its line 'append:',
# a function that is put behind the writer's own. The writer is compiled with it, on a copy in a new folder; nothing is proved.
set -euo pipefail
here=$(cd "$(dirname "$0")" && pwd)
root=$(dirname "$here")
work=$(mktemp -d)
trap 'rm -rf "$work"' EXIT
bad=0

mkdir "$work/crates"
printf 'pixel:\npicture: pixel\nwriter: pixel picture\n' > "$work/crates.txt"
for crate in pixel picture writer; do
    mkdir "$work/crates/$crate"
    cp -R "$root/crates/$crate/src" "$root/crates/$crate/specs" "$root/crates/$crate/proofs" "$work/crates/$crate/"
done

for edit in "$here"/*.edit; do
    name=$(basename "$edit" .edit)
    code=$(sed -n 's/^error: //p' "$edit")
    {
        cat "$root/crates/writer/src/rows.rt"
        sed '1,/^append:$/d' "$edit"
        # the compiler is reached by the way of a test, which is run and never proved here
        printf '\n#[cfg(test)]\nmod tests {\n    #[test]\n    fn compiled() {}\n}\n'
    } > "$work/crates/writer/src/rows.rt"
    said=$(cd "$work/crates/writer" && rt try --test 2>&1 || true)
    told=$(printf '%s\n' "$said" | sed -n 's/.*error\[\([^]]*\)\].*/\1/p' | sort -u)
    if [ -z "$told" ] && ! printf '%s\n' "$said" | grep -q 'compiled \.\.\. ok'; then told="no answer"; fi
    if [ "${told:-none}" = "$code" ]; then
        echo "$name: $code, as it must be"
    else
        echo "$name: ${told:-none} in place of $code"
        printf '%s\n' "$said" | tail -5
        bad=1
    fi
done
exit $bad
