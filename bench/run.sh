#!/bin/sh
# Places a bench into a copy of this checkout as one more program, builds it there, proved, and measures it.
# A bench is a folder: below.txt has the crates that it stands on, src/, specs/ and proofs/ its sources, each name with .txt
# behind it, and measure.sh, where it is there, is run with the built program; otherwise the program is run three times.
# The copy has what is committed, and is made anew each time. A crate that was proved on this machine is not proved again.
# usage: bench/run.sh NAME [COPY]
name=$1
here=$(CDPATH='' cd -- "$(dirname -- "$0")" && pwd)
[ -f "$here/$name/below.txt" ] || {
    echo "bench: no bench $name; there are: $(CDPATH='' cd -- "$here" && ls -d */ | tr -d / | tr '\n' ' ')" >&2
    exit 2
}
copy=${2-$(mktemp -d)}/dk
crate=${name}_speed
git clone -q "$here/.." "$copy" || exit 2
find "$here/$name" -name '*.txt' ! -name below.txt | while read -r file; do
    to=$copy/crates/$crate/${file#"$here/$name/"}
    mkdir -p "$(dirname -- "$to")"
    cp "$file" "${to%.txt}"
done
echo "$crate: $(cat "$here/$name/below.txt")" >>"$copy/crates.txt"
CDPATH='' cd -- "$copy/crates/$crate" || exit 2
rt run </dev/null >/dev/null || exit 1
if [ -f "$here/$name/measure.sh" ]; then
    exec sh "$here/$name/measure.sh" "$copy/crates/$crate/out/$crate"
fi
for _ in 1 2 3; do
    /usr/bin/time -f '%U + %S s %M KB' "out/$crate"
done
