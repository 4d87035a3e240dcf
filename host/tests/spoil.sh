#!/usr/bin/env bash
# spoil.sh LIBRARY [all]: header.c must notice any change of ts11.h. Compiles and runs it against copies of the header
# with one thing spoiled in each (spoils.py); every one must fail to compile or make the program exit with 1.
# CC is the compiler with its options (gcc), RUN what runs a program, such as an emulator (nothing).
set -eu

tests=$(cd "$(dirname "$0")" && pwd)
header=$tests/../include/ts11.h
library=${1:?usage: spoil.sh LIBRARY [all]}

# One directory with a ts11.h: prints how it went.
try() {
	local directory=$1 status=0
	if ! ${CC:-gcc} -std=c11 -O0 -Wall -Wextra -Werror -DSTOP_AT_FIRST -I"$directory" "$tests/header.c" "$library" \
		-o "$directory/header" >"$directory/out" 2>&1; then
		echo compile
		return
	fi
	timeout 60 ${RUN:-} "$directory/header" >"$directory/out" 2>&1 || status=$?
	echo "$status"
}

# A spoiled header is noticed if it does not compile, or if the program runs to its end and exits with 1.
judge() {
	local directory=$1 how
	how=$(try "$directory")
	rm -f "$directory/header" "$directory/ts11.h"
	case $how in
	compile | 1) echo "$how" >"$directory/noticed" ;;
	*) echo "not noticed (exit status $how): $(cat "$directory/what")" ;;
	esac
}

if [ "${2:-}" = --judge ]; then
	judge "$3"
	exit
fi

work=$(mktemp -d)
trap 'rm -rf "$work"' EXIT

# Every constant is one that the tests use.
missing=0
for name in $(sed -nE 's/^#define (TS11_[A-Za-z0-9_]+)[ (].*/\1/p' "$header"); do
	if ! grep -qw "$name" "$tests/header.c" "$tests/limits.c"; then
		echo "no test uses $name"
		missing=$((missing + 1))
	fi
done

# The header as it stands is no spoiled one.
mkdir "$work/whole" "$work/spoiled"
cp "$header" "$work/whole/ts11.h"
how=$(try "$work/whole")
if [ "$how" != 0 ]; then
	cat "$work/whole/out"
	echo "spoil: the header as it stands fails ($how)"
	exit 1
fi

python3 "$tests/spoils.py" "$header" "$work/spoiled" "${2:-}"
find "$work/spoiled" -mindepth 1 -maxdepth 1 | sort |
	xargs -P 2 -I {} bash "$tests/spoil.sh" "$library" --judge {} >"$work/unnoticed"

count=$(find "$work/spoiled" -name what | wc -l)
noticed=$(find "$work/spoiled" -name noticed | wc -l)
compiled=$(cat "$work"/spoiled/*/noticed | grep -c compile || true)
sort "$work/unnoticed"
if [ "$noticed" != "$count" ] || [ "$missing" != 0 ]; then
	echo "spoil: $count spoiled headers, $((count - noticed)) NOT noticed, $missing names not used"
	exit 1
fi
echo "spoil: $count spoiled headers, all noticed ($compiled by the compiler, $((count - compiled)) by the program)"
