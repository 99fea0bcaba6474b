#!/bin/sh
# Gives hostile inputs to a built program: texts that are refused with a line that is known, each prefix of good inputs, and good inputs with
# bytes changed, by a seed. It names each call that crashes, hangs, ends with a status or a line that docs/COMMANDS.md does not have,
# creates something after a refusal, or in which two commands that have to agree do not; and ends with how many calls had which status.
# Each call has 4 MiB of stack, 4 GB of memory and 20 seconds.
# usage: tests/hostile.sh PROGRAM [SECONDS] [SEED]      SECONDS of changed bytes, 60 by default
. "$(dirname -- "$0")/lib.sh" && program=$(whole "$1") || exit 2
in_folder
ulimit -S -s 4096 && ulimit -S -v "${DK_MEMORY-4000000}" || exit 2
python3 "$tests/hostile.py" "$program" "${2-60}" "${3-1}"
