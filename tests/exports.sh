#!/usr/bin/env bash
# The calls of the library by their names in C, sorted, one a line: what tests/c/services.def lists and the archive must define.
set -eu -o pipefail
cd "$(dirname "$0")/.."
gcc -E -P -x c -D'SERVICE(stream, service, call, ...)=lembikat_##call' tests/c/services.def | grep . | sort
