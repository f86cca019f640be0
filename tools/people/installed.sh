#!/usr/bin/env bash
# @NAME@ as `make install` put it here: the program itself, and what stands beside it, are in libexec/rachonpas.
set -euo pipefail

at=$(dirname "$(dirname "$(realpath "${BASH_SOURCE[0]}")")")/libexec/rachonpas
export PLIR_PROGRAM=$at/plir
case @NAME@:${1-} in
plir:reduce | plir:report) exec python3 "$at/people/$1.py" "${@:2}" ;;
plir:bisect) exec python3 "$at/people/first_run.py" "${@:2}" ;;
plir:test) exec python3 "$at/people/check_lines.py" "${@:2}" ;;
esac
exec "$at/run_program" --at "$at/@NAME@" @BUILT@ @NAME@ "$@"
