#!/usr/bin/env bash
# The store of named desks on SQLite: transactions that are ended at any point, a full disk, many at once, the service. On PostgreSQL:
# tests/postgres.sh. Usage, after `make`: tests/stored.sh
set -u
cd "$(dirname "$0")/.." || exit 2
. tests/trials.sh || exit 2
build_tool
CC=gcc sh tools/shared.sh || bad "tools/shared.sh"
mkdir "$work/store" && WORK=$work python3 tests/saved/store.py "$work/store" ${PARTS:-} || exit 1
