#!/usr/bin/env bash
# The store of named desks on PostgreSQL: the trials of tests/stored.sh, and a server that is ended at once while calls are made.
# Installs the server and psycopg from the distribution if they aren't there and it may, starts a server of its own on loopback in a
# folder of its own, and stops it in the end. Not run by ./test.
# Usage, after `make`: tests/postgres.sh
set -u
cd "$(dirname "$0")/.." || exit 2
. tests/trials.sh || exit 2
base=$(mktemp -d) && chmod 755 "$base" || exit 2
trap 'stop; rm -rf "$work" "$base"' EXIT
export DEBIAN_FRONTEND=noninteractive

# The newest server's programs.
programs() {
  ls -d /usr/lib/postgresql/*/bin 2>/dev/null | sort -V | tail -n 1
}

# A python3 that has psycopg or psycopg2.
python() {
  local one
  for one in python3 /usr/bin/python3; do
    "$one" -c 'import psycopg' 2>/dev/null || "$one" -c 'import psycopg2' 2>/dev/null || continue
    echo "$one" && return
  done
  return 1
}

as_owner() {
  if [ "$(id -u)" -eq 0 ]; then runuser -u postgres -- "$@"; else "$@"; fi
}

server() {
  as_owner "$bin/pg_ctl" -D "$base/data" -s -w "$@" </dev/null >>"$base/log" 2>&1 9>&-
}

stop() {
  [ -z "${started:-}" ] || server -m fast stop
}

# Without a server of its own: the package would start one too.
install_server() {
  mkdir -p /etc/postgresql-common/createcluster.d &&
    echo 'create_main_cluster = false' >/etc/postgresql-common/createcluster.d/no-main.conf &&
    fetched postgresql
}

# fetched PACKAGE: installs it.
fetched() {
  { apt-get install -y "$1" || { apt-get update && apt-get install -y "$1"; }; } >&2
}

[ -n "$(programs)" ] || install_server || bad "there is no PostgreSQL, and apt-get can't install it"
python >/dev/null || fetched python3-psycopg || fetched python3-psycopg2 || bad "there is no psycopg, and apt-get can't install it"
bin=$(programs) && python=$(python) || bad "no PostgreSQL or no psycopg"
build_tool
CC=gcc sh tools/shared.sh || bad "tools/shared.sh"
port=$(python3 -c 'import socket; s = socket.socket(); s.bind(("127.0.0.1", 0)); print(s.getsockname()[1])')
od -An -N12 -tx1 /dev/urandom | tr -d ' \n' >"$base/word"
[ "$(id -u)" -ne 0 ] || chown -R postgres "$base" || exit 2
: >>"$base/log"
as_owner "$bin/initdb" -D "$base/data" -A scram-sha-256 -U desk --pwfile="$base/word" >>"$base/log" 2>&1 || bad "initdb: $(tail -n 3 "$base/log")"
options="-p $port -c listen_addresses=127.0.0.1 -c unix_socket_directories=$base"
server -o "$options" start || bad "the server doesn't start: $(tail -n 3 "$base/log")"
started=1
control="$([ "$(id -u)" -ne 0 ] || echo runuser -u postgres --) $bin/pg_ctl -D $base/data -s -w"
export RESTART="exec </dev/null >>$base/log 2>&1; $control -m immediate stop; $control -o '$options' start"
WORK=$work "$python" tests/saved/store.py "postgresql://desk:$(cat "$base/word")@127.0.0.1:$port/postgres" ${PARTS:-} || exit 1
