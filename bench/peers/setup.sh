#!/usr/bin/env bash
# Installs, starts and stops the database systems that bench/peers/run.py measures beside psm.
#
#     bench/peers/setup.sh install | start | stop | status
#
# `install` takes Debian's packages and starts none of their services. What is installed already stays as it is.
# `start` starts PostgreSQL and MariaDB on Unix sockets, with new data, and compiles what stands for HSQLDB and SQLite.
# Firebird and HSQLDB run inside the process that measures them. A system that is not installed is left out.
# `stop` ends the servers that `start` started, and no other, and removes their data. `status` says which of them run.
#
# All data, sockets and logs are below $PSM_PEERS, or else psm-peers in the folder of temporary files.
set -u
here=$(cd "$(dirname "$0")" && pwd)
data=${PSM_PEERS:-${TMPDIR:-/tmp}/psm-peers}
packages=(postgresql mariadb-server-core mariadb-client-core firebird3.0-server-core firebird3.0-utils
    default-jdk-headless libhsqldb-java gcc libc6-dev libsqlite3-dev)
hsqldb=/usr/share/java/hsqldb.jar

say() { printf 'setup: %s\n' "$*" >&2; }

# PostgreSQL refuses to run as root, so its files and its processes are those of the user postgres then.
as_postgres=()
[ "$(id -u)" -ne 0 ] || as_postgres=(setpriv --reuid=postgres --regid=postgres --init-groups)

# The folder of PostgreSQL's programs, of the newest version if there are several.
postgresql_programs() { printf '%s\n' /usr/lib/postgresql/*/bin | sort -V | tail -n 1; }

# Whether the server of this name, which `start` started, still runs.
runs() {
    local id
    id=$(cat "$data/$1.pid" 2>/dev/null) || return 1
    grep -qsF "$data/$1" "/proc/$id/cmdline"
}

# Waits until a command succeeds, for a minute at most.
wait_for() {
    local tries
    for ((tries = 0; tries < 120; tries++)); do
        "$@" >/dev/null 2>&1 && return
        sleep 0.5
    done
    return 1
}

install_packages() {
    local policy=/usr/sbin/policy-rc.d
    if [ ! -e "$policy" ]; then
        # With this file no package starts its service.
        trap 'rm -f "$policy"' EXIT
        printf '#!/bin/sh\nexit 101\n' >"$policy"
        chmod +x "$policy"
    fi
    apt-get update
    DEBIAN_FRONTEND=noninteractive apt-get install -y --no-upgrade --no-install-recommends "${packages[@]}"
}

# Makes the folder of the data, unless it is there. What someone else made is left alone, since `start` removes old data.
make_folder() {
    if [ -n "$(ls -A "$data" 2>/dev/null)" ] && [ ! -e "$data/of-bench-peers" ]; then
        say "$data holds what is not of bench/peers"
        exit 1
    fi
    mkdir -p "$data" && chmod 755 "$data" && touch "$data/of-bench-peers" || exit 1
}

start_postgresql() {
    local programs server=$data/postgresql
    programs=$(postgresql_programs)
    [ -x "$programs/postgres" ] || { say 'PostgreSQL is not installed'; return; }
    runs postgresql && return
    rm -rf "$server"
    mkdir -p "$server/socket"
    [ "$(id -u)" -ne 0 ] || chown -R postgres: "$server"
    "${as_postgres[@]}" "$programs/initdb" -D "$server/data" -A trust -U postgres --locale=C -E UTF8 --no-sync >"$data/postgresql.log" 2>&1
    setsid "${as_postgres[@]}" "$programs/postgres" -D "$server/data" -k "$server/socket" -p 5432 -c listen_addresses= -c fsync=off \
        -c synchronous_commit=off -c full_page_writes=off -c shared_buffers=512MB -c temp_buffers=256MB \
        >>"$data/postgresql.log" 2>&1 </dev/null &
    echo $! >"$data/postgresql.pid"
    wait_for psql -X -h "$server/socket" -p 5432 -U postgres -d postgres -c '' || say "PostgreSQL did not start: see $data/postgresql.log"
}

start_mariadb() {
    local server=$data/mariadb options
    command -v mariadbd >/dev/null || { say 'MariaDB is not installed'; return; }
    runs mariadb && return
    rm -rf "$server"
    mkdir -p "$server"
    options=(--no-defaults "--user=$(id -un)" "--datadir=$server/data")
    mariadb-install-db "${options[@]}" --auth-root-authentication-method=normal --skip-test-db >"$data/mariadb.log" 2>&1
    setsid mariadbd "${options[@]}" --socket="$server/socket" --pid-file="$server/pid" --skip-networking --skip-log-bin \
        --innodb-buffer-pool-size=512M --innodb-flush-log-at-trx-commit=0 --max-heap-table-size=512M \
        >>"$data/mariadb.log" 2>&1 </dev/null &
    echo $! >"$data/mariadb.pid"
    wait_for mariadb --no-defaults -S "$server/socket" -u root -e 'SELECT 1' ||
        say "MariaDB did not start: see $data/mariadb.log"
}

compile() {
    if command -v javac >/dev/null && [ -f "$hsqldb" ]; then
        mkdir -p "$data/hsqldb"
        javac -d "$data/hsqldb" "$here/Bench.java" || say 'Bench.java does not compile'
    else
        say 'HSQLDB or a Java compiler is not installed'
    fi
    gcc -O2 -Wall -o "$data/sqlite" "$here/sqlite.c" -lsqlite3 || say 'sqlite.c does not compile, or gcc or SQLite is not installed'
    command -v isql-fb >/dev/null || say 'Firebird is not installed'
}

stop() {
    local name id
    for name in postgresql mariadb; do
        runs "$name" || continue
        id=$(cat "$data/$name.pid")
        # PostgreSQL ends at once at SIGINT, and MariaDB at SIGTERM.
        if [ "$name" = postgresql ]; then kill -INT "$id"; else kill -TERM "$id"; fi
        if wait_for gone "$id"; then rm -rf "${data:?}/$name"; else say "$name, process $id, does not end"; fi
    done
}

gone() { ! kill -0 "$1"; }

case ${1-} in
    install) install_packages ;;
    start)
        make_folder
        compile
        start_postgresql
        start_mariadb
        ;;
    stop) stop ;;
    status) for name in postgresql mariadb; do runs "$name" && echo "$name runs" || echo "$name does not run"; done ;;
    *)
        sed -n '2,/^set -u/p' "$0" | sed -e '/^set -u/d' -e 's/^# \{0,1\}//' >&2
        exit 1
        ;;
esac
