# To be sourced. `start_postgres FOLDER BINARIES [LIBRARY]` starts a separate PostgreSQL server in a folder, which
# can't be reached from elsewhere, with a library before its own if one is given; its process is then `server`, and the
# folder FOLDER/server is that of its socket. It doesn't run as root.
start_postgres() {
    mkdir "$1/server"
    local as=()
    if [ "$(id -u)" = 0 ]; then
        chown postgres "$1/server"
        as=(setpriv --reuid postgres --regid postgres --clear-groups)
    fi
    export PGUSER=postgres
    "${as[@]}" "$2/initdb" -D "$1/server/data" -U postgres -A trust --locale=C -E UTF8 > "$1/log"
    LD_PRELOAD="${3:-}" "${as[@]}" "$2/postgres" -D "$1/server/data" -k "$1/server" -c listen_addresses= \
        -c shared_buffers=16MB > "$1/log" 2>&1 &
    server=$!
    for _ in $(seq 100); do
        "$2/pg_isready" -q -h "$1/server" && return
        sleep 0.1
    done
    cat "$1/log"
    exit 1
}
