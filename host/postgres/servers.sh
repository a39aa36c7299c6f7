# For the scripts beside it: PostgreSQL servers in a folder of their own, which are stopped and removed when the script ends, however it ends. They
# are a copy of the installed server's programs with the extension beside its libraries, so that nothing of the system is touched. A script sets
# `name`, calls `servers_begin`, and then `server_make NUMBER`. Nothing listens but a socket in that folder and, if `listen` says so, the loopback
# address; every connection needs the password, which is made anew each time.

say() { printf '%s: %s\n' "$name" "$*"; }
die() { say "$*" >&2; exit 1; }
skip() { printf 'skipped: %s: %s\n' "$name" "$*"; exit 0; }

servers_end() {
    [ -n "${work-}" ] || return 0
    for data in "$work"/data*; do
        [ ! -f "$data/postmaster.pid" ] || as_owner "$bin/pg_ctl" -D "$data" -m immediate -w stop >/dev/null 2>&1
    done
    rm -rf "$work"
}

as_owner() { if [ -n "$owner" ]; then runuser -u "$owner" -- "$@"; else "$@"; fi; }

# Whether the packages are there; if not, says so and ends well.
servers_needed() {
    pg_config=${PG_CONFIG:-pg_config}
    pgxs=$("$pg_config" --pgxs 2>/dev/null) && [ -f "$pgxs" ] || skip "PGXS is missing, of the Debian package postgresql-server-dev-15"
    # Some machines have PGXS and no headers.
    [ -f "$("$pg_config" --includedir-server)/postgres.h" ] || skip "postgres.h is missing, of the Debian package postgresql-server-dev-15"
    system_bin=$("$pg_config" --bindir)
    [ -x "$system_bin/initdb" ] && [ -x "$system_bin/postgres" ] || skip "no server in $system_bin, of the Debian package postgresql-15"
    [ -x "$system_bin/psql" ] || skip "no psql in $system_bin, of the Debian package postgresql-client-15"
    command -v make >/dev/null || skip "make is missing, of the Debian package make"
    # A server does not run as root: then it is the first of these users who is there.
    owner=
    [ "$(id -u)" -ne 0 ] || for user in postgres nobody; do
        if [ -z "$owner" ] && id "$user" >/dev/null 2>&1; then owner=$user; fi
    done
    [ "$(id -u)" -ne 0 ] || [ -n "$owner" ] || skip "no user to run a server as, for root may not: postgres is of the Debian package postgresql-15"
}

servers_begin() {
    servers_needed
    host/postgres/build >/dev/null || exit 1
    work=$(mktemp -d) || exit 1
    trap servers_end EXIT
    trap 'exit 1' HUP INT TERM
    bin=$work/root$system_bin
    make -s -C target/postgres install "DESTDIR=$work/root" >"$work/log" 2>&1 || { cat "$work/log" >&2; die "the extension does not install"; }
    mkdir -p "$bin" || exit 1
    # The programs are copies, since a server looks for its files from where its program lies; the files are links.
    cp "$system_bin/postgres" "$system_bin/initdb" "$system_bin/pg_ctl" "$bin" || exit 1
    for folder in "$("$pg_config" --pkglibdir)" "$("$pg_config" --sharedir)" "$("$pg_config" --sharedir)/extension"; do
        # What the extension has put there stays, and ln says so.
        mkdir -p "$work/root$folder" && { ln -s "$folder"/* "$work/root$folder" 2>/dev/null || :; }
    done
    PGUSER=store PGHOST=$work PGDATABASE=postgres PGPASSWORD=$(od -An -N16 -tx1 /dev/urandom | tr -d ' \n') PGOPTIONS='-c client_min_messages=warning'
    export PGUSER PGHOST PGDATABASE PGPASSWORD PGOPTIONS
    printf '%s\n' "$PGPASSWORD" >"$work/password"
    [ -z "$owner" ] || chown -R "$owner" "$work" || exit 1
    listen=
}

# Makes and starts servers by their numbers; the port of NUMBER is then in port_NUMBER.
server_make() {
    for made in "$@"; do
        as_owner "$bin/initdb" -N -D "$work/data$made" -U "$PGUSER" --pwfile="$work/password" --auth=scram-sha-256 --locale=C --encoding=UTF8 \
            >"$work/initdb$made" 2>&1 &
    done
    wait
    for made in "$@"; do
        [ -f "$work/data$made/PG_VERSION" ] || { cat "$work/initdb$made" >&2; die "initdb fails"; }
        server_start_anywhere "$made"
    done
}

# Starts server NUMBER at a port that is free.
server_start_anywhere() {
    tries=0
    until server_start "$1" $((20000 + ($$ * 13 + $1 * 1009 + tries * 101) % 20000)); do
        grep -q 'in use' "$work/log$1" && [ "$tries" -lt 20 ] || { cat "$work/log$1" >&2; die "server $1 does not start"; }
        tries=$((tries + 1))
    done
}

# Starts server NUMBER at a port; `settings` has more of its settings.
server_start() {
    as_owner "$bin/pg_ctl" -D "$work/data$1" -l "$work/log$1" -w -t 60 \
        -o "-p $2 -c listen_addresses='$listen' -c unix_socket_directories='$work' -c max_connections=60 ${settings-}" start >/dev/null 2>&1 || return 1
    eval "port_$1=$2"
}

# psql on server NUMBER; stops at the first error.
on() {
    number=$1
    shift
    eval "port=\$port_$number"
    PGPORT=$port "$system_bin/psql" -XqAt -v ON_ERROR_STOP=1 "$@"
}
