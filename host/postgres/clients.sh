# For host/postgres/three and six, behind servers.sh: a store over the servers 0 to 2, four clients who file into it at once, and what must be there then.
# A script sets `parts`, `batch` and, for settled keys, `rule`, calls `positions_of [FILE]`, makes the servers, and then calls `store_make`.
#
# A client files in transactions of one partition, in the order of keys: so a transaction is one server's, accepted whole or not at all, and no two
# clients wait for each other in a circle. Accepted means that the client was told so. What was not accepted, for whatever reason, is offered again in the
# next round; a position that is filed already is no error. A quarter of each client's positions is offered by another client too, at the same time.
# The clients are the role `clerk`, who has been given the store by the layout and has no other rights.

equal() { [ "$2" = "$3" ] || die "$1: expected '$2', got '$3'"; }
now() { date +%s; }
milliseconds() { date +%s%3N; }
sequence() { seq 0 $((parts - 1)); }

# The positions to file, different keys, one per line: of a file, or some thousand.
positions_of() {
    positions=${1-}
    if [ -z "$positions" ]; then
        host/store/test writers || exit 1
        positions=target/store/few.fen batch=100
        target/store/writer <examples/positions.fen | cat - examples/en-passant.fen | sort -u | sort -k 2 >$positions || exit 1
    fi
    [ -r "$positions" ] || die "$positions cannot be read"
}

store_layout() { # role that is made and given the store
    for server in 0 1 2; do
        on $server -c "CREATE ROLE $1 LOGIN PASSWORD '$secret'" || exit 1
        host/postgres/layout $server "$parts" 127.0.0.1:"$port_0" 127.0.0.1:"$port_1" 127.0.0.1:"$port_2" >"$work/layout.sql" || exit 1
        on $server ${rule-} -v user="$PGUSER" -v password="$PGPASSWORD" -v role="$1" -v role_password="$secret" -f "$work/layout.sql" ||
            die "the layout of server $server is refused"
    done
}
store_make() {
    for server in 0 1 2; do on $server -c 'CREATE DATABASE store' || exit 1; done
    PGDATABASE=store
    secret=$(od -An -N16 -tx1 /dev/urandom | tr -d ' \n')
    store_layout clerk
    sort -u "$positions" >"$work/offered"
    all=$(wc -l <"$work/offered")
    equal 'different positions' "$all" "$(wc -l <"$positions")"
    awk -v to="$work/share" '{ mine = NR % 4; print >(to mine); if (int(NR / 4) % 4 == 0) print >(to (mine + 3) % 4) }' "$positions"
    for client in 0 1 2 3; do : >"$work/accepted$client" && : >"$work/told$client" && : >"$work/errors$client"; done
}

# psql on server NUMBER as the clerk, or as `who`; with & behind it, $! is psql itself, or what `limit` puts before it.
clerk_on() {
    eval "port=\$port_$1"
    shift
    PGUSER=${who:-clerk} PGPASSWORD=$secret PGPORT=$port exec ${limit-} "$system_bin/psql" -XqAt -v VERBOSITY=verbose "$@"
}
clerk() { (clerk_on "$@"); }

# ---- The clients. Client i has every fourth position and a quarter of the next client's, and talks to server i modulo 3.

# The script of a client: the staging table has the store's partitions, so that PostgreSQL itself tells a position's partition.
script() { # client, file of what it offers
    echo 'CREATE TEMP TABLE offered (fen text COLLATE "C") PARTITION BY HASH (fen);'
    sequence | sed "s/.*/CREATE TEMP TABLE offered_& PARTITION OF offered FOR VALUES WITH (MODULUS $parts, REMAINDER &);/"
    rm -f "$2".part.* && split -l "$batch" -a 4 "$2" "$2.part."
    for part in "$2".part.*; do
        printf '%s\n' "\\copy offered from '$part'"
        sequence | sed "s!.*!INSERT INTO position SELECT fen FROM offered_& ORDER BY fen ON CONFLICT DO NOTHING;\\
\\\\if :ERROR\\
\\\\echo refused :LAST_ERROR_SQLSTATE\\
\\\\else\\
\\\\copy offered_& to program 'cat >>$work/accepted$1'\\
\\\\endif!"
        echo 'TRUNCATE offered;'
    done
}
offer() { # client: what was not accepted yet
    sort "$work/share$1" >"$work/mine" && sort -u "$work/accepted$1" | comm -23 "$work/mine" - >"$work/mine.left"
    awk 'NR == FNR { left[$0]; next } $0 in left' "$work/mine.left" "$work/share$1" >"$work/left$1"
    [ ! -s "$work/left$1" ] || script "$1" "$work/left$1" >"$work/script$1"
    [ -s "$work/left$1" ]
}
run_clients() {
    running=
    for client in 0 1 2 3; do
        offer $client || continue
        clerk_on $((client % 3)) -f "$work/script$client" >>"$work/told$client" 2>>"$work/errors$client" &
        running="$running $!"
    done
}
accepted() { cat "$work"/accepted[0-3] | wc -l; }
some_run() { for client in $running; do if kill -0 "$client" 2>/dev/null; then return 0; fi; done; return 1; }
wait_for() { # number of acceptances
    until [ "$(accepted)" -gt "$1" ]; do
        some_run || die "the clients stopped before that: $(tail -n 2 "$work"/errors?)"
        sleep 0.1
    done
}
refused() { # what the clients were refused, by SQLSTATE
    cat "$work"/told? | sed -n 's/^refused //p' | sort | uniq -c | awk '{ printf "%s%s %s times", sep, $2, $1; sep = ", " }'
}
# Offers again, round after round, until everything is accepted.
rounds() {
    while run_clients && [ -n "$running" ]; do
        round=$((round + 1))
        [ $round -lt 20 ] || die "some positions are never accepted: $(tail -n 2 "$work"/errors?)"
        wait $running
    done
}

# ---- What is stored, from the tables of each partition's own server: that of the layout, or `where_PARTITION`

server_of() { eval "echo \${where_$1:-$(($1 % 3))}"; }
own() { for part in $(sequence); do [ "$(server_of "$part")" != "$1" ] || echo "$part"; done; }
stored() {
    for server in 0 1 2; do
        # A row that is no key, or that belongs elsewhere, is then none that was offered.
        own $server | sed "s/.*/SELECT fen || CASE WHEN satisfies_hash_partition('position'::regclass, $parts, &, fen) AND menkhodur_is_key(fen) THEN ''\\
            ELSE ' does not belong into partition &' END FROM position_&;/" >"$work/own.sql"
        on $server -f "$work/own.sql" || die "the partitions of server $server cannot be read"
    done >"$work/stored"
    sort "$work/stored" >"$work/stored.sorted"
    [ -z "$(uniq -d "$work/stored.sorted")" ] || die "a position is there twice: $(uniq -d "$work/stored.sorted" | head -n 1)"
    sort -u "$work"/accepted[0-3] >"$work/accepted"
    [ -z "$(comm -23 "$work/accepted" "$work/stored.sorted")" ] || die "lost: $(comm -23 "$work/accepted" "$work/stored.sorted" | wc -l) accepted positions"
    [ -z "$(comm -13 "$work/offered" "$work/stored.sorted")" ] || die "stored and never offered: $(comm -13 "$work/offered" "$work/stored.sorted" | head -n 1)"
}
# At the end: everything that was offered is there, once, and every server says so, to the clerk too.
stored_all() {
    stored
    cmp "$work/stored.sorted" "$work/offered" || die "the store is not what was offered"
    equal 'accepted in the end' "$all" "$(wc -l <"$work/accepted")"
    for server in 0 1 2; do equal "positions as server $server sees them" "$all" "$(clerk $server -c 'SELECT count(*) FROM position')"; done
}
rate() { [ "$1" -lt 100000 ] || printf ', %d a second' $(($1 / $2)); }

# ---- Single positions that no file has: a board with a king alone has one key per square

kings() {
    seq 0 63 | awk '{ f = $1 % 8; row = (f ? f : "") "K" (f < 7 ? 7 - f : ""); t = ""
        for (r = 0; r < 8; r++) t = t (r ? "/" : "") (r == int($1 / 8) ? row : 8); print t " w - - 0 1" }' >"$work/kings"
    on 0 -c 'CREATE TABLE king (LIKE position)' -c "\\copy king from '$work/kings'" || exit 1
}
# The first of them that belongs into the partition and was not taken yet.
king_in() {
    on 0 -c "WITH k AS (SELECT fen FROM king WHERE satisfies_hash_partition('position'::regclass, $parts, $1, fen) LIMIT 1)
        DELETE FROM king USING k WHERE king.fen = k.fen RETURNING king.fen"
}
# Keeps the rule, one partition in each transaction, and offers again what was refused.
file() { # server, keys
    to=$1
    shift
    for key in "$@"; do
        tries=0
        until clerk "$to" -c "INSERT INTO position VALUES ('$key') ON CONFLICT DO NOTHING" 2>>"$work/file.refused"; do
            tries=$((tries + 1))
            [ $tries -lt 5 ] || die "the key is never accepted: $(cat "$work/file.refused")"
        done
    done
}
