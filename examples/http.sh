#!/usr/bin/env bash
# Plays a keying over HTTP: two clerks ask for their work, key a batch from a client, and a client asks for the sheet. Pages from
# elsewhere get nothing.
# shellcheck source=examples/play.bash
source "$(dirname "$(readlink -f "${BASH_SOURCE[0]}")")/play.bash"

# Asks the office that serves: a target, for a keying its body, and headers.
ask() {
    local target=$1 port=$2 shown="" word
    shift 2
    for word in "$@"; do
        if [[ $word == -? ]]; then shown+="$word "; else shown+="'$word' "; fi
    done
    echo "\$ curl $shown$target"
    curl --silent --show-error --max-time 60 --write-out '\nstatus %{http_code}, %{content_type}\n' "$@" "http://127.0.0.1:$port$target"
}

# Serves so many connections on a port that is free, until the commands of a function have been played; then come the words of an origin.
serve() {
    local connections=$1 function=$2 port server tries=0
    shift 2
    port=$((20000 + RANDOM % 20000))
    (cd "$folder" && exec "$office" town.db serve "$port" "$connections" "$@") &
    server=$!
    # The office answers once it was opened; a connection that isn't accepted isn't counted.
    until (exec 3<>"/dev/tcp/127.0.0.1/$port") 2>/dev/null; do
        tries=$((tries + 1))
        [[ $tries -lt 200 ]] || { echo "no office answers on port $port"; return 1; }
        sleep 0.05
    done
    "$function" "$port"
    wait "$server" && echo "the office ends with status 0"
}

# Tries to serve another office on a port that is taken.
serve_too() {
    play other.db serve "$1" 1 | sed "s/ $1 / PORT /"
}

key() {
    local port=$1 keyed='{"id":"k1","round":1,"papers":["1,2,","D"]}'
    # the program reports a database of no office before it reports the port
    serve_too "$port"
    play other.db init
    serve_too "$port"
    ask /clerks/4/work "$port"
    ask /clerks/4/batches/12/keying "$port" -d "$keyed"
    ask /clerks/4/batches/12/keying "$port" -d "$keyed"
    ask /clerks/4/batches/12/keying "$port" -d '{"id":"k2","round":1,"papers":["1,2,","D"]}'
    ask /clerks/9/batches/12/keying "$port" -d "$keyed"
    ask /clerks/4/work "$port"
    ask /wards/7/sheet "$port"
    ask /wards/07/sheet "$port"
    ask /wards/7/sheet "$port" -d ''
}

# A browser says for which page it asks, and by which name it found the office.
ask_from_elsewhere() {
    local port=$1 keyed='{"id":"e1","round":1,"papers":["1,2,","D"]}'
    ask /clerks/4/batches/12/keying "$port" -H 'Origin: http://evil.example' -d "$keyed"
    ask /clerks/4/batches/12/keying "$port" -H 'Sec-Fetch-Site: cross-site' -d "$keyed"
    ask /clerks/4/work "$port" -H 'Host: evil.example:8080'
    ask /wards/07/sheet "$port" -H 'Origin: https://count.example.org'
    ask /clerks/4/work "$port" -H 'Sec-Fetch-Site: none'
}

ask_through_a_proxy() {
    local port=$1
    ask /clerks/4/work "$port" -H 'Origin: https://count.example.org' -H 'Host: count.example.org'
    ask /clerks/4/work "$port" -H 'Origin: https://other.example.org'
}

read_count() {
    local port=$1
    # A connection that says nothing holds up nobody.
    exec 4<>"/dev/tcp/127.0.0.1/$port"
    ask /wards/7/sheet "$port"
    ask /wards/7/result "$port"
    exec 4>&-
}

read_declaration() {
    ask /wards/7/result "$1"
}

{
    play town.db init
    play town.db ward 7 1 Harbour --id w1
    play town.db candidate 7 1 Ann --id c1
    play town.db candidate 7 2 Bob --id c2
    play town.db candidate 7 3 Cy --id c3
    play town.db close 7 --id w2
    play town.db batch 12 7 2 4 9 --id b1
    # The connection that tried the port is one of those that are answered.
    serve 6 ask_from_elsewhere
    serve 3 ask_through_a_proxy --origin https://count.example.org
    serve 10 key
    play town.db judge 12 2 accept:1,,2 --id j1
    play town.db seal 7 --id s1
    play town.db advance 7 --id n1
    serve 4 read_count
    play town.db declare 7 --id d1
    serve 2 read_declaration
} >"$folder/played"

compare http
