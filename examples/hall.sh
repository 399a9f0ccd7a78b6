#!/usr/bin/env bash
# Plays what the hall is shown: nothing without `--public`; with it of a ward its phase before the seal, and then its count. It needs no
# code, and changes nothing.
# shellcheck source=examples/play.bash
source "$(dirname "$(readlink -f "${BASH_SOURCE[0]}")")/play.bash"

port=$((20000 + RANDOM % 20000))
title="Election of 6 May 2027"
server=

# A program that serves ends with the example.
stop() {
    if [[ -n $server ]]; then
        kill -KILL "$server" 2>/dev/null || true
        wait "$server" 2>/dev/null || true
        server=
    fi
}
trap 'stop; rm -rf "$folder"' EXIT

# Serves the office with these words, and waits until it answers.
serve() {
    local tries=0
    stop
    echo "\$ count-office town.db serve PORT $*"
    (cd "$folder" && exec "$office" town.db serve "$port" "$@") &
    server=$!
    until (exec 3<>"/dev/tcp/127.0.0.1/$port") 2>/dev/null; do
        tries=$((tries + 1))
        [[ $tries -lt 200 ]] || { echo "no office answers on port $port"; return 1; }
        sleep 0.05
    done
}

# Asks the office that serves, with the words of `curl`.
ask() {
    local target=$1
    shift
    echo "\$ curl $* $target"
    curl --silent --show-error --max-time 60 --write-out '\nstatus %{http_code}, %{content_type}\n' "$@" "http://127.0.0.1:$port$target"
}

# The lines that an answer has besides its length and its body.
look() {
    local target=$1
    shift
    echo "\$ curl --head $* $target"
    curl --silent --show-error --max-time 60 --dump-header - --output "$folder/body" "$@" "http://127.0.0.1:$port$target" |
        tr -d '\r' | grep -v '^Content-Length\|^$' | sed 's/sha256-[^'\'']*/sha256-../g'
    head -c 15 "$folder/body"
    echo
}

# Whether a target has just what an order prints.
same() {
    local target=$1
    shift
    curl --silent --show-error --max-time 60 --output "$folder/body" "http://127.0.0.1:$port$target"
    (cd "$folder" && "$office" town.db "$@" >printed)
    cmp "$folder/body" "$folder/printed"
    echo "$target has what \`$*\` prints"
}

# Everything that is shown in public, as one text.
everything() {
    local target
    for target in / /screen /screen/wards /wards/7/page /wards/8/page; do
        curl --silent --show-error --max-time 60 --include "http://127.0.0.1:$port$target"
    done
}

{
    play town.db init
    play town.db ward 7 2 Harbour --id w1
    play town.db ward 8 1 'New Quay' --id w2
    # a title is for what is shown in public alone
    play town.db serve 8080 --title "$title"

    serve
    ask /
    ask /screen
    ask /screen/wards
    ask /wards/7/page
    ask /wards/7/sheet

    (umask 077 && printf '4 kf7m-2wxt-h4dn\n9 w3hd-4psn-p3cs\n' >"$folder/codes.txt")
    serve --public --title "$title" --codes codes.txt
    ask /screen/wards
    ask /wards/7/page
    ask /wards/9/page
    ask /wards/100/page
    ask /wards/07/page
    ask /screen/
    ask /screen -d 'any=thing'
    ask /screen/wards -H 'Sec-Fetch-Site: cross-site'
    # a code is neither needed nor looked at there, and is where it always was
    ask /screen/wards -u 4:wrong-code
    ask /clerks/4/work
    look /screen
    look /
    same / index --title "$title"

    # nothing that is nominated, given out, keyed or judged is shown before the seal
    everything >"$folder/before"
    play town.db candidate 7 1 Ann --id c1
    play town.db candidate 7 2 Bob --id c2
    play town.db candidate 7 3 Cy --id c3
    everything | cmp - "$folder/before"
    play town.db close 7 --id n1
    ask /screen/wards
    everything >"$folder/before"
    play town.db batch 12 7 4 4 9 --id b1
    play town.db key 4 12 1 1,2, 1,, ,1, D --id k1
    play town.db key 9 12 1 1,2, 1,, ,1, D --id k2
    play town.db judge 12 4 accept:,1, --id j1
    everything | cmp - "$folder/before"

    # then it shows each stage
    play town.db seal 7 --id s1
    ask /screen/wards
    same /wards/7/page page 7 --title "$title"
    play town.db advance 7 --id a1
    ask /screen/wards
    same /wards/7/page page 7 --title "$title"
    play town.db declare 7 --id d1
    ask /screen/wards
    same / index --title "$title"
    same /wards/7/page page 7 --title "$title"

    # another title, and none
    serve --public --title '<b>"Another"</b>'
    ask /screen/wards
    same / index --title '<b>"Another"</b>'
    serve --public
    ask /screen/wards
    same / index
    stop
} >"$folder/played" 2>&1

compare hall
