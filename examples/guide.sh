#!/usr/bin/env bash
# Plays docs/officer/by-words.md, and putting-right.md after it: types each command line that they show, in its order, over the files
# that they show. What is printed is compared with what they say, and, with the status of each line, with guide.expected.
# shellcheck source=examples/play.bash
source "$(dirname "$(readlink -f "${BASH_SOURCE[0]}")")/play.bash"

guide=$here/../docs/officer
# The guide serves on port 8080. Here it is a port that nothing answers on.
port=8080

is_answered() {
    (exec 4<>"/dev/tcp/$1/$port") 2>/dev/null
}

while is_answered 127.0.0.1 || is_answered ::1; do
    port=$((20000 + RANDOM % 20000))
done

# Waits until the office answers. The connection that tries the port is one of those that are answered.
await_office() {
    local tries=0
    until is_answered 127.0.0.1; do
        tries=$((tries + 1))
        [[ $tries -lt 200 ]] || { echo "no office answers on port $port" >&2; return 1; }
        sleep 0.05
    done
}

# Types a line, and shows what it printed and its status.
type_line() {
    local line=$1 status=0
    eval "${line//8080/$port}" >output 2>errors </dev/null || status=$?
    case $line in
        *'&') await_office ;;
        'kill '*) wait 2>/dev/null || true ;;
    esac
    # A last line without an end gets one.
    sed -i '$a\' output
    { echo "\$ $line" && cat output errors; } >>printed
    echo "\$ $line"
    sed 's/^/output: /' output
    sed 's/^/error: /' errors
    echo "status $status"
}

# A line of a block of the guide: in `console` one that is typed, or that was printed; in `csv NAME` or `text NAME` one of the file NAME.
play_line() {
    local block=$1 line=$2
    case $block in
        console)
            echo "$line" >>said
            if [[ $line == '$ '* ]]; then type_line "${line:2}"; fi
            ;;
        'csv '* | 'text '*) echo "$line" >>"${block#* }" ;;
    esac
}

play_guide() {
    local block='' line
    while IFS= read -r line <&3; do
        if [[ $line != '```'* ]]; then
            play_line "$block" "$line"
            continue
        fi
        block=${line:3}
        # A file that is shown again is another one.
        case $block in 'csv '* | 'text '*) : >"${block#* }" ;; esac
    done 3< <(cat "$guide"/{by-words,putting-right}.md)
}

cd "$folder"
ln -s "$office" count-office
play_guide >played

diff said printed
compare guide
