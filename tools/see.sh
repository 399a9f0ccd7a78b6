# How tools/launching and tools/try-package look at what a command does.
# shellcheck shell=bash disable=SC2034
wrong=0 said=''

# see WHAT STATUS TEXT COMMAND..: the command ends with the status (`fails`: any but 0), and prints the text. Else `wrong` is 1; or, if
# `stops` is set, all ends.
see() {
    local what=$1 wanted=$2 text=$3 status=0
    shift 3
    said=$("$@" 2>&1) || status=$?
    if [[ ($status == "$wanted" || $wanted == fails && $status != 0) && $said == *"$text"* ]]; then
        echo "seen: $what"
    else
        echo "WRONG: $what: status $status, and it printed: $said"
        wrong=1
        if [[ -n ${stops-} ]]; then exit 1; fi
    fi
}
