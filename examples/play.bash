# What the examples share: each sources this file, plays orders, and compares what each writes to standard
# output and to standard error, and its status, with the text in its .expected file.
set -euo pipefail
# Lists of files are in the order of their bytes.
export LC_ALL=C

here=$(dirname "$(readlink -f "${BASH_SOURCE[0]}")")
folder=$(mktemp -d)
trap 'rm -rf "$folder"' EXIT

# The launcher of this clone; or its copy, which runs the programs that COUNT_OFFICE and CHECK_COUNT name, as one does in an archive.
launcher=${here%/*}/count-office
if [[ -n ${COUNT_OFFICE-}${CHECK_COUNT-} ]]; then
    programs=$folder/.programs
    mkdir -p "$programs/bin" "$programs/lib/count-office"
    cp "$launcher" "$programs/bin"
    for named in COUNT_OFFICE CHECK_COUNT; do
        if [[ -n ${!named-} ]]; then export "$named=$(readlink -f "${!named}")"; fi
    done
    ln -s "${COUNT_OFFICE:-${here%/*}/out/count-office}" "$programs/lib/count-office/count-office"
    ln -s "${CHECK_COUNT:-${here%/*}/out/check-count}" "$programs/lib/count-office/check-count"
    launcher=$programs/bin/count-office
else
    # A first call may say that it unpacks the release: so only orders are played.
    "$launcher" --help >/dev/null
fi
office=$launcher

play() {
    local status=0
    echo "\$ count-office $*"
    (cd "$folder" && "$office" "$@" >output 2>errors) || status=$?
    sed 's/^/output: /' "$folder/output"
    sed 's/^/error: /' "$folder/errors"
    echo "status $status"
}

# Compares what the orders of an example printed with NAME.expected.
compare() {
    diff "$here/$1.expected" "$folder/played"
    echo "$1: all orders printed what they should"
}
