#!/usr/bin/env bash
# Plays what stands in transcripts/: refusals, replies, words, overviews, and rows that no office has. Each transcript has what the program
# must print; transcripts.expected has how much is asked in each, so that nothing goes missing.
# shellcheck source=examples/play.bash
source "$(dirname "$(readlink -f "${BASH_SOURCE[0]}")")/play.bash"

"$here/play_transcripts.py" >"$folder/played"

compare transcripts
