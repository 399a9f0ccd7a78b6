# What fish offers after `count-office`: the path of an office, an order, and the order's options or files.
function __count_office_words -d 'Whether so many words stand before the one that is typed'
    test (count (commandline -opc)) -eq $argv[1]
end
function __count_office_checks -d 'Whether the checker is asked'
    set -l words (commandline -opc)
    test (count $words) -ge 2; and test "$words[2]" = -
end
function __count_office_gives -d 'Whether this order is given'
    set -l words (commandline -opc)
    test (count $words) -ge 3; and test "$words[2]" != -; and test "$words[3]" = $argv[1]
end
complete -c count-office -n '__count_office_words 1' -l help -d 'Print help'
complete -c count-office -n '__count_office_words 1' -l version -d 'Print the version'
function __count_office_counts -d 'Whether ballots are counted'
    set -l words (commandline -opc)
    test (count $words) -ge 3; and test "$words[2]" = -; and test "$words[3]" = count
end
complete -c count-office -n '__count_office_words 2; and __count_office_checks' -f -a check -d 'Check a published folder, or a sheet against its ballots'
complete -c count-office -n '__count_office_words 2; and __count_office_checks' -f -a count -d 'Count ballots'
# COUNT_OPTIONS
# ORDERS
