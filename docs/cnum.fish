# Completions of cnum for fish. Written by tests/texts/manual from the help of the program.
# The words before the cursor, without options and their values.
function __cnum_words
    set -l is_value no
    for word in (commandline -opc)[2..]
        if test $is_value = yes
            set is_value no
        else
            switch $word
                case --as --limit --object --prefix --processes --start --table
                    set is_value yes
                case '-*'
                case '*'
                    echo $word
            end
        end
    end
end
# Whether this is the command.
function __cnum_is
    set -l words (__cnum_words)
    test "$words[1]" = "$argv[1]"
end
# How many words stand before the cursor. fish counts the files behind < and > among them.
function __cnum_count
    math (count (__cnum_words)) - (count (string match -ar '[<>]+' -- (commandline -pc)))
end
function __cnum_at
    __cnum_is $argv[1]; and test (__cnum_count) -eq $argv[2]
end
function __cnum_from
    __cnum_is $argv[1]; and test (__cnum_count) -ge $argv[2]
end
# The files behind an @.
function __cnum_list
    set -l word (commandline -ct)
    if string match -q '@*' -- $word
        printf '@%s\n' (__fish_complete_path (string sub -s 2 -- $word))
    end
end
complete -c cnum -f
complete -c cnum -n '__cnum_is' -s h -l help -d 'Print help'
complete -c cnum -n '__cnum_is' -s V -l version -d 'Print version'
complete -c cnum -n '__cnum_is' -a find -d 'Writes the certificate of the consensus number of the type'
complete -c cnum -n '__cnum_is' -a classify -d 'Writes the consensus number of each of several types'
complete -c cnum -n '__cnum_is' -a lint -d 'Writes the table as a grid, or all that is wrong with it'
complete -c cnum -n '__cnum_is' -a check -d 'Checks a certificate against the type'
complete -c cnum -n '__cnum_is' -a explain -d 'Tells why the number of a certificate is what it is'
complete -c cnum -n '__cnum_is' -a why -d 'Finds the consensus number of the type, and tells why it is what it is'
complete -c cnum -n '__cnum_is' -a pairs -d 'Writes the numbers of the operations of the type and of their pairs'
complete -c cnum -n '__cnum_is' -a changes -d 'Writes the numbers of the type with each other entry in its table'
complete -c cnum -n '__cnum_is' -a show -d 'Writes the plan of a certificate\'s witness, or the shortest plan'
complete -c cnum -n '__cnum_is' -a draw -d 'Draws the states of the type'
complete -c cnum -n '__cnum_is' -a agree -d 'Runs the plan of a certificate\'s witness by a schedule'
complete -c cnum -n '__cnum_is' -a replay -d 'Serves an object by a list of events, with a certificate\'s witness'
complete -c cnum -n '__cnum_is' -a serve -d 'Serves an object by threads that make calls, with a certificate\'s witness'
complete -c cnum -n '__cnum_is' -a help -d 'Print this message or the help of the given subcommand(s)'
complete -c cnum -n '__cnum_is find' -l limit -x -a '2 3 4 5 6 7 8' -d 'The greatest number looked for, from 2 to 8'
complete -c cnum -n '__cnum_is find' -l stocks -d 'Writes a certificate by stocks, which is shorter, for every type'
complete -c cnum -n '__cnum_is find' -l without-read -d 'Writes a certificate of the number without reads, with no limit'
complete -c cnum -n '__cnum_is find' -l shortest -d 'Writes a certificate of the shortest plan, with no limit'
complete -c cnum -n '__cnum_is find' -l processes -x -a '2 3 4 5 6 7 8' -d 'How many processes there are, from 2 to 8, where there is no certificate'
complete -c cnum -n '__cnum_is find' -l table -r -F -d 'The file that holds the type table, in place of standard input'
complete -c cnum -n '__cnum_is find' -s h -l help -d 'Print help'
complete -c cnum -n '__cnum_at find 1' -F
complete -c cnum -n '__cnum_is classify' -l limit -x -a '2 3 4 5 6 7 8' -d 'The greatest number looked for, from 2 to 8'
complete -c cnum -n '__cnum_is classify' -l recoverable -d 'Writes the recoverable number of each type too'
complete -c cnum -n '__cnum_is classify' -l without-read -d 'Also writes the number of each type for objects that are not read'
complete -c cnum -n '__cnum_is classify' -l as -x -a 'text json markdown' -d 'The form in which the numbers are written'
complete -c cnum -n '__cnum_is classify' -s h -l help -d 'Print help'
complete -c cnum -n '__cnum_from classify 1' -F
complete -c cnum -n '__cnum_is lint' -l as -x -a 'text json' -d 'The form in which the table or its flaws are written'
complete -c cnum -n '__cnum_is lint' -l table -r -F -d 'The file that holds the type table, in place of standard input'
complete -c cnum -n '__cnum_is lint' -s h -l help -d 'Print help'
complete -c cnum -n '__cnum_at lint 1' -F
complete -c cnum -n '__cnum_is check' -l stocks -d 'Checks a certificate by stocks'
complete -c cnum -n '__cnum_is check' -l without-read -d 'Checks a certificate of the number without reads'
complete -c cnum -n '__cnum_is check' -l shortest -d 'Checks a certificate of a plan, and tells how short the plan is'
complete -c cnum -n '__cnum_is check' -l as -x -a 'text json' -d 'The form in which the answer is written'
complete -c cnum -n '__cnum_is check' -l table -r -F -d 'The file that holds the type table, in place of standard input'
complete -c cnum -n '__cnum_is check' -s h -l help -d 'Print help'
complete -c cnum -n '__cnum_at check 1' -F
complete -c cnum -n '__cnum_at check 2' -F
complete -c cnum -n '__cnum_is explain' -l stocks -d 'Explains a certificate by stocks'
complete -c cnum -n '__cnum_is explain' -l all -d 'Tells all choices that are refuted, not the first 12 alone'
complete -c cnum -n '__cnum_is explain' -l as -x -a 'text json' -d 'The form in which the reasons are written'
complete -c cnum -n '__cnum_is explain' -l table -r -F -d 'The file that holds the type table, in place of standard input'
complete -c cnum -n '__cnum_is explain' -s h -l help -d 'Print help'
complete -c cnum -n '__cnum_at explain 1' -F
complete -c cnum -n '__cnum_at explain 2' -F
complete -c cnum -n '__cnum_is why' -l limit -x -a '2 3 4 5 6 7 8' -d 'The greatest number looked for, from 2 to 8'
complete -c cnum -n '__cnum_is why' -l stocks -d 'Tells it by a certificate by stocks, for every type'
complete -c cnum -n '__cnum_is why' -l recoverable -d 'Tells why the recoverable number is what it is, with no limit'
complete -c cnum -n '__cnum_is why' -l without-read -d 'Tells why the number without reads is what it is, with no limit'
complete -c cnum -n '__cnum_is why' -l all -d 'Tells all choices that are refuted, not the first 12 alone'
complete -c cnum -n '__cnum_is why' -l as -x -a 'text json markdown' -d 'The form in which the reasons are written'
complete -c cnum -n '__cnum_is why' -s h -l help -d 'Print help'
complete -c cnum -n '__cnum_at why 1' -F
complete -c cnum -n '__cnum_is pairs' -l as -x -a 'text json markdown' -d 'The form in which the numbers are written'
complete -c cnum -n '__cnum_is pairs' -s h -l help -d 'Print help'
complete -c cnum -n '__cnum_at pairs 1' -F
complete -c cnum -n '__cnum_is changes' -l recoverable -d 'Tells recoverable numbers'
complete -c cnum -n '__cnum_is changes' -l without-read -d 'Tells numbers for objects that are not read'
complete -c cnum -n '__cnum_is changes' -l pairs -d 'Tries changes of two entries where none of one raises the number'
complete -c cnum -n '__cnum_is changes' -l as -x -a 'text json markdown' -d 'The form in which the numbers are written'
complete -c cnum -n '__cnum_is changes' -s h -l help -d 'Print help'
complete -c cnum -n '__cnum_at changes 1' -F
complete -c cnum -n '__cnum_is show' -l recoverable -d 'Writes the plan of processes that come back: CERT is the table'
complete -c cnum -n '__cnum_is show' -l shortest -d 'Writes the shortest plan, with no certificate: CERT is the table'
complete -c cnum -n '__cnum_is show' -l without-read -d 'Writes the shortest plan of which no process reads'
complete -c cnum -n '__cnum_is show' -l processes -x -a '2 3 4 5 6 7 8' -d 'How many processes there are, from 2 to 8, where there is no certificate'
complete -c cnum -n '__cnum_is show' -l as -x -a 'text json dot promela rust c h' -d 'The form in which the plan is written'
complete -c cnum -n '__cnum_is show' -l object -r -F -d 'The file that holds the table of an object, which the program then has too'
complete -c cnum -n '__cnum_is show' -l start -x -a '' -d 'The state in which the object starts'
complete -c cnum -n '__cnum_is show' -l prefix -x -a '' -d 'What stands in the names of a program in C, in place of consensus'
complete -c cnum -n '__cnum_is show' -l table -r -F -d 'The file that holds the type table, in place of standard input'
complete -c cnum -n '__cnum_is show' -s h -l help -d 'Print help'
complete -c cnum -n '__cnum_at show 1' -F
complete -c cnum -n '__cnum_at show 2' -F
complete -c cnum -n '__cnum_is draw' -l table -r -F -d 'The file that holds the type table, in place of standard input'
complete -c cnum -n '__cnum_is draw' -s h -l help -d 'Print help'
complete -c cnum -n '__cnum_at draw 1' -F
complete -c cnum -n '__cnum_is agree' -l steps -d 'Tells what each step does, before the decisions'
complete -c cnum -n '__cnum_is agree' -l recoverable -d 'Lets processes crash: CERT is the table, and a cP in SCHEDULE a crash'
complete -c cnum -n '__cnum_is agree' -l shortest -d 'Runs the shortest plan, with no certificate: CERT is the table'
complete -c cnum -n '__cnum_is agree' -l without-read -d 'Runs the shortest plan of which no process reads'
complete -c cnum -n '__cnum_is agree' -l processes -x -a '2 3 4 5 6 7 8' -d 'How many processes there are, from 2 to 8, where there is no certificate'
complete -c cnum -n '__cnum_is agree' -l as -x -a 'text json' -d 'The form in which the run is written'
complete -c cnum -n '__cnum_is agree' -l table -r -F -d 'The file that holds the type table, in place of standard input'
complete -c cnum -n '__cnum_is agree' -s h -l help -d 'Print help'
complete -c cnum -n '__cnum_at agree 1' -F
complete -c cnum -n '__cnum_at agree 2' -a '(__cnum_list)'
complete -c cnum -n '__cnum_at agree 3' -a '(__cnum_list)'
complete -c cnum -n '__cnum_at agree 4' -F
complete -c cnum -n '__cnum_is replay' -l as -x -a 'text json' -d 'The form in which the log is written'
complete -c cnum -n '__cnum_is replay' -l table -r -F -d 'The file that holds the type table, in place of standard input'
complete -c cnum -n '__cnum_is replay' -s h -l help -d 'Print help'
complete -c cnum -n '__cnum_at replay 1' -F
complete -c cnum -n '__cnum_at replay 2' -F
complete -c cnum -n '__cnum_at replay 5' -a '(__cnum_list)'
complete -c cnum -n '__cnum_at replay 6' -F
complete -c cnum -n '__cnum_is serve' -l as -x -a 'text json' -d 'The form in which the log is written'
complete -c cnum -n '__cnum_is serve' -l table -r -F -d 'The file that holds the type table, in place of standard input'
complete -c cnum -n '__cnum_is serve' -s h -l help -d 'Print help'
complete -c cnum -n '__cnum_at serve 1' -F
complete -c cnum -n '__cnum_at serve 2' -F
complete -c cnum -n '__cnum_at serve 5' -a '(__cnum_list)'
complete -c cnum -n '__cnum_at serve 6' -F
complete -c cnum -n '__cnum_from help 1' -a 'find classify lint check explain why pairs changes show draw agree replay serve help'
