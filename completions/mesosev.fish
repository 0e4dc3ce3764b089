# Completion of the command mesosev for fish. ./install installs it; or copy it to ~/.config/fish/completions.

# Is the first argument of mesosev one of these?
function __mesosev_has
    set -l words (commandline -opc)
    test (count $words) -ge 2; and contains -- $words[2] $argv
end

# Is the word that is being completed the first argument?
function __mesosev_begins
    test (count (commandline -opc)) -eq 1
end

# Is it the argument of help?
function __mesosev_helps
    test (count (commandline -opc)) -eq 2; and __mesosev_has help
end

# A file can only follow <, which fish completes by itself.
complete -c mesosev -f

for condition in __mesosev_begins __mesosev_helps
    complete -c mesosev -n $condition -a check -d 'Check that each record is an event, and count the events'
    complete -c mesosev -n $condition -a show -d 'Print each event as it arrives'
    complete -c mesosev -n $condition -a convert -d 'Write the events again in canonical form'
    complete -c mesosev -n $condition -a replay -d 'Replay a session log, and print the state of the session'
    complete -c mesosev -n $condition -a relog -d 'Write a session log in version 2'
    complete -c mesosev -n $condition -a serve -d 'Serve a test master on 127.0.0.1'
    complete -c mesosev -n $condition -a master -d 'Serve a live test master on 127.0.0.1'
    complete -c mesosev -n $condition -a subscribe -d 'Subscribe to a master, and print its events'
    complete -c mesosev -n $condition -a loopback -d 'Send the events over a socket, and print them'
    complete -c mesosev -n $condition -a help -d 'Print a help text'
end

complete -c mesosev -n 'not __mesosev_has help' -s h -l help -d 'Print help'
complete -c mesosev -n 'not __mesosev_has help' -s V -l version -d 'Print version'

complete -c mesosev -n '__mesosev_has check show convert' -l chunked -d 'Input is a chunked body'
complete -c mesosev -n '__mesosev_has check show convert' -l lines -d 'Input is JSON Lines'
complete -c mesosev -n '__mesosev_has check show convert' -l calls -d 'Records are calls, not events'
complete -c mesosev -n '__mesosev_has check show convert replay relog' -x -l limit -d 'Largest record in bytes'
complete -c mesosev -n '__mesosev_has convert master loopback' -x -l most -d 'Bytes of each chunk that is written'
complete -c mesosev -n '__mesosev_has show convert replay subscribe' -l json -d 'Print JSON'
complete -c mesosev -n '__mesosev_has serve master' -x -l port -d 'Port to listen on'
complete -c mesosev -n '__mesosev_has serve' -x -l count -d 'Number of connections to accept'
complete -c mesosev -n '__mesosev_has serve' -x -l stream -d 'Id of the first stream'
complete -c mesosev -n '__mesosev_has master' -x -l heartbeat -d 'Seconds between two HEARTBEATs'
complete -c mesosev -n '__mesosev_has master' -x -l resend -d 'Seconds after which an update is sent again'
complete -c mesosev -n '__mesosev_has master' -x -l finish-after -d 'Seconds after which a task finishes'
complete -c mesosev -n '__mesosev_has master' -x -l seconds -d 'Seconds after which the master ends'
complete -c mesosev -n '__mesosev_has master' -x -l fault -d 'Fault at an event or call, such as lose:3'
complete -c mesosev -n '__mesosev_has master' -x -l faults -d 'Faults at random, in 1000 events and calls'
complete -c mesosev -n '__mesosev_has master' -x -l seed -d 'Which faults --faults plans'
complete -c mesosev -n '__mesosev_has master' -l once -d 'End after the first TEARDOWN'
complete -c mesosev -n '__mesosev_has subscribe' -x -l to -d 'Address of the master, HOST:PORT'
complete -c mesosev -n '__mesosev_has subscribe' -x -l user -d 'User of the framework'
complete -c mesosev -n '__mesosev_has subscribe' -x -l name -d 'Name of the framework'
complete -c mesosev -n '__mesosev_has subscribe' -x -l reads -d 'Largest number of reads of the stream'
