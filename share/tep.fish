# Completion of tep in fish. Made by share/make.py of what the program's help says.

# The words before the one at hand are tep and a command, and with a name its command is that one.
function __tep_command
    set -l words (commandline -opc)
    test (count $words) -gt 1; and contains -- $words[2] $argv
end

function __tep_first
    test (count (commandline -opc)) -eq 1
end

complete -c tep -n '__tep_first' -f -a run -d 'Runs the endpoint over captures'
complete -c tep -n '__tep_first' -f -a check -d 'Checks a settings text, a changes text and captures'
complete -c tep -n '__tep_first' -f -a explain -d 'Takes the packets of a capture apart'
complete -c tep -n '__tep_first' -f -a migrate -d 'Prints a settings text as one of version 2'
complete -c tep -n '__tep_first' -f -a digest -d 'Prints the digests of captures, to lend them to the parts of a run'
complete -c tep -n '__tep_first' -f -a merge -d 'Makes of the parts of a run the whole run'
complete -c tep -n '__tep_first' -f -a split -d 'Makes of a pcapng capture one capture for each of its interfaces'
complete -c tep -n '__tep_first' -f -a compare -d 'Tells which records that were sent were received'
complete -c tep -n '__tep_first' -f -a report -d 'Makes a page of what a run gave, to look at'
complete -c tep -n '__tep_first' -f -a fabric -d 'Tells who reaches whom by the settings of many endpoints'
complete -c tep -n '__tep_first' -f -a help -d 'Print this message or the help of the given subcommand(s)'
complete -c tep -n '__tep_first' -s h -l help -d 'Print help'
complete -c tep -n '__tep_first' -s V -l version -d 'Print version'

complete -c tep -n '__tep_command run' -s s -l settings -r -F -d 'The settings text'
complete -c tep -n '__tep_command run' -s c -l changes -r -F -d 'The changes text; without it nothing changes'
complete -c tep -n '__tep_command run' -s u -l underlay -r -F -d 'The capture of the underlay; \'-\' is standard input'
complete -c tep -n '__tep_command run' -s o -l out -x -a '(__fish_complete_directories)' -d 'The folder that outputs are written into, which must exist; needed where nothing else is written or printed'
complete -c tep -n '__tep_command run' -l both -d 'Leaves out what the switch itself sent, where captures have both directions'
complete -c tep -n '__tep_command run' -l within -x -d 'How long behind its frame that may come, with --both: 500us, 2ms, 1s; 10ms without it'
complete -c tep -n '__tep_command run' -l list -r -F -d 'Writes each record that --both leaves out, and which one it is the echo of; \'-\' is standard output'
complete -c tep -n '__tep_command run' -l tables -d 'Prints the live entries of all tables at the last event'
complete -c tep -n '__tep_command run' -l tables-at -x -d 'Prints those at this moment, in nanoseconds'
complete -c tep -n '__tep_command run' -l why -x -d 'Prints why an event came out as it did: 7, p2:7, u:13, c:1, drop:30, drop:any, mac:M; repeatable'
complete -c tep -n '__tep_command run' -l summary -d 'Prints what was sent and dropped, by segment, place and reason'
complete -c tep -n '__tep_command run' -l talkers -d 'Prints who sent to whom in each segment, by address and place'
complete -c tep -n '__tep_command run' -l json -d 'Writes decisions.jsonl, too, and prints what is printed as JSON: one object a line'
complete -c tep -n '__tep_command run' -l pcapng -r -F -d 'Writes what came and what left, each with its decision, into one capture; \'-\' is standard output'
complete -c tep -n '__tep_command run' -l segments -x -d 'Runs these segments alone, a part of the run: 10,20-29,none; none is what comes to no segment'
complete -c tep -n '__tep_command run' -l digests -r -F -d 'The digests of the captures, as \'tep digest\' prints them, for a part of a run'
complete -c tep -n '__tep_command run' -l quiet -d 'Shows no progress where standard error is a terminal'
complete -c tep -n '__tep_command run' -s h -l help -d 'Print help'
complete -c tep -n '__tep_command run' -s V -l version -d 'Print version'

complete -c tep -n '__tep_command check' -s s -l settings -r -F -d 'The settings text'
complete -c tep -n '__tep_command check' -s c -l changes -r -F -d 'The changes text; without it nothing changes'
complete -c tep -n '__tep_command check' -s u -l underlay -r -F -d 'A capture of the underlay to look at; \'-\' is standard input'
complete -c tep -n '__tep_command check' -l json -d 'Prints it as JSON, one object a line'
complete -c tep -n '__tep_command check' -s h -l help -d 'Print help'
complete -c tep -n '__tep_command check' -s V -l version -d 'Print version'

complete -c tep -n '__tep_command explain' -s s -l settings -r -F -d 'The settings text'
complete -c tep -n '__tep_command explain' -s d -l depth -x -a '1 2 3 4' -d 'The most tunnels, one in another, that are taken apart [default: 4]'
complete -c tep -n '__tep_command explain' -l values -d 'Tells the values of each head, too'
complete -c tep -n '__tep_command explain' -l json -d 'Prints it as JSON, one object a line'
complete -c tep -n '__tep_command explain' -s h -l help -d 'Print help'
complete -c tep -n '__tep_command explain' -s V -l version -d 'Print version'

complete -c tep -n '__tep_command migrate' -s s -l settings -r -F -d 'The settings text'
complete -c tep -n '__tep_command migrate' -s h -l help -d 'Print help'
complete -c tep -n '__tep_command migrate' -s V -l version -d 'Print version'
complete -c tep -n '__tep_command migrate' -f

complete -c tep -n '__tep_command digest' -s u -l underlay -r -F -d 'The capture of the underlay; \'-\' is standard input'
complete -c tep -n '__tep_command digest' -s h -l help -d 'Print help'
complete -c tep -n '__tep_command digest' -s V -l version -d 'Print version'

complete -c tep -n '__tep_command merge' -s o -l out -x -a '(__fish_complete_directories)' -d 'The folder that outputs are written into, which must exist'
complete -c tep -n '__tep_command merge' -l tables -d 'Prints the live entries of all tables at the last event'
complete -c tep -n '__tep_command merge' -l summary -d 'Prints what was sent and dropped, by segment, place and reason'
complete -c tep -n '__tep_command merge' -l json -d 'Prints it as JSON, one object a line'
complete -c tep -n '__tep_command merge' -s h -l help -d 'Print help'
complete -c tep -n '__tep_command merge' -s V -l version -d 'Print version'
complete -c tep -n '__tep_command merge' -f -a '(__fish_complete_directories)'

complete -c tep -n '__tep_command split' -s o -l out -x -a '(__fish_complete_directories)' -d 'The folder that outputs are written into, which must exist'
complete -c tep -n '__tep_command split' -s h -l help -d 'Print help'
complete -c tep -n '__tep_command split' -s V -l version -d 'Print version'

complete -c tep -n '__tep_command compare' -l worked -x -a '(__fish_complete_directories)' -d 'The folder that \'tep run\' wrote into, to compare each of its captures with what was seen there'
complete -c tep -n '__tep_command compare' -s u -l underlay -r -F -d 'With --worked what was seen at the underlay; \'-\' where there is no capture of it'
complete -c tep -n '__tep_command compare' -s s -l settings -r -F -d 'With --worked the settings text, for the ports of tunnels and the options that are known'
complete -c tep -n '__tep_command compare' -l strict -d 'With --worked all octets are compared at the underlay, too'
complete -c tep -n '__tep_command compare' -l within -x -d 'How much later a record may be received: 500us, 10ms, 2s; 1s without it'
complete -c tep -n '__tep_command compare' -l shift -x -d 'How far RECEIVED\'s clock is ahead, or behind as in --shift=-2ms; records may then be early, too'
complete -c tep -n '__tep_command compare' -l list -d 'Prints a line for each record that is of one capture alone'
complete -c tep -n '__tep_command compare' -l by -x -d 'Prints a table of what was compared: by \'length\' or \'delay\''
complete -c tep -n '__tep_command compare' -l ignore -x -d 'Leaves aside frames to addresses that switches don\'t forward: \'reserved\''
complete -c tep -n '__tep_command compare' -l json -d 'Prints it as JSON, one object a line'
complete -c tep -n '__tep_command compare' -s h -l help -d 'Print help'
complete -c tep -n '__tep_command compare' -s V -l version -d 'Print version'

complete -c tep -n '__tep_command report' -s o -l out -r -F -d 'The page that is written: one file of HTML'
complete -c tep -n '__tep_command report' -s h -l help -d 'Print help'
complete -c tep -n '__tep_command report' -s V -l version -d 'Print version'
complete -c tep -n '__tep_command report' -f -a '(__fish_complete_directories)'

complete -c tep -n '__tep_command fabric' -s h -l help -d 'Print help'
complete -c tep -n '__tep_command fabric' -s V -l version -d 'Print version'

complete -c tep -n '__tep_command help' -f -a 'run check explain migrate digest merge split compare report fabric help'
