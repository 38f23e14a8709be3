Command lines that ask for nothing, and help. Below a command's output stands what it says on standard error, each line behind `2|`.
  $ cmwq() {
  >   command cmwq "$@" 2> errors
  >   local status=$?
  >   sed 's/^/2|/' errors
  >   return $status
  > }

Of most the first line is enough.
  $ first() {
  >   cmwq "$@" > said
  >   local status=$?
  >   head -1 said
  >   return $status
  > }

Help goes to standard output.
  $ first --help
  Emulates the concurrency-managed workqueues of the Linux kernel
  $ first -h
  Emulates the concurrency-managed workqueues of the Linux kernel
  $ first help
  Emulates the concurrency-managed workqueues of the Linux kernel
  $ first asm --help
  Usage: cmwq asm FILE OUT
  $ first help show
  Usage: cmwq show IMAGE

Without a word the help is a usage fault.
  $ first
  2|Emulates the concurrency-managed workqueues of the Linux kernel
  [2]

No such command.
  $ first walk a
  2|error: unrecognized subcommand 'walk'
  [2]
  $ first help scenarios
  2|error: unrecognized subcommand 'scenarios'
  [2]

An argument is missing, or an option's value.
  $ first run
  2|error: the following required arguments were not provided:
  [2]
  $ first asm a
  2|error: the following required arguments were not provided:
  [2]
  $ first play a
  2|error: the following required arguments were not provided:
  [2]
  $ first settle
  2|error: the following required arguments were not provided:
  [2]
  $ first times
  2|error: the following required arguments were not provided:
  [2]
  $ first draw --from a
  2|error: the following required arguments were not provided:
  [2]
  $ first why
  2|error: the following required arguments were not provided:
  [2]
  $ first why a b --at
  2|error: a value is required for '--at <K>' but none was supplied
  [2]
  $ first explore
  2|error: the following required arguments were not provided:
  [2]
  $ first explore --never b a
  2|error: the following required arguments were not provided:
  [2]
  $ first explore a --stuck --before b
  2|error: 2 values required for '--before <A> <B>' but 1 was provided
  [2]
  $ first check
  2|error: the following required arguments were not provided:
  [2]

An argument too many, or no option of the command.
  $ first new a b
  2|error: unexpected argument 'b' found
  [2]
  $ first list a b
  2|error: unexpected argument 'b' found
  [2]
  $ first asm a b c
  2|error: unexpected argument 'c' found
  [2]
  $ first show a --fast
  2|error: unexpected argument '--fast' found
  [2]
  $ first run --fast a
  2|error: unexpected argument '--fast' found
  [2]
  $ first times a --lines
  2|error: unexpected argument '--lines' found
  [2]
  $ first why a b c
  2|error: unexpected argument 'c' found
  [2]
  $ first why a --flush -1
  2|error: unexpected argument '-1' found
  [2]
  $ first explore a b --stuck
  2|error: unexpected argument 'b' found
  [2]
  $ first explore a --never b c d
  2|error: unexpected argument 'd' found
  [2]

An option that is given twice.
  $ first why a b --at 1 --at 1
  2|error: the argument '--at <K>' cannot be used multiple times
  [2]
  $ first why a --flush 1 --flush 1
  2|error: the argument '--flush <F>' cannot be used multiple times
  [2]
  $ first why a b --every --every
  2|error: the argument '--every' cannot be used multiple times
  [2]
  $ first explore a --never b --never c
  2|error: the argument '--never <WORK> [WORK]' cannot be used multiple times
  [2]

`play` takes a number of instructions.
  $ first play a --capacity 0
  2|error: --capacity takes a number from 1 to 4096
  [2]
  $ first play a --capacity 4097
  2|error: --capacity takes a number from 1 to 4096
  [2]
  $ first play a --capacity many
  2|error: --capacity takes a number from 1 to 4096
  [2]

`debug` has its commands on standard input.
  $ first debug -
  2|error: debug reads its commands from standard input, so FILE can't be -
  [2]

`times --sweep` takes a queue and up to 64 values, and doesn't go with `--whom`.
  $ first times a --sweep q 1..65
  2|error: --sweep takes a queue and LOW..HIGH: numbers from 1 to 512, at most 64 of them
  [2]
  $ first times a --sweep q 0..1
  2|error: --sweep takes a queue and LOW..HIGH: numbers from 1 to 512, at most 64 of them
  [2]
  $ first times a --sweep q 2..1
  2|error: --sweep takes a queue and LOW..HIGH: numbers from 1 to 512, at most 64 of them
  [2]
  $ first times a --sweep q 1...2
  2|error: --sweep takes a queue and LOW..HIGH: numbers from 1 to 512, at most 64 of them
  [2]
  $ first times a --sweep q 450..513
  2|error: --sweep takes a queue and LOW..HIGH: numbers from 1 to 512, at most 64 of them
  [2]
  $ first times a --sweep q 1..2 --whom
  2|error: --whom and --sweep don't go together
  [2]

`trace` takes one form.
  $ first trace a
  2|error: trace takes one of --json, --lines, --text and --dat
  [2]
  $ first trace a --lines --json
  2|error: trace takes one of --json, --lines, --text and --dat
  [2]
  $ first trace a --lines --dat b
  2|error: trace takes one of --json, --lines, --text and --dat
  [2]
  $ first trace a --json --text
  2|error: trace takes one of --json, --lines, --text and --dat
  [2]

`draw`: ticks that are numbers and don't end before they begin; a scale and a name for an SVG picture alone.
  $ first draw --from ten a
  2|error: --from and --to take a time in ticks
  [2]
  $ first draw --to 18446744073709551616 a
  2|error: --from and --to take a time in ticks
  [2]
  $ first draw --from 7 --to 3 a
  2|error: --from takes a time that isn't after that of --to
  [2]
  $ first draw --scale 5 a
  2|error: --scale and --id go with --svg
  [2]
  $ first draw --id x a
  2|error: --scale and --id go with --svg
  [2]
  $ first draw --svg --scale 0 a
  2|error: --scale takes a number of pixels from 1 to 100
  [2]
  $ first draw --svg --scale 101 a
  2|error: --scale takes a number of pixels from 1 to 100
  [2]
  $ first draw --svg --id 9 a
  2|error: --id takes a name of 1 to 64 letters, digits, - and _, first a letter
  [2]
  $ first draw --svg --id a.b a
  2|error: --id takes a name of 1 to 64 letters, digits, - and _, first a letter
  [2]

`why` asks of a work or of a flush, at positions of one kind, with numbers of 1 to 10 digits.
  $ first why a
  2|error: why takes either a WORK or --flush
  [2]
  $ first why a --every
  2|error: why takes either a WORK or --flush
  [2]
  $ first why a b --flush 0
  2|error: why takes either a WORK or --flush
  [2]
  $ first why a b --at 1 --every
  2|error: --every, --at and --time don't go together
  [2]
  $ first why a b --at 1 --time 1
  2|error: --every, --at and --time don't go together
  [2]
  $ first why a b --every --time 1
  2|error: --every, --at and --time don't go together
  [2]
  $ first why a b --time x
  2|error: --flush, --at and --time take a number of 1 to 10 digits
  [2]
  $ first why a b --at x
  2|error: --flush, --at and --time take a number of 1 to 10 digits
  [2]
  $ first why a b --at 12345678901
  2|error: --flush, --at and --time take a number of 1 to 10 digits
  [2]
  $ first why a b --at ''
  2|error: --flush, --at and --time take a number of 1 to 10 digits
  [2]
  $ first why --at '' a b
  2|error: --flush, --at and --time take a number of 1 to 10 digits
  [2]
  $ first why a --flush +1
  2|error: --flush, --at and --time take a number of 1 to 10 digits
  [2]
  $ first why a --flush 1x
  2|error: --flush, --at and --time take a number of 1 to 10 digits
  [2]
  $ first why a --flush ''
  2|error: --flush, --at and --time take a number of 1 to 10 digits
  [2]

`explore` asks one thing that never may be, of two works that differ, in no ring of actors, and looks at 1 to 1,000,000 states.
  $ first explore a
  2|error: explore takes --never, --after with --never, or --stuck
  [2]
  $ first explore a --after b
  2|error: --after takes an ACTOR, and --never with one WORK beside it
  [2]
  $ first explore a --never b b
  2|error: --never takes two work items that differ
  [2]
  $ first explore a --after b --never c d
  2|error: --after takes an ACTOR, and --never with one WORK beside it
  [2]
  $ first explore a --stuck --never b
  2|error: --stuck doesn't go with --never and --after
  [2]
  $ first explore a --stuck --after b
  2|error: --stuck doesn't go with --never and --after
  [2]
  $ first explore a --stuck --limit 0
  2|error: --limit takes a number of 1 to 10 digits, from 1 to 1000000
  [2]
  $ first explore a --stuck --limit 1000001
  2|error: --limit takes a number of 1 to 10 digits, from 1 to 1000000
  [2]
  $ first explore a --stuck --limit 00000000001
  2|error: --limit takes a number of 1 to 10 digits, from 1 to 1000000
  [2]
  $ first explore a --stuck --limit +1
  2|error: --limit takes a number of 1 to 10 digits, from 1 to 1000000
  [2]
  $ first explore a --stuck --before b b
  2|error: --before goes in a cycle: b, b
  [2]
  $ first explore a --stuck --before b c --before d b --before c d
  2|error: --before goes in a cycle: b, c, d, b
  [2]

What else is said of a usage fault.
  $ cmwq walk a
  2|error: unrecognized subcommand 'walk'
  2|
  2|Usage: cmwq <COMMAND>
  2|
  2|For more information, try '--help'.
  [2]
  $ cmwq run
  2|error: the following required arguments were not provided:
  2|  <FILE>
  2|
  2|Usage: cmwq run <FILE>
  2|
  2|For more information, try '--help'.
  [2]
  $ cmwq list a b
  2|error: unexpected argument 'b' found
  2|
  2|Usage: cmwq list <FILE>
  2|
  2|For more information, try '--help'.
  [2]
  $ cmwq why a
  2|error: why takes either a WORK or --flush
  2|
  2|Usage: cmwq why [OPTIONS] <FILE> [WORK]
  2|
  2|For more information, try '--help'.
  [2]
  $ cmwq explore a --stuck --before x b --before b c --before c b
  2|error: --before goes in a cycle: b, c, b
  2|
  2|Usage: cmwq explore [OPTIONS] <FILE>
  2|
  2|For more information, try '--help'.
  [2]

The usage that is told is that of the command.
  $ usage() {
  >   cmwq "$@" | sed -n 's/^2|Usage: //p'
  > }
  $ usage debug -
  cmwq debug [OPTIONS] <FILE>
  $ usage play a --capacity 0
  cmwq play --capacity <N> <FILE>
  $ usage draw a --from 2 --to 1
  cmwq draw [OPTIONS] <FILE>
  $ usage times a --sweep q 0..1
  cmwq times [OPTIONS] <FILE>
  $ usage trace a
  cmwq trace [OPTIONS] <FILE>

Bytes of words that aren't printable are shown as `?`, a byte each.
  $ first $'walk\e[31m\ta\x7f\xc3\xa9'
  2|error: unrecognized subcommand 'walk?[31m?a???'
  [2]
  $ cmwq run $'--\e]0;a\a' b
  2|error: unexpected argument '--?]0;a?' found
  2|
  2|  tip: to pass '--?]0;a?' as a value, use '-- --?]0;a?'
  2|
  2|Usage: cmwq run [OPTIONS] <FILE>
  2|
  2|For more information, try '--help'.
  [2]

A word that isn't UTF-8.
  $ cmwq $'\xff'
  2|error: a word of the command line isn't UTF-8
  2|
  2|Usage: cmwq <COMMAND>
  2|
  2|For more information, try '--help'.
  [2]

The help of a command.
  $ cmwq asm --help
  Usage: cmwq asm FILE OUT
  
  Makes the file OUT, the image of a scenario.
  
  Example:
    cmwq asm scenarios/max_active_3.cmwq max_active_3.image
  
  What OUT contained is lost, even if FILE has a fault. OUT can't be FILE itself.
  
  Options:
    --explain  after a fault, says what can be done about it
  
  Exit status:
    0  OUT is the scenario's image
    1  `line 6: Duplicate`: the text's first fault; OUT is empty
    2  the command line is wrong
    3  `read`: FILE can't be read
    3  `write`: OUT can't be made or written
    4  `no memory`

The program alone names the commands.
  $ cmwq
  2|Emulates the concurrency-managed workqueues of the Linux kernel
  2|
  2|Usage: cmwq <COMMAND>
  2|
  2|Options:
  2|  -h, --help     Print help (see more with '--help')
  2|  -V, --version  Print version
  2|
  2|Look:    new, run, draw, debug
  2|Ask:     why, explore, times, check, play
  2|Export:  trace
  2|Files:   settle, list, asm, show
  2|
  2|Begin with `cmwq new first.cmwq`. `cmwq help` says what each command is for.
  [2]

The version, and the logic that the proofs rest on; gate/test_user_files.py says which that is.
  $ cmwq --version > version
  $ sed 's/logic [0-9a-f]*/logic ../' version
  cmwq 0.1.0 (logic ..)

What isn't the words' fault has another status.
  $ cmwq check no_folder/a.cmwq
  2|no_folder/a.cmwq: read
  [3]
