How a scenario's text is run, and which texts aren't.

A text that isn't as it would be listed is run.

  $ printf '# a lesson\r\ncpus 1\r\n\tworkers  1\n\nsteps 8 # few\nflushes 0\nqueue o max 1 ordered unbound\nactor t\nstep 9 * 1' | cmwq run -
  0 refused NoSuchPool

Eight commands tell a text's first fault, and nothing else, whatever they are asked of its run. Counted is how many say a line, and how many
end with a status.

  $ commands='run text
  > run --settle text
  > settle text
  > why text none --at 9999999999
  > why --settle text --flush 0 --time 9999999999
  > list text
  > asm text image
  > debug text'
  $ tell() { echo "$1" | while read words; do cmwq $words 2>&1 </dev/null; echo status $?; done | sort | uniq -c; }
  $ refuse() { printf "$1" >text; tell "$commands"; }
  $ refuse ''
        8 line 1: MissingWord
        8 status 1
  $ refuse 'cpus 17'
        8 line 1: Range
        8 status 1
  $ refuse 'cpus 16'
        8 line 2: MissingWord
        8 status 1
  $ refuse 'cpus 1\nworkers 1\nsteps 8\nflushes 0\nqueue q max 1\nqueue q max 2\n'
        8 line 6: Duplicate
        8 status 1
  $ refuse 'cpus 1\nworkers 1\nsteps 8\nflushes 0\nactor t\ndance\n'
        8 line 6: BadWord
        8 status 1
  $ refuse 'cpus 1\nworkers 1\nsteps 8\nflushes 0\nactor t\ntick 1\n'
        8 line 6: ExtraWord
        8 status 1
  $ refuse 'cpus 1\nworkers 1\nsteps 8\nflushes 0\nactor t\n\nask 65536\n'
        8 line 7: Range
        8 status 1
  $ refuse 'cpus 1\nworkers 1\nsteps 8\nflushes 0\nactor t\nstate a\n'
        8 line 6: Unknown
        8 status 1
  $ refuse 'cpus 1\nworkers 1\nsteps 8\nflushes 0\nqueue q max 2 ordered\nactor t\n'
        8 line 5: BadFlags
        8 status 1
  $ refuse 'cpus 1\nworkers 1\nsteps 8\nflushes 0\nqueue q max 1\nwork a q\nbody a\nburn 1\nactor t\n'
        8 line 9: BadBody
        8 status 1

Six of these run a text. They take one actor alone, and neither none nor two.

  $ running=$(echo "$commands" | grep -v -e list -e asm)
  $ refuse_to_run() { printf "$1" >text; tell "$running"; }
  $ refuse_to_run 'cpus 1\nworkers 1\nsteps 8\nflushes 0\n'
        6 actors
        6 status 1
  $ refuse_to_run 'cpus 1\nworkers 1\nsteps 8\nflushes 0\nactor t\nactor u\n'
        6 actors
        6 status 1

A run issues 1,048,576 instructions and no more: here as many `next`, and a question.

  $ long() { printf 'cpus 1\nworkers 1\nsteps 4294967295\nflushes 0\nactor t\n'; yes 'next * 65535' | head -n $1; printf "$2"; }
  $ long 16 'next * 15\nbusy\n' >text
  $ cmwq run text
  1048575 no
  $ cmwq why text --flush 0 --at 1048576
  no such flush
  [1]
  $ cmwq why text --flush 0 --at 1048577
  past the end
  [1]

Of 1,048,577 instructions, and of 1,114,095, none is issued. That there is a second actor is told before.

  $ long 16 'next * 16\nbusy\n' >text
  $ tell "$running"
        6 full
        6 status 4
  $ long 17 '' >text
  $ tell "$running"
        6 full
        6 status 4
  $ long 17 'actor u\n' >text
  $ tell "$running"
        6 actors
        6 status 1

A picture has 500 columns and no more: of freezes and thaws, with a tick behind each, none is folded.

  $ restless() { long 0 ''; for pair in $(seq 250); do printf 'freeze\nnext\nthaw\nnext\n'; done; printf "$1"; }
  $ restless 'freeze\nnext\n' >text
  $ cmwq draw --settle text
  more than 500 columns: give --from and --to
  [2]
  $ cmwq draw --settle --svg text
  more than 500 columns: give --from and --to
  [2]
  $ restless '' >text
  $ cmwq draw --settle text >picture
  $ [ -s picture ]

501 ticks in which nothing is done are folded.

  $ long 0 'next * 501\n' >text
  $ cmwq draw --settle text >picture
  $ [ -s picture ]

`run --strict` prints what `run` prints. Then it says how many instructions were refused, and how many were issued before the first of them.
  $ strictly() { cmwq run --strict "$@" >printed 2>errors; echo "status $?"; cat errors; }
  $ printf '%s\n' 'cpus 1' 'workers 1' 'steps 8' 'flushes 0' 'queue q max 1' 'work a q' 'body a' 'burn 2' finish 'actor t' 'queue a 0' 'thaw * 2' 'next' >twice
  $ strictly twice
  status 1
  refused 2 instructions, first at position 1
  $ cat printed
  0 refused NotFrozen
  0 refused NotFrozen
  0 a starts
  $ strictly --settle --tell - <twice
  status 1
  refused 2 instructions, first at position 1
  $ cmwq run --settle --tell twice | cmp - printed
  $ strictly <(cat twice)
  status 1
  refused 2 instructions, first at position 1
  $ sed 's/thaw \* 2/thaw/' twice >once
  $ strictly once
  status 1
  refused 1 instruction, at position 1
  $ grep -v thaw twice >none
  $ strictly none
  status 0
  $ cmwq run none | cmp - printed

Behind the line a remark tells the line of the text. Spent steps refuse whatever needs one; no `next` that `--settle` adds is refused. A fault is told alone.
  $ strictly --explain --settle twice
  status 1
  refused 2 instructions, first at position 1
  2 instructions were refused, the first in line 12
  $ sed 's/steps 8/steps 1/' twice >spent
  $ strictly spent
  status 1
  refused 3 instructions, first at position 1
  $ strictly --settle spent
  status 1
  never quiet
  $ strictly nowhere
  status 3
  read
