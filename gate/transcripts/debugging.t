What a debugger says to its commands.

The kernel's document's works, from its worked example.
  $ cat > max_active_3.cmwq << .
  > cpus 1
  > workers 4
  > steps 1000
  > flushes 2
  > queue q max 3
  > work w0 q
  > work w1 q
  > work w2 q
  > body w0
  > burn 5
  > sleep 10
  > burn 5
  > finish
  > body w1
  > burn 5
  > sleep 10
  > finish
  > body w2
  > burn 5
  > sleep 10
  > finish
  > actor t
  > queue w0 0
  > queue w1 0
  > queue w2 0
  > next * 41
  > .

There and back on the kernel's document's works.
  $ cmwq debug max_active_3.cmwq << .
  > goto 12
  > dump
  > break work w0 event wakes
  > run
  > back 28
  > back 1
  > step 45
  > clear 1
  > .
  at 12 now 5
  now 5 spent 12 frozen no
  queue q max 3
  pool 0 counted 1 made 2 idle
  run w1 1 0 0
  asleep w0 0 2 15
  listed w2
  pool 1 counted 0 made 0 idle
  pool 2 counted 0 made 0 idle
  pool 3 counted 0 made 0 idle
  break 0
  at 28 now 15 break 0
  at 0 now 0
  refused PastStart
  refused PastEnd
  refused NoSuchBreak

A last line that no line feed ends.
  $ printf 'step\nhello' | cmwq debug max_active_3.cmwq
  at 1 now 0
  bad command

Behind `quit` nothing is answered.
  $ printf 'step\nquit\nstep\n' | cmwq debug max_active_3.cmwq
  at 1 now 0
  $ printf 'step\nquit\nst' | cmwq debug max_active_3.cmwq
  at 1 now 0
  $ printf 'step\nquit' | cmwq debug max_active_3.cmwq
  at 1 now 0

Lines that say nothing, and one that ends as on other systems.
  $ printf '\n  \t# nothing\nstep 1 # one instruction\r\n' | cmwq debug max_active_3.cmwq
  at 1 now 0

Lines that aren't commands, and commands that are refused.
  $ cmwq debug max_active_3.cmwq << .
  > Step 1
  > step 01
  > step 4294967296
  > step 1 2 3 4 5 6 7 8 9 10 11
  > step 4294967295
  > .
  bad command
  bad command
  bad command
  bad command
  refused PastEnd
  $ cmwq debug max_active_3.cmwq << .
  > clear 256
  > clear 255
  > run 1
  > dump pool
  > dump pool 4
  > dump pool 1
  > .
  bad command
  refused NoSuchBreak
  bad command
  bad command
  refused NoSuchPool
  pool 1 counted 0 made 0 idle
  $ cmwq debug max_active_3.cmwq << .
  > break work w3 event wakes
  > break work A event wakes
  > break work w3 event waking
  > .
  refused NoSuchWork
  refused NoSuchWork
  bad command
  $ cmwq debug max_active_3.cmwq << .
  > why
  > why w3
  > why w1 w2
  > why flush
  > why flush 0
  > why flush 4294967295
  > why flush 4294967296
  > why flush w1
  > why flush 0 0
  > .
  bad command
  refused NoSuchWork
  bad command
  refused NoSuchWork
  refused NoSuchFlush
  refused NoSuchFlush
  bad command
  bad command
  bad command
  $ cmwq debug max_active_3.cmwq << .
  > break time 20
  > run
  > clear 0
  > run
  > run
  > .
  break 0
  at 34 now 20 break 0
  cleared 0
  at 44 now 25
  refused PastEnd

Words that are cut short, and breaks as they are listed.
  $ cmwq debug max_active_3.cmwq << .
  > l
  > s
  > step
  > st 3
  > back
  > ba 4
  > b 1
  > steps
  > g 12 # goto
  > br work w0 event wakes
  > br work w0 event wake
  > bre t 5
  > brea activates w2
  > break activates w3
  > break activates
  > break activates w1 w2
  > break refusal
  > break time 17
  > c 2
  > list
  > list 1
  > help 1
  > quit 1
  > h
  > .
  no breaks
  at 1 now 0
  at 2 now 0
  at 5 now 0
  at 4 now 0
  at 0 now 0
  bad command
  bad command
  at 12 now 5
  break 0
  bad command
  bad command
  break 1
  refused NoSuchWork
  bad command
  bad command
  break 2
  break 3
  cleared 2
  break 0 work w0 event wakes
  break 1 activates w2
  break 3 time 17
  bad command
  bad command
  bad command
  step [N]: goes forward by N instructions, or by 1
  back [N]: goes back by N instructions, or by 1
  goto K: goes to position K
  break work W event E | time T | refusal | activates W: makes a break
  clear I: removes break I
  list: prints the breaks
  run: goes forward up to the first instruction that a break matches, or to the end
  next event: goes forward up to the first instruction that prints a line, or to the end
  dump [pool P]: prints the state, or what is in pool P
  why W | flush F: prints what work item W or flush F waits for
  help: prints the commands; the first word may be cut short if it begins only one command
  quit: ends the session

A queue of one: the first work is listed as it is queued, the others are inactive. Then the second one goes to the other CPU, anew, where it is listed, and the first is taken off, which activates the third.
  $ cat > three_placed.cmwq << .
  > cpus 2
  > workers 1
  > steps 100
  > flushes 0
  > queue q max 1
  > work a q
  > work b q
  > work c q
  > body a
  > finish
  > body b
  > finish
  > body c
  > finish
  > actor t
  > queue a 0
  > queue b 0
  > queue c 0
  > mod b 1 0
  > cancel a
  > .

A break on activation stops where an inactive work is listed, and at no placing.
  $ cmwq debug three_placed.cmwq << .
  > break activates a
  > break activates b
  > break activates c
  > run
  > dump pool 0
  > back
  > dump pool 0
  > clear 2
  > run
  > run
  > .
  break 0
  break 1
  break 2
  at 5 now 0 break 2
  pool 0 counted 0 made 0 idle
  listed c
  at 4 now 0
  pool 0 counted 0 made 0 idle
  listed a
  inactive c
  cleared 2
  at 5 now 0
  refused PastEnd

Bodies that set timers.
  $ cat > timers_of_bodies.cmwq << .
  > cpus 2
  > workers 2
  > steps 1000
  > flushes 1
  > queue q max 1
  > queue u max 2 unbound
  > work a q
  > work b q
  > work c u
  > body a
  > delay b 3
  > delay b 5
  > mod b 0
  > cancel b
  > cancel b
  > mod a 2
  > finish
  > body b
  > finish
  > body c
  > mod b 1
  > burn 1
  > cancel a
  > finish
  > actor t
  > queue a 1
  > next * 7
  > state a
  > next
  > queue c 0
  > next * 2
  > state b
  > next * 3
  > state b
  > next * 4
  > state a
  > next
  > fire
  > .

Breaks on what bodies do with other works, whatever it comes to.
  $ cmwq debug timers_of_bodies.cmwq << .
  > break work a event delays
  > break work a event mods
  > break work c event cancels
  > break work b event delay
  > run
  > why b
  > run
  > run
  > dump pool 2
  > run
  > run
  > list
  > run
  > .
  break 0
  break 1
  break 2
  bad command
  at 3 now 0 break 0
  b timer until 3 cpu 1
  at 4 now 0 break 0
  at 5 now 0 break 1
  pool 2 counted 1 made 1 idle
  run a 0 3 0
  inactive b
  at 8 now 0 break 1
  at 21 now 1 break 2
  break 0 work a event delays
  break 1 work a event mods
  break 2 work c event cancels
  at 25 now 2

A scenario that comes to a state with all kinds of works, workers, timers and flushes.
  $ cat > many_kinds.cmwq << .
  > cpus 1
  > workers 8
  > steps 1000
  > flushes 2
  > queue q max 8
  > queue f max 1 freezable
  > work s q
  > work t q
  > work u q
  > work a q
  > work b q
  > work r q
  > work l q
  > work d f
  > work e f
  > work g q
  > work h q
  > body s
  > sleep 1
  > finish
  > body t
  > sleep 2
  > finish
  > body u
  > sleep 3
  > finish
  > body a
  > queue a 0
  > sleep 9
  > finish
  > body b
  > sleep 8
  > finish
  > body r
  > burn 5
  > finish
  > body l
  > finish
  > body d
  > finish
  > body e
  > finish
  > body g
  > finish
  > body h
  > finish
  > actor x
  > queue s 0
  > queue t 0
  > queue u 0
  > queue a 0
  > queue b 0
  > next * 21
  > queue r 0
  > queue l 0
  > next * 3
  > delay h 0 20
  > delay g 0 20
  > queue d 0
  > queue e 0
  > flush a
  > flush s
  > set_max q 9
  > freeze
  > pressure
  > disable u
  > disable s
  > disable u
  > .

A dump with a line of each kind.
  $ cmwq debug many_kinds.cmwq << .
  > run
  > dump
  > .
  at 43 now 4
  now 4 spent 43 frozen yes
  pressed
  queue q max 9
  queue f max 1
  pool 0 counted 1 made 5 idle 1 0
  run r 2 1 4
  asleep b 4 1 8
  asleep a 3 2 9
  listed l
  listed d
  deferred a
  inactive e
  pool 1 counted 0 made 0 idle
  pool 2 counted 0 made 0 idle
  pool 3 counted 0 made 0 idle
  timer h 0 24
  timer g 0 24
  disabled s 1
  disabled u 2
  flush 0 no
  flush 1 yes

A work that waits for another one's place in their queue, which is called as the command's word for flushes is.
  $ cat > a_flush.cmwq << .
  > cpus 1
  > workers 2
  > steps 100
  > flushes 1
  > queue q max 1
  > work a q
  > work flush q
  > body a
  > burn 1
  > finish
  > body flush
  > burn 1
  > finish
  > actor t
  > queue a 0
  > queue flush 0
  > flush flush
  > next * 2
  > .

A work and a flush are told apart by what stands behind `why flush`.
  $ cmwq debug a_flush.cmwq << .
  > why flush
  > why flush 0
  > goto 5
  > why flush # the work
  > why flush 0
  > why flush 1
  > .
  flush not pending
  refused NoSuchFlush
  at 5 now 0
  flush inactive 0: q has 1 of 1 active: a runs
  flush 0 waits for 1
    flush inactive 0: q has 1 of 1 active: a runs
      a burns
  refused NoSuchFlush

A long wait, over which checkpoints become too many.
  $ cat > a_long_wait.cmwq << .
  > cpus 1
  > workers 1
  > steps 20000
  > flushes 0
  > actor x
  > tick * 16448
  > .

Ways there and back on the long wait, of which each says the same however often it is gone.
  $ cmwq debug a_long_wait.cmwq << .
  > goto 700
  > dump pool 0
  > goto 699
  > goto 127
  > goto 640
  > goto 63
  > dump pool 0
  > goto 700
  > .
  at 700 now 700
  pool 0 counted 0 made 0 idle
  at 699 now 699
  at 127 now 127
  at 640 now 640
  at 63 now 63
  pool 0 counted 0 made 0 idle
  at 700 now 700

The long way.
  $ cmwq debug a_long_wait.cmwq << .
  > goto 1000
  > back 1
  > goto 16384
  > goto 16448
  > back 16448
  > back 1
  > .
  at 1000 now 1000
  at 999 now 999
  at 16384 now 16384
  at 16448 now 16448
  at 0 now 0
  refused PastStart
