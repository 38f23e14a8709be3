Each command on real files. Below a command's output stands what it says on standard error, each line behind `2|`.
  $ cmwq() {
  >   command cmwq "$@" 2> errors
  >   local status=$?
  >   sed 's/^/2|/' errors
  >   return $status
  > }

A scenario whose steps run out.
  $ cp "$TESTDIR/../../scenarios/steps_run_out.cmwq" a.cmwq

Its run: as far as the actor's instructions go, settled, and with each instruction told. It never gets quiet.
  $ cmwq run a.cmwq
  0 a starts
  0 a queues a
  0 a finishes
  0 a starts
  0 a queues a
  0 a finishes
  0 a starts
  0 refused Spent
  0 a idle runs 0/0
  $ cmwq run --settle a.cmwq
  0 a starts
  0 a queues a
  0 a finishes
  0 a starts
  0 a queues a
  0 a finishes
  0 a starts
  0 refused Spent
  0 a idle runs 0/0
  2|never quiet
  [1]
  $ cmwq run --tell a.cmwq
  # 0 queue a 0
  #   a listed 0
  # 1 next
  0 a starts
  #   a runs 0/0
  # 2 next
  0 a queues a
  #   a inactive 0
  # 3 next
  0 a finishes
  #   a activated 0
  # 4 next
  0 a starts
  #   a runs 0/0
  # 5 next
  0 a queues a
  #   a inactive 0
  # 6 next
  0 a finishes
  #   a activated 0
  # 7 next
  0 a starts
  #   a runs 0/0
  # 8 next
  0 refused Spent
  # 9 state a
  0 a idle runs 0/0
  $ cmwq settle a.cmwq
  2|never quiet
  [1]

Why a work or a flush waits: where the machine is settled, at every position, at one. Of several faults the work's comes before that of the
position, and that before the flush's. Settled are the start and, being the last, the end.
  $ cmwq why a.cmwq a
  at 0 now 0 a not pending
  at 10 now 0 a ready, goes on next; spent
  $ cmwq why a.cmwq a --every
  at 0 now 0 a not pending
  at 1 now 0 a listed 0: free to go, starts next
  at 2 now 0 a ready, goes on next
  at 3 now 0 a ready, goes on next; inactive 0: q has 1 of 1 active: a runs
  at 4 now 0 a listed 0: free to go, starts next
  at 5 now 0 a ready, goes on next
  at 6 now 0 a ready, goes on next; inactive 0: q has 1 of 1 active: a runs
  at 7 now 0 a listed 0: free to go, starts next
  at 8 now 0 a ready, goes on next; spent
  $ cmwq why a.cmwq a --at 6
  at 6 now 0 a ready, goes on next; inactive 0: q has 1 of 1 active: a runs
  $ cmwq why a.cmwq q --at 11
  2|no such work
  [1]
  $ cmwq why a.cmwq a --at 11
  2|past the end
  [1]
  $ cmwq why a.cmwq --flush 0 --at 11
  2|past the end
  [1]
  $ cmwq why a.cmwq --flush 0 --every
  2|no such flush
  [1]

A work is queued and waited for, by flush 0.
  $ cat > flushed.cmwq <<'END'
  > cpus 1
  > workers 1
  > steps 8
  > flushes 1
  > queue q max 1
  > work a q
  > body a
  > burn 1
  > finish
  > actor t
  > queue a 0
  > flush a
  > next * 4
  > END
  $ cmwq why flushed.cmwq --flush 0
  at 4 now 0 flush 0 waits for 1
    a burns
  at 6 now 1 flush 0 done

A picture of a run in which no tick passes; the listing; the image and its listing; a session of the debugger.
  $ cmwq draw a.cmwq
       0
  cpu 0||
  actor||
  ^ at 0: queue a 0
  $ cmwq list a.cmwq
  cpus 1
  workers 4
  steps 8
  flushes 2
  queue q max 1
  work a q
  body a
  queue a 0
  finish
  actor t
  queue a 0
  next * 8
  state a
  $ cmwq asm a.cmwq a.image
  $ od -An -v -tx1 a.image
   43 4d 57 51 00 04 01 04 00 00 00 08 00 02 01 00
   01 01 01 71 00 00 00 00 00 00 00 00 00 00 00 00
   00 00 00 01 00 00 01 61 00 00 00 00 00 00 00 00
   00 00 00 00 00 00 00 02 03 00 00 00 00 00 00 00
   04 00 00 00 00 00 00 00 01 74 00 00 00 00 00 00
   00 00 00 00 00 00 00 00 00 03 10 00 00 00 00 00
   00 00 00 00 00 01 1e 00 00 00 00 00 00 00 00 00
   00 08 21 00 00 00 00 00 00 00 00 00 00 01
  $ cmwq show a.image
  cpus 1
  workers 4
  steps 8
  flushes 2
  queue q max 1
  work a q
  body a
  queue a 0
  finish
  actor t
  queue a 0
  next * 8
  state a
  $ printf 'run\nstep 1' | cmwq debug a.cmwq
  at 10 now 0
  refused PastEnd

A faulty image, and a text in place of an image.
  $ cp a.image changed.image
  > printf '\1' | dd of=changed.image bs=1 seek=37 conv=notrunc status=none
  $ cmwq show changed.image
  2|image: BadField 37
  [1]
  $ cmwq show a.cmwq
  2|image: Magic
  [1]

`check` tells each file's verdict: the good one's on standard output, the others' on standard error. The status is the highest of all.
  $ mkdir checks
  $ printf 'cpus 1\nworkers 1\nsteps 1\nflushes 0\n' > checks/a.cmwq
  $ printf 'cpus 1\n# 65\nworkers\t 65 # too many\n' > checks/b.cmwq
  $ printf 'cpus 1\r\nworkers\r\n' > checks/c.cmwq
  $ printf 'cpus 1\nworkers 1\nsteps 1\nflushes 0\nqueue q max 1\nquue' > checks/d.cmwq
  $ printf 'cpus 1\nworkers 1\nsteps 1\nflushes 0\nqueue q max 1\nactor t\ncancel a\n' > checks/e.cmwq
  $ printf 'cpus 1\nworkers 1\nsteps 1\nflushes 0\nqueue q max 1 highpri unbound cpu_intensive freezable ordered mem_reclaim fast\n' > checks/f.cmwq
  $ printf 'cpus 1\nworkers 1\nsteps 1\nflushes 0\nqueue q max 1\nwork a q\nbody a\ndelay a 0 5\n' > checks/g.cmwq
  $ cmwq check checks/none.cmwq checks/?.cmwq
  checks/a.cmwq: ok
  2|checks/none.cmwq: read
  2|checks/b.cmwq:3:10: 65: Range
  2|  expected here: a number from 1 to 64
  2|checks/c.cmwq:2:8: end of line: MissingWord
  2|  expected here: a number from 1 to 64
  2|  workers N: the number N is missing
  2|checks/d.cmwq:6:1: quue: BadWord
  2|  a line here may begin with: queue, work, actor
  2|  did you mean queue?
  2|checks/e.cmwq:7:8: a: Unknown
  2|  a line here may begin with: flush_queue, set_max, freeze, thaw, fire, step, tick, next, ask, busy, pressure, relief, until, wait, quiet, actor
  2|checks/f.cmwq:5:75: fast: BadWord
  2|  the line should end here
  2|checks/g.cmwq:8:11: 5: ExtraWord
  2|  the line should end here
  [3]

A carriage return within a line is part of its word. What is said of C and of a kernel's words stands in place of what is meant.
  $ printf 'cpus 1\r 2\n' > checks/h.txt
  $ printf 'cpus 1\r # one\n' > checks/i.txt
  $ printf 'cpus 1 /* one */\n' > checks/j.txt
  $ printf 'cpus 1\nworkers 1\nsteps 1\nflushes 0\nqueue q max_active 1\n' > checks/k.txt
  $ cmwq check checks/?.txt
  2|checks/h.txt:1:6: 1?: BadNumber
  2|  expected here: a number from 1 to 16
  2|checks/i.txt:1:6: 1?: BadNumber
  2|  expected here: a number from 1 to 16
  2|checks/j.txt:1:8: /*: ExtraWord
  2|  the line should end here
  2|  a comment begins with #, and ends with its line
  2|checks/k.txt:5:9: max_active: BadWord
  2|  expected here: max
  2|  a kernel's max_active is written here: queue NAME max N FLAG..
  [1]

At a terminal each fault's line is shown, with a caret, and the reason is red. Standard output is a file here.
  $ export TERM=xterm NO_COLOR=
  $ script -qec 'stty -opost; cmwq check checks/none.cmwq checks/?.cmwq > output' /dev/null
  checks/none.cmwq: read
  checks/b.cmwq:3:10: 65: \x1b[1;31mRange\x1b[0m (esc)
    workers\t 65 # too many (esc)
           \t ^ (esc)
    expected here: a number from 1 to 64
  checks/c.cmwq:2:8: end of line: \x1b[1;31mMissingWord\x1b[0m (esc)
    workers 
           ^
    expected here: a number from 1 to 64
    workers N: the number N is missing
  checks/d.cmwq:6:1: quue: \x1b[1;31mBadWord\x1b[0m (esc)
    quue
    ^
    a line here may begin with: queue, work, actor
    did you mean queue?
  checks/e.cmwq:7:8: a: \x1b[1;31mUnknown\x1b[0m (esc)
    cancel a
           ^
    a line here may begin with: flush_queue, set_max, freeze, thaw, fire, step, tick, next, ask, busy, pressure, relief, until, wait, quiet, actor
  checks/f.cmwq:5:75: fast: \x1b[1;31mBadWord\x1b[0m (esc)
    queue q max 1 highpri unbound cpu_intensive freezable ordered mem_reclaim fast
                                                                              ^
    the line should end here
  checks/g.cmwq:8:11: 5: \x1b[1;31mExtraWord\x1b[0m (esc)
    delay a 0 5
              ^
    the line should end here
  [3]
  $ cat output
  checks/a.cmwq: ok

`new` writes a scenario to start from, and overwrites nothing.
  $ cmwq new
  # Two work items share a CPU: b starts when a goes to sleep.
  #
  #   cmwq run FILE         prints a line for each event
  #   cmwq draw FILE        draws a picture of it
  #   cmwq why FILE b       prints what b waits for, each time that this changes
  #   cmwq debug FILE       steps through it, forward and back
  #   cmwq help scenario    prints what a scenario may contain
  #
  # Then try max 1: b waits until a has finished, though the CPU is free from 3 to 8.
  
  cpus 1           # the machine has one CPU,
  workers 4        # at most 4 workers per pool,
  steps 1000       # and accepts at most 1000 instructions
  flushes 0
  
  queue q max 2    # a queue that can have two active work items
  work a q
  work b q
  
  body a           # what the work function of a does:
  burn 3           # it needs the CPU for 3 ticks,
  sleep 5          # sleeps for 5 ticks without it,
  burn 1           # and needs it for 1 more tick
  finish
  
  body b
  burn 4
  finish
  
  actor me         # what the caller does:
  queue a 0        # it queues both work items on CPU 0,
  queue b 0
  quiet * 100      # and waits until both have finished, for at most 100 moves and ticks
  $ cmwq new first.cmwq
  $ cmwq new | cmp - first.cmwq
  $ printf mine > first.cmwq
  $ cmwq new first.cmwq
  2|write
  [3]
  $ cat first.cmwq
  mine (no-eol)

`asm` makes OUT before it opens FILE: where FILE isn't there or has a fault, OUT is empty. Where one path is both, nothing is lost.
  $ printf 'an older image' > older.image
  $ cmwq asm none.cmwq older.image
  2|read
  [3]
  $ wc -c < older.image
  0
  $ printf 'cpus 17\n' > faulty.cmwq
  $ printf 'an older image' > older.image
  $ cmwq asm faulty.cmwq older.image
  2|line 1: Range
  [1]
  $ wc -c < older.image
  0
  $ cmwq asm faulty.cmwq faulty.cmwq
  2|write
  [3]
  $ cat faulty.cmwq
  cpus 17

So is it where standard input is read from OUT, by another path too.
  $ cmwq asm - faulty.cmwq < faulty.cmwq
  2|write
  [3]
  $ cmwq trace --dat ./faulty.cmwq - < faulty.cmwq
  2|write
  [3]
  $ ln faulty.cmwq other.cmwq
  $ cmwq trace - --dat other.cmwq --explain < faulty.cmwq
  2|write
  2|  other.cmwq is the scenario's own text; trace doesn't overwrite it
  [3]
  $ cat faulty.cmwq
  cpus 17
  $ cmwq asm - other.image < faulty.cmwq
  2|line 1: Range
  [1]
  $ rm other.cmwq other.image

A file that can't be opened is a failed read, and one that can't be made a failed write.
  $ cmwq run no_folder/a.cmwq
  2|read
  [3]
  $ cmwq settle no_folder/a.cmwq
  2|read
  [3]
  $ cmwq list no_folder/a.cmwq
  2|read
  [3]
  $ cmwq show no_folder/a.image
  2|read
  [3]
  $ cmwq debug no_folder/a.cmwq
  2|read
  [3]
  $ cmwq play no_folder/a.cmwq --capacity 1
  2|read
  [3]
  $ cmwq asm no_folder/a.cmwq no_folder/a.image
  2|write
  [3]
  $ cmwq new no_folder/a.cmwq
  2|write
  [3]
  $ cmwq why no_folder/a.cmwq a
  2|read
  [3]
