The kernel's document's works under `max_active` 3, before any `next`. Their run is drawn, listed with the lines that settle it, and printed.

  $ grep -v "^next" "$TESTDIR/../../scenarios/max_active_3.cmwq" >unsettled.cmwq
  $ cmwq draw --settle unsettled.cmwq
       0    5    10   15   20   25
  0 w0 |#####..........#####     |
  1 w1 |-----#####..........     |
  2 w2 |----------#####..........|
  cpu 0|00000111112222200000     |
  actor|^                        |
  # burns  . asleep  - listed  ^ the actor acts
  ^ at 0: queue w0 0, queue w1 0, queue w2 0
  $ cmwq settle unsettled.cmwq
  cpus 1
  workers 4
  steps 1000
  flushes 2
  queue q max 3
  work w0 q
  work w1 q
  work w2 q
  body w0
  burn 5
  sleep 10
  burn 5
  finish
  body w1
  burn 5
  sleep 10
  finish
  body w2
  burn 5
  sleep 10
  finish
  actor t
  queue w0 0
  queue w1 0
  queue w2 0
  next * 41
  $ cmwq run --settle unsettled.cmwq
  0 w0 starts
  0 w0 burns 5
  5 w0 sleeps 10
  5 w1 starts
  5 w1 burns 5
  10 w1 sleeps 10
  10 w2 starts
  10 w2 burns 5
  15 w2 sleeps 10
  15 w0 wakes
  15 w0 burns 5
  20 w0 finishes
  20 w1 wakes
  20 w1 finishes
  25 w2 wakes
  25 w2 finishes

What is settled stays as it is.

  $ cmwq settle unsettled.cmwq >settled.cmwq
  $ cmwq settle settled.cmwq >again && cmp settled.cmwq again
  $ cmwq run --settle settled.cmwq
  0 w0 starts
  0 w0 burns 5
  5 w0 sleeps 10
  5 w1 starts
  5 w1 burns 5
  10 w1 sleeps 10
  10 w2 starts
  10 w2 burns 5
  15 w2 sleeps 10
  15 w0 wakes
  15 w0 burns 5
  20 w0 finishes
  20 w1 wakes
  20 w1 finishes
  25 w2 wakes
  25 w2 finishes

A work that queues itself is never quiet: three `next` are a round, and the first of twenty steps is the actor's, so there are six rounds and
the 19th `next`. `run --settle` has printed them; else nothing is printed, whatever is asked.

  $ cat >queues_itself.cmwq <<end
  > cpus 1
  > workers 1
  > steps 20
  > flushes 0
  > queue q max 1
  > work a q
  > body a
  > queue a 0
  > finish
  > actor t
  > queue a 0
  > end
  $ cmwq run --settle queues_itself.cmwq
  0 a starts
  0 a queues a
  0 a finishes
  0 a starts
  0 a queues a
  0 a finishes
  0 a starts
  0 a queues a
  0 a finishes
  0 a starts
  0 a queues a
  0 a finishes
  0 a starts
  0 a queues a
  0 a finishes
  0 a starts
  0 a queues a
  0 a finishes
  0 a starts
  never quiet
  [1]
  $ cmwq settle queues_itself.cmwq
  never quiet
  [1]
  $ cmwq run --settle --tell queues_itself.cmwq
  never quiet
  [1]
  $ cmwq why --settle queues_itself.cmwq a
  never quiet
  [1]
  $ cmwq why --settle queues_itself.cmwq none --every
  never quiet
  [1]

A settled actor has 4,096 lines at most: one who queues a work and then asks 4,094 times, a line each, takes the line that settles him. With one
question more he can't be listed, and is run.

  $ asking() { printf 'cpus 1\nworkers 1\nsteps 9\nflushes 0\nqueue q max 1\nwork a q\nbody a\nfinish\nactor t\nqueue a 0\n'; yes busy | head -n $1; }
  $ asking 4094 >fits.cmwq
  $ { cat fits.cmwq; echo 'next * 2'; } >settled.cmwq
  $ cmwq settle fits.cmwq >again && cmp settled.cmwq again
  $ asking 4095 >full.cmwq
  $ cmwq settle full.cmwq
  full
  [4]
  $ cmwq run --settle full.cmwq >lines
