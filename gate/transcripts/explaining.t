Why works wait, and what flushes wait for. (scenarios/ has the answers for whole runs.)
Two works share the one place of a queue; a third takes the CPU.

  $ cp "$TESTDIR/../../scenarios/holds_the_limit.cmwq" hold.cmwq

The kernel's document's works under `max_active` 3, before any `next`.

  $ grep -v "^next" "$TESTDIR/../../scenarios/max_active_3.cmwq" >unsettled.cmwq

One position or one time alone, the first and the last among them, whatever is told before it.

  $ cmwq why hold.cmwq b --at 0
  at 0 now 0 b not pending
  $ cmwq why hold.cmwq b --at 12
  at 12 now 3 b inactive 0: q has 1 of 1 active: a runs
  $ cmwq why hold.cmwq b --at 24
  at 24 now 9 b not pending
  $ cmwq why hold.cmwq --flush 0 --at 3
  at 3 now 0 flush 0 waits for 2
    a listed 0: free to go, starts next
    b inactive 0: q has 1 of 1 active: a listed
  $ cmwq why hold.cmwq --flush 0 --at 24
  at 24 now 9 flush 0 done
  $ cmwq why unsettled.cmwq w2 --at 3
  at 3 now 0 w2 listed 0 ahead w0 w1: after w0; the actor has stopped
  $ cmwq why unsettled.cmwq w2 --at 2
  at 2 now 0 w2 not pending
  $ cmwq why hold.cmwq b --time 0
  at 0 now 0 b not pending
  at 5 now 0 b inactive 0: q has 1 of 1 active: a runs
  $ cmwq why hold.cmwq b --time 4
  at 14 now 4 b inactive 0: q has 1 of 1 active: a asleep until 5
  $ cmwq why hold.cmwq b --time 5
  at 19 now 5 b burns
  $ cmwq why hold.cmwq --flush 0 --time 9
  at 24 now 9 flush 0 done
  $ cmwq why unsettled.cmwq w2 --time 0
  at 0 now 0 w2 not pending
  at 3 now 0 w2 listed 0 ahead w0 w1: after w0; the actor has stopped

Positions of a settled run, the last among them: there the machine is quiet, so that no actor stops.

  $ cmwq why --settle unsettled.cmwq w2 --at 3
  at 3 now 0 w2 listed 0 ahead w0 w1: after w0
  $ cmwq why --settle unsettled.cmwq w2 --at 44
  at 44 now 25 w2 not pending
  $ cmwq why --settle unsettled.cmwq w0 --time 25
  at 44 now 25 w0 not pending

A name that isn't one of a work is told before a position that there isn't.

  $ cmwq why unsettled.cmwq ''
  no such work
  [1]
  $ cmwq why unsettled.cmwq w --every
  no such work
  [1]
  $ cmwq why unsettled.cmwq w00 --at 0
  no such work
  [1]
  $ cmwq why unsettled.cmwq q
  no such work
  [1]
  $ cmwq why unsettled.cmwq W0
  no such work
  [1]
  $ cmwq why unsettled.cmwq w --at 9999999999
  no such work
  [1]

A position that there isn't is told before a flush that isn't given.

  $ cmwq why unsettled.cmwq w0 --at 4
  past the end
  [1]
  $ cmwq why unsettled.cmwq --flush 0 --at 4
  past the end
  [1]
  $ cmwq why hold.cmwq b --at 25
  past the end
  [1]
  $ cmwq why hold.cmwq b --at 9999999999
  past the end
  [1]
  $ cmwq why hold.cmwq --flush 0 --at 25
  past the end
  [1]
  $ cmwq why hold.cmwq --flush 1 --at 9999999999
  past the end
  [1]
  $ cmwq why unsettled.cmwq w0 --time 1
  past the end
  [1]
  $ cmwq why hold.cmwq b --time 10
  past the end
  [1]
  $ cmwq why hold.cmwq --flush 1 --time 10
  past the end
  [1]

Flushes that aren't given, or not yet. The last one is refused.

  $ cat >refused.cmwq <<end
  > cpus 1
  > workers 1
  > steps 8
  > flushes 0
  > queue q max 1
  > actor t
  > flush_queue q
  > end
  $ cmwq why unsettled.cmwq --flush 0
  no such flush
  [1]
  $ cmwq why unsettled.cmwq --flush 0 --at 3
  no such flush
  [1]
  $ cmwq why hold.cmwq --flush 0 --at 2
  no such flush
  [1]
  $ cmwq why hold.cmwq --flush 1
  no such flush
  [1]
  $ cmwq why hold.cmwq --flush 1 --every
  no such flush
  [1]
  $ cmwq why hold.cmwq --flush 1 --time 9
  no such flush
  [1]
  $ cmwq why hold.cmwq --flush 9999999999 --at 24
  no such flush
  [1]
  $ cmwq why refused.cmwq --flush 0 --every
  no such flush
  [1]

A run of which there would be much to tell, but for its last line: a fault of the text is told before all of these.

  $ printf 'cpus 1\nworkers 1\nsteps 8\nflushes 1\nqueue q max 1\nwork a q\nbody a\nfinish\nactor t\nqueue a 0\nflush a\nnext * 2\nqueue b 0' >last.cmwq
  $ cmwq why last.cmwq a --every
  line 13: Unknown
  [1]
  $ cmwq why last.cmwq --flush 0
  line 13: Unknown
  [1]
  $ cmwq why last.cmwq '' --at 9999999999
  line 13: Unknown
  [1]
  $ cmwq why last.cmwq --flush 1 --at 9999999999
  line 13: Unknown
  [1]

A work that is disabled 65,536 times, the last of which is refused, and then enabled: each depth has its line.

  $ cat >deepest.cmwq <<end
  > cpus 1
  > workers 1
  > steps 70000
  > flushes 0
  > queue q max 1
  > work a q
  > body a
  > finish
  > actor t
  > disable a * 65535
  > disable a
  > enable a
  > end
  $ { echo at 0 now 0 a not pending; for depth in $(seq 65535); do echo at $depth now 0 a disabled $depth; done; echo at 65537 now 0 a disabled 65534; } >depths
  $ cmwq why deepest.cmwq a >told && cmp depths told
  $ cmwq why deepest.cmwq a --every >told && cmp depths told
