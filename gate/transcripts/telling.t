What `run --tell` writes of instructions that have come, and how the debugger goes past them.

A work burns a tick while its actor goes on until nothing is left. Then all that the actor goes on for has come, but for a flush that there isn't and
a time that is to come.

  $ cat >come.cmwq <<'END'
  > cpus 1
  > workers 4
  > steps 100
  > flushes 2
  > queue q max 1
  > work a q
  > body a
  > burn 1
  > finish
  > actor t
  > queue a 0
  > flush a
  > quiet * 6
  > quiet
  > until 1 * 2
  > until 0
  > wait 0 * 3
  > wait 1 * 2
  > quiet
  > until 2 * 3
  > END
  $ cmwq run --tell come.cmwq
  # 0 queue a 0
  #   a listed 0
  # 1 flush a
  0 flush 0
  # 2 quiet
  0 a starts
  #   a runs 0/0
  # 3 quiet
  0 a burns 1
  # 4 quiet
  #   now 1
  # 5 quiet
  1 a finishes
  # 6 to 8 quiet: nothing is pending or runs
  # 9 to 10 until 1: it is 1 or later
  # 11 until 0
  # 12 to 14 wait 0: flush 0 is done
  # 15 wait 1
  1 refused NoSuchFlush
  # 16 wait 1
  1 refused NoSuchFlush
  # 17 quiet
  # 18 until 2
  #   now 2
  # 19 to 20 until 2: it is 2 or later

The debugger goes from line to line of the run, and then to the end. A break on the tick doesn't stop it.

  $ printf 'break time 1\nnext event\nn event\nnext event\nnext event\nnext event\nnext event\nnext event\nnext event\nnext\nnext event 2\nnext line\n' | cmwq debug come.cmwq
  break 0
  at 2 now 0
  at 3 now 0
  at 4 now 0
  at 6 now 1
  at 16 now 1
  at 17 now 1
  at 21 now 2
  refused PastEnd
  bad command
  bad command
  bad command
