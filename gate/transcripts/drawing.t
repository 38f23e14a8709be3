What a picture shows as text.

The letter `x` is the sign of an inactive work, so a work that is called `x` has another letter. Here `x` sets the timer of `b` in its first tick, and
the actor freezes the machine at tick 2. The legend says what `*` is.

  $ cat >letters.cmwq <<'END'
  > cpus 1
  > workers 4
  > steps 100
  > flushes 0
  > queue q max 2
  > work x q
  > work b q
  > body x
  > delay b 2
  > burn 1
  > finish
  > body b
  > burn 1
  > finish
  > actor t
  > queue x 0
  > next * 9
  > freeze
  > next * 2
  > END
  $ cmwq draw letters.cmwq
        0
  a x   |#  |
  b     |a~#|
  cpu 0 |a b|
  frozen|  *|
  actor |^ ^|
  # burns  ~ on a timer  * in effect  ^ the actor acts
  letter: on a timer set by that work
  ^ at 0: queue x 0
  ^ at 2: freeze

What the actor does after the last tick is shown, also if `--to` is the time at which the run ends. An end before that cuts it off.

  $ cat >ending.cmwq <<'END'
  > cpus 1
  > workers 1
  > steps 100
  > flushes 0
  > queue q max 1
  > work a q
  > body a
  > burn 2
  > finish
  > actor t
  > queue a 0
  > next * 5
  > queue a 0
  > END
  $ cmwq draw --to 2 ending.cmwq
       0
  a    |##|
  cpu 0|aa|
  actor|^ |
  # burns  ^ the actor acts
  ^ at 0: queue a 0
  ^ at 2: queue a 0
  $ cmwq draw --to 1 ending.cmwq
       0
  a    |#|
  cpu 0|a|
  actor|^|
  # burns  ^ the actor acts
  ^ at 0: queue a 0
  $ cmwq draw --from 2 --to 2 ending.cmwq
       2
  cpu 0||
  actor||
  ^ at 2: queue a 0
