Images. That of a work that queues itself until the steps are spent, whose bytes docs/FORMATS.md tells field by field.

  $ cp "$TESTDIR/../../scenarios/steps_run_out.cmwq" text
  $ cmwq asm text image
  $ od -An -tx1 -v -w18 image
   43 4d 57 51 00 04 01 04 00 00 00 08 00 02 01 00 01 01
   01 71 00 00 00 00 00 00 00 00 00 00 00 00 00 00 00 01
   00 00 01 61 00 00 00 00 00 00 00 00 00 00 00 00 00 00
   00 02 03 00 00 00 00 00 00 00 04 00 00 00 00 00 00 00
   01 74 00 00 00 00 00 00 00 00 00 00 00 00 00 00 00 03
   10 00 00 00 00 00 00 00 00 00 00 01 1e 00 00 00 00 00
   00 00 00 00 00 08 21 00 00 00 00 00 00 00 00 00 00 01
  $ cmwq show image
  cpus 1
  workers 4
  steps 8
  flushes 2
  queue q max 1
  work a q
  body a
  queue a 0
  finish
  actor t
  queue a 0
  next * 8
  state a

An image with some bytes changed, each told by its offset and what it is set to, in hex.

  $ change() { cp image changed; while [ $# -gt 0 ]; do printf "\\x$2" | dd of=changed bs=1 seek=$1 conv=notrunc status=none; shift 2; done; }
  $ show() { change "$@"; cmwq show changed; }

An image of an older version, which the two bytes behind the magic ones tell, is shown as a text. The image of that text is of version 4, and
differs in nothing else.

  $ back() { change "$@" 5 04; mv changed wanted; change "$@"; cmwq show changed >shown && cmwq asm shown made && cmp made wanted; }
  $ back 5 01
  $ back 5 02
  $ back 5 03
  $ back 5 04

Works are disabled and enabled from version 2 on.

  $ back 5 02 114 22
  $ back 5 02 114 23
  $ back 5 03 114 22
  $ back 5 03 114 23
  $ back 5 04 114 22
  $ back 5 04 114 23

Memory is told of from version 3 on, and a queue's flag.

  $ back 5 03 36 20
  $ back 5 03 114 24
  $ back 5 03 114 25
  $ back 5 04 36 20
  $ back 5 04 114 24
  $ back 5 04 114 25
  $ show 36 20 | grep max
  queue q max 1 mem_reclaim

An actor goes on for something in version 4: until a time, for a flush, until all is quiet.

  $ back 114 26 121 05
  $ back 114 26 118 ff
  $ back 114 27 117 01
  $ back 114 28

Bodies delay, mod and cancel in version 4: in 0, 9 and 1,000,000 ticks, and in 0 and 1,000,000.

  $ back 56 05
  $ back 56 05 63 09
  $ back 56 05 61 0f 62 42 63 40
  $ back 56 06
  $ back 56 06 61 0f 62 42 63 40
  $ back 56 07

One byte more.

  $ printf '\000' | cat image - | cmwq show -
  image: Extra
  [1]

A changed byte has its fault: the magic ones.

  $ show 3 52
  image: Magic
  [1]

Versions 0, 5, and 260; that comes before a flag.

  $ show 5 00
  image: Version
  [1]
  $ show 5 05
  image: Version
  [1]
  $ show 4 01
  image: Version
  [1]
  $ show 5 05 36 20
  image: Version
  [1]

17 CPUs.

  $ show 6 11
  image: Range
  [1]

33 queues; 257 works; 17 actors.

  $ show 14 21
  image: BadField 14
  [1]
  $ show 15 01
  image: BadField 15
  [1]
  $ show 17 11
  image: BadField 17
  [1]

A second queue takes the work's bytes, and a name of length 0 is left behind it.

  $ show 14 02
  image: BadField 58
  [1]

No actor.

  $ show 17 00
  image: Extra
  [1]

Names of no byte, of 16, with a byte behind them, and of a letter in upper case.

  $ show 18 00
  image: BadField 18
  [1]
  $ show 18 10
  image: BadField 18
  [1]
  $ show 33 71
  image: BadField 18
  [1]
  $ show 19 51
  image: BadField 18
  [1]

Max 0; a seventh flag; a sixth one in versions 1 and 2; the zero byte.

  $ show 35 00
  image: BadFlags
  [1]
  $ show 36 40
  image: BadField 36
  [1]
  $ show 5 01 36 20
  image: BadField 36
  [1]
  $ show 5 02 36 20
  image: BadField 36
  [1]
  $ show 37 01
  image: BadField 37
  [1]

A queue that isn't declared; no operation.

  $ show 54 01
  image: Unknown
  [1]
  $ show 55 00
  image: BadField 55
  [1]

An instruction among the operations; the fields that `finish` doesn't use.

  $ show 56 10
  image: BadField 56
  [1]
  $ show 66 01
  image: BadField 66
  [1]
  $ show 71 01
  image: BadField 68
  [1]

A body's `delay`, `mod` and `cancel` in versions 1 to 3; a tag behind the last one; fields that they don't use.

  $ show 5 03 56 05
  image: BadField 56
  [1]
  $ show 5 03 56 06
  image: BadField 56
  [1]
  $ show 5 03 56 07
  image: BadField 56
  [1]
  $ show 5 01 56 07
  image: BadField 56
  [1]
  $ show 56 08
  image: BadField 56
  [1]
  $ show 56 05 57 01
  image: BadField 57
  [1]
  $ show 56 07 63 01
  image: BadField 60
  [1]

A work that isn't declared, which comes before too many ticks; 1,000,001 ticks.

  $ show 56 07 59 01
  image: Unknown
  [1]
  $ show 56 05 59 01 60 01
  image: Unknown
  [1]
  $ show 56 05 61 0f 62 42 63 41
  image: Range
  [1]
  $ show 56 06 60 01
  image: Range
  [1]

An operation among the instructions; no times.

  $ show 90 03
  image: BadField 90
  [1]
  $ show 101 00
  image: Range
  [1]

`disable` and `enable` in version 1, `pressure` and `relief` in version 2, `until`, `wait` and `quiet` in version 3;
a tag behind the last one; fields that `disable`, `pressure`, `until`, `wait` and `quiet` don't use.

  $ show 5 01 114 22
  image: BadField 114
  [1]
  $ show 5 01 114 23
  image: BadField 114
  [1]
  $ show 5 02 114 24
  image: BadField 114
  [1]
  $ show 5 02 114 25
  image: BadField 114
  [1]
  $ show 5 03 114 26
  image: BadField 114
  [1]
  $ show 5 03 114 27
  image: BadField 114
  [1]
  $ show 5 03 114 28
  image: BadField 114
  [1]
  $ show 114 29
  image: BadField 114
  [1]
  $ show 114 22 115 01
  image: BadField 115
  [1]
  $ show 114 24 117 01
  image: BadField 116
  [1]
  $ show 114 26 117 01
  image: BadField 116
  [1]
  $ show 114 27 121 01
  image: BadField 118
  [1]
  $ show 114 28 121 01
  image: BadField 118
  [1]

An instruction on a queue whose number has more than one byte.

  $ show 114 17 116 01
  image: BadField 116
  [1]
