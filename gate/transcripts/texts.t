The first faults of texts: the line and the reason. A text without a fault is listed.

  $ judge() { printf "$1" | cmwq list -; }
  $ behind() { { cat $1; printf "$2"; } | cmwq list -; }
  $ cat >head <<end
  > cpus 1
  > workers 1
  > steps 8
  > flushes 0
  > end

A text that ends too early lacks a word, or a line.

  $ judge ''
  line 1: MissingWord
  [1]
  $ judge 'cpus 16'
  line 2: MissingWord
  [1]
  $ judge 'cpus 16\n\n# workers\n'
  line 4: MissingWord
  [1]
  $ judge 'cpus 1\nworkers'
  line 2: MissingWord
  [1]
  $ behind head 'queue q max\n'
  line 5: MissingWord
  [1]

Bytes that aren't UTF-8, and words that can't stand where they do.

  $ judge '# \xff\ncpus 1\n'
  line 1: BadUtf8
  [1]
  $ judge 'cpus 1\nworkers \xc3\n'
  line 2: BadUtf8
  [1]
  $ judge '\nmeet a\n'
  line 2: BadWord
  [1]
  $ behind head 'queue q max 0 fast\n'
  line 5: BadWord
  [1]
  $ behind head 'queue Q max 1\n'
  line 5: BadName
  [1]
  $ behind head 'queue q max 1\nwork a 1\n'
  line 6: BadName
  [1]
  $ judge 'cpus 01\n'
  line 1: BadNumber
  [1]
  $ judge 'cpus 1\nworkers 1\nsteps 12345678901\n'
  line 3: BadNumber
  [1]
  $ judge 'cpus 1 1\n'
  line 1: ExtraWord
  [1]
  $ behind head 'actor t\nnext 8\n'
  line 6: ExtraWord
  [1]

Lines that stand in another place than theirs, numbers out of their limits, names twice or not at all, bodies without end, flags.

  $ judge 'workers 1\n'
  line 1: Misplaced
  [1]
  $ behind head 'queue q max 1\nwork a q\nwork b q\nbody b\n'
  line 8: Misplaced
  [1]
  $ judge 'cpus 17\n'
  line 1: Range
  [1]
  $ behind head 'actor t\nstep 256\n'
  line 6: Range
  [1]
  $ behind head 'queue q max 1\nqueue q max 2\n'
  line 6: Duplicate
  [1]
  $ behind head 'queue q max 1 highpri highpri\n'
  line 5: Duplicate
  [1]
  $ behind head 'work a q\n'
  line 5: Unknown
  [1]
  $ behind head 'actor t\ncancel b\n'
  line 6: Unknown
  [1]
  $ behind head 'queue q max 1\nwork a q\nbody a\nburn 1\nactor t\n'
  line 9: BadBody
  [1]
  $ behind head 'queue q max 1\nwork a q\nbody a\nbody a\n'
  line 8: BadBody
  [1]
  $ behind head 'queue q max 2 ordered\n'
  line 5: BadFlags
  [1]
  $ behind head 'queue q max 1\nqueue r max 513\n'
  line 6: BadFlags
  [1]

Each limit has two sides.

  $ judge 'cpus 16\nworkers 64\nsteps 4294967295\nflushes 1024\n'
  cpus 16
  workers 64
  steps 4294967295
  flushes 1024
  $ judge 'cpus 0\n'
  line 1: Range
  [1]
  $ judge 'cpus 1\nworkers 0\n'
  line 2: Range
  [1]
  $ judge 'cpus 1\nworkers 65\n'
  line 2: Range
  [1]
  $ judge 'cpus 1\nworkers 1\nsteps 0\n'
  line 3: Range
  [1]
  $ judge 'cpus 1\nworkers 1\nsteps 4294967296\n'
  line 3: Range
  [1]
  $ judge 'cpus 1\nworkers 1\nsteps 1\nflushes 1025\n'
  line 4: Range
  [1]
  $ judge 'cpus 1\nworkers 1\nsteps 1\nflushes 0\nqueue a_name_of_15_by max 512\n'
  cpus 1
  workers 1
  steps 1
  flushes 0
  queue a_name_of_15_by max 512
  $ judge 'cpus 1\nworkers 1\nsteps 1\nflushes 0\nqueue a_name_of_16_byt max 512\n'
  line 5: BadName
  [1]

Behind nine lines, a head, two queues, and two works of which the first one's body is open: of two faults of a line the first is told.

  $ cat >body <<end
  > cpus 1
  > workers 1
  > steps 8
  > flushes 0
  > queue q max 1
  > queue r max 1
  > work a q
  > work b r
  > body a
  > end
  $ behind body 'burn 1000000\nfinish\nbody b\nfinish\n'
  cpus 1
  workers 1
  steps 8
  flushes 0
  queue q max 1
  queue r max 1
  work a q
  work b r
  body a
  burn 1000000
  finish
  body b
  finish

Ticks out of their limits, and instructions of an actor.

  $ behind body 'burn 1000001\n'
  line 10: Range
  [1]
  $ behind body 'sleep 0\n'
  line 10: Range
  [1]
  $ behind body 'disable a\n'
  line 10: Misplaced
  [1]
  $ behind body 'pressure\n'
  line 10: Misplaced
  [1]

A work that isn't declared, on a CPU that there isn't; and one that is.

  $ behind body 'queue c 9\n'
  line 10: Unknown
  [1]
  $ behind body 'queue b 1\n'
  line 10: Range
  [1]

Timers.

  $ behind body 'delay b 0\ndelay b 1000000\nmod a 1000000\ncancel b\nfinish\nbody b\nfinish\n'
  cpus 1
  workers 1
  steps 8
  flushes 0
  queue q max 1
  queue r max 1
  work a q
  work b r
  body a
  delay b 0
  delay b 1000000
  mod a 1000000
  cancel b
  finish
  body b
  finish
  $ behind body 'delay b 1000001\n'
  line 10: Range
  [1]
  $ behind body 'mod b 1000001\n'
  line 10: Range
  [1]

A work that isn't declared, in too many ticks, and taken off.

  $ behind body 'delay c 1000001\n'
  line 10: Unknown
  [1]
  $ behind body 'cancel c\n'
  line 10: Unknown
  [1]

Words that lack, and one that is no number.

  $ behind body 'delay b\n'
  line 10: MissingWord
  [1]
  $ behind body 'mod\n'
  line 10: MissingWord
  [1]
  $ behind body 'delay b x\n'
  line 10: BadNumber
  [1]

An actor's instructions have a CPU, or stand many times, or wait.

  $ behind body 'delay b 0 5\n'
  line 10: ExtraWord
  [1]
  $ behind body 'mod b 0 5\n'
  line 10: ExtraWord
  [1]
  $ behind body 'cancel b * 2\n'
  line 10: ExtraWord
  [1]
  $ behind body 'cancel_sync b\n'
  line 10: Misplaced
  [1]

A body of another work than the next, with a word too many; one that was there; an actor before all have theirs.

  $ behind body 'finish\nbody a x\n'
  line 11: Misplaced
  [1]
  $ behind body 'finish\nbody b\nfinish\nbody a\n'
  line 13: Misplaced
  [1]
  $ behind body 'finish\nactor t\n'
  line 11: Misplaced
  [1]

Behind thirty-six lines, a head and thirty-two queues.

  $ { cat head; for name in a b c d e f g h i j k l m n o p q r s t u v w x y z aa ab ac ad ae af; do echo queue $name max 1; done; } >queues
  $ behind queues 'work a af\n'
  line 38: MissingWord
  [1]
  $ behind queues 'queue z9 max 1\n'
  line 37: TooMany
  [1]
  $ behind queues 'queue z9 max 0\n'
  line 37: BadFlags
  [1]
  $ behind queues 'queue a max 0\n'
  line 37: Duplicate
  [1]
  $ behind queues 'body a\n'
  line 37: Misplaced
  [1]

Behind twenty lines, a head and sixteen actors.

  $ { cat head; for name in a b c d e f g h i j k l m n o p; do echo actor $name; done; } >actors
  $ behind actors 'tick * 65535\n'
  cpus 1
  workers 1
  steps 8
  flushes 0
  actor a
  actor b
  actor c
  actor d
  actor e
  actor f
  actor g
  actor h
  actor i
  actor j
  actor k
  actor l
  actor m
  actor n
  actor o
  actor p
  tick * 65535
  $ behind actors 'tick * 65536\n'
  line 21: Range
  [1]
  $ behind actors 'tick * 0\n'
  line 21: Range
  [1]
  $ behind actors 'until 4294967296\n'
  line 21: Range
  [1]
  $ behind actors 'wait 65536\n'
  line 21: Range
  [1]
  $ behind actors 'quiet 1\n'
  line 21: ExtraWord
  [1]
  $ behind actors 'actor q\n'
  line 21: TooMany
  [1]
  $ behind actors 'actor q x\n'
  line 21: ExtraWord
  [1]
  $ behind actors 'actor p x\n'
  line 21: Duplicate
  [1]

A text with blanks, comments, carriage returns and flags in another order.

  $ judge '# a head\r\n\tcpus\t1\r\nworkers 1 # one\r\n\r\nsteps   8 \r\nflushes 0#\nqueue q max 1 mem_reclaim ordered freezable cpu_intensive unbound highpri\nactor t\ntick * 1'
  cpus 1
  workers 1
  steps 8
  flushes 0
  queue q max 1 highpri unbound cpu_intensive freezable ordered mem_reclaim
  actor t
  tick
  $ judge 'cpus\t1 # one\r\n\r\nworkers 1\r\n\tsteps 8\r\nflushes  0\t\r\n# no queue\r\n'
  cpus 1
  workers 1
  steps 8
  flushes 0

A work is disabled and enabled.

  $ behind head 'queue q max 1\nwork a q\nbody a\nfinish\nactor t\ndisable a * 2\nenable a\n'
  cpus 1
  workers 1
  steps 8
  flushes 0
  queue q max 1
  work a q
  body a
  finish
  actor t
  disable a * 2
  enable a

Memory gets short, and no longer is.

  $ behind head 'queue q max 2 mem_reclaim\nwork a q\nbody a\nfinish\nactor t\npressure * 2\nrelief\n'
  cpus 1
  workers 1
  steps 8
  flushes 0
  queue q max 2 mem_reclaim
  work a q
  body a
  finish
  actor t
  pressure * 2
  relief

An actor goes on for something.

  $ behind head 'actor t\nuntil 4294967295 * 2\nwait 65535\nquiet\n'
  cpus 1
  workers 1
  steps 8
  flushes 0
  actor t
  until 4294967295 * 2
  wait 65535
  quiet

A body sets timers and takes works off.

  $ behind head 'queue q max 1\nwork a q\nbody a\ndelay a 0\ndelay a 1000000\nmod a 7\ncancel a\nfinish\n'
  cpus 1
  workers 1
  steps 8
  flushes 0
  queue q max 1
  work a q
  body a
  delay a 0
  delay a 1000000
  mod a 7
  cancel a
  finish

A text of 4,194,305 bytes is too long, whatever is in it: of hashes, and of bytes ff. With one byte less it isn't.

  $ many() { head -c $2 /dev/zero | tr '\000' "$1" | cmwq list -; }
  $ many '#' 4194305
  line 0: TooLong
  [1]
  $ many '#' 4194304
  line 2: MissingWord
  [1]
  $ many '\377' 4194305
  line 0: TooLong
  [1]
  $ many '\377' 4194304
  line 1: BadUtf8
  [1]
