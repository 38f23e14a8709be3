The line and the exit status of each kind of fault. Below a command's output stands what it says on standard error, each line behind `2|`.
Not shown are `tickets`, which no play comes to, and `no memory`, which gate/refused_memory.py shows.
  $ cmwq() {
  >   command cmwq "$@" 2> errors
  >   local status=$?
  >   sed 's/^/2|/' errors
  >   return $status
  > }

A text's first fault, with its line.
  $ printf 'cpus 1\nworkers 1\nsteps 1\nflushes 0\n' > head.cmwq
  $ (cat head.cmwq; printf 'queue q max 1\nqueue q max 1\n') > twice.cmwq
  $ cmwq run twice.cmwq
  2|line 6: Duplicate
  [1]
  $ cmwq run /dev/null
  2|line 1: MissingWord
  [1]

An image's first fault: of a field, of a number out of its limits, of a version that isn't known; an image cut short, a text in place of an
image, an image with a byte too many.
  $ (cat head.cmwq; printf 'queue q max 1\nactor t\n') > idle.cmwq
  $ cmwq asm idle.cmwq idle.image
  $ changed() {
  >   cp idle.image changed.image
  >   printf "$2" | dd of=changed.image bs=1 seek="$1" conv=notrunc status=none
  > }
  $ changed 37 '\1'
  $ cmwq show changed.image
  2|image: BadField 37
  [1]
  $ changed 6 '\21'
  $ cmwq show changed.image
  2|image: Range
  [1]
  $ changed 5 '\5'
  $ cmwq show changed.image
  2|image: Version
  [1]
  $ head -c 55 idle.image > changed.image
  $ cmwq show changed.image
  2|image: Truncated
  [1]
  $ cmwq show idle.cmwq
  2|image: Magic
  [1]
  $ (cat idle.image; printf x) > changed.image
  $ cmwq show changed.image
  2|image: Extra
  [1]

A scenario that has no actor; one whose machine gets quiet only with more steps.
  $ cmwq run head.cmwq
  2|actors
  [1]
  $ cmwq play head.cmwq --capacity 10
  2|actors
  [1]
  $ (cat head.cmwq; printf 'queue q max 1\nwork a q\nbody a\nfinish\nactor t\nqueue a 0\n') > pending.cmwq
  $ cmwq settle pending.cmwq
  2|never quiet
  [1]

What is asked for isn't in the run: a work, a flush, a position.
  $ cmwq why idle.cmwq a
  2|no such work
  [1]
  $ cmwq why idle.cmwq --flush 0
  2|no such flush
  [1]
  $ cmwq why idle.cmwq --flush 0 --at 1
  2|past the end
  [1]

A picture of 501 ticks, at each of which the actor does something.
  $ sed 's/steps 1/steps 9999/; s/queue a 0/tick/' pending.cmwq > restless.cmwq
  > for turn in {1..250}; do printf 'disable a\ntick\nenable a\ntick\n'; done >> restless.cmwq
  $ cmwq draw restless.cmwq
  2|more than 500 columns: give --from and --to
  [2]

More commands than a debugger takes: 4,194,305 bytes.
  $ head -c 4194305 /dev/zero | tr '\0' '#' | cmwq debug idle.cmwq
  2|too long
  [1]

A file that isn't there; one that is there already.
  $ cmwq run none.cmwq
  2|read
  [3]
  $ cmwq new head.cmwq
  2|write
  [3]

A play in which there is no room for the second instruction.
  $ (cat head.cmwq; printf 'actor t\nbusy\nbusy\n') > busy.cmwq
  $ cmwq play busy.cmwq --capacity 1
  cpus 1
  workers 1
  steps 1
  flushes 0
  actor played
  busy
  # 0 no
  2|full
  [4]
