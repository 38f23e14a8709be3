"""A test of what the program says behind the line that tells a fault, where it is asked for that: over a table of things that people get
wrong. Each is tried with `--explain` and without: without, the fault's line stands alone, and all else is the same. Then of the remarks
behind runs that end well, and of texts that come by standard input.

    python3 gate/test_advice.py PROGRAM"""
import os
import subprocess
import sys
import tempfile

sys.dont_write_bytecode = True

HEAD = "cpus 1\nworkers 2\nsteps 20\nflushes 1\n"
QUEUE, WORKS = "queue q max 1\n", "work mail q\nwork blink q\n"
BODIES = "body mail\nburn 1\nfinish\nbody blink\nqueue blink 0\nfinish\n"
ACTOR = "actor t\nqueue mail 0\nnext * 3\n"
GOOD = HEAD + QUEUE + WORKS + BODIES + ACTOR
FILES = {
    "good.cmwq": GOOD,
    "two.cmwq": GOOD + "actor other\nnext\n",
    "none.cmwq": HEAD + QUEUE,
    "workless.cmwq": HEAD + QUEUE + "actor t\nnext\n",
    "restless.cmwq": HEAD + QUEUE + WORKS + BODIES + "actor t\nqueue blink 0\n",
    "busy.cmwq": HEAD + "actor one\nbusy * 3\nactor other\nbusy\n",
    "long.cmwq": HEAD + "actor t\n" + "busy * 65535\n" * 16 + "busy * 17\n",
    "lines.cmwq": HEAD + QUEUE + WORKS + BODIES + "actor t\nqueue mail 0\n" + "busy\n" * 4095,
    "kernel.cmwq": HEAD + "queue q max 0\n" + WORKS + BODIES + ACTOR,
    "flag.cmwq": HEAD + "queue q max 1 freezeable\n" + WORKS + BODIES + ACTOR,
    "wq.cmwq": HEAD + "queue q max 1 WQ_UNBOUND\n" + WORKS + BODIES + ACTOR,
    "ticks.cmwq": HEAD + QUEUE + WORKS + BODIES + "actor t\ntick 5\n",
    "order.cmwq": "workers 2\ncpus 1\n",
    "endless.cmwq": HEAD + QUEUE + "work mail q\nbody mail\nburn 1\nactor t\nnext\n",
    "empty.cmwq": "",
    "unknown.cmwq": HEAD + QUEUE + WORKS + BODIES + "actor t\nqueue male 0\n",
    "twice.cmwq": HEAD + QUEUE + "work mail q\nwork mail q\n",
    "capital.cmwq": HEAD + "queue Q max 1\n",
    "cpus.cmwq": "cpus 17\n",
    "sign.cmwq": "cpus -1\n",
    "spelt.cmwq": HEAD + "quue q max 1\n",
    "shout.cmwq": HEAD + "queue q MAX 1\n",
    "short.cmwq": HEAD + "queue q\n",
    "bare.cmwq": HEAD + "queue q 1\n",
    "ordered.cmwq": HEAD + "queue q max 2 ordered\n",
    "flags.cmwq": HEAD + "queue q max 1 highpri highpri\n",
    "other.cmwq": HEAD + QUEUE + "work mail p\n",
    "queues.cmwq": HEAD + "".join(f"queue q{n} max 1\n" for n in range(33)),
    "many.cmwq": HEAD + QUEUE + "".join(f"work w{n} q\n" for n in range(10)) + "".join(f"body w{n}\nfinish\n" for n in range(10)) + "actor t\ncancel blink\n",
    "later.cmwq": HEAD + QUEUE + WORKS + "body blink\n",
    "open.cmwq": HEAD + QUEUE + WORKS + "body mail\ntick\n",
    "zero.cmwq": HEAD + QUEUE + WORKS + "body mail\nburn 0\n",
    "cpu.cmwq": HEAD + QUEUE + WORKS + "body mail\nqueue blink 1\n",
    "timed.cmwq": HEAD + QUEUE + WORKS + "body mail\ndelay blink 1 0\n",
    "longer.cmwq": HEAD + QUEUE + WORKS + "body mail\ndelay blink 1000001\n",
    "timeless.cmwq": HEAD + QUEUE + WORKS + "body mail\nmod blink\n",
    "waiting.cmwq": HEAD + QUEUE + WORKS + "body mail\ncancel_sync blink\n",
    "whom.cmwq": HEAD + QUEUE + WORKS + "body mail\ncancel blnk\n",
    "unended.cmwq": HEAD + QUEUE + WORKS + "body mail\nburn 1\n",
    "pool.cmwq": HEAD + QUEUE + WORKS + BODIES + "actor t\nstep 300\n",
    "times.cmwq": HEAD + QUEUE + WORKS + BODIES + "actor t\nnext * 0\n",
    "nobody.cmwq": HEAD + QUEUE + WORKS + BODIES + "actor t\ncancel\n",
    "limit.cmwq": HEAD + QUEUE + WORKS + BODIES + "actor t\nset_max mail 1\n",
    "actors.cmwq": HEAD + QUEUE + WORKS + BODIES + ACTOR + "actor t\n",
    "tail.cmwq": "cpus 1 2\n",
    "refused.cmwq": GOOD + "enable mail\nthaw\n",
    "once.cmwq": GOOD + "cancel mail\nenable blink * 1\nnext\n",
    "pending.cmwq": HEAD + QUEUE + WORKS + BODIES + "actor t\nqueue mail 0\nqueue blink 0\n",
    "mailed.cmwq": HEAD + QUEUE + WORKS + BODIES + "actor t\nqueue mail 0\n",
    "wide.cmwq": HEAD + "actor one\nbusy * 4000\nactor other\nbusy * 97\n",
    "cancels.cmwq": HEAD + QUEUE + WORKS + BODIES + "actor one\ncancel_sync mail * 1366\n",
    "flushes.cmwq": HEAD + QUEUE + WORKS + BODIES + "actor one\nqueue mail 0\nactor other\ncancel_sync mail\nflush blink\n",
    # what a driver's author writes
    "slashes.cmwq": HEAD + QUEUE + WORKS + BODIES + "actor t\nnext // go\n",
    "stars.cmwq": "cpus 1\n/* workers */\nworkers 2\n",
    "starred.cmwq": HEAD + QUEUE + WORKS + BODIES + "actor t\nqueue mail 0 /* now */\n",
    "remark.cmwq": HEAD + QUEUE + WORKS + BODIES + "actor t\nqueue mail // now\n",
    "call.cmwq": HEAD + QUEUE + WORKS + BODIES + "actor t\nqueue_work(q, &mail);\n",
    "delayed.cmwq": HEAD + QUEUE + WORKS + BODIES + "actor t\nschedule_delayed_work mail 100\n",
    "bodily.cmwq": HEAD + QUEUE + WORKS + "body mail\nmod_delayed_work(q, &blink, 5);\n",
    "returns.cmwq": HEAD + QUEUE + WORKS + "body mail\nreturn;\n",
    "alloc.cmwq": HEAD + 'alloc_workqueue("q", WQ_UNBOUND, 0);\n',
    "bars.cmwq": HEAD + "queue q max 4 WQ_MEM_RECLAIM | WQ_FREEZABLE\n",
    "bar.cmwq": HEAD + "queue q max 4 mem_reclaim | freezable\n",
    "active.cmwq": HEAD + "queue q max_active 4\n",
    "bodiless.cmwq": HEAD + QUEUE + WORKS + ACTOR,
    "second.cmwq": HEAD + QUEUE + WORKS + "body mail\nfinish\n" + ACTOR,
    "cut.cmwq": HEAD + QUEUE + WORKS + "body mail\nfinish\n",
    "cpuless.cmwq": HEAD + QUEUE + WORKS + BODIES + "actor t\nqueue mail\n",
    "tickless.cmwq": HEAD + QUEUE + WORKS + BODIES + "actor t\ndelay mail 0\n",
    "countless.cmwq": HEAD + QUEUE + WORKS + BODIES + "actor t\nqueue mail 0 *\n",
    "nameless.cmwq": HEAD + QUEUE + WORKS + BODIES + "actor t\nnext\nactor\n",
    "workname.cmwq": HEAD + QUEUE + "work e1000_watchdog_handler q\n",
    "taken.cmwq": HEAD + QUEUE + "work e1000_watchdog_ q\nwork e1000_watchdog_handler q\n",
    "return.cmwq": "cpus 1\r 2\n",
    "lone.cmwq": HEAD + QUEUE + WORKS + BODIES + "actor t\nqueue mail 0\nuntil 3\nquiet\n",
    "waited.cmwq": HEAD + QUEUE + WORKS + BODIES + "actor t\nqueue mail 0\nflush mail\nwait 0\n",
    "spent.cmwq": "cpus 1\nworkers 2\nsteps 3\nflushes 1\n" + QUEUE + WORKS + BODIES + "actor t\nqueue mail 0\nquiet * 100\n",
    "absent.cmwq": HEAD + QUEUE + WORKS + BODIES + "actor t\nqueue mail 3\ndelay mail 100 5\nmod mail 1 5 * 2\n",
    "moved.cmwq": HEAD + QUEUE + WORKS + BODIES + "actor t\nqueue mail 0\nqueue blink 0\nnext\n",
    "there": "what was there\n",
}

# what mends a text's fault, where several rows want it
BAD_WORD = "  this word means nothing here; the words that fit are listed above"
UNKNOWN = "  no earlier line declares a work item or a queue with this name"
EXTRA_WORD = "  the line has a word too many; `* N` after an instruction repeats it"

# the words that an operation may begin with
OPERATIONS = "burn, sleep, queue, delay, mod, cancel, finish"

# the words that a line of an actor may begin with
INSTRUCTIONS = "queue, delay, mod, cancel, cancel_sync, flush, flush_delayed, flush_queue, set_max, freeze, thaw, fire, step, tick, next, ask, busy, state, disable, enable, pressure, relief, until, wait, quiet, actor"

# what is said of a comment of C
COMMENT = "  a comment begins with #, and ends with its line"

# A row: the words, the status, the line that tells the fault, and what follows where that is asked for.
ROWS = [
    # files
    ("run nosuch.cmwq", 3, "read", "  nosuch.cmwq: no such file"),
    ("run folder", 3, "read", "  folder is a folder"),
    ("draw good.cmwq/x", 3, "read", "  good.cmwq/x: no such file"),
    ("why nosuch.cmwq mail", 3, "read", "  nosuch.cmwq: no such file"),
    ("debug nosuch.cmwq", 3, "read", "  nosuch.cmwq: no such file"),
    ("play nosuch.cmwq --capacity 3", 3, "read", "  nosuch.cmwq: no such file"),
    ("show nosuch.image", 3, "read", "  nosuch.image: no such file"),
    ("new there", 3, "write", "  there exists already; new doesn't overwrite it"),
    ("new empty.cmwq", 3, "write", "  empty.cmwq: it can't be written"),
    ("new nowhere/first.cmwq", 3, "write", "  nowhere/first.cmwq: no such folder"),
    ("new folder", 3, "write", "  folder exists already; new doesn't overwrite it"),
    ("asm good.cmwq good.cmwq", 3, "write", "  good.cmwq is the scenario's own text; asm doesn't overwrite it"),
    ("trace good.cmwq --dat good.cmwq", 3, "write", "  good.cmwq is the scenario's own text; trace doesn't overwrite it"),
    ("asm good.cmwq folder", 3, "write", "  folder is a folder"),
    ("asm good.cmwq nowhere/good.image", 3, "write", "  nowhere/good.image: no such folder"),
    ("asm nosuch.cmwq made.image", 3, "read", "  nosuch.cmwq: no such file"),
    # images
    ("show good.cmwq", 1, "image: Magic", "  an image begins with CMWQ; cmwq asm didn't make this file"),
    ("show short.image", 1, "image: Truncated", "  the image ends too early: a part of it is lost"),
    ("show long.image", 1, "image: Extra", "  bytes follow after the image's end"),
    ("show late.image", 1, "image: Version", "  the image is of a version that this program doesn't know"),
    # texts
    ("run kernel.cmwq", 1, "line 5: BadFlags", "kernel.cmwq:5:13: 0: BadFlags\n  queue q max 0\n              ^\n  expected here: a number from 1 to 512\n  max takes 1 to 512; a kernel's 0, its default, is 256 in Linux 6.1 and 6.12"),
    ("list flag.cmwq", 1, "line 5: BadWord", f"flag.cmwq:5:15: freezeable: BadWord\n  queue q max 1 freezeable\n                ^\n  expected here: freezable, highpri, unbound, cpu_intensive, ordered, mem_reclaim, or the line's end\n  did you mean freezable?\n{BAD_WORD}"),
    ("draw wq.cmwq", 1, "line 5: BadWord", f"wq.cmwq:5:15: WQ_UNBOUND: BadWord\n  queue q max 1 WQ_UNBOUND\n                ^\n  expected here: unbound, highpri, cpu_intensive, freezable, ordered, mem_reclaim, or the line's end\n  did you mean unbound?\n{BAD_WORD}"),
    ("run ordered.cmwq", 1, "line 5: BadFlags", "ordered.cmwq:5:15: ordered: BadFlags\n  queue q max 2 ordered\n                ^\n  expected here: unbound, highpri, cpu_intensive, freezable, mem_reclaim, or the line's end\n  an ordered queue has max 1"),
    ("run flags.cmwq", 1, "line 5: Duplicate", "flags.cmwq:5:23: highpri: Duplicate\n  queue q max 1 highpri highpri\n                        ^\n  expected here: unbound, cpu_intensive, freezable, ordered, mem_reclaim, or the line's end\n  two queues, work items or actors can't have the same name, and a flag is given once"),
    ("run spelt.cmwq", 1, "line 5: BadWord", f"spelt.cmwq:5:1: quue: BadWord\n  quue q max 1\n  ^\n  a line here may begin with: queue, actor\n  did you mean queue?\n{BAD_WORD}"),
    ("run shout.cmwq", 1, "line 5: BadWord", f"shout.cmwq:5:9: MAX: BadWord\n  queue q MAX 1\n          ^\n  expected here: max\n  did you mean max?\n{BAD_WORD}"),
    ("run bare.cmwq", 1, "line 5: BadWord", f"bare.cmwq:5:9: 1: BadWord\n  queue q 1\n          ^\n  expected here: max\n{BAD_WORD}"),
    ("run short.cmwq", 1, "line 5: MissingWord", "short.cmwq:5:8: end of line: MissingWord\n  queue q\n         ^\n  expected here: max\n  queue NAME max N FLAG..: the word max is missing"),
    ("run queues.cmwq", 1, "line 37: TooMany", "queues.cmwq:37:15: 1: TooMany\n  queue q32 max 1\n                ^\n  a line here may begin with: work, actor\n  at most 32 queues, 256 work items of 64 operations, 16 actors of 4096 lines"),
    ("run order.cmwq", 1, "line 1: Misplaced", "order.cmwq:1:1: workers: Misplaced\n  workers 2\n  ^\n  a line here may begin with: cpus\n  lines come in this order: cpus, workers, steps, flushes, queues, work items, bodies in the order of their work items, actors"),
    ("run later.cmwq", 1, "line 8: Misplaced", "later.cmwq:8:6: blink: Misplaced\n  body blink\n       ^\n  expected here: mail\n  lines come in this order: cpus, workers, steps, flushes, queues, work items, bodies in the order of their work items, actors"),
    ("run open.cmwq", 1, "line 9: Misplaced", f"open.cmwq:9:1: tick: Misplaced\n  tick\n  ^\n  a line here may begin with: {OPERATIONS}\n  the body of mail is open: its operations belong here, and finish ends it"),
    ("run timed.cmwq", 1, "line 9: ExtraWord", f"timed.cmwq:9:15: 0: ExtraWord\n  delay blink 1 0\n                ^\n  the line should end here\n{EXTRA_WORD}"),
    ("run longer.cmwq", 1, "line 9: Range", "longer.cmwq:9:13: 1000001: Range\n  delay blink 1000001\n              ^\n  expected here: a number from 0 to 1000000\n  the number is out of its limits: it must be a number from 0 to 1000000"),
    ("run timeless.cmwq", 1, "line 9: MissingWord", "timeless.cmwq:9:10: end of line: MissingWord\n  mod blink\n           ^\n  expected here: a number from 0 to 1000000\n  mod WORK N: the number N is missing"),
    ("run waiting.cmwq", 1, "line 9: Misplaced", f"waiting.cmwq:9:1: cancel_sync: Misplaced\n  cancel_sync blink\n  ^\n  a line here may begin with: {OPERATIONS}\n  the body of mail is open: its operations belong here, and finish ends it"),
    ("run whom.cmwq", 1, "line 9: Unknown", f"whom.cmwq:9:8: blnk: Unknown\n  cancel blnk\n         ^\n  expected here: blink, mail\n  did you mean blink?\n{UNKNOWN}"),
    ("asm empty.cmwq made.image", 1, "line 1: MissingWord", "empty.cmwq:1:1: end of text: MissingWord\n  a line here may begin with: cpus\n  the line or the text ends too early"),
    ("settle twice.cmwq", 1, "line 7: Duplicate", "twice.cmwq:7:6: mail: Duplicate\n  work mail q\n       ^\n  expected here: a new name\n  two queues, work items or actors can't have the same name, and a flag is given once"),
    ("run actors.cmwq", 1, "line 17: Duplicate", "actors.cmwq:17:7: t: Duplicate\n  actor t\n        ^\n  expected here: a new name\n  two queues, work items or actors can't have the same name, and a flag is given once"),
    ("debug capital.cmwq", 1, "line 5: BadName", "capital.cmwq:5:7: Q: BadName\n  queue Q max 1\n        ^\n  expected here: a new name\n  did you mean q?\n  a name has 1 to 15 small letters, digits and _, and begins with a letter"),
    ("run cpus.cmwq", 1, "line 1: Range", "cpus.cmwq:1:6: 17: Range\n  cpus 17\n       ^\n  expected here: a number from 1 to 16\n  the number is out of its limits: it must be a number from 1 to 16"),
    ("why sign.cmwq mail", 1, "line 1: BadNumber", "sign.cmwq:1:6: -1: BadNumber\n  cpus -1\n       ^\n  expected here: a number from 1 to 16\n  a number has 1 to 10 digits, no sign, and no 0 before other digits"),
    ("run zero.cmwq", 1, "line 9: Range", "zero.cmwq:9:6: 0: Range\n  burn 0\n       ^\n  expected here: a number from 1 to 1000000\n  the number is out of its limits: it must be a number from 1 to 1000000"),
    ("run cpu.cmwq", 1, "line 9: Range", "cpu.cmwq:9:13: 1: Range\n  queue blink 1\n              ^\n  expected here: the number 0\n  the number is out of its limits: it must be the number 0"),
    ("run pool.cmwq", 1, "line 15: Range", "pool.cmwq:15:6: 300: Range\n  step 300\n       ^\n  expected here: a number from 0 to 255\n  the number is out of its limits: it must be a number from 0 to 255"),
    ("run times.cmwq", 1, "line 15: Range", "times.cmwq:15:8: 0: Range\n  next * 0\n         ^\n  expected here: a number from 1 to 65535\n  the number is out of its limits: it must be a number from 1 to 65535"),
    ("play endless.cmwq --capacity 3", 1, "line 9: BadBody", f"endless.cmwq:9:1: actor: BadBody\n  actor t\n  ^\n  a line here may begin with: {OPERATIONS}\n  the body of mail lacks the finish that ends it"),
    ("run unended.cmwq", 1, "line 10: BadBody", f"unended.cmwq:10:1: end of text: BadBody\n  a line here may begin with: {OPERATIONS}\n  the body of mail lacks the finish that ends it"),
    ("run unknown.cmwq", 1, "line 15: Unknown", f"unknown.cmwq:15:7: male: Unknown\n  queue male 0\n        ^\n  expected here: mail, blink\n  did you mean mail?\n{UNKNOWN}"),
    ("run many.cmwq", 1, "line 37: Unknown", f"many.cmwq:37:8: blink: Unknown\n  cancel blink\n         ^\n  expected here: w0, w1, w2, w3, w4, w5, w6, w7, 2 more\n{UNKNOWN}"),
    ("run other.cmwq", 1, "line 6: Unknown", f"other.cmwq:6:11: p: Unknown\n  work mail p\n            ^\n  expected here: q\n{UNKNOWN}"),
    ("run limit.cmwq", 1, "line 15: Unknown", f"limit.cmwq:15:9: mail: Unknown\n  set_max mail 1\n          ^\n  expected here: q\n{UNKNOWN}"),
    ("run nobody.cmwq", 1, "line 15: MissingWord", "nobody.cmwq:15:7: end of line: MissingWord\n  cancel\n        ^\n  expected here: mail, blink\n  cancel WORK: the WORK is missing"),
    ("run ticks.cmwq", 1, "line 15: ExtraWord", f"ticks.cmwq:15:6: 5: ExtraWord\n  tick 5\n       ^\n  expected here: *, or the line's end\n  did you mean * 5?\n{EXTRA_WORD}"),
    ("run tail.cmwq", 1, "line 1: ExtraWord", f"tail.cmwq:1:8: 2: ExtraWord\n  cpus 1 2\n         ^\n  the line should end here\n{EXTRA_WORD}"),
    # what a driver's author writes: the answer says how it is written here
    ("run slashes.cmwq", 1, "line 15: ExtraWord", f"slashes.cmwq:15:6: //: ExtraWord\n  next // go\n       ^\n  expected here: *, or the line's end\n{COMMENT}"),
    ("run stars.cmwq", 1, "line 2: BadWord", f"stars.cmwq:2:1: /*: BadWord\n  /* workers */\n  ^\n  a line here may begin with: workers\n{COMMENT}"),
    ("run starred.cmwq", 1, "line 15: ExtraWord", f"starred.cmwq:15:14: /*: ExtraWord\n  queue mail 0 /* now */\n               ^\n  expected here: *, or the line's end\n{COMMENT}"),
    ("run remark.cmwq", 1, "line 15: BadNumber", f"remark.cmwq:15:12: //: BadNumber\n  queue mail // now\n             ^\n  expected here: a number from 0 to 255\n{COMMENT}"),
    ("run call.cmwq", 1, "line 15: BadWord", f"call.cmwq:15:1: queue_work(q,: BadWord\n  queue_work(q, &mail);\n  ^\n  a line here may begin with: {INSTRUCTIONS}\n  a kernel's queue_work is written here: queue WORK CPU"),
    ("run delayed.cmwq", 1, "line 15: BadWord", f"delayed.cmwq:15:1: schedule_delayed_work: BadWord\n  schedule_delayed_work mail 100\n  ^\n  a line here may begin with: {INSTRUCTIONS}\n  a kernel's schedule_delayed_work is written here: delay WORK CPU N"),
    ("run bodily.cmwq", 1, "line 9: BadWord", f"bodily.cmwq:9:1: mod_delayed_work(q,: BadWord\n  mod_delayed_work(q, &blink, 5);\n  ^\n  a line here may begin with: {OPERATIONS}\n  a kernel's mod_delayed_work is written here: mod WORK N"),
    ("run returns.cmwq", 1, "line 9: BadWord", f"returns.cmwq:9:1: return;: BadWord\n  return;\n  ^\n  a line here may begin with: {OPERATIONS}\n  a kernel's return is written here: finish"),
    ("run alloc.cmwq", 1, "line 5: BadWord", "alloc.cmwq:5:1: alloc_workqueue(\"q\",: BadWord\n  alloc_workqueue(\"q\", WQ_UNBOUND, 0);\n  ^\n  a line here may begin with: queue, actor\n  a kernel's alloc_workqueue is written here: queue NAME max N FLAG.."),
    ("run bars.cmwq", 1, "line 5: BadWord", "bars.cmwq:5:15: WQ_MEM_RECLAIM: BadWord\n  queue q max 4 WQ_MEM_RECLAIM | WQ_FREEZABLE\n                ^\n  expected here: mem_reclaim, highpri, unbound, cpu_intensive, freezable, or the line's end\n  write flags one after another, without WQ_ and |: queue NAME max N FLAG FLAG"),
    ("run bar.cmwq", 1, "line 5: BadWord", "bar.cmwq:5:27: |: BadWord\n  queue q max 4 mem_reclaim | freezable\n                            ^\n  expected here: highpri, unbound, cpu_intensive, freezable, or the line's end\n  write flags one after another, without WQ_ and |: queue NAME max N FLAG FLAG"),
    ("run active.cmwq", 1, "line 5: BadWord", "active.cmwq:5:9: max_active: BadWord\n  queue q max_active 4\n          ^\n  expected here: max\n  a kernel's max_active is written here: queue NAME max N FLAG.."),
    ("run bodiless.cmwq", 1, "line 8: Misplaced", "bodiless.cmwq:8:1: actor: Misplaced\n  actor t\n  ^\n  a line here may begin with: work, body\n  work mail has no body: body mail, its operations and finish come before the actors"),
    ("run second.cmwq", 1, "line 10: Misplaced", "second.cmwq:10:1: actor: Misplaced\n  actor t\n  ^\n  a line here may begin with: body\n  work blink has no body: body blink, its operations and finish come before the actors"),
    ("run cut.cmwq", 1, "line 10: MissingWord", "cut.cmwq:10:1: end of text: MissingWord\n  a line here may begin with: body\n  work blink has no body: body blink, its operations and finish come before the actors"),
    ("run cpuless.cmwq", 1, "line 15: MissingWord", "cpuless.cmwq:15:11: end of line: MissingWord\n  queue mail\n            ^\n  expected here: a number from 0 to 255\n  queue WORK CPU: the CPU is missing"),
    ("run tickless.cmwq", 1, "line 15: MissingWord", "tickless.cmwq:15:13: end of line: MissingWord\n  delay mail 0\n              ^\n  expected here: a number from 0 to 4294967295\n  delay WORK CPU N: the number N is missing"),
    ("run countless.cmwq", 1, "line 15: MissingWord", "countless.cmwq:15:15: end of line: MissingWord\n  queue mail 0 *\n                ^\n  expected here: a number from 1 to 65535\n  queue WORK CPU * N: the number N is missing"),
    ("run nameless.cmwq", 1, "line 16: MissingWord", "nameless.cmwq:16:6: end of line: MissingWord\n  actor\n       ^\n  expected here: a new name\n  actor NAME: the NAME is missing"),
    ("run workname.cmwq", 1, "line 6: BadName", "workname.cmwq:6:6: e1000_watchdog_handler: BadName\n  work e1000_watchdog_handler q\n       ^\n  expected here: a new name\n  did you mean e1000_watchdog_?\n  a name has 1 to 15 small letters, digits and _, and begins with a letter"),
    ("run taken.cmwq", 1, "line 7: BadName", "taken.cmwq:7:6: e1000_watchdog_handler: BadName\n  work e1000_watchdog_handler q\n       ^\n  expected here: a new name\n  did you mean e1000_watchdog1?\n  a name has 1 to 15 small letters, digits and _, and begins with a letter"),
    ("run return.cmwq", 1, "line 1: BadNumber", "return.cmwq:1:6: 1?: BadNumber\n  cpus 1  2\n       ^\n  expected here: a number from 1 to 16\n  a number has 1 to 10 digits, no sign, and no 0 before other digits"),
    # actors
    ("run two.cmwq", 1, "actors", "  two.cmwq has 2 actors: this command takes one; `cmwq play` and `cmwq explore` take several"),
    ("draw --svg two.cmwq", 1, "actors", "  two.cmwq has 2 actors: this command takes one; `cmwq play` and `cmwq explore` take several"),
    ("debug none.cmwq", 1, "actors", "  none.cmwq has no actor: `actor NAME` and its instructions are missing at the end"),
    ("play none.cmwq --capacity 3", 1, "actors", "  none.cmwq has no actor: `actor NAME` and its instructions are missing at the end"),
    # what the scenario hasn't
    ("why good.cmwq blnk", 1, "no such work", "  no work item of good.cmwq is called blnk; the nearest first: blink, mail"),
    ("why good.cmwq mial", 1, "no such work", "  no work item of good.cmwq is called mial; the nearest first: mail, blink"),
    # what both begin with is cut, what both end with, and then the longer one counts; of two names so near the first is told
    ("why good.cmwq blin", 1, "no such work", "  no work item of good.cmwq is called blin; the nearest first: blink, mail"),
    ("why good.cmwq link", 1, "no such work", "  no work item of good.cmwq is called link; the nearest first: blink, mail"),
    ("why good.cmwq b", 1, "no such work", "  no work item of good.cmwq is called b; the nearest first: mail, blink"),
    ("why workless.cmwq a", 1, "no such work", "  workless.cmwq has no work items"),
    ("why good.cmwq mail --at 999", 1, "past the end", "  the last position is 4"),
    ("why good.cmwq mail --time 999", 1, "past the end", "  the run ends at tick 1"),
    ("why mailed.cmwq mail --time 9", 1, "past the end", "  the run ends at tick 0"),
    ("why --settle mailed.cmwq mail --time 9", 1, "past the end", "  the run ends at tick 1"),
    ("why --settle mailed.cmwq mail --at 9", 1, "past the end", "  the last position is 5"),
    ("draw good.cmwq --works mail,blnk", 1, "no such work", "  no work item of good.cmwq is called blnk; the nearest first: blink, mail"),
    ("draw good.cmwq --works blink,,male", 1, "no such work", "  no work item of good.cmwq is called ; the nearest first: mail, blink"),
    ("draw good.cmwq --works blnk", 1, "no such work", "  no work item of good.cmwq is called blnk; the nearest first: blink, mail"),
    ("why good.cmwq --flush 7", 1, "no such flush", "  flushes are numbered from 0, as they are given: cmwq run prints each with its number"),
    # what is asked of all orders, and isn't there
    ("explore good.cmwq --never male", 1, "no such work", "  no work item of good.cmwq is called male; the nearest first: mail, blink"),
    ("explore good.cmwq --never mail blnk", 1, "no such work", "  no work item of good.cmwq is called blnk; the nearest first: blink, mail"),
    ("explore good.cmwq --never mial blnk", 1, "no such work", "  no work item of good.cmwq is called mial; the nearest first: mail, blink"),
    ("explore good.cmwq --after t --never q", 1, "no such work", "  no work item of good.cmwq is called q; the nearest first: mail, blink"),
    ("explore workless.cmwq --never t", 1, "no such work", "  workless.cmwq has no work items"),
    ("explore none.cmwq --stuck", 1, "actors", "  none.cmwq has no actor: `actor NAME` and its instructions are missing at the end"),
    ("explore good.cmwq --after mail --never t", 1, "no such actor", "  no actor of good.cmwq is called mail; the nearest first: t"),
    ("explore two.cmwq --after othr --never mail", 1, "no such actor", "  no actor of two.cmwq is called othr; the nearest first: other, t"),
    ("explore two.cmwq --stuck --before t mail", 1, "no such actor", "  no actor of two.cmwq is called mail; the nearest first: t, other"),
    ("explore flushes.cmwq --stuck", 1, "flushes 2 needed", ""),
    ("explore wide.cmwq --stuck", 4, "full", "  the actors have more than 4096 lines in all, each cancel_sync being three"),
    ("explore cancels.cmwq --stuck", 4, "full", "  the actors have more than 4096 lines in all, each cancel_sync being three"),
    ("explore nosuch.cmwq --stuck", 3, "read", "  nosuch.cmwq: no such file"),
    ("explore cpus.cmwq --stuck", 1, "line 1: Range", "cpus.cmwq:1:6: 17: Range\n  cpus 17\n       ^\n  expected here: a number from 1 to 16\n  the number is out of its limits: it must be a number from 1 to 16"),
    # what is too much
    ("run long.cmwq", 4, "full", "  the actor has more than 1048576 instructions"),
    ("settle lines.cmwq", 4, "full", "  settled, the actor would have more than 4096 lines, or 1048576 instructions"),
    ("draw --settle lines.cmwq", 4, "full", "  settled, the actor would have more than 4096 lines, or 1048576 instructions"),
    ("run --settle --tell lines.cmwq", 4, "full", "  settled, the actor would have more than 4096 lines, or 1048576 instructions"),
    ("why --settle lines.cmwq mail", 4, "full", "  settled, the actor would have more than 4096 lines, or 1048576 instructions"),
    ("debug --settle lines.cmwq", 4, "full", "  settled, the actor would have more than 4096 lines, or 1048576 instructions"),
    ("why long.cmwq mail", 4, "full", "  the actor has more than 1048576 instructions"),
    ("play busy.cmwq --capacity 2", 4, "full", "  --capacity says how many instructions fit: 4096 at most"),
    ("settle restless.cmwq", 1, "never quiet", "  a work item is still pending or running after all steps or 1048576 instructions: it needs more steps, a thaw or relief, or never ends"),
    ("draw --settle restless.cmwq", 1, "never quiet", "  a work item is still pending or running after all steps or 1048576 instructions: it needs more steps, a thaw or relief, or never ends"),
]

# Words that ask nothing of all orders: the line that says why, which stands above the usage, whether more is asked for or not.
MISSAID = [
    ("explore two.cmwq", "error: explore takes --never, --after with --never, or --stuck"),
    ("explore two.cmwq --after t", "error: --after takes an ACTOR, and --never with one WORK beside it"),
    ("explore two.cmwq --before t other", "error: explore takes --never, --after with --never, or --stuck"),
    ("explore two.cmwq --never mail --stuck", "error: --stuck doesn't go with --never and --after"),
    ("explore two.cmwq --stuck --after t", "error: --stuck doesn't go with --never and --after"),
    ("explore two.cmwq --never mail mail", "error: --never takes two work items that differ"),
    ("explore two.cmwq --after t --never mail blink", "error: --after takes an ACTOR, and --never with one WORK beside it"),
    ("explore two.cmwq --never", "error: a value is required for '--never <WORK> [WORK]' but none was supplied"),
    ("explore two.cmwq --never mail blink t", "error: unexpected argument 't' found"),
    ("explore --never mail two.cmwq", "error: the following required arguments were not provided:"),
    ("explore two.cmwq --stuck --before t", "error: 2 values required for '--before <A> <B>' but 1 was provided"),
    ("explore two.cmwq --stuck --before t t", "error: --before goes in a cycle: t, t"),
    ("explore two.cmwq --stuck --before t other --before other t", "error: --before goes in a cycle: t, other, t"),
    ("explore two.cmwq --stuck --limit 0", "error: --limit takes a number of 1 to 10 digits, from 1 to 1000000"),
    ("explore two.cmwq --stuck --limit many", "error: --limit takes a number of 1 to 10 digits, from 1 to 1000000"),
]

# what is said of work items that are left, and of lines without a count
LEFT = "1 work item is pending or running at the end; --settle continues until none is\n"
UNTIL = "without a count it makes at most one move; write until 3 * 100 to continue until tick 3\n"
WAIT = "without a count it makes at most one move; write wait 0 * 100 to continue until flush 0 is done\n"

# What is said behind a run that ends well: the words, and the remarks, which stand there only where they are asked for.
REMARKS = [
    ("run good.cmwq", LEFT),
    ("run refused.cmwq", f"2 instructions were refused, the first in line 17\n{LEFT}"),
    ("run once.cmwq", "1 instruction was refused, in line 18\n"),
    ("why refused.cmwq mail", LEFT),
    ("why pending.cmwq blink", "2 work items are pending; --settle continues until the machine is quiet\n"),
    ("run pending.cmwq", "2 work items are pending; --settle continues until the machine is quiet\n"),
    ("draw pending.cmwq", "2 work items are pending; --settle continues until the machine is quiet\n"),
    ("run moved.cmwq", "2 work items are pending or running at the end; --settle continues until none is\n"),
    ("draw moved.cmwq", "2 work items are pending or running at the end; --settle continues until none is\n"),
    ("run --settle good.cmwq", ""),
    ("run lone.cmwq", f"line 16: until: {UNTIL}{LEFT}"),
    ("draw waited.cmwq", f"line 17: wait: {WAIT}{LEFT}"),
    ("run --settle lone.cmwq", ""),
    ("run spent.cmwq", f"98 instructions were refused, the first in line 16\n98 instructions were refused as Spent; steps is 3, and a greater number lets the run continue\n{LEFT}"),
    ("run absent.cmwq", "4 instructions were refused, the first in line 15\n"),
    ("list pending.cmwq", ""),
    ("check pending.cmwq", ""),
]

# What is noted of texts that are good: the words, and the notes, whether more is asked for or not.
NOTES = [
    ("check lone.cmwq", f"lone.cmwq:16: note: until: {UNTIL}lone.cmwq:17: note: quiet: without a count it makes at most one move; write quiet * 100 to continue until no work item is pending or running\n"),
    ("check waited.cmwq", f"waited.cmwq:17: note: wait: {WAIT}"),
    ("check spent.cmwq", "spent.cmwq:3: note: steps: instructions may be refused as Spent; at most 3 are accepted, and the actors have more\n"),
    ("check absent.cmwq", "".join(f"absent.cmwq:{line}: note: mail: the run refuses its CPU; cpus is 1 and CPUs count from 0, so there is no CPU {cpu}: {form}\n" for line, cpu, form in ((15, 3, "queue WORK CPU"), (16, 100, "delay WORK CPU N"), (17, 1, "mod WORK CPU N")))),
    ("check good.cmwq", ""),
]

# What comes by standard input: the words, the text that is there, the status, the fault's line, and what follows where that is asked for.
STREAMED = [
    ("run -", "refused.cmwq", 0, "", f"2 instructions were refused, the first in line 17\n{LEFT}"),
    ("list -", "pending.cmwq", 0, "", ""),
    ("draw -", "cpus.cmwq", 1, "line 1: Range\n", "-:1:6: 17: Range\n  cpus 17\n       ^\n  expected here: a number from 1 to 16\n  the number is out of its limits: it must be a number from 1 to 16\n"),
    ("why - blnk", "good.cmwq", 1, "no such work\n", "  no work item of - is called blnk; the nearest first: blink, mail\n"),
    ("run -", "folder", 3, "read\n", "  -: it can't be read\n"),
]


def make(room, program):
    for name, text in FILES.items():
        with open(f"{room}/{name}", "w", encoding="utf-8") as it:
            it.write(text)
    os.mkdir(f"{room}/folder")
    subprocess.run([program, "asm", "good.cmwq", "good.image"], cwd=room, check=True, timeout=60)
    with open(f"{room}/good.image", "rb") as it:
        image = it.read()
    for name, bytes in [("short", image[:-1]), ("long", image + b"\n"), ("late", image[:4] + b"\xff" + image[5:])]:
        with open(f"{room}/{name}.image", "wb") as it:
            it.write(bytes)


def said(program, room, words):
    """What the command line ends with: its status, output and errors."""
    ran = subprocess.run([program, *words], cwd=room, stdin=subprocess.DEVNULL, capture_output=True, text=True, timeout=60)
    return ran.returncode, ran.stdout, ran.stderr


def faults(program, room):
    for line, status, fault, advice in ROWS:
        words = line.split()
        plain = said(program, room, words)
        if (plain[0], plain[2]) != (status, f"{fault}\n"):
            yield f"{line}: without the option it ends with {plain[0]} and says {plain[2]!r}"
        for asked in (["--explain", *words], [*words, "--explain"]):
            told = said(program, room, asked)
            wanted = f"{fault}\n{advice}\n" if advice else f"{fault}\n"
            if told[:2] != plain[:2]:
                yield f"{' '.join(asked)}: status or output is another than without the option"
            if told[2] != wanted:
                yield f"{' '.join(asked)}: it says {told[2]!r} in place of {wanted!r}"


def missaid(program, room):
    for line, fault in MISSAID:
        plain, asked = said(program, room, line.split()), said(program, room, ["--explain", *line.split()])
        if plain != asked or plain[:2] != (2, "") or plain[2].split("\n")[0] != fault:
            yield f"{line}: it ends with {plain[0]} and says {plain[2]!r}, and {asked[2]!r} with --explain"


def remarks(program, room):
    for line, remark in REMARKS:
        plain, asked = said(program, room, line.split()), said(program, room, ["--explain", *line.split()])
        if plain[0] != 0 or plain[2] or asked != (plain[0], plain[1], remark):
            yield f"{line}: it ends with {plain[0]} and says {plain[2]!r}, and {asked[2]!r} where that is asked for"


def notes(program, room):
    for line, noted in NOTES:
        for words in (line.split(), ["--explain", *line.split()]):
            ran = said(program, room, words)
            if ran != (0, f"{words[-1]}: ok\n", noted):
                yield f"{' '.join(words)}: it ends with {ran} in place of {noted!r}"


def streamed(program, room):
    for line, name, status, fault, more in STREAMED:
        for option, wanted in (([], fault), (["--explain"], fault + more)):
            handle = os.open(f"{room}/{name}", os.O_RDONLY)
            ran = subprocess.run([program, *option, *line.split()], cwd=room, stdin=handle, capture_output=True, text=True, timeout=60)
            os.close(handle)
            if (ran.returncode, ran.stderr) != (status, wanted):
                yield f"{line} < {name}: it ends with {ran.returncode} and says {ran.stderr!r} in place of {wanted!r}"


def main(program):
    with tempfile.TemporaryDirectory() as room:
        make(room, program)
        found = [*faults(program, room), *missaid(program, room), *remarks(program, room), *notes(program, room), *streamed(program, room)]
    count = len(ROWS) + len(MISSAID) + len(REMARKS) + len(NOTES) + len(STREAMED)
    print("".join(f"{it}\n" for it in found) + f"test_advice: {count} command lines of people, each with advice and without, {len(found)} otherwise", flush=True)
    return bool(found)


if __name__ == "__main__":
    if len(sys.argv) != 2:
        sys.exit(__doc__)
    sys.exit(main(os.path.realpath(sys.argv[1])))
