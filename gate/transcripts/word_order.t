Options stand before and behind the files and in any order, with `=` too, and numbers may begin with zeros. Each of these pairs does the same, and
something else than a third command line, in which an option is missing or another.
  $ said() {
  >   eval "cmwq $1" 2>&1
  >   echo "[$?]"
  > }
  $ same() {
  >   cmp <(said "$1") <(said "$2")
  >   ! cmp -s <(said "$1") <(said "$3") || echo "$1 does what $3 does"
  >   ! said "$1" | grep -q '^\[2\]$' || echo "$1 isn't taken"
  > }
  $ printf '%s\n' 'cpus 1' 'workers 4' 'steps 1000' 'flushes 2' 'queue q max 1' 'work a q' 'work b q' > one.cmwq
  > printf '%s\n' 'body a' 'burn 2' finish 'body b' 'sleep 30' finish >> one.cmwq
  > printf '%s\n' 'actor t' 'queue a 0' 'queue b 0' 'flush b' 'next * 6' >> one.cmwq
  $ printf '%s\n' 'cpus 1' 'workers 4' 'steps 20' 'flushes 2' 'queue q max 2' 'work a q' 'work b q' > three.cmwq
  > printf '%s\n' 'body a' 'burn 1' finish 'body b' finish >> three.cmwq
  > printf '%s\n' 'actor one' 'queue a 0' 'actor other' 'cancel a' 'queue b 0' 'actor third' 'queue b 0' >> three.cmwq

Runs, pictures, times and traces.
  $ same "run --settle one.cmwq" "run one.cmwq --settle" "run one.cmwq"
  $ same "run --tell one.cmwq" "run one.cmwq --tell" "run one.cmwq"
  $ printf '%s\n' 'cpus 1' 'workers 4' 'steps 1000' 'flushes 0' 'actor t' 'thaw' > refused.cmwq
  $ same "run --strict refused.cmwq" "run refused.cmwq --strict" "run refused.cmwq"
  $ same "run --strict --settle - --tell < refused.cmwq" "run refused.cmwq --settle --tell --strict" "run refused.cmwq --settle --strict"
  $ same "run --tell - --settle < one.cmwq" "run one.cmwq --settle --tell" "run one.cmwq --tell"
  $ same "draw --settle one.cmwq" "draw one.cmwq --settle" "draw one.cmwq"
  $ same "draw --settle --svg --from 1 --to 18446744073709551615 one.cmwq" "draw one.cmwq --settle --from 1 --to 18446744073709551615 --svg" "draw one.cmwq --settle --svg"
  $ same "draw one.cmwq --to 0 --svg" "draw one.cmwq --svg --to 0" "draw one.cmwq --svg"
  $ same "draw --id a-B_9 --works b --settle --svg --scale 50 --fold - < one.cmwq" "draw one.cmwq --settle --fold --works b --svg --scale 50 --id a-B_9" "draw one.cmwq --settle --works b --svg --scale 50 --id a-B_9"
  $ same "times --json one.cmwq" "times one.cmwq --json" "times one.cmwq"
  $ same "times --whom one.cmwq" "times one.cmwq --whom" "times one.cmwq"
  $ same "times --sweep q 1..3 --json one.cmwq" "times one.cmwq --json --sweep q 1..3" "times one.cmwq --sweep q 1..3"
  $ same "times one.cmwq --sweep q 2..0000000003" "times one.cmwq --sweep q 2..3" "times one.cmwq --sweep q 1..3"
  $ same "trace --json one.cmwq" "trace one.cmwq --json" "trace one.cmwq --lines"
  $ same "trace --lines one.cmwq" "trace one.cmwq --lines" "trace one.cmwq --text"
  $ same "trace --text one.cmwq" "trace one.cmwq --text" "trace one.cmwq --json"
  $ cmwq trace --dat before.data one.cmwq; cmwq trace one.cmwq --dat behind.data; cmp before.data behind.data

Questions. A work without a name is asked for like any other.
  $ same "why --every one.cmwq b" "why one.cmwq b --every" "why one.cmwq b"
  $ same "why --at 4 one.cmwq b" "why one.cmwq b --at 4" "why one.cmwq b"
  $ same "why one.cmwq b --at 0000000004" "why one.cmwq b --at 4" "why one.cmwq b --at 5"
  $ same "why --every --flush 0000000000 one.cmwq" "why one.cmwq --flush 0 --every" "why one.cmwq --flush 0"
  $ same "why one.cmwq --at 5 --flush 0" "why one.cmwq --flush 0 --at 5" "why one.cmwq --flush 0"
  $ same "why --settle - b --time 3 < one.cmwq" "why one.cmwq b --time 3 --settle" "why one.cmwq b --settle"
  $ cmwq why one.cmwq ''
  no such work
  [1]

A session, a play, verdicts, and the version.
  $ same "debug --settle one.cmwq <<< 'goto 10'" "debug one.cmwq --settle <<< 'goto 10'" "debug one.cmwq <<< 'goto 10'"
  $ same "play --capacity 1 one.cmwq" "play one.cmwq --capacity 1" "play one.cmwq --capacity 2"
  $ same "check --explain one.cmwq none.cmwq one.cmwq" "check one.cmwq none.cmwq one.cmwq --explain" "check one.cmwq one.cmwq --explain"
  $ same "-V" "--version" "--help"

All orders. A pair that is given twice says nothing new.
  $ same "explore --stuck three.cmwq" "explore three.cmwq --stuck" "explore three.cmwq --never b"
  $ same "explore --stuck three.cmwq --limit 20" "explore three.cmwq --stuck --limit 20" "explore three.cmwq --stuck"
  $ same "explore three.cmwq --limit 0000000020 --never a b" "explore three.cmwq --never a b --limit 20" "explore three.cmwq --never a b"
  $ same "explore --never a b three.cmwq" "explore three.cmwq --never a b" "explore three.cmwq --never b"
  $ same "explore three.cmwq --never=a --after other" "explore three.cmwq --after other --never a" "explore three.cmwq --never a"
  $ same "explore --before third other --never a b three.cmwq" "explore three.cmwq --before third other --never a b" "explore three.cmwq --never a b"
  $ same "explore three.cmwq --before one other --after third --never b --before other third" "explore three.cmwq --before one other --before other third --after third --never b" "explore three.cmwq --before one other --after third --never b"
  $ same "explore three.cmwq --stuck --before one other --before other third --before one third --before one third" "explore three.cmwq --before one other --before other third --stuck" "explore three.cmwq --stuck"
