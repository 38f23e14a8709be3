//! What happens by itself: moves of pools, timers that fire, and ticks.
use crate::heap::by_time;
use crate::machine::{Machine, Place, RESCUER, Run};
use crate::scenario::{Flags, Op};

/// A move of a pool, with the work that it moves.
#[derive(Clone, Copy)]
pub enum Move {
    /// A head that has nothing left to burn goes on to its next operation.
    Advance(u8),
    /// A work that has slept becomes runnable.
    Wake(u8),
    /// The first listed work, which doesn't run, begins on a worker.
    Start(u8),
    /// The first listed work still runs: it waits there.
    Defer(u8),
    /// A listed work begins on its queue's rescuer.
    Rescue(u8),
}

impl Machine<'_> {
    /// Whether the pool is an unbound one.
    #[inline]
    fn is_unbound(&self, pool: u8) -> bool {
        pool >= self.unbound
    }

    /// The CPU of the pool, and the first one for an unbound pool.
    #[inline]
    fn cpu_of(&self, pool: u8) -> u8 {
        if self.is_unbound(pool) { 0 } else { pool / 2 }
    }

    /// Fires the first timer that has run out, else makes the move of the least pool that has one, else lets a tick pass.
    #[inline]
    pub fn go_on(&mut self) {
        if self.timers.time() <= self.time {
            self.fire_first();
        } else if let Some((pool, first)) = self.first_move() {
            self.make(pool, first);
        } else {
            self.tick();
        }
    }

    /// The move of the least pool that has one. Pools that have none are marked no more.
    #[inline]
    pub fn first_move(&mut self) -> Option<(u8, Move)> {
        while self.mask != 0 {
            let pool = self.mask.trailing_zeros() as u8;
            if let Some(first) = self.next_move(pool) {
                return Some((pool, first));
            }
            self.mask &= self.mask - 1;
        }
        None
    }

    /// Fires the first timer, which has run out.
    pub fn fire_first(&mut self) {
        let work = self.timers.first();
        if let Place::Timer { cpu, .. } = self.works[work as usize].place {
            self.fire(work, cpu);
        }
        self.lines.write(self.time, |line| line.name(work).text(b"fires\n"));
    }

    /// A tick passes. Works that end a burn or a sleep then may move their pools.
    #[inline]
    pub fn tick(&mut self) {
        self.time += 1;
        while self.alarms.time() <= self.time {
            self.ring();
        }
    }

    /// The first of those that burn or sleep comes to its end.
    fn ring(&mut self) {
        let number = self.alarms.first();
        self.alarms.pop();
        let work = &mut self.works[number as usize];
        let (pool, stamp) = (work.pool, work.stamp);
        if let Run::Asleep { until } = work.run {
            self.end_sleep(pool, number, until);
        } else {
            work.run = Run::Ready;
            if self.is_unbound(pool) {
                self.ready[(pool - self.unbound) as usize].add(stamp, number);
            }
        }
        self.mark(pool);
    }

    /// A sleeper has slept. Among those that have slept up to the same time the order is that of their stamps.
    #[inline]
    fn end_sleep(&mut self, pool: u8, number: u8, until: u64) {
        let works = &self.works;
        let stamp = works[number as usize].stamp;
        let comes_after = |other: u8| {
            let other = &works[other as usize];
            other.stamp > stamp && matches!(other.run, Run::Asleep { until: its } if its == until)
        };
        self.pools[pool as usize].slept.insert(number, comes_after);
    }

    /// The first head of the pool that has nothing left to burn.
    #[inline]
    fn ready_head(&self, pool: u8) -> Option<u8> {
        if self.is_unbound(pool) {
            return self.ready[(pool - self.unbound) as usize].first();
        }
        let head = self.pools[pool as usize].runnable.first()?;
        matches!(self.works[head as usize].run, Run::Ready).then_some(head)
    }

    /// Whether the pool may start a work.
    #[inline]
    fn may_start(&self, pool: u8) -> bool {
        self.pools[pool as usize].counted == 0
    }

    /// The next move of the pool.
    #[inline]
    pub fn next_move(&self, pool: u8) -> Option<Move> {
        if let Some(work) = self.ready_head(pool) {
            return Some(Move::Advance(work));
        }
        if let Some(work) = self.pools[pool as usize].slept.first() {
            return Some(Move::Wake(work));
        }
        if !self.may_start(pool) {
            return None;
        }
        let work = self.lists.first(pool as usize)?;
        if self.works[work as usize].runs() {
            Some(Move::Defer(work))
        } else if self.has_worker(pool) {
            Some(Move::Start(work))
        } else {
            self.first_rescued(pool).map(Move::Rescue)
        }
    }

    /// Makes the next move of the pool.
    pub fn make(&mut self, pool: u8, next: Move) {
        match next {
            Move::Advance(work) => self.advance(pool, work),
            Move::Wake(work) => self.wake(pool, work),
            Move::Start(work) => {
                let worker = self.take_worker(pool);
                self.start(pool, work, worker);
                self.lines.write(self.time, |line| line.name(work).text(b"starts\n"));
            }
            Move::Defer(work) => {
                self.lists.take(work);
                self.works[work as usize].place = Place::Deferred(pool);
                self.lines.write(self.time, |line| line.name(work).text(b"defers\n"));
            }
            Move::Rescue(work) => {
                self.queues[self.roles[work as usize].queue as usize].has_free_rescuer = false;
                self.start(pool, work, RESCUER);
                self.lines.write(self.time, |line| line.name(work).text(b"starts on rescuer\n"));
            }
        }
    }

    /// The first listed work of the pool that doesn't run and whose queue's rescuer is free.
    fn first_rescued(&self, pool: u8) -> Option<u8> {
        if !self.has_rescuers {
            return None;
        }
        let mut listed = self.lists.first(pool as usize);
        while let Some(number) = listed {
            let queue = self.roles[number as usize].queue;
            if self.queues[queue as usize].has_free_rescuer && !self.works[number as usize].runs() {
                return listed;
            }
            listed = self.lists.behind(number);
        }
        None
    }

    /// A listed work begins on this worker, or on its queue's rescuer.
    #[inline]
    fn start(&mut self, pool: u8, number: u8, worker: u8) {
        self.lists.take(number);
        let work = &mut self.works[number as usize];
        work.pool = pool;
        work.worker = worker;
        self.begin(number);
        self.become_runnable(pool, number);
    }

    /// The pending half of a work becomes its running half, at the beginning of its body.
    #[inline]
    fn begin(&mut self, number: u8) {
        let stamp = self.stamp();
        let work = &mut self.works[number as usize];
        work.place = Place::Idle;
        work.run = Run::Ready;
        work.running_born = work.pending_born;
        work.stamp = stamp;
        work.pc = self.roles[number as usize].body;
    }

    /// A work that is ready, with a fresh stamp, goes behind the runnable ones of the pool.
    #[inline]
    fn become_runnable(&mut self, pool: u8, number: u8) {
        if self.is_unbound(pool) {
            let stamp = self.works[number as usize].stamp;
            self.ready[(pool - self.unbound) as usize].add(stamp, number);
            return;
        }
        let kept = &mut self.pools[pool as usize];
        let is_first = kept.runnable.is_empty();
        kept.runnable.push(number);
        kept.counted += u8::from(self.roles[number as usize].is_counted);
        if is_first && pool % 2 == 1 {
            self.pause(pool - 1);
        }
    }

    /// The first runnable work of the pool, or its first ready one in an unbound pool, isn't that any more.
    #[inline]
    fn leave_runnable(&mut self, pool: u8, number: u8) {
        if self.is_unbound(pool) {
            self.ready[(pool - self.unbound) as usize].pop();
            return;
        }
        let kept = &mut self.pools[pool as usize];
        kept.runnable.pop();
        kept.counted -= u8::from(self.roles[number as usize].is_counted);
        if kept.runnable.is_empty() && pool % 2 == 1 {
            self.resume(pool - 1);
        }
    }

    /// The high pool of a CPU takes the CPU from this normal one.
    fn pause(&mut self, pool: u8) {
        let Some(head) = self.pools[pool as usize].runnable.first() else { return };
        let work = &mut self.works[head as usize];
        if let Run::Burning { end } = work.run {
            work.run = Run::Paused { left: end - self.time };
            self.alarms.take(head);
        }
    }

    /// The high pool of a CPU leaves the CPU to this normal one.
    fn resume(&mut self, pool: u8) {
        let Some(head) = self.pools[pool as usize].runnable.first() else { return };
        let work = &mut self.works[head as usize];
        if let Run::Paused { left } = work.run {
            let end = self.time + left;
            work.run = Run::Burning { end };
            self.alarms.add(by_time(end, head));
        }
    }

    /// A work whose sleep is over, the first one of its pool, becomes runnable.
    fn wake(&mut self, pool: u8, number: u8) {
        self.pools[pool as usize].slept.pop();
        let stamp = self.stamp();
        let work = &mut self.works[number as usize];
        work.run = Run::Ready;
        work.stamp = stamp;
        self.become_runnable(pool, number);
        self.lines.write(self.time, |line| line.name(number).text(b"wakes\n"));
    }

    /// A work goes on to its next operation.
    fn advance(&mut self, pool: u8, number: u8) {
        let work = &mut self.works[number as usize];
        let op = self.scenario.ops[work.pc as usize];
        work.pc += 1;
        match op {
            Op::Burn(ticks) => {
                self.burn(pool, number, ticks);
                self.lines.write(self.time, |line| line.name(number).text(b"burns ").number(ticks.into()).text(b"\n"));
            }
            Op::Sleep(ticks) => {
                self.sleep(pool, number, ticks);
                self.lines.write(self.time, |line| line.name(number).text(b"sleeps ").number(ticks.into()).text(b"\n"));
            }
            Op::Queue { work: other, cpu } => self.queue_from_body(number, other, cpu),
            Op::Delay { work: other, ticks } => self.delay_from_body(number, other, self.cpu_of(pool), ticks),
            Op::Mod { work: other, ticks } => self.mod_from_body(number, other, self.cpu_of(pool), ticks),
            Op::Cancel(other) => self.cancel_from_body(number, other),
            Op::Finish => self.finish(pool, number),
        }
    }

    /// A head begins to burn.
    #[inline]
    fn burn(&mut self, pool: u8, number: u8, ticks: u32) {
        if self.is_unbound(pool) {
            self.ready[(pool - self.unbound) as usize].pop();
        } else if pool % 2 == 0 && !self.pools[pool as usize + 1].runnable.is_empty() {
            self.works[number as usize].run = Run::Paused { left: ticks.into() };
            return;
        }
        let end = self.time + u64::from(ticks);
        let work = &mut self.works[number as usize];
        work.run = Run::Burning { end };
        self.alarms.add(by_time(end, number));
    }

    /// A head goes to sleep.
    #[inline]
    fn sleep(&mut self, pool: u8, number: u8, ticks: u32) {
        self.leave_runnable(pool, number);
        let until = self.time + u64::from(ticks);
        let work = &mut self.works[number as usize];
        work.run = Run::Asleep { until };
        self.alarms.add(by_time(until, number));
    }

    /// A body queues a work.
    fn queue_from_body(&mut self, number: u8, other: u8, cpu: u8) {
        let work = &self.works[other as usize];
        if work.depth > 0 {
            self.lines.write(self.time, |line| line.name(number).text(b"queues ").name(other).text(b"disabled\n"));
        } else if work.pends() {
            self.lines.write(self.time, |line| line.name(number).text(b"queues ").name(other).text(b"already\n"));
        } else {
            self.place(other, cpu);
            self.lines.write(self.time, |line| line.name(number).text(b"queues ").name_and_end(other));
        }
    }

    /// A body queues a work after so many ticks.
    fn delay_from_body(&mut self, number: u8, other: u8, cpu: u8, ticks: u32) {
        let work = &self.works[other as usize];
        if work.depth > 0 {
            self.tell_timed(number, b"delays ", other, ticks, b" disabled\n");
        } else if work.pends() {
            self.tell_timed(number, b"delays ", other, ticks, b" already\n");
        } else {
            self.place_after(other, cpu, ticks);
            self.tell_timed(number, b"delays ", other, ticks, b"\n");
        }
    }

    /// A body queues a work after so many ticks, in place of what that waited for.
    fn mod_from_body(&mut self, number: u8, other: u8, cpu: u8, ticks: u32) {
        if self.works[other as usize].depth > 0 {
            self.tell_timed(number, b"mods ", other, ticks, b" disabled\n");
        } else if self.place_anew(other, cpu, ticks) {
            self.tell_timed(number, b"mods ", other, ticks, b" changed\n");
        } else {
            self.tell_timed(number, b"mods ", other, ticks, b"\n");
        }
    }

    /// A body takes a work off.
    fn cancel_from_body(&mut self, number: u8, other: u8) {
        if self.take_off(other) {
            self.lines.write(self.time, |line| line.name(number).text(b"cancels ").name_and_end(other));
        } else {
            self.lines.write(self.time, |line| line.name(number).text(b"cancels ").name(other).text(b"not pending\n"));
        }
    }

    /// Writes what a body asks for after so many ticks, and what came of it.
    #[inline]
    fn tell_timed<const N: usize, const M: usize>(&mut self, number: u8, verb: &[u8; N], other: u8, ticks: u32, end: &[u8; M]) {
        self.lines.write(self.time, |line| line.name(number).text(verb).name(other).number(ticks.into()).text(end));
    }

    /// A work is at the end of its body.
    fn finish(&mut self, pool: u8, number: u8) {
        let queue = self.roles[number as usize].queue;
        let work = &self.works[number as usize];
        let worker = work.worker;
        let is_deferred = matches!(work.place, Place::Deferred(_));
        self.leave_runnable(pool, number);
        self.discount_active(queue, pool);
        self.at_work -= 1;
        if is_deferred {
            self.begin(number);
            self.become_runnable(pool, number);
        } else {
            self.works[number as usize].run = Run::Still;
            if worker == RESCUER {
                self.queues[queue as usize].has_free_rescuer = true;
                self.mark_all();
            } else {
                self.give_back(pool, worker);
            }
        }
        self.fill(queue, pool);
        if is_deferred {
            self.lines.write(self.time, |line| line.name(number).text(b"finishes and starts\n"));
        } else {
            self.lines.write(self.time, |line| line.name(number).text(b"finishes\n"));
        }
    }

    /// Sets the limit of a queue by its `max` and the freeze.
    pub fn set_limit(&mut self, queue: u8) {
        let queue = &mut self.queues[queue as usize];
        let is_frozen = self.frozen && queue.flags.has(Flags::FREEZABLE);
        queue.limit = if is_frozen { 0 } else { queue.max };
    }
}
