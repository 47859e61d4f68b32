//! The rules of a study in plain Rust. Nothing is proved here. The benchmark measures the proved simulator against this, and the
//! two check each other.

pub const MOST_STEPS: u32 = 1_000_000;
const MOST_WAYS: usize = 4;

#[derive(Clone, Copy, Default)]
struct Line {
    block: u16,
    modified: bool,
    stamp: u32,
}

/// A set of a few ways: the lines that it holds, the least recently used first.
#[derive(Clone, Copy, Default)]
struct Set {
    held: u8,
    lines: [Line; MOST_WAYS],
}

impl Set {
    fn held(&self) -> &[Line] {
        &self.lines[..self.held as usize]
    }

    /// The line of this way becomes the most recently used.
    fn touch(&mut self, way: usize) {
        for next in way + 1..self.held as usize {
            self.lines.swap(next - 1, next);
        }
    }

    fn remove(&mut self, way: usize) -> Line {
        self.touch(way);
        self.held -= 1;
        self.lines[self.held as usize]
    }
}

/// One cache level: sets of so many ways. A direct level has one way.
pub struct Level {
    ways: u8,
    sets: Vec<Set>,
}

impl Level {
    pub fn new(sets: usize, ways: u8) -> Level {
        Level {
            ways,
            sets: vec![Set::default(); sets],
        }
    }

    /// Compiled with `--cfg low_bits`, it takes the low bits where the number of sets is a power of two, as the proved
    /// simulator does; else it divides.
    fn set_of(&self, block: u16) -> usize {
        let sets = self.sets.len() as u32;
        let low = sets.wrapping_sub(1);
        let set = if cfg!(low_bits) && sets & low == 0 {
            u32::from(block) & low
        } else {
            u32::from(block) % sets
        };
        set as usize
    }

    /// The set and the way where a block is held.
    fn find(&self, block: u16) -> Option<(usize, usize)> {
        let set = self.set_of(block);
        let way = self.sets[set]
            .held()
            .iter()
            .position(|line| line.block == block)?;
        Some((set, way))
    }

    /// Holds a line, and gives out the one that leaves for it.
    fn insert(&mut self, line: Line) -> Option<Line> {
        let number = self.set_of(line.block);
        let set = &mut self.sets[number];
        let oldest = (set.held == self.ways).then(|| set.remove(0));
        set.lines[set.held as usize] = line;
        set.held += 1;
        oldest
    }
}

#[derive(Clone, Copy)]
enum Access {
    Read(u16),
    Write(u16),
}

impl Access {
    fn block(self) -> u16 {
        match self {
            Access::Read(block) | Access::Write(block) => block,
        }
    }
}

#[derive(Clone, Copy)]
enum State {
    Ready,
    Waiting(Access),
    Due(Access),
}

/// Where a core holds a block: the level, the set and the way, all from 0.
#[derive(Clone, Copy)]
struct Place {
    level: usize,
    set: usize,
    way: usize,
}

struct Core {
    levels: Vec<Level>,
    state: State,
}

impl Core {
    fn find(&self, block: u16) -> Option<Place> {
        for (number, level) in self.levels.iter().enumerate() {
            if let Some((set, way)) = level.find(block) {
                return Some(Place {
                    level: number,
                    set,
                    way,
                });
            }
        }
        None
    }

    fn set(&mut self, place: Place) -> &mut Set {
        &mut self.levels[place.level].sets[place.set]
    }

    fn line(&mut self, place: Place) -> &mut Line {
        &mut self.set(place).lines[place.way]
    }

    fn find_modified(&mut self, block: u16) -> Option<&mut Line> {
        let place = self.find(block)?;
        let line = self.line(place);
        line.modified.then_some(line)
    }

    fn remove(&mut self, block: u16) {
        if let Some(place) = self.find(block) {
            self.set(place).remove(place.way);
        }
    }

    /// Holds a line at the first level. What a level gives out sinks to the next; what the last gives out leaves.
    fn insert(&mut self, line: Line) -> Option<Line> {
        let mut sinking = line;
        for level in &mut self.levels {
            sinking = level.insert(sinking)?;
        }
        Some(sinking)
    }

    /// Brings a held line up to the first level; the line that leaves for it.
    fn bring_up(&mut self, place: Place) -> Option<Line> {
        if place.level == 0 {
            self.set(place).touch(place.way);
            None
        } else {
            let line = self.set(place).remove(place.way);
            self.insert(line)
        }
    }
}

#[derive(Clone, Copy)]
pub enum Call {
    Read(usize, u16),
    Write(usize, u16),
    Fetch(usize),
    Resume(usize),
    Flush(usize, u16),
    Commit(usize, u16),
}

impl Call {
    pub fn core(self) -> usize {
        match self {
            Call::Fetch(core) | Call::Resume(core) => core,
            Call::Read(core, _)
            | Call::Write(core, _)
            | Call::Flush(core, _)
            | Call::Commit(core, _) => core,
        }
    }

    fn block(self) -> Option<u16> {
        match self {
            Call::Fetch(_) | Call::Resume(_) => None,
            Call::Read(_, block)
            | Call::Write(_, block)
            | Call::Flush(_, block)
            | Call::Commit(_, block) => Some(block),
        }
    }
}

#[derive(Clone, Copy)]
pub enum Answer {
    Waits(u16),
    Brought(u16),
    Read(u32),
    Wrote(u32),
    Flushed(u16),
    Committed(bool),
}

#[derive(Clone, Copy, PartialEq)]
pub enum Refusal {
    TooManySteps = 4,
    NoSuchCore = 5,
    NoSuchBlock = 6,
    WrongState = 7,
    StaleBlock = 8,
    NotOwed = 9,
}

/// Cores that share a memory. A block of memory has the stamp of its last store, or none while it is stale.
pub struct Machine {
    cores: Vec<Core>,
    memory: Vec<Option<u32>>,
    level_weights: [u64; 4],
    memory_weight: u64,
    pub steps: u32,
    pub writes: u32,
    pub accesses: u32,
    pub total: u64,
}

impl Machine {
    pub fn new(
        caches: Vec<Vec<Level>>,
        blocks: u16,
        level_weights: [u64; 4],
        memory_weight: u64,
    ) -> Machine {
        let cores = caches.into_iter().map(|levels| Core {
            levels,
            state: State::Ready,
        });
        Machine {
            cores: cores.collect(),
            memory: vec![Some(0); blocks as usize],
            level_weights,
            memory_weight,
            steps: 0,
            writes: 0,
            accesses: 0,
            total: 0,
        }
    }

    pub fn step(&mut self, call: Call) -> Result<Answer, Refusal> {
        if self.steps >= MOST_STEPS {
            return Err(Refusal::TooManySteps);
        }
        if call.core() >= self.cores.len() {
            return Err(Refusal::NoSuchCore);
        }
        if call
            .block()
            .is_some_and(|block| block as usize >= self.memory.len())
        {
            return Err(Refusal::NoSuchBlock);
        }
        let answer = match (call, self.cores[call.core()].state) {
            (Call::Read(core, block), State::Ready) => self.access(core, Access::Read(block)),
            (Call::Write(core, block), State::Ready) => self.access(core, Access::Write(block)),
            (Call::Fetch(core), State::Waiting(access)) => self.fetch(core, access)?,
            (Call::Resume(core), State::Due(access)) => self.access(core, access),
            (Call::Flush(core, block), _) => self.flush(core, block)?,
            (Call::Commit(core, block), State::Ready) => Answer::Committed(self.clean(core, block)),
            _ => return Err(Refusal::WrongState),
        };
        self.steps += 1;
        Ok(answer)
    }

    fn access(&mut self, core: usize, access: Access) -> Answer {
        let block = access.block();
        let Some(place) = self.cores[core].find(block) else {
            self.cores[core].state = State::Waiting(access);
            return Answer::Waits(block);
        };
        let line = *self.cores[core].line(place);
        self.cores[core].state = State::Ready;
        self.accesses += 1;
        self.total += self.level_weights[place.level.min(3)];
        let left = self.cores[core].bring_up(place);
        self.leave(left);
        match access {
            Access::Read(_) => Answer::Read(line.stamp),
            Access::Write(_) => self.write(core, block, line.modified),
        }
    }

    /// A core writes a block that was just brought up, so that it stands at the first level.
    fn write(&mut self, core: usize, block: u16, owned: bool) -> Answer {
        if !owned {
            self.claim(core, block);
        }
        self.writes += 1;
        let stamp = self.writes;
        if let Some(place) = self.cores[core].find(block) {
            *self.cores[core].line(place) = Line {
                block,
                modified: true,
                stamp,
            };
        }
        Answer::Wrote(stamp)
    }

    /// Every other core drops the block, which is then stale in memory, also where a modified copy was stored first.
    fn claim(&mut self, writer: usize, block: u16) {
        for (number, core) in self.cores.iter_mut().enumerate() {
            if number != writer {
                core.remove(block);
            }
        }
        self.memory[block as usize] = None;
    }

    fn fetch(&mut self, core: usize, access: Access) -> Result<Answer, Refusal> {
        let block = access.block();
        let stamp = self.memory[block as usize].ok_or(Refusal::StaleBlock)?;
        self.cores[core].state = State::Due(access);
        self.total += self.memory_weight;
        let left = self.cores[core].insert(Line {
            block,
            modified: false,
            stamp,
        });
        self.leave(left);
        Ok(Answer::Brought(block))
    }

    fn flush(&mut self, core: usize, block: u16) -> Result<Answer, Refusal> {
        if self.is_awaited(core, block) && self.clean(core, block) {
            Ok(Answer::Flushed(block))
        } else {
            Err(Refusal::NotOwed)
        }
    }

    /// Whether another core waits for a block.
    fn is_awaited(&self, core: usize, block: u16) -> bool {
        self.cores.iter().enumerate().any(|(number, other)| {
            number != core
                && matches!(other.state, State::Waiting(access) if access.block() == block)
        })
    }

    /// Memory takes a copy that is modified, and the copy is shared; whether there was one.
    fn clean(&mut self, core: usize, block: u16) -> bool {
        let Some(line) = self.cores[core].find_modified(block) else {
            return false;
        };
        line.modified = false;
        self.memory[block as usize] = Some(line.stamp);
        self.total += self.memory_weight;
        true
    }

    /// A line leaves the caches: memory takes it if it is modified.
    fn leave(&mut self, line: Option<Line>) {
        if let Some(Line {
            block,
            modified: true,
            stamp,
        }) = line
        {
            self.memory[block as usize] = Some(stamp);
            self.total += self.memory_weight;
        }
    }
}
