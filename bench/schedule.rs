//! Schedules: lists of requests, made by a driver that reacts to the answers of the plain machine.
use crate::library::{Request, Tally};
use crate::random::Random;
use crate::rules::{Answer, Call, Level, Machine, Refusal};

const MOST_CORES: usize = 8;

/// A machine of so many cores, each with the caches that the function makes.
#[derive(Clone, Copy)]
pub struct Kind {
    pub name: &'static str,
    pub cores: u16,
    pub blocks: u16,
    pub caches: fn() -> Vec<Level>,
    /// What the proved simulator makes of requests on the same machine.
    pub proved: fn(u16, &[Request]) -> Option<Tally>,
}

impl Kind {
    fn machine(&self, blocks: u16) -> Machine {
        let caches = (0..self.cores).map(|_| (self.caches)());
        Machine::new(caches.collect(), blocks, [1, 10, 20, 30], 100)
    }

    /// What the plain machine makes of requests.
    pub fn plain(&self, blocks: u16, requests: &[Request]) -> Tally {
        let mut machine = self.machine(blocks);
        for request in requests {
            let _ = machine.step(Call::from(*request));
        }
        Tally {
            accesses: machine.accesses,
            total: machine.total,
        }
    }

    /// The requests of so many accepted steps.
    pub fn requests(&self, steps: u32, blocks: u16) -> Vec<Request> {
        let mut driver = Driver {
            random: Random::new(1),
            pending: [Pending::Nothing; MOST_CORES],
            machine: self.machine(blocks),
            requests: Vec::new(),
        };
        while driver.machine.steps < steps {
            driver.turn(self.cores, blocks);
        }
        driver.requests
    }
}

impl From<Request> for Call {
    fn from(request: Request) -> Call {
        let (core, block) = (usize::from(request.core), request.block);
        match request.kind {
            0 => Call::Read(core, block),
            1 => Call::Write(core, block),
            2 => Call::Fetch(core),
            3 => Call::Resume(core),
            4 => Call::Flush(core, block),
            _ => Call::Commit(core, block),
        }
    }
}

impl From<Call> for Request {
    fn from(call: Call) -> Request {
        let (kind, core, block) = match call {
            Call::Read(core, block) => (0, core, block),
            Call::Write(core, block) => (1, core, block),
            Call::Fetch(core) => (2, core, 0),
            Call::Resume(core) => (3, core, 0),
            Call::Flush(core, block) => (4, core, block),
            Call::Commit(core, block) => (5, core, block),
        };
        Request {
            kind,
            core: core as u16,
            block,
        }
    }
}

/// What a core has still to do, as its answers told.
#[derive(Clone, Copy)]
enum Pending {
    Nothing,
    Fetch(u16),
    Resume,
}

/// A schedule that reacts to answers.
struct Driver {
    random: Random,
    pending: [Pending; MOST_CORES],
    machine: Machine,
    requests: Vec<Request>,
}

impl Driver {
    /// The next call of a core: what is pending, or else an access or now and then a commit of any block.
    fn choose(&mut self, core: usize, blocks: u16) -> Call {
        match self.pending[core] {
            Pending::Fetch(_) => Call::Fetch(core),
            Pending::Resume => Call::Resume(core),
            Pending::Nothing => {
                let kind = self.random.below(16);
                let block = self.random.below(blocks);
                match kind {
                    0 => Call::Commit(core, block),
                    1..=4 => Call::Write(core, block),
                    _ => Call::Read(core, block),
                }
            }
        }
    }

    fn call(&mut self, call: Call) -> Result<Answer, Refusal> {
        self.requests.push(Request::from(call));
        let outcome = self.machine.step(call);
        match outcome {
            Ok(Answer::Waits(block)) => self.pending[call.core()] = Pending::Fetch(block),
            Ok(Answer::Brought(_)) => self.pending[call.core()] = Pending::Resume,
            Ok(Answer::Read(_) | Answer::Wrote(_)) => self.pending[call.core()] = Pending::Nothing,
            _ => {}
        }
        outcome
    }

    /// One call of one core. If its block is stale, the other cores are asked to flush it.
    fn turn(&mut self, cores: u16, blocks: u16) {
        let core = usize::from(self.random.below(cores));
        let call = self.choose(core, blocks);
        let outcome = self.call(call);
        if let (Err(Refusal::StaleBlock), Pending::Fetch(block)) = (outcome, self.pending[core]) {
            for other in 0..usize::from(cores) {
                if other != core && self.call(Call::Flush(other, block)).is_ok() {
                    break;
                }
            }
        }
    }
}
