//! Groups run one after another until enough calls are compared.

use crate::agreement::{handed, prefixes};
use crate::draw;
use crate::engine::Engine;
use crate::failure::{Failure, Found, Step};
use crate::op::{Op, Reply};
use crate::pair::Pair;
use crate::tally::Tally;
use reference::layout::{CURRENT_ROUND, LAST_ROUND, LEGAL_SIZES};
use reference::model::Lists;
use reference::rng::Rng;
use reference::simulate::{digests, simulate, simulate_proposing, Options, Run};
use reference::{Call, Model, STATE_WORDS};

/// A kind of groups: its name, what such groups are like, and how their calls are drawn.
#[derive(Clone, Copy)]
struct Kind {
    name: &'static str,
    options: fn() -> Options,
    draw: fn(u64, u32, &Options) -> Run,
    /// Whether both calls of our own are compared after every step.
    proposes: bool,
}

impl Kind {
    const fn world(name: &'static str, options: fn() -> Options) -> Kind {
        Kind {
            name,
            options,
            draw: simulate,
            proposes: false,
        }
    }

    /// Driven by made records alone.
    const fn proposing(name: &'static str, options: fn() -> Options) -> Kind {
        Kind {
            name,
            options,
            draw: simulate_proposing,
            proposes: true,
        }
    }
}

const KINDS: [Kind; 7] = [
    Kind::world("calm", Options::calm),
    Kind::world("split votes", Options::split),
    Kind::proposing("made records, typical", Options::typical),
    Kind::world("typical", Options::typical),
    Kind::world("rough", Options::rough),
    Kind::proposing("made records, rough", Options::rough),
    Kind::world("wild", Options::wild),
];
/// Every size with every kind.
const TURN: u64 = (LEGAL_SIZES.len() * KINDS.len()) as u64;

/// What is run: groups drawn from a seed, of so many rounds if that is fixed, until so many calls
/// are compared.
#[derive(Clone, Copy, Debug)]
pub struct Plan {
    pub seed: u64,
    pub count: u64,
    pub rounds: Option<u32>,
}

/// Runs groups until enough calls are compared or one fails.
pub fn run(engine: &dyn Engine, plan: Plan) -> (Tally, Option<Found>) {
    let mut tally = Tally::default();
    for group in 0.. {
        if tally.calls >= plan.count {
            break;
        }
        let mut session = Session::new(engine, plan, group, &mut tally);
        if let Err(failure) = session.run_group() {
            let found = session.found(failure);
            return (tally, Some(found));
        }
    }
    (tally, None)
}

/// One group.
struct Session<'a> {
    engine: &'a dyn Engine,
    rng: Rng,
    plan: Plan,
    group: u64,
    tally: &'a mut Tally,
}

type Outcome<T> = Result<T, Failure>;

impl<'a> Session<'a> {
    fn new(engine: &'a dyn Engine, plan: Plan, group: u64, tally: &'a mut Tally) -> Self {
        let first = Rng::new(plan.seed).long_word();
        Session {
            engine,
            rng: Rng::new(first.wrapping_add(group)),
            plan,
            group,
            tally,
        }
    }

    fn n(&self) -> u32 {
        LEGAL_SIZES[(self.group % LEGAL_SIZES.len() as u64) as usize]
    }

    fn kind(&self) -> Kind {
        KINDS[(self.group % TURN) as usize / LEGAL_SIZES.len()]
    }

    fn found(&self, failure: Failure) -> Found {
        Found {
            group: self.group,
            n: self.n(),
            kind: self.kind().name,
            failure,
        }
    }

    /// Every other turn of sizes and kinds runs all 32 rounds, if nothing else is asked for.
    fn options(&mut self) -> Options {
        let options = self.kind().options;
        let drawn = 2 + self.rng.below(LAST_ROUND - 1);
        let whole = (self.group / TURN).is_multiple_of(2);
        let rounds = if whole { LAST_ROUND } else { drawn };
        Options {
            rounds: self.plan.rounds.unwrap_or(rounds),
            ..options()
        }
    }

    fn run_group(&mut self) -> Outcome<()> {
        let options = self.options();
        let kind = self.kind();
        let run = (kind.draw)(self.rng.long_word(), self.n(), &options);
        self.tally.groups += 1;
        let mut ends = Vec::new();
        for calls in self.two(run.replicas) {
            let mut replica = Replica::new(&calls, options.premises);
            replica.follow(self, kind.proposes)?;
            self.tally.ended(replica.pair.words());
            ends.push((replica.lists(self)?, replica.made));
        }
        match <[_; 2]>::try_from(ends) {
            Ok([a, b]) if options.premises => self.compare(a, b),
            _ => Ok(()),
        }
    }

    /// Two of the replicas, drawn at random if there are more.
    fn two(&mut self, mut replicas: Vec<Vec<Call>>) -> Vec<Vec<Call>> {
        while replicas.len() > 2 {
            let at = self.rng.below(replicas.len() as u32);
            replicas.swap_remove(at as usize);
        }
        replicas
    }

    /// The lists of two replicas: one must be a prefix of the other.
    fn compare(&mut self, a: (Lists, Vec<Call>), b: (Lists, Vec<Call>)) -> Outcome<()> {
        self.tally.pairs += 1;
        if prefixes(&a.0, &b.0) {
            return Ok(());
        }
        Err(Failure::Prefix { calls: [a.1, b.1] })
    }

    fn is_done(&self) -> bool {
        self.tally.calls >= self.plan.count
    }
}

/// A state beside a replica's own, and what led to it: the replica's calls, then steps.
struct Aside<'a> {
    pair: Pair,
    calls: &'a [Call],
    steps: Vec<Step>,
}

impl Aside<'_> {
    /// Words of any kind.
    fn of_words(words: &[u32]) -> Aside<'static> {
        let places = words.iter().copied().enumerate();
        Aside {
            pair: Pair::new(words),
            calls: &[],
            steps: places
                .filter(|(_, word)| *word != 0)
                .map(|(at, word)| Step::Set(at, word))
                .collect(),
        }
    }

    fn set(&mut self, at: usize, word: u32) {
        self.pair.set(at, word);
        self.steps.push(Step::Set(at, word));
    }

    fn perform(&mut self, session: &mut Session, op: Op) -> Outcome<Reply> {
        let reply = self.pair.perform(session.engine, &op);
        self.steps.push(Step::Perform(op.clone()));
        match reply {
            Ok(reply) => {
                session.tally.see(&op, &reply, &self.pair);
                Ok(reply)
            }
            Err(_) => {
                let before = self.calls.iter().map(Step::of_call);
                Err(Failure::Steps {
                    size: self.pair.words().len(),
                    steps: before.chain(self.steps.clone()).collect(),
                })
            }
        }
    }

    /// A record of our own and a no-vote of our own.
    fn own_calls(&mut self, session: &mut Session) -> Outcome<()> {
        for op in draw::own_ops(&mut session.rng) {
            self.perform(session, op)?;
        }
        Ok(())
    }

    /// So many calls of any kind.
    fn any(&mut self, session: &mut Session, calls: &[Call], count: u32) -> Outcome<()> {
        for _ in 0..count {
            let op = draw::any_op(&mut session.rng, self.pair.words(), calls);
            self.perform(session, op)?;
        }
        Ok(())
    }
}

/// One replica and the calls that it gets.
struct Replica<'a> {
    calls: &'a [Call],
    made: Vec<Call>,
    pair: Pair,
    model: Model,
    premises: bool,
}

impl<'a> Replica<'a> {
    fn new(calls: &'a [Call], premises: bool) -> Self {
        Replica {
            calls,
            made: Vec::new(),
            pair: Pair::new(&[0; STATE_WORDS]),
            model: Model::default(),
            premises,
        }
    }

    /// Makes the calls, each followed by some beside it, and by both of our own if that is asked.
    fn follow(&mut self, session: &mut Session, proposes: bool) -> Outcome<()> {
        for call in self.calls {
            let round = self.pair.words()[CURRENT_ROUND];
            let reply = self.on_state(session, Op::Change(call.clone()))?;
            self.model.feed(call, reply[0]);
            self.made.push(call.clone());
            if reply[0] == 0 {
                let rounds = [round, self.pair.words()[CURRENT_ROUND]];
                session.tally.admitted(call, reply[2], rounds);
            }
            if reply[2] > 0 {
                session.tally.committed(self.pair.words());
                self.lists(session)?;
            }
            if proposes {
                self.own_calls(session)?;
            }
            self.beside(session)?;
            if session.is_done() {
                break;
            }
        }
        Ok(())
    }

    /// A call on the replica's own state.
    fn on_state(&mut self, session: &mut Session, op: Op) -> Outcome<Reply> {
        let reply = self.pair.perform(session.engine, &op);
        if let Ok(reply) = reply {
            session.tally.see(&op, &reply, &self.pair);
            return Ok(reply);
        }
        let mut steps: Vec<Step> = self.made.iter().map(Step::of_call).collect();
        steps.push(Step::Perform(op));
        Err(Failure::Steps {
            size: STATE_WORDS,
            steps,
        })
    }

    /// The lists, which are the model's if the premises hold.
    fn lists(&self, session: &mut Session) -> Outcome<Lists> {
        let lists = handed(session.engine, self.pair.tested_words());
        if self.premises {
            session.tally.models += 1;
        }
        match lists {
            Some(lists) if !self.premises || lists == self.model.lists() => Ok(lists),
            _ => Err(Failure::Model {
                calls: self.made.clone(),
            }),
        }
    }

    /// Calls beside the group's own: on the state if they change no word, else on copies.
    fn beside(&mut self, session: &mut Session) -> Outcome<()> {
        let words = self.pair.words();
        match session.rng.below(20) {
            0 => self.on_state(session, Op::Status).map(drop),
            1..=4 => {
                let op = draw::list_op(&mut session.rng, words);
                self.on_state(session, op).map(drop)
            }
            5..=7 => self.damaged(session),
            8 => {
                let words = draw::other_size(&mut session.rng, words);
                Aside::of_words(&words).any(session, self.calls, 2)
            }
            9 => self.copy().any(session, self.calls, 3),
            11 | 12 => self.own_calls(session),
            13 => self.bundles(session),
            14 => self.buffers(session),
            10 if session.rng.percent(10) => {
                let words = draw::random_words(&mut session.rng);
                Aside::of_words(&words).any(session, self.calls, 3)
            }
            _ => Ok(()),
        }
    }

    fn copy(&self) -> Aside<'_> {
        Aside {
            pair: Pair::new(self.pair.words()),
            calls: &self.made,
            steps: Vec::new(),
        }
    }

    /// A record and a no-vote of our own, on a copy and on one with words 5 to 7 changed.
    fn own_calls(&self, session: &mut Session) -> Outcome<()> {
        self.copy().own_calls(session)?;
        let mut changed = self.copy();
        for (at, word) in draw::own_words(&mut session.rng, self.pair.words()) {
            changed.set(at, word);
        }
        changed.own_calls(session)
    }

    /// Bundles of timeouts on a copy: as it is, or with a current round behind what is held and noted
    /// and some words as few calls would leave them.
    fn bundles(&self, session: &mut Session) -> Outcome<()> {
        let mut aside = self.copy();
        if session.rng.percent(50) {
            let words = self.pair.words();
            let round = 1 + session.rng.below(words[CURRENT_ROUND]);
            aside.set(CURRENT_ROUND, round);
            for (at, word) in draw::unlikely(&mut session.rng, words) {
                aside.set(at, word);
            }
        }
        for _ in 0..3 {
            let bundle = draw::bundle(&mut session.rng, aside.pair.words());
            aside.perform(session, Op::Change(bundle))?;
        }
        Ok(())
    }

    /// Vertices with a pending buffer on a copy: the next ones of the group, mostly the first of them
    /// first, with one buffer from call to call, which has some of them already, and at times with another
    /// digest; then any records with any buffers.
    fn buffers(&self, session: &mut Session) -> Outcome<()> {
        let mut aside = self.copy();
        let rng = &mut session.rng;
        let next = &self.calls[self.made.len()..];
        let (coming, mut buffer) = draw::coming(rng, aside.pair.words(), next);
        for at in 0..4.min(coming.len()) {
            let drawn = [at, session.rng.below(coming.len() as u32) as usize];
            let mut apart = session.rng.apart();
            let mut record = coming[drawn[apart.below(2) as usize]];
            if apart.percent(30) {
                record.digest = digests::other(&mut apart, record.digest);
            }
            let call = Call::VertexWith(buffer, record.words().to_vec());
            aside.perform(session, Op::Change(call))?;
            buffer = aside.pair.buffer().to_vec();
        }
        for _ in 0..3 {
            let call = draw::buffered(&mut session.rng, aside.pair.words(), self.calls);
            aside.perform(session, Op::Change(call))?;
        }
        Ok(())
    }

    /// A copy of the state with words changed, and more calls where it is still well formed.
    fn damaged(&self, session: &mut Session) -> Outcome<()> {
        let mut aside = self.copy();
        for (at, word) in draw::damage(&mut session.rng, self.pair.words()) {
            aside.set(at, word);
        }
        session.tally.damaged += 1;
        let status = aside.perform(session, Op::Status)?;
        if status[0] == 0 {
            session.tally.still_well_formed += 1;
            let next = self.calls.iter().skip(self.made.len());
            for call in next.take(1 + session.rng.below(8) as usize) {
                aside.perform(session, Op::Change(call.clone()))?;
            }
        }
        aside.any(session, self.calls, 2)
    }
}
