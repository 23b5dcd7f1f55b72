//! A run: the sites, the leaders, the learners and what happens to them.

use crate::host::Host;
use crate::leader::Leader;
use crate::library;
use crate::network::{Line, Network, Place};
use crate::plan::Plan;
use crate::scheme::Scheme;
use crate::site::Site;
use crate::stats::Stats;
use crate::watch::Watch;
use model::frames::{self, Fields, LEADER, P1B, P2B, PROPOSE, SUSPICION, VERIFY, VIEWCHANGE};
use model::generate::{command, mask_of, Rng};
use model::layout::Learner;
use model::rules::*;
use std::rc::Rc;

/// A run in progress.
pub struct Cluster {
    pub rng: Rng,
    pub plan: Plan,
    /// The sites that run the library; a liar has none.
    pub sites: Vec<Option<Site>>,
    pub leaders: Vec<Leader>,
    pub learners: Vec<Learner>,
    pub network: Network,
    pub host: Host,
    pub watch: Watch,
    /// Lines that liars have overheard.
    pub heard: Vec<Line>,
    /// The highest ballot that was opened by the rules.
    pub top: u32,
    /// All commands that proposers made.
    pub made: Vec<Command>,
    /// The lines of what they proposed.
    proposals: Vec<Line>,
    serial: u16,
    pub scheme: Option<Scheme>,
    pub stats: Stats,
    /// Every line handed in, where it is to be printed.
    trace: bool,
}

impl Cluster {
    /// A fresh cluster; everything in it follows from the seed.
    pub fn new(seed: u64, trace: bool) -> Cluster {
        let mut rng = Rng(seed);
        let plan = Plan::draw(&mut rng);
        let n = plan.roster.n;
        Cluster {
            sites: (0..n).map(|i| plan.honest(i).then(|| Site::new(i))).collect(),
            leaders: (0..n).map(Leader::new).collect(),
            learners: (0..plan.learners).map(|_| library::speckleewe_learner_fresh()).collect(),
            network: Network::default(),
            host: Host::default(),
            watch: Watch::new(plan.learners),
            heard: Vec::new(),
            top: 0,
            made: Vec::new(),
            proposals: Vec::new(),
            serial: 0,
            scheme: None,
            stats: Stats::default(),
            trace,
            rng,
            plan,
        }
    }

    /// The whole run; the text says what went wrong.
    pub fn run(&mut self) -> Result<(), String> {
        self.propose();
        for _ in 0..self.plan.length {
            self.step()?;
        }
        self.sum_up();
        Ok(())
    }

    /// One step: a lie, something that a host does, or a delivery.
    fn step(&mut self) -> Result<(), String> {
        if self.plan.lie(&mut self.rng) {
            self.lie();
        }
        let n = usize::from(self.plan.roster.n);
        if self.network.idle() || self.rng.below(2 * n * n) == 0 {
            return self.act();
        }
        match self.network.arrive(&mut self.rng, &self.plan) {
            Some((place, line)) => self.hand_in(place, &line),
            None => Ok(()),
        }
    }

    // ---- Handing in --------------------------------------------------------

    /// Hands in a line where it arrived, if the host lets it pass.
    fn hand_in(&mut self, place: Place, line: &Line) -> Result<(), String> {
        if !self.host.admits(&self.plan, line) {
            self.stats.kept_out += 1;
            return Ok(());
        }
        if self.trace {
            println!("{place:?} {}", line.escape_ascii());
        }
        match place {
            Place::Site(i) => self.at_site(i, line),
            Place::Leader(i) => self.at_leader(i, line),
            Place::Learner(k) => self.at_learner(k, line),
        }
    }

    /// A line at a site; liars have heard it anyway.
    fn at_site(&mut self, i: u8, line: &Line) -> Result<(), String> {
        let Some(site) = &mut self.sites[usize::from(i)] else { return Ok(()) };
        let (view, ballot) = (site.views.view, site.acceptor.ballot);
        let called = site.hand_in(&mut self.rng, &self.plan.roster, line);
        self.stats.changes += u64::from(site.views.view != view);
        self.stats.taken += u64::from(site.acceptor.ballot != ballot);
        self.stats.answer(if called.by_acceptor { 0 } else { 1 }, called.answer);
        if (called.answer == CONFIG) == called.room {
            return Err(format!("site {i}: CONFIG says the opposite of the buffer"));
        }
        let Some(sent) = called.sent else { return Ok(()) };
        self.host.note(&sent);
        self.watch.sent(&sent)?;
        self.hear(&sent);
        self.route(i, &sent);
        Ok(())
    }

    /// A line at a learner.
    fn at_learner(&mut self, k: usize, line: &Line) -> Result<(), String> {
        let o = library::learner_step(&self.plan.roster, &self.learners[k], line);
        self.stats.answer(2, o.answer);
        self.watch.learner(&self.plan.roster, k, line, &o)?;
        self.learners[k] = o.state;
        Ok(())
    }

    // ---- Sending -----------------------------------------------------------

    /// Sends a line to one place.
    pub fn send(&mut self, place: Place, line: &Line) {
        self.network.send(&mut self.rng, &self.plan, place, line);
    }

    /// Sends a line to all sites.
    pub fn to_sites(&mut self, line: &Line) {
        for i in 0..self.plan.roster.n {
            self.send(Place::Site(i), line);
        }
    }

    /// Sends a line of an honest site where it belongs.
    fn route(&mut self, from: u8, line: &Line) {
        let Some(f) = frames::header(line) else { return };
        let leader_of = |view: u32| (view % u32::from(self.plan.roster.n)) as u8;
        match f.kind {
            P1B => {
                let view = self.sites[usize::from(from)].as_ref().map_or(0, |s| s.views.view);
                self.send(Place::Leader(leader_of(view)), line);
            }
            LEADER => self.send(Place::Leader(leader_of(f.view)), line),
            P2B => {
                for k in 0..self.learners.len() {
                    if !self.rng.percent(self.plan.deafness) {
                        self.send(Place::Learner(k), line);
                    }
                }
            }
            _ => self.to_sites(line),
        }
    }

    /// Sends a line that an honest leader or host wrote to all sites.
    pub fn publish(&mut self, line: Line) {
        self.host.note(&line);
        self.hear(&line);
        self.to_sites(&line);
    }

    /// Liars overhear what is sent.
    fn hear(&mut self, line: &Line) {
        if self.heard.len() < 300 {
            self.heard.push(line.clone());
        } else {
            let at = self.rng.below(300);
            self.heard[at] = line.clone();
        }
    }

    // ---- What hosts do by themselves ---------------------------------------

    /// Something that isn't an answer to a line.
    fn act(&mut self) -> Result<(), String> {
        if self.follow_scheme() {
            return Ok(());
        }
        if (self.network.cut | self.network.favoured) != 0 && self.rng.percent(20) {
            self.cut();
        }
        match self.rng.below(100) {
            0..=37 => self.send_again(),
            38..=53 => self.propose(),
            54..=57 => self.propose_again(),
            58..=75 => return self.open(),
            76..=84 => self.lead_again(),
            85 | 86 => self.cut(),
            87..=92 => self.begin_scheme(),
            _ => return self.suspect(),
        }
        Ok(())
    }

    /// Honest sites send their last lines again, what others may still need
    /// more often.
    fn send_again(&mut self) {
        for i in self.plan.honest_sites() {
            let Some(site) = &self.sites[usize::from(i)] else { continue };
            let view = site.views.view;
            let lines: Vec<Line> = site.last.values().cloned().collect();
            for line in lines {
                let share = match frames::header(&line) {
                    Some(f) if f.kind == VERIFY || f.kind == P2B => 70,
                    Some(f) if f.kind == SUSPICION => {
                        if f.view == view {
                            60
                        } else {
                            0
                        }
                    }
                    Some(f) if f.kind == VIEWCHANGE && f.view > view => 60,
                    _ => 15,
                };
                if self.rng.percent(share) {
                    self.route(i, &line);
                }
            }
        }
    }

    /// The view that most honest sites are in, of equals the highest.
    pub fn common_view(&self) -> u32 {
        let views: Vec<u32> = self.sites.iter().flatten().map(|s| s.views.view).collect();
        let count = |v: u32| views.iter().filter(|&&w| w == v).count();
        views.iter().copied().max_by_key(|&v| (count(v), v)).unwrap_or(0)
    }

    /// A new command of a proposer; RAISE commutes with RAISE.
    fn make(&mut self, proposer: u8) -> Command {
        self.serial += 1;
        let slot = self.rng.below(self.plan.slots) as u16;
        let c = if self.rng.percent(self.plan.conflicts) {
            command(proposer, self.rng.pick(&[ENROL, REVOKE]), self.serial, slot, 0)
        } else {
            command(proposer, RAISE, self.serial, slot, self.rng.between(1, 3) as u16)
        };
        self.made.push(c);
        c
    }

    /// A proposer sends some commands, to all sites in the ballot of one of
    /// them and to leaders; a lying one sends others with the same serials to
    /// some.
    fn propose(&mut self) {
        let proposer = self.rng.between(1, 3) as u8;
        let mut h: Vec<Command> = Vec::new();
        for _ in 0..self.rng.pick(&[1, 1, 1, 2, 3]) {
            h.push(self.make(proposer));
        }
        let honest = self.plan.honest_sites();
        let at = usize::from(self.rng.pick(&honest));
        let ballot = self.sites[at].as_ref().map_or(0, |s| s.acceptor.ballot);
        let fields = Fields { ballot, ..Fields::of(PROPOSE, proposer) };
        let line = Rc::new(frames::write(fields.clone(), &h, &[]));
        self.proposals.push(line.clone());
        self.to_leaders(&line);
        if self.plan.lying_proposers && self.rng.percent(40) {
            let other: Vec<Command> = h.iter().map(|c| c ^ 0x0003_0000).collect();
            let second = Rc::new(frames::write(fields, &other, &[]));
            self.to_leaders(&second);
            for i in 0..self.plan.roster.n {
                if self.rng.percent(70) {
                    self.send(Place::Site(i), &line);
                }
                if self.rng.percent(40) {
                    self.send(Place::Site(i), &second);
                }
            }
        } else {
            self.to_sites(&line);
        }
    }

    /// A proposal goes to the leader of the common view and to some others.
    fn to_leaders(&mut self, line: &Line) {
        let first = (self.common_view() % u32::from(self.plan.roster.n)) as u8;
        for i in 0..self.plan.roster.n {
            if i == first || self.rng.percent(30) {
                self.send(Place::Leader(i), line);
            }
        }
    }

    /// Proposers send some of their lines to the leaders again.
    fn propose_again(&mut self) {
        for _ in 0..3 {
            let line = self.rng.pick(&self.proposals);
            self.to_leaders(&line);
        }
    }

    /// Favours some sites or cuts some off; then cuts off those that were
    /// favoured, and heals.
    fn cut(&mut self) {
        let n = usize::from(self.plan.roster.n);
        let (cut, favoured) = (self.network.cut, self.network.favoured);
        self.network.favoured = 0;
        self.network.cut = 0;
        if !self.plan.cuts || cut != 0 {
            return;
        }
        let few = self.rng.between(1, usize::from(self.plan.roster.f) + 1);
        match self.rng.below(10) {
            _ if favoured != 0 => self.network.cut = favoured,
            0..=4 => self.network.favoured = mask_of(&mut self.rng, n, few),
            _ => self.network.cut = mask_of(&mut self.rng, n, few),
        }
    }

    /// Honest hosts suspect their leader: a lying one often, an honest one
    /// now and then.
    fn suspect(&mut self) -> Result<(), String> {
        let n = u32::from(self.plan.roster.n);
        let leader = (self.common_view() % n) as u8;
        if self.plan.honest(leader) && self.rng.percent(70) {
            return Ok(());
        }
        for i in self.plan.honest_sites() {
            let Some(site) = &mut self.sites[usize::from(i)] else { continue };
            if self.rng.percent(80) {
                let view = site.views.view;
                let fields = Fields { view, ..Fields::of(SUSPICION, i) };
                let line = Rc::new(frames::write(fields, &[], &[]));
                site.last.insert(SUSPICION, line.clone());
                self.host.note(&line);
                self.hear(&line);
                self.hand_in(Place::Site(i), &line)?;
                self.to_sites(&line);
            }
        }
        Ok(())
    }

    // ---- The end -----------------------------------------------------------

    /// Counts what the run came to.
    fn sum_up(&mut self) {
        let s = &mut self.stats;
        s.runs = 1;
        s.learning = u64::from(self.watch.learning() > 0);
        s.all_learning = u64::from(self.watch.learning() == self.learners.len());
        s.longest = self.watch.longest() as u64;
        s.apart = u64::from(self.watch.apart);
        s.divided = u64::from(self.watch.divided);
        s.changed = u64::from(s.changes > 0);
    }
}
