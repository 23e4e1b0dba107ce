//! A faulty station that knows all that was said, and sends what it likes within the premises.

use crate::group::{Letter, Plan};
use crate::watch::{Block, Watch};
use second::random::Random;
use station::{GENESIS, Message, Name};

pub struct Wild<'a> {
    pub own: u8,
    pub clock: u32,
    /// The highest view that a station is in.
    pub view: u32,
    pub plan: &'a Plan,
    pub watch: &'a Watch,
    pub random: &'a mut Random,
    pub spare: Name,
}

impl Wild<'_> {
    /// Letters of one message, or none.
    pub fn letters(&mut self) -> Vec<Letter> {
        let Some(message) = self.message() else { return Vec::new() };
        if !self.watch.is_backed(&message) || !self.watch.is_one_block(&message) {
            return Vec::new();
        }
        let chosen = self.random.number() as u16 | 1 << self.random.below(self.plan.n.into());
        let to = (0..self.plan.n).filter(|to| chosen >> to & 1 == 1 && *to != self.own);
        let to: Vec<u8> = to.collect();
        to.into_iter().map(|to| self.letter(to, message)).collect()
    }

    fn letter(&mut self, to: u8, message: Message) -> Letter {
        let d = u64::from(self.plan.d);
        let delay = self.random.pick(&[0, 0, 1, d, self.random.clone().below(3 * d + 1)]) as u32;
        Letter { from: self.own, to, sent: self.clock, due: self.clock + delay, message }
    }

    fn message(&mut self) -> Option<Message> {
        let leads = self.plan.leader(self.view) == self.own;
        match self.random.below(if leads { 12 } else { 9 }) {
            0 => self.vote(),
            1 => Some(Message::Blame { view: self.near(), author: self.own }),
            2 => self.status(),
            3 | 9 => self.new_view(),
            4 | 5 | 10 | 11 => self.propose(),
            6 | 7 => self.repeat(),
            _ => self.blame_set(),
        }
    }

    /// The highest view, or one beside it; or one that is far ahead.
    fn near(&mut self) -> u32 {
        let view = match self.random.below(12) {
            0 => self.view + 2 + self.random.below(6) as u32,
            _ => self.view + 1 - self.random.below(3).min(u64::from(self.view)) as u32,
        };
        view.clamp(1, self.plan.size.views())
    }

    fn vote(&mut self) -> Option<Message> {
        let (view, height, name) = self.block()?;
        Some(Message::Vote { view, height, name, author: self.own })
    }

    fn status(&mut self) -> Option<Message> {
        let (block, mask) = self.certificate(|_| true)?;
        let (certificate_view, height, name) = block;
        Some(Message::Status { height, name, certificate_view, mask })
    }

    fn new_view(&mut self) -> Option<Message> {
        let view = self.led()?;
        let earlier = self.certificate(|block| block.0 < view);
        let genesis = ((0, 0, GENESIS), 0);
        let ((certificate_view, height, name), mask) = match self.random.one_in(4) {
            true => genesis,
            false => earlier.unwrap_or(genesis),
        };
        Some(Message::NewView { view, height, name, certificate_view, mask, author: self.own })
    }

    fn propose(&mut self) -> Option<Message> {
        let view = self.led()?;
        let ((_, height, parent), mask) = self.certificate(|block| block.0 == view)?;
        let (height, name) = (height + 1, self.spare);
        Some(Message::Propose { view, height, name, parent, mask, author: self.own })
    }

    /// A statement that was sent before, with another mask.
    fn repeat(&mut self) -> Option<Message> {
        if self.watch.statements.is_empty() {
            return None;
        }
        let old = self.random.pick(&self.watch.statements);
        let mask = match old {
            Message::NewView { certificate_view: 0, .. } => 0,
            Message::NewView { certificate_view, height, name, .. } => {
                self.watch.voters(certificate_view, height, name)
            }
            Message::Propose { view, height, parent, .. } => {
                self.watch.voters(view, height - 1, parent)
            }
            _ => return None,
        };
        Some(old.with_mask(mask))
    }

    fn blame_set(&mut self) -> Option<Message> {
        let view = self.near();
        let mask = self.watch.blamers(view);
        (mask.count_ones() >= self.plan.quorum()).then_some(Message::BlameSet { view, mask })
    }

    /// A view near by that it leads, while three of ten statements' records are free at the least, so
    /// that stations don't run out of them.
    fn led(&mut self) -> Option<u32> {
        let view = self.near();
        let room = 10 * self.watch.statements.len() < 7 * self.plan.size.statements();
        (self.plan.leader(view) == self.own && room).then_some(view)
    }

    /// The block of a statement that was sent.
    fn block(&mut self) -> Option<Block> {
        if self.watch.statements.is_empty() {
            return None;
        }
        match self.random.pick(&self.watch.statements) {
            Message::NewView { view, height, name, .. }
            | Message::Propose { view, height, name, .. } => Some((view, height, name)),
            _ => None,
        }
    }

    /// A block like this that can be certified, with as many voters as may be named, or just enough.
    fn certificate(&mut self, is_like: impl Fn(&Block) -> bool) -> Option<(Block, u16)> {
        for _ in 0..8 {
            let Some(block) = self.block().filter(&is_like) else { continue };
            let mask = self.watch.voters(block.0, block.1, block.2);
            if mask.count_ones() >= self.plan.quorum() {
                return Some((block, mask));
            }
        }
        None
    }
}
