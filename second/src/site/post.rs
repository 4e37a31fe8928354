//! Messages: what a site does on taking one, and how it sends
//! (M18 to M30, Q10.3).

use super::{Part, Site, Stage};
use crate::answer::{reason, require, Decision, Refusal, Sent};
use crate::desk::Desk;
use crate::message::{Entry, Kind, Letter, Message, Outbox};
use crate::sizes::*;

type Taken = Result<Option<Decision>, Refusal>;

impl Site {
    /// Takes the next message of its channel.
    pub fn message(&mut self, words: &[u64], out: &mut [u64]) -> Result<Sent, Refusal> {
        let mut out = Outbox::new(out)?;
        let message = Message::parse(words, self.table.sites)?;
        require(message.to == self.own, Refusal::OtherSite)?;
        let channel = message.from as usize - 1;
        let next = self.taken[channel].checked_add(1);
        require(next == Some(message.channel), Refusal::NotNext)?;
        let decision = match self.find(message.transaction) {
            Some(place) => self.take_held(place, &message, &mut out)?,
            None => self.take_unheld(&message, &mut out)?,
        };
        self.taken[channel] = message.channel;
        Ok(Sent { words: out.used(), decision })
    }

    fn take_held(&mut self, place: usize, message: &Message, out: &mut Outbox) -> Taken {
        match message.kind {
            Kind::Join => Err(Refusal::WrongStage),
            Kind::Joined => self.take_joined(place, message),
            Kind::Prepare => self.take_prepare(place, message, out),
            Kind::Conc => self.take_conc(place, message, out),
            Kind::Cert => self.take_cert(place, message, out),
            Kind::Vote => self.take_vote(place, message, out),
            Kind::Commit => self.take_commit(place, message),
            Kind::Abort => self.take_abort(place),
        }
    }

    /// Only steps the channel, but JOIN begins a part and PREPARE is voted 5.
    fn take_unheld(&mut self, message: &Message, out: &mut Outbox) -> Taken {
        match message.kind {
            Kind::Join => self.take_join(message, out),
            Kind::Prepare => {
                self.can_send(site_bit(message.from))?;
                self.raise(message.clock);
                self.reply_vote(message, reason::NOT_HELD, out);
                Ok(None)
            }
            _ => Ok(None),
        }
    }

    /// A full site takes the JOIN too, and says so.
    fn take_join(&mut self, message: &Message, out: &mut Outbox) -> Taken {
        let desk = Desk::of(message.argument).ok_or(Refusal::Impossible)?;
        let from = site_bit(message.from);
        self.can_send(from)?;
        let argument = if self.live.len() < LIVE {
            let participants = from | self.own_bit();
            self.live.push(Part::begin(message.transaction, self.installs, participants, desk));
            0
        } else {
            reason::LIVE_FULL
        };
        let joined = Letter { argument, ..Letter::bare(Kind::Joined, message.transaction) };
        self.send(from, joined, &[], out);
        Ok(None)
    }

    fn take_joined(&mut self, place: usize, message: &Message) -> Taken {
        let from = site_bit(message.from);
        let awaited = self.outstanding(place) & from != 0;
        let part = &mut self.live[place];
        match &mut part.stage {
            Stage::Active { full } if awaited => {
                *full |= message.argument == reason::LIVE_FULL;
                part.heard |= from;
                Ok(None)
            }
            _ => Err(Refusal::WrongStage),
        }
    }

    fn take_prepare(&mut self, place: usize, message: &Message, out: &mut Outbox) -> Taken {
        require(self.live[place].is_active(), Refusal::WrongStage)?;
        let from = site_bit(message.from);
        self.can_send(from)?;
        self.raise(message.clock);
        self.live[place].participants = message.argument;
        let part = &self.live[place];
        if self.has_forgotten_since(part.snapshot) {
            self.live[place].stage = Stage::VotedNo;
            self.reply_vote(message, reason::FORGOTTEN, out);
        } else {
            let list = self.concurrent(part);
            self.live[place].stage = Stage::Prepared;
            self.send(from, Letter::bare(Kind::Conc, message.transaction), &list, out);
        }
        Ok(None)
    }

    fn take_conc(&mut self, place: usize, message: &Message, out: &mut Outbox) -> Taken {
        let from = site_bit(message.from);
        let outstanding = self.outstanding(place);
        let in_turn = self.live[place].stage == Stage::Prepared && outstanding & from != 0;
        require(in_turn, Refusal::WrongStage)?;
        let last = outstanding == from;
        if last {
            self.can_send(self.others(place))?;
        }
        let part = &mut self.live[place];
        part.heard |= from;
        part.gathered.extend(message.entries());
        Ok(if last { self.close(place, out) } else { None })
    }

    fn take_cert(&mut self, place: usize, message: &Message, out: &mut Outbox) -> Taken {
        require(self.live[place].stage == Stage::Prepared, Refusal::WrongStage)?;
        self.can_send(site_bit(message.from))?;
        let vote = self.vote(&self.live[place], message.entries());
        match vote {
            0 => self.live[place].enter_queue(self.clock),
            _ => self.live[place].stage = Stage::VotedNo,
        }
        self.reply_vote(message, vote, out);
        Ok(None)
    }

    /// A no may come in the place of a CONC.
    fn take_vote(&mut self, place: usize, message: &Message, out: &mut Outbox) -> Taken {
        let from = site_bit(message.from);
        let no = message.argument != 0;
        let outstanding = self.outstanding(place);
        let in_turn = match self.live[place].stage {
            Stage::Prepared => no,
            Stage::Open { .. } => true,
            _ => false,
        };
        require(in_turn && outstanding & from != 0, Refusal::WrongStage)?;
        let last = outstanding == from;
        if no || last {
            self.can_send(self.others(place))?;
        }
        self.raise(message.clock);
        if no {
            return Ok(Some(self.abort(place, message.argument, out)));
        }
        self.live[place].heard |= from;
        Ok(last.then(|| self.decide(place, out)))
    }

    /// COMMIT's clock is the commit number.
    fn take_commit(&mut self, place: usize, message: &Message) -> Taken {
        require(matches!(self.live[place].stage, Stage::Open { .. }), Refusal::WrongStage)?;
        self.raise(message.clock);
        self.live[place].stage = Stage::Decided { number: message.clock };
        Ok(None)
    }

    fn take_abort(&mut self, place: usize) -> Taken {
        let decided = matches!(self.live[place].stage, Stage::Decided { .. });
        require(!decided, Refusal::WrongStage)?;
        self.live.remove(place);
        Ok(None)
    }

    fn raise(&mut self, clock: u64) {
        self.clock = self.clock.max(clock);
    }

    fn reply_vote(&mut self, message: &Message, argument: u64, out: &mut Outbox) {
        let vote = Letter {
            kind: Kind::Vote,
            transaction: message.transaction,
            clock: self.clock,
            argument,
        };
        self.send(site_bit(message.from), vote, &[], out);
    }

    /// Refuses 13 where a channel to one of these sites is spent.
    pub(super) fn can_send(&self, mask: u64) -> Result<(), Refusal> {
        let spent = mask_sites(mask).any(|site| self.sent[site as usize - 1] == u64::MAX);
        require(!spent, Refusal::CountSpent)
    }

    /// Sends to each site of the mask, ascending; `can_send` has been asked.
    pub(super) fn send(&mut self, mask: u64, letter: Letter, list: &[Entry], out: &mut Outbox) {
        for site in mask_sites(mask) {
            let count = &mut self.sent[site as usize - 1];
            *count += 1;
            out.post(self.own, site, *count, letter, list);
        }
    }
}
