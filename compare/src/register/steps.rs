//! The eight steps. Each first checks its refusals, in the paper's order (given
//! in brackets) and on the register as it was handed in, and only then changes
//! the register. 5 is never met: no register here is unfit.

use super::{Block, Epoch, GENESIS, LAST_BLOCK, LAST_EPOCH, MOST_MESSAGES, Message, Office};
use super::{BlockRecord, Kind, Mark, MessageRecord, Mistake, Place, Register, Step, View};
use crate::refusal::{Refusal, ensure};

/// The value of an accepted step, or its refusal.
pub type Answer = Result<u16, Refusal>;

impl Register {
    /// Takes one step. A refused step leaves the register as it was.
    pub fn step(&mut self, step: &Step) -> Answer {
        match *step {
            Step::Propose {
                office,
                parent,
                payload,
            } => self.propose(office, parent, payload).map(|sent| sent.0),
            Step::Vote { office, message } => self.vote(office, message).map(|sent| sent.0),
            Step::Register { office, message } => self.register(office, message).map(|it| it.0),
            Step::Finalise { office, block } => self.finalise(office, block).map(|c| c.0.into()),
            Step::Deliver { message, office } => self.deliver(message, office).map(|it| it.0),
            Step::BadSend {
                sender,
                kind,
                signer,
                block,
            } => self
                .bad_send(sender, kind, signer, block)
                .map(|sent| sent.0),
            Step::Draft {
                parent,
                epoch,
                payload,
            } => self
                .draft(parent, epoch, payload)
                .map(|named| named.0.into()),
            Step::Advance => self.advance().map(|epoch| epoch.0),
        }
    }

    /// [5 6 7 10 12 13 19 20 25 26]: the block of the current epoch is named;
    /// its proposal is sent, is in the office's view, and the office has acted.
    pub fn propose(
        &mut self,
        office: Office,
        parent: Block,
        payload: u16,
    ) -> Result<Message, Refusal> {
        self.check_office(office)?;
        self.check_block(parent)?;
        self.check_trusted(office)?;
        self.check_ready(office)?;
        ensure(office == self.leader(), Refusal::NotLeader)?;
        ensure(self.view(office).is_longest(parent), Refusal::NotLongest)?;
        self.check_epochs(parent, self.epoch)?;
        let block = BlockRecord {
            parent,
            epoch: self.epoch,
            payload,
        };
        self.check_blocks_left(&block)?;
        self.check_messages_left()?;

        let block = self.name(block);
        let proposal = self.send(Kind::Proposal, office, block);
        self.act(office, proposal);
        Ok(proposal)
    }

    /// [5 6 8 10 12 14 15 16 17 18 19 20 26]: the proposal moves from inbox to
    /// view; a vote for its block is sent and is in the view; the office has
    /// acted.
    pub fn vote(&mut self, office: Office, proposal: Message) -> Result<Message, Refusal> {
        self.check_office(office)?;
        self.check_message(proposal)?;
        self.check_trusted(office)?;
        self.check_ready(office)?;
        ensure(office != self.leader(), Refusal::LeaderVotes)?;
        self.check_in_hand(office, proposal)?;
        let MessageRecord {
            kind,
            signer,
            block,
        } = *self.message(proposal);
        ensure(kind == Kind::Proposal, Refusal::Kind)?;
        let BlockRecord { parent, epoch, .. } = *self.block(block);
        let on_epoch = signer == self.leader() && epoch == self.epoch;
        ensure(on_epoch, Refusal::OffEpoch)?;
        let view = self.view(office);
        self.check_not_entered(office, &view, self.message(proposal))?;
        ensure(view.is_longest(parent), Refusal::NotLongest)?;
        self.check_epochs(parent, epoch)?;
        self.check_messages_left()?;

        self.put(proposal, office, Place::View);
        let vote = self.send(Kind::Vote, office, block);
        self.act(office, vote);
        Ok(vote)
    }

    /// [5 6 8 10 15 16 18]: a vote moves from inbox to view.
    pub fn register(&mut self, office: Office, vote: Message) -> Result<Message, Refusal> {
        self.check_office(office)?;
        self.check_message(vote)?;
        self.check_trusted(office)?;
        self.check_in_hand(office, vote)?;
        ensure(self.message(vote).kind == Kind::Vote, Refusal::Kind)?;
        self.check_not_entered(office, &self.view(office), self.message(vote))?;

        self.put(vote, office, Place::View);
        Ok(vote)
    }

    /// [5 6 7 10 21 32]: b and its parent c are not genesis, while c's parent d
    /// may be; the epochs of b, c and d are k+2, k+1, k, and b's chain is
    /// notarised in the view; the final block becomes c, whose chain may not be
    /// shorter than the present final chain.
    pub fn finalise(&mut self, office: Office, b: Block) -> Result<Block, Refusal> {
        self.check_office(office)?;
        self.check_block(b)?;
        self.check_trusted(office)?;
        let in_a_row = self.ends_three_in_a_row(b) || self.overlooks_epochs(b);
        ensure(in_a_row, Refusal::NotFinal)?;
        ensure(self.view(office).is_notarised_chain(b), Refusal::NotFinal)?;
        let c = self.made_final(b, self.block(b).parent);
        let present = self.final_block(office);
        let behind = self.chain_length(c) < self.chain_length(present);
        ensure(!behind, Refusal::Behind)?;

        self.local[office.index()].final_block = c;
        Ok(c)
    }

    /// [5 6 8 23]: transit to inbox.
    pub fn deliver(&mut self, message: Message, office: Office) -> Result<Message, Refusal> {
        self.check_office(office)?;
        self.check_message(message)?;
        let in_transit = self.place(message, office) == Place::InTransit;
        ensure(in_transit, Refusal::NotSent)?;

        self.put(message, office, Place::Inbox);
        Ok(message)
    }

    /// [5 6 7 11 22 26]: sent by an untrusted office. A repeat gets a number of
    /// its own. Block 0 is refused with 7; sender is checked before signer.
    pub fn bad_send(
        &mut self,
        sender: Office,
        kind: Kind,
        signer: Office,
        block: Block,
    ) -> Result<Message, Refusal> {
        self.check_office(sender)?;
        self.check_office(signer)?;
        ensure(block != GENESIS, Refusal::NoBlock)?;
        self.check_block(block)?;
        ensure(!self.is_trusted(sender), Refusal::TrustedSender)?;
        let sent = MessageRecord {
            kind,
            signer,
            block,
        };
        let known = || self.history.contains(&sent) && !self.makes(Mistake::ReplayForged);
        let forged = self.is_trusted(signer) && !known();
        ensure(!forged, Refusal::Forged)?;
        self.check_messages_left()?;

        Ok(self.send(kind, signer, block))
    }

    /// [5 7 9 25]: names a block, sends nothing.
    pub fn draft(&mut self, parent: Block, epoch: Epoch, payload: u16) -> Result<Block, Refusal> {
        self.check_block(parent)?;
        ensure(epoch <= LAST_EPOCH, Refusal::Wide)?;
        let block = BlockRecord {
            parent,
            epoch,
            payload,
        };
        self.check_blocks_left(&block)?;

        Ok(self.name(block))
    }

    /// [5 24]: next epoch, every trusted office ready.
    pub fn advance(&mut self) -> Result<Epoch, Refusal> {
        let Epoch(now) = self.epoch;
        ensure(usize::from(now) < self.schedule.len(), Refusal::Spent)?;

        self.epoch = Epoch(now + 1);
        for local in &mut self.local {
            local.mark = Mark::Ready;
        }
        Ok(self.epoch)
    }
}

/// The refusals that several steps share, some of them with slips.
impl Register {
    /// 6: number ≥ n.
    pub(crate) fn check_office(&self, office: Office) -> Result<(), Refusal> {
        ensure(office.0 < self.n(), Refusal::NoOffice)
    }

    /// 7: number above the last block.
    pub(crate) fn check_block(&self, block: Block) -> Result<(), Refusal> {
        ensure(block <= self.last_block(), Refusal::NoBlock)
    }

    /// 8: number not sent yet.
    fn check_message(&self, message: Message) -> Result<(), Refusal> {
        ensure(message.index() < self.history.len(), Refusal::NoMessage)
    }

    /// 10: actor untrusted.
    pub(crate) fn check_trusted(&self, office: Office) -> Result<(), Refusal> {
        ensure(self.is_trusted(office), Refusal::Barred)
    }

    /// 12: office has acted this epoch.
    fn check_ready(&self, office: Office) -> Result<(), Refusal> {
        ensure(self.mark(office) == Mark::Ready, Refusal::Acted)
    }

    /// 15: message not in the inbox.
    fn check_in_hand(&self, office: Office, message: Message) -> Result<(), Refusal> {
        let in_hand = self.place(message, office) == Place::Inbox;
        ensure(in_hand, Refusal::NotInHand)
    }

    /// 18: that signer's signature on that block is in the view.
    fn check_not_entered(
        &self,
        office: Office,
        view: &View,
        message: &MessageRecord,
    ) -> Result<(), Refusal> {
        let MessageRecord { signer, block, .. } = *message;
        let entered = view.has_signature(signer, block);
        let entered = entered && !self.overlooks_signature(office, signer, block);
        ensure(!entered, Refusal::Entered)
    }

    /// 20: block's epoch not above its parent's.
    fn check_epochs(&self, parent: Block, epoch: Epoch) -> Result<(), Refusal> {
        let above = epoch > self.block(parent).epoch || self.makes(Mistake::SkipTwenty);
        ensure(above, Refusal::Epochs)
    }

    /// 25: a new block is needed and there are 255.
    fn check_blocks_left(&self, block: &BlockRecord) -> Result<(), Refusal> {
        let left = self.last_block() < Block(LAST_BLOCK);
        ensure(left || self.find(block).is_some(), Refusal::BlocksFull)
    }

    /// 26: 1,024 messages.
    fn check_messages_left(&self) -> Result<(), Refusal> {
        ensure(self.history.len() < MOST_MESSAGES, Refusal::MessagesFull)
    }
}

/// The changes that several steps share.
impl Register {
    /// Naming a parent, epoch and payload that a block from 1 up has gives the
    /// lowest such block; else a new one is made.
    fn name(&mut self, block: BlockRecord) -> Block {
        if let Some(known) = self.find(&block) {
            return known;
        }
        self.blocks.push(block);
        self.last_block()
    }

    /// The lowest block from 1 up with this parent, epoch and payload.
    fn find(&self, block: &BlockRecord) -> Option<Block> {
        let place = self.blocks[1..].iter().position(|known| known == block)?;
        Some(Block(place as u8 + 1))
    }

    /// Next number, added to history, in transit to every trusted office. (The
    /// one that acted gets it into its view at once: see `act`.)
    fn send(&mut self, kind: Kind, signer: Office, block: Block) -> Message {
        let sent = Message(self.history.len() as u16);
        self.history.push(MessageRecord {
            kind,
            signer,
            block,
        });
        for (local, &trusted) in self.local.iter_mut().zip(&self.trusted) {
            local.places.push(match trusted {
                true => Place::InTransit,
                false => Place::Absent,
            });
        }
        sent
    }

    /// The office has acted; what it sent is in its own view, not in transit.
    fn act(&mut self, office: Office, sent: Message) {
        self.put(sent, office, Place::View);
        self.local[office.index()].mark = Mark::Acted;
    }

    fn put(&mut self, message: Message, office: Office, place: Place) {
        self.local[office.index()].places[message.index()] = place;
    }
}
