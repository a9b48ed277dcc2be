//! A student's wrong checkers. Each is the right one with one rule changed. A
//! rule asks here, in one line, whether it is the one that is got wrong.

use super::{Block, GENESIS, Office, Place, Register};

/// The rule that a wrong checker gets wrong.
#[derive(Clone, Copy, Debug, PartialEq, Eq)]
pub enum Mistake {
    /// Finalise makes b final as soon as b's chain is notarised.
    VotesAreFinal,
    /// Messages are counted and not signers, and 18 is skipped.
    MessagesForSigners,
    /// All messages sent are counted and not those in the view.
    HistoryForView,
    /// Just two thirds of the offices are not enough.
    MoreThanTwoThirds,
    /// 20 is skipped.
    SkipTwenty,
    /// Finalise makes b final and not its parent.
    BlockItself,
    /// An old message that is sent again gets 22.
    ReplayForged,
    /// Finalise takes three blocks of any epochs.
    LateFinaliser,
}

impl Register {
    /// Whether this checker makes that mistake.
    pub(super) fn makes(&self, mistake: Mistake) -> bool {
        self.mistake == Some(mistake)
    }

    /// Puts what is counted in the place of the view's signers: by block, a word
    /// with a bit for each. The right checker counts the signers as they are.
    pub(super) fn miscount(&self, office: Office, words: &mut [u32]) {
        match self.mistake {
            Some(Mistake::MessagesForSigners) => self.count_messages(office, words),
            Some(Mistake::HistoryForView) => self.count_all_sent(words),
            _ => {}
        }
    }

    /// A bit for each message in the view, several of one signer too; 32 bits
    /// are enough for all, since n is at most 32.
    fn count_messages(&self, office: Office, words: &mut [u32]) {
        words.fill(0);
        let places = &self.local[office.index()].places;
        for (message, &place) in self.history.iter().zip(places) {
            if place == Place::View {
                let word = &mut words[message.block.index()];
                *word = *word << 1 | 1;
            }
        }
    }

    /// A bit for each different signer of all that was ever sent.
    fn count_all_sent(&self, words: &mut [u32]) {
        for message in &self.history {
            words[message.block.index()] |= 1 << message.signer.0;
        }
    }

    /// Whether 18 is not given for q's signature on b. Who counts the history
    /// still looks into the view for it, else nobody could ever vote.
    pub(super) fn overlooks_signature(&self, office: Office, q: Office, b: Block) -> bool {
        match self.mistake {
            Some(Mistake::MessagesForSigners) => true,
            Some(Mistake::HistoryForView) => !self.is_in_view(office, q, b),
            _ => false,
        }
    }

    /// Whether a message of this signer about this block is in the view.
    fn is_in_view(&self, office: Office, q: Office, b: Block) -> bool {
        let places = &self.local[office.index()].places;
        let mut messages = self.history.iter().zip(places);
        messages.any(|(m, &place)| place == Place::View && m.signer == q && m.block == b)
    }

    /// Whether so many signers are too few though they are two thirds.
    pub(super) fn wants_more(&self, signers: u32) -> bool {
        self.makes(Mistake::MoreThanTwoThirds) && 3 * signers == 2 * u32::from(self.n())
    }

    /// Whether finalise lets b pass though the epochs are not in a row.
    pub(super) fn overlooks_epochs(&self, b: Block) -> bool {
        match self.mistake {
            Some(Mistake::VotesAreFinal) => b != GENESIS,
            Some(Mistake::LateFinaliser) => self.block(b).parent != GENESIS,
            _ => false,
        }
    }

    /// What finalise makes final: b's parent c, as the rule says, or b itself.
    pub(super) fn made_final(&self, b: Block, c: Block) -> Block {
        match self.mistake {
            Some(Mistake::VotesAreFinal | Mistake::BlockItself) => b,
            _ => c,
        }
    }
}
