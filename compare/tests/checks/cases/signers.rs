//! One signer of 32 decides: 21 are too few, 22 are enough.

use super::{Case, Script, no_final, opening_of_32};

/// A case for each office as the signer who decides.
pub fn cases() -> Vec<Case> {
    (0..32).map(decided_by).collect()
}

/// 22 offices sign block 1. The second of them leads epoch 2 and may not propose
/// on the block until it has the signature of the last, which is `decider`. That
/// the vote is in its inbox is not enough.
fn decided_by(decider: usize) -> Case {
    let signers: Vec<usize> = (1..=22).map(|more| (decider + 10 + more) % 32).collect();
    assert_eq!(signers[21], decider);
    let (first, second) = (signers[0], signers[1]);
    let mut script = Script::default();
    script.take(&format!("propose {first} 0 7"), "0 0");
    for (place, signer) in signers.iter().enumerate().skip(1) {
        script.vote(*signer, 0, place);
    }
    script.take("advance", "0 2");
    for vote in 2..21 {
        script.enter(vote, second);
    }
    let propose = format!("propose {second} 1 8");
    script.take(&propose, "19 0");
    script.deliver(21, second);
    script.take(&propose, "19 0");
    script.register(second, 21);
    script.take(&propose, "0 22");
    let opening = opening_of_32(&format!("{first} {second}"));
    let name = format!("office {decider} of 32 decides");
    no_final(&name, &opening, &script.steps(), &script.lines())
}
