//! The whole case of the paper, and a longer one with a fork.

use super::{Case, case};

pub fn cases() -> Vec<Case> {
    vec![whole(), fork(), ties()]
}

fn whole() -> Case {
    case(
        "the whole case",
        "offices 3; trusted 0 1 2; leaders 0 0 0",
        "propose 0 0 7; deliver 0 1; vote 1 0; finalise 1 1; advance; propose 0 1 8; \
         register 0 1; deliver 1 0; register 0 1; propose 0 1 8; deliver 2 1; vote 1 2; \
         deliver 3 0; register 0 3; advance; propose 0 2 9; deliver 4 1; vote 1 4; finalise 1 3",
        "1 0 0, 2 0 0, 3 0 1, 4 21 0, 5 0 2, 6 19 0, 7 15 0, 8 0 1, 9 0 1, 10 0 2, 11 0 2, \
         12 0 3, 13 0 3, 14 0 3, 15 0 3, 16 0 4, 17 0 4, 18 0 5, 19 0 2",
        "office 0 0 0 3, office 1 2 2 2, office 2 0 0 3",
    )
}

/// Office 0 sees blocks 1 and 2 notarised, both at height 1; the chain over
/// block 2 becomes final for offices 0 and 2.
fn fork() -> Case {
    case(
        "a fork, then a final chain",
        "offices 3; trusted 0 1 2; leaders 0 2 0 0",
        "propose 0 0 1; deliver 0 1; vote 1 0; advance; propose 2 0 2; deliver 2 0; vote 0 2; \
         deliver 1 0; register 0 1; finalise 0 1; advance; propose 0 2 3; deliver 3 2; \
         register 2 3; deliver 4 2; vote 2 4; deliver 5 0; register 0 5; advance; \
         propose 0 1 4; propose 0 3 4; deliver 6 2; vote 2 6; finalise 2 4; finalise 0 4; \
         deliver 7 0; register 0 7; finalise 0 4; finalise 1 4",
        "1 0 0, 2 0 0, 3 0 1, 4 0 2, 5 0 2, 6 0 2, 7 0 3, 8 0 1, 9 0 1, 10 21 0, 11 0 3, \
         12 0 4, 13 0 3, 14 0 3, 15 0 4, 16 0 5, 17 0 5, 18 0 5, 19 0 4, 20 19 0, 21 0 6, \
         22 0 6, 23 0 7, 24 0 3, 25 21 0, 26 0 7, 27 0 7, 28 0 3, 29 21 0",
        "office 0 3 2 2, office 1 0 0 3, office 2 3 2 2",
    )
}

/// Ties are all longest: office 0 may extend block 1 as well as block 2.
fn ties() -> Case {
    case(
        "the other branch of a tie",
        "offices 3; trusted 0 1 2; leaders 0 2 0",
        "propose 0 0 1; deliver 0 1; vote 1 0; advance; propose 2 0 2; deliver 2 0; vote 0 2; \
         deliver 1 0; register 0 1; advance; propose 0 0 3; propose 0 1 3",
        "1 0 0, 2 0 0, 3 0 1, 4 0 2, 5 0 2, 6 0 2, 7 0 3, 8 0 1, 9 0 1, 10 0 3, 11 19 0, 12 0 4",
        "office 0 0 0 3, office 1 0 0 3, office 2 0 0 3",
    )
}
