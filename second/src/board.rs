//! The board and its state.
//!
//! Renders "Parts of a board": the kinds of parts, when each conducts, which
//! windings a relay has, and the state of relays and buttons; and, of request
//! A2, the mark that says which relays start drawn.

/// Terminal 0 is plus.
pub const PLUS: usize = 0;
/// Terminal 1 is minus.
pub const MINUS: usize = 1;
/// A board has at most this many terminals.
pub const MOST_TERMINALS: usize = 64;
/// A board has at most this many relays.
pub const MOST_RELAYS: usize = 32;
/// A board has at most this many buttons.
pub const MOST_BUTTONS: usize = 32;
/// A board has at most this many parts.
pub const MOST_PARTS: usize = 256;

/// The two different terminals that a part joins.
pub type Ends = (usize, usize);

/// What a board that was read holds for the ends of a mark, which has none.
pub const NO_ENDS: Ends = (0, 0);

/// The kinds 0 to 7, each with the relay or button it names. A mark says that
/// its relay starts drawn.
#[derive(Clone, Copy, Debug, PartialEq, Eq)]
pub enum Kind {
    Wire,
    UpperContact(usize),
    LowerContact(usize),
    Button(usize),
    RegularWinding(usize),
    DrawingWinding(usize),
    DroppingWinding(usize),
    Mark(usize),
}

#[derive(Clone, Copy, Debug, Eq)]
pub struct Part {
    pub ends: Ends,
    pub kind: Kind,
}

impl PartialEq for Part {
    /// Parts are compared by their kind and its fields; a mark has no ends.
    fn eq(&self, other: &Self) -> bool {
        let has_ends = !matches!(self.kind, Kind::Mark(_));
        self.kind == other.kind && (self.ends == other.ends || !has_ends)
    }
}

impl Part {
    /// The last column of the table of parts; a mark conducts nothing.
    pub fn conducts(&self, state: &State) -> bool {
        match self.kind {
            Kind::UpperContact(relay) => state.is_drawn(relay),
            Kind::LowerContact(relay) => !state.is_drawn(relay),
            Kind::Button(button) => state.is_pushed(button),
            Kind::Wire
            | Kind::RegularWinding(_)
            | Kind::DrawingWinding(_)
            | Kind::DroppingWinding(_) => true,
            Kind::Mark(_) => false,
        }
    }

    /// Whether the table of parts calls it a winding: kinds 4 to 6.
    pub fn is_winding(&self) -> bool {
        match self.kind {
            Kind::RegularWinding(_) | Kind::DrawingWinding(_) | Kind::DroppingWinding(_) => true,
            Kind::Wire
            | Kind::UpperContact(_)
            | Kind::LowerContact(_)
            | Kind::Button(_)
            | Kind::Mark(_) => false,
        }
    }
}

/// The windings of one relay, which also say of which sort it is.
#[derive(Clone, Copy, Debug, PartialEq, Eq)]
pub enum Windings {
    Regular(Ends),
    Steel { drawing: Ends, dropping: Ends },
}

#[derive(Clone, Debug, PartialEq, Eq)]
pub struct Board {
    pub terminals: usize,
    pub relays: usize,
    pub buttons: usize,
    pub parts: Vec<Part>,
}

impl Board {
    /// The ends of the first part of this kind, if there is one.
    pub fn ends_of(&self, kind: Kind) -> Option<Ends> {
        let part = self.parts.iter().find(|part| part.kind == kind)?;
        Some(part.ends)
    }

    /// The windings of a relay; none if it lacks one.
    pub fn windings(&self, relay: usize) -> Option<Windings> {
        if let Some(ends) = self.ends_of(Kind::RegularWinding(relay)) {
            return Some(Windings::Regular(ends));
        }
        let drawing = self.ends_of(Kind::DrawingWinding(relay))?;
        let dropping = self.ends_of(Kind::DroppingWinding(relay))?;
        Some(Windings::Steel { drawing, dropping })
    }
}

/// Which relays are drawn and which buttons are pushed.
#[derive(Clone, Copy, Debug, PartialEq, Eq, Hash)]
pub struct State {
    drawn: [bool; MOST_RELAYS],
    pushed: [bool; MOST_BUTTONS],
}

impl State {
    /// No relay drawn, no button pushed.
    pub fn empty() -> Self {
        State {
            drawn: [false; MOST_RELAYS],
            pushed: [false; MOST_BUTTONS],
        }
    }

    /// Exactly the relays drawn that the board has a mark of; no button pushed.
    pub fn fresh(board: &Board) -> Self {
        let parts = board.parts.iter();
        parts.fold(Self::empty(), |state, part| match part.kind {
            Kind::Mark(relay) => state.draw(relay),
            _ => state,
        })
    }

    pub fn is_drawn(&self, relay: usize) -> bool {
        self.drawn[relay]
    }

    pub fn is_pushed(&self, button: usize) -> bool {
        self.pushed[button]
    }

    pub fn draw(mut self, relay: usize) -> Self {
        self.drawn[relay] = true;
        self
    }

    pub fn drop(mut self, relay: usize) -> Self {
        self.drawn[relay] = false;
        self
    }

    pub fn push(mut self, button: usize) -> Self {
        self.pushed[button] = true;
        self
    }

    pub fn release(mut self, button: usize) -> Self {
        self.pushed[button] = false;
        self
    }

    /// The sum of 2 to the relay number over the drawn relays.
    pub fn drawn_sum(&self) -> u64 {
        let drawn = (0..MOST_RELAYS).filter(|&relay| self.is_drawn(relay));
        drawn.map(|relay| 1 << relay).sum()
    }
}

#[cfg(test)]
mod tests {
    use super::*;

    fn conducts(kind: Kind, state: State) -> bool {
        Part { ends: (0, 1), kind }.conducts(&state)
    }

    #[test]
    fn contacts_and_buttons_follow_their_relay_or_button() {
        let empty = State::empty();
        assert!(!conducts(Kind::UpperContact(3), empty));
        assert!(conducts(Kind::UpperContact(3), empty.draw(3)));
        assert!(!conducts(Kind::UpperContact(3), empty.draw(2).push(3)));
        assert!(conducts(Kind::LowerContact(3), empty));
        assert!(!conducts(Kind::LowerContact(3), empty.draw(3)));
        assert!(conducts(Kind::LowerContact(3), empty.draw(3).drop(3)));
        assert!(!conducts(Kind::Button(3), empty.draw(3)));
        assert!(conducts(Kind::Button(3), empty.push(3)));
        assert!(!conducts(Kind::Button(3), empty.push(3).release(3)));
    }

    #[test]
    fn wires_and_windings_always_conduct_and_marks_never() {
        for state in [State::empty(), State::empty().draw(0).push(0)] {
            assert!(conducts(Kind::Wire, state));
            assert!(conducts(Kind::RegularWinding(0), state));
            assert!(conducts(Kind::DrawingWinding(0), state));
            assert!(conducts(Kind::DroppingWinding(0), state));
            assert!(!conducts(Kind::Mark(0), state));
        }
    }

    #[test]
    fn kinds_4_to_6_are_windings() {
        let kinds = [
            Kind::Wire,
            Kind::UpperContact(0),
            Kind::LowerContact(0),
            Kind::Button(0),
            Kind::RegularWinding(0),
            Kind::DrawingWinding(0),
            Kind::DroppingWinding(0),
            Kind::Mark(0),
        ];
        for (number, kind) in kinds.into_iter().enumerate() {
            let part = Part { ends: (0, 1), kind };
            assert_eq!(part.is_winding(), (4..=6).contains(&number));
        }
    }

    #[test]
    fn the_sum_reaches_the_highest_relay() {
        let all = (0..MOST_RELAYS).fold(State::empty(), State::draw);
        assert_eq!(all.drawn_sum(), u64::from(u32::MAX));
        assert_eq!(State::empty().draw(31).drawn_sum(), 2_147_483_648);
        assert_eq!(State::empty().draw(0).draw(2).drawn_sum(), 5);
    }

    #[test]
    fn marks_are_compared_by_their_relay_and_other_parts_by_their_ends_too() {
        let part = |kind, ends| Part { ends, kind };
        assert_eq!(part(Kind::Mark(3), (2, 1)), part(Kind::Mark(3), NO_ENDS));
        assert_ne!(part(Kind::Mark(3), (2, 1)), part(Kind::Mark(2), (2, 1)));
        assert_ne!(
            part(Kind::Mark(3), (2, 1)),
            part(Kind::UpperContact(3), (2, 1))
        );
        assert_ne!(part(Kind::Wire, (2, 1)), part(Kind::Wire, (1, 2)));
        assert_eq!(part(Kind::Wire, (2, 1)), part(Kind::Wire, (2, 1)));
    }
}
