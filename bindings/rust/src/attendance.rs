//! Who is at a meeting: its rules, without waits.

/// The members of a meeting, by their numbers, and whether all were there at once.
#[derive(Clone, Debug, PartialEq, Eq)]
pub(crate) struct Attendance {
    members: Vec<Presence>,
    has_met: bool,
}

#[derive(Clone, Copy, Debug, PartialEq, Eq)]
enum Presence {
    Away,
    Here,
    /// It won't come any more.
    Ended,
}

impl Attendance {
    /// A meeting of so many members, none of which is there.
    pub(crate) fn new(members: usize) -> Attendance {
        Attendance {
            members: vec![Presence::Away; members],
            has_met: false,
        }
    }

    /// A member is there. If all are, they have met. One that has ended doesn't come any more.
    pub(crate) fn arrive(&mut self, member: usize) {
        if self.members[member] == Presence::Away {
            self.members[member] = Presence::Here;
            self.has_met = self.members.iter().all(|it| *it == Presence::Here);
        }
    }

    /// A member goes on: it is no longer there, unless all have met. The answer is whether they have.
    pub(crate) fn give_up(&mut self, member: usize) -> bool {
        if !self.has_met && self.members[member] == Presence::Here {
            self.members[member] = Presence::Away;
        }
        self.has_met
    }

    /// A member has ended.
    pub(crate) fn end(&mut self, member: usize) {
        if !self.has_met {
            self.members[member] = Presence::Ended;
        }
    }

    pub(crate) fn has_met(&self) -> bool {
        self.has_met
    }

    pub(crate) fn has_ended(&self, member: usize) -> bool {
        self.members[member] == Presence::Ended
    }

    /// Whether it makes sense to wait.
    pub(crate) fn is_open(&self) -> bool {
        !self.has_met && !self.members.contains(&Presence::Ended)
    }

    /// The members that are not there.
    pub(crate) fn missing(&self) -> impl Iterator<Item = usize> + '_ {
        let is_missing = |member: &usize| self.members[*member] != Presence::Here;
        (0..self.members.len()).filter(is_missing)
    }
}

#[cfg(test)]
mod tests {
    use super::Attendance;

    #[derive(Clone, Copy, PartialEq)]
    enum Kind {
        Arrives,
        GivesUp,
        Ends,
    }

    type Step = (Kind, usize);

    /// Whether a member is there behind these steps: it came, and has neither given up nor ended since, or before.
    fn is_there(steps: &[Step], member: usize) -> bool {
        let own = || steps.iter().filter(|it| it.1 == member).map(|it| it.0);
        own().all(|kind| kind != Kind::Ends) && own().next_back() == Some(Kind::Arrives)
    }

    /// Compares who is there, and whether all ever were at once.
    fn compare(members: usize, steps: &[Step], attendance: &Attendance) {
        let all_there = |count: usize| (0..members).all(|member| is_there(&steps[..count], member));
        let has_met = (0..=steps.len()).any(all_there);
        assert_eq!(attendance.has_met(), has_met);
        let missing: Vec<usize> = (0..members)
            .filter(|member| !has_met && !is_there(steps, *member))
            .collect();
        assert_eq!(attendance.missing().collect::<Vec<_>>(), missing);
        let has_anyone_ended = steps.iter().any(|it| it.0 == Kind::Ends);
        assert_eq!(attendance.is_open(), !has_met && !has_anyone_ended);
    }

    /// Takes each step that can be next, and each behind that. The answer counts the orders.
    fn walk(members: usize, most: usize, steps: &mut Vec<Step>, before: &Attendance) -> usize {
        compare(members, steps, before);
        if steps.len() == most {
            return 1;
        }
        let mut count = 1;
        for kind in [Kind::Arrives, Kind::GivesUp, Kind::Ends] {
            for member in 0..members {
                let mut after = before.clone();
                match kind {
                    Kind::Arrives => after.arrive(member),
                    Kind::GivesUp => assert_eq!(after.give_up(member), before.has_met()),
                    Kind::Ends => after.end(member),
                }
                steps.push((kind, member));
                count += walk(members, most, steps, &after);
                steps.pop();
            }
        }
        count
    }

    fn orders(members: usize, most: usize) -> usize {
        walk(members, most, &mut Vec::new(), &Attendance::new(members))
    }

    #[test]
    fn every_order_of_two_members() {
        assert_eq!(orders(2, 6), (0..=6).map(|steps| 6usize.pow(steps)).sum());
    }

    #[test]
    fn every_order_of_three_members() {
        assert_eq!(orders(3, 5), (0..=5).map(|steps| 9usize.pow(steps)).sum());
    }
}
