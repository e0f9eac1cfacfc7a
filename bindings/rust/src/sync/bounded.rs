//! The channel with room for a number of items.

use crate::party::{self, Marks};
use std::collections::VecDeque;
use std::sync::mpsc::{RecvTimeoutError, TryRecvError, TrySendError};
use std::sync::{Arc, Condvar, Mutex, MutexGuard, PoisonError};
use std::time::{Duration, Instant};

/// A channel with room for `room` items. With room for none each send waits until its item was received.
pub(super) struct Bounded<T> {
    room: usize,
    state: Mutex<State<T>>,
    has_item: Condvar,
    has_room: Condvar,
}

struct State<T> {
    items: VecDeque<Item<T>>,
    /// What receivers left in the places that they freed, the earliest first. Empty ones at the beginning.
    places: VecDeque<Marks>,
    /// How many receivers wait for an item.
    waiting: usize,
    senders: usize,
    has_receiver: bool,
}

pub(super) struct Item<T> {
    value: T,
    marks: Marks,
    /// What its receiver leaves, for a sender that waits for that.
    answer: Option<Answer>,
}

type Answer = Arc<Mutex<Option<Marks>>>;

impl<T> Bounded<T> {
    /// An empty channel with one sender and its receiver.
    pub(super) fn new(room: usize) -> Bounded<T> {
        Bounded {
            room,
            state: Mutex::new(State {
                items: VecDeque::new(),
                places: std::iter::repeat(Marks::None).take(room).collect(),
                waiting: 0,
                senders: 1,
                has_receiver: true,
            }),
            has_item: Condvar::new(),
            has_room: Condvar::new(),
        }
    }

    /// Sends an item, and takes what the receiver left that made room for it.
    pub(super) fn send(&self, value: T) -> Result<(), T> {
        let mut state = self.locked();
        while state.has_receiver && state.items.len() >= self.room.max(1) {
            state = self.waited(&self.has_room, state);
        }
        if !state.has_receiver {
            return Err(value);
        }
        if self.room > 0 {
            self.put(&mut state, value, None);
            return Ok(());
        }
        let answer = Answer::default();
        self.put(&mut state, value, Some(Arc::clone(&answer)));
        loop {
            if let Some(marks) = unpoisoned(answer.lock()).take() {
                party::take(&marks);
                return Ok(());
            }
            if !state.has_receiver {
                // No other item can be there.
                return state
                    .items
                    .pop_back()
                    .map_or(Ok(()), |item| Err(item.value));
            }
            state = self.waited(&self.has_room, state);
        }
    }

    /// Sends an item, if there is room; with room for none, if a receiver waits.
    pub(super) fn try_send(&self, value: T) -> Result<(), TrySendError<T>> {
        let mut state = self.locked();
        if !state.has_receiver {
            return Err(TrySendError::Disconnected(value));
        }
        let room = if self.room > 0 {
            self.room
        } else {
            state.waiting.min(1)
        };
        if state.items.len() >= room {
            return Err(TrySendError::Full(value));
        }
        self.put(&mut state, value, None);
        Ok(())
    }

    fn put(&self, state: &mut State<T>, value: T, answer: Option<Answer>) {
        if let Some(marks) = state.places.pop_front() {
            party::take(&marks);
        }
        let marks = party::left();
        state.items.push_back(Item {
            value,
            marks,
            answer,
        });
        self.has_item.notify_one();
    }

    /// Waits for an item.
    pub(super) fn recv(&self, until: Option<Instant>) -> Result<T, RecvTimeoutError> {
        let mut state = self.locked();
        loop {
            if let Some(value) = self.get(&mut state) {
                return Ok(value);
            }
            if state.senders == 0 {
                return Err(RecvTimeoutError::Disconnected);
            }
            let left = match until {
                None => None,
                Some(until) => match until.checked_duration_since(Instant::now()) {
                    Some(left) if !left.is_zero() => Some(left),
                    _ => return Err(RecvTimeoutError::Timeout),
                },
            };
            state.waiting += 1;
            state = self.waited_for(&self.has_item, state, left);
            state.waiting -= 1;
        }
    }

    /// An item, if there is one.
    pub(super) fn try_recv(&self) -> Result<T, TryRecvError> {
        let mut state = self.locked();
        match self.get(&mut state) {
            Some(value) => Ok(value),
            None if state.senders == 0 => Err(TryRecvError::Disconnected),
            None => Err(TryRecvError::Empty),
        }
    }

    fn get(&self, state: &mut State<T>) -> Option<T> {
        let item = state.items.pop_front()?;
        party::take(&item.marks);
        if let Some(answer) = item.answer {
            *unpoisoned(answer.lock()) = Some(party::left());
        } else if self.room > 0 {
            state.places.push_back(party::left());
        }
        self.has_room.notify_all();
        Some(item.value)
    }

    pub(super) fn add_sender(&self) {
        self.locked().senders += 1;
    }

    pub(super) fn drop_sender(&self) {
        self.locked().senders -= 1;
        self.has_item.notify_all();
    }

    /// The items that nobody receives any more, which are dropped by the caller.
    pub(super) fn drop_receiver(&self) -> VecDeque<Item<T>> {
        let mut state = self.locked();
        state.has_receiver = false;
        self.has_room.notify_all();
        // A send with room for none gives its item back.
        if self.room == 0 {
            return VecDeque::new();
        }
        std::mem::take(&mut state.items)
    }

    fn locked(&self) -> MutexGuard<'_, State<T>> {
        unpoisoned(self.state.lock())
    }

    fn waited<'a>(
        &self,
        place: &Condvar,
        state: MutexGuard<'a, State<T>>,
    ) -> MutexGuard<'a, State<T>> {
        unpoisoned(place.wait(state))
    }

    fn waited_for<'a>(
        &self,
        place: &Condvar,
        state: MutexGuard<'a, State<T>>,
        left: Option<Duration>,
    ) -> MutexGuard<'a, State<T>> {
        match left {
            None => self.waited(place, state),
            Some(left) => unpoisoned(place.wait_timeout(state, left)).0,
        }
    }
}

/// No thread panics with a lock of a channel.
fn unpoisoned<G>(got: Result<G, PoisonError<G>>) -> G {
    got.unwrap_or_else(PoisonError::into_inner)
}
