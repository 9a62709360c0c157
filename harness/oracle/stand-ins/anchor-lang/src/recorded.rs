//! What the oracle sets before a call and reads after it: the clock and the events.
use crate::error::ProgramError;
use std::any::Any;
use std::cell::{Cell, RefCell};

thread_local! {
    static EVENTS: RefCell<Vec<Box<dyn Any>>> = const { RefCell::new(Vec::new()) };
    static NOW: Cell<Option<i64>> = const { Cell::new(None) };
}

pub fn record_event(e: Box<dyn Any>) {
    EVENTS.with(|v| v.borrow_mut().push(e));
}

pub fn take_events() -> Vec<Box<dyn Any>> {
    EVENTS.with(|v| std::mem::take(&mut *v.borrow_mut()))
}

#[macro_export]
macro_rules! emit {
    ($e:expr) => {
        $crate::record_event(Box::new($e))
    };
}

pub fn set_now(now: Option<i64>) {
    NOW.with(|n| n.set(now));
}

pub struct Clock {
    pub unix_timestamp: i64,
}

impl Clock {
    /// Fails where the record of the call carries no clock.
    pub fn get() -> Result<Clock, ProgramError> {
        NOW.with(|n| n.get()).map(|unix_timestamp| Clock { unix_timestamp }).ok_or(ProgramError)
    }
}

pub struct Rent;

impl Rent {
    pub fn get() -> Result<Rent, ProgramError> {
        Ok(Rent)
    }
    pub fn minimum_balance(&self, _len: usize) -> u64 {
        1
    }
}
