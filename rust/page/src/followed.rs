//! The run that was asked for last, followed once: a page asks several things of one trace, and the slider one after the other.

use std::cell::RefCell;
use std::ops::Deref;
use std::rc::Rc;

use gunwaleish::{Device, Refusal};
use gunwaleish_tool::story::{follow, Story};

/// The device is kept after every so many events.
const APART: usize = 64;

/// A run, and its device after some of its events.
pub struct Followed {
    story: Story,
    /// After none, after 64, after 128 and so on, as far as they were asked for.
    kept: RefCell<Vec<Device>>,
}

thread_local! {
    static LAST: RefCell<Option<(Vec<u8>, Rc<Followed>)>> = const { RefCell::new(None) };
}

impl Followed {
    /// The run of a trace, which is the last one if the bytes are the same.
    pub fn of(trace: &[u8]) -> Result<Rc<Followed>, Refusal> {
        LAST.with_borrow_mut(|last| match last {
            Some((bytes, followed)) if bytes == trace => Ok(followed.clone()),
            _ => {
                let story = follow(trace)?;
                let kept = RefCell::new(vec![Device::fresh(story.part)]);
                let followed = Rc::new(Followed { story, kept });
                *last = Some((trace.to_vec(), followed.clone()));
                Ok(followed)
            }
        })
    }

    /// The device after so many events; all of them, if there are fewer.
    pub fn device(&self, events: usize) -> Device {
        let events = events.min(self.steps.len());
        let mut kept = self.kept.borrow_mut();
        while kept.len() <= events / APART {
            let from = APART * (kept.len() - 1);
            let next = self.stepped(&kept[kept.len() - 1], from, from + APART);
            kept.push(next);
        }
        let from = events / APART;
        self.stepped(&kept[from], APART * from, events)
    }

    /// A device that stands after so many events, after so many more.
    fn stepped(&self, device: &Device, from: usize, to: usize) -> Device {
        let mut device = device.clone();
        self.steps[from..to].iter().for_each(|step| _ = device.step(step.event));
        device
    }
}

impl Deref for Followed {
    type Target = Story;

    fn deref(&self) -> &Story {
        &self.story
    }
}
