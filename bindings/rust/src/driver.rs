use crate::error::Error;
use crate::node::{answered, Node};
use crate::raw::*;
use crate::types::{Frame, Taken};
use std::cell::UnsafeCell;
use std::fmt;
use std::mem::take;

/// How often a [`Driver`] does what, in milliseconds.
///
/// ```
/// # use zomtagi::{Driver, Node, Pace};
/// let driver = Driver::new(Node::new(0, 1)?, 0, Pace { tick: 1_000, quiet: 60_000 })?;
/// # drop(driver);
/// # Ok::<(), zomtagi::Error>(())
/// ```
#[derive(Clone, Copy, Debug, PartialEq, Eq)]
pub struct Pace {
    /// From one tick to the next, at least 1.
    pub tick: u64,
    /// How long a member may send nothing until it counts as down. Members that hold the same answer no exchange, so let it be
    /// longer than a tick for each member.
    pub quiet: u64,
}

/// A node that is driven: it ticks, joins, begins exchanges and gives silent members up by a plan, of which each call does what
/// is next. One driver is for one life of a node.
///
/// After each tick it begins one exchange, with one member after the other. While it has fewer neighbours than three and than
/// there are members it also says hello to a member, unless it did, and joins through it, again one after the other. It tells the
/// node once that a member is down, until a frame came from that or a join went through it.
///
/// Times are milliseconds from any moment on, and never fall. The program calls [`Driver::on_time`] once the time has come that
/// [`Driver::wake`] tells, [`Driver::on_frame`] when bytes come, and [`Driver::on_failure`] when a link fails; and after each
/// call it sends [`Driver::frames`]. What is past due comes first in each of them.
///
/// ```
/// # use zomtagi::{Driver, Key, Node, Pace, Value};
/// let pace = Pace { tick: 1_000, quiet: 60_000 };
/// let mut zero = Driver::new(Node::new(0, 1)?, 0, pace)?;
/// let mut one = Driver::new(Node::new(1, 1)?, 0, pace)?;
/// zero.add(0, 1)?;
/// one.add(0, 0)?;
/// let colour = Key::new("app", "flags", "colour");
/// zero.node_mut().write_over(&colour, &Value::text("red"))?; // to nobody yet
/// one.on_time(0)?; // it ticks, says hello, joins, and begins an exchange
/// let mut frames = one.frames();
/// while let Some(frame) = frames.pop() {
///     let driver = if frame.to() == 0 { &mut zero } else { &mut one };
///     driver.on_frame(1, frame.bytes())?;
///     frames.extend(driver.frames());
/// }
/// assert_eq!(one.node().peek(&colour)?, [Value::text("red")]);
/// # Ok::<(), zomtagi::Error>(())
/// ```
pub struct Driver {
    node: Node,
    /// (an export that only tells writes the place too)
    plan: UnsafeCell<PlanSlot>,
    frames: Vec<Frame>,
}

impl Driver {
    /// Drives a node at this pace, whose first tick is due now. It has no members yet.
    ///
    /// ```
    /// # use zomtagi::{Driver, Node, Pace};
    /// let mut driver = Driver::new(Node::new(0, 1)?, 5_000, Pace { tick: 1_000, quiet: 60_000 })?;
    /// assert_eq!(driver.wake(), 5_000);
    /// driver.on_time(5_000)?;
    /// assert_eq!(driver.wake(), 6_000);
    /// # Ok::<(), zomtagi::Error>(())
    /// ```
    pub fn new(node: Node, now: u64, pace: Pace) -> Result<Driver, Error> {
        let mut driver = Driver { node, plan: UnsafeCell::new(PlanSlot::EMPTY), frames: Vec::new() };
        answered(unsafe { zomtagi_plan_begin(driver.plan.get_mut(), now, pace.tick, pace.quiet) })?;
        Ok(driver)
    }

    /// Counts another node among the members from now on. Of the node itself it does nothing.
    ///
    /// ```
    /// # use zomtagi::{Driver, Node, Pace};
    /// # let mut driver = Driver::new(Node::new(0, 1)?, 0, Pace { tick: 1_000, quiet: 60_000 })?;
    /// driver.add(0, 2)?;
    /// driver.on_time(0)?;
    /// let frames = driver.frames(); // a hello, a join, and the beginning of an exchange
    /// assert_eq!(frames.iter().map(|frame| frame.to()).collect::<Vec<_>>(), [2, 2, 2]);
    /// # Ok::<(), zomtagi::Error>(())
    /// ```
    pub fn add(&mut self, now: u64, member: u16) -> Result<(), Error> {
        answered(unsafe { zomtagi_plan_add(self.node.slot(), self.plan.get_mut(), now, member) })
    }

    /// Counts a node among the members no longer, and tells the node that it is down.
    ///
    /// ```
    /// # use zomtagi::{Driver, Node, Pace};
    /// # let mut driver = Driver::new(Node::new(0, 1)?, 0, Pace { tick: 1_000, quiet: 60_000 })?;
    /// driver.add(0, 2)?;
    /// driver.on_frame(0, Node::new(2, 1)?.join(0)?[0].bytes())?;
    /// assert_eq!(driver.node().neighbours()?, [2]);
    /// driver.remove(1, 2)?;
    /// assert_eq!(driver.node().neighbours()?, []);
    /// # Ok::<(), zomtagi::Error>(())
    /// ```
    pub fn remove(&mut self, now: u64, member: u16) -> Result<(), Error> {
        self.on_failure(now, member)?;
        answered(unsafe { zomtagi_plan_remove(self.plan.get_mut(), member) })
    }

    /// From when on there is something to do, if nothing happens before.
    ///
    /// ```
    /// # use zomtagi::{Driver, Node, Pace};
    /// # let mut driver = Driver::new(Node::new(0, 1)?, 0, Pace { tick: 1_000, quiet: 2_500 })?;
    /// driver.add(0, 1)?;
    /// for now in [0, 1_000, 2_000] {
    ///     assert_eq!(driver.wake(), now);
    ///     driver.on_time(now)?; // a tick
    /// }
    /// assert_eq!(driver.wake(), 2_500); // then member 1 was silent for too long
    /// # Ok::<(), zomtagi::Error>(())
    /// ```
    pub fn wake(&self) -> u64 {
        let mut at = 0;
        unsafe { zomtagi_plan_wake(self.node.shared_slot(), self.plan.get(), &mut at) };
        at
    }

    /// Does what is next. If memory is refused, what is left stays next.
    ///
    /// ```
    /// # use zomtagi::{Driver, Node, Pace};
    /// # let mut driver = Driver::new(Node::new(0, 1)?, 0, Pace { tick: 1_000, quiet: 60_000 })?;
    /// driver.add(0, 2)?;
    /// driver.on_time(0)?;
    /// assert_eq!(driver.frames().len(), 3);
    /// driver.on_time(999)?;
    /// assert_eq!(driver.frames(), []); // nothing is due
    /// # Ok::<(), zomtagi::Error>(())
    /// ```
    pub fn on_time(&mut self, now: u64) -> Result<(), Error> {
        let (plan, word) = (self.plan.get_mut() as *mut PlanSlot, self.node.word());
        self.drive(|slot| unsafe { zomtagi_drive_time(slot, plan, now, word) }).map(drop)
    }

    /// Does what is next, and takes bytes that came as [`Node::take`] does; their sender counts as heard of. Of bytes that no key of
    /// the cluster sealed nothing is done.
    ///
    /// ```
    /// # use zomtagi::{Driver, Node, Pace, Taken};
    /// # let mut driver = Driver::new(Node::new(0, 1)?, 0, Pace { tick: 1_000, quiet: 60_000 })?;
    /// let ask = Node::new(1, 1)?.exchange(0)?.remove(0);
    /// assert_eq!(driver.on_frame(0, ask.bytes())?, Taken::Taken);
    /// assert!(driver.on_frame(1, b"GET / HTTP/1.1").unwrap_err().ends_stream());
    /// # Ok::<(), zomtagi::Error>(())
    /// ```
    pub fn on_frame(&mut self, now: u64, bytes: &[u8]) -> Result<Taken, Error> {
        let plan = self.plan.get_mut() as *mut PlanSlot;
        let (node, frames) = (&mut self.node, &mut self.frames);
        node.take_by(bytes, frames, |slot, frame, word| unsafe {
            zomtagi_drive_frame(slot, plan, now, frame.as_ptr(), frame.len(), word)
        })
    }

    /// A link to a peer failed: does what is next, and tells the node that the peer is down, unless it knows.
    ///
    /// ```
    /// # use zomtagi::{Driver, Node, Pace};
    /// # let mut driver = Driver::new(Node::new(0, 1)?, 0, Pace { tick: 1_000, quiet: 60_000 })?;
    /// driver.add(0, 2)?;
    /// driver.on_frame(0, Node::new(2, 1)?.join(0)?[0].bytes())?;
    /// assert_eq!(driver.node().neighbours()?, [2]);
    /// driver.on_failure(1, 2)?;
    /// assert_eq!(driver.node().neighbours()?, []);
    /// # Ok::<(), zomtagi::Error>(())
    /// ```
    pub fn on_failure(&mut self, now: u64, peer: u16) -> Result<(), Error> {
        let (plan, word) = (self.plan.get_mut() as *mut PlanSlot, self.node.word());
        self.drive(|slot| unsafe { zomtagi_drive_failure(slot, plan, now, peer, word) }).map(drop)
    }

    /// The frames to send, of all calls since this was called last. Those of calls of [`Driver::node_mut`] aren't among them.
    ///
    /// ```
    /// # use zomtagi::{Driver, Node, Pace};
    /// # let mut driver = Driver::new(Node::new(0, 1)?, 0, Pace { tick: 1_000, quiet: 60_000 })?;
    /// driver.add(0, 2)?;
    /// driver.on_time(0)?;
    /// driver.on_time(1_000)?;
    /// assert_eq!(driver.frames().len(), 4); // a hello, a join, and two exchanges: it has a neighbour now
    /// assert_eq!(driver.frames(), []);
    /// # Ok::<(), zomtagi::Error>(())
    /// ```
    pub fn frames(&mut self) -> Vec<Frame> {
        take(&mut self.frames)
    }

    /// The node.
    ///
    /// ```
    /// # use zomtagi::{Driver, Node, Pace};
    /// let driver = Driver::new(Node::new(3, 1)?, 0, Pace { tick: 1_000, quiet: 60_000 })?;
    /// assert_eq!(driver.node().number(), 3);
    /// # Ok::<(), zomtagi::Error>(())
    /// ```
    pub fn node(&self) -> &Node {
        &self.node
    }

    /// The node, for what the program asks of it, such as writes; their frames are returned by the calls themselves.
    ///
    /// ```
    /// # use zomtagi::{Driver, Key, Node, Pace, Value};
    /// # let mut driver = Driver::new(Node::new(0, 1)?, 0, Pace { tick: 1_000, quiet: 60_000 })?;
    /// let frames = driver.node_mut().write_over(&Key::new("app", "flags", "colour"), &Value::text("red"))?;
    /// assert_eq!(frames, []); // it has no neighbours
    /// # Ok::<(), zomtagi::Error>(())
    /// ```
    pub fn node_mut(&mut self) -> &mut Node {
        &mut self.node
    }

    /// Makes a call that is a batch, and fetches what it gave, also if it was refused.
    fn drive(&mut self, call: impl FnOnce(*mut Slot) -> u16) -> Result<(), Error> {
        self.node.drive(&mut self.frames, call).map(drop)
    }
}

impl fmt::Debug for Driver {
    fn fmt(&self, out: &mut fmt::Formatter<'_>) -> fmt::Result {
        out.debug_struct("Driver").field("node", &self.node).field("wake", &self.wake()).finish_non_exhaustive()
    }
}

impl Drop for Driver {
    fn drop(&mut self) {
        unsafe { zomtagi_plan_end(self.plan.get_mut()) };
    }
}
