use crate::error::Error;
use crate::node::Node;
use crate::types::{Context, Key, Value};

/// The steps of a [`Node::batch`].
///
/// ```
/// use zomtagi::{Batch, Error, Key, Node, Value};
///
/// fn set_all(batch: &mut Batch<'_>, keys: &[Key], value: &Value) -> Result<(), Error> {
///     keys.iter().try_for_each(|key| batch.write_over(key, value))
/// }
///
/// let mut node = Node::new(0, 1)?;
/// let keys = ["colour", "size"].map(|name| Key::new("app", "flags", name));
/// let (set, _frames) = node.batch(|batch| set_all(batch, &keys, &Value::text("on")))?;
/// set?;
/// assert_eq!(node.peek(&keys[1])?, [Value::text("on")]);
/// # Ok::<(), Error>(())
/// ```
pub struct Batch<'a> {
    node: &'a mut Node,
    is_open: bool,
}

impl<'a> Batch<'a> {
    /// Begins a batch, which [`Batch::end`] ends.
    pub(crate) fn begin(node: &'a mut Node) -> Result<Batch<'a>, Error> {
        node.begin_batch()?;
        Ok(Batch { node, is_open: true })
    }

    /// Ends it. What it was lent for is done by then.
    pub(crate) fn end(mut self) -> Result<(), Error> {
        self.is_open = false;
        self.node.end_batch()
    }

    /// As [`Node::write`], stored with the other steps.
    ///
    /// ```
    /// # use zomtagi::{Key, Node, Value};
    /// # let (mut node, colour) = (Node::new(0, 1)?, Key::new("app", "flags", "colour"));
    /// node.write_over(&colour, &Value::text("red"))?;
    /// let read = node.read(&colour)?;
    /// let (written, _frames) = node.batch(|batch| {
    ///     batch.write(&colour, &Value::text("green"), Some(&read.context))?;
    ///     batch.write(&colour, &Value::text("grey"), None)
    /// })?;
    /// written?;
    /// assert_eq!(node.peek(&colour)?, [Value::text("grey"), Value::text("green")]);
    /// # Ok::<(), zomtagi::Error>(())
    /// ```
    pub fn write(&mut self, key: &Key, value: &Value, context: Option<&Context>) -> Result<(), Error> {
        self.node.ask_write(key, value, context)
    }

    /// As [`Node::write_over`], stored with the other steps.
    ///
    /// ```
    /// # use zomtagi::{Key, Node, Refusal, Value};
    /// # let (mut node, colour) = (Node::new(0, 1)?, Key::new("app", "flags", "colour"));
    /// let (refused, _frames) = node.batch(|batch| {
    ///     batch.write_over(&colour, &Value::text("red")).unwrap();
    ///     batch.write_over(&colour, &Value::text([0; 1025])).unwrap_err() // too long: it is left out
    /// })?;
    /// assert_eq!(refused.refusal(), Some(Refusal::ValueTooLong));
    /// assert_eq!(node.peek(&colour)?, [Value::text("red")]);
    /// # Ok::<(), zomtagi::Error>(())
    /// ```
    pub fn write_over(&mut self, key: &Key, value: &Value) -> Result<(), Error> {
        self.node.ask_write_over(key, value)
    }

    /// As [`Node::keep`], stored with the other steps.
    ///
    /// ```
    /// # use zomtagi::{Key, Node, Value};
    /// # let (mut node, colour) = (Node::new(0, 1)?, Key::new("app", "flags", "colour"));
    /// # node.write_over(&colour, &Value::text("red"))?;
    /// let (kept, frames) = node.batch(|batch| batch.keep(&colour))?;
    /// assert_eq!((kept?, frames), ((), vec![])); // keeping sends nothing
    /// # Ok::<(), zomtagi::Error>(())
    /// ```
    pub fn keep(&mut self, key: &Key) -> Result<(), Error> {
        self.node.ask_keep(key)
    }

    /// As [`Node::peek`]: the writes of the batch are shown.
    ///
    /// ```
    /// # use zomtagi::{Error, Key, Node, Value};
    /// # let (mut node, colour) = (Node::new(0, 1)?, Key::new("app", "flags", "colour"));
    /// let (shown, _frames) = node.batch(|batch| {
    ///     batch.write_over(&colour, &Value::text("red"))?;
    ///     batch.peek(&colour)
    /// })?;
    /// assert_eq!(shown?, [Value::text("red")]);
    /// # Ok::<(), Error>(())
    /// ```
    pub fn peek(&self, key: &Key) -> Result<Vec<Value>, Error> {
        self.node.peek(key)
    }
}

impl Drop for Batch<'_> {
    /// A batch that a panic breaks off stops its node: what was made is stored nowhere.
    fn drop(&mut self) {
        if self.is_open {
            self.node.stop();
        }
    }
}
