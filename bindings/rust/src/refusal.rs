use std::fmt;

macro_rules! refusals {
    ($($name:ident = $number:literal, $meaning:literal;)*) => {
        /// Why the library refused a call.
        ///
        /// ```
        /// use zomtagi::{Key, Node, Refusal, Value};
        ///
        /// let mut node = Node::new(0, 1)?;
        /// let refused = node.write_over(&Key::new("app", "flags", ""), &Value::text("red")).unwrap_err();
        /// assert_eq!(refused.refusal(), Some(Refusal::BadName));
        /// assert_eq!(Refusal::BadName.number(), 1);
        /// assert_eq!(Refusal::BadName.to_string(), "1 BadName: a part of a key is empty or too long");
        /// # Ok::<(), zomtagi::Error>(())
        /// ```
        #[derive(Clone, Copy, Debug, PartialEq, Eq, Hash)]
        #[non_exhaustive]
        pub enum Refusal {
            $(
                #[doc = concat!(stringify!($number), ": ", $meaning, ".")]
                $name,
            )*
            /// A number that this version of the package has no name for.
            Unknown(u16),
        }

        impl Refusal {
            /// The refusal of this number.
            ///
            /// ```
            /// # use zomtagi::Refusal;
            /// assert_eq!(Refusal::of(1), Refusal::BadName);
            /// assert_eq!(Refusal::of(1000), Refusal::Unknown(1000));
            /// ```
            pub fn of(number: u16) -> Refusal {
                match number {
                    $($number => Refusal::$name,)*
                    number => Refusal::Unknown(number),
                }
            }

            /// Its number, as the library gives it. A number keeps its meaning.
            ///
            /// ```
            /// # use zomtagi::Refusal;
            /// assert_eq!(Refusal::BadName.number(), 1);
            /// assert_eq!(Refusal::of(1000).number(), 1000);
            /// ```
            pub fn number(self) -> u16 {
                match self {
                    $(Refusal::$name => $number,)*
                    Refusal::Unknown(number) => number,
                }
            }

            /// Its name, as `docs/REFUSALS.md` has it.
            ///
            /// ```
            /// # use zomtagi::Refusal;
            /// assert_eq!(Refusal::BadName.name(), "BadName");
            /// assert_eq!(Refusal::of(1000).name(), "Unknown");
            /// ```
            pub fn name(self) -> &'static str {
                match self {
                    $(Refusal::$name => stringify!($name),)*
                    Refusal::Unknown(_) => "Unknown",
                }
            }

            /// What it means, in a few words.
            ///
            /// ```
            /// # use zomtagi::Refusal;
            /// assert_eq!(Refusal::BadName.meaning(), "a part of a key is empty or too long");
            /// ```
            pub fn meaning(self) -> &'static str {
                match self {
                    $(Refusal::$name => $meaning,)*
                    Refusal::Unknown(_) => "a later version of the package has its name",
                }
            }
        }
    };
}

refusals! {
    // made by scripts/refusals: the rows
    BadName = 1, "a part of a key is empty or too long";
    ValueTooLong = 2, "a body has more than 1,024 bytes";
    BadNode = 3, "no number from 0 to 15, or the node's own";
    Short = 10, "the bytes end before the frame does";
    BadMagic = 11, "the bytes don't begin as a frame does";
    BadVersion = 12, "the frame is of another version";
    BadKind = 13, "there is no such kind of frame";
    TooLong = 14, "the frame says that it is longer than any";
    BadBody = 15, "a field of the frame is at fault";
    LeftOver = 16, "more bytes stand behind the frame";
    BadSeal = 17, "no key of the cluster sealed the bytes";
    BadKey = 18, "keys have 32 bytes, or 64";
    CounterSpent = 20, "this life of the node can't count another write of the key";
    BadEntries = 21, "the frame's object can't have arisen beside the one held";
    StoreFull = 25, "the node holds 8,192 keys, and this is another one";
    WrongKey = 26, "the context is of another key";
    ObjectTooLarge = 27, "the object would be too large";
    BadWatch = 28, "a capacity out of range, or a seventeenth watch in a life";
    NoSuchWatch = 29, "there is no watch of this number";
    Damaged = 31, "no node file, or a damaged one";
    OtherNode = 32, "the file is of another node";
    FileFull = 33, "the file would have more than 2^40 bytes";
    Stopped = 34, "a record wasn't stored: free the node, and serve it again";
    IncarnationSpent = 35, "there is no further life";
    OldVersion = 36, "the file is of version 1";
    Pending = 37, "a record isn't stored or a frame isn't sent, or a batch is open";
    Nothing = 38, "there is nothing to hand out, or no batch to end";
    NotAddressed = 40, "the frame is addressed to another node";
    NoSuchRead = 43, "there is no context of this number";
    NoNode = 80, "there is no node in the slot, or no plan in its own";
    ShortBuffer = 81, "the buffer is shorter than what it should hold";
    BadLife = 82, "lives are numbered from 1";
    Memory = 99, "memory ran out";
    // the end of the rows
}

impl Refusal {
    /// Whether the node is at its end, and is to be dropped.
    ///
    /// ```
    /// # use zomtagi::Refusal;
    /// assert!(Refusal::Stopped.ends_node());
    /// assert!(!Refusal::StoreFull.ends_node()); // the write wasn't made, and the node goes on
    /// ```
    pub fn ends_node(self) -> bool {
        self == Refusal::Stopped
    }

    /// Whether it says that bytes of a stream are no frame of the cluster, so that where the next frame begins isn't known: close
    /// the stream that they came from.
    ///
    /// ```
    /// # use zomtagi::Refusal;
    /// assert!(Refusal::BadMagic.ends_stream());
    /// assert!(!Refusal::NotAddressed.ends_stream()); // a frame, for another node
    /// ```
    pub fn ends_stream(self) -> bool {
        matches!(self.number(), 10..=17)
    }
}

impl fmt::Display for Refusal {
    fn fmt(&self, out: &mut fmt::Formatter<'_>) -> fmt::Result {
        write!(out, "{} {}: {}", self.number(), self.name(), self.meaning())
    }
}
