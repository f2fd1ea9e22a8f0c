//! The parts of a shape. A shape's fields are listed once, by `shape!`; what is blank, the bytes that go to the driver
//! and come back, and the first field in which two differ, all follow from that list.

use std::fmt::Debug;

/// A field of a shape, or a shape itself. Its bytes are those that it has in C: low byte first, without gaps.
pub trait Part: Copy + PartialEq + Debug {
    const BLANK: Self;
    /// How many bytes it has.
    const SIZE: usize;

    /// Adds its bytes.
    fn put(&self, bytes: &mut Vec<u8>);

    /// Takes its bytes off the front. There are always enough: whoever reads them reads its size.
    fn take(front: &mut &[u8]) -> Result<Self, String>;

    /// Where it differs from the model's, by name.
    fn differs(&self, ours: &Self, name: &str) -> Option<String> {
        (self != ours).then(|| format!("{name}: library {self:?}, model {ours:?}"))
    }
}

fn first<const N: usize>(front: &mut &[u8]) -> [u8; N] {
    let (first, rest) = front.split_at(N);
    *front = rest;
    first.try_into().expect("as many bytes as were split off")
}

macro_rules! numbers {
    ($($number:ident)*) => {
        $(impl Part for $number {
            const BLANK: $number = 0;
            const SIZE: usize = size_of::<$number>();

            fn put(&self, bytes: &mut Vec<u8>) {
                bytes.extend(self.to_le_bytes());
            }

            fn take(front: &mut &[u8]) -> Result<$number, String> {
                Ok($number::from_le_bytes(first(front)))
            }
        })*
    };
}

numbers! { u8 u16 u32 u64 }

/// A bool of C is 0 or 1; anything else is the library's mistake.
impl Part for bool {
    const BLANK: bool = false;
    const SIZE: usize = 1;

    fn put(&self, bytes: &mut Vec<u8>) {
        bytes.push(u8::from(*self));
    }

    fn take(front: &mut &[u8]) -> Result<bool, String> {
        match first(front) {
            [0] => Ok(false),
            [1] => Ok(true),
            [byte] => Err(format!("a bool in the state is {byte}")),
        }
    }
}

impl<T: Part, const N: usize> Part for [T; N] {
    const BLANK: [T; N] = [T::BLANK; N];
    const SIZE: usize = N * T::SIZE;

    fn put(&self, bytes: &mut Vec<u8>) {
        for part in self {
            part.put(bytes);
        }
    }

    fn take(front: &mut &[u8]) -> Result<[T; N], String> {
        let mut list = Self::BLANK;
        for part in &mut list {
            *part = T::take(front)?;
        }
        Ok(list)
    }

    fn differs(&self, ours: &[T; N], name: &str) -> Option<String> {
        let place = (0..N).find(|place| self[*place] != ours[*place])?;
        let (theirs, ours) = (self[place], ours[place]);
        Some(format!("{name}[{place}]: library {theirs:?}, model {ours:?}"))
    }
}

/// Makes a shape of its list of fields.
macro_rules! shape {
    ($(#[$about:meta])* $shape:ident { $($field:ident: $type:ty,)* }) => {
        $(#[$about])*
        #[repr(C)]
        #[derive(Clone, Copy, Debug, PartialEq, Eq)]
        pub struct $shape {
            $(pub $field: $type,)*
        }

        impl $shape {
            /// The names of its fields, in their order.
            pub const FIELDS: &[&str] = &[$(stringify!($field),)*];

            /// Each by its name, with what it holds.
            pub fn fields(&self) -> Vec<(&'static str, String)> {
                vec![$((stringify!($field), format!("{:?}", self.$field)),)*]
            }
        }

        impl Default for $shape {
            fn default() -> $shape {
                $shape::BLANK
            }
        }

        impl $crate::part::Part for $shape {
            const BLANK: $shape = $shape { $($field: <$type>::BLANK,)* };
            const SIZE: usize = 0 $(+ <$type>::SIZE)*;

            fn put(&self, bytes: &mut Vec<u8>) {
                $(self.$field.put(bytes);)*
            }

            fn take(front: &mut &[u8]) -> Result<$shape, String> {
                Ok($shape { $($field: <$type>::take(front)?,)* })
            }

            fn differs(&self, ours: &$shape, name: &str) -> Option<String> {
                let fields = [$(self.$field.differs(&ours.$field, &format!("{name}.{}", stringify!($field))),)*];
                fields.into_iter().flatten().next()
            }
        }
    };
}

pub(crate) use shape;
