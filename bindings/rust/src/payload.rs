//! Values as the bytes of messages.

use crate::options::Message;
use std::borrow::Cow;

/// A value that a message carries as bytes. Integers are little-endian, and a `String` is UTF-8.
///
/// ```
/// use std::borrow::Cow;
/// use yakyrombe::{Error, OpenOptions, Payload, System};
///
/// #[derive(Debug, PartialEq)]
/// enum Order {
///     Sweep,
///     Water(u8),
/// }
///
/// impl Payload for Order {
///     fn encode(&self) -> Cow<'_, [u8]> {
///         match *self {
///             Order::Sweep => vec![0].into(),
///             Order::Water(plants) => vec![1, plants].into(),
///         }
///     }
///
///     fn decode(bytes: &[u8]) -> Option<Order> {
///         match *bytes {
///             [0] => Some(Order::Sweep),
///             [1, plants] => Some(Order::Water(plants)),
///             _ => None,
///         }
///     }
/// }
///
/// # fn main() -> Result<(), Error> {
/// let (_, [process]) = System::builder().build_array()?;
/// let orders = process.open("/orders", OpenOptions::read_write().create().limits(4, 8))?;
/// orders.send(&Order::Water(3).encode(), 1)?;
/// assert_eq!(orders.receive_vec()?.decode(), Some(Order::Water(3)));
/// orders.send(&1_000_u32.encode(), 1)?;
/// let message = orders.receive_vec()?;
/// assert_eq!(message.decode::<u32>(), Some(1_000));
/// assert_eq!(message.decode::<u64>(), None);
/// # Ok(())
/// # }
/// ```
pub trait Payload: Sized {
    /// The bytes of the value. A queue must take messages of their number.
    fn encode(&self) -> Cow<'_, [u8]>;

    /// The value with these bytes, or `None` if there is none.
    fn decode(bytes: &[u8]) -> Option<Self>;
}

impl Message {
    /// The value that the message carries, or `None` if its bytes are not those of one.
    #[must_use]
    pub fn decode<T: Payload>(&self) -> Option<T> {
        T::decode(self)
    }
}

impl Payload for Vec<u8> {
    fn encode(&self) -> Cow<'_, [u8]> {
        self.into()
    }

    fn decode(bytes: &[u8]) -> Option<Vec<u8>> {
        Some(bytes.to_vec())
    }
}

impl Payload for String {
    fn encode(&self) -> Cow<'_, [u8]> {
        self.as_bytes().into()
    }

    fn decode(bytes: &[u8]) -> Option<String> {
        String::from_utf8(bytes.to_vec()).ok()
    }
}

macro_rules! integers {
    ($($integer:ty)*) => {$(
        impl Payload for $integer {
            fn encode(&self) -> Cow<'_, [u8]> {
                self.to_le_bytes().to_vec().into()
            }

            fn decode(bytes: &[u8]) -> Option<$integer> {
                bytes.try_into().ok().map(<$integer>::from_le_bytes)
            }
        }
    )*};
}

integers!(u8 u16 u32 u64 u128 i8 i16 i32 i64 i128);
