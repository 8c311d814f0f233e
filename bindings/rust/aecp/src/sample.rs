use crate::{Error, Options};
use std::mem::size_of;

/// The types of elements that are coded and decoded.
///
/// - `u8`: the elements are the bytes of stored samples, whatever the options are.
/// - `i8`, `u16`, `i16`, `u32`, `i32`: an element is a sample. The options must have the element's
///   size and sign, and the byte order of the machine. Else the call returns
///   [`Error::ElementType`].
///
/// ```
/// use aecp::{encode, Error, Options};
///
/// let samples: [i16; 4] = [-3, -2, 5, 7];
/// assert!(encode(&samples, &Options::new(12).with_signed(true)).is_ok());
/// assert_eq!(encode(&samples, &Options::new(12)), Err(Error::ElementType));
/// ```
pub trait Sample: Copy + Default + sealed::Integer {}

mod sealed {
    /// An integer without padding. Code outside the crate can't implement it.
    pub trait Integer {
        const IS_SIGNED: bool;
        /// Elements are the bytes of stored samples.
        const IS_BYTE: bool = false;
    }
}

macro_rules! samples {
    ($($type:ty: $is_signed:literal),*) => {$(
        impl Sample for $type {}
        impl sealed::Integer for $type {
            const IS_SIGNED: bool = $is_signed;
        }
    )*};
}

samples!(i8: true, u16: false, i16: true, u32: false, i32: true);

impl Sample for u8 {}
impl sealed::Integer for u8 {
    const IS_SIGNED: bool = false;
    const IS_BYTE: bool = true;
}

/// Fails if a type's elements aren't stored samples of these options.
pub(crate) fn check_type<T: Sample>(options: &Options) -> Result<(), Error> {
    let size = size_of::<T>();
    let has_order = size == 1 || options.0.msb_first == cfg!(target_endian = "big");
    if T::IS_BYTE || size == options.storage() && T::IS_SIGNED == options.0.is_signed && has_order {
        Ok(())
    } else {
        Err(Error::ElementType)
    }
}
