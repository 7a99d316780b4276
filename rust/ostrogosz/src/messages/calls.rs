//! The calls that every kind has.

/// The calls on one kind's struct. The sample is a message that every one of
/// them accepts.
macro_rules! kind {
    ($type:ident, $id:literal, $octets:literal, $sample:literal;
     $read_from:ident $read:ident; $write_to:ident $write:ident; $send_to:ident $send:ident) => {
        impl $type {
            #[doc = concat!("Reads the body of a message ", stringify!($id), " into this struct.")]
            ///
            /// # Errors
            ///
            /// Tested in this order: [`ReadRefusal::UnknownId`](crate::ReadRefusal::UnknownId) for no octet or
            /// another kind's ID, [`ReadRefusal::MessageLength`](crate::ReadRefusal::MessageLength),
            /// [`ReadRefusal::Fixed`](crate::ReadRefusal::Fixed), [`ReadRefusal::Field`](crate::ReadRefusal::Field). A refusal leaves
            /// the struct as it was.
            ///
            /// ```
            #[doc = concat!("use ostrogosz::messages::", stringify!($type), ";")]
            #[doc = concat!("let sent = ", $sample, ";")]
            #[doc = concat!("let mut body = [0; ", stringify!($octets), "];")]
            #[doc = concat!("sent.", stringify!($write_to), "(&mut body)?;")]
            #[doc = concat!("let mut message = ", stringify!($type), "::default();")]
            #[doc = concat!("message.", stringify!($read_from), "(&body)?;")]
            /// assert_eq!(message, sent);
            /// # Ok::<(), Box<dyn std::error::Error>>(())
            /// ```
            #[inline]
            pub fn $read_from(&mut self, body: &[u8]) -> Result<(), $crate::ReadRefusal> {
                // SAFETY: pointer and length are those of one slice, which is
                // only read; the struct is all there, mutable, and every bool
                // in it is left 0 or 1.
                match unsafe { $read(body.as_ptr(), body.len(), self) } {
                    0 => Ok(()),
                    number => Err($crate::ReadRefusal::of_number(number)),
                }
            }

            #[doc = concat!("Writes the body of a message ", stringify!($id), " at the start of")]
            #[doc = concat!("`output` and gives its length, ", stringify!($octets), ". The octets behind")]
            /// it keep what they held.
            ///
            /// # Errors
            ///
            /// [`WriteRefusal::Field`](crate::WriteRefusal::Field), then [`WriteRefusal::OutputLength`](crate::WriteRefusal::OutputLength); a
            /// refusal writes nothing.
            ///
            /// ```
            #[doc = concat!("use ostrogosz::messages::", stringify!($type), ";")]
            #[doc = concat!("let message = ", $sample, ";")]
            #[doc = concat!("let mut body = [0; ", stringify!($octets), "];")]
            #[doc = concat!("assert_eq!(message.", stringify!($write_to), "(&mut body)?, ", stringify!($octets), ");")]
            /// # Ok::<(), Box<dyn std::error::Error>>(())
            /// ```
            #[inline]
            pub fn $write_to(&self, output: &mut [u8]) -> Result<usize, $crate::WriteRefusal> {
                // SAFETY: the struct is all there; pointer and length are those
                // of one slice, which is mutable, so they don't overlap.
                let written = unsafe { $write(self, output.as_mut_ptr(), output.len()) };
                written.answer($crate::WriteRefusal::of_number)
            }

            #[doc = concat!("Writes the frame of a message ", stringify!($id), " at the start of")]
            /// `buffer`, which has room for every frame, and gives its length.
            /// The octets behind it keep what they held.
            ///
            /// # Errors
            ///
            /// [`SendRefusal::Field`](crate::SendRefusal::Field); a refusal writes nothing.
            ///
            /// ```
            #[doc = concat!("use ostrogosz::messages::", stringify!($type), ";")]
            #[doc = concat!("let message = ", $sample, ";")]
            /// let mut buffer = [0; ostrogosz::LONGEST_FRAME];
            #[doc = concat!("let length = message.", stringify!($send_to), "(&mut buffer)?;")]
            /// assert_eq!((buffer[0], buffer[length - 1]), (0x7E, 0x7E));
            /// # Ok::<(), Box<dyn std::error::Error>>(())
            /// ```
            #[inline]
            pub fn $send_to(&self, buffer: &mut [u8; $crate::LONGEST_FRAME]) -> Result<usize, $crate::SendRefusal> {
                // SAFETY: struct and buffer are all there, and one is mutable,
                // so they don't overlap.
                unsafe { $send(self, buffer) }.answer($crate::SendRefusal::of_number)
            }
        }
    };
}

pub(crate) use kind;
