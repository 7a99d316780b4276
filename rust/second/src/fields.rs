//! Fields that lie one behind the other, most significant bit first.

/// Takes fields from the front of some octets.
pub(crate) struct Fields<'a> {
    octets: &'a [u8],
    /// The number of the next bit, counted from the front.
    next: usize,
}

impl<'a> Fields<'a> {
    /// The fields of these octets, none taken yet.
    pub(crate) fn of(octets: &'a [u8]) -> Self {
        Self { octets, next: 0 }
    }

    /// Takes an unsigned number of this many bits.
    pub(crate) fn unsigned<T: TryFrom<u32>>(&mut self, width: u32) -> T {
        narrowed(self.number(width))
    }

    /// Takes a number of this many bits in two's complement: its first bit
    /// weighs as much as in an unsigned number, but downwards.
    pub(crate) fn signed<T: TryFrom<i64>>(&mut self, width: u32) -> T {
        let number = i64::from(self.number(width));
        let first = 1i64 << (width - 1);
        narrowed(if number < first {
            number
        } else {
            number - 2 * first
        })
    }

    /// Takes octets as they are.
    pub(crate) fn octets<const N: usize>(&mut self) -> [u8; N] {
        std::array::from_fn(|_| self.unsigned(8))
    }

    /// Takes an address of 24 bits, low octet first.
    pub(crate) fn address(&mut self) -> u32 {
        let [low, middle, high] = self.octets();
        u32::from_le_bytes([low, middle, high, 0])
    }

    /// The next bits as one number.
    fn number(&mut self, width: u32) -> u32 {
        (0..width).fold(0, |number, _| number << 1 | u32::from(self.bit()))
    }

    /// The next bit.
    fn bit(&mut self) -> bool {
        let octet = self.octets[self.next / 8];
        let place = 7 - self.next % 8;
        self.next += 1;
        octet >> place & 1 == 1
    }
}

/// A number in the type of its field, which is never too small for it.
fn narrowed<N, T: TryFrom<N>>(number: N) -> T {
    T::try_from(number).unwrap_or_else(|_| unreachable!("the type holds the field's bits"))
}

/// Fields put one behind the other.
#[derive(Default)]
pub(crate) struct Row {
    octets: Vec<u8>,
    /// The bits of the last octet, while it is not full.
    begun: Vec<bool>,
}

impl Row {
    /// Puts the low bits of an unsigned number, this many.
    pub(crate) fn unsigned(&mut self, number: impl Into<u32>, width: u32) {
        let number = number.into();
        (0..width)
            .rev()
            .for_each(|place| self.bit(number >> place & 1 == 1));
    }

    /// Puts the low bits of a number in two's complement, this many.
    pub(crate) fn signed(&mut self, number: impl Into<i32>, width: u32) {
        let number = number.into();
        (0..width)
            .rev()
            .for_each(|place| self.bit(number >> place & 1 == 1));
    }

    /// Puts octets as they are.
    pub(crate) fn octets(&mut self, octets: &[u8]) {
        assert!(self.begun.is_empty(), "octets begin at a whole octet");
        self.octets.extend(octets);
    }

    /// Puts an address of 24 bits, low octet first.
    pub(crate) fn address(&mut self, address: u32) {
        let [low, middle, high, _] = address.to_le_bytes();
        self.octets(&[low, middle, high]);
    }

    /// What was put, in whole octets.
    pub(crate) fn done(self) -> Vec<u8> {
        assert!(self.begun.is_empty(), "fields end at a whole octet");
        self.octets
    }

    /// Puts one bit; the eighth makes an octet.
    fn bit(&mut self, bit: bool) {
        self.begun.push(bit);
        if self.begun.len() == 8 {
            let octet = self.begun.drain(..);
            let octet = octet.fold(0, |octet, bit| octet << 1 | u8::from(bit));
            self.octets.push(octet);
        }
    }
}
