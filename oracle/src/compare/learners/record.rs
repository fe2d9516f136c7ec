//! A learner as the archive takes it: the numbers and counts of docs/BOUNDARY.md, in its order.

use core::slice::{Iter, IterMut};

/// Room for the longest record; a learner's own words are at the front.
#[derive(Clone, Copy)]
pub struct Record {
    pub numbers: [f32; 27],
    pub counts: [u32; 8],
}

pub const BLANK: Record = Record {
    numbers: [0.0; 27],
    counts: [0; 8],
};

/// What a call takes.
#[derive(Clone, Copy)]
pub struct Input {
    pub operation: u32,
    pub record: Record,
    pub arguments: [f32; 6],
    pub words: [u32; 4],
}

/// A field of an original type in a row of words.
pub trait Field<Word>: Sized {
    fn take(words: &mut Iter<Word>) -> Self;
    fn put(self, words: &mut IterMut<Word>);
}

macro_rules! field {
    ($field:ty as $word:ty: $take:expr, $put:expr) => {
        impl Field<$word> for $field {
            fn take(words: &mut Iter<$word>) -> Self {
                words.next().map_or(Default::default(), $take)
            }

            fn put(self, words: &mut IterMut<$word>) {
                if let Some(word) = words.next() {
                    *word = $put(self);
                }
            }
        }
    };
}

field!(f32 as f32: |&word| word, |field| field);
field!(u32 as u32: |&word| word, |field| field);
field!(usize as u32: |&word| word as usize, |field| field as u32);
field!(bool as u32: |&word| word != 0, |field| field as u32);

/// A number of 64 bits as two words, the low one first.
pub const fn split(number: u64) -> [u32; 2] {
    [number as u32, (number >> 32) as u32]
}

pub const fn joined(low: u32, high: u32) -> u64 {
    low as u64 | (high as u64) << 32
}

impl Field<u32> for u64 {
    fn take(words: &mut Iter<u32>) -> Self {
        let (low, high) = (u32::take(words), u32::take(words));
        joined(low, high)
    }

    fn put(self, words: &mut IterMut<u32>) {
        for word in split(self) {
            word.put(words);
        }
    }
}

impl<const N: usize> Field<f32> for [f32; N] {
    fn take(words: &mut Iter<f32>) -> Self {
        core::array::from_fn(|_| f32::take(words))
    }

    fn put(self, words: &mut IterMut<f32>) {
        for field in self {
            field.put(words);
        }
    }
}

/// `laid! { Raw of Whole: numbers; counts }` makes `of` and `build` of a learner: its record has the
/// fields of `Raw` in this order.
macro_rules! laid {
    ($raw:ident of $whole:ident: $($number:ident)*; $($count:ident)*) => {
        type Whole = $whole;

        #[allow(unused_mut, unused_variables)]
        fn of(whole: &$whole) -> Record {
            let raw = $raw::of(whole);
            let mut record = BLANK;
            let (mut numbers, mut counts) = (record.numbers.iter_mut(), record.counts.iter_mut());
            $(raw.$number.put(&mut numbers);)*
            $(raw.$count.put(&mut counts);)*
            record
        }

        #[allow(unused_mut, unused_variables)]
        fn build(record: &Record) -> $whole {
            let (mut numbers, mut counts) = (record.numbers.iter(), record.counts.iter());
            $raw {
                $($number: Field::take(&mut numbers),)*
                $($count: Field::take(&mut counts),)*
            }
            .build()
        }
    };
}
