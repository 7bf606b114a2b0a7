//! Forms of JSON: objects of exactly some members, objects of one member that names a variant, and
//! numbers within limits. A form that is not there is refused, and so is an array in an object's place.

use serde::de::{Deserialize, Deserializer, Error};

/// A number from `LEAST` to `MOST`, written in digits alone.
pub struct Number<T, const LEAST: u64, const MOST: u64>(pub T);

pub type Version = Number<u64, 0, { (1 << 62) - 1 }>;
pub type Stamp = Number<u64, 0, { (1 << 40) - 1 }>;
pub type Epoch = Number<u64, 256, { (1 << 48) - 1 }>;
pub type Request = Number<u64, 1, { (1 << 62) - 1 }>;
pub type Step = Number<u64, 1, 1_000_000>;
pub type Count = Number<u8, 1, 16>;
pub type Most = Number<u8, 1, 100>;
pub type Byte = Number<u8, 0, 255>;
/// The number of a log or a proxy, of a cell, of a tag.
pub type Place = Number<u8, 0, 15>;
pub type CellPlace = Number<u8, 0, 8>;
pub type Tag = Number<u8, 0, 31>;

macro_rules! number {
    ($($T:ty),*) => {$(
        impl<'de, const LEAST: u64, const MOST: u64> Deserialize<'de> for Number<$T, LEAST, MOST> {
            fn deserialize<D: Deserializer<'de>>(deserializer: D) -> Result<Self, D::Error> {
                let number = u64::deserialize(deserializer)?;
                if !(LEAST..=MOST).contains(&number) {
                    return Err(D::Error::custom(format_args!("{number} is beyond its limits")));
                }
                Ok(Number(number as $T))
            }
        }

        impl<const LEAST: u64, const MOST: u64> From<Number<$T, LEAST, MOST>> for $T {
            fn from(number: Number<$T, LEAST, MOST>) -> $T {
                number.0
            }
        }
    )*};
}

number!(u8, u64);

/// A ballot: 0, or of a round from 1 on.
pub struct Ballot(u64);

impl<'de> Deserialize<'de> for Ballot {
    fn deserialize<D: Deserializer<'de>>(deserializer: D) -> Result<Self, D::Error> {
        let number = u64::deserialize(deserializer)?;
        Ballot::new(number).ok_or_else(|| D::Error::custom(format_args!("{number} is no ballot")))
    }
}

impl Ballot {
    pub fn new(number: u64) -> Option<Self> {
        (number == 0 || (256..1 << 48).contains(&number)).then_some(Ballot(number))
    }
}

impl From<Ballot> for u64 {
    fn from(ballot: Ballot) -> u64 {
        ballot.0
    }
}

/// A struct that is read from an object with exactly its members. `name: Type as Form` reads a `Form`,
/// which turns into the `Type`. Members behind `maybe` need not be there.
macro_rules! object {
    (
        $(#[$meta:meta])*
        $Name:ident { $($field:ident: $Type:ty as $Form:ty),* $(,)? }
        $(maybe { $($option:ident: $Option:ty as $OptionForm:ty),* $(,)? })?
    ) => {
        $(#[$meta])*
        pub struct $Name {
            $(pub $field: $Type,)*
            $($(pub $option: Option<$Option>,)*)?
        }

        impl<'de> serde::de::Deserialize<'de> for $Name {
            fn deserialize<D: serde::de::Deserializer<'de>>(deserializer: D) -> Result<Self, D::Error> {
                struct Object;

                impl<'de> serde::de::Visitor<'de> for Object {
                    type Value = $Name;

                    fn expecting(&self, f: &mut std::fmt::Formatter) -> std::fmt::Result {
                        f.write_str(concat!("an object that is a ", stringify!($Name)))
                    }

                    // An object without members uses neither.
                    #[allow(unused_imports, unused_variables)]
                    fn visit_map<A: serde::de::MapAccess<'de>>(self, mut map: A) -> Result<$Name, A::Error> {
                        use serde::de::Error;
                        const NAMES: &[&str] = &[$(stringify!($field),)* $($(stringify!($option),)*)?];
                        $(let mut $field: Option<$Form> = None;)*
                        $($(let mut $option: Option<$OptionForm> = None;)*)?
                        while let Some(place) = map.next_key_seed($crate::script::Name(NAMES))? {
                            $(if NAMES[place] == stringify!($field) {
                                if $field.replace(map.next_value()?).is_some() {
                                    return Err(A::Error::duplicate_field(NAMES[place]));
                                }
                                continue;
                            })*
                            $($(if NAMES[place] == stringify!($option) {
                                if $option.replace(map.next_value()?).is_some() {
                                    return Err(A::Error::duplicate_field(NAMES[place]));
                                }
                                continue;
                            })*)?
                        }
                        Ok($Name {
                            $($field: $field.ok_or_else(|| A::Error::missing_field(stringify!($field)))?.into(),)*
                            $($($option: $option.map(|form| form.into()),)*)?
                        })
                    }
                }

                deserializer.deserialize_map(Object)
            }
        }

        $crate::quick::quick_object! { $Name { $($field: $Form),* } { $($($option: $OptionForm),*)? } }
    };
}

/// An enum that is read from an object of one member, which names the variant: from the form of its
/// content a value is made, or none where that is refused.
macro_rules! variants {
    ($Name:ident { $($name:literal: $Form:ty => $make:expr),* $(,)? }) => {
        impl<'de> serde::de::Deserialize<'de> for $Name {
            fn deserialize<D: serde::de::Deserializer<'de>>(deserializer: D) -> Result<Self, D::Error> {
                struct Variants;

                impl<'de> serde::de::Visitor<'de> for Variants {
                    type Value = $Name;

                    fn expecting(&self, f: &mut std::fmt::Formatter) -> std::fmt::Result {
                        f.write_str(concat!("an object of one member that is a ", stringify!($Name)))
                    }

                    fn visit_map<A: serde::de::MapAccess<'de>>(self, mut map: A) -> Result<$Name, A::Error> {
                        use serde::de::Error;
                        const NAMES: &[&str] = &[$($name),*];
                        let place = map.next_key_seed($crate::script::Name(NAMES))?;
                        let name = NAMES[place.ok_or_else(|| A::Error::custom("no member"))?];
                        $(if name == $name {
                            let make: fn($Form) -> Option<$Name> = $make;
                            let made = make(map.next_value()?);
                            let made = made.ok_or_else(|| A::Error::custom(concat!("no ", $name)))?;
                            $crate::script::end(&mut map)?;
                            return Ok(made);
                        })*
                        unreachable!("a name is one of the list")
                    }
                }

                deserializer.deserialize_map(Variants)
            }
        }

        $crate::quick::quick_variants! { $Name { $($name: $Form => $make),* } }
    };
}

pub(crate) use {object, variants};

object! {
    /// An object without members.
    Empty {}
}
