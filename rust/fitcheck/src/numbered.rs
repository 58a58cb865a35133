//! Enums that the documents number from 0, each case with a name.

macro_rules! numbered {
    (
        $(#[$about:meta])*
        $enum:ident { $($(#[$about_case:meta])* $case:ident = $name:literal,)+ }
    ) => {
        $(#[$about])*
        #[non_exhaustive]
        #[derive(Debug, Clone, Copy, PartialEq, Eq, PartialOrd, Ord, Hash)]
        pub enum $enum {
            $(
                $(#[$about_case])*
                #[doc = concat!("Named `", $name, "`.")]
                $case,
            )+
        }

        impl $enum {
            /// Every case, in the order of the numbers.
            pub const ALL: &'static [$enum] = &[$($enum::$case,)+];

            /// The documents' number, from 0.
            pub fn number(self) -> u8 {
                self as u8
            }

            /// The case of a number, if there is one.
            pub fn from_number(number: u8) -> Option<$enum> {
                Self::ALL.get(usize::from(number)).copied()
            }

            /// The name.
            pub fn name(self) -> &'static str {
                match self {
                    $($enum::$case => $name,)+
                }
            }

            /// The case of a name, if there is one.
            pub fn from_name(name: &str) -> Option<$enum> {
                match name {
                    $($name => Some($enum::$case),)+
                    _ => None,
                }
            }
        }

        impl std::fmt::Display for $enum {
            fn fmt(&self, formatter: &mut std::fmt::Formatter<'_>) -> std::fmt::Result {
                formatter.pad(self.name())
            }
        }
    };
}

pub(crate) use numbered;

#[cfg(test)]
mod tests {
    use crate::{Attribute, GroupLimit, Mark, Reader, Resource, SlotKind, SlotType, State};

    #[test]
    fn there_are_as_many_as_document_01_says() {
        assert_eq!(Attribute::ALL.len(), 88, "names 0 to 87");
        assert_eq!(Mark::ALL.len(), 9, "0 other, 1 to 8");
        assert_eq!(SlotType::ALL.len(), 12, "slot kinds 0 to 11");
        assert_eq!(State::ALL.len(), 4, "states 0 to 3");
        assert_eq!(SlotKind::ALL.len(), 8, "six racks and two hardpoints");
        assert_eq!(
            Resource::ALL.len(),
            13,
            "ten loads, drones, cargo, charge capacity"
        );
        assert_eq!(GroupLimit::ALL.len(), 3, "names 72 to 74");
        let readers = Reader::ALL.iter().map(|reader| reader.name());
        let readers: Vec<&str> = readers.collect();
        assert_eq!(readers, ["guest", "pilot", "officer"], "0, 1 and 2");
    }

    #[test]
    fn numbers_and_names_lead_back() {
        for attribute in Attribute::ALL {
            assert_eq!(Attribute::from_number(attribute.number()), Some(*attribute));
            assert_eq!(Attribute::from_name(attribute.name()), Some(*attribute));
        }
        assert_eq!(Attribute::from_number(88), None);
        assert_eq!(Attribute::from_name("cpuoutput"), None);
        assert_eq!(State::from_number(4), None);
    }
}
