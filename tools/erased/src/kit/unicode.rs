//! Properties of characters, as in the kit's crate unicode.

use super::unicode_table::CLASSES;

/// Returns a field of the class of a character: the bits from `first` on, as many as `count`.
fn field(c: char, first: u32, count: u32) -> u32 {
    let at = CLASSES.partition_point(|class| class >> 11 <= u32::from(c));
    CLASSES[at] >> first & ((1 << count) - 1)
}

/// Returns the number of columns that a character takes in a terminal by itself.
pub(super) fn width(c: char) -> u32 {
    field(c, 7, 2)
}

/// Returns whether a modifier of the skin tone can follow a character.
pub(super) fn is_modifier_base(c: char) -> bool {
    field(c, 9, 1) == 1
}

pub mod properties {
    use super::field;

    /// Returns whether a character is not shown if a font does not support it.
    pub fn is_default_ignorable_code_point(c: char) -> bool {
        field(c, 6, 1) == 1
    }

    /// The group of a general category.
    #[derive(Clone, Copy, PartialEq, Eq)]
    pub enum GeneralCategoryGroup {
        Other,
        Letter,
        Number,
        Punctuation,
        Symbol,
    }

    impl GeneralCategoryGroup {
        pub fn contains(self, category: GeneralCategory) -> bool {
            self == category.0
        }
    }

    /// A general category, of which only the group is known.
    #[derive(Clone, Copy)]
    pub struct GeneralCategory(GeneralCategoryGroup);

    impl GeneralCategory {
        pub fn for_char(c: char) -> Self {
            GeneralCategory(match field(c, 0, 3) {
                1 => GeneralCategoryGroup::Letter,
                2 => GeneralCategoryGroup::Number,
                3 => GeneralCategoryGroup::Punctuation,
                4 => GeneralCategoryGroup::Symbol,
                _ => GeneralCategoryGroup::Other,
            })
        }
    }

    /// A class of directions of writing. `Other` is any one that the sources do not name.
    pub enum BidiClass {
        Other,
        LeftToRight,
        EuropeanNumber,
        EuropeanSeparator,
        EuropeanTerminator,
        CommonSeparator,
        OtherNeutral,
    }

    impl BidiClass {
        pub fn for_char(c: char) -> Self {
            match field(c, 3, 3) {
                1 => BidiClass::LeftToRight,
                2 => BidiClass::EuropeanNumber,
                3 => BidiClass::EuropeanSeparator,
                4 => BidiClass::EuropeanTerminator,
                5 => BidiClass::CommonSeparator,
                6 => BidiClass::OtherNeutral,
                _ => BidiClass::Other,
            }
        }
    }
}
