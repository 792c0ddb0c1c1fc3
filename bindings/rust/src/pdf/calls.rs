//! Choices as the proved calls take them, and what these answer.

use super::{Bounds, ClusterUnit, Codes, Direction, FontError, FontOptions, Order, Permission};
use super::{ProgramChoice, ProgramKind, Rights, RunDirection, TextError, Usage};
use crate::library::{refused, within};
use crate::proved::{pdf_font as proved, pdf_operators, pdf_runs};
use crate::Error;

// ---- choices

/// Six capitals of ASCII; none where one isn't.
pub(super) fn capitals(letters: &[u8; 6]) -> Option<[u8; 6]> {
    proved::SubsetTag::new(letters).map(|tag| tag.letters())
}

impl Codes {
    pub(super) fn chosen(self) -> proved::Codes {
        match self {
            Self::Consecutive => proved::Codes::Consecutive,
            Self::Source => proved::Codes::Source,
            Self::EachText => proved::Codes::EachText,
        }
    }
}

impl FontOptions {
    /// The options as the proved calls take them.
    pub(super) fn chosen(&self) -> proved::FontOptions {
        proved::FontOptions {
            limits: within(&self.limits),
            hinting: self.hinting,
            program: match self.program {
                ProgramChoice::Smallest => proved::ProgramChoice::Smallest,
                ProgramChoice::OpenType => proved::ProgramChoice::OpenType,
            },
            codes: self.codes.chosen(),
            direction: match self.direction {
                Direction::Horizontal => proved::Direction::Horizontal,
                Direction::Vertical => proved::Direction::Vertical,
            },
            bounds: match self.bounds {
                Bounds::Font => proved::Bounds::Font,
                Bounds::Kept => proved::Bounds::Kept,
            },
            cid_set: self.cid_set,
            tag: self
                .tag
                .and_then(|tag| proved::SubsetTag::new(tag.letters())),
            rights: match self.rights {
                Rights::FromFont => proved::Rights::AsSaid,
                Rights::Held => proved::Rights::Held,
            },
        }
    }
}

impl RunDirection {
    pub(super) fn chosen(self) -> pdf_runs::Direction {
        match self {
            Self::LeftToRight => pdf_runs::Direction::LeftToRight,
            Self::RightToLeft => pdf_runs::Direction::RightToLeft,
            Self::TopToBottom => pdf_runs::Direction::TopToBottom,
        }
    }
}

impl Order {
    pub(super) fn chosen(self) -> pdf_operators::Order {
        match self {
            Self::Visual => pdf_operators::Order::Visual,
            Self::Logical => pdf_operators::Order::Logical,
        }
    }
}

impl ClusterUnit {
    pub(super) fn chosen(self) -> pdf_runs::Unit {
        match self {
            Self::Utf8 => pdf_runs::Unit::Utf8,
            Self::Utf16 => pdf_runs::Unit::Utf16,
            Self::Utf32 => pdf_runs::Unit::Utf32,
        }
    }
}

// ---- answers

impl ProgramKind {
    pub(super) fn of(kind: proved::ProgramKind) -> Self {
        match kind {
            proved::ProgramKind::TrueType => Self::TrueType,
            proved::ProgramKind::BareCff => Self::BareCff,
            proved::ProgramKind::OpenType => Self::OpenType,
        }
    }
}

impl Permission {
    pub(super) fn of(permission: proved::Permission) -> Self {
        Self {
            usage: match permission.usage {
                proved::Usage::Unsaid => Usage::Unsaid,
                proved::Usage::Installable => Usage::Installable,
                proved::Usage::Editable => Usage::Editable,
                proved::Usage::PreviewAndPrint => Usage::PreviewAndPrint,
                proved::Usage::Restricted => Usage::Restricted,
            },
            subsetting: permission.subsetting,
            outlines: permission.outlines,
        }
    }
}

impl FontError {
    pub(crate) fn of(error: proved::FontError) -> Self {
        match error {
            proved::FontError::Subset(error) => Self::Subset(refused(error)),
            proved::FontError::NotPermitted(permission) => {
                Self::NotPermitted(Permission::of(permission))
            }
            proved::FontError::TextTooLong => Self::TextTooLong,
            proved::FontError::BitmapsAlone => Self::BitmapsAlone,
        }
    }
}

#[cfg(feature = "std")]
impl std::error::Error for FontError {
    fn source(&self) -> Option<&(dyn std::error::Error + 'static)> {
        match self {
            Self::Subset(error) => Some(error),
            Self::NotPermitted(_) | Self::TextTooLong | Self::NoCmap | Self::BitmapsAlone => None,
        }
    }
}

impl TextError {
    pub(super) fn of(error: pdf_runs::RunError) -> Self {
        match error {
            pdf_runs::RunError::InvalidText => Self::InvalidText,
            pdf_runs::RunError::Overfull => Self::Overfull,
            pdf_runs::RunError::OutOfMemory => Self::Subset(Error::OutOfMemory),
        }
    }
}

#[cfg(feature = "std")]
impl std::error::Error for TextError {
    fn source(&self) -> Option<&(dyn std::error::Error + 'static)> {
        match self {
            Self::Subset(error) => Some(error),
            Self::InvalidText | Self::Overfull => None,
        }
    }
}
