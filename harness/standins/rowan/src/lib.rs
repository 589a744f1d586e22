//! Stands in for rowan: offsets and ranges of text, nothing of its trees.

/// An offset or a length in bytes.
#[derive(Clone, Copy, PartialEq, Eq, PartialOrd, Ord, Hash, Default)]
pub struct TextSize(u32);

/// A range from one offset to another that is not smaller.
#[derive(Clone, Copy, PartialEq, Eq, Hash)]
pub struct TextRange {
    start: TextSize,
    end: TextSize,
}

impl From<u32> for TextSize {
    fn from(value: u32) -> Self {
        TextSize(value)
    }
}

impl From<TextSize> for u32 {
    fn from(value: TextSize) -> Self {
        value.0
    }
}

impl From<TextSize> for usize {
    fn from(value: TextSize) -> Self {
        value.0 as usize
    }
}

impl TryFrom<usize> for TextSize {
    type Error = std::num::TryFromIntError;

    fn try_from(value: usize) -> Result<Self, Self::Error> {
        Ok(TextSize(u32::try_from(value)?))
    }
}

impl std::fmt::Debug for TextSize {
    fn fmt(&self, f: &mut std::fmt::Formatter<'_>) -> std::fmt::Result {
        self.0.fmt(f)
    }
}

impl TextRange {
    pub fn new(start: TextSize, end: TextSize) -> Self {
        assert!(start <= end);
        TextRange { start, end }
    }

    pub fn at(offset: TextSize, len: TextSize) -> Self {
        TextRange::new(offset, TextSize(offset.0 + len.0))
    }

    pub fn start(self) -> TextSize {
        self.start
    }

    pub fn end(self) -> TextSize {
        self.end
    }

    pub fn len(self) -> TextSize {
        TextSize(self.end.0 - self.start.0)
    }
}
