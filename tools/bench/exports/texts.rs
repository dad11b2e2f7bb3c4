//! What every loop is given. The program and its loops share this file.

/// What an export returns for an error.
pub const ERROR: u64 = 0x8000_0000_0000_0001;

/// Where a slice begins in a text, and how long it is.
#[repr(C)]
pub struct Place {
    pub start: u32,
    pub length: u32,
}

/// A text and the places of its slices, all of which are in the text.
#[repr(C)]
pub struct Texts {
    pub text: *const u8,
    pub length: usize,
    pub places: *const Place,
    pub count: usize,
}

impl Texts {
    #[inline(always)]
    pub fn text(&self) -> &[u8] {
        // SAFETY: the text has this length.
        unsafe { std::slice::from_raw_parts(self.text, self.length) }
    }

    #[inline(always)]
    pub fn slices(&self) -> impl Iterator<Item = &[u8]> {
        // SAFETY: there are so many places.
        let places = unsafe { std::slice::from_raw_parts(self.places, self.count) };
        let text = self.text();
        places.iter().map(move |place| {
            let (start, end) = (place.start as usize, place.start as usize + place.length as usize);
            // SAFETY: each place is in the text. A check would be timed too.
            unsafe { text.get_unchecked(start..end) }
        })
    }
}
