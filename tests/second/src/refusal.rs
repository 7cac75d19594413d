//! A refusal: its number in document 01's table, and its place.

#[derive(Clone, Copy, Debug, PartialEq, Eq)]
pub struct Refusal {
    pub number: u8,
    pub place: u32,
}

/// A refusal at the place that holds "unless stated".
pub fn refuse<T>(number: u8) -> Result<T, Refusal> {
    refuse_at(number, 0)
}

pub fn refuse_at<T>(number: u8, place: usize) -> Result<T, Refusal> {
    Err(Refusal { number, place: place as u32 })
}
