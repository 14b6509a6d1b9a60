//! Link traces: a line a packet that got through.
use crate::{ffi, Refusal};

/// Reads a link trace for so many slots, 1 to 3,600: the forecast it gives. A line is a time in
/// milliseconds and stands for 1,500 bytes.
///
/// # Errors
///
/// In this order: [`Refusal::Forecast`], [`Refusal::TraceLine`], [`Refusal::TraceSlot`]. The
/// first is that of the number of slots.
pub fn read_trace(trace: &[u8], slots: usize) -> Result<Vec<u32>, Refusal> {
    let mut forecast = vec![0; slots.min(crate::SLOTS)];
    let n = Refusal::settle(ffi::read_trace(trace, slots, &mut forecast))?;
    forecast.truncate(n);
    Ok(forecast)
}

/// Writes a forecast of 1 to 3,600 slots, all multiples of 1,500, as a trace.
///
/// # Errors
///
/// In this order: [`Refusal::Forecast`], [`Refusal::TraceSlot`]. The first is that of the
/// number of slots.
pub fn write_trace(forecast: &[u32]) -> Result<Vec<u8>, Refusal> {
    // So much as is written where nothing is refused; a line is a time and its line feed.
    let line = |j: usize| (j * 1000).to_string().len() + 1;
    let room = forecast.iter().take(crate::SLOTS).enumerate().map(|(j, b)| (b.min(&16_777_216) / 1500) as usize * line(j)).sum();
    let mut out = vec![0; room];
    let n = Refusal::settle(ffi::write_trace(forecast, &mut out))?;
    out.truncate(n);
    Ok(out)
}
