use crate::refusal::checked;
use crate::{exact, room, Refusal};

/// The most lines of a sheet that is handed to a call.
pub const MOST_LINES: usize = 1_024;
/// The most bytes of a sheet that is handed to a call.
pub const LONGEST_SHEET: usize = 65_536;

/// Respells a sheet: writes each line with the normal text of its address, and with its own volume
/// and pH.
///
/// A line is the strict text of an address of either family, a comma, a volume number from 1 to
/// 999,999, a comma, a pH in hundredths from 0 to 1400, and a newline. The numbers have no leading
/// zero, except `0` itself. An empty sheet stays empty.
///
/// Where `sorted` is true, whole lines are sorted by address, IPv4 before IPv6, and lines with equal
/// addresses stay in their order. Otherwise all lines stay in their order.
///
/// Refusals: [`TextTooLong`](Refusal::TextTooLong) for more than 65,536 bytes,
/// [`TooMany`](Refusal::TooMany) for more than 1,024 lines, a last one without its newline counted
/// too, and [`Malformed`](Refusal::Malformed) where a line is not of that form, as that last one is
/// not.
///
/// A call takes up to about 87 KiB of stack, and as much for a short sheet.
///
/// ```
/// use nibharrow::{respell, Refusal};
///
/// let sheet = "2001:DB8::0:1,31,702\n10.0.0.12,7,650\n2001:db8:0:0::1,30,698\n";
/// let sorted = respell(sheet, true)?;
/// assert_eq!(sorted, b"10.0.0.12,7,650\n2001:db8::1,31,702\n2001:db8::1,30,698\n");
/// let unsorted = respell(sheet, false)?;
/// assert_eq!(unsorted, b"2001:db8::1,31,702\n10.0.0.12,7,650\n2001:db8::1,30,698\n");
///
/// assert_eq!(respell("", true), Ok(vec![]));
/// assert_eq!(respell("10.0.0.12,7,650", true), Err(Refusal::Malformed));
/// assert_eq!(respell("10.0.0.12,07,650\n", true), Err(Refusal::Malformed));
/// # Ok::<(), Refusal>(())
/// ```
pub fn respell(sheet: impl AsRef<[u8]>, sorted: bool) -> Result<Vec<u8>, Refusal> {
    let sheet = sheet.as_ref();
    // A line without its newline is refused, and so are more lines; neither needs room.
    let lines = sheet.iter().filter(|byte| **byte == b'\n').count();
    let mut out = vec![0; room::sheet(lines.min(MOST_LINES))];
    let written = respell_into(sheet, sorted, &mut out)?.len();
    out.truncate(written);
    Ok(out)
}

/// Respells a sheet as [`respell`] does, and writes it to the start of `out`.
///
/// Refusals: those of [`respell`], and [`NoRoom`](Refusal::NoRoom), never for a buffer of
/// [`room::SHEET`] bytes or of 52 for each line.
///
/// ```
/// use nibharrow::{respell_into, Refusal};
///
/// let mut out = [0; 52];
/// assert_eq!(respell_into("::0:1,7,650\n", false, &mut out), Ok(&b"::1,7,650\n"[..]));
/// assert_eq!(respell_into("::0:1,7,650\n", false, &mut out[..9]), Err(Refusal::NoRoom));
/// ```
pub fn respell_into(
    sheet: impl AsRef<[u8]>,
    sorted: bool,
    out: &mut [u8],
) -> Result<&[u8], Refusal> {
    let written = checked(exact::respell(sheet.as_ref(), sorted.into(), out))?;
    Ok(&out[..written.bytes])
}
