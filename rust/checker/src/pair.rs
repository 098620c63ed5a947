//! Two kernels over one set of common cells (item 12). Each is run by itself, in
//! memory of its own, so that its report depends on nothing of the other's.

use crate::common::Common;
use crate::file::{parse_and_decode, parse_common};
use crate::limits::{number, Refusal, INTERVAL_WORDS, LENT_LOG, PAIR_ROOM};
use crate::report::{write_report, Subject};
use crate::run_file;

/// Writes the filter's report to the start of `out` and the trigger's right
/// behind it, and gives the length of both. A kernel file that is refused has
/// the report of its own refusal; otherwise a common file that is refused has 37
/// for it. Refusal 24 alone is given back, before anything else, and changes
/// nothing.
pub fn pair_files(
    filter: &[u8],
    trigger: &[u8],
    common: &[u8],
    out: &mut [u8],
) -> Result<usize, Refusal> {
    Refusal::unless(out.len() >= PAIR_ROOM, number::FILE_OUTPUT, 0)?;
    let common = parse_common(common);
    let common = common.as_deref().map_err(|&refusal| refusal);
    let behind_filter = write_kernel(filter, common, out)?;
    let behind_trigger = write_kernel(trigger, common, &mut out[behind_filter..])?;
    Ok(behind_filter + behind_trigger)
}

/// One kernel's report. Half of the room is enough for any.
fn write_kernel(
    file: &[u8],
    common: Result<&[u32], Refusal>,
    out: &mut [u8],
) -> Result<usize, Refusal> {
    // The kernel's own input is looked at before the common file.
    let accepted = parse_and_decode(file).and_then(|kernel| Ok((kernel, Common(common?))));
    match accepted {
        Ok(((mut launch, program), common)) => {
            let (mut log, mut list) = (vec![0; LENT_LOG], vec![0; INTERVAL_WORDS]);
            run_file(&mut launch, &program, common, &mut log, &mut list, out)
        }
        Err(refusal) => write_report(Subject::Refused(refusal), &[], &[], &[], out),
    }
}
