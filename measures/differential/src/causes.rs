//! The call that lists causes.

use crate::calls::{holds, same, sizes, Buffers, Checked};
use crate::expected::Expected;
use reference::causes::CAUSES_BUFFER;
use reference::draws::Draws;

pub fn check_causes(e: &Expected, draws: &mut Draws, b: &mut Buffers) -> Checked {
    let (listing, cut) = e.causes();
    for size in sizes(CAUSES_BUFFER, draws) {
        let (number, line) = e.listing_causes(size);
        let (listing, cut): (&[u8], bool) = match number {
            0 => (&listing, cut),
            _ => (&[], false),
        };
        let answer = library::causes(&e.bytes, b.causes.lend(size));
        let values = (answer.number, answer.line, answer.length, answer.cut);
        same("causes", values, (number, line, listing.len(), cut))?;
        holds("causes", &mut b.causes, listing)?;
    }
    Ok(())
}
