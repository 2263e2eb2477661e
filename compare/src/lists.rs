//! The two calls on job lists: on a text, on a list in hand, and on the list that a plan has.

use reference::generate::{ListInput, Prng};
use reference::refusal::DONE;

use crate::both::{Both, Difference};
use crate::buffer::Buffer;
use crate::memory::{Listing, Memory};
use crate::shorts::too_few;
use crate::twist::twist_list;
use crate::words::{words_of_list, LIST_WORDS};
use crate::wrapper;

/// Imports a text, before that once into too few words, and exports the list that it leaves. Of a
/// text that is refused this is a list of zeros.
pub fn on_text(both: &mut Both, prng: &mut Prng, text: &[u8]) -> Result<(), Difference> {
    let mut text = Buffer::of("text", text, text.len());
    let mut listing = Listing::known(prng);
    listing.list.lend(too_few(prng, LIST_WORDS));
    both.import(&mut text, &mut listing)?;
    listing.lend_all();
    let number = both.import(&mut text, &mut listing)?;
    wrapper::import(both, &text, number, &listing)?;
    there_and_back(both, prng, &mut listing)
}

/// Exports a list whose words may be twisted, at first into an output as it is lent with it.
pub fn on_list(both: &mut Both, prng: &mut Prng, input: &ListInput) -> Result<(), Difference> {
    let mut listing = Listing::known(prng);
    listing.list.put(0, &words_of_list(&input.list));
    twist_list(prng, &mut listing.list);
    listing.out.lend(input.output);
    both.export(&mut listing)?;
    listing.lend_all();
    there_and_back(both, prng, &mut listing)
}

/// Exports the jobs of the plan in memory: its words from the count on are their list.
pub fn of_plan(both: &mut Both, prng: &mut Prng, memory: &Memory) -> Result<(), Difference> {
    there_and_back(both, prng, &mut Listing::of_plan(&memory.plan))
}

/// Exports a list, also from too few words, into just enough room and into too little. Then its
/// text is imported to where the list stands.
fn there_and_back(
    both: &mut Both,
    prng: &mut Prng,
    listing: &mut Listing,
) -> Result<(), Difference> {
    listing.list.lend(too_few(prng, LIST_WORDS));
    both.export(listing)?;
    listing.lend_all();
    let number = both.export(listing)?;
    wrapper::export(both, number, listing)?;
    if number != u32::from(DONE) {
        return Ok(());
    }
    let exact = listing.written.contents()[0];
    let mut text = Buffer::of("text", &listing.out.contents()[..exact], exact);
    for room in [exact, too_few(prng, exact)] {
        listing.out.lend(room);
        both.export(listing)?;
    }
    listing.lend_all();
    both.import(&mut text, listing)?;
    Ok(())
}
