//! Where octets that are to be one element are first at fault.
//! Follows docs/RULES.md, "Where octets are at fault", and its readings. Octets without a fault need not come here.

use crate::octets::{self, Header, Length, CLOSING};

/// The place of the first fault, counted from 0, where at most `most` levels are allowed; 0 too if there is none.
pub fn place(octets: &[u8], most: usize) -> usize {
    match element(octets, 0, most) {
        Ok(end) if end == octets.len() => 0,
        Ok(place) | Err(place) => place,
    }
}

/// Walks over the element at a place: where it ends, or the place of its first fault.
/// The octets end where the contents around it end.
fn element(octets: &[u8], at: usize, most: usize) -> Result<usize, usize> {
    let (identifier, start, end) = own_rules(octets, at, most).ok_or(at)?;
    match end {
        Some(end) if octets::is_constructed(identifier) => elements(&octets[..end], start, most - 1).map(|()| end),
        Some(end) => Ok(end),
        None => open_elements(octets, start, most - 1)?.ok_or(at),
    }
}

/// The first identifier octet of an element that keeps the rules of its own, and where its contents start and end;
/// no end if closing octets are to end them.
fn own_rules(octets: &[u8], at: usize, most: usize) -> Option<(u8, usize, Option<usize>)> {
    let Header { identifier, length, behind } = octets::header(&octets[at..])?;
    let (start, constructed) = (octets.len() - behind.len(), octets::is_constructed(identifier));
    let (end, right) = match length {
        Length::Definite(length) => {
            let contents = behind.get(..length)?;
            (Some(start + length), constructed || octets::is_right(identifier, contents))
        }
        Length::Indefinite => (None, constructed),
    };
    (most > 0 && right && !octets::is_refused(identifier)).then_some((identifier, start, end))
}

/// Walks over elements that fill the octets from a place on.
fn elements(octets: &[u8], mut at: usize, most: usize) -> Result<(), usize> {
    while at < octets.len() {
        at = element(octets, at, most)?;
    }
    Ok(())
}

/// Walks over elements up to closing octets: the place behind those, none if the octets end without them.
fn open_elements(octets: &[u8], mut at: usize, most: usize) -> Result<Option<usize>, usize> {
    while at < octets.len() {
        if octets[at..].starts_with(&CLOSING) {
            return Ok(Some(at + CLOSING.len()));
        }
        at = element(octets, at, most)?;
    }
    Ok(None)
}
