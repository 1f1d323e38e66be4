//! Days that differ in one place: an entry that the end reached would not have written, put in or put in the place of
//! one that it wrote.

use crate::answer::Problem;
use crate::apdu::{self, Outgoing};
use crate::cases;
use crate::code::{Asked, Code};
use crate::days::{Logged, RECEIVED};
use crate::generate::{live, Generator};
use crate::indefinite as named;
use crate::model::OperationRow;
use crate::names::{self, Wanted};
use crate::octets::{self, CLOSING};
use crate::state::{Record, State};
use crate::values::{self, element, element_in_form, indefinite};

/// Puts in an entry that differs, if the state reached and the last entry allow it; whether the day then goes on.
pub(crate) type Slip = fn(&mut Generator<'_>) -> Option<bool>;

/// What is put in, the way in which it differs, and how it is done.
pub(crate) const SLIPS: &[(&str, &str, Slip)] = &[
    ("an invoke of an unknown operation", "invoke refused 4", |end| {
        let (id, code) = (end.free(true), end.unknown_code());
        end.put(Outgoing::Invoke { id, linked: None, code: code.asked(), value: &[] })
    }),
    ("an invoke with a live id", "invoke refused 5", |end| {
        let Record { id, .. } = live(&mut end.random, &end.drive.state.own)?;
        end.put_invoke(id, None)
    }),
    ("an invoke with a resting id", "invoke refused 22", |end| {
        let id = end.resting_id()?;
        end.put_invoke(id, None)
    }),
    ("an invoke with a resting id beside a synchronous one", "invoke refused 22", |end| {
        let id = end.resting_id()?;
        end.is_blocked().then(|| end.put_invoke(id, None))?
    }),
    ("an invoke with a resting id after a late answer", "invoke refused 22", |end| {
        let (id, row) = (end.resting_id()?, end.random.pick(&end.model.operations)?);
        end.arrive_result(id, row);
        end.put_invoke(id, None)
    }),
    ("an invoke with the oldest of 64 resting ids", "invoke refused 22", |end| {
        end.forget_many(State::RESTING)?;
        let id = end.drive.state.resting.places[0];
        end.put_invoke(id, None)
    }),
    ("an invoke beside a synchronous one", "invoke refused 6", |end| {
        let id = end.free(true);
        end.is_blocked().then(|| end.put_invoke(id, None))?
    }),
    ("an invoke linked to no invocation", "invoke refused 7", |end| {
        let (id, linked) = (end.free(true), end.free(false));
        (!end.is_blocked()).then(|| end.put_invoke(id, Some(linked)))?
    }),
    ("an invoke that is no child", "invoke refused 8", |end| {
        let (id, parent) = (end.free(true), live(&mut end.random, &end.drive.state.peer)?);
        (!end.is_blocked()).then(|| end.put_invoke(id, Some(parent.id)))?
    }),
    ("an invoke with a wrong value", "invoke refused 10", |end| {
        let (id, row) = (end.free(true), end.random.pick(&end.model.operations)?);
        let value = end.wrong_value(row.argument_rule());
        end.put(Outgoing::Invoke { id, linked: None, code: row.code.asked(), value: &value })
    }),
    ("an invoke beside 32 own records", "invoke refused 14", |end| {
        let row = end.random.pick_where(&end.model.operations, |row| matches!(row.class, 2..=4))?;
        for _ in 0..3 * State::RECORDS {
            let id = end.free(true);
            end.ask(id, row);
        }
        let (id, value) = (end.free(true), end.value(row.argument_rule()));
        let full = end.drive.state.own.is_full();
        full.then(|| end.put(Outgoing::Invoke { id, linked: None, code: row.code.asked(), value: &value }))?
    }),
    ("a result of no invocation", "result refused 11", |end| {
        let id = end.free(false);
        end.put(Outgoing::Result { id, code: Asked::Local(0), value: &[] })
    }),
    ("a result of a class that has none", "result refused 12", |end| {
        let (id, row) = end.invoked(|row| row.class == 3)?;
        end.put(Outgoing::Result { id, code: row.code.asked(), value: &[] })
    }),
    ("a result with a wrong value", "result refused 10", |end| {
        let (id, row) = end.invoked(|row| row.class != 3)?;
        let value = end.wrong_value(row.result_rule());
        end.put(Outgoing::Result { id, code: row.code.asked(), value: &value })
    }),
    ("a result that its own code makes too long", "result refused 15", |end| {
        let large = |row: &OperationRow| matches!(row.result, 0x04 | 0x30 | 0xA0 | 0x80) && !is_short(row.code);
        let (id, row) = end.invoked(large)?;
        let around = Outgoing::Result { id, code: Asked::Local(0), value: &[0; 4000] }.octets() - 4000;
        let mut value = values::sized(State::OCTETS - around, false);
        value[0] = row.result;
        end.put(Outgoing::Result { id, code: Asked::Local(0), value: &value })
    }),
    ("an error of no invocation", "error refused 11", |end| {
        let (id, row) = (end.free(false), end.random.pick(&end.model.errors)?);
        end.put(Outgoing::Error { id, code: row.code.asked(), value: &[] })
    }),
    ("an error of a class that has none", "error refused 12", |end| {
        let ((id, _), error) = (end.invoked(|row| row.class == 4)?, end.random.pick(&end.model.errors)?);
        end.put(Outgoing::Error { id, code: error.code.asked(), value: &[] })
    }),
    ("an error that is not paired", "error refused 13", |end| {
        let (id, row) = end.invoked(|row| row.class != 4)?;
        let (index, _) = end.model.operation(row.code)?;
        let paired = |error: usize| end.model.error_pairs.contains(&(index as u16, error as u16));
        let unpaired: Vec<usize> = (0..end.model.errors.len()).filter(|error| !paired(*error)).collect();
        let error = end.model.errors[end.random.pick(&unpaired)?];
        let value = end.value(error.rule());
        end.put(Outgoing::Error { id, code: error.code.asked(), value: &value })
    }),
    ("an error that is not in the table", "error refused 13", |end| {
        let (id, _) = end.invoked(|row| row.class != 4)?;
        let code = end.unknown_error();
        end.put(Outgoing::Error { id, code: code.asked(), value: &[] })
    }),
    ("an error with a wrong value", "error refused 10", |end| {
        let (id, row) = end.invoked(|row| row.class != 4)?;
        let (code, rule) = end.error_code(row.code);
        let value = end.wrong_value(rule);
        end.put(Outgoing::Error { id, code: code.asked(), value: &value })
    }),
    ("a Reject with an invoke problem of the engine's", "user reject refused 16", |end| {
        let problem = Problem::Invoke([0, 1, 5, 6, 7][end.random.below(5)]);
        let Record { id, .. } = live(&mut end.random, &end.drive.state.peer)?;
        end.put(Outgoing::Reject { id: Some(id), problem })
    }),
    ("a user reject of no invocation", "user reject refused 11", |end| {
        let problem = Problem::Invoke(end.random.between(2, 4) as u8);
        let id = Some(end.free(false));
        end.put(Outgoing::Reject { id, problem })
    }),
    ("a forget of no own record", "forget of an own record refused 11", |end| {
        let id = end.free(true);
        end.put_entry(Logged::forget(0, id))
    }),
    ("a forget of no peer record", "forget of a peer record refused 11", |end| {
        let id = end.free(false);
        end.put_entry(Logged::forget(1, id))
    }),
    ("a forget of an awaited answer", "forget of a peer record refused 12", |end| {
        let (id, _) = end.invoked(|row| row.class < 3)?;
        end.put_entry(Logged::forget(1, id))
    }),
    ("side 2 for an own record", "another side", |end| {
        let Record { id, .. } = live(&mut end.random, &end.drive.state.own)?;
        end.put_entry(Logged::forget(2, id))
    }),
    ("side 2 for a peer record", "another side", |end| {
        let (id, _) = end.invoked(|row| row.class > 2)?;
        end.put_entry(Logged::forget(2, id))
    }),
    ("side 3, 129 or 255 for a peer record", "another side", |end| {
        let ((id, _), side) = (end.invoked(|row| row.class > 2)?, [3, 129, 255][end.random.below(3)]);
        end.put_entry(Logged::forget(side, id))
    }),
    ("any other side for an own record", "another side", |end| {
        let Record { id, .. } = live(&mut end.random, &end.drive.state.own)?;
        let side = end.random.between(2, 255) as u8;
        end.put_entry(Logged::forget(side, id))
    }),
    ("sent octets that are not well formed", "not well formed", |end| {
        end.put_case(&[cases::MALFORMED, named::MALFORMED, named::MALFORMED_APDUS])
    }),
    ("a sent APDU cut short", "not well formed", |end| end.change_last(|octets| octets.truncate(octets.len() - 1))),
    ("a sent APDU with an octet behind it", "not well formed", |end| end.change_last(|octets| octets.push(0))),
    ("a sent APDU of indefinite length, not closed", "not well formed", |end| {
        end.change_last(|octets| octets[1] = 0x80)
    }),
    ("a sent APDU with closing octets behind it", "not well formed", |end| {
        end.change_last(|octets| octets.extend(CLOSING))
    }),
    ("a sent value without its closing octets", "not well formed", |end| {
        end.change_fields(apdu::INVOKE, |fields| {
            let value = fields.last_mut().filter(|value| octets::is_indefinite(value))?;
            value.truncate(value.len() - CLOSING.len());
            Some(())
        })
    }),
    ("a sent element that is no APDU", "another first octet", |end| {
        end.put_case(&[cases::UNRECOGNIZED, named::UNRECOGNIZED])
    }),
    ("a sent APDU with wrong fields", "wrong fields", |end| {
        end.put_case(&[cases::MISTYPED_WITH_ID, cases::MISTYPED_WITHOUT_ID, named::MISTYPED_WITH_ID])
    }),
    ("a sent Reject with wrong fields", "wrong fields", |end| end.put_case(&[cases::UNACCEPTABLE_REJECTS])),
    ("an invoke with a name over 16 octets", "name over 16 octets", |end| {
        let contents = names::long(&mut end.random, end.model.names());
        end.put_code(0xA1, 0x06, &contents)
    }),
    ("an error with a name over 16 octets", "name over 16 octets", |end| {
        let contents = names::long(&mut end.random, end.model.names());
        end.put_code(0xA3, 0x06, &contents)
    }),
    ("an invoke of a name that no operation has", "invoke refused 4", |end| {
        let id = end.free(true);
        let code = names::other(&mut end.random, end.model.names());
        end.put(Outgoing::Invoke { id, linked: None, code: Code::Name(code).asked(), value: &[] })
    }),
    ("an invoke of an operation's name with another length", "invoke refused 4", |end| {
        let codes: Vec<Code> = end.model.operations.iter().map(|row| row.code).collect();
        let code = end.random.pick_where(&codes, is_name).and_then(names::of_another_length)?;
        let (id, unknown) = (end.free(true), code.is_right() && !codes.contains(&code));
        unknown.then(|| end.put(Outgoing::Invoke { id, linked: None, code: code.asked(), value: &[] }))?
    }),
    ("an error of a name that is not in the table", "error refused 13", |end| {
        let (id, _) = end.invoked(|row| row.class != 4)?;
        let code = names::other(&mut end.random, end.model.names());
        end.put(Outgoing::Error { id, code: Code::Name(code).asked(), value: &[] })
    }),
    ("an invoke with its name in long form", "invoke with other octets", |end| end.lengthen_name(apdu::INVOKE)),
    ("an error with its name in long form", "error with other octets", |end| end.lengthen_name(apdu::ERROR)),
    ("a result with another name", "result with other octets", |end| {
        let name = names::other(&mut end.random, end.model.names());
        let code = Wanted::from(Code::Name(name)).element(&mut end.random);
        end.change_result(|_| code)
    }),
    ("an invoke with a code over four octets", "code over four octets", |end| end.put_code(0xA1, 0x02, &LONG)),
    ("an error with a code over four octets", "code over four octets", |end| end.put_code(0xA3, 0x02, &LONG)),
    ("a sent Reject with a general problem", "Reject 80", |end| end.put_reject(Problem::General, 3)),
    ("a sent Reject with 05 00", "Reject with 05 00", |end| {
        let problem = Problem::General(end.random.below(3) as u8);
        end.put(Outgoing::Reject { id: None, problem })
    }),
    ("a sent Reject with a result problem", "Reject 82", |end| end.put_reject(Problem::Result, 3)),
    ("a sent Reject with an error problem", "Reject 83", |end| end.put_reject(Problem::Error, 5)),
    ("an invoke in long form", "invoke with other octets", |end| end.lengthen(apdu::INVOKE)),
    ("a result in long form", "result with other octets", |end| end.lengthen(apdu::RESULT)),
    ("an error in long form", "error with other octets", |end| end.lengthen(apdu::ERROR)),
    ("a user reject in long form", "user reject with other octets", |end| end.lengthen(apdu::REJECT)),
    ("an invoke of indefinite length", "invoke with other octets", |end| end.unmeasure(apdu::INVOKE)),
    ("a result of indefinite length", "result with other octets", |end| end.unmeasure(apdu::RESULT)),
    ("an error of indefinite length", "error with other octets", |end| end.unmeasure(apdu::ERROR)),
    ("a user reject of indefinite length", "user reject with other octets", |end| end.unmeasure(apdu::REJECT)),
    ("a result with an indefinite 30", "result with other octets", |end| {
        end.change_fields(apdu::RESULT, |fields| {
            let sequence = fields.get_mut(1)?;
            *sequence = indefinite(0x30, octets::split(sequence, State::LEVELS)?.0.contents());
            Some(())
        })
    }),
    ("an invoke with 81 00", "invoke with other octets", |end| {
        end.change_fields(apdu::INVOKE, |fields| {
            let unlinked = fields.get(1).is_some_and(|field| field[0] == 0x02);
            unlinked.then(|| fields.insert(1, vec![0x81, 0x00]))
        })
    }),
    ("a result with any other code", "result with other octets", |end| {
        let code = end.unlisted_code();
        let code = Wanted::from(code).element(&mut end.random);
        end.change_result(|_| code)
    }),
    ("a result with another code of as many octets", "result with other octets", |end| {
        end.change_result(|code| [&code[..code.len() - 1], &[code[code.len() - 1] ^ 1]].concat())
    }),
    ("a result with a 06 code", "result with other octets", |end| {
        end.change_result(|code| [&[0x06], &code[1..]].concat())
    }),
    ("a result with a code over four octets", "result with other octets", |end| {
        end.change_result(|_| element(0x02, &LONG))
    }),
    ("a Reject missing at the end", "Reject missing at the end", |end| {
        end.awaited()?;
        end.entries().pop();
        Some(false)
    }),
    ("a Reject said to be received", "Reject awaited, entry not sent", |end| {
        end.awaited()?.kind = RECEIVED;
        Some(true)
    }),
    ("a forget in the place of a Reject", "Reject awaited, entry not sent", |end| {
        *end.awaited()? = Logged::forget(0, 5);
        Some(true)
    }),
    ("a received Reject before the awaited one", "Reject awaited, entry not sent", |end| {
        let again = Logged { kind: RECEIVED, ..end.awaited()?.clone() };
        end.put_before_last(again)
    }),
    ("a forget before the awaited Reject", "Reject awaited, entry not sent", |end| {
        end.awaited()?;
        let id = live(&mut end.random, &end.drive.state.own).map_or(1, |record| record.id);
        end.put_before_last(Logged::forget(0, id))
    }),
    ("another problem in a Reject", "Reject awaited, other octets", |end| {
        *end.awaited()?.octets.last_mut()? ^= 1;
        Some(true)
    }),
    ("a Reject in long form", "Reject awaited, other octets", |end| {
        let reject = end.awaited()?;
        reject.octets = element_in_form(apdu::REJECT, &reject.octets[2..], 1);
        Some(true)
    }),
    ("a Reject of indefinite length", "Reject awaited, other octets", |end| {
        let reject = end.awaited()?;
        reject.octets = indefinite(apdu::REJECT, &reject.octets[2..]);
        Some(true)
    }),
    ("a Reject and an octet behind it", "Reject awaited, other octets", |end| {
        end.awaited()?.octets.push(0);
        Some(true)
    }),
    ("a Reject cut short", "Reject awaited, other octets", |end| end.awaited()?.octets.pop().map(|_| true)),
    ("a request before the awaited Reject", "Reject awaited, other octets", |end| {
        end.awaited()?;
        let request = end.entries().iter().rfind(|entry| entry.is_request())?.clone();
        end.put_before_last(request)
    }),
];

/// A number of five octets.
const LONG: [u8; 5] = [0x01, 0x00, 0x00, 0x00, 0x07];

fn is_name(code: &Code) -> bool {
    matches!(code, Code::Name(_))
}

/// Whether a code takes no more octets than 0 does.
fn is_short(code: Code) -> bool {
    matches!(code, Code::Local(-128..=127))
}
