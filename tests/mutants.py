#!/usr/bin/env python3
"""Changes the second program in one place at a time and shows that `second compare` or `second replays` finds each change.

Prints a table of place, change, where compare found it, and whether `second ends` found it too, a table of place, change and
where replays found it, and a table of changes that the changed program's own `ends` finds. All others are run by the unchanged
program beside the changed one. Fails if a change is not found or no longer applies.
Use: python3 tests/mutants.py [WORD]   (WORD: only changes whose place or description contains it)
"""

import os
import pathlib
import re
import shutil
import subprocess
import sys
import tempfile

SECOND = pathlib.Path(__file__).resolve().parent / "second"
SEEDS, CALLS = "120", "2000"
ENDS_CALLS = "60000"
REPLAYS_SEED, REPLAYS_COUNT = "1", "400"

# File, what the change is, the text, the text in its place; a fifth item means that `ends` must find it too.
MUTANTS = [
    ("octets.rs", "identifier 2A allowed", " | 0x26 | 0x2A)", " | 0x26)"),
    ("octets.rs", "identifier 20 refused", "0x11 | 0x21 |", "0x11 | 0x20 | 0x21 |"),
    ("octets.rs", "high tag number 31 refused", "first >= 0x1F &&", "first > 0x1F &&"),
    ("octets.rs", "high tag of five more octets", "take(4)", "take(5)"),
    ("octets.rs", "length of five octets allowed", "0x81..=0x84 =>", "0x81..=0x85 =>"),
    ("octets.rs", "indefinite length taken for a length of 0", "0x80 => Some((Length::Indefinite, after)),", "0x80 => Some((Length::Definite(0), after)),"),
    ("octets.rs", "81 80 taken for an indefinite length", "            Some((Length::Definite(length), behind))\n",
     "            Some((if first == 0x81 && length == 0x80 { Length::Indefinite } else { Length::Definite(length) }, behind))\n"),
    ("octets.rs", "indefinite length on a primitive element", "Length::Indefinite if is_constructed(identifier) =>", "Length::Indefinite =>"),
    ("octets.rs", "indefinite length of high tags refused", "Length::Indefinite if is_constructed(identifier) =>", "Length::Indefinite if is_constructed(identifier) && identifier & 0x1F != 0x1F =>"),
    ("octets.rs", "indefinite length refused from level 4 on", "Length::Indefinite if is_constructed(identifier) =>", "Length::Indefinite if is_constructed(identifier) && most > 13 =>"),
    ("octets.rs", "level of an indefinite element counted twice", "open_contents_levels(behind, most - 1)?,", "open_contents_levels(behind, most.checked_sub(2)?)?,"),
    ("octets.rs", "indefinite contents end at the first 00 00 anywhere", "Length::Indefinite if is_constructed(identifier) => open_contents_levels(behind, most - 1)?,",
     "Length::Indefinite if is_constructed(identifier) => {\n            let at = behind.windows(2).position(|two| *two == CLOSING)?;\n            (contents_levels(&behind[..at], most - 1)?, &behind[at + 2..])\n        }"),
    ("octets.rs", "indefinite element closed behind its definite parent", "true => contents_levels(contents, most - 1)?,",
     "true => contents_levels(contents, most - 1).or_else(|| {\n                    contents_levels(behind.get(..length + 2).filter(|more| more.ends_with(&CLOSING))?, most - 1)\n                })?,"),
    ("octets.rs", "definite contents closed as indefinite ones are", "    while !octets.is_empty() {\n        let (element", "    while !octets.is_empty() && octets != CLOSING {\n        let (element"),
    ("octets.rs", "closing octets of indefinite contents are a level", "return Some((deepest, rest));", "return (most > 0).then_some((deepest.max(1), rest));"),
    ("octets.rs", "00 and any octet close indefinite contents", "if let Some(rest) = octets.strip_prefix(&CLOSING) {", "if let [0x00, _, rest @ ..] = octets {"),
    ("octets.rs", "a lone 00 at the end closes indefinite contents", "octets.strip_prefix(&CLOSING) {", "octets.strip_prefix(&CLOSING).or_else(|| (octets == [0x00]).then(|| &octets[1..])) {"),
    ("octets.rs", "the end of the octets closes indefinite contents", "octets.strip_prefix(&CLOSING) {", "octets.strip_prefix(&CLOSING).or_else(|| octets.is_empty().then_some(octets)) {"),
    ("octets.rs", "00 80 not shortest", "=> *second >= 0x80,", "=> *second > 0x80,"),
    ("octets.rs", "needless FF allowed", "=> *second < 0x80,", "=> *second <= 0x80,"),
    ("octets.rs", "05 with contents allowed", "0x05 => contents.is_empty(),", "0x05 => true,"),
    ("octets.rs", "06 parts starting with 80 allowed", "if at_start && octet == 0x80 {", "if false && octet == 0x80 {"),
    ("octets.rs", "06 without an end allowed", "at_start && !contents.is_empty()", "!contents.is_empty()"),
    ("octets.rs", "octets behind the element allowed", "(element, []) => Some(element.levels),", "(element, _) => Some(element.levels),"),
    ("octets.rs", "octets behind an indefinite element allowed", "        (element, []) => Some(element.levels),\n",
     "        (element, []) => Some(element.levels),\n        (element, _) if is_indefinite(octets) => Some(element.levels),\n"),
    ("state.rs", "17 levels allowed", "LEVELS: usize = 16;", "LEVELS: usize = 17;"),
    ("state.rs", "4,095 octets only", "OCTETS: usize = 4096;", "OCTETS: usize = 4095;"),
    ("state.rs", "4,097 octets allowed", "OCTETS: usize = 4096;", "OCTETS: usize = 4097;"),
    ("state.rs", "full at 31 records", ">= State::RECORDS\n", ">= State::RECORDS - 1\n"),
    ("state.rs", "retired place keeps its record", "        self.places[last] = Record::default();\n", "", "ends"),
    ("state.rs", "last record moves into the gap", "self.places.copy_within(at + 1..=last, at);",
     "self.places[at] = self.places[last];"),
    ("state.rs", "repeated ids sound", "            && !self.repeats_an_id()\n", ""),
    ("state.rs", "rubbish behind the count sound",
     "            && self.places[count..].iter().fold(0, |rubbish, place| rubbish | place.rubbish()) == 0\n", ""),
    ("state.rs", "peer side not checked", "self.own.is_sound() && self.peer.is_sound()", "self.own.is_sound()"),
    ("table.rs", "65 errors allowed", "[64, 64, 256, 256, 128]", "[64, 65, 256, 256, 128]"),
    ("table.rs", "255 child pairs only", "[64, 64, 256, 256, 128]", "[64, 64, 256, 255, 128]"),
    ("table.rs", "offsets not checked", "if count > MOST[part] || offset != starts[part] {", "let offset = starts[part];\n            if count > MOST[part] {"),
    ("table.rs", "flags that no edition has allowed", "                & (flags <= allowed)\n", ""),
    ("table.rs", "class 3 may have a result", "!matches!(class, 3 | 5)", "!matches!(class, 5)"),
    ("table.rs", "error pair of class 4 allowed", "!matches!(entry[4], 4 | 5)", "!matches!(entry[4], 5)"),
    ("table.rs", "class 5 parent allowed", "u64::from(entry[4] != 5) << index", "1 << index"),
    ("table.rs", "equal pairs allowed", "let rises = before < number;", "let rises = before <= number;"),
    ("table.rs", "pair index one too large", "(second < seconds)", "(second <= seconds)"),
    ("table.rs", "type 0 may be optional", " & (kind != 0 || optional == 0)", ""),
    ("table.rs", "no value always right", "None => self.kind == 0 || self.optional,", "None => true,"),
    ("table.rs", "any value right where one may stand", "self.kind != 0 && value.first() == Some(&self.kind)", "self.kind != 0"),
    ("table.rs", "last entry of a list never looked at", "    entries.binary_search_by_key(", "    entries.split_last()?.1.binary_search_by_key("),
    ("table.rs", "first entry of a list never looked at", "binary_search_by_key(&wanted, place).ok()\n}", "binary_search_by_key(&wanted, place).ok().filter(|index| *index > 0)\n}"),
    ("table.rs", "list of 64 errors searched as if it had 63", "index(self.errors, self", "index(&self.errors[..self.errors.len().min(63)], self"),
    ("table.rs", "codes of a list compared as unsigned", "binary_search_by_key(&wanted, place).ok()\n}",
     "binary_search_by_key(&(wanted as u64), |entry| place(entry) as u64).ok()\n}"),
    ("table.rs", "code just below a list taken for its first", "binary_search_by_key(&wanted, place).ok()\n}",
     "binary_search_by_key(&wanted, &place).ok().or_else(|| (place(entries.first()?) - 1 == wanted).then_some(0))\n}"),
    ("table.rs", "code between two of a list taken for the second", "binary_search_by_key(&wanted, place).ok()\n}",
     "binary_search_by_key(&wanted, place).or_else(|index| if (1..entries.len()).contains(&index) { Ok(index) } else { Err(index) }).ok()\n}"),
    ("table.rs", "six looks at a list",
     "    entries.binary_search_by_key(&wanted, place).ok()\n}",
     "    let (mut low, mut high) = (0, entries.len());\n    for _ in 0..6 {\n        let middle = (low + high) / 2;\n        match entries.get(middle).filter(|_| low < high).map(|entry| place(entry).cmp(&wanted))? {\n            std::cmp::Ordering::Equal => return Some(middle),\n            std::cmp::Ordering::Less => low = middle + 1,\n            std::cmp::Ordering::Greater => high = middle,\n        }\n    }\n    None\n}"),
    ("apdu.rs", "81 with contents allowed", "        field.contents().is_empty().then_some(())?;\n", "        let _ = field;\n"),
    ("apdu.rs", "05 00 with any problem", "(id.is_some() || matches!(problem, Problem::General(_)))", "true"),
    ("apdu.rs", "element behind 30 allowed", "fields.are_taken().then_some(Apdu::Result { id, returned })", "Some(Apdu::Result { id, returned })"),
    ("apdu.rs", "wrong fields never carry the id", "read.ok_or(Unreadable { id, problem", "read.ok_or(Unreadable { id: None, problem"),
    ("apdu.rs", "a result's value one level up", "Outgoing::Result { .. } => 2,", "Outgoing::Result { .. } => 1,"),
    ("apdu.rs", "absent result written with a code", "            Outgoing::Result { id, value: [], .. } => writer.integer(ID, id),\n", ""),
    ("apdu.rs", "kind checked before well-formed octets", "        octets::levels(octets, State::LEVELS).ok_or(malformed)?;\n", ""),
    ("apdu.rs", "an indefinite APDU refused", "Fields::of(octets, State::LEVELS - 1).ok_or(", "Fields::of(octets, State::LEVELS - 1).filter(|_| !octets::is_indefinite(octets)).ok_or("),
    ("apdu.rs", "an indefinite Reject refused", "Fields::of(octets, State::LEVELS - 1).ok_or(",
     "Fields::of(octets, State::LEVELS - 1).filter(|_| kind != REJECT || !octets::is_indefinite(octets)).ok_or("),
    ("apdu.rs", "octets behind an indefinite APDU allowed", "        Some([]) => read", "        Some(behind) if behind.is_empty() || octets::is_indefinite(octets) => read"),
    ("fields.rs", "an indefinite 30 refused", "Fields::of(self.rest.take()?, self.levels - 1)?;", "Fields::of(self.rest.take()?, self.levels - 1).filter(|inner| inner.behind.is_some())?;"),
    ("fields.rs", "level of a 30, definite or indefinite, not counted", "Fields::of(self.rest.take()?, self.levels - 1)?;", "Fields::of(self.rest.take()?, self.levels)?;"),
    ("fields.rs", "the end of the octets closes an indefinite APDU", "            None => octets::open", "            None if self.rest?.is_empty() => self.rest,\n            None => octets::open"),
    ("fields.rs", "indefinite value shown without its closing octets", "        let value = self.take().map(|field| field.whole);\n",
     "        let open = |field: &Element<'_>| octets::is_indefinite(field.whole);\n        let value = self.take().map(|field| &field.whole[..field.whole.len() - 2 * usize::from(open(&field))]);\n", "ends"),
    ("fields.rs", "value takes in an indefinite APDU's closing octets", "        let value = self.take().map(|field| field.whole);\n",
     "        let before = self.rest;\n        let value = self.take().and_then(|field| match self.behind.is_none() && self.are_taken() {\n            true => before?.get(..field.whole.len() + 2),\n            false => Some(field.whole),\n        });\n"),
    ("answer.rs", "invoke problem 8 allowed", "(0x81, 0..=7)", "(0x81, 0..=8)"),
    ("answer.rs", "error problem 4 refused", "(0x83, 0..=4)", "(0x83, 0..=3)"),
    ("engine.rs", "10 octets are room for a Reject", "REJECT_OCTETS: usize = 11;", "REJECT_OCTETS: usize = 10;"),
    ("engine.rs", "1 before 19", "    if !state.is_sound() {\n", "    if !state.is_sound() && Table::new(table).is_some() {\n"),
    ("engine.rs", "1 looks at own records only", "if knows(&state.own) && knows(&state.peer) {", "if knows(&state.own) {"),
    ("engine.rs", "2 before 3", "if octets.len() > State::OCTETS {", "if octets.len() > State::OCTETS && output.len() >= REJECT_OCTETS {"),
    ("engine.rs", "wrong Reject answered", "Err(unreadable) if octets.first() == Some(&apdu::REJECT) =>", "Err(unreadable) if octets == [apdu::REJECT] =>"),
    ("engine.rs", "duplicate looked up among own records", "if state.peer.find(id).is_some() {", "if state.own.find(id).is_some() {"),
    ("engine.rs", "received linked id looked up among peer records",
     "let at = state.own.find(linked).ok_or(Problem::UNRECOGNIZED_LINKED_ID)?;\n        parent = table.operation(&state.own",
     "let at = state.peer.find(linked).ok_or(Problem::UNRECOGNIZED_LINKED_ID)?;\n        parent = table.operation(&state.peer"),
    ("engine.rs", "linkedResponseUnexpected dropped", "if !parent.is_some_and(|parent| table.has_children(&parent)) {", "if parent.is_none() {"),
    ("engine.rs", "unexpectedLinkedOperation before mistypedArgument", "    if !operation.argument.allows(value) {\n",
     "    if !operation.argument.allows(value) && !parent.is_some_and(|parent| !table.lists_child(&parent, &operation)) {\n"),
    ("engine.rs", "resourceLimitation for class 5 too", "    if operation.class != 5 {\n        if state.peer.is_full() {\n            return Err(Problem::RESOURCE_LIMITATION);\n        }\n",
     "    if state.peer.is_full() {\n        return Err(Problem::RESOURCE_LIMITATION);\n    }\n    if operation.class != 5 {\n"),
    ("engine.rs", "a result's code not compared", "returned.is_some_and(|(code, _)| code != Some(operation.code))", "false"),
    ("engine.rs", "absent result has another code", "returned.is_some_and(|(code, _)|", "returned.is_none_or(|(code, _)|", "ends"),
    ("engine.rs", "result retires before its value rule", "    let value = returned.map(|(_, value)| value);\n", "    let value = returned.map(|(_, value)| value);\n    state.own.retire(at);\n    state.own.add(id, operation.code);\n"),
    ("engine.rs", "result retires nothing", "    state.own.retire(at);\n    Ok(match value", "    Ok(match value", "ends"),
    ("engine.rs", "unpaired error received", "    if !table.lists_error(&operation, &error) {\n        return Err(Problem::UNEXPECTED_ERROR);\n    }\n", "", "ends"),
    ("engine.rs", "unexpectedError after mistypedParameter", "    if !table.lists_error(&operation, &error) {\n", "    if !table.lists_error(&operation, &error) && error.parameter.allows(value) {\n"),
    ("engine.rs", "result problems retire too", "if let (Problem::Invoke(_), Some(at))", "if let (Problem::Invoke(_) | Problem::Result(_), Some(at))"),
    ("engine.rs", "duplicateInvocation does not retire", "if let (Problem::Invoke(_), Some(at))", "if let (Problem::Invoke(1..), Some(at))", "ends"),
    ("engine.rs", "5 before 4", "    let operation = code.code().and_then(|code| table.operation(&code)).ok_or(Refusal::UnknownOperation)?;\n    if state.own.find(id).is_some() {\n        return Err(Refusal::IdInUse);\n    }\n",
     "    if state.own.find(id).is_some() {\n        return Err(Refusal::IdInUse);\n    }\n    let operation = code.code().and_then(|code| table.operation(&code)).ok_or(Refusal::UnknownOperation)?;\n"),
    ("engine.rs", "6 only for class 1 invokes", "if !spared && state.own.live().iter()", "if operation.class == 1 && !spared && state.own.live().iter()"),
    ("engine.rs", "sent linked id looked up among own records",
     "let at = state.peer.find(linked).ok_or(Refusal::UnknownLinkedId)?;\n        let parent = table.operation(&state.peer",
     "let at = state.own.find(linked).ok_or(Refusal::UnknownLinkedId)?;\n        let parent = table.operation(&state.own"),
    ("engine.rs", "14 before 9 and 10", "    let levels = value_levels(value, operation.argument)?;\n    if operation.class != 5 && state.own.is_full() {\n        return Err(Refusal::OwnRecordsFull);\n    }\n",
     "    if operation.class != 5 && state.own.is_full() {\n        return Err(Refusal::OwnRecordsFull);\n    }\n    let levels = value_levels(value, operation.argument)?;\n"),
    ("engine.rs", "a class 5 invoke makes a record", "    if operation.class != 5 {\n        state.own.add(id, operation.code);\n    }\n", "    if !state.own.is_full() {\n        state.own.add(id, operation.code);\n    }\n"),
    ("engine.rs", "6 before 5", "    if state.own.find(id).is_some() {\n        return Err(Refusal::IdInUse);\n    }\n",
     "    let is_class_1 = |record: &crate::state::Record| table.operation(&record.code).is_some_and(|operation| operation.class == 1);\n    if state.own.find(id).is_some() {\n        let blocked = state.own.live().iter().any(is_class_1);\n        return Err(if blocked { Refusal::SynchronousInvocationLive } else { Refusal::IdInUse });\n    }\n"),
    ("engine.rs", "7 before 6", "    let class = |code| table.operation(code).map(|operation| operation.class);\n",
     "    if linked.is_some_and(|linked| state.peer.find(linked).is_none()) {\n        return Err(Refusal::UnknownLinkedId);\n    }\n    let class = |code| table.operation(code).map(|operation| operation.class);\n"),
    ("engine.rs", "9 before 7 and 8", "    let class = |code| table.operation(code).map(|operation| operation.class);\n",
     "    if linked.is_some() && !value.is_empty() && octets::levels(value, State::LEVELS).is_none() {\n        return Err(Refusal::MalformedValue { place: fault::place(value, State::LEVELS) });\n    }\n    let class = |code| table.operation(code).map(|operation| operation.class);\n"),
    ("engine.rs", "15 before 14", "    if operation.class != 5 && state.own.is_full() {\n",
     "    if operation.class != 5 && state.own.is_full() && value.len() < State::OCTETS - 20 {\n"),
    ("engine.rs", "12 after 13", "id, Operation::has_errors, refusals)", "id, |_| true, refusals)"),
    ("engine.rs", "9 before 13", "    let error = code.code().and_then(",
     "    if !value.is_empty() && octets::levels(value, State::LEVELS).is_none() {\n        return Err(Refusal::MalformedValue { place: fault::place(value, State::LEVELS) });\n    }\n    let error = code.code().and_then("),
    ("engine.rs", "result of class 5 allowed", "id, Operation::has_results, refusals)", "id, |operation| operation.class != 3, refusals)"),
    ("engine.rs", "11 before 16", "    if !matches!(problem, 2..=4) {\n", "    if !matches!(problem, 2..=4) && state.peer.find(id).is_some() {\n"),
    ("engine.rs", "unrecognizedOperation before the linked problems", "    let mut parent = None;\n",
     "    code.and_then(|code| table.operation(&code)).ok_or(Problem::UNRECOGNIZED_OPERATION)?;\n    let mut parent = None;\n"),
    ("engine.rs", "linked problems before duplicateInvocation", "    if state.peer.find(id).is_some() {\n",
     "    if state.peer.find(id).is_some() && linked.is_none_or(|linked| state.own.find(linked).is_some()) {\n"),
    ("engine.rs", "resourceLimitation before unexpectedLinkedOperation", "    if parent.is_some_and(|parent| !table.lists_child(&parent, &operation)) {\n",
     "    if parent.is_some_and(|parent| !table.lists_child(&parent, &operation)) && !(state.peer.is_full() && operation.class != 5) {\n"),
    ("engine.rs", "mistypedResult before another code", "    if returned.is_some_and(|(code, _)|", "    if operation.result.allows(returned.map(|(_, value)| value)) && returned.is_some_and(|(code, _)|"),
    ("engine.rs", "unrecognizedError before errorResponseUnexpected", "    let (at, operation) = answered(table, &state.own, id, Operation::has_errors, problems)?;\n",
     "    if state.own.find(id).is_some() {\n        code.and_then(|code| table.error(&code)).ok_or(Problem::UNRECOGNIZED_ERROR)?;\n    }\n    let (at, operation) = answered(table, &state.own, id, Operation::has_errors, problems)?;\n"),
    ("engine.rs", "user reject with problem 1", "!matches!(problem, 2..=4)", "!matches!(problem, 1..=4)"),
    ("engine.rs", "user reject retires nothing", "answer(state, at, Outgoing::Reject {", "let _ = at;\n    write(Outgoing::Reject {"),
    ("engine.rs", "forget of a peer's class 2 record", "matches!(operation.class, 1 | 2)", "matches!(operation.class, 1)"),
    ("engine.rs", "forget of an own class 1 record refused", "if awaited && matches!(invocation, Invocation::Peer(_)) {", "if awaited {"),
    ("engine.rs", "10 before 9", "    let given = (!value.is_empty()).then_some(value);\n", "    let given = (!value.is_empty()).then_some(value);\n    if !rule.allows(given) {\n        return Err(Refusal::ValueRuleBroken);\n    }\n"),
    ("engine.rs", "an indefinite value refused with 9", "        Some((element, [])) => Ok(element.levels),\n", "        Some((element, [])) if !octets::is_indefinite(value) => Ok(element.levels),\n        Some((_, [])) => Err(Refusal::MalformedValue { place: 0 }),\n"),
    ("engine.rs", "an indefinite value has a level less in 15", "        Some((element, [])) => Ok(element.levels),\n", "        Some((element, [])) => Ok(element.levels - usize::from(octets::is_indefinite(value))),\n"),
    ("engine.rs", "indefinite value sent without its closing octets", "    let written = write(Outgoing::Invoke { id, linked, code, value }, levels, output)?;\n",
     "    let value = &value[..value.len() - 2 * usize::from(octets::is_indefinite(value))];\n    let written = write(Outgoing::Invoke { id, linked, code, value }, levels, output)?;\n", "ends"),
    ("engine.rs", "2 before 15", "    let octets = apdu.octets();\n", "    let octets = apdu.octets();\n    if output.len() < octets {\n        return Err(Refusal::ShortOutput);\n    }\n"),
    ("engine.rs", "output must be longer than the APDU", "if output.len() < octets {", "if output.len() <= octets {"),
    ("engine.rs", "a refused error retires", "    if !table.lists_error(&operation, &error) {\n", "    if !table.lists_error(&operation, &error) {\n        state.own.retire(at);\n", "ends"),
    ("engine.rs", "an octet behind the Reject is changed", "        Refusal::Rejected { problem, written, place }\n",
     "        if let Some(behind) = output.get_mut(written) {\n            *behind = 0;\n        }\n        Refusal::Rejected { problem, written, place }\n", "ends"),
    ("octets.rs", "a value's place is its last octet's", "(at, at + part.len())", "(at, at + part.len() - 1)"),
    ("octets.rs", "a value's place is its contents'", "let at = part.as_ptr().addr() - octets.as_ptr().addr();", "let at = part.as_ptr().addr() - octets.as_ptr().addr() + 2;"),
    ("answer.rs", "an error's parameter has no place", "Indication::Invoke { value, .. } | Indication::Error { value, .. }", "Indication::Invoke { value, .. }"),
    ("fault.rs", "place of an inner fault is the outer element's", "        Ok(place) | Err(place) => place,\n", "        Ok(place) => place,\n        Err(_) => 0,\n"),
    ("fault.rs", "fault in definite contents placed at the one around", "most - 1).map(|()| end),", "most - 1).map(|()| end).map_err(|_| at),"),
    ("fault.rs", "fault in indefinite contents placed one level up", "most - 1)?.ok_or(at),", "most - 1).map_err(|_| at)?.ok_or(at),"),
    ("fault.rs", "missing close placed before a fault inside", "        None => open_elements(", "        None if !octets.ends_with(&CLOSING) => Err(at),\n        None => open_elements("),
    ("fault.rs", "missing close placed outermost first", "open_elements(octets, start, most - 1)?.ok_or(at),",
     "open_elements(octets, start, most - 1)\n            .map_err(|place| if octets::is_indefinite(&octets[place..]) { at } else { place })?\n            .ok_or(at),"),
    ("fault.rs", "missing close placed where the contents end", "most - 1)?.ok_or(at),", "most - 1)?.ok_or(octets.len() - 1),"),
    ("fault.rs", "missing close placed at the length octet", "most - 1)?.ok_or(at),", "most - 1)?.ok_or(start - 1),"),
    ("fault.rs", "octets behind placed one too far", "        Ok(place) | Err(place) => place,\n", "        Ok(place) => place + 1,\n        Err(place) => place,\n"),
    ("fault.rs", "octets behind placed at the outer element", "        Ok(place) | Err(place) => place,\n", "        Ok(_) => 0,\n        Err(place) => place,\n"),
    ("fault.rs", "octets behind placed before a fault inside", "    match element(octets, 0, most) {\n",
     "    if let Some((_, _, Some(end))) = own_rules(octets, 0, most).filter(|(_, _, end)| end.is_some_and(|end| end < octets.len())) {\n        return end;\n    }\n    match element(octets, 0, most) {\n"),
    ("fault.rs", "high tag placed at its second identifier octet", "own_rules(octets, at, most).ok_or(at)?;",
     "own_rules(octets, at, most).ok_or_else(|| at + usize::from(octets.get(at).is_some_and(|first| first & 0x1F == 0x1F)))?;"),
    ("fault.rs", "lone 00 placed at the open element", "        if octets[at..].starts_with(&CLOSING) {\n", "        if octets[at..] == [0x00] {\n            return Ok(None);\n        }\n        if octets[at..].starts_with(&CLOSING) {\n"),
    ("fault.rs", "00 and another octet placed at the open element", "        if octets[at..].starts_with(&CLOSING) {\n",
     "        if octets[at] == 0x00 && octets.get(at + 1).is_some_and(|second| *second != 0x00) {\n            return Ok(None);\n        }\n        if octets[at..].starts_with(&CLOSING) {\n"),
    ("fault.rs", "00 00 in definite contents placed one level up", "        Some(end) if octets::is_constructed(identifier) => elements(",
     "        Some(end) if octets::is_constructed(identifier) && octets[start..end].ends_with(&CLOSING) => {\n            elements(&octets[..end - 2], start, most - 1).map(|()| end).and_then(|_| elements(&octets[..end], start, most - 1).map(|()| end).map_err(|_| at))\n        }\n        Some(end) if octets::is_constructed(identifier) => elements("),
    ("fault.rs", "child over its parent's end placed at the parent", "most - 1).map(|()| end),",
     "most - 1).map(|()| end).map_err(|place| match octets::header(&octets[place..end]) {\n            Some(Header { length: Length::Definite(length), behind, .. }) if length > behind.len() => at,\n            _ => place,\n        }),"),
    ("fault.rs", "length over the end placed behind a fault inside", "            let contents = behind.get(..length)?;\n",
     "            let whole = behind.get(..length);\n            if whole.is_none() && constructed && elements(octets, start, most.saturating_sub(1)).is_ok() {\n                return None;\n            }\n            let length = length.min(behind.len());\n            let contents = &behind[..length];\n            if whole.is_none() && !constructed {\n                return None;\n            }\n"),
    ("fault.rs", "level 17 placed at level 16", "        Some(end) if octets::is_constructed(identifier) => elements(", "        Some(end) if most == 1 && octets::is_constructed(identifier) && start < end => Err(at),\n        Some(end) if octets::is_constructed(identifier) => elements("),
    ("fault.rs", "identifier refused placed behind a fault inside", "(most > 0 && right && !octets::is_refused(identifier)).then_some(",
     "(most > 0 && right && (!octets::is_refused(identifier) || constructed && end.is_some_and(|end| elements(&octets[..end], start, most - 1).is_err()))).then_some("),
    ("fault.rs", "later sibling at fault placed first", "    while at < octets.len() {\n        at = element(octets, at, most)?;\n    }\n    Ok(())\n",
     "    let mut first = Ok(());\n    while let Some((_, _, end)) = own_rules(octets, at, most) {\n        if let Err(place) = element(octets, at, most) {\n            first = Err(place);\n        }\n        match end {\n            Some(end) => at = end,\n            None => break,\n        }\n    }\n    first?;\n    while at < octets.len() {\n        at = element(octets, at, most)?;\n    }\n    Ok(())\n"),
    ("engine.rs", "a received place looks at one level more", "fault::place(octets, State::LEVELS)", "fault::place(octets, State::LEVELS + 1)"),
    ("engine.rs", "a value's fault is placed with one level more", "fault::place(value, State::LEVELS)", "fault::place(value, State::LEVELS + 1)"),
    ("engine.rs", "a received place is counted from the contents", "fault::place(octets, State::LEVELS),", "fault::place(octets, State::LEVELS).saturating_sub(2),"),
    ("engine.rs", "a value's fault is placed from the contents on", "place: fault::place(value, State::LEVELS) }", "place: fault::place(value, State::LEVELS).saturating_sub(2) }"),
    ("engine.rs", "9 has no place", "place: fault::place(value, State::LEVELS) }", "place: fault::place(value, State::LEVELS).min(0) }"),
    ("engine.rs", "9 has a place behind the value", "place: fault::place(value, State::LEVELS) }", "place: value.len().max(fault::place(value, State::LEVELS)) }", "ends"),
    ("engine.rs", "17 has no place", "UnacceptableReject { place: fault_place(octets, unreadable.problem) }", "UnacceptableReject { place: fault_place(octets, unreadable.problem).min(0) }"),
    ("engine.rs", "17 has a place for wrong fields", "UnacceptableReject { place: fault_place(octets, unreadable.problem) }",
     "UnacceptableReject { place: fault_place(octets, unreadable.problem).max(2 * usize::from(unreadable.problem == Problem::MISTYPED_APDU)) }"),
    ("engine.rs", "general 1 has a place", "        _ => 0,\n    }\n}\n\nfn receive_invoke", "        _ => 2 * usize::from(problem == Problem::MISTYPED_APDU),\n    }\n}\n\nfn receive_invoke"),
    ("engine.rs", "21 given as 9", "Err(Refusal::OctetsBehindValue { place: element.whole.len() })", "Err(Refusal::MalformedValue { place: element.whole.len() })"),
    ("engine.rs", "21 given as 9 in a result", "    let levels = value_levels(value, operation.result)?;\n",
     "    let levels = value_levels(value, operation.result).map_err(|refusal| match refusal {\n        Refusal::OctetsBehindValue { place } => Refusal::MalformedValue { place },\n        other => other,\n    })?;\n"),
    ("engine.rs", "21 before 9", "        None => Err(Refusal::MalformedValue {",
     "        None if octets::header(value).is_some_and(|header| matches!(header.length, octets::Length::Definite(length) if length < header.behind.len())) => {\n            Err(Refusal::OctetsBehindValue { place: fault::place(value, State::LEVELS) })\n        }\n        None => Err(Refusal::MalformedValue {"),
    ("engine.rs", "21 after 10", "        Some(value) => element_levels(value)?,\n",
     "        Some(value) => match element_levels(value) {\n            Err(Refusal::OctetsBehindValue { .. }) if !rule.allows(given) => return Err(Refusal::ValueRuleBroken),\n            levels => levels?,\n        },\n"),
    ("engine.rs", "21 after 14", "    let levels = value_levels(value, operation.argument)?;\n",
     "    let levels = value_levels(value, operation.argument);\n    if matches!(levels, Err(Refusal::OctetsBehindValue { .. })) && operation.class != 5 && state.own.is_full() {\n        return Err(Refusal::OwnRecordsFull);\n    }\n    let levels = levels?;\n"),
    ("engine.rs", "21 after 15 for levels", "        Some((element, _)) => Err(", "        Some((element, _)) if element.levels == State::LEVELS => Err(Refusal::ApduTooLarge),\n        Some((element, _)) => Err("),
    ("engine.rs", "21 after 15 for octets", "        Some((element, _)) => Err(", "        Some((element, _)) if element.whole.len() > State::OCTETS => Err(Refusal::ApduTooLarge),\n        Some((element, _)) => Err("),
    ("engine.rs", "21 has the place of the value's last octet", "OctetsBehindValue { place: element.whole.len() }", "OctetsBehindValue { place: element.whole.len().max(value.len() - 1) }"),
    ("engine.rs", "21 has the place of the element", "OctetsBehindValue { place: element.whole.len() }", "OctetsBehindValue { place: element.whole.len().min(0) }"),
    ("engine.rs", "21 not given for 00 00 behind", "        Some((element, [])) => Ok(element.levels),\n", "        Some((element, [] | [0x00, 0x00])) => Ok(element.levels),\n"),
    ("engine.rs", "21 not given behind an indefinite value", "        Some((element, [])) => Ok(element.levels),\n", "        Some((element, [])) => Ok(element.levels),\n        Some((element, _)) if octets::is_indefinite(value) => Ok(element.levels),\n"),
    ("answer.rs", "places over 4,095 are cut", "| Refusal::Rejected { place, .. } => place,", "| Refusal::Rejected { place, .. } => place & 0xFFF,"),
    ("drive.rs", "10 has a place", "place: answer.place() }", "place: answer.place().max(usize::from(answer == Answer::Refused(crate::answer::Refusal::ValueRuleBroken))) }", "ends"),
    ("drive.rs", "an accepted call has a place", "place: answer.place() }", "place: answer.place().max(answer.written()) }", "ends"),
    ("line.rs", "place in hexadecimal", "format!(\" place {}\", self.place)", "format!(\" place {:x}\", self.place)"),
    ("code.rs", "octets behind a name not tested", "\n        && name[1 + length..].iter().fold(0, |rubbish, octet| rubbish | octet) == 0\n", "\n"),
    ("code.rs", "last octet behind a name not tested", "name[1 + length..].iter()", "name[1 + length..].iter().take(15 - length.min(15))"),
    ("code.rs", "a name's contents not tested", "octets::is_object_identifier(contents(name))", "!contents(name).is_empty()"),
    ("code.rs", "a name's first part may start with 80", "octets::is_object_identifier(contents(name))", "octets::is_object_identifier(contents(name).strip_prefix(&[0x80]).unwrap_or(contents(name)))"),
    ("code.rs", "a name may be of length 17 and more", "length <= NAME_OCTETS\n        && octets::is_object_identifier(contents(name))\n        && name[1 + length..]", "octets::is_object_identifier(contents(name))\n        && name[1 + length.min(NAME_OCTETS)..]"),
    ("code.rs", "a name may have no octets", "octets::is_object_identifier(contents(name))", "(length == 0 || octets::is_object_identifier(contents(name)))"),
    ("code.rs", "a caller's name over 16 octets cut", "Asked::Name(contents) => Code::named(contents),", "Asked::Name(contents) => Code::named(&contents[..contents.len().min(NAME_OCTETS)]),"),
    ("code.rs", "a caller's name of one octet taken for a local code", "Asked::Name(contents) => Code::named(contents),", "Asked::Name([octet]) => Some(Code::Local(i32::from(*octet))),\n            Asked::Name(contents) => Code::named(contents),"),
    ("fields.rs", "a received 06 equals no code", "0x06 => Some(Code::named(field.contents())),", "0x06 => Some(None),", "ends"),
    ("fields.rs", "a received name in long form equals no code", "0x06 => Some(Code::named(field.contents())),", "0x06 => Some(Code::named(field.contents()).filter(|_| field.whole[1] < 0x80)),"),
    ("fields.rs", "a received name over 16 octets cut", "0x06 => Some(Code::named(field.contents())),", "0x06 => Some(Code::named(&field.contents()[..field.contents().len().min(16)])),"),
    ("fields.rs", "a received name over 16 octets is of wrong fields", "0x06 => Some(Code::named(field.contents())),", "0x06 => Code::named(field.contents()).map(Some),"),
    ("fields.rs", "a received name taken for the local code of its octets", "0x06 => Some(Code::named(field.contents())),", "0x06 => Some(octets::integer(field.contents()).map(Code::Local).or(Code::named(field.contents()))),"),
    ("fields.rs", "a received local code taken for the name of its octets", "0x02 => Some(octets::integer(field.contents()).map(Code::Local)),", "0x02 => Some(Code::named(field.contents())),"),
    ("apdu.rs", "a name written as a local code", "const NAME: u8 = 0x06;", "const NAME: u8 = 0x02;"),
    ("apdu.rs", "a name measured without its identifier", "Asked::Name(contents) => element_octets(contents.len()),", "Asked::Name(contents) => element_octets(contents.len()) - 1,"),
    ("apdu.rs", "a name written with the zeros behind it", "            writer.header(NAME, contents.len());\n            writer.put(contents);\n", "            writer.header(NAME, contents.len());\n            writer.put(&contents[..contents.len() - 1]);\n            writer.put(&[0]);\n"),
    ("state.rs", "names of records not tested", "            && self.live().iter().all(|record| record.code.is_right())\n", ""),
    ("state.rs", "only the first record's name tested", "all(|record| record.code.is_right())", "take(1).all(|record| record.code.is_right())"),
    ("state.rs", "names behind the count sound", "Code::Name(_) => 1,", "Code::Name(_) => self.id,"),
    ("table.rs", "edition 3 allowed", "[0xFF, 0xFF, 0x00, 0x02, ..]", "[0xFF, 0xFF, 0x00, 0x02 | 0x03, ..]"),
    ("table.rs", "any edition allowed", "[0xFF, 0xFF, 0x00, 0x02, ..]", "[0xFF, 0xFF, _, _, ..]"),
    ("table.rs", "edition 2 refused", "[0xFF, 0xFF, 0x00, 0x02, ..] => Some(&EDITION_2),", "[0xFF, 0xFF, 0x00, 0x02, ..] => None,"),
    ("table.rs", "129 names allowed", "[64, 64, 256, 256, 128]", "[64, 64, 256, 256, 129]"),
    ("table.rs", "127 names only", "[64, 64, 256, 256, 128]", "[64, 64, 256, 256, 127]"),
    ("table.rs", "offset of the names not checked", "offset != starts[part] {", "(offset != starts[part] && part < 4) {\n                return None;\n            }\n            let offset = starts[part];\n            if count > MOST[part] {"),
    ("table.rs", "names may stand twice", " && all_different(names)", ""),
    ("table.rs", "names of the same 16 octets are the same", "if names[usize::from(slots[slot]) - 1] == *name {", "if names[usize::from(slots[slot]) - 1][1..] == name[1..] {"),
    ("table.rs", "wrong names that nothing has allowed", "&& names_right(table.names)", "&& names_right(&table.names[..table.names.len().saturating_sub(1)])"),
    ("table.rs", "flag 16 allowed", "flags: [15, 3]", "flags: [31, 3]"),
    ("table.rs", "flag 8 refused", "flags: [15, 3]", "flags: [7, 3]"),
    ("table.rs", "error flag 4 allowed", "flags: [15, 3]", "flags: [15, 7]"),
    ("table.rs", "flag 8 allowed in edition 1", "flags: [3, 1]", "flags: [11, 1]"),
    ("table.rs", "an operation's index one too large", "                & (place < end)\n", "                & (place <= end)\n"),
    ("table.rs", "an error's index one too large", "right & rises & (place < end)", "right & rises & (place <= end)"),
    ("table.rs", "indexes taken modulo 65,536", "true => FIRST_NAME + i64::from(number),", "true => FIRST_NAME + i64::from(number & 0xFFFF),"),
    ("table.rs", "names' order against local codes not checked", "            let rises = before < place;\n            before = place;\n            right\n", "            let rises = before < place || before >= FIRST_NAME && place < FIRST_NAME;\n            before = place;\n            right\n"),
    ("table.rs", "indexes may be equal", "            let rises = before < place;\n            before = place;\n            right\n", "            let rises = before < place || before == place && place >= FIRST_NAME;\n            before = place;\n            right\n"),
    ("table.rs", "errors' indexes may be equal", "            let rises = before < place;\n            before = place;\n            right &", "            let rises = before < place || before == place && place >= FIRST_NAME;\n            before = place;\n            right &"),
    ("table.rs", "names compared without their length", "position(|entry| entry == name)", "position(|entry| entry[1..] == name[1..])"),
    ("table.rs", "names compared in their beginning", "position(|entry| entry == name)", "position(|entry| code::contents(entry).starts_with(code::contents(name)))"),
    ("table.rs", "the last name never found", "self.names.iter().position(", "self.names.iter().take(self.names.len() - 1).position("),
    ("table.rs", "an index taken for a local code", "Err(_) => Code::Name(self.names.get((place - FIRST_NAME) as usize).copied().unwrap_or_default()),", "Err(_) => Code::Local((place - FIRST_NAME) as i32),", "ends"),
    ("table.rs", "a local code finds the name of that index", "Code::Local(code) => Some(i64::from(*code)),", "Code::Local(code) if (0..self.names.len() as i32).contains(code) => Some(place_of_name(*code as usize)),\n            Code::Local(code) => Some(i64::from(*code)),"),
    ("table.rs", "refusal 1 by the names in place of the operations", "self.operation_index(wanted).is_some()", "match wanted {\n            Code::Name(name) => self.names.contains(name),\n            Code::Local(_) => self.operation_index(wanted).is_some(),\n        }"),
    ("table.rs", "refusal 1 by local codes only", "self.operation_index(wanted).is_some()", "matches!(wanted, Code::Name(_)) || self.operation_index(wanted).is_some()"),
    ("table.rs", "flag 2 of an error taken for its optional flag", "let code = self.code(error_place(entry));\n        ErrorEntry { index, code, parameter: Rule { kind, optional: flags & 1 != 0 } }", "let code = self.code(error_place(entry));\n        ErrorEntry { index, code, parameter: Rule { kind, optional: flags != 0 } }"),
    ("table.rs", "an idempotent operation's argument optional", "argument: Rule { kind: argument, optional: flags & 1 != 0 },", "argument: Rule { kind: argument, optional: flags & 9 != 0 },"),
    ("engine.rs", "a peer record keeps no name", "        state.peer.add(id, operation.code);\n", "        state.peer.add(id, if matches!(operation.code, Code::Name(_)) { Code::Local(operation.index as i32) } else { operation.code });\n", "ends"),
    ("engine.rs", "an own record keeps no name", "        state.own.add(id, operation.code);\n    }\n    Ok(written)", "        state.own.add(id, if matches!(operation.code, Code::Name(_)) { Code::Local(operation.index as i32) } else { operation.code });\n    }\n    Ok(written)", "ends"),
    ("engine.rs", "a result's name compared without its length", "code != Some(operation.code))", "match (code, operation.code) {\n        (Some(Code::Name(one)), Code::Name(other)) => one[1..] != other[1..],\n        (code, other) => code != Some(other),\n    })"),
    ("engine.rs", "any 06 right in a result of a name", "code != Some(operation.code))", "code != Some(operation.code) && !matches!((code, operation.code), (Some(Code::Name(_)), Code::Name(_))))"),
    ("engine.rs", "a result's name over 16 octets not compared", "code != Some(operation.code))", "code.is_some_and(|code| code != operation.code))"),
    ("engine.rs", "a caller's name that no table can have refused with 10", "code.code().and_then(|code| table.operation(&code)).ok_or(Refusal::UnknownOperation)?;", "table.operation(&code.code().ok_or(Refusal::ValueRuleBroken)?).ok_or(Refusal::UnknownOperation)?;"),
    ("engine.rs", "an error's name looked up among operations", "let error = code.code().and_then(|code| table.error(&code));", "let error = code.code().filter(|code| matches!(code, Code::Local(_)) || table.operation(code).is_none()).and_then(|code| table.error(&code));"),
    ("resting.rs", "the newest leaves in place of the oldest", "            self.places.copy_within(1.., 0);\n", "", "ends"),
    ("resting.rs", "the oldest leaves when the 64th enters", "if usize::from(self.count) == State::RESTING {", "if usize::from(self.count) >= State::RESTING - 1 {", "ends"),
    ("resting.rs", "no id enters where 64 rest", "            self.places.copy_within(1.., 0);\n            self.count -= 1;\n", "            return;\n", "ends"),
    ("resting.rs", "all leave when the 65th enters", "            self.places.copy_within(1.., 0);\n            self.count -= 1;\n", "            *self = Resting::none();\n", "ends"),
    ("resting.rs", "a new id goes first", "        self.places[usize::from(self.count)] = id;\n", "        self.places.copy_within(..State::RESTING - 1, 1);\n        self.places[0] = id;\n", "ends"),
    ("resting.rs", "an id twice not seen", "is_among(&ids[..at], id) || ", ""),
    ("resting.rs", "an id twice seen between neighbours only", "is_among(&ids[..at], id)", "is_among(&ids[at.saturating_sub(1)..at], id)"),
    ("resting.rs", "an id twice not seen where the first is the oldest", "is_among(&ids[..at], id)", "is_among(&ids[at.min(1)..at], id)"),
    ("resting.rs", "an id twice not seen where the second is the 64th", "(0..ids.len()).any(", "(0..ids.len().min(State::RESTING - 1)).any("),
    ("resting.rs", "0 twice not seen", "is_among(&ids[..at], id)", "(id != 0 && is_among(&ids[..at], id))"),
    ("resting.rs", "flags taken for ids", " && (is_among(&ids[..at], id) || own.find(id).is_some())", ""),
    ("resting.rs", "an own record's id not seen", " || own.find(id).is_some())", ")"),
    ("resting.rs", "the flags of own records not set", "        own.live().iter().for_each(|record| flags[flag(record.id)] = true);\n", ""),
    ("resting.rs", "only the first own record's id seen", "own.find(id).is_some()", "own.find(id) == Some(0)"),
    ("resting.rs", "unused places not looked at", "            && self.places[count..].iter().fold(0, |rubbish, id| rubbish | id) == 0\n", ""),
    ("resting.rs", "the first unused place not looked at", "self.places[count..].iter()", "self.places[count..].iter().skip(1)"),
    ("resting.rs", "the last unused place not looked at", "self.places[count..].iter()", "self.places[count..].iter().take(State::RESTING - 1 - count.min(State::RESTING - 1))"),
    ("resting.rs", "unused places not looked at where none rests", "        count <= State::RESTING\n            && self", "        count == 0 || count <= State::RESTING\n            && self"),
    ("resting.rs", "a count over 64 sound", "        let count = usize::from(self.count);\n", "        let count = usize::from(self.count).min(State::RESTING);\n"),
    ("resting.rs", "a count of 65 sound", "        let count = usize::from(self.count);\n", "        let count = usize::from(self.count) - usize::from(self.count == 65);\n"),
    ("resting.rs", "a resting 0 is no resting id", "is_among(self.ids(), id)\n", "id != 0 && is_among(self.ids(), id)\n"),
    ("resting.rs", "only the newest id refused", "is_among(self.ids(), id)\n", "self.ids().last() == Some(&id)\n"),
    ("resting.rs", "the oldest of 64 not refused", "is_among(self.ids(), id)\n", "is_among(&self.places[usize::from(self.count == 64)..self.ids().len()], id)\n"),
    ("resting.rs", "an id of the same remainder refused", "found | (*other == id)", "found | (flag(*other) == flag(id))"),
    ("state.rs", "resting ids not part of a sound state", " && self.resting.is_sound(&self.own)", ""),
    ("state.rs", "a resting id among the peer records seen", "self.resting.is_sound(&self.own)", "self.resting.is_sound(&self.own) && !self.peer.live().iter().any(|record| self.resting.contains(record.id))"),
    ("state.rs", "a resting id looked for among peer records only", "self.resting.is_sound(&self.own)", "self.resting.is_sound(&self.peer)"),
    ("engine.rs", "22 for a resting id before 4", "    let operation = code.code().and_then(|code| table.operation(&code)).ok_or(Refusal::UnknownOperation)?;\n",
     "    if state.resting.contains(id) {\n        return Err(Refusal::IdResting);\n    }\n    let operation = code.code().and_then(|code| table.operation(&code)).ok_or(Refusal::UnknownOperation)?;\n"),
    ("engine.rs", "22 for a resting id after 6", "    if state.resting.contains(id) {\n",
     "    let is_class_1 = |record: &crate::state::Record| table.operation(&record.code).is_some_and(|operation| operation.class == 1);\n    if state.resting.contains(id) && !state.own.live().iter().any(is_class_1) {\n"),
    ("engine.rs", "22 for a resting id after 7", "    if state.resting.contains(id) {\n", "    if state.resting.contains(id) && linked.is_none_or(|linked| state.peer.find(linked).is_some()) {\n"),
    ("engine.rs", "22 for a resting id after 9 and 21", "    if state.resting.contains(id) {\n", "    if state.resting.contains(id) && (value.is_empty() || octets::levels(value, State::LEVELS).is_some()) {\n"),
    ("engine.rs", "22 for a resting id after 14", "    if state.resting.contains(id) {\n", "    if state.resting.contains(id) && !state.own.is_full() {\n"),
    ("engine.rs", "a resting id allowed for class 5", "    if state.resting.contains(id) {\n", "    if operation.class != 5 && state.resting.contains(id) {\n"),
    ("engine.rs", "a resting id allowed for linked invokes", "    if state.resting.contains(id) {\n", "    if linked.is_none() && state.resting.contains(id) {\n"),
    ("engine.rs", "a resting id allowed", "    if state.resting.contains(id) {\n", "    if false {\n", "ends"),
    ("engine.rs", "a resting id refused with 5", "return Err(Refusal::IdResting);", "return Err(Refusal::IdInUse);"),
    ("engine.rs", "a refused invoke takes its resting id out", "        return Err(Refusal::IdResting);\n", "    if let Some(at) = state.resting.ids().iter().position(|other| *other == id) {\n        state.resting.places.copy_within(at + 1.., at);\n        state.resting.count -= 1;\n        state.resting.places[usize::from(state.resting.count)] = 0;\n    }\n        return Err(Refusal::IdResting);\n", "ends"),
    ("engine.rs", "a forgotten peer id is resting", "    if let Invocation::Own(id) = invocation {\n", "    if let Invocation::Own(id) | Invocation::Peer(id) = invocation {\n", "ends"),
    ("engine.rs", "a forgotten id is not resting", "        state.resting.add(id);\n", "        let _ = id;\n", "ends"),
    ("engine.rs", "an id that was not there to forget is resting", "    let at = side.find(id).ok_or(Refusal::NoSuchRecord)?;\n    let awaited",
     "    let Some(at) = side.find(id) else {\n        state.resting.add(id);\n        return Err(Refusal::NoSuchRecord);\n    };\n    let awaited", "ends"),
    ("engine.rs", "a result's id is resting", "    state.own.retire(at);\n    Ok(match value", "    state.own.retire(at);\n    state.resting.add(id);\n    Ok(match value", "ends"),
    ("engine.rs", "an error's id is resting", "    state.own.retire(at);\n    Ok(Indication::Error", "    state.own.retire(at);\n    state.resting.add(id);\n    Ok(Indication::Error", "ends"),
    ("engine.rs", "a rejected id is resting", "        state.own.retire(at);\n    }\n    Indication::UserReject", "        state.own.retire(at);\n        state.resting.add(id);\n    }\n    Indication::UserReject", "ends"),
    ("engine.rs", "a late result takes a resting id out", "    let problems = [Problem::RESULT_UNRECOGNIZED", "    if let Some(at) = state.resting.ids().iter().position(|other| *other == id) {\n        state.resting.places.copy_within(at + 1.., at);\n        state.resting.count -= 1;\n        state.resting.places[usize::from(state.resting.count)] = 0;\n    }\n    let problems = [Problem::RESULT_UNRECOGNIZED", "ends"),
    ("engine.rs", "a late error takes a resting id out", "    let problems = [Problem::ERROR_UNRECOGNIZED", "    if let Some(at) = state.resting.ids().iter().position(|other| *other == id) {\n        state.resting.places.copy_within(at + 1.., at);\n        state.resting.count -= 1;\n        state.resting.places[usize::from(state.resting.count)] = 0;\n    }\n    let problems = [Problem::ERROR_UNRECOGNIZED", "ends"),
    ("engine.rs", "a late Reject takes a resting id out", "    if let (Problem::Invoke(_), Some(at))", "    if let Some(at) = state.resting.ids().iter().position(|other| *other == id) {\n        state.resting.places.copy_within(at + 1.., at);\n        state.resting.count -= 1;\n        state.resting.places[usize::from(state.resting.count)] = 0;\n    }\n    if let (Problem::Invoke(_), Some(at))"),
    ("engine.rs", "a peer's invoke takes a resting id out", "    if state.peer.find(id).is_some() {\n", "    if let Some(at) = state.resting.ids().iter().position(|other| *other == id) {\n        state.resting.places.copy_within(at + 1.., at);\n        state.resting.count -= 1;\n        state.resting.places[usize::from(state.resting.count)] = 0;\n    }\n    if state.peer.find(id).is_some() {\n"),
    ("drive.rs", "resting ids kept where a state frame has none", "                    self.state = state;\n", "                    let resting = self.state.resting.clone();\n                    self.state = state;\n                    if frame.payload.len() < frame::IMAGE_OCTETS {\n                        self.state.resting = resting;\n                    }\n"),
    ("line.rs", "resting ids shown up to the count only", "resting.shown().iter()", "resting.ids().iter()"),
    ("kept.rs", "the newest answer leaves in place of the oldest", "            self.remove(0);\n", "            self.remove(State::KEPT - 1);\n", "ends"),
    ("kept.rs", "the oldest answer leaves when the eighth enters", "if usize::from(self.count) == State::KEPT {", "if usize::from(self.count) >= State::KEPT - 1 {", "ends"),
    ("kept.rs", "no answer enters where eight are kept", "            self.remove(0);\n", "            return;\n", "ends"),
    ("kept.rs", "all answers leave when the ninth enters", "            self.remove(0);\n", "            *self = Kept::none();\n", "ends"),
    ("kept.rs", "an answer of 512 octets not kept", "filter(|length| usize::from(*length) <= OCTETS)", "filter(|length| usize::from(*length) < OCTETS)"),
    ("kept.rs", "an answer over 512 octets pushes the oldest out", "else {\n            return;\n        };\n", "else {\n            if usize::from(self.count) == State::KEPT {\n                self.remove(0);\n            }\n            return;\n        };\n"),
    ("kept.rs", "an answer over 512 octets cut and kept", "        let Some(length) = u16", "        let answer = &answer[..answer.len().min(OCTETS)];\n        let Some(length) = u16"),
    ("kept.rs", "an answer over 512 octets empties the store", "else {\n            return;\n        };\n", "else {\n            *self = Kept::none();\n            return;\n        };\n"),
    ("kept.rs", "a new answer goes first", "        self.count += 1;\n", "        self.count += 1;\n        self.ids[..=last].rotate_right(1);\n        self.lengths[..=last].rotate_right(1);\n        self.store[..=last].rotate_right(1);\n", "ends"),
    ("kept.rs", "the last answer moves into the gap", "        self.ids.copy_within(at + 1..=last, at);\n        self.lengths.copy_within(at + 1..=last, at);\n        self.store.copy_within(at + 1..=last, at);\n", "        (self.ids[at], self.lengths[at], self.store[at]) = (self.ids[last], self.lengths[last], self.store[last]);\n"),
    ("kept.rs", "octets of a gap not closed", "        self.store.copy_within(at + 1..=last, at);\n", ""),
    ("kept.rs", "a dropped answer's place keeps its octets", "        self.store[last].fill(0);\n", "", "ends"),
    ("kept.rs", "a dropped answer's place keeps its id", "(self.ids[last], self.lengths[last]) = (0, 0);", "self.lengths[last] = 0;"),
    ("kept.rs", "a dropped answer's place keeps its length", "(self.ids[last], self.lengths[last]) = (0, 0);", "self.ids[last] = 0;"),
    ("kept.rs", "a kept count over 8 sound", "        let count = usize::from(self.count);\n        count", "        let count = usize::from(self.count).min(State::KEPT);\n        count"),
    ("kept.rs", "a kept count of 9 sound", "        let count = usize::from(self.count);\n        count", "        let count = usize::from(self.count) - usize::from(self.count == 9);\n        count"),
    ("kept.rs", "ids of unused kept places not looked at", "            && self.ids[count..].iter().fold(0, |rubbish, id| rubbish | id) == 0\n", ""),
    ("kept.rs", "lengths of unused kept places not looked at", "            && self.lengths[count..].iter().fold(0, |rubbish, length| rubbish | length) == 0\n", ""),
    ("kept.rs", "octets of unused kept places not looked at", "            && is_zero(self.store[count..].as_flattened())\n", ""),
    ("kept.rs", "octets of the first unused kept place alone looked at", "is_zero(self.store[count..].as_flattened())", "self.store.get(count).is_none_or(|place| is_zero(place))"),
    ("kept.rs", "the first octet alone of unused kept places looked at", "is_zero(self.store[count..].as_flattened())", "self.store[count..].iter().all(|place| place[0] == 0)"),
    ("kept.rs", "octets behind a kept answer not looked at", "length <= OCTETS && is_zero(&octets[length..])", "length <= OCTETS && !octets.is_empty()"),
    ("kept.rs", "the octet directly behind a kept answer not looked at", "is_zero(&octets[length..])", "is_zero(&octets[(length + 1).min(OCTETS)..])"),
    ("kept.rs", "the last octet behind a kept answer not looked at", "is_zero(&octets[length..])", "is_zero(&octets[length..length.max(OCTETS - 1)])"),
    ("kept.rs", "a kept length of 513 sound", "length <= OCTETS && is_zero(&octets[length..])", "length <= OCTETS + 1 && is_zero(octets.get(length..).unwrap_or_default())"),
    ("kept.rs", "any kept length sound", "length <= OCTETS && is_zero(&octets[length..])", "is_zero(octets.get(length..).unwrap_or_default())"),
    ("kept.rs", "a kept length of 0 not sound", "length <= OCTETS && is_zero", "length > 0 && length <= OCTETS && is_zero"),
    ("kept.rs", "kept octets that are no APDU not sound", "length <= OCTETS && is_zero", "length <= OCTETS && crate::apdu::read(&octets[..length]).is_ok() && is_zero"),
    ("kept.rs", "the last kept answer's length not looked at", "self.lengths[..self.used()].iter()", "self.lengths[..self.used() - 1].iter()"),
    ("kept.rs", "a kept id twice not seen", " && ids[..at].contains(&ids[at]);", " && false;"),
    ("kept.rs", "a kept id twice seen between neighbours only", "ids[..at].contains(", "ids[at.saturating_sub(1)..at].contains("),
    ("kept.rs", "a kept id twice not seen where the first is the oldest", "ids[..at].contains(", "ids[at.min(1)..at].contains("),
    ("kept.rs", "kept 0 twice not seen", "ids[..at].contains(&ids[at]);", "ids[at] != 0 && ids[..at].contains(&ids[at]);"),
    ("kept.rs", "bits taken for kept ids", " && ids[..at].contains(&ids[at]);", ";"),
    ("kept.rs", "a peer record's id among kept ids not seen", "        twice || peer.live()", "        twice && peer.live()"),
    ("kept.rs", "the bits of kept ids taken for a peer record's id", " && ids.contains(&record.id))", ")"),
    ("kept.rs", "only the first peer record's id looked for among kept ids", "peer.live().iter().any(", "peer.live().iter().take(1).any("),
    ("kept.rs", "a kept 0 never found", "self.ids().iter().position(|other| *other == id)", "self.ids().iter().position(|other| *other == id && id != 0)"),
    ("kept.rs", "only the oldest kept answer found", "self.ids().iter().position(|other| *other == id)", "self.ids().iter().position(|other| *other == id).filter(|at| *at == 0)"),
    ("state.rs", "kept answers not part of a sound state", " && self.kept.is_sound(&self.peer)", ""),
    ("state.rs", "a kept id among the own records seen", "self.kept.is_sound(&self.peer)", "self.kept.is_sound(&self.peer) && !self.own.live().iter().any(|record| self.kept.find(record.id).is_some())"),
    ("state.rs", "a kept id looked for among own records only", "self.kept.is_sound(&self.peer)", "self.kept.is_sound(&self.own)"),
    ("state.rs", "a kept id that rests not sound", "self.kept.is_sound(&self.peer)", "self.kept.is_sound(&self.peer) && !self.kept.ids().iter().any(|id| self.resting.contains(*id))"),
    ("engine.rs", "results kept only where probe is listed", "value }, levels, output)?;\n    keep(state, id, &operation, &output[..written]);\n    Ok(written)\n}\n\n/// Answers a peer's invocation with an error.", "value }, levels, output)?;\n    if table.listed != probe::Listed::Neither {\n        keep(state, id, &operation, &output[..written]);\n    }\n    Ok(written)\n}\n\n/// Answers a peer's invocation with an error."),
    ("engine.rs", "results not kept", "value }, levels, output)?;\n    keep(state, id, &operation, &output[..written]);\n    Ok(written)\n}\n\n/// Answers a peer's invocation with an error.", "value }, levels, output)?;\n    Ok(written)\n}\n\n/// Answers a peer's invocation with an error.", "ends"),
    ("engine.rs", "errors not kept", "Outgoing::Error { id, code, value }, levels, output)?;\n    keep(state, id, &operation, &output[..written]);\n", "Outgoing::Error { id, code, value }, levels, output)?;\n", "ends"),
    ("engine.rs", "answers of idempotent operations kept", "if !operation.idempotent && !probe::", "if !probe::", "ends"),
    ("engine.rs", "answers to a lent record of a probe kept", "if !operation.idempotent && !probe::is_answered_here(&operation.code) {", "if !operation.idempotent {"),
    ("engine.rs", "answers of class 4 not kept", "if !operation.idempotent && !probe::", "if operation.class != 4 && !operation.idempotent && !probe::", "ends"),
    ("engine.rs", "user rejects kept", "    answer(state, at, Outgoing::Reject { id: Some(id), problem: Problem::Invoke(problem) }, 0, output)\n", "    let written = answer(state, at, Outgoing::Reject { id: Some(id), problem: Problem::Invoke(problem) }, 0, output)?;\n    state.kept.add(id, &output[..written]);\n    Ok(written)\n", "ends"),
    ("engine.rs", "a received Invoke leaves its id's answer kept", "    state.kept.drop_id(id);\n", "", "ends"),
    ("engine.rs", "a refused Invoke drops its id's kept answer", "    let Invoke { id, linked, code, value } = invoke;\n    if state.peer", "    let Invoke { id, linked, code, value } = invoke;\n    state.kept.drop_id(id);\n    if state.peer", "ends"),
    ("engine.rs", "a class 5 Invoke leaves its id's answer kept", "    state.kept.drop_id(id);\n", "    if operation.class != 5 {\n        state.kept.drop_id(id);\n    }\n"),
    ("engine.rs", "an idempotent Invoke leaves its id's answer kept", "    state.kept.drop_id(id);\n", "    if !operation.idempotent {\n        state.kept.drop_id(id);\n    }\n"),
    ("engine.rs", "an Invoke drops all kept answers", "    state.kept.drop_id(id);\n", "    if state.kept.find(id).is_some() {\n        state.kept = crate::kept::Kept::none();\n    }\n"),
    ("engine.rs", "a probe drops its own id's kept answer", "        let (result, kept) = probe::answer(state", "        state.kept.drop_id(id);\n        let (result, kept) = probe::answer(state"),
    ("engine.rs", "an own invoke drops its id's kept answer", "    let written = write(Outgoing::Invoke { id, linked, code, value }, levels, output)?;\n", "    let written = write(Outgoing::Invoke { id, linked, code, value }, levels, output)?;\n    state.kept.drop_id(id);\n"),
    ("engine.rs", "a received result drops its id's kept answer", "    state.own.retire(at);\n    Ok(match value", "    state.own.retire(at);\n    state.kept.drop_id(id);\n    Ok(match value"),
    ("engine.rs", "unexpectedLinkedOperation before the inside of a probe", "    let asked = asked_about(&operation, value)?;\n", "    if parent.is_some_and(|parent| !table.lists_child(&parent, &operation)) {\n        return Err(Problem::UNEXPECTED_LINKED_OPERATION);\n    }\n    let asked = asked_about(&operation, value)?;\n"),
    ("engine.rs", "the inside of a probe before duplicateInvocation", "    if state.peer.find(id).is_some() {\n        return Err(Problem::DUPLICATE_INVOCATION);", "    if state.peer.find(id).is_some() {\n        if let (Some(Code::Local(code @ (probe::PROBE | probe::ACKNOWLEDGE))), Some(value)) = (code, value) {\n            probe::asked_id(code, value).ok_or(Problem::MISTYPED_ARGUMENT)?;\n        }\n        return Err(Problem::DUPLICATE_INVOCATION);"),
    ("engine.rs", "resourceLimitation for a probe", "        let (result, kept) = probe::answer(state", "        if state.peer.is_full() {\n            return Err(Problem::RESOURCE_LIMITATION);\n        }\n        let (result, kept) = probe::answer(state"),
    ("engine.rs", "a probe makes a peer record", "        return Ok(Received::Answered { result, kept });", "        if !state.peer.is_full() && state.kept.find(id).is_none() {\n            state.peer.add(id, operation.code);\n        }\n        return Ok(Received::Answered { result, kept });", "ends"),
    ("engine.rs", "a probe with a wrong inside indicated", "asked.ok_or(Problem::MISTYPED_ARGUMENT)?", "match asked {\n                Some(asked) => asked,\n                None => return Ok(None),\n            }"),
    ("engine.rs", "a wrong inside of a probe answered as unknown", "asked.ok_or(Problem::MISTYPED_ARGUMENT)?", "asked.unwrap_or(i32::MIN + 1)"),
    ("engine.rs", "a linked probe not answered", "    if let Some((code, asked)) = asked {", "    if let Some((code, asked)) = asked.filter(|_| linked.is_none()) {"),
    ("engine.rs", "6 spares no probe", "let spared = probe::is_answered_here(&operation.code);", "let spared = false;"),
    ("engine.rs", "6 spares probe and not acknowledge", "let spared = probe::is_answered_here(&operation.code);", "let spared = operation.code == Code::Local(probe::PROBE);"),
    ("engine.rs", "6 spares acknowledge and not probe", "let spared = probe::is_answered_here(&operation.code);", "let spared = operation.code == Code::Local(probe::ACKNOWLEDGE);"),
    ("engine.rs", "a class 1 probe stops no other invoke", "any(|record| class(&record.code) == Some(1))", "any(|record| class(&record.code) == Some(1) && !probe::is_answered_here(&record.code))"),
    ("engine.rs", "a class 1 probe stops a second probe", "if !spared && state.own", "if (!spared || state.own.live().iter().any(|record| probe::is_answered_here(&record.code))) && state.own"),
    ("engine.rs", "an own probe with a wrong inside refused with 10", "    let levels = value_levels(value, operation.argument)?;\n", "    let levels = value_levels(value, operation.argument)?;\n    if let Code::Local(code @ (probe::PROBE | probe::ACKNOWLEDGE)) = operation.code {\n        probe::asked_id(code, value).ok_or(Refusal::ValueRuleBroken)?;\n    }\n"),
    ("engine.rs", "an own probe spared by 22 too", "    if state.resting.contains(id) {\n", "    if state.resting.contains(id) && !probe::is_answered_here(&operation.code) {\n"),
    ("engine.rs", "11 octets are room where probe is listed", "table.listed.room(REJECT_OCTETS)", "REJECT_OCTETS.max(if octets.first() == Some(&apdu::INVOKE) { table.listed.room(0) } else { 0 })"),
    ("engine.rs", "a received Reject needs 11 octets where probe is listed", "output.len() < table.listed.room(REJECT_OCTETS)", "output.len() < if octets.first() == Some(&apdu::REJECT) { REJECT_OCTETS } else { table.listed.room(REJECT_OCTETS) }"),
    ("probe.rs", "527 octets are room where probe is listed", "Listed::Both => RESULT_OCTETS + kept::OCTETS,", "Listed::Both => RESULT_OCTETS + kept::OCTETS - 1,"),
    ("probe.rs", "529 octets needed where probe is listed", "Listed::Both => RESULT_OCTETS + kept::OCTETS,", "Listed::Both => RESULT_OCTETS + kept::OCTETS + 1,", "ends"),
    ("probe.rs", "15 octets are room where acknowledge is listed", "Listed::Acknowledge => RESULT_OCTETS,", "Listed::Acknowledge => RESULT_OCTETS - 1,"),
    ("probe.rs", "528 octets needed where acknowledge alone is listed", "Listed::Acknowledge => RESULT_OCTETS,", "Listed::Acknowledge => RESULT_OCTETS + kept::OCTETS,", "ends"),
    ("probe.rs", "16 octets needed in every table", "Listed::Neither => reject,", "Listed::Neither => reject.max(RESULT_OCTETS),", "ends"),
    ("probe.rs", "probe without acknowledge right", "return entry(first, PROBE).is_none().then_some(Listed::Neither);", "return Some(if entry(first, PROBE).is_some() { Listed::Both } else { Listed::Neither });"),
    ("probe.rs", "acknowledge without probe wrong", "    right.then_some(if probe.is_some()", "    (right && probe.is_some()).then_some(if probe.is_some()"),
    ("probe.rs", "class 3 right", "matches!(class, 1 | 2) && argument == wanted && result == RESULT", "matches!(class, 1..=3) && argument == wanted && (result == RESULT || class == 3)"),
    ("probe.rs", "class 4 right", "matches!(class, 1 | 2)", "matches!(class, 1 | 2 | 4)"),
    ("probe.rs", "class 5 right", "matches!(class, 1 | 2) && argument == wanted && result == RESULT", "matches!(class, 1 | 2 | 5) && argument == wanted && (result == RESULT || class == 5)"),
    ("probe.rs", "class 1 wrong", "matches!(class, 1 | 2)", "class == 2"),
    ("probe.rs", "any argument type right", " && argument == wanted", " && (argument == wanted || wanted != 0)"),
    ("probe.rs", "either argument type right for both", " && argument == wanted", " && (argument == wanted || matches!(argument, PROBE_ARGUMENT | ACKNOWLEDGE_ARGUMENT))"),
    ("probe.rs", "any result type right", " && result == RESULT", ""),
    ("probe.rs", "no result right", " && result == RESULT", " && matches!(result, 0 | RESULT)"),
    ("probe.rs", "an optional argument right", "flags & 3 == 0", "flags & 2 == 0"),
    ("probe.rs", "an optional result right", "flags & 3 == 0", "flags & 1 == 0"),
    ("probe.rs", "an idempotent probe wrong", "flags & 3 == 0", "flags & 11 == 0"),
    ("probe.rs", "acknowledge's row not tested", "is_right(acknowledge, ACKNOWLEDGE_ARGUMENT) && ", ""),
    ("probe.rs", "probe's row not tested", " && probe.is_none_or(|row| is_right(row, PROBE_ARGUMENT));", ";"),
    ("table.rs", "the rules of probe not tested in edition 2", "listed: probe::listed(table.operations, operation_place)?", "listed: probe::listed(table.operations, operation_place).or_else(|| octets.starts_with(&[0xFF]).then_some(Listed::Both))?"),
    ("table.rs", "the rules of probe not tested in edition 1", "listed: probe::listed(table.operations, operation_place)?", "listed: probe::listed(table.operations, operation_place).or_else(|| (!octets.starts_with(&[0xFF])).then_some(Listed::Both))?"),
    ("table.rs", "the rules of probe tested of errors too", "listed: probe::listed(table.operations, operation_place)?", "listed: probe::listed(table.operations, operation_place).filter(|_| table.error(&Code::Local(-2)).is_none())?"),
    ("probe.rs", "an element behind A0 right", "            fields.are_taken().then_some(id)\n", "            Some(id)\n"),
    ("probe.rs", "an element behind the id right", "inner.id().filter(|_| inner.are_taken())", "inner.id()"),
    ("probe.rs", "an indefinite A0 wrong", "inner.id().filter(|_| inner.are_taken())", "inner.id().filter(|_| inner.are_taken() && !argument.ends_with(&[0, 0]))"),
    ("probe.rs", "A1 in the place of A0", "const ASKED: u8 = 0xA0;", "const ASKED: u8 = 0xA1;"),
    ("probe.rs", "A0 not needed around the id", "            let id = fields.take_within", "            if let Some(id) = Fields::of(argument, State::LEVELS).and_then(|mut bare| bare.id().filter(|_| bare.are_taken())) {\n                return Some(id);\n            }\n            let id = fields.take_within"),
    ("probe.rs", "an id over four octets of an acknowledge cut", "_ => octets::integer(octets::split(argument, State::LEVELS)?.0.contents()),", "_ => {\n            let contents = octets::split(argument, State::LEVELS)?.0.contents();\n            octets::integer(contents).or_else(|| octets::integer(&contents[contents.len() - 1..]))\n        }"),
    ("probe.rs", "a running invocation looked up among own records", "if state.peer.find(asked).is_some() =>", "if state.own.find(asked).is_some() =>"),
    ("probe.rs", "a running invocation not found", "if state.peer.find(asked).is_some() =>", "if asked != asked =>"),
    ("probe.rs", "a probe looks for its own id", "match (code, state.kept.find(asked)) {", "match (code, state.kept.find(id).or(state.kept.find(asked))) {"),
    ("probe.rs", "unknown is 3", "const UNKNOWN: u8 = 2;", "const UNKNOWN: u8 = 3;"),
    ("probe.rs", "running and finished exchanged", "const RUNNING: u8 = 0;\nconst FINISHED: u8 = 1;", "const RUNNING: u8 = 1;\nconst FINISHED: u8 = 0;"),
    ("probe.rs", "what an acknowledge finds exchanged", "const ACKNOWLEDGED: u8 = 0;\nconst NOT_KEPT: u8 = 1;", "const ACKNOWLEDGED: u8 = 1;\nconst NOT_KEPT: u8 = 0;"),
    ("probe.rs", "an acknowledge finds nothing: 2", "const NOT_KEPT: u8 = 1;", "const NOT_KEPT: u8 = 2;"),
    ("probe.rs", "the kept answer not written", "            output[result..][..answer.len()].copy_from_slice(answer);\n            (result, answer.len())\n", "            let _ = answer;\n            (result, 0)\n", "ends"),
    ("probe.rs", "the kept answer's octets not copied", "            output[result..][..answer.len()].copy_from_slice(answer);\n", "", "ends"),
    ("probe.rs", "a finished probe drops the answer", "            (result, answer.len())\n", "            let length = answer.len();\n            state.kept.remove(at);\n            (result, length)\n", "ends"),
    ("probe.rs", "an acknowledge leaves the answer kept", "            state.kept.remove(at);\n            (write(ACK", "            let _ = at;\n            (write(ACK", "ends"),
    ("probe.rs", "an acknowledge drops the oldest answer", "            state.kept.remove(at);\n            (write(ACK", "            let _ = at;\n            state.kept.remove(0);\n            (write(ACK"),
    ("probe.rs", "an acknowledge of a running invocation says 0", "        (_, None) => (write(NOT_KEPT), 0),", "        (_, None) if state.peer.find(asked).is_some() => (write(ACKNOWLEDGED), 0),\n        (_, None) => (write(NOT_KEPT), 0),"),
    ("probe.rs", "the result of an acknowledge has a probe's code", "code: Code::Local(code).asked()", "code: Code::Local(PROBE).asked()", "ends"),
    ("probe.rs", "the result's value is an INTEGER", "        let value = [RESULT, 1, found];", "        let value = [0x02, 1, found];", "ends"),
    ("apdu.rs", "the result of a probe in long form", "        let mut writer = Writer::new(output);\n        writer.header(self.identifier(), self.contents());\n", "        let mut writer = Writer::new(output);\n        let is_probe = matches!(self, Outgoing::Result { code: Asked::Local(-2), .. });\n        writer.header_in_form(self.identifier(), self.contents(), usize::from(is_probe).max(crate::octets::length_octets(self.contents()) - 1));\n"),
]

# File, what the change is, the text, the text in its place; found by `replays`.
REPLAY_MUTANTS = [
    ("capture.rs", "60,001 octets allowed", "if capture.len() > OCTETS {", "if capture.len() > OCTETS + 1 {"),
    ("capture.rs", "59,999 octets only", "if capture.len() > OCTETS {", "if capture.len() >= OCTETS {"),
    ("capture.rs", "1,001 entries allowed", "if count > ENTRIES {", "if count > ENTRIES + 1 {"),
    ("capture.rs", "999 entries only", "if count > ENTRIES {", "if count >= ENTRIES {"),
    ("capture.rs", "count read from its last two octets", "        if count > ENTRIES {", "        let count = count & 0xFFFF;\n        if count > ENTRIES {"),
    ("capture.rs", "data offset worked out in 32 bits", "        if count > ENTRIES {\n            return Err(Malformed::Count);\n        }\n        if start != HEADER + PLACE * count {",
     "        if start as u32 != 8_u32.wrapping_add((count as u32).wrapping_mul(8)) {\n            return Err(Malformed::Count);\n        }\n        let count = count & 0xFF_FFFF;\n        if count > ENTRIES {"),
    ("capture.rs", "data offset not checked", "let [count, start] = numbers(header);", "let [count, _] = numbers(header);\n        let start = HEADER + PLACE * count.min(ENTRIES);"),
    ("capture.rs", "data offset not checked without entries", "let [count, start] = numbers(header);",
     "let [count, start] = numbers(header);\n        let start = if count == 0 { HEADER } else { start };"),
    ("capture.rs", "kind 3 allowed", "            2 => Some(Kind::Forget),\n", "            2 => Some(Kind::Forget),\n            3 => Some(Kind::Received),\n"),
    ("capture.rs", "zero octet not checked", "if place[1] != 0 {", "if place[1] == 3 {"),
    ("capture.rs", "only the zero octet's first bit checked", "if place[1] != 0 {", "if place[1] > 127 {"),
    ("capture.rs", "an entry without octets allowed", "if length == 0 {", "if length == 0 && kind == Some(Kind::Forget) {"),
    ("capture.rs", "4,095 octets an entry only", "if length > State::OCTETS {", "if length >= State::OCTETS {"),
    ("capture.rs", "4,097 octets an entry allowed", "if length > State::OCTETS {", "if length > State::OCTETS + 1 {"),
    ("capture.rs", "forget of 6 octets allowed", "length != FORGET {", "length < FORGET {"),
    ("capture.rs", "forget of 4 octets allowed", "length != FORGET {", "length > FORGET {"),
    ("capture.rs", "gap let pass", "Err(Malformed::Gap)", "Ok(offset + length)"),
    ("capture.rs", "overlap let pass", "Err(Malformed::Overlap)", "Ok(offset + length)"),
    ("capture.rs", "offset read from its last two octets", "    if kind.is_none() {\n", "    let offset = offset & 0xFFFF;\n    if kind.is_none() {\n"),
    ("capture.rs", "octets behind the data let pass", "Err(Malformed::OctetsBehind)", "Ok(Reader { index, data })"),
    ("capture.rs", "cut data let pass", "Err(Malformed::DataCut)", "Ok(Reader { index, data })"),
    ("replay.rs", "20 before 1", "if Table::new(table).is_none() {", "if Table::new(table).is_none() && Reader::new(capture).is_ok() {"),
    ("replay.rs", "places counted from 1", "format!(\"entry {place} differs\\n\")", "format!(\"entry {} differs\\n\", place + 1)"),
    ("replay.rs", "a singular for one entry", "Verdict::Agrees { entries } => format!", "Verdict::Agrees { entries: 1 } => \"entry 1 agrees\\n\".to_string(),\n            Verdict::Agrees { entries } => format!"),
    ("replay.rs", "received entry named where its Reject is missing", "place: entries, how: How::Missing(what)", "place: if what == Written::Reject { entries - 1 } else { entries }, how: How::Missing(what)"),
    ("replay.rs", "agreement where the Reject is missing at the end", "        Some(Awaited { what, .. }) =>", "        Some(Awaited { what: Written::Reject, .. }) => Verdict::Agrees { entries },\n        Some(Awaited { what, .. }) =>"),
    ("replay.rs", "awaited Reject played as a request", "self.output[start..end] => Ok(Step::Found(what)),", "self.output[start..end] && what == Written::Reject => self.sent(&entry.octets.to_vec()).map(|_| Step::Found(what)),\n            Kind::Sent if *entry.octets == self.output[start..end] => Ok(Step::Found(what)),"),
    ("replay.rs", "received entry named where another Reject follows", "Err(how) => return Verdict::Differs { place, how },",
     "Err(how @ How::Other(Written::Reject)) => return Verdict::Differs { place: place - 1, how },\n            Err(how) => return Verdict::Differs { place, how },"),
    ("replay.rs", "awaited Reject's octets not compared", "Kind::Sent if *entry.octets == self.output[start..end] =>", "Kind::Sent if what == Written::Reject || *entry.octets == self.output[start..end] =>"),
    ("replay.rs", "awaited Reject may be received", "            _ => Err(How::NotSent(what)),", "            _ if what == Written::Reject && *entry.octets == self.output[start..end] => Ok(Step::Found(what)),\n            _ => Err(How::NotSent(what)),"),
    ("replay.rs", "no Reject awaited", "                self.awaited = Some(Awaited { what: Written::Reject, start: 0, end: written, kept: 0 });\n", "                let _ = written;\n"),
    ("replay.rs", "17 is a difference", "            Err(Refusal::UnacceptableReject { .. }) => Ok(Step::PassedOver),\n", ""),
    ("replay.rs", "17 awaits an entry", "Err(Refusal::UnacceptableReject { .. }) => Ok(Step::PassedOver)", "Err(Refusal::UnacceptableReject { .. }) => {\n                self.awaited = Some(Awaited { what: Written::Reject, start: 0, end: 1, kept: 0 });\n                Ok(Step::PassedOver)\n            }"),
    ("replay.rs", "10 octets lent to receive", "octets, &mut self.output) {", "octets, &mut self.output[..10]) {"),
    ("replay.rs", "an entry's own length lent to receive", "octets, &mut self.output) {", "octets, &mut self.output[..octets.len()]) {"),
    ("replay.rs", "side 2 taken for peer", "[1, a, b, c, d] =>", "[1 | 2, a, b, c, d] =>"),
    ("replay.rs", "every other side taken for peer", "[1, a, b, c, d] =>", "[1..=255, a, b, c, d] =>"),
    ("replay.rs", "another side goes by", "_ => return Err(How::OtherSide),", "_ => return Ok(Step::PassedOver),"),
    ("replay.rs", "sides exchanged", "[0, a, b, c, d] => (\"forget of an own record\", Invocation::Own(", "[0, a, b, c, d] => (\"forget of an own record\", Invocation::Peer("),
    ("replay.rs", "refused forget goes by", "Err(refusal) => Err(How::Refused(name, refusal.number())),", "Err(_) => Ok(Step::Forgotten(invocation)),"),
    ("replay.rs", "refused request goes by", "        let written = written.map_err(|refusal| How::Refused(name, refusal.number()))?;\n", "        let Ok(written) = written else { return Ok(Step::Sent(apdu)) };\n"),
    ("replay.rs", "sent octets not compared", "if self.output[..written] == *octets {", "if written > 0 {"),
    ("replay.rs", "sent octets compared in length only", "if self.output[..written] == *octets {", "if written == octets.len() {"),
    ("replay.rs", "a result's code compared with nothing", "if self.output[..written] == *octets {",
     "if self.output[..written] == *octets || matches!(apdu, Apdu::Result { returned: Some((_, value)), .. } if octets.ends_with(value)) {"),
    ("replay.rs", "an error's lengths not compared", "if self.output[..written] == *octets {", "if self.output[..written] == *octets || matches!(apdu, Apdu::Error { .. }) {"),
    ("replay.rs", "a sent indefinite APDU goes by", "if self.output[..written] == *octets {", "if self.output[..written] == *octets || crate::octets::is_indefinite(octets) {"),
    ("replay.rs", "a sent indefinite value differs", "if self.output[..written] == *octets {", "if self.output[..written] == *octets && !apdu.value().is_some_and(crate::octets::is_indefinite) {"),
    ("replay.rs", "a received indefinite APDU differs", "            Ok(Received::Indicated(indication)) => Ok(Step::Indicated(indication)),\n",
     "            Ok(_) if crate::octets::is_indefinite(octets) => Err(How::Refused(\"receive\", 0)),\n            Ok(Received::Indicated(indication)) => Ok(Step::Indicated(indication)),\n"),
    ("replay.rs", "no Reject awaited for an indefinite APDU", "self.awaited = Some(Awaited { what: Written::Reject, start: 0, end: written, kept: 0 });",
     "self.awaited = (!crate::octets::is_indefinite(octets)).then_some(Awaited { what: Written::Reject, start: 0, end: written, kept: 0 });"),
    ("replay.rs", "linked id left out of the request", "let asked = (id, linked, code", "let _ = linked;\n                let asked = (id, None, code"),
    ("replay.rs", "a Reject nobody called for goes by", "Apdu::Reject { id, problem } => return Err(How::NoUserReject(id, problem)),", "Apdu::Reject { .. } => return Ok(Step::Sent(apdu)),"),
    ("replay.rs", "sent octets that are no APDU go by", "apdu::read(octets).map_err(|unreadable| How::Unreadable(unreadable.problem))?;", "match apdu::read(octets) {\n            Ok(apdu) => apdu,\n            Err(_) => return Ok(Step::PassedOver),\n        };"),
    ("replay.rs", "a 60,001st octet not seen", "(vec![0; most + 1], 0)", "(vec![0; most], 0)"),
    ("replay.rs", "an unreadable capture has no entries", ".unwrap_or_default();", ".unwrap_or_else(|| vec![0, 0, 0, 0, 0, 0, 0, 8]);"),
    ("replay.rs", "a table of 5,144 octets cut", "TABLE_OCTETS: usize = 5144;", "TABLE_OCTETS: usize = 5142;"),
    ("replay.rs", "a table of edition 2 cut as one of edition 1 would be", "TABLE_OCTETS: usize = 5144;", "TABLE_OCTETS: usize = 2959;"),
    ("replay.rs", "an invoke with a name fits no call", "let code = code.ok_or(How::ForeignCode)?;\n                let asked", "let code = code.filter(|code| !matches!(code, crate::code::Code::Name(_))).ok_or(How::ForeignCode)?;\n                let asked"),
    ("replay.rs", "an error with a name fits no call", "let code = code.ok_or(How::ForeignCode)?;\n                (\"error\"", "let code = code.filter(|code| !matches!(code, crate::code::Code::Name(_))).ok_or(How::ForeignCode)?;\n                (\"error\""),
    ("replay.rs", "a sent name's long form goes by", "if self.output[..written] == *octets {", "if self.output[..written] == *octets || (octets.len() > written && matches!(apdu, Apdu::Invoke(Invoke { code: Some(crate::code::Code::Name(_)), .. }) | Apdu::Error { code: Some(crate::code::Code::Name(_)), .. })) {"),
    ("engine.rs", "a resting id asked for again in a day", "    if state.resting.contains(id) {\n", "    if false {\n"),
    ("engine.rs", "an answered id is resting in a day", "    state.own.retire(at);\n    Ok(match value", "    state.own.retire(at);\n    state.resting.add(id);\n    Ok(match value"),
    ("resting.rs", "the oldest leaves when the 64th enters, in a day", "if usize::from(self.count) == State::RESTING {", "if usize::from(self.count) >= State::RESTING - 1 {"),
    ("resting.rs", "the newest leaves in place of the oldest, in a day", "            self.places.copy_within(1.., 0);\n", ""),
    ("replay.rs", "no result of a probe awaited", "                self.awaited = Some(Awaited { what: Written::Result, start: 0, end: result, kept });\n", "                let _ = (result, kept);\n"),
    ("replay.rs", "no kept answer awaited", "        if kept > 0 {\n", "        if kept > State::OCTETS {\n"),
    ("replay.rs", "a probe's result and the kept answer in one entry right", "Kind::Sent if *entry.octets == self.output[start..end] =>", "Kind::Sent if kept > 0 && *entry.octets == self.output[start..end + kept] => {\n                self.awaited = None;\n                Ok(Step::Found(what))\n            }\n            Kind::Sent if *entry.octets == self.output[start..end] =>"),
    ("replay.rs", "the result's place named where the kept answer is missing", "Verdict::Differs { place: entries, how: How::Missing(what) }", "Verdict::Differs { place: entries - usize::from(what == Written::KeptAnswer), how: How::Missing(what) }"),
    ("replay.rs", "agreement where the kept answer is missing at the end", "        Some(Awaited { what, .. }) =>", "        Some(Awaited { what: Written::KeptAnswer, .. }) => Verdict::Agrees { entries },\n        Some(Awaited { what, .. }) =>"),
    ("replay.rs", "agreement where a probe's result is missing at the end", "        Some(Awaited { what, .. }) =>", "        Some(Awaited { what: Written::Result, .. }) => Verdict::Agrees { entries },\n        Some(Awaited { what, .. }) =>"),
    ("replay.rs", "the kept answer's octets not compared", "Kind::Sent if *entry.octets == self.output[start..end] =>", "Kind::Sent if what == Written::KeptAnswer || *entry.octets == self.output[start..end] =>"),
    ("replay.rs", "the octets of a probe's result not compared", "Kind::Sent if *entry.octets == self.output[start..end] =>", "Kind::Sent if what == Written::Result || *entry.octets == self.output[start..end] =>"),
    ("replay.rs", "a kept answer may be received", "            _ => Err(How::NotSent(what)),", "            _ if what == Written::KeptAnswer && *entry.octets == self.output[start..end] => Ok(Step::Found(what)),\n            _ => Err(How::NotSent(what)),"),
    ("replay.rs", "a probe's result may be received", "            _ => Err(How::NotSent(what)),", "            _ if what == Written::Result && *entry.octets == self.output[start..end] => Ok(Step::Found(what)),\n            _ => Err(How::NotSent(what)),"),
    ("replay.rs", "a probe's result played as a request", "self.output[start..end] => Ok(Step::Found(what)),", "self.output[start..end] && what == Written::Result => self.sent(&entry.octets.to_vec()).map(|_| Step::Found(what)),\n            Kind::Sent if *entry.octets == self.output[start..end] => Ok(Step::Found(what)),"),
    ("replay.rs", "a kept answer played as a request", "self.output[start..end] => Ok(Step::Found(what)),", "self.output[start..end] && what == Written::KeptAnswer => self.sent(&entry.octets.to_vec()).map(|_| Step::Found(what)),\n            Kind::Sent if *entry.octets == self.output[start..end] => Ok(Step::Found(what)),"),
    ("replay.rs", "16 octets lent to receive, also where probe is listed", "octets, &mut self.output) {", "octets, &mut self.output[..16]) {"),
    ("replay.rs", "a probe fits no call", "            Ok(Received::Answered { result, kept }) => {\n", "            Ok(Received::Answered { .. }) if octets.len() > 4 => Err(How::Refused(\"receive\", 0)),\n            Ok(Received::Answered { result, kept }) => {\n"),
    ("engine.rs", "an answered id's answer left kept in a day", "    state.kept.drop_id(id);\n", ""),
    ("kept.rs", "an answer of 512 octets not kept in a day", "filter(|length| usize::from(*length) <= OCTETS)", "filter(|length| usize::from(*length) < OCTETS)"),
    ("kept.rs", "an answer over 512 octets kept in a day", "        let Some(length) = u16", "        let answer = &answer[..answer.len().min(OCTETS)];\n        let Some(length) = u16"),
    ("kept.rs", "the oldest answer leaves when the eighth enters, in a day", "if usize::from(self.count) == State::KEPT {", "if usize::from(self.count) >= State::KEPT - 1 {"),
    ("kept.rs", "no answer enters where eight are kept, in a day", "            self.remove(0);\n", "            return;\n"),
    ("probe.rs", "an acknowledge leaves the answer kept in a day", "            state.kept.remove(at);\n            (write(ACK", "            let _ = at;\n            (write(ACK"),
]


# Changes that only the changed program itself can find, by its own `ends`: what it asks of the tables it draws.
OWN_MUTANTS = [
    ("model.rs", "idempotent compared by extends", "(n.class, n.argument, n.result) == (o.class, o.argument, o.result)", "(n.class, n.argument, n.result, n.idempotent) == (o.class, o.argument, o.result, o.idempotent)"),
    ("model.rs", "names compared by their indexes in extends", "n.operation(&o.code).filter(", "n.operations().nth(o.index).filter("),
]


def cargo(folder, target, *more):
    environment = dict(os.environ, CARGO_TARGET_DIR=str(target))
    command = ["cargo", "build", "--offline", "--quiet", "-j1", *more]
    return subprocess.run(command, cwd=folder, env=environment, capture_output=True, text=True)


def changed(folder, name, old, new):
    """Writes the changed file; False if the text does not stand there exactly once."""
    text = (SECOND / "src" / name).read_text()
    if text.count(old) != 1:
        return False
    (folder / "src" / name).write_text(text.replace(old, new))
    return True


def build(folder, mutant):
    """Builds the changed program; says what is wrong if it cannot."""
    name, _, old, new, *_ = mutant
    shutil.rmtree(folder / "src")
    shutil.copytree(SECOND / "src", folder / "src")
    if not changed(folder, name, old, new):
        return "DOES NOT APPLY"
    built = cargo(folder, folder / "target")
    return "DOES NOT BUILD\n" + built.stderr if built.returncode != 0 else ""


def try_mutant(folder, unchanged, mutant):
    """Where the change was found by compare and by ends, and whether that is enough."""
    ends = mutant[4:]
    wrong = build(folder, mutant)
    if wrong:
        return wrong, "", False
    program = folder / "target" / "debug" / "second"
    found = subprocess.run([unchanged, "compare", program, SEEDS, CALLS, "places"], capture_output=True, text=True)
    where = re.match(r"seed (\d+) call (\d+) differs", found.stdout)
    run = subprocess.run([unchanged, "ends", program, "1", ENDS_CALLS], capture_output=True, text=True)
    by_ends = run.returncode != 0 and re.match(r"seed \d+ association \d+: ", run.stdout)
    right = bool(where) and found.returncode != 0 and (bool(by_ends) or ends != ("ends",))
    place = f"seed {where[1]} call {where[2]}" if where else "NOT FOUND"
    return place, "found" if by_ends else "-", right


def try_replay_mutant(folder, unchanged, mutant):
    """Where the change was found by replays, and whether it was."""
    wrong = build(folder, mutant)
    if wrong:
        return wrong, False
    program = f"{folder / 'target' / 'debug' / 'second'} replay"
    found = subprocess.run([unchanged, "replays", program, REPLAYS_SEED, REPLAYS_COUNT], capture_output=True, text=True)
    where = re.match(r"seed (\d+) differs", found.stdout)
    return f"seed {where[1]}" if where else "NOT FOUND", bool(where) and found.returncode == 1


def try_own_mutant(folder, mutant):
    """Whether the changed program's own ends fails."""
    wrong = build(folder, mutant)
    if wrong:
        return wrong, False
    run = subprocess.run([folder / "target" / "debug" / "second", "ends", "1", ENDS_CALLS], capture_output=True, text=True)
    return "found" if run.returncode != 0 else "NOT FOUND", run.returncode != 0


def main():
    word = sys.argv[1] if len(sys.argv) > 1 else ""
    chosen, chosen_replays, chosen_own = (
        [mutant for mutant in mutants if word in mutant[0] or word in mutant[1]] for mutants in (MUTANTS, REPLAY_MUTANTS, OWN_MUTANTS)
    )
    if not chosen and not chosen_replays and not chosen_own:
        sys.exit(f"mutants: no change has '{word}' in its place or description; give another word or none")
    built = cargo(SECOND, SECOND / "target", "--release")
    if built.returncode != 0:
        sys.exit("mutants: the second program does not build:\n" + built.stderr)
    unchanged = SECOND / "target" / "release" / "second"
    plain = subprocess.run([unchanged, "ends", "1", ENDS_CALLS], capture_output=True, text=True)
    if plain.returncode != 0:
        sys.exit("mutants: ends fails for the unchanged program:\n" + plain.stdout)
    failed = 0
    with tempfile.TemporaryDirectory() as temporary:
        folder = pathlib.Path(temporary)
        shutil.copy(SECOND / "Cargo.toml", folder)
        (folder / "src").mkdir()
        if chosen:
            print(f"{'place':11} {'change':52} {'compare':22} ends")
        for mutant in chosen:
            place, ends, right = try_mutant(folder, unchanged, mutant)
            failed += not right
            print(f"{mutant[0]:11} {mutant[1]:52} {place:22} {ends}{'' if right else '  FAILED'}", flush=True)
        if chosen_replays:
            print(f"{'place':11} {'change':52} replays")
        for mutant in chosen_replays:
            place, right = try_replay_mutant(folder, unchanged, mutant)
            failed += not right
            print(f"{mutant[0]:11} {mutant[1]:52} {place}{'' if right else '  FAILED'}", flush=True)
        if chosen_own:
            print(f"{'place':11} {'change':52} its own ends")
        for mutant in chosen_own:
            found, right = try_own_mutant(folder, mutant)
            failed += not right
            print(f"{mutant[0]:11} {mutant[1]:52} {found}{'' if right else '  FAILED'}", flush=True)
    count = len(chosen) + len(chosen_replays) + len(chosen_own)
    print(f"{count - failed} of {count} changes found")
    sys.exit(1 if failed else 0)


main()
