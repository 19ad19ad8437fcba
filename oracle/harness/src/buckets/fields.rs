//! The buckets that a link's fields reach.

use crate::model::parts::{AbiRecord, built_fields, generated_fields, runtime_words, width};

use super::links::place_methods;
use super::{Bucket, Hits, View, hit};

pub fn of_built(view: &View, class: u32, hits: &mut Hits) {
    let (sheet, abi) = (&view.sheet, &view.abi);
    let parent = sheet.class(class).parent;
    let abi_class = abi.class_named(sheet.name(class));
    let fixed_fields: Vec<AbiRecord> = abi_class.into_iter().flat_map(|class| abi.fields_of(class)).collect();
    let given = abi_class.and_then(|class| class.instance_words());
    hit(hits, Bucket::FieldNoAbi, abi_class.is_none());
    hit(hits, Bucket::FieldAbiWords, given.is_some());
    hit(hits, Bucket::FieldAbiWordsZero, given == Some(0));

    let mut running = if parent == 0 { 0 } else { u64::from(sheet.class(parent).instance_words) };
    hit(hits, Bucket::FieldParentWords, running > 0 && given.is_none());
    let mut raised = false;
    let fields: Vec<_> = sheet.fields_of(class).collect();
    for (position, field) in fields.iter().enumerate() {
        let width = width(field.descriptor);
        let fixed = fixed_fields.iter().find(|fixed| fixed.name == field.name && fixed.descriptor == field.descriptor);
        let twin = fields[..position].iter().any(|other| other.name == field.name && other.descriptor == field.descriptor);
        hit(hits, Bucket::FieldTwins, twin);
        if field.is_static() {
            hits.push(if width == 2 { Bucket::FieldStaticWide } else { Bucket::FieldStatic });
            hit(hits, Bucket::FieldStaticMatch, fixed.is_some());
        } else if let Some(fixed) = fixed {
            hits.push(Bucket::FieldFixed);
            hit(hits, Bucket::FieldFixedBack, u64::from(fixed.index) < running);
            let end = u64::from(fixed.index) + width;
            raised |= end > running;
            running = running.max(end);
        } else if given.is_some() {
            hits.push(if width == 2 { Bucket::FieldRuntimeWide } else { Bucket::FieldRuntime });
        } else {
            hits.push(if width == 2 { Bucket::FieldRunningWide } else { Bucket::FieldRunning });
            hit(hits, Bucket::FieldAfterFixed, raised);
            running += width;
        }
        if parent != 0 && fixed.is_none() && !field.is_static() {
            let parent_abi = abi.class_named(sheet.name(parent)).into_iter().flat_map(|class| abi.fields_of(class));
            let fixes = parent_abi.into_iter().any(|fixed| fixed.name == field.name && fixed.descriptor == field.descriptor);
            hit(hits, Bucket::FieldParentAbiFixes, fixes);
        }
    }

    let built = built_fields(sheet, abi, class);
    hit(hits, Bucket::FieldAdded, !built.added.is_empty());
    hit(hits, Bucket::FieldAddedEmpty, !built.added.is_empty() && fields.is_empty());
    hit(hits, Bucket::FieldAddedMany, built.added.len() > 100);
    hit(hits, Bucket::FieldAddedRaises, given.is_none() && built.instance_words > running);
    let same = |one: &AbiRecord, other: &AbiRecord| one.name == other.name && one.descriptor == other.descriptor;
    let twice = (1..built.added.len()).any(|position| built.added[..position].iter().any(|one| same(one, &built.added[position])));
    hit(hits, Bucket::FieldAddedTwice, twice);
    hit(hits, Bucket::WideParentAbiWords, given.is_some() && running > 65500);

    hit(hits, Bucket::RuntimeStarts, runtime_words(sheet, parent) > 0);
    let ancestors = || sheet.chain(parent).into_iter().flat_map(|class| sheet.fields_of(class).map(move |field| (class, field)));
    let negative = |index: u32| (index as i32) < 0;
    hit(
        hits,
        Bucket::RuntimeGenerated,
        ancestors().any(|(class, field)| sheet.class(class).kind != 0 && !field.is_static() && negative(field.index)),
    );
    hit(hits, Bucket::RuntimeStaticNegative, ancestors().any(|(_, field)| field.is_static() && negative(field.index)));
    if view.step.answer.refusal == 10 {
        hit(hits, Bucket::Row10Words, built.instance_words > 65535);
        hit(hits, Bucket::Row10Runtime, built.runtime_words > 65535);
        hit(hits, Bucket::Row10RuntimeNoFields, built.runtime_words > 65535 && fields.is_empty());
        let (refusal, _) = place_methods(view, class, &mut Vec::new());
        hit(hits, Bucket::Row10BeforeTables, sheet.class(class).flags & 0x0200 == 0 && refusal.is_some());
    }
}

pub fn of_generated(view: &View, class: u32, hits: &mut Hits) {
    let sheet = &view.sheet;
    let instance = || sheet.fields_of(class).filter(|field| !field.is_static());
    let own: u64 = instance().map(|field| width(field.descriptor)).sum();
    let total = u64::from(sheet.class(class).instance_words);
    hit(hits, Bucket::GeneratedStatic, sheet.fields_of(class).any(|field| field.is_static()));
    let abi_class = view.abi.class_named(sheet.name(class));
    hit(hits, Bucket::GeneratedAbiFields, abi_class.is_some_and(|class| class.field_count != 0 || class.instance_words().is_some()));
    let Ok(moved) = generated_fields(sheet, class) else { return };
    hit(hits, Bucket::GeneratedNoFields, own == 0);
    hit(hits, Bucket::GeneratedBaseZero, own != 0 && own == total);
    hit(hits, Bucket::GeneratedAbsolute, own != 0 && own < total && moved.is_none());
    hit(hits, Bucket::GeneratedRelative, moved.is_some());
    let grown = view.step.after.set[1] != view.step.before.set[1];
    hit(hits, Bucket::GeneratedMovedAndGrown, moved.is_some() && grown);
}
