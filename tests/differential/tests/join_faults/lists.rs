//! What bytes are taken for a list.

use super::Fault;
use crate::{join_rules::front, sheet_rules};

pub const FAULTS: &[Fault] = &[
  ("201 records", |rules| {
    rules.bounds = |records, bytes| each(records, 201) && each(bytes, 57_344)
  }),
  ("199 records", |rules| {
    rules.bounds = |records, bytes| each(records, 199) && each(bytes, 57_344)
  }),
  ("201 records in the second list", |rules| {
    rules.bounds = |records, bytes| records[0] <= 200 && records[1] <= 201 && each(bytes, 57_344);
  }),
  ("200 records in both lists together", |rules| {
    rules.bounds = |[first, second], bytes| first + second <= 200 && each(bytes, 57_344);
  }),
  ("170 records in both lists together", |rules| {
    rules.bounds = |[first, second], bytes| first + second <= 170 && each(bytes, 57_344);
  }),
  ("any count of records", |rules| rules.bounds = |_, bytes| each(bytes, 57_344)),
  ("57,345 bytes", |rules| {
    rules.bounds = |records, bytes| each(records, 200) && each(bytes, 57_345)
  }),
  ("57,343 bytes", |rules| {
    rules.bounds = |records, bytes| each(records, 200) && each(bytes, 57_343)
  }),
  ("57,345 bytes in the first list", |rules| {
    rules.bounds = |records, bytes| each(records, 200) && bytes[0] <= 57_345 && bytes[1] <= 57_344;
  }),
  ("57,344 bytes in both lists together", |rules| {
    rules.bounds = |records, [first, second]| each(records, 200) && first + second <= 57_344;
  }),
  ("a sheet's head is counted too", |rules| {
    rules.bounds = |records, bytes| each(records, 200) && each(bytes, 57_341);
  }),
  ("any count of bytes", |rules| rules.bounds = |records, _| each(records, 200)),
  ("an empty first list is 16", |rules| {
    rules.bounds = |records, bytes| records[0] > 0 && each(records, 200) && each(bytes, 57_344);
  }),
  ("an empty second list is 16", |rules| {
    rules.bounds = |records, bytes| records[1] > 0 && each(records, 200) && each(bytes, 57_344);
  }),
  ("two empty lists are 16", |rules| {
    rules.bounds = |records, bytes| records != [0, 0] && each(records, 200) && each(bytes, 57_344);
  }),
  ("a list that breaks a rule is empty", |rules| rules.bad = |_, _| Some(Vec::new())),
  ("a list ends where it breaks a rule", |rules| {
    rules.bad = |form, list| Some(front(form, list));
  }),
  ("a byte behind the last record of the first list", |rules| rules.form[0].passed_over = 1),
  ("a byte behind the last record of the second list", |rules| rules.form[1].passed_over = 1),
  ("a length counts itself", |rules| rules.form[0].counted = 2),
  ("a kind more in the first list", |rules| rules.form[0].kinds[9] = 1),
  ("a kind more in the second list", |rules| rules.form[1].kinds[9] = 1),
  ("a kind less", |rules| rules.form[1].kinds[8] = 0),
  ("a text that is not UTF-8 is 16", |rules| {
    rules.form[1].text = |text| str::from_utf8(text).is_ok();
  }),
  ("a text behind a move", |rules| {
    rules.form[0].fits = |kind, len| sheet_rules::fits(kind, len) || kind == 8 && len > 13;
  }),
  ("no empty text", |rules| {
    rules.form[1].fits = |kind, len| sheet_rules::fits(kind, len) && (kind < 4 || len != 5);
  }),
  ("positions with the low byte first", |rules| rules.form[1].position = u32::from_le_bytes),
  ("positions of 16 bits", |rules| {
    rules.form[0].position = |field| u32::from_be_bytes(field) & 0xffff;
  }),
];

fn each(counts: [usize; 2], most: usize) -> bool {
  counts.iter().all(|&count| count <= most)
}
