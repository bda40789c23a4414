//! Both cases of demand 3, and what an older schema makes of a text that it isn't made for.

use super::helpers::{placed, Model, AMPLE};
use super::schemas::{FieldOf, Image, ValueOf, MAP, OPTIONAL, REPEATED};
use crate::carry::{carry, Carried, Load, Rooms};
use crate::print::Style;
use crate::schema::{BOOL, BYTES, I32, I64, STRING};

const ID: FieldOf = ("id", 1, OPTIONAL, 0, 1, 0);
const EXTRA: FieldOf = ("extra", 6, REPEATED, 0, 3, 0);
const MODE: FieldOf = ("mode", 2, OPTIONAL, 0, 8, 0);
const LIMITS: FieldOf = ("limits", 3, MAP, 6, 9, 1);
const CHILD: FieldOf = ("child", 4, OPTIONAL, 0, 9, 0);
const STEPS: FieldOf = ("steps", 1, MAP, 1, 3, 0);
const HUE: FieldOf = ("hue", 2, OPTIONAL, 0, 8, 0);
const OFF: ValueOf = ("OFF", 0);
const ON: ValueOf = ("ON", 1);
const ECO: ValueOf = ("ECO", 2);

fn newer() -> Image {
    let first = [ID, EXTRA, MODE, LIMITS, CHILD];
    Image::new(&[&first, &[STEPS, HUE]], &[&[OFF, ON, ECO]])
}

/// Without `extra`, `hue` and ECO.
fn older() -> Image {
    Image::new(&[&[ID, MODE, LIMITS, CHILD], &[STEPS]], &[&[ON, OFF]])
}

/// The text read under the newer schema and carried: the older one's compact print of what came
/// over, or which call refused, with its number and place.
fn carried(newer: &Image, older: &Image, text: &str, style: Style) -> String {
    let (from, to) = (Model::of(newer), Model::of(older));
    let table = from.table(text);
    let load = Load {
        words: &table.0,
        pool: &table.1,
    };
    let rooms = Rooms {
        text: AMPLE,
        words: AMPLE,
        bytes: AMPLE,
    };
    match carry(&from.schema, &to.schema, 0, load, style, rooms) {
        Carried::NotPrinted(refusal) => format!("print {}", placed(refusal)),
        Carried::NotRead(refusal, _) => format!("read {}", placed(refusal)),
        Carried::Made(reading, _) => {
            let words = reading.nodes.iter().flat_map(|n| n.words()).collect();
            to.compact(&(words, reading.pool))
        }
    }
}

fn both(text: &str, compact: &str, pretty: &str) {
    let (newer, older) = (newer(), older());
    assert_eq!(carried(&newer, &older, text, Style::Compact), compact);
    assert_eq!(carried(&newer, &older, text, Style::Pretty), pretty);
}

#[test]
fn all_live_names_known() {
    let printed =
        "id: 5 mode: ON limits {key: \"a\" value {steps {key: -3 value: 7}}} child {mode: OFF}";
    let text =
        "mode: ON child {mode: OFF} id: 5 limits {value {steps {value: 7 key: -3}} key: 'a'}";
    both(text, printed, printed);
    both("mode: ECO mode: ON", "mode: ON", "mode: ON");
    both("child {extra: 1} child {}", "child {}", "child {}");
    both(
        "limits {value {hue: ON}} limits {}",
        "limits {key: \"\" value {}}",
        "limits {key: \"\" value {}}",
    );
}

#[test]
fn the_first_name_that_is_lacking() {
    both("extra: 4 id: 1", "read 6 6 1:7", "read 6 6 2:1");
    both("id: 1 mode: ECO", "read 7 12 1:13", "read 7 12 2:7");
    both(
        "limits {key: 'a' value {hue: ECO}}",
        "read 6 24 1:25",
        "read 6 34 4:5",
    );
    both("extra: 1 mode: ECO", "read 6 0 1:1", "read 6 0 1:1");
    both(
        "child {mode: ECO} mode: ON",
        "read 7 22 1:23",
        "read 7 25 3:9",
    );
}

#[test]
fn a_schema_that_does_not_extend_the_other() {
    let of = |kind: u32| Image::new(&[&[("a", 1, OPTIONAL, 0, kind, 0)]], &[]);
    for (from, to, text, told) in [
        (I64, I32, "a: 2147483648", "read 9 3 1:4"),
        (I32, BOOL, "a: 1", "read 10 3 1:4"),
        (I32, STRING, "a: 1", "read 5 3 1:4"),
        (BYTES, STRING, "a: '\\377'", "read 11 3 1:4"),
        (I32, I64, "a: -1", "a: -1"),
    ] {
        let outcome = carried(&of(from), &of(to), text, Style::Compact);
        assert_eq!(outcome, told, "{text}");
    }
}
