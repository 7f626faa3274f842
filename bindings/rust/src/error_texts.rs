//! The texts of the library are those of this crate's errors.

use crate::errors::Refusal;
use crate::raw;
use crate::sys::{self, NagaCheckOutcome};
use std::collections::BTreeSet;
use std::error::Error;

/// What errors hold: small numbers, most of which stand for something, bits of capabilities, and others.
const VALUES: [u64; 13] = [
    0,
    0,
    1,
    1,
    2,
    3,
    4,
    8,
    40,
    78,
    0x1_0000,
    0x0400_0000,
    0xFFFF_FFFE,
];

/// What is in texts that no call's outcome has: scalars that need no capability, capabilities without a name, and the
/// address space whose pointers may lead to types of no fixed size.
const UNHEARD_OF: [&str; 4] = [
    "`scalar`",
    "::capability`",
    "Capabilities(0x",
    "not `Storage {",
];

/// The sets of flags that a text shows, each within `name(` and `)`.
fn sets_in<'a>(text: &'a str, name: &'a str) -> impl Iterator<Item = &'a str> {
    let shown = text.split(name).skip(1);
    shown.filter_map(|rest| rest.strip_prefix('(')?.split(')').next())
}

/// Whether a text is one of an outcome that some call may write. None has several capabilities at once, or flags without
/// a name.
fn is_heard_of(text: &str) -> bool {
    !UNHEARD_OF.iter().any(|it| text.contains(it))
        && !sets_in(text, "Capabilities").any(|set| set.contains(" | "))
        && !sets_in(text, "TypeFlags").any(|set| set != "0x0" && set.contains("0x"))
}

/// The text of a refusal, and of the errors within it.
fn text_of(refusal: &Refusal) -> String {
    let mut text = refusal.to_string();
    let mut within = refusal.source();
    while let Some(error) = within {
        text = format!("{text}: {error}");
        within = error.source();
    }
    text
}

/// The text that the library has of an outcome.
fn library_text_of(outcome: &NagaCheckOutcome) -> String {
    let mut buffer = vec![0; raw::error_text(outcome, &mut [])];
    assert_eq!(raw::error_text(outcome, &mut buffer), buffer.len());
    String::from_utf8(buffer).expect("texts are ASCII")
}

/// Compares the texts of an outcome. Returns whether it has one in this crate.
fn compare(outcome: &NagaCheckOutcome) -> bool {
    let Some(refusal) = Refusal::from_outcome(outcome) else {
        return false;
    };
    let text = text_of(&refusal);
    if !is_heard_of(&text) {
        return false;
    }
    assert_eq!(library_text_of(outcome), text, "{outcome:?}");
    true
}

/// Values in each place, the same ones each time.
fn values_of_round(round: u32) -> [u64; 5] {
    let mut state = u64::from(round);
    [(); 5].map(|()| {
        state = state
            .wrapping_mul(6_364_136_223_846_793_005)
            .wrapping_add(1_442_695_040_888_963_407);
        VALUES[(state >> 33) as usize % VALUES.len()]
    })
}

#[test]
fn each_error_has_the_text_of_the_crate() {
    let mut compared = BTreeSet::new();
    for numbers in 0..13 * 64 * 22 * 4 * 4 {
        let errors = [
            numbers / 13 % 64,
            numbers / 832 % 22,
            numbers / 18304 % 4,
            numbers / 73216,
        ];
        // An error of a number past 6 that is within another one holds no other.
        if errors[1] > 6 && errors[2..] != [0; 2] {
            continue;
        }
        // Errors within one that holds no other change nothing, and few of those that do hold values.
        let rounds = match errors[1..] {
            [0, 0, 0] => 400,
            [_, 0, 0] => 100,
            _ => 10,
        };
        for round in 0..rounds {
            let outcome = NagaCheckOutcome {
                index: round.into(),
                values: values_of_round(round),
                stage: numbers % 13,
                kind: round % 10,
                errors,
                expression: 7,
                ..NagaCheckOutcome::default()
            };
            if compare(&outcome) {
                compared.insert((outcome.stage, errors[0]));
            }
        }
    }
    // The errors of each stage: of expressions those of functions, and again of entry points.
    let values = 3 + 2 + 20 + 7 + 3 + 9;
    let declarations = 15 + 6 + 10;
    assert_eq!(compared.len(), values + 62 + 62 + 2 + declarations);
}

#[test]
fn each_name_is_that_of_the_crate() {
    let mut compared = 0;
    for numbers in 0..64 * 80 {
        let (error, value) = (numbers / 80, u64::from(numbers % 80));
        for (kind, first) in [(1, value), (2, 1 << (value % 64)), (3, value)] {
            let outcome = NagaCheckOutcome {
                values: [first, value % 8, value / 4 % 8, value % 2, value / 2 % 2],
                stage: sys::NAGA_CHECK_STAGE_FUNCTION,
                kind,
                errors: [error, 0, 0, 0],
                ..NagaCheckOutcome::default()
            };
            compared += u32::from(compare(&outcome));
        }
    }
    assert!(compared > 6000, "{compared}");
}

#[test]
fn each_scalar_that_needs_a_capability_has_the_name_of_the_crate() {
    let capabilities = [
        sys::NAGA_CHECK_CAPABILITY_FLOAT64,
        sys::NAGA_CHECK_CAPABILITY_SHADER_FLOAT16,
        sys::NAGA_CHECK_CAPABILITY_SHADER_INT64,
        sys::NAGA_CHECK_CAPABILITY_SHADER_INT16,
    ];
    for kind in [
        sys::NAGA_CHECK_KIND_SINT,
        sys::NAGA_CHECK_KIND_UINT,
        sys::NAGA_CHECK_KIND_FLOAT,
    ] {
        for (width, capability) in [2, 8]
            .into_iter()
            .flat_map(|it| capabilities.map(|of| (it, of)))
        {
            assert!(compare(&NagaCheckOutcome {
                values: [kind.into(), width, capability, 0, 0],
                stage: sys::NAGA_CHECK_STAGE_TYPE,
                errors: [
                    sys::NAGA_CHECK_TYPE_ERROR_WIDTH_ERROR,
                    sys::NAGA_CHECK_WIDTH_ERROR_MISSING_CAPABILITY,
                    0,
                    0
                ],
                ..NagaCheckOutcome::default()
            }));
        }
    }
}

#[test]
fn each_flag_and_built_in_value_has_the_name_of_the_crate() {
    for bits in 0..256 {
        assert!(compare(&NagaCheckOutcome {
            values: [bits, 255 - bits, 0, 0, 0],
            stage: sys::NAGA_CHECK_STAGE_GLOBAL_VARIABLE,
            errors: [
                sys::NAGA_CHECK_GLOBAL_VARIABLE_ERROR_MISSING_TYPE_FLAGS,
                0,
                0,
                0
            ],
            ..NagaCheckOutcome::default()
        }));
    }
    let mut compared = 0;
    for (error, first, second) in (7..22).flat_map(|it| (0..64).map(move |of| (it, of, of % 8))) {
        compared += u32::from(compare(&NagaCheckOutcome {
            values: [1, first, second, 0, 0],
            stage: sys::NAGA_CHECK_STAGE_INTERFACE,
            errors: [sys::NAGA_CHECK_ENTRY_POINT_ERROR_ARGUMENT, error, 0, 0],
            ..NagaCheckOutcome::default()
        }));
    }
    // Those with built-in values and with stages have as many as there are.
    assert!(compared >= 3 * 51 + 2 * 9 + 64 * 8, "{compared}");
}
