//! The tests that the plain program and the engine have in common: one list, used once for each of them.

use crate::checks::{Answering, AnsweringWanted, Cataloguing, Converting};
use plain::Lent;

/// One of those who are tested. Each call gives a new function, with areas of its own if it has any.
pub trait Side {
    /// It decides files.
    fn answering() -> impl Answering;

    /// It decides files with lists of wanted rows.
    fn wanting() -> impl AnsweringWanted;

    /// It makes catalogue pages.
    fn cataloguing() -> impl Cataloguing;

    /// It converts drafts.
    fn converting() -> impl Converting;

    /// It decides files, and each answer is the plain program's.
    fn agreeing() -> impl Answering {
        let mut answer = Self::answering();
        move |file: &[u8], lent: &Lent| {
            let given = answer(file, lent);
            assert_eq!(given, plain::answer(file, lent), "{file:02x?} in {lent:?}");
            given
        }
    }
}

/// The plain program.
pub struct Plain;

impl Side for Plain {
    fn answering() -> impl Answering {
        plain::answer
    }

    fn wanting() -> impl AnsweringWanted {
        plain::answer_wanting
    }

    fn cataloguing() -> impl Cataloguing {
        plain::catalogue
    }

    fn converting() -> impl Converting {
        plain::convert
    }

    /// With itself it agrees.
    fn agreeing() -> impl Answering {
        plain::answer
    }
}

/// The tests of a [`Side`], a module for each subject: `suite!(compare::Plain);`.
///
/// A line is a test: its name, the function of [`checks`](mod@crate::checks) that it calls, what of the side it asks, and whether it has a
/// thread with a stack of [`STACK`](crate::STACK) bytes.
#[macro_export]
macro_rules! suite {
    ($side:ty) => {
        $crate::suite! { @tests $side;
            vectors {
                every_case_prints_what_is_expected: vectors::check_cases(answering) on STACK;
                every_draft_becomes_what_is_expected: vectors::check_draft_cases(converting) on STACK;
                every_case_with_wanted_rows: vectors::check_wanted_cases(wanting) on STACK;
                every_catalogue: vectors::check_catalogue_cases(cataloguing) on STACK;
            }
            samples {
                each_sample_prints_what_is_beside_it: samples::check_samples(answering);
                the_area_that_was_short_is_enlarged: samples::check_needs(answering);
            }
            first_rows {
                every_first_row: first_rows::check_first_rows(answering, converting);
                tables_without_names: first_rows::check_tables_without_names(answering, converting);
                tables_of_inclusions: first_rows::check_tables_of_inclusions(answering, converting);
            }
            small_worlds {
                verdicts_agree_with_small_worlds: small_worlds::check_random_files(answering);
            }
            areas {
                different_areas_never_contradict: areas::check_different_areas(answering);
                areas_just_enough_or_one_byte_short: areas::check_just_enough(answering);
            }
            record_order {
                the_first_record_without_a_place_decides: records::short_runs::check_record_order(answering);
                in_long_runs_too: records::long_runs::check_long_runs(answering);
                in_runs_of_thousands_of_records: records::long_runs::check_longest_runs(answering);
                at_most_4096_records_are_told: records::long_runs::check_most_records(answering);
            }
            climbs {
                of_random_files: records::climbs::check_random_climbs(agreeing);
                of_long_runs: records::climbs::check_long_climbs(agreeing);
            }
            listings {
                examples_by_hand: listings::check_listings_by_hand(answering);
                every_row_that_holds_and_no_other: listings::check_random_listings(answering);
            }
            role_codes {
                every_pair_of_codes: role_codes::check_pairs(answering);
                the_role_of_the_root_is_no_rows: role_codes::check_root(answering);
            }
            role_inclusions {
                small_files_by_hand: inclusions::narrower_roles::check_by_hand(answering);
                every_single_inclusion: inclusions::narrower_roles::check_single_inclusions(answering);
                every_single_verdict: inclusions::narrower_roles::check_single_verdicts(answering);
                the_longest_chains: inclusions::narrower_roles::check_longest_chains(answering);
                the_role_of_the_root_is_narrower_than_none: inclusions::narrower_roles::check_root(answering);
                random_files: inclusions::random_files::check_random_files(answering);
                rows_that_serve_as_something: inclusions::misplaced::check_by_hand(answering, converting);
                random_rows_that_serve_as_something: inclusions::misplaced::check_random(answering, converting);
                small_drafts_by_hand: inclusions::drafts::check_by_hand(converting);
                drafts_of_64_rows: inclusions::drafts::check_most_rows(converting);
                random_drafts: inclusions::drafts::check_random_drafts(converting, answering);
            }
            wanted {
                small_files_by_hand: wanted::check_by_hand(wanting);
                lists_of_tens_of_thousands: wanted::check_long_lists(wanting) on STACK;
                random_lists: wanted::check_random_lists(answering, wanting);
            }
            catalogue {
                small_files_by_hand: catalogues::check_by_hand(cataloguing);
                thirty_two_names_and_chains: catalogues::check_most_names(cataloguing) on STACK;
                large_examples: catalogues::check_large_examples(cataloguing, wanting);
                random_pages: catalogues::check_random_pages(cataloguing, wanting);
            }
            drafts {
                small_drafts_become_what_is_expected: drafts::small::check_small_drafts(converting);
                results_mean_what_the_drafts_mean: drafts::results::check_random_drafts(converting);
                results_of_4096_bytes_and_more: drafts::results::check_bounds(converting);
                rows_that_very_many_ways_lead_to_are_soon_converted: drafts::results::check_towers(converting) on STACK;
                verdicts_are_true_of_the_drafts: drafts::verdicts::check_draft_worlds(converting, answering);
            }
        }
    };
    (@tests $side:ty; $($subject:ident {
        $($name:ident: $($check:ident)::+($($asked:ident),+) $(on $stack:ident)?;)+
    })+) => {
        $(mod $subject {
            $(#[test]
            fn $name() {
                let check = || $crate::checks::$($check)::+($(<$side as $crate::Side>::$asked()),+);
                $crate::suite!(@run check $(on $stack)?);
            })+
        })+
    };
    (@run $check:ident) => { $check() };
    (@run $check:ident on $stack:ident) => { $crate::on_stack($crate::$stack, $check) };
}
