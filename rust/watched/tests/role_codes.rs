//! The engine on random files in which all role codes are in use.

use compare::checks::role_codes::check_random;
use compare::Side;
use watched::Watched;

#[test]
fn random_files_over_all_roles() {
    check_random(Watched::answering());
}
