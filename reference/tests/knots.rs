//! The checker catches each knot that document 01 names and each machine of
//! the buyer's note, from calls and answers alone.

#[path = "knots/knotted.rs"]
mod knotted;

use cards_reference::checker::{check, Claim, Run};
use cards_reference::contended::Contention;
use cards_reference::record::MAX_CORES;
use cards_reference::replay::first_difference;
use knotted::{Knot, Knotted};

const SEEDS: std::ops::Range<u64> = 0..60;
const CALLS: usize = 400;

/// Contended runs of the knotted machine, which has all cores, without its
/// tables.
fn runs(knot: Knot) -> impl Iterator<Item = Run> {
    SEEDS.map(move |seed| {
        let run = Contention::new(seed).run(&mut Knotted::new(knot), CALLS);
        Run { cores: MAX_CORES as u32, tables: None, last_table: None, ..run }
    })
}

/// Every one of these claims is broken in some run.
fn caught(knot: Knot, claims: &[Claim]) {
    let reports: Vec<_> = runs(knot).map(|run| check(&run)).collect();
    for &claim in claims {
        let broken = reports.iter().any(|report| report.breaks(claim));
        assert!(broken, "{knot:?} breaks {claim:?} nowhere");
    }
}

#[test]
fn without_a_knot_nothing_is_broken() {
    for run in runs(Knot::None) {
        assert_eq!(check(&run).broken, []);
        assert_eq!(first_difference(&run), None);
    }
}

#[test]
fn knot_new_ticket_loses_its_turn() {
    caught(Knot::NewTicket, &[Claim::CommitsInTurn, Claim::StruckByEarlier]);
}

#[test]
fn knot_write_sets_only_misses_the_reader() {
    caught(Knot::WriteSetsOnly, &[Claim::ToldOnce, Claim::SerialReads, Claim::AbortsReported]);
}

#[test]
fn knot_no_tickets_lets_a_latecomer_strike() {
    let claims = [Claim::CommitsInTurn, Claim::StruckByEarlier, Claim::StrikesAtMostK];
    caught(Knot::NoTickets, &claims);
}

#[test]
fn knot_kept_sets_make_others_wait_for_a_dead_attempt() {
    caught(Knot::KeptSets, &[Claim::WaitsForEarlier]);
}

#[test]
fn knot_counted_twice_breaks_the_count() {
    caught(Knot::CountedTwice, &[Claim::AbortsReported]);
}

#[test]
fn buyer_waits_to_all() {
    caught(Knot::WaitsToAll, &[Claim::WaitsForEarlier, Claim::RoundsBound]);
}

#[test]
fn buyer_value_zero() {
    caught(Knot::ValueZero, &[Claim::SerialReads, Claim::StoodTogether]);
}

#[test]
fn buyer_moves_nothing() {
    caught(Knot::MovesNothing, &[Claim::SerialReads, Claim::StoodTogether]);
}

#[test]
fn buyer_serves_the_first_only() {
    caught(Knot::FirstOnly, &[Claim::SerialReads]);
}

#[test]
fn buyer_moves_nothing_shown_by_tables() {
    for knot in [Knot::MovesNothing, Knot::FirstOnly] {
        let run = Contention::new(3).run(&mut Knotted::new(knot), CALLS);
        assert!(check(&run).breaks(Claim::SerialTable), "{knot:?}");
    }
}

#[test]
fn buyer_invents_aborts() {
    caught(Knot::InventsAborts, &[Claim::AbortsReported]);
}

#[test]
fn buyer_waits_with_nobody_ahead() {
    caught(Knot::WaitsForNobody, &[Claim::WaitsForEarlier]);
}

#[test]
fn whoever_is_named_by_mistake_is_seen() {
    caught(Knot::NamesLeastCore, &[Claim::NamedFirst]);
    caught(Knot::NamesLast, &[Claim::NamedFirst]);
    caught(Knot::NamesSmallestTicket, &[Claim::NamedInConflict]);
    caught(Knot::NamesLater, &[Claim::NamedEarlier, Claim::NamedFirst]);
    caught(Knot::NamesIdle, &[Claim::NamedInProgress]);
}

#[test]
fn a_wrong_rule_for_read_only_ones_is_seen() {
    caught(Knot::ReaderWaits, &[Claim::ReadOnlyNeverWaits]);
    let passed = [Claim::CommitsInTurn, Claim::StruckByEarlier, Claim::StrikesAtMostK];
    caught(Knot::ReaderPassed, &passed);
    caught(Knot::ReaderRaises, &[Claim::Versions, Claim::StoodTogether]);
}

#[test]
fn a_wrong_rule_for_two_that_read_one_object_is_seen() {
    caught(Knot::ReadersConflict, &[Claim::WaitsForEarlier, Claim::NamedInConflict]);
    caught(Knot::ReadersStruck, &[Claim::ToldOnce, Claim::AbortsReported]);
}

#[test]
fn buyer_refuses_with_no_reason() {
    for knot in [Knot::RefusesAll, Knot::TicketsSpent] {
        for run in runs(knot) {
            assert!(first_difference(&run).is_some(), "{knot:?}");
        }
    }
}

#[test]
fn every_knot_shows_in_the_answers() {
    for knot in [
        Knot::NewTicket,
        Knot::WriteSetsOnly,
        Knot::NoTickets,
        Knot::KeptSets,
        Knot::CountedTwice,
        Knot::WaitsToAll,
        Knot::ValueZero,
        Knot::MovesNothing,
        Knot::FirstOnly,
        Knot::InventsAborts,
        Knot::WaitsForNobody,
        Knot::NamesLeastCore,
        Knot::NamesLast,
        Knot::NamesSmallestTicket,
        Knot::NamesLater,
        Knot::NamesIdle,
        Knot::ReaderWaits,
        Knot::ReaderPassed,
        Knot::ReaderRaises,
        Knot::ReadersConflict,
        Knot::ReadersStruck,
    ] {
        let differs = runs(knot).any(|run| first_difference(&run).is_some());
        assert!(differs, "{knot:?}");
    }
}
