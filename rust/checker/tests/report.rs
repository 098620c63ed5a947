//! "The report": its bytes, its buffer, and the lent buffers behind it.

mod common;

use checker::{write_report, AccessKind, Outcome, Refusal, Subject, Verdict, INTERVAL_WORDS};
use common::*;

const P1_REPORT: &str =
    "verdict=race\nrow=6\ngroup=0\nothergroup=0\nthread=1\nother=0\nkind=rw\nat=1\n\
    rows=6\nsteps=7\nsteps=6\nbarriers=0\nconflicts=0\ncell=2\ncell=1\ncell=1\nend=report\n";

fn ran(verdict: Verdict) -> Subject {
    Subject::Ran(Outcome {
        verdict,
        group: 0,
        rows: 1,
        barriers: 3,
        conflicts: 34,
    })
}

fn written(subject: Subject, steps: &[u32], cells: &[u32]) -> String {
    let mut out = [b'?'; 4_096];
    let len = write_report(subject, steps, cells, &[], &mut out).unwrap();
    assert!(out[len..].iter().all(|&byte| byte == b'?'));
    String::from_utf8(out[..len].to_vec()).unwrap()
}

#[test]
fn p1_prints_its_report() {
    assert_eq!(check(P1.as_bytes()).unwrap(), P1_REPORT);
}

#[test]
fn p2_prints_its_report() {
    let file = P1
        .replace("rows=7", "rows=8")
        .replace("row=16,4,0,0", "row=37,0,0,0\nrow=16,4,0,0");
    let report = "verdict=passed\nrow=-\ngroup=-\nothergroup=-\nthread=-\nother=-\nkind=-\nat=-\n\
        rows=8\nsteps=7\nsteps=7\nbarriers=1\nconflicts=0\ncell=2\ncell=2\ncell=1\nend=report\n";
    assert_eq!(check(file.as_bytes()).unwrap(), report);
}

#[test]
fn hyphens_stand_for_lines_without_meaning() {
    let (row, thread, other, at) = (4, 5, 6, 7);
    let tail = "rows=1\nsteps=2\nsteps=0\nbarriers=3\nconflicts=34\ncell=4294967295\nend=report\n";
    let kinds = [
        (AccessKind::Rw, "rw"),
        (AccessKind::Wr, "wr"),
        (AccessKind::Ww, "ww"),
        (AccessKind::Ra, "ra"),
        (AccessKind::Ar, "ar"),
        (AccessKind::Wa, "wa"),
        (AccessKind::Aw, "aw"),
    ];
    for (kind, word) in kinds {
        let race = Verdict::Race {
            row,
            other_group: 0,
            thread,
            other: Some(other),
            kind,
            at,
        };
        let head = format!(
            "verdict=race\nrow=4\ngroup=0\nothergroup=0\nthread=5\nother=6\nkind={word}\nat=7\n"
        );
        assert_eq!(written(ran(race), &[2, 0], &[u32::MAX]), head + tail);
    }
    let outside = Verdict::Outside { row, thread, at };
    let diverged = Verdict::Diverged { row, thread, other };
    for (verdict, head) in [
        (
            Verdict::Passed,
            "verdict=passed\nrow=-\ngroup=-\nothergroup=-\nthread=-\nother=-\nkind=-\nat=-\n",
        ),
        (
            outside,
            "verdict=outside\nrow=4\ngroup=0\nothergroup=-\nthread=5\nother=-\nkind=-\nat=7\n",
        ),
        (
            diverged,
            "verdict=diverged\nrow=4\ngroup=0\nothergroup=-\nthread=5\nother=6\nkind=-\nat=-\n",
        ),
        (
            Verdict::Spent { row },
            "verdict=spent\nrow=4\ngroup=0\nothergroup=-\nthread=-\nother=-\nkind=-\nat=-\n",
        ),
    ] {
        let report = written(ran(verdict), &[2, 0], &[u32::MAX]);
        assert_eq!(report, head.to_string() + tail);
    }
}

#[test]
fn refusals_have_a_report_without_cells() {
    let subject = Subject::Refused(Refusal {
        number: 11,
        place: 1,
    });
    let report = "refused=11\nplace=1\nend=report\n";
    for steps in [0, 1, 32, 33, 1_025] {
        let steps = vec![7; steps];
        assert_eq!(written(subject, &steps, &[]), report);
        assert_eq!(written(subject, &steps, &[0; 1_025]), report);
        let short = write_report(subject, &steps, &[], &[], &mut [0; 29]).unwrap_err();
        assert_eq!((short.number, short.place), (22, report.len() as u32));
    }
}

/// The refusal of a launch that ran, with so many counts and cells; the buffer
/// must be kept.
fn refused(steps: usize, cells: usize, room: usize) -> (u32, u32) {
    let (steps, cells) = (vec![1; steps], vec![0; cells]);
    let mut out = vec![b'?'; room];
    let refusal = write_report(ran(Verdict::Passed), &steps, &cells, &[], &mut out).unwrap_err();
    assert!(out.iter().all(|&byte| byte == b'?'));
    (refusal.number, refusal.place)
}

#[test]
fn r23_where_cells_or_counts_are_out_of_their_limits() {
    for room in [0, 30, 40_000] {
        for steps in [0, 1, 2, 32, 33, 256, 257, 1_024] {
            assert_eq!(refused(steps, 0, room), (23, 0));
            assert_eq!(refused(steps, 1_025, room), (23, 0));
        }
        for cells in [1, 2, 32, 33, 1_023, 1_024] {
            for steps in [0, 257, 258, 512, 1_024, 1_025] {
                assert_eq!(refused(steps, cells, room), (23, 0));
            }
        }
    }
}

#[test]
fn every_number_of_counts_up_to_256_is_written_in_order() {
    for threads in 1..=256 {
        let steps: Vec<u32> = (0..threads).map(|thread| 1_000 - thread).collect();
        let lines: String = steps.iter().map(|n| format!("steps={n}\n")).collect();
        let report = written(ran(Verdict::Spent { row: 0 }), &steps, &[9]);
        let head = "verdict=spent\nrow=0\ngroup=0\nothergroup=-\nthread=-\nother=-\nkind=-\nat=-\nrows=1\n";
        let tail = "barriers=3\nconflicts=34\ncell=9\nend=report\n";
        assert_eq!(report, head.to_string() + &lines + tail);
    }
}

#[test]
fn r22_names_the_length_needed() {
    let subject = ran(Verdict::Spent { row: 4 });
    for (steps, cells) in [(1, 1), (256, 1), (1, 1_024), (256, 1_024)] {
        let (steps, cells) = (vec![u32::MAX; steps], vec![u32::MAX; cells]);
        let refusal = write_report(subject, &steps, &cells, &[], &mut []).unwrap_err();
        assert_eq!(refusal.number, 22);
        let needed = refusal.place as usize;
        assert!(needed <= 24_576);
        let mut out = vec![b'?'; needed - 1];
        assert_eq!(
            write_report(subject, &steps, &cells, &[], &mut out),
            Err(refusal)
        );
        assert!(out.iter().all(|&byte| byte == b'?'));
        out.push(b'?');
        assert_eq!(
            write_report(subject, &steps, &cells, &[], &mut out),
            Ok(needed)
        );
        assert!(out.ends_with(b"end=report\n"));
    }
}

#[test]
fn the_lent_log_is_packed_and_the_rest_kept() {
    let (mut cells, mut log) = (vec![5; 1_024], vec![6; 8_192]);
    let (mut list, mut out) = (vec![JUNK; INTERVAL_WORDS], vec![b'?'; 30_000]);
    let len =
        check_without_global(P1.as_bytes(), &mut cells, &mut log, &mut list, &mut out).unwrap();
    assert_eq!(&out[..len], P1_REPORT.as_bytes());
    assert!(out[len..].iter().all(|&byte| byte == b'?'));
    assert_eq!(&cells[..4], [2, 1, 1, 5]);
    assert!(cells[3..].iter().all(|&word| word == 5));
    // Thread 0 read cells 1 and 0 and wrote 2 to 0; thread 1 read 2 and 1.
    // Nobody added, and there is no mark.
    assert_eq!(&log[..6], [0b01, 0b11, 0b10, 0b01, 0, 0]);
    assert_eq!(&log[6..15], [0, 0, 0, 2, 0, 0, 0, 0, 0]);
    assert_eq!(&log[15..24], [0; 9]);
    assert!(log[24..].iter().all(|&word| word == 6));
}

#[test]
fn the_widest_report_fits_the_room() {
    let mut file =
        "kernel=1\nthreads=32\ncells=1024\ngroups=1\nglobal=0\nlimit=1000000\nrows=0\n".to_string();
    file += &"cell=4294967295\n".repeat(1_024);
    file += "end=kernel\n";
    let report = check(file.as_bytes()).unwrap();
    assert!(report.len() > 16_384 && report.len() <= 24_576);
}
