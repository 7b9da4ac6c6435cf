//! Of what is lent the last place can be read, and the one after it kills the
//! process.

use compare::lent::Lent;
use std::env;
use std::os::unix::process::ExitStatusExt;
use std::process::Command;

const SIGSEGV: i32 = 11;
/// Says to the child how far past the last place it reads.
const PAST: &str = "COMPARE_READ_PAST";

/// Reads a place of the lent list; in a child, since it may kill the process.
fn read<T: Copy + PartialEq>(test: &str, list: &[T], lend: fn(&[T]) -> Lent<T>) {
    if let Ok(past) = env::var(PAST) {
        let lent = lend(list);
        let place = list.len() - 1 + past.parse::<usize>().unwrap();
        unsafe { lent.pointer().add(place).read_volatile() };
        return;
    }
    for (past, signal) in [("0", None), ("1", Some(SIGSEGV))] {
        let mut child = Command::new(env::current_exe().unwrap());
        child.args(["--exact", test]).env(PAST, past);
        let status = child.output().unwrap().status;
        assert_eq!(status.signal(), signal, "{past} past the last place");
        assert_eq!(status.success(), signal.is_none());
    }
}

#[test]
fn sheet() {
    read("sheet", b"2\n0\n0\n0 1\n", Lent::new);
}

#[test]
fn pair_list() {
    read("pair_list", &[0_u16, 1, 2], Lent::new);
}

#[test]
fn hours_list() {
    read("hours_list", &[0_u16, 4095, 7], Lent::beside);
}

#[test]
fn both_lists_at_once() {
    let (list, hours) = (Lent::new(&[0_u16, 1]), Lent::beside(&[2_u16, 3, 4]));
    assert!(list.is(&[0, 1]) && hours.is(&[2, 3, 4]));
}
