//! A job's bytes.

use crate::{keshtiwol, written};

#[test]
fn the_bytes_of_a_job() {
    let jobs = [
        ("0", "01 00\n"),
        ("127", "01 7F\n"),
        ("128", "01 80 01\n"),
        ("200", "01 C8 01\n"),
        ("14074000", "01 90 81 DB 06\n"),
        ("4294967295", "01 FF FF FF FF 0F\n"),
    ];
    for (number, bytes) in jobs {
        assert_eq!(written(&["job", number], b""), bytes);
        assert!(written(&["list", bytes, "00"], b"").contains(&format!("\n0 job {number}\n")));
    }
}

#[test]
fn what_is_no_jobs_number() {
    for number in ["4294967296", "99999999999999999999999", "1.5", "14_074_000", "x", ""] {
        let said = keshtiwol(&["job", number], b"");
        assert_eq!((said.status, said.out.as_str()), (2, ""));
        let words = format!("a job's number is one of 0 to 4294967295, not '{number}'");
        assert_eq!(said.error, format!("keshtiwol: {words}\n'keshtiwol --help' tells more\n"));
    }
}
