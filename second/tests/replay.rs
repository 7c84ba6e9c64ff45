//! `second replay` and the exit status of `second compare`.

use std::io::Write;
use std::process::{Command, Stdio};

fn second(args: &[&str], input: &[u8]) -> (String, Option<i32>) {
    let mut child = Command::new(env!("CARGO_BIN_EXE_second"))
        .args(args)
        .stdin(Stdio::piped())
        .stdout(Stdio::piped())
        .stderr(Stdio::null())
        .spawn()
        .unwrap();
    child.stdin.take().unwrap().write_all(input).unwrap();
    let output = child.wait_with_output().unwrap();
    (String::from_utf8(output.stdout).unwrap(), output.status.code())
}

#[test]
fn one_line_for_each_item() {
    let items: [[u32; 4]; 9] = [
        [5, 0, 0, 0],
        [1, 0, 12, 0],
        [32, 12, 1, 0],
        [128, 12, 0, 0],
        [129, 12, 0, 0],
        [129, 12, 0, 0],
        [153, 12, 0, 0],
        [153, 13, 0, 0],
        [10, 0, 0, 0],
    ];
    let mut bytes: Vec<u8> = items.iter().flatten().flat_map(|word| word.to_le_bytes()).collect();
    // A cut last item is no call.
    bytes.extend([1, 0, 0]);
    let (lines, status) = second(&["replay"], &bytes);
    assert_eq!(lines, "2 0\n0\n0\n0 2\n0 1 0 0\n7 0 0 0\n0 1 1 0 0 0 0 0\n3 0 0 0 0 0 0 0\n42\n42\n");
    assert_eq!(status, Some(0));
}

#[test]
fn accesses_to_registers_are_items_too() {
    let items: [[u32; 4]; 9] = [
        [160, 0, 0x111C, 0],
        [160, 0, 0x111E, 0],
        [1, 0, 12, 0],
        [160, 99, 0x1C1C, 7],
        [161, 99, 0x1C1C, 40],
        [64 + 11, 12, 0, 0],
        [161, 0, 0x1000, 0xFFFF_F801],
        [161, 0, 0x0810, 1],
        [161, 0, 0x8_0800, 1],
    ];
    let bytes: Vec<u8> = items.iter().flatten().flat_map(|word| word.to_le_bytes()).collect();
    let (lines, status) = second(&["replay"], &bytes);
    assert_eq!(lines, "2 0\n30 0\n0\n0 4\n0 0\n0 40\n0 2049\n32 0\n31 0\n");
    assert_eq!(status, Some(0));
}

#[test]
fn compare_exits_with_0_where_nothing_differs() {
    let (report, status) = second(&["compare", "--calls", "2000", "--seed", "3"], &[]);
    assert!(report.ends_with("no difference\n"));
    assert_eq!(status, Some(0));
    assert_eq!(second(&["compare", "--calls", "many", "--seed", "3"], &[]).1, Some(2));
}
