//! Schedules of 512 commands: jumps with nine address bits, the end of the RAM, and the layout number of the memory.

mod bench;
use bench::*;
use second::layout::*;
use second::words;

const QUIET: [u32; 4] = [0; 4];

/// Channel 1 scheduled and running with parity off, these commands at these addresses.
fn running(commands: &[(u32, u32)]) -> Bench {
    let mut bench = Bench::new(1);
    bench.setting(TRANSMITTER, 1);
    bench.setting(TRANSMIT_MODE, 2);
    bench.setting(PARITY, 0);
    for &(address, command) in commands {
        bench.done(SCHEDULE_WRITE, address, command);
    }
    bench.done(TRIGGER, 0, 0);
    bench
}

/// State and command address of channel 1.
fn place(bench: &Bench) -> [u32; 2] {
    [bench.mem[block(1) + STATE], bench.mem[block(1) + COMMAND]]
}

#[test]
fn the_sizes_of_the_documents() {
    assert_eq!([MODULE_WORDS, BLOCK_WORDS], [17, 4_923]);
    assert_eq!([COMMANDS, MESSAGES], [512, 256]);
    assert_eq!(SCHEDULE_RAM + COMMANDS, BLOCK_WORDS, "the schedule RAM is the block's last area");
    assert_eq!(LAYOUT, 16, "the layout number is the module part's last word");
    assert_eq!([need(1), need(3), need(12)], [4_940, 14_786, 59_093]);
}

#[test]
fn command_addresses_run_to_511_and_message_addresses_to_255() {
    let mut bench = Bench::new(2);
    for address in [0, 255, 256, 511] {
        bench.done(SCHEDULE_WRITE, address, 0xABCD_0000 | address);
    }
    for address in [0, 255, 256, 511] {
        assert_eq!(bench.done(SCHEDULE_READ, address, 0), [0xABCD_0000 | address]);
    }
    assert_eq!(bench.mem[block(2) - 1], 0xABCD_01FF, "command 511 is the block's last word");
    for op in [SCHEDULE_WRITE, SCHEDULE_READ] {
        bench.refused(4, op, 1, 512, 0);
    }
    for op in [MESSAGE_WRITE, MESSAGE_READ] {
        bench.done(op, 255, 0);
        for address in [256, 257, 511, 512] {
            bench.refused(4, op, 1, address, 0);
        }
    }
}

#[test]
fn jumps_to_256_and_above_are_real() {
    for target in [255, 256, 257, 300, 510, 511] {
        let mut bench = running(&[(0, 0x6000 | target), (target, 0x1005)]);
        bench.done(MESSAGE_WRITE, 5, 0xA);
        assert_eq!(bench.done(STEP, 0, 0), QUIET);
        assert_eq!(place(&bench), [1, target]);
        assert_eq!(bench.done(STEP, 0, 0), [2, 0xA, 0, 0]);
    }
    // Other bits are ignored.
    let mut bench = running(&[(0, 0xFFFF_6FFF)]);
    bench.done(STEP, 0, 0);
    assert_eq!(place(&bench), [1, 511]);
    // A message's and a gap's address has eight bits.
    let mut bench = running(&[(0, 0x1105), (1, 0x2105)]);
    bench.done(MESSAGE_WRITE, 5, 0xA);
    assert_eq!(bench.done(STEP, 0, 0), [2, 0xA, 0, 0]);
    assert_eq!(bench.done(STEP, 0, 0), [3, 0xA, 0, 0]);
}

#[test]
fn the_schedule_runs_on_behind_255() {
    for command in [0x1000, 0x2000, 0x3000, 0x5000] {
        let mut bench = running(&[(0, 0x60FF), (255, command)]);
        bench.done(STEP, 0, 0);
        bench.done(STEP, 0, 0);
        assert_eq!(place(&bench), [1, 256]);
    }
    let mut bench = running(&[(0, 0x60FF), (255, 0x4000)]);
    bench.done(STEP, 0, 0);
    bench.done(STEP, 0, 0);
    assert_eq!(place(&bench), [2, 256], "a pause at 255 waits at 256");
}

#[test]
fn the_implied_stop_is_behind_511() {
    for command in [0x0000, 0x1000, 0x2000, 0x3000, 0x4000, 0x5000, 0x7000] {
        let mut bench = running(&[(0, 0x61FF), (511, command)]);
        bench.done(STEP, 0, 0);
        assert_eq!(place(&bench), [1, 511]);
        let output = bench.done(STEP, 0, 0);
        assert_eq!(place(&bench), [0, 0], "idle at command 0 in the same step");
        if command == 0x7000 {
            assert_eq!(output, [5, 511, 0, 0]);
        }
    }
    for target in [0, 255, 256, 511] {
        let mut bench = running(&[(0, 0x61FF), (511, 0x6000 | target)]);
        bench.done(STEP, 0, 0);
        bench.done(STEP, 0, 0);
        assert_eq!(place(&bench), [1, target], "only a jump there goes to its target");
    }
}

#[test]
fn a_schedule_of_512_interrupts_runs_once() {
    let mut bench = running(&[]);
    for address in 0..512 {
        bench.done(SCHEDULE_WRITE, address, 0x5000);
    }
    for address in 0..512 {
        assert_eq!(place(&bench), [1, address]);
        bench.done(STEP, 0, 0);
    }
    assert_eq!(place(&bench), [0, 0]);
}

#[test]
fn power_up_writes_the_layout_number_and_module_reset_leaves_it() {
    let mut bench = Bench::on(vec![1; need(2)]);
    bench.refused(2, MODULE_RESET, 0, 0, 0);
    bench.done(POWER_UP, 2, 0);
    assert_eq!(bench.mem[LAYOUT], 2);
    bench.done(MODULE_RESET, 0, 0);
    assert_eq!(bench.mem[LAYOUT], 2);
    for number in [0, 1, 3, 258, u32::MAX] {
        bench.overwrite(LAYOUT, number);
        for op in [MODULE_RESET, STAMP_READ, STATUS_READ] {
            bench.refused(2, op, 1, 0, 0);
        }
    }
    bench.overwrite(LAYOUT, 2);
    bench.latch();
}

/// Memory of a module part of 16 words and blocks of 4,667, as power-up left it, with the receivers on or off.
fn old_memory(count: usize, receiver: u32) -> Vec<u32> {
    let mut mem = vec![0; 16 + count * 4_667];
    mem[..4].copy_from_slice(&[count as u32, 0, 0, 5]);
    for channel in 0..count {
        let settings = [receiver, 0, 1, 0, 0, 0, 0, 0, 255, 128, 32, 4];
        mem[16 + channel * 4_667..][..12].copy_from_slice(&settings);
    }
    mem
}

/// Old memory isn't converted: it is short, or, with words lent behind it, the receiver of its first channel stands where the layout number is.
#[test]
fn memory_of_the_old_layout_is_refused() {
    for (count, receiver) in (1..=12).flat_map(|count| [(count, 0), (count, 1)]) {
        for beyond in [0, 2] {
            let mut mem = old_memory(count, receiver);
            for (lent, refusal) in [(mem.len(), 1), (need(count as u32) - 1, 1), (need(count as u32), 2)] {
                mem.resize(lent, beyond);
                let before = mem.clone();
                for (op, channel) in [(MODULE_RESET, 0), (STAMP_READ, 0), (STATUS_READ, 1), (STEP, count as u32)] {
                    assert_eq!(words::perform(&mut mem, op, channel, 0, 0)[0], refusal);
                    assert_eq!(Bench::on(mem.clone()).call(op, channel, 0, 0)[0], refusal);
                }
                assert!(mem == before);
            }
            assert_eq!(words::perform(&mut mem, POWER_UP, 0, count as u32, 0), [0]);
            assert_eq!(mem, Bench::new(count as u32).mem);
        }
    }
}
