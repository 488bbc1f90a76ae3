//! Request (ii), Auto-ID at the machine, which is section 6.8 of the manual. Telegrams and replies are worked out
//! by hand. The first nine bytes of a write of D2h at 31 give CC and the new number, as 01 ^ 1F ^ D2 = CC; a reply
//! to it adds its status word.

mod common;
use common::{code_of, Desk, READ, WRITE};
use reference::head::Head;
use reference::line::{Line, Refusal};
use reference::telegram::{BROADCAST, TELEGRAM_LENGTH};

/// CC ^ 05. With no bit in the status word the reply is the same.
const OFFER_OF_5: &str = "011FD2000000000005C9";
const ADOPTED_5: &str = "ok 011FD2000000000005C9";
/// CC ^ 06.
const OFFER_OF_6: &str = "011FD2000000000006CA";
/// 1E ^ FD = E3, E3 ^ 01 ^ 82.
const BELOW_LOW: &str = "011FFD00000000018260";
/// E3 ^ 02 ^ 82.
const ABOVE_HIGH: &str = "011FFD00000000028263";
/// E3 ^ 80.
const DAMAGED: &str = "011FFD00000000008063";
/// At 5: 01 ^ 05 ^ FD ^ 85.
const NOT_AT_31: &str = "0105FD0000000000857C";

const READ_00H_AT_5: &str = "00050000000000000005";
const READ_00H_AT_31: &str = "001F000000000000001F";
/// 05 ^ 05, and 1F ^ 1F.
const STORED_5: &str = "00050000000000000500";
const STORED_31: &str = "001F0000000000001F00";

/// Heads at these numbers, and an offer of 5 to those at 31.
fn with_offer(nodes: &[u32]) -> Desk {
    let mut desk = Desk::with_heads(nodes);
    assert_eq!(desk.send(OFFER_OF_5), "");
    desk
}

/// That the only head still has its offer of 5, with nothing in its status word.
fn assert_offer(desk: &mut Desk, reason: &str) {
    assert_eq!(desk.line("keys 0 4"), ADOPTED_5, "{reason}");
    assert_eq!(desk.send(READ_00H_AT_5), STORED_5, "{reason}");
}

/// That the only head has none: up is bit 15 and no more, and it stays at 31.
fn assert_no_offer(desk: &mut Desk, reason: &str) {
    assert_eq!(desk.line("keys 0 4"), "ok", "{reason}");
    assert_eq!(desk.status(), 0x8000, "{reason}");
}

// The story.

/// 6.8: all at 31 are sent the number, the one at which the key is pressed takes it and replies from 31, "all other
/// devices do not react", and "the procedure may be repeated until all devices have received the desired Node-ID".
#[test]
fn two_heads_at_31_get_5_and_6() {
    let mut desk = Desk::with_heads(&[31, 31]);
    assert_eq!(desk.send(READ_00H_AT_31), "collision 2");
    assert_eq!(desk.send(OFFER_OF_5), "");
    assert_eq!(desk.line("keys 1 4"), ADOPTED_5);
    assert_eq!(desk.send(READ_00H_AT_5), STORED_5);
    // "In order to detect any other devices with node ID 1Fh".
    assert_eq!(desk.send(READ_00H_AT_31), STORED_31);

    assert_eq!(desk.send(OFFER_OF_6), "");
    assert_eq!(desk.line("keys 0 4"), "ok 011FD2000000000006CA");
    assert_eq!(desk.send(READ_00H_AT_5), STORED_5);
    assert_eq!(desk.send("00060000000000000006"), "00060000000000000600");
    assert_eq!(desk.send(READ_00H_AT_31), "");
}

/// "All other devices do not react": both remember, and the other keeps its offer until its own key is pressed.
#[test]
fn the_other_heads_keep_their_offers() {
    let mut desk = with_offer(&[31, 31, 31]);
    assert_eq!(desk.line("keys 0 4"), ADOPTED_5);
    assert_eq!(desk.send(READ_00H_AT_31), "collision 2");
    // One of them restarts, which concerns no other.
    desk.ok("power 1");
    assert_eq!(desk.line("keys 1 4"), "ok");
    assert_eq!(desk.line("keys 2 4"), ADOPTED_5);
    assert_eq!(desk.send(READ_00H_AT_5), "collision 2");
    // Up is held, bit 15.
    assert_eq!(desk.send(READ_00H_AT_31), "001F0080000000001F80");
}

/// A key is its own head's: up at a head that has no offer adopts no other's.
#[test]
fn a_key_at_another_head_adopts_nothing() {
    let mut desk = with_offer(&[31, 12]);
    desk.ok("keys 1 4");
    assert_offer(&mut desk, "up at head 1");
}

// The write of D2h.

/// "Is remembered without a reply", and that is all: no bit of the status word, no stored number, no input error.
#[test]
fn an_offer_is_remembered_without_a_reply() {
    let mut desk = with_offer(&[31]);
    assert_eq!(desk.status(), 0);
    assert_eq!(desk.send(READ_00H_AT_31), STORED_31);
    assert_eq!(desk.send(READ_00H_AT_5), "");
    assert_eq!(desk.read(0x96), 0);
    assert_offer(&mut desk, "after reads");
}

/// "1 to 31".
#[test]
fn the_least_and_the_greatest_number_on_offer() {
    let mut desk = Desk::with_heads(&[31]);
    // CC ^ 01, and at 1: 01 ^ 01.
    assert_eq!(desk.send("011FD2000000000001CD"), "");
    assert_eq!(desk.line("keys 0 4"), "ok 011FD2000000000001CD");
    assert_eq!(desk.send("00010000000000000001"), "00010000000000000100");
    assert_eq!(desk.send(READ_00H_AT_31), "");
}

/// An offer of 31 is as good as any: the head replies and restarts, at 31 as before.
#[test]
fn an_offer_of_31_is_legal() {
    let mut desk = Desk::with_heads(&[31]);
    desk.write_with(0xFB, 1 << 2, 7);
    // CC ^ 1F; in the reply bit 2, set point 1 valid, D3 ^ 04.
    assert_eq!(desk.send("011FD200000000001FD3"), "");
    assert_eq!(desk.line("keys 0 4"), "ok 011FD200040000001FD7");
    assert_eq!(desk.send(READ_00H_AT_31), STORED_31);
    assert_eq!(desk.read(0xFB), 0);
    // The offer is gone, and the restart has forgotten that up is down.
    assert_no_offer(&mut desk, "adopted");
}

/// "The range gives 01 82 or 02 82", of all four data bytes, which are unsigned.
#[test]
fn out_of_range() {
    for (offer, reply) in [
        ("011FD2000000000000CC", BELOW_LOW),
        // 32, 127, 255: CC ^ 20, CC ^ 7F, CC ^ FF.
        ("011FD2000000000020EC", ABOVE_HIGH),
        ("011FD200000000007FB3", ABOVE_HIGH),
        ("011FD20000000000FF33", ABOVE_HIGH),
        // The low byte alone would be 5, and so would the high one: CC ^ 01 ^ 05, CC ^ 05.
        ("011FD2000000000105C8", ABOVE_HIGH),
        ("011FD2000005000000C9", ABOVE_HIGH),
        // CC ^ 80 ^ 05, and four times FF.
        ("011FD200008000000549", ABOVE_HIGH),
        ("011FD20000FFFFFFFFCC", ABOVE_HIGH),
    ] {
        let mut desk = Desk::with_heads(&[31]);
        assert_eq!(desk.send(offer), reply);
        assert_eq!(desk.read(0x96), 1);
        assert_no_offer(&mut desk, offer);
    }
}

/// "A value outside the range drops the offer, which goes before document 01's rule on what a refused telegram
/// changes"; what that rule has besides, the input list, holds.
#[test]
fn a_value_out_of_range_drops_the_offer() {
    for (illegal, reply) in [("011FD2000000000000CC", BELOW_LOW), ("011FD2000000000020EC", ABOVE_HIGH)] {
        let mut desk = with_offer(&[31]);
        assert_eq!(desk.send(illegal), reply);
        assert_eq!(desk.read(0x96), 1);
        assert_no_offer(&mut desk, illegal);
    }
}

/// Both heads at 31 refuse it, so that no offer is left on the line.
#[test]
fn a_value_out_of_range_drops_the_offers_of_all_heads_at_31() {
    let mut desk = with_offer(&[31, 31]);
    assert_eq!(desk.send("011FD2000000000020EC"), "collision 2");
    assert_eq!(desk.line("keys 0 4"), "ok");
    assert_eq!(desk.line("keys 1 4"), "ok");
}

/// The last number that was remembered is the one.
#[test]
fn a_second_offer_replaces_the_first() {
    let mut desk = with_offer(&[31]);
    assert_eq!(desk.send(OFFER_OF_6), "");
    assert_eq!(desk.line("keys 0 4"), "ok 011FD2000000000006CA");
    // And one after a value out of range counts like the first.
    let mut desk = with_offer(&[31]);
    assert_eq!(desk.send("011FD2000000000020EC"), ABOVE_HIGH);
    assert_eq!(desk.send(OFFER_OF_5), "");
    assert_offer(&mut desk, "offered anew");
}

/// Only a write at this head that is refused for its range drops the offer. What is damaged, for another node,
/// broadcast, read or no command does not, nor does a refusal that is not D2h's; no other telegram does either.
#[test]
fn what_leaves_the_offer_alone() {
    for (telegram, reply) in [
        // Reads, 1F ^ D2 = CD and CD ^ 20; the reply 1F ^ FD ^ 02 ^ 84.
        ("001FD2000000000000CD", "001FFD00000000028464"),
        ("001FD2000000000020ED", "001FFD00000000028464"),
        // Broadcasts of 6, of 0 and, to node 0, of 32: 02 ^ 1F ^ D2 = CF, 02 ^ D2 = D0.
        ("021FD2000000000006C9", ""),
        ("021FD2000000000000CF", ""),
        ("0200D2000000000020F0", ""),
        // 6 and 32 with a bit of the check sum hit, CA and EC being right; a broadcast of 32 likewise, EF.
        ("011FD2000000000006CB", DAMAGED),
        ("011FD2000000000020ED", DAMAGED),
        ("021FD2000000000020EE", ""),
        // Node 12: 01 ^ 0C ^ D2 = DF.
        ("010CD2000000000006D9", ""),
        ("010CD2000000000000DF", ""),
        ("010CD2000000000020FF", ""),
        // Command 03h: 03 ^ 1F ^ D2 ^ 20 = EE; the reply 03 ^ 1F ^ FD ^ 84.
        ("031FD2000000000020EE", "031FFD00000000008465"),
        // Refused, but not D2h: 04h 90, unknown 63h (00 83), write to read only 65h (01 84).
        ("011F0400000000005A40", ABOVE_HIGH),
        ("011F630000000000007D", "011FFD00000000008360"),
        ("011F650000000000007B", "011FFD00000000018466"),
        // Obeyed: 20h to 7; 00h to 12, which the adoption then replaces; A8h 1 as a broadcast; FBh with bit 5.
        ("011F2000000000000739", "011F2000000000000739"),
        ("011F0000000000000C12", "011F0000000000000C12"),
        ("0200A8000000000001AB", ""),
        ("011FFB002000000000C5", "011FFB000000000000E5"),
    ] {
        let mut desk = with_offer(&[31]);
        assert_eq!(desk.send(telegram), reply);
        assert_offer(&mut desk, telegram);
    }
}

/// Document 01 has FBh and FFh alone take the control word: bit 5 of an offer acknowledges nothing.
#[test]
fn the_control_word_of_an_offer_is_ignored() {
    let mut desk = Desk::with_heads(&[31]);
    for _ in 0..3 {
        desk.damaged(READ, 31);
    }
    // C9 ^ 02 ^ 34: bits 9, 5, 4 and 2.
    assert_eq!(desk.send("011FD2023400000005FF"), "");
    assert_eq!(desk.status(), 0x0080);
    assert_eq!(desk.read(0xFD), 0x80);
}

/// "A read 02 84", at 31 and elsewhere, as check 5 goes before check 6.
#[test]
fn a_read_is_one_of_write_only() {
    let mut desk = Desk::with_heads(&[31, 5]);
    assert_eq!(desk.send("001FD2000000000000CD"), "001FFD00000000028464");
    // At 5: 05 ^ D2 = D7; the reply 05 ^ FD ^ 02 ^ 84.
    assert_eq!(desk.send("0005D2000000000000D7"), "0005FD0000000002847E");
}

/// D2h may not be broadcast: silence, nothing is remembered and nothing listed.
#[test]
fn a_broadcast_offers_nothing() {
    let mut desk = Desk::with_heads(&[31]);
    assert_eq!(desk.telegram(BROADCAST, 31, 0xD2, 0, 5), "");
    assert_eq!(desk.telegram(BROADCAST, 0, 0xD2, 0, 0), "");
    assert_eq!(desk.read(0x96), 0);
    assert_no_offer(&mut desk, "a broadcast");
}

/// An offer draws no reply, but it is a sound telegram: two damaged, an offer, two damaged are no error.
#[test]
fn an_offer_parts_damaged_telegrams() {
    let mut desk = Desk::with_heads(&[31]);
    for _ in 0..2 {
        assert_eq!(code_of(&desk.damaged(READ, 31)), 0x0080);
    }
    assert_eq!(desk.send(OFFER_OF_5), "");
    for _ in 0..2 {
        assert_eq!(code_of(&desk.damaged(READ, 31)), 0x0080);
    }
    assert_eq!(desk.read(0x80), 0);
}

/// And it starts the monitor, as does a D2h that is refused, whether the monitor ran before or not.
#[test]
fn an_offer_starts_the_monitor() {
    for offer in [OFFER_OF_5, "011FD2000000000020EC", "010CD2000000000006D9", "021FD2000000000006C9"] {
        for (tick, errors) in [(159, 0), (160, 1)] {
            for restarts in [false, true] {
                let mut desk = Desk::with_heads(&[31]);
                desk.write(0x02, 1);
                if restarts {
                    desk.ok("power 0");
                }
                desk.time = 60;
                desk.send(offer);
                desk.ok(&format!("tick {tick}"));
                assert_eq!(desk.read(0x80), errors, "{offer} {tick} {restarts}");
            }
        }
    }
}

// The number in force.

/// "Number in force not 31 gives 00 85, in check 6's place", so before the range, and into the input list.
#[test]
fn a_head_that_is_not_at_31_refuses() {
    let mut desk = Desk::with_heads(&[5]);
    // 01 ^ 05 ^ D2 = D6; 6, 31, 0, 32 and four times FF.
    for offer in [
        "0105D2000000000006D0",
        "0105D200000000001FC9",
        "0105D2000000000000D6",
        "0105D2000000000020F6",
        "0105D20000FFFFFFFFD6",
    ] {
        assert_eq!(desk.send(offer), NOT_AT_31);
    }
    // 96h: five, 05 ^ 96 = 93 and 93 ^ 05; the fifth, 93 ^ 05 ^ 85.
    assert_eq!(desk.send("00059600000000000093"), "00059600000000000596");
    assert_eq!(desk.send("00059600000500000096"), "00059600000500008513");
    assert_eq!(desk.line("keys 0 4"), "ok");
    // Up alone, 80 ^ 00.
    assert_eq!(desk.send(READ_00H_AT_5), "00050080000000000580");
}

/// 00 85 is not given to a broadcast, nor to another node, nor where an earlier check applies.
#[test]
fn who_is_not_told_00_85() {
    let mut desk = Desk::with_heads(&[5]);
    // 02 ^ 05 ^ D2 ^ 06; at 31 and at 12.
    assert_eq!(desk.send("0205D2000000000006D3"), "");
    assert_eq!(desk.send(OFFER_OF_6), "");
    assert_eq!(desk.send("010CD2000000000006D9"), "");
    assert_eq!(desk.send("00059600000000000093"), "00059600000000000093");
    // Damaged, D1 for D0: 01 ^ 05 ^ FD ^ 80. Command 03h, 03 ^ 05 ^ D2 ^ 06: 03 ^ 05 ^ FD ^ 84.
    assert_eq!(desk.send("0105D2000000000006D1"), "0105FD00000000008079");
    assert_eq!(desk.send("0305D2000000000006D2"), "0305FD0000000000847F");
}

/// It is the number in force that counts: a head at 31 with another number stored remembers, and adopts.
#[test]
fn a_head_at_31_with_another_number_stored_remembers() {
    let mut desk = Desk::with_heads(&[31]);
    desk.write(0x00, 12);
    assert_eq!(desk.send(OFFER_OF_5), "");
    assert_eq!(desk.line("keys 0 4"), ADOPTED_5);
    assert_eq!(desk.send(READ_00H_AT_5), STORED_5);
    assert_eq!(desk.telegram(READ, 12, 0x00, 0, 0), "");
}

/// And a head with 31 stored that speaks at another number refuses, until it restarts.
#[test]
fn a_head_with_31_stored_that_is_not_at_31_refuses() {
    let mut desk = Desk::with_heads(&[5]);
    // 01 ^ 05 ^ 1F.
    assert_eq!(desk.send("01050000000000001F1B"), "01050000000000001F1B");
    assert_eq!(desk.send("0105D2000000000006D0"), NOT_AT_31);
    desk.ok("power 0");
    assert_eq!(desk.send(OFFER_OF_5), "");
    assert_offer(&mut desk, "at 31 now");
}

// The interlock.

/// 6.9.52 has no programming mode for D2h: a locked head remembers, refuses for the range, and the adoption stores.
#[test]
fn the_interlock_does_not_apply() {
    let mut desk = Desk::with_heads(&[31]);
    desk.write(0x0E, 1);
    assert_eq!(desk.refusal(WRITE, 0x00, 5), 0x0385);
    assert_eq!(desk.send("011FD2000000000000CC"), BELOW_LOW);
    assert_eq!(desk.send(OFFER_OF_5), "");
    assert_offer(&mut desk, "locked");
    // Locked as before, 01 ^ 05 ^ 20 ^ 07: 03 85, 01 ^ 05 ^ FD ^ 03 ^ 85. D2h is refused for the number in force.
    assert_eq!(desk.send("01052000000000000723"), "0105FD0000000003857F");
    assert_eq!(desk.send("0105D2000000000006D0"), NOT_AT_31);
}

// What drops the offer.

/// "A restart drops it too", by power and by A0h 9, at the head and as a broadcast.
#[test]
fn a_restart_drops_the_offer() {
    let mut desk = with_offer(&[31]);
    desk.ok("power 0");
    assert_no_offer(&mut desk, "power");
    for restart in ["011FA0000000000009B7", "0200A0000000000009AB"] {
        let mut desk = with_offer(&[31]);
        desk.send(restart);
        assert_no_offer(&mut desk, restart);
    }
}

/// The other system commands are no restart, though A0h 1 and 5 write 00h.
#[test]
fn the_other_system_commands_leave_the_offer() {
    for command in [1, 2, 5, 7, 8] {
        let mut desk = with_offer(&[31]);
        desk.write(0xA0, command);
        assert_offer(&mut desk, "a system command");
    }
}

/// Nor do measurements, ticks, other keys and calls that are refused.
#[test]
fn other_calls_leave_the_offer() {
    for line in ["measure 0 40", "tick 5000", "xor 0", "keys 0 1", "keys 0 2", "keys 0 3", "keys 0 8"] {
        let mut desk = with_offer(&[31]);
        desk.line(line);
        desk.ok("keys 0 0");
        assert_offer(&mut desk, line);
    }
}

/// Nor do a timeout and freezing, which the reply then shows, bits 7 and 8: C9 ^ 01 ^ 80.
#[test]
fn a_timeout_and_freezing_leave_the_offer() {
    let mut desk = Desk::with_heads(&[31]);
    desk.write(0x02, 1);
    assert_eq!(desk.send(OFFER_OF_5), "");
    desk.ok("tick 100");
    desk.write(0xAA, 1);
    assert_eq!(desk.line("keys 0 4"), "ok 011FD201800000000548");
}

// The key.

/// "When up is newly pressed": not when it is held since before the offer.
#[test]
fn up_has_to_be_newly_pressed() {
    let mut desk = Desk::with_heads(&[31]);
    desk.ok("keys 0 4");
    assert_eq!(desk.send(OFFER_OF_5), "");
    for state in [4, 6, 4, 0] {
        desk.ok(&format!("keys 0 {state}"));
    }
    // The first left nothing, as up without an offer does nothing.
    assert_eq!(desk.line("keys 0 4"), ADOPTED_5);
}

/// Alone or with others, newly pressed or held.
#[test]
fn up_adopts_with_other_keys_too() {
    for state in [4, 5, 6, 7] {
        let mut desk = with_offer(&[31]);
        assert_eq!(desk.line(&format!("keys 0 {state}")), ADOPTED_5);
    }
    // Left and star held: bits 13 and 14, C9 ^ 60.
    let mut desk = with_offer(&[31]);
    desk.ok("keys 0 3");
    assert_eq!(desk.line("keys 0 7"), "ok 011FD2600000000005A9");
}

/// Request (xii): without an offer it does nothing, before one and after the adoption, at 31 and at any other number.
#[test]
fn without_an_offer_up_does_nothing() {
    let mut desk = Desk::with_heads(&[31]);
    desk.ok("measure 0 40");
    assert_no_offer(&mut desk, "none was made");
    assert_eq!(desk.read(0xFE), 40);
    desk.ok("keys 0 0");
    assert_eq!(desk.send(OFFER_OF_5), "");
    assert_offer(&mut desk, "after the first stroke");
    desk.ok("keys 0 4");
    // Bit 15 alone, 80 ^ 00; FEh is 40, 05 ^ FE ^ 80 ^ 28.
    assert_eq!(desk.send(READ_00H_AT_5), "00050080000000000580");
    assert_eq!(desk.send("0005FE000000000000FB"), "0005FE80000000002853");
}

/// "The status word before the call": before the new key state, of which the reply shows nothing.
#[test]
fn the_reply_shows_the_keys_before_the_call() {
    let mut desk = with_offer(&[31]);
    desk.ok("keys 0 2");
    // Star was held, bit 14: C9 ^ 40.
    assert_eq!(desk.line("keys 0 6"), "ok 011FD240000000000589");
}

/// And before left, which comes first: the error that it acknowledges is still in the reply, bit 7, C9 ^ 80.
#[test]
fn left_first_acknowledges() {
    let mut desk = with_offer(&[31]);
    desk.ok("measure 0 40");
    for _ in 0..3 {
        desk.damaged(READ, 12);
    }
    assert_eq!(desk.line("keys 0 5"), "ok 011FD200800000000549");
    // Acknowledged, so not calibrated: FEh is 40, 05 ^ FE = FB and FB ^ 28. The error memory has it, 05 ^ 80 ^ 01.
    assert_eq!(desk.send("0005FE000000000000FB"), "0005FE000000000028D3");
    assert_eq!(desk.send("00058000000000000085"), "00058000000000000184");
}

/// The calibration by left survives the restart as any does, and the reply shows the position before it: A 40 and
/// S 0 are bit 10, above (6), outside the window (1), 0442; C9 ^ 04 ^ 42.
#[test]
fn left_first_calibrates() {
    let mut desk = with_offer(&[31]);
    desk.ok("measure 0 40");
    desk.write(0x1F, 50);
    desk.write_with(0xFF, 1 << 9, 0);
    assert_eq!(desk.line("keys 0 5"), "ok 011FD20442000000058F");
    // FEh is 50 now: FB ^ 32.
    assert_eq!(desk.send("0005FE000000000000FB"), "0005FE000000000032C9");
}

/// 05h 0 and no error: left has nothing to do, and up adopts.
#[test]
fn left_may_have_nothing_to_do() {
    let mut desk = with_offer(&[31]);
    desk.write(0x05, 0);
    desk.ok("measure 0 40");
    assert_eq!(desk.line("keys 0 5"), ADOPTED_5);
    assert_eq!(desk.send("0005FE000000000000FB"), "0005FE000000000028D3");
}

/// "Restarts last, keys 0": no key in the status word, and one that is still down is newly pressed at the next call.
#[test]
fn keys_are_0_after_the_adoption() {
    let mut desk = with_offer(&[31]);
    assert_offer(&mut desk, "first");
    // No reply, there is no offer; bit 15, 80 ^ 00.
    desk.ok("keys 0 4");
    assert_eq!(desk.send(READ_00H_AT_5), "00050080000000000580");
}

/// "Stores the number": it is there after the next restart, too.
#[test]
fn the_number_is_stored_and_in_force_at_once() {
    let mut desk = with_offer(&[31]);
    assert_offer(&mut desk, "at once");
    assert_eq!(desk.send(READ_00H_AT_31), "");
    desk.ok("power 0");
    assert_eq!(desk.send(READ_00H_AT_5), STORED_5);
    assert_eq!(desk.send("0105D2000000000006D0"), NOT_AT_31);
}

/// "Restarts last": what a restart clears is cleared, what it keeps is kept.
#[test]
fn an_adoption_is_a_restart() {
    let mut desk = Desk::with_heads(&[31]);
    desk.write(0xA8, 1);
    desk.write(0x20, 7);
    desk.ok("measure 0 40");
    assert_eq!(desk.refusal(WRITE, 0x04, 90), 0x0282);
    desk.write_with(0xFB, 1 << 2, 7);
    desk.write_with(0xFF, 1 << 9 | 1 << 5, 38);
    for _ in 0..3 {
        desk.damaged(READ, 12);
    }
    desk.write(0xAA, 1);
    assert_eq!(desk.send(OFFER_OF_5), "");
    // Set points 1 (2) and 2 (10), A 40 above S 38 (6) in the window (5), static (4), error (7), frozen (8):
    // C9 ^ 05 ^ F4.
    assert_eq!(desk.line("keys 0 4"), "ok 011FD205F40000000538");
    assert_eq!(desk.line("xor 0"), "xor 00");
    for (telegram, reply) in [
        // 00h, with nothing in the status word; no input error, no set points and no pending error.
        (READ_00H_AT_5, STORED_5),
        ("00059600000000000093", "00059600000000000093"),
        ("0005FB000000000000FE", "0005FB000000000000FE"),
        ("0005FF000000000000FA", "0005FF000000000000FA"),
        ("0005FD000000000000F8", "0005FD000000000000F8"),
        // One remembered error, 20h 7 (25 ^ 07), and the measurement.
        ("00058000000000000085", "00058000000000000184"),
        ("00052000000000000025", "00052000000000000722"),
        ("0005FE000000000000FB", "0005FE000000000028D3"),
        // The interlock is open: with 0Eh 1, 01 ^ 05 ^ 0E ^ 01, 20h is written, 01 ^ 05 ^ 20 ^ 08.
        ("01050E0000000000010B", "01050E0000000000010B"),
        ("0105200000000000082C", "0105200000000000082C"),
    ] {
        assert_eq!(desk.send(telegram), reply);
    }
    // The taken control word is 0, so that bit 5 acknowledges again: 01 ^ 05 ^ FB ^ 20, in the reply 80 for 20.
    for _ in 0..3 {
        desk.damaged(READ, 12);
    }
    assert_eq!(desk.send("0105FB002000000000DF"), "0105FB0080000000007F");
    assert_eq!(desk.send("0005FD000000000000F8"), "0005FD000000000000F8");
}

/// The count of damaged telegrams, the bytes gathered and the monitor are of what a restart clears.
#[test]
fn an_adoption_forgets_the_line() {
    let mut desk = Desk::with_heads(&[31]);
    desk.write(0x02, 1);
    assert_eq!(desk.send(OFFER_OF_5), "");
    for _ in 0..2 {
        desk.damaged(READ, 12);
    }
    // The first half of a read at 5, then its second half.
    assert_eq!(desk.send("0005000000"), "");
    assert_eq!(desk.line("keys 0 4"), ADOPTED_5);
    assert_eq!(desk.send("0000000005"), "");
    desk.ok("tick 100");
    desk.time = 100;
    desk.damaged(READ, 12);
    assert_eq!(desk.send("00058000000000000085"), "00058000000000000085");
}

/// For demand 3 the adoption is an accepted write of 00h and a restart.
#[test]
fn an_adoption_ends_as_a_write_of_00h_and_a_restart() {
    let mut by_key = with_offer(&[31]);
    let mut by_write = Desk::with_heads(&[31]);
    for desk in [&mut by_key, &mut by_write] {
        desk.ok("measure 0 40");
        desk.write(0x20, 7);
        desk.write(0x0E, 1);
    }
    assert_eq!(by_key.line("keys 0 4"), ADOPTED_5);
    by_write.write(0xA8, 1);
    by_write.write(0x00, 5);
    by_write.write(0xA8, 0);
    by_write.ok("power 0");
    for parameter in 0..=0xFF {
        let read = |desk: &mut Desk| desk.telegram(READ, 5, parameter, 0, 0);
        assert_eq!(read(&mut by_key), read(&mut by_write), "{parameter:02X}h");
    }
}

// The call.

/// "Refusal 6 for the key call, after 3 and 5", whether or not a reply would come.
#[test]
fn refusal_6_after_3_and_5() {
    let mut desk = Desk::with_heads(&[]);
    desk.ok("space 9");
    assert_eq!(desk.line("keys 0 0"), "refused 3");
    desk.ok("head 31 4711");
    for size in [0, 1, 9] {
        desk.ok(&format!("space {size}"));
        for (line, answer) in [
            ("keys 1 0", "refused 3"),
            ("keys 1 8", "refused 3"),
            ("keys 0 8", "refused 5"),
            ("keys 0 4294967295", "refused 5"),
            ("keys 0 0", "refused 6"),
            ("keys 0 1", "refused 6"),
            ("keys 0 4", "refused 6"),
            ("keys 0 7", "refused 6"),
        ] {
            assert_eq!(desk.line(line), answer, "{line} in {size}");
        }
        // It lends no space.
        assert_eq!(desk.line("xor 0"), "xor 00");
    }
}

/// A refused key call changes nothing: neither keys, nor the position by left, nor the offer.
#[test]
fn a_refused_key_call_changes_nothing() {
    let mut desk = with_offer(&[31]);
    desk.ok("measure 0 40");
    desk.ok("space 9");
    assert_eq!(desk.line("keys 0 5"), "refused 6");
    assert_eq!(desk.line("keys 0 9"), "refused 5");
    desk.ok("space 10");
    assert_eq!(desk.status(), 0);
    assert_eq!(desk.read(0xFE), 40);
    assert_offer(&mut desk, "refused");
}

/// "Key calls now lend reply space": a reply stands in the first ten bytes, the rest is unchanged; with none, no
/// byte changes.
#[test]
fn the_space_of_a_key_call() {
    let mut line = Line::new();
    line.grow(31, 4_711).unwrap();
    let mut space = [0xEE; 12];
    assert_eq!(line.keys(0, 2, &mut space), Ok(false));
    for byte in [0x01, 0x1F, 0xD2, 0, 0, 0, 0, 0, 5, 0xC9] {
        assert_eq!(line.byte(0, byte, &mut space), Ok(0));
    }
    assert_eq!(line.keys(1, 4, &mut space), Err(Refusal::HeadNumber));
    assert_eq!(line.keys(0, 8, &mut space), Err(Refusal::KeyState));
    assert_eq!(line.keys(0, 6, &mut space[..9]), Err(Refusal::ReplySpace));
    assert_eq!(space, [0xEE; 12]);
    // Star was held: C9 ^ 40.
    assert_eq!(line.keys(0, 6, &mut space), Ok(true));
    assert_eq!(space, [0x01, 0x1F, 0xD2, 0x40, 0, 0, 0, 0, 5, 0x89, 0xEE, 0xEE]);
    assert_eq!(line.heads()[0].number_in_force(), 5);
    // Exactly ten are enough.
    assert_eq!(line.keys(0, 0, &mut [0xEE; TELEGRAM_LENGTH]), Ok(false));
}

/// A head alone gives its reply, and keeps no offer.
#[test]
fn the_call_of_a_head() {
    let mut head = Head::factory(4_711);
    assert_eq!(head.number_on_offer(), None);
    for byte in [0x01, 0x1F, 0xD2, 0, 0, 0, 0, 0, 5, 0xC9] {
        assert_eq!(head.byte(0, byte), None);
    }
    assert_eq!(head.number_on_offer(), Some(5));
    assert_eq!(head.set_keys(3), None);
    // Left and star are held: C9 ^ 60.
    assert_eq!(head.set_keys(4), Some([0x01, 0x1F, 0xD2, 0x60, 0, 0, 0, 0, 5, 0xA9]));
    assert_eq!((head.number_on_offer(), head.keys(), head.number_in_force()), (None, 0, 5));
}

/// `keys` answers `ok`, or `ok` and the reply; its words are the same as before.
#[test]
fn the_words_of_keys() {
    let mut desk = with_offer(&[31]);
    for line in ["keys 0", "keys 0 4 10", "keys 0 -4", "keys 0 4294967296", "KEYS 0 4"] {
        assert!(desk.line(line).starts_with("error at line "), "{line}");
    }
    desk.ok("space 64");
    assert_eq!(desk.line("\tkeys  000 004 \r"), ADOPTED_5);
}
