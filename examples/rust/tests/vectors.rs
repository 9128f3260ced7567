//! The standards' vectors through the safe calls, and a block there and back.

use zubhanit::*;

fn octets(hex: &str) -> Vec<u8> {
    (0..hex.len()).step_by(2).map(|at| u8::from_str_radix(&hex[at..at + 2], 16).unwrap()).collect()
}

fn key(hex: &str) -> [u8; 16] {
    octets(hex).try_into().unwrap()
}

fn place(count: u32, bearer: u32, direction: Direction) -> Place {
    Place { count, bearer, direction }
}

/// TS 33.401 Annex C.1, test sets 1 and 3, their whole octets.
#[test]
fn ciphers() {
    let sets = [
        (
            "d3c5d592327fb11c4035c6680af8c6d1",
            place(0x398a_59b4, 21, Direction::Down),
            "981ba6824c1bfb1ab485472029b71d808ce33e2cc3c0b5fc1f3de8a6dc66b1",
            "e9fed8a63d155304d71df20bf3e82214b20ed7dad2f233dc3c22d7bdeeed8e",
        ),
        (
            "0a8b6bd8d9b08b08d64e32d1817777fb",
            place(0x544d_49cd, 4, Direction::Up),
            "fd40a41d370a1f65745095687d47ba1d36d2349e23f644392c8ea9c49d40c13271aff264d0f2",
            "75750d37b4bba2a4dedb34235bd68c6645acdaaca48138a3b0c471e2a7041a576423d2927287",
        ),
    ];
    for (of, at, plain, ciphered) in sets {
        let mut text = octets(plain);
        eea2(&key(of), at, &mut text).unwrap();
        assert_eq!(text, octets(ciphered));
        eea2(&key(of), at, &mut text).unwrap();
        assert_eq!(text, octets(plain));
    }
    assert_eq!(eea2(&[0; 16], place(0, 32, Direction::Up), &mut []), Err(Error::Range));
}

/// TS 33.401 Annex C.2, test set 2.
#[test]
fn protects() {
    let at = place(0x398a_59b4, 26, Direction::Down);
    let tag = eia2(&key("d3c5d592327fb11c4035c6680af8c6d1"), at, &octets("484583d5afe082ae"));
    assert_eq!(tag, Ok([0xb9, 0x37, 0x87, 0xe6]));
}

#[test]
fn reads_a_block() {
    let block = octets("3d230423071f89000a0000a0028007aabbcc000000000000");
    let mut items = [MacItem::default(); 8];
    let items = mac_read(Direction::Up, &block, &mut items).unwrap();
    let kinds: Vec<u32> = items.iter().map(|item| item.kind).collect();
    assert_eq!(kinds, [22, 1, 1, 2]);

    let (mut elements, mut nacks) = ([Octets::default(); 4], [Nack::default(); 4]);
    match am_read(items[1].octets.as_slice(), &mut elements, &mut nacks).unwrap() {
        AmPdu::Status { ack, nacks } => assert_eq!((ack, nacks.len(), nacks[0].sn), (2, 1, 0)),
        AmPdu::Payload(..) => panic!("a STATUS was read as data"),
    }
    match am_read(items[2].octets.as_slice(), &mut elements, &mut nacks).unwrap() {
        AmPdu::Payload(header, elements) => {
            assert_eq!((header.sn, header.poll, elements.len()), (2, 1, 1));
            let data = pdcp_read(12, elements[0].as_slice()).unwrap();
            assert_eq!((data.sn, data.octets.as_slice()), (7, &[0xaa, 0xbb, 0xcc][..]));
        }
        AmPdu::Status { .. } => panic!("data was read as a STATUS"),
    }

    let mut again = vec![0; block.len()];
    mac_write(Direction::Up, &items[..3], &mut again).unwrap();
    assert_eq!(again, block);
    assert_eq!(mac_write(Direction::Up, &items[..3], &mut again[..4]), Err(Error::Room(16)));
}

#[test]
fn tells_refusals() {
    let refused = mac_read(Direction::Up, &[0x1e, 0x04], &mut []).err();
    assert_eq!(refused, Some(Error::Refused(Refusal { at: 0, why: 3 })));
}

#[cfg(feature = "texts")]
#[test]
fn plays_and_shows() {
    let played = run("bearer 0 tm\nsubmit nb 0 0a0b0c\ntti 0 ok 4 ok\n").unwrap();
    assert_eq!(played.journal, include_str!("../../first.journal"));
    assert_eq!(played.refused, None);

    let refused = run("bearer 0 tm\ntti 0 ok\n").unwrap();
    assert_eq!(refused.journal, "line 1 bearer 0 tm\n");
    assert_eq!(refused.refused.as_deref(), Some("line 2: fields\n"));

    let shown = decode("dl 0b\n").unwrap();
    assert_eq!(shown.journal, "record 1 dl 1\nbad mac 0 2\n");
}
