//! The assembler and the book maker, against words encoded by hand.

use second::asm::encode::{format_of, word, FORMATS};
use second::asm::{assemble, Labels};
use second::make::{make, Made};
use second::{bench_line, decode, read_book, Cap, Instruction, Machine, RAM_BASE};

/// Every instruction, with operands that tell the fields apart.
#[rustfmt::skip]
const WORDS: &[(&str, u32)] = &[
    ("nop", 0x0000_0000),
    ("daddu $1, $2, $3", 0x0043_082D),
    ("dsubu $4, $5, $6", 0x00A6_202F),
    ("and $7, $8, $9", 0x0109_3824),
    ("or $10, $11, $12", 0x016C_5025),
    ("xor $13, $14, $15", 0x01CF_6826),
    ("slt $16, $17, $18", 0x0232_802A),
    ("sltu $19, $20, $21", 0x0295_982B),
    ("dsllv $1, $2, $3", 0x0062_0814),
    ("dsrlv $31, $30, $29", 0x03BE_F816),
    ("break", 0x0000_000D),
    ("break 1", 0x0000_004D),
    ("break 0xfffff", 0x03FF_FFCD),
    ("daddiu $1, $2, -1", 0x6441_FFFF),
    ("andi $1, $2, 0xffff", 0x3041_FFFF),
    ("ori $3, $4, 5", 0x3483_0005),
    ("lui $5, 0x8000", 0x3C05_8000),
    ("beq $1, $2, -1", 0x1022_FFFF),
    ("bne $3, $zero, 32767", 0x1460_7FFF),
    ("ld $1, 8($2)", 0xDC41_0008),
    ("sd $3, -8($4)", 0xFC83_FFF8),
    ("lbu $5, 0($6)", 0x90C5_0000),
    ("sb $7, -32768($8)", 0xA107_8000),
    ("clbu $2, $3, 5($c1)", 0xC841_1828),
    ("clhu $2, $3, -2($c1)", 0xC841_1FF1),
    ("clwu $2, $3, 4($c1)", 0xC841_1822),
    ("cld $2, $3, 127($c1)", 0xC841_1BFB),
    ("clb $2, $3, -128($c1)", 0xC841_1C04),
    ("clh $2, $3, 6($c31)", 0xC85F_1835),
    ("clw $31, $30, 0($c29)", 0xCBFD_F006),
    ("csb $2, $3, 1($c4)", 0xE844_1808),
    ("csh $2, $3, 2($c4)", 0xE844_1811),
    ("csw $2, $3, 4($c4)", 0xE844_1822),
    ("csd $2, $3, 8($c4)", 0xE844_1843),
    ("clc $c1, $2, 32($c3)", 0xD823_1020),
    ("csc $c4, $5, -1024($c6)", 0xF886_2C00),
    ("cgetbase $1, $c2", 0x4801_1000),
    ("cgetlen $1, $c2", 0x4821_1000),
    ("cgetoffset $1, $c2", 0x4841_1000),
    ("cgetperm $1, $c2", 0x4861_1000),
    ("cgettag $1, $c2", 0x4881_1000),
    ("cgetsealed $1, $c2", 0x48A1_1000),
    ("cgettype $1, $c2", 0x48C1_1000),
    ("cgetpcc $c3", 0x48E3_0000),
    ("cgetcause $4", 0x4904_0000),
    ("csetcause $5", 0x4925_0000),
    ("candperm $c1, $c2, $3", 0x4941_10C0),
    ("ccleartag $c1, $c2", 0x4961_1000),
    ("cincbase $c1, $c2, $3", 0x4981_10C0),
    ("csetlen $c1, $c2, $3", 0x49A1_10C0),
    ("csetoffset $c1, $c2, $3", 0x49C1_10C0),
    ("cincoffset $c1, $c2, $3", 0x49E1_10C0),
    ("cfromptr $c1, $c2, $3", 0x4A01_10C0),
    ("ctoptr $1, $c2, $c3", 0x4A21_10C0),
    ("cseal $c1, $c2, $c3", 0x4A41_10C0),
    ("cunseal $c1, $c2, $c3", 0x4A61_10C0),
    ("ccheckperm $c1, $2", 0x4A81_1000),
    ("cchecktype $c1, $c2", 0x4AA1_1000),
    ("cjr $c5", 0x4AC5_0000),
    ("cjalr $c1, $c2", 0x4AE1_1000),
    ("cbtu $c1, 3", 0x4B01_0003),
    ("cbts $c31, -2", 0x4B3F_FFFE),
    ("ccall $c1, $c2", 0x4B41_1000),
    ("creturn", 0x4B60_0000),
    ("ceq $1, $c2, $c3", 0x4B81_10C0),
    ("cne $1, $c2, $c3", 0x4B81_10C1),
    ("clt $1, $c2, $c3", 0x4B81_10C2),
    ("cle $1, $c2, $c3", 0x4B81_10C3),
    ("cltu $1, $c2, $c3", 0x4B81_10C4),
    ("cleu $1, $c2, $c3", 0x4B81_10C5),
];

/// 004's short forms and pseudo-instructions, and free spacing.
#[rustfmt::skip]
const SHORT_FORMS: &[(&str, u32)] = &[
    ("cmove $c1, $c2", 0x4981_1000),
    ("cgetdefault $c1", 0x4981_0000),
    ("csetdefault $c1", 0x4980_0800),
    ("clbr $1, $2($c3)", 0xC823_1004),
    ("clbur $1, $2($c3)", 0xC823_1000),
    ("cldr $1, $2($c3)", 0xC823_1003),
    ("clwi $1, 8($c3)", 0xC823_0046),
    ("clhui $1, 8($c3)", 0xC823_0041),
    ("csdr $1, $2($c3)", 0xE823_1003),
    ("csbi $1, 7($c3)", 0xE823_0038),
    ("clcr $c1, $2($c3)", 0xD823_1000),
    ("clci $c1, 64($c3)", 0xD823_0040),
    ("cscr $c1, $2($c3)", 0xF823_1000),
    ("csci $c1, -64($c3)", 0xF823_07C0),
    ("  DADDU   $1 ,$2,  $3  ", 0x0043_082D),
    ("Cld $1, $0, 0x10( $c2 )", 0xC822_0083),
];

/// One error a line, each the second line of its text.
#[rustfmt::skip]
const ERRORS: &[(&str, &str)] = &[
    ("frob $1", "no instruction is called 'frob'"),
    ("daddu $1, $2", "daddu takes 3 operands, not 2"),
    ("nop $1", "nop takes 0 operands, not 1"),
    ("daddu $1, $2, $32", "'$32' is not a general register $0 to $31"),
    ("daddu $1, $2, $-1", "'$-1' is not a general register $0 to $31"),
    ("daddu $1, $2, 3", "'3' is not a general register $0 to $31"),
    ("cjr $1", "'$1' is not a capability register $c0 to $c31"),
    ("cjr $c32", "'$c32' is not a capability register $c0 to $c31"),
    ("daddiu $1, $2, 32768", "32768 is not from -32768 to 32767"),
    ("andi $1, $2, -1", "-1 is not from 0 to 65535"),
    ("clbu $1, $2, 128($c1)", "128 is not from -128 to 127"),
    ("clc $c1, $2, 1024($c1)", "1024 is not from -1024 to 1023"),
    ("clbu $1, $2, 1, $c1", "the operands of clbu end in offset(base)"),
    ("ld $1, 8($2", "'8($2' is not offset(base)"),
    ("cincbase $c1, $c2($3)", "the operands of cincbase have no brackets"),
    ("beq $1, $2, nowhere", "no label is called 'nowhere'"),
    ("beq $1, $2, 40000", "40000 is not from -32768 to 32767"),
    ("ori $1, $2, five", "'five' is not a number of 64 bits"),
    ("ori $1, $2, 99999999999999999999", "'99999999999999999999' is not a number of 64 bits"),
    ("ori $1, $2, 0x7fffffffffffffffffff", "'0x7fffffffffffffffffff' is not a number of 64 bits"),
    ("ori $1, $2, 0xffffffffffffffff", "'0xffffffffffffffff' is out of range"),
    (".word 0x100000000", "4294967296 does not fit in 4 bytes"),
    (".byte 256", "256 does not fit in 1 bytes"),
    (".byte", "'' is not a number of 64 bits"),
    (".frob 1", "'.frob' is not understood"),
    (".align 0", "cannot align to 0"),
    ("1x: nop", "'1x' is not a label"),
    ("$0 = 5", "$0 is always 0"),
    ("$1 5", "write $1 = value"),
    ("$1 = -9223372036854775809", "'-9223372036854775809' is not a number of 64 bits"),
    ("c32 base=0", "'$c32' is not a capability register $c0 to $c31"),
    ("c1 base", "'base' is not field=value"),
    ("c1 frob=1", "'frob' is not a field of a capability"),
    ("c1 tag=2", "tag 2 is not from 0 to 1"),
    ("c1 otype=0x1000000", "otype 16777216 is not from 0 to 16777215"),
    ("c1 spare=-1", "spare -1 is not from 0 to 255"),
    ("c1 perms=fly", "'fly' is not a permission"),
    ("c1 perms=0x80000000", "perms 2147483648 is not from 0 to 2147483647"),
    ("c1 base=-1 length=2", "a tagged capability with base + length above 2^64"),
    ("ram 33", "33 bytes of RAM is not a multiple of 32 up to 65536"),
    ("ram 65568", "65568 bytes of RAM is not a multiple of 32 up to 65536"),
    ("line 0x100000 frob", "a line needs 'bytes' or 'cap'"),
    ("line 0x100000 tag=2 bytes 00", "'tag=2' is not tag=0 or tag=1"),
    ("line 0x100000 bytes 0", "1 digits are not the pairs of up to 32 bytes"),
    ("line 0x100000 bytes 0g", "'g' is not a hexadecimal digit"),
    ("line 0x100001 bytes 00", "1048577 is not the address of a line of 32768 bytes of RAM"),
    ("line 0x108000 bytes 00", "1081344 is not the address of a line of 32768 bytes of RAM"),
    ("line 0 bytes 00", "0 is not the address of a line of 32768 bytes of RAM"),
];

const SAMPLE: &str = "
# a loop that copies two bytes and stops
ram 64
pcc base=0 length=64 perms=execute+global
c1 base=0x100000 length=64 perms=load+store
c2 tag=0 sealed=1 otype=5 spare=0xff perms=0x7fff base=1 length=2 offset=-3
$2 = 2
$31 = -1
line 0x100000 bytes 0a0b 0c_0d
line 0x100020 cap base=0x100000 length=32 offset=8 perms=load_capability
again: daddiu $2, $2, -1
    clbu $3, $2, 0($c1)
    csb $3, $2, 16($c1)
    bne $2, $0, again
    nop
    beq $0, $0, end
    nop
end:
    break
.word 0xffff_ffff, -1
.byte 1, 255, -1
.align 4
.word 7
";

fn made(text: &str) -> Made {
    make(text).expect("the text is good")
}

#[test]
fn every_instruction_has_its_word() {
    for (text, word) in WORDS.iter().chain(SHORT_FORMS) {
        let assembled = assemble(text, 0, &Labels::new());
        assert_eq!(assembled, Ok(*word), "{text}");
    }
    let named = |name: &str| WORDS.iter().any(|(text, _)| text.split(' ').next() == Some(name));
    assert!(FORMATS.iter().all(|format| named(format.name)), "one instruction is not in the list");
}

#[test]
fn a_word_names_its_instruction() {
    for (text, word) in WORDS {
        let name = format_of(*word).map(|format| format.name);
        assert_eq!(name, text.split(' ').next(), "{text}");
    }
    for reserved in [0x40, 0x0022_1856, 0x3C21_0001, 0x4BA0_0000, 0xC841_1007, 0xE841_1004] {
        assert_eq!(format_of(reserved), None, "{reserved:#x}");
    }
}

#[test]
fn the_machine_knows_the_same_words() {
    let mut random = second::random::Random::new(5);
    for _ in 0..200_000 {
        // A good word, often with a bit turned.
        let format = random.pick(FORMATS);
        let mut word = format.fixed | random.next() as u32 & format.mask();
        if random.chance(2) {
            word ^= 1 << random.below(32);
        }
        let known = decode(word) != Instruction::Reserved;
        assert_eq!(known, format_of(word).is_some(), "{word:#010x}");
    }
}

#[test]
fn words_from_numbers() {
    assert_eq!(word("cincbase", &[1, 2, 3]), Ok(0x4981_10C0));
    assert_eq!(word("break", &[]), Ok(13));
    assert!(word("cincbase", &[1, 2]).is_err());
    assert!(word("cincbase", &[1, 2, 32]).is_err());
}

#[test]
fn errors_name_their_line() {
    for (text, error) in ERRORS {
        let whole = format!("# first\n{text}\nnop\n");
        assert_eq!(make(&whole), Err(format!("line 2: {error}")), "{text}");
    }
}

#[test]
fn nothing_is_named_twice() {
    let twice = [
        ("c1 base=0", "c1 base=1", "c1 is named twice"),
        ("pcc", "PCC", "pcc is named twice"),
        ("$1 = 0", "$1 = 0", "$1 is named twice"),
        ("ram 32", "ram 32", "ram is named twice"),
        ("a: nop", "a: nop", "label 'a' is named twice"),
        ("line 0x100000 bytes", "line 1048576 bytes", "line 1048576 is named twice"),
        (".byte 1", "nop", "an instruction at 1, not a multiple of 4 (see .align)"),
        (
            "ram 32",
            "line 0x100020 bytes",
            "1048608 is not the address of a line of 32 bytes of RAM",
        ),
    ];
    for (first, second, error) in twice {
        let text = format!("{first}\n{second}\n");
        assert_eq!(make(&text), Err(format!("line 2: {error}")));
    }
}

#[test]
fn flash_has_an_end() {
    let full = ".align 65536\nnop\n.align 65536\n";
    assert_eq!(made(full).flash.len(), 65_536);
    let over = format!("{full}nop\n");
    assert_eq!(make(&over), Err("line 4: more than 65536 bytes of flash".to_string()));
}

#[test]
fn no_text_panics() {
    let pieces =
        ["$", "c1", "=", "(", ")", ",", "0x", "-", "ld", "line", ".word", ":", "é", "1", " "];
    let mut random = second::random::Random::new(3);
    for _ in 0..20_000 {
        let count = 1 + random.below(7);
        let text: String = (0..count).map(|_| *random.pick(&pieces)).collect();
        if let Err(error) = make(&text) {
            assert!(error.starts_with("line 1: "), "{error}");
        }
    }
}

#[test]
fn an_empty_text_makes_the_least_book() {
    assert_eq!(made(""), Made { book: vec![1], flash: Vec::new() });
    assert_eq!(made("# nothing\n\n"), Made { book: vec![1], flash: Vec::new() });
    assert_eq!(made("nop").flash, vec![0; 32]);
}

/// The machine that the sample text describes.
fn sample_machine() -> Machine {
    let mut machine = Machine {
        pcc: Cap { tag: true, perms: 3, length: 64, ..Cap::default() },
        ..Machine::default()
    };
    machine.caps[1] = Cap { tag: true, perms: 12, base: RAM_BASE, length: 64, ..Cap::default() };
    machine.caps[2] = Cap {
        tag: false,
        sealed: true,
        perms: 0x7FFF,
        otype: 5,
        spare: 255,
        base: 1,
        length: 2,
        offset: 0u64.wrapping_sub(3),
    };
    machine.general[2] = 2;
    machine.general[31] = u64::MAX;
    machine
}

#[test]
fn the_sample_reads_back() {
    let made = made(SAMPLE);
    let (mut ram, mut tags) = (vec![9; 64], vec![1; 2]);
    let machine = read_book(&made.book, made.flash.len(), &mut ram, &mut tags);
    assert_eq!(machine, Ok(sample_machine()));
    assert_eq!(tags, [0, 1]);
    assert_eq!(ram[..5], [10, 11, 12, 13, 0]);
    let first = 1u64 << 5;
    let line = [first, RAM_BASE + 8, RAM_BASE, 32].map(u64::to_be_bytes).concat();
    assert_eq!(ram[32..], line);
}

#[test]
fn the_sample_runs() {
    let made = made(SAMPLE);
    let words: Vec<u32> = made
        .flash
        .chunks(4)
        .map(|bytes| u32::from_be_bytes([bytes[0], bytes[1], bytes[2], bytes[3]]))
        .collect();
    // Labels count from the place after the branch.
    assert_eq!(words[3], 0x1440_FFFC);
    assert_eq!(words[5], 0x1000_0001);
    assert_eq!(words[8..13], [u32::MAX, u32::MAX, 0x01FF_FF00, 7, 0]);
    assert_eq!(made.flash.len(), 64);
    // Twice five words, then the branch, its slot and BREAK at 28.
    assert_eq!(bench_line(&made.book, &made.flash), [8, 0, 0, 28, 12]);
}

#[test]
fn the_program_writes_beside_the_text() {
    let folder = std::env::temp_dir().join(format!("second-make-{}", std::process::id()));
    std::fs::create_dir_all(&folder).expect("a folder for the test");
    let case = folder.join("case.txt");
    std::fs::write(&case, SAMPLE).expect("the text is written");
    let program = env!("CARGO_BIN_EXE_second-make");
    let good = std::process::Command::new(program).arg(&case).output().expect("it runs");
    assert!(good.status.success());
    let book = std::fs::read(folder.join("start.book")).expect("a book");
    let flash = std::fs::read(folder.join("flash.bin")).expect("a flash");
    assert_eq!(Made { book, flash }, made(SAMPLE));
    std::fs::write(&case, "nop\nfrob\n").expect("the text is written");
    let bad = std::process::Command::new(program).arg(&case).output().expect("it runs");
    assert_eq!(bad.status.code(), Some(1));
    let error = String::from_utf8_lossy(&bad.stderr).to_string();
    assert!(error.ends_with("line 2: no instruction is called 'frob'\n"), "{error}");
    std::fs::remove_dir_all(&folder).expect("the folder goes");
}
