//! Ways to write bytes: all of them are read alike.

use zap_tests::claims::trees::{forged, refusal, SHAPES};
use zap_tests::command::{command, Folder, Ran};
use zap_tests::random::{any_function, spoiled, Random};
use zap_tests::reference::answer::Answer;
use zap_tests::reference::checker::check;
use zap_tests::reference::claim::match_claim;
use zap_tests::reference::matcher;
use zap_tests::reference::pattern::{names, Cube};
use zap_tests::reference::programs::hex;
use zap_tests::reference::record::{function, record};
use zap_tests::wirings::pairs::any_pair;

/// On: P names 0, 2, 3, 6, 7 and N 1, 4, which leaves x5, so 2 patterns. Off: N names 0,
/// 2, 3, 6, 7, so 8 patterns; P names 0, 1, 3, 5, 7 and N 2, 6, so 2 more. The other
/// 244 are open. Every input is named.
const LETTERS: &[u8] = &[0x46, 0x4E, 8, 1, 2, 0xCD, 0x12, 0, 0xCD, 0xAB, 0x44];

fn figures_of_letters(name: &str) -> Ran {
    let answer = r#""result":"accepted","code":0,"kind":3,"record":0,"place":11,"pattern":0"#;
    let figures = r#""n":8,"on":2,"off":10,"open":244,"in_use":8"#;
    let out = format!("{{\"verb\":\"summary\",\"file\":\"{name}\",{answer},{figures}}}\n");
    Ran { out, err: String::new(), status: 0 }
}

/// With its byte order mark.
pub fn utf_16(text: &str, unit: fn(u16) -> [u8; 2]) -> Vec<u8> {
    format!("\u{feff}{text}").encode_utf16().flat_map(unit).collect()
}

#[test]
fn ways_to_write_bytes() {
    let texts = [
        "46 4E 08 01 02 CD 12 00 CD AB 44",
        "46 4e 08 01 02 cd 12 00 cd ab 44",
        "46 4e 08 01 02 Cd 12 00 cD aB 44\n",
        "464E080102CD1200CDAB44",
        "464e0801 02cd1200cdab44",
        "0x464E080102CD1200CDAB44",
        "0x46 0x4E 0x08 0x01 0x02 0xCD 0x12 0x00 0xCD 0xAB 0x44",
        "0X46,0X4e,0x8,0x1,0X2,0xCd,0x12,0x0,0xcD,0xab,0x44",
        "46,4E,08,01,02,CD,12,00,CD,AB,44",
        ", 46 ,, 4E,\t08 , 01\n,02,CD,12,00,CD,AB,44,\n",
        "46 4E 08 01 02\r\nCD 12\r\n00 CD\r\nAB 44\r\n",
        "\t46\t4E\t\t08\t01\t02\tCD\t12\t00\tCD\tAB\t44\t",
        "\n\n 46 4E\x0B08 01\x0C02 CD 12 00 CD AB 44 \n \n",
        "# a function\n46 4E 08 01 02 # 8 inputs\nCD 12 # on\n00 CD\nAB 44 # off",
        "#\n46 4E 08 01 02# 0x99 FF, G\nCD12#\n00 CD AB# 45\n44#",
        "# f\u{fc}r \u{2192} \u{1F600}\n46 4E 08 01 02 CD 12 00 CD#\u{e4}\nAB 44 # \u{4E2D}\r\n",
    ];
    let mut ways = vec![("binary".to_string(), LETTERS.to_vec())];
    for text in texts {
        ways.push((format!("{text:?}"), text.into()));
        ways.push((format!("{text:?}, with a mark"), format!("\u{feff}{text}").into()));
        ways.push((format!("{text:?}, little"), utf_16(text, u16::to_le_bytes)));
        ways.push((format!("{text:?}, big"), utf_16(text, u16::to_be_bytes)));
    }
    let folder = Folder::new();
    for (name, content) in ways {
        folder.write("f", &content);
        assert_eq!(folder.zap("summary --json f"), figures_of_letters("f"), "{name}");
        let piped = Ran::of(command().args(["summary", "--json", "-"]), &content);
        assert_eq!(piped, figures_of_letters("standard input"), "{name}");
    }
}

/// The bytes as text, in a random mixture of the ways.
fn mixture(random: &mut Random, bytes: &[u8]) -> Vec<u8> {
    const APART: [&str; 12] = [
        " ",
        "\t",
        "\n",
        "\r\n",
        ",",
        " , ",
        "\x0B",
        "\x0C",
        "#\n",
        " # 0x, 4G and f\u{fc}r \u{2192}\n",
        "#\u{1F600}46\r\n",
        "  ",
    ];
    let mut text = String::new();
    let mut rest = bytes;
    while !rest.is_empty() {
        let least = usize::from(rest.len() < bytes.len());
        (0..least + random.below(3)).for_each(|_| text += random.pick(&APART));
        let (group, after) = rest.split_at((1 + random.below(4)).min(rest.len()));
        rest = after;
        let prefix = random.pick(&["", "", "0x", "0X"]);
        text += prefix;
        match group {
            [byte @ 0..=15] if !prefix.is_empty() && random.flip() => text += &format!("{byte:x}"),
            _ => group.iter().for_each(|byte| match random.flip() {
                true => text += &format!("{byte:02x}"),
                false => text += &format!("{byte:02X}"),
            }),
        }
    }
    (0..random.below(3)).for_each(|_| text += random.pick(&APART));
    match random.below(4) {
        0 => text.into(),
        1 => format!("\u{feff}{text}").into(),
        2 => utf_16(&text, u16::to_le_bytes),
        _ => utf_16(&text, u16::to_be_bytes),
    }
}

/// `x0·x2'`, or `1` if it has no literals; in quotes.
fn product(cube: &Cube) -> String {
    let literals = (0..8).filter_map(|i| match (names(cube.p, i), names(cube.n, i)) {
        (true, _) => Some(format!("x{i}")),
        (_, true) => Some(format!("x{i}'")),
        _ => None,
    });
    let literals: Vec<String> = literals.collect();
    format!("\"{}\"", if literals.is_empty() { "1".into() } else { literals.join("\u{b7}") })
}

pub fn numbers_in_json(Answer { code, kind, record, place, pattern }: Answer) -> String {
    let place = format!("\"record\":{record},\"place\":{place},\"pattern\":{pattern}");
    format!("\"code\":{code},\"kind\":{kind},{place}")
}

/// What is read is seen whole: an accepted function by its cubes, a refused one by its
/// bytes, sixteen in a line.
fn expect_shown(folder: &Folder, bytes: &[u8]) {
    let context = hex(bytes);
    match function(bytes, 1) {
        Ok(f) => {
            let list = |cubes: &[Cube]| cubes.iter().map(product).collect::<Vec<_>>().join(",");
            let start = format!(
                "{{\"verb\":\"show\",\"file\":\"f\",\"result\":\"accepted\",{},\"n\":{},\
                 \"on_cubes\":[{}],\"off_cubes\":[{}],",
                numbers_in_json(Answer::accepted(3, bytes.len())),
                f.n,
                list(&f.on),
                list(&f.off)
            );
            let ran = folder.zap("show --json f");
            assert!(ran.out.starts_with(&start) && ran.status == 0, "{context}\n{ran:?}\n{start}");
        }
        Err(Answer { code, place, pattern, .. }) => {
            let ran = folder.zap("show f");
            let numbers =
                format!("code {code}, kind 0, record 1, place {place}, pattern {pattern}");
            assert_eq!((ran.out.lines().last(), ran.status), (Some(&*numbers), 2), "{context}");
            // A long one is shown near the fault alone.
            if bytes.len() <= 256 {
                for (row, part) in bytes.chunks(16).enumerate() {
                    let line = format!("{:>7}  {}", 16 * row, hex(part));
                    assert!(ran.out.lines().any(|found| found == line), "{line}\n{}", ran.out);
                }
            }
        }
    }
}

#[test]
fn random_functions_in_random_ways() {
    let mut random = Random::new(61);
    let folder = Folder::new();
    let mut accepted = 0;
    for case in 0..300 {
        let bytes = match case % 3 {
            0 => record(&any_function(&mut random)),
            1 => {
                let f = any_function(&mut random);
                spoiled(&mut random, f)
            }
            _ => (0..random.below(40)).map(|_| random.byte()).collect(),
        };
        accepted += usize::from(function(&bytes, 1).is_ok());
        folder.write("f", mixture(&mut random, &bytes));
        expect_shown(&folder, &bytes);
    }
    assert!((100..200).contains(&accepted), "{accepted}");
}

/// Claims that hold, and claims that do not, held against the reference; and what the
/// matcher finds.
#[test]
fn random_claims_in_random_ways() {
    let mut random = Random::new(62);
    let folder = Folder::new();
    let mut kinds = [0; 3];
    for _ in 0..150 {
        let n = 1 + random.below(3);
        let made = any_pair(&mut random, n);
        let (f, g) = (record(&made.two.f), record(&made.two.g));
        let (found, claim) = matcher::find(&f, &g, 1_000);
        let claim = claim.expect("none of 3 inputs is longer");
        let mut claims =
            vec![claim.clone(), match_claim(&made.wiring), forged(&mut random, &made.two)];
        if found.kind == 2 {
            let shape = random.pick(&SHAPES);
            claims.push(refusal(&mut random, &made.two, shape));
        }
        let at = random.below(claim.len());
        let mut damaged = claim.clone();
        damaged[at] = random.byte();
        claims.push(damaged);
        folder.write("f", mixture(&mut random, &f));
        folder.write("g", mixture(&mut random, &g));

        let ran = folder.zap("match --json f g");
        let parts = [numbers_in_json(found), format!("\"bytes\":\"{}\",", hex(&claim))];
        for part in parts {
            assert!(ran.out.contains(&part), "{part} in {ran:?}");
        }
        for claim in claims {
            folder.write("c", mixture(&mut random, &claim));
            let answer = check(&f, &g, &claim).answer;
            let ran = folder.zap("check --json f g c");
            let context = format!("{}, {}, {}: {ran:?}", hex(&f), hex(&g), hex(&claim));
            assert!(ran.out.contains(&format!(",{}", numbers_in_json(answer))), "{context}");
            assert_eq!(ran.status, i32::from(answer.code != 0), "{context}");
            kinds[answer.kind as usize] += 1;
        }
    }
    assert!(kinds.iter().all(|&seen| seen > 30), "{kinds:?}");
}
