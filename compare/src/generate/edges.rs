//! Symbols written by hand, where v0.rs decides between two ways; and every
//! byte at each place where v0.rs reads a tag.

use crate::encode;
use rig::lines::to_hex;

/// All of them, behind their prefix.
pub fn edges() -> Vec<Vec<u8>> {
    let mut edges: Vec<Vec<u8>> = WHOLE.iter().map(|edge| edge.as_bytes().to_vec()).collect();
    for &(before, rows, after) in INSIDE {
        edges.extend(rows.iter().map(|&row| [before, row, after].concat().into_bytes()));
    }
    edges.extend(numbers());
    edges.extend(names());
    edges.extend(strings());
    edges.extend(deep());
    edges.extend(tags());
    edges
}

/// Prefix left out, the symbol as it stands.
const WHOLE: &[&str] = &[
    // Names and their lengths.
    "C0", "C00", "C01a", "C1", "C1a", "C2a", "C1_", "C1_a", "C1__", "C0_a", "C2__a", "C10123456789", "C9",
    "C18446744073709551614a", "C18446744073709551615a", "C18446744073709551616a", "C99999999999999999999a",
    "C18446744073709551610_a", "C18446744073709551617a", "C36893488147419103233a", "C92233720368547758081a",
    "C", "Cs", "Cs_", "Cs_0", "Css_0", "C!", "C1\n", "C-1a",
    // Names in Punycode.
    "Cu0", "Cu0_", "Cu1_", "Cu1a", "Cu2a_", "Cu2_a", "Cu3__a", "Cu3a_a", "Cu5a_b_a", "Cu3kva", "Cu3kvA",
    "Cu3Kva", "Cu4kva!", "Cu4kv-a", "Cu9bcher_kva", "Cu9_bcher_kv", "Cuu3kva", "Cu", "u3kva", "Cu3k_a",
    "Cu5ab_9z", "Cu6a_zzzz", "Cu6_zzzzz", "Cu12zzzzzzzzzzza", "Cu8999999ba", "Cu5ab_ba",
    // Namespaces, disambiguators, empty names.
    "NvC00", "NvC01a", "NCC00", "NCC0s_0", "NCC0s_1a", "NCC01a", "NSC00", "NAC00", "NZC01a", "NvC0s_1a",
    "NvC0s_0", "Nv", "N", "NvC0", "NvC0s", "N_C00", "N0C00", "NvNvC00", "Nvu", "NvC0u3kva", "NCC0u3kva",
    // Impl paths.
    "MC0u", "Ms_C0u", "MC0", "M", "Mu", "XC0uC0", "Xs_C0uC0", "XC0u", "XC0", "YuC0", "Yu", "Y", "MIC0L0_Eu",
    "MIC0BZZ_Eu", "MB_u", "MIC0B_Eu", "MIC0B0_Eu", "XIC0L0_EuC1a", "MIC0FG0_RL2_mEuEu",
    // Second paths and suffixes.
    "C0C0", "C0Z", "C0N", "C0_C0", "C0.C0", "C0z", "C0 C0", "C1aC1bC1c", "C1aNvB_1b", "C1aB_", "C1aB0_",
    "C1aB1_", "C1aB3_", "C1aB2_", "C1aBZ_", "C0@plt", "C0.llvm.", "C0\0", "C1aIC0L0_E", "C1aMC0B_",
    // Back references.
    "B_", "NvB_1a", "NvB0_1a", "NvB1_1a", "IC0B_E", "IC0B0_E", "IC0B1_E", "IC0B2_E", "IC0B00_E", "IC0mB2_E",
    "IC0mB3_E", "IC0mTB2_EE", "IC0mFEB2_E", "IC0KpKB3_E", "IC0KpKB2_E", "IC0IC1amEB2_E", "IC0KRh1_AmB3_E",
    "IC0BE", "IC0B", "IC0B_",
];

type Rows = &'static [&'static str];

/// What stands before, inside and behind.
const INSIDE: &[(&str, Rows, &str)] = &[
    ("IC0", &[
        "", "L_", "L0_", "L", "LL_", "Kp", "K", "KK", "RL_m", "RL0_m", "RLm", "Rm", "R", "QL_m", "QL0_m", "Qm",
        "Pm", "Om", "Sm", "Amp", "AmKp", "Am", "A", "TE", "TmE", "TmmE", "T", "Tm", "wm", "wwm", "w", "wRwm",
        "wB0_", "TmEE", "FG_RL0_mEu", "FG_RL1_mEu", "FG0_TRL0_mRL1_mRL2_mEEu", "FG_FG_TRL0_mRL1_mRL2_mEEuEu",
        "FG_EuRL0_m", "FGo_RL0_RL1_RLn_RLo_RLp_mEu", "FGp_RL0_RL1_RLo_RLp_RLq_mEu", "C1a", "C1ap",
        "INvC1a1bmE",
    ], "E"),
    ("IC0F", &[
        "Eu", "EuE", "Em", "E", "", "mEu", "mmEu", "UEu", "UUEu", "KCEu", "KCCEu", "KUEu", "UKCEu", "KCUEu",
        "G_UKCEu", "GEu", "KGEu", "K0Eu", "K0_Eu", "K1aEu", "K1_aEu", "K2__aEu", "K3a_bEu", "K4a__bEu",
        "K3_a_bEu", "Ku3kvaEu", "Ku5a_kvaEu", "K3a-bEu", "K1\"Eu", "Ks_1aEu", "KEu", "EEu", "TEEu", "EFEu",
        "ETE",
    ], "E"),
    ("IC0D", &[
        "EL_", "EL0_", "EL", "E", "EE", "EmL_", "C1aEL_", "C1aC1bEL_", "C1ap1bmEL_", "C1ap1bmp1cmEL_",
        "C1ap1bKpEL_", "C1ap0mEL_", "C1apmEL_", "C1ap1bEL_", "IC1aEEL_", "IC1amEEL_", "IC1amEp1bmEL_",
        "IC1aL_Ep1bmEL_", "IC1aL0_EEL_", "mEL_", "L_", "G_C1aEL_", "G_C1aEL0_", "G_IC1aL0_EEL_", "G_EL_",
        "G_C1ap1bRL0_mEL_", "B_EL_", "B0_EL_", "B1_EL_", "B2_EL_", "IC1amEEL_DB3_p1bmEL_", "IIC1amEmEp1bmEL_",
        "NvC1a1bEL_", "u3kvaEL_", "C1apu3kvamEL_", "C1aEL_L_", "C1aEp1bmL_",
    ], "E"),
    ("IC0Wm", &[
        "N", "R", "Rp", "Rpp", "Rm1_m9_", "O", "OE", "ONE", "ONNE", "OONENE", "OONEONEE", "ON", "OZE", "Z",
        "E", "RKpp", "ORppRppE", "B2_",
    ], "E"),
    ("IC0K", &[
        "p", "pp", "h_", "h0_", "hff_", "h100_", "h", "hF_", "hg_", "h1.", "hn1_", "an1_", "ann1_", "an_",
        "a80_", "an0_", "n1_", "nn1_", "i_", "yffffffffffffffff_", "y10000000000000000_",
        "y00000000000000001_", "o0ffffffffffffffff_", "o00010000000000000000_", "y0000000000000000000000_",
        "xnffffffffffffffff_", "nn10000000000000000_", "f0_", "d0_", "z0_", "u0_", "v0_", "b0_", "b1_", "b_",
        "b2_", "b00_", "b01_", "b02_", "b10000000000000001_", "b00000000000000000001_", "bn0_", "c0_", "c9_",
        "ca_", "cd_", "c22_", "c27_", "c5c_", "c1_", "c1f_", "c7e_", "c7f_", "c61_", "c_",
        "c0000000000000000000061_", "cd7ff_", "cd800_", "cdfff_", "ce000_", "c10ffff_", "c110000_",
        "c100000061_", "c10000000000000061_", "cn61_", "cG_", "c80_", "ce9_", "Re61_", "Qe61_", "RRe61_",
        "QRe61_", "RQe61_", "Re", "R", "RE", "Rp", "Qp", "Rh1_", "Qh1_", "AE", "ApE", "AppE", "A", "Ap", "TE",
        "TpE", "TppE", "T", "ARh1_E", "TRe61_E", "Ae61_E", "AAEE", "VC1aU", "VC1aTE", "VC1aTpE", "VC1aTppE",
        "VC1aSE", "VC1aS0pE", "VC1aS1fpE", "VC1aS1fp1gpE", "VC1aSs_1fpE", "VC1aSu3kvapE", "VC1aS1fE",
        "VC1aSfpE", "VC1a", "VC1aE", "VC1aA", "V", "VmU", "VIC1amEU", "VNvC1a1bTRe61_e61_E", "RVC1aU", "B_",
        "B0_", "B2_", "B3_", "B4_", "Vp", "K", "L_", "E",
    ], "E"),
];

/// Numbers about 2^64 wherever one is read.
fn numbers() -> Vec<Vec<u8>> {
    let mut edges = Vec::new();
    for value in (1_u128 << 64) - 3..(1 << 64) + 4 {
        let tagged = |tag| encode::opt_integer_62(tag, value);
        let bare = encode::integer_62(value);
        edges.push([b"C".to_vec(), tagged(b's'), b"1a".to_vec()].concat());
        edges.push([b"NCC0".to_vec(), tagged(b's'), b"1a".to_vec()].concat());
        edges.push([b"IC0F".to_vec(), tagged(b'G'), b"EuE".to_vec()].concat());
        edges.push([b"MIC0F".to_vec(), tagged(b'G'), b"EuEu".to_vec()].concat());
        edges.push([b"IC0L".to_vec(), bare.clone(), b"E".to_vec()].concat());
        edges.push([b"IC0B".to_vec(), bare, b"E".to_vec()].concat());
    }
    edges
}

/// Names of 127 to 130 characters, with and without Punycode, and one whose
/// first delta meets the limit of the bias adaptation's loop exactly.
fn names() -> Vec<Vec<u8>> {
    let in_punycode = |text: &[char]| [b"Cu".to_vec(), encode::with_length(&encode::punycode_ident(text))].concat();
    let mut edges = vec![in_punycode(&['a', 'b', 'c', '\u{f960}', '\u{f970}'])];
    for length in 127..=130 {
        let mut mixed = vec!['a'; length];
        mixed[length / 2] = 'ü';
        edges.push(in_punycode(&mixed));
        edges.push(in_punycode(&vec!['ü'; length]));
        edges.push([b"C".to_vec(), encode::with_length("a".repeat(length).as_bytes())].concat());
    }
    edges
}

/// String constants: every ASCII character, good and bad UTF-8, odd counts.
fn strings() -> Vec<Vec<u8>> {
    let mut hexes: Vec<String> = (0..0x80_u8).map(|byte| to_hex(&[byte])).collect();
    for bad in encode::BAD_UTF8 {
        hexes.push(to_hex(bad));
        hexes.push(format!("61{}61", to_hex(bad)));
    }
    for good in ["", "ab", "ü", "€", "💜", "\u{80}", "\u{7ff}", "\u{800}", "\u{ffff}", "\u{10000}", "\u{10ffff}"] {
        hexes.push(to_hex(good.as_bytes()));
    }
    hexes.extend(["6", "616", "F0", "6g"].map(String::from));
    let constant = |hex: &String| ["IC0Ke", hex, "_KRe", hex, "_E"].concat().into_bytes();
    hexes.iter().map(constant).collect()
}

/// Depth against the other tests: a byte from 0x80 up is found before it, and
/// a second path starts anew.
fn deep() -> Vec<Vec<u8>> {
    let nested = |level: usize| ["M".repeat(level - 1), "C0".into(), "u".repeat(level - 1)].concat().into_bytes();
    let opened = "Nv".repeat(500).into_bytes();
    vec![
        opened.clone(),
        [&opened[..], "é".as_bytes()].concat(),
        [&opened[..], b"\xff"].concat(),
        [nested(500), nested(500)].concat(),
        [nested(500), nested(501)].concat(),
        [nested(501), b"Z".to_vec()].concat(),
        [b"C0".to_vec(), nested(501)].concat(),
    ]
}

/// Every ASCII byte where a path's, type's, constant's, pattern's tag, a
/// namespace, a compound constant's kind or an argument list's end may stand.
fn tags() -> Vec<Vec<u8>> {
    let places = [
        ("", "C0"),
        ("IC0", "mE"),
        ("IC0K", "1_E"),
        ("IC0Wm", "ppE"),
        ("N", "C01a"),
        ("IC0KVC0", "EE"),
        ("IC0m", ""),
    ];
    let mut edges = Vec::new();
    for (before, after) in places {
        edges.extend((0..0x80).map(|byte| [before.as_bytes(), &[byte], after.as_bytes()].concat()));
    }
    edges
}
