//! Parts of a PDF's font. What `pdf_font` returns as a whole is in rows.

use super::hex;
use crate::proved::pdf_boxes::kept_box;
use crate::proved::pdf_cff::cff_values_in;
use crate::proved::pdf_glyphs::{columns_at, HeightVariation, OutlineTables, VerticalTables};
use crate::proved::pdf_names::name_at;
use crate::proved::pdf_values::{values_of, Bounds, GlyphBox, Known, Movement, Tables};
use crate::proved::subsetter_base::Tag;
use crate::proved::subsetter_variation::locations::axes::Axis;
use crate::rattle::alloc::Global;
use std::prelude::v1::*;

// ---- boxes of outlines, against fontTools' `ControlBoundsPen`

/// A `CFF ` of nine glyphs, each with the width 500. fontTools wrote the first six: an empty one; rcurveline and rlinecurve after
/// a stem; flex and rlineto; hhcurveto and vhcurveto with an odd operand; hlineto; and a curve whose control points lie outside its
/// ink. Of the others none has a box: a call of a subroutine, a line past 32,767, and no endchar.
const TABLE: &str = "\
    0100040100010101024100010101071d000000191100000000000901010420374d5a696e787cf8880ef8889fa90163048c8d8e8f90919293\
    1882838c8485868788898a190ef8889016958e9f9aa987b38fbd7cc788bd0c238394050ef888926d15959fa9b3bd1b7cc7d1dbe572aeb8c2\
    1e0ef888efbd15f7c0f824fbc0060ef888278b158bf888ef8b8bfc88080ef8888b0a0ef8881c7fff168c8b050ef888ef16";

#[test]
fn boxes_of_outlines() {
    let edges = |x_min, y_min, x_max, y_max| Some(GlyphBox { x_min, y_min, x_max, y_max });
    let table = hex(TABLE);
    for (count, bounds) in [
        (0, None),
        (1, None),
        (2, edges(-4, -44, 16, -20)),
        (3, edges(-4, -44, 215, 18)),
        (4, edges(-4, -44, 367, 155)),
        (5, edges(-4, -44, 400, 450)),
        (6, edges(-100, -44, 400, 500)),
        (9, edges(-100, -44, 400, 500)),
        (65535, edges(-100, -44, 400, 500)),
    ] {
        assert!(kept_box(Global, &table, count).unwrap() == bounds, "{count}");
    }
    assert!(kept_box(Global, &table[..24], 9).unwrap().is_none());
}

// ---- names and stems of tables that fontTools wrote and read again

/// Cantarell Regular's, of glyph 0 alone: StdVW is 70.
const TEXT: &str = "\
    01000402000101011243616e746172656c6c2d526567756c61720001010123f81b00f81c0c00f81d02f81e03fbeefb941d0000051dfadf05\
    8b0fa7f78212f7551100040101065d6e77302e333033436f707972696768742032303139205468652043616e746172656c6c2050726f6a65\
    637420417574686f72732068747470733a6769746c61622e676e6f6d652e6f7267474e4f4d4563616e746172656c6c2d666f6e747343616e\
    746172656c6c20526567756c617243616e746172656c6c0000000101012944fb6dbdf9ecbd01bdbdf7c0bd03bdfb6d15f824fa50fc24fe50\
    06bdbd15f9ecf7c0fdecfbc0070e8195f87695f75e95ae9506fb7795071ea0625f0c09db0ad10bf8cf15";

/// D050000L's, of glyph 0 alone: StdVW is 0.
const ZERO: &str = "\
    010004010001010109443035303030304c000101012bf81b00f81c01f81c0c00f81d02f81d03f81804430c03af0c0489fb24fa6af9c7058b\
    0f9ff72712f71f1100030101053b43322e303028555257292b2b2c436f7079726967687420323031332062792028555257292b2b20446573\
    69676e202620446576656c6f706d656e74443035303030304c00000001010104f7350efb8e8b1d000005468b068b0a8b0bf9a814f9db15";

/// Of a CID-keyed font, Noto Serif CJK's with five font dicts of its own: without StdVW, with 0, -20, 68.5 and 40.
const KEYED: &str = "\
    0100040100010101174e6f746f5365726966434a4b6a702d526567756c6172000101011cf81bf81c8b0c1e8d0c1f1d0000ffff0c22df0fe0\
    0c25e90c24e21100020101060e41646f62654964656e7469747900000000000001010103200e0005010105090d11158bf70f128df70f128d\
    f7111290f713128df718128b0b770b1e68a5ff0bb30b";

#[test]
fn names_and_stems() {
    let [text, zero, keyed] = [TEXT, ZERO, KEYED].map(hex);
    let [cantarell, dingbats, noto] =
        ["Cantarell-Regular", "D050000L", "NotoSerifCJKjp-Regular"].map(|it| Some(it.as_bytes()));
    for (table, units_per_em, name, stem) in [
        (&text[..], 1000, cantarell, Some(70)),
        (&text, 2048, cantarell, Some(34)),
        (&zero, 1000, dingbats, None),
        (&keyed, 1000, noto, Some(69)),
        (&keyed, 2000, noto, Some(34)),
        // Nothing of a cut table.
        (&[], 1000, None, None),
        (&keyed[..3], 1000, None, None),
        (&keyed[..30], 1000, None, None),
        (&keyed[..133], 1000, None, None),
    ] {
        let said = cff_values_in(Global, table, units_per_em).unwrap();
        assert_eq!((said.name, said.stem), (name, stem));
    }
}

// ---- columns of a font of five glyphs with two axes whose heights vary, against those of fontTools' instancer

const HEAD: &str = "\
    00010000000100009bb1f0855f0f3cf50003080000000000e72dd24800000000e72dd248000afed40514059800000003000200000000";

const LOCA: &str = "0000000d001a002700270035";

const GLYF: &str = "\
    0001006400000384057800030000331121116403200578fa88000001003200000514058100030000331121113204e20581fa7f0000010096\
    ffe904b00598000300001711211196041a1705affa510001000afed403e803e900030000131121110a03defed40515faeb00";

const VHEA: &str = "000100000400fc00000008000172fda60836000000000000000000000000000000000005";

const VMTX: &str = "080001920800018907d101720400037005dc0321";

const VVAR: &str = "\
    00010000000000180000000000000000000000000000000000010000000c00010000003400020003c000c000000000000000000000004000\
    4000000000000000000000000000c000c00000000005000200030000000100020000000000ffc9006500ff5b012f250181fd3d0000000000\
    25";

/// Of two glyphs an origin of their own.
const VORG: &str = "00010000070a0002000106cd0003fed4";

/// Of one axis, where all heights stay, and origins vary by 41, by -41 or by 32,767; a map of origins for the first four
/// glyphs.
const VVAR_OF_ORIGINS: &str = "\
    00010000000000180000000000000000000000000000004d00010000001000020000001a0000002700010001000040004000000500000001\
    0000000000000000030001000100000029ffd77fff0001000404050605";

/// Advances, and the parts of origins, at coordinates, of TrueType outlines or others.
fn columns(vorg: Option<&[u8]>, is_true_type: bool, at: &[i32], vvar: &[u8]) -> Vec<[i32; 3]> {
    let [head, loca, glyf, vhea, vmtx] = [HEAD, LOCA, GLYF, VHEA, VMTX].map(hex);
    let true_type = |table| Some(table).filter(|_| is_true_type);
    let outlines = OutlineTables { head: Some(&head), loca: true_type(&loca[..]), glyf: true_type(&glyf[..]) };
    let tables = VerticalTables { vhea: Some(&vhea), vmtx: Some(&vmtx), vorg, outlines };
    let widths = [500, 667, 667, 244, 488];
    let made = columns_at(Global, tables, Some(HeightVariation { at, vvar }), &[1, 2, 3, 4], &widths, &[]).unwrap();
    made.each.iter().map(|it| [it.advance, it.x, it.y]).collect()
}

#[test]
fn moved_columns() {
    let vvar = hex(VVAR);
    let default = [-1000, -1000, -977, -500, -732];
    for (at, vvar, advances) in [
        (&[8192, -12288][..], &vvar[..], [-1000, -1025, -1064, -328, -746]),
        (&[16384, -16384], &vvar, [-1000, -1049, -1143, -155, -750]),
        (&[-8192, 0], &vvar, [-1000, -987, -937, -594, -732]),
        // Where `VVAR` can't be read, the default's advances stay.
        (&[8192, -12288], &vvar[..40], default),
        (&[8192], &vvar, default),
    ] {
        let [a, b, c, d, e] = advances;
        let wanted = [[a, 250, 880], [b, 334, 880], [c, 334, 880], [d, 122, 430], [e, 244, 880]];
        assert_eq!(columns(None, true, at, vvar), wanted);
    }
}

/// The origins of `VORG` vary by the map of `VVAR`, past whose end the last entry counts.
#[test]
fn moved_origins() {
    let (vorg, vvar) = (hex(VORG), hex(VVAR_OF_ORIGINS));
    let mut unmapped = vvar.clone();
    unmapped[23] = 0;
    let default = [880, 850, 880, -146, 880];
    for (is_true_type, at, vvar, origins) in [
        (false, 8192, &vvar[..], [890, 840, 8880, -156, 870]),
        // An origin past 16 bits stays.
        (false, 16384, &vvar, [900, 830, 880, -167, 860]),
        // Without a map, and where it can't be read, all stay.
        (false, 16384, &unmapped, default),
        (false, 16384, &vvar[..81], default),
        // Origins of TrueType outlines are the default's.
        (true, 16384, &vvar, [880, 880, 880, 430, 880]),
    ] {
        let [a, b, c, d, e] = origins;
        let wanted = [[-1000, 250, a], [-1000, 334, b], [-977, 334, c], [-500, 122, d], [-732, 244, e]];
        assert_eq!(columns(Some(&vorg), is_true_type, &[at], vvar), wanted);
    }
}

// ---- Italic and ItalicAngle of a font whose default is italic, at coordinates on `ital` and `slnt`, worked out by hand

fn axis(tag: &[u8; 4], [minimum, default, maximum]: [i32; 3]) -> Axis {
    Axis { tag: Tag::new(tag), minimum, default, maximum }
}

/// Flags and ItalicAngle at a coordinate on an axis, by a `post` with an italicAngle of -9.5.
fn lean_at(axes: &[Axis], tag: &[u8; 4], value: i32) -> (u32, i32) {
    let post = hex(&std::format!("00030000fff68000{}", "00".repeat(24)));
    let settings = [(Tag::new(tag), value)];
    let movement = Movement { at: &[], axes, settings: &settings, mvar: None };
    let tables = Tables { head: None, hhea: None, os2: None, post: Some(&post) };
    let known = Known { cap_top: None, x_top: None, kept: None, stem: None };
    let values = values_of(tables, known, Some(movement), Bounds::Font);
    (values.flags, values.italic_angle)
}

#[test]
fn lean_at_coordinates() {
    let ital = axis(b"ital", [0, 65536, 65536]);
    let slnt = axis(b"slnt", [-655360, 0, 655360]);
    let weight = axis(b"wght", [6553600, 26214400, 58982400]);
    for (axes, tag, value, wanted) in [
        // Without either axis the font stays italic.
        (&[weight][..], b"wght", 6553600, (68, -9500)),
        // `ital` alone: from a half on the font is italic, with the angle of `post`.
        (&[weight, ital], b"ital", 0, (4, 0)),
        (&[weight, ital], b"ital", 32767, (4, 0)),
        (&[weight, ital], b"ital", 32768, (68, -9500)),
        (&[weight, ital], b"wght", 6553600, (68, -9500)),
        // `slnt` alone: below 0 it is.
        (&[slnt], b"slnt", -32768, (68, -500)),
        (&[slnt], b"slnt", 0, (4, 0)),
        (&[slnt], b"slnt", 65536, (4, 1000)),
        // Both: either makes it italic, and the angle is that of `slnt`.
        (&[ital, slnt], b"ital", 0, (4, 0)),
        (&[ital, slnt], b"slnt", -655360, (68, -10000)),
        (&[ital, slnt], b"ital", 65536, (68, 0)),
    ] {
        assert_eq!(lean_at(axes, tag, value), wanted);
    }
}

// ---- names at coordinates, as FreeType gives them (but for the 0 before the point), and long ones by the rule

/// IDs 1 and 6, and three instances: `Semi Bold Oblique`, `Thin Oblique` with a PostScript name, and `Thin`.
const NAMES: &str = "\
    00000006004e0003000104090001001000000003000104090006002000100003000104090102002200300003000104090103002600520003\
    00010409010400080078000300010409010500180080004d00610064006500530061006e0073004d00610064006500530061006e0073002d\
    0052006500670075006c0061007200530065006d006900200042006f006c00640020004f0062006c0069007100750065004d006100640065\
    00560046002d0042006c00610063006b0053006c0061006e007400650064005400680069006e005400680069006e0020004f0062006c0069\
    007100750065";

/// Axes `wght` and `slnt`, and instances at 650 and -7.5, at 900 and -10, and at 100 and 0. The first has no ID of a
/// PostScript name, and the last has one that OpenType doesn't allow.
const FVAR: &str = "\
    0001000000100002000200140003000e7767687400640000019000000384000000000100736c6e74fff60000000000000000000000000101\
    01020000028a0000fff88000ffff0105000003840000fff6000001030104000000640000000000000003";

/// IDs 1, 16 and 25.
const PREFIXES: &str = "\
    00000003002a0003000104090001000800000003000104090010000a00080003000104090019000c001200530061006e0073004d00610064\
    00650034004d00610064006500560046";

/// IDs 1 and 16.
const FAMILIES: &str = "\
    00000002001e0003000104090001000800000003000104090010000a000800530061006e0073004d0061006400650034";

/// The name at coordinates on axes.
fn name(
    names: Option<&str>,
    fvar: Option<&str>,
    axes: &[Axis],
    settings: &[(&[u8; 4], i32)],
    cff: Option<&[u8]>,
) -> String {
    let settings: Vec<_> = settings.iter().map(|(tag, value)| (Tag::new(tag), *value)).collect();
    let movement = Movement { at: &[], axes, settings: &settings, mvar: None };
    let (names, fvar) = (names.map(hex), fvar.map(hex));
    let name = name_at(Global, names.as_deref(), fvar.as_deref(), movement, cff).unwrap();
    String::from_utf8(name.into_inner()).unwrap()
}

#[test]
fn names_of_instances() {
    let axes = [axis(b"wght", [6553600, 26214400, 58982400]), axis(b"slnt", [-655360, 0, 0])];
    for (names, weight, slant, wanted) in [
        (NAMES, 42598400, -491520, "MadeSans-SemiBoldOblique"),
        (NAMES, 58982400, -655360, "MadeVF-BlackSlanted"),
        (NAMES, 6553600, 0, "MadeSans-Thin"),
        (NAMES, 42631168, -491520, "MadeSans_650.5wght_-7.5slnt"),
        (NAMES, 45875200, 0, "MadeSans_700wght"),
        (NAMES, 26214400, -1024, "MadeSans_-0.01562slnt"),
        (NAMES, 21845333, -655360, "MadeSans_333.33333wght_-10slnt"),
        // A coordinate beyond its axis counts as the end of the axis.
        (NAMES, 65536000, -786432, "MadeVF-BlackSlanted"),
        (PREFIXES, 42598400, 0, "MadeVF_650wght"),
        (FAMILIES, 42598400, 0, "Made4_650wght"),
        ("", 42598400, 0, "Font_650wght"),
    ] {
        assert_eq!(name(Some(names), Some(FVAR), &axes, &[(b"wght", weight), (b"slnt", slant)], None), wanted);
    }
}

#[test]
fn name_of_many_axes() {
    let axes = [axis(b"XAXS", [0, 0, 65536]); 10];
    let settings: [(&[u8; 4], _); 1] = [(b"XAXS", 21845)];
    assert_eq!(name(Some(NAMES), None, &axes, &settings, None), "MadeSans-RNWTGU...");
    assert_eq!(name(None, None, &axes[..1], &settings, Some(b"Made-CFF")), "MadeCFF_0.33333XAXS");
}

#[test]
fn shortest_decimals() {
    let axes = [axis(b"wght", [i32::MIN, 131072, i32::MAX])];
    for (value, wanted) in [
        (0, "Font_0wght"),
        (1, "Font_0.00002wght"),
        (-1, "Font_-0.00002wght"),
        (1024, "Font_0.01562wght"),
        (3072, "Font_0.04688wght"),
        (32768, "Font_0.5wght"),
        (65529, "Font_0.9999wght"),
        (65535, "Font_0.99998wght"),
        (21845333, "Font_333.33333wght"),
        (i32::MAX, "Font_32767.99998wght"),
        (i32::MIN, "Font_-32768wght"),
    ] {
        assert_eq!(name(None, None, &axes, &[(b"wght", value)], None), wanted);
    }
}
