//! `pdf_sheet`: whole files, against those of an independent script.

use crate::proved::pdf_sheet::{write_sheet, Layout, SheetGlyph};
use crate::proved::pdf_text::{DefaultColumn, Descriptor, FontColumns, FontValues, ProgramKind};
use crate::rattle::alloc::Global;
use std::prelude::v1::*;

/// A line of three glyphs, of which two have an ActualText.
const LINE: &[u8] = b"%PDF-1.7\n%\xE2\xE3\xCF\xD3\n1 0 obj\n<< /Type /Catalog /Pages 2 0 R >>\nendobj\n2 0 obj\n<< /Type /Pages /Count 1 /Kids [3 0 R ] /MediaBox [0 0 118 144] >>\nendobj\n3 0 obj\n<< /Type /Page /Parent 2 0 R /Resources << /Font << /F0 5 0 R >> >> /Contents 4 0 R >>\nendobj\n4 0 obj\n<< /Length 152 >>\nstream\nBT\n/F0 36 Tf\n1 0 0 1 36 54 Tm\n<0001> Tj\n/Span << /ActualText <FEFF0062D83DDE00> >> BDC\n<0002> Tj\nEMC\n/Span << /ActualText <FEFF> >> BDC\n<ABCD> Tj\nEMC\nET\nendstream\nendobj\n5 0 obj\n<< /Type /Font /Subtype /Type0 /BaseFont /URGZOP+Made-Regular /Encoding /Identity-H /DescendantFonts [6 0 R] /ToUnicode 9 0 R >>\nendobj\n6 0 obj\n<< /Type /Font /Subtype /CIDFontType2 /BaseFont /URGZOP+Made-Regular /CIDSystemInfo << /Registry (Adobe) /Ordering (Identity) /Supplement 0 >> /FontDescriptor 7 0 R /CIDToGIDMap /Identity /DW 667 >>\nendobj\n7 0 obj\n<< /Type /FontDescriptor /FontName /URGZOP+Made-Regular /Flags 4 /FontBBox [0 -147 952 928] /ItalicAngle 0 /Ascent 905 /Descent -212 /CapHeight 688 /StemV 64 /FontWeight 400 /FontFile2 8 0 R >>\nendobj\n8 0 obj\n<< /Length1 9 /Length 9 >>\nstream\ntrue font\nendstream\nendobj\n9 0 obj\n<< /Length 9 >>\nstream\nbegincmap\nendstream\nendobj\nxref\n0 10\n0000000000 65535 f \n0000000015 00000 n \n0000000064 00000 n \n0000000146 00000 n \n0000000248 00000 n \n0000000451 00000 n \n0000000595 00000 n \n0000000809 00000 n \n0000001018 00000 n \n0000001087 00000 n \ntrailer\n<< /Size 10 /Root 1 0 R >>\nstartxref\n1145\n%%EOF\n";

/// Three glyphs in a grid, in vertical writing.
const GRID: &[u8] = b"%PDF-1.7\n%\xE2\xE3\xCF\xD3\n1 0 obj\n<< /Type /Catalog /Pages 2 0 R >>\nendobj\n2 0 obj\n<< /Type /Pages /Count 1 /Kids [3 0 R ] /MediaBox [0 0 595 842] >>\nendobj\n3 0 obj\n<< /Type /Page /Parent 2 0 R /Resources << /Font << /F0 5 0 R >> >> /Contents 4 0 R >>\nendobj\n4 0 obj\n<< /Length 190 >>\nstream\nBT\n/F0 36 Tf\n1 0 0 1 52 802 Tm\n<0001> Tj\n1 0 0 1 96 802 Tm\n/Span << /ActualText <FEFF0062D83DDE00> >> BDC\n<0002> Tj\nEMC\n1 0 0 1 140 802 Tm\n/Span << /ActualText <FEFF> >> BDC\n<ABCD> Tj\nEMC\nET\nendstream\nendobj\n5 0 obj\n<< /Type /Font /Subtype /Type0 /BaseFont /URGZOP+Made-Regular /Encoding /Identity-V /DescendantFonts [6 0 R] /ToUnicode 9 0 R >>\nendobj\n6 0 obj\n<< /Type /Font /Subtype /CIDFontType2 /BaseFont /URGZOP+Made-Regular /CIDSystemInfo << /Registry (Adobe) /Ordering (Identity) /Supplement 0 >> /FontDescriptor 7 0 R /CIDToGIDMap /Identity /DW 667 >>\nendobj\n7 0 obj\n<< /Type /FontDescriptor /FontName /URGZOP+Made-Regular /Flags 4 /FontBBox [0 -147 952 928] /ItalicAngle 0 /Ascent 905 /Descent -212 /CapHeight 688 /StemV 64 /FontWeight 400 /FontFile2 8 0 R >>\nendobj\n8 0 obj\n<< /Length1 9 /Length 9 >>\nstream\ntrue font\nendstream\nendobj\n9 0 obj\n<< /Length 9 >>\nstream\nbegincmap\nendstream\nendobj\nxref\n0 10\n0000000000 65535 f \n0000000015 00000 n \n0000000064 00000 n \n0000000146 00000 n \n0000000248 00000 n \n0000000489 00000 n \n0000000633 00000 n \n0000000847 00000 n \n0000001056 00000 n \n0000001125 00000 n \ntrailer\n<< /Size 10 /Root 1 0 R >>\nstartxref\n1183\n%%EOF\n";

/// The table of a grid with two pages.
const TABLE: &[u8] = b"xref\n0 12\n0000000000 65535 f \n0000000015 00000 n \n0000000064 00000 n \n0000000152 00000 n \n0000000254 00000 n \n0000005833 00000 n \n0000005935 00000 n \n0000006028 00000 n \n0000006173 00000 n \n0000006387 00000 n \n0000006597 00000 n \n0000006667 00000 n \ntrailer\n<< /Size 12 /Root 1 0 R >>\nstartxref\n6726\n%%EOF\n";

/// A sheet of glyphs in a small font, which has no columns but PDF's own.
fn sheet(is_vertical: bool, glyphs: &[SheetGlyph<'_>], layout: Layout) -> Vec<u8> {
    let default = DefaultColumn { y: 880, advance: -1000 };
    let values = FontValues {
        kind: ProgramKind::TrueType,
        descriptor: Descriptor {
            font_name: b"URGZOP+Made-Regular",
            flags: 4,
            bounds: [0, -147, 952, 928],
            italic_angle: 0,
            ascent: 905,
            descent: -212,
            cap_height: 688,
            x_height: None,
            stem_v: 64,
            font_weight: 400,
        },
        widths: &[],
        default_width: 667,
        columns: is_vertical.then_some(FontColumns { each: &[], default }),
        program: b"true font",
        cid_to_gid_map: None,
        to_unicode: b"begincmap",
        encoding: None,
        cid_set: None,
    };
    write_sheet(Global, values, glyphs, layout).unwrap().into_inner()
}

#[test]
fn files_are_whole() {
    // A text that is stated, one that isn't, and none.
    let glyph = |code, is_said, text, advance| SheetGlyph { code, is_said, text, advance };
    let three =
        [glyph(1, true, &['A'][..], 667), glyph(2, false, &['b', '\u{1F600}'], 600), glyph(0xABCD, false, &[], 1)];
    assert_eq!(sheet(false, &three, Layout::Line), LINE);
    assert_eq!(sheet(true, &three, Layout::Grid), GRID);
}

#[test]
fn grids_have_further_pages() {
    let glyphs: Vec<_> = (0..193).map(|code| SheetGlyph { code, is_said: true, text: &[], advance: 400_000 }).collect();
    let has_at = |text: &[u8], offset: usize, part: &[u8]| assert_eq!(&text[offset..offset + part.len()], part);
    let grid = sheet(false, &glyphs, Layout::Grid);
    assert_eq!(grid.len(), 7032);
    has_at(&grid, 5793, b"518 50 Tm\n<00BF> Tj\nE");
    let page = b"6 0 obj\n<< /Length 43 >>\nstream\nBT\n/F0 36 Tf\n1 0 0 1 34 770 Tm\n<00C0> Tj\nET\nendstream\n";
    has_at(&grid, 5935, page);
    has_at(&grid, 6726, TABLE);
    let line = sheet(true, &glyphs[..3], Layout::Line);
    has_at(&line, 64, b"2 0 obj\n<< /Type /Pages /Count 1 /Kids [3 0 R ] /MediaBox [0 0 144 14400] >>\nendobj\n3 0 obj\n<< /Type /Page ");
    has_at(&line, 282, b"BT\n/F0 36 Tf\n1 0 0 1 72 14364 Tm\n<0000> Tj\n<0001> Tj\n<0002> Tj\nET\nen");
    assert_eq!(sheet(false, &[], Layout::Grid).len(), 1273);
}
