//! Sheets for every cause of every refusal of a sheet, and for each limit its last good and its first bad value, each
//! with the first line that must be printed. The lines and their places are written by hand from the documents.

pub struct Case {
    pub name: String,
    pub bytes: Vec<u8>,
    pub expected: String,
}

/// A sheet of three sections with the trailer that is right for their lengths.
fn written(opening: &str, rules: &str, notes: &str) -> Vec<u8> {
    let first_rule = opening.len();
    let first_note = first_rule + rules.len();
    format!("{opening}{rules}{notes}end {first_rule} {first_note}\n").into_bytes()
}

struct Cases(Vec<Case>);

impl Cases {
    fn raw(&mut self, name: &str, bytes: &[u8], expected: &str) {
        self.0.push(Case { name: name.to_string(), bytes: bytes.to_vec(), expected: expected.to_string() });
    }

    fn sheet(&mut self, name: &str, sections: [&str; 3], expected: &str) {
        self.raw(name, &written(sections[0], sections[1], sections[2]), expected);
    }

    /// Each line, put at the end of one section, makes the same answer.
    fn lines(&mut self, name: &str, sections: [&str; 3], section: usize, lines: &[&str], expected: &str) {
        for line in lines {
            let mut sections = sections.map(str::to_string);
            sections[section] += &format!("{line}\n");
            let [opening, rules, notes] = &sections;
            self.sheet(&format!("{name}: `{line}`"), [opening, rules, notes], expected);
        }
    }
}

pub fn cases() -> Vec<Case> {
    let mut cases = Cases(Vec::new());
    bytes(&mut cases);
    trailer(&mut cases);
    trailer_moves_sections(&mut cases);
    heading(&mut cases);
    flags(&mut cases);
    flag_limits(&mut cases);
    variables(&mut cases);
    variable_limits(&mut cases);
    sums(&mut cases);
    rules(&mut cases);
    depths(&mut cases);
    formulas(&mut cases);
    flag_notes(&mut cases);
    number_notes(&mut cases);
    order(&mut cases);
    cases.0
}

const MET: &str = "flags\nv met\na met\n"; // 18 bytes

fn bytes(cases: &mut Cases) {
    cases.raw("empty", b"", "refused 10 0");
    for byte in [0, 9, 11, 13, 31, 127, 128, 255] {
        let mut bytes = written(MET, "r 0\n", "n 1\n");
        bytes[19] = byte;
        cases.raw(&format!("byte {byte}"), &bytes, "refused 10 0");
    }
    cases.raw("no line end behind the trailer", b"flags\nv met\na met\nr 0\nn 1\nend 18 22", "refused 10 0");
    cases.raw("a space behind the last line end", b"flags\nv met\na met\nr 0\nn 1\nend 18 22\n ", "refused 10 0");
    cases.raw("a byte of a wrong trailer", b"flags\nv met\nend\t0 0\n", "refused 10 0");
    let rules = "r 0\n".repeat(16_376);
    cases.raw("65,536 bytes", format!("flags\nv q\nv pp\na q\n{rules}end 19 65523\n").as_bytes(), "kept 0");
    cases.raw("65,537 bytes", format!("flags\nv q\nv ppp\na q\n{rules}end 20 65524\n").as_bytes(), "refused 10 0");
    cases.raw("65,537 line ends", &[10; 65_537], "refused 10 0");
    cases.raw("65,536 line ends", &[10; 65_536], "refused 11 65535");
}

fn trailer(cases: &mut Cases) {
    let wrong = [
        "end", "end 18", "end 18 22 26", "End 18 22", "ende 18 22", "e 18 22", "end  18 22", "end 18  22", " end 18 22", "end 18 22 ", "end18 22",
        "end 018 22", "end 18 022", "end +18 22", "end -18 22", "end 18 -22", "end -0 22", "end 18 2x", "end x 22", "end 0x12 22", "18 22", "n 1",
        // 0 < R <= N <= 26
        "end 0 22", "end 0 0", "end 22 18", "end 18 27", "end 18 30", "end 27 27", "end 99 99", "end -1 22", // no line begins there
        "end 17 22", "end 19 22", "end 18 21", "end 18 23", "end 1 22", "end 18 25",
        // too long for a machine's number, or equal to a good one in its low bits
        "end 18 22222222222222222222222222", "end 18446744073709551634 18446744073709551638", "end 4294967314 4294967318", "end 65554 65558",
        "end 274 278",
    ];
    for trailer in wrong {
        let sheet = format!("{MET}r 0\nn 1\n{trailer}\n");
        cases.raw(&format!("trailer `{trailer}`"), sheet.as_bytes(), "refused 11 26");
    }
    cases.raw("trailer right", b"flags\nv met\na met\nr 0\nn 1\nend 18 22\n", "kept 1");
    cases.raw("two line ends at the end", b"flags\nv met\na met\nr 0\nn 1\nend 18 22\n\n", "refused 11 36");
    cases.raw("no trailer", b"flags\nv met\na met\nr 0\nn 1\n", "refused 11 22");
    cases.raw("one line `flags`", b"flags\n", "refused 11 0");
    cases.raw("one line `end 0 0`", b"end 0 0\n", "refused 11 0");
    cases.raw("one line `end 1 1`", b"end 1 1\n", "refused 11 0");
    cases.raw("one empty line", b"\n", "refused 11 0");
    cases.raw("two empty lines", b"\n\n", "refused 11 1");
}

fn trailer_moves_sections(cases: &mut Cases) {
    cases.raw("no rule, no note", b"flags\nv met\nend 12 12\n", "kept 0");
    cases.raw("a rule, no note", b"flags\nv met\na met\nr 0\nend 18 22\n", "kept 0");
    cases.raw("no rule, a note", b"flags\nv met\na met\nn 1\nend 18 18\n", "kept 1");
    cases.raw("an `a` line from R on", b"flags\nv met\na met\nr 0\nn 1\nend 12 22\n", "refused 13 12");
    cases.raw("a rule before R", b"flags\nv met\na met\nr 0\nn 1\nend 22 22\n", "refused 12 18");
    cases.raw("a note before R", b"flags\nv met\na met\nr 0\nn 1\nend 26 26\n", "refused 12 18");
    cases.raw("a rule from N on", b"flags\nv met\na met\nr 0\nn 1\nend 18 18\n", "refused 14 18");
    cases.raw("a note before N", b"flags\nv met\na met\nr 0\nn 1\nend 18 26\n", "refused 13 22");
    cases.raw("a second trailer among the notes", b"flags\nv met\na met\nr 0\nn 1\nend 18 22\nend 18 22\n", "refused 14 26");
}

fn heading(cases: &mut Cases) {
    for heading in ["Flags", "FLAGS", "flag", "flagss", "flags ", " flags", "flags 1", "number", "Numbers", "numbers ", "numbers 1", "", "v met", "x"]
    {
        cases.sheet(&format!("heading `{heading}`"), [&format!("{heading}\nv met\n"), "", ""], "refused 12 0");
        cases.sheet(&format!("bare heading `{heading}`"), [&format!("{heading}\n"), "", ""], "refused 12 0");
    }
    cases.sheet("bare heading of flags", ["flags\n", "", ""], "refused 12 6");
    cases.sheet("bare heading of flags with a rule", ["flags\n", "r T\n", ""], "refused 12 6");
    cases.sheet("bare heading of flags with a wrong rule", ["flags\n", "r ?\n", ""], "refused 12 6");
    cases.sheet("bare heading of flags with a note", ["flags\n", "", "n 1\n"], "refused 12 6");
    cases.sheet("bare heading of numbers", ["numbers\n", "", ""], "refused 12 8");
    cases.sheet("bare heading of numbers with a note", ["numbers\n", "", "n 1\n"], "refused 12 8");
}

fn flags(cases: &mut Cases) {
    let wrong = [
        "v", "v ", "v A", "v bA", "v b1", "v b_", "v abcdefghi", "v abcdefghijklmnopqrstuvwxyz", "v met", "V b", "v  b", "v b ", " v b", "v b c",
        "vb", "v b 0 1", "w b", "b", "", "r T", "n 1", "flags", "end 12 12", // atoms
        "a", "a ", "a mat", "a me", "a mett", "a met met", "a  met", "a met ", " a met", "A met", "a Met", "amet", "a 0", "a 1*met=0", "a met=1",
    ];
    cases.lines("flags", ["flags\nv met\n", "", ""], 0, &wrong, "refused 12 12");
    cases.sheet("an `a` line before any `v` line", ["flags\na met\nv met\n", "", ""], "refused 12 6");
    cases.sheet("an `a` line and no `v` line", ["flags\na met\n", "", ""], "refused 12 6");
    cases.sheet("a `v` line after an `a` line", ["flags\nv met\na met\nv b\n", "", ""], "refused 12 18");
    cases.sheet("an empty line behind the heading", ["flags\n\nv met\n", "", ""], "refused 12 6");
    cases.sheet("the first of two wrong lines", ["flags\nv met\nv 1\nv 2\n", "", ""], "refused 12 12");
    cases.sheet("two atoms of one flag", ["flags\nv met\na met\na met\n", "r & 0 1\n", ""], "kept 0");
    cases.sheet("no atom", ["flags\nv met\n", "r T\n", "n 0\nn 1\n"], "kept 2");
    cases.sheet("a variable in a flags sheet", ["flags\nv t 0 9\n", "", ""], "refused 12 6");
}

fn flag_limits(cases: &mut Cases) {
    cases.sheet("a name of 1 letter", ["flags\nv z\na z\n", "", ""], "kept 0");
    cases.sheet("a name of 8 letters", ["flags\nv abcdefgh\na abcdefgh\n", "", "n 1\n"], "kept 1");
    cases.sheet("a name of 9 letters", ["flags\nv abcdefghi\n", "", ""], "refused 12 6");
    let twelve = "flags\nv a\nv b\nv c\nv d\nv e\nv f\nv g\nv h\nv i\nv j\nv k\nv l\n"; // 54 bytes
    cases.sheet("12 flags", [twelve, "", "n 1 0 1 0 1 0 1 0 1 0 1 0\n"], "kept 1");
    cases.sheet("13 flags", [&format!("{twelve}v m\n"), "", ""], "refused 12 54");
    let many = format!("flags\nv met\n{}", "a met\n".repeat(32)); // 204 bytes
    cases.sheet("32 atoms", [&many, "r 31\n", ""], "kept 0");
    cases.sheet("33 atoms", [&format!("{many}a met\n"), "", ""], "refused 12 204");
}

const T: &str = "numbers\nv t 0 9\n"; // 16 bytes

fn variables(cases: &mut Cases) {
    let wrong = [
        "v", "v ", "v u", "v u 0", "v u 0 1 2", "v  u 0 1", "v u  0 1", "v u 0  1", "v u 0 1 ", " v u 0 1", "V u 0 1", "vu 0 1", "w u 0 1", "",
        "r T", "n 1", "v U 0 1", "v u1 0 1", "v 0 1", "v abcdefghi 0 1", "v t 0 1", "v u 1 0", "v u -1 -2", "v u 00 1", "v u 0 01", "v u -0 1",
        "v u 0 -0", "v u +0 1", "v u 0 +1", "v u x 1", "v u 0 x", "v u 0 -", "v u - 1", "v u --1 1", "v u 0 1.0", "v u 10001 10001",
        "v u -10001 -10001", "v u 10000 10001", "v u -10001 -10000", "v u 0 99999999999999999999", "v u 18446744073709551616 1",
        "v u 0 18446744073709551617", "v u -18446744073709551616 1",
    ];
    cases.lines("variable", [T, "", ""], 0, &wrong, "refused 12 16");
    cases.lines(
        "variable",
        [T, "", ""],
        0,
        &["v u 3 3", "v u -3 -2", "v u -1 1", "v abcdefgh 0 1", "v u 10000 10000", "v u -10000 -10000"],
        "kept 0",
    );
    cases.sheet("a flag in a number sheet", ["numbers\nv t\n", "", ""], "refused 12 8");
    cases.sheet("an `a` line before any variable", ["numbers\na 1*t=0\nv t 0 9\n", "", ""], "refused 12 8");
    cases.sheet("a variable after an `a` line", ["numbers\nv t 0 9\na 1*t=0\nv u 0 1\n", "", ""], "refused 12 24");
}

fn variable_limits(cases: &mut Cases) {
    let eight = "numbers\nv a 0 1\nv b 0 1\nv c 0 1\nv d 0 1\nv e 0 1\nv f 0 1\nv g 0 1\nv h 0 1\n"; // 72 bytes
    cases.sheet("8 variables", [eight, "", "n 0 1 0 1 0 1 0 1\n"], "kept 1");
    cases.sheet("9 variables", [&format!("{eight}v i 0 0\n"), "", ""], "refused 12 72");
    cases.sheet("4,096 codes of one variable", ["numbers\nv t 0 4095\n", "", "n 4095\n"], "kept 1");
    cases.sheet("4,097 codes of one variable", ["numbers\nv t 0 4096\n", "", ""], "refused 12 8");
    cases.sheet("4,096 codes of two variables", ["numbers\nv t 0 63\nv u -32 31\n", "", ""], "kept 0");
    cases.sheet("4,160 codes of two variables", ["numbers\nv t 0 63\nv u -32 32\n", "", ""], "refused 12 17");
    cases.sheet("4,097 codes of two variables", ["numbers\nv t 1 17\nv u 1 241\n", "", ""], "refused 12 17");
    cases.sheet("a width of 1 behind 4,096 codes", ["numbers\nv t 0 4095\nv u 5 5\n", "", ""], "kept 0");
    cases.sheet("a width of 2 behind 4,096 codes", ["numbers\nv t 0 4095\nv u 5 6\n", "", ""], "refused 12 19");
    cases.sheet("widths of 20,001", ["numbers\nv t -10000 10000\nv u -10000 10000\n", "", ""], "refused 12 8");
    cases.sheet("widths of which the product is 2^16", ["numbers\nv t 0 255\nv u 0 255\n", "", ""], "refused 12 18");
    let many = format!("{T}{}", "a 1*t=0\n".repeat(32)); // 272 bytes
    cases.sheet("32 sums", [&many, "r 31\n", ""], "kept 0");
    cases.sheet("33 sums", [&format!("{many}a 1*t=0\n"), "", ""], "refused 12 272");
}

fn sums(cases: &mut Cases) {
    let good = [
        "a 1*t=0", "a 1*t<0", "a 1*t<=0", "a -1*t=0", "a 0*t=0", "a 1*t'=0", "a 1*t~=0", "a 0*t'=0", "a 1*t'+-1*t<=4", "a 1*t=-1",
        "a 1*t+1*t+1*t+1*t=0", "a 1*t'+1*t~+1*t+-1*t'<=3", "a 1000*t=0", "a -1000*t=0", "a 1*t=40000000", "a 1*t=-40000000", "a 1*t<40000000",
        "a 1*t<=-40000000",
    ];
    cases.lines("sum", [T, "", ""], 0, &good, "kept 0");
    let wrong = [
        "a t=0", "a 1*t-1*t=0", "a +1*t=0", "a 1*t=-0", "a", "a ", "a 1*t", "a 1*t=", "a 1*t<", "a 1*t<=", "a =0", "a 0=0", "a 1=1", "a 1*=0",
        "a *t=0", "a 1t=0", "a -*t=0", "a -t=0", "a t*1=0", "a 1*t=t", "a 1*t==0", "a 1*t=<0", "a 1*t>0", "a 1*t>=0", "a 1*t<<0", "a 1*t<==0",
        "a 1*t!=0", "a 1*t=0=0", "a 1*t<0<1", "a 1*t =0", "a 1*t= 0", "a 1*t = 0", "a 1 * t=0", "a 1*t=0 ", " a 1*t=0", "a  1*t=0", "a 1*t=0 1*t=0",
        "A 1*t=0", "a 01*t=0", "a -0*t=0", "a 00*t=0", "a --1*t=0", "a 1*t=00", "a 1*t=01", "a 1*t=+1", "a 1*t=--1", "a 1*t=x", "a 1*t''=0",
        "a 1*t~~=0", "a 1*t'~=0", "a 1*t~'=0", "a 1*'t=0", "a 1'*t=0", "a 1*t+=0", "a 1*t++1*t=0", "a 1*t+-=0", "a 1*t+1=0", "a 1*t,1*t=0",
        "a 1*T=0", "a 1*u=0", "a 1*tt=0", "a 1*1*t=0", "a t", "a 1001*t=0", "a -1001*t=0", "a 1*t+1001*t=0", "a 1*t=40000001", "a 1*t=-40000001",
        "a 1*t<40000001", "a 1*t<=-40000001", "a 1*t+1*t+1*t+1*t+1*t=0", "a 0*t+0*t+0*t+0*t+0*t=0", "a 18446744073709551617*t=0", "a 4294967297*t=0",
        "a -18446744073709551617*t=0", "a 1*t=18446744073709551616", "a 1*t=4294967296", "a 1*t=-18446744073709551616",
        "a 1*t=99999999999999999999999999999999999999999999999999",
    ];
    cases.lines("sum", [T, "", ""], 0, &wrong, "refused 12 16");
}

fn rules(cases: &mut Cases) {
    let good = [
        "r T", "r L", "r 0", "r ! 0", "r ! ! 0", "r X 0", "r W 0", "r F 0", "r G 0", "r & 0 T", "r | 0 L", "r U 0 T", "r R L 0", "r & & 0 0 | 0 0",
        "r U ! 0 R X 0 W ! T",
    ];
    cases.lines("rule", [MET, "", ""], 1, &good, "kept 0");
    let wrong = [
        "r", "r ", "r  0", "r 0 ", " r 0", "r 0 0", "r T 0", "r ! 0 0", "r & 0", "r &", "r | 0", "r U 0", "r R 0", "r !", "r X", "r W", "r F", "r G",
        "r & 0 0 0", "r & ! 0", "r U X 0", "r &  0 0", "r ? 0", "r t", "r l", "r TT", "r !0", "r (0)", "r x 0", "r && 0 0", "R 0", "r0", "0", "",
        "rule 0", "n 1", "v b", "a met", "end 18 18", // no such atom
        "r 1", "r F 1", "r & 0 1", "r 32", "r 256", "r 65536", "r 4294967296", "r 18446744073709551616", "r 99999999999999999999999999999999999999",
        // no whole number that an atom has
        "r 00", "r 000", "r 01", "r -0", "r -1", "r +0", "r 0x0", "r 0.0",
    ];
    cases.lines("rule", [MET, "", ""], 1, &wrong, "refused 13 18");
    cases.lines("second rule", [MET, "r 0\n", "n 1\n"], 1, &["", "r", "r 1", "r 0 0"], "refused 13 22");
    cases.sheet("no atom to name", ["flags\nv met\n", "r 0\n", ""], "refused 13 12");
    let many = format!("flags\nv met\n{}", "a met\n".repeat(32)); // 204 bytes
    cases.sheet("atom 32 of 32", [&many, "r 32\n", ""], "refused 13 204");
    cases.sheet("atom 031 of 32", [&many, "r 031\n", ""], "refused 13 204");
    cases.sheet("a rule named again", [MET, "r 0\nr 0\nr 0\n", ""], "kept 0");
    cases.sheet("5,000 rules that are one", [MET, &"r F 0\n".repeat(5_000), ""], "kept 0");
}

fn depths(cases: &mut Cases) {
    for operator in ["! ", "X ", "W ", "F ", "G ", "& T ", "| 0 ", "U L ", "R 0 "] {
        let good = format!("r {}0\n", operator.repeat(31));
        let wrong = format!("r {}0\n", operator.repeat(32));
        cases.sheet(&format!("depth 32 of `{operator}`"), [MET, &good, ""], "kept 0");
        cases.sheet(&format!("depth 33 of `{operator}`"), [MET, &wrong, ""], "refused 13 18");
    }
    for operator in ["& ", "| ", "U ", "R "] {
        let good = format!("r {}T{}\n", operator.repeat(31), " T".repeat(31));
        let wrong = format!("r {}T{}\n", operator.repeat(32), " T".repeat(32));
        cases.sheet(&format!("depth 32 of `{operator}` on the left"), [MET, &good, ""], "kept 0");
        cases.sheet(&format!("depth 33 of `{operator}` on the left"), [MET, &wrong, ""], "refused 13 18");
    }
    let very_deep = format!("r {}0\n", "! ".repeat(30_000));
    cases.sheet("depth 30,001", [MET, &very_deep, ""], "refused 13 18");
}

fn formulas(cases: &mut Cases) {
    // 32 formulas in 66 bytes each: a constant or an atom and 31 tomorrows.
    let strong = format!("r {}0\n", "X ".repeat(31));
    let weak = format!("r {}T\n", "W ".repeat(31));
    let full = format!("{strong}{weak}");
    cases.sheet("64 formulas", [MET, &full, ""], "kept 0");
    cases.sheet("64 formulas, some put again", [MET, &format!("{full}r X 0\nr W W T\nr ! X L\nr ! W ! 0\nr T\n"), ""], "kept 0");
    cases.lines(
        "a 65th formula",
        [MET, &full, ""],
        1,
        &["r ! 0", "r L", "r W 0", "r X T", "r & 0 0", "r F 0", "r F T", "r U 0 T", "r ! T"],
        "refused 13 150",
    );
    // 61 formulas in 66 and 60 bytes.
    let some = format!("{strong}r {}T\n", "W ".repeat(28));
    let equal = "r F 0\nr U T 0\nr ! R L ! 0\nr ! G ! 0\n"; // one formula in 36 bytes
    cases.sheet("62 formulas, one written in four ways, and 2 for G", [MET, &format!("{some}{equal}r G 0\n"), ""], "kept 0");
    cases.sheet("a 65th behind them", [MET, &format!("{some}{equal}r G 0\nr & 0 0\n"), ""], "refused 13 186");
    let two = "flags\nv met\na met\na met\n"; // 24 bytes
    cases.sheet("`! F 1` puts 3 formulas behind 61", [two, &format!("{some}r ! F 1\n"), ""], "kept 0");
    cases.sheet("it did not put the atom", [two, &format!("{some}r ! F 1\nr 1\n"), ""], "refused 13 158");
    cases.sheet("a rule that needs a 65th in its midst", [two, &format!("{full}r & & 1 0 0\n"), ""], "refused 13 156");
}

fn flag_notes(cases: &mut Cases) {
    let two = "flags\nv met\nv b\n"; // 16 bytes
    cases.lines("note", [two, "", ""], 2, &["n 0 0", "n 1 0", "n 0 1", "n 1 1"], "kept 1");
    let wrong = [
        "n", "n ", "n 1", "n 1 0 0", "n 1 0 1 1 1 1 1 1 1 1 1 1 1", "n 2 0", "n 1 2", "n -1 0", "n 1 -1", "n -0 0", "n 1 -0", "n 00 0", "n 01 0",
        "n 1 00", "n +1 0", "n  1 0", "n 1  0", "n 1 0 ", " n 1 0", "N 1 0", "n1 0", "n 10", "n x 0", "n T L", "n met b", "1 0", "", "r T", "v c",
        "end 16 16", "n 18446744073709551617 0", "n 0 4294967296", "n 256 0",
    ];
    cases.lines("note", [two, "", ""], 2, &wrong, "refused 14 16");
    cases.lines("second note", [two, "", "n 1 0\n"], 2, &["", "n 1", "n 1 2", "r T"], "refused 14 22");
    let one = "flags\nv met\n"; // 12 bytes
    let full = "n 1\n".repeat(1_024); // 4,096 bytes
    cases.sheet("1,023 notes", [one, "", &"n 1\n".repeat(1_023)], "kept 1023");
    cases.sheet("1,024 notes", [one, "", &full], "kept 1024");
    cases.sheet("1,025 notes", [one, "", &format!("{full}n 1\n")], "refused 14 4108");
    cases.sheet("1,030 notes", [one, "", &"n 1\n".repeat(1_030)], "refused 14 4108");
    cases.sheet("a wrong note before the 1,025th", [one, "", &format!("{}n 2\nn 1\n", "n 1\n".repeat(1_023))], "refused 14 4104");
}

fn number_notes(cases: &mut Cases) {
    let two = "numbers\nv t 0 9\nv u -2 3\n"; // 25 bytes
    cases.lines("number note", [two, "", ""], 2, &["n 0 0", "n 9 3", "n 0 -2", "n 5 -1"], "kept 1");
    let wrong = [
        "n", "n ", "n 0", "n 0 0 0", "n 10 0", "n -1 0", "n 0 4", "n 0 -3", "n 0 -0", "n 00 0", "n 01 0", "n 0 -02", "n 0 +1", "n  0 0", "n 0  0",
        "n 0 0 ", " n 0 0", "N 0 0", "n x 0", "n 0 x", "n 0 -", "n 0 --1", "n t u", "", "r T", "end 25 25", "n 0 99999999999999999999",
        "n 18446744073709551616 0", "n 0 -18446744073709551615", "n 4294967296 0", "n 0 65536", "n 10000 0",
    ];
    cases.lines("number note", [two, "", ""], 2, &wrong, "refused 14 25");
    cases.lines("second number note", [two, "", "n 9 -2\n"], 2, &["", "n 9", "n 9 -3"], "refused 14 32");
    let one = "numbers\nv t 0 9\n"; // 16 bytes
    let full = "n 7\n".repeat(1_024); // 4,096 bytes
    cases.sheet("1,024 number notes", [one, "", &full], "kept 1024");
    cases.sheet("1,025 number notes", [one, "", &format!("{full}n 7\n")], "refused 14 4112");
    cases.sheet("the ends of the bounds", ["numbers\nv t -10000 -9999\nv u 9999 10000\n", "", "n -10000 10000\nn -9999 9999\n"], "kept 2");
}

/// 10 counts before 11, 11 before lines, and the first wrong line before those below it.
fn order(cases: &mut Cases) {
    cases.raw("10 and 11", b"flags\nv met\nend 0 0\n ", "refused 10 0");
    cases.raw("11 and 12", b"Flags\nv met\nend 0 0\n", "refused 11 12");
    cases.sheet("12 at the heading and at a line", ["Flags\nv 1\n", "", ""], "refused 12 0");
    cases.sheet("12 and 13", ["flags\nv met\nv 1\n", "r ?\n", ""], "refused 12 12");
    cases.sheet("12 and 14", ["flags\nv met\nv 1\n", "", "n 2\n"], "refused 12 12");
    cases.sheet("13 and 14", [MET, "r ?\n", "n 2\n"], "refused 13 18");
    cases.sheet("two wrong rules", [MET, "r 0\nr 1\nr 2\n", ""], "refused 13 22");
    cases.sheet("two wrong notes", [MET, "r 0\n", "n 0\nn 2\nn 3\n"], "refused 14 26");
}
