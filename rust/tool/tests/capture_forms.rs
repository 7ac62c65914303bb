//! Captures in all their forms: what the independent generator writes as raw bytes, VCD and CSV comes back
//! sample by sample, in pieces of any length; and what cannot be read is told with its line.

use gunwaleish_tool::failure::Failure;
use gunwaleish_tool::samples::channels::read_names;
use gunwaleish_tool::samples::form::form_of;
use gunwaleish_tool::samples::rate::{attoseconds, read_rate, sample_at, samples_of_tick, time_of};
use gunwaleish_tool::samples::{Form, Head, Piece, Reader, Said, Taker};
use model::rng::Rng;
use model::wire::formats::{csv, raw, vcd};
use model::wire::play::play;
use model::wire::random::{scene, Sort};
use model::wire::stories::stories;
use model::wire::{Flaw, Played};
use model::Kind;

/// All samples of a file.
#[derive(Default)]
struct All {
    head: Option<Head>,
    samples: Vec<u8>,
}

impl Taker for All {
    fn begin(&mut self, head: &Head) -> Result<(), Failure> {
        assert_eq!(self.head.replace(*head), None);
        Ok(())
    }

    fn take(&mut self, piece: Piece) -> Result<(), Failure> {
        assert!(self.head.is_some());
        match piece {
            Piece::Samples(samples) => self.samples.extend_from_slice(samples),
            Piece::Level(level, count) => {
                self.samples.extend(std::iter::repeat_n(level, count as usize))
            }
        }
        Ok(())
    }
}

/// Reads bytes in pieces of up to so many.
fn read(bytes: &[u8], said: &Said, pieces: usize) -> Result<(All, u64), String> {
    let mut all = All::default();
    let mut reader = Reader::new("a", said.clone());
    let fed = bytes.chunks(pieces).try_for_each(|piece| reader.feed(piece, &mut all));
    match fed.and_then(|()| reader.end(&mut all)) {
        Ok(()) => Ok((all, reader.crowded())),
        Err(failure) => Err(failure.text().to_string()),
    }
}

fn at_rate(played: &Played) -> Said {
    Said { rate: Some(1000 * played.setting.samples_per_tick), channels: None }
}

fn captures() -> Vec<Played> {
    let short = stories().into_iter().filter(|story| story.name != "hung");
    let mut all: Vec<Played> =
        short.map(|story| play(&story.scene(Kind::Pca9641, Flaw::None, 7))).collect();
    for seed in 0..5 {
        all.extend(
            [Sort::Apart, Sort::Overlapping, Sort::Noisy].map(|sort| play(&scene(sort, seed))),
        );
    }
    all
}

#[test]
fn what_the_generator_writes_comes_back() {
    let mut rng = Rng::new(5);
    for played in captures() {
        let (samples, said) = (&played.samples, at_rate(&played));
        let of_tick = played.setting.samples_per_tick;
        let low: Vec<u8> = samples.iter().map(|sample| sample & 0x7F).collect();
        let pieces = rng.pick(&[1, 2, 7, 100, 1 << 16]);
        let (all, _) = read(&raw(samples), &said, pieces).unwrap();
        assert_eq!((all.head.unwrap().form, &all.samples), (Form::Raw, samples));
        let (all, crowded) = read(vcd(&low, 7, of_tick).as_bytes(), &said, pieces).unwrap();
        assert_eq!((all.head.unwrap().form, all.head.unwrap().below), (Form::Vcd, true));
        assert!(all.samples == low && crowded == 0, "VCD, {of_tick} samples a tick");
        let mut columns: Vec<usize> = (0..7).collect();
        (0..20).for_each(|_| columns.swap(rng.below(7) as usize, rng.below(7) as usize));
        let (all, _) = read(csv(&low, &columns).as_bytes(), &said, pieces).unwrap();
        assert_eq!((all.head.unwrap().form, all.head.unwrap().below), (Form::Csv, true));
        assert!(all.samples == low, "CSV, {columns:?}");
        // Without the bus below its lines are high.
        let high: Vec<u8> = low.iter().map(|sample| sample | 0x70).collect();
        for text in [vcd(&low, 4, of_tick), csv(&low, &[0, 1, 2, 3])] {
            let (all, _) = read(text.as_bytes(), &said, pieces).unwrap();
            assert!(!all.head.unwrap().below && all.samples == high);
        }
    }
}

/// A raw capture is one whatever its bits say, also if some of its first bytes are letters.
#[test]
fn raw_captures_are_no_text() {
    let mut rng = Rng::new(6);
    for played in captures() {
        for high in [0x00, 0x30, 0x40, 0x60, 0x70, 0xF0] {
            let samples: Vec<u8> = played.samples.iter().map(|sample| sample & 15 | high).collect();
            assert_eq!(form_of(&samples, true), Some(Form::Raw));
            let length = rng.below(samples.len() as u64) as usize;
            assert_ne!(form_of(&samples[..length], false), Some(Form::Csv));
        }
    }
    // What sigrok-cli says before samples whose rate was said to it.
    let (all, _) = read(b"META samplerate: 250000\n\x0F\x0D", &Said::default(), 1).unwrap();
    assert_eq!((all.samples, all.head.unwrap().rate), (vec![0x0F, 0x0D], Some(250_000)));
}

const HEAD: &str = "$timescale 1 us $end\n$var wire 1 ! SCL0 $end\n$var wire 1 \" SDA0 $end\n\
                    $var wire 1 # SCL1 $end\n$var wire 1 $ SDA1 $end\n";

/// Each text with its samples at a rate, in hex.
#[test]
fn texts_of_other_programs() {
    let sigrok = "; CSV generated by libsigrok 0.5.2\n; Channels (4/4): D0, D1, D2, D3\n; Samplerate: 1 MHz\n";
    let vcd = |values: &str| format!("{HEAD}$enddefinitions $end\n{values}");
    let cases: Vec<(String, Option<u64>, &str)> = vec![
        (format!("{sigrok}logic,logic,logic,logic\n1,1,1,1\n1,0,1,1\n"), Some(1_000_000), "7F 7D"),
        // Only changes, with their times; the last row is one sample.
        (
            format!(
                "{sigrok}microseconds,logic,logic,logic,logic\n1,1,1,1,1\n3,0,1,1,1\n4,0,0,1,1\n"
            ),
            Some(1_000_000),
            "7F 7F 7E 7C",
        ),
        (
            "Time [s],Channel 0,Channel 1,Channel 2,Channel 3\r\n-1.0,1,1,1,1\r\n-0.5,1,0,1,1\r\n"
                .into(),
            None,
            "7F 7D",
        ),
        (
            "\u{FEFF}\"sda1\";\"scl1\";\"sda0\";\"scl0\"\n\"0\";\"1\";\"1\";\"1\"\n".into(),
            None,
            "77",
        ),
        ("INT_IN\tSCL0\tSDA0\tSCL1\tSDA1\n0\t1\t1\t1\t1\n1\t1\t1\t1\t1\n".into(), None, "3F 7F"),
        // All values on one line, as sigrok has them; the last time is the end.
        (vcd("#0 1! 1\" 1# 1$\n#2 0\"\n#3 z\"\n#5\n"), Some(1_000_000), "7F 7F 7D 7F 7F"),
        (vcd("#7\n$dumpvars\n1!\n1\"\n1#\n0$\n$end\nb101 x\n#8\n1$"), Some(1_000_000), "77 7F"),
    ];
    for (text, rate, expected) in cases {
        gives(&text, rate, expected);
    }
}

/// A text has these samples, in hex, at this rate, in whatever pieces it comes.
fn gives(text: &str, rate: Option<u64>, expected: &str) {
    for pieces in [1, 3, 1000] {
        let (all, _) = read(text.as_bytes(), &Said::default(), pieces).expect(text);
        let hex: Vec<String> = all.samples.iter().map(|sample| format!("{sample:02X}")).collect();
        assert_eq!((hex.join(" ").as_str(), all.head.unwrap().rate), (expected, rate), "{text}");
    }
}

/// Two changes in one sample: the first is lost, and told.
#[test]
fn changes_in_one_sample() {
    let vcd = |values: &str| format!("{HEAD}$enddefinitions $end\n{values}");
    let text = vcd("#0 1! 1\" 1# 1$\n#1000 0\"\n#1100 1\"\n#3000\n");
    let said = Said { rate: Some(1000), channels: None };
    let (all, crowded) = read(text.as_bytes(), &said, 1000).unwrap();
    assert_eq!((all.samples, crowded), (vec![0x7F; 3], 1));
}

#[test]
fn names_of_lines() {
    let said = |names: &str| Said { rate: None, channels: Some(read_names(names).unwrap()) };
    let four = "clk a,dat a,clk b,dat b,irq\n1,0,1,1,0\n";
    let (all, _) = read(four.as_bytes(), &said("clk a,dat a,clk b,dat b"), 9).unwrap();
    assert_eq!((all.samples, all.head.unwrap().below), (vec![0x7D], false));
    let (all, _) = read(four.as_bytes(), &said("clk a,dat a,-,-,-,-,irq"), 9).unwrap();
    assert_eq!((all.samples, all.head.unwrap().below), (vec![0x3D], true));
    let scoped = "$scope module a $end $var wire 1 ! scl0 $end $upscope $end \
                  $scope module b $end $var wire 1 \" scl0 $end $upscope $end $enddefinitions $end #0 0! 1\" #1";
    let (all, _) = read(scoped.as_bytes(), &said("b.scl0,-,-,-"), 9).unwrap();
    assert_eq!(all.samples, [0x7F]);
    let cases = [
        (scoped, None, "a: line 1: several lines are called SCL0: a.scl0, b.scl0; --channels"),
        (
            four,
            None,
            "a: line 1: no line is called SCL0, SDA0, SCL1, SDA1; there are clk a, dat a, clk b",
        ),
        (four, Some("x,-,-,-"), "a: line 1: no line is called 'x'; there are clk a"),
        (
            "SCL0,SDA0,SCL1\n",
            None,
            "a: line 1: no line is called SDA1; there are SCL0, SDA0, SCL1: --channels",
        ),
        (
            "\u{1}",
            Some("a,b,c,d"),
            "a has one byte a sample and no names, so --channels says nothing",
        ),
    ];
    for (text, names, expected) in cases {
        let said = names.map_or(Said::default(), said);
        let why = read(text.as_bytes(), &said, 9).err().unwrap();
        assert!(why.starts_with(expected), "{why}");
    }
}

/// Too few, too many, and one that is empty.
#[test]
fn words_that_are_no_names_of_lines() {
    for names in ["a,b,c", "a,b,,d", "a,b,c,d,e,f,g,h"] {
        let why = read_names(names).unwrap_err().to_string();
        assert!(why.starts_with("--channels needs the names of SCL0, "), "{why}");
    }
}

#[test]
fn mistakes_are_told_with_their_lines() {
    let of_csv = |rows: &str| format!("Time [us],SCL0,SDA0,SCL1,SDA1\n{rows}");
    let of_vcd = |values: &str| format!("{HEAD}$enddefinitions $end\n{values}");
    let cases: Vec<(String, &str)> = vec![
        (of_csv("0,1,1,1,1\n1,1,2,1,1\n"), "line 3: SDA0 is '2', expected 0 or 1"),
        (of_csv("0,1,1,1\n"), "line 2: the row has fewer cells than the header has names"),
        (of_csv("5,1,1,1,1\n4,1,1,1,1\n"), "line 3: this time is before the last one"),
        (of_csv("soon,1,1,1,1\n"), "line 2: 'soon' is no time, expected a number"),
        (
            "1,1,1,1\n0,1,1,1\n".to_string(),
            "line 1: a header of names is expected, and here are levels",
        ),
        (
            "; CSV generated by libsigrok 0.5.2\n; Channels (4/4): 0, 1, 2, 3\nTime,0,1,2,3\n"
                .to_string(),
            "line 3: sigrok's column Time has no unit here",
        ),
        (of_vcd("#5\n0!\n#4\n"), "line 9: this time is before the last one"),
        (of_vcd("#x\n"), "line 7: after # a time is expected, a whole number"),
        (of_vcd("#0\nx!\n"), "line 8: SCL0 is x, and a sample is 0 or 1"),
        (of_vcd("#0\nhello\n"), "line 8: 'hello' is no value: expected 0 or 1 and a mark"),
        ("$timescale 3 us $end\n".to_string(), "line 1: '3us' is no $timescale, expected"),
        ("$var wire 1 ! $end\n".to_string(), "line 1: a $var needs its kind, size, mark and name"),
        (HEAD.to_string(), "line 6: the file ends before $enddefinitions"),
        (
            "PK\u{3}\u{4}zip".to_string(),
            "it is a sigrok session (.sr), or another zip file: save it",
        ),
    ];
    for (text, expected) in cases {
        for pieces in [1, 1000] {
            let why = read(text.as_bytes(), &Said::default(), pieces).err().expect(&text);
            assert!(why.starts_with(&format!("a: {expected}")), "{text}: {why}");
        }
    }
}

#[test]
fn words_and_lines_that_are_too_long() {
    assert_eq!(
        read(&[b"$date ".to_vec(), vec![b'x'; 5000]].concat(), &Said::default(), 64).err().unwrap(),
        "a: line 1: a word is longer than any of a VCD file"
    );
    let long = [b"SCL0,SDA0,SCL1,SDA1\n".to_vec(), vec![b'1'; 1 << 17]].concat();
    assert!(read(&long, &Said::default(), 999)
        .err()
        .unwrap()
        .starts_with("a: line 2: the line is longer"));
}

#[test]
fn rates_and_times() {
    let rates =
        [("1M", 1_000_000), ("24 MHz", 24_000_000), ("12.5MHz", 12_500_000), ("500k", 500_000)];
    for (text, rate) in rates.into_iter().chain([("1000000", 1_000_000), ("1 GHz", 1_000_000_000)])
    {
        assert_eq!(read_rate(text), Some(rate), "{text}");
    }
    for text in ["", "M", "0", "1.5", "-1M", "1e6", "fast", "99999999999999999999G"] {
        assert_eq!(read_rate(text), None, "{text}");
    }
    assert_eq!((samples_of_tick(1_000_000), samples_of_tick(1000)), (Ok(1000), Ok(1)));
    assert!(samples_of_tick(32_768)
        .unwrap_err()
        .to_string()
        .starts_with("at 32768 Hz a millisecond is no whole"));
    assert!(samples_of_tick(500).is_err() && samples_of_tick(u64::MAX - 615).is_err());
    assert_eq!(time_of(1_234_567, 1_000_000), "1.234567 s");
    assert_eq!(attoseconds("1.5e-6", 0), Some(1_500_000_000_000));
    assert_eq!((attoseconds("-12", 6), attoseconds("1e", 0)), (Some(-12_000_000_000_000), None));
    // The nearest sample.
    let at = |text| sample_at(attoseconds(text, 0).unwrap(), 24_000_000);
    assert_eq!(
        (at("1.0"), at("0.0000000416"), at("0.00000002")),
        (Some(24_000_000), Some(1), Some(0))
    );
}
