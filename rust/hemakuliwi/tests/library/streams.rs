//! Between readers and writers: what reaches the writer, and what is told when one of them fails.

use crate::ends::{Full, Sink, Source};
use crate::made::pairs;
use hemakuliwi::{
    convert, convert_stream, Converted, Converter, ConvertingReader, ConvertingWriter, Dialect,
    Fault, Refusal, StreamError,
};
use std::error::Error;
use std::io::{self, BufRead, ErrorKind, Read, Write};

/// A table that every dialect carries, in the spelling of one of them.
fn table(dialect: Dialect) -> Vec<u8> {
    let file = b"stop,note\nHarbour,\"a, \"\"b\"\"\r\n\"\n,\xC3\xBC\nMint,last";
    convert(Dialect::CsvPlus, dialect, file).unwrap()
}

/// The same with a fault at its end, and the text that comes before it.
fn faulty_table(from: Dialect, to: Dialect) -> (Vec<u8>, Vec<u8>, Refusal) {
    let mut file = table(from);
    let text = convert(from, to, &file).unwrap();
    file.extend_from_slice(b"\"x\"\xFF");
    let refusal = convert(from, to, &file).unwrap_err();
    assert_eq!((refusal.fault, refusal.record), (Fault::Syntax, 5));
    (file, text, refusal)
}

fn refused(outcome: Result<Converted, StreamError>) -> Refusal {
    match outcome {
        Err(StreamError::Refused(refusal)) => refusal,
        other => panic!("{other:?}"),
    }
}

fn unwritten(outcome: Result<Converted, StreamError>) -> ErrorKind {
    match outcome {
        Err(StreamError::Write(error)) => error.kind(),
        other => panic!("{other:?}"),
    }
}

#[test]
fn all_pairs_pass_whatever_the_reader_gives_and_the_writer_takes() {
    for (from, to) in pairs() {
        let file = table(from);
        let text = convert(from, to, &file).unwrap();
        let expected = Converted {
            bytes_read: file.len(),
            bytes_written: text.len(),
            records: 4,
        };
        for most in [1, 2, 7, 4_096, usize::MAX] {
            let mut sink = Sink::new(most).interrupted();
            let source = Source::new(&file, most).interrupted();
            let done = convert_stream(from, to, source, &mut sink).unwrap();
            assert_eq!(done, expected);
            assert_eq!((&sink.taken, sink.flushed), (&text, text.len()));

            let mut writer = ConvertingWriter::new(from, to, Sink::new(most).interrupted());
            for piece in file.chunks(most) {
                writer.write_all(piece).unwrap();
            }
            assert_eq!(writer.finish().unwrap(), expected);
            assert_eq!(writer.finish().unwrap(), expected);
            let sink = writer.into_inner();
            assert_eq!((&sink.taken, sink.flushed), (&text, text.len()));

            let source = Source::new(&file, most).interrupted();
            let mut reader = ConvertingReader::new(from, to, source);
            let mut given = Vec::new();
            reader.read_to_end(&mut given).unwrap();
            assert_eq!(given, text);
            assert_eq!(reader.read(&mut [0; 9]).unwrap_or(0), 0);
            assert_eq!(reader.converter().records_completed(), 4);
        }
    }
}

#[test]
fn a_refusal_comes_after_all_records_before_it() {
    for (from, to) in pairs() {
        let (file, text, refusal) = faulty_table(from, to);
        for most in [1, 5, usize::MAX] {
            let mut sink = Sink::new(most);
            let outcome = convert_stream(from, to, Source::new(&file, most), &mut sink);
            assert_eq!(refused(outcome), refusal);
            assert_eq!((&sink.taken, sink.flushed), (&text, text.len()));

            let mut writer = ConvertingWriter::new(from, to, Sink::new(most));
            let error = writer.write_all(&file).unwrap_err();
            assert_eq!(Refusal::in_error(&error), Some(refusal));
            assert_eq!(writer.get_ref().taken, text);
            let error = writer.write(b"more").unwrap_err();
            assert_eq!(Refusal::in_error(&error), Some(refusal));
            assert_eq!(refused(writer.finish()), refusal);
            assert_eq!(
                (&writer.get_ref().taken, writer.get_ref().flushed),
                (&text, text.len())
            );

            let mut reader = ConvertingReader::new(from, to, Source::new(&file, most));
            let mut given = Vec::new();
            for _ in 0..2 {
                let error = reader.read_to_end(&mut given).unwrap_err();
                assert_eq!(Refusal::in_error(&error), Some(refusal));
                assert_eq!(given, text);
            }
        }
    }
}

#[test]
fn a_failed_read_loses_no_record_and_can_be_made_again() {
    for (from, to) in pairs() {
        let file = table(from);
        let text = convert(from, to, &file).unwrap();
        for length in 0..=file.len() {
            let mut before = Vec::new();
            Converter::new(from, to)
                .piece(&file[..length], &mut before)
                .unwrap();

            let mut source = Source::new(&file, 3).failing_after(length);
            let mut sink = Sink::new(2);
            let mut converter = Converter::new(from, to);
            match converter.stream(&mut source, &mut sink) {
                Err(StreamError::Read(error)) => {
                    assert_eq!(error.kind(), ErrorKind::ConnectionReset);
                }
                other => panic!("{other:?}"),
            }
            assert_eq!((&sink.taken, sink.flushed), (&before, before.len()));
            assert_eq!(converter.bytes_taken(), length);

            let done = converter.stream(&mut source, &mut sink).unwrap();
            assert_eq!(
                (done.bytes_read, done.bytes_written, done.records),
                (file.len(), text.len(), 4)
            );
            assert_eq!(sink.taken, text);

            let source = Source::new(&file, 3).failing_after(length);
            let mut reader = ConvertingReader::new(from, to, source);
            let mut given = Vec::new();
            let error = reader.read_to_end(&mut given).unwrap_err();
            assert_eq!(
                (error.kind(), &given),
                (ErrorKind::ConnectionReset, &before)
            );
            reader.read_to_end(&mut given).unwrap();
            assert_eq!(given, text);
        }
    }
}

#[test]
fn a_writer_that_fails_is_told_wherever_it_fails() {
    let (from, to) = (Dialect::Csvj, Dialect::Tdif);
    let (faulty, text, _) = faulty_table(from, to);
    for file in [table(from), faulty] {
        for length in 0..text.len() {
            for (full, kind) in [
                (Full::Fails, ErrorKind::WouldBlock),
                (Full::TakesNothing, ErrorKind::WriteZero),
            ] {
                let mut sink = Sink::new(3).full_after(length, full);
                let outcome = convert_stream(from, to, Source::new(&file, 5), &mut sink);
                assert_eq!(unwritten(outcome), kind);
                assert_eq!((&sink.taken[..], sink.flushed), (&text[..length], 0));

                let sink = Sink::new(3).full_after(length, full);
                let mut writer = ConvertingWriter::new(from, to, sink);
                let write = writer.write_all(&file);
                assert!(write.is_ok() || write.is_err_and(|error| error.kind() == kind));
                assert_eq!(unwritten(writer.finish()), kind);
                assert_eq!(writer.into_inner().taken, text[..length]);
            }
        }
    }
}

#[test]
fn what_a_failing_writer_did_not_take_waits_for_the_next_call() {
    for (from, to) in pairs() {
        let (faulty, text, refusal) = faulty_table(from, to);
        let sound = table(from);
        for (file, expected) in [(&sound, None), (&faulty, Some(refusal))] {
            for length in 0..text.len() {
                let sink = Sink::new(4).full_after(length, Full::FailsOnce);
                let mut writer = ConvertingWriter::new(from, to, sink);
                let (mut rest, mut failures, mut met) = (&file[..], 0, None);
                while !rest.is_empty() && met.is_none() {
                    match writer.write(&rest[..rest.len().min(6)]) {
                        Ok(taken) => rest = &rest[taken..],
                        Err(error) => match Refusal::in_error(&error) {
                            Some(refusal) => met = Some(refusal),
                            None => failures += 1,
                        },
                    }
                }
                assert_eq!(met, expected);
                assert!(failures <= 1);
                let outcome = writer.finish();
                match expected {
                    Some(refusal) => assert_eq!(refused(outcome), refusal),
                    None => assert_eq!(outcome.unwrap().bytes_written, text.len()),
                }
                let sink = writer.into_inner();
                assert_eq!((&sink.taken, sink.flushed), (&text, text.len()));
            }
        }
    }
}

#[test]
fn nothing_more_is_taken_while_the_writer_takes_nothing() {
    let sink = Sink::new(9).full_after(4, Full::Fails);
    let mut writer = ConvertingWriter::new(Dialect::CsvPlus, Dialect::Csvj, sink);
    assert_eq!(writer.write(b"stop\nHarb").unwrap(), 9);
    for _ in 0..3 {
        let error = writer.write(b"our\n").unwrap_err();
        assert_eq!(error.kind(), ErrorKind::WouldBlock);
        assert_eq!(writer.converter().bytes_taken(), 9);
    }
    assert_eq!(writer.get_ref().taken, b"\"sto");
}

#[test]
fn a_flush_that_fails_is_told_even_where_the_file_is_refused() {
    let (from, to) = (Dialect::CsvPlus, Dialect::Csvj);
    let (faulty, text, refusal) = faulty_table(from, to);
    for file in [table(from), faulty.clone()] {
        let mut sink = Sink::new(9).failing_flushes(1);
        let outcome = convert_stream(from, to, &file[..], &mut sink);
        assert_eq!(unwritten(outcome), ErrorKind::BrokenPipe);
        assert_eq!((&sink.taken, sink.flushed), (&text, 0));
    }
    let mut sink = Sink::new(9).failing_flushes(1);
    let source = Source::new(&faulty, 9).failing_after(4);
    assert_eq!(
        unwritten(convert_stream(from, to, source, &mut sink)),
        ErrorKind::BrokenPipe
    );

    let mut writer = ConvertingWriter::new(from, to, Sink::new(9).failing_flushes(2));
    writer.write_all(&table(from)).unwrap();
    assert_eq!(writer.flush().unwrap_err().kind(), ErrorKind::BrokenPipe);
    assert_eq!(unwritten(writer.finish()), ErrorKind::BrokenPipe);
    assert_eq!(writer.finish().unwrap().records, 4);
    assert_eq!(
        (&writer.get_ref().taken, writer.get_ref().flushed),
        (&text, text.len())
    );

    let mut writer = ConvertingWriter::new(from, to, Sink::new(9).failing_flushes(1));
    writer.write_all(&faulty).unwrap_err();
    assert_eq!(unwritten(writer.finish()), ErrorKind::BrokenPipe);
    assert_eq!(refused(writer.finish()), refusal);
}

#[test]
fn after_the_end_nothing_more_is_taken() {
    let mut writer = ConvertingWriter::new(Dialect::CsvPlus, Dialect::Csvj, Vec::new());
    writer.write_all(b"a\nb").unwrap();
    let done = writer.finish().unwrap();
    let error = writer.write(b"c\n").unwrap_err();
    assert_eq!(error.kind(), ErrorKind::InvalidInput);
    assert_eq!(Refusal::in_error(&error).unwrap().fault, Fault::WrongCall);
    assert_eq!(writer.finish().unwrap(), done);
    assert_eq!(writer.into_inner(), b"\"a\"\n\"b\"\n");
}

#[test]
fn a_file_that_never_comes_has_no_record() {
    for (from, to) in pairs() {
        let expected = convert(from, to, b"").unwrap_err();
        assert_eq!(expected.fault, Fault::NoRecord);
        assert_eq!(
            refused(convert_stream(from, to, io::empty(), io::sink())),
            expected
        );
        assert_eq!(
            refused(ConvertingWriter::new(from, to, io::sink()).finish()),
            expected
        );
        let error = ConvertingReader::new(from, to, io::empty())
            .fill_buf()
            .unwrap_err();
        assert_eq!(Refusal::in_error(&error), Some(expected));
    }
}

#[test]
fn long_files_are_cut_where_they_need_to_be() {
    let cell = "x".repeat(1_000);
    let record = format!("{cell},\"{cell}\"\"\",{cell}\n");
    let file = format!("a,b,c\n{}", record.repeat(100)).into_bytes();
    let text = convert(Dialect::CsvPlus, Dialect::Csvj, &file).unwrap();

    let mut converter = Converter::new(Dialect::CsvPlus, Dialect::Csvj);
    let mut in_one_piece = Vec::new();
    converter.piece(&file, &mut in_one_piece).unwrap();
    converter.end(&mut in_one_piece).unwrap();
    assert_eq!(in_one_piece, text);

    let mut copied = Vec::new();
    let mut reader = ConvertingReader::new(Dialect::CsvPlus, Dialect::Csvj, &file[..]);
    assert_eq!(
        io::copy(&mut reader, &mut copied).unwrap(),
        text.len() as u64
    );
    assert_eq!(copied, text);

    let mut writer = ConvertingWriter::new(Dialect::CsvPlus, Dialect::Csvj, Vec::new());
    assert_eq!(
        io::copy(&mut &file[..], &mut writer).unwrap(),
        file.len() as u64
    );
    assert_eq!(writer.finish().unwrap().records, 101);
    assert_eq!(writer.into_inner(), text);
}

#[test]
fn a_clone_goes_on_from_where_the_converter_stood() {
    let mut converter = Converter::new(Dialect::CsvPlus, Dialect::Csvj);
    let mut text = Vec::new();
    converter.piece(b"a\nb\nc", &mut text).unwrap();
    let mut clone = converter.clone();
    let mut other = text.clone();
    converter.piece(b"\"", &mut text).unwrap_err();
    clone.piece(b"d\n", &mut other).unwrap();
    clone.end(&mut other).unwrap();
    assert_eq!(other, b"\"a\"\n\"b\"\n\"cd\"\n");
}

#[test]
fn errors_tell_their_cause_in_the_sentence_and_as_the_source() {
    let refusal = convert(Dialect::Csvj, Dialect::Tdif, b"").unwrap_err();
    let torn = || io::Error::new(ErrorKind::TimedOut, "the line is torn");
    for (error, sentence) in [
        (StreamError::Refused(refusal), refusal.to_string()),
        (
            StreamError::Read(torn()),
            "the input can't be read: the line is torn".to_string(),
        ),
        (
            StreamError::Write(torn()),
            "the output can't be written: the line is torn".to_string(),
        ),
    ] {
        assert_eq!(error.to_string(), sentence);
        let source = error.source().unwrap().to_string();
        assert!(sentence.ends_with(&source));
        assert_eq!(io::Error::from(error).to_string(), source);
    }
}
