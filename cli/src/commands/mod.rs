//! The commands: what each one takes, and the function that answers it. Parsing, `--help`, the
//! manual page and the completions are made from this table.

mod clip;
mod clip_said;
mod clip_words;
mod decision;
mod details;
mod distance_totals;
mod distance_words;
mod encode;
mod figures;
mod first_tone;
mod ground_fields;
mod judge;
mod judged_report;
mod mapper;
mod nearest;
mod pages;
mod picture;
mod quarter_words;
mod read;
mod reading;
mod readings;
mod register_words;
mod report;
mod tables;
mod tone;
mod tone_words;
mod totals;
mod turn;
mod verdict;
mod verdict_theorems;
mod verdict_totals;
mod verdict_words;
mod whole;

use crate::call::{Command, Operand};
use crate::options::{
    ALL, CSV, HTML, JSON, OUT, PAIR_NAME, PAIR_POINTS, PAIR_SENT, PAIR_TABLES, PLAIN, REGISTER,
    REGISTER_OR_FIND, START, STOP, SVG,
};

const TABLES: Operand = Operand::Input("TABLES");
const FRAME: Operand = Operand::Input("FRAME");
const POINTS: Operand = Operand::Input("POINTS");

pub const COMMANDS: [Command; 13] = [
    Command {
        name: "check",
        operands: &[TABLES],
        options: &[&JSON],
        about: "check a table set and tell L",
        details: details::CHECK,
        run: tables::check,
    },
    Command {
        name: "order",
        operands: &[TABLES],
        options: &[&OUT, &JSON],
        about: "write the re-ordered tables t' and b'",
        details: details::ORDER,
        run: tables::order,
    },
    Command {
        name: "encode",
        operands: &[TABLES, FRAME],
        options: &[&REGISTER, &START, &OUT, &SVG, &STOP, &JSON],
        about: "write the points of a frame, or of many",
        details: details::ENCODE,
        run: encode::encode,
    },
    Command {
        name: "read",
        operands: &[TABLES, POINTS],
        options: &[&REGISTER_OR_FIND, &START, &OUT, &SVG, &STOP, &JSON],
        about: "read points back to the frame, one symbol or many",
        details: details::READ,
        run: read::read,
    },
    Command {
        name: "nearest",
        operands: &[TABLES, POINTS],
        options: &[&REGISTER, &START, &OUT, &SVG, &ALL, &STOP, &JSON],
        about: "read points that are off the grid, and tell how far each tone is off",
        details: details::NEAREST,
        run: nearest::nearest,
    },
    Command {
        name: "turn",
        operands: &[TABLES, POINTS],
        options: &[&REGISTER_OR_FIND, &START, &SVG, &STOP, &JSON],
        about: "tell whether the clips are the wrong way round, or points turned by a quarter",
        details: details::TURN,
        run: turn::turn,
    },
    Command {
        name: "clip",
        operands: &[TABLES, POINTS],
        options: &[&REGISTER, &STOP, &JSON],
        about: "tell whether the clips are the wrong way round from one tone alone",
        details: details::CLIP,
        run: clip::clip,
    },
    Command {
        name: "report",
        operands: &[Operand::Inputs("LOG")],
        options: &[
            &PAIR_TABLES,
            &PAIR_SENT,
            &PAIR_POINTS,
            &PAIR_NAME,
            &REGISTER,
            &START,
            &HTML,
            &CSV,
            &JSON,
        ],
        about: "count refusals and wrong bits over the symbols of a pair, or of many pairs",
        details: details::REPORT,
        run: report::report,
    },
    Command {
        name: "map",
        operands: &[Operand::Number("BITS"), Operand::Number("LABEL")],
        options: &[&PLAIN, &JSON],
        about: "the point of one label",
        details: details::MAP,
        run: tone::map,
    },
    Command {
        name: "point",
        operands: &[
            Operand::Number("BITS"),
            Operand::Number("X"),
            Operand::Number("Y"),
        ],
        options: &[&PLAIN, &JSON],
        about: "the label of one point",
        details: details::POINT,
        run: tone::point,
    },
    Command {
        name: "figures",
        operands: &[],
        options: &[&JSON],
        about: "work out the bench figures and compare them with the page",
        details: details::FIGURES,
        run: figures::figures,
    },
    Command {
        name: "man",
        operands: &[],
        options: &[],
        about: "print the manual page",
        details: details::MAN,
        run: pages::man,
    },
    Command {
        name: "completions",
        operands: &[Operand::Word("SHELL", &["bash", "fish", "zsh"])],
        options: &[],
        about: "print the completions for a shell",
        details: details::COMPLETIONS,
        run: pages::completions,
    },
];
