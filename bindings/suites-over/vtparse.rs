// SPDX-License-Identifier: MIT
//! The calls of the crate `vtparse` over the parser of escape-stream, for the tests of that crate.
pub use escape_stream::termwiz::escape::csi::CsiParam;
use escape_stream::{Event, Parser, dcs_numbers, osc_parts};

// The test of too many parts names it.
#[allow(dead_code)]
const MAX_OSC: usize = 64;

/// The receiver of events.
pub trait VTActor {
    fn act(&mut self, action: VTAction);
}

#[derive(Debug, Clone, Eq, PartialEq)]
pub enum VTAction {
    Print(char),
    ExecuteC0orC1(u8),
    DcsHook {
        params: Vec<i64>,
        intermediates: Vec<u8>,
        ignored_excess_intermediates: bool,
        byte: u8,
    },
    DcsPut(u8),
    DcsUnhook,
    EscDispatch {
        params: Vec<i64>,
        intermediates: Vec<u8>,
        ignored_excess_intermediates: bool,
        byte: u8,
    },
    CsiDispatch {
        params: Vec<CsiParam>,
        parameters_truncated: bool,
        byte: u8,
    },
    OscDispatch(Vec<Vec<u8>>),
    ApcDispatch(Vec<u8>),
}

#[derive(Default)]
pub struct CollectingVTActor {
    actions: Vec<VTAction>,
}

impl CollectingVTActor {
    pub fn into_vec(self) -> Vec<VTAction> {
        self.actions
    }
}

impl VTActor for CollectingVTActor {
    fn act(&mut self, action: VTAction) {
        self.actions.push(action);
    }
}

#[derive(Default)]
pub struct VTParser {
    parser: Parser,
}

impl VTParser {
    pub fn new() -> VTParser {
        VTParser::default()
    }

    pub fn parse(&mut self, bytes: &[u8], actor: &mut dyn VTActor) {
        let done = self.parser.advance(bytes, |event| give(event, actor));
        done.expect("the parser does not fail");
    }
}

fn give(event: Event<'_>, actor: &mut dyn VTActor) {
    let action = match event {
        Event::Text(run) => return run.chars().for_each(|c| actor.act(VTAction::Print(c))),
        Event::Data(run) => return run.iter().for_each(|it| actor.act(VTAction::DcsPut(*it))),
        Event::Character(c) => VTAction::Print(c),
        Event::Control(byte) => VTAction::ExecuteC0orC1(byte),
        Event::Escape {
            intermediates,
            has_more,
            byte,
        } => VTAction::EscDispatch {
            params: Vec::new(),
            intermediates: intermediates.to_vec(),
            ignored_excess_intermediates: has_more,
            byte,
        },
        Event::Csi {
            entries,
            has_more,
            byte,
        } => VTAction::CsiDispatch {
            params: entries.iter().map(param).collect(),
            parameters_truncated: has_more,
            byte,
        },
        Event::Osc(b"") => VTAction::OscDispatch(Vec::new()),
        Event::Osc(text) => VTAction::OscDispatch(osc_parts(text).map(<[u8]>::to_vec).collect()),
        Event::Apc(text) => VTAction::ApcDispatch(text.to_vec()),
        Event::Dcs {
            parameters,
            intermediates,
            has_more,
            byte,
        } => VTAction::DcsHook {
            params: dcs_numbers(parameters).map(|it| it.unwrap_or(0)).collect(),
            intermediates: intermediates.to_vec(),
            ignored_excess_intermediates: has_more,
            byte,
        },
        Event::DcsEnd => VTAction::DcsUnhook,
        _ => return,
    };
    actor.act(action);
}

fn param(entry: &escape_stream::Entry) -> CsiParam {
    match (entry.number(), entry.byte()) {
        (Some(number), _) => CsiParam::Integer(number),
        (None, byte) => CsiParam::P(byte.unwrap_or(0)),
    }
}
