// SPDX-License-Identifier: MIT
//! Control codes.

/// A control code of the sets C0 and C1 (ECMA-48), by its name. `as u8` gives its number.
#[derive(Clone, Copy, Debug, PartialEq, Eq, Hash)]
#[cfg_attr(feature = "serde", derive(serde::Serialize, serde::Deserialize))]
#[repr(u8)]
pub enum ControlCode {
    /// Null.
    Null = 0x00,
    /// Start of heading.
    StartOfHeading = 0x01,
    /// Start of text.
    StartOfText = 0x02,
    /// End of text.
    EndOfText = 0x03,
    /// End of transmission.
    EndOfTransmission = 0x04,
    /// Enquiry.
    Enquiry = 0x05,
    /// Acknowledge.
    Acknowledge = 0x06,
    /// Bell.
    Bell = 0x07,
    /// Backspace.
    Backspace = 0x08,
    /// Horizontal tab.
    HorizontalTab = 0x09,
    /// Line feed.
    LineFeed = 0x0a,
    /// Vertical tab.
    VerticalTab = 0x0b,
    /// Form feed.
    FormFeed = 0x0c,
    /// Carriage return.
    CarriageReturn = 0x0d,
    /// Shift out.
    ShiftOut = 0x0e,
    /// Shift in.
    ShiftIn = 0x0f,
    /// Data link escape.
    DataLinkEscape = 0x10,
    /// Device control one.
    DeviceControlOne = 0x11,
    /// Device control two.
    DeviceControlTwo = 0x12,
    /// Device control three.
    DeviceControlThree = 0x13,
    /// Device control four.
    DeviceControlFour = 0x14,
    /// Negative acknowledge.
    NegativeAcknowledge = 0x15,
    /// Synchronous idle.
    SynchronousIdle = 0x16,
    /// End of transmission block.
    EndOfTransmissionBlock = 0x17,
    /// Cancel.
    Cancel = 0x18,
    /// End of medium.
    EndOfMedium = 0x19,
    /// Substitute.
    Substitute = 0x1a,
    /// Escape.
    Escape = 0x1b,
    /// File separator.
    FileSeparator = 0x1c,
    /// Group separator.
    GroupSeparator = 0x1d,
    /// Record separator.
    RecordSeparator = 0x1e,
    /// Unit separator.
    UnitSeparator = 0x1f,
    /// BPH: break permitted here.
    BPH = 0x82,
    /// NBH: no break here.
    NBH = 0x83,
    /// IND: index (ECMA-48 up to its fourth edition).
    IND = 0x84,
    /// NEL: next line.
    NEL = 0x85,
    /// SSA: start of selected area.
    SSA = 0x86,
    /// ESA: end of selected area.
    ESA = 0x87,
    /// HTS: character tabulation set.
    HTS = 0x88,
    /// HTJ: character tabulation with justification.
    HTJ = 0x89,
    /// VTS: line tabulation set.
    VTS = 0x8a,
    /// PLD: partial line forward.
    PLD = 0x8b,
    /// PLU: partial line backward.
    PLU = 0x8c,
    /// RI: reverse line feed.
    RI = 0x8d,
    /// SS2: single shift two.
    SS2 = 0x8e,
    /// SS3: single shift three.
    SS3 = 0x8f,
    /// DCS: device control string.
    DCS = 0x90,
    /// PU1: private use one.
    PU1 = 0x91,
    /// PU2: private use two.
    PU2 = 0x92,
    /// STS: set transmit state.
    STS = 0x93,
    /// CCH: cancel character.
    CCH = 0x94,
    /// MW: message waiting.
    MW = 0x95,
    /// SPA: start of guarded area.
    SPA = 0x96,
    /// EPA: end of guarded area.
    EPA = 0x97,
    /// SOS: start of string.
    SOS = 0x98,
    /// SCI: single character introducer.
    SCI = 0x9a,
    /// CSI: control sequence introducer.
    CSI = 0x9b,
    /// ST: string terminator.
    ST = 0x9c,
    /// OSC: operating system command.
    OSC = 0x9d,
    /// PM: privacy message.
    PM = 0x9e,
    /// APC: application program command.
    APC = 0x9f,
}

// All of them, in the order of their numbers.
const ALL: [ControlCode; 61] = [
    ControlCode::Null,
    ControlCode::StartOfHeading,
    ControlCode::StartOfText,
    ControlCode::EndOfText,
    ControlCode::EndOfTransmission,
    ControlCode::Enquiry,
    ControlCode::Acknowledge,
    ControlCode::Bell,
    ControlCode::Backspace,
    ControlCode::HorizontalTab,
    ControlCode::LineFeed,
    ControlCode::VerticalTab,
    ControlCode::FormFeed,
    ControlCode::CarriageReturn,
    ControlCode::ShiftOut,
    ControlCode::ShiftIn,
    ControlCode::DataLinkEscape,
    ControlCode::DeviceControlOne,
    ControlCode::DeviceControlTwo,
    ControlCode::DeviceControlThree,
    ControlCode::DeviceControlFour,
    ControlCode::NegativeAcknowledge,
    ControlCode::SynchronousIdle,
    ControlCode::EndOfTransmissionBlock,
    ControlCode::Cancel,
    ControlCode::EndOfMedium,
    ControlCode::Substitute,
    ControlCode::Escape,
    ControlCode::FileSeparator,
    ControlCode::GroupSeparator,
    ControlCode::RecordSeparator,
    ControlCode::UnitSeparator,
    ControlCode::BPH,
    ControlCode::NBH,
    ControlCode::IND,
    ControlCode::NEL,
    ControlCode::SSA,
    ControlCode::ESA,
    ControlCode::HTS,
    ControlCode::HTJ,
    ControlCode::VTS,
    ControlCode::PLD,
    ControlCode::PLU,
    ControlCode::RI,
    ControlCode::SS2,
    ControlCode::SS3,
    ControlCode::DCS,
    ControlCode::PU1,
    ControlCode::PU2,
    ControlCode::STS,
    ControlCode::CCH,
    ControlCode::MW,
    ControlCode::SPA,
    ControlCode::EPA,
    ControlCode::SOS,
    ControlCode::SCI,
    ControlCode::CSI,
    ControlCode::ST,
    ControlCode::OSC,
    ControlCode::PM,
    ControlCode::APC,
];

// The code of each byte.
const BY_BYTE: [Option<ControlCode>; 256] = {
    let mut codes = [None; 256];
    let mut i = 0;
    while i < ALL.len() {
        codes[ALL[i] as usize] = Some(ALL[i]);
        i += 1;
    }
    codes
};

impl ControlCode {
    /// The code of this number. 80, 81 and 99 (hexadecimal) have no name.
    #[inline]
    #[must_use]
    pub fn from_byte(byte: u8) -> Option<ControlCode> {
        static CODES: [Option<ControlCode>; 256] = BY_BYTE;
        CODES[usize::from(byte)]
    }
}
