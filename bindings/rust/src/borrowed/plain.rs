// SPDX-License-Identifier: MIT
//! Commands that are seen at once from their texts.
use super::{FinalTermSemanticPrompt, Hyperlink, List, OperatingSystemCommand};
use core::str;

/// The command of a text that is a title, a link without parameters or with `id` alone, the end of
/// a link, or the mark of a prompt without keys or with `aid` alone. For other texts, and if a part
/// is empty or has a `;`, `:` or `=` besides, there is none: the library reads them.
///
/// These come most often, and this costs a tenth of what the library's call does, which makes rows
/// of fields. In debug builds each is compared with what that call says.
#[inline]
pub fn plain(text: &[u8]) -> Option<OperatingSystemCommand<'_>> {
    match text {
        [code @ b'0'..=b'2', b';', title @ ..] => {
            let title = word(title)?;
            Some(match code {
                b'0' => OperatingSystemCommand::SetIconNameAndWindowTitle(title),
                b'1' => OperatingSystemCommand::SetIconName(title),
                _ => OperatingSystemCommand::SetWindowTitle(title),
            })
        }
        b"8;;" => Some(OperatingSystemCommand::SetHyperlink(None)),
        [b'8', b';', b';', uri @ ..] => {
            let link = link(List::none(), word(uri)?);
            Some(OperatingSystemCommand::SetHyperlink(Some(link)))
        }
        [b'8', b';', b'i', b'd', b'=', rest @ ..] => {
            let end = rest.iter().position(|byte| *byte == b';')?;
            let rest = str::from_utf8(rest).ok()?;
            let (id, uri) = (&rest[..end], &rest[end + 1..]);
            if !is_value(id.as_bytes()) || !is_word(uri.as_bytes()) {
                return None;
            }
            let link = link(List::one(("id", id)), uri);
            Some(OperatingSystemCommand::SetHyperlink(Some(link)))
        }
        [b'1', b'3', b'3', b';', letter, rest @ ..] => {
            let aid = match rest {
                [] => None,
                [b';', b'a', b'i', b'd', b'=', aid @ ..] if is_value(aid) => {
                    Some(str::from_utf8(aid).ok()?)
                }
                _ => return None,
            };
            mark(*letter, aid).map(OperatingSystemCommand::FinalTermSemanticPrompt)
        }
        _ => None,
    }
}

#[inline]
fn link<'a>(params: List<'a, (&'a str, &'a str)>, uri: &'a str) -> Hyperlink<'a> {
    Hyperlink {
        params,
        uri,
        implicit: false,
    }
}

// A text that is not empty and has no `;`.
fn word(bytes: &[u8]) -> Option<&str> {
    if is_word(bytes) {
        str::from_utf8(bytes).ok()
    } else {
        None
    }
}

#[inline]
fn is_word(bytes: &[u8]) -> bool {
    !bytes.is_empty() && !bytes.contains(&b';')
}

// Whether it has no `:` and no `=` either.
#[inline]
fn is_value(bytes: &[u8]) -> bool {
    let divides = |byte: &u8| matches!(byte, b':' | b';' | b'=');
    !bytes.is_empty() && !bytes.iter().any(divides)
}

#[inline]
fn mark(letter: u8, aid: Option<&str>) -> Option<FinalTermSemanticPrompt<'_>> {
    use FinalTermSemanticPrompt as Prompt;
    match (letter, aid) {
        (b'A', aid) => Some(Prompt::FreshLineAndStartPrompt { aid, cl: None }),
        (b'C', aid) => Some(Prompt::MarkEndOfInputAndStartOfOutput { aid }),
        (b'N', aid) => Some(Prompt::MarkEndOfCommandWithFreshLine { aid, cl: None }),
        (b'B', None) => Some(Prompt::MarkEndOfPromptAndStartOfInputUntilNextMarker),
        (b'I', None) => Some(Prompt::MarkEndOfPromptAndStartOfInputUntilEndOfLine),
        (b'L', None) => Some(Prompt::FreshLine),
        _ => None,
    }
}
