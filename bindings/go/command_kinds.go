// SPDX-License-Identifier: MIT

package escapestream

// A CommandKind says which command it is. escape_stream.h lists the fields of each.
type CommandKind uint32

// The kinds of commands, in the order of their numbers.
const (
	CommandUnspecified CommandKind = iota
	CommandSetIconNameAndWindowTitle
	CommandSetWindowTitle
	CommandSetWindowTitleSun
	CommandSetIconName
	CommandSetIconNameSun
	CommandSetHyperlink
	CommandClearSelection
	CommandQuerySelection
	CommandSetSelection
	CommandSystemNotification
	CommandChangeColorNumber
	CommandChangeDynamicColors
	CommandResetDynamicColor
	CommandCurrentWorkingDirectory
	CommandResetColors
	CommandRxvtExtension
	CommandConEmuProgress
	CommandPromptFreshLine
	CommandPromptFreshLineAndStartPrompt
	CommandPromptEndOfCommandWithFreshLine
	CommandPromptStartPrompt
	CommandPromptStartOfInputUntilNextMarker
	CommandPromptStartOfInputUntilEndOfLine
	CommandPromptStartOfOutput
	CommandPromptCommandStatus
	CommandITermSetMark
	CommandITermStealFocus
	CommandITermClearScrollback
	CommandITermCurrentDir
	CommandITermSetProfile
	CommandITermCopyToClipboard
	CommandITermEndCopy
	CommandITermHighlightCursorLine
	CommandITermRequestCellSize
	CommandITermReportCellSize
	CommandITermCopy
	CommandITermReportVariable
	CommandITermSetUserVar
	CommandITermSetBadgeFormat
	CommandITermFile
	CommandITermSetUnicodeVersion
	CommandITermPushUnicodeVersion
	CommandITermPopUnicodeVersion
)

var commandNames = [...]string{
	"Unspecified",
	"SetIconNameAndWindowTitle",
	"SetWindowTitle",
	"SetWindowTitleSun",
	"SetIconName",
	"SetIconNameSun",
	"SetHyperlink",
	"ClearSelection",
	"QuerySelection",
	"SetSelection",
	"SystemNotification",
	"ChangeColorNumber",
	"ChangeDynamicColors",
	"ResetDynamicColor",
	"CurrentWorkingDirectory",
	"ResetColors",
	"RxvtExtension",
	"ConEmuProgress",
	"PromptFreshLine",
	"PromptFreshLineAndStartPrompt",
	"PromptEndOfCommandWithFreshLine",
	"PromptStartPrompt",
	"PromptStartOfInputUntilNextMarker",
	"PromptStartOfInputUntilEndOfLine",
	"PromptStartOfOutput",
	"PromptCommandStatus",
	"ITermSetMark",
	"ITermStealFocus",
	"ITermClearScrollback",
	"ITermCurrentDir",
	"ITermSetProfile",
	"ITermCopyToClipboard",
	"ITermEndCopy",
	"ITermHighlightCursorLine",
	"ITermRequestCellSize",
	"ITermReportCellSize",
	"ITermCopy",
	"ITermReportVariable",
	"ITermSetUserVar",
	"ITermSetBadgeFormat",
	"ITermFile",
	"ITermSetUnicodeVersion",
	"ITermPushUnicodeVersion",
	"ITermPopUnicodeVersion",
}

// String returns the name of the kind.
func (k CommandKind) String() string {
	if int(k) < len(commandNames) {
		return commandNames[k]
	}
	return ""
}
