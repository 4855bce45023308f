// SPDX-License-Identifier: MIT

package escapestream

// A FieldID says which part of a command a field is. escape_stream.h has the value of each.
type FieldID uint32

// The names of fields, in the order of their numbers. The others are those of images.
const (
	FieldText FieldID = iota
	FieldPart
	FieldDirectory
	FieldURI
	FieldImplicit
	FieldKey
	FieldValue
	FieldSelection
	FieldPaletteIndex
	FieldDynamicColor
	FieldRed
	FieldGreen
	FieldBlue
	FieldQuery
	FieldProgressState
	FieldPercent
	FieldApplication
	FieldClick
	FieldPromptKind
	FieldStatus
	FieldName
	FieldHighlighted
	FieldCellHeight
	FieldCellWidth
	FieldScale
	FieldSize
	FieldWidthCells
	FieldWidthPixels
	FieldWidthPercent
	FieldHeightCells
	FieldHeightPixels
	FieldHeightPercent
	FieldPreserveAspectRatio
	FieldInline
	FieldDoNotMoveCursor
	FieldContent
	FieldVersion
	FieldLabel
)

var fieldNames = [...]string{
	"Text",
	"Part",
	"Directory",
	"URI",
	"Implicit",
	"Key",
	"Value",
	"Selection",
	"PaletteIndex",
	"DynamicColor",
	"Red",
	"Green",
	"Blue",
	"Query",
	"ProgressState",
	"Percent",
	"Application",
	"Click",
	"PromptKind",
	"Status",
	"Name",
	"Highlighted",
	"CellHeight",
	"CellWidth",
	"Scale",
	"Size",
	"WidthCells",
	"WidthPixels",
	"WidthPercent",
	"HeightCells",
	"HeightPixels",
	"HeightPercent",
	"PreserveAspectRatio",
	"Inline",
	"DoNotMoveCursor",
	"Content",
	"Version",
	"Label",
}

// String returns the name.
func (n FieldID) String() string {
	if int(n) < len(fieldNames) {
		return fieldNames[n]
	}
	return ""
}
