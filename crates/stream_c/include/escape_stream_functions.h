/* SPDX-License-Identifier: MIT */
/*
 * escape_stream_functions.h - control functions as numbers
 *
 * tools/function-numbers makes this file: a number for each control sequence and escape sequence of
 * docs/FUNCTIONS.md, so that a program can choose by `switch`, and the number of an event. A number
 * is made of the bytes of its sequence but the parameters, so it stays the same in later versions.
 * The names are those of escape_stream_function and escape_stream_escape_function; a test compares
 * them.
 *
 *     uint32_t function = escape_stream_function_number(&event);
 *     switch (function) {
 *     case ESCAPE_STREAM_FUNCTION_CUP:
 *         line = escape_stream_value(&event, function, 0);
 *         column = escape_stream_value(&event, function, 1);
 *         break;
 *     case ESCAPE_STREAM_ESCAPE_FUNCTION_RIS:
 *         reset();
 *         break;
 *     }
 */
#ifndef ESCAPE_STREAM_FUNCTIONS_H
#define ESCAPE_STREAM_FUNCTIONS_H

#include "escape_stream_parser.h"

#ifdef __cplusplus
extern "C" {
#endif

/* The number of an event that has no function with a name. */
#define ESCAPE_STREAM_FUNCTION_NONE 0

/* The functions of control sequences. */
#define ESCAPE_STREAM_FUNCTION_ICH 0x140 /* insert characters */
#define ESCAPE_STREAM_FUNCTION_SL 0x12040 /* scroll left */
#define ESCAPE_STREAM_FUNCTION_CUU 0x141 /* cursor up */
#define ESCAPE_STREAM_FUNCTION_SR 0x12041 /* scroll right */
#define ESCAPE_STREAM_FUNCTION_CUD 0x142 /* cursor down */
#define ESCAPE_STREAM_FUNCTION_GSM 0x12042 /* graphic size modification */
#define ESCAPE_STREAM_FUNCTION_CUF 0x143 /* cursor right */
#define ESCAPE_STREAM_FUNCTION_GSS 0x12043 /* graphic size selection */
#define ESCAPE_STREAM_FUNCTION_CUB 0x144 /* cursor left */
#define ESCAPE_STREAM_FUNCTION_FNT 0x12044 /* font selection */
#define ESCAPE_STREAM_FUNCTION_CNL 0x145 /* cursor to next line */
#define ESCAPE_STREAM_FUNCTION_TSS 0x12045 /* thin space specification */
#define ESCAPE_STREAM_FUNCTION_CPL 0x146 /* cursor to preceding line */
#define ESCAPE_STREAM_FUNCTION_JFY 0x12046 /* justify */
#define ESCAPE_STREAM_FUNCTION_CHA 0x147 /* cursor to column */
#define ESCAPE_STREAM_FUNCTION_SPI 0x12047 /* spacing increment */
#define ESCAPE_STREAM_FUNCTION_CUP 0x148 /* cursor position */
#define ESCAPE_STREAM_FUNCTION_QUAD 0x12048 /* quad: position of the text in the line */
#define ESCAPE_STREAM_FUNCTION_CHT 0x149 /* cursor to tab stop */
#define ESCAPE_STREAM_FUNCTION_SSU 0x12049 /* select size unit */
#define ESCAPE_STREAM_FUNCTION_ED 0x14a /* erase in display */
#define ESCAPE_STREAM_FUNCTION_PFS 0x1204a /* page format selection */
#define ESCAPE_STREAM_FUNCTION_DECSED 0x13f4a /* erase in display what is not protected */
#define ESCAPE_STREAM_FUNCTION_EL 0x14b /* erase in line */
#define ESCAPE_STREAM_FUNCTION_SHS 0x1204b /* select character spacing */
#define ESCAPE_STREAM_FUNCTION_DECSEL 0x13f4b /* erase in line what is not protected */
#define ESCAPE_STREAM_FUNCTION_IL 0x14c /* insert lines */
#define ESCAPE_STREAM_FUNCTION_SVS 0x1204c /* select line spacing */
#define ESCAPE_STREAM_FUNCTION_DL 0x14d /* delete lines */
#define ESCAPE_STREAM_FUNCTION_IGS 0x1204d /* identify graphic subrepertoire */
#define ESCAPE_STREAM_FUNCTION_MOUSE 0x13c4d /* mouse button pressed or pointer moved */
#define ESCAPE_STREAM_FUNCTION_EF 0x14e /* erase in field */
#define ESCAPE_STREAM_FUNCTION_EA 0x14f /* erase in area */
#define ESCAPE_STREAM_FUNCTION_IDCS 0x1204f /* identify device control string */
#define ESCAPE_STREAM_FUNCTION_DCH 0x150 /* delete characters */
#define ESCAPE_STREAM_FUNCTION_PPA 0x12050 /* page position absolute */
#define ESCAPE_STREAM_FUNCTION_XTPUSHCOLORS 0x12350 /* push colours of the palette */
#define ESCAPE_STREAM_FUNCTION_SEE 0x151 /* select editing extent */
#define ESCAPE_STREAM_FUNCTION_PPR 0x12051 /* page position forward */
#define ESCAPE_STREAM_FUNCTION_XTPOPCOLORS 0x12351 /* pop colours of the palette */
#define ESCAPE_STREAM_FUNCTION_CPR 0x152 /* report of the cursor position */
#define ESCAPE_STREAM_FUNCTION_PPB 0x12052 /* page position backward */
#define ESCAPE_STREAM_FUNCTION_XTREPORTCOLORS 0x12352 /* ask for the stack of palettes */
#define ESCAPE_STREAM_FUNCTION_DECXCPR 0x13f52 /* report of the cursor position and page */
#define ESCAPE_STREAM_FUNCTION_SU 0x153 /* scroll up */
#define ESCAPE_STREAM_FUNCTION_SPD 0x12053 /* select presentation directions */
#define ESCAPE_STREAM_FUNCTION_XTTITLEPOS 0x12353 /* ask for the place in the stack of titles */
#define ESCAPE_STREAM_FUNCTION_XTSMGRAPHICS 0x13f53 /* set or ask for a graphics attribute */
#define ESCAPE_STREAM_FUNCTION_SD 0x154 /* scroll down */
#define ESCAPE_STREAM_FUNCTION_XTHIMOUSE 0x254 /* start tracking of a highlight by the mouse */
#define ESCAPE_STREAM_FUNCTION_DTA 0x12054 /* dimension text area */
#define ESCAPE_STREAM_FUNCTION_KITTYUNSCROLL 0x12b54
#define ESCAPE_STREAM_FUNCTION_XTRMTITLE 0x13e54 /* reset title modes */
#define ESCAPE_STREAM_FUNCTION_NP 0x155 /* next page */
#define ESCAPE_STREAM_FUNCTION_SLH 0x12055 /* set line home */
#define ESCAPE_STREAM_FUNCTION_PP 0x156 /* preceding page */
#define ESCAPE_STREAM_FUNCTION_SLL 0x12056 /* set line limit */
#define ESCAPE_STREAM_FUNCTION_CTC 0x157 /* cursor tabulation control */
#define ESCAPE_STREAM_FUNCTION_FNK 0x12057 /* function key */
#define ESCAPE_STREAM_FUNCTION_DECST8C 0x13f57 /* set a tab stop every 8 columns */
#define ESCAPE_STREAM_FUNCTION_ECH 0x158 /* erase characters */
#define ESCAPE_STREAM_FUNCTION_SPQR 0x12058 /* select print quality and rapidity */
#define ESCAPE_STREAM_FUNCTION_CVT 0x159 /* cursor line tabulation */
#define ESCAPE_STREAM_FUNCTION_SEF 0x12059 /* sheet eject and feed */
#define ESCAPE_STREAM_FUNCTION_CBT 0x15a /* cursor back to tab stop */
#define ESCAPE_STREAM_FUNCTION_PEC 0x1205a /* presentation expand or contract */
#define ESCAPE_STREAM_FUNCTION_SRS 0x15b /* start reversed string */
#define ESCAPE_STREAM_FUNCTION_SSW 0x1205b /* set space width */
#define ESCAPE_STREAM_FUNCTION_PTX 0x15c /* parallel texts */
#define ESCAPE_STREAM_FUNCTION_SACS 0x1205c /* set additional character separation */
#define ESCAPE_STREAM_FUNCTION_SDS 0x15d
#define ESCAPE_STREAM_FUNCTION_SAPV 0x1205d /* select alternative presentation variants */
#define ESCAPE_STREAM_FUNCTION_SIMD 0x15e
#define ESCAPE_STREAM_FUNCTION_STAB 0x1205e /* selective tabulation */
#define ESCAPE_STREAM_FUNCTION_WIN32KEY 0x15f /* key pressed or released */
#define ESCAPE_STREAM_FUNCTION_GCC 0x1205f /* graphic character combination */
#define ESCAPE_STREAM_FUNCTION_HPA 0x160 /* column position */
#define ESCAPE_STREAM_FUNCTION_TATE 0x12060 /* tabulation aligned trailing edge */
#define ESCAPE_STREAM_FUNCTION_HPR 0x161 /* column position forward */
#define ESCAPE_STREAM_FUNCTION_TALE 0x12061 /* tabulation aligned leading edge */
#define ESCAPE_STREAM_FUNCTION_REP 0x162 /* repeat the character */
#define ESCAPE_STREAM_FUNCTION_TAC 0x12062 /* tabulation aligned centred */
#define ESCAPE_STREAM_FUNCTION_DA1 0x163 /* device attributes */
#define ESCAPE_STREAM_FUNCTION_TCC 0x12063 /* tabulation centred on character */
#define ESCAPE_STREAM_FUNCTION_DA3 0x13d63 /* tertiary device attributes */
#define ESCAPE_STREAM_FUNCTION_DA2 0x13e63 /* secondary device attributes, and their report */
#define ESCAPE_STREAM_FUNCTION_DA1R 0x13f63
#define ESCAPE_STREAM_FUNCTION_VPA 0x164 /* line position */
#define ESCAPE_STREAM_FUNCTION_TSR 0x12064 /* tabulation stop remove */
#define ESCAPE_STREAM_FUNCTION_VPR 0x165 /* line position forward */
#define ESCAPE_STREAM_FUNCTION_SCO 0x12065 /* select character orientation */
#define ESCAPE_STREAM_FUNCTION_HVP 0x166 /* character and line position */
#define ESCAPE_STREAM_FUNCTION_SRCS 0x12066 /* set reduced character separation */
#define ESCAPE_STREAM_FUNCTION_XTFMTKEYS 0x13e66 /* format of modified keys */
#define ESCAPE_STREAM_FUNCTION_TBC 0x167 /* clear tab stops */
#define ESCAPE_STREAM_FUNCTION_SCS 0x12067 /* set character spacing */
#define ESCAPE_STREAM_FUNCTION_XTQFMTKEYS 0x13f67 /* ask for the format of modified keys */
#define ESCAPE_STREAM_FUNCTION_SM 0x168 /* set modes */
#define ESCAPE_STREAM_FUNCTION_SLS 0x12068 /* set line spacing */
#define ESCAPE_STREAM_FUNCTION_DECSET 0x13f68 /* set private modes */
#define ESCAPE_STREAM_FUNCTION_MC 0x169 /* media copy */
#define ESCAPE_STREAM_FUNCTION_SPH 0x12069 /* set page home */
#define ESCAPE_STREAM_FUNCTION_DECMC 0x13f69 /* media copy, private */
#define ESCAPE_STREAM_FUNCTION_HPB 0x16a /* column position backward */
#define ESCAPE_STREAM_FUNCTION_SPL 0x1206a /* set page limit */
#define ESCAPE_STREAM_FUNCTION_VPB 0x16b /* line position backward */
#define ESCAPE_STREAM_FUNCTION_SCP 0x1206b /* select character path */
#define ESCAPE_STREAM_FUNCTION_RM 0x16c /* reset modes */
#define ESCAPE_STREAM_FUNCTION_DECRST 0x13f6c /* reset private modes */
#define ESCAPE_STREAM_FUNCTION_SGR 0x16d /* select graphic rendition */
#define ESCAPE_STREAM_FUNCTION_MOUSEUP 0x13c6d /* mouse button released */
#define ESCAPE_STREAM_FUNCTION_XTMODKEYS 0x13e6d /* modifier keys */
#define ESCAPE_STREAM_FUNCTION_XTQMODKEYS 0x13f6d /* ask for modifier keys */
#define ESCAPE_STREAM_FUNCTION_DSR 0x16e /* device status report */
#define ESCAPE_STREAM_FUNCTION_XTDISMODKEYS 0x13e6e /* switch modifier keys off */
#define ESCAPE_STREAM_FUNCTION_DECDSR 0x13f6e /* private device status report */
#define ESCAPE_STREAM_FUNCTION_DAQ 0x16f /* define area qualification */
#define ESCAPE_STREAM_FUNCTION_DECSSL 0x170 /* select the language of the setup */
#define ESCAPE_STREAM_FUNCTION_DECSSCLS 0x12070 /* set scroll speed */
#define ESCAPE_STREAM_FUNCTION_DECSTR 0x12170 /* soft terminal reset */
#define ESCAPE_STREAM_FUNCTION_DECSCL 0x12270 /* conformance level */
#define ESCAPE_STREAM_FUNCTION_XTPUSHSGR 0x12370 /* push renditions */
#define ESCAPE_STREAM_FUNCTION_DECRQM_ANSI 0x12470 /* ask for a mode */
#define ESCAPE_STREAM_FUNCTION_DECSDPT 0x12870 /* select digital printed data type */
#define ESCAPE_STREAM_FUNCTION_DECSPPCS 0x12a70 /* select ProPrinter character set */
#define ESCAPE_STREAM_FUNCTION_DECSR 0x12b70 /* secure reset */
#define ESCAPE_STREAM_FUNCTION_DECLTOD 0x12c70 /* load time of day */
#define ESCAPE_STREAM_FUNCTION_DECARR 0x12d70 /* auto-repeat rate of keys */
#define ESCAPE_STREAM_FUNCTION_XTSMPOINTER 0x13e70 /* hiding of the pointer */
#define ESCAPE_STREAM_FUNCTION_DECRQM 0x13f2470 /* ask for a private mode */
#define ESCAPE_STREAM_FUNCTION_DECLL 0x171 /* load LEDs */
#define ESCAPE_STREAM_FUNCTION_DECSCUSR 0x12071 /* cursor style */
#define ESCAPE_STREAM_FUNCTION_DECSCA 0x12271 /* character protection */
#define ESCAPE_STREAM_FUNCTION_XTPOPSGR 0x12371 /* pop renditions */
#define ESCAPE_STREAM_FUNCTION_DECSDDT 0x12471 /* select disconnect delay time */
#define ESCAPE_STREAM_FUNCTION_MINTTYPROGRESS 0x12571 /* progress of a task */
#define ESCAPE_STREAM_FUNCTION_DECSRC 0x12a71 /* secure reset confirmation */
#define ESCAPE_STREAM_FUNCTION_DECELF 0x12b71 /* enable local functions */
#define ESCAPE_STREAM_FUNCTION_DECTID 0x12c71 /* select terminal identification */
#define ESCAPE_STREAM_FUNCTION_DECCRTST 0x12d71 /* time until the screen is saved */
#define ESCAPE_STREAM_FUNCTION_XTVERSION 0x13e71 /* ask for name and version */
#define ESCAPE_STREAM_FUNCTION_KITTYCURSORS 0x13e2071 /* extra cursors */
#define ESCAPE_STREAM_FUNCTION_DECSTBM 0x172 /* top and bottom margins */
#define ESCAPE_STREAM_FUNCTION_DECSKCV 0x12072 /* set key click volume */
#define ESCAPE_STREAM_FUNCTION_DECCARA 0x12472 /* change attributes in a rectangle */
#define ESCAPE_STREAM_FUNCTION_DECSCS 0x12a72 /* select communication speed */
#define ESCAPE_STREAM_FUNCTION_DECSMKR 0x12b72 /* select modifier key reporting */
#define ESCAPE_STREAM_FUNCTION_DECSEST 0x12d72 /* time until energy is saved */
#define ESCAPE_STREAM_FUNCTION_XTRESTORE 0x13f72 /* restore private modes */
#define ESCAPE_STREAM_FUNCTION_SCOSC 0x173 /* save cursor position */
#define ESCAPE_STREAM_FUNCTION_DECSLRM 0x273 /* left and right margins */
#define ESCAPE_STREAM_FUNCTION_DECSPRTT 0x12473 /* select printer type */
#define ESCAPE_STREAM_FUNCTION_DECSFC 0x12a73 /* select flow control */
#define ESCAPE_STREAM_FUNCTION_XTSHIFTESCAPE 0x13e73 /* use of Shift with the mouse */
#define ESCAPE_STREAM_FUNCTION_XTSAVE 0x13f73 /* save private modes */
#define ESCAPE_STREAM_FUNCTION_XTWINOPS 0x174 /* window */
#define ESCAPE_STREAM_FUNCTION_DECSWBV 0x12074 /* warning bell volume */
#define ESCAPE_STREAM_FUNCTION_DECSRFR 0x12274 /* select refresh rate */
#define ESCAPE_STREAM_FUNCTION_DECRARA 0x12474 /* reverse attributes in a rectangle */
#define ESCAPE_STREAM_FUNCTION_XTSMTITLE 0x13e74 /* set title modes */
#define ESCAPE_STREAM_FUNCTION_SCORC 0x175 /* restore cursor position */
#define ESCAPE_STREAM_FUNCTION_KITTYKEY 0x275 /* key pressed, repeated or released */
#define ESCAPE_STREAM_FUNCTION_DECSMBV 0x12075 /* margin bell volume */
#define ESCAPE_STREAM_FUNCTION_DECSTRL 0x12275 /* set transmit rate limit */
#define ESCAPE_STREAM_FUNCTION_DECRQTSR 0x12475 /* ask for terminal state */
#define ESCAPE_STREAM_FUNCTION_DECRQUPSS 0x12675 /* ask for user-preferred supplemental set */
#define ESCAPE_STREAM_FUNCTION_DECSCP 0x12a75 /* select communication port */
#define ESCAPE_STREAM_FUNCTION_DECRQKT 0x12c75 /* ask for key type */
#define ESCAPE_STREAM_FUNCTION_KITTYPOP 0x13c75 /* pop flags of the keyboard */
#define ESCAPE_STREAM_FUNCTION_KITTYSET 0x13d75 /* set flags of the keyboard */
#define ESCAPE_STREAM_FUNCTION_KITTYPUSH 0x13e75 /* push flags of the keyboard */
#define ESCAPE_STREAM_FUNCTION_KITTYQUERY 0x13f75
#define ESCAPE_STREAM_FUNCTION_DECSLCK 0x12076 /* set lock key style */
#define ESCAPE_STREAM_FUNCTION_DECRQDE 0x12276 /* ask for displayed extent */
#define ESCAPE_STREAM_FUNCTION_DECCRA 0x12476 /* copy a rectangle */
#define ESCAPE_STREAM_FUNCTION_DECRPKT 0x12c76 /* report of key type */
#define ESCAPE_STREAM_FUNCTION_DECRPDE 0x12277 /* report of displayed extent */
#define ESCAPE_STREAM_FUNCTION_DECRQPSR 0x12477 /* ask for presentation state */
#define ESCAPE_STREAM_FUNCTION_DECLRP 0x12677 /* report of the locator */
#define ESCAPE_STREAM_FUNCTION_DECEFR 0x12777 /* filter rectangle of the locator */
#define ESCAPE_STREAM_FUNCTION_DECSPP 0x12b77 /* set port parameter */
#define ESCAPE_STREAM_FUNCTION_DECRQKD 0x12c77 /* ask for the definition of a key */
#define ESCAPE_STREAM_FUNCTION_DECREQTPARM 0x178 /* ask for terminal parameters, and their report */
#define ESCAPE_STREAM_FUNCTION_DECFRA 0x12478 /* fill a rectangle */
#define ESCAPE_STREAM_FUNCTION_DECES 0x12678 /* enable session */
#define ESCAPE_STREAM_FUNCTION_DECSACE 0x12a78 /* extent of changed attributes */
#define ESCAPE_STREAM_FUNCTION_DECRQPKFM 0x12b78 /* ask for free memory for keys */
#define ESCAPE_STREAM_FUNCTION_DECSPMA 0x12c78 /* session page memory allocation */
#define ESCAPE_STREAM_FUNCTION_DECTST 0x179 /* confidence test */
#define ESCAPE_STREAM_FUNCTION_XTCHECKSUM 0x12379 /* select checksum extension */
#define ESCAPE_STREAM_FUNCTION_DECRPM_ANSI 0x12479 /* report of a mode */
#define ESCAPE_STREAM_FUNCTION_DECRQCRA 0x12a79 /* ask for a rectangle's checksum */
#define ESCAPE_STREAM_FUNCTION_DECPKFMR 0x12b79 /* report of free memory for keys */
#define ESCAPE_STREAM_FUNCTION_DECUS 0x12c79 /* update session */
#define ESCAPE_STREAM_FUNCTION_DECRPM 0x13f2479 /* report of a private mode */
#define ESCAPE_STREAM_FUNCTION_DECERA 0x1247a /* erase a rectangle */
#define ESCAPE_STREAM_FUNCTION_DECELR 0x1277a /* locator reports */
#define ESCAPE_STREAM_FUNCTION_DECINVM 0x12a7a /* invoke macro */
#define ESCAPE_STREAM_FUNCTION_DECPKA 0x12b7a /* program key action */
#define ESCAPE_STREAM_FUNCTION_DECDLDA 0x12c7a /* allocate memory of loaded character sets */
#define ESCAPE_STREAM_FUNCTION_XTPUSHSGR_2 0x1237b /* push renditions */
#define ESCAPE_STREAM_FUNCTION_DECSERA 0x1247b /* erase in a rectangle what is not protected */
#define ESCAPE_STREAM_FUNCTION_DECSLE 0x1277b /* locator events */
#define ESCAPE_STREAM_FUNCTION_DECSTGLT 0x1297b /* select colour look-up table */
#define ESCAPE_STREAM_FUNCTION_DECMSR 0x12a7b /* report of space for macros */
#define ESCAPE_STREAM_FUNCTION_DECSZS 0x12c7b /* select zero symbol */
#define ESCAPE_STREAM_FUNCTION_DECTTC 0x17c /* select transmit termination character */
#define ESCAPE_STREAM_FUNCTION_XTREPORTSGR 0x1237c /* ask for renditions of a rectangle */
#define ESCAPE_STREAM_FUNCTION_DECSCPP 0x1247c /* columns a page */
#define ESCAPE_STREAM_FUNCTION_DECRQLP 0x1277c /* ask for the locator's position */
#define ESCAPE_STREAM_FUNCTION_DECSNLS 0x12a7c /* lines a screen */
#define ESCAPE_STREAM_FUNCTION_DECAC 0x12c7c /* assign colours */
#define ESCAPE_STREAM_FUNCTION_DECKBD 0x1207d /* language of the keyboard */
#define ESCAPE_STREAM_FUNCTION_XTPOPSGR_2 0x1237d /* pop renditions */
#define ESCAPE_STREAM_FUNCTION_DECSASD 0x1247d /* select active status display */
#define ESCAPE_STREAM_FUNCTION_DECIC 0x1277d /* insert columns */
#define ESCAPE_STREAM_FUNCTION_DECLFKC 0x12a7d /* local function key control */
#define ESCAPE_STREAM_FUNCTION_DECATC 0x12c7d /* alternate text colours */
#define ESCAPE_STREAM_FUNCTION_DECFNK 0x17e /* function key */
#define ESCAPE_STREAM_FUNCTION_DECTME 0x1207e /* terminal mode emulation */
#define ESCAPE_STREAM_FUNCTION_DECSSDT 0x1247e /* select status line type */
#define ESCAPE_STREAM_FUNCTION_DECDC 0x1277e /* delete columns */
#define ESCAPE_STREAM_FUNCTION_DECPS 0x12c7e /* play sound */

/* Those of escape sequences. */
#define ESCAPE_STREAM_ESCAPE_FUNCTION_CZD 0x40000121 /* designate the C0 set */
#define ESCAPE_STREAM_ESCAPE_FUNCTION_C1D 0x40000122 /* designate the C1 set */
#define ESCAPE_STREAM_ESCAPE_FUNCTION_GZDM4 0x40000124 /* designate G0, a set of several bytes */
#define ESCAPE_STREAM_ESCAPE_FUNCTION_IRR 0x40000126 /* identify revised registration */
#define ESCAPE_STREAM_ESCAPE_FUNCTION_GZD4 0x40000128 /* designate G0 */
#define ESCAPE_STREAM_ESCAPE_FUNCTION_GZDM4_LONG 0x40012428
#define ESCAPE_STREAM_ESCAPE_FUNCTION_G1D4 0x40000129 /* designate G1 */
#define ESCAPE_STREAM_ESCAPE_FUNCTION_G1DM4 0x40012429 /* designate G1, a set of several bytes */
#define ESCAPE_STREAM_ESCAPE_FUNCTION_G2D4 0x4000012a /* designate G2 */
#define ESCAPE_STREAM_ESCAPE_FUNCTION_G2DM4 0x4001242a /* designate G2, a set of several bytes */
#define ESCAPE_STREAM_ESCAPE_FUNCTION_G3D4 0x4000012b /* designate G3 */
#define ESCAPE_STREAM_ESCAPE_FUNCTION_G3DM4 0x4001242b /* designate G3, a set of several bytes */
#define ESCAPE_STREAM_ESCAPE_FUNCTION_G1D6 0x4000012d /* designate G1, a set of 96 */
#define ESCAPE_STREAM_ESCAPE_FUNCTION_G1DM6 0x4001242d
#define ESCAPE_STREAM_ESCAPE_FUNCTION_G2D6 0x4000012e /* designate G2, a set of 96 */
#define ESCAPE_STREAM_ESCAPE_FUNCTION_G2DM6 0x4001242e
#define ESCAPE_STREAM_ESCAPE_FUNCTION_G3D6 0x4000012f /* designate G3, a set of 96 */
#define ESCAPE_STREAM_ESCAPE_FUNCTION_G3DM6 0x4001242f
#define ESCAPE_STREAM_ESCAPE_FUNCTION_DOCS_OTHER 0x4001252f
#define ESCAPE_STREAM_ESCAPE_FUNCTION_DECDHLT 0x40012333 /* line of double height, top half */
#define ESCAPE_STREAM_ESCAPE_FUNCTION_DECDHLB 0x40012334 /* line of double height, bottom half */
#define ESCAPE_STREAM_ESCAPE_FUNCTION_DECSWL 0x40012335 /* line of single width */
#define ESCAPE_STREAM_ESCAPE_FUNCTION_DECBI 0x40000136 /* back index */
#define ESCAPE_STREAM_ESCAPE_FUNCTION_DECDWL 0x40012336 /* line of double width */
#define ESCAPE_STREAM_ESCAPE_FUNCTION_DECSC 0x40000137 /* save cursor */
#define ESCAPE_STREAM_ESCAPE_FUNCTION_DECRC 0x40000138 /* restore cursor */
#define ESCAPE_STREAM_ESCAPE_FUNCTION_DECALN 0x40012338 /* screen alignment pattern */
#define ESCAPE_STREAM_ESCAPE_FUNCTION_DOCS_LINUX 0x40012538 /* UTF-8, obsolete */
#define ESCAPE_STREAM_ESCAPE_FUNCTION_DECFI 0x40000139 /* forward index */
#define ESCAPE_STREAM_ESCAPE_FUNCTION_VT52EXIT 0x4000013c /* leave VT52 mode */
#define ESCAPE_STREAM_ESCAPE_FUNCTION_DECKPAM 0x4000013d /* application keypad */
#define ESCAPE_STREAM_ESCAPE_FUNCTION_DECKPNM 0x4000013e /* numeric keypad */
#define ESCAPE_STREAM_ESCAPE_FUNCTION_PAD 0x40000140 /* padding character */
#define ESCAPE_STREAM_ESCAPE_FUNCTION_DOCS_DEFAULT 0x40012540 /* default character set */
#define ESCAPE_STREAM_ESCAPE_FUNCTION_HOP 0x40000141 /* high octet preset */
#define ESCAPE_STREAM_ESCAPE_FUNCTION_BPH 0x40000142 /* break permitted here */
#define ESCAPE_STREAM_ESCAPE_FUNCTION_NBH 0x40000143 /* no break here */
#define ESCAPE_STREAM_ESCAPE_FUNCTION_IND 0x40000144 /* index */
#define ESCAPE_STREAM_ESCAPE_FUNCTION_NEL 0x40000145 /* next line */
#define ESCAPE_STREAM_ESCAPE_FUNCTION_SSA 0x40000146 /* start of selected area */
#define ESCAPE_STREAM_ESCAPE_FUNCTION_S7C1T 0x40012046 /* controls of seven bits */
#define ESCAPE_STREAM_ESCAPE_FUNCTION_ESA 0x40000147 /* end of selected area */
#define ESCAPE_STREAM_ESCAPE_FUNCTION_S8C1T 0x40012047 /* controls of eight bits */
#define ESCAPE_STREAM_ESCAPE_FUNCTION_DOCS_UTF8 0x40012547 /* UTF-8 */
#define ESCAPE_STREAM_ESCAPE_FUNCTION_HTS 0x40000148 /* set tab stop */
#define ESCAPE_STREAM_ESCAPE_FUNCTION_HTJ 0x40000149 /* tab with justification */
#define ESCAPE_STREAM_ESCAPE_FUNCTION_VTS 0x4000014a /* set line tab stop */
#define ESCAPE_STREAM_ESCAPE_FUNCTION_PLD 0x4000014b /* partial line forward */
#define ESCAPE_STREAM_ESCAPE_FUNCTION_PLU 0x4000014c /* partial line backward */
#define ESCAPE_STREAM_ESCAPE_FUNCTION_ACS1 0x4001204c /* conformance level one */
#define ESCAPE_STREAM_ESCAPE_FUNCTION_RI 0x4000014d /* reverse line feed */
#define ESCAPE_STREAM_ESCAPE_FUNCTION_ACS2 0x4001204d /* conformance level two */
#define ESCAPE_STREAM_ESCAPE_FUNCTION_SS2 0x4000014e /* single shift two */
#define ESCAPE_STREAM_ESCAPE_FUNCTION_ACS3 0x4001204e /* conformance level three */
#define ESCAPE_STREAM_ESCAPE_FUNCTION_SS3 0x4000014f /* single shift three */
#define ESCAPE_STREAM_ESCAPE_FUNCTION_DCS 0x40000150 /* device control string */
#define ESCAPE_STREAM_ESCAPE_FUNCTION_PU1 0x40000151 /* private use one */
#define ESCAPE_STREAM_ESCAPE_FUNCTION_PU2 0x40000152 /* private use two */
#define ESCAPE_STREAM_ESCAPE_FUNCTION_STS 0x40000153 /* set transmit state */
#define ESCAPE_STREAM_ESCAPE_FUNCTION_CCH 0x40000154 /* cancel character */
#define ESCAPE_STREAM_ESCAPE_FUNCTION_MW 0x40000155 /* message waiting */
#define ESCAPE_STREAM_ESCAPE_FUNCTION_SPA 0x40000156 /* start of guarded area */
#define ESCAPE_STREAM_ESCAPE_FUNCTION_EPA 0x40000157 /* end of guarded area */
#define ESCAPE_STREAM_ESCAPE_FUNCTION_SOS 0x40000158 /* start of string */
#define ESCAPE_STREAM_ESCAPE_FUNCTION_SGC 0x40000159 /* single graphic character introducer */
#define ESCAPE_STREAM_ESCAPE_FUNCTION_DECID 0x4000015a
#define ESCAPE_STREAM_ESCAPE_FUNCTION_CSI 0x4000015b /* control sequence introducer */
#define ESCAPE_STREAM_ESCAPE_FUNCTION_ST 0x4000015c /* string terminator */
#define ESCAPE_STREAM_ESCAPE_FUNCTION_OSC 0x4000015d /* operating system command */
#define ESCAPE_STREAM_ESCAPE_FUNCTION_PM 0x4000015e /* privacy message */
#define ESCAPE_STREAM_ESCAPE_FUNCTION_APC 0x4000015f /* application program command */
#define ESCAPE_STREAM_ESCAPE_FUNCTION_DMI 0x40000160 /* disable manual input */
#define ESCAPE_STREAM_ESCAPE_FUNCTION_INT 0x40000161 /* interrupt */
#define ESCAPE_STREAM_ESCAPE_FUNCTION_EMI 0x40000162 /* enable manual input */
#define ESCAPE_STREAM_ESCAPE_FUNCTION_RIS 0x40000163 /* reset to initial state */
#define ESCAPE_STREAM_ESCAPE_FUNCTION_CMD 0x40000164 /* coding method delimiter */
#define ESCAPE_STREAM_ESCAPE_FUNCTION_VISIBLEBELL 0x40000167 /* visible bell of screen */
#define ESCAPE_STREAM_ESCAPE_FUNCTION_TITLE 0x4000016b
#define ESCAPE_STREAM_ESCAPE_FUNCTION_MEMORYLOCK 0x4000016c /* lock lines above the cursor */
#define ESCAPE_STREAM_ESCAPE_FUNCTION_MEMORYUNLOCK 0x4000016d /* unlock lines */
#define ESCAPE_STREAM_ESCAPE_FUNCTION_LS2 0x4000016e /* locking shift two */
#define ESCAPE_STREAM_ESCAPE_FUNCTION_LS3 0x4000016f /* locking shift three */
#define ESCAPE_STREAM_ESCAPE_FUNCTION_LS3R 0x4000017c /* locking shift three right */
#define ESCAPE_STREAM_ESCAPE_FUNCTION_LS2R 0x4000017d /* locking shift two right */
#define ESCAPE_STREAM_ESCAPE_FUNCTION_LS1R 0x4000017e /* locking shift one right */

/*
 * The number of the function of an event ESCAPE_STREAM_CSI or ESCAPE_STREAM_ESCAPE: one of those
 * above, or that of a sequence without a name. ESCAPE_STREAM_FUNCTION_NONE for a sequence with more
 * intermediates than a function has, and for any other event. A control sequence whose entries are
 * not all kept may have had an intermediate more: has_more says so.
 */
static inline uint32_t escape_stream_control_number(const struct escape_stream_event *event)
{
    uint32_t number = 1;

    for (size_t i = 0; i < event->count; i++) {
        const struct escape_stream_entry *entry = &event->entries[i];
        if (!entry->is_byte || entry->byte == ';' || entry->byte == ':')
            continue;
        if (number >= 0x10000)
            return ESCAPE_STREAM_FUNCTION_NONE;
        number = number * 0x100 + entry->byte;
    }
    /* One of two functions with the same bytes has parameters. */
    if (number == 1 && ((event->byte == 'T' && event->count >= 2) ||
                        ((event->byte == 's' || event->byte == 'u') && event->count >= 1)))
        number = 2;
    return number * 0x100 + event->byte;
}

static inline uint32_t escape_stream_escape_number(const struct escape_stream_event *event)
{
    uint8_t first = event->kept > 0 ? event->intermediates[0] : 0;
    bool designates = first == '!' || first == '"' || first == '$' || first == '&' ||
                      (first >= '(' && first <= '/' && first != ',');
    uint32_t number = 0x100 + first;

    if (event->has_more)
        return ESCAPE_STREAM_FUNCTION_NONE;
    if (event->kept > 1 && (first == '$' || first == '%'))
        number = number * 0x100 + event->intermediates[1];
    else if (event->kept > 1 && !designates)
        return ESCAPE_STREAM_FUNCTION_NONE;
    else if (event->kept == 0)
        number = 0x100 + event->byte;
    else if (!designates)
        number = number * 0x100 + event->byte;
    return 0x40000000 + number;
}

static inline uint32_t escape_stream_function_number(const struct escape_stream_event *event)
{
    if (event->kind == ESCAPE_STREAM_CSI)
        return escape_stream_control_number(event);
    if (event->kind == ESCAPE_STREAM_ESCAPE)
        return escape_stream_escape_number(event);
    return ESCAPE_STREAM_FUNCTION_NONE;
}

/*
 * A default that is no number: a parameter that is left out stands for nothing, or for the last
 * line or the last column of the screen.
 */
enum { ESCAPE_STREAM_VALUE_NONE = -1, ESCAPE_STREAM_VALUE_LAST = -2 };

/* The same for the calls below: 1 for a count, a line, a column or a page. */
static inline int64_t escape_stream_default_kind(uint32_t function, size_t index)
{
    const int64_t NONE = ESCAPE_STREAM_VALUE_NONE, LAST = ESCAPE_STREAM_VALUE_LAST, FIRST = -3;

    switch (function) {
    case ESCAPE_STREAM_FUNCTION_ICH:
    case ESCAPE_STREAM_FUNCTION_SL:
    case ESCAPE_STREAM_FUNCTION_CUU:
    case ESCAPE_STREAM_FUNCTION_SR:
    case ESCAPE_STREAM_FUNCTION_CUD:
    case ESCAPE_STREAM_FUNCTION_CUF:
    case ESCAPE_STREAM_FUNCTION_CUB:
    case ESCAPE_STREAM_FUNCTION_CNL:
    case ESCAPE_STREAM_FUNCTION_CPL:
    case ESCAPE_STREAM_FUNCTION_CHA:
    case ESCAPE_STREAM_FUNCTION_CHT:
    case ESCAPE_STREAM_FUNCTION_IL:
    case ESCAPE_STREAM_FUNCTION_DL:
    case ESCAPE_STREAM_FUNCTION_DCH:
    case ESCAPE_STREAM_FUNCTION_PPA:
    case ESCAPE_STREAM_FUNCTION_PPR:
    case ESCAPE_STREAM_FUNCTION_PPB:
    case ESCAPE_STREAM_FUNCTION_SU:
    case ESCAPE_STREAM_FUNCTION_SD:
    case ESCAPE_STREAM_FUNCTION_KITTYUNSCROLL:
    case ESCAPE_STREAM_FUNCTION_NP:
    case ESCAPE_STREAM_FUNCTION_PP:
    case ESCAPE_STREAM_FUNCTION_ECH:
    case ESCAPE_STREAM_FUNCTION_CVT:
    case ESCAPE_STREAM_FUNCTION_CBT:
    case ESCAPE_STREAM_FUNCTION_HPA:
    case ESCAPE_STREAM_FUNCTION_HPR:
    case ESCAPE_STREAM_FUNCTION_REP:
    case ESCAPE_STREAM_FUNCTION_VPA:
    case ESCAPE_STREAM_FUNCTION_VPR:
    case ESCAPE_STREAM_FUNCTION_HPB:
    case ESCAPE_STREAM_FUNCTION_VPB:
    case ESCAPE_STREAM_FUNCTION_KITTYPOP:
    case ESCAPE_STREAM_FUNCTION_DECIC:
    case ESCAPE_STREAM_FUNCTION_DECDC:
        return index == 0 ? FIRST : NONE;
    case ESCAPE_STREAM_FUNCTION_GSM:
        return index < 2 ? 100 : NONE;
    case ESCAPE_STREAM_FUNCTION_FNT:
    case ESCAPE_STREAM_FUNCTION_SPD:
    case ESCAPE_STREAM_FUNCTION_SEF:
    case ESCAPE_STREAM_FUNCTION_DECSCS:
    case ESCAPE_STREAM_FUNCTION_DECRQTSR:
    case ESCAPE_STREAM_FUNCTION_DECELR:
    case ESCAPE_STREAM_FUNCTION_DECKBD:
        return index < 2 ? 0 : NONE;
    case ESCAPE_STREAM_FUNCTION_JFY:
    case ESCAPE_STREAM_FUNCTION_QUAD:
    case ESCAPE_STREAM_FUNCTION_XTPUSHCOLORS:
    case ESCAPE_STREAM_FUNCTION_XTPOPCOLORS:
    case ESCAPE_STREAM_FUNCTION_CTC:
    case ESCAPE_STREAM_FUNCTION_SAPV:
    case ESCAPE_STREAM_FUNCTION_SGR:
    case ESCAPE_STREAM_FUNCTION_DAQ:
    case ESCAPE_STREAM_FUNCTION_DECLL:
    case ESCAPE_STREAM_FUNCTION_DECELF:
    case ESCAPE_STREAM_FUNCTION_DECSMKR:
    case ESCAPE_STREAM_FUNCTION_DECSPP:
    case ESCAPE_STREAM_FUNCTION_DECTST:
    case ESCAPE_STREAM_FUNCTION_DECPKA:
    case ESCAPE_STREAM_FUNCTION_DECSLE:
    case ESCAPE_STREAM_FUNCTION_DECLFKC:
        return 0;
    case ESCAPE_STREAM_FUNCTION_CUP:
    case ESCAPE_STREAM_FUNCTION_CPR:
    case ESCAPE_STREAM_FUNCTION_HVP:
        return index < 2 ? FIRST : NONE;
    case ESCAPE_STREAM_FUNCTION_SSU:
    case ESCAPE_STREAM_FUNCTION_ED:
    case ESCAPE_STREAM_FUNCTION_PFS:
    case ESCAPE_STREAM_FUNCTION_DECSED:
    case ESCAPE_STREAM_FUNCTION_EL:
    case ESCAPE_STREAM_FUNCTION_SHS:
    case ESCAPE_STREAM_FUNCTION_DECSEL:
    case ESCAPE_STREAM_FUNCTION_SVS:
    case ESCAPE_STREAM_FUNCTION_EF:
    case ESCAPE_STREAM_FUNCTION_EA:
    case ESCAPE_STREAM_FUNCTION_SEE:
    case ESCAPE_STREAM_FUNCTION_SPQR:
    case ESCAPE_STREAM_FUNCTION_PEC:
    case ESCAPE_STREAM_FUNCTION_SRS:
    case ESCAPE_STREAM_FUNCTION_PTX:
    case ESCAPE_STREAM_FUNCTION_SACS:
    case ESCAPE_STREAM_FUNCTION_SDS:
    case ESCAPE_STREAM_FUNCTION_SIMD:
    case ESCAPE_STREAM_FUNCTION_GCC:
    case ESCAPE_STREAM_FUNCTION_DA1:
    case ESCAPE_STREAM_FUNCTION_DA3:
    case ESCAPE_STREAM_FUNCTION_DA2:
    case ESCAPE_STREAM_FUNCTION_SCO:
    case ESCAPE_STREAM_FUNCTION_SRCS:
    case ESCAPE_STREAM_FUNCTION_TBC:
    case ESCAPE_STREAM_FUNCTION_MC:
    case ESCAPE_STREAM_FUNCTION_DSR:
    case ESCAPE_STREAM_FUNCTION_DECSSL:
    case ESCAPE_STREAM_FUNCTION_DECSSCLS:
    case ESCAPE_STREAM_FUNCTION_DECSDPT:
    case ESCAPE_STREAM_FUNCTION_DECSPPCS:
    case ESCAPE_STREAM_FUNCTION_DECARR:
    case ESCAPE_STREAM_FUNCTION_DECSCUSR:
    case ESCAPE_STREAM_FUNCTION_DECSCA:
    case ESCAPE_STREAM_FUNCTION_DECSDDT:
    case ESCAPE_STREAM_FUNCTION_DECTID:
    case ESCAPE_STREAM_FUNCTION_DECCRTST:
    case ESCAPE_STREAM_FUNCTION_DECSKCV:
    case ESCAPE_STREAM_FUNCTION_DECSEST:
    case ESCAPE_STREAM_FUNCTION_DECSPRTT:
    case ESCAPE_STREAM_FUNCTION_XTSHIFTESCAPE:
    case ESCAPE_STREAM_FUNCTION_DECSWBV:
    case ESCAPE_STREAM_FUNCTION_DECSRFR:
    case ESCAPE_STREAM_FUNCTION_DECSMBV:
    case ESCAPE_STREAM_FUNCTION_DECSTRL:
    case ESCAPE_STREAM_FUNCTION_DECSCP:
    case ESCAPE_STREAM_FUNCTION_KITTYPUSH:
    case ESCAPE_STREAM_FUNCTION_DECSLCK:
    case ESCAPE_STREAM_FUNCTION_DECRQPSR:
    case ESCAPE_STREAM_FUNCTION_DECREQTPARM:
    case ESCAPE_STREAM_FUNCTION_DECSACE:
    case ESCAPE_STREAM_FUNCTION_DECUS:
    case ESCAPE_STREAM_FUNCTION_DECDLDA:
    case ESCAPE_STREAM_FUNCTION_DECSTGLT:
    case ESCAPE_STREAM_FUNCTION_DECSZS:
    case ESCAPE_STREAM_FUNCTION_DECTTC:
    case ESCAPE_STREAM_FUNCTION_DECSCPP:
    case ESCAPE_STREAM_FUNCTION_DECRQLP:
    case ESCAPE_STREAM_FUNCTION_DECSASD:
    case ESCAPE_STREAM_FUNCTION_DECTME:
    case ESCAPE_STREAM_FUNCTION_DECSSDT:
        return index == 0 ? 0 : NONE;
    case ESCAPE_STREAM_FUNCTION_WIN32KEY:
        return index < 5 ? 0 : index == 5 ? 1 : NONE;
    case ESCAPE_STREAM_FUNCTION_TCC:
        return index == 1 ? 32 : NONE;
    case ESCAPE_STREAM_FUNCTION_XTDISMODKEYS:
        return index == 0 ? 2 : NONE;
    case ESCAPE_STREAM_FUNCTION_DECSCL:
        return index == 1 ? 0 : NONE;
    case ESCAPE_STREAM_FUNCTION_XTSMPOINTER:
        return index == 0 ? 1 : NONE;
    case ESCAPE_STREAM_FUNCTION_DECSTBM:
    case ESCAPE_STREAM_FUNCTION_DECSLRM:
        return index == 0 ? FIRST : index == 1 ? LAST : NONE;
    case ESCAPE_STREAM_FUNCTION_DECCARA:
    case ESCAPE_STREAM_FUNCTION_DECRARA:
        return index < 2 ? FIRST : index < 4 ? LAST : 0;
    case ESCAPE_STREAM_FUNCTION_DECSFC:
        return index < 3 ? 0 : NONE;
    case ESCAPE_STREAM_FUNCTION_KITTYKEY:
    case ESCAPE_STREAM_FUNCTION_KITTYSET:
    case ESCAPE_STREAM_FUNCTION_DECFNK:
        return index == 1 ? 1 : NONE;
    case ESCAPE_STREAM_FUNCTION_DECCRA:
        return index < 2 ? FIRST : index < 4 ? LAST : index < 8 ? FIRST : NONE;
    case ESCAPE_STREAM_FUNCTION_DECFRA:
        return index == 0 ? NONE : index < 3 ? FIRST : index < 5 ? LAST : NONE;
    case ESCAPE_STREAM_FUNCTION_DECRQCRA:
        return index < 2 ? NONE : index < 4 ? FIRST : index < 6 ? LAST : NONE;
    case ESCAPE_STREAM_FUNCTION_DECERA:
    case ESCAPE_STREAM_FUNCTION_DECSERA:
        return index < 2 ? FIRST : index < 4 ? LAST : NONE;
    }
    return NONE;
}

/*
 * The default of the parameter at `index`, counted from 0, of a function, by the column Parameters
 * of docs/FUNCTIONS.md: a number, or one of the two above.
 */
static inline int64_t escape_stream_default(uint32_t function, size_t index)
{
    int64_t kind = escape_stream_default_kind(function, index);

    return kind < ESCAPE_STREAM_VALUE_LAST ? 1 : kind;
}

/*
 * The parameter at `index` of a control sequence with this function: the number that is given, held
 * at INT64_MAX, or escape_stream_default where it is left out. A count, a line, a column and a page
 * are counted from 1: terminals take a 0 for one that is left out, and so does this call.
 * escape_stream_parameter gives a parameter as it came, and its parts between colons.
 */
static inline int64_t escape_stream_value(
    const struct escape_stream_event *event, uint32_t function, size_t index)
{
    int64_t number = escape_stream_parameter(event, index, 0, ESCAPE_STREAM_VALUE_NONE);
    bool is_counted =
        escape_stream_default_kind(function, index) <= ESCAPE_STREAM_VALUE_LAST;

    return number > 0 || (number == 0 && !is_counted) ? number
                                                      : escape_stream_default(function, index);
}

#ifdef __cplusplus
}
#endif

#endif
