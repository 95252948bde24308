#include "constructed.h"

#include "circuits.h"

#include <stdio.h>
#include <stdlib.h>
#include <string.h>

/* ---- named cases

   A text has hexadecimal bytes; '>' stands before the field that must be named, or where the surplus begins; *K{ .. } stands for K
   times what is between the braces. */

typedef struct {
    const char *name;
    unsigned number, first, second;
    const char *text;
} named_case;

#define NONE "00 0000 "
#define I1 "01 0001 "
#define AI1 "07 0001 "
#define ZERO "00000000 "
#define ONE "00000001 "
#define MINUS_ONE "FFFFFFFF "
#define LEAST "80000000 "

#define H(n) "01 0003 01 " n " "
#define E "7F 0000 "
#define ROW(destination, connector) "30 0005 " destination " " connector " "
#define LABEL2 "20 0002 4142 "
#define AND(connector) "10 000E 01 00 " connector " " NONE NONE NONE
#define AND4(a, b, c, d) "10 000E 01 00 " a " " b " " c " " d " "
#define NOT(connector) "10 0005 08 00 " connector " "
#define ON_DELAY(base, t) "10 000D 09 00 " I1 base " " t " "
#define OFF_DELAY(base, t) "10 0010 0A 00 " I1 NONE base " " t " "
#define RELAY(options) "10 0008 0B " options " " I1 NONE
#define REGISTER(connector, index, bit) "10 0013 0C 00 " connector " " I1 NONE index " " bit " "
#define TRIGGER(connector) "10 0015 0D 00 " connector " " ZERO ZERO ZERO ZERO
#define TRIGGER_OF(a, b, on, off) "10 0015 0D 00 " AI1 a " " b " " on " " off " "
#define COMPARATOR(x, y) "10 0018 0E 00 " x " " y " " ZERO ZERO ZERO ZERO
#define MULTIPLEXER(connector) "10 001B 0F 00 " connector " " NONE NONE ZERO ZERO ZERO ZERO
#define DIFFERENTIAL(on, delta) "10 0015 10 00 " AI1 ZERO ZERO on " " delta " "
#define DIFFERENTIAL_OF(connector) "10 0015 10 00 " connector " " ZERO ZERO ZERO ZERO
#define COUNTER(on, off) "10 0013 11 00 " NONE I1 NONE on " " off " "
#define STAIRWAY(base, t, warning, dark) "10 0015 12 00 " I1 base " " t " " warning " " dark " "
#define AMPLIFIER(connector) "10 000D 13 00 " connector " " ZERO ZERO
#define AMPLIFIER_OF(a, b) "10 000D 13 00 " AI1 a " " b " "
#define UNKNOWN_KIND "10 0001 14 "

static const named_case cases[] = {
    /* document 01's cases */
    {"empty circuit", 1, 0, 0, ">"},
    {"document 01, 34 bytes", 0, 1, 1, "01 0003 01 0001 10 000E 01 00 01 0001 01 0002 00 0000 00 0000 30 0005 01 01 06 0001 7F 0000"},
    {"document 01, own block", 7, 0, 0, "01 0003 01 0001 > 10 000E 01 00 06 0001 01 0002 00 0000 00 0000 30 0005 01 01 06 0001 7F 0000"},
    {"document 01, above n", 6, 0, 0, "01 0003 01 0001 > 10 000E 01 00 06 0002 01 0002 00 0000 00 0000 30 0005 01 01 06 0001 7F 0000"},
    {"hours 5999", 0, 1, 0, H("0001") ON_DELAY("00000002", "0000176F") E},
    {"hours 6000", 8, 0, 0, H("0001") "> " ON_DELAY("00000002", "00001770") E},
    {"n 400", 0, 400, 0, H("0190") "*400{" AND(I1) "} " E},
    {"n 401", 4, 0, 0, "> " H("0191") "*401{" AND(I1) "} " E},

    /* 1: cut short */
    {"one byte", 1, 0, 0, "> 01"},
    {"two bytes", 1, 0, 0, "> 01 00"},
    {"a field's head without its content", 1, 0, 0, "> 01 0003"},
    {"header cut", 1, 0, 0, "> 01 0003 01 00"},
    {"unknown tag alone", 1, 0, 0, "> FF"},
    {"unknown tag cut", 1, 0, 0, "> FF 0001"},
    {"header of a wrong length cut", 1, 0, 0, "> 01 0004 02 FFFF"},
    {"header of a bad version cut", 1, 0, 0, "> 01 0003 02 00"},
    {"second header cut", 1, 0, 0, H("0000") "> 01 0003 01"},
    {"block first, cut", 1, 0, 0, "> 10 000E 01"},
    {"nothing behind the header", 1, 0, 0, H("0000") ">"},
    {"nothing behind the header, blocks missing", 1, 0, 0, H("0002") ">"},
    {"nothing behind a block", 1, 0, 0, H("0001") AND(I1) ">"},
    {"nothing behind a block, blocks missing", 1, 0, 0, H("0002") AND(I1) ">"},
    {"nothing behind a label", 1, 0, 0, H("0001") AND(I1) LABEL2 ">"},
    {"nothing behind a row", 1, 0, 0, H("0000") ROW("01 01", I1) ">"},
    {"one byte behind a block", 1, 0, 0, H("0001") AND(I1) "> 7F"},
    {"end field of two bytes", 1, 0, 0, H("0000") "> 7F 00"},
    {"end field with content cut", 1, 0, 0, H("0000") "> 7F 0001"},
    {"block cut", 1, 0, 0, H("0001") "> 10 000E 01 00 01 0001"},
    {"block cut behind its kind", 1, 0, 0, H("0001") "> 10 000E 01"},
    {"block of an unknown kind cut", 1, 0, 0, H("0001") "> 10 0002 14"},
    {"counter cut", 1, 0, 0, H("0001") "> 10 0013 11 00 " NONE I1 NONE ZERO "000000"},
    {"stairway switch cut", 1, 0, 0, H("0001") "> 10 0015 12 00 " I1 ZERO ZERO ZERO "000000"},
    {"amplifier cut", 1, 0, 0, H("0001") "> 10 000D 13 00 " AI1 ZERO "000000"},
    {"block of a wrong length cut", 1, 0, 0, H("0001") "> 10 000F 01 00 " I1 NONE NONE NONE},
    {"block too many cut", 1, 0, 0, H("0000") "> 10 000E 01"},
    {"block behind a row cut", 1, 0, 0, H("0000") ROW("01 01", I1) "> 10 000E 01"},
    {"label cut", 1, 0, 0, H("0001") AND(I1) "> 20 0002 41"},
    {"label of 17 bytes cut", 1, 0, 0, H("0001") AND(I1) "> 20 0011 *16{41}"},
    {"label behind the header cut", 1, 0, 0, H("0001") "> 20 0001"},
    {"row cut", 1, 0, 0, H("0000") "> 30 0005 01 01 01 00"},
    {"first row with blocks missing cut", 1, 0, 0, H("0001") "> 30 0005 01"},
    {"row of a wrong length cut", 1, 0, 0, H("0000") "> 30 0006 01 01 " I1},
    {"length 65535 cut by one byte", 1, 0, 0, H("0001") "> 10 FFFF *65534{14}"},
    {"length 65535 cut at once", 1, 0, 0, H("0001") "> 10 FFFF"},

    /* 2: tags and lengths */
    {"end field first", 2, 0, 0, "> " E},
    {"block first", 2, 0, 0, "> " AND(I1) H("0001") E},
    {"label first", 2, 0, 0, "> " LABEL2 H("0000") E},
    {"row first", 2, 0, 0, "> " ROW("01 01", I1) H("0000") E},
    {"tag 0 first", 2, 0, 0, "> 00 0000"},
    {"three bytes of zero behind the header", 2, 0, 0, H("0000") "> 00 0000"},
    {"tag 0x02 first", 2, 0, 0, "> 02 0003 01 0000 " E},
    {"tag 0x81 first", 2, 0, 0, "> 81 0003 01 0000 " E},
    {"tag 0x11", 2, 0, 0, H("0001") "> 11 000E 01 00 " I1 NONE NONE NONE E},
    {"tag 0x90", 2, 0, 0, H("0001") "> 90 000E 01 00 " I1 NONE NONE NONE E},
    {"tag 0x21", 2, 0, 0, H("0001") AND(I1) "> 21 0000 " E},
    {"tag 0x31", 2, 0, 0, H("0000") "> 31 0005 01 01 " I1 E},
    {"tag 0x7E", 2, 0, 0, H("0000") "> 7E 0000"},
    {"tag 0xFF behind a row", 2, 0, 0, H("0000") ROW("01 01", I1) "> FF 0000 " E},
    {"second header", 2, 0, 0, H("0000") "> " H("0000") E},
    {"second header of a bad version", 2, 0, 0, H("0000") "> 01 0003 02 0191 " E},
    {"header behind a block", 2, 0, 0, H("0002") AND(I1) "> " H("0002") AND(I1) E},
    {"header behind a row", 2, 0, 0, H("0000") ROW("01 01", I1) "> " H("0000") E},
    {"header of no bytes", 2, 0, 0, "> 01 0000 " E},
    {"header of two bytes", 2, 0, 0, "> 01 0002 01 00 " E},
    {"header of four bytes", 2, 0, 0, "> 01 0004 01 0000 00 " E},
    {"header of four bytes, all else bad too", 2, 0, 0, "> 01 0004 02 FFFF 00 " E},
    {"header of 259 bytes", 2, 0, 0, "> 01 0103 01 0000 *256{00} " E},
    {"block of no bytes", 2, 0, 0, H("0001") "> 10 0000 " E},
    {"block of no bytes, one too many", 2, 0, 0, H("0000") "> 10 0000 " E},
    {"block of one byte, known kind", 2, 0, 0, H("0001") "> 10 0001 01 " E},
    {"known kind, a byte more", 2, 0, 0, H("0001") "> 10 000F 01 00 " I1 NONE NONE NONE "00 " E},
    {"known kind, a byte less", 2, 0, 0, H("0001") "> 10 000D 01 00 " I1 NONE NONE "00 00 " E},
    {"known kind, 256 bytes more", 2, 0, 0, H("0001") "> 10 010E 01 00 " I1 NONE NONE NONE "*256{00} " E},
    {"wrong length and option", 2, 0, 0, H("0001") "> 10 000F 01 01 " I1 NONE NONE NONE "00 " E},
    {"wrong length, one too many", 2, 0, 0, H("0000") "> 10 000F 01 00 " I1 NONE NONE NONE "00 " E},
    {"AND with two inputs", 2, 0, 0, H("0001") "> 10 0008 01 00 " I1 I1 E},
    {"XOR with four inputs", 2, 0, 0, H("0001") "> 10 000E 07 00 " I1 I1 I1 I1 E},
    {"parameters of two bytes", 2, 0, 0, H("0001") "> 10 0009 09 00 " I1 "0000 0000 " E},
    {"counter of one byte", 2, 0, 0, H("0001") "> 10 0001 11 " E},
    {"counter with two inputs", 2, 0, 0, H("0001") "> 10 0010 11 00 " I1 I1 ZERO ZERO E},
    {"counter with the inputs of an AND", 2, 0, 0, H("0001") "> 10 000E 11 00 " I1 NONE NONE NONE E},
    {"stairway switch of one byte", 2, 0, 0, H("0001") "> 10 0001 12 " E},
    {"stairway switch with one time", 2, 0, 0, H("0001") "> 10 000D 12 00 " I1 ZERO ZERO E},
    {"stairway switch with two times", 2, 0, 0, H("0001") "> 10 0011 12 00 " I1 ZERO ZERO ZERO E},
    {"stairway switch with an R", 2, 0, 0, H("0001") "> 10 0018 12 00 " I1 NONE ZERO ZERO ZERO ZERO E},
    {"amplifier of one byte", 2, 0, 0, H("0001") "> 10 0001 13 " E},
    {"amplifier without B", 2, 0, 0, H("0001") "> 10 0009 13 00 " AI1 ZERO E},
    {"amplifier with On and Off", 2, 0, 0, H("0001") "> 10 0015 13 00 " AI1 ZERO ZERO ZERO ZERO E},
    {"amplifier with two inputs", 2, 0, 0, H("0001") "> 10 0010 13 00 " AI1 AI1 ZERO ZERO E},
    {"amplifier of 12 bytes", 2, 0, 0, H("0001") "> 10 000C 13 00 " AI1 ZERO "000000 " E},
    {"amplifier of 14 bytes", 2, 0, 0, H("0001") "> 10 000E 13 00 " AI1 ZERO ZERO "00 " E},
    {"block behind a row", 2, 0, 0, H("0000") ROW("01 01", I1) "> " AND(I1) E},
    {"block behind a row, all blocks there", 2, 0, 0, H("0001") AND(I1) ROW("01 01", I1) "> " AND(I1) E},
    {"block of an unknown kind behind a row", 2, 0, 0, H("0000") ROW("01 01", I1) "> " UNKNOWN_KIND E},
    {"block of an unknown kind before the header", 2, 0, 0, "> " UNKNOWN_KIND H("0001") E},
    {"label behind the header", 2, 0, 0, H("0000") "> " LABEL2 E},
    {"label behind the header, blocks to come", 2, 0, 0, H("0001") "> " LABEL2 AND(I1) E},
    {"label behind a label", 2, 0, 0, H("0001") AND(I1) LABEL2 "> " LABEL2 E},
    {"empty label behind an empty label", 2, 0, 0, H("0001") AND(I1) "20 0000 > 20 0000 " E},
    {"label behind a row", 2, 0, 0, H("0001") AND(I1) ROW("01 01", I1) "> " LABEL2 E},
    {"label of 17 bytes", 2, 0, 0, H("0001") AND(I1) "> 20 0011 *17{41} " E},
    {"label of 256 bytes", 2, 0, 0, H("0001") AND(I1) "> 20 0100 *256{41} " E},
    {"label of 65535 bytes", 2, 0, 0, H("0001") AND(I1) "> 20 FFFF *65535{41} " E},
    {"row of no bytes", 2, 0, 0, H("0000") "> 30 0000 " E},
    {"row of four bytes", 2, 0, 0, H("0000") "> 30 0004 01 01 01 00 " E},
    {"row of six bytes", 2, 0, 0, H("0000") "> 30 0006 01 01 " I1 "00 " E},
    {"row of a wrong length, blocks missing", 2, 0, 0, H("0001") "> 30 0004 01 01 01 00 " E},
    {"end field with content", 2, 0, 0, H("0000") "> 7F 0001 00"},
    {"end field with content, bytes behind", 2, 0, 0, H("0000") "> 7F 0001 00 00"},
    {"end field with content, blocks missing", 2, 0, 0, H("0001") "> 7F 0001 00"},
    {"end field with 256 bytes", 2, 0, 0, H("0000") "> 7F 0100 *256{00}"},

    /* 3: version */
    {"version 0", 3, 0, 0, "> 01 0003 00 0000 " E},
    {"version 2", 3, 0, 0, "> 01 0003 02 0000 " E},
    {"version 0x81", 3, 0, 0, "> 01 0003 81 0000 " E},
    {"version 255", 3, 0, 0, "> 01 0003 FF 0000 " E},
    {"version 2, n 401", 3, 0, 0, "> 01 0003 02 0191 " E},

    /* 4: how many blocks */
    {"n 401, no blocks", 4, 0, 0, "> " H("0191") E},
    {"n 512", 4, 0, 0, "> " H("0200") E},
    {"n 65535", 4, 0, 0, "> " H("FFFF") E},
    {"n 401, unknown tag behind", 4, 0, 0, "> " H("0191") "00 0000"},
    {"n 400, no blocks, end field", 4, 0, 0, H("0190") "> " E},
    {"n 400, 399 blocks", 4, 0, 0, H("0190") "*399{" AND(I1) "} > " E},
    {"n 400, 401 blocks", 4, 0, 0, H("0190") "*400{" AND(I1) "} > " AND(I1) E},
    {"n 256, no blocks", 4, 0, 0, H("0100") "> " E},
    {"n 0, a block", 4, 0, 0, H("0000") "> " AND(I1) E},
    {"n 1, two blocks, the first with a label", 4, 0, 0, H("0001") AND(I1) LABEL2 "> " AND(I1) E},
    {"one too many, unknown kind", 4, 0, 0, H("0000") "> " UNKNOWN_KIND E},
    {"one too many, option", 4, 0, 0, H("0000") "> 10 0005 08 01 " I1 E},
    {"one too many, connector", 4, 0, 0, H("0000") "> " NOT("05 0000") E},
    {"one too many, names itself", 4, 0, 0, H("0001") AND(I1) "> " NOT("06 0002") E},
    {"one too many, parameter", 4, 0, 0, H("0000") "> " ON_DELAY("00000003", ZERO) E},
    {"one too many, times out of order", 4, 0, 0, H("0000") "> " STAIRWAY(ZERO, ZERO, ONE, ZERO) E},
    {"one too many, index used twice", 4, 0, 0, H("0001") REGISTER(I1, ONE, ONE) "> " REGISTER(I1, ONE, ONE) E},
    {"first row, blocks missing", 4, 0, 0, H("0001") "> " ROW("01 01", I1) E},
    {"first row, one block missing", 4, 0, 0, H("0002") AND(I1) "> " ROW("01 01", I1) AND(I1) E},
    {"first row, blocks missing, connector", 4, 0, 0, H("0001") "> " ROW("01 01", NONE) E},
    {"first row, blocks missing, names a missing block", 4, 0, 0, H("0001") "> " ROW("01 01", "06 0001") E},
    {"first row, blocks missing, destination", 4, 0, 0, H("0001") "> " ROW("05 00", I1) E},
    {"end field, blocks missing", 4, 0, 0, H("0002") AND(I1) LABEL2 "> " E},
    {"end field, blocks missing, bytes behind", 4, 0, 0, H("0001") "> " E "00"},

    /* 5: kinds and options */
    {"kind 0", 5, 0, 0, H("0001") "> 10 000E 00 00 " I1 NONE NONE NONE E},
    {"kind 20", 5, 0, 0, H("0001") "> 10 000E 14 00 " I1 NONE NONE NONE E},
    {"kind 20 with the content of an amplifier", 5, 0, 0, H("0001") "> 10 000D 14 00 " AI1 ZERO ZERO E},
    {"kind 0x81", 5, 0, 0, H("0001") "> 10 000E 81 00 " I1 NONE NONE NONE E},
    {"kind 255", 5, 0, 0, H("0001") "> 10 000E FF 00 " I1 NONE NONE NONE E},
    {"unknown kind, one byte", 5, 0, 0, H("0001") "> " UNKNOWN_KIND E},
    {"unknown kind, 65535 bytes", 5, 0, 0, H("0001") "> 10 FFFF *65535{14} " E},
    {"unknown kind, all else bad too", 5, 0, 0, H("0001") "> 10 0005 14 FF 05 FFFF " E},
    {"unknown kind with a label of 17 bytes", 5, 0, 0, H("0001") "> " UNKNOWN_KIND "20 0011 *17{41} " E},
    {"retentive AND", 5, 0, 0, H("0001") "> 10 000E 01 01 " I1 NONE NONE NONE E},
    {"retentive NOT", 5, 0, 0, H("0001") "> 10 0005 08 01 " I1 E},
    {"retentive trigger", 5, 0, 0, H("0001") "> 10 0015 0D 01 " AI1 ZERO ZERO ZERO ZERO E},
    {"option bit 1 on a relay", 5, 0, 0, H("0001") "> " RELAY("02") E},
    {"option bits 0 and 1 on a relay", 5, 0, 0, H("0001") "> " RELAY("03") E},
    {"option bit 7 on a relay", 5, 0, 0, H("0001") "> " RELAY("80") E},
    {"option bits 0 and 7 on a relay", 5, 0, 0, H("0001") "> " RELAY("81") E},
    {"option bit 1 on a counter", 5, 0, 0, H("0001") "> 10 0013 11 02 " NONE I1 NONE ZERO ZERO E},
    {"option bit 7 on a stairway switch", 5, 0, 0, H("0001") "> 10 0015 12 80 " I1 ZERO ZERO ZERO ZERO E},
    {"retentive amplifier", 5, 0, 0, H("0001") "> 10 000D 13 01 " AI1 ZERO ZERO E},
    {"option bit 1 on an amplifier", 5, 0, 0, H("0001") "> 10 000D 13 02 " AI1 ZERO ZERO E},
    {"option and gain", 5, 0, 0, H("0001") "> 10 000D 13 01 " AI1 "000003E9 " ZERO E},
    {"option and times out of order", 5, 0, 0, H("0001") "> 10 0015 12 02 " I1 ZERO ZERO ONE ZERO E},
    {"option and connector", 5, 0, 0, H("0001") "> 10 0005 08 01 05 0000 " E},
    {"option and own block", 5, 0, 0, H("0001") "> 10 0005 08 01 06 0001 " E},
    {"option and parameter", 5, 0, 0, H("0001") "> 10 000D 09 02 " I1 MINUS_ONE ZERO E},

    /* 6: connectors of blocks */
    {"class 5", 6, 0, 0, H("0001") "> " NOT("05 0001") E},
    {"class 10", 6, 0, 0, H("0001") "> " NOT("0A 0001") E},
    {"class 0x7F", 6, 0, 0, H("0001") "> " NOT("7F 0001") E},
    {"inverted unused", 6, 0, 0, H("0001") "> " NOT("80 0000") E},
    {"inverted class 5", 6, 0, 0, H("0001") "> " NOT("85 0001") E},
    {"class 0xFF", 6, 0, 0, H("0001") "> " NOT("FF 0001") E},
    {"analog input at a digital input", 6, 0, 0, H("0001") "> " NOT("07 0001") E},
    {"analog flag at a digital input", 6, 0, 0, H("0001") "> " NOT("08 0001") E},
    {"analog block at a digital input", 6, 0, 0, H("0002") MULTIPLEXER(I1) "> " NOT("09 0001") E},
    {"unused at an analog input", 6, 0, 0, H("0001") "> " TRIGGER(NONE) E},
    {"input at an analog input", 6, 0, 0, H("0001") "> " TRIGGER(I1) E},
    {"lo at an analog input", 6, 0, 0, H("0001") "> " TRIGGER("02 0000") E},
    {"flag at an analog input", 6, 0, 0, H("0001") "> " TRIGGER("04 0001") E},
    {"digital block at an analog input", 6, 0, 0, H("0002") AND(I1) "> " TRIGGER("06 0001") E},
    {"inverted analog input", 6, 0, 0, H("0001") "> " TRIGGER("87 0001") E},
    {"inverted analog flag", 6, 0, 0, H("0001") "> " TRIGGER("88 0001") E},
    {"inverted analog block", 6, 0, 0, H("0002") MULTIPLEXER(I1) "> " TRIGGER("89 0001") E},
    {"unused with a number", 6, 0, 0, H("0001") "> " NOT("00 0001") E},
    {"lo with a number", 6, 0, 0, H("0001") "> " NOT("02 0100") E},
    {"inverted hi with a number", 6, 0, 0, H("0001") "> " NOT("83 0001") E},
    {"I0", 6, 0, 0, H("0001") "> " NOT("01 0000") E},
    {"I25", 6, 0, 0, H("0001") "> " NOT("01 0019") E},
    {"I257", 6, 0, 0, H("0001") "> " NOT("01 0101") E},
    {"M0", 6, 0, 0, H("0001") "> " NOT("04 0000") E},
    {"M65", 6, 0, 0, H("0001") "> " NOT("84 0041") E},
    {"analog input 0", 6, 0, 0, H("0001") "> " TRIGGER("07 0000") E},
    {"analog input 9", 6, 0, 0, H("0001") "> " TRIGGER("07 0009") E},
    {"AM0", 6, 0, 0, H("0001") "> " TRIGGER("08 0000") E},
    {"AM65", 6, 0, 0, H("0001") "> " TRIGGER("08 0041") E},
    {"block 0", 6, 0, 0, H("0001") "> " NOT("06 0000") E},
    {"block above n", 6, 0, 0, H("0002") "> " NOT("06 0003") NOT(I1) E},
    {"analog block 0", 6, 0, 0, H("0001") "> " TRIGGER("09 0000") E},
    {"analog block above n", 6, 0, 0, H("0001") "> " TRIGGER("09 0002") E},
    {"block 257 of 2", 6, 0, 0, H("0002") AND(I1) "> " NOT("06 0101") E},
    {"digital class names a multiplexer", 6, 0, 0, H("0002") MULTIPLEXER(I1) "> " NOT("06 0001") E},
    {"analog class names an AND", 6, 0, 0, H("0002") AND(I1) "> " TRIGGER("09 0001") E},
    {"analog class names a trigger", 6, 0, 0, H("0002") TRIGGER(AI1) "> " TRIGGER("09 0001") E},
    {"analog class names a comparator", 6, 0, 0, H("0002") COMPARATOR(AI1, AI1) "> " TRIGGER("09 0001") E},
    {"analog class names a counter", 6, 0, 0, H("0002") COUNTER(ZERO, ZERO) "> " TRIGGER("09 0001") E},
    {"analog class names a stairway switch", 6, 0, 0, H("0002") STAIRWAY(ZERO, ZERO, ZERO, ZERO) "> " TRIGGER("09 0001") E},
    {"digital class names an amplifier", 6, 0, 0, H("0002") AMPLIFIER(AI1) "> " NOT("06 0001") E},
    {"digital class names an amplifier, inverted", 6, 0, 0, H("0002") AMPLIFIER(AI1) "> " AND4(I1, NONE, NONE, "86 0001") E},
    {"digital class names an amplifier, at a multiplexer", 6, 0, 0, H("0002") AMPLIFIER(AI1) "> " MULTIPLEXER("06 0001") E},
    {"amplifier of an amplifier by the digital class", 6, 0, 0, H("0002") AMPLIFIER(AI1) "> " AMPLIFIER("06 0001") E},
    {"amplifier of an AND", 6, 0, 0, H("0002") AND(I1) "> " AMPLIFIER("09 0001") E},
    {"amplifier of a differential trigger", 6, 0, 0, H("0002") DIFFERENTIAL(ZERO, ZERO) "> " AMPLIFIER("09 0001") E},
    {"amplifier of an input", 6, 0, 0, H("0001") "> " AMPLIFIER(I1) E},
    {"amplifier of nothing", 6, 0, 0, H("0001") "> " AMPLIFIER(NONE) E},
    {"amplifier of AM65", 6, 0, 0, H("0001") "> " AMPLIFIER("08 0041") E},
    {"amplifier of an amplifier, inverted", 6, 0, 0, H("0002") AMPLIFIER(AI1) "> " AMPLIFIER("89 0001") E},
    {"second connector", 6, 0, 0, H("0001") "> " AND4(I1, "05 0000", NONE, NONE) E},
    {"fourth connector", 6, 0, 0, H("0001") "> " AND4(I1, I1, I1, "01 0019") E},
    {"second analog connector", 6, 0, 0, H("0001") "> " COMPARATOR(AI1, NONE) E},
    {"later block, then class 5", 6, 0, 0, H("0002") "> " AND4("06 0002", "05 0000", NONE, NONE) NOT(I1) E},
    {"class 5, then later block", 6, 0, 0, H("0002") "> " AND4("05 0000", "06 0002", NONE, NONE) NOT(I1) E},
    {"own block at a digital input by the analog class", 6, 0, 0, H("0001") "> " NOT("09 0001") E},
    {"later block at an analog input by the digital class", 6, 0, 0, H("0002") "> " TRIGGER("06 0002") NOT(I1) E},
    {"own block inverted by the analog class", 6, 0, 0, H("0001") "> " TRIGGER("89 0001") E},
    {"connector and parameter", 6, 0, 0, H("0001") "> 10 000D 09 00 01 0019 " MINUS_ONE ZERO E},
    {"connector and times out of order", 6, 0, 0, H("0001") "> 10 0015 12 00 01 0019 " ZERO ZERO ONE ZERO E},
    {"connector and gain", 6, 0, 0, H("0001") "> 10 000D 13 00 " NONE "000003E9 " ZERO E},
    {"connector and index used twice", 6, 0, 0, H("0002") REGISTER(I1, ONE, ONE) "> " REGISTER("01 0000", ONE, ONE) E},

    /* 6: connectors of rows */
    {"row unused", 6, 0, 0, H("0000") "> " ROW("01 01", NONE) E},
    {"row inverted unused", 6, 0, 0, H("0000") "> " ROW("02 01", "80 0000") E},
    {"row unused, analog", 6, 0, 0, H("0000") "> " ROW("03 01", NONE) E},
    {"row class 5", 6, 0, 0, H("0000") "> " ROW("01 01", "05 0001") E},
    {"row Q from an analog input", 6, 0, 0, H("0000") "> " ROW("01 01", AI1) E},
    {"row M from an analog flag", 6, 0, 0, H("0000") "> " ROW("02 01", "08 0001") E},
    {"row AQ from an input", 6, 0, 0, H("0000") "> " ROW("03 01", I1) E},
    {"row AM from hi", 6, 0, 0, H("0000") "> " ROW("04 01", "03 0000") E},
    {"row I25", 6, 0, 0, H("0000") "> " ROW("01 01", "01 0019") E},
    {"row analog input 9", 6, 0, 0, H("0000") "> " ROW("03 01", "07 0009") E},
    {"row inverted analog input", 6, 0, 0, H("0000") "> " ROW("03 01", "87 0001") E},
    {"row block 0", 6, 0, 0, H("0001") AND(I1) "> " ROW("01 01", "06 0000") E},
    {"row block above n", 6, 0, 0, H("0001") AND(I1) "> " ROW("01 01", "06 0002") E},
    {"row Q from a multiplexer by the digital class", 6, 0, 0, H("0001") MULTIPLEXER(I1) "> " ROW("01 01", "06 0001") E},
    {"row AQ from an AND by the analog class", 6, 0, 0, H("0001") AND(I1) "> " ROW("03 01", "09 0001") E},
    {"row AQ from a counter by the analog class", 6, 0, 0, H("0001") COUNTER(ZERO, ZERO) "> " ROW("03 01", "09 0001") E},
    {"row Q from a multiplexer by the analog class", 6, 0, 0, H("0001") MULTIPLEXER(I1) "> " ROW("01 01", "09 0001") E},
    {"row Q from an amplifier by the digital class", 6, 0, 0, H("0001") AMPLIFIER(AI1) "> " ROW("01 01", "06 0001") E},
    {"row Q from an amplifier by the analog class", 6, 0, 0, H("0001") AMPLIFIER(AI1) "> " ROW("01 01", "09 0001") E},
    {"row M from an amplifier by the digital class", 6, 0, 0, H("0001") AMPLIFIER(AI1) "> " ROW("02 01", "06 0001") E},
    {"row M from an amplifier by the digital class, inverted", 6, 0, 0, H("0001") AMPLIFIER(AI1) "> " ROW("02 01", "86 0001") E},
    {"row M from an amplifier by the analog class", 6, 0, 0, H("0001") AMPLIFIER(AI1) "> " ROW("02 01", "09 0001") E},
    {"row AQ from an amplifier by the digital class", 6, 0, 0, H("0001") AMPLIFIER(AI1) "> " ROW("03 01", "06 0001") E},
    {"row AM from an amplifier by the digital class", 6, 0, 0, H("0001") AMPLIFIER(AI1) "> " ROW("04 01", "06 0001") E},
    {"row of unknown class, unused", 6, 0, 0, H("0000") "> " ROW("00 00", NONE) E},
    {"row of unknown class, inverted unused", 6, 0, 0, H("0000") "> " ROW("05 01", "80 0000") E},
    {"row of unknown class, class 5", 6, 0, 0, H("0000") "> " ROW("05 01", "05 0001") E},
    {"row of unknown class, inverted analog", 6, 0, 0, H("0000") "> " ROW("05 01", "87 0001") E},
    {"row of unknown class, I0", 6, 0, 0, H("0000") "> " ROW("FF 01", "01 0000") E},
    {"row of unknown class, lo with a number", 6, 0, 0, H("0000") "> " ROW("05 01", "02 0001") E},
    {"row of unknown class, block above n", 6, 0, 0, H("0001") AND(I1) "> " ROW("05 01", "06 0002") E},
    {"row of unknown class, analog block 0", 6, 0, 0, H("0001") AND(I1) "> " ROW("05 01", "09 0000") E},
    {"Q21 from unused", 6, 0, 0, H("0000") "> " ROW("01 15", NONE) E},
    {"Q0 from an analog input", 6, 0, 0, H("0000") "> " ROW("01 00", AI1) E},
    {"AQ9 from an AND by the analog class", 6, 0, 0, H("0001") AND(I1) "> " ROW("03 09", "09 0001") E},
    {"Q1 twice, the second from unused", 6, 0, 0, H("0000") ROW("01 01", I1) "> " ROW("01 01", NONE) E},

    /* 7: own and later blocks */
    {"own block", 7, 0, 0, H("0001") "> " NOT("06 0001") E},
    {"own block inverted", 7, 0, 0, H("0001") "> " NOT("86 0001") E},
    {"later block", 7, 0, 0, H("0002") "> " NOT("06 0002") NOT(I1) E},
    {"own block, the last of three", 7, 0, 0, H("0003") NOT(I1) NOT("06 0001") "> " NOT("06 0003") E},
    {"later block that is a multiplexer, by the digital class", 7, 0, 0, H("0002") "> " NOT("06 0002") MULTIPLEXER(I1) E},
    {"later block that is a multiplexer", 7, 0, 0, H("0002") "> " TRIGGER("09 0002") MULTIPLEXER(I1) E},
    {"later block that is digital, by the analog class", 7, 0, 0, H("0002") "> " TRIGGER("09 0002") AND(I1) E},
    {"trigger names itself by the analog class", 7, 0, 0, H("0001") "> " TRIGGER("09 0001") E},
    {"multiplexer names itself by the digital class", 7, 0, 0, H("0001") "> " MULTIPLEXER("06 0001") E},
    {"amplifier names itself", 7, 0, 0, H("0001") "> " AMPLIFIER("09 0001") E},
    {"later block that is an amplifier", 7, 0, 0, H("0002") "> " AMPLIFIER("09 0002") AMPLIFIER(AI1) E},
    {"later block that is an amplifier, by the digital class", 7, 0, 0, H("0002") "> " NOT("06 0002") AMPLIFIER(AI1) E},
    {"own block and gain", 7, 0, 0, H("0001") "> 10 000D 13 00 09 0001 000003E9 " ZERO E},
    {"own block at the fourth input", 7, 0, 0, H("0001") "> " AND4(I1, I1, I1, "06 0001") E},
    {"own block and parameter", 7, 0, 0, H("0001") "> 10 000D 09 00 06 0001 00000003 " ZERO E},
    {"own block and times out of order", 7, 0, 0, H("0001") "> 10 0015 12 00 06 0001 " ZERO ZERO ONE ZERO E},
    {"own block and index used twice", 7, 0, 0, H("0002") REGISTER(I1, ONE, ONE) "> " REGISTER("06 0002", ONE, ONE) E},

    /* 8: parameters */
    {"base -1", 8, 0, 0, H("0001") "> " ON_DELAY(MINUS_ONE, ZERO) E},
    {"base 3", 8, 0, 0, H("0001") "> " OFF_DELAY("00000003", ZERO) E},
    {"base 256", 8, 0, 0, H("0001") "> " ON_DELAY("00000100", ZERO) E},
    {"base 65536", 8, 0, 0, H("0001") "> " ON_DELAY("00010000", ZERO) E},
    {"base 3 and T bad", 8, 0, 0, H("0001") "> " ON_DELAY("00000003", MINUS_ONE) E},
    {"seconds -1", 8, 0, 0, H("0001") "> " ON_DELAY(ZERO, MINUS_ONE) E},
    {"seconds 10000", 8, 0, 0, H("0001") "> " OFF_DELAY(ZERO, "00002710") E},
    {"minutes 6000", 8, 0, 0, H("0001") "> " ON_DELAY(ONE, "00001770") E},
    {"minutes 9999", 8, 0, 0, H("0001") "> " OFF_DELAY(ONE, "0000270F") E},
    {"hours -1", 8, 0, 0, H("0001") "> " OFF_DELAY("00000002", MINUS_ONE) E},
    {"the least setting of four bytes", 8, 0, 0, H("0001") "> " ON_DELAY(ZERO, LEAST) E},
    {"index 0", 8, 0, 0, H("0001") "> " REGISTER(I1, ZERO, ONE) E},
    {"index 5", 8, 0, 0, H("0001") "> " REGISTER(I1, "00000005", ONE) E},
    {"index 257", 8, 0, 0, H("0001") "> " REGISTER(I1, "00000101", ONE) E},
    {"bit 0", 8, 0, 0, H("0001") "> " REGISTER(I1, ONE, ZERO) E},
    {"bit 9", 8, 0, 0, H("0001") "> " REGISTER(I1, ONE, "00000009") E},
    {"index 5 in two blocks", 8, 0, 0, H("0002") "> " REGISTER(I1, "00000005", ONE) REGISTER(I1, "00000005", ONE) E},
    {"index used twice, bit 9", 8, 0, 0, H("0002") REGISTER(I1, ONE, ONE) "> " REGISTER(I1, ONE, "00000009") E},
    {"gain 1001", 8, 0, 0, H("0001") "> " TRIGGER_OF("000003E9", ZERO, ZERO, ZERO) E},
    {"gain -1001", 8, 0, 0, H("0001") "> " TRIGGER_OF("FFFFFC17", ZERO, ZERO, ZERO) E},
    {"B 10001", 8, 0, 0, H("0001") "> " TRIGGER_OF(ZERO, "00002711", ZERO, ZERO) E},
    {"On 20001", 8, 0, 0, H("0001") "> " TRIGGER_OF(ZERO, ZERO, "00004E21", ZERO) E},
    {"Off -20001", 8, 0, 0, H("0001") "> " TRIGGER_OF(ZERO, ZERO, ZERO, "FFFFB1DF") E},
    {"delta 20001", 8, 0, 0, H("0001") "> " DIFFERENTIAL(ZERO, "00004E21") E},
    {"V1 32768", 8, 0, 0, H("0001") "> 10 001B 0F 00 " NONE NONE NONE "00008000 " ZERO ZERO ZERO E},
    {"V4 -32769", 8, 0, 0, H("0001") "> 10 001B 0F 00 " NONE NONE NONE ZERO ZERO ZERO "FFFF7FFF " E},
    {"On -1 of a counter", 8, 0, 0, H("0001") "> " COUNTER(MINUS_ONE, ZERO) E},
    {"On 1000000", 8, 0, 0, H("0001") "> " COUNTER("000F4240", ZERO) E},
    {"Off -1 of a counter", 8, 0, 0, H("0001") "> " COUNTER(ZERO, MINUS_ONE) E},
    {"Off 1000000", 8, 0, 0, H("0001") "> " COUNTER("000F423F", "000F4240") E},
    {"T! above T by one", 8, 0, 0, H("0001") "> " STAIRWAY(ZERO, "00000006", "00000007", "00000002") E},
    {"T!L above T! by one", 8, 0, 0, H("0001") "> " STAIRWAY(ZERO, "00000006", "00000003", "00000004") E},
    {"T!L above T by one, T! not", 8, 0, 0, H("0001") "> " STAIRWAY(ZERO, "00000006", "00000006", "00000007") E},
    {"T and T! exchanged", 8, 0, 0, H("0001") "> " STAIRWAY(ONE, "00000003", "00000006", "00000002") E},
    {"T! and T!L exchanged", 8, 0, 0, H("0001") "> " STAIRWAY("00000002", "00000006", "00000002", "00000003") E},
    {"T 0, T! 1", 8, 0, 0, H("0001") "> " STAIRWAY(ZERO, ZERO, ONE, ZERO) E},
    {"T! and T!L -1, in order", 8, 0, 0, H("0001") "> " STAIRWAY(ZERO, "00000005", MINUS_ONE, MINUS_ONE) E},
    {"T!L -1, in order", 8, 0, 0, H("0001") "> " STAIRWAY(ZERO, "00000005", "00000003", MINUS_ONE) E},
    {"T, T! and T!L -1, in order", 8, 0, 0, H("0001") "> " STAIRWAY(ONE, MINUS_ONE, MINUS_ONE, MINUS_ONE) E},
    {"seconds: T, T! and T!L 10000", 8, 0, 0, H("0001") "> " STAIRWAY(ZERO, "00002710", "00002710", "00002710") E},
    {"minutes: T 6000, T! and T!L 0", 8, 0, 0, H("0001") "> " STAIRWAY(ONE, "00001770", ZERO, ZERO) E},
    {"hours: T, T! and T!L 9999", 8, 0, 0, H("0001") "> " STAIRWAY("00000002", "0000270F", "0000270F", "0000270F") E},
    {"base 3 of a stairway switch", 8, 0, 0, H("0001") "> " STAIRWAY("00000003", ZERO, ZERO, ZERO) E},
    {"base -1 of a stairway switch", 8, 0, 0, H("0001") "> " STAIRWAY(MINUS_ONE, ZERO, ZERO, ZERO) E},
    {"gain 1001 of an amplifier", 8, 0, 0, H("0001") "> " AMPLIFIER_OF("000003E9", ZERO) E},
    {"gain -1001 of an amplifier", 8, 0, 0, H("0001") "> " AMPLIFIER_OF("FFFFFC17", ZERO) E},
    {"B 10001 of an amplifier", 8, 0, 0, H("0001") "> " AMPLIFIER_OF(ZERO, "00002711") E},
    {"B -10001 of an amplifier", 8, 0, 0, H("0001") "> " AMPLIFIER_OF(ZERO, "FFFFD8EF") E},
    {"the least gain of four bytes", 8, 0, 0, H("0001") "> " AMPLIFIER_OF(LEAST, ZERO) E},
    {"V2 of two bytes' sign", 8, 0, 0, H("0001") "> 10 001B 0F 00 " NONE NONE NONE ZERO "0000FFFF " ZERO ZERO E},

    /* 9: destinations */
    {"destination class 0", 9, 0, 0, H("0000") "> " ROW("00 01", I1) E},
    {"destination class 5", 9, 0, 0, H("0000") "> " ROW("05 01", I1) E},
    {"destination class 0x81", 9, 0, 0, H("0000") "> " ROW("81 01", I1) E},
    {"destination class 255", 9, 0, 0, H("0000") "> " ROW("FF FF", "84 0001") E},
    {"destination class 5 from an analog input", 9, 0, 0, H("0000") "> " ROW("05 01", AI1) E},
    {"destination class 5, digital class names a multiplexer", 9, 0, 0, H("0002") AND(I1) MULTIPLEXER(I1) "> " ROW("05 01", "06 0002") E},
    {"destination class 5, digital class names an amplifier", 9, 0, 0, H("0001") AMPLIFIER(AI1) "> " ROW("05 01", "06 0001") E},
    {"destination class 5, analog class names an AND", 9, 0, 0, H("0001") AND(I1) "> " ROW("05 01", "09 0001") E},
    {"Q0", 9, 0, 0, H("0000") "> " ROW("01 00", I1) E},
    {"Q21", 9, 0, 0, H("0000") "> " ROW("01 15", I1) E},
    {"M0", 9, 0, 0, H("0000") "> " ROW("02 00", I1) E},
    {"M65", 9, 0, 0, H("0000") "> " ROW("02 41", I1) E},
    {"AQ0", 9, 0, 0, H("0000") "> " ROW("03 00", AI1) E},
    {"AQ9", 9, 0, 0, H("0000") "> " ROW("03 09", AI1) E},
    {"AM0", 9, 0, 0, H("0000") "> " ROW("04 00", AI1) E},
    {"AM65", 9, 0, 0, H("0000") "> " ROW("04 41", AI1) E},
    {"Q1 twice", 9, 0, 0, H("0000") ROW("01 01", I1) "> " ROW("01 01", "02 0000") E},
    {"M1 twice, others between", 9, 0, 0, H("0000") ROW("02 01", I1) ROW("01 01", I1) ROW("04 01", AI1) "> " ROW("02 01", I1) E},
    {"AQ1 three times", 9, 0, 0, H("0000") ROW("03 01", AI1) "> " ROW("03 01", AI1) ROW("03 01", AI1) E},

    /* 10: indexes */
    {"index 1 twice", 10, 0, 0, H("0002") REGISTER(I1, ONE, ONE) "> " REGISTER(I1, ONE, "00000002") E},
    {"index 4 twice, others between", 10, 0, 0,
     H("0004") REGISTER(I1, "00000004", ONE) LABEL2 REGISTER(I1, ONE, ONE) AND(I1) "> " REGISTER("06 0001", "00000004", ONE) E},
    {"five registers", 10, 0, 0,
     H("0005") REGISTER(I1, ONE, ONE) REGISTER(I1, "00000002", ONE) REGISTER(I1, "00000003", ONE) REGISTER(I1, "00000004", ONE) "> "
     REGISTER(I1, "00000003", ONE) E},

    /* 11: surplus */
    {"a byte behind the end", 11, 0, 0, H("0000") E "> 00"},
    {"a second end field", 11, 0, 0, H("0000") E "> " E},
    {"a whole circuit behind the end", 11, 0, 0, H("0001") AND(I1) E "> " H("0001") AND(I1) E},
    {"a cut field behind the end", 11, 0, 0, H("0000") ROW("01 01", I1) E "> FF FFFF"},
    {"more than 65536 bytes", 11, 0, 0, H("0000") E "> *65600{00}"},

    /* fields in file order */
    {"8 in block 1, 2 in block 2", 8, 0, 0, H("0002") "> " ON_DELAY("00000003", ZERO) "10 0000 " E},
    {"9 in row 1, 6 in row 2", 9, 0, 0, H("0000") "> " ROW("05 01", I1) ROW("01 01", NONE) E},
    {"7 in block 1, the slice cut", 7, 0, 0, H("0002") "> " NOT("06 0001") "10 00"},
    {"6 in a row, no end field", 6, 0, 0, H("0000") "> " ROW("01 01", NONE)},
    {"10 in block 2, bytes behind the end", 10, 0, 0, H("0002") REGISTER(I1, ONE, ONE) "> " REGISTER(I1, ONE, ONE) E "00"},
    {"label of 17 bytes behind a block with a fault", 8, 0, 0, H("0001") "> " ON_DELAY("00000003", ZERO) "20 0011 *17{41} " E},

    /* accepted */
    {"nothing but header and end", 0, 0, 0, H("0000") E},
    {"empty label", 0, 1, 0, H("0001") AND(I1) "20 0000 " E},
    {"label of 16 bytes, any values", 0, 1, 0, H("0001") AND(I1) "20 0010 00 FF 7F 01 10 20 30 80 2C 22 0D 0A 00 00 7F 00 " E},
    {"label behind the last block, then a row", 0, 2, 1, H("0002") AND(I1) NOT("06 0001") LABEL2 ROW("01 14", "86 0002") E},
    {"inverted lo and hi", 0, 1, 2,
     H("0001") AND4("82 0000", "83 0000", "81 0018", "84 0040") ROW("01 01", "82 0000") ROW("02 08", "83 0000") E},
    {"retentive kinds 9 to 12, 17 and 18", 0, 6, 0,
     H("0006") "10 000D 09 01 " NONE ZERO "0000270F 10 0010 0A 01 " NONE NONE ONE "0000176F " RELAY("01") "10 0013 0C 01 " NONE NONE
     NONE "00000004 00000008 10 0013 11 01 " NONE NONE NONE ZERO "000F423F 10 0015 12 01 " NONE ONE "0000176F 0000176F 0000176F " E},
    {"ends of On and Off", 0, 3, 0, H("0003") COUNTER("000F423F", "000F423F") COUNTER(ZERO, "000F423F") COUNTER("000F423F", ZERO) E},
    {"all three times at the end of each base", 0, 3, 0,
     H("0003") STAIRWAY(ZERO, "0000270F", "0000270F", "0000270F") STAIRWAY(ONE, "0000176F", "0000176F", "0000176F")
     STAIRWAY("00000002", "0000176F", "0000176F", "0000176F") E},
    {"no time at all, T alone, T and T!, T 6 with 3 and 2", 0, 4, 0,
     H("0004") STAIRWAY(ZERO, ZERO, ZERO, ZERO) STAIRWAY(ZERO, ONE, ZERO, ZERO) STAIRWAY(ZERO, ONE, ONE, ZERO)
     STAIRWAY(ZERO, "00000006", "00000003", "00000002") E},
    {"a counter and a stairway switch named by a block and rows", 0, 3, 2,
     H("0003") COUNTER("00000005", "00000005") STAIRWAY(ZERO, ZERO, ZERO, ZERO) AND4("06 0001", "86 0002", NONE, NONE)
     ROW("01 01", "06 0002") ROW("02 01", "86 0001") E},
    {"Off of a differential trigger is 40000", 0, 1, 0, H("0001") DIFFERENTIAL("00004E20", "00004E20") E},
    {"ends of V", 0, 1, 0, H("0001") "10 001B 0F 00 " NONE NONE NONE "FFFF8000 00007FFF " ZERO MINUS_ONE E},
    {"a multiplexer named by blocks and a row", 0, 3, 2,
     H("0003") MULTIPLEXER(I1) TRIGGER("09 0001") COMPARATOR("09 0001", "08 0040") ROW("03 08", "09 0001") ROW("01 01", "06 0003") E},
    {"ends of A and B", 0, 4, 0,
     H("0004") AMPLIFIER_OF("000003E8", "00002710") AMPLIFIER_OF("FFFFFC18", "FFFFD8F0") AMPLIFIER_OF("000003E8", "FFFFD8F0")
     AMPLIFIER_OF("FFFFFC18", "00002710") E},
    {"amplifiers of all that is analog", 0, 5, 0,
     H("0005") AMPLIFIER("07 0008") AMPLIFIER("08 0040") MULTIPLEXER(I1) AMPLIFIER("09 0003") AMPLIFIER("09 0004") E},
    {"an amplifier named by blocks and rows", 0, 5, 3,
     H("0005") AMPLIFIER(AI1) TRIGGER("09 0001") COMPARATOR("09 0001", "09 0001") DIFFERENTIAL_OF("09 0001") AMPLIFIER("09 0001")
     ROW("03 01", "09 0001") ROW("04 01", "09 0005") ROW("01 01", "06 0003") E},
    {"an amplifier and an analog flag in a ring", 0, 1, 1, H("0001") AMPLIFIER("08 0001") ROW("04 01", "09 0001") E},
    {"rows name any block", 0, 2, 2, H("0002") AND(I1) AND(I1) ROW("01 02", "06 0002") ROW("01 01", "06 0001") E},
    {"M1 from M2 and M2 from M1", 0, 0, 2, H("0000") ROW("02 01", "04 0002") ROW("02 02", "04 0001") E},
    {"one number in each class of destination", 0, 0, 4, H("0000") ROW("01 01", I1) ROW("02 01", I1) ROW("03 01", AI1) ROW("04 01", AI1) E},
    {"four registers", 0, 4, 0,
     H("0004") REGISTER(I1, "00000004", ONE) REGISTER(I1, ONE, ONE) REGISTER(I1, "00000003", ONE) REGISTER(I1, "00000002", "00000008") E},
    {"block 400 names block 399, a row block 400", 0, 400, 1, H("0190") "*399{" NOT(I1) "} " NOT("06 018F") ROW("01 01", "06 0190") E},
    {"256 blocks, the last names block 255", 0, 256, 0, H("0100") "*255{" NOT(I1) "} " NOT("86 00FF") E},
};

/* ---- reading a text */

static uint8_t bytes[1 << 17];
static size_t length, marked;

static unsigned digit(char c) {
    const char *all = "0123456789ABCDEF", *at = c == 0 ? NULL : strchr(all, c);
    if (at == NULL) {
        fprintf(stderr, "a case's text has a stray '%c'\n", c);
        exit(2);
    }
    return (unsigned)(at - all);
}

static const char *read_text(const char *text, char closing) {
    while (*text != closing) {
        if (*text == ' ') {
            text++;
        } else if (*text == '>') {
            marked = length;
            text++;
        } else if (*text == '*') {
            char *body;
            const char *behind = NULL;
            for (unsigned long times = strtoul(text + 1, &body, 10); times > 0; times--)
                behind = read_text(body + 1, '}');
            text = behind;
        } else {
            bytes[length++] = (uint8_t)(digit(text[0]) << 4 | digit(text[1]));
            text += 2;
        }
    }
    return text + 1;
}

void each_named(known_visitor *visit) {
    for (size_t i = 0; i < sizeof cases / sizeof *cases; i++) {
        const named_case *c = &cases[i];
        length = marked = 0;
        read_text(c->text, 0);
        visit(c->name, bytes, length, (serifdove_answer){c->number, marked, c->first, c->second});
    }
}

/* ---- families: block 4 of four, behind an AND, a multiplexer and an amplifier, with one thing changed */

static known_visitor *visited;
static circuit made;
static size_t last_block;

static void make_four(unsigned kind) {
    begin_circuit(&made, 4);
    add_plain_block(&made, 1);
    add_plain_block(&made, 15);
    add_plain_block(&made, 19);
    add_plain_block(&made, kind);
    last_block = made.place[made.fields - 1];
    end_circuit(&made);
}

/* Says what is expected of the made circuit: it is accepted, or refused at `place`. */
static void expect(const char *name, unsigned number, size_t place) {
    const serifdove_answer accepted = {0, 0, made.n, made.rows}, refused = {number, place, 0, 0};
    visited(name, made.bytes, made.length, number == 0 ? accepted : refused);
}

/* The content's last byte doubled, or dropped. */
static void lengths(unsigned kind) {
    uint8_t *block;
    size_t size;
    for (int change = -1; change <= 1; change += 2) {
        make_four(kind);
        block = made.bytes + last_block;
        size = made.length - last_block - 3;
        memmove(block + size + (size_t)change, block + size, 3);
        put_two(block + 1, (unsigned)(size - 3) + (unsigned)change);
        made.length += (size_t)change;
        expect("content a byte longer or shorter", 2, last_block);
    }
}

static void options(unsigned kind) {
    make_four(kind);
    for (unsigned option = 0; option < 256; option++) {
        made.bytes[last_block + 4] = (uint8_t)option;
        const bool retentive = (9 <= kind && kind <= 12) || kind == 17 || kind == 18;
        expect("options", option == 0 || (option == 1 && retentive) ? 0 : 5, last_block);
    }
}

typedef struct {
    unsigned class, least, greatest;
} class_range;

/* What an input or a row of each sort takes, where block 1 is an AND, block 2 a multiplexer, block 3 an amplifier, block 4 the own
   one. */
static const class_range digital_takes[] = {
    {0, 0, 0},     {1, 1, 24},   {2, 0, 0},    {3, 0, 0},     {4, 1, 64},   {6, 1, 1},
    {0x81, 1, 24}, {0x82, 0, 0}, {0x83, 0, 0}, {0x84, 1, 64}, {0x86, 1, 1},
};
static const class_range analog_takes[] = {{7, 1, 8}, {8, 1, 64}, {9, 2, 3}};

static bool takes(bool digital, unsigned class, unsigned number) {
    const class_range *all = digital ? digital_takes : analog_takes;
    const size_t many = digital ? sizeof digital_takes / sizeof *all : sizeof analog_takes / sizeof *all;
    for (size_t i = 0; i < many; i++)
        if (all[i].class == class && all[i].least <= number && number <= all[i].greatest)
            return true;
    return false;
}

static void connectors(unsigned kind) {
    static const unsigned numbers[] = {0, 1, 2, 3, 4, 5, 8, 9, 24, 25, 64, 65, 255, 256, 257, 258, 259, 260, 400, 401, 32769, 65535};
    make_four(kind);
    for (unsigned i = 0; i < inputs_of(kind); i++) {
        const bool digital = shapes[kind].inputs[i] == 'd';
        uint8_t *at = made.bytes + last_block + input_at(i), before[3];
        memcpy(before, at, 3);
        for (unsigned class = 0; class < 256; class++)
            for (size_t k = 0; k < sizeof numbers / sizeof *numbers; k++) {
                const bool own = numbers[k] == 4 && (digital ? class == 6 || class == 0x86 : class == 9);
                at[0] = (uint8_t)class;
                put_two(at + 1, numbers[k]);
                expect("connector of a block", takes(digital, class, numbers[k]) ? 0 : own ? 7 : 6, last_block);
            }
        memcpy(at, before, 3);
    }
}

static void parameter(unsigned kind, unsigned i, int64_t value, bool fits) {
    if (value < INT32_MIN || value > INT32_MAX)
        return;
    uint8_t *at = made.bytes + last_block + parameter_at(kind, i), before[4];
    memcpy(before, at, 4);
    put_four(at, (int32_t)value);
    expect("parameter", fits ? 0 : 8, last_block);
    memcpy(at, before, 4);
}

/* Each with the others at their least. T! and T!L, which may not be above T, have a family of their own. */
static void parameters(unsigned kind) {
    make_four(kind);
    for (unsigned i = 0; i < shapes[kind].parameters && (i < 2 || kind != 18); i++) {
        const int64_t least = shapes[kind].least[i], greatest = shapes[kind].greatest[i];
        static const int64_t off[] = {-1, -2, -256, -65536, -16777216};
        parameter(kind, i, least, true);
        parameter(kind, i, greatest, true);
        for (size_t k = 0; k < sizeof off / sizeof *off; k++) {
            parameter(kind, i, least + off[k], false);
            parameter(kind, i, greatest - off[k], false);
        }
        parameter(kind, i, INT32_MIN, false);
        parameter(kind, i, INT32_MAX, false);
    }
}

/* ---- families: times */

static bool is_time(int32_t base, int32_t t) { return 0 <= t && t <= (base == 0 ? 9999 : 5999); }

/* T alone: the other times are 0. */
static void settings(unsigned kind) {
    make_four(kind);
    for (int32_t base = 0; base <= 2; base++) {
        put_four(made.bytes + last_block + parameter_at(kind, 0), base);
        for (int32_t t = -1; t <= 10000; t++)
            parameter(kind, 1, t, is_time(base, t));
    }
}

static void try_times(int32_t base, int32_t t, int32_t warning, int32_t dark) {
    const int32_t values[] = {base, t, warning, dark};
    const bool fit = 0 <= base && base <= 2 && is_time(base, t) && is_time(base, warning) && is_time(base, dark);
    for (unsigned i = 0; i < 4; i++)
        put_four(made.bytes + last_block + parameter_at(18, i), values[i]);
    expect("three times", fit && dark <= warning && warning <= t ? 0 : 8, last_block);
}

/* T, T! and T!L, each of them any of a few; and all three the same. */
static void three_times(void) {
    static const int32_t some[] = {INT32_MIN, -1, 0, 1, 2, 256, 5998, 5999, 6000, 9998, 9999, 10000, 65536, INT32_MAX};
    enum { SOME = sizeof some / sizeof *some };
    make_four(18);
    for (int32_t base = -1; base <= 3; base++) {
        for (unsigned choice = 0; choice < SOME * SOME * SOME; choice++)
            try_times(base, some[choice % SOME], some[choice / SOME % SOME], some[choice / SOME / SOME]);
        for (int32_t t = -1; t <= 10000; t++)
            try_times(base, t, t, t);
    }
}

/* ---- families: kinds that there are not, with the length and content of each that there is */

static void unknown_kinds(void) {
    for (unsigned unknown = 0; unknown < 256; unknown = unknown == 0 ? 20 : unknown + 1)
        for (unsigned kind = 1; kind <= KINDS; kind++) {
            make_four(kind);
            made.bytes[last_block + 3] = (uint8_t)unknown;
            expect("unknown kind", 5, last_block);
        }
}

/* ---- families: headers and rows */

static void headers(void) {
    for (unsigned n = 0; n < 65536; n++) {
        begin_circuit(&made, n);
        end_circuit(&made);
        expect("n without blocks", n == 0 ? 0 : 4, n <= 400 ? 6 : 0);
    }
    for (unsigned version = 0; version < 256; version++) {
        begin_circuit(&made, 0);
        end_circuit(&made);
        made.bytes[3] = (uint8_t)version;
        expect("version", version == 1 ? 0 : 3, 0);
    }
}

static void tags(void) {
    for (unsigned tag = 0; tag < 256; tag++) {
        begin_circuit(&made, 0);
        end_circuit(&made);
        made.bytes[6] = (uint8_t)tag;
        expect("tag behind the header", tag == END ? 0 : 2, 6);
    }
}

static void destinations(void) {
    static const unsigned greatest[5] = {0, 20, 64, 8, 64};
    for (unsigned class = 0; class < 256; class++)
        for (unsigned number = 0; number < 256; number++) {
            begin_circuit(&made, 0);
            add_row(&made, class, number, class == 3 || class == 4 ? 7 : 1, 1);
            end_circuit(&made);
            expect("destination", class < 5 && 1 <= number && number <= greatest[class] ? 0 : 9, 6);
        }
}

/* Every destination, then one of them once more. */
static void used_twice(void) {
    unsigned class, number;
    for (unsigned again = 0; again <= DESTINATIONS; again++) {
        begin_circuit(&made, 0);
        for (unsigned k = 0; k < DESTINATIONS; k++) {
            destination_of(k, &class, &number);
            add_row(&made, class, number, class <= 2 ? 1 : 7, 1);
        }
        const size_t place = made.length;
        if (again < DESTINATIONS) {
            destination_of(again, &class, &number);
            add_row(&made, class, number, class <= 2 ? 1 : 7, 1);
        }
        end_circuit(&made);
        expect("destination used twice", again < DESTINATIONS ? 9 : 0, place);
    }
}

/* A row's connector: unused is not taken, block 4 (an OR) is. Of an unknown class: every class of the list, whatever its sort. */
static void sources(void) {
    for (unsigned destination = 1; destination <= 5; destination++)
        for (unsigned class = 0; class < 256; class++)
            for (unsigned number = 0; number < 300; number++) {
                const bool or_block = number == 4 && (class == 6 || class == 0x86);
                const bool digital = class != 0 && (takes(true, class, number) || or_block), analog = takes(false, class, number);
                const bool any_block = 1 <= number && number <= 4 && (class == 6 || class == 0x86 || class == 9);
                const bool good = destination <= 2 ? digital : destination <= 4 ? analog : digital || analog || any_block;
                if (number >= 70 && number < 254)
                    continue;
                make_four(5);
                made.fields--;
                made.length -= 3;
                const size_t place = made.length;
                add_row(&made, destination, 1, class, number);
                end_circuit(&made);
                expect("connector of a row", !good ? 6 : destination == 5 ? 9 : 0, place);
            }
}

/* Four registers with every choice of indexes, and a relay. The first register whose index is used already is refused. */
static void indexes(void) {
    for (unsigned choice = 0; choice < 256; choice++) {
        bool used[5] = {false, false, false, false, false};
        unsigned number = 0;
        size_t place = 0;
        begin_circuit(&made, 5);
        for (unsigned k = 0; k < 5; k++) {
            const unsigned index = 1 + (choice >> 2 * k & 3);
            add_plain_block(&made, k == 4 ? 11 : 12);
            if (k < 4)
                put_four(made.bytes + made.place[made.fields - 1] + parameter_at(12, 0), (int32_t)index);
            if (k < 4 && used[index] && number == 0) {
                number = 10;
                place = made.place[made.fields - 1];
            }
            used[index] = true;
            add_label(&made, (const uint8_t *)"register", k);
        }
        end_circuit(&made);
        expect("indexes", number, place);
    }
}

static void longest(void) {
    unsigned class, number;
    begin_circuit(&made, MOST_BLOCKS);
    for (unsigned k = 0; k < MOST_BLOCKS; k++) {
        add_plain_block(&made, 15);
        add_label(&made, (const uint8_t *)"a label as long.", 16);
    }
    for (unsigned k = 0; k < DESTINATIONS; k++) {
        destination_of(k, &class, &number);
        add_row(&made, class, number, class <= 2 ? 1 : 9, class <= 2 ? 1 : MOST_BLOCKS);
    }
    end_circuit(&made);
    expect("the longest circuit", 0, 0);
    made.bytes[made.length++] = 0;
    expect("the longest circuit and a byte", 11, LONGEST_CIRCUIT);
}

void each_constructed(known_visitor *visit) {
    visited = visit;
    each_named(visit);
    for (unsigned kind = 1; kind <= KINDS; kind++) {
        lengths(kind);
        options(kind);
        connectors(kind);
        parameters(kind);
    }
    settings(9);
    settings(10);
    settings(18);
    three_times();
    unknown_kinds();
    headers();
    tags();
    destinations();
    used_twice();
    sources();
    indexes();
    longest();
}
