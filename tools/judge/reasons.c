/* Each place at which the program and zydis differ, and how: nothing else is allowed to differ. A reason is a row of docs/DIFFERENCES.md. */
#include "judge.h"

/* Refused here, whatever zydis answers. */
struct rule refused[] = {
    {"VEX and EVEX", "0: C4 C5 62", ""},
    {"XOP", "0: 8F/1234567", ""},
    {"R and segment registers", "+R 0: 8C 8E", ""},
    {"register form of 0F 0D", "0F: 0Dr", ""},
    {"SERIALIZE", "NP 0F: 01=E8", ""},
    {"PadLock", "0F: A6 A7", ""},
    {"66 with F2 or F3", "F2 F3 +66 0F: 01=FE 01=FF; F3 +66 0F: AE/4", ""},
    {"HRESET", "F3 +any 0F3A: F0", ""},
    {NULL},
};

/* Read here as other bytes are read. */
struct rule read_otherwise[] = {
    {"a hint that has no name here", "F3 0: 90", "no-repeat"},
    {"MPX", "0F: 1A 1B", "no-repeat opcode:1F"},
    {"a hint that has no name here", "0F: 1C/0m; F3 0F: 1E/1r", "no-repeat opcode:1F"},
    {"66, F2 and F3 before GETSEC", "0F: 37", "no-66 no-repeat"},
    {"MCOMMIT", "F3 -66 0F: 01=FA", "no-66 no-repeat"},
    {"66, F2 and F3 before MONITORX and MWAITX", "0F: 01=FA 01=FB", "no-66 no-repeat"},
    {"66 and F3 before 0F C7", "F3 +66 0F: C7/67", "no-repeat"},
    {"XABORT and XBEGIN", "rm0 0: C6/123456r C7/123456r", "reg:7"},
    {"HRESET", "F3 0F3A: F0r", "modrm:C0"},
    {NULL},
};

/* What is shown in another way. Later lines see what earlier ones did. */
struct rule changed[] = {
    {"a base that SIB doesn't have", "+67 0: 00-FF 0F: 00-FF 0F38: 00-FF 0F3A: 00-FF", "no-base"},

    /* Names. */
    {"another name", "0: 70-7F 0F: 80-8F", "name:JBE=JNA name:JNBE=JA name:JNL=JGE name:JNLE=JG"},
    {"another name", "0F: 40-4F", "name:CMOVBE=CMOVNA name:CMOVNBE=CMOVA name:CMOVNL=CMOVGE name:CMOVNLE=CMOVG"},
    {"another name", "0F: 90-9F", "name:SETNB=SETAE name:SETNBE=SETA name:SETNL=SETGE name:SETNLE=SETG"},
    {"another name", "0: E0 E1", "name:LOOPNE=LOOPNZ name:LOOPE=LOOPZ"},
    {"another name", "0: C0/6 C1/6 D0/6 D1/6 D2/6 D3/6", "name:SAL"},
    {"another name", "0: 9B", "name:WAIT"},
    {"another name", "0: F1", "name:INT texts:u8:1"},
    {"another name", "0: CC", "name:INT texts:u8:3"},
    {"another name", "0: C2 C3", "name:RETURN"},
    {"another name", "0: CA CB", "name:RETF"},
    {"another name", "0: FF/35", "name:CALL=CALLF name:JMP=JMPF"},
    {"another name", "0F: 18/123m", "name:PREFETCHT0=PREFETCH0 name:PREFETCHT1=PREFETCH1 name:PREFETCHT2=PREFETCH2"},
    {"another name", "0F: 0F", "name:PFSQRT=PFRSQRT name:PFCPIT1=PFRCPIT1"},
    {"a hint that has no name here", "0F: 0D/0234567m", "name:NOP"},
    {"a name without a width", "NP 66 0F: 6E; NP 0F: 7E", "name:MOVD"},
    {"a name without a width", "0: 6C-6F 9C 9D A4-A7 AA-AF; NP 0F: AE/01456m 0F38: F6; F3 0F: AE/5r; 66 0F38: F5", "no-width"},

    /* Operands that zydis leaves out, or shows elsewhere. */
    {"operands of string instructions", "0: A4-A7", "hidden:DS"},
    {"operands of string instructions", "0: AA AB AE AF", "hidden:DA"},
    {"operands of string instructions", "0: AC AD", "hidden:AS"},
    {"operands of INS and OUTS", "0: 6C", "texts:[rdi],dl"},
    {"operands of INS and OUTS", "0: 6D", "texts:[rdi],dx"},
    {"operands of INS and OUTS", "0: 6E", "texts:dl,[rsi]"},
    {"operands of INS and OUTS", "0: 6F", "texts:dx,[rsi]"},
    {"operand of RDPRU", "0F: 01=FD", "texts:ecx"},
    {"no operand of AMD's operations", "0F: 01=FC; F2 F3 0F: 01=FE 01=FF", "none"},
    {"XCHG with the accumulator", "0: 90-97", "swap"},
    {"a register beside the operand of a NOP", "NP 66 F2 0F: 19-1F; F3 0F: 19-1D 1F", "first"},

    /* st(0), which zydis shows only where it is spelled in all forms. */
    {"st(0) that zydis leaves out", "0: D8m D8/23r D9/0m D9/01r DAm DB/05m DCm DC/23r DD/0m DD/14r DEm DE/2r DF/045m DF/1r", "st0-first"},
    {"st(0) that zydis leaves out", "0: D9/23m D9/3r DB/1237m DD/123m DD/23r DF/12367m DF/23r", "st0-last"},

    /* Types of immediates. */
    {"i8 where zydis has no sign", "rm0 0: C6/1234567r", "0:i8"},
    {"i8 where zydis has no sign", "0: C0 C1 D0 D1 0F: BA", "1:i8"},
    {"i8 where zydis has no sign", "0F: 70 A4 AC C2 C6; NP 0F: C4 0F3A: 0F; 66 0F3A: 08-0F 40-42 44 60-63", "2:i8"},
    {"u8 where zydis has a sign", "0: B0-B7", "1:u8"},
    {"i64 for 4 bytes under W", "+W 0: 05 0D 15 1D 25 2D 35 3D 81 A9 C7/0 F7/01", "1:i64"},
    {"i64 for 4 bytes under W", "+W 0: 69", "2:i64"},
    {"i32 for 2 bytes of XBEGIN", "rm0 0: C7/1234567r", "0:i32"},
    {"u16 for the last byte of EXTRQ and INSERTQ", "66 0F: 78", "2:u16"},
    {"u16 for the last byte of EXTRQ and INSERTQ", "F2 0F: 78", "3:u16"},

    /* Registers of another width or class. */
    {"PUSH and POP of a register", "0: 50-5F", "0:vq"},
    {"MOVSXD", "0: 63", "0:q 1:d"},
    {"8C", "0: 8Cr", "0:d"},
    {"POP 8F and PUSH FF of a register", "0: 8Fr FF/6r", "0:v"},
    {"FNSTSW", "0: DF=E0", "0:rm"},
    {"SLDT and STR", "0F: 00/01r", "0:w"},
    {"VMRUN and its neighbours under 67", "+67 0F: 01=D8 01=DA 01=DB 01=DF 01=FE", "0:q"},
    {"CVTSS2SI and its neighbours", "F2 F3 0F: 2C 2D", "0:v"},
    {"MOVMSKPS and its neighbours", "NP 66 0F: 50 C5 D7", "0:d"},
    {"UMONITOR and SENDUIPI", "F3 0F: AE/6r; F3 -66 0F: C7/6r", "0:q"},
    {"RDRAND and RDSEED", "+66 0F: C7/67r", "0:w"},
    {"ENQCMD and ENQCMDS under 67", "F2 F3 0F38: F8", "0:q"},
    {"UD1", "0F: B9", "0:v 1:v"},
    {"NOP 0F 1E under 66", "0F: 1E", "0:v 1:v"},
    {"0F BA", "0F: BA", "0:vq"},
    {"CRC32", "F2 0F38: F0", "0:v"},
    {"CRC32", "F2 0F38: F1", "1:v"},
    {"ADOX", "F3 0F38: F6", "0:v 1:v"},
    {"ADOX", "F3 0F38: F6m", "size:v"},
    {"PEXTRB and its neighbours", "66 0F3A: 14 15 16 17", "0:v"},
    {"PINSRB and its neighbours", "66 0F3A: 20 22", "1:x"},

    /* Sizes. */
    {"a register form keeps a size", "0: 00-03r 08-0Br 10-13r 18-1Br 20-23r 28-2Br 30-33r 38-3Br 63r 69r 6Br 80-8Fr C0r C1r C6r C7r D0-D3r "
     "F6r F7r FEr FF/014r 0F: 02r 03r 0Fr 10-1Fr 28-2Ar 2C-2Fr 40-76r 78-7Fr 90-9Fr A3-A5r AB-ADr AFr B0r B1r B3r B8-BDr C0-C6r D0-F6r F8-FFr "
     "0F38: 00-FFr 0F3A: 00-FFr", "size:form"},
    {"a register form without a size", "0F: BAr; NP 0F: 70r 0F3A: 0Fr; F3 0F: 1E=FA 1E=FB 0F3A: F0r; 66 F2 0F: 78r; F2 0F38: F0r", "size:0"},
    {"0F BA", "0F: BAm", "size:vq"},
    {"PEXTRB and its neighbours", "66 0F3A: 14", "size:1"},
    {"PEXTRB and its neighbours", "66 0F3A: 15", "size:2"},
    {"PEXTRB and its neighbours", "66 0F3A: 16", "size:dq"},
    {"PEXTRB and its neighbours", "66 0F3A: 17", "size:4"},
    {"XABORT and XBEGIN", "rm0 0: C6/1234567r", "size:1"},
    {"MONITOR, SMSW and LMSW", "0F: 01=C8", "size:1"},
    {"MONITOR, SMSW and LMSW", "0F: 01/46r", "size:2"},
    {"PUSH and POP of a register", "0: 50-5F", "size:8"},
    {"PUSH, PUSHF, ENTER and LEAVE under 66", "0: 68 6A 9C 9D C8 C9 0F: A0 A1 A8 A9", "size:8"},
    {"PUSH FF under 66 and W", "+66 0: FF/6", "size:2"},
    {"far branches", "0: CA CB FF/35", "size:10"},
    {"IRET", "0: CF", "size:0"},
    {"LEA", "0: 8D", "size:v"},
    {"INS and OUTS with 66", "+66 0: 6D 6F", "size:2"},
    {"UD1", "0F: B9m", "size:v"},
    {"0F 0D and 0F 18", "0F: 0Dm 18m", "size:64"},
    {"CVTPS2PI and CVTTPS2PI", "NP 0F: 2Cm 2Dm", "size:16"},
    {"CVTSI2SS and CVTSI2SD under 66", "F2 F3 +66 0F: 2Am", "size:v"},
    {"66 0F 6E", "66 0F: 6Em", "size:v"},
    {"a size that the processor decides", "NP 0F: AE/01456m C7/345m; 0: D9/46m DD/46m", "size:?"},
    {"CRC32", "F2 0F38: F1m", "size:4"},
    {NULL},
};
