"""The instructions that came after MIPS I, and those of coprocessors, by their words.

The R3000 has those of MIPS I (Kane and Heinrich, appendix A). The others are told by name and by the architecture that
had them first. A word that is neither is not told: it may be data that stands among the code.
"""

FLOATING_POINT = "floating point"
COPROCESSOR = "a coprocessor"


def table(**names):
    """Names with their architecture by their numbers: each keyword an architecture, with numbers in hexadecimal digits before the names."""
    return {int(number, 16): (name.replace("_or_", " or "), architecture.replace("_", " "))
            for architecture, text in names.items() for number, name in zip(*[iter(text.split())] * 2)}


MAJOR = table(  # by the operation, in bits 31 to 26
    MIPS_II="14 beql 15 bnel 16 blezl 17 bgtzl 30 ll 35 ldc1 36 ldc2 38 sc 3D sdc1 3E sdc2",
    MIPS_III="18 daddi 19 daddiu 1A ldl 1B ldr 27 lwu 2C sdl 2D sdr 2F cache 34 lld 37 ld 3C scd 3F sd",
    MIPS_IV="33 pref", MIPS16="1D jalx")
SPECIAL = table(  # with operation 0, by the function, in bits 5 to 0
    MIPS_II="0F sync 30 tge 31 tgeu 32 tlt 33 tltu 34 teq 36 tne",
    MIPS_III="14 dsllv 16 dsrlv 17 dsrav 1C dmult 1D dmultu 1E ddiv 1F ddivu 2C dadd 2D daddu 2E dsub 2F dsubu 38 dsll 3A dsrl 3B dsra 3C dsll32 3E dsrl32 3F dsra32",
    MIPS_IV="01 movf_or_movt 0A movz 0B movn")
BY_SIGN = table(  # with operation 1, by bits 20 to 16
    MIPS_II="02 bltzl 03 bgezl 08 tgei 09 tgeiu 0A tlti 0B tltiu 0C teqi 0E tnei 12 bltzall 13 bgezall", MIPS32_release_2="1F synci")
SPECIAL_2 = table(MIPS32="00 madd 01 maddu 02 mul 04 msub 05 msubu 20 clz 21 clo")  # with operation 28, by the function
SPECIAL_3 = table(MIPS32_release_2="00 ext 04 ins 3B rdhwr")  # with operation 31, by the function
SHUFFLES = table(MIPS32_release_2="02 wsbh 10 seb 18 seh")  # with operation 31 and function 32, by bits 10 to 6


def later(word):
    """The name of a later instruction and the architecture that had it first, or None."""
    operation, function, middle = word >> 26, word & 0x3F, word >> 6 & 0x1F
    match operation:
        case 0: return SPECIAL.get(function) or rotation(word)
        case 1: return BY_SIGN.get(word >> 16 & 0x1F)
        case 0x1C: return SPECIAL_2.get(function)
        case 0x1F: return SHUFFLES.get(middle) if function == 0x20 else SPECIAL_3.get(function)
    return MAJOR.get(operation)


def rotation(word):
    """The rotation that a word is, or None: a shift to the right with a bit set that is zero in MIPS I."""
    name = "rotr" if word & 0xFFE0003F == 0x00200002 else "rotrv" if word & 0xFC0007FF == 0x00000046 else None
    return name and (name, "MIPS32 release 2")


def coprocessor(word):
    """What a word of MIPS I belongs to that user processes have none of, or None."""
    operation = word >> 26
    return FLOATING_POINT if operation in (0x11, 0x31, 0x39) else COPROCESSOR if operation in (0x10, 0x12, 0x13, 0x32, 0x3A, 0x3B) else None
